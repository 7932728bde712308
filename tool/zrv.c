/* zrv: a volume of zones over drives that are kept as files in a folder. This file has the table of the commands and their help. */
#include <stdio.h>
#include <string.h>

#include "commands.h"
#include "explore/explore.h"
#include "tool.h"

#define STORES_HELP "  --stores N        stop after N stores, with the call unfinished; only a power cut can follow\n"

struct command {
    const char *name;
    int (*run)(int argc, char **argv); /* its own name and the words after it; the exit code */
    const char *does;                  /* in half a line */
    const char *usage;                 /* the words after its name */
    const char *help;                  /* none: the command has help of its own */
};

static const struct command commands[] = {
    {"format", format_main, "make an empty volume", "FOLDER [options]",
     "Makes the folder if it is not there, and in it one file a drive and one for the host's state.\n"
     "  --drives D        drives, 3 to 8 (4)\n"
     "  --sector-bytes B  bytes of a sector, 64 and so on by doubling to 4096 (4096)\n"
     "  --unit U          sectors of a stripe unit, 1 to 16 (4)\n"
     "  --zones L         zones of the volume, 1 to 16, with 32 + 8 L at most B (4)\n"
     "  --zone-sectors C  sectors of a zone on one drive, a multiple of U, at most 65536 (256). With C at least 2 L (1 + U) + 3 U + 3 no log ever fills up,\n"
     "                    and a compact always helps a write; with fewer, down to L (1 + U) + 2 U + 1 and L + 6, calls may be refused (14), and format warns\n"
     "  --array N         the number that every drive's label carries (by the clock)\n"
     "  --without DRIVE   leave a drive out from the start\n"
     "  --force           format a folder that holds a volume or drives of one; all their data goes, also of drives that the new volume has not.\n"
     "                    Drives that were pulled stay\n" STORES_HELP},
    {"write", write_main, "write sectors at a zone's pointer", "FOLDER (--at ADDRESS | --zone Z) [options]",
     "Writes a file or standard input, whole sectors of it, in one call.\n"
     "  --at ADDRESS      the first sector's address; it must be its zone's pointer\n"
     "  --zone Z          at this zone's pointer, wherever that is\n"
     "  --host N          the host that writes, 0 or 1 (0). Host 0 may hold 14 zones open, host 1 may hold 4, and the drives allow 14 in all. A write that ends\n"
     "                    inside a stripe takes of its host's share of one drive's parity log; when that is used up (14), compact the drive\n"
     "  --from FILE       the data; without it standard input\n"
     "  --pad             fill the last sector up with zeros\n" STORES_HELP},
    {"flush", flush_main, "make what is written last through a power cut", "FOLDER [options]",
     "Flushes the write cache of every drive.\n" STORES_HELP},
    {"reset", reset_main, "empty a zone", "FOLDER --zone Z [options]",
     "Wipes a zone, so that it can be written from its beginning.\n"
     "  --zone Z          the zone\n" STORES_HELP},
    {"compact", compact_main, "empty a drive's parity log, so that writes go on", "FOLDER --drive N [options]",
     "Copies what is still needed of the drive's parity log to its spare zone, which then is the log. Both hosts' shares of it begin anew: half each of the room\n"
     "past what a mount may need. A write that is refused with 14 says which drive to compact.\n"
     "  --drive N         the drive\n" STORES_HELP},
    {"read", read_main, "read sectors", "FOLDER (--at ADDRESS --count N | --zone Z) [options]",
     "Reads to a file or to standard output. What a missing drive held is rebuilt from parity.\n"
     "  --at ADDRESS      the first sector's address\n"
     "  --count N         sectors to read\n"
     "  --zone Z          all of this zone, up to its pointer\n"
     "  --to FILE         where the data goes; without it standard output\n"},
    {"peek", peek_main, "tell where a sector lies", "FOLDER --at ADDRESS",
     "Tells the drive, physical zone, sector and place in the drive's file, and the first bytes there.\n"
     "  --at ADDRESS      the sector's address\n"},
    {"report", report_main, "list the zones as a zoned drive's tools do", "FOLDER [options]",
     "A line a zone: its first address, its sectors, its write pointer from its start, its condition: em empty, op open, ro read-only (sealed or worn), and which\n"
     "host holds it open. Then how many zones are open, and of each drive what is left of the hosts' shares of its parity log.\n"
     "  --json            the same as a JSON object, numbers decimal\n"},
    {"info", info_main, "tell a shelf's geometry, its drives and what comes next", "FOLDER [options]",
     "Reads no sectors, and works at any time. A drive is present, missing, given up, strange (another shelf's, or an older copy) or unreadable. How many zones are\n"
     "open, and what is left of the hosts' shares, is told where no mount is due.\n"
     "  --json            the same as a JSON object: numbers decimal, the array number as text\n"},
    {"cut", cut_main, "cut the power", "FOLDER [options]",
     "What is durable stays; of the rest the write caches keep what is said here. After a cut the volume takes only looks and mounts until a mount is\n"
     "finished.\n"
     "  --keep none       nothing (the default)\n"
     "  --keep all        everything\n"
     "  --keep random     by chance, drive by drive and zone by zone, from --seed\n"
     "  --keep D:Z=N,..   the first N sectors of physical zone Z of drive D, a list; nothing of the others\n"
     "  --seed N          the seed for random\n"
     "  --undo all        drives that cache a zone reset until they are flushed: every reset that is still in a cache is undone, and --keep speaks of\n"
     "                    what the zone held before it. Without --undo and --cached-resets every reset lasts\n"
     "  --undo D:Z,..     of physical zone Z of drive D, a list\n"
     "  --cached-resets   such drives, where --keep speaks of resets too: none undoes every reset that is still in a cache, all undoes none, random\n"
     "                    undoes each by chance, drive by drive and zone by zone. Not with --undo, nor with a list of --keep\n"},
    {"pull", pull_main, "take a drive out", "FOLDER --drive N [options]",
     "Renames the drive's file to drive-N.pulled, or to drive-N.pulled-2 and so on where there is one already. The drive is given up: it is not used again,\n"
     "even if the file comes back. A drive that cannot be read can be pulled too. Where the volume could not be mounted without the drive, it is refused.\n"
     "  --drive N         the drive\n"
     "  --force           pull it even if the volume cannot be mounted afterwards\n"},
    {"assemble", assemble_main, "make a missing state.zrv anew from the drives", "FOLDER [options]",
     "Geometry, array number and save stand in the head of every drive's file. Each drive must be in its place; one that is missing, foreign or doubled is\n"
     "named, and nothing is made. A mount comes next, which makes the volume's state anew. What only state.zrv knew is which drive was given up since the last\n"
     "mount: leave that drive out, even if its file is there. An older copy of a drive is not told by its head; zrv look compares the drives.\n"
     "  --without DRIVE   leave a drive out: it is given up, and whatever is in its place is not read\n"},
    {"look", look_main, "go through the checklist; nothing is stored", "FOLDER [options]",
     "Prints line by line what was looked at, what that catches, and ok or what was found; then the zones, and of each drive which physical zones are its\n"
     "logs, with their generations and unused sectors; where no mount is due also who holds which zones open, and what is left of the shares. It ends with 0\n"
     "where the volume shows its zones, whatever was found, and with 1 where it refuses to.\n"
     "Where a log is bad it says which drive, log and sector, what stands there and what should.\n"
     "  --json            what the volume answers and shows, and where the logs lie, as a JSON object\n"},
    {"mount", mount_main, "bring the volume up after a power cut or the loss of a drive", "FOLDER [options]",
     "Completes what was cut short and shows the zones.\n" STORES_HELP},
    {"grouped", grouped_main, "read a block of a segment with grouped stripes", "read --blocks FILE --metadata FILE --at ADDRESS [options]",
     "Reads a block of a partner's segment (ZapRAID's layout), kept as two files: the blocks drive by drive, and for each block 20 bytes of metadata in\n"
     "the same order (address 8, timestamp 8, stripe ID 4, little-endian). The blocks of a drive are counted by the metadata.\n"
     "  --blocks FILE     the blocks\n"
     "  --metadata FILE   their metadata\n"
     "  --at ADDRESS      the block's address; of several blocks with it the newest is read\n"
     "  --drives D        drives, 3 to 8 (4)\n"
     "  --block-bytes B   bytes of a block, 64 and so on by doubling to 4096 (4096)\n"
     "  --group G         stripes of a group, 1 to 256 (256)\n"
     "  --without DRIVE   read around a drive: its part of the files is not looked at\n"
     "  --to FILE         where the block goes; without it standard output\n"},
    {"explore", explore_main, "go through every moment at which power can go, in memory", "[options]", NULL},
};

#define WAIT_HELP "  --wait[=SECONDS]  while other commands use the folder, wait; with seconds, so long at most (any number of commands may read at once)\n"

static const char exit_codes[] = "Exit codes: 0 done; 1 the volume refused, the call was left unfinished, or it is not its turn; 2 bad usage;\n"
                                 "3 a file could not be used, or memory ran out; 4 the folder is in use by another command: try again.\n"
                                 "Errors go to standard error, results to standard output.\n";

static const struct command *find_command(const char *name) {
    for (size_t i = 0; i < COUNT(commands); i++)
        if (strcmp(commands[i].name, name) == 0)
            return &commands[i];
    return NULL;
}

static void print_help(void) {
    printf("zrv COMMAND FOLDER [options]: a volume of zones over three to eight zoned drives, kept as files in a folder\n\n");
    for (size_t i = 0; i < COUNT(commands); i++)
        printf("  %-8s %s\n", commands[i].name, commands[i].does);
    printf("  %-8s %s\n\n%s", "help", "this, or with a command's name its options", exit_codes);
}

static int print_command_help(const struct command *command) {
    char *own[] = {(char *)command->name, "--help"};
    if (command->help == NULL)
        return command->run(2, own);
    bool has_folder = strncmp(command->usage, "FOLDER", strlen("FOLDER")) == 0;
    printf("zrv %s %s: %s\n\n%s%s\n%s", command->name, command->usage, command->does, command->help, has_folder ? WAIT_HELP : "", exit_codes);
    return EXIT_DONE;
}

static int unknown_command(const char *name) {
    fprintf(stderr, "zrv: there is no command %s (see zrv help)\n", name);
    return EXIT_USAGE;
}

static bool is_help(const char *word) { return strcmp(word, "help") == 0 || strcmp(word, "--help") == 0 || strcmp(word, "-h") == 0; }

static int help_main(int argc, char **argv) {
    const struct command *command = argc > 1 ? find_command(argv[1]) : NULL;
    if (argc > 1 && command == NULL && !is_help(argv[1]))
        return unknown_command(argv[1]);
    if (command != NULL)
        return print_command_help(command);
    print_help();
    return EXIT_DONE;
}

static bool asks_for_help(int argc, char **argv) {
    for (int i = 1; i < argc; i++)
        if (strcmp(argv[i], "--help") == 0 || strcmp(argv[i], "-h") == 0)
            return true;
    return false;
}

static int run_command(int argc, char **argv) {
    if (is_help(argv[0]))
        return help_main(argc, argv);
    if (strcmp(argv[0], "--version") == 0) {
        printf("zrv %u.%u\n", zrv_version() / 65536, zrv_version() % 65536);
        return EXIT_DONE;
    }
    const struct command *command = find_command(argv[0]);
    if (command == NULL)
        return unknown_command(argv[0]);
    return asks_for_help(argc, argv) ? print_command_help(command) : command->run(argc, argv);
}

int main(int argc, char **argv) {
    if (argc < 2) {
        fprintf(stderr, "zrv: a command is wanted (see zrv help)\n");
        return EXIT_USAGE;
    }
    int code = run_command(argc - 1, argv + 1);
    if (fflush(stdout) == 0)
        return code;
    perror("zrv: standard output");
    return EXIT_FILES;
}
