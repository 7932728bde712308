/* `zrv info`: what a shelf is, without reading what it holds: its geometry, its drives by their files' heads, and what may come next. */
#include <stdio.h>

#include "bounds.h"
#include "commands.h"
#include "folder.h"
#include "holders.h"
#include "tool.h"

enum { JSON, WAIT, INFO_OPTIONS };

static const char present[] = "present";

/* What is in a drive's place. */
static const char *drive_word(const struct host_record *record, const struct found_drive *found, uint32_t drive) {
    if ((record->given_up >> drive & 1) != 0)
        return "given up";
    if (!found->there)
        return "missing";
    if (!found->is_drive)
        return "unreadable";
    const struct drive_head *head = &found->head;
    bool own = head->drive == drive && head->tag.array == record->array && head->tag.save == record->save[drive] &&
               same_geometry(head->geometry, record->geometry);
    return own ? present : "strange";
}

/* What may come next, for a person and for a script. */
static const struct {
    const char *words, *word;
} next[] = {
    [PHASE_READY] = {"any command", "any"},
    [PHASE_MOUNT_DUE] = {"a mount (zrv mount)", "mount"},
    [PHASE_POWER_LOSS_DUE] = {"a power cut (zrv cut)", "cut"},
};

/* What the size of the zones means for the logs. */
static const char *logs_in_words(struct geometry g) {
    if (g.zone_sectors < least_roomy_zone_sectors(g))
        return "may fill up for good (14)";
    return g.zone_sectors < least_sharing_zone_sectors(g) ? "may have too little for a write even when they are compacted (14)"
                                                          : "never fill up if drives are compacted when told";
}

static void print_info(const struct drives *drives, const struct found_drive found[ZRV_MOST_DRIVES]) {
    const struct host_record *record = &drives->record;
    struct geometry g = record->geometry;
    printf("array %llu: ", (unsigned long long)record->array);
    print_size(g);
    printf("addresses: 0 to %llu; zone Z begins at Z * %llu\n", (unsigned long long)zone_start(g, g.zones) - 1, (unsigned long long)zone_addresses(g));
    printf("stripes: %u sectors of data, %u on a drive; each drive has %u sectors of a zone\n", stripe_sectors(g), g.unit, g.zone_sectors);
    printf("logs: %s; zones of %u sectors on each drive are enough\n", logs_in_words(g), least_sharing_zone_sectors(g));
    print_open_zones(g, state_in_force(record));
    for (uint32_t d = 0; d < g.drives; d++) {
        const char *word = drive_word(record, &found[d], d);
        printf("drive %u: %s", d, word);
        print_shares("; ", word == present ? state_in_force(record) : NULL, d);
        putchar('\n');
    }
    printf("next: %s\n", next[record->phase].words);
}

/* The array number is a text: it may be larger than what a JSON reader takes for a number. */
static void print_info_json(const struct drives *drives, const struct found_drive found[ZRV_MOST_DRIVES]) {
    const struct host_record *record = &drives->record;
    struct geometry g = record->geometry;
    const uint8_t *state = state_in_force(record);
    uint32_t roomy = least_roomy_zone_sectors(g), sharing = least_sharing_zone_sectors(g);
    printf("{\n  \"array\": \"%llu\",\n  \"drives\": %u,\n  \"sector_bytes\": %u,\n  \"unit\": %u,\n  \"zones\": %u,\n  \"zone_sectors\": %u,\n",
           (unsigned long long)record->array, g.drives, g.sector_bytes, g.unit, g.zones, g.zone_sectors);
    printf("  \"stripe_sectors\": %u,\n  \"zone_addresses\": %llu,\n  \"addresses\": %llu,\n", stripe_sectors(g), (unsigned long long)zone_addresses(g),
           (unsigned long long)zone_start(g, g.zones));
    printf("  \"roomy_zone_sectors\": %u,\n  \"logs_never_fill\": %s,\n", roomy, g.zone_sectors < roomy ? "false" : "true");
    printf("  \"sharing_zone_sectors\": %u,\n  \"compact_always_helps\": %s,\n  \"open_zones\": ", sharing, g.zone_sectors < sharing ? "false" : "true");
    print_open_zones_json(g, state);
    printf(",\n  \"shares\": ");
    print_all_shares_json(g, state);
    printf(",\n  \"drive_files\": [");
    for (uint32_t d = 0; d < g.drives; d++)
        printf("%s\"%s\"", d == 0 ? "" : ", ", drive_word(record, &found[d], d));
    printf("],\n  \"next\": \"%s\"\n}\n", next[record->phase].word);
}

int info_main(int argc, char **argv) {
    struct command_option option[INFO_OPTIONS] = {[JSON] = {.name = "json", .kind = OPTION_FLAG}, [WAIT] = WAIT_OPTION};
    struct found_drive found[ZRV_MOST_DRIVES];
    struct drives drives;
    struct message message;
    const char *folder;
    if (!parse_options(argc, argv, option, INFO_OPTIONS, &folder, &message))
        return usage_error(argv[0], "%s", message.text);
    struct opening opening = opening_for(LOCK_TO_READ, folder, &option[WAIT]);
    int code = EXIT_DONE;
    if (open_folder(&drives, &opening, &message) && find_drives(&drives, found, &message)) {
        (option[JSON].given ? print_info_json : print_info)(&drives, found);
    } else {
        code = file_error(&message);
    }
    close_drives(&drives);
    return code;
}
