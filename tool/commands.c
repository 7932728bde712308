/* The commands that carry no data: format, flush, reset, compact, mount, look and cut. */
#include "commands.h"

#include <stdio.h>
#include <stdlib.h>
#include <string.h>
#include <time.h>

#include "bounds.h"
#include "checklist.h"
#include "folder.h"
#include "holders.h"
#include "look_json.h"
#include "tool.h"
#include "words.h"

/* The geometry of a format that is given none, as the help of `zrv format` tells it. */
static const struct geometry usual = {.drives = 4, .sector_bytes = 4096, .unit = 4, .zones = 4, .zone_sectors = 256};

enum { DRIVES, SECTOR_BYTES, UNIT, ZONES, ZONE_SECTORS, ARRAY, WITHOUT, FORMAT_STORES, FORCE, FORMAT_WAIT };

/* An array number for a format that is given none: the time tells shelves apart. */
static uint64_t array_by_time(void) {
    struct timespec now;
    timespec_get(&now, TIME_UTC);
    return (uint64_t)now.tv_sec * 1000000000 + (uint64_t)now.tv_nsec;
}

/* Whether a folder holds a volume whose last call was left unfinished; the message says so. Half a format is no volume. */
static bool was_left_unfinished(const struct opening *opening, struct message *message) {
    struct drives drives;
    bool due = open_folder(&drives, opening, message) && was_formatted(&drives.record) && power_loss_is_due(&drives.record, message);
    close_drives(&drives);
    return due;
}

/* A volume that can be used until its logs are full for good is one to know of before there is data in it. So is one whose shares are too small for writes. */
static void warn_of_full_logs(struct geometry g) {
    uint32_t least = least_sharing_zone_sectors(g);
    if (g.zone_sectors >= least)
        return;
    fprintf(stderr, "zrv: warning: with zones of %u sectors ", g.zone_sectors);
    if (g.zone_sectors < least_roomy_zone_sectors(g))
        fprintf(stderr, "the logs may fill up for good: a write, a reset, a compact or a mount is then refused (14); ");
    else
        fprintf(stderr, "a write that ends inside a stripe may be refused (14) even when its drive was just compacted; ");
    if (!leaves_shares(g))
        fprintf(stderr, "no write can end inside a stripe: the hosts' shares of the logs are too small; ");
    fprintf(stderr, "with --zone-sectors %u or more none of it can be\n", least);
}

/* A format by force destroys all of the shelf before it. */
static int remove_old_drives(const struct drives *drives) {
    struct message message;
    uint32_t removed;
    bool good = remove_other_drives(drives, &removed, &message);
    for (uint32_t d = 0; d < ZRV_MOST_DRIVES; d++)
        if ((removed >> d & 1) != 0)
            printf("removed %s/drive-%u.zrv, of the shelf before\n", drives->folder, d);
    return good ? EXIT_DONE : file_error(&message);
}

static int format_drives(struct driver *driver, const struct command_option *option) {
    struct call call = {.kind = CALL_FORMAT, .count = (uint32_t)option[FORMAT_STORES].number};
    struct drives *drives = &driver->drives;
    drives->record.array = call.array = option[ARRAY].given ? option[ARRAY].number : array_by_time();
    if (option[WITHOUT].given)
        drives->present &= ~(1u << option[WITHOUT].number);
    int code = store_and_save(driver, &call);
    struct geometry g = drives->record.geometry;
    if (code != EXIT_DONE)
        return code;
    printf("formatted as array %llu: ", (unsigned long long)call.array);
    print_size(g);
    warn_of_full_logs(g);
    return remove_old_drives(drives);
}

int format_main(int argc, char **argv) {
    struct command_option option[] = {
        [DRIVES] = {.name = "drives", .kind = OPTION_NUMBER, .most = UINT32_MAX, .number = usual.drives},
        [SECTOR_BYTES] = {.name = "sector-bytes", .kind = OPTION_NUMBER, .most = UINT32_MAX, .number = usual.sector_bytes},
        [UNIT] = {.name = "unit", .kind = OPTION_NUMBER, .most = UINT32_MAX, .number = usual.unit},
        [ZONES] = {.name = "zones", .kind = OPTION_NUMBER, .most = UINT32_MAX, .number = usual.zones},
        [ZONE_SECTORS] = {.name = "zone-sectors", .kind = OPTION_NUMBER, .most = UINT32_MAX, .number = usual.zone_sectors},
        [ARRAY] = {.name = "array", .kind = OPTION_NUMBER, .most = UINT64_MAX},
        [WITHOUT] = {.name = "without", .kind = OPTION_NUMBER, .most = ZRV_MOST_DRIVES - 1},
        [FORMAT_STORES] = STORES_OPTION,
        [FORCE] = {.name = "force", .kind = OPTION_FLAG},
        [FORMAT_WAIT] = WAIT_OPTION,
    };
    struct message message;
    struct driver driver;
    const char *folder;
    if (!parse_options(argc, argv, option, COUNT(option), &folder, &message))
        return usage_error(argv[0], "%s", message.text);
    struct geometry geometry = {(uint32_t)option[DRIVES].number, (uint32_t)option[SECTOR_BYTES].number, (uint32_t)option[UNIT].number,
                                (uint32_t)option[ZONES].number, (uint32_t)option[ZONE_SECTORS].number};
    if (!geometry_fits(geometry, &message))
        return usage_error(argv[0], "%s", message.text);
    if (option[WITHOUT].given && option[WITHOUT].number >= geometry.drives)
        return usage_error(argv[0], "--without: there is no drive %u", (uint32_t)option[WITHOUT].number);
    struct opening opening = opening_for(LOCK_TO_CHANGE, folder, &option[FORMAT_WAIT]);
    if (was_left_unfinished(&opening, &message))
        return not_now(&message);
    int code = new_drives(&driver.drives, &opening, geometry, option[FORCE].given, &message) ? format_drives(&driver, option) : file_error(&message);
    close_drives(&driver.drives);
    return code;
}

static uint32_t drives_named(const struct driver *driver) {
    uint32_t named = 0;
    for (uint32_t d = 0; d < ZRV_MOST_DRIVES; d++)
        named += driver->drives.present >> d & 1;
    return named;
}

int flush_main(int argc, char **argv) {
    struct command_option option[] = {STORES_OPTION};
    struct driver driver;
    int code = begin_call(CALL_FLUSH, argc, argv, option, COUNT(option), &driver);
    if (code == EXIT_DONE) {
        struct call call = {.kind = CALL_FLUSH, .count = (uint32_t)option[0].number};
        code = store_and_save(&driver, &call);
        if (code == EXIT_DONE)
            printf("flushed %u drives\n", drives_named(&driver));
    }
    close_drives(&driver.drives);
    return code;
}

int reset_main(int argc, char **argv) {
    struct command_option option[] = {STORES_OPTION, {.name = "zone", .kind = OPTION_NUMBER, .needed = true, .most = UINT32_MAX}};
    struct driver driver;
    int code = begin_call(CALL_RESET, argc, argv, option, COUNT(option), &driver);
    if (code == EXIT_DONE) {
        struct call call = {.kind = CALL_RESET, .zone = (uint32_t)option[1].number, .count = (uint32_t)option[0].number};
        code = store_and_save(&driver, &call);
        if (code == EXIT_DONE) {
            print_zone(driver.drives.record.geometry, driver.shown, driver.shown, call.zone);
            putchar('\n');
        }
    }
    close_drives(&driver.drives);
    return code;
}

int compact_main(int argc, char **argv) {
    struct command_option option[] = {STORES_OPTION, {.name = "drive", .kind = OPTION_NUMBER, .needed = true, .most = UINT32_MAX}};
    struct driver driver;
    int code = begin_call(CALL_COMPACT, argc, argv, option, COUNT(option), &driver);
    if (code == EXIT_DONE) {
        struct call call = {.kind = CALL_COMPACT, .drive = (uint32_t)option[1].number, .count = (uint32_t)option[0].number};
        code = store_and_save(&driver, &call);
        if (code == EXIT_DONE) {
            uint32_t share = share_in_state(driver.shown, call.drive, 0);
            printf("compacted drive %u: each host has a share of %u sector%s of its parity log\n", call.drive, share, plural(share));
        }
    }
    close_drives(&driver.drives);
    return code;
}

int mount_main(int argc, char **argv) {
    struct command_option option[] = {STORES_OPTION};
    struct driver driver;
    int code = begin_call(CALL_MOUNT, argc, argv, option, COUNT(option), &driver);
    if (code == EXIT_DONE) {
        struct call call = {.kind = CALL_MOUNT, .count = (uint32_t)option[0].number};
        code = store_and_save(&driver, &call);
        if (code == EXIT_DONE) {
            printf("mounted %u of %u drives\n", drives_named(&driver), driver.drives.record.geometry.drives);
            print_zones(driver.drives.record.geometry, driver.shown, driver.shown);
        }
    }
    close_drives(&driver.drives);
    return code;
}

/* What a look found, for a person. */
static bool print_look(const struct driver *driver, uint32_t answer, struct message *message) {
    if (!print_checklist(driver, answer, message))
        return false;
    const struct host_record *record = &driver->drives.record;
    if (answer == ZRV_FINISHED) {
        print_zones(record->geometry, driver->shown, state_in_force(record));
        print_open_zones(record->geometry, state_in_force(record));
    }
    print_logs(driver);
    if (record->phase == PHASE_MOUNT_DUE)
        printf("%s: a mount comes next\n", why_mount_is_due(record));
    return true;
}

int look_main(int argc, char **argv) {
    struct command_option option[] = {{.name = "json", .kind = OPTION_FLAG}};
    struct driver driver;
    struct message message;
    int code = begin_call(CALL_LOOK, argc, argv, option, COUNT(option), &driver);
    if (code == EXIT_DONE) {
        struct call call = {.kind = CALL_LOOK};
        uint32_t answer = driver_call(&driver, call, &message);
        bool good = true;
        if (answer != ANSWER_NOT_NOW && option[0].given)
            print_look_json(&driver, answer);
        else if (answer != ANSWER_NOT_NOW)
            good = print_look(&driver, answer, &message);
        fflush(stdout);
        code = good ? tell_answer(&driver, &call, answer, &message) : file_error(&message);
    }
    close_drives(&driver.drives);
    return code;
}

/* Reads "DRIVE:ZONE=SECTORS"; where it ends, or NULL where the text has another form. */
static const char *read_kept_zone(const char *text, struct kept_zone *kept) {
    uint64_t drive, zone, sectors;
    text = read_number(text, 0, UINT32_MAX, &drive);
    if (text == NULL || *text != ':')
        return NULL;
    text = read_number(text + 1, 0, UINT32_MAX, &zone);
    if (text == NULL || *text != '=')
        return NULL;
    text = read_number(text + 1, 0, UINT32_MAX, &sectors);
    if (text != NULL)
        *kept = (struct kept_zone){(uint32_t)drive, (uint32_t)zone, (uint32_t)sectors};
    return text;
}

/* The same for "DRIVE:ZONE". */
static const char *read_zone(const char *text, struct kept_zone *named) {
    uint64_t drive, zone;
    text = read_number(text, 0, UINT32_MAX, &drive);
    if (text == NULL || *text != ':')
        return NULL;
    text = read_number(text + 1, 0, UINT32_MAX, &zone);
    if (text != NULL)
        *named = (struct kept_zone){.drive = (uint32_t)drive, .zone = (uint32_t)zone};
    return text;
}

/* Reads a list of either, which is the caller's to free; its length, or 0 where the text has another form, and without a list where there
 * is no memory for it. */
static size_t parse_zones(const char *text, const char *read_one(const char *, struct kept_zone *), struct kept_zone **list) {
    *list = calloc(strlen(text) + 1, sizeof **list);
    for (size_t count = 0; *list != NULL; count++) {
        const char *end = read_one(text, &(*list)[count]);
        if (end == NULL || (*end != ',' && *end != '\0'))
            return 0;
        if (*end == '\0')
            return count + 1;
        text = end + 1;
    }
    return 0;
}

static bool parse_power_loss(const struct command_option *keep, const struct command_option *seed, struct power_loss *loss, struct kept_zone **list,
                             struct message *message) {
    static const char *const words[] = {[KEEP_NONE] = "none", [KEEP_ALL] = "all", [KEEP_RANDOM] = "random"};
    *loss = (struct power_loss){.keeps = KEEP_NONE, .seed = seed->number};
    bool is_word = !keep->given;
    for (size_t i = 0; keep->given && i < COUNT(words); i++)
        if (strcmp(keep->text, words[i]) == 0) {
            loss->keeps = (enum cache_keeps)i;
            is_word = true;
        }
    if (!is_word && (loss->given_count = parse_zones(keep->text, read_kept_zone, list)) == 0)
        return *list == NULL ? no_memory(message, strlen(keep->text))
                             : fail(message, "--keep: \"%s\" is not none, all, random or DRIVE:ZONE=SECTORS,..", keep->text);
    loss->given = *list;
    if (seed->given != (loss->keeps == KEEP_RANDOM))
        return fail(message, "--seed goes with --keep random, and only with it");
    return true;
}

/* Which cached resets are undone: those that --undo tells; with --cached-resets a reset is kept as --keep keeps a sector. */
static bool parse_undone(const struct command_option *undo, bool cached_resets, struct power_loss *loss, struct kept_zone **list, struct message *message) {
    static const enum cache_undoes not_kept[] = {[KEEP_NONE] = UNDO_ALL, [KEEP_ALL] = UNDO_GIVEN, [KEEP_RANDOM] = UNDO_RANDOM};
    if (cached_resets && (undo->given || loss->given_count > 0))
        return fail(message, "--cached-resets goes with --keep none, all or random, and not with --undo");
    if (cached_resets)
        loss->undoes = not_kept[loss->keeps];
    if (!undo->given)
        return true;
    loss->undoes = strcmp(undo->text, "all") == 0 ? UNDO_ALL : UNDO_GIVEN;
    if (loss->undoes == UNDO_GIVEN && (loss->undone_count = parse_zones(undo->text, read_zone, list)) == 0)
        return *list == NULL ? no_memory(message, strlen(undo->text)) : fail(message, "--undo: \"%s\" is not all or DRIVE:ZONE,..", undo->text);
    loss->undone = *list;
    return true;
}

static int lose_power_and_save(struct driver *driver, const struct power_loss *loss) {
    struct message message;
    size_t undone;
    if (strange_drive(driver, &message) != ZRV_FINISHED)
        return file_error(&message);
    if (!undo_resets(driver, loss, &undone, &message))
        return usage_error("cut", "--undo: %s", message.text);
    const struct shelf *shelf = &driver->drives.shelf;
    uint64_t durable = table_sum(shelf->durable), cached = table_sum(shelf->written) - durable;
    if (!lose_power(driver, loss, &message))
        return usage_error("cut", "--keep: %s", message.text);
    if (!save_drives(&driver->drives, false, &message))
        return file_error(&message);
    printf("power cut: ");
    if (undone > 0)
        printf("%zu zone reset%s undone, ", undone, plural(undone));
    printf("the caches kept %llu of %llu sector%s; mount next\n", (unsigned long long)(table_sum(shelf->written) - durable),
           (unsigned long long)cached, plural(cached));
    return EXIT_DONE;
}

enum { KEEP, SEED, UNDO, CACHED_RESETS };

int cut_main(int argc, char **argv) {
    struct command_option option[] = {
        [KEEP] = {.name = "keep", .kind = OPTION_TEXT},
        [SEED] = {.name = "seed", .kind = OPTION_NUMBER, .most = UINT64_MAX},
        [UNDO] = {.name = "undo", .kind = OPTION_TEXT},
        [CACHED_RESETS] = {.name = "cached-resets", .kind = OPTION_FLAG},
    };
    struct kept_zone *list = NULL, *undone = NULL;
    struct power_loss loss;
    struct driver driver;
    struct message message;
    int code = begin_change(argc, argv, option, COUNT(option), &driver);
    if (code == EXIT_DONE && (!parse_power_loss(&option[KEEP], &option[SEED], &loss, &list, &message) ||
                              !parse_undone(&option[UNDO], option[CACHED_RESETS].given, &loss, &undone, &message)))
        code = message.lacks_memory ? file_error(&message) : usage_error(argv[0], "%s", message.text);
    if (code == EXIT_DONE)
        code = lose_power_and_save(&driver, &loss);
    free(list);
    free(undone);
    close_drives(&driver.drives);
    return code;
}
