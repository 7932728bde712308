/* What the commands share. */
#include "tool.h"

#include <stdarg.h>
#include <stdio.h>
#include <string.h>

#include "bad_log.h"
#include "bytes.h"
#include "call_kinds.h"
#include "holders.h"
#include "refusals.h"

int usage_error(const char *command, const char *format, ...) {
    va_list words;
    va_start(words, format);
    fprintf(stderr, "zrv: %s: ", command);
    vfprintf(stderr, format, words);
    fprintf(stderr, " (see zrv help %s)\n", command);
    va_end(words);
    return EXIT_USAGE;
}

int file_error(const struct message *message) {
    fprintf(stderr, "zrv: %s\n", message->text);
    return message->busy ? EXIT_BUSY : EXIT_FILES;
}

int not_now(const struct message *message) {
    fprintf(stderr, "zrv: %s\n", message->text);
    return EXIT_REFUSED;
}

struct opening opening_for(enum lock_kind lock, const char *folder, const struct command_option *wait) {
    return (struct opening){.folder = folder, .lock = lock, .wait = wait->given ? wait->number : 0};
}

/* The command's own options are read together with --wait. */
static int begin(enum lock_kind lock, int argc, char **argv, struct command_option *options, size_t count, struct driver *driver) {
    struct command_option all[count + 1];
    struct message message;
    const char *folder;
    *driver = (struct driver){.drives.directory = -1};
    memcpy(all, options, count * sizeof *options);
    all[count] = (struct command_option)WAIT_OPTION;
    if (!parse_options(argc, argv, all, count + 1, &folder, &message))
        return usage_error(argv[0], "%s", message.text);
    memcpy(options, all, count * sizeof *options);
    struct opening opening = opening_for(lock, folder, &all[count]);
    return open_driver(driver, &opening, &message) ? EXIT_DONE : file_error(&message);
}

int begin_change(int argc, char **argv, struct command_option *options, size_t count, struct driver *driver) {
    return begin(LOCK_TO_CHANGE, argc, argv, options, count, driver);
}

int begin_call(enum call_kind kind, int argc, char **argv, struct command_option *options, size_t count, struct driver *driver) {
    return begin(traits_of(kind)->stores ? LOCK_TO_CHANGE : LOCK_TO_READ, argc, argv, options, count, driver);
}

int tell_answer(const struct driver *driver, const struct call *call, uint32_t answer, const struct message *message) {
    const struct host_record *record = &driver->drives.record;
    if (answer == ZRV_FINISHED)
        return EXIT_DONE;
    if (answer == ANSWER_STRANGE_DRIVE || answer == ANSWER_FAILED)
        return file_error(message);
    if (answer == ANSWER_NOT_NOW)
        return not_now(message);
    if (answer == ANSWER_ZONE_FULL) {
        fprintf(stderr, "zrv: refused: %s\n", message->text);
        return EXIT_REFUSED;
    }
    if (answer == ZRV_UNFINISHED) {
        fprintf(stderr, "zrv: unfinished: stopped after %u store%s with more to make; a power cut comes next (zrv cut)\n", call->count, plural(call->count));
    } else {
        fprintf(stderr, "zrv: refused: ");
        if (has_place(answer))
            print_bad_log(stderr, &driver->drives.shelf, answer, driver->bad);
        else
            print_refusal(stderr, answer, call, record->geometry, record->state);
    }
    return EXIT_REFUSED;
}

int store_and_save(struct driver *driver, const struct call *call) {
    struct message message;
    uint32_t answer = driver_call(driver, *call, &message);
    bool stored = answer == ZRV_FINISHED || answer == ZRV_UNFINISHED;
    if (stored && !save_drives(&driver->drives, traits_of(call->kind)->makes_drives, &message))
        return file_error(&message);
    return tell_answer(driver, call, answer, &message);
}

void print_size(struct geometry g) {
    printf("%u drives, %u zone%s of %llu sectors of %u bytes\n", g.drives, g.zones, plural(g.zones), (unsigned long long)zone_addresses(g), g.sector_bytes);
}

void print_zone(struct geometry g, const uint8_t *state, const uint8_t *holders, uint32_t zone) {
    const uint8_t *record = zone_record(state, zone);
    printf("zone %u: %s", zone, condition_word(record[ZRV_RECORD_CONDITION]));
    if (record[ZRV_RECORD_CONDITION] != ZRV_EMPTY)
        printf(" at %u of %llu sectors", get32(record + ZRV_RECORD_POINTER), (unsigned long long)zone_addresses(g));
    printf(", generation %llu", (unsigned long long)get64(record + ZRV_RECORD_GENERATION));
    print_holder(g, holders, zone);
}

void print_zones(struct geometry g, const uint8_t *state, const uint8_t *holders) {
    for (uint32_t zone = 0; zone < g.zones; zone++) {
        print_zone(g, state, holders, zone);
        putchar('\n');
    }
}
