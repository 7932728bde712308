/* The checklist's lines. A line's findings stand below it, indented; a line without any is "ok". */
#include "checklist.h"

#include <stdarg.h>
#include <stdio.h>

#include "bad_log.h"
#include "holders.h"
#include "left_out.h"
#include "refusals.h"

#define NO_LOOK "not judged: the look is refused"

struct line {
    const struct driver *driver;
    const char *name, *catches;
    uint32_t findings;
};

__attribute__((format(printf, 2, 3))) static void found(struct line *line, const char *format, ...) {
    va_list words;
    va_start(words, format);
    if (line->findings++ == 0)
        printf("%s (%s): found\n", line->name, line->catches);
    printf("    ");
    vprintf(format, words);
    putchar('\n');
    va_end(words);
}

/* Ends a line: what is said if nothing was found. */
__attribute__((format(printf, 2, 3))) static void end_line(const struct line *line, const char *format, ...) {
    va_list words;
    va_start(words, format);
    if (line->findings == 0) {
        printf("%s (%s): ", line->name, line->catches);
        vprintf(format, words);
        putchar('\n');
    }
    va_end(words);
}

static bool is_present(const struct driver *driver, uint32_t drive) { return (driver->drives.present >> drive & 1) != 0; }

static const uint8_t *shown_zone(const struct driver *driver, uint32_t zone) { return zone_record(driver->shown, zone); }

static uint32_t written_in(const struct driver *driver, uint32_t drive, uint32_t physical_zone) {
    return pointer_in(driver->drives.shelf.written, cell(driver->drives.record.geometry, drive, physical_zone));
}

static struct journal_reader reader_of(const struct driver *driver, uint32_t drive, uint32_t log) {
    struct log_zones zones = log_zones_of(&driver->drives.shelf, drive);
    return read_log(&zones, log);
}

/* The least unused part of a log over the present drives. */
static uint32_t least_unused(const struct driver *driver, uint32_t log) {
    struct geometry g = driver->drives.record.geometry;
    uint32_t least = g.zone_sectors;
    for (uint32_t d = 0; d < g.drives; d++) {
        uint32_t unused = g.zone_sectors - (is_present(driver, d) ? reader_of(driver, d, log).zone.written : 0);
        least = unused < least ? unused : least;
    }
    return least;
}

/* Present drives whose last label gives a drive up. */
static uint32_t labels_against(const struct driver *driver, uint32_t lost) {
    uint32_t count = 0;
    for (uint32_t d = 0; d < driver->drives.record.geometry.drives; d++) {
        struct journal_reader reader = reader_of(driver, d, GENERAL_LOG);
        const uint8_t *header;
        uint32_t named = ZRV_NO_DRIVE;
        while (is_present(driver, d) && next_entry(&reader, &header) == JOURNAL_ENTRY)
            if (header[ENTRY_TYPE] == ENTRY_LABEL)
                named = header[LABEL_LOST];
        count += named == lost;
    }
    return count;
}

static void check_label(struct line *line, uint32_t drive) {
    const struct drives *drives = &line->driver->drives;
    struct journal_reader reader = reader_of(line->driver, drive, GENERAL_LOG);
    const uint8_t *header;
    if ((drives->strange >> drive & 1) != 0)
        found(line, "drive %u: drive-%u.zrv is not as this shelf left it: another shelf's, or an older copy", drive, drive);
    struct log_zones zones = log_zones_of(&drives->shelf, drive);
    if (find_spare(&zones) == NO_ZONE)
        found(line, "drive %u: it lacks a kind of log", drive);
    else if (next_entry(&reader, &header) != JOURNAL_ENTRY || header[ENTRY_TYPE] != ENTRY_LABEL)
        found(line, "drive %u: its log does not begin with its label", drive);
    else if (get64(header + LABEL_ARRAY) != drives->record.array)
        found(line, "drive %u: its label is of array %llu, this shelf is array %llu", drive, (unsigned long long)get64(header + LABEL_ARRAY),
              (unsigned long long)drives->record.array);
}

static void check_labels(const struct driver *driver) {
    struct line line = {driver, "labels", "a drive from another shelf, or one given up", 0};
    const struct drives *drives = &driver->drives;
    for (uint32_t d = 0; d < drives->record.geometry.drives; d++) {
        uint32_t against = labels_against(driver, d);
        if ((drives->record.given_up >> d & 1) != 0)
            found(&line, "drive %u: given up by this host%s; labels that say so: %u", d,
                  (drives->returned >> d & 1) != 0 ? ", its file is back and left unread" : "", against);
        else if (!is_present(driver, d))
            found(&line, "drive %u: not there: drive-%u.zrv is missing; labels that give it up: %u", d, d, against);
        else
            check_label(&line, d);
        if (is_present(driver, d) && against != 0)
            found(&line, "drive %u: given up by labels: %u", d, against);
    }
    end_line(&line, "ok, %u drives of array %llu", drives->record.geometry.drives, (unsigned long long)drives->record.array);
}

/* What becomes of a drive's sectors past a zone's pointer. */
static const char *fate_of_excess(const uint8_t *zone) {
    if (zone[ZRV_RECORD_CONDITION] == ZRV_EMPTY)
        return "the next mount resets the zone";
    return zone[ZRV_RECORD_CONDITION] == ZRV_SEALED ? "the zone is sealed for that" : "the zone stays as it is";
}

static void check_pointers(const struct driver *driver, bool shown) {
    struct line line = {driver, "write pointers", "a stripe that reached only some drives", 0};
    struct geometry g = driver->drives.record.geometry;
    for (uint32_t z = 0; shown && z < g.zones; z++) {
        const uint8_t *zone = shown_zone(driver, z);
        uint32_t pointer = get32(zone + ZRV_RECORD_POINTER);
        for (uint32_t d = 0; d < g.drives; d++) {
            uint32_t has = written_in(driver, d, ZRV_LOG_ZONES + z), needs = sectors_needed(g, z, pointer, d);
            if (!is_present(driver, d) || d == driver->shown[ZRV_STATE_LOST] || has == needs)
                continue;
            found(&line, "zone %u: drive %u has %u sector%s, the zone's pointer %u needs %u; %s", z, d, has, plural(has), pointer, needs,
                  has > needs ? fate_of_excess(zone) : "a mount fills in what is missing");
        }
    }
    end_line(&line, "%s", shown ? "ok, every drive has what the zones' pointers need" : NO_LOOK);
}

/* Walks a log of a present drive to its end and tells what is wrong there; the whole entries. */
static uint32_t check_log(struct line *line, uint32_t drive, uint32_t log) {
    struct geometry g = line->driver->drives.record.geometry;
    struct journal_reader reader = reader_of(line->driver, drive, log);
    const uint8_t *header;
    uint32_t entries = 0;
    enum journal_step step;
    while ((step = next_entry(&reader, &header)) == JOURNAL_ENTRY)
        entries++;
    if (step == JOURNAL_TORN)
        found(line, "drive %u: the entry at sector %u, ending at address %llu, is cut in half: %u of its %u rows are there; the next mount completes it",
              drive, reader.at, (unsigned long long)get64(header + ENTRY_END), reader.zone.written - reader.at - 1, entry_rows(g, header));
    if (step == JOURNAL_NO_ENTRY) {
        struct message what;
        describe_no_entry(&reader, header, &what);
        found(line, "drive %u: sector %u is no entry: %s", drive, reader.at, what.text);
    }
    return entries;
}

static void check_parity_log(const struct driver *driver) {
    struct line line = {driver, "parity log", "an entry cut in half", 0};
    uint32_t entries = 0;
    for (uint32_t d = 0; d < driver->drives.record.geometry.drives; d++)
        if (is_present(driver, d))
            entries += check_log(&line, d, PARITY_LOG);
    uint32_t unused = least_unused(driver, PARITY_LOG);
    end_line(&line, "ok, read to the last sector, whole entries: %u; at least %u sector%s unused on each drive", entries, unused, plural(unused));
}

/* Whether a drive's log has a reset of the generation that the zone still has. */
static bool logs_reset(const struct driver *driver, uint32_t drive, uint32_t zone) {
    struct geometry g = driver->drives.record.geometry;
    struct journal_reader reader = reader_of(driver, drive, GENERAL_LOG);
    const uint8_t *header;
    while (is_present(driver, drive) && next_entry(&reader, &header) == JOURNAL_ENTRY)
        if (header[ENTRY_TYPE] == ENTRY_RESET && get64(header + ENTRY_START) == zone_start(g, zone) &&
            get64(header + ENTRY_GENERATION) == get64(shown_zone(driver, zone) + ZRV_RECORD_GENERATION))
            return true;
    return false;
}

static uint32_t drives_with_reset(const struct driver *driver, uint32_t zone) {
    uint32_t count = 0;
    for (uint32_t d = 0; d < driver->drives.record.geometry.drives; d++)
        count += logs_reset(driver, d, zone);
    return count;
}

static void check_reset_log(const struct driver *driver, bool shown) {
    struct line line = {driver, "reset log", "a zone half wiped", 0};
    struct geometry g = driver->drives.record.geometry;
    for (uint32_t d = 0; d < g.drives; d++)
        if (is_present(driver, d))
            check_log(&line, d, GENERAL_LOG);
    for (uint32_t z = 0; shown && z < g.zones; z++) {
        uint32_t count = drives_with_reset(driver, z);
        if (count != 0)
            found(&line, "zone %u: a reset is under way, logged on %u drive%s; the next mount finishes it", z, count, plural(count));
    }
    uint32_t unused = least_unused(driver, GENERAL_LOG);
    if (!shown)
        end_line(&line, "read to the last sector; %s", NO_LOOK);
    else
        end_line(&line, "ok, no reset under way; at least %u sector%s unused on each drive", unused, plural(unused));
}

#define BOTH_THE_SAME "on healthy drives both are the same"

/* Why another count of sectors is shown with a drive left out. */
static const char *reason_for_length(const struct driver *driver, uint32_t zone) {
    if (driver->drives.record.phase == PHASE_READY)
        return BOTH_THE_SAME;
    return drives_with_reset(driver, zone) != 0 ? "its reset is under way" : "on healthy drives that is data that no finished flush or mount covered";
}

static unsigned long long generation_in(const uint8_t *record) { return get64(record + ZRV_RECORD_GENERATION); }

static void tell_left_out(void *listener, const struct difference *d) {
    struct line *line = listener;
    if (d->kind == DIFFERENT_RECORD && line->driver->drives.record.phase != PHASE_READY)
        return; /* as it may be before a mount */
    if (d->kind == DIFFERENT_RECORD)
        found(line, "zone %u: %s, generation %llu with drive %u left out; %s, generation %llu with all; %s", d->zone,
              condition_word(d->record_without[ZRV_RECORD_CONDITION]), generation_in(d->record_without), d->drive,
              condition_word(d->record_with_all[ZRV_RECORD_CONDITION]), generation_in(d->record_with_all), BOTH_THE_SAME);
    else if (d->kind == DIFFERENT_BYTES)
        found(line, "zone %u, address %llu: other bytes with drive %u left out; parity and data of its row do not match", d->zone,
              (unsigned long long)d->address, d->drive);
    else if (d->kind == DIFFERENT_LENGTH)
        found(line, "zone %u: %u sector%s with drive %u left out, %u with all; %s", d->zone, d->without, plural(d->without), d->drive, d->with_all,
              reason_for_length(line->driver, d->zone));
    else if (d->zone == ZRV_STATE_RECORDS)
        found(line, "drive %u cannot be left out: the look is refused: %u %s", d->drive, d->answer, refusal_word(d->answer));
    else
        found(line, "zone %u was not compared with drive %u left out: a read is refused: %u %s", d->zone, d->drive, d->answer, refusal_word(d->answer));
}

static bool check_left_out(const struct driver *driver, bool shown, struct message *message) {
    struct line line = {driver, "each drive left out", "parity older than the data beside it", 0};
    uint32_t every = (1u << driver->drives.record.geometry.drives) - 1;
    bool whole = driver->drives.present == every && driver->shown[ZRV_STATE_LOST] == ZRV_NO_DRIVE;
    bool ready = driver->drives.record.phase == PHASE_READY;
    const char *same = ready ? "ok, every zone shows the same condition and sectors with any one drive left out, as is proved of it after a mount"
                             : "ok, every zone shows the same sectors with any one drive left out";
    if (shown && whole && !compare_left_out(driver, tell_left_out, &line))
        return no_memory(message, shelf_bytes(driver->drives.record.geometry));
    if (shown && !whole)
        end_line(&line, "not judged: a drive is missing, and a second one cannot be left out");
    else
        end_line(&line, "%s", shown ? same : NO_LOOK);
    return true;
}

static void print_log(const struct log_zones *zones, uint32_t log, const char *name) {
    uint32_t zone = find_log(zones, log);
    if (zone == NO_ZONE) {
        printf("no %s log, ", name);
        return;
    }
    uint32_t unused = zones->geometry.zone_sectors - zones->zone[zone].written;
    printf("%s log in zone %u (generation %llu, %u sector%s unused), ", name, zone, (unsigned long long)log_generation(zones, log, zone), unused,
           plural(unused));
}

void print_logs(const struct driver *driver) {
    const uint8_t *state = state_in_force(&driver->drives.record);
    for (uint32_t d = 0; d < driver->drives.record.geometry.drives; d++) {
        if (!is_present(driver, d))
            continue;
        struct log_zones zones = log_zones_of(&driver->drives.shelf, d);
        uint32_t spare = find_spare(&zones);
        printf("drive %u: ", d);
        print_log(&zones, GENERAL_LOG, "general");
        print_log(&zones, PARITY_LOG, "parity");
        if (spare == NO_ZONE)
            printf("no spare zone");
        else
            printf("spare zone %u", spare);
        print_shares("; ", state, d);
        putchar('\n');
    }
}

bool print_checklist(const struct driver *driver, uint32_t answer, struct message *message) {
    bool shown = answer == ZRV_FINISHED;
    check_labels(driver);
    check_pointers(driver, shown);
    check_parity_log(driver);
    check_reset_log(driver, shown);
    return check_left_out(driver, shown, message);
}
