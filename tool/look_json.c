/* The look as an object, line by line. */
#include "look_json.h"

#include <stdio.h>

#include "bad_log.h"
#include "holders.h"
#include "refusals.h"

/* A number, or null where there is none. */
static void print_or_null(uint32_t number, uint32_t none) {
    if (number == none)
        printf("null");
    else
        printf("%u", number);
}

static void print_answer(const struct driver *driver, uint32_t answer) {
    const struct log_place *bad = &driver->bad;
    printf("  \"answer\": %u,\n  \"refusal\": ", answer);
    if (answer == ZRV_FINISHED)
        printf("null");
    else
        printf("{\"number\": %u, \"word\": \"%s\"", answer, refusal_word(answer));
    if (has_place(answer))
        printf(", \"drive\": %u, \"log\": \"%s\", \"zone\": %u, \"sector\": %u", bad->drive, log_word(&driver->drives.shelf, bad->drive, bad->zone), bad->zone,
               bad->sector);
    printf(answer == ZRV_FINISHED ? ",\n" : "},\n");
}

static void print_zone_objects(const struct driver *driver) {
    struct geometry g = driver->drives.record.geometry;
    for (uint32_t z = 0; z < g.zones; z++) {
        const uint8_t *record = zone_record(driver->shown, z);
        printf("\n    {\"zone\": %u, \"pointer\": %u, \"condition\": \"%s\", \"generation\": %llu, \"host\": ", z, get32(record + ZRV_RECORD_POINTER),
               condition_word(record[ZRV_RECORD_CONDITION]), (unsigned long long)get64(record + ZRV_RECORD_GENERATION));
        print_holder_json(g, state_in_force(&driver->drives.record), z);
        printf("}%s", z + 1 < g.zones ? "," : "\n  ");
    }
}

static void print_log_object(const struct log_zones *zones, uint32_t log, const char *name) {
    uint32_t zone = find_log(zones, log);
    printf(", \"%s\": ", name);
    if (zone == NO_ZONE) {
        printf("null");
        return;
    }
    uint32_t size = zones->geometry.zone_sectors, written = zones->zone[zone].written;
    printf("{\"zone\": %u, \"generation\": %llu, \"unused\": %u}", zone, (unsigned long long)log_generation(zones, log, zone),
           written < size ? size - written : 0);
}

static void print_drive_object(const struct driver *driver, uint32_t drive) {
    bool present = (driver->drives.present >> drive & 1) != 0;
    printf("    {\"drive\": %u, \"present\": %s", drive, present ? "true" : "false");
    if (present) {
        struct log_zones zones = log_zones_of(&driver->drives.shelf, drive);
        print_log_object(&zones, GENERAL_LOG, "general");
        print_log_object(&zones, PARITY_LOG, "parity");
        printf(", \"spare\": ");
        print_or_null(find_spare(&zones), NO_ZONE);
        printf(", \"shares\": ");
        print_shares_json(state_in_force(&driver->drives.record), drive);
    }
    printf("}");
}

void print_look_json(const struct driver *driver, uint32_t answer) {
    uint32_t drives = driver->drives.record.geometry.drives;
    bool shown = answer == ZRV_FINISHED;
    printf("{\n");
    print_answer(driver, answer);
    printf("  \"lost\": ");
    print_or_null(shown ? driver->shown[ZRV_STATE_LOST] : ZRV_NO_DRIVE, ZRV_NO_DRIVE);
    printf(",\n  \"mount_due\": %s,\n  \"zones\": [", driver->drives.record.phase == PHASE_MOUNT_DUE ? "true" : "false");
    if (shown)
        print_zone_objects(driver);
    printf("],\n  \"open_zones\": ");
    print_open_zones_json(driver->drives.record.geometry, state_in_force(&driver->drives.record));
    printf(",\n  \"drives\": [\n");
    for (uint32_t d = 0; d < drives; d++) {
        print_drive_object(driver, d);
        printf(d + 1 < drives ? ",\n" : "\n");
    }
    printf("  ]\n}\n");
}
