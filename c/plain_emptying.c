/* Emptying a log in plain C. */
#include "plain_emptying.h"

#include "bytes.h"
#include "plain_logs.h"
#include "plain_rows.h"
#include "plain_sectors.h"

/* The last label of a general log, with the array number of the label with which the log begins; false where the log has none. */
static bool kept_label(const struct volume *v, uint32_t drive, uint8_t *label) {
    struct journal_reader reader = volume_log(v, drive, GENERAL_LOG);
    const uint8_t *sector, *first = NULL, *last = NULL;
    while (next_entry(&reader, &sector) == JOURNAL_ENTRY) {
        first = first == NULL ? sector : first;
        last = sector[ENTRY_TYPE] == ENTRY_LABEL ? sector : last;
    }
    if (last == NULL)
        return false;
    const uint8_t *array = first[ENTRY_TYPE] == ENTRY_LABEL ? first : last;
    label_header(label, v->geometry, drive, last[LABEL_LOST], get64(array + LABEL_ARRAY));
    return true;
}

/* Label, counters, seals, resets. */
static bool copy_general(struct storing *storing, uint32_t drive, uint32_t to) {
    const struct volume *v = storing->v;
    struct geometry g = v->geometry;
    uint8_t sector[ZRV_MOST_SECTOR_BYTES];
    if (kept_label(v, drive, sector) && !append(storing, drive, to, sector))
        return false;
    counters_header(sector, g, &v->state);
    if (!append(storing, drive, to, sector))
        return false;
    for (uint32_t z = 0; z < g.zones; z++) {
        uint64_t end = least_seal_on(v, drive, z);
        seal_header(sector, g, z, end, v->state.zone[z].generation);
        if (end != UINT64_MAX && !append(storing, drive, to, sector))
            return false;
    }
    for (uint32_t z = 0; z < g.zones; z++) {
        reset_header(sector, g, z, v->state.zone[z].generation);
        if (logs_reset(v, drive, z) && !append(storing, drive, to, sector))
            return false;
    }
    return true;
}

/* How many sectors that copies. */
static uint32_t kept_of_general(const struct volume *v, uint32_t drive) {
    uint8_t label[ZRV_MOST_SECTOR_BYTES];
    uint32_t count = (kept_label(v, drive, label) ? 1 : 0) + 1;
    for (uint32_t z = 0; z < v->geometry.zones; z++)
        count += (least_seal_on(v, drive, z) != UINT64_MAX ? 1 : 0) + (logs_reset(v, drive, z) ? 1 : 0);
    return count;
}

/* The row sectors of an entry at a zone's pointer, if that lies inside a stripe with its parity on this drive; else 0. */
static uint32_t kept_rows(const struct volume *v, uint32_t drive, uint32_t zone) {
    struct geometry g = v->geometry;
    uint32_t pointer = v->state.zone[zone].pointer, inside = pointer % stripe_sectors(g);
    if (parity_drive(g, zone, pointer / stripe_sectors(g)) != drive)
        return 0;
    return inside < g.unit ? inside : g.unit;
}

/* The last entry at a zone's pointer, its rows behind it, in the log of the stripe's parity drive; none where the entry has to be made. */
static const uint8_t *kept_entry(const struct volume *v, uint32_t zone) {
    struct geometry g = v->geometry;
    uint32_t pointer = v->state.zone[zone].pointer;
    uint64_t end = (uint64_t)zone * zone_addresses(g) + pointer;
    struct partial_query query = {zone, pointer / stripe_sectors(g), end - 1, end};
    const uint8_t *rows;
    return last_partial(v, &query, NULL, NULL, &rows) == 0 ? NULL : rows - g.sector_bytes;
}

static bool copy_entry(struct storing *storing, uint32_t drive, uint32_t zone, uint32_t to) {
    const struct volume *v = storing->v;
    uint32_t pointer = v->state.zone[zone].pointer;
    struct run made_of = {v, zone, pointer, pointer, to, NULL};
    const uint8_t *entry = kept_entry(v, zone);
    if (entry == NULL)
        return append_partial(storing, &made_of);
    for (uint32_t x = 0; x <= kept_rows(v, drive, zone); x++)
        if (!append(storing, drive, to, entry + (size_t)x * v->geometry.sector_bytes))
            return false;
    return true;
}

static bool copy_parity(struct storing *storing, uint32_t drive, uint32_t to) {
    for (uint32_t z = 0; z < storing->v->geometry.zones; z++)
        if (kept_rows(storing->v, drive, z) != 0 && !copy_entry(storing, drive, z, to))
            return false;
    return true;
}

static uint32_t kept_of_parity(const struct volume *v, uint32_t drive) {
    uint32_t count = 0;
    for (uint32_t z = 0; z < v->geometry.zones; z++)
        count += kept_rows(v, drive, z) == 0 ? 0 : 1 + kept_rows(v, drive, z);
    return count;
}

bool log_lacks(const struct volume *v, uint32_t drive, uint32_t log, uint32_t least) { return unused(v, drive, log_zone(v, drive, log)) < least; }

bool log_stays_full(const struct volume *v, uint32_t drive, uint32_t log, uint32_t least) {
    struct log_zones zones = volume_log_zones(v, drive);
    uint32_t spare = find_spare(&zones);
    if (spare == NO_ZONE || zones.zone[spare].written > 0 || log_generation(&zones, log, find_log(&zones, log)) == UINT64_MAX)
        return true;
    uint32_t kept = log == GENERAL_LOG ? kept_of_general(v, drive) : kept_of_parity(v, drive);
    return v->geometry.zone_sectors < kept + 1 + least;
}

bool kept_entries_known(const struct volume *v, uint32_t absent, uint32_t drive) {
    for (uint32_t z = 0; z < v->geometry.zones; z++) {
        uint32_t pointer = v->state.zone[z].pointer, inside = pointer % stripe_sectors(v->geometry);
        if (kept_rows(v, drive, z) != 0 && kept_entry(v, z) == NULL && !run_known(v, absent, z, pointer - inside, inside))
            return false;
    }
    return true;
}

bool empty_log(struct storing *storing, uint32_t drive, uint32_t log) {
    struct log_zones zones = volume_log_zones(storing->v, drive);
    uint32_t old = find_log(&zones, log), to = find_spare(&zones);
    uint8_t closing[ZRV_MOST_SECTOR_BYTES];
    closing_header(closing, storing->v->geometry, log, log_generation(&zones, log, old) + 1);
    if (!flush_all(storing))
        return false;
    bool copied = log == GENERAL_LOG ? copy_general(storing, drive, to) : copy_parity(storing, drive, to);
    return copied && append(storing, drive, to, closing) && flush_all(storing) && reset_zone(storing, drive, old);
}
