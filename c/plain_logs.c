/* Log entries in plain C; host/journal.h tells their form. */
#include "plain_logs.h"

#include <string.h>

#include "bytes.h"

static void header(uint8_t *sector, struct geometry g, enum entry_type type, uint64_t start, uint64_t end, uint64_t generation) {
    memset(sector, 0, g.sector_bytes);
    memcpy(sector, ENTRY_MARK, ENTRY_MARK_BYTES);
    sector[ENTRY_TYPE] = (uint8_t)type;
    sector[ENTRY_VERSION] = ENTRY_FORMAT;
    put64(sector + ENTRY_START, start);
    put64(sector + ENTRY_END, end);
    put64(sector + ENTRY_GENERATION, generation);
}

void label_header(uint8_t *sector, struct geometry g, uint32_t drive, uint32_t lost, uint64_t array) {
    header(sector, g, ENTRY_LABEL, 0, 0, 0);
    sector[LABEL_DRIVES] = (uint8_t)g.drives;
    sector[LABEL_UNIT] = (uint8_t)g.unit;
    for (uint32_t size = g.sector_bytes; size > 1; size /= 2)
        sector[LABEL_SECTOR_LOG2]++;
    sector[LABEL_INDEX] = (uint8_t)drive;
    sector[LABEL_LOST] = (uint8_t)lost;
    put32(sector + LABEL_ZONE_SECTORS, g.zone_sectors);
    put32(sector + LABEL_ZONES, g.zones + ZRV_LOG_ZONES);
    put64(sector + LABEL_ARRAY, array);
}

void counters_header(uint8_t *sector, struct geometry g, const struct volume_state *state) {
    header(sector, g, ENTRY_COUNTERS, 0, 0, 0);
    for (uint32_t z = 0; z < g.zones; z++)
        put64(sector + counters_bytes(z), state->zone[z].generation);
}

void partial_header(uint8_t *sector, struct geometry g, uint64_t start, uint64_t end, uint64_t generation) {
    header(sector, g, ENTRY_PARTIAL_PARITY, start, end, generation);
}

void reset_header(uint8_t *sector, struct geometry g, uint32_t zone, uint64_t generation) {
    uint64_t start = (uint64_t)zone * zone_addresses(g);
    header(sector, g, ENTRY_RESET, start, start + zone_addresses(g), generation);
}

void seal_header(uint8_t *sector, struct geometry g, uint32_t zone, uint64_t end, uint64_t generation) {
    header(sector, g, ENTRY_SEAL, (uint64_t)zone * zone_addresses(g), end, generation);
}

void closing_header(uint8_t *sector, struct geometry g, uint32_t log, uint64_t generation) { header(sector, g, ENTRY_CLOSING, log, 0, generation); }

struct log_zones volume_log_zones(const struct volume *v, uint32_t drive) {
    struct log_zones zones = {.geometry = v->geometry, .drive = drive};
    for (uint32_t y = 0; y < ZRV_LOG_ZONES; y++)
        zones.zone[y] = (struct zone_bytes){sector_at(v, drive, y, 0), v->written[cell(v->geometry, drive, y)]};
    return zones;
}

uint32_t log_zone(const struct volume *v, uint32_t drive, uint32_t log) {
    struct log_zones zones = volume_log_zones(v, drive);
    return find_log(&zones, log);
}

uint32_t unused(const struct volume *v, uint32_t drive, uint32_t log_zone) {
    return log_zone == NO_ZONE ? 0 : v->geometry.zone_sectors - v->written[cell(v->geometry, drive, log_zone)];
}

struct journal_reader volume_log(const struct volume *v, uint32_t drive, uint32_t log) {
    struct log_zones zones = volume_log_zones(v, drive);
    return read_log(&zones, log);
}

/* Whether an entry is of a type and of a zone as the state has it. */
static bool is_current(const struct volume *v, const uint8_t *sector, enum entry_type type, uint32_t zone) {
    uint64_t start = get64(sector + ENTRY_START), whole = zone_addresses(v->geometry);
    return sector[ENTRY_TYPE] == type && start / whole == zone && get64(sector + ENTRY_GENERATION) == v->state.zone[zone].generation;
}

uint64_t last_partial(const struct volume *v, const struct partial_query *query, entry_fits fits, const void *asked, const uint8_t **rows) {
    struct geometry g = v->geometry;
    uint64_t start = (uint64_t)query->zone * zone_addresses(g) + (uint64_t)query->stripe * stripe_sectors(g), found = 0;
    struct journal_reader reader = volume_log(v, parity_drive(g, query->zone, query->stripe), PARITY_LOG);
    const uint8_t *sector;
    while (next_entry(&reader, &sector) == JOURNAL_ENTRY) {
        uint64_t end = get64(sector + ENTRY_END);
        bool current = is_current(v, sector, ENTRY_PARTIAL_PARITY, query->zone) && get64(sector + ENTRY_START) == start;
        if (current && end > query->past && end <= query->limit && (fits == NULL || fits(v, asked, end))) {
            found = end;
            *rows = sector + g.sector_bytes;
        }
    }
    return found;
}

uint64_t least_seal_on(const struct volume *v, uint32_t drive, uint32_t zone) {
    uint64_t least = UINT64_MAX;
    struct journal_reader reader = volume_log(v, drive, GENERAL_LOG);
    const uint8_t *sector;
    while (next_entry(&reader, &sector) == JOURNAL_ENTRY)
        if (is_current(v, sector, ENTRY_SEAL, zone) && get64(sector + ENTRY_END) < least)
            least = get64(sector + ENTRY_END);
    return least;
}

uint64_t least_seal(const struct volume *v, uint32_t absent, uint32_t zone) {
    uint64_t least = UINT64_MAX;
    for (uint32_t d = 0; d < v->geometry.drives; d++) {
        uint64_t end = d == absent ? UINT64_MAX : least_seal_on(v, d, zone);
        least = end < least ? end : least;
    }
    return least;
}

bool logs_reset(const struct volume *v, uint32_t drive, uint32_t zone) {
    struct journal_reader reader = volume_log(v, drive, GENERAL_LOG);
    const uint8_t *sector;
    while (next_entry(&reader, &sector) == JOURNAL_ENTRY)
        if (is_current(v, sector, ENTRY_RESET, zone))
            return true;
    return false;
}
