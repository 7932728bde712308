/* The reader of a drive's logs. */
#include "journal.h"

#include <string.h>

#include "bytes.h"
#include "placement.h"

/* The first byte is zero and each is like the one before it. */
static bool zeros(const uint8_t *sector, uint32_t from, uint32_t to) {
    return from == to || (sector[from] == 0 && memcmp(sector + from, sector + from + 1, to - from - 1) == 0);
}

static bool is_label(struct geometry g, uint32_t drive, const uint8_t *s) {
    bool fits = s[LABEL_DRIVES] == g.drives && s[LABEL_UNIT] == g.unit && s[LABEL_SECTOR_LOG2] < 32 && 1u << s[LABEL_SECTOR_LOG2] == g.sector_bytes &&
                s[LABEL_INDEX] == drive && get32(s + LABEL_ZONE_SECTORS) == g.zone_sectors && get32(s + LABEL_ZONES) == physical_zones(g);
    bool lost_fits = s[LABEL_LOST] < g.drives || s[LABEL_LOST] == ZRV_NO_DRIVE;
    return fits && lost_fits && zeros(s, ENTRY_START, ENTRY_HEAD_BYTES) && zeros(s, LABEL_LOST + 1, LABEL_ZONE_SECTORS) && zeros(s, LABEL_END, g.sector_bytes);
}

static bool is_counters(struct geometry g, const uint8_t *s) {
    return zeros(s, ENTRY_START, ENTRY_HEAD_BYTES) && zeros(s, counters_bytes(g.zones), g.sector_bytes);
}

static bool is_reset(struct geometry g, uint32_t drive, const uint8_t *s) {
    uint64_t start = get64(s + ENTRY_START), end = get64(s + ENTRY_END), whole = zone_addresses(g);
    if (!zeros(s, ENTRY_HEAD_BYTES, g.sector_bytes) || start % whole != 0 || start / whole >= g.zones || end != start + whole)
        return false;
    uint32_t parity = parity_drive(g, (uint32_t)(start / whole), 0);
    return drive == parity || drive == unit_drive(g, parity, 0);
}

static bool is_partial_parity(struct geometry g, uint32_t drive, const uint8_t *s) {
    uint64_t start = get64(s + ENTRY_START), end = get64(s + ENTRY_END), whole = zone_addresses(g);
    if (!zeros(s, ENTRY_HEAD_BYTES, g.sector_bytes) || start / whole >= g.zones)
        return false;
    uint32_t inside = (uint32_t)(start % whole);
    if (inside % stripe_sectors(g) != 0 || end <= start || end - start >= stripe_sectors(g))
        return false;
    return parity_drive(g, (uint32_t)(start / whole), inside / stripe_sectors(g)) == drive;
}

static bool is_seal(struct geometry g, const uint8_t *s) {
    uint64_t start = get64(s + ENTRY_START), end = get64(s + ENTRY_END), whole = zone_addresses(g);
    return zeros(s, ENTRY_HEAD_BYTES, g.sector_bytes) && start % whole == 0 && start / whole < g.zones && end > start && end - start <= whole;
}

static bool is_closing(struct geometry g, uint32_t log, const uint8_t *s) {
    return get64(s + ENTRY_START) == log && get64(s + ENTRY_END) == 0 && get64(s + ENTRY_GENERATION) != 0 && zeros(s, ENTRY_HEAD_BYTES, g.sector_bytes);
}

bool entry_is_marked(const uint8_t *header) {
    static const uint8_t version[] = {ENTRY_FORMAT, 0};
    return memcmp(header, ENTRY_MARK, ENTRY_MARK_BYTES) == 0 && memcmp(header + ENTRY_VERSION, version, sizeof version) == 0;
}

bool entry_is_legal(struct geometry g, uint32_t drive, uint32_t log, const uint8_t *header) {
    if (!entry_is_marked(header) || !zeros(header, ENTRY_VERSION_END, ENTRY_START))
        return false;
    if (header[ENTRY_TYPE] == ENTRY_CLOSING)
        return is_closing(g, log, header);
    if ((header[ENTRY_TYPE] == ENTRY_PARTIAL_PARITY) != (log == PARITY_LOG))
        return false;
    switch (header[ENTRY_TYPE]) {
    case ENTRY_LABEL:
        return is_label(g, drive, header);
    case ENTRY_COUNTERS:
        return is_counters(g, header);
    case ENTRY_RESET:
        return is_reset(g, drive, header);
    case ENTRY_PARTIAL_PARITY:
        return is_partial_parity(g, drive, header);
    case ENTRY_SEAL:
        return is_seal(g, header);
    }
    return false;
}

uint32_t entry_rows(struct geometry g, const uint8_t *header) {
    if (header[ENTRY_TYPE] != ENTRY_PARTIAL_PARITY)
        return 0;
    uint64_t length = get64(header + ENTRY_END) - get64(header + ENTRY_START);
    return length < g.unit ? (uint32_t)length : g.unit;
}

enum journal_step next_entry(struct journal_reader *reader, const uint8_t **header) {
    struct geometry g = reader->geometry;
    if (reader->at >= reader->zone.written || reader->at >= g.zone_sectors)
        return JOURNAL_END;
    *header = reader->zone.bytes + (size_t)reader->at * g.sector_bytes;
    if (!entry_is_legal(g, reader->drive, reader->log, *header))
        return JOURNAL_NO_ENTRY;
    uint32_t next = reader->at + 1 + entry_rows(g, *header);
    if (next > g.zone_sectors)
        return JOURNAL_NO_ENTRY;
    if (next > reader->zone.written)
        return JOURNAL_TORN;
    reader->at = next;
    return JOURNAL_ENTRY;
}

uint32_t why_no_entry(const struct journal_reader *reader, const uint8_t *header) {
    if (!entry_is_marked(header))
        return ZRV_LOG;
    return entry_is_legal(reader->geometry, reader->drive, reader->log, header) ? ZRV_LOG_ROWS : ZRV_LOG_ENTRY;
}

uint64_t log_generation(const struct log_zones *zones, uint32_t log, uint32_t zone) {
    struct journal_reader reader = {zones->geometry, zones->drive, log, zones->zone[zone], 0};
    const uint8_t *header;
    while (next_entry(&reader, &header) == JOURNAL_ENTRY)
        if (header[ENTRY_TYPE] == ENTRY_CLOSING)
            return get64(header + ENTRY_GENERATION);
    return 0;
}

/* A kind's own zone, of its number, is that log unless it closes as the other kind. It is read only if another zone closes as this kind: a log that was never
 * emptied need not be read to its end. */
uint32_t find_log(const struct log_zones *zones, uint32_t log) {
    uint32_t best = NO_ZONE;
    uint64_t most = 0;
    for (uint32_t y = 0; y < ZRV_LOG_ZONES; y++) {
        uint64_t generation = y == log ? 0 : log_generation(zones, log, y);
        if (generation > most) {
            best = y;
            most = generation;
        }
    }
    uint32_t other = log == GENERAL_LOG ? PARITY_LOG : GENERAL_LOG;
    if (best == NO_ZONE)
        return log_generation(zones, other, log) == 0 ? log : NO_ZONE;
    uint64_t own = log_generation(zones, log, log);
    return own > most || (own == most && log < best) ? log : best;
}

uint32_t find_spare(const struct log_zones *zones) {
    uint32_t general = find_log(zones, GENERAL_LOG), parity = find_log(zones, PARITY_LOG);
    return general == NO_ZONE || parity == NO_ZONE ? NO_ZONE : 0 + 1 + 2 - general - parity;
}

struct log_zones log_zones_of(const struct shelf *shelf, uint32_t drive) {
    struct geometry g = shelf->geometry;
    struct log_zones zones = {.geometry = g, .drive = drive};
    for (uint32_t y = 0; y < ZRV_LOG_ZONES; y++)
        zones.zone[y] = (struct zone_bytes){shelf->sectors.bytes + sector_offset(g, drive, y, 0), pointer_in(shelf->written, cell(g, drive, y))};
    return zones;
}

struct journal_reader read_log(const struct log_zones *zones, uint32_t log) {
    uint32_t zone = find_log(zones, log);
    struct zone_bytes nothing = {NULL, 0};
    return (struct journal_reader){zones->geometry, zones->drive, log, zone == NO_ZONE ? nothing : zones->zone[zone], 0};
}
