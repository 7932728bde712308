/* The refusals of document 01's table, least number first: 1 to 4 of every call, then those of each call from 7 on. Those of look and mount are in
 * plain_look.c; 14 of a write is found with its log, 15 of a read and a write where the sectors are sought. A write's 18 and 19 come before its 14. */
#include "hosts.h"
#include "journal.h"
#include "plain_emptying.h"

static uint32_t larger(uint32_t a, uint32_t b) { return a > b ? a : b; }

bool geometry_fits(struct geometry g) {
    if (g.drives < ZRV_LEAST_DRIVES || g.drives > ZRV_MOST_DRIVES)
        return false;
    if (g.sector_bytes < ZRV_LEAST_SECTOR_BYTES || g.sector_bytes > ZRV_MOST_SECTOR_BYTES || (g.sector_bytes & (g.sector_bytes - 1)) != 0)
        return false;
    if (g.unit < 1 || g.unit > ZRV_MOST_UNIT || g.zones < 1 || g.zones > ZRV_MOST_ZONES || counters_bytes(g.zones) > g.sector_bytes)
        return false;
    if (g.zone_sectors > ZRV_MOST_ZONE_SECTORS || g.zone_sectors % g.unit != 0)
        return false;
    return g.zone_sectors >= larger(g.zones * (1 + g.unit) + 2 * g.unit + 1, g.zones + 6);
}

static bool state_fits(const struct volume *v) {
    if (v->state.lost != ZRV_NO_DRIVE && v->state.lost >= v->geometry.drives)
        return false;
    for (uint32_t z = 0; z < v->geometry.zones; z++)
        if (v->state.zone[z].pointer > zone_addresses(v->geometry))
            return false;
    return true;
}

uint32_t report_refusal(const struct volume *v) { return geometry_fits(v->geometry) && state_fits(v) ? ZRV_FINISHED : ZRV_GEOMETRY; }

static bool lengths_fit(const struct volume *v) {
    size_t cells = v->geometry.drives * physical_zones(v->geometry);
    return v->written_cells == cells && v->durable_cells == cells && v->sectors_bytes == cells * v->geometry.zone_sectors * v->geometry.sector_bytes;
}

static bool pointers_fit(const struct volume *v, uint32_t named) {
    size_t zones = physical_zones(v->geometry);
    for (size_t i = 0; i < v->geometry.drives * zones; i++) {
        if ((named >> (i / zones) & 1) != 0 && (v->written[i] > v->geometry.zone_sectors || v->durable[i] > v->written[i]))
            return false;
    }
    return true;
}

static bool two_lost(const struct volume *v, uint32_t named, uint32_t lost) {
    uint32_t count = 0;
    for (uint32_t d = 0; d < v->geometry.drives; d++)
        count += (named >> d & 1) == 0 || lost == d;
    return count > 1;
}

uint32_t format_refusal(const struct volume *v, uint32_t named) {
    if (!geometry_fits(v->geometry))
        return ZRV_GEOMETRY;
    if (!lengths_fit(v))
        return ZRV_LENGTH;
    if (!pointers_fit(v, named))
        return ZRV_POINTER;
    return two_lost(v, named, ZRV_NO_DRIVE) ? ZRV_TWO_LOST : ZRV_FINISHED;
}

/* Refusals 1 to 4 of a call that reads the state, and has a buffer that is or is not as long as it should be. */
static uint32_t input_refusal(const struct volume *v, uint32_t named, bool buffer_fits) {
    if (!geometry_fits(v->geometry) || !state_fits(v))
        return ZRV_GEOMETRY;
    if (!lengths_fit(v) || !buffer_fits)
        return ZRV_LENGTH;
    if (!pointers_fit(v, named))
        return ZRV_POINTER;
    return two_lost(v, named, v->state.lost) ? ZRV_TWO_LOST : ZRV_FINISHED;
}

uint32_t flush_refusal(const struct volume *v, uint32_t named) { return input_refusal(v, named, true); }

/* Refusals 7 and 8 of a zone. */
static uint32_t zone_refusal(const struct volume *v, uint32_t named, uint64_t zone) {
    if (zone >= v->geometry.zones)
        return ZRV_ADDRESS;
    const struct zone_state *state = &v->state.zone[zone];
    bool exact = state->condition == ZRV_EMPTY || state->condition == ZRV_OPEN;
    uint32_t absent = absent_drive(v->geometry, named, v->state.lost);
    for (uint32_t d = 0; d < v->geometry.drives; d++) {
        uint32_t has = v->written[cell(v->geometry, d, ZRV_LOG_ZONES + (uint32_t)zone)];
        uint32_t needs = sectors_needed(v->geometry, (uint32_t)zone, state->pointer, d);
        if (d != absent && (has < needs || (exact && has != needs)))
            return ZRV_STALE;
    }
    return ZRV_FINISHED;
}

uint32_t reset_reserve(struct geometry g) { return g.zones + 4; }

/* Refusal 14 of a reset. */
static bool general_log_full(const struct volume *v, uint32_t absent) {
    for (uint32_t d = 0; d < v->geometry.drives; d++)
        if (d != absent && log_lacks(v, d, GENERAL_LOG, reset_reserve(v->geometry)) && log_stays_full(v, d, GENERAL_LOG, reset_reserve(v->geometry)))
            return true;
    return false;
}

static bool zone_counts(const struct volume *v, uint32_t zone) {
    return v->state.zone[zone].condition == ZRV_OPEN && v->state.zone[zone].pointer < zone_addresses(v->geometry);
}

/* Refusals 18 and 19 of a write by a host, which leaves the zone open below its end. */
static uint32_t limit_refusal(const struct volume *v, uint32_t zone, uint32_t host) {
    uint32_t owned = 0, open = 0;
    for (uint32_t z = 0; z < v->geometry.zones; z++) {
        open += zone_counts(v, z);
        owned += zone_counts(v, z) && v->state.zone[z].owner == ZRV_OWNER(host);
    }
    bool counts = zone_counts(v, zone), is_own = counts && v->state.zone[zone].owner == ZRV_OWNER(host);
    if (!is_own && owned >= limit_of(host))
        return ZRV_HOST_LIMIT;
    return !counts && open >= ZRV_MOST_OPEN ? ZRV_OPEN_LIMIT : ZRV_FINISHED;
}

/* Refusals 9 to 12, 18 and 19 of a write at an offset of its zone. */
static uint32_t run_refusal(const struct volume *v, uint32_t zone, uint32_t offset, const struct asked *asked) {
    uint32_t whole = (uint32_t)zone_addresses(v->geometry);
    const struct zone_state *state = &v->state.zone[zone];
    if (asked->run == 0 || asked->run > whole - offset)
        return ZRV_RUN;
    if (offset != state->pointer)
        return ZRV_ORDER;
    if (state->condition == ZRV_SEALED)
        return ZRV_ZONE_SEALED;
    if (state->condition == ZRV_WORN)
        return ZRV_ZONE_WORN;
    return offset + asked->run < whole ? limit_refusal(v, zone, asked->host) : ZRV_FINISHED;
}

uint32_t write_refusal(const struct volume *v, uint32_t named, const struct asked *asked) {
    uint32_t refusal = input_refusal(v, named, asked->data_bytes == (uint64_t)asked->run * v->geometry.sector_bytes);
    if (refusal != ZRV_FINISHED)
        return refusal;
    uint32_t whole = (uint32_t)zone_addresses(v->geometry);
    refusal = zone_refusal(v, named, asked->address / whole);
    if (refusal != ZRV_FINISHED)
        return refusal;
    if (asked->host >= ZRV_HOSTS)
        return ZRV_ADDRESS;
    return run_refusal(v, (uint32_t)(asked->address / whole), (uint32_t)(asked->address % whole), asked);
}

uint32_t read_refusal(const struct volume *v, uint32_t named, uint64_t address, uint32_t run, size_t answer_bytes) {
    uint32_t refusal = input_refusal(v, named, answer_bytes == (uint64_t)run * v->geometry.sector_bytes);
    if (refusal != ZRV_FINISHED)
        return refusal;
    uint32_t whole = (uint32_t)zone_addresses(v->geometry);
    refusal = zone_refusal(v, named, address / whole);
    if (refusal != ZRV_FINISHED)
        return refusal;
    uint32_t offset = (uint32_t)(address % whole);
    if (run == 0 || run > whole - offset)
        return ZRV_RUN;
    return offset + run > v->state.zone[address / whole].pointer ? ZRV_UNWRITTEN : ZRV_FINISHED;
}

uint32_t reset_refusal(const struct volume *v, uint32_t named, uint32_t zone) {
    uint32_t refusal = input_refusal(v, named, true);
    if (refusal == ZRV_FINISHED)
        refusal = zone_refusal(v, named, zone);
    if (refusal != ZRV_FINISHED)
        return refusal;
    if (v->state.zone[zone].condition == ZRV_WORN || v->state.zone[zone].generation == UINT64_MAX)
        return ZRV_ZONE_WORN;
    return general_log_full(v, absent_drive(v->geometry, named, v->state.lost)) ? ZRV_LOG_FULL : ZRV_FINISHED;
}

uint32_t compact_refusal(const struct volume *v, uint32_t named, uint32_t drive) {
    uint32_t refusal = input_refusal(v, named, true), absent;
    for (uint32_t z = 0; refusal == ZRV_FINISHED && z < v->geometry.zones; z++)
        refusal = zone_refusal(v, named, z);
    if (refusal != ZRV_FINISHED)
        return refusal;
    absent = absent_drive(v->geometry, named, v->state.lost);
    if (drive >= v->geometry.drives || drive == absent)
        return ZRV_ADDRESS;
    if (log_stays_full(v, drive, PARITY_LOG, parity_reserve(v->geometry)))
        return ZRV_LOG_FULL;
    return kept_entries_known(v, absent, drive) ? ZRV_FINISHED : ZRV_GONE;
}

uint32_t peek_refusal(const struct volume *v, uint32_t named, uint64_t address) {
    uint32_t refusal = input_refusal(v, named, true);
    if (refusal != ZRV_FINISHED)
        return refusal;
    struct geometry g = v->geometry;
    uint32_t whole = (uint32_t)zone_addresses(g);
    refusal = zone_refusal(v, named, address / whole);
    if (refusal != ZRV_FINISHED)
        return refusal;
    uint32_t zone = (uint32_t)(address / whole), offset = (uint32_t)(address % whole);
    if (offset >= v->state.zone[zone].pointer)
        return ZRV_UNWRITTEN;
    uint32_t parity = parity_drive(g, zone, offset / stripe_sectors(g));
    uint32_t drive = unit_drive(g, parity, offset % stripe_sectors(g) / g.unit);
    return drive == absent_drive(v->geometry, named, v->state.lost) ? ZRV_GONE : ZRV_FINISHED;
}
