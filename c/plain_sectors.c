/* Sectors of a zone in plain C. */
#include "plain_sectors.h"

#include <string.h>

#include "plain_logs.h"

static bool held(const struct volume *v, uint32_t absent, uint32_t zone, uint32_t drive, uint32_t sector) {
    return drive != absent && v->written[cell(v->geometry, drive, ZRV_LOG_ZONES + zone)] > sector;
}

/* Whether the other data of the row below an end is held. */
static bool row_held(const struct volume *v, const void *asked, uint64_t end) {
    const struct sector_place *lost = asked;
    struct geometry g = v->geometry;
    uint64_t start = (uint64_t)lost->zone * zone_addresses(g) + (uint64_t)lost->stripe * stripe_sectors(g);
    uint32_t parity = parity_drive(g, lost->zone, lost->stripe);
    for (uint32_t j = 0; j < g.drives - 1; j++) {
        bool below = start + j * g.unit + lost->row < end;
        if (j != lost->unit && below && !held(v, lost->absent, lost->zone, unit_drive(g, parity, j), lost->stripe * g.unit + lost->row))
            return false;
    }
    return true;
}

/* The parity's bytes with the other data of the row below an end taken off. */
static void take_off_row(const struct volume *v, const struct sector_place *lost, const uint8_t *parity_bytes, uint64_t end, uint8_t *out) {
    struct geometry g = v->geometry;
    uint64_t start = (uint64_t)lost->zone * zone_addresses(g) + (uint64_t)lost->stripe * stripe_sectors(g);
    uint32_t parity = parity_drive(g, lost->zone, lost->stripe);
    memcpy(out, parity_bytes, g.sector_bytes);
    for (uint32_t j = 0; j < g.drives - 1; j++)
        if (j != lost->unit && start + j * g.unit + lost->row < end)
            xor_into(out, sector_at(v, unit_drive(g, parity, j), ZRV_LOG_ZONES + lost->zone, lost->stripe * g.unit + lost->row), g.sector_bytes);
}

/* A sector rebuilt from its row; false where it is not known. Without `out` it is only asked whether it is. */
static bool rebuild(const struct volume *v, const struct sector_place *lost, uint8_t *out) {
    struct geometry g = v->geometry;
    uint32_t parity = parity_drive(g, lost->zone, lost->stripe), at = lost->stripe * g.unit + lost->row;
    uint64_t start = (uint64_t)lost->zone * zone_addresses(g) + (uint64_t)lost->stripe * stripe_sectors(g);
    if (held(v, lost->absent, lost->zone, parity, at) && row_held(v, lost, UINT64_MAX)) {
        if (out != NULL)
            take_off_row(v, lost, sector_at(v, parity, ZRV_LOG_ZONES + lost->zone, at), UINT64_MAX, out);
        return true;
    }
    if (parity == lost->absent)
        return false;
    struct partial_query query = {
        lost->zone, lost->stripe, start + lost->unit * g.unit + lost->row, least_seal(v, lost->absent, lost->zone),
    };
    const uint8_t *rows;
    uint64_t end = last_partial(v, &query, row_held, lost, &rows);
    if (end != 0 && out != NULL)
        take_off_row(v, lost, rows + (size_t)lost->row * g.sector_bytes, end, out);
    return end != 0;
}

struct sector_place place_of(struct geometry g, uint32_t absent, uint32_t zone, uint32_t offset) {
    struct sector_place place = {absent, zone, offset / stripe_sectors(g), offset % stripe_sectors(g) / g.unit, offset % g.unit};
    return place;
}

/* A sector's own bytes; none where it is not held. */
static const uint8_t *held_bytes(const struct volume *v, const struct sector_place *place) {
    struct geometry g = v->geometry;
    uint32_t drive = unit_drive(g, parity_drive(g, place->zone, place->stripe), place->unit), at = place->stripe * g.unit + place->row;
    return held(v, place->absent, place->zone, drive, at) ? sector_at(v, drive, ZRV_LOG_ZONES + place->zone, at) : NULL;
}

const uint8_t *known_bytes(const struct volume *v, const struct sector_place *place, uint8_t *space) {
    const uint8_t *own = held_bytes(v, place);
    if (own != NULL)
        return own;
    return rebuild(v, place, space) ? space : NULL;
}

bool run_known(const struct volume *v, uint32_t absent, uint32_t zone, uint32_t offset, uint32_t run) {
    for (uint32_t i = 0; i < run; i++) {
        struct sector_place place = place_of(v->geometry, absent, zone, offset + i);
        if (held_bytes(v, &place) == NULL && !rebuild(v, &place, NULL))
            return false;
    }
    return true;
}
