/* Rows of parity in plain C. */
#include "plain_rows.h"

#include <string.h>

#include "plain_logs.h"
#include "plain_sectors.h"

/* The bytes of a sector below a run's end: of the write's data, or, known before it, as they are held or rebuilt in `space`. */
static const uint8_t *row_bytes(const struct storing *storing, const struct run *run, uint32_t offset, uint8_t *space) {
    if (offset >= run->offset)
        return run_bytes(run, offset);
    struct sector_place place = place_of(run->before->geometry, storing->absent, run->zone, offset);
    return known_bytes(run->before, &place, space);
}

/* A stripe's sectors, by their offsets: from its first up to its end or the run's. */
struct span {
    uint32_t start, end;
};

static void make_row(const struct storing *storing, const struct run *run, struct span span, uint32_t row, uint8_t *to) {
    struct geometry g = storing->v->geometry;
    uint8_t space[ZRV_MOST_SECTOR_BYTES];
    memcpy(to, row_bytes(storing, run, span.start + row, space), g.sector_bytes);
    for (uint32_t offset = span.start + row + g.unit; offset < span.end; offset += g.unit)
        xor_into(to, row_bytes(storing, run, offset, space), g.sector_bytes);
}

static bool append_rows(struct storing *storing, const struct run *run, struct span span, uint32_t drive, uint32_t physical_zone) {
    uint32_t unit = storing->v->geometry.unit, length = span.end - span.start, rows = length < unit ? length : unit;
    for (uint32_t row = 0; row < rows; row++) {
        uint8_t *place;
        if (!next_place(storing, drive, physical_zone, &place))
            return false;
        if (place == NULL)
            return true;
        make_row(storing, run, span, row, place);
        count_store(storing, drive, physical_zone);
    }
    return true;
}

bool append_parity(struct storing *storing, const struct run *run, uint32_t end) {
    struct geometry g = storing->v->geometry;
    struct span span = {end - stripe_sectors(g), end};
    return append_rows(storing, run, span, parity_drive(g, run->zone, span.start / stripe_sectors(g)), ZRV_LOG_ZONES + run->zone);
}

bool append_partial(struct storing *storing, const struct run *run) {
    struct geometry g = storing->v->geometry;
    struct span span = {run->end - run->end % stripe_sectors(g), run->end};
    uint32_t drive = parity_drive(g, run->zone, run->end / stripe_sectors(g));
    uint64_t zone_start = (uint64_t)run->zone * zone_addresses(g);
    uint8_t *place;
    if (!next_place(storing, drive, run->log, &place))
        return false;
    if (place == NULL)
        return true;
    partial_header(place, g, zone_start + span.start, zone_start + span.end, storing->v->state.zone[run->zone].generation);
    count_store(storing, drive, run->log);
    return append_rows(storing, run, span, drive, run->log);
}
