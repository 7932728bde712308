/* Format, write, reset, compact, read, flush and report in plain C. A write appends its data sectors by address, then the stripe's parity where the stripe is
 * complete, or a partial parity entry in the log where the write ends inside one. Before its stores a reset empties the logs that lack room for it. */
#include "plain.h"

#include <string.h>

#include "hosts.h"
#include "plain_emptying.h"
#include "plain_logs.h"
#include "plain_rows.h"
#include "plain_sectors.h"

uint32_t plain_read(const struct volume *v, uint32_t named, uint64_t address, uint32_t run, uint8_t *answer, size_t answer_bytes) {
    uint32_t refusal = read_refusal(v, named, address, run, answer_bytes);
    if (refusal != ZRV_FINISHED)
        return refusal;
    uint32_t whole = (uint32_t)zone_addresses(v->geometry), zone = (uint32_t)(address / whole), offset = (uint32_t)(address % whole);
    uint32_t absent = absent_drive(v->geometry, named, v->state.lost);
    if (!run_known(v, absent, zone, offset, run))
        return ZRV_GONE;
    for (uint32_t i = 0; i < run; i++) {
        uint8_t *to = answer + (size_t)i * v->geometry.sector_bytes;
        struct sector_place place = place_of(v->geometry, absent, zone, offset + i);
        const uint8_t *from = known_bytes(v, &place, to);
        if (from != to)
            memcpy(to, from, v->geometry.sector_bytes);
    }
    return ZRV_FINISHED;
}

/* The sectors of one stripe that a write brings, from `offset` to `end` in its zone, and their parity. */
static bool write_stripe(struct storing *storing, const struct run *run, uint32_t offset, uint32_t end) {
    struct geometry g = storing->v->geometry;
    uint32_t parity = parity_drive(g, run->zone, offset / stripe_sectors(g));
    for (; offset < end; offset++)
        if (!append(storing, unit_drive(g, parity, offset % stripe_sectors(g) / g.unit), ZRV_LOG_ZONES + run->zone, run_bytes(run, offset)))
            return false;
    if (end % stripe_sectors(g) == 0)
        return append_parity(storing, run, end);
    return append_partial(storing, run);
}

static bool write_stripes(struct storing *storing, const struct run *run) {
    uint32_t stripe = stripe_sectors(storing->v->geometry);
    for (uint32_t offset = run->offset, stop; offset < run->end; offset = stop) {
        stop = offset - offset % stripe + stripe;
        stop = stop < run->end ? stop : run->end;
        if (!write_stripe(storing, run, offset, stop))
            return false;
    }
    return true;
}

/* Refusal 15 of a write: a sector before it, in its first stripe, that the stripe's parity needs and that is not known. */
static bool earlier_known(const struct storing *storing, const struct run *run) {
    struct geometry g = storing->v->geometry;
    uint32_t inside = run->offset % stripe_sectors(g), parity = parity_drive(g, run->zone, run->offset / stripe_sectors(g));
    return parity == storing->absent || run_known(storing->v, storing->absent, run->zone, run->offset - inside, inside);
}

/* What a write's entry takes, and of what: nothing where it ends at a stripe's end, or the drive that would get the entry is absent. */
struct entry {
    uint32_t sectors, *share; /* of its host, of the drive that gets it */
};

/* Finds the log of a write's entry and what the entry takes; false where there is too little room or share for it (refusal 14). */
static bool find_entry_log(const struct storing *storing, uint32_t host, struct run *run, struct entry *entry) {
    struct volume *v = storing->v;
    uint32_t drive = entry_drive(v->geometry, run->zone, run->end);
    *entry = (struct entry){drive == storing->absent ? 0 : entry_sectors(v->geometry, run->end), &v->state.share[drive][host]};
    if (entry->sectors == 0)
        return true;
    run->log = log_zone(v, drive, PARITY_LOG);
    return *entry->share >= entry->sectors && unused(v, drive, run->log) >= entry->sectors + parity_reserve(v->geometry);
}

/* A write's stores. An absent drive's sectors before the run are rebuilt from what lay below the write pointers at the call's start: stores into what was
 * empty leave it as it was. */
static bool store_run(struct storing *storing, struct run run) {
    uint32_t written[MOST_CELLS];
    struct volume before;
    if (storing->absent != ZRV_NO_DRIVE) {
        before = *storing->v;
        before.written = memcpy(written, before.written, before.written_cells * sizeof *written);
        run.before = &before;
    }
    return write_stripes(storing, &run);
}

uint32_t plain_write(struct volume *v, uint32_t named, const struct asked *asked, uint32_t count) {
    uint32_t refusal = write_refusal(v, named, asked);
    if (refusal != ZRV_FINISHED)
        return refusal;
    uint32_t whole = (uint32_t)zone_addresses(v->geometry), offset = (uint32_t)(asked->address % whole);
    struct run run = {v, (uint32_t)(asked->address / whole), offset, offset + asked->run, NO_ZONE, asked->data};
    struct storing storing = {v, absent_drive(v->geometry, named, v->state.lost), count};
    struct entry entry;
    if (!find_entry_log(&storing, asked->host, &run, &entry))
        return ZRV_LOG_FULL;
    if (!earlier_known(&storing, &run))
        return ZRV_GONE;
    if (!store_run(&storing, run))
        return ZRV_UNFINISHED;
    v->state.lost = storing.absent;
    v->state.zone[run.zone].condition = ZRV_OPEN;
    v->state.zone[run.zone].pointer = run.end;
    v->state.zone[run.zone].owner = ZRV_OWNER(asked->host);
    *entry.share -= entry.sectors;
    return ZRV_FINISHED;
}

uint32_t plain_flush(struct volume *v, uint32_t named, uint32_t count) {
    uint32_t refusal = flush_refusal(v, named);
    if (refusal != ZRV_FINISHED)
        return refusal;
    struct storing storing = {v, absent_drive(v->geometry, named, v->state.lost), count};
    if (!flush_all(&storing))
        return ZRV_UNFINISHED;
    v->state.lost = storing.absent;
    return ZRV_FINISHED;
}

static bool reset_on_all(struct storing *storing, uint32_t physical_zone) {
    for (uint32_t d = 0; d < storing->v->geometry.drives; d++)
        if (!reset_zone(storing, d, physical_zone))
            return false;
    return true;
}

static bool append_to_general(struct storing *storing, uint32_t drive, const uint8_t *sector) {
    return drive == storing->absent || append(storing, drive, log_zone(storing->v, drive, GENERAL_LOG), sector);
}

static bool empty_general_logs(struct storing *storing) {
    struct volume *v = storing->v;
    for (uint32_t d = 0; d < v->geometry.drives; d++)
        if (d != storing->absent && log_lacks(v, d, GENERAL_LOG, reset_reserve(v->geometry)) && !empty_log(storing, d, GENERAL_LOG))
            return false;
    return true;
}

/* The stores of a reset, after which the state is `after`. Drives may cache a zone reset until they are flushed: counters that end the generation come only when
 * no zone can come back. */
static bool reset_everywhere(struct storing *storing, uint32_t zone, const struct volume_state *after) {
    struct volume *v = storing->v;
    struct geometry g = v->geometry;
    uint8_t sector[ZRV_MOST_SECTOR_BYTES];
    uint32_t parity = parity_drive(g, zone, 0), unit = unit_drive(g, parity, 0);
    reset_header(sector, g, zone, v->state.zone[zone].generation);
    if (!append_to_general(storing, parity < unit ? parity : unit, sector) || !append_to_general(storing, parity < unit ? unit : parity, sector))
        return false;
    if (!flush_all(storing) || !reset_on_all(storing, ZRV_LOG_ZONES + zone) || !flush_all(storing))
        return false;
    counters_header(sector, g, after);
    for (uint32_t d = 0; d < g.drives; d++)
        if (!append_to_general(storing, d, sector))
            return false;
    return flush_all(storing);
}

uint32_t plain_reset(struct volume *v, uint32_t named, uint32_t zone, uint32_t count) {
    uint32_t refusal = reset_refusal(v, named, zone);
    if (refusal != ZRV_FINISHED)
        return refusal;
    struct storing storing = {v, absent_drive(v->geometry, named, v->state.lost), count};
    struct volume_state after = v->state;
    uint64_t raised = after.zone[zone].generation + 1;
    after.lost = storing.absent;
    after.zone[zone] = (struct zone_state){raised, raised == UINT64_MAX ? ZRV_WORN : ZRV_EMPTY, 0, ZRV_NOBODY};
    if (!empty_general_logs(&storing) || !reset_everywhere(&storing, zone, &after))
        return ZRV_UNFINISHED;
    v->state = after;
    return ZRV_FINISHED;
}

/* Both hosts' shares of a drive's parity log begin anew, by the room that it has. */
static void share_log(struct volume_state *state, struct geometry g, uint32_t drive, uint32_t room) {
    for (uint32_t host = 0; host < ZRV_HOSTS; host++)
        state->share[drive][host] = share_of_room(g, room);
}

uint32_t plain_compact(struct volume *v, uint32_t named, uint32_t drive, uint32_t count) {
    uint32_t refusal = compact_refusal(v, named, drive);
    if (refusal != ZRV_FINISHED)
        return refusal;
    struct storing storing = {v, absent_drive(v->geometry, named, v->state.lost), count};
    if (!empty_log(&storing, drive, PARITY_LOG))
        return ZRV_UNFINISHED;
    v->state.lost = storing.absent;
    share_log(&v->state, v->geometry, drive, unused(v, drive, log_zone(v, drive, PARITY_LOG)));
    return ZRV_FINISHED;
}

static bool reset_all(struct storing *storing) {
    for (uint32_t d = 0; d < storing->v->geometry.drives; d++)
        for (uint32_t y = 0; y < physical_zones(storing->v->geometry); y++)
            if (!reset_zone(storing, d, y))
                return false;
    return true;
}

static bool append_labels(struct storing *storing, const struct volume_state *state, uint64_t array) {
    struct geometry g = storing->v->geometry;
    uint8_t label[ZRV_MOST_SECTOR_BYTES], counters[ZRV_MOST_SECTOR_BYTES];
    counters_header(counters, g, state);
    for (uint32_t d = 0; d < g.drives; d++) {
        label_header(label, g, d, state->lost, array);
        if (!append(storing, d, GENERAL_LOG, label) || !append(storing, d, GENERAL_LOG, counters))
            return false;
    }
    return true;
}

uint32_t plain_format(struct volume *v, uint32_t named, uint64_t array, uint32_t count) {
    uint32_t refusal = format_refusal(v, named);
    if (refusal != ZRV_FINISHED)
        return refusal;
    struct storing storing = {v, absent_drive(v->geometry, named, ZRV_NO_DRIVE), count};
    struct volume_state fresh = {.lost = storing.absent};
    for (uint32_t z = 0; z < v->geometry.zones; z++)
        fresh.zone[z].generation = 1;
    for (uint32_t d = 0; d < v->geometry.drives; d++)
        share_log(&fresh, v->geometry, d, d == storing.absent ? 0 : v->geometry.zone_sectors);
    if (!reset_all(&storing) || !flush_all(&storing) || !append_labels(&storing, &fresh, array) || !flush_all(&storing))
        return ZRV_UNFINISHED;
    v->state = fresh;
    return ZRV_FINISHED;
}

static uint8_t reported_condition(uint32_t condition) {
    if (condition == ZRV_EMPTY)
        return ZRV_REPORTED_EMPTY;
    return condition == ZRV_OPEN ? ZRV_REPORTED_OPEN : ZRV_REPORTED_READ_ONLY;
}

uint32_t plain_report(const struct volume *v, uint8_t *list, size_t list_bytes, uint32_t *filled) {
    *filled = 0;
    uint32_t refusal = report_refusal(v);
    if (refusal != ZRV_FINISHED)
        return refusal;
    size_t room = list_bytes / ZRV_DESCRIPTOR_BYTES;
    for (; *filled < room && *filled < v->geometry.zones; ++*filled) {
        uint8_t *descriptor = list + (size_t)*filled * ZRV_DESCRIPTOR_BYTES;
        memset(descriptor, 0, ZRV_DESCRIPTOR_BYTES);
        put64(descriptor + ZRV_DESCRIPTOR_START, *filled * zone_addresses(v->geometry));
        put64(descriptor + ZRV_DESCRIPTOR_CAPACITY, zone_addresses(v->geometry));
        put64(descriptor + ZRV_DESCRIPTOR_POINTER, v->state.zone[*filled].pointer);
        descriptor[ZRV_DESCRIPTOR_CONDITION] = reported_condition(v->state.zone[*filled].condition);
    }
    return ZRV_FINISHED;
}
