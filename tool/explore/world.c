/* The drives, the host and the oracle of one moment: calls made, power lost, everything copied. */
#include "explore/world.h"

#include <string.h>

#include "explore/ending.h"
#include "journal.h"

enum { ARRAY_NUMBER = 1 };

struct world new_world(struct geometry geometry) {
    struct world world = {.shelf = new_shelf(geometry), .named = (1u << geometry.drives) - 1, .oracle = new_oracle(geometry)};
    must_have_memory(world.shelf.written.bytes, shelf_bytes(geometry));
    return world;
}

void free_world(struct world *world) {
    free_shelf(&world->shelf);
    free_oracle(&world->oracle);
}

/* Only sectors that were ever touched in one of the two are copied: the others are zero in both. */
void copy_world(struct world *to, const struct world *from) {
    struct geometry g = from->shelf.geometry;
    size_t sector = g.sector_bytes, cell_bytes = g.zone_sectors * sector;
    for (size_t cell = 0; cell < shelf_cells(g); cell++) {
        uint32_t touched = to->touched[cell] > from->touched[cell] ? to->touched[cell] : from->touched[cell];
        memcpy(to->shelf.sectors.bytes + cell * cell_bytes, from->shelf.sectors.bytes + cell * cell_bytes, touched * sector);
        to->touched[cell] = from->touched[cell];
    }
    memcpy(to->shelf.written.bytes, from->shelf.written.bytes, from->shelf.written.length);
    memcpy(to->shelf.durable.bytes, from->shelf.durable.bytes, from->shelf.durable.length);
    memcpy(to->state, from->state, sizeof to->state);
    to->named = from->named;
    to->old = from->old;
    copy_oracle(&to->oracle, &from->oracle);
}

static struct call call_on(struct world *world, enum call_kind kind, uint8_t *state) {
    static uint8_t no_buffer[1];
    struct call call = {
        .kind = kind,
        .geometry = world->shelf.geometry,
        .named = world->named,
        .array = ARRAY_NUMBER,
        .count = ZRV_ALL_STORES,
        .range = {world->shelf.sectors, world->shelf.written, world->shelf.durable, {state, ZRV_STATE_BYTES}, {no_buffer, 0}},
    };
    return call;
}

/* Durable goes back to what it was, but for zones that were reset: a flush that kept nothing. */
static void take_flush_back(struct shelf *shelf, struct range before) {
    for (size_t cell = 0; cell < shelf_cells(shelf->geometry); cell++) {
        uint32_t durable = pointer_in(before, cell), written = pointer_in(shelf->written, cell);
        put_pointer(shelf->durable, cell, durable < written ? durable : written);
    }
}

/* After a call before which a cell had so many sectors written. A log that is emptied may have been appended to before its zone was reset. */
static void touch(struct world *world, size_t cell, uint32_t before) {
    struct geometry g = world->shelf.geometry;
    uint32_t written = pointer_in(world->shelf.written, cell);
    bool was_emptied = cell % physical_zones(g) < ZRV_LOG_ZONES && written < before;
    uint32_t touched = was_emptied ? g.zone_sectors : written;
    world->touched[cell] = touched > world->touched[cell] ? touched : world->touched[cell];
}

/* A call that stores, on drives that keep the duties less the broken one. */
static uint32_t store_by(struct world *world, const struct call *call, enum breakage breakage) {
    uint8_t durable_bytes[MOST_CELLS * POINTER_BYTES], written_bytes[MOST_CELLS * POINTER_BYTES];
    struct range durable = {durable_bytes, world->shelf.durable.length}, written = {written_bytes, world->shelf.written.length};
    memcpy(durable.bytes, world->shelf.durable.bytes, durable.length);
    memcpy(written.bytes, world->shelf.written.bytes, written.length);
    uint32_t answer = make_call(call);
    for (size_t cell = 0; cell < shelf_cells(world->shelf.geometry); cell++)
        touch(world, cell, pointer_in(written, cell));
    if (breakage == BREAK_FLUSH)
        take_flush_back(&world->shelf, durable);
    return answer;
}

uint32_t logs_emptied(const struct world *before, const struct world *after) {
    uint32_t count = 0;
    for (uint32_t d = 0; d < before->shelf.geometry.drives; d++) {
        struct log_zones from = log_zones_of(&before->shelf, d), to = log_zones_of(&after->shelf, d);
        for (uint32_t log = GENERAL_LOG; log <= PARITY_LOG; log++)
            count += find_log(&from, log) != find_log(&to, log);
    }
    return count;
}

uint32_t format_world(struct world *world) {
    struct call call = call_on(world, CALL_FORMAT, world->state);
    return store_by(world, &call, BREAK_NOTHING);
}

uint32_t look_at_world(struct world *world, uint8_t *shown) {
    struct call call = call_on(world, CALL_LOOK, shown);
    return make_call(&call);
}

uint32_t mount_world(struct world *world, uint32_t count, enum breakage breakage) {
    struct call call = call_on(world, CALL_MOUNT, world->state);
    call.count = count;
    return store_by(world, &call, breakage);
}

uint32_t read_world(struct world *world, uint8_t *shown, uint32_t zone, struct range answer) {
    struct call call = call_on(world, CALL_READ, shown);
    call.address = zone_start(call.geometry, zone);
    call.run = (uint32_t)(answer.length / call.geometry.sector_bytes);
    call.range[BUFFER] = answer;
    return make_call(&call);
}

uint32_t send_request(struct world *world, const struct request *request, uint32_t count, enum breakage breakage) {
    struct call call = call_on(world, request->kind, world->state);
    call.count = count;
    call.zone = request->zone;
    call.host = request->host;
    call.drive = request->drive;
    if (request->kind == CALL_WRITE) {
        call.address = address_to_write(call.geometry, world->state, request->zone);
        if (call.address == NO_ADDRESS)
            return ANSWER_ZONE_FULL;
        call.run = request->sectors;
        call.range[BUFFER] = (struct range){request->data, (size_t)request->sectors * call.geometry.sector_bytes};
    }
    uint32_t answer = store_by(world, &call, breakage);
    bool finished = answer == ZRV_FINISHED;
    if (!finished && answer != ZRV_UNFINISHED)
        return answer;
    if (request->kind == CALL_WRITE)
        oracle_write(&world->oracle, request->zone, request->data, request->sectors);
    else if (request->kind == CALL_RESET)
        oracle_reset(&world->oracle, request->zone, finished);
    else if (finished && request->kind != CALL_COMPACT) /* a flush, or a mount before which power did not go, and which shows everything */
        oracle_flush(&world->oracle);
    return answer;
}

void remember_in_world(struct world *world, const struct world *before, const struct store *store, struct old_zone **pool) {
    world->old = before->old;
    must_have_memory(remember_store(&world->old, &before->shelf, store, pool) ? pool : NULL, shelf_bytes(before->shelf.geometry));
}

void forget_old_zones(struct world *world) { memset(&world->old, 0, sizeof world->old); }

/* A zone's sectors from before its reset; they may be more than it has had since. */
static void bring_back(struct world *world, size_t cell, const struct old_zone *old) {
    size_t sector = world->shelf.geometry.sector_bytes;
    memcpy(world->shelf.sectors.bytes + cell * world->shelf.geometry.zone_sectors * sector, old->bytes, old->written * sector);
    world->touched[cell] = old->written > world->touched[cell] ? old->written : world->touched[cell];
}

void world_loses_power(struct world *world, const struct caches *caches, const struct shelf *torn_from) {
    size_t sector = world->shelf.geometry.sector_bytes, cell_sectors = world->shelf.geometry.zone_sectors;
    for (size_t cell = 0; cell < caches->cells; cell++) {
        const struct old_zone *back = caches->back.cell[cell];
        uint32_t kept = caches->kept[cell], durable = back == NULL ? caches->durable[cell] : back->durable;
        if (back != NULL)
            bring_back(world, cell, back);
        put_pointer(world->shelf.written, cell, kept);
        put_pointer(world->shelf.durable, cell, kept);
        if (torn_from != NULL && kept > durable) {
            size_t second_half = (cell * cell_sectors + kept - 1) * sector + sector / 2;
            memcpy(world->shelf.sectors.bytes + second_half, torn_from->sectors.bytes + second_half, sector / 2);
        }
    }
    forget_old_zones(world);
}
