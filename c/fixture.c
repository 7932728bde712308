/* Fixtures, made through the C edge: format, perhaps resets until logs are emptied, writes that end inside a stripe and at a stripe's end, perhaps a compact of
 * each drive, a flush; then a loss or a power cut, and a mount. */
#include "fixture.h"

#include <stdio.h>
#include <stdlib.h>
#include <string.h>

#include "bytes.h"
#include "shelf.h"

static const struct {
    const char *name;
    struct geometry geometry;
    uint32_t resets; /* of zone 0, before the writes */
    uint32_t lost;   /* lost after the writes */
    bool cut;        /* power is cut after the writes */
    bool compacted;  /* every parity log is emptied after the writes */
} plan[] = {
    {"healthy", {4, 64, 2, 2, 32}, .lost = ZRV_NO_DRIVE},
    {"a drive lost", {5, 64, 3, 3, 48}, .lost = 1},
    {"a zone sealed", {3, 128, 1, 4, 24}, .lost = ZRV_NO_DRIVE, .cut = true},
    {"logs emptied", {4, 64, 2, 2, 32}, 14, .lost = ZRV_NO_DRIVE, .compacted = true}, /* the resets empty the general logs of drives 0 and 3 */
    [SIXTEEN_ZONES] = {"sixteen zones", {3, 256, 1, 16, 48}, .lost = ZRV_NO_DRIVE},
};

static uint8_t *new_memory(size_t length) {
    uint8_t *memory = malloc(length);
    if (memory == NULL) {
        fprintf(stderr, "no memory for %zu bytes\n", length);
        exit(2);
    }
    memset(memory, GUARD, length);
    return memory;
}

static void lay_out(struct fixture *f, struct geometry g) {
    size_t table = ZRV_TABLE_BYTES(g.drives, g.zones), buffer = (zone_addresses(g) + 2) * g.sector_bytes;
    size_t length[RANGES] = {shelf_cells(g) * g.zone_sectors * g.sector_bytes, table, table, ZRV_STATE_BYTES, buffer};
    f->memory_bytes = GUARD_BYTES;
    for (int i = 0; i < RANGES; i++)
        f->memory_bytes += length[i] + GUARD_BYTES;
    f->memory = new_memory(f->memory_bytes);
    f->base = new_memory(f->memory_bytes);
    f->before = new_memory(f->memory_bytes);
    f->expected.sectors = new_memory(length[SECTORS] + GUARD_BYTES);
    f->expected.answer = new_memory(buffer + GUARD_BYTES);
    uint8_t *at = f->memory + GUARD_BYTES;
    for (int i = 0; i < RANGES; i++) {
        f->range[i] = (struct range){at, length[i]};
        at += length[i] + GUARD_BYTES;
    }
    for (int i = 0; i < STATE; i++)
        memset(f->range[i].bytes, 0, length[i]);
    fill_from_stream(f->range[BUFFER].bytes, buffer, 1);
}

static void must_finish(const struct call *call) {
    uint32_t code = make_call(call);
    if (code != ZRV_FINISHED) {
        printf("a fixture's call %c answered %u\n", call->kind, code);
        exit(1);
    }
}

static void write_at_pointer(struct fixture *f, uint32_t host, uint32_t zone, uint32_t run) {
    struct call call = usual_call(f, CALL_WRITE);
    call.host = host;
    call.address = zone * zone_addresses(f->geometry) + zone_pointer(f, zone);
    call.run = run;
    call.range[BUFFER] = buffer_of(f, run);
    must_finish(&call);
}

/* Zone 0, of host 0, ends inside a stripe after a complete one, zone 1 inside its first, by a write of each host. */
static void write_zones(struct fixture *f) {
    struct geometry g = f->geometry;
    uint32_t stripe = (g.drives - 1) * g.unit;
    write_at_pointer(f, 0, 0, stripe + 1);
    write_at_pointer(f, 0, 1, 1);
    if (stripe > 2)
        write_at_pointer(f, 1, 1, stripe - 2);
}

static void compact_all(struct fixture *f) {
    for (uint32_t d = 0; d < f->geometry.drives; d++) {
        struct call call = usual_call(f, CALL_COMPACT);
        call.drive = d;
        must_finish(&call);
    }
}

/* A cut that keeps of zone 0 its first sector, while its partial parity entry of a later end stays: the mount must seal the zone. */
static void cut_and_mount(struct fixture *f) {
    struct geometry g = f->geometry;
    size_t zones = (size_t)g.zones + ZRV_LOG_ZONES;
    for (uint32_t d = 0; d < g.drives; d++)
        put_pointer(f->range[WRITTEN], d * zones + ZRV_LOG_ZONES, d == 0 ? 1 : 0);
    memcpy(f->range[DURABLE].bytes, f->range[WRITTEN].bytes, f->range[WRITTEN].length);
    struct call call = usual_call(f, CALL_MOUNT);
    must_finish(&call);
    if (zone_record(f->range[STATE].bytes, 0)[ZRV_RECORD_CONDITION] != ZRV_SEALED) {
        printf("a fixture's zone is not sealed\n");
        exit(1);
    }
}

struct fixture new_fixture(int which) {
    struct fixture f = {.name = plan[which].name, .geometry = plan[which].geometry};
    lay_out(&f, plan[which].geometry);
    struct call call = usual_call(&f, CALL_FORMAT);
    must_finish(&call);
    call = usual_call(&f, CALL_RESET);
    for (uint32_t i = 0; i < plan[which].resets; i++)
        must_finish(&call);
    write_zones(&f);
    if (plan[which].compacted)
        compact_all(&f);
    call = usual_call(&f, CALL_FLUSH);
    must_finish(&call);
    if (plan[which].lost != ZRV_NO_DRIVE) {
        call = usual_call(&f, CALL_MOUNT);
        call.named &= ~(1u << plan[which].lost);
        must_finish(&call);
    }
    if (plan[which].cut)
        cut_and_mount(&f);
    memcpy(f.base, f.memory, f.memory_bytes);
    return f;
}

void free_fixture(struct fixture *f) {
    free(f->memory);
    free(f->base);
    free(f->before);
    free(f->expected.sectors);
    free(f->expected.answer);
}

void restore(struct fixture *f) { memcpy(f->memory, f->base, f->memory_bytes); }

struct range buffer_of(const struct fixture *f, uint32_t run) {
    struct range buffer = f->range[BUFFER];
    size_t wanted = (size_t)run * f->geometry.sector_bytes;
    buffer.length = wanted < buffer.length ? wanted : buffer.length;
    return buffer;
}

uint32_t zone_pointer(const struct fixture *f, uint32_t zone) { return get32(zone_record(f->range[STATE].bytes, zone) + ZRV_RECORD_POINTER); }

struct call usual_call(const struct fixture *f, enum call_kind kind) {
    struct call call = {.kind = kind, .geometry = f->geometry, .named = (1u << f->geometry.drives) - 1, .array = 77, .count = ZRV_ALL_STORES};
    memcpy(call.range, f->range, sizeof f->range);
    call.run = kind == CALL_WRITE ? 2 : 1;
    if (kind == CALL_WRITE)
        call.address = zone_pointer(f, 0);
    call.range[BUFFER] = buffer_of(f, call.run);
    if (kind == CALL_PEEK)
        call.range[BUFFER].length = ZRV_PLACE_BYTES;
    if (kind == CALL_REPORT)
        call.range[BUFFER] = f->range[BUFFER];
    return call;
}
