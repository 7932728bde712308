/* The memory that a host lends, and the stream of a seed. */
#include "shelf.h"

#include <stdlib.h>
#include <string.h>

#include "bytes.h"

/* The stream: numbers below 2^31, the lower 16 bits of which are not used. */
#define STREAM_MODULUS (UINT64_C(1) << 31)
enum { STREAM_FACTOR = 1103515245, STREAM_STEP = 12345, STREAM_UNUSED = 1 << 16 };

size_t shelf_cells(struct geometry geometry) { return geometry.drives * physical_zones(geometry); }

struct range new_range(size_t length) {
    struct range range = {calloc(length + 1, 1), length};
    return range.bytes == NULL ? (struct range){NULL, 0} : range;
}

size_t shelf_bytes(struct geometry geometry) { return shelf_cells(geometry) * geometry.zone_sectors * geometry.sector_bytes; }

bool has_memory(const struct shelf *shelf) { return shelf->written.bytes != NULL; }

/* A shelf whole, or nothing of it. */
static struct shelf all_or_none(struct shelf shelf, bool good) {
    if (good)
        return shelf;
    free_shelf(&shelf);
    return (struct shelf){.geometry = shelf.geometry};
}

struct shelf new_pointers(struct geometry geometry) {
    size_t table = ZRV_TABLE_BYTES(geometry.drives, geometry.zones);
    struct shelf shelf = {
        .geometry = geometry,
        .written = new_range(table),
        .durable = new_range(table),
        .old_written = new_range(table),
        .old_durable = new_range(table),
    };
    return all_or_none(shelf, shelf.written.bytes != NULL && shelf.durable.bytes != NULL && shelf.old_written.bytes != NULL && shelf.old_durable.bytes != NULL);
}

struct shelf new_shelf(struct geometry geometry) {
    struct shelf shelf = new_pointers(geometry);
    if (!has_memory(&shelf))
        return shelf;
    shelf.sectors = new_range(shelf_bytes(geometry));
    return all_or_none(shelf, shelf.sectors.bytes != NULL);
}

struct shelf copy_shelf(const struct shelf *shelf) {
    struct geometry g = shelf->geometry;
    struct shelf copy = new_shelf(g);
    if (!has_memory(&copy))
        return copy;
    memcpy(copy.written.bytes, shelf->written.bytes, shelf->written.length);
    memcpy(copy.durable.bytes, shelf->durable.bytes, shelf->durable.length);
    for (size_t cell = 0; cell < shelf_cells(g); cell++) {
        uint32_t written = pointer_in(shelf->written, cell);
        size_t at = cell * g.zone_sectors * g.sector_bytes, sectors = written < g.zone_sectors ? written : g.zone_sectors;
        memcpy(copy.sectors.bytes + at, shelf->sectors.bytes + at, sectors * g.sector_bytes);
    }
    return copy;
}

void free_shelf(struct shelf *shelf) {
    free(shelf->sectors.bytes);
    free(shelf->written.bytes);
    free(shelf->durable.bytes);
    free(shelf->old_written.bytes);
    free(shelf->old_durable.bytes);
}

void keep_sectors(struct shelf *shelf, size_t cell, uint32_t kept) {
    put_pointer(shelf->written, cell, kept);
    put_pointer(shelf->durable, cell, kept);
}

void lose_power_at_random(struct shelf *shelf, uint64_t seed) {
    uint32_t draw = first_draw(seed);
    for (size_t cell = 0; cell < shelf_cells(shelf->geometry); cell++) {
        uint32_t written = pointer_in(shelf->written, cell);
        uint32_t kept = pointer_in(shelf->durable, cell);
        draw = next_draw(draw);
        if (kept < written)
            kept += (uint32_t)(draw / STREAM_UNUSED % ((uint64_t)(written - kept) + 1));
        keep_sectors(shelf, cell, kept);
    }
}

uint64_t table_sum(struct range table) {
    uint64_t sum = 0;
    for (size_t cell = 0; cell < table.length / POINTER_BYTES; cell++)
        sum += pointer_in(table, cell);
    return sum;
}

uint32_t first_draw(uint64_t seed) { return (uint32_t)(seed % STREAM_MODULUS); }

uint32_t next_draw(uint32_t draw) { return (uint32_t)(((uint64_t)draw * STREAM_FACTOR + STREAM_STEP) % STREAM_MODULUS); }

bool says_yes(uint32_t draw) { return __builtin_parity(draw / STREAM_UNUSED) != 0; }

void fill_from_stream(uint8_t *bytes, size_t length, uint64_t seed) {
    uint32_t draw = first_draw(seed);
    for (size_t i = 0; i < length; i++) {
        draw = next_draw(draw);
        bytes[i] = (uint8_t)(draw / STREAM_UNUSED);
    }
}
