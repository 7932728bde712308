/* Placement: where a logical zone's sectors lie. Physical zones 0 to 2 of a drive are its logs and its spare zone (journal.h); logical zone z is physical zone
 * 3 + z of every drive. A stripe has D - 1 units of U sectors and one unit of parity, on a drive that moves on by one from stripe to stripe. */
#ifndef PLACEMENT_H
#define PLACEMENT_H

#include "bytes.h"
#include "call.h"

/* The kinds of log; each is also the number of the zone that is that log after a format. */
enum { GENERAL_LOG = 0, PARITY_LOG = 1 };

/* A cell is one drive's physical zone. */
enum { MOST_CELLS = ZRV_MOST_DRIVES * (ZRV_MOST_ZONES + ZRV_LOG_ZONES) };

static inline uint32_t stripe_sectors(struct geometry g) { return (g.drives - 1) * g.unit; }
static inline uint64_t zone_addresses(struct geometry g) { return (uint64_t)(g.drives - 1) * g.zone_sectors; }
static inline size_t physical_zones(struct geometry g) { return (size_t)g.zones + ZRV_LOG_ZONES; }
static inline size_t cell(struct geometry g, uint32_t drive, uint32_t physical_zone) { return drive * physical_zones(g) + physical_zone; }

/* The pointer of a cell in a table of pointers, of four bytes each: to read, and to change. */
enum { POINTER_BYTES = 4 };
static inline uint32_t pointer_in(struct range table, size_t cell) { return get32(table.bytes + POINTER_BYTES * cell); }
static inline void put_pointer(struct range table, size_t cell, uint32_t pointer) { put32(table.bytes + POINTER_BYTES * cell, pointer); }

/* Where a sector's bytes begin in the memory that holds all sectors. */
static inline size_t sector_offset(struct geometry g, uint32_t drive, uint32_t physical_zone, uint32_t sector) {
    return (cell(g, drive, physical_zone) * g.zone_sectors + sector) * g.sector_bytes;
}

static inline uint32_t parity_drive(struct geometry g, uint32_t zone, uint32_t stripe) { return (zone + stripe + g.drives - 1) % g.drives; }
static inline uint32_t unit_drive(struct geometry g, uint32_t parity, uint32_t unit) { return (parity + 1 + unit) % g.drives; }

/* Sectors that a drive has in a zone whose first `pointer` sectors are written. */
static inline uint32_t sectors_needed(struct geometry g, uint32_t zone, uint32_t pointer, uint32_t drive) {
    uint32_t stripe = pointer / stripe_sectors(g), inside = pointer % stripe_sectors(g);
    uint32_t unit = (drive + 2 * g.drives - parity_drive(g, zone, stripe) - 1) % g.drives;
    uint32_t whole = stripe * g.unit;
    if (unit == g.drives - 1 || inside <= unit * g.unit)
        return whole;
    uint32_t rest = inside - unit * g.unit;
    return whole + (rest < g.unit ? rest : g.unit);
}

#endif
