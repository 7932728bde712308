/* What drives remember of zones that were reset. */
#include "old_zones.h"

#include <stdlib.h>
#include <string.h>

#include "bytes.h"

/* A zone without sectors is not remembered: it could only come back as what it is. */
static bool remember_zone(struct old_zones *old, const struct shelf *before, size_t cell, struct old_zone **pool) {
    struct geometry g = before->geometry;
    uint32_t written = pointer_in(before->written, cell);
    if (written == 0)
        return true;
    size_t bytes = (size_t)written * g.sector_bytes;
    struct old_zone *zone = malloc(sizeof *zone + bytes);
    if (zone == NULL)
        return false;
    *zone = (struct old_zone){old->cell[cell], *pool, written, pointer_in(before->durable, cell)};
    memcpy(zone->bytes, before->sectors.bytes + cell * g.zone_sectors * g.sector_bytes, bytes);
    old->cell[cell] = *pool = zone;
    return true;
}

bool remember_store(struct old_zones *old, const struct shelf *before, const struct store *store, struct old_zone **pool) {
    struct geometry g = before->geometry;
    if (store->kind == STORE_RESET)
        return remember_zone(old, before, cell(g, store->drive, store->zone), pool);
    if (store->kind == STORE_FLUSH)
        memset(old->cell + cell(g, store->drive, 0), 0, physical_zones(g) * sizeof *old->cell);
    return true;
}

void empty_pool(struct old_zone **pool, const struct old_zone *back_to) {
    while (*pool != NULL && *pool != back_to) {
        struct old_zone *zone = *pool;
        *pool = zone->made_before;
        free(zone);
    }
}
