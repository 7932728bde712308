/* Document 01's book: of each zone what was written, how far it was flushed, and whether a reset was begun. */
#include "explore/oracle.h"

#include <stdlib.h>
#include <string.h>

#include "explore/ending.h"
#include "shelf.h"

struct oracle new_oracle(struct geometry geometry) {
    struct oracle oracle = {.zones = geometry.zones, .sector_bytes = geometry.sector_bytes};
    for (uint32_t z = 0; z < geometry.zones; z++) {
        oracle.zone[z].content = calloc(zone_addresses(geometry), sizeof *oracle.zone[z].content);
        must_have_memory(oracle.zone[z].content, zone_addresses(geometry) * sizeof *oracle.zone[z].content);
    }
    return oracle;
}

void free_oracle(struct oracle *oracle) {
    for (uint32_t z = 0; z < oracle->zones; z++)
        free(oracle->zone[z].content);
}

void copy_oracle(struct oracle *to, const struct oracle *from) {
    for (uint32_t z = 0; z < from->zones; z++) {
        const struct oracle_zone *source = &from->zone[z];
        memcpy(to->zone[z].content, source->content, source->length * sizeof *source->content);
        to->zone[z].length = source->length;
        to->zone[z].flushed = source->flushed;
        to->zone[z].reset_begun = source->reset_begun;
    }
}

void oracle_write(struct oracle *oracle, uint32_t zone, const uint8_t *data, uint32_t sectors) {
    struct oracle_zone *z = &oracle->zone[zone];
    for (uint32_t i = 0; i < sectors; i++)
        z->content[z->length++] = data + (size_t)i * oracle->sector_bytes;
}

void oracle_flush(struct oracle *oracle) {
    for (uint32_t z = 0; z < oracle->zones; z++)
        oracle->zone[z].flushed = oracle->zone[z].length;
}

void oracle_reset(struct oracle *oracle, uint32_t zone, bool finished) {
    if (finished) {
        oracle->zone[zone].length = 0;
        oracle->zone[zone].flushed = 0;
    } else {
        oracle->zone[zone].reset_begun = true;
    }
}

void oracle_mount(struct oracle *oracle, uint32_t zone, uint32_t pointer) {
    struct oracle_zone *z = &oracle->zone[zone];
    z->length = pointer;
    z->flushed = pointer;
    z->reset_begun = false;
}

enum fit pointer_fits(const struct oracle *oracle, uint32_t zone, uint32_t pointer) {
    const struct oracle_zone *z = &oracle->zone[zone];
    if (pointer == 0 && z->reset_begun)
        return FITS;
    if (pointer < z->flushed)
        return TOO_SHORT;
    return pointer > z->length ? TOO_LONG : FITS;
}

uint32_t first_difference(const struct oracle *oracle, uint32_t zone, uint32_t pointer, const uint8_t *bytes) {
    uint32_t sector = 0;
    while (sector < pointer && memcmp(bytes + (size_t)sector * oracle->sector_bytes, oracle->zone[zone].content[sector], oracle->sector_bytes) == 0)
        sector++;
    return sector;
}
