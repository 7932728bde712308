/* Appends, zone resets and flushes on the plain volume's tables. */
#include "plain_stores.h"

#include <string.h>

bool next_place(const struct storing *storing, uint32_t drive, uint32_t physical_zone, uint8_t **place) {
    const struct volume *v = storing->v;
    *place = NULL;
    if (drive == storing->absent)
        return true;
    if (storing->left == 0)
        return false;
    *place = sector_at(v, drive, physical_zone, v->written[cell(v->geometry, drive, physical_zone)]);
    return true;
}

void count_store(struct storing *storing, uint32_t drive, uint32_t physical_zone) {
    storing->left--;
    storing->v->written[cell(storing->v->geometry, drive, physical_zone)]++;
}

bool append(struct storing *storing, uint32_t drive, uint32_t physical_zone, const uint8_t *sector) {
    uint8_t *place;
    if (!next_place(storing, drive, physical_zone, &place))
        return false;
    if (place == NULL)
        return true;
    memcpy(place, sector, storing->v->geometry.sector_bytes);
    count_store(storing, drive, physical_zone);
    return true;
}

/* Takes one store off the count. */
static bool may_store(struct storing *storing) {
    if (storing->left == 0)
        return false;
    storing->left--;
    return true;
}

bool reset_zone(struct storing *storing, uint32_t drive, uint32_t physical_zone) {
    size_t at = cell(storing->v->geometry, drive, physical_zone);
    if (drive == storing->absent)
        return true;
    if (!may_store(storing))
        return false;
    storing->v->written[at] = 0;
    storing->v->durable[at] = 0;
    return true;
}

bool flush_all(struct storing *storing) {
    struct volume *v = storing->v;
    size_t zones = physical_zones(v->geometry);
    for (uint32_t d = 0; d < v->geometry.drives; d++) {
        if (d == storing->absent)
            continue;
        if (!may_store(storing))
            return false;
        memcpy(v->durable + d * zones, v->written + d * zones, zones * sizeof *v->durable);
    }
    return true;
}
