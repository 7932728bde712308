/* Placement on the plain volume's tables. */
#ifndef PLAIN_LAYOUT_H
#define PLAIN_LAYOUT_H

#include "placement.h"
#include "plain.h"

static inline uint8_t *sector_at(const struct volume *v, uint32_t drive, uint32_t physical_zone, uint32_t sector) {
    return v->sectors + sector_offset(v->geometry, drive, physical_zone, sector);
}

/* The drive that a call goes without: the lost one or the one not named. More than one is refused before this is asked. */
static inline uint32_t absent_drive(struct geometry g, uint32_t named, uint32_t lost) {
    for (uint32_t d = 0; d < g.drives; d++)
        if ((named >> d & 1) == 0 || lost == d)
            return d;
    return ZRV_NO_DRIVE;
}

#endif
