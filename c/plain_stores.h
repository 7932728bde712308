/* The stores of a call. They skip the absent drive; where the count of stores has run out they make none and are false. */
#ifndef PLAIN_STORES_H
#define PLAIN_STORES_H

#include "plain_layout.h"

/* A storing call: the drive that it goes without and the stores that it may still make. */
struct storing {
    struct volume *v;
    uint32_t absent, left;
};

/* Where the next sector of a drive's zone goes, to be made there; nowhere on the absent drive. */
bool next_place(const struct storing *storing, uint32_t drive, uint32_t physical_zone, uint8_t **place);

/* The sector there is stored: the write pointer moves past it. */
void count_store(struct storing *storing, uint32_t drive, uint32_t physical_zone);

bool append(struct storing *storing, uint32_t drive, uint32_t physical_zone, const uint8_t *sector);
bool reset_zone(struct storing *storing, uint32_t drive, uint32_t physical_zone);
bool flush_all(struct storing *storing);

#endif
