/* Rows of parity, made from a write's data and the sectors before it: each where it is to lie, when its store is due. */
#ifndef PLAIN_ROWS_H
#define PLAIN_ROWS_H

#include "plain_stores.h"

/* The sectors of a zone below `end`: from `offset` on a write's data, before it those of the volume as it was at the call's start. */
struct run {
    const struct volume *before;
    uint32_t zone, offset, end;
    uint32_t log; /* the zone that the partial parity entry goes to, where `end` lies inside a stripe */
    const uint8_t *data;
};

static inline const uint8_t *run_bytes(const struct run *run, uint32_t offset) {
    return run->data + (size_t)(offset - run->offset) * run->before->geometry.sector_bytes;
}

/* Appends the parity of the stripe that `end` completes; false, as every store, where the count of stores has run out. */
bool append_parity(struct storing *storing, const struct run *run, uint32_t end);

/* Appends the partial parity entry of a run that ends inside a stripe. */
bool append_partial(struct storing *storing, const struct run *run);

#endif
