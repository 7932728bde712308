/* What a sector of a zone holds: its own bytes, else the exclusive or of its row with the parity in place, else that with the last fitting log entry. */
#ifndef PLAIN_SECTORS_H
#define PLAIN_SECTORS_H

#include "plain_layout.h"

/* A sector of a zone by its stripe, unit and row, and the drive that the call goes without. */
struct sector_place {
    uint32_t absent, zone, stripe, unit, row;
};

struct sector_place place_of(struct geometry g, uint32_t absent, uint32_t zone, uint32_t offset);

/* The bytes of a sector: its own if it is held, else rebuilt in `space`; none where it is not known. */
const uint8_t *known_bytes(const struct volume *v, const struct sector_place *place, uint8_t *space);

/* Whether a run of sectors is known. */
bool run_known(const struct volume *v, uint32_t absent, uint32_t zone, uint32_t offset, uint32_t run);

static inline void xor_into(uint8_t *restrict to, const uint8_t *restrict from, size_t length) {
    for (size_t i = 0; i < length; i++)
        to[i] ^= from[i];
}

#endif
