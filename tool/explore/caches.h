/* What the drives' caches may keep when power goes: in each drive and zone any pointer from durable to written, of what it holds or of what it held before a reset
 * that the drive remembers. All of these contents in turn, or, where there are more than the limit, draws from a seed, after nothing kept, everything, each
 * drive's alone, and every remembered zone back, if the limit is well above that. */
#ifndef EXPLORE_CACHES_H
#define EXPLORE_CACHES_H

#include <stdbool.h>

#include "old_zones.h"

struct caches {
    size_t cells, cells_of_drive;
    uint32_t durable[MOST_CELLS], written[MOST_CELLS];
    struct old_zones old;
    uint64_t choices[MOST_CELLS]; /* of each cell */
    struct old_zones back;        /* the content at hand: what the cells that come back held, */
    uint32_t kept[MOST_CELLS];    /* and the sectors kept */
    uint64_t contents;            /* how many there are; UINT64_MAX stands for that many and more */
    uint64_t limit, taken;
    uint32_t draw;
};

struct caches new_caches(const struct shelf *shelf, const struct old_zones *old, uint64_t limit, uint32_t seed);
bool caches_are_drawn(const struct caches *caches);
/* The next content into kept; false after the last. */
bool next_caches(struct caches *caches);
/* Does the content at hand keep nothing of this drive but what is durable, and bring nothing back? */
bool keeps_only_durable(const struct caches *caches, uint32_t drive);

#endif
