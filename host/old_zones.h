/* What drives that cache zone resets remember (document 02): of each cell, a drive's physical zone, what it held just before each reset since that drive's last
 * flush. In a power cut the cell may be left as a cut just then could have left it. */
#ifndef OLD_ZONES_H
#define OLD_ZONES_H

#include "shelf.h"
#include "stores.h"

/* It never changes once it is made: whoever copies a shelf may share it. */
struct old_zone {
    struct old_zone *older;       /* the same cell's, before an earlier reset */
    struct old_zone *made_before; /* in the pool */
    uint32_t written, durable;
    uint8_t bytes[]; /* the sectors below the written pointer */
};

/* The cells' newest ones; none: NULL. */
struct old_zones {
    struct old_zone *cell[MOST_CELLS];
};

/* Takes one store into account; `before` is the shelf just before it, and the pool gets what is made. False where there is no memory for it. */
bool remember_store(struct old_zones *old, const struct shelf *before, const struct store *store, struct old_zone **pool);

/* Frees what was made since the pool had this one as its newest; all of it with NULL. */
void empty_pool(struct old_zone **pool, const struct old_zone *back_to);

#endif
