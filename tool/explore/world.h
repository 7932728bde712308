/* A moment of a history: the drives with their caches, the host's state and named drives, and the oracle. Calls, the loss of power and a copy of it all. */
#ifndef EXPLORE_WORLD_H
#define EXPLORE_WORLD_H

#include "explore/caches.h"
#include "explore/options.h"
#include "explore/oracle.h"
#include "zone_pointer.h"

struct world {
    struct shelf shelf;
    uint32_t touched[MOST_CELLS]; /* the sectors of each drive and zone that may differ from zero */
    struct old_zones old;         /* what the drives remember of zones that were reset */
    uint8_t state[ZRV_STATE_BYTES];
    uint32_t named;
    struct oracle oracle;
};

/* All drives named, nothing formatted. */
struct world new_world(struct geometry geometry);
void free_world(struct world *world);
void copy_world(struct world *to, const struct world *from);

/* Calls; each returns the answer. Their stores are made on drives that keep the duties, less the broken one. */
uint32_t format_world(struct world *world);
uint32_t look_at_world(struct world *world, uint8_t *shown);
uint32_t mount_world(struct world *world, uint32_t count, enum breakage breakage);
uint32_t read_world(struct world *world, uint8_t *shown, uint32_t zone, struct range answer);
/* A request sent, and told to the oracle. */
uint32_t send_request(struct world *world, const struct request *request, uint32_t count, enum breakage breakage);

/* How many logs a call emptied. */
uint32_t logs_emptied(const struct world *before, const struct world *after);

/* The world after one more store of a call, whose world before that store is given: what the drives remember then. */
void remember_in_world(struct world *world, const struct world *before, const struct store *store, struct old_zone **pool);
/* The drives are all flushed: they remember nothing. */
void forget_old_zones(struct world *world);

/* Power goes: a cut. Each drive and zone keeps what the caches say. torn_from: where not NULL, the last sector that a cache keeps past its durable
 * pointer has its second half from there. */
void world_loses_power(struct world *world, const struct caches *caches, const struct shelf *torn_from);

#endif
