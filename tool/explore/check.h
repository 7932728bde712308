/* Looks and mounts whose showing is held against the oracle. Each puts its event on the trail. */
#ifndef EXPLORE_CHECK_H
#define EXPLORE_CHECK_H

#include "explore/engine.h"

struct event *push_event(struct explorer *explorer, struct event event);

/* A look, and whether what it shows fits. mounted: reads below the pointers must not be refused. */
bool look_fits(struct explorer *explorer, struct world *world, uint8_t *shown, bool mounted);
/* A mount to its end and a look after it; the oracle is told. False where it does not fit, and where the log is full. */
bool mount_fits(struct explorer *explorer, struct world *world);
/* The oracle is told of what a finished mount shows. */
void tell_oracle(struct world *world, uint8_t *shown);

#endif
