/* `zrv look --json`: what a look answers and shows, for scripts. */
#ifndef LOOK_JSON_H
#define LOOK_JSON_H

#include "driver.h"

/* One object: the answer; the refusal, with its place if it has one; the lost drive; whether a mount is due; each zone's pointer, condition and generation;
 * of each drive its logs' zones, generations and unused sectors, and its spare zone. What is not there is null, and a refused look has no zones. */
void print_look_json(const struct driver *driver, uint32_t answer);

#endif
