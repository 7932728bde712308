/* The commands of a conformance script that are no calls: a new shelf, another geometry, a shortage, a power cut, and damage to sectors, write pointers
 * and the host's state. */
#ifndef DAMAGE_H
#define DAMAGE_H

#include "script_host.h"

void change_host(struct host *host, const struct command *command);

#endif
