/* The host of a conformance script: the shelf that it lends, the geometry that it hands to the calls, the state that the last finished call left, and
 * by how much the next command's byte ranges are lent short. A call is made through the C edge; no rule of the volume is written here. */
#ifndef SCRIPT_HOST_H
#define SCRIPT_HOST_H

#include <stdbool.h>

#include "script.h"
#include "shelf.h"

enum { CODE_NO_STATE = 254 };

struct shortage {
    uint64_t sectors, written, durable, buffer;
};

struct host {
    struct shelf shelf;
    struct geometry geometry; /* handed to the calls; a script may change it under the same shelf */
    bool has_state;
    struct geometry made_by; /* the geometry of the call that left the state */
    uint8_t state[ZRV_STATE_BYTES];
    struct shortage shortage;
};

/* What a command leaves beside the host: its code, the state that a call handed back, the buffer that it wrote from or read into, the descriptors that a
 * report filled. */
struct reply {
    uint32_t code;
    uint8_t shown[ZRV_STATE_BYTES];
    struct range buffer;
    uint32_t filled;
    struct log_place bad; /* where a look or mount found a log bad */
};

/* A read with a state and drives, on the shelf's whole byte ranges, whatever the shortage. */
uint32_t host_read(const struct host *host, uint32_t named, uint64_t address, uint32_t run, uint8_t *state, struct range buffer);

/* Whether a command is a call that, finished, leaves a state to keep. */
bool leaves_state(char letter);

/* Carries a command out. The reply's buffer is the caller's to free. */
struct reply perform(struct host *host, const struct command *command);

#endif
