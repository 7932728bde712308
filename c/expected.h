/* What a call should answer: the number that document 01's table gives for its numbers and bytes, worked out in plain C, and for all but look, mount and
 * peek the bytes that it should leave. */
#ifndef EXPECTED_H
#define EXPECTED_H

#include "placement.h"
#include "plain.h"

struct expected {
    uint32_t code;
    bool bytes_known;                  /* the bytes below are those that the call should leave */
    struct volume volume;              /* its sectors and tables are the caller's, below */
    uint8_t *sectors;                  /* space for as many sectors as the call is lent */
    uint8_t *answer;                   /* space for a read's answer or a report's list */
    uint32_t filled;                   /* descriptors of a report */
    struct log_place bad;              /* where a look or mount finds a log bad */
    uint32_t written[MOST_CELLS], durable[MOST_CELLS];
};

void expect(struct expected *expected, const struct call *call);

/* Whether the byte ranges hold what is expected. */
bool bytes_as_expected(const struct expected *expected, const struct call *call);

void state_to_bytes(const struct volume_state *state, struct geometry geometry, uint8_t *bytes);

#endif
