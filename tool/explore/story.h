/* The events of the history at hand, and the telling of one that ends in what does not fit. */
#ifndef EXPLORE_STORY_H
#define EXPLORE_STORY_H

#include <stdio.h>

#include "explore/world.h"

enum event_kind { EVENT_CALL, EVENT_POWER, EVENT_DRIVE_GONE, EVENT_DRIVE_LEFT_OUT, EVENT_DRIVE_NAMED, EVENT_LOOK, EVENT_LOOK_FOR_MOUNT, EVENT_MOUNT };

struct event {
    enum event_kind kind;
    const struct request *request; /* call */
    uint32_t pointer;              /* write: the zone's, before it */
    uint32_t stores, answer;       /* call, look, mount */
    uint32_t drive;                /* drive gone, left out or named again */
    const struct caches *caches;   /* power: what was kept */
    const struct shelf *shelf;     /* power: as it was before */
    uint8_t *shown;                /* look, mount */
};

enum { MOST_EVENTS = 2 * MOST_REQUESTS + 16 };

struct trail {
    struct event event[MOST_EVENTS];
    size_t length;
};

/* What does not fit, and where. */
enum trouble { NO_TROUBLE, LOOK_REFUSED, MOUNT_REFUSED, READ_REFUSED, SHOWN_SHORT, SHOWN_LONG, SHOWN_OTHER, TROUBLES };

struct verdict {
    enum trouble trouble;
    uint32_t zone, pointer;
    uint32_t answer; /* of what was refused */
    uint32_t sector; /* the first that has other bytes */
};

void tell_request(FILE *out, const struct request *request);
void tell_answer_of_call(FILE *out, uint32_t answer); /* "finished", or how it was not */
void tell_story(FILE *out, const struct trail *trail, const struct world *world, const struct verdict *verdict);

#endif
