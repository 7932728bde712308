/* The search: every moment at which power can go, every content of the caches, every drive that may not come back, and the mount of each, itself stopped
 * after every store. Everything that is shown is held against the oracle. */
#ifndef EXPLORE_ENGINE_H
#define EXPLORE_ENGINE_H

#include "explore/story.h"
#include "refusals.h"

/* How a request ended, sent without a loss of power. */
struct outcome {
    uint32_t stores, answer;
    uint32_t emptied; /* logs */
};

/* Calls under way: the world before the call at hand, as it is after some of its stores, and as it was one store before. */
struct level {
    struct world base, moment, last;
    struct store_list list; /* the stores of the call at hand; not told where drives cache no resets */
    struct outcome outcome[MOST_REQUESTS];
    size_t sent;     /* requests, the one at hand included */
    uint32_t stores; /* made by the one at hand */
};

/* A moment of the first calls at which power goes. */
struct moment {
    size_t sent;
    uint32_t stores;
    uint64_t contents, limit; /* of the caches: how many there are, and how many are gone through */
    struct {
        uint32_t length, flushed;
        bool reset_begun;
        uint64_t *shown, *misfit; /* how many looks showed the zone at each pointer, fitting or not */
    } zone[ZRV_STATE_RECORDS];
};

struct counts {
    uint64_t returns;        /* times power came back after the first loss: moments, caches, drives */
    uint64_t stopped_mounts; /* mounts stopped after a store that changed something */
    uint64_t second_returns; /* times power came back after the second loss */
    uint64_t looks, mounts, sectors;
    uint64_t unread;       /* zones that a look showed and a read gave only after the mount */
    uint64_t full_mounts;  /* mounts that refused for a full log, which is no misfit */
    uint64_t drawn;        /* second losses of power whose caches were drawn */
    uint64_t left_out;     /* second losses of power for which nothing was left of the budget */
    uint64_t unaffordable; /* returns of power for whose second losses nothing was left */
    uint64_t misfits, trouble[TROUBLES], refused[LAST_REFUSAL + 1];
};

struct explorer {
    const struct options *options;
    struct counts counts;
    struct trail trail;
    struct level first, later; /* the calls; those that follow a mount */
    struct world formatted, returned, mounted, again;
    struct world tried[2];      /* a call tried for its stores: with one less, and with one more */
    struct store_list mount;    /* the stores of the mount at hand */
    struct old_zone *old_zones; /* what the drives of any world remember */
    struct stop {
        struct world world;
        uint32_t stores;
    } *stop; /* a mount stopped after each store that changed something */
    size_t stops, stop_room;
    struct moment *moments;
    size_t moments_length, moment_at;
    uint8_t *answer;             /* a zone's sectors, read back */
    uint64_t contents;           /* of the caches, over all moments */
    uint64_t returns_left, pool; /* first returns to come; final states left in the budget */
    uint64_t first_share;        /* of the pool for each return, at the start */
    struct share {
        bool all;
        uint64_t moments, allowance, most;
    } share; /* of the second losses at hand */
    uint32_t draw;
    struct {
        uint64_t moments, contents;
    } tally; /* of the calls that follow a mount */
    /* A history that does not fit, NULL if none: the shortest, where one that shows something wrong goes before one that ends in a refusal. */
    char *story;
    size_t story_bytes, story_rank;
    bool shows_progress;
};

/* Formats, and goes through the calls once to count. The answer of the format. */
uint32_t prepare_explorer(struct explorer *explorer, const struct options *options);
/* Is the budget enough for one content of the caches at each moment? Sets how many are gone through. */
bool share_budget(struct explorer *explorer);
void explore(struct explorer *explorer);
void free_explorer(struct explorer *explorer);

#endif
