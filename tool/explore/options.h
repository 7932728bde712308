/* What `zrv explore` is asked: the geometry, the calls, the duty to break, how much to go through. */
#ifndef EXPLORE_OPTIONS_H
#define EXPLORE_OPTIONS_H

#include <stdbool.h>

#include "call.h"

enum { MOST_REQUESTS = 32 };

/* The duties of drives and host that can be broken on purpose. */
enum breakage { BREAK_NOTHING, BREAK_FLUSH, BREAK_SECTOR, BREAK_SECOND_DRIVE, BREAK_LOST_AGAIN, BREAK_KEPT_OUT, BREAK_MOUNT, BREAK_RESET, BREAKAGES };

/* A call to be sent: a write at its zone's pointer, a flush, a mount, a reset of a zone, or a compact of a drive. */
struct request {
    enum call_kind kind;
    uint32_t zone;
    uint32_t host;    /* of a write */
    uint32_t drive;   /* of a compact */
    uint32_t sectors; /* of a write */
    uint8_t *data;    /* of a write */
};

struct request_list {
    struct request request[MOST_REQUESTS];
    size_t length;
};

struct options {
    struct geometry geometry;
    const char *calls_text, *later_text;
    struct request_list calls, later; /* sent after the format; sent after the mount */
    enum breakage breakage;
    uint64_t budget;
    uint32_t seed;
    bool loses_later;   /* a drive may be lost with the second loss of power too */
    bool cached_resets; /* drives cache a zone reset until they are flushed */
    bool quiet;
    const char *picture; /* NULL: none */
};

enum parsed { PARSED, HELPED, BAD_USAGE };

/* BAD_USAGE after a message on standard error, HELPED after the help on standard output. */
enum parsed parse_explore_options(int argc, char **argv, struct options *options);
void free_explore_options(struct options *options);

const char *breakage_in_words(enum breakage breakage);

#endif
