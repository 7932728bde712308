/* One call of the C edge as a value: its kind, its numbers and the byte ranges that it is lent. The programs here fill one in, change a field or a
 * length, and make the call; make_call hands the fields to the function of include/zrv.h and does nothing else. */
#ifndef CALL_H
#define CALL_H

#include <stdbool.h>

#include "zrv.h"

enum call_kind {
    CALL_FORMAT = 'f',
    CALL_LOOK = 'l',
    CALL_MOUNT = 'm',
    CALL_WRITE = 'w',
    CALL_FLUSH = 'u',
    CALL_RESET = 'r',
    CALL_COMPACT = 'k',
    CALL_READ = 'd',
    CALL_PEEK = 'p',
    CALL_REPORT = 'o'
};

struct geometry {
    uint32_t drives, sector_bytes, unit, zones, zone_sectors;
};

struct range {
    uint8_t *bytes;
    size_t length;
};

/* The byte ranges of a call, in their order; the buffer is a write's data, a read's answer, a peek's place, a report's list. */
enum { SECTORS, WRITTEN, DURABLE, STATE, BUFFER, RANGES };

/* A sector of a drive's log. */
struct log_place {
    uint32_t drive, zone, sector; /* the zone is the physical one */
};

struct call {
    enum call_kind kind;
    struct geometry geometry;
    uint32_t named;
    uint64_t array;   /* format */
    uint32_t host;    /* write */
    uint64_t address; /* write, read, peek */
    uint32_t run;     /* write, read: sectors */
    uint32_t zone;    /* reset */
    uint32_t drive;   /* compact */
    uint32_t count;   /* of stores */
    uint32_t *filled; /* report: how many descriptors it filled goes here, unless it is NULL */
    struct log_place *bad; /* look, mount: the place of a bad log, or zeros, goes here, unless it is NULL */
    struct range range[RANGES];
};

uint32_t make_call(const struct call *call);

/* Whether an answer has the place of a bad log beside it. */
static inline bool has_place(uint32_t answer) { return answer == ZRV_LOG || answer == ZRV_LOG_ENTRY || answer == ZRV_LOG_ROWS; }

/* Whether a geometry is inside document 01's bounds, asked of the volume itself. */
bool geometry_is_taken(struct geometry geometry);

/* Of the drives that a call names, those present by the state that it hands on: all but the lost one. */
static inline uint32_t present_in(uint32_t named, const uint8_t *state) {
    return state[ZRV_STATE_LOST] == ZRV_NO_DRIVE ? named : named & ~(1u << state[ZRV_STATE_LOST]);
}

/* The record of a zone in a state: to read, and to change. */
static inline const uint8_t *zone_record(const uint8_t *state, uint32_t zone) {
    return state + ZRV_STATE_HEAD_BYTES + (size_t)zone * ZRV_STATE_RECORD_BYTES;
}

static inline uint8_t *zone_record_to_change(uint8_t *state, uint32_t zone) { return state + (zone_record(state, zone) - state); }

#endif
