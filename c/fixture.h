/* A small volume in one piece of memory with guard bytes between its byte ranges, so that one comparison shows whether a call changed anything that it
 * should have kept, inside the ranges or beside them. */
#ifndef FIXTURE_H
#define FIXTURE_H

#include "expected.h"

enum { GUARD_BYTES = 64, GUARD = 0xa5 };

struct fixture {
    const char *name;
    struct geometry geometry; /* of the format */
    uint8_t *memory;       /* guard, range, guard, range, .. guard */
    size_t memory_bytes;
    uint8_t *base;         /* what every case starts from */
    uint8_t *before;       /* what the present case started from */
    struct range range[RANGES];
    struct expected expected;
};

/* Volumes: healthy; with a drive lost for good; with a zone that a mount sealed; with logs that were emptied. And one of sixteen zones, for the limits of open
 * ones. */
enum { FIXTURES = 4, SIXTEEN_ZONES = FIXTURES };
struct fixture new_fixture(int which);
void free_fixture(struct fixture *fixture);

/* The memory as it was at the start. */
void restore(struct fixture *fixture);

/* A call on the fixture's whole ranges that is not refused, or only for want of its zone's condition. */
struct call usual_call(const struct fixture *fixture, enum call_kind kind);

/* The buffer that a run of sectors wants, as far as there is memory for it. */
struct range buffer_of(const struct fixture *fixture, uint32_t run);

uint32_t zone_pointer(const struct fixture *fixture, uint32_t zone);

#endif
