/* What each kind of call is, in one table: a call that is added costs its row there. */
#ifndef CALL_KINDS_H
#define CALL_KINDS_H

#include "call.h"

/* The parts of which a call's stores are made, in their order (docs/FORMAT.md, sections 8 and 9). */
enum store_part {
    PART_NONE = 0,    /* the pattern's end */
    PART_APPENDS,     /* one or more */
    PART_FLUSH,       /* of all present drives, ascending */
    PART_EMPTYING,    /* one log emptied: a flush, appends to its drive's spare zone, a flush, the reset of the zone that was the log, also where that is empty */
    PART_EMPTYINGS,   /* any number of logs emptied, none of them empty */
    PART_ZONE_RESETS, /* of zones of data, drive by drive, of all present drives; empty zones are reset too */
    PART_STEPS        /* any number of steps with a flush after each: logs emptied, spare zones reset, appends, or zones of data reset */
};

enum { MOST_PARTS = 8 };

struct call_traits {
    const char *name;
    bool stores;       /* it changes the shelf; a call that does not shares it with others */
    bool after_cut;    /* it may come between a power cut and the mount after it */
    bool any_drives;   /* it may be made beside a drive that is not as the shelf left it */
    bool in_zone;      /* it is of one zone */
    bool makes_drives; /* what the drives held before does not count */
    bool refills_logs; /* it may reset the zone of a log, or a spare one, and append to it again, past where it was */
    enum store_part pattern[MOST_PARTS]; /* none: nobody asks for its stores one by one */
};

const struct call_traits *traits_of(enum call_kind kind);

#endif
