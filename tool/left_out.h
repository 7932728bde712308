/* The look again with each one drive left out, held against the look with all. It is asked of copies; the shelf itself is left alone.
 *
 * What must hold of healthy drives. As far as both looks show a zone, its bytes are the same: both are beginnings of what was written. While nothing was cut
 * or left unfinished since the last mount, both also show as many sectors, the same condition and the same generation. That any drive may be left out
 * after a mount, with nothing stored since, is proved (promise's meaning/AnyDrive), and a power cut then takes no sector from either look. Where something was
 * stored, after a power cut the look with a drive left out may show fewer, but never less than the last finished flush covered; and a zone whose reset was
 * under way may show everything in one and nothing in the other. */
#ifndef LEFT_OUT_H
#define LEFT_OUT_H

#include "driver.h"

enum difference_kind {
    NO_DIFFERENCE,
    NOT_COMPARED,     /* the look, or a read of what one of the looks shows, is refused */
    DIFFERENT_LENGTH, /* another count of sectors is shown */
    DIFFERENT_RECORD, /* as many sectors, another condition or generation */
    DIFFERENT_BYTES
};

struct difference {
    enum difference_kind kind;
    uint32_t drive, zone;       /* the drive left out; the zone, or ZRV_STATE_RECORDS where none was compared */
    uint32_t answer;            /* the refusal */
    uint32_t with_all, without; /* sectors shown */
    const uint8_t *record_with_all, *record_without; /* the zone's, as shown */
    uint64_t address;           /* the first with other bytes */
};

typedef void (*tell_difference)(void *listener, const struct difference *difference);

/* Tells each difference. The look with all drives must be one that is not refused, with every drive present. False where there is no memory for the copies. */
bool compare_left_out(const struct driver *driver, tell_difference tell, void *listener);

#endif
