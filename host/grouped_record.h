/* A block's metadata in a segment with grouped stripes, a record of ZRV_GROUPED_RECORD_BYTES: its address and timestamp of eight bytes each, its stripe ID of
 * four. */
#ifndef GROUPED_RECORD_H
#define GROUPED_RECORD_H

#include "zrv.h"

enum { GROUPED_TIMESTAMP = 8, GROUPED_STRIPE_ID = 16 };
_Static_assert(GROUPED_STRIPE_ID + sizeof(uint32_t) == ZRV_GROUPED_RECORD_BYTES, "the record ends with its stripe ID");

#endif
