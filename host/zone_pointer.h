/* From a zone's number to an address. A zone goes on at its pointer; a full one goes on nowhere: the address past its last sector is the next zone's first. */
#ifndef ZONE_POINTER_H
#define ZONE_POINTER_H

#include "bytes.h"
#include "placement.h"

/* No volume has this address: a call that takes it is refused with 8. */
#define NO_ADDRESS UINT64_MAX

/* The answer for a zone that is full, beside the volume's own. */
enum { ANSWER_ZONE_FULL = 258 };

static inline uint64_t zone_start(struct geometry g, uint32_t zone) { return zone * zone_addresses(g); }

static inline uint32_t pointer_in_state(const uint8_t *state, uint32_t zone) { return get32(zone_record(state, zone) + ZRV_RECORD_POINTER); }

/* The address at which a zone's next write begins, by a state (a look's, or the one held); NO_ADDRESS where the zone is full or there is no such zone. */
static inline uint64_t address_to_write(struct geometry g, const uint8_t *state, uint32_t zone) {
    if (zone >= g.zones || pointer_in_state(state, zone) >= zone_addresses(g))
        return NO_ADDRESS;
    return zone_start(g, zone) + pointer_in_state(state, zone);
}

#endif
