/* Two hosts on one shelf (document 02): who holds a zone, which zones count, and what is left of each host's share of a drive's parity log. A host reads it from
 * the state; nothing of it lies on the drives. And what a write takes of a share, so that a host can compact a drive before it hears 14. */
#ifndef HOSTS_H
#define HOSTS_H

#include "zone_pointer.h"

/* How many zones may count to a host. */
static inline uint32_t limit_of(uint32_t host) { return host == 0 ? ZRV_MOST_OPEN_HOST_0 : ZRV_MOST_OPEN_HOST_1; }

/* A zone counts while it is open with its pointer below its end; to the host that wrote it last. */
static inline bool counts_in_state(struct geometry g, const uint8_t *state, uint32_t zone) {
    return zone_record(state, zone)[ZRV_RECORD_CONDITION] == ZRV_OPEN && pointer_in_state(state, zone) < zone_addresses(g);
}

static inline bool counts_to(struct geometry g, const uint8_t *state, uint32_t zone, uint32_t host) {
    return counts_in_state(g, state, zone) && zone_record(state, zone)[ZRV_RECORD_OWNER] == ZRV_OWNER(host);
}

static inline uint32_t count_open(struct geometry g, const uint8_t *state) {
    uint32_t count = 0;
    for (uint32_t z = 0; z < g.zones; z++)
        count += counts_in_state(g, state, z);
    return count;
}

static inline uint32_t count_open_of(struct geometry g, const uint8_t *state, uint32_t host) {
    uint32_t count = 0;
    for (uint32_t z = 0; z < g.zones; z++)
        count += counts_to(g, state, z, host);
    return count;
}

/* What is left of a host's share of a drive's parity log, in sectors. */
static inline const uint8_t *share_place(const uint8_t *state, uint32_t drive, uint32_t host) {
    return state + ZRV_STATE_SHARES + (size_t)(drive * ZRV_HOSTS + host) * ZRV_SHARE_BYTES;
}

static inline uint32_t share_in_state(const uint8_t *state, uint32_t drive, uint32_t host) { return get32(share_place(state, drive, host)); }

static inline void put_share(uint8_t *state, uint32_t drive, uint32_t host, uint32_t sectors) {
    put32(state + (share_place(state, drive, host) - state), sectors);
}

/* The sectors of the entry of a zone whose pointer is there: none at a stripe's end. */
static inline uint32_t entry_sectors(struct geometry g, uint32_t pointer) {
    uint32_t inside = pointer % stripe_sectors(g);
    return inside == 0 ? 0 : 1 + (inside < g.unit ? inside : g.unit);
}

/* The drive that gets it. */
static inline uint32_t entry_drive(struct geometry g, uint32_t zone, uint32_t pointer) { return parity_drive(g, zone, pointer / stripe_sectors(g)); }

/* What a mount may need of a parity log; a share is half of the room past it. */
static inline uint32_t parity_reserve(struct geometry g) { return g.zones * (1 + g.unit) + g.unit; }

static inline uint32_t share_of_room(struct geometry g, uint32_t room) { return room > parity_reserve(g) ? (room - parity_reserve(g)) / 2 : 0; }

/* The sectors of a zone's entry that a compact of a drive copies. */
static inline uint32_t sectors_copied(struct geometry g, const uint8_t *state, uint32_t drive, uint32_t zone) {
    uint32_t pointer = pointer_in_state(state, zone);
    return entry_drive(g, zone, pointer) == drive ? entry_sectors(g, pointer) : 0;
}

/* The share that each host would have of a drive's parity log after a compact that copies so many sectors, to which a closing entry comes. */
static inline uint32_t share_after_copies(struct geometry g, uint32_t copied) {
    return share_of_room(g, copied + 1 < g.zone_sectors ? g.zone_sectors - copied - 1 : 0);
}

static inline uint32_t share_after_compact(struct geometry g, const uint8_t *state, uint32_t drive) {
    uint32_t copied = 0;
    for (uint32_t z = 0; z < g.zones; z++)
        copied += sectors_copied(g, state, drive, z);
    return share_after_copies(g, copied);
}

/* The drive to compact before a host writes that many sectors to a zone, so that the write is not refused with 14; ZRV_NO_DRIVE where there is none to, or
 * where that drive is lost: its parity is not written. A write that ends at a stripe's end needs no share. */
static inline uint32_t drive_to_compact(struct geometry g, const uint8_t *state, uint32_t host, uint32_t zone, uint32_t sectors) {
    uint32_t end = pointer_in_state(state, zone) + sectors, drive = entry_drive(g, zone, end);
    return drive == state[ZRV_STATE_LOST] || entry_sectors(g, end) <= share_in_state(state, drive, host) ? ZRV_NO_DRIVE : drive;
}

#endif
