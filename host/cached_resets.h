/* Zone resets in the caches of a shelf's drives (document 02: drives that cache a reset until they are flushed): which zones a power cut may leave as they were just
 * before their reset. No call of the volume appends to a zone between its reset and the next flush of its drive; so one reset of each zone is enough to keep,
 * by its pointers, and the sectors are still where they were. */
#ifndef CACHED_RESETS_H
#define CACHED_RESETS_H

#include "message.h"
#include "shelf.h"

/* What has to be kept of a shelf before a call that stores, so that note_resets can tell; of any but a format. free_shelf frees it; has_memory tells whether there
 * is memory for it. */
struct shelf shelf_before(const struct shelf *shelf, const struct call *call);

/* A call that has stored: what it answered, and the state from before it. */
struct stored_call {
    const struct call *call;
    uint32_t answer;
    const uint8_t *state;
};

/* After the call: what it reset and did not flush, and what it flushed. False, with a message, where that cannot be told (stores.h). */
bool note_resets(struct shelf *shelf, const struct shelf *before, const struct stored_call *stored, struct message *message);

/* Whether a zone's reset is in its drive's cache; how many are. */
bool reset_is_cached(const struct shelf *shelf, size_t cell);
size_t cached_resets(const struct shelf *shelf);

/* In a power cut: the zone is as it was before the reset, to lose what it could have lost then. */
void undo_reset(struct shelf *shelf, size_t cell);

/* The same of every cached reset; or of each by chance, as the stream of the seed says past the numbers that lose_power_at_random takes, one for each cell.
 * How many were undone. */
size_t undo_all_resets(struct shelf *shelf);
size_t undo_resets_at_random(struct shelf *shelf, uint64_t seed);

/* No reset is in a cache any more. */
void forget_resets(struct shelf *shelf);

#endif
