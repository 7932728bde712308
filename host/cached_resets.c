/* Which zone resets are still in the drives' caches. */
#include "cached_resets.h"

#include <stdlib.h>
#include <string.h>

#include "bytes.h"
#include "stores.h"

static void remember_pointers(struct shelf *shelf, size_t cell, uint32_t written, uint32_t durable) {
    put_pointer(shelf->old_written, cell, written);
    put_pointer(shelf->old_durable, cell, durable);
}

static void forget_drive(struct shelf *shelf, uint32_t drive) {
    for (uint32_t zone = 0; zone < physical_zones(shelf->geometry); zone++)
        remember_pointers(shelf, cell(shelf->geometry, drive, zone), 0, 0);
}

static void forget_named(struct shelf *shelf, uint32_t named) {
    for (uint32_t d = 0; d < shelf->geometry.drives; d++)
        if ((named >> d & 1) != 0)
            forget_drive(shelf, d);
}

/* A call with a count of stores may be left unfinished: its stores are then told by making it again from what was before, sectors and all. */
struct shelf shelf_before(const struct shelf *shelf, const struct call *call) {
    if (call->count != ZRV_ALL_STORES)
        return copy_shelf(shelf);
    struct shelf pointers = new_pointers(shelf->geometry);
    if (!has_memory(&pointers))
        return pointers;
    memcpy(pointers.written.bytes, shelf->written.bytes, shelf->written.length);
    memcpy(pointers.durable.bytes, shelf->durable.bytes, shelf->durable.length);
    return pointers;
}

/* Whether a zone has fewer sectors than before: it was reset. */
static bool went_down(const struct shelf *shelf, const struct shelf *before, size_t cell) {
    return pointer_in(shelf->written, cell) < pointer_in(before->written, cell);
}

static bool any_went_down(const struct shelf *shelf, const struct shelf *before) {
    for (size_t at = 0; at < shelf_cells(shelf->geometry); at++)
        if (went_down(shelf, before, at))
            return true;
    return false;
}

/* A call that emptied one log: the old zone's reset came after every flush, and is not seen where that zone was empty. Of several that went down it could be
 * either. */
static bool note_emptied(struct shelf *shelf, const struct shelf *before, const struct call *call, struct message *message) {
    size_t emptied = 0, count = 0;
    for (size_t at = 0; at < shelf_cells(shelf->geometry); at++)
        if (went_down(shelf, before, at)) {
            emptied = at;
            count++;
        }
    if (count > 1 || emptied % physical_zones(shelf->geometry) >= ZRV_LOG_ZONES)
        return fail(message, "this %s has reset %zu zones, other than by emptying one log: which of them its drives have still in their caches cannot be told",
                    traits_of(call->kind)->name, count);
    forget_named(shelf, call->named);
    if (count == 1)
        remember_pointers(shelf, emptied, pointer_in(before->written, emptied), pointer_in(before->written, emptied));
    return true;
}

/* The call made again from what was before it, with a copy of the state from before it, and stopped after so many stores. */
static uint32_t make_again(struct shelf *shelf, const struct call *call, uint8_t *state, uint32_t count) {
    struct call again = *call;
    again.count = count;
    again.range[SECTORS] = shelf->sectors;
    again.range[WRITTEN] = shelf->written;
    again.range[DURABLE] = shelf->durable;
    again.range[STATE] = (struct range){state, ZRV_STATE_BYTES};
    return make_call(&again);
}

/* The stores of a call from its first to its last, as they are seen; the state is in the end the one that the call hands on. */
static bool see_stores(struct store_list *list, const struct shelf *before, const struct call *call, uint8_t *state, struct message *message) {
    struct shelf last = copy_shelf(before);
    uint8_t state_before[ZRV_STATE_BYTES];
    uint32_t answer = ZRV_UNFINISHED;
    bool good = has_memory(&last) || no_memory(message, shelf_bytes(before->geometry));
    memcpy(state_before, state, ZRV_STATE_BYTES);
    for (uint32_t count = 1; good && answer == ZRV_UNFINISHED; count++) {
        struct shelf next = copy_shelf(before);
        if (!has_memory(&next)) {
            good = no_memory(message, shelf_bytes(before->geometry));
            break;
        }
        memcpy(state, state_before, ZRV_STATE_BYTES);
        answer = make_again(&next, call, state, count);
        good = note_store(list, &last, &next, message);
        free_shelf(&last);
        last = next;
    }
    free_shelf(&last);
    return good;
}

static bool list_stores(struct store_list *list, const struct shelf *before, const struct call *call, const uint8_t *state, struct message *message) {
    uint8_t handed_on[ZRV_STATE_BYTES];
    memcpy(handed_on, state, ZRV_STATE_BYTES);
    if (!see_stores(list, before, call, handed_on, message))
        return false;
    return settle_stores(list, call->kind, present_in(call->named, handed_on), message);
}

static bool note_unfinished(struct shelf *shelf, const struct shelf *before, const struct call *call, const uint8_t *state, struct message *message) {
    struct store_list list = {0};
    if (cached_resets(shelf) == 0 && !any_went_down(shelf, before))
        return true;
    bool good = list_stores(&list, before, call, state, message);
    for (size_t i = 0; good && i < call->count; i++) {
        struct store store = list.store[i];
        if (store.kind == STORE_RESET)
            remember_pointers(shelf, cell(shelf->geometry, store.drive, store.zone), store.written, store.durable);
        else if (store.kind == STORE_FLUSH)
            forget_drive(shelf, store.drive);
    }
    free(list.store);
    return good;
}

static bool note_finished(struct shelf *shelf, const struct shelf *before, const struct call *call, struct message *message) {
    switch (resets_left_by(call->kind)) {
    case LEAVES_NONE:
        forget_named(shelf, call->named);
        return true;
    case LEAVES_OLD_LOG:
        return note_emptied(shelf, before, call, message);
    case LEAVES_THOSE_BEFORE:
        return true;
    case LEAVES_UNKNOWN:
        break;
    }
    return fail(message, "what a %s leaves in the drives' caches cannot be told: it does not end with a flush", traits_of(call->kind)->name);
}

bool note_resets(struct shelf *shelf, const struct shelf *before, const struct stored_call *stored, struct message *message) {
    if (stored->answer == ZRV_UNFINISHED)
        return note_unfinished(shelf, before, stored->call, stored->state, message);
    return note_finished(shelf, before, stored->call, message);
}

bool reset_is_cached(const struct shelf *shelf, size_t cell) { return pointer_in(shelf->old_written, cell) > 0; }

size_t cached_resets(const struct shelf *shelf) {
    size_t count = 0;
    for (size_t at = 0; at < shelf_cells(shelf->geometry); at++)
        count += reset_is_cached(shelf, at);
    return count;
}

void undo_reset(struct shelf *shelf, size_t cell) {
    put_pointer(shelf->written, cell, pointer_in(shelf->old_written, cell));
    put_pointer(shelf->durable, cell, pointer_in(shelf->old_durable, cell));
}

size_t undo_all_resets(struct shelf *shelf) {
    for (size_t at = 0; at < shelf_cells(shelf->geometry); at++)
        if (reset_is_cached(shelf, at))
            undo_reset(shelf, at);
    return cached_resets(shelf);
}

size_t undo_resets_at_random(struct shelf *shelf, uint64_t seed) {
    size_t cells = shelf_cells(shelf->geometry), undone = 0;
    uint32_t draw = first_draw(seed);
    for (size_t at = 0; at < cells; at++)
        draw = next_draw(draw);
    for (size_t at = 0; at < cells; at++) {
        draw = next_draw(draw);
        if (reset_is_cached(shelf, at) && says_yes(draw)) {
            undo_reset(shelf, at);
            undone++;
        }
    }
    return undone;
}

void forget_resets(struct shelf *shelf) {
    memset(shelf->old_written.bytes, 0, shelf->old_written.length);
    memset(shelf->old_durable.bytes, 0, shelf->old_durable.length);
}
