/* The stores of a call, one by one, as they are told by what each leaves in the tables: the call is made again and again, with a store more each time.
 *
 * An append, the reset of a zone with sectors and a flush that makes something durable are seen. The others leave no trace: the reset of an empty zone, and a
 * flush of a drive on which everything was durable, which makes its zone resets last all the same. These are told by their places in the pattern of the call's
 * kind (call_kinds.h). What was seen must fit that pattern, or nothing is told: a call that makes its stores in another order is not guessed at. */
#ifndef STORES_H
#define STORES_H

#include "call_kinds.h"
#include "message.h"
#include "shelf.h"

enum store_kind { STORE_APPEND, STORE_RESET, STORE_FLUSH, STORE_UNSEEN };

struct store {
    enum store_kind kind;
    uint32_t drive, zone;      /* a physical zone; none of a flush */
    uint32_t written, durable; /* of a reset: the zone's pointers just before it */
};

struct store_list {
    struct store *store;
    size_t length, room;
};

/* One more store, by the shelf before it and after it. False, with a message, where there is no memory. */
bool note_store(struct store_list *list, const struct shelf *before, const struct shelf *after, struct message *message);

/* When all stores of a call are noted: finds the flushes that were not seen. What stays unseen is the reset of an empty zone. False, with a message, where the
 * stores do not fit the pattern of its kind. Present, by bit, are the drives that were named less the one that is lost in the state that the call hands on. */
bool settle_stores(struct store_list *list, enum call_kind kind, uint32_t present, struct message *message);

/* Which resets a finished call leaves in the drives' caches, by its kind's pattern: none, every drive being flushed after its last reset; that of the zone that
 * was the log, all drives being flushed just before it; those that were there, since it neither resets nor flushes; or it cannot be told. */
enum resets_left { LEAVES_NONE, LEAVES_OLD_LOG, LEAVES_THOSE_BEFORE, LEAVES_UNKNOWN };
enum resets_left resets_left_by(enum call_kind kind);

#endif
