/* The stores of a call told from the tables. */
#include "stores.h"

#include <stdlib.h>

#include "bytes.h"

/* A list, read by a pattern as far as `at`; and the present drives, ascending. */
struct reading {
    struct store *store;
    size_t length, at;
    uint32_t drive[ZRV_MOST_DRIVES];
    size_t drives;
};

static struct store seen_store(const struct shelf *before, const struct shelf *after) {
    size_t zones = physical_zones(before->geometry);
    for (size_t cell = 0; cell < shelf_cells(before->geometry); cell++) {
        struct store store = {.kind = STORE_UNSEEN, .drive = (uint32_t)(cell / zones), .zone = (uint32_t)(cell % zones)};
        uint32_t from = pointer_in(before->written, cell), to = pointer_in(after->written, cell);
        store.written = from;
        store.durable = pointer_in(before->durable, cell);
        if (from != to)
            store.kind = from < to ? STORE_APPEND : STORE_RESET;
        else if (store.durable != pointer_in(after->durable, cell))
            store.kind = STORE_FLUSH;
        if (store.kind != STORE_UNSEEN)
            return store;
    }
    return (struct store){.kind = STORE_UNSEEN};
}

bool note_store(struct store_list *list, const struct shelf *before, const struct shelf *after, struct message *message) {
    if (list->length == list->room) {
        size_t room = 2 * list->room + 64;
        struct store *store = realloc(list->store, room * sizeof *store);
        if (store == NULL)
            return fail(message, "no memory for a list of %zu stores", room);
        list->store = store;
        list->room = room;
    }
    list->store[list->length++] = seen_store(before, after);
    return true;
}

static bool is_append(const struct reading *r, size_t at) { return at < r->length && r->store[at].kind == STORE_APPEND; }

static bool resets_log(const struct reading *r, size_t at) {
    return at < r->length && r->store[at].kind == STORE_RESET && r->store[at].zone < ZRV_LOG_ZONES;
}

/* Where the next append is, or the end. */
static size_t next_append(const struct reading *r, size_t at) {
    while (at < r->length && r->store[at].kind != STORE_APPEND)
        at++;
    return at;
}

/* Whether nothing that was seen from a place on stands against a flush of all present drives. */
static bool may_be_flush(const struct reading *r, size_t at) {
    if (r->length - at < r->drives)
        return false;
    for (size_t i = 0; i < r->drives; i++) {
        const struct store *store = &r->store[at + i];
        if (store->kind != STORE_UNSEEN && (store->kind != STORE_FLUSH || store->drive != r->drive[i]))
            return false;
    }
    return true;
}

static bool read_flush(struct reading *r) {
    if (!may_be_flush(r, r->at))
        return false;
    for (size_t i = 0; i < r->drives; i++)
        r->store[r->at++] = (struct store){.kind = STORE_FLUSH, .drive = r->drive[i]};
    return true;
}

static bool read_appends(struct reading *r) {
    size_t from = r->at;
    while (is_append(r, r->at))
        r->at++;
    return r->at > from;
}

/* Whether a log is emptied from here on: a flush, appends to one zone of logs, a flush, and the reset of another on that drive, which is not seen where that
 * other is empty. */
static bool is_emptying(const struct reading *r, bool may_be_empty) {
    size_t from = r->at + r->drives, to = from;
    if (!may_be_flush(r, r->at))
        return false;
    while (is_append(r, to) && r->store[to].drive == r->store[from].drive && r->store[to].zone == r->store[from].zone)
        to++;
    if (to == from || r->store[from].zone >= ZRV_LOG_ZONES || !may_be_flush(r, to))
        return false;
    size_t last = to + r->drives;
    if (last >= r->length)
        return false;
    const struct store *reset = &r->store[last];
    return (reset->kind == STORE_UNSEEN && may_be_empty) ||
           (resets_log(r, last) && reset->drive == r->store[from].drive && reset->zone != r->store[from].zone);
}

static void step_over_emptying(struct reading *r) {
    read_flush(r);
    read_appends(r);
    read_flush(r);
    r->at++;
}

static bool read_emptying(struct reading *r) {
    bool is_one = is_emptying(r, true);
    if (is_one)
        step_over_emptying(r);
    return is_one;
}

static bool read_emptyings(struct reading *r) {
    while (is_emptying(r, false))
        step_over_emptying(r);
    return true;
}

static bool read_log_resets(struct reading *r) {
    while (resets_log(r, r->at))
        r->at++;
    return true;
}

/* All stores but a flush before the next append: as many on each drive, in the order of the drives, seen ones of zones of data. */
static bool read_zone_resets(struct reading *r) {
    size_t from = r->at, stores = next_append(r, from) - from;
    if (stores < 2 * r->drives || stores % r->drives != 0)
        return false;
    size_t zones = stores / r->drives - 1;
    for (; r->at < from + zones * r->drives; r->at++) {
        const struct store *store = &r->store[r->at];
        bool is_reset = store->kind == STORE_RESET && store->zone >= ZRV_LOG_ZONES && store->drive == r->drive[(r->at - from) / zones];
        if (!is_reset && store->kind != STORE_UNSEEN)
            return false;
    }
    return true;
}

static bool read_step(struct reading *r) {
    if (is_append(r, r->at))
        return read_appends(r);
    if (resets_log(r, r->at))
        return read_log_resets(r);
    return is_emptying(r, false) ? read_emptyings(r) : read_zone_resets(r);
}

static bool read_steps(struct reading *r) {
    while (r->at < r->length)
        if (!read_step(r) || !read_flush(r))
            return false;
    return true;
}

static bool (*const read_part[])(struct reading *) = {
    [PART_APPENDS] = read_appends,
    [PART_FLUSH] = read_flush,
    [PART_EMPTYING] = read_emptying,
    [PART_EMPTYINGS] = read_emptyings,
    [PART_ZONE_RESETS] = read_zone_resets,
    [PART_STEPS] = read_steps,
};

bool settle_stores(struct store_list *list, enum call_kind kind, uint32_t present, struct message *message) {
    const struct call_traits *traits = traits_of(kind);
    struct reading reading = {.store = list->store, .length = list->length};
    bool fits = traits->pattern[0] != PART_NONE;
    for (uint32_t d = 0; d < ZRV_MOST_DRIVES; d++)
        if ((present >> d & 1) != 0)
            reading.drive[reading.drives++] = d;
    for (const enum store_part *part = traits->pattern; fits && *part != PART_NONE; part++)
        fits = read_part[*part](&reading);
    if (fits && reading.at == reading.length)
        return true;
    return fail(message, "the stores of this %s are not those of such a call, from store %zu of %zu on: which flushes it made cannot be told", traits->name,
                reading.at + 1, reading.length);
}

enum resets_left resets_left_by(enum call_kind kind) {
    const enum store_part *pattern = traits_of(kind)->pattern;
    enum store_part last = PART_NONE;
    for (const enum store_part *part = pattern; *part != PART_NONE; part++)
        last = *part;
    if (last == PART_FLUSH || last == PART_STEPS)
        return LEAVES_NONE;
    if (last == PART_EMPTYING)
        return LEAVES_OLD_LOG;
    return pattern[0] == PART_APPENDS && pattern[1] == PART_NONE ? LEAVES_THOSE_BEFORE : LEAVES_UNKNOWN;
}
