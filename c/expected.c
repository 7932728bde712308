/* The expectation of a call. Form and length of the state's and the tables' bytes are judged here; the refusals' other conditions are those of the plain
 * volume. */
#include "expected.h"

#include <string.h>

#include "hosts.h"

static bool reads_state(enum call_kind kind) {
    return kind != CALL_FORMAT && kind != CALL_LOOK && kind != CALL_MOUNT;
}

static bool answers_in_buffer(enum call_kind kind) { return kind == CALL_READ || kind == CALL_REPORT; }

static void state_from_bytes(struct volume_state *state, const uint8_t *bytes) {
    state->lost = bytes[ZRV_STATE_LOST];
    for (uint32_t z = 0; z < ZRV_STATE_RECORDS; z++) {
        const uint8_t *record = zone_record(bytes, z);
        state->zone[z] = (struct zone_state){get64(record + ZRV_RECORD_GENERATION), record[ZRV_RECORD_CONDITION], get32(record + ZRV_RECORD_POINTER),
                                            record[ZRV_RECORD_OWNER]};
    }
    for (uint32_t d = 0; d < ZRV_MOST_DRIVES; d++)
        for (uint32_t host = 0; host < ZRV_HOSTS; host++)
            state->share[d][host] = share_in_state(bytes, d, host);
}

void state_to_bytes(const struct volume_state *state, struct geometry g, uint8_t *bytes) {
    memset(bytes, 0, ZRV_STATE_BYTES);
    bytes[ZRV_STATE_LOST] = (uint8_t)state->lost;
    for (uint32_t d = 0; d < g.drives; d++)
        for (uint32_t host = 0; host < ZRV_HOSTS; host++)
            put_share(bytes, d, host, state->share[d][host]);
    for (uint32_t z = 0; z < g.zones; z++) {
        uint8_t *record = zone_record_to_change(bytes, z);
        put64(record + ZRV_RECORD_GENERATION, state->zone[z].generation);
        record[ZRV_RECORD_CONDITION] = (uint8_t)state->zone[z].condition;
        record[ZRV_RECORD_OWNER] = (uint8_t)state->zone[z].owner;
        put32(record + ZRV_RECORD_POINTER, state->zone[z].pointer);
    }
}

static bool all_zero(const uint8_t *bytes, size_t length) {
    for (size_t i = 0; i < length; i++)
        if (bytes[i] != 0)
            return false;
    return true;
}

/* The form of a state's bytes: zeros where zeros belong, a condition and an owner that there are, no pointer in an empty zone. */
static bool state_form(const uint8_t *bytes, struct geometry g) {
    if (!all_zero(bytes + 1, ZRV_STATE_HEAD_BYTES - 1))
        return false;
    for (uint32_t d = g.drives; d < ZRV_MOST_DRIVES; d++)
        if (share_in_state(bytes, d, 0) != 0 || share_in_state(bytes, d, 1) != 0)
            return false;
    for (uint32_t z = 0; z < ZRV_STATE_RECORDS; z++) {
        const uint8_t *record = zone_record(bytes, z);
        uint8_t condition = record[ZRV_RECORD_CONDITION];
        if (z >= g.zones && !all_zero(record, ZRV_STATE_RECORD_BYTES))
            return false;
        if (condition > ZRV_WORN || record[ZRV_RECORD_OWNER] > ZRV_OWNER(1) || !all_zero(record + ZRV_RECORD_OWNER + 1, 2))
            return false;
        if (condition == ZRV_EMPTY && !all_zero(record + ZRV_RECORD_POINTER, 4))
            return false;
    }
    return true;
}

/* A table's cells; a length that is no whole number of them is none that fits. */
static size_t cells_in(struct range range, uint32_t *table) {
    size_t cells = range.length / POINTER_BYTES;
    for (size_t i = 0; i < cells && i < MOST_CELLS; i++)
        table[i] = pointer_in(range, i);
    return range.length % 4 == 0 ? cells : SIZE_MAX;
}

static void volume_of(struct expected *e, const struct call *call) {
    const struct range *range = call->range;
    memcpy(e->sectors, range[SECTORS].bytes, range[SECTORS].length);
    e->volume = (struct volume){
        .geometry = call->geometry,
        .sectors = e->sectors,
        .sectors_bytes = range[SECTORS].length,
        .written = e->written,
        .durable = e->durable,
        .written_cells = cells_in(range[WRITTEN], e->written),
        .durable_cells = cells_in(range[DURABLE], e->durable),
        .state.lost = ZRV_NO_DRIVE,
    };
    if (reads_state(call->kind) && range[STATE].length == ZRV_STATE_BYTES)
        state_from_bytes(&e->volume.state, range[STATE].bytes);
}

/* The answer of a call whose state has its form and length. */
static uint32_t code_of(struct expected *e, const struct call *call) {
    struct volume *v = &e->volume;
    const struct range *buffer = &call->range[BUFFER];
    switch (call->kind) {
    case CALL_FORMAT:
        return plain_format(v, call->named, call->array, call->count);
    case CALL_LOOK:
    case CALL_MOUNT:
        return look_refusal(v, call->named, &e->bad); /* a mount's 14 is not met: a fixture's logs have room, or are bad where they have none */
    case CALL_WRITE:
        return plain_write(v, call->named, &(struct asked){call->host, call->address, call->run, buffer->bytes, buffer->length}, call->count);
    case CALL_FLUSH:
        return plain_flush(v, call->named, call->count);
    case CALL_RESET:
        return plain_reset(v, call->named, call->zone, call->count);
    case CALL_COMPACT:
        return plain_compact(v, call->named, call->drive, call->count);
    case CALL_READ:
        return plain_read(v, call->named, call->address, call->run, e->answer, buffer->length);
    case CALL_PEEK:
        return peek_refusal(v, call->named, call->address);
    case CALL_REPORT:
        memcpy(e->answer, buffer->bytes, buffer->length);
        return plain_report(v, e->answer, buffer->length, &e->filled);
    }
    return ZRV_FINISHED;
}

void expect(struct expected *e, const struct call *call) {
    const struct range *state = &call->range[STATE];
    bool state_length = state->length == ZRV_STATE_BYTES;
    bool place_length = call->kind != CALL_PEEK || call->range[BUFFER].length == ZRV_PLACE_BYTES;
    volume_of(e, call);
    e->bytes_known = call->kind != CALL_LOOK && call->kind != CALL_MOUNT && call->kind != CALL_PEEK;
    e->filled = 0;
    e->bad = (struct log_place){0, 0, 0};
    if (!geometry_fits(call->geometry) || (reads_state(call->kind) && state_length && !state_form(state->bytes, call->geometry))) {
        e->code = ZRV_GEOMETRY;
        return;
    }
    e->code = code_of(e, call);
    if (e->code != ZRV_GEOMETRY && (!state_length || !place_length)) {
        e->code = ZRV_LENGTH;
        e->filled = 0;
        e->bad = (struct log_place){0, 0, 0};
    }
    if (e->code == ZRV_FINISHED && call->kind == CALL_MOUNT && call->count == 0)
        e->code = ZRV_UNFINISHED;
}

static bool table_is(const uint32_t *table, struct range range) {
    for (size_t i = 0; i < range.length / POINTER_BYTES; i++)
        if (table[i] != pointer_in(range, i))
            return false;
    return true;
}

bool bytes_as_expected(const struct expected *e, const struct call *call) {
    const struct range *range = call->range;
    uint8_t state[ZRV_STATE_BYTES];
    state_to_bytes(&e->volume.state, call->geometry, state);
    bool state_is = answers_in_buffer(call->kind) || e->code != ZRV_FINISHED || memcmp(state, range[STATE].bytes, sizeof state) == 0;
    bool answer_is = !answers_in_buffer(call->kind) || memcmp(e->answer, range[BUFFER].bytes, range[BUFFER].length) == 0;
    return state_is && answer_is && memcmp(e->sectors, range[SECTORS].bytes, range[SECTORS].length) == 0 && table_is(e->written, range[WRITTEN]) &&
           table_is(e->durable, range[DURABLE]);
}
