/* A call's fields handed to the function of the C edge that its kind names. */
#include "call.h"

#define NUMBERS(c) \
    (c)->geometry.drives, (c)->geometry.sector_bytes, (c)->geometry.unit, (c)->geometry.zones, (c)->geometry.zone_sectors, (c)->named
#define RANGE(c, i) (c)->range[i].bytes, (c)->range[i].length
#define TABLES(c) RANGE(c, SECTORS), RANGE(c, WRITTEN), RANGE(c, DURABLE), RANGE(c, STATE)

static uint32_t make_report(const struct call *call) {
    struct geometry g = call->geometry;
    uint64_t returned = zrv_report(g.drives, g.sector_bytes, g.unit, g.zones, g.zone_sectors, RANGE(call, STATE), RANGE(call, BUFFER));
    if (call->filled != NULL)
        *call->filled = ZRV_REPORT_NUMBER(returned);
    return ZRV_ANSWER(returned);
}

static uint32_t answer_with_place(const struct call *call, uint64_t returned) {
    if (call->bad != NULL)
        *call->bad = (struct log_place){ZRV_BAD_DRIVE(returned), ZRV_BAD_ZONE(returned), ZRV_BAD_SECTOR(returned)};
    return ZRV_ANSWER(returned);
}

uint32_t make_call(const struct call *call) {
    switch (call->kind) {
    case CALL_FORMAT:
        return ZRV_ANSWER(zrv_format(NUMBERS(call), call->array, call->count, TABLES(call)));
    case CALL_LOOK:
        return answer_with_place(call, zrv_look(NUMBERS(call), TABLES(call)));
    case CALL_MOUNT:
        return answer_with_place(call, zrv_mount(NUMBERS(call), call->count, TABLES(call)));
    case CALL_WRITE:
        return ZRV_ANSWER(zrv_write(NUMBERS(call), call->host, call->address, call->run, call->count, TABLES(call), RANGE(call, BUFFER)));
    case CALL_FLUSH:
        return ZRV_ANSWER(zrv_flush(NUMBERS(call), call->count, TABLES(call)));
    case CALL_RESET:
        return ZRV_ANSWER(zrv_reset(NUMBERS(call), call->zone, call->count, TABLES(call)));
    case CALL_COMPACT:
        return ZRV_ANSWER(zrv_compact(NUMBERS(call), call->drive, call->count, TABLES(call)));
    case CALL_READ:
        return ZRV_ANSWER(zrv_read(NUMBERS(call), call->address, call->run, TABLES(call), RANGE(call, BUFFER)));
    case CALL_PEEK:
        return ZRV_ANSWER(zrv_peek(NUMBERS(call), call->address, TABLES(call), RANGE(call, BUFFER)));
    case CALL_REPORT:
        return make_report(call);
    }
    return ZRV_UNFINISHED;
}

/* A format with byte ranges of no length is refused in any case: for its geometry first, and for the lengths only if that is taken. */
bool geometry_is_taken(struct geometry geometry) {
    uint8_t nothing[1] = {0};
    struct call call = {.kind = CALL_FORMAT, .geometry = geometry};
    for (int i = 0; i < RANGES; i++)
        call.range[i].bytes = nothing;
    return make_call(&call) != ZRV_GEOMETRY;
}
