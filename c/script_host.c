/* Calls of a conformance script: its numbers and the shelf's byte ranges, less the shortage, handed to the C edge. */
#include "script_host.h"

#include <string.h>

#include "damage.h"
#include "needed.h"

enum { UNTOUCHED = 0xee }; /* every byte of a list that is lent for a report */

static struct range shortened(struct range range, uint64_t by) {
    range.length = by < range.length ? range.length - by : 0;
    return range;
}

static struct call call_of(const struct host *host, const struct shortage *shortage, uint8_t *state) {
    struct call call = {
        .geometry = host->geometry,
        .range[SECTORS] = shortened(host->shelf.sectors, shortage->sectors),
        .range[WRITTEN] = shortened(host->shelf.written, shortage->written * POINTER_BYTES),
        .range[DURABLE] = shortened(host->shelf.durable, shortage->durable * POINTER_BYTES),
        .range[STATE] = {state, ZRV_STATE_BYTES},
    };
    return call;
}

/* The numbers of each call, in the order of the script language. */
static void take_numbers(struct call *call, const struct command *command) {
    const uint64_t *number = command->number;
    call->kind = (enum call_kind)command->letter;
    call->named = (uint32_t)number[0];
    call->array = number[1];
    call->address = number[1];
    call->zone = call->drive = narrowed(number[1]);
    call->run = narrowed(number[2]);
    switch (call->kind) {
    case CALL_WRITE:
        call->host = narrowed(number[1]);
        call->address = number[2];
        call->run = narrowed(number[3]);
        call->count = narrowed(number[5]);
        break;
    case CALL_FORMAT:
    case CALL_RESET:
    case CALL_COMPACT:
        call->count = narrowed(number[2]);
        break;
    default:
        call->count = narrowed(number[1]);
    }
}

static struct range buffer_for(const struct host *host, const struct command *command, const struct call *call) {
    if (call->kind == CALL_PEEK)
        return needed_range(ZRV_PLACE_BYTES);
    if (call->kind == CALL_REPORT) {
        struct range list = needed_range((size_t)narrowed(command->number[0]) * ZRV_DESCRIPTOR_BYTES);
        memset(list.bytes, UNTOUCHED, list.length);
        return list;
    }
    if (call->kind != CALL_WRITE && call->kind != CALL_READ)
        return needed_range(0);
    struct range buffer = needed_range((size_t)call->run * host->geometry.sector_bytes);
    if (call->kind == CALL_WRITE)
        fill_from_stream(buffer.bytes, buffer.length, command->number[4]);
    return shortened(buffer, host->shortage.buffer);
}

bool leaves_state(char letter) { return strchr("fmwurk", letter) != NULL; }

static void keep_state(struct host *host, const struct reply *reply) {
    host->has_state = true;
    host->made_by = host->geometry;
    memcpy(host->state, reply->shown, ZRV_STATE_BYTES);
}

static struct reply perform_call(struct host *host, const struct command *command) {
    struct reply reply = {.code = CODE_NO_STATE};
    if (!host->has_state && strchr("wurkdpo", command->letter) != NULL)
        return reply;
    memcpy(reply.shown, host->state, ZRV_STATE_BYTES);
    struct call call = call_of(host, &host->shortage, reply.shown);
    take_numbers(&call, command);
    reply.buffer = buffer_for(host, command, &call);
    call.range[BUFFER] = reply.buffer;
    call.filled = &reply.filled;
    call.bad = &reply.bad;
    reply.code = make_call(&call);
    if (reply.code == ZRV_FINISHED && leaves_state(command->letter))
        keep_state(host, &reply);
    return reply;
}

uint32_t host_read(const struct host *host, uint32_t named, uint64_t address, uint32_t run, uint8_t *state, struct range buffer) {
    const struct shortage none = {0};
    struct call call = call_of(host, &none, state);
    call.kind = CALL_READ;
    call.named = named;
    call.address = address;
    call.run = run;
    call.range[BUFFER] = buffer;
    return make_call(&call);
}

struct reply perform(struct host *host, const struct command *command) {
    if (strchr("flmwurkdpo", command->letter) != NULL)
        return perform_call(host, command);
    change_host(host, command);
    struct reply reply = {.code = ZRV_FINISHED};
    return reply;
}
