/* Replays a conformance script through the C edge: reads the script from standard input and prints one answer line for each command,
 * `LETTER CODE SECTORS POINTERS STATE REST`. Two suppliers whose lines are equal come to the same result down to the sector. */
#include <inttypes.h>
#include <stdio.h>
#include <stdlib.h>
#include <string.h>

#include "adler.h"
#include "hosts.h"
#include "needed.h"
#include "script_host.h"

static void show_state(const uint8_t *state, struct geometry g) {
    printf(" lost %u", state[ZRV_STATE_LOST]);
    for (uint32_t z = 0; z < g.zones && z < ZRV_STATE_RECORDS; z++) {
        const uint8_t *record = zone_record(state, z);
        printf(" %" PRIu64 ":%u:%" PRIu32 ":%u", get64(record + ZRV_RECORD_GENERATION), record[ZRV_RECORD_CONDITION], pointer_in_state(state, z),
               record[ZRV_RECORD_OWNER]);
    }
    for (uint32_t d = 0; d < g.drives && d < ZRV_MOST_DRIVES; d++)
        printf(" %" PRIu32 "/%" PRIu32, share_in_state(state, d, 0), share_in_state(state, d, 1));
}

/* A read of a whole zone up to its pointer, under the state that a look showed. */
static void show_zone(const struct host *host, uint32_t named, uint8_t *shown, uint32_t zone) {
    uint32_t pointer = get32(zone_record(shown, zone) + ZRV_RECORD_POINTER);
    if (pointer == 0) {
        printf(" 1");
        return;
    }
    struct range buffer = {NULL, (size_t)pointer * host->geometry.sector_bytes};
    buffer.bytes = malloc(buffer.length);
    if (buffer.bytes == NULL)
        exit(2);
    uint32_t code = host_read(host, named, zone * zone_addresses(host->geometry), pointer, shown, buffer);
    if (code == ZRV_FINISHED)
        printf(" %" PRIu32, adler(1, buffer.bytes, buffer.length));
    else
        printf(" r%" PRIu32, code);
    free(buffer.bytes);
}

/* What a finished look, read, peek or report adds to its line. */
static void show_rest(const struct host *host, const struct command *command, struct reply *reply) {
    if (command->letter == CALL_LOOK) {
        show_state(reply->shown, host->geometry);
        for (uint32_t z = 0; z < host->geometry.zones; z++)
            show_zone(host, (uint32_t)command->number[0], reply->shown, z);
    } else if (command->letter == CALL_READ) {
        printf(" %" PRIu32, adler(1, reply->buffer.bytes, reply->buffer.length));
    } else if (command->letter == CALL_PEEK) {
        uint64_t place = get64(reply->buffer.bytes);
        printf(" %" PRIu64 " %" PRIu32, place, adler(1, host->shelf.sectors.bytes + place, host->geometry.sector_bytes));
    } else if (command->letter == CALL_REPORT) {
        printf(" %" PRIu32 " %" PRIu32, reply->filled, adler(1, reply->buffer.bytes, reply->buffer.length));
    }
}

static void show(const struct host *host, const struct command *command, struct reply *reply) {
    uint32_t sectors = adler(1, host->shelf.sectors.bytes, host->shelf.sectors.length);
    uint32_t pointers = adler(1, host->shelf.written.bytes, host->shelf.written.length);
    pointers = adler(pointers, host->shelf.durable.bytes, host->shelf.durable.length);
    printf("%c %" PRIu32 " %" PRIu32 " %" PRIu32, command->letter, reply->code, sectors, pointers);
    if (!host->has_state)
        printf(" none");
    else if (leaves_state(command->letter))
        show_state(host->state, host->made_by);
    else
        printf(" same");
    if (reply->code == ZRV_FINISHED)
        show_rest(host, command, reply);
    if (has_place(reply->code))
        printf(" at %" PRIu32 " %" PRIu32 " %" PRIu32, reply->bad.drive, reply->bad.zone, reply->bad.sector);
    putchar('\n');
}

int main(void) {
    struct host host = {.shelf = needed_shelf((struct geometry){0})};
    struct command command;
    while (next_command(stdin, &command)) {
        struct reply reply = perform(&host, &command);
        show(&host, &command, &reply);
        free(reply.buffer.bytes);
        if (command.letter != 'n')
            host.shortage = (struct shortage){0};
    }
    free_shelf(&host.shelf);
    return 0;
}
