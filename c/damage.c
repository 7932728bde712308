/* The commands of a conformance script that are no calls. */
#include "damage.h"

#include <stdlib.h>
#include <string.h>

#include "hosts.h"
#include "journal.h"
#include "needed.h"

static struct geometry geometry_in(const struct command *command) {
    const uint64_t *number = command->number;
    struct geometry geometry = {narrowed(number[0]), narrowed(number[1]), narrowed(number[2]), narrowed(number[3]), narrowed(number[4])};
    return geometry;
}

static void renew(struct host *host, struct geometry geometry) {
    free_shelf(&host->shelf);
    memset(host, 0, sizeof *host);
    host->geometry = geometry;
    host->shelf = needed_shelf(geometry);
}

static void put_pointers(struct host *host, uint64_t index, uint32_t written, uint32_t durable) {
    if (index >= shelf_cells(host->shelf.geometry))
        return;
    put_pointer(host->shelf.written, index, written);
    put_pointer(host->shelf.durable, index, durable);
}

static void put_record(struct host *host, const uint64_t *number) {
    if (!host->has_state || number[0] >= ZRV_STATE_RECORDS)
        return;
    uint8_t *record = zone_record_to_change(host->state, (uint32_t)number[0]);
    put64(record + ZRV_RECORD_GENERATION, number[1]);
    record[ZRV_RECORD_CONDITION] = (uint8_t)number[2];
    put32(record + ZRV_RECORD_POINTER, number[2] == ZRV_EMPTY ? 0 : narrowed(number[3]));
}

static void put_owner(struct host *host, const uint64_t *number) {
    if (host->has_state && number[0] < ZRV_STATE_RECORDS)
        zone_record_to_change(host->state, (uint32_t)number[0])[ZRV_RECORD_OWNER] = (uint8_t)number[1];
}

static void put_shares(struct host *host, const uint64_t *number) {
    for (uint32_t h = 0; host->has_state && number[0] < ZRV_MOST_DRIVES && h < ZRV_HOSTS; h++)
        put_share(host->state, (uint32_t)number[0], h, narrowed(number[1 + h]));
}

/* A sector at a zone's write pointer, which rises by 1; nothing where the zone is full. */
static void append_odd(struct host *host, uint64_t drive, uint64_t zone, const uint8_t *sector) {
    struct geometry geometry = host->shelf.geometry;
    uint64_t zones = (uint64_t)geometry.zones + ZRV_LOG_ZONES;
    if (drive >= geometry.drives || zone >= zones)
        return;
    uint8_t *pointer = host->shelf.written.bytes + (drive * zones + zone) * POINTER_BYTES;
    uint32_t at = get32(pointer);
    if (at >= geometry.zone_sectors)
        return;
    uint64_t place = ((drive * zones + zone) * geometry.zone_sectors + at) * geometry.sector_bytes;
    memcpy(host->shelf.sectors.bytes + place, sector, geometry.sector_bytes);
    put32(pointer, at + 1);
}

static void append_of(struct host *host, const struct command *command) {
    const uint64_t *number = command->number;
    uint8_t *sector = calloc(host->shelf.geometry.sector_bytes + ENTRY_HEAD_BYTES, 1);
    if (sector == NULL)
        exit(2);
    if (command->letter == 'q') {
        fill_from_stream(sector, host->shelf.geometry.sector_bytes, number[2]);
    } else {
        memcpy(sector, ENTRY_MARK, ENTRY_MARK_BYTES);
        sector[ENTRY_TYPE] = (uint8_t)number[2];
        sector[ENTRY_VERSION] = ENTRY_FORMAT;
        put64(sector + ENTRY_START, number[3]);
        put64(sector + ENTRY_END, number[4]);
        put64(sector + ENTRY_GENERATION, number[5]);
    }
    append_odd(host, number[0], number[1], sector);
    free(sector);
}

static void put_byte(struct host *host, uint64_t offset, uint8_t value) {
    if (offset < host->shelf.sectors.length)
        host->shelf.sectors.bytes[offset] = value;
}

void change_host(struct host *host, const struct command *command) {
    const uint64_t *number = command->number;
    switch (command->letter) {
    case 'g':
        renew(host, geometry_in(command));
        break;
    case 'y':
        host->geometry = geometry_in(command);
        break;
    case 'n':
        host->shortage = (struct shortage){number[0], number[1], number[2], number[3]};
        break;
    case 'c':
        lose_power_at_random(&host->shelf, number[0]);
        break;
    case 'b':
        put_byte(host, number[0], (uint8_t)number[1]);
        break;
    case 't':
        put_pointers(host, number[0], narrowed(number[1]), narrowed(number[2]));
        break;
    case 's':
        put_record(host, number);
        break;
    case 'x':
        if (host->has_state)
            host->state[ZRV_STATE_LOST] = (uint8_t)number[0];
        break;
    case 'i':
        put_owner(host, number);
        break;
    case 'h':
        put_shares(host, number);
        break;
    case 'e':
    case 'q':
        append_of(host, command);
        break;
    }
}
