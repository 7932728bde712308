/* The least that a host does: format, write, flush, lose power, mount, read. The drives are memory here, and the power cut is the harshest there is: it
 * keeps what was durable and nothing else. */
#include <stdio.h>
#include <stdlib.h>
#include <string.h>

#include "hosts.h"

enum { DRIVES = 4, SECTOR_BYTES = 64, UNIT = 2, ZONES = 2, ZONE_SECTORS = 32, EVERY_DRIVE = (1 << DRIVES) - 1, HOST = 0, FLUSHED = 5, LATER = 4 };

struct volume {
    uint8_t sectors[ZRV_SECTORS_BYTES(DRIVES, SECTOR_BYTES, ZONES, ZONE_SECTORS)];
    uint8_t written[ZRV_TABLE_BYTES(DRIVES, ZONES)], durable[ZRV_TABLE_BYTES(DRIVES, ZONES)];
    uint8_t state[ZRV_STATE_BYTES];
};

static const struct geometry geometry = {DRIVES, SECTOR_BYTES, UNIT, ZONES, ZONE_SECTORS};

/* What every call is handed: the geometry with the drives present, and the byte ranges. */
#define NUMBERS DRIVES, SECTOR_BYTES, UNIT, ZONES, ZONE_SECTORS, EVERY_DRIVE
#define BYTES(v) (v)->sectors, sizeof(v)->sectors, (v)->written, sizeof(v)->written, (v)->durable, sizeof(v)->durable, (v)->state, sizeof(v)->state

/* Says what a call answered and where zone 0 stands by the state; leaves on anything but finished. */
static void report(const char *call, uint64_t returned, struct volume *v) {
    static const char *const condition[] = {[ZRV_EMPTY] = "empty", [ZRV_OPEN] = "open", [ZRV_SEALED] = "sealed", [ZRV_WORN] = "worn"};
    if (ZRV_ANSWER(returned) != ZRV_FINISHED) {
        fprintf(stderr, "%s: answer %u\n", call, (unsigned)ZRV_ANSWER(returned));
        exit(1);
    }
    const uint8_t *record = zone_record(v->state, 0);
    printf("%-6s zone 0 is %s at %u\n", call, condition[record[ZRV_RECORD_CONDITION]], (unsigned)get32(record + ZRV_RECORD_POINTER));
}

/* Writes at zone 0's pointer, wherever that is. A full zone has no address to write at: the next one is another zone's. Where the host's share of a drive's parity
 * log is too small for the write, that drive is compacted first. */
static void append(struct volume *v, const uint8_t *data, uint32_t sectors) {
    uint64_t address = address_to_write(geometry, v->state, 0);
    if (address == NO_ADDRESS) {
        fputs("write: zone 0 is full\n", stderr);
        exit(1);
    }
    uint32_t drive = drive_to_compact(geometry, v->state, HOST, 0, sectors);
    if (drive != ZRV_NO_DRIVE)
        report("compact", zrv_compact(NUMBERS, drive, ZRV_ALL_STORES, BYTES(v)), v);
    report("write", zrv_write(NUMBERS, HOST, address, sectors, ZRV_ALL_STORES, BYTES(v), data, (size_t)sectors * SECTOR_BYTES), v);
}

int main(void) {
    static struct volume v;
    static uint8_t data[(FLUSHED + LATER) * SECTOR_BYTES], answer[FLUSHED * SECTOR_BYTES];
    const uint64_t array = 1;
    for (size_t i = 0; i < sizeof data; i++)
        data[i] = (uint8_t)(i / SECTOR_BYTES + 1);

    report("format", zrv_format(NUMBERS, array, ZRV_ALL_STORES, BYTES(&v)), &v);
    append(&v, data, FLUSHED);
    report("flush", zrv_flush(NUMBERS, ZRV_ALL_STORES, BYTES(&v)), &v);
    append(&v, data + FLUSHED * SECTOR_BYTES, LATER);

    memcpy(v.written, v.durable, sizeof v.written);
    memset(v.state, 0, sizeof v.state); /* the host's memory is gone too: a mount reads no state */
    report("mount", zrv_mount(NUMBERS, ZRV_ALL_STORES, BYTES(&v)), &v);
    report("read", zrv_read(NUMBERS, 0, FLUSHED, BYTES(&v), answer, sizeof answer), &v);
    int differs = memcmp(answer, data, sizeof answer) != 0;
    printf("the flushed sectors are %s\n", differs ? "different" : "as written");
    return differs;
}
