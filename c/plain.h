/* The same volume in plain C, with no proof: the same layout, the same log entries, the same refusals, on the same tables in memory (write pointers as
 * arrays of numbers). It has format, write, reset, compact, read, flush and report. The bench holds the archive's times against it, and the test of bad input takes
 * from it which refusal document 01's table gives. */
#ifndef PLAIN_H
#define PLAIN_H

#include <stdbool.h>

#include "call.h"

struct zone_state {
    uint64_t generation;
    uint32_t condition, pointer;
    uint32_t owner; /* ZRV_NOBODY or a host's, ZRV_OWNER */
};

struct volume_state {
    uint32_t lost; /* or ZRV_NO_DRIVE */
    struct zone_state zone[ZRV_STATE_RECORDS];
    uint32_t share[ZRV_MOST_DRIVES][ZRV_HOSTS]; /* what is left of each host's share of a drive's parity log */
};

/* What a write is asked. */
struct asked {
    uint32_t host;
    uint64_t address;
    uint32_t run; /* sectors */
    const uint8_t *data;
    size_t data_bytes;
};

struct volume {
    struct geometry geometry;
    uint8_t *sectors;
    size_t sectors_bytes;
    uint32_t *written, *durable;
    size_t written_cells, durable_cells;
    struct volume_state state;
};

/* Each answers as the C edge does, by the numbers of zrv.h. */
uint32_t plain_format(struct volume *volume, uint32_t named, uint64_t array, uint32_t count);
uint32_t plain_write(struct volume *volume, uint32_t named, const struct asked *asked, uint32_t count);
uint32_t plain_reset(struct volume *volume, uint32_t named, uint32_t zone, uint32_t count);
uint32_t plain_compact(struct volume *volume, uint32_t named, uint32_t drive, uint32_t count);
uint32_t plain_read(const struct volume *volume, uint32_t named, uint64_t address, uint32_t run, uint8_t *answer, size_t answer_bytes);
uint32_t plain_flush(struct volume *volume, uint32_t named, uint32_t count);
uint32_t plain_report(const struct volume *volume, uint8_t *list, size_t list_bytes, uint32_t *filled);

/* What is refused, ZRV_FINISHED if nothing is, up to refusal 14 (of a write up to 19, of a peek and a compact 15 too). Of look and mount 1 to 6, 16 and 17, with the place
 * of a bad log, else zeros. */
bool geometry_fits(struct geometry geometry);
uint32_t format_refusal(const struct volume *volume, uint32_t named);
uint32_t look_refusal(const struct volume *volume, uint32_t named, struct log_place *bad);
uint32_t flush_refusal(const struct volume *volume, uint32_t named);
uint32_t write_refusal(const struct volume *volume, uint32_t named, const struct asked *asked);
uint32_t read_refusal(const struct volume *volume, uint32_t named, uint64_t address, uint32_t run, size_t answer_bytes);
uint32_t reset_refusal(const struct volume *volume, uint32_t named, uint32_t zone);
uint32_t compact_refusal(const struct volume *volume, uint32_t named, uint32_t drive);
uint32_t peek_refusal(const struct volume *volume, uint32_t named, uint64_t address);
uint32_t report_refusal(const struct volume *volume);

/* The room that a reset wants in each general log. */
uint32_t reset_reserve(struct geometry geometry);

#endif
