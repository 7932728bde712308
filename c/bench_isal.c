/* The archive's write of a whole stripe beside the same bytes laid by memcpy and ISA-L's xor_gen, on the same memory, by turns, medians in processor time. The
 * write copies units and adds them to their row in one pass, so its exclusive or cannot be timed alone; xor_gen's can. ISA-L is no part of the product. */
#define _POSIX_C_SOURCE 199309L /* clock_gettime */

#include <isa-l/raid.h>
#include <stdbool.h>
#include <stdio.h>
#include <stdlib.h>
#include <string.h>
#include <time.h>

#include "needed.h"
#include "shelf.h"

enum { PASSES = 301, ALIGNMENT = 64, ZONE_SECTORS = 128 };

/* A volume of one zone, and the data of its first stripe; the stripe's parity lies on the last drive. */
struct stripe {
    struct shelf shelf;
    uint8_t state[ZRV_STATE_BYTES];
    struct range data;
};

static struct range aligned_range(size_t length) {
    struct range range = {aligned_alloc(ALIGNMENT, (length + ALIGNMENT - 1) / ALIGNMENT * ALIGNMENT), length};
    if (range.bytes == NULL)
        exit(2);
    memset(range.bytes, 0, length);
    return range;
}

static double seconds(void) {
    struct timespec now;
    clock_gettime(CLOCK_PROCESS_CPUTIME_ID, &now);
    return (double)now.tv_sec + (double)now.tv_nsec * 1e-9;
}

static int ascending(const void *a, const void *b) {
    double x = *(const double *)a, y = *(const double *)b;
    return (x > y) - (x < y);
}

static double median(double *times) {
    qsort(times, PASSES, sizeof *times, ascending);
    return times[PASSES / 2];
}

static void make(struct stripe *s, enum call_kind kind, uint32_t named) {
    struct geometry g = s->shelf.geometry;
    struct call call = {.kind = kind, .geometry = g, .named = named, .run = stripe_sectors(g), .count = ZRV_ALL_STORES};
    call.range[SECTORS] = s->shelf.sectors;
    call.range[WRITTEN] = s->shelf.written;
    call.range[DURABLE] = s->shelf.durable;
    call.range[STATE] = (struct range){s->state, sizeof s->state};
    call.range[BUFFER] = s->data;
    uint32_t code = make_call(&call);
    if (code != ZRV_FINISHED) {
        printf("bench: a call answered %u\n", code);
        exit(1);
    }
}

/* The time of the stripe's write, into an empty volume. */
static double time_write(struct stripe *s) {
    uint32_t all = (1u << s->shelf.geometry.drives) - 1;
    make(s, CALL_FORMAT, all);
    double start = seconds();
    make(s, CALL_WRITE, all);
    return seconds() - start;
}

/* Unit j of the zone's first stripe lies on drive j, its parity on the last. */
static uint8_t *place(struct stripe *s, uint32_t drive, uint32_t row) { return s->shelf.sectors.bytes + sector_offset(s->shelf.geometry, drive, ZRV_LOG_ZONES, row); }

static void copy_units(struct stripe *s) {
    struct geometry g = s->shelf.geometry;
    size_t unit = (size_t)g.unit * g.sector_bytes;
    for (uint32_t j = 0; j < g.drives - 1; j++)
        memcpy(place(s, j, 0), s->data.bytes + j * unit, unit);
}

/* The time of xor_gen over the stripe's rows, after copies of its units or without them. */
static double time_isal(struct stripe *s, bool copies) {
    struct geometry g = s->shelf.geometry;
    double start = seconds();
    if (copies)
        copy_units(s);
    for (uint32_t row = 0; row < g.unit; row++) {
        void *rows[ZRV_MOST_DRIVES];
        for (uint32_t j = 0; j < g.drives - 1; j++)
            rows[j] = s->data.bytes + (size_t)(j * g.unit + row) * g.sector_bytes;
        rows[g.drives - 1] = place(s, g.drives - 1, row);
        if (xor_gen((int)g.drives, (int)g.sector_bytes, rows) != 0)
            exit(1);
    }
    return seconds() - start;
}

static void row(uint32_t drives, uint32_t unit) {
    struct geometry g = {drives, ZRV_MOST_SECTOR_BYTES, unit, 1, ZONE_SECTORS};
    struct stripe s = {.shelf = needed_shelf(g), .data = aligned_range((size_t)stripe_sectors(g) * g.sector_bytes)};
    double whole[PASSES], both[PASSES], isal[PASSES];
    free(s.shelf.sectors.bytes);
    s.shelf.sectors = aligned_range(s.shelf.sectors.length);
    fill_from_stream(s.data.bytes, s.data.length, 5);
    for (int i = 0; i < PASSES; i++) {
        whole[i] = time_write(&s);
        both[i] = time_isal(&s, true);
        isal[i] = time_isal(&s, false);
    }
    printf("%6u %5u %16.2f %16.2f %16.2f %16.2f\n", drives, unit, 1e6 * median(whole), 1e6 * median(both), 1e6 * median(isal), median(both) / median(whole));
    free_shelf(&s.shelf);
    free(s.data.bytes);
}

int main(void) {
    printf("the write of a whole stripe (4,096-byte sectors), beside memcpy of its units and ISA-L's xor_gen of its rows; microseconds,\n");
    printf("and the archive's speed as a share of theirs\n");
    printf("%6s %5s %16s %16s %16s %16s\n", "drives", "unit", "stripe write", "both", "xor_gen alone", "share");
    for (uint32_t drives = 4; drives <= ZRV_MOST_DRIVES; drives += 4)
        for (uint32_t unit = 1; unit <= ZRV_MOST_UNIT; unit *= 4)
            row(drives, unit);
    return 0;
}
