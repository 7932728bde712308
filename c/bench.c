/* The archive's speed as a share of plain C's and of memcpy's, for units of 1, 4 and 16 sectors on 4 and 8 drives, measured in one run by turns on the same
 * work, medians of repeated passes, in processor time, of writes by a host that compacts a drive when it is told 14 too; how a write's time grows with what zone
 * and logs hold, and what it costs to empty a log; and a look's and a mount's time per written sector as ratios to the smallest volume's. What is timed beside
 * plain C is held against its result byte by byte. */
#define _POSIX_C_SOURCE 199309L /* clock_gettime */

#include <stdio.h>
#include <stdlib.h>
#include <string.h>
#include <time.h>

#include "bench_grouped.h"
#include "hosts.h"
#include "needed.h"
#include "plain_logs.h"
#include "shelf.h"

enum { PASSES = 31, SLOW_PASSES = 3, OTHER_BYTES = 64 << 20 };

static struct geometry speeds_geometry(uint32_t drives, uint32_t unit) { return (struct geometry){drives, ZRV_MOST_SECTOR_BYTES, unit, 1, 128}; }
static const uint32_t speeds_drives[] = {4, 8}, speeds_units[] = {1, 4, 16};
static const struct geometry growth_geometry = {4, ZRV_MOST_SECTOR_BYTES, 4, 1, 512};
static struct geometry sizes_geometry(uint32_t zone_sectors) { return (struct geometry){4, ZRV_LEAST_SECTOR_BYTES, 4, 1, zone_sectors}; }
static const uint32_t sizes_zone_sectors[] = {4096, 16384, 32768, ZRV_MOST_ZONE_SECTORS};

/* One volume, once for the archive and once for plain C. */
struct bench {
    struct shelf shelf;
    uint8_t state[ZRV_STATE_BYTES];
    struct volume plain;
    uint32_t all, named; /* every drive; those that reads name */
    uint32_t run;        /* sectors of one call */
    uint32_t host;       /* of single writes */
    uint64_t turn, end;  /* the address from which on host 1 writes in place of host 0; that up to which writes go */
    uint32_t compacts;   /* that a host was told to make */
    uint8_t *data, *answer, *plain_answer;
    uint8_t *other; /* more memory than the processor caches, or none */
};

static void *memory(size_t length) {
    void *bytes = calloc(length, 1);
    if (bytes == NULL)
        exit(2);
    return bytes;
}

static double seconds(void) {
    struct timespec now;
    clock_gettime(CLOCK_PROCESS_CPUTIME_ID, &now);
    return (double)now.tv_sec + (double)now.tv_nsec * 1e-9;
}

static int ascending(const void *a, const void *b) {
    double x = *(const double *)a, y = *(const double *)b;
    return (x > y) - (x < y);
}

static double median(double *times, int count) {
    qsort(times, (size_t)count, sizeof *times, ascending);
    return times[count / 2];
}

static struct call bench_call(struct bench *b, enum call_kind kind) {
    struct call call = {.kind = kind, .geometry = b->shelf.geometry, .named = b->all, .array = 1, .count = ZRV_ALL_STORES};
    call.range[SECTORS] = b->shelf.sectors;
    call.range[WRITTEN] = b->shelf.written;
    call.range[DURABLE] = b->shelf.durable;
    call.range[STATE] = (struct range){b->state, sizeof b->state};
    call.range[BUFFER] = (struct range){b->answer, 0};
    return call;
}

static void must_be(uint32_t code, uint32_t wanted, const char *what) {
    if (code != wanted) {
        printf("bench: %s answered %u in place of %u\n", what, code, wanted);
        exit(1);
    }
}

/* Both volumes formatted anew: empty, the logs short. */
static void format_both(struct bench *b) {
    struct call call = bench_call(b, CALL_FORMAT);
    must_be(make_call(&call), ZRV_FINISHED, "format");
    must_be(plain_format(&b->plain, b->all, 1, ZRV_ALL_STORES), ZRV_FINISHED, "plain format");
}

static struct bench new_bench(struct geometry g) {
    size_t cells = shelf_cells(g), zone = zone_addresses(g) * g.sector_bytes;
    struct bench b = {.shelf = needed_shelf(g), .all = (1u << g.drives) - 1, .named = (1u << g.drives) - 1, .run = stripe_sectors(g)};
    b.turn = b.end = zone_addresses(g);
    b.data = memory(zone);
    b.answer = memory(zone);
    b.plain_answer = memory(zone);
    b.plain = (struct volume){g, memory(b.shelf.sectors.length), b.shelf.sectors.length, memory(cells * 4), memory(cells * 4), cells, cells, {0}};
    fill_from_stream(b.data, zone, 5);
    format_both(&b);
    return b;
}

static void free_bench(struct bench *b) {
    free_shelf(&b->shelf);
    free(b->data);
    free(b->answer);
    free(b->plain_answer);
    free(b->other);
    free(b->plain.sectors);
    free(b->plain.written);
    free(b->plain.durable);
}

static uint32_t write_one(struct bench *b, uint32_t host, uint64_t address) {
    struct call call = bench_call(b, CALL_WRITE);
    uint64_t bytes = b->shelf.geometry.sector_bytes;
    call.host = host;
    call.address = address;
    call.run = b->run;
    call.range[BUFFER] = (struct range){b->data + address * bytes, b->run * bytes};
    return make_call(&call);
}

static uint32_t write_one_plain(struct bench *b, uint32_t host, uint64_t address) {
    uint64_t bytes = b->shelf.geometry.sector_bytes;
    return plain_write(&b->plain, b->all, &(struct asked){host, address, b->run, b->data + address * bytes, b->run * bytes}, ZRV_ALL_STORES);
}

/* Zone 0 written from its start in runs, up to the end that is set; the sectors written. */
static uint64_t write_archive(struct bench *b) {
    uint64_t address = 0;
    for (; address + b->run <= b->end; address += b->run)
        must_be(write_one(b, address >= b->turn, address), ZRV_FINISHED, "write");
    return address;
}

static uint64_t write_plain(struct bench *b) {
    uint64_t address = 0;
    for (; address + b->run <= b->end; address += b->run)
        must_be(write_one_plain(b, address >= b->turn, address), ZRV_FINISHED, "plain write");
    return address;
}

/* Single sectors by one host, from an address up to the first write past its share. */
static uint64_t write_share(struct bench *b, uint32_t host, uint64_t address) {
    for (; address < zone_addresses(b->shelf.geometry); address++) {
        uint32_t answer = write_one_plain(b, host, address);
        if (answer == ZRV_FINISHED)
            continue;
        must_be(answer, ZRV_LOG_FULL, "plain write");
        break;
    }
    return address;
}

/* From here on single sectors are written, as far as they go without a compact: by host 0 while it has share enough, then by host 1. */
static void write_single_sectors(struct bench *b) {
    format_both(b);
    b->run = 1;
    b->turn = write_share(b, 0, 0);
    b->end = write_share(b, 1, b->turn);
}

/* The drive of the entry for which a write of zone 0 is refused. */
static uint32_t drive_told(const struct bench *b, uint64_t address) { return entry_drive(b->shelf.geometry, 0, (uint32_t)(address + b->run)); }

static uint32_t compact(struct bench *b, uint32_t drive) {
    struct call call = bench_call(b, CALL_COMPACT);
    call.drive = drive;
    return make_call(&call);
}

/* All of zone 0 in runs, by a host that compacts a drive when its write is refused with 14, and writes again. */
static uint64_t write_compacting(struct bench *b) {
    uint64_t address = 0;
    b->compacts = 0;
    while (address < zone_addresses(b->shelf.geometry)) {
        uint32_t answer = write_one(b, 0, address);
        if (answer == ZRV_FINISHED) {
            address += b->run;
            continue;
        }
        must_be(answer, ZRV_LOG_FULL, "write");
        must_be(compact(b, drive_told(b, address)), ZRV_FINISHED, "compact");
        b->compacts++;
    }
    return address;
}

static uint64_t write_compacting_plain(struct bench *b) {
    uint64_t address = 0;
    while (address < zone_addresses(b->shelf.geometry)) {
        uint32_t answer = write_one_plain(b, 0, address);
        if (answer == ZRV_FINISHED) {
            address += b->run;
            continue;
        }
        must_be(answer, ZRV_LOG_FULL, "plain write");
        must_be(plain_compact(&b->plain, b->all, drive_told(b, address), ZRV_ALL_STORES), ZRV_FINISHED, "plain compact");
    }
    return address;
}

static uint64_t read_archive(struct bench *b) {
    struct call call = bench_call(b, CALL_READ);
    uint64_t bytes = b->shelf.geometry.sector_bytes, whole = zone_addresses(b->shelf.geometry);
    call.named = b->named;
    for (call.run = b->run; call.address < whole; call.address += b->run) {
        call.range[BUFFER] = (struct range){b->answer + call.address * bytes, b->run * bytes};
        must_be(make_call(&call), ZRV_FINISHED, "read");
    }
    return call.address;
}

static uint64_t read_plain(struct bench *b) {
    uint64_t bytes = b->shelf.geometry.sector_bytes, whole = zone_addresses(b->shelf.geometry), address = 0;
    for (; address < whole; address += b->run)
        must_be(plain_read(&b->plain, b->named, address, b->run, b->plain_answer + address * bytes, b->run * bytes), ZRV_FINISHED, "plain read");
    return address;
}

/* The same bytes copied, for the writes to be held against. */
static uint64_t copy_bytes(struct bench *b) {
    uint64_t length = zone_addresses(b->shelf.geometry) * b->shelf.geometry.sector_bytes;
    memcpy(b->plain_answer, b->data, length);
    return length;
}

static void must_agree(struct bench *b, const char *what) {
    bool same = memcmp(b->shelf.sectors.bytes, b->plain.sectors, b->plain.sectors_bytes) == 0;
    for (size_t i = 0; i < b->plain.written_cells; i++)
        same &= pointer_in(b->shelf.written, i) == b->plain.written[i] && pointer_in(b->shelf.durable, i) == b->plain.durable[i];
    same &= memcmp(b->answer, b->plain_answer, zone_addresses(b->shelf.geometry) * b->shelf.geometry.sector_bytes) == 0;
    must_be(same, true, what);
}

/* The speed of the first as a share of the second's: the second's median time over the first's, by turns. */
static double speed(struct bench *b, uint64_t (*one)(struct bench *), uint64_t (*other)(struct bench *), bool writes) {
    double first[PASSES], second[PASSES];
    for (int i = 0; i < PASSES; i++) {
        if (writes)
            format_both(b);
        double start = seconds();
        one(b);
        double middle = seconds();
        other(b);
        second[i] = seconds() - middle;
        first[i] = middle - start;
    }
    return median(second, PASSES) / median(first, PASSES);
}

static void speeds_of(uint32_t drives, uint32_t unit) {
    struct bench b = new_bench(speeds_geometry(drives, unit));
    double copies = speed(&b, write_archive, copy_bytes, true);
    memset(b.plain_answer, 0, zone_addresses(b.shelf.geometry) * b.shelf.geometry.sector_bytes);
    double stripes = speed(&b, write_archive, write_plain, true);
    must_agree(&b, "whole-stripe writes");
    double reads = speed(&b, read_archive, read_plain, false);
    must_agree(&b, "reads");
    b.named = b.all & ~1u;
    double missing = speed(&b, read_archive, read_plain, false);
    must_agree(&b, "reads with a drive missing");
    write_single_sectors(&b);
    double single = speed(&b, write_archive, write_plain, true);
    must_agree(&b, "single-sector writes");
    double compacting = speed(&b, write_compacting, write_compacting_plain, true);
    must_agree(&b, "single-sector writes with compacts");
    printf("%6u %5u %15.2f %15.2f %15.2f %15.2f %15.2f %15.2f\n", drives, unit, stripes, reads, missing, single, compacting, copies);
    free_bench(&b);
}

static void speeds(void) {
    printf("speed as a share of plain C's, the last of memcpy's (4,096-byte sectors, C 128)\n");
    printf("%6s %5s %15s %15s %15s %15s %15s %15s\n", "drives", "unit", "stripe writes", "reads", "drive missing", "1-sector writes", "and compacting",
           "stripes/memcpy");
    for (size_t d = 0; d < sizeof speeds_drives / sizeof *speeds_drives; d++)
        for (size_t u = 0; u < sizeof speeds_units / sizeof *speeds_units; u++)
            speeds_of(speeds_drives[d], speeds_units[u]);
    printf("%12s %15s %15s %15s %15s %15s %15s\n", "wanted", "0.95", "0.95", "0.95", "0.90", "", "(U 4) 0.60 0.65");
}

/* The archive's time for `calls` writes in a row from an address on. */
static double time_writes(struct bench *b, uint64_t address, uint32_t calls) {
    double start = seconds();
    for (; calls > 0; calls--, address += b->run)
        must_be(write_one(b, b->host, address), ZRV_FINISHED, "write");
    return seconds() - start;
}

static void reset_zone_0(struct bench *b) {
    struct call call = bench_call(b, CALL_RESET);
    must_be(make_call(&call), ZRV_FINISHED, "reset");
}

/* Stripes that are timed, those written before the last of them, those whose single-sector writes all but fill the parity logs, and how many of these host 0
 * writes: its share has no room for more, and what is left of host 1's is enough for the timed ones. */
enum { TIMED_STRIPES = 4, FAR_STRIPES = 36, FILLING_STRIPES = 36, STRIPES_OF_HOST_0 = 20 };

/* Resets of zone 0 until the next one would empty a general log: that of drive 0, which gets two entries of each. */
static void fill_general_logs(struct bench *b) {
    while (b->shelf.geometry.zone_sectors - get32(b->shelf.written.bytes) >= reset_reserve(b->shelf.geometry))
        reset_zone_0(b);
}

/* Stripes from one on up to another, in runs, by host 0 and then by host 1. */
static void write_between(struct bench *b, uint32_t from, uint32_t to) {
    uint32_t stripe = stripe_sectors(b->shelf.geometry);
    for (; from < to; from++) {
        b->host = from >= STRIPES_OF_HOST_0;
        time_writes(b, (uint64_t)from * stripe, stripe / b->run);
    }
}

static void fill_parity_logs(struct bench *b) {
    b->run = 1;
    write_between(b, 0, FILLING_STRIPES);
    reset_zone_0(b);
}

static uint32_t log_zone_of(const struct bench *b, uint32_t drive, uint32_t log) {
    struct log_zones zones = log_zones_of(&b->shelf, drive);
    return find_log(&zones, log);
}

/* How many drives have their log of that kind in another zone than a format gives it. */
static uint32_t logs_moved(const struct bench *b, uint32_t log) {
    uint32_t count = 0;
    for (uint32_t d = 0; d < b->shelf.geometry.drives; d++)
        count += log_zone_of(b, d, log) != log;
    return count;
}

/* Compacts of every drive, then resets until every general log was emptied. */
static void move_logs(struct bench *b) {
    for (uint32_t d = 0; d < b->shelf.geometry.drives; d++)
        must_be(compact(b, d), ZRV_FINISHED, "compact");
    while (logs_moved(b, GENERAL_LOG) < b->shelf.geometry.drives)
        reset_zone_0(b);
}

/* What a fresh volume is brought to before the first stripes of zone 0 are written; zone 0 is left empty. */
static const struct {
    const char *name;
    void (*bring)(struct bench *b);
} histories[] = {{"general logs full", fill_general_logs}, {"parity logs full", fill_parity_logs}, {"logs moved", move_logs}};
enum { HISTORIES = sizeof histories / sizeof *histories };

/* The time of writes with nothing of the volume in the processor's caches, whatever was done before. */
static double time_from_memory(struct bench *b, uint64_t address, uint32_t calls) {
    static uint8_t fill;
    memset(b->other, ++fill, OTHER_BYTES);
    must_be(b->other[address % OTHER_BYTES], fill, "memory");
    return time_writes(b, address, calls);
}

/* How writes in runs of so many sectors grow: stripes far into the zone against its first, and the first of volumes with a history against those of a fresh
 * one. With runs of one sector the parity logs fill as the zone does. */
static void growth_of(struct bench *b, const char *what, uint32_t run) {
    double first[PASSES], last[PASSES], after[HISTORIES][PASSES];
    uint32_t stripe = stripe_sectors(b->shelf.geometry), calls = TIMED_STRIPES * stripe / run;
    for (int i = 0; i < PASSES; i++) {
        format_both(b);
        b->run = run;
        b->host = 0;
        first[i] = time_from_memory(b, 0, calls);
        write_between(b, TIMED_STRIPES, FAR_STRIPES);
        last[i] = time_from_memory(b, FAR_STRIPES * stripe, calls);
        for (int h = 0; h < HISTORIES; h++) {
            format_both(b);
            b->host = 0;
            histories[h].bring(b);
            b->run = run;
            after[h][i] = time_from_memory(b, 0, calls);
        }
    }
    double fresh = median(first, PASSES);
    printf("%16s %18.2f", what, median(last, PASSES) / fresh);
    for (int h = 0; h < HISTORIES; h++)
        printf(" %18.2f", median(after[h], PASSES) / fresh);
    putchar('\n');
}

static double time_reset(struct bench *b) {
    double start = seconds();
    reset_zone_0(b);
    return seconds() - start;
}

/* Resets from a fresh volume on: the time of the first that empties general logs, and of the one before it. */
static void time_resets(struct bench *b, double *usual, double *emptying) {
    format_both(b);
    *emptying = 0;
    while (logs_moved(b, GENERAL_LOG) == 0) {
        *usual = *emptying;
        *emptying = time_reset(b);
    }
}

/* The time of a compact of a drive whose parity log is all but full: one of its entries is still needed. */
static double time_compact(struct bench *b) {
    uint64_t last = 2 * STRIPES_OF_HOST_0 * stripe_sectors(b->shelf.geometry);
    format_both(b);
    b->run = 1;
    write_between(b, 0, 2 * STRIPES_OF_HOST_0);
    time_writes(b, last, 1);
    double start = seconds();
    must_be(compact(b, drive_told(b, last)), ZRV_FINISHED, "compact");
    return seconds() - start;
}

/* The time of a single-sector write of a whole zone by a host that compacts when it is told to, its compacts counted in. */
static double time_compacting(struct bench *b) {
    format_both(b);
    b->run = 1;
    double start = seconds();
    uint64_t writes = write_compacting(b);
    return (seconds() - start) / (double)writes;
}

static void emptyings(struct bench *b) {
    double usual[PASSES], emptying[PASSES], compacts[PASSES], single[PASSES], compacting[PASSES];
    uint32_t stripe = stripe_sectors(b->shelf.geometry), calls = TIMED_STRIPES * stripe;
    for (int i = 0; i < PASSES; i++) {
        time_resets(b, &usual[i], &emptying[i]);
        compacts[i] = time_compact(b);
        compacting[i] = time_compacting(b);
        format_both(b);
        b->host = 0;
        single[i] = time_writes(b, 0, calls) / calls;
    }
    printf("\ncalls that empty logs, in microseconds (the same volume, with what is left in the caches)\n");
    printf("%50s %8.2f\n", "compact of a drive whose parity log is full", 1e6 * median(compacts, PASSES));
    printf("%50s %8.2f\n%50s %8.2f\n", "reset", 1e6 * median(usual, PASSES), "reset that empties two general logs", 1e6 * median(emptying, PASSES));
    printf("%50s %8.2f\n", "1-sector write", 1e6 * median(single, PASSES));
    printf("%50s %8.2f  (%u writes, %u compacts)\n", "1-sector write of a host that compacts when told", 1e6 * median(compacting, PASSES),
           (unsigned)zone_addresses(b->shelf.geometry), b->compacts);
}

static void growth(void) {
    struct bench b = new_bench(growth_geometry);
    b.other = memory(OTHER_BYTES);
    printf("\na write's time against the same in a fresh volume, nothing of it in the caches (D 4, 4,096-byte sectors, U 4, C 512)\n%16s %18s", "", "far in the zone");
    for (int h = 0; h < HISTORIES; h++)
        printf(" %18s", histories[h].name);
    putchar('\n');
    growth_of(&b, "stripe writes", stripe_sectors(growth_geometry));
    growth_of(&b, "1-sector writes", 1);
    emptyings(&b);
    free_bench(&b);
}

static double median_call(struct bench *b, enum call_kind kind) {
    double times[SLOW_PASSES];
    for (int i = 0; i < SLOW_PASSES; i++) {
        struct call call = bench_call(b, kind);
        double start = seconds();
        must_be(make_call(&call), ZRV_FINISHED, "look or mount");
        times[i] = seconds() - start;
    }
    return median(times, SLOW_PASSES);
}

/* Look and mount of a full zone: nanoseconds per written sector, as ratios to the smallest. */
static void sizes(void) {
    double look_least = 0, mount_least = 0;
    printf("\nlook and mount, time per written sector against the smallest (D 4, 64-byte sectors)\n%8s %12s %12s\n", "C", "look", "mount");
    for (size_t i = 0; i < sizeof sizes_zone_sectors / sizeof *sizes_zone_sectors; i++) {
        struct bench b = new_bench(sizes_geometry(sizes_zone_sectors[i]));
        write_archive(&b);
        double look = median_call(&b, CALL_LOOK) / (double)table_sum(b.shelf.written);
        double mount = median_call(&b, CALL_MOUNT) / (double)table_sum(b.shelf.written);
        look_least = i == 0 ? look : look_least;
        mount_least = i == 0 ? mount : mount_least;
        printf("%8u %12.2f %12.2f\n", sizes_zone_sectors[i], look / look_least, mount / mount_least);
        free_bench(&b);
    }
}

int main(void) {
    speeds();
    growth();
    sizes();
    grouped_rows();
    return 0;
}
