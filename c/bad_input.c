/* Bad input through the C edge: every length one short and one long, every number at its bound and past it, a state with each of its bytes damaged, masks,
 * addresses, hosts and what they may hold, counts of stores, logs with each of their bytes damaged. Each call must answer the number that document 01's table
 * gives, with the place of a bad log, and keep every byte of every range where it refuses. Prints the count of cases; leaves with 1 at the first that is wrong
 * and says which. */
#include <inttypes.h>
#include <stdio.h>
#include <stdlib.h>
#include <string.h>

#include "fixture.h"
#include "hosts.h"
#include "plain_logs.h"

static const enum call_kind every_kind[] = {CALL_FORMAT, CALL_LOOK, CALL_MOUNT, CALL_WRITE, CALL_FLUSH, CALL_RESET, CALL_COMPACT, CALL_READ, CALL_PEEK, CALL_REPORT};
enum { KINDS = sizeof every_kind / sizeof *every_kind };

static unsigned long cases, refused;

static void fail(const struct fixture *f, const char *class, const struct call *c, const char *what, uint64_t wanted, uint64_t got) {
    printf("bad_input: %s: %s: call %c: %s: wanted %" PRIu64 ", got %" PRIu64 "\n", f->name, class, c->kind, what, wanted, got);
    printf("  geometry %u %u %u %u %u named %u host %u address %" PRIu64 " run %u zone %u drive %u count %u lengths", c->geometry.drives,
           c->geometry.sector_bytes, c->geometry.unit, c->geometry.zones, c->geometry.zone_sectors, c->named, c->host, c->address, c->run, c->zone, c->drive,
           c->count);
    for (int i = 0; i < RANGES; i++)
        printf(" %zu", c->range[i].length);
    for (size_t i = 0; i < f->memory_bytes; i++)
        if (f->before[i] != f->base[i])
            printf("\n  before the call byte %zu of the memory was %u in place of %u", i, f->before[i], f->base[i]);
    putchar('\n');
    exit(1);
}

/* The first byte of the memory that differs from what it was before the call. */
static size_t first_changed(const struct fixture *f) {
    size_t i = 0;
    while (i < f->memory_bytes && f->memory[i] == f->before[i])
        i++;
    return i;
}

/* Whether the guards about the ranges are as they were. */
static bool guards_kept(const struct fixture *f) {
    size_t at = 0;
    for (int r = 0; r < RANGES; r++) {
        if (memcmp(f->memory + at, f->before + at, GUARD_BYTES) != 0)
            return false;
        at += GUARD_BYTES + f->range[r].length;
    }
    return memcmp(f->memory + at, f->before + at, GUARD_BYTES) == 0;
}

/* A place as the C edge returns it. */
static uint64_t place_number(struct log_place place) { return (uint64_t)place.drive << 24 | (uint64_t)place.zone << 16 | place.sector; }

/* One case: the memory holds what the call is to find. The class may fix the number that must come (or ZRV_FINISHED for any). */
static void judge(struct fixture *f, const char *class, const struct call *call, uint32_t fixed) {
    struct expected *e = &f->expected;
    cases++;
    memcpy(f->before, f->memory, f->memory_bytes);
    expect(e, call);
    if (fixed != ZRV_FINISHED && e->code != fixed)
        fail(f, class, call, "the expectation", fixed, e->code);
    uint32_t filled = 0;
    struct log_place bad = {0, 0, 0};
    struct call made = *call;
    made.filled = &filled;
    made.bad = &bad;
    uint32_t code = make_call(&made);
    if (code != e->code)
        fail(f, class, call, "answer", e->code, code);
    if (filled != e->filled)
        fail(f, class, call, "descriptors", e->filled, filled);
    if (place_number(bad) != place_number(e->bad))
        fail(f, class, call, "place of a bad log", place_number(e->bad), place_number(bad));
    bool kept = code != ZRV_FINISHED && code != ZRV_UNFINISHED;
    bool none_made = code == ZRV_UNFINISHED && call->count == 0;
    refused += kept;
    if ((kept || none_made) && memcmp(f->memory, f->before, f->memory_bytes) != 0)
        fail(f, class, call, "changed byte of the memory", f->memory_bytes, first_changed(f));
    if (!guards_kept(f))
        fail(f, class, call, "guards kept", 1, 0);
    if (!kept && e->bytes_known && !bytes_as_expected(e, call))
        fail(f, class, call, "bytes left", 0, 1);
    restore(f);
}

static bool has_buffer(enum call_kind kind) { return kind == CALL_WRITE || kind == CALL_READ || kind == CALL_PEEK; }

static void lengths(struct fixture *f) {
    for (int k = 0; k < KINDS; k++)
        for (int r = 0; r < RANGES; r++) {
            const int by[] = {-1, 1, -4, 4, -8, 8, -64, 64};
            struct call call = usual_call(f, every_kind[k]);
            if (call.kind == CALL_REPORT ? r != STATE : r == BUFFER && !has_buffer(call.kind))
                continue;
            size_t whole = call.range[r].length;
            for (size_t i = 0; i < sizeof by / sizeof *by; i++) {
                if (by[i] < 0 && (size_t)-by[i] > whole)
                    continue;
                call.range[r].length = whole + (size_t)by[i];
                judge(f, "length", &call, ZRV_LENGTH);
            }
            call.range[r].length = 0;
            judge(f, "no bytes", &call, ZRV_LENGTH);
        }
}

/* A report's list of every length up to one descriptor more than there are zones. */
static void lists(struct fixture *f) {
    struct call call = usual_call(f, CALL_REPORT);
    size_t most = (size_t)(f->geometry.zones + 1) * ZRV_DESCRIPTOR_BYTES + 1;
    for (size_t length = 0; length <= most && length <= f->range[BUFFER].length; length++) {
        call.range[BUFFER].length = length;
        judge(f, "list", &call, ZRV_FINISHED);
    }
}

static void one_geometry(struct fixture *f, enum call_kind kind, int field, uint32_t value) {
    struct call call = usual_call(f, kind);
    uint32_t *number[] = {&call.geometry.drives, &call.geometry.sector_bytes, &call.geometry.unit, &call.geometry.zones, &call.geometry.zone_sectors};
    *number[field] = value;
    judge(f, "geometry", &call, geometry_fits(call.geometry) ? ZRV_FINISHED : ZRV_GEOMETRY);
}

/* Each number of the geometry: small ones, those about every bound, those about a power of two. */
static void geometries(struct fixture *f) {
    for (int k = 0; k < KINDS; k++)
        for (int field = 0; field < 5; field++) {
            for (uint32_t value = 0; value <= 130; value++)
                one_geometry(f, every_kind[k], field, value);
            for (int bit = 8; bit < 32; bit++)
                for (uint32_t by = 0; by < 3; by++)
                    one_geometry(f, every_kind[k], field, (1u << bit) - 1 + by);
            one_geometry(f, every_kind[k], field, UINT32_MAX);
        }
}

/* Every set of drives, also with bits that name no drive. */
static void masks(struct fixture *f) {
    uint32_t drives = f->geometry.drives, all = (1u << drives) - 1;
    for (int k = 0; k < KINDS; k++)
        for (uint32_t mask = 0; mask <= all; mask++) {
            const uint32_t beyond[] = {0, 1u << drives, 0x100, 1u << 31, ~all};
            for (size_t i = 0; i < sizeof beyond / sizeof *beyond; i++) {
                struct call call = usual_call(f, every_kind[k]);
                call.named = mask | beyond[i];
                judge(f, "mask", &call, ZRV_FINISHED);
            }
        }
}

static void one_pointer(struct fixture *f, enum call_kind kind, size_t index, uint32_t named, uint32_t written, uint32_t durable) {
    struct call call = usual_call(f, kind);
    call.named = named;
    put_pointer(f->range[WRITTEN], index, written);
    put_pointer(f->range[DURABLE], index, durable);
    judge(f, "write pointer", &call, ZRV_FINISHED);
}

/* Each write pointer at a zone's end and past it, and durable past written; its drive named and not. */
static void pointers(struct fixture *f) {
    struct geometry g = f->geometry;
    size_t zones = (size_t)g.zones + ZRV_LOG_ZONES;
    for (int k = 0; k < KINDS; k++)
        for (size_t index = 0; index < g.drives * zones; index++)
            for (int unnamed = 0; unnamed < 2; unnamed++) {
                uint32_t all = (1u << g.drives) - 1, c = g.zone_sectors, had = pointer_in(f->range[WRITTEN], index);
                uint32_t named = unnamed ? all & ~(1u << index / zones) : all;
                const uint32_t pair[][2] = {
                    {c, c}, {c, 0}, {c + 1, c}, {c + 1, c + 1}, {1u << 31, 0}, {UINT32_MAX, 0}, {UINT32_MAX, UINT32_MAX}, {had, had + 1}, {had, UINT32_MAX}, {c, c + 1},
                };
                for (size_t i = 0; i < sizeof pair / sizeof *pair; i++)
                    one_pointer(f, every_kind[k], index, named, pair[i][0], pair[i][1]);
            }
}

static void one_run(struct fixture *f, enum call_kind kind, uint64_t address, uint32_t run) {
    struct call call = usual_call(f, kind);
    call.address = address;
    call.run = run;
    if (kind != CALL_PEEK)
        call.range[BUFFER] = buffer_of(f, run);
    judge(f, "address and run", &call, ZRV_FINISHED);
}

/* Addresses about every pointer and zone's end, those past the last, those that would wrap; runs of none, one, up to a zone's end and past it. */
static void addresses(struct fixture *f) {
    struct geometry g = f->geometry;
    uint64_t whole = zone_addresses(g), last = whole * g.zones;
    for (uint32_t zone = 0; zone <= g.zones; zone++) {
        uint64_t start = zone * whole, pointer = zone < g.zones ? zone_pointer(f, zone) : 0;
        const uint64_t address[] = {start,       start + 1,   start + pointer, start + pointer - 1, start + pointer + 1, start + whole - 1, last,
                                    last + 1,    UINT32_MAX,  1ull << 32,      whole << 32,         1ull << 63,          UINT64_MAX,        UINT64_MAX - whole};
        const uint32_t run[] = {0, 1, 2, (uint32_t)pointer, (uint32_t)pointer + 1, (uint32_t)whole - (uint32_t)pointer, (uint32_t)whole,
                                (uint32_t)whole + 1, 1u << 31, UINT32_MAX};
        for (size_t a = 0; a < sizeof address / sizeof *address; a++) {
            one_run(f, CALL_PEEK, address[a], 1);
            for (size_t r = 0; r < sizeof run / sizeof *run; r++) {
                one_run(f, CALL_WRITE, address[a], run[r]);
                one_run(f, CALL_READ, address[a], run[r]);
            }
        }
    }
}

/* Runs whose bytes, counted in 32 bits, would be those of one sector. */
static void wrapping_runs(struct fixture *f) {
    const enum call_kind kind[] = {CALL_WRITE, CALL_READ};
    for (size_t k = 0; k < 2; k++) {
        struct call call = usual_call(f, kind[k]);
        call.range[BUFFER] = buffer_of(f, 1);
        call.run = (uint32_t)((1ull << 32) / f->geometry.sector_bytes + 1);
        judge(f, "run that wraps", &call, ZRV_LENGTH);
    }
}

static void zones(struct fixture *f) {
    uint32_t l = f->geometry.zones;
    const uint32_t zone[] = {0, 1, l - 1, l, l + 1, ZRV_MOST_ZONES, ZRV_MOST_ZONES + 1, 255, 256, 1u << 16, 1u << 31, UINT32_MAX - 1, UINT32_MAX};
    for (size_t i = 0; i < sizeof zone / sizeof *zone; i++) {
        struct call call = usual_call(f, CALL_RESET);
        call.zone = zone[i];
        judge(f, "zone", &call, zone[i] < l ? ZRV_FINISHED : ZRV_ADDRESS);
    }
}

/* Numbers about those that there are `below`, and some far out. */
enum { NUMBERS_ABOUT = 12 };
static uint32_t number_about(uint32_t below, int i) {
    const uint32_t number[NUMBERS_ABOUT] = {0, 1, below - 1, below, below + 1, ZRV_MOST_DRIVES, 255, 256, 1u << 16, 1u << 31, UINT32_MAX - 1, UINT32_MAX};
    return number[i];
}

/* The host of a write; the drive of a compact, with every drive named and with one left out. */
static void hosts_and_drives(struct fixture *f) {
    uint32_t drives = f->geometry.drives, all = (1u << drives) - 1, lost = f->range[STATE].bytes[ZRV_STATE_LOST];
    for (int i = 0; i < NUMBERS_ABOUT; i++) {
        struct call call = usual_call(f, CALL_WRITE);
        call.host = number_about(ZRV_HOSTS, i);
        judge(f, "host", &call, call.host < ZRV_HOSTS ? ZRV_FINISHED : ZRV_ADDRESS);
        for (uint32_t without = 0; without <= drives; without++) {
            call = usual_call(f, CALL_COMPACT);
            call.drive = number_about(drives, i);
            call.named = all & ~(1u << without);
            bool two_lost = without < drives && lost != ZRV_NO_DRIVE && without != lost, there = call.drive < drives && call.drive != without && call.drive != lost;
            judge(f, "drive", &call, two_lost ? ZRV_TWO_LOST : there ? ZRV_FINISHED : ZRV_ADDRESS);
        }
    }
}

/* A count of 0 stops every storing call before its first store; all but mount are followed store by store. */
static void counts(struct fixture *f) {
    const enum call_kind stores[] = {CALL_FORMAT, CALL_MOUNT, CALL_WRITE, CALL_FLUSH, CALL_RESET, CALL_COMPACT};
    for (size_t k = 0; k < sizeof stores / sizeof *stores; k++) {
        struct call call = usual_call(f, stores[k]);
        call.count = 0;
        judge(f, "no stores", &call, call.kind == CALL_WRITE ? ZRV_FINISHED : ZRV_UNFINISHED); /* a sealed zone refuses the write */
        for (uint32_t count = 1; count < 80 && call.kind != CALL_MOUNT; count++) {
            call.count = count;
            judge(f, "count of stores", &call, ZRV_FINISHED);
        }
    }
    struct call call = usual_call(f, CALL_FORMAT);
    call.array = UINT64_MAX;
    judge(f, "array number", &call, ZRV_FINISHED);
}

/* Every byte of the state, with each bit turned and with some values set. */
static void states(struct fixture *f) {
    for (int k = 0; k < KINDS; k++)
        for (size_t i = 0; i < ZRV_STATE_BYTES; i++)
            for (int change = 0; change < 14; change++) {
                const uint8_t value[] = {0, 1, 2, 3, 4, 255};
                struct call call = usual_call(f, every_kind[k]);
                uint8_t *byte = f->range[STATE].bytes + i;
                *byte = change < 8 ? *byte ^ (uint8_t)(1 << change) : value[change - 8];
                judge(f, "state's byte", &call, ZRV_FINISHED);
            }
}

/* Each zone's record at and past its bounds. */
static void records(struct fixture *f) {
    uint32_t whole = (uint32_t)zone_addresses(f->geometry);
    const uint32_t pointer[] = {0, 1, whole - 1, whole, whole + 1, 1u << 31, UINT32_MAX};
    const uint64_t generation[] = {0, 1, UINT32_MAX, UINT64_MAX - 1, UINT64_MAX};
    for (int k = 0; k < KINDS; k++)
        for (uint32_t zone = 0; zone < ZRV_STATE_RECORDS; zone++)
            for (uint32_t i = 0; i < 5 * 7 * 5; i++) {
                struct call call = usual_call(f, every_kind[k]);
                uint8_t *record = zone_record_to_change(f->range[STATE].bytes, zone);
                put64(record + ZRV_RECORD_GENERATION, generation[i % 5]);
                record[ZRV_RECORD_CONDITION] = (uint8_t)(i / 35);
                put32(record + ZRV_RECORD_POINTER, pointer[i / 5 % 7]);
                judge(f, "zone's record", &call, ZRV_FINISHED);
            }
}

/* Each zone's owner, with each condition; past the last zone too. */
static void owners(struct fixture *f) {
    const uint8_t owner[] = {ZRV_NOBODY, ZRV_OWNER(0), ZRV_OWNER(1), ZRV_OWNER(2), 128, 255};
    for (int k = 0; k < KINDS; k++)
        for (uint32_t zone = 0; zone < ZRV_STATE_RECORDS; zone++)
            for (uint32_t i = 0; i < 5 * sizeof owner; i++) {
                struct call call = usual_call(f, every_kind[k]);
                uint8_t *record = zone_record_to_change(f->range[STATE].bytes, zone);
                record[ZRV_RECORD_OWNER] = owner[i % sizeof owner];
                if (i >= sizeof owner && zone < f->geometry.zones)
                    record[ZRV_RECORD_CONDITION] = (uint8_t)(i / sizeof owner - 1);
                judge(f, "zone's owner", &call, ZRV_FINISHED);
            }
}

/* What is left of each share of each drive, past the last drive too, about what a write takes of it. */
static void shares(struct fixture *f) {
    const uint32_t left[] = {0, 1, 2, 3, 4, 5, 11, 12, 13, 1u << 16, 1u << 31, UINT32_MAX};
    for (int k = 0; k < KINDS; k++)
        for (uint32_t share = 0; share < ZRV_MOST_DRIVES * ZRV_HOSTS; share++)
            for (uint32_t i = 0; i < 2 * sizeof left / sizeof *left; i++) {
                struct call call = usual_call(f, every_kind[k]);
                call.host = i % 2;
                put_share(f->range[STATE].bytes, share / ZRV_HOSTS, share % ZRV_HOSTS, left[i / 2]);
                judge(f, "share", &call, ZRV_FINISHED);
            }
}

/* Zones from the first on that the state has open, so many of each host and of nobody. */
static void open_zones(struct fixture *f, const uint32_t number[ZRV_HOSTS + 1]) {
    uint32_t zone = 0;
    for (uint32_t owner = 0; owner <= ZRV_HOSTS; owner++)
        for (uint32_t i = 0; i < number[owner]; i++, zone++) {
            uint8_t *record = zone_record_to_change(f->range[STATE].bytes, zone);
            record[ZRV_RECORD_CONDITION] = ZRV_OPEN;
            record[ZRV_RECORD_OWNER] = (uint8_t)owner;
            put32(record + ZRV_RECORD_POINTER, 1);
        }
}

/* A write to the last zone, which is empty, by each host, with every number of open zones: of one sector, and of the whole zone. */
static void limits(struct fixture *f) {
    uint32_t last = f->geometry.zones - 1, whole = (uint32_t)zone_addresses(f->geometry);
    for (uint32_t i = 0; i < 4 * 16 * 16 * 16; i++) {
        const uint32_t number[ZRV_HOSTS + 1] = {i / 4 % 16, i / 64 % 16, i / 1024};
        if (number[0] + number[1] + number[2] > last)
            continue;
        struct call call = usual_call(f, CALL_WRITE);
        call.host = i % 2;
        call.address = zone_start(f->geometry, last);
        call.run = i / 2 % 2 == 0 ? 1 : whole;
        call.range[BUFFER] = buffer_of(f, call.run);
        open_zones(f, number);
        judge(f, "open zones", &call, ZRV_FINISHED);
    }
}

static const enum call_kind walking[] = {CALL_LOOK, CALL_MOUNT}; /* the calls that a bad log refuses */

static struct log_zones zones_of(const struct fixture *f, uint32_t drive) {
    struct shelf shelf = {.geometry = f->geometry, .sectors = f->range[SECTORS], .written = f->range[WRITTEN], .durable = f->range[DURABLE]};
    return log_zones_of(&shelf, drive);
}

static uint8_t *sector_in(const struct fixture *f, uint32_t drive, uint32_t zone, uint32_t sector) {
    return f->range[SECTORS].bytes + sector_offset(f->geometry, drive, zone, sector);
}

/* Every byte of every sector in the first three zones, with its lowest and its highest bit turned. */
static void log_bytes(struct fixture *f) {
    struct geometry g = f->geometry;
    for (uint32_t d = 0; d < g.drives; d++)
        for (uint32_t y = 0; y < ZRV_LOG_ZONES; y++) {
            size_t bytes = (size_t)pointer_in(f->range[WRITTEN], cell(g, d, y)) * g.sector_bytes;
            for (size_t i = 0; i < 4 * bytes; i++) {
                struct call call = usual_call(f, walking[i % 2]);
                sector_in(f, d, y, 0)[i / 4] ^= i / 2 % 2 == 0 ? 0x01 : 0x80;
                judge(f, "byte of a log", &call, ZRV_FINISHED);
            }
        }
}

/* At the end of a log a sector of zeros, or a closing entry that is not legal, of generation 0. */
static void append_bad(struct fixture *f, uint32_t drive, uint32_t log, bool marked) {
    struct log_zones zones = zones_of(f, drive);
    uint32_t y = find_log(&zones, log), at = zones.zone[y].written;
    uint8_t *sector = sector_in(f, drive, y, at);
    memset(sector, 0, f->geometry.sector_bytes);
    if (marked)
        closing_header(sector, f->geometry, log, 0);
    put_pointer(f->range[WRITTEN], cell(f->geometry, drive, y), at + 1);
}

/* Two bad logs, every pair of them: the earlier drive and zone decides. */
static void bad_pairs(struct fixture *f) {
    uint32_t logs = 2 * f->geometry.drives;
    for (uint32_t i = 0; i < logs * logs * 2; i++) {
        uint32_t first = i / 2 / logs, second = i / 2 % logs;
        struct call call = usual_call(f, walking[i % 2]);
        append_bad(f, first / 2, first % 2, false);
        if (second != first)
            append_bad(f, second / 2, second % 2, true);
        judge(f, "two bad logs", &call, ZRV_FINISHED);
    }
}

/* A parity log filled to `rows` sectors before its end, there a header that wants that many rows, of a stripe that has its parity on drive `of`. */
static void append_rows(struct fixture *f, uint32_t drive, uint32_t of, uint32_t rows) {
    struct geometry g = f->geometry;
    struct log_zones zones = zones_of(f, drive);
    uint32_t y = find_log(&zones, PARITY_LOG), at = zones.zone[y].written;
    for (; at + rows < g.zone_sectors; at++)
        closing_header(sector_in(f, drive, y, at), g, PARITY_LOG, 1);
    uint64_t start = (uint64_t)((of + 1) % g.drives) * stripe_sectors(g);
    partial_header(sector_in(f, drive, y, at), g, start, start + rows, 1);
    put_pointer(f->range[WRITTEN], cell(g, drive, y), at + 1);
}

/* A header whose rows would just pass the zone's end, on every drive and of every drive's stripes: only where it is legal that is what is wrong. */
static void rows_past_the_end(struct fixture *f) {
    uint32_t drives = f->geometry.drives;
    for (uint32_t i = 0; i < 2 * drives * drives * f->geometry.unit; i++) {
        uint32_t drive = i / 2 % drives, of = i / 2 / drives % drives, rows = i / 2 / drives / drives + 1;
        struct call call = usual_call(f, walking[i % 2]);
        bool lost = drive == f->range[STATE].bytes[ZRV_STATE_LOST];
        append_rows(f, drive, of, rows);
        judge(f, "rows past the end", &call, lost ? ZRV_FINISHED : of == drive ? ZRV_LOG_ROWS : ZRV_LOG_ENTRY);
    }
}

int main(void) {
    for (int which = 0; which < FIXTURES; which++) {
        struct fixture f = new_fixture(which);
        lengths(&f);
        lists(&f);
        geometries(&f);
        masks(&f);
        pointers(&f);
        addresses(&f);
        wrapping_runs(&f);
        zones(&f);
        hosts_and_drives(&f);
        counts(&f);
        states(&f);
        records(&f);
        owners(&f);
        shares(&f);
        log_bytes(&f);
        bad_pairs(&f);
        rows_past_the_end(&f);
        free_fixture(&f);
    }
    struct fixture sixteen = new_fixture(SIXTEEN_ZONES);
    limits(&sixteen);
    free_fixture(&sixteen);
    printf("bad_input: %lu cases as document 01 says, %lu of them refused with nothing changed\n", cases, refused);
    return 0;
}
