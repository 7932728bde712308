/* When to compact (docs/USING.md, "Two hosts"). Two hosts write runs at random, in zones as short as each rule asks for, and compact by that rule: before a write that
 * wants more than is left, or before a stripe when less is left than the dearest way takes to write one in every zone. Neither may ever be told 14, and a compact
 * leaves what was said before it. Ends with 'shares: N writes and M compacts, none refused'. */
#include <stdio.h>
#include <stdlib.h>

#include "bounds.h"
#include "hosts.h"
#include "shelf.h"

enum rule { BY_WRITE, BY_STRIPE, RULES };
enum { WRITES = 2000, MOUNT_ONE_IN = 64, NO_STRIPE = UINT32_MAX };

/* Their zones' sectors are the rule's. */
static const struct geometry geometries[] = {
    {3, 64, 1, 1, 0}, {4, 64, 2, 2, 0}, {3, 64, 1, 4, 0}, {4, 64, 3, 1, 0}, {5, 64, 2, 3, 0}, {8, 64, 2, 4, 0}, {3, 64, 16, 2, 0},
};

struct trial {
    struct shelf shelf;
    uint8_t state[ZRV_STATE_BYTES];
    enum rule rule;
    uint32_t asked[ZRV_HOSTS][ZRV_MOST_ZONES]; /* the stripe of a zone before which the host has asked last */
    struct range data;
    uint32_t draw;
};

static unsigned long writes, compacts;

/* What the dearest way to write a stripe takes, one sector at a time, in each of the zones that a host may be writing by turns. */
static uint32_t dearest_stripes(struct geometry g) {
    uint32_t sum = 0;
    for (uint32_t pointer = 1; pointer < stripe_sectors(g); pointer++)
        sum += entry_sectors(g, pointer);
    return g.zones * sum;
}

/* The shortest zones for a rule. */
static uint32_t zone_sectors_for(struct geometry g, enum rule rule) {
    uint32_t least = 2 * g.zones * (1 + g.unit) + g.unit + 1 + 2 * dearest_stripes(g);
    return rule == BY_WRITE ? least_sharing_zone_sectors(g) : (least + g.unit - 1) / g.unit * g.unit;
}

static void must_finish(struct trial *t, struct call call) {
    call.geometry = t->shelf.geometry;
    call.named = (1u << call.geometry.drives) - 1;
    call.array = 1;
    call.count = ZRV_ALL_STORES;
    call.range[SECTORS] = t->shelf.sectors;
    call.range[WRITTEN] = t->shelf.written;
    call.range[DURABLE] = t->shelf.durable;
    call.range[STATE] = (struct range){t->state, sizeof t->state};
    call.range[BUFFER] = (struct range){t->data.bytes, (size_t)call.run * call.geometry.sector_bytes};
    uint32_t answer = make_call(&call);
    if (answer == ZRV_FINISHED)
        return;
    printf("shares: %u drives, unit %u, %u zones of %u sectors, rule %d: call %c by host %u answered %u\n", call.geometry.drives, call.geometry.unit,
           call.geometry.zones, call.geometry.zone_sectors, t->rule, call.kind, call.host, answer);
    exit(EXIT_FAILURE);
}

static uint32_t drawn_below(struct trial *t, uint32_t most) {
    t->draw = next_draw(t->draw);
    return (t->draw >> 8) % most;
}

static void forget_asked(struct trial *t) {
    for (uint32_t host = 0; host < ZRV_HOSTS; host++)
        for (uint32_t zone = 0; zone < ZRV_MOST_ZONES; zone++)
            t->asked[host][zone] = NO_STRIPE;
}

static void compact(struct trial *t, uint32_t drive) {
    uint32_t said = share_after_compact(t->shelf.geometry, t->state, drive);
    must_finish(t, (struct call){.kind = CALL_COMPACT, .drive = drive});
    compacts++;
    for (uint32_t host = 0; host < ZRV_HOSTS; host++)
        if (share_in_state(t->state, drive, host) != said) {
            printf("shares: a compact leaves host %u %u, not %u\n", host, share_in_state(t->state, drive, host), said);
            exit(EXIT_FAILURE);
        }
}

/* Compacts the drive of a write's entry, if the rule asks for it. */
static void compact_by_rule(struct trial *t, uint32_t host, uint32_t zone, uint32_t run) {
    struct geometry g = t->shelf.geometry;
    uint32_t end = pointer_in_state(t->state, zone) + run, stripe = end / stripe_sectors(g), drive = entry_drive(g, zone, end);
    if (t->rule == BY_WRITE) {
        drive = drive_to_compact(g, t->state, host, zone, run);
    } else {
        if (t->asked[host][zone] == stripe || share_in_state(t->state, drive, host) >= dearest_stripes(g))
            drive = ZRV_NO_DRIVE;
        t->asked[host][zone] = stripe;
    }
    if (drive != ZRV_NO_DRIVE)
        compact(t, drive);
}

static void step(struct trial *t) {
    struct geometry g = t->shelf.geometry;
    uint32_t host = drawn_below(t, ZRV_HOSTS), zone = drawn_below(t, g.zones);
    if (drawn_below(t, MOUNT_ONE_IN) == 0) {
        must_finish(t, (struct call){.kind = CALL_MOUNT});
        forget_asked(t);
    }
    if (address_to_write(g, t->state, zone) == NO_ADDRESS) {
        must_finish(t, (struct call){.kind = CALL_RESET, .zone = zone});
        t->asked[0][zone] = t->asked[1][zone] = NO_STRIPE;
    }
    uint64_t left = zone_addresses(g) - pointer_in_state(t->state, zone);
    uint32_t run = drawn_below(t, 3) == 0 ? 1 + drawn_below(t, 2 * stripe_sectors(g)) : 1;
    run = run < left ? run : (uint32_t)left;
    compact_by_rule(t, host, zone, run);
    must_finish(t, (struct call){.kind = CALL_WRITE, .host = host, .address = address_to_write(g, t->state, zone), .run = run});
    writes++;
}

int main(void) {
    for (size_t i = 0; i < RULES * sizeof geometries / sizeof *geometries; i++) {
        struct geometry g = geometries[i / RULES];
        struct trial t = {.rule = (enum rule)(i % RULES), .draw = first_draw(i)};
        g.zone_sectors = zone_sectors_for(g, t.rule);
        t.shelf = new_shelf(g);
        t.data = new_range((size_t)2 * stripe_sectors(g) * g.sector_bytes);
        if (!has_memory(&t.shelf) || t.data.bytes == NULL)
            return EXIT_FAILURE;
        forget_asked(&t);
        must_finish(&t, (struct call){.kind = CALL_FORMAT});
        for (int n = 0; n < WRITES; n++)
            step(&t);
        free_shelf(&t.shelf);
        free(t.data.bytes);
    }
    printf("shares: %lu writes and %lu compacts, none refused\n", writes, compacts);
    return EXIT_SUCCESS;
}
