/* What is shown, held against document 01's book. */
#define _POSIX_C_SOURCE 200809L

#include "explore/check.h"

#include <stdlib.h>

#include "explore/ending.h"

struct event *push_event(struct explorer *explorer, struct event event) {
    struct event *place = &explorer->trail.event[explorer->trail.length++];
    *place = event;
    return place;
}

static void keep_story(struct explorer *explorer, const struct world *world, const struct verdict *verdict) {
    free(explorer->story);
    FILE *out = open_memstream(&explorer->story, &explorer->story_bytes);
    must_have_memory(out, sizeof *out);
    tell_story(out, &explorer->trail, world, verdict);
    fclose(out);
}

/* Counts what does not fit, and keeps the history that is best to be told. Always false. */
static bool misfit(struct explorer *explorer, const struct world *world, struct verdict verdict) {
    struct counts *counts = &explorer->counts;
    counts->misfits++;
    counts->trouble[verdict.trouble]++;
    if (verdict.answer <= LAST_REFUSAL)
        counts->refused[verdict.answer]++;
    size_t rank = explorer->trail.length + (verdict.answer == ZRV_FINISHED ? 0 : MOST_EVENTS);
    if (explorer->story == NULL || rank < explorer->story_rank) {
        keep_story(explorer, world, &verdict);
        explorer->story_rank = rank;
    }
    return false;
}

/* A zone as it is shown. Before a mount a read may be refused as stale: the drives have not yet what the state needs. */
static struct verdict judge_zone(struct explorer *explorer, struct world *world, uint8_t *shown, uint32_t zone, bool mounted) {
    static const enum trouble troubles[] = {[FITS] = NO_TROUBLE, [TOO_SHORT] = SHOWN_SHORT, [TOO_LONG] = SHOWN_LONG};
    struct verdict verdict = {.zone = zone, .pointer = pointer_in_state(shown, zone)};
    verdict.trouble = troubles[pointer_fits(&world->oracle, zone, verdict.pointer)];
    if (verdict.trouble != NO_TROUBLE || verdict.pointer == 0)
        return verdict;
    struct range answer = {explorer->answer, (size_t)verdict.pointer * world->shelf.geometry.sector_bytes};
    verdict.answer = read_world(world, shown, zone, answer);
    if (verdict.answer == ZRV_STALE && !mounted) {
        explorer->counts.unread++;
        return verdict;
    }
    if (verdict.answer != ZRV_FINISHED) {
        verdict.trouble = READ_REFUSED;
        return verdict;
    }
    explorer->counts.sectors += verdict.pointer;
    verdict.sector = first_difference(&world->oracle, zone, verdict.pointer, answer.bytes);
    if (verdict.sector < verdict.pointer)
        verdict.trouble = SHOWN_OTHER;
    return verdict;
}

static bool zones_fit(struct explorer *explorer, struct world *world, uint8_t *shown, bool mounted) {
    for (uint32_t z = 0; z < world->shelf.geometry.zones; z++) {
        struct verdict verdict = judge_zone(explorer, world, shown, z, mounted);
        if (verdict.trouble != NO_TROUBLE)
            return misfit(explorer, world, verdict);
    }
    return true;
}

bool look_fits(struct explorer *explorer, struct world *world, uint8_t *shown, bool mounted) {
    uint32_t answer = look_at_world(world, shown);
    explorer->counts.looks++;
    push_event(explorer, (struct event){.kind = EVENT_LOOK, .answer = answer, .shown = shown});
    if (answer != ZRV_FINISHED)
        return misfit(explorer, world, (struct verdict){.trouble = LOOK_REFUSED, .answer = answer});
    return zones_fit(explorer, world, shown, mounted);
}

void tell_oracle(struct world *world, uint8_t *shown) {
    for (uint32_t z = 0; z < world->shelf.geometry.zones; z++)
        oracle_mount(&world->oracle, z, pointer_in_state(shown, z));
}

bool mount_fits(struct explorer *explorer, struct world *world) {
    uint8_t shown[ZRV_STATE_BYTES];
    uint32_t answer = mount_world(world, ZRV_ALL_STORES, explorer->options->breakage);
    push_event(explorer, (struct event){.kind = EVENT_MOUNT, .answer = answer, .shown = world->state});
    if (answer == ZRV_LOG_FULL) {
        explorer->counts.full_mounts++;
        return false;
    }
    if (answer != ZRV_FINISHED)
        return misfit(explorer, world, (struct verdict){.trouble = MOUNT_REFUSED, .answer = answer});
    explorer->counts.mounts++;
    forget_old_zones(world);
    if (!zones_fit(explorer, world, world->state, true))
        return false;
    tell_oracle(world, world->state);
    bool fits = look_fits(explorer, world, shown, true);
    explorer->trail.length--;
    return fits;
}
