/* Looks of copies, each without one drive. A copy is mounted before it is read, since that is how the volume would come up without the drive; where too
 * little log is left for a mount it is read as it is. */
#include "left_out.h"

#include <stdlib.h>
#include <string.h>

#include "bytes.h"
#include "progress.h"

/* A copy of the shelf, what a look of it shows, and the state by which it is read. */
struct view {
    struct shelf shelf;
    uint32_t named, answer;
    uint8_t shown[ZRV_STATE_BYTES], state[ZRV_STATE_BYTES];
};

static struct call view_call(struct view *view, enum call_kind kind, uint8_t *state) {
    struct call call = {
        .kind = kind,
        .geometry = view->shelf.geometry,
        .named = view->named,
        .count = ZRV_ALL_STORES,
        .range = {[SECTORS] = view->shelf.sectors, [WRITTEN] = view->shelf.written, [DURABLE] = view->shelf.durable, [STATE] = {state, ZRV_STATE_BYTES}},
    };
    return call;
}

/* free_shelf is due where there was memory for the copy. */
static bool take_view(struct view *view, const struct driver *driver, uint32_t named) {
    *view = (struct view){.shelf = copy_shelf(&driver->drives.shelf), .named = named};
    if (!has_memory(&view->shelf))
        return false;
    struct call look = view_call(view, CALL_LOOK, view->shown);
    view->answer = make_call(&look);
    memcpy(view->state, view->shown, ZRV_STATE_BYTES);
    struct call mount = view_call(view, CALL_MOUNT, view->state);
    make_call(&mount);
    return true;
}

static uint32_t shown_sectors(const struct view *view, uint32_t zone) {
    return get32(zone_record(view->shown, zone) + ZRV_RECORD_POINTER);
}

/* Reads a zone's first sectors into a buffer. */
static uint32_t read_view(struct view *view, uint32_t zone, uint32_t run, const struct range *buffer) {
    struct call call = view_call(view, CALL_READ, view->state);
    call.address = zone_start(view->shelf.geometry, zone);
    call.run = run;
    call.range[BUFFER] = *buffer;
    return run == 0 ? ZRV_FINISHED : make_call(&call);
}

/* The first sector in which two buffers of a run differ; the run if none does. */
static uint32_t first_difference(struct range a, struct range b, uint32_t run, uint32_t sector_bytes) {
    uint32_t sector = 0;
    while (sector < run && memcmp(a.bytes + (size_t)sector * sector_bytes, b.bytes + (size_t)sector * sector_bytes, sector_bytes) == 0)
        sector++;
    return sector;
}

/* As far as both looks show a zone, by two buffers for that. */
static void compare_bytes(struct view *all, struct view *part, struct difference *difference, uint32_t run, const struct range buffer[2]) {
    struct geometry g = all->shelf.geometry;
    uint32_t answer_all = read_view(all, difference->zone, run, &buffer[0]), answer_part = read_view(part, difference->zone, run, &buffer[1]);
    uint32_t sector = first_difference(buffer[0], buffer[1], run, g.sector_bytes);
    difference->answer = answer_all != ZRV_FINISHED ? answer_all : answer_part;
    difference->kind = difference->answer != ZRV_FINISHED ? NOT_COMPARED : sector < run ? DIFFERENT_BYTES : NO_DIFFERENCE;
    difference->address = zone_start(g, difference->zone) + sector;
}

static bool compare_zone(struct view *all, struct view *part, struct difference difference, tell_difference tell, void *listener) {
    difference.with_all = shown_sectors(all, difference.zone);
    difference.without = shown_sectors(part, difference.zone);
    difference.record_with_all = zone_record(all->shown, difference.zone);
    difference.record_without = zone_record(part->shown, difference.zone);
    difference.kind = difference.with_all != difference.without ? DIFFERENT_LENGTH : DIFFERENT_RECORD;
    if (memcmp(difference.record_with_all, difference.record_without, ZRV_STATE_RECORD_BYTES) != 0)
        tell(listener, &difference);
    uint32_t run = difference.with_all < difference.without ? difference.with_all : difference.without;
    size_t bytes = (size_t)run * all->shelf.geometry.sector_bytes;
    struct range buffer[2] = {new_range(bytes), new_range(bytes)};
    bool good = buffer[0].bytes != NULL && buffer[1].bytes != NULL;
    if (good)
        compare_bytes(all, part, &difference, run, buffer);
    if (good && difference.kind != NO_DIFFERENCE)
        tell(listener, &difference);
    free(buffer[0].bytes);
    free(buffer[1].bytes);
    return good;
}

static bool compare_drive(const struct driver *driver, struct view *all, uint32_t drive, tell_difference tell, void *listener) {
    struct view part;
    if (!take_view(&part, driver, all->named & ~(1u << drive)))
        return false;
    bool good = true;
    struct difference difference = {.kind = NOT_COMPARED, .drive = drive, .zone = ZRV_STATE_RECORDS, .answer = part.answer};
    if (part.answer != ZRV_FINISHED)
        tell(listener, &difference);
    else
        for (difference.zone = 0; good && difference.zone < all->shelf.geometry.zones; difference.zone++)
            good = compare_zone(all, &part, difference, tell, listener);
    free_shelf(&part.shelf);
    return good;
}

bool compare_left_out(const struct driver *driver, tell_difference tell, void *listener) {
    uint32_t count = driver->drives.record.geometry.drives;
    struct progress progress = start_progress("looking with each drive left out", count);
    struct view all;
    bool good = take_view(&all, driver, driver->drives.present);
    for (uint32_t drive = 0; good && drive < count; drive++) {
        good = compare_drive(driver, &all, drive, tell, listener);
        step_progress(&progress, 1);
    }
    end_progress(&progress);
    free_shelf(&all.shelf);
    return good;
}
