/* The calls with the host's duties kept. */
#include "driver.h"

#include <string.h>

#include "bytes.h"
#include "cached_resets.h"
#include "call_kinds.h"

bool open_driver(struct driver *driver, const struct opening *opening, struct message *message) {
    return open_folder(&driver->drives, opening, message) && load_drives(&driver->drives, message);
}

uint32_t strange_drive(const struct driver *driver, struct message *message) {
    for (uint32_t d = 0; d < driver->drives.record.geometry.drives; d++)
        if ((driver->drives.strange >> d & 1) != 0) {
            fail(message, "%s/drive-%u.zrv: not as this shelf left it (another shelf's, or an older copy); put the right file back or pull drive %u",
                 driver->drives.folder, d, d);
            return ANSWER_STRANGE_DRIVE;
        }
    return ZRV_FINISHED;
}

bool power_loss_is_due(const struct host_record *record, struct message *message) {
    if (record->phase != PHASE_POWER_LOSS_DUE)
        return false;
    fail(message, "not now: the last call was left unfinished; a power cut comes next");
    return true;
}

const char *why_mount_is_due(const struct host_record *record) {
    return record->older ? RECORD_NAME " is of an older version, without hosts and shares" : "power was cut";
}

const uint8_t *state_in_force(const struct host_record *record) { return record->phase == PHASE_READY ? record->state : NULL; }

bool was_formatted(const struct host_record *record) { return get64(zone_record(record->state, 0) + ZRV_RECORD_GENERATION) > 0; }

/* Whether a duty stands against a call. */
static uint32_t may_call(const struct driver *driver, enum call_kind kind, struct message *message) {
    const struct host_record *record = &driver->drives.record;
    if (power_loss_is_due(record, message))
        return ANSWER_NOT_NOW;
    if (record->phase == PHASE_MOUNT_DUE && !traits_of(kind)->after_cut) {
        fail(message, "not now: %s; a finished mount comes first", why_mount_is_due(record));
        return ANSWER_NOT_NOW;
    }
    return traits_of(kind)->any_drives ? ZRV_FINISHED : strange_drive(driver, message);
}

uint32_t find_address_to_write(const struct driver *driver, uint32_t zone, uint64_t *address, struct message *message) {
    struct geometry g = driver->drives.record.geometry;
    uint32_t answer = may_call(driver, CALL_WRITE, message);
    *address = address_to_write(g, driver->drives.record.state, zone);
    if (answer != ZRV_FINISHED || *address != NO_ADDRESS)
        return answer;
    if (zone >= g.zones)
        return ZRV_ADDRESS;
    fail(message, "zone %u is full: all of its %llu sectors are written; reset it or write to another zone", zone, (unsigned long long)zone_addresses(g));
    return ANSWER_ZONE_FULL;
}

static void give_up_absent(struct driver *driver) {
    struct host_record *record = &driver->drives.record;
    record->given_up |= ~driver->drives.present & ((1u << record->geometry.drives) - 1);
    driver->drives.present &= ~record->given_up;
}

static void take_finished(struct driver *driver) {
    struct host_record *record = &driver->drives.record;
    memcpy(record->state, driver->shown, ZRV_STATE_BYTES);
    record->phase = PHASE_READY;
    record->older = false;
    if (record->state[ZRV_STATE_LOST] != ZRV_NO_DRIVE)
        driver->drives.present &= ~(1u << record->state[ZRV_STATE_LOST]);
    give_up_absent(driver);
}

static void take_unfinished(struct driver *driver) {
    driver->drives.record.phase = PHASE_POWER_LOSS_DUE;
    give_up_absent(driver);
}

/* From where on a call may have stored: from the pointer of before; from a zone's beginning where it was reset, or may have been. */
static void note_stored(struct drives *drives, const struct shelf *before, enum call_kind kind) {
    struct geometry g = drives->record.geometry;
    for (size_t at = 0; at < shelf_cells(g); at++) {
        uint32_t from = pointer_in(before->written, at);
        if (pointer_in(drives->shelf.written, at) < from || (traits_of(kind)->refills_logs && at % physical_zones(g) < ZRV_LOG_ZONES))
            from = 0;
        drives->stored_from[at] = from < drives->stored_from[at] ? from : drives->stored_from[at];
    }
}

/* What has to be kept of the drives before a call that stores. */
static bool keep_before(const struct drives *drives, const struct call *call, struct shelf *before, struct message *message) {
    *before = (struct shelf){.geometry = call->geometry};
    if (traits_of(call->kind)->makes_drives)
        return true;
    *before = shelf_before(&drives->shelf, call);
    return has_memory(before) || no_memory(message, shelf_bytes(call->geometry));
}

/* After a call that stored: what the drives' caches hold, and what the files do not. Drives that it made are new as a whole. */
static bool note_stores(struct drives *drives, const struct shelf *before, const struct call *call, uint32_t answer, struct message *message) {
    struct stored_call stored = {call, answer, drives->record.state};
    if (traits_of(call->kind)->makes_drives)
        return true;
    note_stored(drives, before, call->kind);
    return note_resets(&drives->shelf, before, &stored, message);
}

/* A call that stores, and what it left. Nothing is taken over from one whose stores cannot be told: the files keep what they hold. */
static uint32_t make_storing_call(struct driver *driver, const struct call *call, struct message *message) {
    struct drives *drives = &driver->drives;
    struct shelf before;
    if (!keep_before(drives, call, &before, message))
        return ANSWER_FAILED;
    uint32_t answer = make_call(call);
    if ((answer == ZRV_FINISHED || answer == ZRV_UNFINISHED) && !note_stores(drives, &before, call, answer, message))
        answer = ANSWER_FAILED;
    free_shelf(&before);
    if (answer == ZRV_FINISHED)
        take_finished(driver);
    if (answer == ZRV_UNFINISHED)
        take_unfinished(driver);
    return answer;
}

uint32_t driver_call(struct driver *driver, struct call call, struct message *message) {
    struct drives *drives = &driver->drives;
    uint32_t answer = may_call(driver, call.kind, message);
    if (answer != ZRV_FINISHED)
        return answer;
    memcpy(driver->shown, drives->record.state, ZRV_STATE_BYTES);
    call.geometry = drives->record.geometry;
    call.named = drives->present;
    call.range[SECTORS] = drives->shelf.sectors;
    call.range[WRITTEN] = drives->shelf.written;
    call.range[DURABLE] = drives->shelf.durable;
    call.range[STATE] = (struct range){driver->shown, ZRV_STATE_BYTES};
    call.bad = &driver->bad;
    return traits_of(call.kind)->stores ? make_storing_call(driver, &call, message) : make_call(&call);
}

/* The cell of a zone that a power cut is given; false, with a message, where a present drive has none such. */
static bool find_cell(const struct driver *driver, uint32_t drive, uint32_t zone, size_t *at, struct message *message) {
    struct geometry g = driver->drives.record.geometry;
    if (drive >= g.drives || (driver->drives.present >> drive & 1) == 0 || zone >= physical_zones(g))
        return fail(message, "there is no drive %u with a zone %u here", drive, zone);
    *at = cell(g, drive, zone);
    return true;
}

bool undo_resets(struct driver *driver, const struct power_loss *loss, size_t *undone, struct message *message) {
    struct shelf *shelf = &driver->drives.shelf;
    for (size_t i = 0; i < loss->undone_count; i++) {
        const struct kept_zone *zone = &loss->undone[i];
        size_t at = 0;
        if (!find_cell(driver, zone->drive, zone->zone, &at, message))
            return false;
        if (!reset_is_cached(shelf, at))
            return fail(message, "zone %u of drive %u has no reset in the drive's cache", zone->zone, zone->drive);
        undo_reset(shelf, at);
    }
    *undone = loss->undone_count;
    if (loss->undoes == UNDO_ALL)
        *undone = undo_all_resets(shelf);
    if (loss->undoes == UNDO_RANDOM)
        *undone = undo_resets_at_random(shelf, loss->seed);
    return true;
}

static bool can_keep(const struct driver *driver, const struct kept_zone *kept, struct message *message) {
    const struct shelf *shelf = &driver->drives.shelf;
    size_t at = 0;
    if (!find_cell(driver, kept->drive, kept->zone, &at, message))
        return false;
    uint32_t durable = pointer_in(shelf->durable, at), written = pointer_in(shelf->written, at);
    if (kept->sectors < durable || kept->sectors > written)
        return fail(message, "zone %u of drive %u can keep %u to %u sectors, not %u", kept->zone, kept->drive, durable, written, kept->sectors);
    return true;
}

bool lose_power(struct driver *driver, const struct power_loss *loss, struct message *message) {
    struct shelf *shelf = &driver->drives.shelf;
    for (size_t i = 0; i < loss->given_count; i++)
        if (!can_keep(driver, &loss->given[i], message))
            return false;
    if (loss->keeps == KEEP_RANDOM)
        lose_power_at_random(shelf, loss->seed);
    else
        for (size_t at = 0; at < shelf_cells(shelf->geometry); at++)
            keep_sectors(shelf, at, pointer_in(loss->keeps == KEEP_ALL ? shelf->written : shelf->durable, at));
    for (size_t i = 0; i < loss->given_count; i++)
        keep_sectors(shelf, cell(shelf->geometry, loss->given[i].drive, loss->given[i].zone), loss->given[i].sectors);
    forget_resets(shelf);
    driver->drives.record.phase = PHASE_MOUNT_DUE;
    return true;
}
