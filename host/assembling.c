/* Drives without a record: judged by their heads, and a record made. */
#include "assembling.h"

#include "redo.h"

static bool same_shelf(const struct drive_head *a, const struct drive_head *b) {
    return a->tag.array == b->tag.array && same_geometry(a->geometry, b->geometry);
}

/* How many drives in the folder are of a drive's shelf. */
static uint32_t drives_like(const struct found_drive found[ZRV_MOST_DRIVES], uint32_t drive) {
    uint32_t count = 0;
    for (uint32_t d = 0; d < ZRV_MOST_DRIVES; d++)
        count += found[d].is_drive && same_shelf(&found[d].head, &found[drive].head);
    return count;
}

/* The shelf that most drives are of, by the head of one; false, with a message, where there is no drive, and where two shelves have as many. */
static bool find_shelf(const struct drives *drives, const struct found_drive found[ZRV_MOST_DRIVES], const struct drive_head **shelf, struct message *message) {
    uint32_t most = 0;
    bool tie = false;
    for (uint32_t d = 0; d < ZRV_MOST_DRIVES; d++) {
        if (!found[d].is_drive || (most > 0 && same_shelf(&found[d].head, *shelf)))
            continue;
        uint32_t count = drives_like(found, d);
        tie = count == most || (count < most && tie);
        if (count > most) {
            *shelf = &found[d].head;
            most = count;
        }
    }
    if (most == 0)
        return fail(message, "%s: there is no drive in this folder", drives->folder);
    if (!tie)
        return true;
    fail(message, "%s: drives of several shelves, equally many: ", drives->folder);
    name_drives(found, "", message);
    add_words(message, "; move those of the others away");
    return false;
}

/* Says what is wrong with a drive, after what was said of others. */
static void tell_fault(uint32_t *faults, struct message *message) { add_words(message, (*faults)++ == 0 ? ": " : "; "); }

/* Two files that are the same drive: which of them counts is not ours to say. */
static void judge_doubles(const struct found_drive found[ZRV_MOST_DRIVES], const struct drive_head *shelf, uint32_t *faults, struct message *message) {
    for (uint32_t a = 0; a < ZRV_MOST_DRIVES; a++)
        for (uint32_t b = a + 1; b < ZRV_MOST_DRIVES; b++) {
            const struct drive_head *one = &found[a].head, *other = &found[b].head;
            if (!found[a].is_drive || !found[b].is_drive || !same_shelf(one, shelf) || !same_shelf(other, shelf) || one->drive != other->drive)
                continue;
            tell_fault(faults, message);
            add_words(message, "drive-%u.zrv (save %llu) and drive-%u.zrv (save %llu) are both drive %u: move one of them away", a,
                      (unsigned long long)one->tag.save, b, (unsigned long long)other->tag.save, one->drive);
        }
}

/* Whether a drive of the shelf is in its place. */
static bool judge_drive(const struct found_drive *found, const struct drive_head *shelf, uint32_t drive, uint32_t *faults, struct message *message) {
    if (found->is_drive && same_shelf(&found->head, shelf) && found->head.drive == drive)
        return true;
    tell_fault(faults, message);
    if (!found->there)
        add_words(message, "drive %u is missing: there is no drive-%u.zrv", drive, drive);
    else if (!found->is_drive)
        add_words(message, "drive %u is missing: %s", drive, found->why.text);
    else if (!same_shelf(&found->head, shelf))
        add_words(message, "drive %u is missing: drive-%u.zrv is foreign, drive %u of array %llu", drive, drive, found->head.drive,
                  (unsigned long long)found->head.tag.array);
    else
        add_words(message, "drive %u is missing: drive-%u.zrv is drive %u", drive, drive, found->head.drive);
    return false;
}

/* The record that the heads make. False, with a message, where drives are not in their places. */
static bool judge_drives(struct drives *drives, const struct found_drive found[ZRV_MOST_DRIVES], uint32_t without, struct message *message) {
    const struct drive_head *shelf = NULL;
    struct host_record *record = &drives->record;
    uint32_t faults = 0, missing = 0, doubles;
    if (!find_shelf(drives, found, &shelf, message))
        return false;
    record->geometry = shelf->geometry;
    record->array = shelf->tag.array;
    record->phase = PHASE_MOUNT_DUE;
    record->state[ZRV_STATE_LOST] = ZRV_NO_DRIVE;
    fail(message, "%s: not assembled, array %llu", drives->folder, (unsigned long long)record->array);
    judge_doubles(found, shelf, &faults, message);
    doubles = faults;
    for (uint32_t d = 0; d < shelf->geometry.drives; d++) {
        if (d == without)
            record->given_up = 1u << d;
        else if (judge_drive(&found[d], shelf, d, &faults, message))
            record->save[d] = found[d].head.tag.save;
        else
            missing = d;
    }
    if (faults == 1 && doubles == 0 && without == LEAVE_OUT_NONE)
        add_words(message, "; put the right file there, or leave it out: --without %u", missing);
    else if (faults > doubles)
        add_words(message, "; put the right files there: the volume comes back with one drive left out at most");
    return faults == 0;
}

/* A format that was stopped: only the record told whether it counts. */
static bool has_no_open_format(const struct drives *drives, struct message *message) {
    for (uint32_t d = 0; d < ZRV_MOST_DRIVES; d++) {
        char name[DRIVE_NAME_BYTES];
        if (is_taken(drives, drive_name(name, d, "new")))
            return fail(message, "%s/%s: left by a command that was stopped; move it away to go on without what that command stored", drives->folder, name);
    }
    return true;
}

/* There must be no record. A save that was stopped is ended first, as every command does: its redo file brings the record back. */
static bool has_no_record(const struct drives *drives, struct message *message) {
    bool was_there = is_taken(drives, RECORD_NAME);
    if (!recover_redo(drives, message))
        return false;
    if (was_there)
        return fail(message, "%s/%s: it is there: nothing to assemble; where it cannot be read, move it away first", drives->folder, RECORD_NAME);
    if (is_taken(drives, RECORD_NAME))
        return fail(message, "%s/%s: it is there again, from the %s of a command that was stopped: nothing to assemble", drives->folder, RECORD_NAME,
                    REDO_NAME);
    return true;
}

bool assemble_drives(struct drives *drives, const struct opening *opening, uint32_t without, struct message *message) {
    struct found_drive found[ZRV_MOST_DRIVES];
    *drives = (struct drives){.directory = -1};
    if (!open_and_lock(drives, opening, message) || !has_no_record(drives, message))
        return false;
    if (!find_drives(drives, found, message) || !has_no_open_format(drives, message) || !judge_drives(drives, found, without, message))
        return false;
    if (without != LEAVE_OUT_NONE && without >= drives->record.geometry.drives)
        return fail(message, "%s: there is no drive %u to leave out", drives->folder, without);
    return write_record(drives, message);
}
