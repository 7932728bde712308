/* A shelf kept as files in a folder. */
#define _DEFAULT_SOURCE
#include "drives.h"

#include <errno.h>
#include <fcntl.h>
#include <stdlib.h>
#include <string.h>
#include <sys/stat.h>
#include <unistd.h>

#include "bytes.h"
#include "drive_file.h"
#include "folder.h"
#include "mapped_sectors.h"
#include "progress.h"
#include "redo.h"
#include "saving.h"

#define RECORD_NEW "state.new"
#define RECORD_MAGIC "zrvstate"

/* Where the record's other fields are. */
enum { PHASE = HEAD_OWN, GIVEN_UP = 36, ARRAY = 40 };

/* The seconds for which a command that only reads waits to be alone, where it finds a save that was stopped: others of its kind are at the same. */
enum { RECOVERY_WAIT = 1 };

struct file_place file_of(const struct drives *drives, const char *name) {
    struct file_place place = {drives->folder, name, drives->directory};
    return place;
}

bool open_and_lock(struct drives *drives, const struct opening *opening, struct message *message) {
    drives->folder = opening->folder;
    drives->directory = open(opening->folder, O_RDONLY | O_DIRECTORY);
    if (drives->directory < 0)
        return fail(message, "%s: %s", opening->folder, strerror(errno));
    return lock_folder(drives->directory, opening, message);
}

#define MAKE_ANEW "move it away, then zrv assemble makes it anew"

/* A record of version 1 is the same but for its state, which ends where the shares begin now. */
enum { OLDER_VERSION = 1, OLDER_CHECKSUM = RECORD_STATE + ZRV_STATE_SHARES };

/* The record in its byte form; false where the file is short, foreign or damaged. What a file of version 1 lacks is zero. */
static bool read_record_bytes(FILE *file, uint64_t length, const struct file_place *place, uint8_t bytes[RECORD_BYTES], struct message *message) {
    memset(bytes, 0, RECORD_BYTES);
    size_t got = fread(bytes, 1, RECORD_BYTES, file);
    bool older = got >= HEAD_OWN && get32(bytes + HEAD_VERSION) == OLDER_VERSION;
    size_t sum_at = older ? OLDER_CHECKSUM : RECORD_CHECKSUM, whole = sum_at + sizeof(uint64_t);
    if (got >= HEAD_OWN && !head_fits(bytes, RECORD_MAGIC, older ? OLDER_VERSION : RECORD_VERSION, place, message))
        return false;
    if (got < whole)
        return fail(message, "%s/%s: short: %llu bytes where %zu are due; " MAKE_ANEW, place->folder, place->name, (unsigned long long)length, whole);
    if (length != whole || checksum(CHECKSUM_START, bytes, sum_at) != get64(bytes + sum_at) || !geometry_is_taken(get_geometry(bytes)) ||
        get32(bytes + PHASE) > PHASE_POWER_LOSS_DUE)
        return fail(message, "%s/%s: damaged: its checksum does not match; " MAKE_ANEW, place->folder, place->name);
    memset(bytes + sum_at, 0, RECORD_BYTES - sum_at);
    return true;
}

bool read_record(const struct drives *drives, struct host_record *record, struct message *message) {
    struct file_place place = file_of(drives, RECORD_NAME);
    uint8_t bytes[RECORD_BYTES];
    uint64_t length;
    FILE *file = open_file(&place, &length);
    if (file == NULL && errno == ENOENT)
        return fail_without_record(drives, message);
    if (file == NULL)
        return fail_by_errno(message, &place);
    bool good = read_record_bytes(file, length, &place, bytes, message);
    fclose(file);
    if (!good)
        return false;
    record->geometry = get_geometry(bytes);
    record->phase = (enum phase)get32(bytes + PHASE);
    record->older = get32(bytes + HEAD_VERSION) == OLDER_VERSION;
    if (record->older && record->phase == PHASE_READY)
        record->phase = PHASE_MOUNT_DUE;
    record->given_up = get32(bytes + GIVEN_UP);
    record->array = get64(bytes + ARRAY);
    for (uint32_t d = 0; d < ZRV_MOST_DRIVES; d++)
        record->save[d] = get64(bytes + RECORD_SAVES + sizeof(uint64_t) * d);
    memcpy(record->state, bytes + RECORD_STATE, ZRV_STATE_BYTES);
    return true;
}

void put_record(const struct host_record *record, uint8_t bytes[RECORD_BYTES]) {
    memset(bytes, 0, RECORD_BYTES);
    put_head(bytes, RECORD_MAGIC, RECORD_VERSION, record->geometry);
    put32(bytes + PHASE, record->phase);
    put32(bytes + GIVEN_UP, record->given_up);
    put64(bytes + ARRAY, record->array);
    for (uint32_t d = 0; d < ZRV_MOST_DRIVES; d++)
        put64(bytes + RECORD_SAVES + sizeof(uint64_t) * d, record->save[d]);
    memcpy(bytes + RECORD_STATE, record->state, ZRV_STATE_BYTES);
    put64(bytes + RECORD_CHECKSUM, checksum(CHECKSUM_START, bytes, RECORD_CHECKSUM));
}

bool write_record(const struct drives *drives, struct message *message) {
    uint8_t bytes[RECORD_BYTES];
    put_record(&drives->record, bytes);
    struct file_place place = file_of(drives, RECORD_NEW);
    if (!sync_names(&place, message)) /* the names of the drives' new files last before the record that makes them count */
        return false;
    if (write_file(&place, bytes, RECORD_BYTES, message) && rename_file(&place, RECORD_NAME, message))
        return true;
    unlinkat(place.directory, place.name, 0);
    return false;
}

/* A drive's new file takes its place if the record says that its save counts, and goes if not. */
static bool settle_save(const struct drives *drives, uint32_t drive, struct message *message) {
    char name[DRIVE_NAME_BYTES], new_name[DRIVE_NAME_BYTES];
    struct file_place place = file_of(drives, drive_name(new_name, drive, "new"));
    struct drive_tag tag;
    if (!file_exists(&place))
        return true;
    if (read_drive_tag(&place, &tag) && tag.array == drives->record.array && tag.save == drives->record.save[drive])
        return rename_file(&place, drive_name(name, drive, "zrv"), message);
    return remove_file(&place, message);
}

static bool settle_saves(const struct drives *drives, struct message *message) {
    for (uint32_t d = 0; d < ZRV_MOST_DRIVES; d++)
        if (!settle_save(drives, d, message))
            return false;
    return true;
}

/* Whether a save that was stopped has left a file. */
static bool was_stopped(const struct drives *drives) {
    static const char *const names[] = {REDO_NAME, REDO_NEW, RECORD_NEW};
    char name[DRIVE_NAME_BYTES];
    struct file_place place = file_of(drives, name);
    for (uint32_t d = 0; d < ZRV_MOST_DRIVES; d++) {
        drive_name(name, d, "new");
        if (file_exists(&place))
            return true;
    }
    for (size_t i = 0; i < sizeof names / sizeof *names; i++) {
        place.name = names[i];
        if (file_exists(&place))
            return true;
    }
    return false;
}

/* Ends a save that was stopped: if it counts, whole; if not, what it left goes. */
static bool end_save(struct drives *drives, struct message *message) {
    struct file_place redo = file_of(drives, REDO_NEW), record = file_of(drives, RECORD_NEW);
    return recover_redo(drives, message) && read_record(drives, &drives->record, message) && settle_saves(drives, message) &&
           remove_file(&redo, message) && remove_file(&record, message);
}

/* Nobody else may be at work while a save is ended. A lock is given up before it is taken as another kind; so what was seen is looked at again. */
static bool end_save_alone(struct drives *drives, const struct opening *opening, struct message *message) {
    struct opening alone = *opening;
    alone.lock = LOCK_TO_CHANGE;
    alone.wait = alone.wait < RECOVERY_WAIT ? RECOVERY_WAIT : alone.wait;
    while (was_stopped(drives))
        if (!lock_folder(drives->directory, &alone, message) || !end_save(drives, message) || !lock_folder(drives->directory, opening, message))
            return false;
    return true;
}

bool open_folder(struct drives *drives, const struct opening *opening, struct message *message) {
    *drives = (struct drives){.directory = -1};
    return open_and_lock(drives, opening, message) && end_save_alone(drives, opening, message) && read_record(drives, &drives->record, message);
}

/* The shelf is as its files are. */
static void remember_pointers(struct drives *drives) {
    struct shelf *shelf = &drives->shelf;
    for (size_t at = 0; at < shelf_cells(shelf->geometry); at++)
        drives->stored_from[at] = kept_sectors(shelf->geometry, shelf->written, shelf->old_written, at);
    memcpy(drives->written_before.bytes, drives->shelf.written.bytes, drives->shelf.written.length);
    memcpy(drives->durable_before.bytes, drives->shelf.durable.bytes, drives->shelf.durable.length);
    memcpy(drives->old_before.bytes, drives->shelf.old_written.bytes, drives->shelf.old_written.length);
}

/* Takes a new shelf, and memory for what its files hold. */
static bool new_memory(struct drives *drives, struct shelf shelf, struct message *message) {
    drives->shelf = shelf;
    drives->written_before = new_range(drives->shelf.written.length);
    drives->durable_before = new_range(drives->shelf.durable.length);
    drives->old_before = new_range(drives->shelf.old_written.length);
    bool good = has_memory(&shelf) && drives->written_before.bytes != NULL && drives->durable_before.bytes != NULL && drives->old_before.bytes != NULL;
    return good || no_memory(message, shelf_bytes(shelf.geometry));
}

/* Whether a given-up drive's file is in the folder. */
static bool has_returned(const struct drives *drives, uint32_t drive) {
    char name[DRIVE_NAME_BYTES];
    return (drives->record.given_up >> drive & 1) != 0 && faccessat(drives->directory, drive_name(name, drive, "zrv"), F_OK, 0) == 0;
}

static bool load_drive(struct drives *drives, uint32_t drive, struct progress *progress, struct message *message) {
    char name[DRIVE_NAME_BYTES];
    struct file_place place = file_of(drives, drive_name(name, drive, "zrv"));
    struct drive_tag tag;
    uint64_t length;
    FILE *file = open_file(&place, &length);
    if (file == NULL)
        return errno == ENOENT || fail_by_errno(message, &place);
    bool good = read_drive(file, length, &place, &drives->shelf, drive, &tag, progress, message);
    fclose(file);
    drives->present |= 1u << drive;
    if (good && (tag.array != drives->record.array || tag.save != drives->record.save[drive]))
        drives->strange |= 1u << drive;
    return good;
}

bool load_drives(struct drives *drives, struct message *message) {
    uint32_t count = drives->record.geometry.drives;
    if (!new_memory(drives, new_pointers(drives->record.geometry), message))
        return false;
    if (!map_sectors(&drives->shelf, drive_file_sectors(drives->record.geometry)))
        return no_memory(message, shelf_bytes(drives->record.geometry));
    struct progress progress = start_progress("reading the drives", shelf_cells(drives->record.geometry));
    struct message why = {.text = ""};
    for (uint32_t d = 0; d < count && !why.lacks_memory; d++) {
        drives->returned |= (uint32_t)has_returned(drives, d) << d;
        if ((drives->record.given_up >> d & 1) != 0 || load_drive(drives, d, &progress, &why))
            continue;
        if (drives->unreadable == 0 || why.lacks_memory)
            *message = why;
        drives->unreadable |= 1u << d;
    }
    end_progress(&progress);
    remember_pointers(drives);
    return drives->unreadable == 0;
}

/* A new file takes the place of another file, and of nothing else. */
static bool can_be_replaced(const struct drives *drives, const char *name, struct message *message) {
    struct file_place place = file_of(drives, name);
    struct stat status;
    if (fstatat(place.directory, place.name, &status, 0) != 0 || S_ISREG(status.st_mode))
        return true;
    return fail(message, "%s/%s: not a file, and in the way; move it out of this folder first", place.folder, place.name);
}

static bool all_can_be_replaced(const struct drives *drives, struct message *message) {
    static const char *const endings[] = {"zrv", "new"};
    char name[DRIVE_NAME_BYTES];
    for (uint32_t d = 0; d < drives->record.geometry.drives; d++)
        for (size_t i = 0; i < sizeof endings / sizeof *endings; i++)
            if (!can_be_replaced(drives, drive_name(name, d, endings[i]), message))
                return false;
    return can_be_replaced(drives, RECORD_NAME, message) && can_be_replaced(drives, RECORD_NEW, message);
}

/* The shelf that is in the folder stays whole until the new one counts. Numbers of saves tell the two apart, also where both have the same array number. */
static void number_after_former(struct drives *drives) {
    struct message unused;
    struct drives former = {.folder = drives->folder, .directory = drives->directory};
    end_save(&former, &unused);
    if (read_record(&former, &former.record, &unused))
        memcpy(drives->record.save, former.record.save, sizeof former.record.save);
}

/* After a format that failed: what it made goes. */
static void abandon_format(const struct drives *drives) {
    char name[DRIVE_NAME_BYTES];
    for (uint32_t d = 0; drives->directory >= 0 && d < drives->record.geometry.drives; d++)
        unlinkat(drives->directory, drive_name(name, d, "new"), 0);
    if (drives->directory >= 0)
        unlinkat(drives->directory, RECORD_NEW, 0);
    if (drives->made_folder)
        rmdir(drives->folder);
}

/* Takes the folder for a format. */
static bool take_folder(struct drives *drives, const struct opening *opening, bool replace, struct message *message) {
    drives->made_folder = mkdir(opening->folder, 0777) == 0;
    if (!drives->made_folder && errno != EEXIST)
        return fail(message, "%s: %s", opening->folder, strerror(errno));
    if (!open_and_lock(drives, opening, message))
        return false;
    number_after_former(drives);
    return all_can_be_replaced(drives, message) && (replace || folder_is_free(drives, message));
}

/* Memory comes first: where there is none, nothing has been made. */
bool new_drives(struct drives *drives, const struct opening *opening, struct geometry geometry, bool replace, struct message *message) {
    *drives = (struct drives){.folder = opening->folder, .directory = -1, .record.geometry = geometry, .present = (1u << geometry.drives) - 1};
    if (new_memory(drives, new_shelf(geometry), message) && take_folder(drives, opening, replace, message))
        return true;
    if (drives->made_folder)
        rmdir(drives->folder);
    return false;
}

static bool write_new_file(struct drives *drives, uint32_t drive, struct progress *progress, struct message *message) {
    char name[DRIVE_NAME_BYTES];
    struct file_place place = file_of(drives, drive_name(name, drive, "new"));
    struct drive_tag tag = {drives->record.array, ++drives->record.save[drive]};
    return write_drive(&place, &drives->shelf, drive, tag, progress, message);
}

/* Whether the host's record is in the folder: its save counts. */
static bool record_counts(const struct drives *drives) {
    struct host_record there;
    struct message unused;
    return read_record(drives, &there, &unused) && there.array == drives->record.array && memcmp(there.save, drives->record.save, sizeof there.save) == 0;
}

/* Saves new drives. A redo file that could not be applied to the former shelf goes with it. */
static bool save_format(struct drives *drives, struct message *message) {
    struct file_place redo = file_of(drives, REDO_NAME);
    struct progress progress = start_progress("saving the drives", shelf_cells(drives->record.geometry));
    bool good = true;
    for (uint32_t d = 0; good && d < drives->record.geometry.drives; d++)
        if ((drives->present >> d & 1) != 0)
            good = write_new_file(drives, d, &progress, message);
    end_progress(&progress);
    good = good && remove_file(&redo, message) && write_record(drives, message);
    if (!good && !record_counts(drives)) {
        abandon_format(drives);
        return false;
    }
    return settle_saves(drives, message) && good;
}

bool save_drives(struct drives *drives, bool all, struct message *message) {
    if (!(all ? save_format : save_changes)(drives, message))
        return false;
    remember_pointers(drives);
    return true;
}

void close_drives(struct drives *drives) {
    unmap_sectors(&drives->shelf);
    free_shelf(&drives->shelf);
    free(drives->written_before.bytes);
    free(drives->durable_before.bytes);
    free(drives->old_before.bytes);
    if (drives->directory >= 0)
        close(drives->directory);
}
