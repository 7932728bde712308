/* A save of what has changed. */
#define _GNU_SOURCE
#include "saving.h"

#include <errno.h>
#include <fcntl.h>
#include <string.h>
#include <unistd.h>

#include "bytes.h"
#include "drive_file.h"
#include "redo.h"

enum { CHUNK_BYTES = 1 << 20 };

struct save {
    struct drives *drives;
    struct redo redo;
    struct progress progress;
};

/* A drive's file, open. */
struct open_drive {
    uint32_t drive;
    int descriptor;
};

/* The sectors of a cell that count: as its file says, and as the shelf does. */
static uint32_t counted(const struct drives *drives, size_t at) {
    return kept_sectors(drives->record.geometry, drives->written_before, drives->old_before, at);
}

static uint32_t counting(const struct drives *drives, size_t at) {
    return kept_sectors(drives->record.geometry, drives->shelf.written, drives->shelf.old_written, at);
}

static bool pointers_moved(const struct drives *drives, uint32_t drive) {
    size_t row = ZRV_TABLE_BYTES(1, drives->record.geometry.zones), at = drive * row;
    return memcmp(drives->shelf.written.bytes + at, drives->written_before.bytes + at, row) != 0 ||
           memcmp(drives->shelf.durable.bytes + at, drives->durable_before.bytes + at, row) != 0 ||
           memcmp(drives->shelf.old_written.bytes + at, drives->old_before.bytes + at, row) != 0;
}

/* Whether sectors of a drive were stored. */
static bool has_stored(const struct drives *drives, uint32_t drive) {
    for (uint32_t zone = 0; zone < physical_zones(drives->record.geometry); zone++) {
        size_t at = cell(drives->record.geometry, drive, zone);
        if (drives->stored_from[at] < counting(drives, at))
            return true;
    }
    return false;
}

/* Asks for the space of bytes that a redo file will change; the file keeps its length. A file system that cannot do this is taken at its word. */
static bool reserve(int descriptor, uint64_t offset, size_t length) {
    return length == 0 || fallocate(descriptor, FALLOC_FL_KEEP_SIZE, (off_t)offset, (off_t)length) == 0 || (errno != ENOSPC && errno != EDQUOT);
}

/* Sectors that take the place of others: those that differ go to the redo file. */
static bool replace_sectors(struct save *save, struct open_drive file, uint32_t zone, uint32_t from, uint32_t to) {
    const struct shelf *shelf = &save->drives->shelf;
    struct geometry g = shelf->geometry;
    uint8_t there[ZRV_MOST_SECTOR_BYTES];
    for (uint32_t s = from; s < to; s++) {
        const uint8_t *sector = shelf->sectors.bytes + sector_offset(g, file.drive, zone, s);
        uint64_t offset = drive_file_sector(g, zone, s);
        if (!read_at(file.descriptor, there, g.sector_bytes, offset))
            return false;
        if (memcmp(there, sector, g.sector_bytes) == 0)
            continue;
        if (!reserve(file.descriptor, offset, g.sector_bytes))
            return false;
        add_range(&save->redo, file.drive, offset, sector, g.sector_bytes);
    }
    return true;
}

/* Sectors past those that count: they go to their place. */
static bool append_sectors(struct save *save, struct open_drive file, uint32_t zone, uint32_t from, uint32_t to) {
    const struct shelf *shelf = &save->drives->shelf;
    struct geometry g = shelf->geometry;
    const uint8_t *bytes = shelf->sectors.bytes + sector_offset(g, file.drive, zone, from);
    uint64_t offset = drive_file_sector(g, zone, from);
    for (size_t left = (size_t)(to - from) * g.sector_bytes, length; left > 0; left -= length) {
        length = left < CHUNK_BYTES ? left : CHUNK_BYTES;
        if (!write_at(file.descriptor, bytes, length, offset))
            return false;
        bytes += length;
        offset += length;
        step_progress(&save->progress, length);
    }
    return true;
}

static bool save_zone(struct save *save, struct open_drive file, uint32_t zone) {
    const struct drives *drives = save->drives;
    size_t at = cell(drives->record.geometry, file.drive, zone);
    uint32_t from = drives->stored_from[at], to = counting(drives, at), middle = counted(drives, at);
    if (from >= to)
        return true;
    middle = middle < from ? from : middle < to ? middle : to;
    return replace_sectors(save, file, zone, from, middle) && append_sectors(save, file, zone, middle, to);
}

/* The head and the pointers of a drive go to the redo file, as of one save more. */
static bool save_head(struct save *save, struct open_drive file) {
    struct host_record *record = &save->drives->record;
    struct drive_tag tag = {record->array, ++record->save[file.drive]};
    struct drive_ends ends = make_drive_ends(&save->drives->shelf, file.drive, tag);
    uint64_t end = drive_file_length(record->geometry);
    add_range(&save->redo, file.drive, 0, ends.start, ends.start_length);
    if (ends.end_length > 0)
        add_range(&save->redo, file.drive, end, ends.end, ends.end_length);
    add_range(&save->redo, file.drive, end + ends.end_length, NULL, 0);
    return reserve(file.descriptor, 0, ends.start_length) && reserve(file.descriptor, end, ends.end_length);
}

static bool save_open_drive(struct save *save, struct open_drive file) {
    size_t redone = save->redo.bytes.length;
    for (uint32_t zone = 0; zone < physical_zones(save->drives->record.geometry); zone++)
        if (!save_zone(save, file, zone))
            return false;
    if (!pointers_moved(save->drives, file.drive) && save->redo.bytes.length == redone)
        return true;
    return save_head(save, file) && fdatasync(file.descriptor) == 0;
}

static bool save_drive(struct save *save, uint32_t drive, struct message *message) {
    char name[DRIVE_NAME_BYTES];
    struct file_place place = file_of(save->drives, drive_name(name, drive, "zrv"));
    if (!pointers_moved(save->drives, drive) && !has_stored(save->drives, drive))
        return true;
    struct open_drive file = {drive, openat(place.directory, place.name, O_RDWR)};
    bool good = file.descriptor >= 0 && save_open_drive(save, file);
    if (!good)
        fail_by_errno(message, &place);
    if (file.descriptor >= 0)
        close(file.descriptor);
    return good;
}

/* Gives back the space of sectors that do not count: after a save of those that went, after a failed one of those that came. What cannot be given back stays,
 * and means nothing. */
static void drop_sectors(const struct drives *drives, uint32_t drive, bool saved) {
    char name[DRIVE_NAME_BYTES];
    struct geometry g = drives->record.geometry;
    int descriptor = -1;
    for (uint32_t zone = 0; zone < physical_zones(g); zone++) {
        size_t at = cell(g, drive, zone);
        uint32_t before = counted(drives, at), after = counting(drives, at), from = saved ? after : before, to = saved ? before : after;
        if (from >= to)
            continue;
        if (descriptor < 0)
            descriptor = openat(drives->directory, drive_name(name, drive, "zrv"), O_RDWR);
        (void)!fallocate(descriptor, FALLOC_FL_PUNCH_HOLE | FALLOC_FL_KEEP_SIZE, (off_t)drive_file_sector(g, zone, from), (off_t)(to - from) * g.sector_bytes);
    }
    if (descriptor >= 0)
        close(descriptor);
}

static bool is_present(const struct drives *drives, uint32_t drive) { return (drives->present >> drive & 1) != 0; }

/* The bytes that go to their place at once, for the progress. */
static uint64_t bytes_to_append(const struct drives *drives) {
    uint64_t sectors = 0;
    for (size_t at = 0; at < shelf_cells(drives->record.geometry); at++)
        sectors += counting(drives, at) > counted(drives, at) ? counting(drives, at) - counted(drives, at) : 0;
    return sectors * drives->record.geometry.sector_bytes;
}

static bool prepare(struct save *save, struct message *message) {
    struct drives *drives = save->drives;
    uint8_t record[RECORD_BYTES];
    for (uint32_t d = 0; d < drives->record.geometry.drives; d++)
        if (is_present(drives, d) && !save_drive(save, d, message))
            return false;
    put_record(&drives->record, record);
    add_range(&save->redo, REDO_STATE, 0, record, RECORD_BYTES);
    add_range(&save->redo, REDO_STATE, RECORD_BYTES, NULL, 0);
    return commit_redo(&save->redo, drives, message);
}

bool save_changes(struct drives *drives, struct message *message) {
    struct save save = {.drives = drives, .redo = new_redo(), .progress = start_progress("saving the drives", bytes_to_append(drives))};
    bool saved = prepare(&save, message);
    bool good = saved ? apply_redo(&save.redo, drives, message) : add_words(message, "; the shelf is as it was before this command");
    end_progress(&save.progress);
    for (uint32_t d = 0; d < drives->record.geometry.drives; d++)
        if (is_present(drives, d) && saved == good)
            drop_sectors(drives, d, saved);
    free_redo(&save.redo);
    return good;
}
