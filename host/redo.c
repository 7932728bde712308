/* The redo file of a save. */
#define _POSIX_C_SOURCE 200809L
#include "redo.h"

#include <errno.h>
#include <fcntl.h>
#include <stdlib.h>
#include <string.h>
#include <unistd.h>

#include "bytes.h"
#include "drive_file.h"

#define MAGIC "zrv-redo"

enum { RANGES_AT = HEAD_OWN, ARRAY = 40, SAVES = 48, LENGTH = SAVES + ZRV_MOST_DRIVES * sizeof(uint64_t), CHECKSUM = LENGTH + sizeof(uint64_t),
       REDO_HEAD_BYTES = CHECKSUM + sizeof(uint64_t) };

/* Where the fields of a range are. */
enum { RANGE_FILE = 0, RANGE_LENGTH = 4, RANGE_OFFSET = 8, RANGE_HEAD_BYTES = 16 };

enum { FIRST_ROOM = 1 << 12 };

/* Room for more bytes at the end; NULL from then on where there is no memory. */
static uint8_t *more_bytes(struct redo *redo, size_t length) {
    size_t at = redo->bytes.length;
    if (redo->lacks_memory)
        return NULL;
    while (redo->room - at <= length)
        redo->room = redo->room == 0 ? FIRST_ROOM : 2 * redo->room;
    uint8_t *bytes = realloc(redo->bytes.bytes, redo->room);
    redo->lacks_memory = bytes == NULL;
    if (bytes == NULL)
        return NULL;
    redo->bytes = (struct range){bytes, at + length};
    return bytes + at;
}

struct redo new_redo(void) {
    struct redo redo = {.room = 0};
    uint8_t *head = more_bytes(&redo, REDO_HEAD_BYTES);
    if (head != NULL)
        memset(head, 0, REDO_HEAD_BYTES);
    return redo;
}

void free_redo(struct redo *redo) { free(redo->bytes.bytes); }

void add_range(struct redo *redo, uint32_t file, uint64_t offset, const uint8_t *bytes, size_t length) {
    uint8_t *range = more_bytes(redo, RANGE_HEAD_BYTES + length);
    if (range == NULL)
        return;
    put32(range + RANGE_FILE, file);
    put32(range + RANGE_LENGTH, (uint32_t)length);
    put64(range + RANGE_OFFSET, offset);
    if (length > 0)
        memcpy(range + RANGE_HEAD_BYTES, bytes, length);
    put32(redo->bytes.bytes + RANGES_AT, get32(redo->bytes.bytes + RANGES_AT) + 1);
}

static uint64_t redo_checksum(struct range bytes) {
    uint64_t sum = checksum(CHECKSUM_START, bytes.bytes, CHECKSUM);
    return checksum(sum, bytes.bytes + REDO_HEAD_BYTES, bytes.length - REDO_HEAD_BYTES);
}

static void fill_head(struct range bytes, const struct host_record *record) {
    put_head(bytes.bytes, MAGIC, FILE_VERSION, record->geometry);
    put64(bytes.bytes + ARRAY, record->array);
    for (uint32_t d = 0; d < ZRV_MOST_DRIVES; d++)
        put64(bytes.bytes + SAVES + sizeof(uint64_t) * d, record->save[d]);
    put64(bytes.bytes + LENGTH, bytes.length);
    put64(bytes.bytes + CHECKSUM, redo_checksum(bytes));
}

bool commit_redo(struct redo *redo, const struct drives *drives, struct message *message) {
    struct file_place place = file_of(drives, REDO_NEW);
    if (redo->lacks_memory)
        return no_memory(message, redo->room);
    fill_head(redo->bytes, &drives->record);
    if (write_file(&place, redo->bytes.bytes, redo->bytes.length, message) && rename_file(&place, REDO_NAME, message))
        return true;
    unlinkat(place.directory, REDO_NEW, 0);
    unlinkat(place.directory, REDO_NAME, 0); /* there if its name could not be brought to the disk */
    return false;
}

/* Writes the ranges of one file into it. */
static bool write_ranges(const struct redo *redo, uint32_t file, int descriptor) {
    const uint8_t *range = redo->bytes.bytes + REDO_HEAD_BYTES;
    for (uint32_t left = get32(redo->bytes.bytes + RANGES_AT); left > 0; left--) {
        uint32_t length = get32(range + RANGE_LENGTH);
        uint64_t offset = get64(range + RANGE_OFFSET);
        if (get32(range + RANGE_FILE) == file &&
            (length > 0 ? !write_at(descriptor, range + RANGE_HEAD_BYTES, length, offset) : ftruncate(descriptor, (off_t)offset) != 0))
            return false;
        range += RANGE_HEAD_BYTES + length;
    }
    return true;
}

static bool has_ranges(const struct redo *redo, uint32_t file) {
    const uint8_t *range = redo->bytes.bytes + REDO_HEAD_BYTES;
    for (uint32_t left = get32(redo->bytes.bytes + RANGES_AT); left > 0; left--) {
        if (get32(range + RANGE_FILE) == file)
            return true;
        range += RANGE_HEAD_BYTES + get32(range + RANGE_LENGTH);
    }
    return false;
}

/* Whether a drive's file is the one that the save was made for: as it was before it, or afterwards. */
static bool is_wanted(const struct redo *redo, const struct file_place *place, uint32_t drive) {
    const uint8_t *head = redo->bytes.bytes;
    uint64_t save = get64(head + SAVES + sizeof(uint64_t) * drive);
    struct drive_tag tag;
    return is_drive_file(place, get_geometry(head), drive, &tag) && tag.array == get64(head + ARRAY) && (tag.save == save || tag.save + 1 == save);
}

static bool apply_to(const struct redo *redo, uint32_t file, const struct file_place *place, struct message *message) {
    if (!has_ranges(redo, file) || (file != REDO_STATE && !is_wanted(redo, place, file)))
        return true;
    int descriptor = openat(place->directory, place->name, file == REDO_STATE ? O_WRONLY | O_CREAT : O_WRONLY, 0666);
    bool good = descriptor >= 0 && write_ranges(redo, file, descriptor) && fsync(descriptor) == 0;
    if (!good)
        fail_by_errno(message, place);
    if (descriptor >= 0)
        close(descriptor);
    return good;
}

bool apply_redo(const struct redo *redo, const struct drives *drives, struct message *message) {
    char name[DRIVE_NAME_BYTES];
    struct file_place place = file_of(drives, RECORD_NAME), own = file_of(drives, REDO_NAME);
    bool good = apply_to(redo, REDO_STATE, &place, message);
    for (uint32_t d = 0; good && d < get_geometry(redo->bytes.bytes).drives; d++) {
        place.name = drive_name(name, d, "zrv");
        good = apply_to(redo, d, &place, message);
    }
    if (!good)
        return add_words(message, "; the command counts: what it stored is in %s/%s, and the next command puts it in place", own.folder, own.name);
    return remove_file(&own, message);
}

/* Whether the ranges fill the file, no more and no less. */
static bool ranges_fit(struct range bytes) {
    size_t at = REDO_HEAD_BYTES;
    for (uint32_t left = get32(bytes.bytes + RANGES_AT); left > 0; left--) {
        if (bytes.length - at < RANGE_HEAD_BYTES || bytes.length - at - RANGE_HEAD_BYTES < get32(bytes.bytes + at + RANGE_LENGTH))
            return false;
        at += RANGE_HEAD_BYTES + get32(bytes.bytes + at + RANGE_LENGTH);
    }
    return at == bytes.length;
}

static bool redo_fits(struct range bytes, const struct file_place *place, struct message *message) {
    if (bytes.length >= REDO_HEAD_BYTES && !head_fits(bytes.bytes, MAGIC, FILE_VERSION, place, message))
        return false;
    if (bytes.length < REDO_HEAD_BYTES || get64(bytes.bytes + LENGTH) != bytes.length || get64(bytes.bytes + CHECKSUM) != redo_checksum(bytes) ||
        !ranges_fit(bytes))
        return fail(message,
                    "%s/%s: damaged: its checksum does not match; the last command cannot be ended."
                    " With this file removed, zrv look tells which drives are not as the shelf left them",
                    place->folder, place->name);
    return true;
}

/* Whether the host's record in the folder is of another shelf than the redo file; one that cannot be read is of none. */
static bool is_of_another(const struct redo *redo, const struct drives *drives) {
    struct host_record record;
    struct message unused;
    return read_record(drives, &record, &unused) && record.array != get64(redo->bytes.bytes + ARRAY);
}

bool recover_redo(const struct drives *drives, struct message *message) {
    struct file_place place = file_of(drives, REDO_NAME);
    struct redo redo = {.room = 0};
    uint64_t length;
    FILE *file = open_file(&place, &length);
    if (file == NULL)
        return errno == ENOENT || fail_by_errno(message, &place);
    uint8_t *bytes = more_bytes(&redo, length);
    bool good = bytes == NULL ? no_memory(message, length) : fread(bytes, 1, length, file) == length || fail_by_errno(message, &place);
    fclose(file);
    good = good && redo_fits(redo.bytes, &place, message);
    if (good && is_of_another(&redo, drives))
        good = fail(message, "%s/%s: of another shelf than %s; remove the one that does not belong here", place.folder, place.name, RECORD_NAME);
    good = good && apply_redo(&redo, drives, message);
    free_redo(&redo);
    return good;
}
