/* The file of one drive: read with every check that the host can make, written sparse. */
#define _POSIX_C_SOURCE 200809L
#include "drive_file.h"

#include <fcntl.h>
#include <string.h>
#include <unistd.h>

#include "bytes.h"
#include "mapped_sectors.h"

#define MAGIC "zrvdrive"

enum { INDEX = HEAD_OWN, HAS_OLD = 36, ARRAY = 40, SAVE = 48, CHECKSUM = 56, HEAD_BYTES = DRIVE_HEAD_BYTES };

const char *drive_name(char name[DRIVE_NAME_BYTES], uint32_t drive, const char *ending) {
    snprintf(name, DRIVE_NAME_BYTES, "drive-%u.%s", drive, ending);
    return name;
}

static size_t row_bytes(struct geometry g) { return ZRV_TABLE_BYTES(1, g.zones); }

uint64_t drive_file_sectors(struct geometry g) { return HEAD_BYTES + 2 * row_bytes(g); }

uint64_t drive_file_length(struct geometry g) { return drive_file_sectors(g) + (uint64_t)physical_zones(g) * g.zone_sectors * g.sector_bytes; }

/* With the pointers from before resets, where there are any. */
static uint64_t whole_length(struct geometry g, bool has_old) { return drive_file_length(g) + (has_old ? 2 * row_bytes(g) : 0); }

/* A pointer past the zone's end is the volume's to refuse. */
uint32_t kept_sectors(struct geometry g, struct range written, struct range old_written, size_t cell) {
    uint32_t pointer = pointer_in(written, cell), old = pointer_in(old_written, cell);
    pointer = pointer < old ? old : pointer;
    return pointer < g.zone_sectors ? pointer : g.zone_sectors;
}

static size_t kept_bytes(const struct shelf *shelf, uint32_t drive, uint32_t zone) {
    struct geometry g = shelf->geometry;
    return (size_t)kept_sectors(g, shelf->written, shelf->old_written, cell(g, drive, zone)) * g.sector_bytes;
}

uint64_t drive_file_sector(struct geometry g, uint32_t zone, uint32_t sector) {
    return drive_file_sectors(g) + ((uint64_t)zone * g.zone_sectors + sector) * g.sector_bytes;
}

static uint64_t head_checksum(const uint8_t *head, const struct shelf *shelf, uint32_t drive) {
    size_t row = row_bytes(shelf->geometry);
    uint64_t sum = checksum(CHECKSUM_START, head, CHECKSUM);
    sum = checksum(sum, shelf->written.bytes + drive * row, row);
    sum = checksum(sum, shelf->durable.bytes + drive * row, row);
    if (get32(head + HAS_OLD) == 0)
        return sum;
    sum = checksum(sum, shelf->old_written.bytes + drive * row, row);
    return checksum(sum, shelf->old_durable.bytes + drive * row, row);
}

static bool has_old(const struct shelf *shelf, uint32_t drive) {
    for (uint32_t zone = 0; zone < physical_zones(shelf->geometry); zone++)
        if (pointer_in(shelf->old_written, cell(shelf->geometry, drive, zone)) != 0)
            return true;
    return false;
}

bool same_geometry(struct geometry a, struct geometry b) {
    return a.drives == b.drives && a.sector_bytes == b.sector_bytes && a.unit == b.unit && a.zones == b.zones && a.zone_sectors == b.zone_sectors;
}

static struct drive_tag tag_in(const uint8_t *head) { return (struct drive_tag){get64(head + ARRAY), get64(head + SAVE)}; }

/* Without memory of its own: a file is taken for no drive's only for what it holds. */
static bool read_start(const struct file_place *place, uint8_t head[HEAD_BYTES]) {
    struct message unused;
    int descriptor = openat(place->directory, place->name, O_RDONLY);
    if (descriptor < 0)
        return false;
    bool good = read_at(descriptor, head, HEAD_BYTES, 0) && head_fits(head, MAGIC, FILE_VERSION, place, &unused);
    close(descriptor);
    return good;
}

bool read_drive_tag(const struct file_place *place, struct drive_tag *tag) {
    uint8_t head[HEAD_BYTES];
    bool good = read_start(place, head);
    if (good)
        *tag = tag_in(head);
    return good;
}

bool is_drive_file(const struct file_place *place, struct geometry geometry, uint32_t drive, struct drive_tag *tag) {
    uint8_t head[HEAD_BYTES];
    if (!read_start(place, head) || !same_geometry(get_geometry(head), geometry) || get32(head + INDEX) != drive)
        return false;
    *tag = tag_in(head);
    return true;
}

static bool has_whole_length(const uint8_t *head, uint64_t length, const struct file_place *place, struct message *message) {
    uint64_t whole = whole_length(get_geometry(head), get32(head + HAS_OLD) != 0);
    if (length != whole)
        return fail(message, "%s/%s: %s: %llu bytes, a drive of this shelf has %llu", place->folder, place->name, length < whole ? "short" : "long",
                    (unsigned long long)length, (unsigned long long)whole);
    return true;
}

static bool fits_shelf(const uint8_t *head, uint64_t length, const struct file_place *place, struct geometry g, uint32_t drive, struct message *message) {
    struct geometry own = get_geometry(head);
    if (!same_geometry(own, g))
        return fail(message, "%s/%s: of a shelf with another geometry: %u drives, sectors of %u bytes, units of %u, %u zone%s, %u sectors a zone",
                    place->folder, place->name, own.drives, own.sector_bytes, own.unit, own.zones, plural(own.zones), own.zone_sectors);
    if (get32(head + INDEX) != drive)
        return fail(message, "%s/%s: this is drive %u, not drive %u", place->folder, place->name, get32(head + INDEX), drive);
    return has_whole_length(head, length, place, message);
}

static bool read_sectors(FILE *file, struct shelf *shelf, uint32_t drive, struct progress *progress) {
    struct geometry g = shelf->geometry;
    for (uint32_t zone = 0; zone < physical_zones(g); zone++) {
        uint8_t *sectors = shelf->sectors.bytes + sector_offset(g, drive, zone, 0);
        if (!load_bytes(shelf, sectors, kept_bytes(shelf, drive, zone), fileno(file), drive_file_sector(g, zone, 0)))
            return false;
        step_progress(progress, 1);
    }
    return true;
}

/* A drive's part of two tables that stand one after the other. */
static bool read_rows(FILE *file, off_t offset, struct range first, struct range second, size_t row, uint32_t drive) {
    return fseeko(file, offset, SEEK_SET) == 0 && fread(first.bytes + drive * row, 1, row, file) == row && fread(second.bytes + drive * row, 1, row, file) == row;
}

static bool read_head(FILE *file, uint64_t length, const struct file_place *place, uint8_t head[HEAD_BYTES], struct message *message) {
    if (fread(head, 1, HEAD_BYTES, file) != HEAD_BYTES)
        return fail(message, "%s/%s: short: %llu bytes, not even a head", place->folder, place->name, (unsigned long long)length);
    return head_fits(head, MAGIC, FILE_VERSION, place, message);
}

static bool read_pointers(FILE *file, const uint8_t *head, const struct file_place *place, struct shelf *shelf, uint32_t drive, struct message *message) {
    size_t row = row_bytes(shelf->geometry);
    off_t end = (off_t)drive_file_length(shelf->geometry);
    if (!read_rows(file, HEAD_BYTES, shelf->written, shelf->durable, row, drive))
        return fail_by_errno(message, place);
    if (get32(head + HAS_OLD) != 0 && !read_rows(file, end, shelf->old_written, shelf->old_durable, row, drive))
        return fail_by_errno(message, place);
    if (head_checksum(head, shelf, drive) != get64(head + CHECKSUM))
        return fail(message, "%s/%s: damaged: the checksum of its head and pointers does not match", place->folder, place->name);
    return true;
}

/* Whether a file that is not this drive's can be given up: of another version it can be read by another tool. */
static bool may_be_given_up(const uint8_t *head) { return memcmp(head, MAGIC, MAGIC_BYTES) != 0 || get32(head + HEAD_VERSION) == FILE_VERSION; }

bool read_drive(FILE *file, uint64_t length, const struct file_place *place, struct shelf *shelf, uint32_t drive, struct drive_tag *tag,
                struct progress *progress, struct message *message) {
    uint8_t head[HEAD_BYTES] = {0};
    if (!read_head(file, length, place, head, message) || !fits_shelf(head, length, place, shelf->geometry, drive, message) ||
        !read_pointers(file, head, place, shelf, drive, message)) {
        if (may_be_given_up(head))
            add_words(message, "; put the right file back, or go on without it: pull drive %u, then mount", drive);
        return false;
    }
    *tag = tag_in(head);
    return read_sectors(file, shelf, drive, progress) || fail_by_errno(message, place);
}

/* The pointers are read into tables of their own, for the checksum alone. */
static bool head_is_whole(FILE *file, uint64_t length, const struct file_place *place, uint8_t head[HEAD_BYTES], struct message *message) {
    if (!read_head(file, length, place, head, message))
        return false;
    struct geometry g = get_geometry(head);
    uint32_t drive = get32(head + INDEX);
    if (!geometry_is_taken(g) || drive >= g.drives)
        return fail(message, "%s/%s: damaged: its head tells of no drive that there can be", place->folder, place->name);
    struct shelf tables = new_pointers(g);
    if (!has_memory(&tables))
        return no_memory(message, 4 * row_bytes(g) * g.drives);
    bool good = has_whole_length(head, length, place, message) && read_pointers(file, head, place, &tables, drive, message);
    free_shelf(&tables);
    return good;
}

bool read_drive_head(const struct file_place *place, struct drive_head *head, struct message *message) {
    uint64_t length;
    uint8_t bytes[HEAD_BYTES];
    FILE *file = open_file(place, &length);
    if (file == NULL)
        return fail_by_errno(message, place);
    bool good = head_is_whole(file, length, place, bytes, message);
    fclose(file);
    if (good)
        *head = (struct drive_head){get_geometry(bytes), get32(bytes + INDEX), tag_in(bytes)};
    return good;
}

static bool write_sectors(FILE *file, const struct shelf *shelf, uint32_t drive, struct progress *progress) {
    struct geometry g = shelf->geometry;
    for (uint32_t zone = 0; zone < physical_zones(g); zone++) {
        size_t kept = kept_bytes(shelf, drive, zone);
        const uint8_t *sectors = shelf->sectors.bytes + sector_offset(g, drive, zone, 0);
        if (fseeko(file, (off_t)drive_file_sector(g, zone, 0), SEEK_SET) != 0 || fwrite(sectors, 1, kept, file) != kept)
            return false;
        step_progress(progress, 1);
    }
    return fflush(file) == 0 && ftruncate(fileno(file), (off_t)drive_file_length(g)) == 0;
}

/* A drive's part of two tables, one after the other; how many bytes that is. */
static size_t put_rows(uint8_t *bytes, struct range first, struct range second, size_t row, uint32_t drive) {
    memcpy(bytes, first.bytes + drive * row, row);
    memcpy(bytes + row, second.bytes + drive * row, row);
    return 2 * row;
}

struct drive_ends make_drive_ends(const struct shelf *shelf, uint32_t drive, struct drive_tag tag) {
    struct drive_ends ends = {.end_length = 0};
    size_t row = row_bytes(shelf->geometry);
    bool old = has_old(shelf, drive);
    put_head(ends.start, MAGIC, FILE_VERSION, shelf->geometry);
    put32(ends.start + INDEX, drive);
    put32(ends.start + HAS_OLD, old);
    put64(ends.start + ARRAY, tag.array);
    put64(ends.start + SAVE, tag.save);
    put64(ends.start + CHECKSUM, head_checksum(ends.start, shelf, drive));
    ends.start_length = HEAD_BYTES + put_rows(ends.start + HEAD_BYTES, shelf->written, shelf->durable, row, drive);
    if (old)
        ends.end_length = put_rows(ends.end, shelf->old_written, shelf->old_durable, row, drive);
    return ends;
}

bool write_drive(const struct file_place *place, const struct shelf *shelf, uint32_t drive, struct drive_tag tag, struct progress *progress,
                 struct message *message) {
    struct drive_ends ends = make_drive_ends(shelf, drive, tag);
    FILE *file = create_file(place);
    if (file == NULL)
        return fail_by_errno(message, place);
    bool good = fwrite(ends.start, 1, ends.start_length, file) == ends.start_length && write_sectors(file, shelf, drive, progress);
    good = good && fseeko(file, (off_t)drive_file_length(shelf->geometry), SEEK_SET) == 0 && fwrite(ends.end, 1, ends.end_length, file) == ends.end_length;
    return (finish_file(file) && good) || fail_by_errno(message, place);
}
