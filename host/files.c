/* Files of a folder: their heads, checksums, and safe replacement. */
#define _POSIX_C_SOURCE 200809L
#include "files.h"

#include <errno.h>
#include <fcntl.h>
#include <string.h>
#include <sys/stat.h>
#include <unistd.h>

#include "bytes.h"

#define CHECKSUM_PRIME 1099511628211u

void put_head(uint8_t *bytes, const char *magic, uint32_t version, struct geometry g) {
    const uint32_t number[] = {g.drives, g.sector_bytes, g.unit, g.zones, g.zone_sectors};
    memcpy(bytes, magic, MAGIC_BYTES);
    put32(bytes + HEAD_VERSION, version);
    for (size_t i = 0; i < sizeof number / sizeof *number; i++)
        put32(bytes + HEAD_GEOMETRY + 4 * i, number[i]);
}

struct geometry get_geometry(const uint8_t *bytes) {
    const uint8_t *at = bytes + HEAD_GEOMETRY;
    struct geometry geometry = {get32(at), get32(at + 4), get32(at + 8), get32(at + 12), get32(at + 16)};
    return geometry;
}

bool head_fits(const uint8_t *bytes, const char *magic, uint32_t version, const struct file_place *place, struct message *message) {
    if (memcmp(bytes, magic, MAGIC_BYTES) != 0)
        return fail(message, "%s/%s: not a file of this tool: it does not begin with \"%s\"", place->folder, place->name, magic);
    if (get32(bytes + HEAD_VERSION) != version)
        return fail(message, "%s/%s: of version %u, this tool knows %u; use the tool that wrote it", place->folder, place->name, get32(bytes + HEAD_VERSION),
                    version);
    return true;
}

uint64_t checksum(uint64_t before, const uint8_t *bytes, size_t length) {
    for (size_t i = 0; i < length; i++)
        before = (before ^ bytes[i]) * CHECKSUM_PRIME;
    return before;
}

FILE *open_file(const struct file_place *place, uint64_t *length) {
    struct stat status;
    if (fstatat(place->directory, place->name, &status, 0) != 0)
        return NULL;
    if (!S_ISREG(status.st_mode)) {
        errno = S_ISDIR(status.st_mode) ? EISDIR : EINVAL;
        return NULL;
    }
    *length = (uint64_t)status.st_size;
    int descriptor = openat(place->directory, place->name, O_RDONLY);
    return descriptor < 0 ? NULL : fdopen(descriptor, "rb");
}

FILE *create_file(const struct file_place *place) {
    int descriptor = openat(place->directory, place->name, O_WRONLY | O_CREAT | O_TRUNC, 0666);
    return descriptor < 0 ? NULL : fdopen(descriptor, "wb");
}

bool write_file(const struct file_place *place, const uint8_t *bytes, size_t length, struct message *message) {
    FILE *file = create_file(place);
    if (file == NULL)
        return fail_by_errno(message, place);
    bool good = fwrite(bytes, 1, length, file) == length;
    return (finish_file(file) && good) || fail_by_errno(message, place);
}

bool file_exists(const struct file_place *place) { return faccessat(place->directory, place->name, F_OK, 0) == 0; }

bool remove_file(const struct file_place *place, struct message *message) {
    return unlinkat(place->directory, place->name, 0) == 0 || errno == ENOENT || fail_by_errno(message, place);
}

bool write_at(int descriptor, const uint8_t *bytes, size_t length, uint64_t offset) {
    while (length > 0) {
        ssize_t done = pwrite(descriptor, bytes, length, (off_t)offset);
        if (done < 0 && errno == EINTR)
            continue;
        if (done <= 0)
            return false;
        bytes += done;
        length -= (size_t)done;
        offset += (uint64_t)done;
    }
    return true;
}

bool read_at(int descriptor, uint8_t *bytes, size_t length, uint64_t offset) {
    while (length > 0) {
        ssize_t done = pread(descriptor, bytes, length, (off_t)offset);
        if (done < 0 && errno == EINTR)
            continue;
        if (done == 0)
            errno = EIO; /* the file has become shorter */
        if (done <= 0)
            return false;
        bytes += done;
        length -= (size_t)done;
        offset += (uint64_t)done;
    }
    return true;
}

bool finish_file(FILE *file) {
    bool good = fflush(file) == 0 && fsync(fileno(file)) == 0;
    return fclose(file) == 0 && good;
}

bool rename_file(const struct file_place *from, const char *to, struct message *message) {
    if (renameat(from->directory, from->name, from->directory, to) != 0)
        return fail_by_errno(message, from);
    return sync_names(from, message);
}

bool sync_names(const struct file_place *place, struct message *message) {
    return fsync(place->directory) == 0 || fail(message, "%s: %s", place->folder, strerror(errno));
}

bool fail_by_errno(struct message *message, const struct file_place *place) {
    int why = errno;
    fail(message, "%s/%s: %s", place->folder, place->name, strerror(why));
    message->lacks_memory = why == ENOMEM;
    return false;
}
