/* Files of a folder that begin with a magic, a version and the geometry, and a checksum for them. */
#ifndef FILES_H
#define FILES_H

#include <stdio.h>

#include "call.h"
#include "message.h"

/* The version is that of drives and redo files; the host's record has its own (drives.h). */
enum { FILE_VERSION = 1, MAGIC_BYTES = 8, HEAD_VERSION = 8, HEAD_GEOMETRY = 12, HEAD_OWN = 32 };

/* A file by its folder and name; the folder's name is for messages. */
struct file_place {
    const char *folder, *name;
    int directory;
};

void put_head(uint8_t *bytes, const char *magic, uint32_t version, struct geometry geometry);
struct geometry get_geometry(const uint8_t *bytes);

/* Whether a file begins as one of its kind. */
bool head_fits(const uint8_t *bytes, const char *magic, uint32_t version, const struct file_place *place, struct message *message);

/* FNV-1a of 64 bits, from CHECKSUM_START or from the checksum of what comes before. */
#define CHECKSUM_START 14695981039346656037u
uint64_t checksum(uint64_t before, const uint8_t *bytes, size_t length);

/* Opens a file and tells its length. NULL, and errno says why, where it cannot be opened. */
FILE *open_file(const struct file_place *place, uint64_t *length);
FILE *create_file(const struct file_place *place);

/* A new file of these bytes, brought to the disk. */
bool write_file(const struct file_place *place, const uint8_t *bytes, size_t length, struct message *message);

bool file_exists(const struct file_place *place);

/* Removes a file, if there is one. */
bool remove_file(const struct file_place *place, struct message *message);

/* All bytes, at an offset of an open file. */
bool write_at(int descriptor, const uint8_t *bytes, size_t length, uint64_t offset);
bool read_at(int descriptor, uint8_t *bytes, size_t length, uint64_t offset);

/* Brings what was written to the disk and closes the file. */
bool finish_file(FILE *file);

/* Brings the names in a file's folder to the disk: those of new files, and those that were changed. */
bool sync_names(const struct file_place *place, struct message *message);

/* Gives a file another name, which lasts; what has that name is replaced. */
bool rename_file(const struct file_place *from, const char *to, struct message *message);

/* "folder/name: what errno says". */
bool fail_by_errno(struct message *message, const struct file_place *place);

#endif
