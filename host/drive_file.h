/* The file of one drive, in the form that host/drives.h tells. */
#ifndef DRIVE_FILE_H
#define DRIVE_FILE_H

#include "files.h"
#include "progress.h"
#include "shelf.h"

/* Which shelf a drive's file belongs to, and which save wrote it. */
struct drive_tag {
    uint64_t array, save;
};

enum { DRIVE_NAME_BYTES = 32, DRIVE_HEAD_BYTES = 64, DRIVE_ROWS_BYTES = 2 * ZRV_TABLE_BYTES(1, ZRV_MOST_ZONES) };

/* "drive-2.zrv" */
const char *drive_name(char name[DRIVE_NAME_BYTES], uint32_t drive, const char *ending);

/* What a drive's file says of itself. */
struct drive_head {
    struct geometry geometry;
    uint32_t drive;
    struct drive_tag tag;
};

/* Reads it, with every check that needs no shelf: the head, the length, the pointers' checksum. False, with a message, where the file is no whole drive's. */
bool read_drive_head(const struct file_place *place, struct drive_head *head, struct message *message);

bool same_geometry(struct geometry a, struct geometry b);

/* What a drive's file has beside the sectors: its head and pointers before them, and past them the pointers from before resets, if there are any. */
struct drive_ends {
    uint8_t start[DRIVE_HEAD_BYTES + DRIVE_ROWS_BYTES], end[DRIVE_ROWS_BYTES];
    size_t start_length, end_length;
};

struct drive_ends make_drive_ends(const struct shelf *shelf, uint32_t drive, struct drive_tag tag);

/* The tag at a file's beginning; false where the file is none of a drive. */
bool read_drive_tag(const struct file_place *place, struct drive_tag *tag);

/* Whether a file begins as that drive of a shelf of that geometry does, whatever stands behind its head. */
bool is_drive_file(const struct file_place *place, struct geometry geometry, uint32_t drive, struct drive_tag *tag);

/* The sectors of a physical zone that count: those below its pointer, or below the one before a reset that is only in the drive's cache. */
uint32_t kept_sectors(struct geometry geometry, struct range written, struct range old_written, size_t cell);

/* Reads a drive into its part of the shelf; progress goes on by one for each physical zone, as it does in write_drive. False, with a message, where the
 * file is short, foreign or damaged. */
bool read_drive(FILE *file, uint64_t length, const struct file_place *place, struct shelf *shelf, uint32_t drive, struct drive_tag *tag,
                struct progress *progress, struct message *message);

bool write_drive(const struct file_place *place, const struct shelf *shelf, uint32_t drive, struct drive_tag tag, struct progress *progress,
                 struct message *message);

/* Where the sectors begin in the file, where one of them does, and where they end. */
uint64_t drive_file_sectors(struct geometry geometry);
uint64_t drive_file_sector(struct geometry geometry, uint32_t physical_zone, uint32_t sector);
uint64_t drive_file_length(struct geometry geometry);

#endif
