/* A shelf kept as files in a folder: one a drive, one for what the host keeps between calls.
 *
 * drive-N.zrv, drive N; numbers little-endian:
 *   bytes 0 to 7 "zrvdrive", 8 the version (4 bytes, 1), 12 the geometry (4 bytes each: drives, sector bytes, unit, zones, zone sectors),
 *   32 the drive's index (4), 36 whether zone resets are in its cache (4, 1 or 0), 40 the array number (8), 48 the save that wrote this file (8),
 *   56 a checksum of bytes 0 to 55 and of all pointers (8);
 *   64 the written pointers of its physical zones (4 each), then the durable ones: what lies between the two is its write cache;
 *   then its sectors, zone by zone. Those below the written pointer count; what lies past it means nothing;
 *   where zone resets are in its cache, at the end the written and durable pointers of each zone before its reset (0: none is), and the sectors below them
 *   count too.
 * The sectors have no checksum of the host's: what they hold is the volume's to judge.
 *
 * state.zrv, the host's: bytes 0 to 7 "zrvstate", version (2) and geometry as above, 32 the phase (4), 36 the drives given up by bit (4), 40 the array number
 *   (8), 48 for each of eight drives the save that its file must be of (8 each), 112 the volume's state, 440 a checksum of all before it (8).
 *   Of version 1 the volume's state is shorter, without owners and shares: a mount comes next, which makes it anew.
 *
 * drive-N.pulled, drive-N.pulled-2 and so on: files of drive N that were taken out. They are not used again, nor put one over the other.
 *
 * A save is all or nothing, and writes what has changed (saving.h). That of a format makes every file anew: the drives go to drive-N.new first, then state.zrv
 * is replaced by rename, and from then on each drive-N.new counts and takes its drive's place, if need be when the folder is opened next.
 *
 * A drive whose file is missing is not there. One whose file is of another save or array is strange: the folder opens, and its host has to keep to looks. */
#ifndef DRIVES_H
#define DRIVES_H

#include "files.h"
#include "lock.h"
#include "shelf.h"

#define RECORD_NAME "state.zrv"
enum {
    RECORD_VERSION = 2,
    RECORD_SAVES = 48,
    RECORD_STATE = RECORD_SAVES + ZRV_MOST_DRIVES * sizeof(uint64_t),
    RECORD_CHECKSUM = RECORD_STATE + ZRV_STATE_BYTES,
    RECORD_BYTES = RECORD_CHECKSUM + sizeof(uint64_t)
};

/* What may come next: any call; looks and mounts, after a power cut; a power cut, after an unfinished call. */
enum phase { PHASE_READY = 0, PHASE_MOUNT_DUE = 1, PHASE_POWER_LOSS_DUE = 2 };

struct host_record {
    struct geometry geometry;
    enum phase phase;
    bool older;        /* it was read from a file of version 1 */
    uint32_t given_up; /* drives, by bit, that are never named again (document 01: lost) */
    uint64_t array;
    uint64_t save[ZRV_MOST_DRIVES];
    uint8_t state[ZRV_STATE_BYTES];
};

struct drives {
    const char *folder;
    int directory; /* open and locked; -1 where it is not */
    bool made_folder; /* by a format */
    struct host_record record;
    struct shelf shelf;
    uint32_t present; /* drives, by bit, whose file is there and that are not given up */
    uint32_t returned; /* those that are given up and whose file is there all the same */
    uint32_t strange; /* of the present ones those whose file is not the one that the last save left */
    uint32_t unreadable; /* those whose file is there and cannot be read as this drive's */
    struct range written_before, durable_before, old_before; /* as in the files */
    uint32_t stored_from[MOST_CELLS]; /* of each cell: the sectors before this one are as in its file */
};

/* Opens a folder, ends a save that was stopped, and reads the host's record. After either answer close_drives is due. */
bool open_folder(struct drives *drives, const struct opening *opening, struct message *message);

/* Reads every drive that is there. False, with a message of the first, where one cannot be read; the others are there all the same. Where
 * memory runs out, which the message tells, they are not to be used. */
bool load_drives(struct drives *drives, struct message *message);

/* Makes the folder, if it is not there, and a shelf of new drives in memory. Drives that are in the folder already are in the way unless `replace`. */
bool new_drives(struct drives *drives, const struct opening *opening, struct geometry geometry, bool replace, struct message *message);

/* Saves the record and what has changed of the present drives; of new drives, with `all`, everything. Where it fails the files hold what they held, and a
 * folder that new_drives made is gone. */
bool save_drives(struct drives *drives, bool all, struct message *message);

/* For what is made of the folder elsewhere (folder.h, assembling.h, redo.h): a file of it by its name; the folder opened and locked; the host's record in it,
 * in its byte form, and its file replaced, which is what makes new files of drives count. */
struct file_place file_of(const struct drives *drives, const char *name);
bool open_and_lock(struct drives *drives, const struct opening *opening, struct message *message);
bool read_record(const struct drives *drives, struct host_record *record, struct message *message);
void put_record(const struct host_record *record, uint8_t bytes[RECORD_BYTES]);
bool write_record(const struct drives *drives, struct message *message);

void close_drives(struct drives *drives);

#endif
