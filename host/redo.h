/* redo.zrv: what a save still has to put in place of what counts. A save that is stopped leaves the shelf as it was before, or leaves this file; then the next
 * command, whatever it is, ends the save.
 *
 * Bytes 0 to 7 "zrv-redo", the version and the geometry as in the other files, 32 how many ranges there are (4), 40 the array number (8), 48 for each of eight
 * drives the save that its file is of afterwards (8 each), 112 the length of the whole file (8), 120 a checksum of everything but these eight bytes (8);
 * 128 the ranges: each a file (4: a drive, or 8 for state.zrv), its length (4), its offset in that file (8), and its bytes. A range without bytes says that
 * the file ends at its offset.
 *
 * It is written as redo.new, synced, and gets its name by rename: under its own name it is whole. Then its ranges are written where they belong, these files
 * are synced, and it is removed. To do this again has the same effect, so the removal need not last: what comes back after a crash is what the files hold. */
#ifndef REDO_H
#define REDO_H

#include "drives.h"

enum { REDO_STATE = ZRV_MOST_DRIVES }; /* the file of a range that is of no drive */

#define REDO_NAME "redo.zrv"
#define REDO_NEW "redo.new"

/* The file as it stands in memory. */
struct redo {
    struct range bytes;
    size_t room;
    bool lacks_memory; /* it has not all that was added */
};

/* An empty one; free_redo is due. */
struct redo new_redo(void);
void free_redo(struct redo *redo);

/* One more range; without bytes the file's end. Where there is no memory for it, commit_redo fails. */
void add_range(struct redo *redo, uint32_t file, uint64_t offset, const uint8_t *bytes, size_t length);

/* Brings it to the disk under its name: from here on the save counts. The record is as it is after the save. */
bool commit_redo(struct redo *redo, const struct drives *drives, struct message *message);

/* Writes its ranges where they belong, and removes it. A drive whose file is not there, or is another's, or of another save, is left alone. */
bool apply_redo(const struct redo *redo, const struct drives *drives, struct message *message);

/* Ends the save of the redo file in the folder, if there is one. */
bool recover_redo(const struct drives *drives, struct message *message);

#endif
