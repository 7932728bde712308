/* What lies in a folder under the names of a shelf's drives, told by each file's own head, whatever else is missing: so that nothing is overwritten unasked,
 * and a shelf can be assembled again. A drive that is taken out keeps its file, under a name that nothing has yet. */
#ifndef FOLDER_H
#define FOLDER_H

#include "drive_file.h"
#include "drives.h"

struct found_drive {
    bool there;     /* something is called drive-N.zrv */
    bool is_drive;  /* and it is a whole drive's file, */
    struct drive_head head;
    struct message why; /* or why not */
};

/* Whether anything in the folder has a name, a broken link too. */
bool is_taken(const struct drives *drives, const char *name);

/* What the folder has for each N, from the eight names that there may be. False, with a message, where there is no memory to read them. */
bool find_drives(const struct drives *drives, struct found_drive found[ZRV_MOST_DRIVES], struct message *message);

/* Names what was found, each after the separator and then a comma. Whether there are drives among it. */
bool name_drives(const struct found_drive found[ZRV_MOST_DRIVES], const char *separator, struct message *message);

/* Whether a format destroys nothing; a message names what is in its way. */
bool folder_is_free(const struct drives *drives, struct message *message);

/* Where a folder's state.zrv is missing: that it holds no shelf, or drives that can be assembled. Always false. */
bool fail_without_record(const struct drives *drives, struct message *message);

/* After a format that replaces a shelf: removes the drives of the old one that the new one has not. By bit, those removed. */
bool remove_other_drives(const struct drives *drives, uint32_t *removed, struct message *message);

/* Takes a drive out: it is given up, and its file becomes drive-N.pulled, or drive-N.pulled-2 and so on where there is one already. */
bool pull_drive(struct drives *drives, uint32_t drive, char pulled[DRIVE_NAME_BYTES], struct message *message);

#endif
