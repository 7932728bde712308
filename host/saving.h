/* What a save writes, of a shelf whose files are there.
 *
 * A call stores sectors past its zones' pointers, and moves pointers. Sectors past the pointer that a file holds mean nothing; so these are written to their
 * place first, and synced. What counts already changes by a redo file (redo.h): each changed drive's head and pointers, the host's record, and the few sectors
 * that take the place of others (a log is emptied into a zone whose reset is still in the drive's cache). Until the redo file has its name the shelf is as it
 * was; from then on it is as it will be.
 *
 * Space is asked for before that, so that a full disk is met while nothing has changed. Afterwards the space of sectors that went is given back. */
#ifndef SAVING_H
#define SAVING_H

#include "drives.h"

bool save_changes(struct drives *drives, struct message *message);

#endif
