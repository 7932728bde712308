/* A shelf whose state.zrv is gone, assembled again. Geometry and array number stand in every drive's head, and so does the save that wrote it; the volume's
 * state is a mount's to make, as after a power cut that kept everything. What only state.zrv held is which drives were given up since the last mount: it has
 * to be told.
 *
 * The shelf is the one that most drives in the folder are of. Each of its drives must be in its place, but for one at most that is left out. */
#ifndef ASSEMBLING_H
#define ASSEMBLING_H

#include "folder.h"

/* Which drive to leave out: given up from now on, whatever is in its place. */
enum { LEAVE_OUT_NONE = ZRV_MOST_DRIVES };

/* Opens a folder without a state.zrv and makes one. False, with a message that names each drive that is missing, foreign or doubled, where it is not made.
 * After either answer close_drives is due. */
bool assemble_drives(struct drives *drives, const struct opening *opening, uint32_t without, struct message *message);

#endif
