/* Emptying a log (document 02), one that lacks room for a reset, or a parity log for a compact: what is still needed of it is copied to the drive's spare zone,
 * a closing entry follows, and the old zone is reset. Generations and pointers are the state's. */
#ifndef PLAIN_EMPTYING_H
#define PLAIN_EMPTYING_H

#include "plain_stores.h"

/* Whether a present drive's log has fewer unused sectors than that; whether it cannot be emptied so far (refusal 14). */
bool log_lacks(const struct volume *v, uint32_t drive, uint32_t log, uint32_t least);
bool log_stays_full(const struct volume *v, uint32_t drive, uint32_t log, uint32_t least);

/* Whether the entries that have to be made for an emptied parity log can be (refusal 15). */
bool kept_entries_known(const struct volume *v, uint32_t absent, uint32_t drive);

/* Makes the stores; false where their count has run out. */
bool empty_log(struct storing *storing, uint32_t drive, uint32_t log);

#endif
