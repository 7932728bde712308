/* The lock of a shelf's folder: many commands may read a shelf at once, one alone may change it. */
#ifndef LOCK_H
#define LOCK_H

#include <stdint.h>

#include "message.h"

enum lock_kind { LOCK_TO_READ, LOCK_TO_CHANGE };

#define WAIT_FOREVER UINT64_MAX

/* How a shelf is opened: where it is, for what, and how many seconds to wait for other commands to end. */
struct opening {
    const char *folder;
    enum lock_kind lock;
    uint64_t wait;
};

/* Locks an open folder; a lock of the other kind that is held is given up first. The lock goes when the folder is closed. False, with the message marked busy,
 * where another command holds it for longer than is waited. */
bool lock_folder(int directory, const struct opening *opening, struct message *message);

#endif
