/* A folder's lock by flock: the kernel gives it back when its command ends, however that ends. */
#define _DEFAULT_SOURCE
#include "lock.h"

#include <errno.h>
#include <string.h>
#include <sys/file.h>
#include <time.h>

enum { NANOSECONDS_BETWEEN = 10000000, TRIES_A_SECOND = 1000000000 / NANOSECONDS_BETWEEN };

static bool may_try_again(uint64_t tries, uint64_t wait) { return wait == WAIT_FOREVER || tries / TRIES_A_SECOND < wait; }

bool lock_folder(int directory, const struct opening *opening, struct message *message) {
    const struct timespec between = {.tv_nsec = NANOSECONDS_BETWEEN};
    int kind = opening->lock == LOCK_TO_READ ? LOCK_SH : LOCK_EX;
    for (uint64_t tries = 0; flock(directory, kind | LOCK_NB) != 0; tries++) {
        if (errno != EWOULDBLOCK && errno != EINTR)
            return fail(message, "%s: %s", opening->folder, strerror(errno));
        if (!may_try_again(tries, opening->wait)) {
            fail(message, "%s: in use by another command; try again, or wait for it with --wait", opening->folder);
            message->busy = true;
            return false;
        }
        nanosleep(&between, NULL);
    }
    return true;
}
