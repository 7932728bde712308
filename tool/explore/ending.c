/* Where `zrv explore` cannot go on. */
#include "explore/ending.h"

#include <stdio.h>
#include <stdlib.h>

enum { CANNOT_GO_ON = 3 };

void must(bool good, const struct message *message) {
    if (good)
        return;
    fprintf(stderr, "zrv explore: %s\n", message->text);
    exit(CANNOT_GO_ON);
}

void must_have_memory(const void *memory, size_t bytes) {
    struct message message;
    must(memory != NULL || fail(&message, "no memory for %zu bytes", bytes), &message);
}
