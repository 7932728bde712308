/* Where `zrv explore` cannot go on. It keeps everything in memory, so there is nothing to put away. */
#ifndef EXPLORE_ENDING_H
#define EXPLORE_ENDING_H

#include <stddef.h>

#include "message.h"

/* Ends the program, in the message's words and with exit code 3, unless all is good. */
void must(bool good, const struct message *message);

/* The same unless there is memory, of so many bytes. */
void must_have_memory(const void *memory, size_t bytes);

#endif
