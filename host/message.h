/* What went wrong, in words, handed up to whoever tells it to a person. */
#ifndef MESSAGE_H
#define MESSAGE_H

#include <stdbool.h>
#include <stddef.h>

enum { MESSAGE_BYTES = 1024 };

struct message {
    char text[MESSAGE_BYTES];
    bool busy;         /* another command is at work: the same may do later */
    bool lacks_memory; /* memory ran out: nothing is said of the files */
};

/* Puts the words in place; false, so that a failing function can return it. */
bool fail(struct message *message, const char *format, ...) __attribute__((format(printf, 2, 3)));

/* The same after a failure: more words behind those that are there. */
bool add_words(struct message *message, const char *format, ...) __attribute__((format(printf, 2, 3)));

/* "no memory for 96 bytes" */
bool no_memory(struct message *message, size_t bytes);

/* The ending of a noun after a count. */
static inline const char *plural(unsigned long long count) { return count == 1 ? "" : "s"; }

#endif
