/* Words for what went wrong. */
#include "message.h"

#include <stdarg.h>
#include <stdio.h>
#include <string.h>

bool fail(struct message *message, const char *format, ...) {
    va_list words;
    va_start(words, format);
    vsnprintf(message->text, sizeof message->text, format, words);
    va_end(words);
    message->busy = message->lacks_memory = false;
    return false;
}

bool add_words(struct message *message, const char *format, ...) {
    size_t length = strlen(message->text);
    va_list words;
    va_start(words, format);
    vsnprintf(message->text + length, sizeof message->text - length, format, words);
    va_end(words);
    return false;
}

bool no_memory(struct message *message, size_t bytes) {
    fail(message, "no memory for %zu bytes", bytes);
    message->lacks_memory = true;
    return false;
}
