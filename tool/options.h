/* The words after a command: a folder, and options. */
#ifndef OPTIONS_H
#define OPTIONS_H

#include <stddef.h>
#include <stdint.h>

#include "message.h"

enum option_kind { OPTION_FLAG, OPTION_NUMBER, OPTION_MAYBE_NUMBER, OPTION_TEXT }; /* "--wait" and "--wait=5" */

/* What a command takes, and once its words are read what it was given. */
struct command_option {
    const char *name;
    enum option_kind kind;
    bool needed;
    uint64_t most; /* of a number */
    bool given;
    uint64_t number; /* may hold a default */
    const char *text;
};

/* argv begins with the command's name. False, with a message, on bad usage. */
bool parse_options(int argc, char **argv, struct command_option *options, size_t count, const char **folder, struct message *message);

#endif
