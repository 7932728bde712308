/* A line of a conformance script: a letter and up to six decimal numbers, with one space before each. */
#ifndef SCRIPT_H
#define SCRIPT_H

#include <stdbool.h>
#include <stdint.h>
#include <stdio.h>

enum { COMMAND_NUMBERS = 6 };

struct command {
    char letter;
    uint64_t number[COMMAND_NUMBERS]; /* 0 where the line has fewer */
};

/* The next command of a script; false at its end. */
bool next_command(FILE *script, struct command *command);

/* A number as one of 32 bits: one past the largest is the largest. */
uint32_t narrowed(uint64_t number);

#endif
