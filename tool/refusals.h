/* The volume's refusals in words: the number, its word, what it means and what to do (of a bad log in bad_log.h); and a zone's condition. */
#ifndef REFUSALS_H
#define REFUSALS_H

#include <stdio.h>

#include "call.h"

enum { LAST_REFUSAL = ZRV_OPEN_LIMIT };

/* The word of a refusal; "no refusal" for any other number. */
const char *refusal_word(uint32_t number);

/* The word of a condition in a zone's record. */
const char *condition_word(uint8_t condition);

/* Prints "NUMBER WORD: sentence" and a new line, of any refusal but those with a place. The call and the state tell the numbers that a sentence names. */
void print_refusal(FILE *to, uint32_t answer, const struct call *call, struct geometry geometry, const uint8_t *state);

#endif
