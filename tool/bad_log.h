/* A sector of a log that is no entry, in words: what stands there, and what should. */
#ifndef BAD_LOG_H
#define BAD_LOG_H

#include <stdio.h>

#include "journal.h"
#include "message.h"

/* Of the sector at which a reader found no entry. */
void describe_no_entry(const struct journal_reader *reader, const uint8_t *sector, struct message *message);

/* The kind of log that a drive has in a physical zone: "general" or "parity". */
const char *log_word(const struct shelf *shelf, uint32_t drive, uint32_t zone);

/* A refusal of look or mount with its place: "NUMBER WORD: drive, log and sector: what stands there; what to do" and a new line. */
void print_bad_log(FILE *to, const struct shelf *shelf, uint32_t answer, struct log_place place);

#endif
