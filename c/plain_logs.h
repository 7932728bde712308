/* Log entries: their headers written, and the logs walked from their first sector to the first that is no entry, a torn entry, or the write pointer. */
#ifndef PLAIN_LOGS_H
#define PLAIN_LOGS_H

#include "journal.h"
#include "plain_layout.h"

void label_header(uint8_t *sector, struct geometry g, uint32_t drive, uint32_t lost, uint64_t array);
void counters_header(uint8_t *sector, struct geometry g, const struct volume_state *state);
void partial_header(uint8_t *sector, struct geometry g, uint64_t start, uint64_t end, uint64_t generation);
void reset_header(uint8_t *sector, struct geometry g, uint32_t zone, uint64_t generation);
void seal_header(uint8_t *sector, struct geometry g, uint32_t zone, uint64_t end, uint64_t generation);
void closing_header(uint8_t *sector, struct geometry g, uint32_t log, uint64_t generation);

/* The zones that are a drive's logs by journal.h: all three, the one that is a kind of log or NO_ZONE, its unused sectors, a reader of the log. */
struct log_zones volume_log_zones(const struct volume *v, uint32_t drive);
uint32_t log_zone(const struct volume *v, uint32_t drive, uint32_t log);
uint32_t unused(const struct volume *v, uint32_t drive, uint32_t log_zone);
struct journal_reader volume_log(const struct volume *v, uint32_t drive, uint32_t log);

/* A stripe and what a lost sector of it asks of a log entry. */
struct partial_query {
    uint32_t zone, stripe;
    uint64_t past;  /* the entry ends past this address */
    uint64_t limit; /* and not past this one */
};

/* The end of the last whole current partial parity entry that meets the query and that `fits` takes (NULL takes any), and its first row; 0 if there is
 * none. */
typedef bool (*entry_fits)(const struct volume *v, const void *asked, uint64_t end);
uint64_t last_partial(const struct volume *v, const struct partial_query *query, entry_fits fits, const void *asked, const uint8_t **rows);

/* The least end of a zone's current seals on the drives that are not absent, or on one drive; the largest number if there is none. */
uint64_t least_seal(const struct volume *v, uint32_t absent, uint32_t zone);
uint64_t least_seal_on(const struct volume *v, uint32_t drive, uint32_t zone);

/* Whether a drive has a zone's current reset entry. */
bool logs_reset(const struct volume *v, uint32_t drive, uint32_t zone);

#endif
