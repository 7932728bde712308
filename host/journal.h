/* The logs of a drive, read as document 01 says. An entry is a header sector, and in the parity log one to U row sectors after it. Header: the mark "ZRV",
 * the type, the version (1) in two bytes, two zeros, then start, end and generation of eight bytes each; the sector's rest is zero but for a label's and
 * a counters entry's own fields. A reader goes from entry to entry until the write pointer, a torn entry (its rows reach past the write pointer), or a
 * sector that is no entry: without the mark or with another version, not legal for its drive and log, or legal with rows that would pass the zone's end.
 *
 * Which of a drive's physical zones 0 to 2 is its general log and which its parity log is told by closing entries (document 02): a log is emptied by copying
 * what is still needed of it to the third zone, the spare, and a closing entry after the copies. A log's generation is that of its first closing entry, 0 if
 * it has none; of two logs of a kind the higher generation counts, at a tie the lower zone. Without closing entries zone 0 is the general log, zone 1 the
 * parity log. */
#ifndef JOURNAL_H
#define JOURNAL_H

#include <stdbool.h>

#include "shelf.h"

enum entry_type { ENTRY_LABEL = 1, ENTRY_COUNTERS = 2, ENTRY_RESET = 3, ENTRY_PARTIAL_PARITY = 4, ENTRY_SEAL = 5, ENTRY_CLOSING = 6 };

#define ENTRY_MARK "ZRV"
enum { ENTRY_MARK_BYTES = sizeof ENTRY_MARK - 1, ENTRY_FORMAT = 1 };

/* Where a header's fields are; those from LABEL_DRIVES on in a label alone. */
enum {
    ENTRY_TYPE = 3,
    ENTRY_VERSION = 4,
    ENTRY_VERSION_END = 6,
    ENTRY_START = 8,
    ENTRY_END = 16,
    ENTRY_GENERATION = 24,
    ENTRY_HEAD_BYTES = 32,
    LABEL_DRIVES = 32,
    LABEL_UNIT = 33,
    LABEL_SECTOR_LOG2 = 34,
    LABEL_INDEX = 35,
    LABEL_LOST = 36,
    LABEL_ZONE_SECTORS = 40,
    LABEL_ZONES = 44,
    LABEL_ARRAY = 48,
    LABEL_END = 56
};

/* The bytes of a counters entry: a head, and a generation of eight bytes for each zone. That of a zone begins where those of the zones before it end. */
enum { COUNTER_BYTES = 8 };
static inline uint32_t counters_bytes(uint32_t zones) { return ENTRY_HEAD_BYTES + COUNTER_BYTES * zones; }

/* Whether a sector has an entry's mark and version; whether it is a legal header of that drive and kind of log. */
bool entry_is_marked(const uint8_t *header);
bool entry_is_legal(struct geometry geometry, uint32_t drive, uint32_t log, const uint8_t *header);

/* The row sectors that follow a legal entry's header. */
uint32_t entry_rows(struct geometry geometry, const uint8_t *header);

/* The sectors of a physical zone, those below its write pointer. */
struct zone_bytes {
    const uint8_t *bytes;
    uint32_t written;
};

struct journal_reader {
    struct geometry geometry;
    uint32_t drive, log; /* the kind of log as which the zone is read */
    struct zone_bytes zone;
    uint32_t at; /* the sector where the next entry would begin */
};

enum journal_step { JOURNAL_ENTRY, JOURNAL_TORN, JOURNAL_NO_ENTRY, JOURNAL_END };

/* The next entry's header. After a torn entry or a sector that is no entry, which are given too, the reader stays where it is. */
enum journal_step next_entry(struct journal_reader *reader, const uint8_t **header);

/* Why a sector at which a reader found no entry is none: the answer of a look. */
uint32_t why_no_entry(const struct journal_reader *reader, const uint8_t *header);

/* A drive's physical zones 0 to 2. */
struct log_zones {
    struct geometry geometry;
    uint32_t drive;
    struct zone_bytes zone[ZRV_LOG_ZONES];
};

enum { NO_ZONE = ZRV_LOG_ZONES };

/* The zone that is the drive's log of that kind, NO_ZONE where it lacks the kind; a zone's generation as a log of that kind; the spare zone, NO_ZONE where the
 * drive lacks a kind. */
uint32_t find_log(const struct log_zones *zones, uint32_t log);
uint64_t log_generation(const struct log_zones *zones, uint32_t log, uint32_t zone);
uint32_t find_spare(const struct log_zones *zones);

/* The same of a shelf's drive: its zones, and a reader of its log, which finds nothing where the drive lacks it. */
struct log_zones log_zones_of(const struct shelf *shelf, uint32_t drive);
struct journal_reader read_log(const struct log_zones *zones, uint32_t log);

#endif
