/* The words follow document 01's table of entries, type by type. */
#include "bad_log.h"

#include "bytes.h"
#include "refusals.h"

/* What makes a header of each type legal, as far as it is the same in every geometry. */
static const struct {
    const char *name, *should;
} types[] = {
    [ENTRY_COUNTERS] = {"counters", "counters have start, end and generation 0, a generation for each zone, and zeros"},
    [ENTRY_RESET] = {"a reset", "a reset runs from a zone's start to its end and stands on the drives of its first stripe's parity and first unit"},
    [ENTRY_PARTIAL_PARITY] = {"partial parity", "partial parity runs from a stripe's start to an end inside it and stands on the stripe's parity drive"},
    [ENTRY_SEAL] = {"a seal", "a seal runs from a zone's start to an end in it"},
};

static bool in_log(uint8_t type, uint32_t log) {
    if (type == ENTRY_CLOSING)
        return true;
    return log == PARITY_LOG ? type == ENTRY_PARTIAL_PARITY : type >= ENTRY_LABEL && type <= ENTRY_SEAL && type != ENTRY_PARTIAL_PARITY;
}

static const char *kind_word(uint32_t log) { return log == PARITY_LOG ? "parity" : "general"; }

/* 6: no mark, or another version. */
static void describe_unmarked(const uint8_t *s, struct message *message) {
    static const char mark[] = ENTRY_MARK;
    if (s[0] != mark[0] || s[1] != mark[1] || s[2] != mark[2])
        fail(message, "it begins with %02x %02x %02x; an entry begins with its mark, %02x %02x %02x", s[0], s[1], s[2], mark[0], mark[1], mark[2]);
    else
        fail(message, "it has the mark and version %u; an entry has version %u", s[ENTRY_VERSION] + 256u * s[ENTRY_VERSION + 1], ENTRY_FORMAT);
}

static void describe_label(const struct journal_reader *reader, const uint8_t *s, struct message *message) {
    struct geometry g = reader->geometry;
    fail(message,
         "it is a label of drive %u: %u drives, units of %u, sectors of 2^%u bytes, %u sectors a zone, %u zones, lost drive %u; "
         "here belongs one of drive %u: %u drives, units of %u, sectors of %u bytes, %u sectors a zone, %u zones, a lost drive or 255, and zeros",
         s[LABEL_INDEX], s[LABEL_DRIVES], s[LABEL_UNIT], s[LABEL_SECTOR_LOG2], get32(s + LABEL_ZONE_SECTORS), get32(s + LABEL_ZONES), s[LABEL_LOST],
         reader->drive, g.drives, g.unit, g.sector_bytes, g.zone_sectors, (uint32_t)physical_zones(g));
}

/* 16: what is wrong is told by the header's own fields and by what its type asks for. */
static void describe_illegal(const struct journal_reader *reader, const uint8_t *s, struct message *message) {
    unsigned long long start = get64(s + ENTRY_START), end = get64(s + ENTRY_END), generation = get64(s + ENTRY_GENERATION);
    uint8_t type = s[ENTRY_TYPE];
    if (!in_log(type, reader->log))
        fail(message, "it is of type %u; a %s log has entries of types %s", type, kind_word(reader->log),
             reader->log == PARITY_LOG ? "4 and 6" : "1, 2, 3, 5 and 6");
    else if (s[ENTRY_VERSION_END] != 0 || s[ENTRY_VERSION_END + 1] != 0)
        fail(message, "its bytes 6 and 7 are %02x %02x; in an entry they are zero", s[ENTRY_VERSION_END], s[ENTRY_VERSION_END + 1]);
    else if (type == ENTRY_LABEL)
        describe_label(reader, s, message);
    else if (type == ENTRY_CLOSING)
        fail(message, "it is a closing entry, start %llu, end %llu, generation %llu; in a %s log one has start %u, end 0, a generation above 0, and zeros",
             start, end, generation, kind_word(reader->log), reader->log);
    else
        fail(message, "it is %s, start %llu, end %llu, generation %llu; %s%s", types[type].name, start, end, generation, types[type].should,
             type == ENTRY_COUNTERS ? "" : ", and is zero past byte 31");
}

void describe_no_entry(const struct journal_reader *reader, const uint8_t *sector, struct message *message) {
    struct geometry g = reader->geometry;
    uint32_t why = why_no_entry(reader, sector), left = g.zone_sectors - reader->at - 1, rows;
    if (why == ZRV_LOG) {
        describe_unmarked(sector, message);
    } else if (why == ZRV_LOG_ENTRY) {
        describe_illegal(reader, sector, message);
    } else {
        rows = entry_rows(g, sector);
        fail(message, "it is partial parity from %llu to %llu with %u row%s; the zone has %u sector%s left after it",
             (unsigned long long)get64(sector + ENTRY_START), (unsigned long long)get64(sector + ENTRY_END), rows, plural(rows), left, plural(left));
    }
}

static uint32_t kind_in(const struct log_zones *zones, uint32_t zone) { return find_log(zones, PARITY_LOG) == zone ? PARITY_LOG : GENERAL_LOG; }

const char *log_word(const struct shelf *shelf, uint32_t drive, uint32_t zone) {
    struct log_zones zones = log_zones_of(shelf, drive);
    return kind_word(kind_in(&zones, zone));
}

void print_bad_log(FILE *to, const struct shelf *shelf, uint32_t answer, struct log_place place) {
    struct log_zones zones = log_zones_of(shelf, place.drive);
    struct journal_reader reader = {shelf->geometry, place.drive, kind_in(&zones, place.zone), zones.zone[place.zone], place.sector};
    struct message what;
    describe_no_entry(&reader, reader.zone.bytes + (size_t)place.sector * shelf->geometry.sector_bytes, &what);
    fprintf(to, "%u %s: drive %u, %s log in zone %u, sector %u: %s; pull drive %u, then mount\n", answer, refusal_word(answer), place.drive,
            kind_word(reader.log), place.zone, place.sector, what.text, place.drive);
}
