/* The options of `zrv explore` and the small language of its calls. */
#include "explore/options.h"

#include <inttypes.h>
#include <stdio.h>
#include <stdlib.h>
#include <string.h>

#include "bounds.h"
#include "shelf.h"
#include "words.h"

/* A shelf larger than this is not for going through state by state. */
#define MOST_SHELF_BYTES ((size_t)64 * 1024 * 1024)
#define DEFAULT_BUDGET 2000000
/* Calls to begin with where drives cache resets: the zone that is reset has something to come back, and sectors are written over it. */
#define CACHED_CALLS "w3,f,r0,w1"
#define MOST_BUDGET UINT64_C(1000000000000)

static const struct {
    const char *name, *calls, *later, *words;
} breakages[BREAKAGES] = {
    [BREAK_NOTHING] = {"nothing", "w3,f,w4,w5", "", "none"},
    [BREAK_FLUSH] = {"flush", "w3,f", "", "a flush keeps nothing: durable does not move"},
    [BREAK_SECTOR] = {"sector", "w3,w4", "", "a sector is torn: the last one that a cache keeps has its second half from before"},
    [BREAK_SECOND_DRIVE] = {"second-drive", "w3,f", "", "a second drive is lost after the mount recorded the first"},
    [BREAK_LOST_AGAIN] = {"lost-again", "w3,f", "r0,w6", "a drive is lost, calls go on without it, no mount records it, and after power went it is named again"},
    [BREAK_KEPT_OUT] = {"kept-out", "w3,f", "w4", "a lost drive is named again after the mount recorded its loss and writes went on"},
    [BREAK_MOUNT] = {"mount", "w3", "w4", "a mount is left out: a look is taken for it, and writes go on"},
    [BREAK_RESET] = {"reset", "w3,f,r0", "", "drives cache zone resets, and a flush does not make them last"},
};

static const char *const help =
    "usage: zrv explore [OPTION]..\n"
    "\n"
    "Formats a shelf in memory, sends calls, and lets power go after every store. Each cache keeps anything from durable to written, every drive\n"
    "or all but one come back, and a look and a mount follow. That mount is stopped after each of its stores too, power goes again, and a second\n"
    "mount follows. Whatever is shown must fit: a beginning of what was written, at least as far as it was flushed. Ends with `every look fitted`\n"
    "or with a shortest history in which one did not, event by event.\n"
    "\n"
    "  --calls LIST       the calls, by commas: wN writes N sectors, f flushes, m mounts, rZ resets zone Z, cD compacts drive D; zZ chooses the zone and\n"
    "                     hH the host of the writes that follow, both 0 at first (default w3,f,w4,w5: a write that ends inside a stripe, made to last;\n"
    "                     one past that stripe's end, and one to the next stripe's end, of which power may take anything). To empty logs: --drives 3\n"
    "                     --unit 1 --zone-sectors 8 with --calls w1,r0,c2,w1,r0 or --calls m,m,m,m,m. Two desks in turn, with entries in one log: --drives 3\n"
    "                     --unit 1 --zones 2 with --calls w1,h1,z1,w5,c2,h0,z0,w1\n"
    "  --then LIST        calls sent after the first mount, at every store of which power goes once more (default none)\n"
    "  --cached-resets    drives cache a zone reset until they are flushed: when power goes, each zone that was reset since its drive's last flush\n"
    "                     stays reset or is as it could have been left just before, also where it was written since (calls w3,f,r0,w1)\n"
    "  --lose-later       where all drives came back, any one may be lost when power goes for the second time\n"
    "  --drives N         3 to 8 (4)\n"
    "  --sector-bytes N   bytes of a sector, 64 to 4096 by doubling (64)\n"
    "  --unit N           sectors of a stripe unit, 1 to 16 (2)\n"
    "  --zones N          logical zones, 1 to 16 (1)\n"
    "  --zone-sectors N   sectors of a drive's zone, a multiple of the unit (16)\n"
    "  --budget N         at most N times does power come back for good (2000000); beyond it the caches are drawn, and the report says so\n"
    "  --seed N           of these draws (1)\n"
    "  --picture FILE     an SVG chart of what was shown after power went at each moment\n"
    "  --quiet            the verdict alone\n"
    "  --break DUTY       break a duty of the drives or the host, to see what it is for:\n"
    "      flush          a flush keeps nothing (calls w3,f). Fails where less is shown than was flushed, or a stopped mount did not keep its order.\n"
    "      sector         the last sector that each cache keeps has its second half from before (calls w3,w4). Fails where other bytes are shown\n"
    "                     than were written, or a look is refused for a broken log.\n"
    "      second-drive   a second drive is lost after the mount recorded the first (calls w3,f). Every look is then refused with 4: that is the\n"
    "                     failure, nothing wrong is shown.\n"
    "      lost-again     a drive is lost, calls go on without it, no mount records it, and after power went it is named again (calls w3,f, then\n"
    "                     r0,w6). Fails where its sectors from before the reset are shown.\n"
    "      kept-out       a lost drive is named again after the mount recorded its loss and writes went on (calls w3,f, then w4). The labels of\n"
    "                     the others keep it out, so this fits; it would fail if one of its old sectors were shown.\n"
    "      mount          a look is taken for the mount and writes go on (calls w3, then w4). Fails where a journal entry from before power went\n"
    "                     gives other bytes than were written, or breaks the log.\n"
    "      reset          drives cache zone resets, and a flush does not make them last (calls w3,f,r0). Fails where sectors from before a finished\n"
    "                     reset are shown.\n"
    "\n"
    "Exit status: 0 every look fitted, 1 one did not, 2 bad usage, 3 a file could not be written or memory ran out.\n";

static enum parsed complain(const char *format, const char *word) {
    fputs("zrv explore: ", stderr);
    fprintf(stderr, format, word);
    fputs("\n", stderr);
    return BAD_USAGE;
}

const char *breakage_in_words(enum breakage breakage) { return breakages[breakage].words; }

/* The zone and the host of the writes that follow. */
struct chosen {
    uint32_t zone, host;
};

/* A word that chooses one of them. */
static bool parse_choice(const char *word, struct geometry geometry, struct chosen *chosen) {
    uint64_t number = 0;
    if (*word == 'z' && parse_number(word + 1, 0, geometry.zones - 1, &number))
        chosen->zone = (uint32_t)number;
    else if (*word == 'h' && parse_number(word + 1, 0, ZRV_HOSTS - 1, &number))
        chosen->host = (uint32_t)number;
    else
        return false;
    return true;
}

/* One word of a list of calls; what it chooses stays for the words that follow. */
static enum parsed parse_request(const char *word, struct geometry geometry, struct chosen *chosen, struct request_list *list) {
    uint64_t number = 0;
    struct request request = {.kind = CALL_FLUSH};
    if (parse_choice(word, geometry, chosen))
        return PARSED;
    if (*word == 'w' && parse_number(word + 1, 1, zone_addresses(geometry), &number))
        request = (struct request){.kind = CALL_WRITE, .zone = chosen->zone, .host = chosen->host, .sectors = (uint32_t)number};
    else if (*word == 'r' && parse_number(word + 1, 0, geometry.zones - 1, &number))
        request = (struct request){.kind = CALL_RESET, .zone = (uint32_t)number};
    else if (*word == 'c' && parse_number(word + 1, 0, geometry.drives - 1, &number))
        request = (struct request){.kind = CALL_COMPACT, .drive = (uint32_t)number};
    else if (strcmp(word, "m") == 0)
        request.kind = CALL_MOUNT;
    else if (strcmp(word, "f") != 0)
        return complain("'%s' is no call here; calls are wN (1 to a zone's sectors), f, m, rZ and zZ (a zone that there is), cD (a drive), hH (a host, 0 or 1)", word);
    if (list->length == MOST_REQUESTS)
        return complain("the call '%s' is one too many", word);
    list->request[list->length++] = request;
    return PARSED;
}

/* The words of a list, and for each write data of its own. */
static enum parsed parse_requests(const char *text, struct geometry geometry, uint64_t seed, struct request_list *list) {
    struct chosen chosen = {0, 0};
    while (*text != '\0') {
        char word[32];
        size_t length = strcspn(text, ",");
        snprintf(word, sizeof word, "%.*s", (int)(length < sizeof word ? length : sizeof word), text);
        if (parse_request(word, geometry, &chosen, list) != PARSED)
            return BAD_USAGE;
        text += length;
        if (*text == ',' && *++text == '\0')
            return complain("'%s' ends a list of calls", ",");
    }
    for (size_t i = 0; i < list->length; i++) {
        size_t bytes = (size_t)list->request[i].sectors * geometry.sector_bytes;
        list->request[i].data = malloc(bytes + 1);
        if (list->request[i].data == NULL)
            return complain("no memory for %s", "the data of the writes");
        fill_from_stream(list->request[i].data, bytes, seed + i);
    }
    return PARSED;
}

static enum parsed parse_breakage(const char *word, enum breakage *breakage) {
    for (int i = BREAK_FLUSH; i < BREAKAGES; i++) {
        if (strcmp(word, breakages[i].name) == 0) {
            *breakage = (enum breakage)i;
            return PARSED;
        }
    }
    return complain("'%s' is no duty to break; duties are flush, sector, second-drive, lost-again, kept-out, mount and reset", word);
}

/* Where an option's value goes: the one pointer that is not NULL. */
struct destination {
    bool *flag;
    uint32_t *number;
    uint64_t *long_number;
    const char **text;
    enum breakage *breakage;
    uint64_t least, most; /* of a number */
};

enum { DRIVES, SECTOR_BYTES, UNIT, ZONES, ZONE_SECTORS, BUDGET, SEED, CALLS, THEN, PICTURE, BREAK, CACHED_RESETS, LOSE_LATER, QUIET, HELP, OPTIONS };

static const struct option names[OPTIONS + 1] = {
    WORD_WITH_VALUE("drives", DRIVES),
    WORD_WITH_VALUE("sector-bytes", SECTOR_BYTES),
    WORD_WITH_VALUE("unit", UNIT),
    WORD_WITH_VALUE("zones", ZONES),
    WORD_WITH_VALUE("zone-sectors", ZONE_SECTORS),
    WORD_WITH_VALUE("budget", BUDGET),
    WORD_WITH_VALUE("seed", SEED),
    WORD_WITH_VALUE("calls", CALLS),
    WORD_WITH_VALUE("then", THEN),
    WORD_WITH_VALUE("picture", PICTURE),
    WORD_WITH_VALUE("break", BREAK),
    WORD_FLAG("cached-resets", CACHED_RESETS),
    WORD_FLAG("lose-later", LOSE_LATER),
    WORD_FLAG("quiet", QUIET),
    WORD_FLAG("help", HELP),
};

static struct destination destination_of(int option, struct options *options) {
    const struct destination destinations[OPTIONS] = {
        [DRIVES] = {.number = &options->geometry.drives, .least = ZRV_LEAST_DRIVES, .most = ZRV_MOST_DRIVES},
        [SECTOR_BYTES] = {.number = &options->geometry.sector_bytes, .least = ZRV_LEAST_SECTOR_BYTES, .most = ZRV_MOST_SECTOR_BYTES},
        [UNIT] = {.number = &options->geometry.unit, .least = 1, .most = ZRV_MOST_UNIT},
        [ZONES] = {.number = &options->geometry.zones, .least = 1, .most = ZRV_MOST_ZONES},
        [ZONE_SECTORS] = {.number = &options->geometry.zone_sectors, .least = 1, .most = ZRV_MOST_ZONE_SECTORS},
        [BUDGET] = {.long_number = &options->budget, .least = 1, .most = MOST_BUDGET},
        [SEED] = {.number = &options->seed, .least = 0, .most = UINT32_MAX},
        [CALLS] = {.text = &options->calls_text},
        [THEN] = {.text = &options->later_text},
        [PICTURE] = {.text = &options->picture},
        [BREAK] = {.breakage = &options->breakage},
        [CACHED_RESETS] = {.flag = &options->cached_resets},
        [LOSE_LATER] = {.flag = &options->loses_later},
        [QUIET] = {.flag = &options->quiet},
    };
    return destinations[option];
}

static enum parsed take_number(const char *name, const struct destination *to, const char *value) {
    uint64_t number = 0;
    if (!parse_number(value, to->least, to->most, &number)) {
        fprintf(stderr, "zrv explore: --%s takes a number from %" PRIu64 " to %" PRIu64 ", not '%s'\n", name, to->least, to->most, value);
        return BAD_USAGE;
    }
    if (to->number != NULL)
        *to->number = (uint32_t)number;
    else
        *to->long_number = number;
    return PARSED;
}

static enum parsed take_option(int option, const char *value, struct options *options) {
    if (option == HELP) {
        fputs(help, stdout);
        return HELPED;
    }
    struct destination to = destination_of(option, options);
    if (to.breakage != NULL)
        return parse_breakage(value, to.breakage);
    if (to.flag == NULL && to.text == NULL)
        return take_number(names[option].name, &to, value);
    if (to.flag != NULL)
        *to.flag = true;
    else
        *to.text = value;
    return PARSED;
}

static enum parsed parse_words(int argc, char **argv, struct options *options) {
    struct words words = begin_words(argc, argv, names);
    struct word word;
    while ((word = next_word(&words)).kind != WORDS_END) {
        if (word.kind == WORD_OPERAND || word.kind == WORD_NO_OPTION)
            return complain("no option '%s'; --help lists them", word.text);
        if (word.kind != WORD_OPTION)
            return complain(word.kind == WORD_VALUE_WANTED ? "--%s takes a value" : "--%s takes no value", names[word.option].name);
        enum parsed parsed = take_option(word.option, word.text, options);
        if (parsed != PARSED)
            return parsed;
    }
    return PARSED;
}

enum parsed parse_explore_options(int argc, char **argv, struct options *options) {
    *options = (struct options){.geometry = {4, 64, 2, 1, 16}, .budget = DEFAULT_BUDGET, .seed = 1};
    enum parsed words = parse_words(argc, argv, options);
    if (words != PARSED)
        return words;
    struct geometry g = options->geometry;
    struct message message;
    if (!geometry_fits(g, &message))
        return complain("%s", message.text);
    if (ZRV_SECTORS_BYTES(g.drives, g.sector_bytes, g.zones, g.zone_sectors) > MOST_SHELF_BYTES)
        return complain("%s", "a shelf of more than 64 MiB is too large to go through");
    options->cached_resets = options->cached_resets || options->breakage == BREAK_RESET;
    if (options->breakage == BREAK_LOST_AGAIN && options->picture != NULL)
        return complain("%s", "--picture shows the first loss of power; --break lost-again has none before its calls");
    if (options->calls_text == NULL)
        options->calls_text = options->cached_resets && options->breakage == BREAK_NOTHING ? CACHED_CALLS : breakages[options->breakage].calls;
    if (options->later_text == NULL)
        options->later_text = breakages[options->breakage].later;
    if (parse_requests(options->calls_text, g, 1, &options->calls) != PARSED)
        return BAD_USAGE;
    if (options->calls.length == 0)
        return complain("'%s' names no call to send", options->calls_text);
    return parse_requests(options->later_text, g, 1 + MOST_REQUESTS, &options->later);
}

void free_explore_options(struct options *options) {
    for (size_t i = 0; i < options->calls.length; i++)
        free(options->calls.request[i].data);
    for (size_t i = 0; i < options->later.length; i++)
        free(options->later.request[i].data);
}
