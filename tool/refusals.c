/* The refusals' words. In a sentence a name in braces stands for a number, of those below. A refusal for a bad log has its sentence from bad_log.c. */
#include "refusals.h"

#include <string.h>

#include "bounds.h"
#include "hosts.h"

static const struct {
    const char *word, *sentence;
} refusals[] = {
    [ZRV_GEOMETRY] = {"geometry", "the state that the host held is none of this volume; mount the volume (zrv mount)"},
    [ZRV_LENGTH] = {"length", "a table or a buffer has not its length; give whole sectors"},
    [ZRV_POINTER] = {"pointer", "a drive's write pointers are out of order; pull that drive"},
    [ZRV_TWO_LOST] = {"two lost", "more than one drive is lost; put back one that is missing and was not given up"},
    [ZRV_LABEL] = {"label", "a drive's log does not begin with its label of this shelf; pull the drive that zrv look names"},
    [ZRV_LOG] = {"log", NULL},
    [ZRV_STALE] = {"stale", "a drive's write pointer in a zone is not what the zone needs; mount the volume (zrv mount)"},
    [ZRV_ADDRESS] = {"address", NULL},
    [ZRV_RUN] = {"run", "there are no sectors, or they pass the zone's end; stay below address {end}"},
    [ZRV_ORDER] = {"order", NULL},
    [ZRV_ZONE_SEALED] = {"sealed", "the zone takes no more; read it, then reset it or write to another zone"},
    [ZRV_ZONE_WORN] = {"worn", "the zone's generations are used up; read it and write to another zone"},
    [ZRV_UNWRITTEN] = {"unwritten", "nothing is written there yet; stay below address {pointer}"},
    [ZRV_LOG_FULL] = {"log full", NULL},
    [ZRV_GONE] = {"gone", NULL},
    [ZRV_LOG_ENTRY] = {"entry", NULL},
    [ZRV_LOG_ROWS] = {"rows", NULL},
#define FILL_ONE "write one of them to its end or reset it, or write this zone to its end in one call"
    [ZRV_HOST_LIMIT] = {"host limit", "host {host} holds {limit} zones open and may hold no more; " FILL_ONE},
    [ZRV_OPEN_LIMIT] = {"open limit", "{open} zones are open, and the drives allow {most}; " FILL_ONE},
};

const char *refusal_word(uint32_t number) { return number >= ZRV_GEOMETRY && number <= LAST_REFUSAL ? refusals[number].word : "no refusal"; }

const char *condition_word(uint8_t condition) {
    static const char *const words[] = {[ZRV_EMPTY] = "empty", [ZRV_OPEN] = "open", [ZRV_SEALED] = "sealed", [ZRV_WORN] = "worn"};
    return condition <= ZRV_WORN ? words[condition] : "in no condition";
}

struct number {
    const char *name;
    uint64_t value;
};

enum { POINTER, END, STRIPE, ZONES, ADDRESSES, ROOMY, HOST, LIMIT, OPEN, MOST, DRIVE, DRIVES, LEFT, WANTED, AFTER, ALONE, NUMBERS };

/* The address at which the call's zone goes on, the ones past the end of the zone and of the stripe there; how many zones and addresses the volume has; the
 * fewest sectors of a zone with which no log fills up. Where there is no such zone none of its numbers is asked for. */
static void find_places(struct number number[NUMBERS], const struct call *call, struct geometry g, const uint8_t *state) {
    uint64_t whole = zone_addresses(g), zone = call->address / whole;
    uint64_t pointer = zone < g.zones ? pointer_in_state(state, (uint32_t)zone) : 0, stripe = stripe_sectors(g);
    number[POINTER] = (struct number){"{pointer}", zone * whole + pointer};
    number[END] = (struct number){"{end}", (zone + 1) * whole};
    number[STRIPE] = (struct number){"{stripe}", zone * whole + (pointer / stripe + 1) * stripe};
    number[ZONES] = (struct number){"{zones}", g.zones};
    number[ADDRESSES] = (struct number){"{addresses}", whole * g.zones};
    number[ROOMY] = (struct number){"{roomy}", least_sharing_zone_sectors(g)};
}

/* The write's host, how many zones it may hold open, how many are open and may be; the drive of the write's entry, or of the compact; of a write what is left of
 * its host's share of that drive, what it wants of it, and what a compact would leave, as the zones are and if no other zone ended inside a stripe there. */
static void find_shares(struct number number[NUMBERS], const struct call *call, struct geometry g, const uint8_t *state) {
    uint32_t zone = (uint32_t)(call->address / zone_addresses(g)), host = call->host, drive = call->drive, left = 0, wanted = 0, alone = 0;
    if (call->kind == CALL_WRITE && zone < g.zones && host < ZRV_HOSTS) {
        uint32_t end = pointer_in_state(state, zone) + call->run;
        drive = entry_drive(g, zone, end);
        left = share_in_state(state, drive, host);
        wanted = entry_sectors(g, end);
        alone = share_after_copies(g, sectors_copied(g, state, drive, zone));
    }
    number[HOST] = (struct number){"{host}", host};
    number[LIMIT] = (struct number){"{limit}", limit_of(host)};
    number[OPEN] = (struct number){"{open}", count_open(g, state)};
    number[MOST] = (struct number){"{most}", ZRV_MOST_OPEN};
    number[DRIVE] = (struct number){"{drive}", drive};
    number[DRIVES] = (struct number){"{drives}", g.drives};
    number[LEFT] = (struct number){"{left}", left};
    number[WANTED] = (struct number){"{wanted}", wanted};
    number[AFTER] = (struct number){"{after}", share_after_compact(g, state, drive)};
    number[ALONE] = (struct number){"{alone}", alone};
}

/* Prints a number if a name stands here; how far to go on. */
static size_t print_number(FILE *to, const char *at, const struct number number[NUMBERS]) {
    for (int i = 0; i < NUMBERS; i++) {
        size_t length = strlen(number[i].name);
        if (strncmp(at, number[i].name, length) == 0) {
            fprintf(to, "%llu", (unsigned long long)number[i].value);
            return length;
        }
    }
    fputc(*at, to);
    return 1;
}

/* Refusal 8, of a host, of a drive, or of an address. */
static const char *address_sentence(const struct call *call, const struct number number[NUMBERS]) {
    if (call->kind == CALL_WRITE && call->host >= ZRV_HOSTS && number[END].value <= number[ADDRESSES].value)
        return "there is no host {host}; hosts are 0 and 1";
    if (call->kind != CALL_COMPACT)
        return "there is no such zone or address; zones lie below {zones}, addresses below {addresses}";
    return number[DRIVE].value < number[DRIVES].value ? "drive {drive} is not here: it is lost, or its file is missing; there is nothing to compact"
                                                      : "there is no drive {drive}; drives lie below {drives}";
}

/* Refusal 14: what helps is another thing for each call. */
#define TOO_LITTLE_ROOM "what has to be kept of a log leaves too little room"
#define FORMAT_ANEW "copy the data out and format anew with --zone-sectors {roomy} or more"
#define PAST_SHARE "host {host} has {left} left of its share of drive {drive}'s parity log, and this write wants {wanted} sectors of it; "
#define TO_STRIPES_END "write on to the stripe's end, below address {stripe}, in one call, which needs no share"

static const char *full_sentence(const struct call *call, const struct number number[NUMBERS]) {
    switch (call->kind) {
    case CALL_WRITE:
        if (number[LEFT].value >= number[WANTED].value)
            return "drive {drive}'s parity log has too little room for this write, though its host's share has: it is not as the host left it; zrv look tells more";
        if (number[AFTER].value >= number[WANTED].value)
            return PAST_SHARE "compact drive {drive} (zrv compact), or " TO_STRIPES_END;
        if (number[ALONE].value >= number[WANTED].value)
            return PAST_SHARE "bring other zones to a stripe's end or reset them, then compact drive {drive} (zrv compact): now it would leave {after}; or "
                TO_STRIPES_END;
        return PAST_SHARE "a compact would leave {alone} at most; " TO_STRIPES_END "; for good: " FORMAT_ANEW;
    case CALL_COMPACT:
        return "what has to be kept of drive {drive}'s parity log leaves too little room in a new one; bring zones to a stripe's end or reset them; for good: "
            FORMAT_ANEW;
    case CALL_RESET:
        return TOO_LITTLE_ROOM ", and may do so for good; what is written can still be read: " FORMAT_ANEW;
    default:
        return TOO_LITTLE_ROOM "; nothing is changed, zrv look still shows the zones; keep the drives' files as they are, and give the next volume "
                               "--zone-sectors {roomy} or more";
    }
}

static const char *sentence_of(uint32_t answer, const struct call *call, const struct number number[NUMBERS]) {
    switch (answer) {
    case ZRV_ADDRESS:
        return address_sentence(call, number);
    case ZRV_ORDER:
        return number[POINTER].value == number[END].value ? "the zone is full; reset it or write to another zone"
                                                          : "the write is not at the zone's pointer; write at address {pointer}";
    case ZRV_LOG_FULL:
        return full_sentence(call, number);
    case ZRV_GONE:
        return call->kind == CALL_PEEK ? "no drive that is here holds the sector; read it, which rebuilds it from parity"
                                       : "a sector that is needed cannot be rebuilt from the drives that are here";
    }
    return refusals[answer].sentence;
}

void print_refusal(FILE *to, uint32_t answer, const struct call *call, struct geometry g, const uint8_t *state) {
    struct number number[NUMBERS];
    find_places(number, call, g, state);
    find_shares(number, call, g, state);
    fprintf(to, "%u %s: ", answer, refusals[answer].word);
    for (const char *at = sentence_of(answer, call, number); *at != '\0';)
        at += print_number(to, at, number);
    fputc('\n', to);
}
