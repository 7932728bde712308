/* A history told event by event, one on a line, and what its last look or mount should have shown. */
#include "explore/story.h"

#include "journal.h"
#include "refusals.h"

void tell_answer_of_call(FILE *out, uint32_t answer) {
    if (answer == ZRV_FINISHED)
        fputs("finished", out);
    else if (answer == ZRV_UNFINISHED)
        fputs("not finished", out);
    else if (answer == ANSWER_ZONE_FULL)
        fputs("refused: the zone is full", out);
    else
        fprintf(out, "refused with %u (%s)", answer, refusal_word(answer));
}

void tell_request(FILE *out, const struct request *request) {
    const struct call_traits *traits = traits_of(request->kind);
    fputs(traits->name, out);
    if (request->sectors > 0)
        fprintf(out, " of %u sector%s to zone %u", request->sectors, request->sectors == 1 ? "" : "s", request->zone);
    else if (traits->in_zone)
        fprintf(out, " of zone %u", request->zone);
    else if (request->kind == CALL_COMPACT)
        fprintf(out, " of drive %u", request->drive);
    if (request->host > 0)
        fprintf(out, " by host %u", request->host);
}

static void tell_call(FILE *out, const struct event *event) {
    tell_request(out, event->request);
    if (event->request->sectors > 0)
        fprintf(out, " at %u", event->pointer);
    fprintf(out, ": %u store%s, ", event->stores, event->stores == 1 ? "" : "s");
    tell_answer_of_call(out, event->answer);
    fputs("\n", out);
}

static void tell_place(FILE *out, const struct shelf *shelf, uint32_t drive, uint32_t zone) {
    struct log_zones zones = log_zones_of(shelf, drive);
    if (zone >= ZRV_LOG_ZONES)
        fprintf(out, "zone %u", zone - ZRV_LOG_ZONES);
    else if (zone == find_log(&zones, GENERAL_LOG))
        fputs("general log", out);
    else
        fputs(zone == find_log(&zones, PARITY_LOG) ? "parity log" : "spare zone", out);
}

/* What a cell keeps, of what it held before a reset where that comes back. */
static void tell_kept(FILE *out, const struct caches *caches, size_t cell) {
    const struct old_zone *back = caches->back.cell[cell];
    uint32_t written = back == NULL ? caches->written[cell] : back->written, durable = back == NULL ? caches->durable[cell] : back->durable;
    if (back == NULL && written == 0) {
        fputs(" stays reset", out);
        return;
    }
    fprintf(out, "%s keeps %u of %u", back == NULL ? "" : " is not reset and", caches->kept[cell], written);
    if (durable > 0)
        fprintf(out, " (%u durable)", durable);
}

/* Of each drive that had something at stake, where, and how much of it was kept. */
static void tell_power(FILE *out, const struct caches *caches, const struct shelf *shelf) {
    fputs("power goes", out);
    const char *separator = ": ";
    for (size_t cell = 0; cell < caches->cells; cell++) {
        if (caches->choices[cell] == 1)
            continue;
        uint32_t drive = (uint32_t)(cell / caches->cells_of_drive);
        fprintf(out, "%sdrive %u ", separator, drive);
        tell_place(out, shelf, drive, (uint32_t)(cell % caches->cells_of_drive));
        tell_kept(out, caches, cell);
        separator = "; ";
    }
    fputs(separator[0] == ':' ? ", everything was durable\n" : "\n", out);
}

static void tell_shown(FILE *out, const struct event *event, uint32_t zones) {
    if (event->answer != ZRV_FINISHED) {
        tell_answer_of_call(out, event->answer);
        fputs("\n", out);
        return;
    }
    for (uint32_t z = 0; z < zones; z++) {
        uint32_t pointer = pointer_in_state(event->shown, z);
        fprintf(out, "%szone %u %s", z == 0 ? "" : ", ", z, condition_word(zone_record(event->shown, z)[ZRV_RECORD_CONDITION]));
        if (pointer > 0)
            fprintf(out, " at %u", pointer);
    }
    fputs("\n", out);
}

static void tell_event(FILE *out, const struct event *event, uint32_t zones) {
    switch (event->kind) {
    case EVENT_CALL:
        tell_call(out, event);
        return;
    case EVENT_POWER:
        tell_power(out, event->caches, event->shelf);
        return;
    case EVENT_DRIVE_GONE:
        fprintf(out, "drive %u does not come back\n", event->drive);
        return;
    case EVENT_DRIVE_LEFT_OUT:
        fprintf(out, "drive %u is left out from here on\n", event->drive);
        return;
    case EVENT_DRIVE_NAMED:
        fprintf(out, "drive %u is named again\n", event->drive);
        return;
    case EVENT_MOUNT:
        if (event->answer == ZRV_UNFINISHED) {
            fprintf(out, "mount stopped after %u store%s\n", event->stores, event->stores == 1 ? "" : "s");
            return;
        }
        fputs("mount: ", out);
        break;
    case EVENT_LOOK_FOR_MOUNT:
        fputs("look taken for a mount: ", out);
        break;
    case EVENT_LOOK:
        fputs("look: ", out);
        break;
    }
    tell_shown(out, event, zones);
}

static void tell_wanted(FILE *out, const struct oracle_zone *zone) {
    fprintf(out, "; wanted: a beginning of the %u sector%s written, %u at least", zone->length, zone->length == 1 ? "" : "s", zone->flushed);
    fputs(zone->reset_begun ? ", or empty\n" : "\n", out);
}

static void tell_verdict(FILE *out, const struct world *world, const struct verdict *verdict) {
    switch (verdict->trouble) {
    case LOOK_REFUSED:
        fprintf(out, "the look is refused with %u (%s): nothing is shown\n", verdict->answer, refusal_word(verdict->answer));
        return;
    case MOUNT_REFUSED:
        fprintf(out, "the mount is refused with %u (%s)\n", verdict->answer, refusal_word(verdict->answer));
        return;
    case READ_REFUSED:
        fprintf(out, "zone %u at %u: a read below it is refused with %u (%s)\n", verdict->zone, verdict->pointer, verdict->answer,
                refusal_word(verdict->answer));
        return;
    case SHOWN_OTHER:
        fprintf(out, "zone %u at %u: sector %u has other bytes than were written", verdict->zone, verdict->pointer, verdict->sector);
        break;
    default:
        fprintf(out, "zone %u is shown at %u", verdict->zone, verdict->pointer);
    }
    tell_wanted(out, &world->oracle.zone[verdict->zone]);
}

void tell_story(FILE *out, const struct trail *trail, const struct world *world, const struct verdict *verdict) {
    fprintf(out, "   1. format: every zone empty\n");
    for (size_t i = 0; i < trail->length; i++) {
        fprintf(out, "  %2zu. ", i + 2);
        tell_event(out, &trail->event[i], world->shelf.geometry.zones);
    }
    fputs("  does not fit: ", out);
    tell_verdict(out, world, verdict);
}
