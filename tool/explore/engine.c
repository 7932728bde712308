/* The search.
 *
 * A history is: the format; the calls, up to a count of stores; power goes, and each drive and zone keeps some pointer from durable to written; all drives
 * come back, or all but one. Then a look. Then the mount, to its end, and the calls that follow it, if any. And from the same look on, the mount once more
 * for each count of its stores: stopped there, power goes again, the caches keep something, a look, a second mount to its end.
 *
 * Where drives cache zone resets, a drive and zone may also keep what it had before a reset since the drive's last flush. Which store is a flush is told by trying
 * the call first, store by store (stores.h).
 *
 * Two kinds of history are left out because another one has the same bytes. A mount stopped after a flush has the sectors and written pointers from before
 * that flush, and what can be kept then, old zones included, could be kept before. And a drive that is lost is neither read nor changed: whatever its cache
 * kept, the mount makes the same stores on the others, so it is stopped after them for one such content; its look and its whole mount are made for each. */
#include "explore/engine.h"

#include <stdlib.h>
#include <string.h>

#include "explore/check.h"
#include "explore/ending.h"

/* LEAST_SHARE: where the budget leaves fewer final states than this to each return of power, some returns get as many and the others none.
 * MOST_SHARES: a return that can be gone through whole may take so many times its share, as long as that is not below half of what it was at first. */
enum { PROGRESS_STEP = 256, LEAST_SHARE = 16, MOST_SHARES = 4 };

typedef void moment_step(struct explorer *explorer, struct level *level);

static void *grown(void *memory, size_t bytes) {
    void *larger = realloc(memory, bytes);
    must_have_memory(larger, bytes);
    return larger;
}

/* How many contents of the caches power can leave. */
static uint64_t contents_of(const struct world *world) { return new_caches(&world->shelf, &world->old, 0, 0).contents; }

static uint64_t saturated_sum(uint64_t a, uint64_t b) { return a > UINT64_MAX - b ? UINT64_MAX : a + b; }

/* ---- what drives that cache resets remember */

/* The stores that a request makes on a world, or a mount where there is none; an empty list where it is refused. */
static void list_stores(struct explorer *explorer, struct store_list *list, const struct world *base, const struct request *request) {
    struct message message;
    const uint8_t *state = base->state;
    list->length = 0;
    if (!explorer->options->cached_resets)
        return;
    copy_world(&explorer->tried[0], base);
    for (uint32_t count = 1, answer = ZRV_UNFINISHED; answer == ZRV_UNFINISHED; count++) {
        struct world *before = &explorer->tried[(count + 1) % 2], *after = &explorer->tried[count % 2];
        copy_world(after, base);
        answer = request == NULL ? mount_world(after, count, BREAK_NOTHING) : send_request(after, request, count, BREAK_NOTHING);
        if (answer == ZRV_UNFINISHED || answer == ZRV_FINISHED)
            must(note_store(list, &before->shelf, &after->shelf, &message), &message);
        state = after->state;
    }
    if (list->length > 0)
        must(settle_stores(list, request == NULL ? CALL_MOUNT : request->kind, present_in(base->named, state), &message), &message);
}

/* What the drives remember after so many stores of a list; `last` is the world one store before, and becomes this one. */
static void remember(struct explorer *explorer, const struct store_list *list, uint32_t stores, struct world *world, struct world *last) {
    enum breakage breakage = explorer->options->breakage;
    if (!explorer->options->cached_resets)
        return;
    struct store store = stores == 0 ? (struct store){.kind = STORE_UNSEEN} : list->store[stores - 1];
    if (store.kind == STORE_FLUSH && (breakage == BREAK_FLUSH || breakage == BREAK_RESET))
        store.kind = STORE_UNSEEN;
    if (stores > 0)
        remember_in_world(world, last, &store, &explorer->old_zones);
    copy_world(last, world);
}

/* ---- calls, stopped after every store */

/* One request: a moment after each count of its stores. A refused one leaves everything as it was. */
static void send_one(struct explorer *explorer, struct level *level, const struct request *request, moment_step *step) {
    struct outcome *outcome = &level->outcome[level->sent++];
    uint32_t pointer = pointer_in_state(level->base.state, request->zone);
    list_stores(explorer, &level->list, &level->base, request);
    for (level->stores = 0;; level->stores++) {
        copy_world(&level->moment, &level->base);
        uint32_t answer = send_request(&level->moment, request, level->stores, explorer->options->breakage);
        *outcome = (struct outcome){level->stores, answer, logs_emptied(&level->base, &level->moment)};
        push_event(explorer, (struct event){.kind = EVENT_CALL, .request = request, .pointer = pointer, .stores = level->stores, .answer = answer});
        if (answer != ZRV_UNFINISHED && answer != ZRV_FINISHED)
            return;
        remember(explorer, &level->list, level->stores, &level->moment, &level->last);
        step(explorer, level);
        if (answer == ZRV_FINISHED) {
            copy_world(&level->base, &level->moment);
            return;
        }
        explorer->trail.length--;
    }
}

static void send_all(struct explorer *explorer, struct level *level, const struct request_list *list, moment_step *step) {
    size_t events = explorer->trail.length;
    level->sent = 0;
    level->stores = 0;
    copy_world(&level->moment, &level->base);
    step(explorer, level);
    for (size_t i = 0; i < list->length; i++)
        send_one(explorer, level, &list->request[i], step);
    explorer->trail.length = events;
}

/* ---- the second loss of power */

static void second_return(struct explorer *explorer, const struct world *world, const struct caches *caches, uint32_t named) {
    struct world *again = &explorer->again;
    uint8_t shown[ZRV_STATE_BYTES];
    size_t events = explorer->trail.length;
    copy_world(again, world);
    world_loses_power(again, caches, explorer->options->breakage == BREAK_SECTOR ? &explorer->returned.shelf : NULL);
    for (uint32_t d = 0; d < world->shelf.geometry.drives; d++) {
        if ((named ^ world->named) >> d & 1)
            push_event(explorer, (struct event){.kind = named >> d & 1 ? EVENT_DRIVE_NAMED : EVENT_DRIVE_GONE, .drive = d});
    }
    again->named = named;
    explorer->counts.second_returns++;
    explorer->pool--;
    if (look_fits(explorer, again, shown, false))
        mount_fits(explorer, again);
    explorer->trail.length = events;
}

/* May a drive be lost with the second loss of power? Only one ever is. */
static bool may_lose_later(const struct explorer *explorer, const struct world *world) {
    return explorer->options->loses_later && world->named == (1u << world->shelf.geometry.drives) - 1;
}

/* How often power comes back for one content of the caches at the second loss. */
static uint32_t namings(const struct explorer *explorer, const struct world *world) {
    uint32_t drives = world->shelf.geometry.drives;
    if (explorer->options->breakage == BREAK_SECOND_DRIVE)
        return drives - 1;
    return may_lose_later(explorer, world) ? drives + 1 : 1;
}

/* The drives named after the second loss: those from before, unless the host breaks its duty. */
static void each_naming(struct explorer *explorer, const struct world *world, const struct caches *caches) {
    uint32_t drives = world->shelf.geometry.drives;
    switch (explorer->options->breakage) {
    case BREAK_KEPT_OUT:
    case BREAK_LOST_AGAIN:
        second_return(explorer, world, caches, (1u << drives) - 1);
        return;
    case BREAK_SECOND_DRIVE:
        for (uint32_t d = 0; d < drives; d++) {
            if (world->named >> d & 1)
                second_return(explorer, world, caches, world->named & ~(1u << d));
        }
        return;
    default:
        second_return(explorer, world, caches, world->named);
        for (uint32_t d = 0; d < drives && may_lose_later(explorer, world); d++)
            second_return(explorer, world, caches, world->named & ~(1u << d));
    }
}

/* Is there a share of the budget for a second loss after the return at hand? */
static bool affords_second_loss(struct explorer *explorer) {
    uint64_t allowance = explorer->pool / explorer->returns_left;
    if (allowance >= LEAST_SHARE)
        return true;
    explorer->draw = next_draw(explorer->draw);
    bool affords = (explorer->draw >> 8) % LEAST_SHARE < allowance;
    explorer->counts.unaffordable += !affords;
    return affords;
}

/* What the budget leaves for the moments of one mount, or of the calls after it: everything, or an even share for each. */
static void open_share(struct explorer *explorer, const struct world *world, uint64_t moments, uint64_t contents) {
    uint32_t times = namings(explorer, world);
    uint64_t allowance = explorer->pool / explorer->returns_left, most = explorer->pool / times;
    uint64_t whole = allowance >= explorer->first_share / 2 ? MOST_SHARES * allowance : allowance;
    if (allowance < LEAST_SHARE)
        allowance = LEAST_SHARE < explorer->pool ? LEAST_SHARE : explorer->pool;
    allowance /= times;
    whole = whole / times < most ? whole / times : most;
    explorer->share = (struct share){.all = contents <= whole || contents <= allowance, .moments = moments, .allowance = allowance, .most = most};
}

/* How many contents of the caches are gone through at the next moment; what does not divide evenly falls to moments by draw. */
static uint64_t take_share(struct explorer *explorer) {
    struct share *share = &explorer->share;
    if (share->all)
        return UINT64_MAX;
    explorer->draw = next_draw(explorer->draw);
    uint64_t limit = share->allowance / share->moments + ((explorer->draw >> 8) % share->moments < share->allowance % share->moments);
    limit = limit < share->most ? limit : share->most;
    share->most -= limit;
    return limit;
}

static void second_loss(struct explorer *explorer, const struct world *world) {
    uint64_t limit = take_share(explorer);
    struct caches caches = new_caches(&world->shelf, &world->old, limit, explorer->draw);
    explorer->counts.drawn += limit > 0 && caches_are_drawn(&caches);
    explorer->counts.left_out += limit == 0;
    push_event(explorer, (struct event){.kind = EVENT_POWER, .caches = &caches, .shelf = &world->shelf});
    while (next_caches(&caches))
        each_naming(explorer, world, &caches);
    explorer->trail.length--;
}

/* ---- the mount, stopped after every store */

static struct stop *stop_at(struct explorer *explorer, size_t at) {
    if (at == explorer->stop_room) {
        explorer->stop = grown(explorer->stop, (at + 1) * sizeof *explorer->stop);
        explorer->stop[at].world = new_world(explorer->options->geometry);
        explorer->stop_room++;
    }
    return &explorer->stop[at];
}

/* A stop whose written pointers are those of the one before adds nothing (above). */
static void gather_stops(struct explorer *explorer) {
    struct world *before = &explorer->tried[0];
    explorer->stops = 0;
    list_stores(explorer, &explorer->mount, &explorer->returned, NULL);
    remember(explorer, &explorer->mount, 0, &explorer->returned, before);
    for (uint32_t count = 1;; count++) {
        struct stop *stop = stop_at(explorer, explorer->stops);
        copy_world(&stop->world, &explorer->returned);
        stop->stores = count;
        if (mount_world(&stop->world, count, explorer->options->breakage) != ZRV_UNFINISHED)
            return;
        remember(explorer, &explorer->mount, count, &stop->world, before);
        const struct world *last = explorer->stops == 0 ? &explorer->returned : &explorer->stop[explorer->stops - 1].world;
        if (memcmp(stop->world.shelf.written.bytes, last->shelf.written.bytes, last->shelf.written.length) != 0)
            explorer->stops++;
    }
}

static void stop_mount(struct explorer *explorer) {
    uint64_t contents = 0;
    gather_stops(explorer);
    for (size_t i = 0; i < explorer->stops; i++)
        contents = saturated_sum(contents, contents_of(&explorer->stop[i].world));
    open_share(explorer, &explorer->returned, explorer->stops, contents);
    explorer->counts.stopped_mounts += explorer->stops;
    for (size_t i = 0; i < explorer->stops; i++) {
        push_event(explorer, (struct event){.kind = EVENT_MOUNT, .stores = explorer->stop[i].stores, .answer = ZRV_UNFINISHED});
        second_loss(explorer, &explorer->stop[i].world);
        explorer->trail.length--;
    }
}

/* ---- calls after the mount */

static void tally_moment(struct explorer *explorer, struct level *level) {
    explorer->tally.moments++;
    explorer->tally.contents = saturated_sum(explorer->tally.contents, contents_of(&level->moment));
}

static void later_loss(struct explorer *explorer, struct level *level) { second_loss(explorer, &level->moment); }

static void send_later(struct explorer *explorer, const struct world *start) {
    explorer->tally.moments = explorer->tally.contents = 0;
    copy_world(&explorer->later.base, start);
    send_all(explorer, &explorer->later, &explorer->options->later, tally_moment);
    open_share(explorer, start, explorer->tally.moments, explorer->tally.contents);
    copy_world(&explorer->later.base, start);
    send_all(explorer, &explorer->later, &explorer->options->later, later_loss);
}

/* ---- the first loss of power */

static bool finish_mount(struct explorer *explorer) {
    copy_world(&explorer->mounted, &explorer->returned);
    return mount_fits(explorer, &explorer->mounted);
}

/* After a look that fitted. stops: stop the mount after each of its stores too. */
static void go_on(struct explorer *explorer, uint8_t *shown, bool drive_gone, bool stops) {
    switch (explorer->options->breakage) {
    case BREAK_MOUNT:
        explorer->trail.event[explorer->trail.length - 1].kind = EVENT_LOOK_FOR_MOUNT;
        memcpy(explorer->returned.state, shown, ZRV_STATE_BYTES);
        tell_oracle(&explorer->returned, shown);
        if (affords_second_loss(explorer))
            send_later(explorer, &explorer->returned);
        return;
    case BREAK_SECOND_DRIVE:
    case BREAK_KEPT_OUT:
        if (drive_gone && finish_mount(explorer) && affords_second_loss(explorer))
            send_later(explorer, &explorer->mounted);
        return;
    default:
        if (stops && affords_second_loss(explorer))
            stop_mount(explorer);
        if (finish_mount(explorer) && explorer->options->later.length > 0 && affords_second_loss(explorer))
            send_later(explorer, &explorer->mounted);
    }
}

/* A pointer past the zone's end, which only a wrong volume shows, has no place in the count. */
static void count_shown(struct moment *moment, uint8_t *shown, struct geometry geometry, bool fits) {
    for (uint32_t z = 0; z < geometry.zones; z++) {
        uint32_t pointer = pointer_in_state(shown, z);
        if (pointer <= zone_addresses(geometry))
            (fits ? moment->zone[z].shown : moment->zone[z].misfit)[pointer]++;
    }
}

static void show_progress(const struct explorer *explorer) {
    if (explorer->shows_progress && explorer->counts.returns % PROGRESS_STEP == 0)
        fprintf(stderr, "\r%llu returns of power to go ", (unsigned long long)explorer->returns_left);
}

/* Power is back; drive: the one that is not, or none. */
static void first_return(struct explorer *explorer, const struct caches *caches, uint32_t drive) {
    struct moment *moment = &explorer->moments[explorer->moment_at];
    struct world *returned = &explorer->returned;
    uint8_t shown[ZRV_STATE_BYTES];
    size_t events = explorer->trail.length;
    const struct old_zone *made = explorer->old_zones;
    bool gone = drive != ZRV_NO_DRIVE;
    copy_world(returned, &explorer->first.moment);
    world_loses_power(returned, caches, explorer->options->breakage == BREAK_SECTOR ? &explorer->formatted.shelf : NULL);
    if (gone) {
        returned->named &= ~(1u << drive);
        push_event(explorer, (struct event){.kind = EVENT_DRIVE_GONE, .drive = drive});
    }
    explorer->counts.returns++;
    show_progress(explorer);
    bool fits = look_fits(explorer, returned, shown, false);
    if (explorer->trail.event[explorer->trail.length - 1].answer == ZRV_FINISHED)
        count_shown(moment, shown, returned->shelf.geometry, fits);
    if (fits)
        go_on(explorer, shown, gone, !gone || caches_are_drawn(caches) || keeps_only_durable(caches, drive));
    explorer->returns_left--;
    explorer->trail.length = events;
    empty_pool(&explorer->old_zones, made);
}

static void first_loss(struct explorer *explorer, struct level *level) {
    uint64_t limit = explorer->moments[explorer->moment_at].limit;
    const struct world *world = &level->moment;
    struct caches caches = new_caches(&world->shelf, &world->old, limit, explorer->options->seed + (uint32_t)explorer->moment_at);
    push_event(explorer, (struct event){.kind = EVENT_POWER, .caches = &caches, .shelf = &level->moment.shelf});
    while (next_caches(&caches)) {
        first_return(explorer, &caches, ZRV_NO_DRIVE);
        for (uint32_t d = 0; d < explorer->options->geometry.drives; d++)
            first_return(explorer, &caches, d);
    }
    explorer->trail.length--;
    explorer->moment_at++;
}

/* The duty broken by the host: after the calls a drive is left out of those that follow, with no mount to record it. */
static void leave_out(struct explorer *explorer, struct level *level) {
    if (++explorer->moment_at < explorer->moments_length)
        return;
    for (uint32_t d = 0; d < explorer->options->geometry.drives; d++) {
        copy_world(&explorer->returned, &level->moment);
        explorer->returned.named &= ~(1u << d);
        push_event(explorer, (struct event){.kind = EVENT_DRIVE_LEFT_OUT, .drive = d});
        send_later(explorer, &explorer->returned);
        explorer->returns_left--;
        explorer->trail.length--;
    }
}

/* ---- counting first, then everything */

static void plan_moment(struct explorer *explorer, struct level *level) {
    struct geometry g = explorer->options->geometry;
    size_t pointers = zone_addresses(g) + 1;
    explorer->moments = grown(explorer->moments, (explorer->moments_length + 1) * sizeof *explorer->moments);
    struct moment *moment = &explorer->moments[explorer->moments_length++];
    *moment = (struct moment){.sent = level->sent, .stores = level->stores, .contents = contents_of(&level->moment)};
    for (uint32_t z = 0; z < g.zones; z++) {
        moment->zone[z].length = level->moment.oracle.zone[z].length;
        moment->zone[z].flushed = level->moment.oracle.zone[z].flushed;
        moment->zone[z].reset_begun = level->moment.oracle.zone[z].reset_begun;
        moment->zone[z].shown = grown(NULL, 2 * pointers * sizeof *moment->zone[z].shown);
        memset(moment->zone[z].shown, 0, 2 * pointers * sizeof *moment->zone[z].shown);
        moment->zone[z].misfit = moment->zone[z].shown + pointers;
    }
    explorer->contents = saturated_sum(explorer->contents, moment->contents);
}

uint32_t prepare_explorer(struct explorer *explorer, const struct options *options) {
    struct geometry g = options->geometry;
    *explorer = (struct explorer){
        .options = options,
        .formatted = new_world(g),
        .first = {.base = new_world(g), .moment = new_world(g), .last = new_world(g)},
        .later = {.base = new_world(g), .moment = new_world(g), .last = new_world(g)},
        .tried = {new_world(g), new_world(g)},
        .returned = new_world(g),
        .mounted = new_world(g),
        .again = new_world(g),
        .answer = grown(NULL, zone_addresses(g) * g.sector_bytes),
    };
    uint32_t answer = format_world(&explorer->formatted);
    if (answer != ZRV_FINISHED)
        return answer;
    copy_world(&explorer->first.base, &explorer->formatted);
    send_all(explorer, &explorer->first, &options->calls, plan_moment);
    return answer;
}

/* Half of the budget is for the first loss of power, what that leaves for the second. A drive left out needs no first loss. */
bool share_budget(struct explorer *explorer) {
    explorer->draw = explorer->options->seed;
    explorer->pool = explorer->options->budget;
    if (explorer->options->breakage == BREAK_LOST_AGAIN) {
        explorer->returns_left = explorer->options->geometry.drives;
        return true;
    }
    uint64_t drives = (uint64_t)explorer->options->geometry.drives + 1, half = explorer->options->budget / 2 / drives;
    uint64_t limit = explorer->contents <= half ? UINT64_MAX : half / explorer->moments_length;
    for (size_t i = 0; i < explorer->moments_length; i++) {
        struct moment *moment = &explorer->moments[i];
        moment->limit = limit;
        explorer->returns_left += drives * (moment->contents < limit ? moment->contents : limit);
    }
    explorer->pool -= explorer->returns_left;
    explorer->first_share = limit > 0 ? explorer->pool / explorer->returns_left : 0;
    return limit > 0;
}

void explore(struct explorer *explorer) {
    copy_world(&explorer->first.base, &explorer->formatted);
    send_all(explorer, &explorer->first, &explorer->options->calls, explorer->options->breakage == BREAK_LOST_AGAIN ? leave_out : first_loss);
    if (explorer->shows_progress)
        fputs("\r                                        \r", stderr);
}

void free_explorer(struct explorer *explorer) {
    struct world *worlds[] = {&explorer->formatted, &explorer->first.base, &explorer->first.moment, &explorer->first.last, &explorer->later.base,
                              &explorer->later.moment, &explorer->later.last, &explorer->returned, &explorer->mounted, &explorer->again,
                              &explorer->tried[0], &explorer->tried[1]};
    for (size_t i = 0; i < sizeof worlds / sizeof *worlds; i++)
        free_world(worlds[i]);
    for (size_t i = 0; i < explorer->stop_room; i++)
        free_world(&explorer->stop[i].world);
    for (size_t i = 0; i < explorer->moments_length; i++) {
        for (uint32_t z = 0; z < explorer->options->geometry.zones; z++)
            free(explorer->moments[i].zone[z].shown);
    }
    empty_pool(&explorer->old_zones, NULL);
    free(explorer->first.list.store);
    free(explorer->later.list.store);
    free(explorer->mount.store);
    free(explorer->stop);
    free(explorer->moments);
    free(explorer->answer);
    free(explorer->story);
}
