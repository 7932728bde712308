/* The contents of the caches, counted and gone through. */
#include "explore/caches.h"

#include <string.h>

#include "bytes.h"

static uint64_t product(uint64_t a, uint64_t b) { return a > UINT64_MAX / b ? UINT64_MAX : a * b; }

/* How many pointers a cut may leave of a cell: as it is, and as it was. */
static uint64_t choices_of(const struct caches *caches, size_t cell) {
    uint64_t choices = (uint64_t)caches->written[cell] - caches->durable[cell] + 1;
    for (const struct old_zone *old = caches->old.cell[cell]; old != NULL; old = old->older)
        choices += (uint64_t)old->written - old->durable + 1;
    return choices;
}

struct caches new_caches(const struct shelf *shelf, const struct old_zones *old, uint64_t limit, uint32_t seed) {
    struct caches caches;
    caches.cells = shelf_cells(shelf->geometry);
    caches.cells_of_drive = caches.cells / shelf->geometry.drives;
    caches.old = *old;
    caches.contents = 1;
    for (size_t cell = 0; cell < caches.cells; cell++) {
        caches.durable[cell] = pointer_in(shelf->durable, cell);
        caches.written[cell] = pointer_in(shelf->written, cell);
        caches.choices[cell] = choices_of(&caches, cell);
        caches.contents = product(caches.contents, caches.choices[cell]);
    }
    caches.limit = limit;
    caches.taken = 0;
    caches.draw = seed;
    return caches;
}

bool caches_are_drawn(const struct caches *caches) { return caches->contents > caches->limit; }

/* The choice of a cell that has so many before it: first of what it holds, then of what it held, newest first. */
static void choose(struct caches *caches, size_t cell, uint64_t choice) {
    uint64_t own = (uint64_t)caches->written[cell] - caches->durable[cell] + 1;
    struct old_zone *old = NULL;
    uint32_t durable = caches->durable[cell];
    while (choice >= own) {
        choice -= own;
        old = old == NULL ? caches->old.cell[cell] : old->older;
        durable = old->durable;
        own = (uint64_t)old->written - durable + 1;
    }
    caches->back.cell[cell] = old;
    caches->kept[cell] = durable + (uint32_t)choice;
}

static void keep_durable(struct caches *caches) {
    memset(&caches->back, 0, sizeof caches->back);
    memcpy(caches->kept, caches->durable, caches->cells * sizeof *caches->kept);
}

/* The content after this one, cell by cell as the digits of a number. */
static void count_on(struct caches *caches) {
    for (size_t cell = 0; cell < caches->cells; cell++) {
        struct old_zone *back = caches->back.cell[cell], *next = back == NULL ? caches->old.cell[cell] : back->older;
        if (caches->kept[cell] < (back == NULL ? caches->written[cell] : back->written)) {
            caches->kept[cell]++;
            return;
        }
        caches->back.cell[cell] = next;
        caches->kept[cell] = next == NULL ? caches->durable[cell] : next->durable;
        if (next != NULL)
            return;
    }
}

static void keep_drive(struct caches *caches, size_t drive) {
    keep_durable(caches);
    size_t first = drive * caches->cells_of_drive;
    memcpy(caches->kept + first, caches->written + first, caches->cells_of_drive * sizeof *caches->kept);
}

/* Everything, and with it each zone as it was before its last reset. */
static void bring_all_back(struct caches *caches) {
    caches->back = caches->old;
    for (size_t cell = 0; cell < caches->cells; cell++)
        caches->kept[cell] = caches->back.cell[cell] == NULL ? caches->written[cell] : caches->back.cell[cell]->written;
}

static void draw_content(struct caches *caches) {
    for (size_t cell = 0; cell < caches->cells; cell++) {
        caches->draw = next_draw(caches->draw);
        choose(caches, cell, (caches->draw >> 8) % caches->choices[cell]);
    }
}

static bool remembers_zones(const struct caches *caches) {
    for (size_t cell = 0; cell < caches->cells; cell++)
        if (caches->old.cell[cell] != NULL)
            return true;
    return false;
}

bool next_caches(struct caches *caches) {
    bool drawn = caches_are_drawn(caches);
    if (caches->taken == (drawn ? caches->limit : caches->contents))
        return false;
    uint64_t turn = caches->taken++, drives = caches->cells / caches->cells_of_drive;
    uint64_t chosen = 2 + drives + (drawn && remembers_zones(caches));
    bool only_draws = drawn && caches->limit < 2 * chosen;
    if (turn == 0)
        keep_durable(caches);
    if (only_draws || (drawn && turn >= chosen))
        draw_content(caches);
    else if (turn > 0 && !drawn)
        count_on(caches);
    else if (turn == 1)
        memcpy(caches->kept, caches->written, caches->cells * sizeof *caches->kept);
    else if (turn > 1 && turn < 2 + drives)
        keep_drive(caches, turn - 2);
    else if (turn > 1)
        bring_all_back(caches);
    return true;
}

bool keeps_only_durable(const struct caches *caches, uint32_t drive) {
    size_t first = drive * caches->cells_of_drive;
    for (size_t cell = first; cell < first + caches->cells_of_drive; cell++)
        if (caches->back.cell[cell] != NULL || caches->kept[cell] != caches->durable[cell])
            return false;
    return true;
}
