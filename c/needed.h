/* Memory without which a program of this folder cannot go on. */
#ifndef NEEDED_H
#define NEEDED_H

#include <stdio.h>
#include <stdlib.h>

#include "shelf.h"

static inline void need(bool there, size_t bytes) {
    if (there)
        return;
    fprintf(stderr, "no memory for %zu bytes\n", bytes);
    exit(2);
}

static inline struct range needed_range(size_t length) {
    struct range range = new_range(length);
    need(range.bytes != NULL, length);
    return range;
}

static inline struct shelf needed_shelf(struct geometry geometry) {
    struct shelf shelf = new_shelf(geometry);
    need(has_memory(&shelf), shelf_bytes(geometry));
    return shelf;
}

#endif
