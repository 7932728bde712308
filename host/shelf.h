/* The memory that a host lends: the sectors of all drives and the two tables of write pointers, as bytes. And the stream of a seed, from which the
 * programs here draw the data that they write. */
#ifndef SHELF_H
#define SHELF_H

#include "placement.h"

struct shelf {
    struct geometry geometry;
    struct range sectors, written, durable;
    struct range pages; /* that hold the sectors, where these are mapped (mapped_sectors.h) */
    struct range old_written, old_durable; /* the drives' own: of a zone whose reset they have only in their cache the pointers before it; written 0: of none */
};

/* All zero; without bytes where there is no memory. */
struct range new_range(size_t length);

/* All zero. Where there is no memory for all of it, has_memory is false, and nothing is to be freed. */
struct shelf new_pointers(struct geometry geometry); /* a shelf without sectors */
struct shelf new_shelf(struct geometry geometry);
struct shelf copy_shelf(const struct shelf *shelf); /* below the written pointers; zero past them */
bool has_memory(const struct shelf *shelf);
void free_shelf(struct shelf *shelf);

size_t shelf_bytes(struct geometry geometry); /* of the sectors of all drives */

/* The power is lost (document 01: a cut): of what is not durable each zone keeps as much as the stream of the seed says. */
void lose_power_at_random(struct shelf *shelf, uint64_t seed);

/* The same in one cell, a drive's physical zone: its first `kept` sectors stay, and are durable. */
void keep_sectors(struct shelf *shelf, size_t cell, uint32_t kept);

size_t shelf_cells(struct geometry geometry); /* drives times physical zones */

/* The sum of a table's numbers. */
uint64_t table_sum(struct range table);

/* Before the first number of a seed's stream; the number after one. */
uint32_t first_draw(uint64_t seed);
uint32_t next_draw(uint32_t draw);

/* Yes or no by a number of the stream: by all its bits that are used, since by one of them neighbouring seeds would often say the same. */
bool says_yes(uint32_t draw);

void fill_from_stream(uint8_t *bytes, size_t length, uint64_t seed);

#endif
