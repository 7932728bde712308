/* Sectors that are read from their files when they are first looked at: the files are laid over the shelf's memory, and change in memory alone. So a command
 * costs what it touches, not what the shelf holds. */
#ifndef MAPPED_SECTORS_H
#define MAPPED_SECTORS_H

#include "shelf.h"

/* Memory for the sectors of a shelf that has none yet; files whose sectors begin at this offset can be laid over it. False where there is none. */
bool map_sectors(struct shelf *shelf, uint64_t offset);
void unmap_sectors(struct shelf *shelf);

/* Brings bytes of a file to their place among a shelf's sectors: whole pages are laid over it, where memory and file have the same pages; the rest is read.
 * From then on a page that cannot be read ends the program, in words and with exit code 3. */
bool load_bytes(const struct shelf *shelf, uint8_t *to, size_t length, int descriptor, uint64_t offset);

#endif
