/* What looks and mounts may show: document 01's book, written from its text and from nothing of the volume. It is fed each call's kind, zone, sectors
 * and answer, and what finished mounts show. */
#ifndef EXPLORE_ORACLE_H
#define EXPLORE_ORACLE_H

#include <stdbool.h>

#include "call.h"

/* Of a zone: its content is the sound, flushed the mark, reset_begun the flag. */
struct oracle_zone {
    const uint8_t **content; /* where each sector's bytes are; they outlive the oracle */
    uint32_t length, flushed;
    bool reset_begun;
};

struct oracle {
    uint32_t zones, sector_bytes;
    struct oracle_zone zone[ZRV_STATE_RECORDS];
};

enum fit { FITS, TOO_SHORT, TOO_LONG, OTHER_BYTES };

/* The oracle after a finished format. */
struct oracle new_oracle(struct geometry geometry);
void free_oracle(struct oracle *oracle);
void copy_oracle(struct oracle *to, const struct oracle *from);

/* A call that was not refused. */
void oracle_write(struct oracle *oracle, uint32_t zone, const uint8_t *data, uint32_t sectors);
void oracle_flush(struct oracle *oracle);
void oracle_reset(struct oracle *oracle, uint32_t zone, bool finished);
/* A finished mount that showed a zone at a pointer that fits. */
void oracle_mount(struct oracle *oracle, uint32_t zone, uint32_t pointer);

/* Does a zone shown at a pointer fit, as far as the pointer goes? And its bytes: the first sector that differs, or the pointer if none does. */
enum fit pointer_fits(const struct oracle *oracle, uint32_t zone, uint32_t pointer);
uint32_t first_difference(const struct oracle *oracle, uint32_t zone, uint32_t pointer, const uint8_t *bytes);

#endif
