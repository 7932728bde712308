/* The host's driver: the volume's calls over a shelf of drives, with the host's duties kept. Every call gets the format's geometry and the state that the last
 * finished call left; every drive that is there and not given up is named, and a drive that a storing call went without is given up; after a power cut only
 * looks and mounts are made until a mount is finished; after an unfinished call only a power cut. What a call stored lasts once save_drives has saved it. */
#ifndef DRIVER_H
#define DRIVER_H

#include "drives.h"
#include "zone_pointer.h"

struct driver {
    struct drives drives;
    uint8_t shown[ZRV_STATE_BYTES]; /* what the last finished look or storing call shows */
    struct log_place bad;           /* where the last look or mount found a log bad, if it answered so */
};

/* Answers of the driver's own, beside the volume's and ANSWER_ZONE_FULL: a duty stands against the call; a drive is not the one that this shelf was left with;
 * memory ran out, or what the call left in the drives' caches cannot be told. After the last the shelf in memory is not to be saved or used. */
enum { ANSWER_NOT_NOW = 256, ANSWER_STRANGE_DRIVE = 257, ANSWER_FAILED = 259 };

/* After either answer close_drives is due. */
bool open_driver(struct driver *driver, const struct opening *opening, struct message *message);

/* Makes a call: the kind, its numbers and its buffer are the caller's, the rest is filled in. The message is for the driver's own answers. */
uint32_t driver_call(struct driver *driver, struct call call, struct message *message);

/* Where a write to a zone goes: its pointer's address, by the state held. Refused as the write would be, with 8 where there is no such zone, and where it is
 * full. */
uint32_t find_address_to_write(const struct driver *driver, uint32_t zone, uint64_t *address, struct message *message);

/* A drive's physical zone and the sectors that it keeps in a power cut. */
struct kept_zone {
    uint32_t drive, zone, sectors;
};

/* What the write caches keep of a power cut: nothing, everything, as much as a seed says; and beside that the zones given. Drives whose zone resets last at once,
 * and drives that cache them: of the resets in the caches those of the zones given are undone, if any, or all, or those that the seed says. */
enum cache_keeps { KEEP_NONE, KEEP_ALL, KEEP_RANDOM };
enum cache_undoes { UNDO_GIVEN, UNDO_ALL, UNDO_RANDOM };

struct power_loss {
    enum cache_keeps keeps;
    uint64_t seed;
    const struct kept_zone *given;
    size_t given_count;
    enum cache_undoes undoes;
    const struct kept_zone *undone; /* drives and zones alone */
    size_t undone_count;
};

/* The first half of a cut: zones are as they were before a reset that is only in their drive's cache. How many; false, with a message, where a given zone has none. */
bool undo_resets(struct driver *driver, const struct power_loss *loss, size_t *undone, struct message *message);

/* The second half. False, with a message and nothing changed, where a given zone cannot keep what is given. */
bool lose_power(struct driver *driver, const struct power_loss *loss, struct message *message);

/* Why a mount comes next: power was cut, or the host's record is of an older form. */
const char *why_mount_is_due(const struct host_record *record);

/* The state by which the next call goes, and which knows owners and shares; NULL where a mount or a power cut comes first. */
const uint8_t *state_in_force(const struct host_record *record);

/* Whether an unfinished call was the last, with a message. */
bool power_loss_is_due(const struct host_record *record, struct message *message);

/* Whether a format has finished: every zone has a generation then. */
bool was_formatted(const struct host_record *record);

/* The driver's answer where a drive is strange, else ZRV_FINISHED. */
uint32_t strange_drive(const struct driver *driver, struct message *message);

#endif
