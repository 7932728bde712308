/* zrv.h: a volume of zones over three to eight zoned drives, with one parity.
 *
 * The functions below are those of the archive lib/libzrv.a. They allocate nothing, keep nothing between
 * calls and may be called from any thread, as long as no two calls at once are handed memory that one of them changes.
 *
 * Every function takes the geometry first:
 *   drives        D, 3 to 8
 *   sector_bytes  B, 64, 128 and so on by doubling to 4096
 *   unit          U, the sectors of a stripe unit, 1 to 16
 *   zones         L, the logical zones, 1 to 16, with 32 + 8 * L at most B
 *   zone_sectors  C, the sectors of a physical zone: a multiple of U, at most 65536, at least the larger of L * (1 + U) + 2 * U + 1 and L + 6
 * then `named`, the drives present: drive d by bit d; bits at or above D name no drive; then its own numbers; then, if it stores, `count`, the count of
 * stores after which it stops (ZRV_ALL_STORES stops none); then byte ranges, each a pointer and a length:
 *   sectors   D * Z * C * B bytes, Z = L + 3: drive by drive, zone by zone
 *   written   D * Z little-endian 32-bit numbers, 4 bytes each: the sectors written in each drive and zone
 *   durable   the same, of those that a power cut keeps
 *   state     ZRV_STATE_BYTES bytes: what the host keeps between calls (below)
 *
 * Each returns its answer in the low 32 bits, ZRV_ANSWER: 0 (finished), 1 to 19 (refused: of those that apply the first in the order 1 to 5, then 6, 16 and 17
 * together, then 7 to 13, 18, 19, 14, 15) or 255 (unfinished: stores were left when the count ran out). The high 32 bits are 0 where nothing is said to stand
 * there: a look and a mount put the place of a bad log there, a report its number of descriptors. On any answer but 0 every byte range keeps what it held, but for
 * the stores that an unfinished call has made in sectors, written and durable.
 *
 * The state: byte 0 the lost drive or 255, bytes 1 to 7 zero; then 16 records of 16 bytes, one a zone: the generation (8 bytes), the condition (1 byte:
 * 0 empty, 1 open, 2 sealed, 3 worn), the owner (1 byte: 0 none, 1 host 0, 2 host 1), two zeros, the zone's pointer (4 bytes); then for each of 8 drives what is
 * left of host 0's share of its parity log and of host 1's, in sectors (4 bytes each); all little-endian. An empty zone's pointer field is 0. The records past
 * zone L - 1 and the shares past drive D - 1 are all zero. A state that breaks this form or document 01's bounds is refusal 1, one of another length 2.
 *
 * Two hosts share the drives: each write names its host, 0 or 1. A zone's owner is the host that last wrote it, none since the last format, mount or reset of it. A
 * zone counts while it is open with its pointer below its end: host 0 may hold 14 such zones, host 1 4, both together 14. A write that ends inside a stripe stores
 * an entry in a parity log; its sectors are taken off its host's share of that drive's log. Format, mount and zrv_compact give the shares anew, half each of what
 * the log has unused past L * (1 + U) + U.
 *
 * The host's duties: no two ranges of a call overlap; an empty range has a pointer that is not null too; every call gets the geometry of the format and
 * the state that the last finished format, mount, write, flush, reset or compact left; after a power cut a mount is finished before anything but looks and mounts;
 * every drive that is not lost is named, and a lost one never again; after an unfinished call only a power cut, then a mount.
 * A look's state is not handed on: give a look a buffer of its own. Between finished calls it serves reads, peeks and reports, which give the same by it.
 */
#ifndef ZRV_H
#define ZRV_H

#include <stddef.h>
#include <stdint.h>

#ifdef __cplusplus
extern "C" {
#endif

/* The version of this interface. A change that a caller must follow moves the first number, any other change the second. zrv_version tells that of the
 * archive which is linked, as major * 65536 + minor. */
#define ZRV_VERSION_MAJOR 2u
#define ZRV_VERSION_MINOR 0u
#define ZRV_VERSION (ZRV_VERSION_MAJOR * 65536u + ZRV_VERSION_MINOR)

uint32_t zrv_version(void);

/* Bounds of the geometry. */
#define ZRV_LEAST_DRIVES 3u
#define ZRV_MOST_DRIVES 8u
#define ZRV_LEAST_SECTOR_BYTES 64u
#define ZRV_MOST_SECTOR_BYTES 4096u
#define ZRV_MOST_UNIT 16u
#define ZRV_MOST_ZONES 16u
#define ZRV_MOST_ZONE_SECTORS 65536u

/* The hosts, and how many zones they may hold open: host 0, host 1, both together. */
#define ZRV_HOSTS 2u
#define ZRV_MOST_OPEN_HOST_0 14u
#define ZRV_MOST_OPEN_HOST_1 4u
#define ZRV_MOST_OPEN 14u

/* The state: its head with the lost drive, then a record for each zone that there may be, then a share for each drive that there may be and each host, in all
 * ZRV_STATE_BYTES bytes, 328. */
#define ZRV_STATE_LOST 0u
#define ZRV_STATE_HEAD_BYTES 8u
#define ZRV_STATE_RECORDS ZRV_MOST_ZONES
#define ZRV_STATE_RECORD_BYTES 16u
#define ZRV_STATE_SHARES (ZRV_STATE_HEAD_BYTES + ZRV_STATE_RECORDS * ZRV_STATE_RECORD_BYTES) /* where they begin */
#define ZRV_SHARE_BYTES 4u
#define ZRV_STATE_BYTES (ZRV_STATE_SHARES + ZRV_MOST_DRIVES * ZRV_HOSTS * ZRV_SHARE_BYTES)
#define ZRV_RECORD_GENERATION 0u /* 8 bytes */
#define ZRV_RECORD_CONDITION 8u  /* 1 byte */
#define ZRV_RECORD_OWNER 9u      /* 1 byte */
#define ZRV_RECORD_POINTER 12u   /* 4 bytes */

/* A zone's descriptor, which a report fills: ZRV_DESCRIPTOR_BYTES bytes, little-endian, the last seven zero. */
#define ZRV_DESCRIPTOR_BYTES 32u
#define ZRV_DESCRIPTOR_START 0u      /* 8 bytes: the address of its first sector */
#define ZRV_DESCRIPTOR_CAPACITY 8u   /* 8 bytes: its sectors */
#define ZRV_DESCRIPTOR_POINTER 16u   /* 8 bytes: its pointer, in sectors from its start */
#define ZRV_DESCRIPTOR_CONDITION 24u /* 1 byte */
#define ZRV_REPORTED_EMPTY 0u
#define ZRV_REPORTED_OPEN 1u         /* also where it is written to its end */
#define ZRV_REPORTED_READ_ONLY 2u    /* sealed or worn */

/* The answer in what a function returns. */
#define ZRV_ANSWER(returned) ((uint32_t)((returned)&UINT32_MAX))

/* What zrv_look and zrv_mount return with 6, 16 and 17: the sector of a log for which they are refused, its drive, its physical zone (0 to 2) and its number
 * in that zone. With every other answer these are 0. */
#define ZRV_BAD_DRIVE(returned) ((uint32_t)((returned) >> 56))
#define ZRV_BAD_ZONE(returned) ((uint32_t)((returned) >> 48 & 0xffu))
#define ZRV_BAD_SECTOR(returned) ((uint32_t)((returned) >> 32 & 0xffffu))

/* What zrv_report returns: how many descriptors it filled. */
#define ZRV_REPORT_NUMBER(returned) ((uint32_t)((returned) >> 32))

/* Sizes. */
#define ZRV_PLACE_BYTES 8u
#define ZRV_LOG_ZONES 3u
#define ZRV_TABLE_BYTES(drives, zones) ((size_t)(drives) * ((size_t)(zones) + ZRV_LOG_ZONES) * 4u)
#define ZRV_SECTORS_BYTES(drives, sector_bytes, zones, zone_sectors) \
    ((size_t)(drives) * ((size_t)(zones) + ZRV_LOG_ZONES) * (size_t)(zone_sectors) * (size_t)(sector_bytes))

/* A count of stores that stops no call; the lost drive where none is. */
#define ZRV_ALL_STORES UINT32_MAX
#define ZRV_NO_DRIVE 255u

/* Conditions of a zone, in its record. */
#define ZRV_EMPTY 0u
#define ZRV_OPEN 1u
#define ZRV_SEALED 2u
#define ZRV_WORN 3u

/* Owners of a zone, in its record. */
#define ZRV_NOBODY 0u
#define ZRV_OWNER(host) ((host) + 1u)

/* Answers. */
#define ZRV_FINISHED 0u
#define ZRV_GEOMETRY 1u  /* a bound is broken, by the geometry or by the state */
#define ZRV_LENGTH 2u    /* a byte range has not its length */
#define ZRV_POINTER 3u   /* a named drive has written > C or durable > written */
#define ZRV_TWO_LOST 4u  /* more than one drive is lost */
#define ZRV_LABEL 5u     /* look, mount: a present drive lacks a log, or its general log has no fitting first label */
#define ZRV_LOG 6u       /* look, mount: a present drive's log has a sector without the mark or with another version */
#define ZRV_STALE 7u     /* a present drive's pointer in the zone is not what the state needs */
#define ZRV_ADDRESS 8u   /* no such zone, address, host or drive; compact: the drive is not named, or lost */
#define ZRV_RUN 9u       /* no sectors, or past the zone's end */
#define ZRV_ORDER 10u    /* a write that is not at the pointer */
#define ZRV_ZONE_SEALED 11u /* a write to a sealed zone */
#define ZRV_ZONE_WORN 12u   /* a write or reset of a worn zone */
#define ZRV_UNWRITTEN 13u   /* a read or peek past the pointer */
#define ZRV_LOG_FULL 14u    /* mount, reset, compact: a log lacks room, and emptying it would not give it; write: its entry does not fit its host's share or the log */
#define ZRV_GONE 15u        /* a sector needed is not known; in a peek, not held */
#define ZRV_LOG_ENTRY 16u   /* look, mount: a present drive's log has an entry of that mark and version that is not legal */
#define ZRV_LOG_ROWS 17u    /* look, mount: a present drive's log has an entry whose rows would pass the zone's end */
#define ZRV_HOST_LIMIT 18u  /* write: its host would hold more open zones than it may */
#define ZRV_OPEN_LIMIT 19u  /* write: more zones would be open than may be */
#define ZRV_GROUP_IDS 23u   /* zrv_grouped_read: in some group a present drive lacks a stripe ID, or has it twice */
#define ZRV_GROUP_ALIKE 24u /* zrv_grouped_read: two data blocks, no fillers, with equal address and timestamp */
#define ZRV_UNFINISHED 255u

/* Format: an empty volume. array: the number that every label carries. Finished, `state` is the first state; what it held is never read.
 * Refusals 1 to 4. */
uint64_t zrv_format(uint32_t drives, uint32_t sector_bytes, uint32_t unit, uint32_t zones, uint32_t zone_sectors, uint32_t named,
                    uint64_t array, uint32_t count,
                    uint8_t *sectors, size_t sectors_bytes, uint8_t *written, size_t written_bytes,
                    uint8_t *durable, size_t durable_bytes, uint8_t *state, size_t state_bytes);

/* Look: what the present drives show. It stores nothing. Finished, `state` is what is shown; what it held is never read. It returns its answer in the low 32
 * bits and, with 6, 16 and 17, in the high 32 the place of the first bad sector of a log, drive * 2^24 + zone * 2^16 + sector, else 0. Refusals 1 to 6, 16 and
 * 17. */
uint64_t zrv_look(uint32_t drives, uint32_t sector_bytes, uint32_t unit, uint32_t zones, uint32_t zone_sectors, uint32_t named,
                  const uint8_t *sectors, size_t sectors_bytes, const uint8_t *written, size_t written_bytes,
                  const uint8_t *durable, size_t durable_bytes, uint8_t *state, size_t state_bytes);

/* Mount: brings the volume back after a power cut or the loss of a drive. Finished, `state` is what it shows; what it held is never read. It returns as
 * zrv_look does. Refusals 1 to 6, 14, 16 and 17. */
uint64_t zrv_mount(uint32_t drives, uint32_t sector_bytes, uint32_t unit, uint32_t zones, uint32_t zone_sectors, uint32_t named,
                   uint32_t count,
                   uint8_t *sectors, size_t sectors_bytes, uint8_t *written, size_t written_bytes,
                   uint8_t *durable, size_t durable_bytes, uint8_t *state, size_t state_bytes);

/* Write by a host: sectors_to_write sectors, the bytes of `data` (sectors_to_write * B of them), at an address that is its zone's pointer. Finished, `state` has
 * the zone open at its new pointer and the host its owner; where the write ends inside a stripe, its entry is off the host's share. `durable` stays as it is.
 * Refusals 1 to 4, 7 to 12, 18, 19, 14 and 15. */
uint64_t zrv_write(uint32_t drives, uint32_t sector_bytes, uint32_t unit, uint32_t zones, uint32_t zone_sectors, uint32_t named,
                   uint32_t host, uint64_t address, uint32_t sectors_to_write, uint32_t count,
                   uint8_t *sectors, size_t sectors_bytes, uint8_t *written, size_t written_bytes,
                   uint8_t *durable, size_t durable_bytes, uint8_t *state, size_t state_bytes,
                   const uint8_t *data, size_t data_bytes);

/* Flush: every present drive is flushed: what is written becomes durable. Finished, a drive that is not named is lost in `state`.
 * Refusals 1 to 4. */
uint64_t zrv_flush(uint32_t drives, uint32_t sector_bytes, uint32_t unit, uint32_t zones, uint32_t zone_sectors, uint32_t named,
                   uint32_t count,
                   const uint8_t *sectors, size_t sectors_bytes, const uint8_t *written, size_t written_bytes,
                   uint8_t *durable, size_t durable_bytes, uint8_t *state, size_t state_bytes);

/* Reset of a logical zone: finished, it is empty, or worn where its generation is now 2^64 - 1, and has no owner. Refusals 1 to 4, 7, 8, 12 and 14. */
uint64_t zrv_reset(uint32_t drives, uint32_t sector_bytes, uint32_t unit, uint32_t zones, uint32_t zone_sectors, uint32_t named,
                   uint32_t zone, uint32_t count,
                   uint8_t *sectors, size_t sectors_bytes, uint8_t *written, size_t written_bytes,
                   uint8_t *durable, size_t durable_bytes, uint8_t *state, size_t state_bytes);

/* Compact: empties the parity log of a drive, whatever room it has, and gives both hosts their shares of it anew in `state`. No write does so: a write that is refused
 * with 14 needs it, or a mount. Refusals 1 to 4, 7 (of any zone), 8, 14 and 15. */
uint64_t zrv_compact(uint32_t drives, uint32_t sector_bytes, uint32_t unit, uint32_t zones, uint32_t zone_sectors, uint32_t named,
                     uint32_t drive, uint32_t count,
                     uint8_t *sectors, size_t sectors_bytes, uint8_t *written, size_t written_bytes,
                     uint8_t *durable, size_t durable_bytes, uint8_t *state, size_t state_bytes);

/* Read: sectors_to_read sectors from an address, into `answer` (sectors_to_read * B bytes). Refusals 1 to 4, 7 to 9, 13 and 15. */
uint64_t zrv_read(uint32_t drives, uint32_t sector_bytes, uint32_t unit, uint32_t zones, uint32_t zone_sectors, uint32_t named,
                  uint64_t address, uint32_t sectors_to_read,
                  const uint8_t *sectors, size_t sectors_bytes, const uint8_t *written, size_t written_bytes,
                  const uint8_t *durable, size_t durable_bytes, const uint8_t *state, size_t state_bytes,
                  uint8_t *answer, size_t answer_bytes);

/* Peek: where the sector of an address sits in `sectors`, without copying it: its offset, little-endian, in the ZRV_PLACE_BYTES bytes of `place` (another
 * length is refusal 2). Refusals 1 to 4, 7, 8, 13 and 15. */
uint64_t zrv_peek(uint32_t drives, uint32_t sector_bytes, uint32_t unit, uint32_t zones, uint32_t zone_sectors, uint32_t named,
                  uint64_t address,
                  const uint8_t *sectors, size_t sectors_bytes, const uint8_t *written, size_t written_bytes,
                  const uint8_t *durable, size_t durable_bytes, const uint8_t *state, size_t state_bytes,
                  uint8_t *place, size_t place_bytes);

/* Report: a list of the zones as a zoned drive gives it, from the state alone: no drives are named and no tables lent. It fills the descriptors of `list` in
 * zone order, as many as there is room for but at most `zones`, and changes no other byte of it: a length that is no multiple of ZRV_DESCRIPTOR_BYTES has room
 * for the whole ones. It returns its answer in the low 32 bits and how many descriptors it filled in the high 32. Refusal 1, and 2 for the state's length. */
uint64_t zrv_report(uint32_t drives, uint32_t sector_bytes, uint32_t unit, uint32_t zones, uint32_t zone_sectors,
                    const uint8_t *state, size_t state_bytes, uint8_t *list, size_t list_bytes);

/* Segments with grouped stripes (ZapRAID's layout), read alone. The numbers: drives D, 3 to 8; block_bytes B, as a sector's; group G, the stripes of a
 * group, 1 to 256; blocks_per_drive N, whole groups, at most 65536. `named` is as above. The ranges, each of exactly its length:
 *   blocks    D * N * B bytes, drive by drive
 *   metadata  ZRV_GROUPED_RECORD_BYTES for each block, in the same order: address 8, timestamp 8, stripe ID 4, little-endian
 *   work      2 * D * N numbers of 4 bytes, scratch: what it holds before a call is not read, what it holds afterwards is left open, after a refusal too
 *   answer    B bytes
 * Finished, `answer` is the data block with that address and the greatest timestamp. One drive may be missing: its memory is never read. An address of
 * ZRV_GROUPED_FILLER marks a filler, which is never read. Refusals, in this order: 1, 2, 4, 23, 24 and 13 (no data block has the address). */
#define ZRV_GROUPED_RECORD_BYTES 20u
#define ZRV_GROUPED_FILLER UINT64_MAX
#define ZRV_GROUPED_WORK_BYTES(drives, blocks_per_drive) ((size_t)(drives) * (size_t)(blocks_per_drive) * 8u)

uint64_t zrv_grouped_read(uint32_t drives, uint32_t block_bytes, uint32_t group, uint32_t blocks_per_drive, uint32_t named, uint64_t address,
                          const uint8_t *blocks, size_t blocks_bytes, const uint8_t *metadata, size_t metadata_bytes,
                          uint8_t *work, size_t work_bytes, uint8_t *answer, size_t answer_bytes);

#ifdef __cplusplus
}
#endif

#endif
