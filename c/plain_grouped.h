/* The read of a segment with grouped stripes in plain C: zrv_grouped_read's arguments, answers and order of the work, for the bench and the tests. */
#ifndef PLAIN_GROUPED_H
#define PLAIN_GROUPED_H

#include <stddef.h>
#include <stdint.h>

uint64_t plain_grouped_read(uint32_t drives, uint32_t block_bytes, uint32_t group, uint32_t blocks_per_drive, uint32_t named, uint64_t address,
                            const uint8_t *blocks, size_t blocks_bytes, const uint8_t *metadata, size_t metadata_bytes,
                            uint8_t *work, size_t work_bytes, uint8_t *answer, size_t answer_bytes);

#endif
