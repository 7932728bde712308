/* Replays a conformance script of segments with grouped stripes through the C edge: reads the script from standard input and prints one answer line for
 * each command, `LETTER CODE ADLER`. */
#include <inttypes.h>
#include <stdio.h>
#include <stdlib.h>
#include <string.h>

#include "adler.h"
#include "bytes.h"
#include "grouped_record.h"
#include "script.h"
#include "shelf.h"
#include "zrv.h"

enum { RECORD = ZRV_GROUPED_RECORD_BYTES, PREFILL = 0xEE };

struct numbers {
    uint32_t drives, block_bytes, group, blocks;
};

struct segment {
    struct numbers made, handed; /* by which the memory was made; which are handed to reads */
    uint64_t shortage[4];        /* of the next command's blocks, metadata, work and answer, in bytes */
    uint8_t *blocks, *metadata, *work, *answer;
};

static void *memory(size_t length) {
    void *bytes = calloc(length + 1, 1);
    if (bytes == NULL)
        exit(2);
    return bytes;
}

static size_t cells(const struct segment *s) { return (size_t)s->made.drives * s->made.blocks; }

static size_t short_of(uint64_t length, uint64_t shortage) { return length < shortage ? 0 : length - shortage; }

static void free_segment(struct segment *s) {
    free(s->blocks);
    free(s->metadata);
    free(s->work);
    free(s->answer);
}

static void new_segment(struct segment *s, struct numbers numbers) {
    free_segment(s);
    *s = (struct segment){.made = numbers, .handed = numbers};
    s->blocks = memory(cells(s) * numbers.block_bytes);
    s->metadata = memory(cells(s) * RECORD);
    s->work = memory(cells(s) * 2 * 4);
    s->answer = memory(numbers.block_bytes);
}

static uint8_t *block_at(const struct segment *s, size_t cell) { return s->blocks + cell * s->made.block_bytes; }
static uint8_t *record_at(const struct segment *s, size_t cell) { return s->metadata + cell * RECORD; }

static uint32_t shown(const struct segment *s, size_t cell) {
    return adler(adler(1, block_at(s, cell), s->made.block_bytes), record_at(s, cell), RECORD);
}

static uint32_t set_record(const struct segment *s, const uint64_t *number) {
    size_t cell = number[0] * s->made.blocks + number[1];
    put64(record_at(s, cell), number[2]);
    put64(record_at(s, cell) + GROUPED_TIMESTAMP, number[3]);
    put32(record_at(s, cell) + GROUPED_STRIPE_ID, (uint32_t)number[4]);
    return shown(s, cell);
}

static uint32_t set_block(const struct segment *s, const uint64_t *number) {
    size_t cell = number[0] * s->made.blocks + number[1];
    fill_from_stream(block_at(s, cell), s->made.block_bytes, number[2]);
    return shown(s, cell);
}

/* The first block with a stripe ID in a group of a drive; the count of cells if there is none. */
static size_t find(const struct segment *s, uint32_t drive, uint64_t group, uint64_t id) {
    size_t first = (size_t)drive * s->made.blocks + group * s->made.group;
    for (size_t cell = first; cell < first + s->made.group; cell++)
        if (get32(record_at(s, cell) + GROUPED_STRIPE_ID) == id)
            return cell;
    return cells(s);
}

static void add(uint8_t *to, const uint8_t *from, size_t length) {
    for (size_t i = 0; i < length; i++)
        to[i] ^= from[i];
}

static uint32_t set_parity(const struct segment *s, uint64_t group, uint64_t id) {
    for (uint32_t d = 0; d < s->made.drives; d++)
        if (find(s, d, group, id) == cells(s))
            return 1;
    uint32_t parity = (uint32_t)((group * s->made.group + id) % s->made.drives);
    size_t to = find(s, parity, group, id);
    memset(block_at(s, to), 0, s->made.block_bytes);
    memset(record_at(s, to), 0, GROUPED_STRIPE_ID);
    for (uint32_t d = 0; d < s->made.drives; d++) {
        if (d != parity) {
            add(block_at(s, to), block_at(s, find(s, d, group, id)), s->made.block_bytes);
            add(record_at(s, to), record_at(s, find(s, d, group, id)), GROUPED_STRIPE_ID);
        }
    }
    return shown(s, to);
}

static uint32_t read_segment(struct segment *s, uint32_t named, uint64_t address, uint32_t *sum) {
    const struct numbers *n = &s->handed;
    size_t answer_bytes = short_of(s->made.block_bytes, s->shortage[3]);
    memset(s->answer, PREFILL, answer_bytes);
    uint64_t returned = zrv_grouped_read(n->drives, n->block_bytes, n->group, n->blocks, named, address,
                                         s->blocks, short_of((uint64_t)cells(s) * s->made.block_bytes, s->shortage[0]),
                                         s->metadata, short_of((uint64_t)cells(s) * RECORD, s->shortage[1]),
                                         s->work, short_of((uint64_t)cells(s) * 2 * 4, s->shortage[2]), s->answer, answer_bytes);
    *sum = adler(1, s->answer, answer_bytes);
    return ZRV_ANSWER(returned);
}

static struct numbers numbers_of(const uint64_t *number) {
    return (struct numbers){(uint32_t)number[0], (uint32_t)number[1], (uint32_t)number[2], (uint32_t)number[3]};
}

/* Carries a command out: its code, and what its line shows. */
static uint32_t perform(struct segment *s, const struct command *command, uint32_t *sum) {
    const uint64_t *number = command->number;
    switch (command->letter) {
    case 'g': new_segment(s, numbers_of(number)); break;
    case 'h': s->handed = numbers_of(number); break;
    case 'm': *sum = set_record(s, number); break;
    case 'q': *sum = set_block(s, number); break;
    case 'y': *sum = set_parity(s, number[0], number[1]); break;
    case 'r': return read_segment(s, (uint32_t)number[0], number[1], sum);
    }
    return 0;
}

int main(void) {
    struct segment segment = {0};
    struct command command;
    new_segment(&segment, (struct numbers){0});
    while (next_command(stdin, &command)) {
        uint32_t sum = 1, code = perform(&segment, &command, &sum);
        printf("%c %" PRIu32 " %" PRIu32 "\n", command.letter, code, sum);
        memset(segment.shortage, 0, sizeof segment.shortage);
        if (command.letter == 'n')
            for (int i = 0; i < 4; i++)
                segment.shortage[i] = command.number[i] * (i == 2 ? 4 : 1);
    }
    free_segment(&segment);
    return 0;
}
