/* A read of a segment with grouped stripes, 8 x 65,536 blocks: the archive's time, and its speed as a share of plain C's. What is timed is held against
 * plain C's answer. */
#define _POSIX_C_SOURCE 199309L /* clock_gettime */
#include "bench_grouped.h"

#include <stdio.h>
#include <stdlib.h>
#include <string.h>
#include <time.h>

#include "bytes.h"
#include "grouped_record.h"
#include "plain_grouped.h"
#include "zrv.h"

enum { DRIVES = ZRV_MOST_DRIVES, BLOCK_BYTES = ZRV_LEAST_SECTOR_BYTES, GROUP = 256, BLOCKS = 65536, CELLS = DRIVES * BLOCKS };
enum { RECORD = ZRV_GROUPED_RECORD_BYTES, ADDRESSES = 100000, TURNS = 3 };

struct grouped {
    uint8_t *blocks, *metadata, *work, answer[BLOCK_BYTES], plain_answer[BLOCK_BYTES];
};

typedef uint64_t read_function(uint32_t, uint32_t, uint32_t, uint32_t, uint32_t, uint64_t, const uint8_t *, size_t, const uint8_t *, size_t, uint8_t *, size_t,
                               uint8_t *, size_t);

static uint64_t next_number(uint64_t *state) {
    *state ^= *state << 13;
    *state ^= *state >> 7;
    return *state ^= *state << 17;
}

/* Every group of a drive gets the stripe IDs in an order by chance; every block an address by chance and a timestamp of its own. */
static void fill(struct grouped *g) {
    uint64_t chance = 88172645463325252u;
    for (size_t cell = 0; cell < CELLS; cell++) {
        uint8_t *record = g->metadata + cell * RECORD;
        put64(record, next_number(&chance) % ADDRESSES);
        put64(record + GROUPED_TIMESTAMP, next_number(&chance));
        put32(record + GROUPED_STRIPE_ID, cell % GROUP);
        put64(g->blocks + cell * BLOCK_BYTES, cell);
    }
    for (size_t cell = CELLS; cell-- > 0;) {
        size_t other = cell - cell % GROUP + next_number(&chance) % (cell % GROUP + 1);
        uint32_t id = get32(g->metadata + cell * RECORD + GROUPED_STRIPE_ID);
        put32(g->metadata + cell * RECORD + GROUPED_STRIPE_ID, get32(g->metadata + other * RECORD + GROUPED_STRIPE_ID));
        put32(g->metadata + other * RECORD + GROUPED_STRIPE_ID, id);
    }
}

static double seconds(void) {
    struct timespec now;
    clock_gettime(CLOCK_PROCESS_CPUTIME_ID, &now);
    return (double)now.tv_sec + (double)now.tv_nsec * 1e-9;
}

/* The least time of some turns. */
static double time_of(struct grouped *g, read_function *read, uint32_t named, uint8_t *answer) {
    double least = 0;
    for (int turn = 0; turn < TURNS; turn++) {
        double start = seconds();
        uint32_t code = read(DRIVES, BLOCK_BYTES, GROUP, BLOCKS, named, 5, g->blocks, (size_t)CELLS * BLOCK_BYTES, g->metadata, (size_t)CELLS * RECORD, g->work,
                             ZRV_GROUPED_WORK_BYTES(DRIVES, BLOCKS), answer, BLOCK_BYTES);
        double taken = seconds() - start;
        if (code != ZRV_FINISHED) {
            printf("bench: a grouped read answered %u\n", code);
            exit(1);
        }
        least = turn == 0 || taken < least ? taken : least;
    }
    return least;
}

static void row(struct grouped *g, const char *what, uint32_t named) {
    double archive = time_of(g, zrv_grouped_read, named, g->answer);
    double plain = time_of(g, plain_grouped_read, named, g->plain_answer);
    if (memcmp(g->answer, g->plain_answer, BLOCK_BYTES) != 0) {
        printf("bench: a grouped read is not plain C's\n");
        exit(1);
    }
    printf("%16s %12.2f %12.2f\n", what, archive, plain / archive);
}

void grouped_rows(void) {
    struct grouped g = {calloc(CELLS, BLOCK_BYTES), calloc(CELLS, RECORD), calloc(1, ZRV_GROUPED_WORK_BYTES(DRIVES, BLOCKS)), {0}, {0}};
    if (g.blocks == NULL || g.metadata == NULL || g.work == NULL)
        exit(2);
    fill(&g);
    printf("\na read of a segment with grouped stripes, 8 x 65,536 blocks (G 256): seconds, and speed as a share of plain C's\n%16s %12s %12s\n", "", "seconds", "speed");
    row(&g, "all drives", 0xff);
    row(&g, "a drive missing", 0xfe);
    free(g.blocks);
    free(g.metadata);
    free(g.work);
}
