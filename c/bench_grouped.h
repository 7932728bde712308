/* The bench's rows of segments with grouped stripes. */
#ifndef BENCH_GROUPED_H
#define BENCH_GROUPED_H

void grouped_rows(void);

#endif
