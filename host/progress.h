/* How far long work has come, on a terminal: one line on standard error, from half a second on, gone when the work is done. Nothing in a pipe. */
#ifndef PROGRESS_H
#define PROGRESS_H

#include <stdbool.h>
#include <stdint.h>
#include <time.h>

struct progress {
    const char *what;
    uint64_t done, total;
    bool terminal, shown;
    uint64_t percent; /* as shown last */
    struct timespec start;
};

struct progress start_progress(const char *what, uint64_t total);
void step_progress(struct progress *progress, uint64_t more);
void end_progress(struct progress *progress);

#endif
