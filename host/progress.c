/* Progress on a terminal. */
#define _POSIX_C_SOURCE 200809L
#include "progress.h"

#include <stdio.h>
#include <unistd.h>

enum { QUIET_MILLISECONDS = 500 };

struct progress start_progress(const char *what, uint64_t total) {
    struct progress progress = {.what = what, .total = total, .terminal = isatty(STDERR_FILENO) == 1};
    clock_gettime(CLOCK_MONOTONIC, &progress.start);
    return progress;
}

static bool is_long(const struct progress *progress) {
    struct timespec now;
    clock_gettime(CLOCK_MONOTONIC, &now);
    long long milliseconds = (long long)(now.tv_sec - progress->start.tv_sec) * 1000 + (now.tv_nsec - progress->start.tv_nsec) / 1000000;
    return milliseconds >= QUIET_MILLISECONDS;
}

void step_progress(struct progress *progress, uint64_t more) {
    progress->done += more;
    if (!progress->terminal || progress->total == 0)
        return;
    uint64_t percent = (uint64_t)((double)progress->done / (double)progress->total * 100);
    if (progress->shown ? percent == progress->percent : !is_long(progress))
        return;
    progress->shown = true;
    progress->percent = percent;
    fprintf(stderr, "\r%s: %llu %%", progress->what, (unsigned long long)percent);
    fflush(stderr);
}

void end_progress(struct progress *progress) {
    if (progress->shown)
        fprintf(stderr, "\r\033[K");
}
