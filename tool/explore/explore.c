/* `zrv explore`: options, the search, the report, the picture. */
#define _POSIX_C_SOURCE 200809L

#include "explore/explore.h"

#include <time.h>
#include <unistd.h>

#include "refusals.h"
#include "explore/picture.h"
#include "explore/report.h"

enum { ALL_FITTED = 0, ONE_DID_NOT = 1, BAD_CALL = 2, NO_FILE = 3 };

static double seconds_now(void) {
    struct timespec now;
    clock_gettime(CLOCK_MONOTONIC, &now);
    return (double)now.tv_sec + (double)now.tv_nsec / 1e9;
}

static int cannot_write(const char *path) {
    fprintf(stderr, "zrv explore: cannot write '%s'\n", path);
    return NO_FILE;
}

/* The picture's file is opened before the search, which may take its time. */
static int explore_and_report(struct explorer *explorer) {
    const struct options *options = explorer->options;
    double start = seconds_now();
    if (!share_budget(explorer)) {
        fprintf(stderr, "zrv explore: the budget is too small: %zu moments with %u drives need at least %zu\n", explorer->moments_length,
                options->geometry.drives, 2 * explorer->moments_length * (options->geometry.drives + 1));
        return BAD_CALL;
    }
    FILE *picture = options->picture == NULL ? NULL : fopen(options->picture, "w");
    if (options->picture != NULL && picture == NULL)
        return cannot_write(options->picture);
    if (!options->quiet)
        report_question(explorer);
    explorer->shows_progress = !options->quiet && isatty(STDERR_FILENO);
    explore(explorer);
    report_outcome(explorer, seconds_now() - start);
    if (picture != NULL && !draw_picture(explorer, picture))
        return cannot_write(options->picture);
    return explorer->counts.misfits == 0 ? ALL_FITTED : ONE_DID_NOT;
}

int explore_main(int argc, char **argv) {
    struct options options;
    struct explorer explorer;
    enum parsed parsed = parse_explore_options(argc, argv, &options);
    if (parsed != PARSED) {
        free_explore_options(&options);
        return parsed == HELPED ? ALL_FITTED : BAD_CALL;
    }
    uint32_t answer = prepare_explorer(&explorer, &options);
    int status = BAD_CALL;
    if (answer == ZRV_FINISHED)
        status = explore_and_report(&explorer);
    else
        fprintf(stderr, "zrv explore: the format is refused with %u (%s)\n", answer, refusal_word(answer));
    free_explorer(&explorer);
    free_explore_options(&options);
    return status;
}
