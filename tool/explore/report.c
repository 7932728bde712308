/* The report: the question in words, the counts, the verdict. */
#include "explore/report.h"

#include <string.h>

#include "refusals.h"

/* A small number in words, with a capital where it begins a sentence. */
static const char *in_words(size_t number, bool capital) {
    static const char *const words[] = {"No", "One", "Two", "Three", "Four", "Five", "Six", "Seven", "Eight"};
    static const char *const small[] = {"no", "one", "two", "three", "four", "five", "six", "seven", "eight"};
    if (number >= sizeof words / sizeof *words)
        return capital ? "Many" : "many";
    return capital ? words[number] : small[number];
}

/* A number with its thousands apart, at the end of a field. */
static void print_number(uint64_t number, const char *after) {
    char digits[32], grouped[48];
    int length = snprintf(digits, sizeof digits, "%llu", (unsigned long long)number), at = 0;
    for (int i = 0; i < length; i++) {
        if (i > 0 && (length - i) % 3 == 0)
            grouped[at++] = ',';
        grouped[at++] = digits[i];
    }
    grouped[at] = '\0';
    printf("  %14s  %s\n", grouped, after);
}

/* The question, in a sentence. */
static void report_first_line(const struct options *options) {
    const struct request_list *calls = &options->calls;
    bool writes = true;
    for (size_t i = 0; i < calls->length; i++)
        writes = writes && calls->request[i].kind == CALL_WRITE;
    printf("%s %s%s sent in succession to a volume on %s drives, and power goes. What does it show when power is back?\n\n",
           in_words(calls->length, true), writes ? "write" : "call", calls->length == 1 ? " is" : "s are", in_words(options->geometry.drives, false));
}

static void tell_refused(uint32_t answer) {
    printf(": ");
    tell_answer_of_call(stdout, answer);
    printf("\n");
}

static void report_calls(const struct request_list *list, const struct outcome *outcome) {
    for (size_t i = 0; i < list->length; i++) {
        printf("             ");
        tell_request(stdout, &list->request[i]);
        if (outcome == NULL)
            printf("\n");
        else if (outcome[i].answer != ZRV_FINISHED)
            tell_refused(outcome[i].answer);
        else if (outcome[i].emptied == 0)
            printf(": %u stores\n", outcome[i].stores);
        else
            printf(": %u stores, %u log%s emptied\n", outcome[i].stores, outcome[i].emptied, outcome[i].emptied == 1 ? "" : "s");
    }
}

/* What happens after the calls; a broken duty takes the place of some of it. */
static void report_course(const struct explorer *explorer) {
    const struct options *options = explorer->options;
    enum breakage breakage = options->breakage;
    if (breakage == BREAK_LOST_AGAIN) {
        printf("  drives     all but any one are named in the calls that follow\n");
    } else {
        printf("  power      goes at one of %zu moments: before the first call, and after 0, 1, 2 .. stores of each\n", explorer->moments_length);
        printf("  caches     each drive and zone keeps any pointer from durable to written\n");
        if (options->cached_resets)
            printf("  resets     are cached: each zone reset since its drive's last flush stays reset, or is as it could have been left just before\n");
        printf("  drives     all come back, or all but any one\n");
        printf("  then       a look%s\n", breakage == BREAK_MOUNT ? "" : ", and a mount");
    }
    if (breakage == BREAK_NOTHING || breakage == BREAK_FLUSH || breakage == BREAK_SECTOR || breakage == BREAK_RESET)
        printf("  once more  that mount is stopped after each of its stores, power goes, the caches keep anything; a look and a second mount\n");
    if (options->loses_later)
        printf("             where all drives came back the first time, all do again, or all but any one\n");
    if (options->later.length > 0) {
        printf("  calls      with power going at every store of them, the caches keeping anything; then a look and a mount\n");
        report_calls(&options->later, NULL);
    }
}

void report_question(const struct explorer *explorer) {
    const struct options *options = explorer->options;
    struct geometry g = options->geometry;
    report_first_line(options);
    printf("  geometry   sectors of %u bytes, stripe unit %u, %u sectors to a stripe; logical zones: %u, of %u sectors on each drive\n", g.sector_bytes,
           g.unit, (g.drives - 1) * g.unit, g.zones, g.zone_sectors);
    printf("  calls      format\n");
    report_calls(&options->calls, explorer->first.outcome);
    report_course(explorer);
    if (options->breakage != BREAK_NOTHING)
        printf("  BROKEN     %s\n", breakage_in_words(options->breakage));
    printf("\n");
    fflush(stdout);
}

/* Was something of the second losses drawn or left out? */
static bool is_partial(const struct counts *counts) { return counts->drawn + counts->left_out + counts->unaffordable > 0; }

static void report_counts(const struct explorer *explorer) {
    const struct counts *counts = &explorer->counts;
    bool drawn = explorer->moments[0].limit != UINT64_MAX;
    if (counts->returns > 0) {
        print_number(explorer->contents, "contents of the caches that power can leave, over all moments");
        print_number(counts->returns, drawn ? "returns of power: moments x caches x drives; the budget is too small for all, caches are drawn"
                                            : "returns of power: moments x caches x drives, all of them");
    }
    if (counts->stopped_mounts > 0)
        print_number(counts->stopped_mounts, "mounts stopped after a store that changed something (of what a lost drive's cache kept: once)");
    print_number(counts->second_returns, is_partial(counts) ? "second returns of power"
                                                                              : "second returns of power: all contents of the caches then");
    if (counts->drawn > 0)
        print_number(counts->drawn, "second losses of power for which the budget made the caches' contents draws from the seed");
    if (counts->left_out > 0)
        print_number(counts->left_out, "second losses of power left out, for want of budget");
    if (counts->unaffordable > 0)
        print_number(counts->unaffordable, "returns of power whose second losses are all left out, for want of budget");
    print_number(counts->looks, "looks");
    print_number(counts->mounts, "mounts finished");
    print_number(counts->sectors, "sectors read back and compared");
    print_number(counts->unread, "zones shown by a look whose sectors could be read back only after the mount");
    if (counts->full_mounts > 0)
        print_number(counts->full_mounts, "mounts refused with 14 (log full), as the rules allow");
}

static void report_troubles(const struct counts *counts) {
    static const char *const words[TROUBLES] = {
        [LOOK_REFUSED] = "looks refused",
        [MOUNT_REFUSED] = "mounts refused",
        [READ_REFUSED] = "reads below the pointer refused",
        [SHOWN_SHORT] = "showings that end before what was flushed",
        [SHOWN_LONG] = "showings that go past what was written",
        [SHOWN_OTHER] = "showings with other bytes than were written",
    };
    for (int i = LOOK_REFUSED; i < TROUBLES; i++)
        if (counts->trouble[i] > 0)
            print_number(counts->trouble[i], words[i]);
    for (uint32_t answer = ZRV_GEOMETRY; answer <= LAST_REFUSAL; answer++) {
        char text[64];
        snprintf(text, sizeof text, "of these refused with %u (%s)", answer, refusal_word(answer));
        if (counts->refused[answer] > 0)
            print_number(counts->refused[answer], text);
    }
    if (counts->trouble[SHOWN_SHORT] + counts->trouble[SHOWN_LONG] + counts->trouble[SHOWN_OTHER] == 0)
        printf("  nothing wrong was shown: only refusals\n");
}

void report_outcome(const struct explorer *explorer, double seconds) {
    const struct counts *counts = &explorer->counts;
    bool quiet = explorer->options->quiet;
    if (!quiet) {
        report_counts(explorer);
        printf("  %14.1f  seconds\n\n", seconds);
    }
    if (counts->misfits == 0) {
        printf("every look fitted\n");
        if (explorer->options->breakage == BREAK_KEPT_OUT && !quiet)
            printf("The duty was broken each time, and the rules caught it: the other drives' labels name the drive lost, so it stays out.\n");
        return;
    }
    printf("a look did not fit; a shortest history in which one does not:\n%s", explorer->story);
    if (!quiet) {
        printf("\n");
        print_number(counts->misfits, "histories do not fit:");
        report_troubles(counts);
    }
}
