/* Words by getopt_long, numbers by strtoull. */
#include "words.h"

#include <ctype.h>
#include <errno.h>
#include <stdlib.h>

/* Operands come in their place, the first character says; what is wrong is told by the caller, says the second. */
#define IN_PLACE_AND_QUIET "-:"
enum { OPERAND = 1 };

struct words begin_words(int argc, char **argv, const struct option *options) {
    struct words words = {.argc = argc, .argv = argv, .options = options};
    optind = 0; /* getopt_long begins anew */
    return words;
}

struct word next_word(struct words *words) {
    const char *text = words->argv[optind == 0 ? 1 : optind];
    int found = words->only_operands ? -1 : getopt_long(words->argc, words->argv, IN_PLACE_AND_QUIET, words->options, NULL);
    if (found == OPERAND)
        return (struct word){.kind = WORD_OPERAND, .text = optarg};
    if (found == ':')
        return (struct word){.kind = WORD_VALUE_WANTED, .option = optopt - FIRST_OPTION};
    if (found == '?' && optopt >= FIRST_OPTION)
        return (struct word){.kind = WORD_VALUE_UNWANTED, .option = optopt - FIRST_OPTION};
    if (found == '?')
        return (struct word){.kind = WORD_NO_OPTION, .text = text};
    if (found >= FIRST_OPTION)
        return (struct word){.kind = WORD_OPTION, .option = found - FIRST_OPTION, .text = optarg};
    words->only_operands = true;
    if (optind < words->argc)
        return (struct word){.kind = WORD_OPERAND, .text = words->argv[optind++]};
    return (struct word){.kind = WORDS_END};
}

const char *read_number(const char *text, uint64_t least, uint64_t most, uint64_t *number) {
    char *end;
    errno = 0;
    *number = strtoull(text, &end, 10);
    bool good = isdigit((unsigned char)*text) && errno == 0 && *number >= least && *number <= most;
    return good ? end : NULL;
}

bool parse_number(const char *word, uint64_t least, uint64_t most, uint64_t *number) {
    const char *end = read_number(word, least, most, number);
    return end != NULL && *end == '\0';
}
