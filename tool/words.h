/* The words after a command, one after the other: options as "--name value", "--name=value" or, for a flag, "--name", and operands between them. After
 * "--" all are operands. And decimal numbers in words. */
#ifndef WORDS_H
#define WORDS_H

#include <getopt.h>
#include <stdbool.h>
#include <stdint.h>

enum word_kind {
    WORDS_END,
    WORD_OPTION,      /* with its value, if it takes one */
    WORD_OPERAND,
    WORD_NO_OPTION,   /* one that is none */
    WORD_VALUE_WANTED,
    WORD_VALUE_UNWANTED
};

struct word {
    enum word_kind kind;
    int option;       /* which, by its index */
    const char *text; /* an option's value; an operand; a word that is no option */
};

struct words {
    int argc;
    char **argv; /* begins with the command's name */
    const struct option *options;
    bool only_operands; /* from here on */
};

/* An entry of the list of options, at its index; the list ends with one of zeros. */
#define WORD_FLAG(name, index) {name, no_argument, NULL, FIRST_OPTION + (index)}
#define WORD_WITH_VALUE(name, index) {name, required_argument, NULL, FIRST_OPTION + (index)}
#define WORD_MAYBE_WITH_VALUE(name, index) {name, optional_argument, NULL, FIRST_OPTION + (index)} /* then as "--name=value" alone */
enum { FIRST_OPTION = 256 }; /* above every character, which is what getopt_long gives for other finds */

struct words begin_words(int argc, char **argv, const struct option *options);
struct word next_word(struct words *words);

/* Reads a decimal number from least to most: where it ends, or NULL if there is none or it is out of these bounds. */
const char *read_number(const char *text, uint64_t least, uint64_t most, uint64_t *number);

/* The same of a whole word. */
bool parse_number(const char *word, uint64_t least, uint64_t most, uint64_t *number);

#endif
