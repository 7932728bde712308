/* The words after a command. */
#include "options.h"

#include <string.h>

#include "words.h"

static bool take_folder(const char *word, const char **folder, struct message *message) {
    if (*folder != NULL)
        return fail(message, "one folder is wanted, \"%s\" is a second", word);
    *folder = word;
    return true;
}

static bool take_option(struct command_option *option, const char *value, struct message *message) {
    if (option->given)
        return fail(message, "--%s: given twice", option->name);
    option->given = true;
    option->text = value;
    bool is_number = option->kind == OPTION_NUMBER || (option->kind == OPTION_MAYBE_NUMBER && value != NULL);
    if (is_number && !parse_number(value, 0, option->most, &option->number))
        return fail(message, "--%s: \"%s\" is no number from 0 to %llu", option->name, value, (unsigned long long)option->most);
    return true;
}

static bool take_word(struct word word, struct command_option *options, const char **folder, struct message *message) {
    switch (word.kind) {
    case WORD_OPTION:
        return take_option(&options[word.option], word.text, message);
    case WORD_OPERAND:
        return take_folder(word.text, folder, message);
    case WORD_NO_OPTION:
        return fail(message, "there is no option %s", word.text);
    case WORD_VALUE_WANTED:
        return fail(message, "--%s: a value is wanted", options[word.option].name);
    case WORD_VALUE_UNWANTED:
        return fail(message, "--%s: takes no value", options[word.option].name);
    case WORDS_END:
        break;
    }
    return true;
}

static bool needed_are_given(const struct command_option *options, size_t count, struct message *message) {
    for (size_t i = 0; i < count; i++)
        if (options[i].needed && !options[i].given)
            return fail(message, "--%s is wanted", options[i].name);
    return true;
}

static struct option as_word(const struct command_option *option, int index) {
    if (option->kind == OPTION_FLAG)
        return (struct option)WORD_FLAG(option->name, index);
    if (option->kind == OPTION_MAYBE_NUMBER)
        return (struct option)WORD_MAYBE_WITH_VALUE(option->name, index);
    return (struct option)WORD_WITH_VALUE(option->name, index);
}

bool parse_options(int argc, char **argv, struct command_option *options, size_t count, const char **folder, struct message *message) {
    struct option list[count + 1];
    memset(list, 0, sizeof list);
    for (int i = 0; i < (int)count; i++)
        list[i] = as_word(&options[i], i);
    struct words words = begin_words(argc, argv, list);
    struct word word;
    *folder = NULL;
    while ((word = next_word(&words)).kind != WORDS_END)
        if (!take_word(word, options, folder, message))
            return false;
    if (*folder == NULL)
        return fail(message, "a folder is wanted");
    return needed_are_given(options, count, message);
}
