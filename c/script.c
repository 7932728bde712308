/* Lines of a conformance script read from a file. */
#include "script.h"

#include <stdlib.h>
#include <string.h>

enum { LINE_BYTES = 256 };

bool next_command(FILE *script, struct command *command) {
    char line[LINE_BYTES];
    if (fgets(line, sizeof line, script) == NULL)
        return false;
    memset(command, 0, sizeof *command);
    command->letter = line[0];
    const char *rest = line + 1;
    for (int i = 0; i < COMMAND_NUMBERS && *rest == ' '; i++) {
        char *end;
        command->number[i] = strtoull(rest + 1, &end, 10);
        rest = end;
    }
    return true;
}

uint32_t narrowed(uint64_t number) {
    return number > UINT32_MAX ? UINT32_MAX : (uint32_t)number;
}
