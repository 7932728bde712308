/* `zrv assemble`: a shelf without its state.zrv, made again from its drives. */
#include <stdio.h>

#include "assembling.h"
#include "commands.h"
#include "tool.h"

enum { WITHOUT, WAIT, ASSEMBLE_OPTIONS };

int assemble_main(int argc, char **argv) {
    struct command_option option[ASSEMBLE_OPTIONS] = {
        [WITHOUT] = {.name = "without", .kind = OPTION_NUMBER, .most = ZRV_MOST_DRIVES - 1, .number = LEAVE_OUT_NONE},
        [WAIT] = WAIT_OPTION,
    };
    struct drives drives;
    struct message message;
    const char *folder;
    if (!parse_options(argc, argv, option, ASSEMBLE_OPTIONS, &folder, &message))
        return usage_error(argv[0], "%s", message.text);
    struct opening opening = opening_for(LOCK_TO_CHANGE, folder, &option[WAIT]);
    int code = EXIT_DONE;
    if (assemble_drives(&drives, &opening, (uint32_t)option[WITHOUT].number, &message)) {
        printf("assembled as array %llu: ", (unsigned long long)drives.record.array);
        print_size(drives.record.geometry);
        if (option[WITHOUT].given)
            printf("drive %u is given up\n", (uint32_t)option[WITHOUT].number);
        printf("mount next; zrv look first tells whether the drives fit together\n");
    } else {
        code = file_error(&message);
    }
    close_drives(&drives);
    return code;
}
