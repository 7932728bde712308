/* `zrv pull`: a drive taken out. A drive that cannot be read can be taken out too. */
#include <stdio.h>

#include "commands.h"
#include "folder.h"
#include "refusals.h"
#include "tool.h"

enum { DRIVE, FORCE, WAIT, PULL_OPTIONS };

/* What a mount without the drive would answer: made in memory, of which nothing is saved, with the drives that a mount would name. They are loaded. */
static uint32_t try_mount_without(struct drives *drives, uint32_t drive) {
    uint8_t state[ZRV_STATE_BYTES];
    struct call call = {
        .kind = CALL_MOUNT,
        .geometry = drives->record.geometry,
        .named = drives->present & ~drives->unreadable & ~drives->strange & ~(1u << drive),
        .count = ZRV_ALL_STORES,
        .range = {[SECTORS] = drives->shelf.sectors, [WRITTEN] = drives->shelf.written, [DURABLE] = drives->shelf.durable, [STATE] = {state, sizeof state}},
    };
    return make_call(&call);
}

/* Why a mount would not name a drive; NULL where it would. */
static const char *why_not_named(const struct drives *drives, uint32_t drive) {
    uint32_t bit = 1u << drive;
    if ((drives->record.given_up & bit) != 0)
        return "is given up";
    if ((drives->unreadable & bit) != 0)
        return "cannot be read";
    if ((drives->strange & bit) != 0)
        return "is not as this shelf left it";
    return (drives->present & bit) == 0 ? "is missing" : NULL;
}

static int refuse_to_pull(const struct drives *drives, uint32_t drive, uint32_t answer) {
    fprintf(stderr, "zrv: refused: without drive %u the volume cannot be mounted: ", drive);
    for (uint32_t d = 0; d < drives->record.geometry.drives; d++)
        if (d != drive && why_not_named(drives, d) != NULL)
            fprintf(stderr, "drive %u %s, ", d, why_not_named(drives, d));
    fprintf(stderr, "%u %s; --force pulls it all the same\n", answer, refusal_word(answer));
    return EXIT_REFUSED;
}

static int pull_and_tell(struct drives *drives, uint32_t drive) {
    char pulled[DRIVE_NAME_BYTES];
    struct message message;
    if (!pull_drive(drives, drive, pulled, &message))
        return file_error(&message);
    printf("drive %u is pulled: its file is now %s/%s\n", drive, drives->folder, pulled);
    return EXIT_DONE;
}

/* A drive that is given up already takes nothing from the volume, nor does one that is not there. */
static int pull(struct drives *drives, uint32_t drive, bool force) {
    char name[DRIVE_NAME_BYTES];
    struct message message;
    if (power_loss_is_due(&drives->record, &message))
        return not_now(&message);
    if (drive >= drives->record.geometry.drives)
        return usage_error("pull", "--drive: there is no drive %u", drive);
    if (!force && (drives->record.given_up >> drive & 1) == 0 && is_taken(drives, drive_name(name, drive, "zrv"))) {
        if (!load_drives(drives, &message) && message.lacks_memory)
            return file_error(&message);
        uint32_t answer = try_mount_without(drives, drive);
        if (answer != ZRV_FINISHED)
            return refuse_to_pull(drives, drive, answer);
    }
    return pull_and_tell(drives, drive);
}

int pull_main(int argc, char **argv) {
    struct command_option option[PULL_OPTIONS] = {
        [DRIVE] = {.name = "drive", .kind = OPTION_NUMBER, .needed = true, .most = ZRV_MOST_DRIVES - 1},
        [FORCE] = {.name = "force", .kind = OPTION_FLAG},
        [WAIT] = WAIT_OPTION,
    };
    struct drives drives;
    struct message message;
    const char *folder;
    if (!parse_options(argc, argv, option, PULL_OPTIONS, &folder, &message))
        return usage_error(argv[0], "%s", message.text);
    struct opening opening = opening_for(LOCK_TO_CHANGE, folder, &option[WAIT]);
    int code = open_folder(&drives, &opening, &message) ? pull(&drives, (uint32_t)option[DRIVE].number, option[FORCE].given) : file_error(&message);
    close_drives(&drives);
    return code;
}
