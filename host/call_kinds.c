/* The table of the calls. */
#include "call_kinds.h"

#include <stddef.h>

static const struct call_traits traits[] = {
    [CALL_FORMAT] = {.name = "format", .stores = true, .makes_drives = true},
    [CALL_LOOK] = {.name = "look", .after_cut = true, .any_drives = true},
    [CALL_MOUNT] = {.name = "mount", .stores = true, .after_cut = true, .refills_logs = true, .pattern = {PART_FLUSH, PART_STEPS}},
    [CALL_WRITE] = {.name = "write", .stores = true, .in_zone = true, .pattern = {PART_APPENDS}},
    [CALL_FLUSH] = {.name = "flush", .stores = true, .pattern = {PART_FLUSH}},
    [CALL_RESET] = {.name = "reset", .stores = true, .in_zone = true,
                    .pattern = {PART_EMPTYINGS, PART_APPENDS, PART_FLUSH, PART_ZONE_RESETS, PART_FLUSH, PART_APPENDS, PART_FLUSH}},
    [CALL_COMPACT] = {.name = "compact", .stores = true, .pattern = {PART_EMPTYING}},
    [CALL_READ] = {.name = "read", .in_zone = true},
    [CALL_PEEK] = {.name = "peek", .in_zone = true},
    [CALL_REPORT] = {.name = "report", .any_drives = true},
};

const struct call_traits *traits_of(enum call_kind kind) { return &traits[kind]; }
