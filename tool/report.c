/* `zrv report`: the list of the zones, as the tools of zoned drives print it; and who holds them open, and what is left of the shares. */
#include "commands.h"

#include <stdio.h>

#include "holders.h"
#include "tool.h"

enum { JSON, REPORT_OPTIONS };

/* A condition's two letters in such lists, and its word. */
static const struct {
    const char *letters, *word;
} conditions[] = {
    [ZRV_REPORTED_EMPTY] = {"em", "empty"},
    [ZRV_REPORTED_OPEN] = {"op", "open"},
    [ZRV_REPORTED_READ_ONLY] = {"ro", "read-only"},
};

static void print_line(const uint8_t *descriptor) {
    printf("start: 0x%09llx, cap 0x%06llx, wptr 0x%06llx, zcond: %s", (unsigned long long)get64(descriptor + ZRV_DESCRIPTOR_START),
           (unsigned long long)get64(descriptor + ZRV_DESCRIPTOR_CAPACITY), (unsigned long long)get64(descriptor + ZRV_DESCRIPTOR_POINTER),
           conditions[descriptor[ZRV_DESCRIPTOR_CONDITION]].letters);
}

static void print_object(const uint8_t *descriptor) {
    printf("    {\"start\": %llu, \"capacity\": %llu, \"pointer\": %llu, \"condition\": \"%s\", \"host\": ",
           (unsigned long long)get64(descriptor + ZRV_DESCRIPTOR_START), (unsigned long long)get64(descriptor + ZRV_DESCRIPTOR_CAPACITY),
           (unsigned long long)get64(descriptor + ZRV_DESCRIPTOR_POINTER), conditions[descriptor[ZRV_DESCRIPTOR_CONDITION]].word);
}

static void print_list(struct geometry g, const uint8_t *state, const uint8_t *list, uint32_t filled) {
    for (uint32_t z = 0; z < filled; z++) {
        print_line(list + z * ZRV_DESCRIPTOR_BYTES);
        print_holder(g, state, z);
        putchar('\n');
    }
    print_open_zones(g, state);
    for (uint32_t d = 0; d < g.drives; d++) {
        printf("drive %u%s", d, d == state[ZRV_STATE_LOST] ? ": lost" : "");
        print_shares(": ", state, d);
        putchar('\n');
    }
}

static void print_json(struct geometry g, const uint8_t *state, const uint8_t *list, uint32_t filled) {
    printf("{\n  \"zones\": [\n");
    for (uint32_t z = 0; z < filled; z++) {
        print_object(list + z * ZRV_DESCRIPTOR_BYTES);
        print_holder_json(g, state, z);
        printf("}%s\n", z + 1 < filled ? "," : "");
    }
    printf("  ],\n  \"open_zones\": ");
    print_open_zones_json(g, state);
    printf(",\n  \"shares\": ");
    print_all_shares_json(g, state);
    printf("\n}\n");
}

int report_main(int argc, char **argv) {
    struct command_option option[REPORT_OPTIONS] = {[JSON] = {.name = "json", .kind = OPTION_FLAG}};
    struct driver driver;
    struct message message;
    uint8_t list[ZRV_MOST_ZONES * ZRV_DESCRIPTOR_BYTES];
    uint32_t filled = 0;
    int code = begin_call(CALL_REPORT, argc, argv, option, REPORT_OPTIONS, &driver);
    if (code == EXIT_DONE) {
        struct call call = {.kind = CALL_REPORT, .filled = &filled, .range[BUFFER] = {list, sizeof list}};
        code = tell_answer(&driver, &call, driver_call(&driver, call, &message), &message);
    }
    if (code == EXIT_DONE)
        (option[JSON].given ? print_json : print_list)(driver.drives.record.geometry, driver.drives.record.state, list, filled);
    close_drives(&driver.drives);
    return code;
}
