/* The command that reads a segment with grouped stripes, kept as a file of blocks and a file of metadata. */
#include <errno.h>
#include <stdio.h>
#include <stdlib.h>
#include <string.h>

#include "bytes.h"
#include "commands.h"
#include "grouped_record.h"
#include "tool.h"
#include "zrv.h"

enum { BLOCKS, METADATA, AT, DRIVES, BLOCK_BYTES, GROUP, WITHOUT, TO, OPTIONS };

static const struct {
    uint32_t number;
    const char *word, *sentence;
} refusals[] = {
    {ZRV_GEOMETRY, "geometry", "a number is out of bounds; take 3 to 8 drives, blocks of 64 bytes and so on by doubling to 4096, groups of 1 to 256 stripes, "
                               "at most 65536 blocks a drive, and whole groups"},
    {ZRV_LENGTH, "length", "the files have not the lengths of one segment; give D x N blocks and for each of them 20 bytes of metadata"},
    {ZRV_GROUP_ALIKE, "alike", "two data blocks have one address and one timestamp; the segment does not tell which is newer"},
    {ZRV_UNWRITTEN, "unwritten", "no data block has that address"},
};

/* The numbers of a segment, the drives that are named, and its metadata. */
struct segment {
    uint32_t drives, group, per_drive, named;
    const uint8_t *metadata;
};

enum { MOST_GROUP = 256 };

/* The first stripe ID that a drive lacks in a group; G where it has each. */
static uint32_t lacking_id(const struct segment *segment, uint32_t drive, uint32_t group) {
    bool has[MOST_GROUP] = {false};
    for (uint32_t i = 0; i < segment->group; i++) {
        size_t block = (size_t)drive * segment->per_drive + (size_t)group * segment->group + i;
        uint32_t id = get32(segment->metadata + block * ZRV_GROUPED_RECORD_BYTES + GROUPED_STRIPE_ID);
        if (id < segment->group)
            has[id] = true;
    }
    uint32_t id = 0;
    while (id < segment->group && has[id])
        id++;
    return id;
}

/* The first group in which a drive lacks an ID; the number of groups where it lacks none. */
static uint32_t wrong_group(const struct segment *segment, uint32_t drive) {
    uint32_t group = 0, groups = segment->per_drive / segment->group;
    while (group < groups && lacking_id(segment, drive, group) == segment->group)
        group++;
    return group;
}

/* Refusal 23, with each drive for which it is given and its first group: as many IDs as blocks, so that one that is there twice makes another one lack. */
static int tell_wrong_ids(const struct segment *segment) {
    uint32_t wrong = 0, last = 0, absent = 0;
    fprintf(stderr, "zrv: refused: %u stripe IDs: ", ZRV_GROUP_IDS);
    for (uint32_t d = 0; d < segment->drives; d++) {
        bool named = (segment->named >> d & 1) != 0;
        uint32_t group = named ? wrong_group(segment, d) : 0;
        absent += !named;
        if (!named || group == segment->per_drive / segment->group)
            continue;
        fprintf(stderr, "%sdrive %u lacks stripe ID %u in group %u", wrong++ == 0 ? "" : ", ", d, lacking_id(segment, d, group), group);
        last = d;
    }
    if (wrong + absent == 1)
        fprintf(stderr, "; leave that drive out (--without %u)\n", last);
    else
        fprintf(stderr, "; more than one drive cannot be left out\n");
    return EXIT_REFUSED;
}

static int tell_refusal(uint32_t number) {
    for (size_t i = 0; i < COUNT(refusals); i++)
        if (refusals[i].number == number)
            fprintf(stderr, "zrv: refused: %u %s: %s\n", number, refusals[i].word, refusals[i].sentence);
    return EXIT_REFUSED;
}

/* All bytes of a file. */
static bool load(const char *name, struct range *data, struct message *message) {
    FILE *file = fopen(name, "rb");
    if (file == NULL)
        return fail(message, "%s: %s", name, strerror(errno));
    long length = fseek(file, 0, SEEK_END) == 0 ? ftell(file) : -1;
    rewind(file);
    *data = (struct range){length < 0 ? NULL : malloc((size_t)length + 1), (size_t)length};
    bool good = data->bytes != NULL && fread(data->bytes, 1, data->length, file) == data->length;
    fclose(file);
    if (length >= 0 && data->bytes == NULL)
        return no_memory(message, (size_t)length);
    return good || fail(message, "%s: it cannot be read", name);
}

static bool put_block(const struct command_option *to, const struct range *block, struct message *message) {
    FILE *file = to->given ? fopen(to->text, "wb") : stdout;
    const char *name = to->given ? to->text : "standard output";
    if (file == NULL)
        return fail(message, "%s: %s", name, strerror(errno));
    bool good = fwrite(block->bytes, 1, block->length, file) == block->length;
    if (file != stdout && fclose(file) != 0)
        good = false;
    return good || fail(message, "%s: %s", name, strerror(errno));
}

/* The segment lent to the call; what it answers. */
static int read_block(const struct command_option *option, const struct range *blocks, const struct range *metadata, struct message *message) {
    uint32_t drives = (uint32_t)option[DRIVES].number, bytes = (uint32_t)option[BLOCK_BYTES].number;
    uint64_t per_drive = drives == 0 ? 0 : metadata->length / ((size_t)drives * ZRV_GROUPED_RECORD_BYTES);
    uint32_t count = per_drive > UINT32_MAX ? UINT32_MAX : (uint32_t)per_drive;
    uint32_t named = option[WITHOUT].given ? ~(UINT32_C(1) << option[WITHOUT].number) : UINT32_MAX;
    struct range work = {malloc(ZRV_GROUPED_WORK_BYTES(drives, count) + 1), ZRV_GROUPED_WORK_BYTES(drives, count)}, answer = {malloc((size_t)bytes + 1), bytes};
    int code = EXIT_FILES;
    if (work.bytes == NULL || answer.bytes == NULL) {
        no_memory(message, work.length + answer.length);
    } else {
        uint64_t returned = zrv_grouped_read(drives, bytes, (uint32_t)option[GROUP].number, count, named, option[AT].number, blocks->bytes, blocks->length,
                                             metadata->bytes, metadata->length, work.bytes, work.length, answer.bytes, answer.length);
        uint32_t number = ZRV_ANSWER(returned);
        struct segment segment = {drives, (uint32_t)option[GROUP].number, count, named, metadata->bytes};
        if (number == ZRV_FINISHED)
            code = put_block(&option[TO], &answer, message) ? EXIT_DONE : EXIT_FILES;
        else
            code = number == ZRV_GROUP_IDS ? tell_wrong_ids(&segment) : tell_refusal(number);
    }
    free(work.bytes);
    free(answer.bytes);
    return code == EXIT_FILES ? file_error(message) : code;
}

int grouped_main(int argc, char **argv) {
    struct command_option option[OPTIONS] = {
        [BLOCKS] = {.name = "blocks", .kind = OPTION_TEXT, .needed = true},
        [METADATA] = {.name = "metadata", .kind = OPTION_TEXT, .needed = true},
        [AT] = {.name = "at", .kind = OPTION_NUMBER, .needed = true, .most = UINT64_MAX},
        [DRIVES] = {.name = "drives", .kind = OPTION_NUMBER, .most = ZRV_MOST_DRIVES, .number = 4},
        [BLOCK_BYTES] = {.name = "block-bytes", .kind = OPTION_NUMBER, .most = ZRV_MOST_SECTOR_BYTES, .number = ZRV_MOST_SECTOR_BYTES},
        [GROUP] = {.name = "group", .kind = OPTION_NUMBER, .most = MOST_GROUP, .number = MOST_GROUP},
        [WITHOUT] = {.name = "without", .kind = OPTION_NUMBER, .most = ZRV_MOST_DRIVES - 1},
        [TO] = {.name = "to", .kind = OPTION_TEXT},
    };
    struct message message;
    const char *word;
    struct range blocks = {NULL, 0}, metadata = {NULL, 0};
    if (argc < 2 || strcmp(argv[1], "read") != 0)
        return usage_error("grouped", "\"read\" is wanted after it");
    if (!parse_options(argc, argv, option, OPTIONS, &word, &message))
        return usage_error("grouped", "%s", message.text);
    bool there = load(option[BLOCKS].text, &blocks, &message) && load(option[METADATA].text, &metadata, &message);
    int code = there ? read_block(option, &blocks, &metadata, &message) : file_error(&message);
    free(blocks.bytes);
    free(metadata.bytes);
    return code;
}
