/* The commands that carry data: write, read and peek. */
#include "commands.h"

#include <errno.h>
#include <stdio.h>
#include <stdlib.h>
#include <string.h>

#include "bytes.h"
#include "drive_file.h"
#include "tool.h"

enum { CHUNK_BYTES = 1 << 20, SHOWN_BYTES = 16 };

/* The words that say where: an address or a zone. */
enum { AT, ZONE, FILE_NAME, STORES, PAD, HOST, WRITE_OPTIONS, SECTOR_COUNT = STORES, READ_OPTIONS = PAD };

#define AT_OPTION {.name = "at", .kind = OPTION_NUMBER, .most = UINT64_MAX}
#define ZONE_OPTION {.name = "zone", .kind = OPTION_NUMBER, .most = UINT32_MAX}

/* All bytes of a file, up to a limit, in memory of a length that every sector's divides. */
static bool read_all(FILE *file, size_t limit, struct range *data) {
    size_t room = CHUNK_BYTES;
    *data = (struct range){malloc(room), 0};
    while (data->bytes != NULL) {
        size_t wanted = (room < limit ? room : limit) - data->length;
        size_t got = fread(data->bytes + data->length, 1, wanted, file);
        data->length += got;
        if (got < wanted || data->length == limit)
            return ferror(file) == 0;
        room *= 2;
        uint8_t *more = realloc(data->bytes, room);
        if (more == NULL)
            return false;
        data->bytes = more;
    }
    return false;
}

/* The data of a write. More than a zone can never be written, so that one sector more is all that is read. */
static bool take_data(const struct command_option *from, struct geometry g, struct range *data, struct message *message) {
    FILE *file = from->given ? fopen(from->text, "rb") : stdin;
    const char *name = from->given ? from->text : "standard input";
    if (file == NULL)
        return fail(message, "%s: %s", name, strerror(errno));
    bool good = read_all(file, (zone_addresses(g) + 1) * g.sector_bytes, data);
    if (!good)
        fail(message, "%s: %s", name, strerror(errno));
    if (file != stdin)
        fclose(file);
    return good;
}

/* Fills the last sector up with zeros; read_all has left room for that. */
static void pad_data(struct range *data, uint32_t sector_bytes) {
    size_t whole = (data->length + sector_bytes - 1) / sector_bytes * sector_bytes;
    memset(data->bytes + data->length, 0, whole - data->length);
    data->length = whole;
}

static int write_data(struct driver *driver, const struct command_option *option, const struct range *data) {
    struct geometry g = driver->drives.record.geometry;
    struct message message;
    struct call call = {
        .kind = CALL_WRITE,
        .host = (uint32_t)option[HOST].number,
        .address = option[AT].number,
        .run = (uint32_t)(data->length / g.sector_bytes),
        .count = (uint32_t)option[STORES].number,
        .range[BUFFER] = *data,
    };
    int code = EXIT_DONE;
    if (option[ZONE].given)
        code = tell_answer(driver, &call, find_address_to_write(driver, (uint32_t)option[ZONE].number, &call.address, &message), &message);
    if (code == EXIT_DONE)
        code = store_and_save(driver, &call);
    if (code != EXIT_DONE)
        return code;
    printf("wrote %u sector%s at address %llu; ", call.run, plural(call.run), (unsigned long long)call.address);
    print_zone(g, driver->shown, driver->shown, (uint32_t)(call.address / zone_addresses(g)));
    putchar('\n');
    return EXIT_DONE;
}

static int take_and_write(struct driver *driver, const struct command_option *option) {
    uint32_t sector_bytes = driver->drives.record.geometry.sector_bytes;
    struct range data = {NULL, 0};
    struct message message;
    int code;
    if (!take_data(&option[FILE_NAME], driver->drives.record.geometry, &data, &message)) {
        code = file_error(&message);
    } else if (data.length % sector_bytes != 0 && !option[PAD].given) {
        code = usage_error("write", "%zu bytes are not whole sectors of %u; --pad fills up with zeros", data.length, sector_bytes);
    } else {
        pad_data(&data, sector_bytes);
        code = write_data(driver, option, &data);
    }
    free(data.bytes);
    return code;
}

int write_main(int argc, char **argv) {
    struct command_option option[WRITE_OPTIONS] = {
        [AT] = AT_OPTION,
        [ZONE] = ZONE_OPTION,
        [FILE_NAME] = {.name = "from", .kind = OPTION_TEXT},
        [STORES] = STORES_OPTION,
        [PAD] = {.name = "pad", .kind = OPTION_FLAG},
        [HOST] = {.name = "host", .kind = OPTION_NUMBER, .most = UINT32_MAX},
    };
    struct driver driver;
    int code = begin_call(CALL_WRITE, argc, argv, option, WRITE_OPTIONS, &driver);
    if (code == EXIT_DONE && option[AT].given == option[ZONE].given)
        code = usage_error(argv[0], "one of --at and --zone is wanted");
    if (code == EXIT_DONE)
        code = take_and_write(&driver, option);
    close_drives(&driver.drives);
    return code;
}

static bool put_data(const struct command_option *to, const struct range *data, struct message *message) {
    FILE *file = to->given ? fopen(to->text, "wb") : stdout;
    const char *name = to->given ? to->text : "standard output";
    if (file == NULL)
        return fail(message, "%s: %s", name, strerror(errno));
    struct progress progress = start_progress("writing out", data->length);
    size_t done = 0;
    while (done < data->length) {
        size_t chunk = data->length - done < CHUNK_BYTES ? data->length - done : CHUNK_BYTES;
        if (fwrite(data->bytes + done, 1, chunk, file) != chunk)
            break;
        done += chunk;
        step_progress(&progress, chunk);
    }
    end_progress(&progress);
    bool good = fflush(file) == 0 && done == data->length;
    if (!good)
        fail(message, "%s: %s", name, strerror(errno));
    if (file != stdout)
        fclose(file);
    return good;
}

/* The sectors of a zone that are asked for: all below its pointer. Of an empty zone it is the first, which the volume refuses as unwritten and for no other
 * reason: what else stands against a read is told of an empty zone too. */
static uint64_t sectors_of_zone(const struct host_record *record, uint32_t zone) {
    uint32_t pointer = zone < record->geometry.zones ? pointer_in_state(record->state, zone) : 0;
    return pointer == 0 ? 1 : pointer;
}

/* A run longer than a zone is cut down to one sector too many, which is refused all the same. */
static struct call read_call(const struct driver *driver, const struct command_option *option) {
    const struct host_record *record = &driver->drives.record;
    uint32_t zone = (uint32_t)option[ZONE].number;
    uint64_t whole = zone_addresses(record->geometry);
    uint64_t wanted = option[ZONE].given ? sectors_of_zone(record, zone) : option[SECTOR_COUNT].number;
    struct call call = {
        .kind = CALL_READ,
        .address = option[ZONE].given ? zone_start(record->geometry, zone) : option[AT].number,
        .run = (uint32_t)(wanted > whole ? whole + 1 : wanted),
    };
    call.range[BUFFER] = new_range((size_t)call.run * record->geometry.sector_bytes);
    return call;
}

static int read_data(struct driver *driver, const struct command_option *option) {
    struct message message;
    struct call call = read_call(driver, option);
    if (call.range[BUFFER].bytes == NULL) {
        no_memory(&message, (size_t)call.run * driver->drives.record.geometry.sector_bytes);
        return file_error(&message);
    }
    uint32_t answer = driver_call(driver, call, &message);
    if (answer == ZRV_UNWRITTEN && option[ZONE].given) {
        answer = ZRV_FINISHED;
        call.run = 0;
        call.range[BUFFER].length = 0;
    }
    int code = tell_answer(driver, &call, answer, &message);
    if (code == EXIT_DONE && !put_data(&option[FILE_NAME], &call.range[BUFFER], &message))
        code = file_error(&message);
    if (code == EXIT_DONE && option[FILE_NAME].given)
        printf("read %u sector%s from address %llu\n", call.run, plural(call.run), (unsigned long long)call.address);
    free(call.range[BUFFER].bytes);
    return code;
}

int read_main(int argc, char **argv) {
    struct command_option option[READ_OPTIONS] = {
        [AT] = AT_OPTION,
        [ZONE] = ZONE_OPTION,
        [FILE_NAME] = {.name = "to", .kind = OPTION_TEXT},
        [SECTOR_COUNT] = {.name = "count", .kind = OPTION_NUMBER, .most = UINT32_MAX},
    };
    struct driver driver;
    int code = begin_call(CALL_READ, argc, argv, option, READ_OPTIONS, &driver);
    if (code == EXIT_DONE && (option[AT].given == option[ZONE].given || option[AT].given != option[SECTOR_COUNT].given))
        code = usage_error(argv[0], "--at with --count, or --zone, is wanted");
    if (code == EXIT_DONE)
        code = read_data(&driver, option);
    close_drives(&driver.drives);
    return code;
}

/* Where an offset into the sectors of all drives lies, and the first bytes there. */
static void print_place(const struct driver *driver, uint64_t address, uint64_t offset) {
    struct geometry g = driver->drives.record.geometry;
    uint64_t zone_bytes = (uint64_t)g.zone_sectors * g.sector_bytes, drive_bytes = zone_bytes * physical_zones(g);
    uint64_t drive = offset / drive_bytes, inside = offset % drive_bytes;
    printf("address %llu: drive %llu, physical zone %llu, sector %llu; byte %llu of drive-%llu.zrv\n", (unsigned long long)address, (unsigned long long)drive,
           (unsigned long long)(inside / zone_bytes), (unsigned long long)(inside % zone_bytes / g.sector_bytes),
           (unsigned long long)(drive_file_sectors(g) + inside), (unsigned long long)drive);
    printf("begins with");
    for (int i = 0; i < SHOWN_BYTES; i++)
        printf(" %02x", driver->drives.shelf.sectors.bytes[offset + i]);
    putchar('\n');
}

int peek_main(int argc, char **argv) {
    struct command_option option[] = {{.name = "at", .kind = OPTION_NUMBER, .needed = true, .most = UINT64_MAX}};
    struct driver driver;
    struct message message;
    uint8_t place[ZRV_PLACE_BYTES];
    int code = begin_call(CALL_PEEK, argc, argv, option, COUNT(option), &driver);
    if (code == EXIT_DONE) {
        struct call call = {.kind = CALL_PEEK, .address = option[0].number, .range[BUFFER] = {place, sizeof place}};
        code = tell_answer(&driver, &call, driver_call(&driver, call, &message), &message);
        if (code == EXIT_DONE)
            print_place(&driver, call.address, get64(place));
    }
    close_drives(&driver.drives);
    return code;
}
