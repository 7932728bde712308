/* The files of a shelf's folder, by name. */
#define _POSIX_C_SOURCE 200809L
#include "folder.h"

#include <fcntl.h>
#include <stdio.h>
#include <sys/stat.h>
#include <unistd.h>

bool is_taken(const struct drives *drives, const char *name) {
    struct stat status;
    return fstatat(drives->directory, name, &status, AT_SYMLINK_NOFOLLOW) == 0;
}

bool find_drives(const struct drives *drives, struct found_drive found[ZRV_MOST_DRIVES], struct message *message) {
    for (uint32_t d = 0; d < ZRV_MOST_DRIVES; d++) {
        char name[DRIVE_NAME_BYTES];
        struct file_place place = file_of(drives, drive_name(name, d, "zrv"));
        found[d] = (struct found_drive){.there = is_taken(drives, name)};
        found[d].is_drive = found[d].there && read_drive_head(&place, &found[d].head, &found[d].why);
        if (found[d].why.lacks_memory) {
            *message = found[d].why;
            return false;
        }
    }
    return true;
}

static unsigned long long array_of(const struct found_drive *found) { return found->head.tag.array; }

bool name_drives(const struct found_drive found[ZRV_MOST_DRIVES], const char *separator, struct message *message) {
    bool any = false;
    for (uint32_t d = 0; d < ZRV_MOST_DRIVES; d++) {
        if (!found[d].there)
            continue;
        add_words(message, "%sdrive-%u.zrv", separator, d);
        if (found[d].is_drive)
            add_words(message, " (array %llu)", array_of(&found[d]));
        any = any || found[d].is_drive;
        separator = ", ";
    }
    return any;
}

bool folder_is_free(const struct drives *drives, struct message *message) {
    struct found_drive found[ZRV_MOST_DRIVES];
    bool has_record = is_taken(drives, RECORD_NAME), is_free = !has_record;
    if (!find_drives(drives, found, message))
        return false;
    for (uint32_t d = 0; d < ZRV_MOST_DRIVES; d++)
        is_free = is_free && !found[d].there;
    if (is_free)
        return true;
    struct message names;
    fail(&names, "%s", has_record ? RECORD_NAME : "");
    bool has_drives = name_drives(found, has_record ? ", " : "", &names);
    fail(message, "%s: %s: %s; format --force destroys it", drives->folder, has_record || has_drives ? "there is a shelf in this folder" : "in the way",
         names.text);
    if (!has_record && has_drives)
        add_words(message, ", zrv assemble brings it back without its %s", RECORD_NAME);
    return false;
}

bool fail_without_record(const struct drives *drives, struct message *message) {
    struct found_drive found[ZRV_MOST_DRIVES];
    struct message names = {.text = ""};
    if (!find_drives(drives, found, message))
        return false;
    if (!name_drives(found, "", &names))
        return fail(message, "%s/%s: not there: this folder holds no shelf", drives->folder, RECORD_NAME);
    return fail(message, "%s/%s: not there; zrv assemble makes it anew from %s", drives->folder, RECORD_NAME, names.text);
}

bool remove_other_drives(const struct drives *drives, uint32_t *removed, struct message *message) {
    *removed = 0;
    for (uint32_t d = 0; d < ZRV_MOST_DRIVES; d++) {
        char name[DRIVE_NAME_BYTES];
        struct file_place place = file_of(drives, drive_name(name, d, "zrv"));
        struct stat status;
        if ((drives->present >> d & 1) != 0 || fstatat(drives->directory, name, &status, AT_SYMLINK_NOFOLLOW) != 0 || S_ISDIR(status.st_mode))
            continue;
        if (unlinkat(place.directory, place.name, 0) != 0)
            return fail_by_errno(message, &place);
        *removed |= 1u << d;
    }
    struct file_place folder = file_of(drives, "");
    return sync_names(&folder, message);
}

/* The first name for a pulled drive that nothing has. */
static const char *free_name(const struct drives *drives, uint32_t drive, char name[DRIVE_NAME_BYTES]) {
    drive_name(name, drive, "pulled");
    for (uint32_t number = 2; is_taken(drives, name); number++)
        snprintf(name, DRIVE_NAME_BYTES, "drive-%u.pulled-%u", drive, number);
    return name;
}

bool pull_drive(struct drives *drives, uint32_t drive, char pulled[DRIVE_NAME_BYTES], struct message *message) {
    char name[DRIVE_NAME_BYTES];
    struct file_place place = file_of(drives, drive_name(name, drive, "zrv"));
    if (!is_taken(drives, name))
        return fail(message, "%s/%s: not there: there is nothing to pull; a mount goes on without it", place.folder, place.name);
    drives->record.given_up |= 1u << drive;
    if (!write_record(drives, message))
        return false;
    return rename_file(&place, free_name(drives, drive, pulled), message) || add_words(message, "; drive %u is given up all the same", drive);
}
