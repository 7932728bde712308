/* Files laid over the shelf's memory by mmap. */
#define _DEFAULT_SOURCE
#include "mapped_sectors.h"

#include <signal.h>
#include <sys/mman.h>
#include <unistd.h>

#include "files.h"

static size_t page_bytes(void) { return (size_t)sysconf(_SC_PAGESIZE); }

/* The first drive's sectors begin as far into a page as they do in its file. */
bool map_sectors(struct shelf *shelf, uint64_t offset) {
    size_t length = shelf_bytes(shelf->geometry), inside = (size_t)(offset % page_bytes());
    void *pages = mmap(NULL, inside + length, PROT_READ | PROT_WRITE, MAP_PRIVATE | MAP_ANONYMOUS | MAP_NORESERVE, -1, 0);
    if (pages == MAP_FAILED)
        return false;
    shelf->pages = (struct range){pages, inside + length};
    shelf->sectors = (struct range){shelf->pages.bytes + inside, length};
    return true;
}

void unmap_sectors(struct shelf *shelf) {
    if (shelf->pages.bytes == NULL)
        return;
    munmap(shelf->pages.bytes, shelf->pages.length);
    shelf->sectors.bytes = shelf->pages.bytes = NULL;
}

static void end_in_words(int signal) {
    static const char words[] = "zrv: a drive's file cannot be read any more: it has become shorter, or its disk fails; nothing was stored by this command\n";
    (void)signal;
    (void)!write(STDERR_FILENO, words, sizeof words - 1);
    _exit(3);
}

/* How many of the bytes come before the first whole page. */
static size_t before_pages(size_t length, uint64_t offset) {
    size_t page = page_bytes(), before = (page - (size_t)(offset % page)) % page;
    return before < length ? before : length;
}

/* Only bytes that a file holds are laid over: to change a page of a hole would, in some file systems, take space. */
bool load_bytes(const struct shelf *shelf, uint8_t *to, size_t length, int descriptor, uint64_t offset) {
    size_t page = page_bytes(), before = before_pages(length, offset), whole = (length - before) / page * page, end = before + whole;
    bool alike = shelf->pages.bytes != NULL && (size_t)(to - shelf->pages.bytes) % page == offset % page;
    if (!alike || whole == 0 ||
        mmap(to + before, whole, PROT_READ | PROT_WRITE, MAP_PRIVATE | MAP_FIXED | MAP_NORESERVE, descriptor, (off_t)(offset + before)) == MAP_FAILED)
        return read_at(descriptor, to, length, offset);
    signal(SIGBUS, end_in_words);
    return read_at(descriptor, to, before, offset) && read_at(descriptor, to + end, length - end, offset + end);
}
