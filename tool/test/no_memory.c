/* Loaded before a program: its NO_MEMORY_AT-th request for memory, counted from 1, is refused, and every later one too. With 0 none is, and in the end the
 * number of requests is written to standard error. */
#include <errno.h>
#include <stddef.h>
#include <stdio.h>
#include <stdlib.h>
#include <unistd.h>

extern void *__libc_malloc(size_t size);
extern void *__libc_calloc(size_t count, size_t size);
extern void *__libc_realloc(void *memory, size_t size);

/* The program's own requests are counted, and none before them. */
static int begun;
static long requests, refused_from;

__attribute__((constructor)) static void begin(void) {
    const char *at = getenv("NO_MEMORY_AT");
    refused_from = at == NULL ? 0 : atol(at);
    begun = 1;
}

__attribute__((destructor)) static void end(void) {
    char words[32];
    int length = snprintf(words, sizeof words, "%ld\n", requests);
    if (refused_from == 0)
        (void)!write(STDERR_FILENO, words, (size_t)length);
}

static int is_refused(void) {
    requests += begun;
    if (refused_from == 0 || requests < refused_from)
        return 0;
    errno = ENOMEM;
    return 1;
}

void *malloc(size_t size) { return is_refused() ? NULL : __libc_malloc(size); }
void *calloc(size_t count, size_t size) { return is_refused() ? NULL : __libc_calloc(count, size); }
void *realloc(void *memory, size_t size) { return is_refused() ? NULL : __libc_realloc(memory, size); }
