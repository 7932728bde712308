/* Stores that were seen, read by the pattern of their call's kind: which of the unseen ones are flushes, and which lists fit no call of that kind. In a list a
 * is an append to a zone of data and l one to a log's zone, r the reset of a zone of data and s that of a log's, each with its drive; f is a flush of a drive
 * that is seen, and - a store that is not. The spare zone of a drive is zone 2. Ends with 'stores: N lists as expected'. */
#include <stdio.h>
#include <stdlib.h>
#include <string.h>

#include "stores.h"

enum { SPARE_ZONE = 2 };

static const struct {
    enum call_kind kind;
    uint32_t present;
    const char *seen, *settled; /* NULL: it does not fit */
} lists[] = {
    {CALL_FLUSH, 7, "- f1 -", "f0 f1 f2"},
    {CALL_FLUSH, 5, "- -", "f0 f2"},
    {CALL_FLUSH, 7, "- -", NULL},
    {CALL_FLUSH, 7, "- - - -", NULL},
    {CALL_FLUSH, 7, "f1 - -", NULL},
    {CALL_WRITE, 7, "a0 a1 l2", "a0 a1 l2"},
    {CALL_WRITE, 7, "- - - l2 l2 - - f2 s2 a0 l2", NULL}, /* a write empties no log */
    {CALL_WRITE, 7, "a0 - - -", NULL},
    {CALL_WRITE, 7, "a0 r1", NULL},
    {CALL_COMPACT, 7, "- - - l2 l2 - - f2 s2", "f0 f1 f2 l2 l2 f0 f1 f2 s2"},
    {CALL_COMPACT, 7, "f0 - - l1 - f1 - s1", "f0 f1 f2 l1 f0 f1 f2 s1"},
    {CALL_COMPACT, 7, "- - - l2 - - f2 -", "f0 f1 f2 l2 f0 f1 f2 -"}, /* of a log that is empty */
    {CALL_COMPACT, 3, "- - l1 - f1 s1", "f0 f1 l1 f0 f1 s1"},
    {CALL_COMPACT, 7, "- - - l2 l2 - - f2 s1", NULL},
    {CALL_COMPACT, 7, "- - - l2 l2 - - s2", NULL},
    {CALL_COMPACT, 7, "- - - l2 l2 - - f2", NULL},
    {CALL_COMPACT, 7, "- - - - - f2 s2", NULL},
    {CALL_COMPACT, 7, "- - - l2 - - f2 s2 - - - l1 - f1 - s1", NULL}, /* of two drives */
    {CALL_RESET, 7, "- - - l2 l2 - - f2 s2 l0 l1 - - - r0 - r2 - - - l0 l1 l2 - - -",
     "f0 f1 f2 l2 l2 f0 f1 f2 s2 l0 l1 f0 f1 f2 r0 - r2 f0 f1 f2 l0 l1 l2 f0 f1 f2"},
    {CALL_RESET, 7, "l0 l1 - - - r0 - r2 - - - l0 l1 l2 f0 f1 f2", "l0 l1 f0 f1 f2 r0 - r2 f0 f1 f2 l0 l1 l2 f0 f1 f2"},
    {CALL_RESET, 7, "l0 l1 - - - - - - - - - l0 l1 l2 - - -", "l0 l1 f0 f1 f2 - - - f0 f1 f2 l0 l1 l2 f0 f1 f2"},
    {CALL_RESET, 7, "l0 l1 - - - r0 r1 r2 l0 l1 l2 - - -", NULL}, /* without the flush after the zone resets */
    {CALL_RESET, 7, "l0 l1 - - - r1 r0 r2 - - - l0 l1 l2 - - -", NULL},
    {CALL_RESET, 7, "l0 l1 - - - r0 r1 r2 - - - l0 l1 l2", NULL},
    {CALL_MOUNT, 7, "- - -", "f0 f1 f2"},
    {CALL_MOUNT, 7, "- - - s1 - - - l0 l1 - - -", "f0 f1 f2 s1 f0 f1 f2 l0 l1 f0 f1 f2"},
    {CALL_MOUNT, 7, "- - - - - - l0 f0 - - s0 - - - l1 - f1 - s1 - - - l0 l1 l2 - - -",
     "f0 f1 f2 f0 f1 f2 l0 f0 f1 f2 s0 f0 f1 f2 l1 f0 f1 f2 s1 f0 f1 f2 l0 l1 l2 f0 f1 f2"},
    {CALL_MOUNT, 7, "- - - r0 - - r1 - - - - - l0 - - -", "f0 f1 f2 r0 - - r1 - - f0 f1 f2 l0 f0 f1 f2"},
    {CALL_MOUNT, 7, "- - - l0", NULL},
    {CALL_MOUNT, 7, "l0 - - -", NULL},
    {CALL_MOUNT, 7, "- - - l0 - - - -", NULL},
    {CALL_FORMAT, 7, "- - -", NULL}, /* its stores have no pattern */
};

static struct store store_of(const char *word) {
    uint32_t drive = word[1] >= '0' && word[1] <= '9' ? (uint32_t)(word[1] - '0') : 0;
    switch (word[0]) {
    case 'a':
        return (struct store){.kind = STORE_APPEND, .drive = drive, .zone = ZRV_LOG_ZONES};
    case 'l':
        return (struct store){.kind = STORE_APPEND, .drive = drive, .zone = SPARE_ZONE};
    case 'r':
        return (struct store){.kind = STORE_RESET, .drive = drive, .zone = ZRV_LOG_ZONES};
    case 's':
        return (struct store){.kind = STORE_RESET, .drive = drive, .zone = 0};
    case 'f':
        return (struct store){.kind = STORE_FLUSH, .drive = drive};
    }
    return (struct store){.kind = STORE_UNSEEN};
}

static size_t stores_of(const char *text, struct store *store) {
    size_t length = 0;
    for (; *text != '\0'; text += strcspn(text, " "), text += strspn(text, " "))
        store[length++] = store_of(text);
    return length;
}

static bool same_stores(const struct store *a, const struct store *b, size_t length) {
    for (size_t i = 0; i < length; i++)
        if (a[i].kind != b[i].kind || (a[i].kind != STORE_UNSEEN && a[i].drive != b[i].drive))
            return false;
    return true;
}

int main(void) {
    size_t count = sizeof lists / sizeof *lists, differences = 0;
    for (size_t i = 0; i < count; i++) {
        struct store seen[64], settled[64];
        struct store_list list = {seen, stores_of(lists[i].seen, seen), 64};
        struct message message;
        bool fits = settle_stores(&list, lists[i].kind, lists[i].present, &message);
        bool expected = lists[i].settled == NULL ? !fits && strstr(message.text, traits_of(lists[i].kind)->name) != NULL
                                                 : fits && stores_of(lists[i].settled, settled) == list.length && same_stores(seen, settled, list.length);
        if (!expected)
            printf("stores: %s: %s: %s\n", traits_of(lists[i].kind)->name, lists[i].seen, fits ? "it fits, or is settled otherwise" : message.text);
        differences += !expected;
    }
    if (differences > 0)
        return EXIT_FAILURE;
    printf("stores: %zu lists as expected\n", count);
    return EXIT_SUCCESS;
}
