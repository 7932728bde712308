/* Adler-32, by which a conformance script's answers show what memory holds. */
#ifndef ADLER_H
#define ADLER_H

#include <stddef.h>
#include <stdint.h>

enum { ADLER_BASE = 65521, ADLER_RUN = 5552 };

/* Carried on over further bytes; it starts at 1. ADLER_RUN bytes fit before a sum must be reduced. */
static inline uint32_t adler(uint32_t sum, const uint8_t *bytes, size_t length) {
    uint32_t low = sum & 0xffff, high = sum >> 16;
    while (length > 0) {
        size_t run = length < ADLER_RUN ? length : ADLER_RUN;
        for (size_t i = 0; i < run; i++) {
            low += bytes[i];
            high += low;
        }
        low %= ADLER_BASE;
        high %= ADLER_BASE;
        bytes += run;
        length -= run;
    }
    return high << 16 | low;
}

#endif
