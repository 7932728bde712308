/* Little-endian numbers in byte ranges: the form in which the C edge takes its tables and its state. */
#ifndef BYTES_H
#define BYTES_H

#include <stdint.h>

static inline uint64_t get_number(const uint8_t *bytes, int width) {
    uint64_t value = 0;
    for (int i = width - 1; i >= 0; i--)
        value = value << 8 | bytes[i];
    return value;
}

static inline void put_number(uint8_t *bytes, int width, uint64_t value) {
    for (int i = 0; i < width; i++)
        bytes[i] = (uint8_t)(value >> (8 * i));
}

static inline uint32_t get32(const uint8_t *bytes) { return (uint32_t)get_number(bytes, 4); }
static inline uint64_t get64(const uint8_t *bytes) { return get_number(bytes, 8); }
static inline void put32(uint8_t *bytes, uint32_t value) { put_number(bytes, 4, value); }
static inline void put64(uint8_t *bytes, uint64_t value) { put_number(bytes, 8, value); }

#endif
