/* Big-endian numbers of `length` bytes, as frames, records and operations have them. */
#ifndef COMMON_BYTES_H
#define COMMON_BYTES_H

#include <stddef.h>
#include <stdint.h>

static inline void put_bytes(unsigned char *at, uint64_t number, int length) {
    for (int i = 0; i < length; i++) at[i] = (unsigned char)(number >> (8 * (length - 1 - i)));
}

static inline uint64_t number_at(const unsigned char *at, int length) {
    uint64_t number = 0;
    for (int i = 0; i < length; i++) number = number << 8 | at[i];
    return number;
}
#endif
