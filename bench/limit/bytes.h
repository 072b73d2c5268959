/* Bytes and words of 40 bits, which are five bytes or eight elements. */
#ifndef LIMIT_BYTES_H
#define LIMIT_BYTES_H

#include <string.h>

#include "tables.h"

/* Eight bytes as a number, the first the highest. */
INLINE uint64_t number_of(const uint8_t *bytes) {
    uint64_t number;
    memcpy(&number, bytes, sizeof number);
#if __BYTE_ORDER__ == __ORDER_LITTLE_ENDIAN__
    number = __builtin_bswap64(number);
#endif
    return number;
}

/* Puts a number as eight bytes, the highest first. */
INLINE void put_number(uint8_t *bytes, uint64_t number) {
#if __BYTE_ORDER__ == __ORDER_LITTLE_ENDIAN__
    number = __builtin_bswap64(number);
#endif
    memcpy(bytes, &number, sizeof number);
}

/* Puts the first bytes of words, as many as are asked for, and nothing behind them. */
INLINE void put_bytes(const uint64_t *words, size_t length, uint8_t *bytes) {
    size_t i = 0;
    for (; i + 8 <= length; i += 5) {
        put_number(bytes + i, *words++ << 24);
    }
    for (; i < length; i += 5, words++) {
        uint8_t last[8];
        put_number(last, *words << 24);
        for (size_t j = 0; j < 5 && i + j < length; j++) {
            bytes[i + j] = last[j];
        }
    }
}

/* The last bytes of a run, fewer than eight of them, as a number. */
INLINE uint64_t last_bytes(const uint8_t *bytes, size_t length, size_t count) {
    if (length >= 8) {
        return number_of(bytes + length - 8) & ((UINT64_C(1) << 8 * count) - 1);
    }
    uint64_t number = 0;
    for (size_t i = length - count; i < length; i++) {
        number = number << 8 | bytes[i];
    }
    return number;
}

#endif
