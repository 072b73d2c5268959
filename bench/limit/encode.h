/* Writes texts. */
#ifndef LIMIT_ENCODE_H
#define LIMIT_ENCODE_H

#include "bytes.h"
#include "text.h"

/* How many elements bytes are cut into, for lengths that do not overflow. */
INLINE size_t elements_of(size_t bytes_length) {
    return (8 * bytes_length + 4) / 5;
}

/* Reads a human-readable part. Answers the first of 2, 11 to 15, or 0. */
INLINE uint32_t read_hrp(const uint8_t *hrp, size_t length, Part *part) {
    *part = read_high_bits(hrp, smaller(length, BECH32_MAX_HRP + 1), 0);
    if (part->length - 1 >= BECH32_MAX_HRP || part->kinds & NOT_GRAPHIC ||
        has_both_cases(part->kinds)) {
        return hrp_refusal(hrp, length);
    }
    return BECH32_OK;
}

/* Puts two elements as characters. */
INLINE void put_two(uint8_t *text, uint64_t elements) {
    memcpy(text, PAIRS[elements & TEN], 2);
}

/* Puts eight elements as characters. */
INLINE void put_eight(uint8_t *text, uint64_t elements) {
    put_two(text, elements >> 30);
    put_two(text + 2, elements >> 20);
    put_two(text + 4, elements >> 10);
    put_two(text + 6, elements);
}

/* Puts up to seven elements as characters. */
INLINE void put_rest(uint8_t *text, uint64_t elements, size_t count) {
    if (count & 1) {
        text[count - 1] = (uint8_t)ALPHABET[elements & 31];
        elements >>= 5;
    }
    for (size_t i = count & ~(size_t)1; i > 0; i -= 2, elements >>= 10) {
        put_two(text + i - 2, elements);
    }
}

/* Puts a human-readable part in lower case. */
INLINE void put_hrp(uint8_t *text, const uint8_t *hrp, size_t length) {
    for (size_t i = 0; i < length; i++) {
        text[i] = lowered(hrp[i]);
    }
}

/* Puts the characters of bytes and feeds their elements, and returns how many these are. */
INLINE size_t put_data(uint8_t *text, const uint8_t *bytes, size_t length, uint32_t *remainder) {
    size_t i = 0, at = 0;
    for (; i + 8 <= length; i += 5, at += 8) {
        uint64_t elements = number_of(bytes + i) >> 24;
        *remainder = step_eight(*remainder, elements);
        put_eight(text + at, elements);
    }
    size_t count = length - i;
    uint64_t left = last_bytes(bytes, length, count);
    if (count >= 5) {
        count -= 5;
        *remainder = step_eight(*remainder, left >> 8 * count);
        put_eight(text + at, left >> 8 * count & ELEMENTS);
        at += 8;
        left &= (UINT64_C(1) << 8 * count) - 1;
    }
    size_t elements = elements_of(count);
    left <<= 5 * elements - 8 * count;
    *remainder = step_rest(*remainder, left, elements);
    put_rest(text + at, left, elements);
    return at + elements;
}

/* Puts the text of a part that was read, a version below 32 where it is not negative, and bytes, for
 * which there is room. */
INLINE void put_text(uint8_t *text, const uint8_t *hrp, Part part, int version,
                     const uint8_t *bytes, size_t bytes_length, uint32_t target) {
    uint32_t remainder = step_low_bits(part.remainder, hrp, part.length);
    put_hrp(text, hrp, part.length);
    text += part.length;
    *text++ = '1';
    if (version >= 0) {
        *text++ = (uint8_t)ALPHABET[version];
        remainder = step(remainder, (uint32_t)version);
    }
    text += put_data(text, bytes, bytes_length, &remainder);
    remainder = step_six_zeros(remainder) ^ target;
    put_two(text, remainder >> 20);
    put_two(text + 2, remainder >> 10);
    put_two(text + 4, remainder);
}

#endif
