/* Addresses as plain C: plain.h says what for. */
#include "plain.h"

#include <string.h>

#define TARGET 1u
#define TARGET_M 0x2bc830a3u
#define MOST 90
#define CHECKSUM 6

static const char characters[] = "qpzry9x8gf2tvdw0s3jn54khce6mua7l";

/* The element of each character below 128, or -1. */
static const int8_t elements[128] = {
    -1, -1, -1, -1, -1, -1, -1, -1, -1, -1, -1, -1, -1, -1, -1, -1, -1, -1, -1, -1, -1, -1, -1, -1, -1, -1, -1, -1, -1, -1, -1, -1,
    -1, -1, -1, -1, -1, -1, -1, -1, -1, -1, -1, -1, -1, -1, -1, -1, 15, -1, 10, 17, 21, 20, 26, 30, 7,  5,  -1, -1, -1, -1, -1, -1,
    -1, 29, -1, 24, 13, 25, 9,  8,  23, -1, 18, 22, 31, 27, 19, -1, 1,  0,  3,  16, 11, 28, 12, 14, 6,  4,  2,  -1, -1, -1, -1, -1,
    -1, 29, -1, 24, 13, 25, 9,  8,  23, -1, 18, 22, 31, 27, 19, -1, 1,  0,  3,  16, 11, 28, 12, 14, 6,  4,  2,  -1, -1, -1, -1, -1,
};

/* The remainder times x; the generator's multiple is added for each bit of the coefficient that leaves. */
static uint32_t step(uint32_t remainder) {
    uint32_t top = remainder >> 25;
    return (remainder & 0x1ffffff) << 5 ^ (-(top & 1) & 0x3b6a57b2u) ^ (-(top >> 1 & 1) & 0x26508e6du) ^
           (-(top >> 2 & 1) & 0x1ea119fau) ^ (-(top >> 3 & 1) & 0x3d4233ddu) ^ (-(top >> 4 & 1) & 0x2a1462b3u);
}

/* The remainder of a human-readable part, or 0 where a character is none of one. */
static uint32_t of_part(const char *hrp, size_t length) {
    uint32_t remainder = 1;
    for (size_t i = 0; i < length; i++) {
        int byte = (uint8_t)hrp[i];
        if (byte < 33 || byte > 126 || (byte >= 'A' && byte <= 'Z')) {
            return 0;
        }
        remainder = step(remainder) ^ (uint32_t)(byte >> 5);
    }
    remainder = step(remainder);
    for (size_t i = 0; i < length; i++) {
        remainder = step(remainder) ^ (hrp[i] & 31);
    }
    return remainder;
}

/* Cuts numbers of some bits anew; returns 1, or 0 where bits are left that are no padding. */
static int cut(uint8_t *to, size_t *count, unsigned bits, const uint8_t *from, size_t length, unsigned by, int is_padded) {
    uint32_t held = 0;
    unsigned left = 0;
    *count = 0;
    for (size_t i = 0; i < length; i++) {
        held = held << by | from[i];
        left += by;
        while (left >= bits) {
            left -= bits;
            to[(*count)++] = (uint8_t)(held >> left & ((1u << bits) - 1));
        }
    }
    if (is_padded) {
        if (left > 0) {
            to[(*count)++] = (uint8_t)(held << (bits - left) & ((1u << bits) - 1));
        }
        return 1;
    }
    return left < by && (held << (bits - left) & ((1u << bits) - 1)) == 0;
}

static int is_program(int version, size_t length) {
    return version >= 0 && version <= 16 && length >= 2 && length <= 40 && (version != 0 || length == 20 || length == 32);
}

int plain_segwit_encode(char *text, const char *hrp, int version, const uint8_t *program, size_t length) {
    uint8_t data[65];
    size_t count, part = strlen(hrp);
    if (!is_program(version, length)) {
        return 0;
    }
    data[0] = (uint8_t)version;
    cut(data + 1, &count, 5, program, length, 8, 1);
    uint32_t remainder = of_part(hrp, part);
    if (remainder == 0 || part == 0 || part + 1 + 1 + count + CHECKSUM > MOST) {
        return 0;
    }
    memcpy(text, hrp, part);
    text += part;
    *text++ = '1';
    for (size_t i = 0; i <= count; i++) {
        remainder = step(remainder) ^ data[i];
        *text++ = characters[data[i]];
    }
    for (int i = 0; i < CHECKSUM; i++) {
        remainder = step(remainder);
    }
    remainder ^= version == 0 ? TARGET : TARGET_M;
    for (int i = CHECKSUM - 1; i >= 0; i--) {
        *text++ = characters[remainder >> 5 * i & 31];
    }
    *text = 0;
    return 1;
}

/* Reads a text's data part; returns how many elements it has without the checksum, or 0, and the remainder of all. */
static size_t read_data(uint8_t *data, uint32_t *remainder, const char *text, size_t length, size_t part) {
    *remainder = of_part(text, part);
    if (*remainder == 0 || part == 0 || length - part - 1 <= CHECKSUM) {
        return 0;
    }
    for (size_t i = part + 1; i < length; i++) {
        int byte = (uint8_t)text[i];
        if (byte > 127 || elements[byte] < 0 || (byte >= 'A' && byte <= 'Z')) {
            return 0;
        }
        *remainder = step(*remainder) ^ (uint32_t)elements[byte];
        if (i + CHECKSUM < length) {
            data[i - part - 1] = (uint8_t)elements[byte];
        }
    }
    return length - part - 1 - CHECKSUM;
}

int plain_segwit_decode(int *version, uint8_t *program, size_t *length, const char *hrp, const char *text) {
    uint8_t data[MOST];
    uint32_t remainder;
    size_t size = strlen(text), part = size, count;
    if (size < 8 || size > MOST) {
        return 0;
    }
    while (part > 0 && text[part - 1] != '1') {
        part--;
    }
    if (part-- == 0 || part != strlen(hrp) || memcmp(hrp, text, part) != 0) {
        return 0;
    }
    count = read_data(data, &remainder, text, size, part);
    if (count == 0 || count > 65 || !cut(program, length, 8, data + 1, count - 1, 5, 0)) {
        return 0;
    }
    *version = data[0];
    return remainder == (data[0] == 0 ? TARGET : TARGET_M) && is_program(data[0], *length);
}
