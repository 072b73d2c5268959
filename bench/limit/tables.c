/* Fills the tables before main begins. */
#include "tables.h"

const char ALPHABET[33] = "qpzry9x8gf2tvdw0s3jn54khce6mua7l";
uint8_t KIND[256];
uint64_t PLACES[8][256];
uint8_t PAIRS[1024][2];
uint32_t MULTIPLES[32];
uint32_t FOLDED[4][1024];

/* What a byte is, without its high bits. */
static unsigned kind_of(unsigned byte) {
    return (byte < 33 || byte > 126 ? NOT_GRAPHIC : 0) | (byte >= 'a' && byte <= 'z' ? LOWER : 0) |
           (byte >= 'A' && byte <= 'Z' ? UPPER : 0) | (byte == '1' ? SEPARATOR : 0);
}

/* What each byte is, with its high bits. */
static void fill_kinds(void) {
    for (unsigned byte = 0; byte < 256; byte++) {
        unsigned kind = kind_of(byte), lowered = byte + (kind & UPPER ? 32 : 0);
        KIND[byte] = (uint8_t)(kind | (lowered >> 5 & 7) << HIGH_BITS);
    }
}

/* A character that is not of the alphabet is a stranger at each place. */
static void fill_place(unsigned place) {
    for (unsigned byte = 0; byte < 256; byte++) {
        PLACES[place][byte] = STRANGER | (uint64_t)(kind_of(byte) & CASES) << CASE_BITS;
    }
    for (unsigned element = 0; element < 32; element++) {
        unsigned byte = (uint8_t)ALPHABET[element];
        uint64_t at_place = (uint64_t)element << 5 * (7 - place);
        PLACES[place][byte] = at_place | (uint64_t)(kind_of(byte) & CASES) << CASE_BITS;
        if (byte >= 'a') {
            PLACES[place][byte - 32] = at_place | (uint64_t)UPPER << CASE_BITS;
        }
    }
}

/* Each two elements as characters. */
static void fill_pairs(void) {
    for (unsigned two = 0; two < 1024; two++) {
        PAIRS[two][0] = (uint8_t)ALPHABET[two >> 5];
        PAIRS[two][1] = (uint8_t)ALPHABET[two & 31];
    }
}

/* The generator of BIP-173 times the elements 1, 2, 4, 8 and 16, and the sums of these. */
static void fill_multiples(void) {
    static const uint32_t generator[5] = {0x3b6a57b2, 0x26508e6d, 0x1ea119fa, 0x3d4233dd, 0x2a1462b3};
    for (unsigned element = 0; element < 32; element++) {
        for (unsigned bit = 0; bit < 5; bit++) {
            MULTIPLES[element] ^= element >> bit & 1 ? generator[bit] : 0;
        }
    }
}

/* Two elements, with the zeros behind them that put them at x^6, x^8, x^10 or x^12. */
static void fill_folded(void) {
    for (uint32_t two = 0; two < 1024; two++) {
        uint32_t remainder = two;
        for (unsigned zeros = 1; zeros <= 12; zeros++) {
            remainder = step(remainder, 0);
            if (zeros >= 6 && zeros % 2 == 0) {
                FOLDED[zeros / 2 - 3][two] = remainder;
            }
        }
    }
}

/* All of them. */
__attribute__((constructor(101))) static void fill(void) {
    fill_kinds();
    for (unsigned place = 0; place < 8; place++) {
        fill_place(place);
    }
    fill_pairs();
    fill_multiples();
    fill_folded();
}
