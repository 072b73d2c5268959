/* The tables, and the steps of a remainder by them. */
#ifndef LIMIT_TABLES_H
#define LIMIT_TABLES_H

#include <stddef.h>
#include <stdint.h>

#define INLINE static inline __attribute__((always_inline))

/* What a byte is, as KIND has it; its upper half has the high bits of the byte in lower case. */
#define NOT_GRAPHIC 1u
#define LOWER 2u
#define UPPER 4u
#define SEPARATOR 8u
#define CASES (LOWER | UPPER)
#define HIGH_BITS 4 /* where these begin */

/* In a word of eight characters: their elements, and the flags above them. */
#define ELEMENTS UINT64_C(0xffffffffff)
#define STRANGER (UINT64_C(1) << 40)
#define CASE_BITS 40 /* what LOWER and UPPER are shifted by */

/* A remainder has six coefficients of five bits, the constant one lowest. */
#define REMAINDER 0x3fffffffu
#define TEN 1023u

extern const char ALPHABET[33];
extern uint8_t KIND[256];
extern uint64_t PLACES[8][256]; /* a character's element at each of eight places, and its flags */
extern uint8_t PAIRS[1024][2];  /* two elements as two characters */
extern uint32_t MULTIPLES[32];  /* an element times the generator without its leading one */
extern uint32_t FOLDED[4][1024]; /* the remainders of two elements at x^6, x^8, x^10 and x^12 */

/* The remainder with one element more. */
INLINE uint32_t step(uint32_t remainder, uint32_t element) {
    return (remainder << 5 & REMAINDER) ^ element ^ MULTIPLES[remainder >> 25];
}

/* The remainder with two elements more. */
INLINE uint32_t step_two(uint32_t remainder, uint32_t elements) {
    return (remainder << 10 & REMAINDER) ^ elements ^ FOLDED[0][remainder >> 20];
}

/* The remainder with four elements more. */
INLINE uint32_t step_four(uint32_t remainder, uint32_t elements) {
    return (remainder << 20 & REMAINDER) ^ elements ^ FOLDED[0][remainder >> 10 & TEN] ^
           FOLDED[1][remainder >> 20];
}

/* The remainder with six zeros more. */
INLINE uint32_t step_six_zeros(uint32_t remainder) {
    return FOLDED[0][remainder & TEN] ^ FOLDED[1][remainder >> 10 & TEN] ^
           FOLDED[2][remainder >> 20];
}

/* The remainder with eight elements more. */
INLINE uint32_t step_eight(uint32_t remainder, uint64_t elements) {
    return FOLDED[1][remainder & TEN] ^ FOLDED[2][remainder >> 10 & TEN] ^
           FOLDED[3][remainder >> 20] ^ FOLDED[0][elements >> 30] ^ (uint32_t)(elements & REMAINDER);
}

/* The remainder with up to seven elements more. */
INLINE uint32_t step_rest(uint32_t remainder, uint64_t elements, size_t count) {
    if (count & 4) {
        remainder = step_four(remainder, (uint32_t)(elements >> 5 * (count & 3) & 0xfffff));
    }
    if (count & 2) {
        remainder = step_two(remainder, (uint32_t)(elements >> 5 * (count & 1) & TEN));
    }
    if (count & 1) {
        remainder = step(remainder, (uint32_t)(elements & 31));
    }
    return remainder;
}

/* A byte in lower case. */
INLINE uint8_t lowered(uint8_t byte) {
    return (uint8_t)(byte | (KIND[byte] & UPPER) << 3);
}

/* Eight characters as a word: their elements, the first the highest, and their flags. */
INLINE uint64_t eight(const uint8_t *text) {
    return PLACES[0][text[0]] | PLACES[1][text[1]] | PLACES[2][text[2]] | PLACES[3][text[3]] |
           PLACES[4][text[4]] | PLACES[5][text[5]] | PLACES[6][text[6]] | PLACES[7][text[7]];
}

#endif
