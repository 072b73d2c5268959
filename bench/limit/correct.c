/*
 * Mends texts. The generator has the roots a^24, a^25 and a^26, for a of the field of 1,024 elements that
 * the corrector of the library works in, pairs of elements of the field of 32 with z^2 = z + 1. A pattern
 * leaves a remainder exactly if it has the same values at these roots, the syndromes: they are six elements
 * as the remainder is.
 */
#include "text.h"

#define ORDER 1023u /* of a */
#define FIRST 24u   /* the exponent of the first root */
#define FIELD 1024u

static uint16_t POWERS[2 * ORDER];       /* of a, twice over */
static uint16_t LOGARITHMS[FIELD];
static uint32_t SYNDROMES[3][FIELD];     /* of two coefficients of a remainder: ten bits each */

/* The product of elements of the field of 32, modulo x^5 + x^3 + 1. */
static unsigned product_of_32(unsigned a, unsigned b) {
    unsigned product = 0;
    for (unsigned bit = 0; bit < 5; bit++) {
        product ^= b >> bit & 1 ? a : 0;
        a = a << 1 ^ (a & 16 ? 0x29 : 0);
    }
    return product;
}

/* The product of pairs, the constant part lowest. */
static unsigned product_of_pairs(unsigned a, unsigned b) {
    unsigned low = product_of_32(a & 31, b & 31), high = product_of_32(a >> 5, b >> 5);
    unsigned both = product_of_32((a & 31) ^ a >> 5, (b & 31) ^ b >> 5);
    return (low ^ high) | (both ^ low) << 5;
}

/* The powers of a, and to which power each element is a. */
static void fill_powers(void) {
    unsigned power = 1;
    for (unsigned i = 0; i < ORDER; i++) {
        POWERS[i] = POWERS[i + ORDER] = (uint16_t)power;
        LOGARITHMS[power] = (uint16_t)i;
        power = product_of_pairs(power, 1 | 6 << 5);
    }
}

/* The value at a root of an element at a place of a remainder. */
static uint32_t syndrome(unsigned element, unsigned place, unsigned root) {
    return element == 0 ? 0 : POWERS[(LOGARITHMS[element] + (FIRST + root) * place) % ORDER];
}

/* The syndromes of each two coefficients from a place on. */
static void fill_syndromes(unsigned place) {
    for (unsigned two = 0; two < FIELD; two++) {
        uint32_t three = 0;
        for (unsigned root = 0; root < 3; root++) {
            uint32_t sum = syndrome(two & 31, 2 * place, root) ^ syndrome(two >> 5, 2 * place + 1, root);
            three |= sum << 10 * root;
        }
        SYNDROMES[place][two] = three;
    }
}

/* All tables of this file. */
__attribute__((constructor(102))) static void fill(void) {
    fill_powers();
    for (unsigned place = 0; place < 3; place++) {
        fill_syndromes(place);
    }
}

/* What is found: locations, and the elements to add there. */
typedef struct {
    size_t count;
    size_t locations[3];
    uint32_t values[3];
} Found;

/* The product of elements of the field of 1,024. */
INLINE uint32_t product(uint32_t a, uint32_t b) {
    return a == 0 || b == 0 ? 0 : POWERS[LOGARITHMS[a] + LOGARITHMS[b]];
}

/* The quotient, by an element that is not zero. */
INLINE uint32_t quotient(uint32_t a, uint32_t b) {
    return a == 0 ? 0 : POWERS[LOGARITHMS[a] + ORDER - LOGARITHMS[b]];
}

/* Adds a location, below the order, with its part of the first syndrome. Answers whether its value is of
 * the field of 32. */
INLINE int add(Found *found, size_t location, uint32_t first) {
    uint32_t value = 0;
    if (first != 0) {
        value = POWERS[(LOGARITHMS[first] + FIRST * (ORDER - (uint32_t)location)) % ORDER];
    }
    found->locations[found->count] = location;
    found->values[found->count++] = value;
    return value < 32;
}

/* One error, which leaves s and t at two roots, one behind the other, and is below a length: its
 * location, or the length where there is none. */
INLINE size_t location_of(uint32_t s, uint32_t t, size_t length) {
    if (s == 0 || t == 0) {
        return length;
    }
    size_t location = LOGARITHMS[t] + ORDER - LOGARITHMS[s];
    location -= location >= ORDER ? ORDER : 0;
    return smaller(location, length);
}

/* One error and no erasure. */
INLINE int find_error(Found *found, const uint32_t *s, size_t length) {
    size_t location = location_of(s[0], s[1], length);
    return location < length && product(s[1], s[1]) == product(s[0], s[2]) &&
           add(found, location, s[0]);
}

/* One erasure, and one error at most. */
INLINE int find_error_beside(Found *found, const uint32_t *s, size_t length, size_t erasure) {
    uint32_t a = POWERS[erasure];
    uint32_t t = s[1] ^ product(a, s[0]), u = s[2] ^ product(a, s[1]);
    if (t == 0 && u == 0) {
        return add(found, erasure, s[0]);
    }
    size_t location = location_of(t, u, length);
    if (location == length || location == erasure) {
        return 0;
    }
    uint32_t first = quotient(t, a ^ POWERS[location]);
    return add(found, erasure, s[0] ^ first) && add(found, location, first);
}

/* Two erasures, and no error. */
INLINE int find_two(Found *found, const uint32_t *s, const size_t *erasures) {
    uint32_t a = POWERS[erasures[0]], b = POWERS[erasures[1]];
    uint32_t first = quotient(s[1] ^ product(b, s[0]), a ^ b);
    int fits = (s[2] ^ product(b, s[1])) == product(product(a, a ^ b), first);
    return fits && add(found, erasures[0], first) && add(found, erasures[1], s[0] ^ first);
}

/* The part of the first syndrome of the first of three locations. */
INLINE uint32_t first_of_three(const uint32_t *s, uint32_t a, uint32_t b, uint32_t c) {
    uint32_t above = s[2] ^ product(b ^ c, s[1]) ^ product(product(b, c), s[0]);
    return quotient(above, product(a ^ b, a ^ c));
}

/* Three erasures, and no error. */
INLINE int find_three(Found *found, const uint32_t *s, const size_t *erasures) {
    uint32_t a = POWERS[erasures[0]], b = POWERS[erasures[1]], c = POWERS[erasures[2]];
    uint32_t first = first_of_three(s, a, b, c), second = first_of_three(s, b, a, c);
    return add(found, erasures[0], first) && add(found, erasures[1], second) &&
           add(found, erasures[2], s[0] ^ first ^ second);
}

/* Whether a location is among others. */
INLINE int is_among(const size_t *locations, size_t count, size_t location) {
    for (size_t i = 0; i < count; i++) {
        if (locations[i] == location) {
            return 1;
        }
    }
    return 0;
}

/* Keeps each erasure once, in their order. Answers how many they are, or 4 where one is not below the
 * length or they are more than three. */
INLINE size_t distinct(const size_t *erasures, size_t count, size_t length, size_t *kept) {
    size_t number = 0;
    for (size_t i = 0; i < count; i++) {
        if (erasures[i] >= length) {
            return 4;
        }
        if (!is_among(kept, number, erasures[i])) {
            if (number == 3) {
                return 4;
            }
            kept[number++] = erasures[i];
        }
    }
    return number;
}

/* Finds the one pattern that leaves this remainder, below a length. Answers whether there is one. */
INLINE int find(Found *found, uint32_t remainder, size_t length, const size_t *erasures,
                size_t erasures_length) {
    uint32_t all = SYNDROMES[0][remainder & TEN] ^ SYNDROMES[1][remainder >> 10 & TEN] ^
                   SYNDROMES[2][remainder >> 20];
    uint32_t s[3] = {all & TEN, all >> 10 & TEN, all >> 20};
    size_t kept[3];
    switch (distinct(erasures, erasures_length, length, kept)) {
    case 0: return find_error(found, s, length);
    case 1: return find_error_beside(found, s, length, kept[0]);
    case 2: return find_two(found, s, kept);
    case 3: return find_three(found, s, kept);
    default: return 0;
    }
}

/* Puts a text in lower case, in vectors as the compiler makes them. */
INLINE void put_lowered(uint8_t *mended, const uint8_t *text, size_t length) {
    for (size_t i = 0; i < length; i++) {
        mended[i] = text[i] | ((uint8_t)(text[i] - 'A') < 26 ? 32 : 0);
    }
}

/* Puts what is found, and adds it to the text. */
INLINE void put_found(const Found *found, size_t *locations, uint8_t *values, uint8_t *mended,
                      size_t length) {
    for (size_t i = 0; i < found->count; i++) {
        uint8_t *at = mended + length - 1 - found->locations[i];
        locations[i] = found->locations[i];
        values[i] = (uint8_t)found->values[i];
        *at = (uint8_t)ALPHABET[(PLACES[7][*at] ^ found->values[i]) & 31];
    }
}

uint32_t limit_correct(uint32_t checksum, const uint8_t *text, size_t text_length,
                       const size_t *erasures, size_t erasures_length, size_t *locations,
                       size_t locations_room, uint8_t *values, size_t values_room, size_t *count,
                       uint8_t *mended, size_t mended_room, size_t *mended_length) {
    uint32_t target = target_of(checksum);
    if (target == 0) {
        return BECH32_BAD_NUMBER;
    }
    Reading reading;
    uint32_t number = read_text(text, text_length, 0, NULL, &reading);
    if (number == BECH32_OK) {
        number = checksum_refusal(&reading, reading.data_length, target);
    }
    Found found = {0, {0}, {0}};
    if (number == BECH32_WRONG_CHECKSUM) {
        number = find(&found, reading.remainder ^ target, reading.data_length, erasures,
                      erasures_length)
                     ? BECH32_OK
                     : BECH32_NO_CORRECTION;
    }
    if (number != BECH32_OK) {
        return number;
    }
    if (found.count > locations_room || found.count > values_room || text_length > mended_room) {
        return BECH32_NO_ROOM;
    }
    put_lowered(mended, text, text_length);
    put_found(&found, locations, values, mended, text_length);
    *count = found.count;
    *mended_length = text_length;
    return BECH32_OK;
}
