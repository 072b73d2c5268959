/* Reads texts: their parts and their remainder, or the first fault of their grammar. */
#ifndef LIMIT_TEXT_H
#define LIMIT_TEXT_H

#include "limit.h"
#include "tables.h"

/* Words of eight elements that a text has at most. */
#define WORDS (BECH32_MAX_TEXT / 8 + 1)

/* What a text is. */
typedef struct {
    size_t hrp_length;
    size_t data_length; /* with the checksum, without the version where that is read alone */
    uint32_t remainder;
    uint64_t version; /* the word of the first character of the data part, where that is read alone */
} Reading;

/* A human-readable part as far as it was read: its length, what its bytes are, and the remainder that its
 * high bits leave. */
typedef struct {
    size_t length;
    unsigned kinds;
    uint32_t remainder;
} Part;

/* The first of 2, 11 to 15 that a human-readable part is refused with, or 0. */
uint32_t hrp_refusal(const uint8_t *hrp, size_t length);

/* The first of 2, 21 to 23, 11 to 14 that a text is refused with, or 0. */
uint32_t grammar_refusal(const uint8_t *text, size_t length);

/* The length of what stands before the last `1`. */
size_t hrp_length_of(const uint8_t *text, size_t length);

/* Where the fault of a text stands that is refused by this number, which has a place. */
size_t place_of(uint32_t number, const uint8_t *text, size_t length);

/* Whether bytes are UTF-8. */
int is_utf8(const uint8_t *bytes, size_t length);

INLINE size_t smaller(size_t a, size_t b) {
    return a < b ? a : b;
}

/* Whether letters of both cases are among bytes of these kinds. */
INLINE int has_both_cases(unsigned kinds) {
    return (kinds & CASES) == CASES;
}

/* Feeds the high bits of the bytes before the first of a kind, of `most` bytes. */
INLINE Part read_high_bits(const uint8_t *hrp, size_t most, unsigned end) {
    Part part = {0, 0, 1};
    for (; part.length < most; part.length++) {
        unsigned kind = KIND[hrp[part.length]];
        if (kind & end) {
            break;
        }
        part.kinds |= kind;
        part.remainder = step(part.remainder, kind >> HIGH_BITS);
    }
    return part;
}

/* Feeds a zero and the low bits of a human-readable part. */
INLINE uint32_t step_low_bits(uint32_t remainder, const uint8_t *hrp, size_t length) {
    remainder = step(remainder, 0);
    for (size_t i = 0; i < length; i++) {
        remainder = step(remainder, hrp[i] & 31);
    }
    return remainder;
}

/* The last characters of a text, fewer than eight, as a word: those before them are read with them
 * where there are that many. */
INLINE uint64_t rest(const uint8_t *text, size_t length, size_t count) {
    if (length >= 8) {
        return eight(text + length - 8);
    }
    uint64_t word = 0;
    for (size_t i = 0; i < count; i++) {
        word |= PLACES[8 - count + i][text[i]];
    }
    return word;
}

/* Feeds the characters of a data part, returns their flags, and puts their elements into words where
 * these are asked for. */
INLINE uint64_t read_data(const uint8_t *data, size_t length, uint32_t *remainder, uint64_t *words) {
    uint64_t flags = 0;
    size_t i = 0, word = 0;
    for (; i + 8 <= length; i += 8) {
        uint64_t elements = eight(data + i);
        flags |= elements;
        elements &= ELEMENTS;
        if (words != NULL) {
            words[word++] = elements;
        }
        *remainder = step_eight(*remainder, elements);
    }
    size_t count = length - i;
    if (count > 0) {
        uint64_t elements = rest(data, length, count);
        flags |= elements;
        elements &= (UINT64_C(1) << 5 * count) - 1;
        if (words != NULL) {
            words[word] = elements << 5 * (8 - count);
        }
        *remainder = step_rest(*remainder, elements, count);
    }
    return flags;
}

/* Reads what stands behind the separator: a version alone where that is asked for, and the data part.
 * Returns the flags of the characters. */
INLINE uint64_t read_behind(const uint8_t *text, size_t length, int has_version, uint64_t *words,
                            Reading *reading) {
    size_t at = reading->hrp_length + 1;
    uint64_t flags = 0;
    if (has_version && at < length) {
        flags = PLACES[7][text[at++]];
        reading->version = flags & 31;
        reading->remainder = step(reading->remainder, (uint32_t)(flags & 31));
    }
    reading->data_length = length - at;
    return flags | read_data(text + at, length - at, &reading->remainder, words);
}

/* Reads a text of 1,023 characters at most behind its human-readable part. Returns the flags of all its
 * characters, with the cases of that part. */
INLINE uint64_t read_text_behind(Part part, const uint8_t *text, size_t length, int has_version,
                                 uint64_t *words, Reading *reading) {
    reading->hrp_length = part.length;
    reading->remainder = step_low_bits(part.remainder, text, part.length);
    return read_behind(text, length, has_version, words, reading) |
           (uint64_t)(part.kinds & CASES) << CASE_BITS;
}

/* The same of a text that is refused, or has more than one `1`: the first of 2, 21 to 23, 11 to 14, 31, or
 * 0 where it is read. */
uint32_t read_again(const uint8_t *text, size_t length, int has_version, uint64_t *words,
                    Reading *reading);

/* Whether a text is refused as its length or its last character says. */
INLINE int is_refused_at_once(const uint8_t *text, size_t length) {
    return length == 0 || length > BECH32_MAX_TEXT || PLACES[7][text[length - 1]] & STRANGER;
}

/* Reads a text. Answers the first of 2, 21 to 23, 11 to 14, 31, or 0. The first `1` is taken for the
 * separator: behind it there is a stranger where it is not. */
INLINE uint32_t read_text(const uint8_t *text, size_t length, int has_version, uint64_t *words,
                          Reading *reading) {
    if (is_refused_at_once(text, length)) {
        return read_again(text, length, has_version, words, reading);
    }
    size_t most = smaller(length, BECH32_MAX_HRP + 1);
    Part part = read_high_bits(text, most, SEPARATOR);
    if (part.length - 1 >= most - 1 || part.kinds & NOT_GRAPHIC) {
        return read_again(text, length, has_version, words, reading);
    }
    uint64_t flags = read_text_behind(part, text, length, has_version, words, reading);
    if (flags & STRANGER) {
        return read_again(text, length, has_version, words, reading);
    }
    return has_both_cases((unsigned)(flags >> CASE_BITS)) ? BECH32_MIXED_CASE : BECH32_OK;
}

/* The first of 32, 33 that a text is refused with by a checksum of this target, or 0. */
INLINE uint32_t checksum_refusal(const Reading *reading, size_t data_length, uint32_t target) {
    if (data_length < 6) {
        return BECH32_NO_CHECKSUM;
    }
    return reading->remainder != target ? BECH32_WRONG_CHECKSUM : BECH32_OK;
}

/* The target of the checksum of a number, or 0 where there is none. */
INLINE uint32_t target_of(uint32_t checksum) {
    return checksum == BECH32_BECH32    ? BECH32_TARGET
           : checksum == BECH32_BECH32M ? BECH32M_TARGET
                                        : 0;
}

#endif
