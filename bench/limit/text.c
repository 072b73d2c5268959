/* The first fault of a text or of a human-readable part, and its place. */
#include <string.h>

#include "bytes.h"
#include "text.h"

/* Whether a block of 64 bytes has a byte that is not ASCII. */
INLINE int has_others(const uint8_t *bytes) {
    uint64_t words[8], all = 0;
    memcpy(words, bytes, sizeof words);
    for (size_t i = 0; i < 8; i++) {
        all |= words[i];
    }
    return (all & UINT64_C(0x8080808080808080)) != 0;
}

/* The end of the ASCII characters from a place on. */
static size_t end_of_ascii(const uint8_t *bytes, size_t length, size_t at) {
    while (at + 64 <= length && !has_others(bytes + at)) {
        at += 64;
    }
    while (at + 8 <= length && (number_of(bytes + at) & UINT64_C(0x8080808080808080)) == 0) {
        at += 8;
    }
    while (at < length && bytes[at] < 0x80) {
        at++;
    }
    return at;
}

/* How many bytes follow the first one of a character that is not ASCII, and between what the first of
 * them must be: nothing is overlong, is a surrogate or is above U+10FFFF (RFC 3629). 0 for no such byte. */
static unsigned followers_of(uint8_t first, uint8_t *least, uint8_t *most) {
    *least = first == 0xe0 ? 0xa0 : first == 0xf0 ? 0x90 : 0x80;
    *most = first == 0xed ? 0x9f : first == 0xf4 ? 0x8f : 0xbf;
    return first < 0xc2 ? 0 : first < 0xe0 ? 1 : first < 0xf0 ? 2 : first < 0xf5 ? 3 : 0;
}

/* The end of the character that is not ASCII and begins at a place, or 0 where there is none. */
static size_t end_of_character(const uint8_t *bytes, size_t length, size_t at) {
    uint8_t least, most;
    unsigned followers = followers_of(bytes[at], &least, &most);
    if (followers == 0 || length - at <= followers || bytes[at + 1] < least || bytes[at + 1] > most) {
        return 0;
    }
    for (unsigned i = 2; i <= followers; i++) {
        if ((bytes[at + i] & 0xc0) != 0x80) {
            return 0;
        }
    }
    return at + followers + 1;
}

int is_utf8(const uint8_t *bytes, size_t length) {
    for (size_t at = end_of_ascii(bytes, length, 0); at < length; at = end_of_ascii(bytes, length, at)) {
        at = end_of_character(bytes, length, at);
        if (at == 0) {
            return 0;
        }
    }
    return 1;
}

/* The end of what stands before the characters of the alphabet at the end of a text, and the kinds of
 * these. */
static size_t end_of_strangers(const uint8_t *text, size_t length, unsigned *kinds) {
    size_t end = length;
    uint64_t word, flags = 0;
    for (; end >= 8 && ((word = eight(text + end - 8)) & STRANGER) == 0; end -= 8) {
        flags |= word;
    }
    for (; end > 0 && ((word = PLACES[7][text[end - 1]]) & STRANGER) == 0; end--) {
        flags |= word;
    }
    *kinds = (unsigned)(flags >> CASE_BITS) & CASES;
    return end;
}

/* In which cases bytes have letters. The compiler makes vectors of it. */
static unsigned cases_of(const uint8_t *bytes, size_t length) {
    uint8_t lower = 0, upper = 0;
    for (size_t i = 0; i < length; i++) {
        lower |= (uint8_t)(bytes[i] - 'a') < 26;
        upper |= (uint8_t)(bytes[i] - 'A') < 26;
    }
    return (lower ? LOWER : 0) | (upper ? UPPER : 0);
}

/* The first of 13 to 15 that a byte of a human-readable part is refused with behind bytes of these
 * kinds, or 0. */
static uint32_t byte_refusal(uint8_t byte, unsigned kinds) {
    if (byte >= 0x80) {
        return BECH32_HRP_NOT_ASCII;
    }
    if (KIND[byte] & NOT_GRAPHIC) {
        return BECH32_HRP_INVALID;
    }
    return has_both_cases(kinds | KIND[byte]) ? BECH32_HRP_MIXED_CASE : BECH32_OK;
}

/* The first of 11 to 15, of a part that is UTF-8. */
static uint32_t part_refusal(const uint8_t *hrp, size_t length) {
    if (length == 0) {
        return BECH32_HRP_EMPTY;
    }
    if (length > BECH32_MAX_HRP) {
        return BECH32_HRP_TOO_LONG;
    }
    unsigned kinds = 0;
    for (size_t i = 0; i < length; i++) {
        uint32_t number = byte_refusal(hrp[i], kinds);
        if (number != BECH32_OK) {
            return number;
        }
        kinds |= KIND[hrp[i]];
    }
    return BECH32_OK;
}

uint32_t hrp_refusal(const uint8_t *hrp, size_t length) {
    return is_utf8(hrp, length) ? part_refusal(hrp, length) : BECH32_NOT_UTF8;
}

uint32_t grammar_refusal(const uint8_t *text, size_t length) {
    if (!is_utf8(text, length)) {
        return BECH32_NOT_UTF8;
    }
    unsigned kinds;
    size_t end = end_of_strangers(text, length, &kinds);
    if (end > 0 && text[end - 1] != '1') {
        return BECH32_INVALID_CHARACTER;
    }
    if (has_both_cases(kinds | cases_of(text, end))) {
        return BECH32_MIXED_CASE;
    }
    return end == 0 ? BECH32_NO_SEPARATOR : part_refusal(text, end - 1);
}

uint32_t read_again(const uint8_t *text, size_t length, int has_version, uint64_t *words,
                    Reading *reading) {
    uint32_t number = grammar_refusal(text, length);
    if (number != BECH32_OK) {
        return number;
    }
    if (length > BECH32_MAX_TEXT) {
        return BECH32_TEXT_TOO_LONG;
    }
    Part part = read_high_bits(text, hrp_length_of(text, length), 0);
    read_text_behind(part, text, length, has_version, words, reading);
    return BECH32_OK;
}

size_t hrp_length_of(const uint8_t *text, size_t length) {
    while (text[length - 1] != '1') {
        length--;
    }
    return length - 1;
}

/* The first byte of the last character that is not of the alphabet. */
static size_t stranger_place(const uint8_t *text, size_t length) {
    unsigned kinds;
    size_t at = end_of_strangers(text, length, &kinds) - 1;
    while ((text[at] & 0xc0) == 0x80) {
        at--;
    }
    return at;
}

/* The first byte of a kind, or the length where there is none. */
static size_t first_of_kind(const uint8_t *bytes, size_t length, unsigned kind) {
    size_t at = 0;
    while (at < length && (KIND[bytes[at]] & kind) == 0) {
        at++;
    }
    return at;
}

/* The first letter with one of the other case before it. */
static size_t case_place(const uint8_t *text, size_t length) {
    size_t lower = first_of_kind(text, length, LOWER), upper = first_of_kind(text, length, UPPER);
    return lower > upper ? lower : upper;
}

size_t place_of(uint32_t number, const uint8_t *text, size_t length) {
    switch (number) {
    case BECH32_HRP_EMPTY:
    case BECH32_HRP_TOO_LONG: return hrp_length_of(text, length);
    case BECH32_HRP_NOT_ASCII:
    case BECH32_HRP_INVALID: return first_of_kind(text, length, NOT_GRAPHIC);
    case BECH32_INVALID_CHARACTER: return stranger_place(text, length);
    case BECH32_MIXED_CASE: return case_place(text, length);
    default: return length;
    }
}
