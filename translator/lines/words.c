/* Reads words, and puts what is said. */
#include "lines.h"

#include <stdlib.h>
#include <string.h>

#include "bech32.h"

int is_word(Word word, const char *text) {
    return word.length == strlen(text) && memcmp(word.bytes, text, word.length) == 0;
}

uint32_t checksum_of(Word word) {
    if (is_word(word, "bech32")) {
        return BECH32_BECH32;
    }
    return is_word(word, "bech32m") ? BECH32_BECH32M : 0;
}

uint32_t any_checksum_of(Word word) {
    if (is_word(word, "long-bech32")) {
        return BECH32_LONG_BECH32;
    }
    return is_word(word, "long-bech32m") ? BECH32_LONG_BECH32M : checksum_of(word);
}

int read_number(Word word, size_t most, size_t *number) {
    size_t found = 0;
    for (size_t i = 0; i < word.length; i++) {
        uint8_t digit = word.bytes[i];
        int has_leading_zero = i > 0 && found == 0;
        if (digit < '0' || '9' < digit || has_leading_zero || found > most) {
            return 0;
        }
        found = 10 * found + (size_t)(digit - '0');
    }
    *number = found;
    return word.length > 0 && found <= most;
}

int read_locations(Word word, size_t *locations, size_t *count) {
    size_t found = 0, start = 0;
    for (size_t i = 0; i <= word.length; i++) {
        if (i < word.length && word.bytes[i] != ',') {
            continue;
        }
        Word piece = {word.bytes + start, i - start};
        if (!read_number(piece, BECH32_MAX_TEXT - 1u, &locations[found])) {
            return 0;
        }
        found++;
        start = i + 1;
    }
    *count = found;
    return 1;
}

/* The value of a hexadecimal digit in either case, or 16. */
static unsigned digit_value(uint8_t digit) {
    if ('0' <= digit && digit <= '9') {
        return digit - (unsigned)'0';
    }
    unsigned letter = digit | 32u;
    return 'a' <= letter && letter <= 'f' ? letter - 'a' + 10u : 16u;
}

int read_hex(Word word, uint8_t *bytes, size_t *count) {
    *count = 0;
    if (is_word(word, "-")) {
        return 1;
    }
    if (word.length % 2 != 0) {
        return 0;
    }
    for (size_t i = 0; i < word.length; i += 2) {
        unsigned high = digit_value(word.bytes[i]), low = digit_value(word.bytes[i + 1]);
        if (high > 15 || low > 15) {
            return 0;
        }
        bytes[(*count)++] = (uint8_t)(16 * high + low);
    }
    return 1;
}

/* Makes room for more bytes, or returns 0. */
static int reserve(Out *out, size_t more) {
    if (out->has_failed) {
        return 0;
    }
    if (more > out->room - out->length) {
        size_t room = 2 * out->room + more;
        uint8_t *bytes = realloc(out->bytes, room);
        if (bytes == NULL) {
            out->has_failed = 1;
            return 0;
        }
        out->bytes = bytes;
        out->room = room;
    }
    return 1;
}

void put(Out *out, const uint8_t *bytes, size_t length) {
    if (length > 0 && reserve(out, length)) {
        memcpy(out->bytes + out->length, bytes, length);
        out->length += length;
    }
}

void put_text(Out *out, const char *text) {
    put(out, (const uint8_t *)text, strlen(text));
}

void put_number(Out *out, size_t number) {
    uint8_t digits[3 * sizeof number];
    size_t front = sizeof digits;
    do {
        digits[--front] = (uint8_t)('0' + number % 10);
        number /= 10;
    } while (number > 0);
    put(out, digits + front, sizeof digits - front);
}

void put_lowered(Out *out, const uint8_t *bytes, size_t length) {
    for (size_t i = 0; i < length; i++) {
        uint8_t byte = bytes[i];
        if ('A' <= byte && byte <= 'Z') {
            byte = (uint8_t)(byte | 32u);
        }
        put(out, &byte, 1);
    }
}

void put_hex(Out *out, const uint8_t *bytes, size_t length) {
    static const char digits[] = "0123456789abcdef";
    for (size_t i = 0; i < length; i++) {
        uint8_t pair[2] = {(uint8_t)digits[bytes[i] >> 4], (uint8_t)digits[bytes[i] & 15]};
        put(out, pair, sizeof pair);
    }
    if (length == 0) {
        put_text(out, "-");
    }
}
