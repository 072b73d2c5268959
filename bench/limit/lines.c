/*
 * Answers the lines of b32 (docs/PROGRAMS.md) by the calls of limit.h. Beside those of b32, for the test
 * alone, there is `fault CHECKSUM TEXT`: `fine`, or the number of the refusal and its place.
 */
#define _POSIX_C_SOURCE 200809L
#include <string.h>
#include <unistd.h>

#include "bytes.h"
#include "limit.h"
#include "text.h"

#define LINE_LIMIT 4096u
#define MOST_WORDS 4u
#define REPLY 2048u        /* the longest reply is shorter */
#define ROOM (1u << 16)    /* of each end */

/* The refusals of the program itself. */
#define LINE_TOO_LONG 1u
#define NO_COMMAND 3u
#define BAD_HEX 5u

typedef struct {
    const uint8_t *at;
    size_t length;
} Word;

static uint8_t output[ROOM + REPLY];
static size_t output_length;
static uint8_t DIGITS[256][2]; /* a byte as hexadecimal digits */
static uint8_t NIBBLES[256];   /* the value of a digit, or 255 */

/* Both tables. */
static void fill_digits(void) {
    static const char digits[] = "0123456789abcdef";
    memset(NIBBLES, 255, sizeof NIBBLES);
    for (unsigned i = 0; i < 256; i++) {
        DIGITS[i][0] = (uint8_t)digits[i >> 4];
        DIGITS[i][1] = (uint8_t)digits[i & 15];
    }
    for (uint8_t i = 0; i < 16; i++) {
        NIBBLES[(uint8_t)digits[i]] = i;
        NIBBLES[(uint8_t)(digits[i] & ~(i > 9 ? 32 : 0))] = i;
    }
}

/* Adds bytes to the replies. */
static void put(const void *bytes, size_t length) {
    memcpy(output + output_length, bytes, length);
    output_length += length;
}

/* Adds one byte. */
static void put_byte(uint8_t byte) {
    output[output_length++] = byte;
}

/* Adds a number in decimal. */
static void put_decimal(size_t number) {
    uint8_t digits[20];
    size_t at = sizeof digits;
    do {
        digits[--at] = (uint8_t)('0' + number % 10);
        number /= 10;
    } while (number > 0);
    put(digits + at, sizeof digits - at);
}

/* Adds bytes in hexadecimal, or `-` where there are none. */
static void put_hex(const uint8_t *bytes, size_t length) {
    if (length == 0) {
        put_byte('-');
    }
    for (size_t i = 0; i < length; i++) {
        memcpy(output + output_length + 2 * i, DIGITS[bytes[i]], 2);
    }
    output_length += 2 * length;
}

/* Adds a human-readable part in lower case. */
static void put_lower(const uint8_t *hrp, size_t length) {
    for (size_t i = 0; i < length; i++) {
        put_byte(lowered(hrp[i]));
    }
}

/* Whether a word is this one. */
static int is(Word word, const char *name) {
    return word.length == strlen(name) && memcmp(word.at, name, word.length) == 0;
}

/* Splits a line at its spaces. Answers how many words it has, or 0 where one is empty or they are too
 * many. */
static size_t split(const uint8_t *line, size_t length, Word *words) {
    const uint8_t *end = line + length;
    for (size_t count = 0; count < MOST_WORDS; count++) {
        const uint8_t *space = length == 0 ? NULL : memchr(line, ' ', length);
        words[count] = (Word){line, (size_t)((space == NULL ? end : space) - line)};
        if (words[count].length == 0) {
            return 0;
        }
        if (space == NULL) {
            return count + 1;
        }
        line = space + 1;
        length = (size_t)(end - line);
    }
    return 0;
}

/* The bytes of hexadecimal digits, or of `-`. Answers whether the word is such. */
static int read_hex(Word word, uint8_t *bytes, size_t *length) {
    uint8_t seen = 0;
    *length = is(word, "-") ? 0 : word.length / 2;
    for (size_t i = 0; i < *length; i++) {
        uint8_t high = NIBBLES[word.at[2 * i]], low = NIBBLES[word.at[2 * i + 1]];
        seen |= high | low;
        bytes[i] = (uint8_t)(high << 4 | low);
    }
    return seen < 16 && (word.length % 2 == 0 || is(word, "-"));
}

/* A number in decimal without leading zeros. Answers whether the word is one, up to the most. */
static int read_decimal(Word word, size_t most, size_t *number) {
    *number = 0;
    for (size_t i = 0; i < word.length; i++) {
        if (word.at[i] < '0' || word.at[i] > '9' || (i > 0 && *number == 0)) {
            return 0;
        }
        *number = 10 * *number + (word.at[i] - '0');
        if (*number > most) {
            return 0;
        }
    }
    return word.length > 0;
}

/* The locations of a word, with commas between them. Answers whether it is such. */
static int read_locations(Word word, size_t *locations, size_t *count) {
    const uint8_t *end = word.at + word.length;
    for (*count = 0;;) {
        const uint8_t *comma = memchr(word.at, ',', word.length);
        Word one = {word.at, (size_t)((comma == NULL ? end : comma) - word.at)};
        if (!read_decimal(one, BECH32_MAX_TEXT - 1, &locations[(*count)++])) {
            return 0;
        }
        if (comma == NULL) {
            return 1;
        }
        word = (Word){comma + 1, (size_t)(end - comma - 1)};
    }
}

/* The number of a checksum, or 0. */
static uint32_t checksum_of(Word word) {
    return is(word, "bech32") ? BECH32_BECH32 : is(word, "bech32m") ? BECH32_BECH32M : 0;
}

/* The functions of commands put the reply behind `ok `, and answer the number of the refusal, or 0. */

/* `encode CHECKSUM HRP HEX` */
static uint32_t encode(uint32_t checksum, Word hrp, Word hex) {
    uint8_t bytes[LINE_LIMIT / 2];
    size_t bytes_length, length;
    if (!read_hex(hex, bytes, &bytes_length)) {
        return BAD_HEX;
    }
    uint32_t number = limit_encode(checksum, hrp.at, hrp.length, bytes, bytes_length,
                                   output + output_length, BECH32_MAX_TEXT, &length);
    output_length += number == BECH32_OK ? length : 0;
    return number;
}

/* `decode TEXT` */
static uint32_t decode(Word text) {
    uint8_t hrp[BECH32_MAX_HRP], bytes[BECH32_MAX_BYTES];
    size_t hrp_length, length;
    uint32_t number = limit_decode(text.at, text.length, hrp, sizeof hrp, &hrp_length, bytes,
                                   sizeof bytes, &length);
    if (number == BECH32_OK) {
        put_lower(hrp, hrp_length);
        put_byte(' ');
        put_hex(bytes, length);
    }
    return number;
}

/* `segwit-encode HRP VERSION HEX` */
static uint32_t segwit_encode(Word hrp, Word word, Word hex) {
    uint8_t program[LINE_LIMIT / 2];
    size_t version, program_length, length;
    if (!read_decimal(word, 31, &version)) {
        return BECH32_BAD_NUMBER;
    }
    if (!read_hex(hex, program, &program_length)) {
        return BAD_HEX;
    }
    uint32_t number = limit_segwit_encode(hrp.at, hrp.length, (uint32_t)version, program,
                                          program_length, output + output_length,
                                          BECH32_MAX_SEGWIT_TEXT, &length);
    output_length += number == BECH32_OK ? length : 0;
    return number;
}

/* `segwit-decode TEXT` */
static uint32_t segwit_decode(Word text) {
    uint8_t hrp[BECH32_MAX_HRP], program[BECH32_MAX_SEGWIT_PROGRAM];
    size_t hrp_length, length;
    uint32_t version;
    uint32_t number = limit_segwit_decode(text.at, text.length, hrp, sizeof hrp, &hrp_length,
                                          &version, program, sizeof program, &length);
    if (number == BECH32_OK) {
        put_lower(hrp, hrp_length);
        put_byte(' ');
        put_decimal(version);
        put_byte(' ');
        put_hex(program, length);
    }
    return number;
}

/* `correct CHECKSUM TEXT [LOCATIONS]`: `fine` where the text is accepted, `none` where nothing mends
 * it. */
static uint32_t correct(uint32_t checksum, Word text, Word word) {
    size_t erasures[LINE_LIMIT / 2 + 1], erasures_length = 0;
    size_t locations[BECH32_MAX_LISTED], count, length;
    uint8_t values[BECH32_MAX_LISTED], mended[BECH32_MAX_TEXT];
    if (word.at != NULL && !read_locations(word, erasures, &erasures_length)) {
        return BECH32_BAD_NUMBER;
    }
    uint32_t number = limit_correct(checksum, text.at, text.length, erasures, erasures_length,
                                    locations, BECH32_MAX_LISTED, values, sizeof values, &count,
                                    mended, sizeof mended, &length);
    if (number == BECH32_NO_CORRECTION || (number == BECH32_OK && count == 0)) {
        output_length -= 3;
        put(number == BECH32_OK ? "fine" : "none", 4);
        return BECH32_OK;
    }
    for (size_t i = 0; number == BECH32_OK && i < count; i++) {
        put_decimal(locations[i]);
        put_byte(':');
        put_byte((uint8_t)ALPHABET[values[i]]);
        put_byte(' ');
    }
    put(mended, number == BECH32_OK ? length : 0);
    return number;
}

/* `fault CHECKSUM TEXT`: the number of the refusal, and its place where it has one. */
static uint32_t fault(uint32_t checksum, Word text) {
    size_t place = SIZE_MAX;
    uint32_t number = limit_fault(checksum, text.at, text.length, &place);
    output_length -= 3;
    if (number == BECH32_OK) {
        put("fine", 4);
        return BECH32_OK;
    }
    put_decimal(number);
    if (place != SIZE_MAX) {
        put(" at ", 4);
        put_decimal(place);
    }
    return BECH32_OK;
}

/* A command that names a checksum, in the second of its words. */
static uint32_t execute_by(uint32_t checksum, const Word *words, size_t count) {
    if (checksum == 0) {
        return NO_COMMAND;
    }
    if (count == 4 && is(words[0], "encode")) {
        return encode(checksum, words[2], words[3]);
    }
    if (count == 3 && is(words[0], "fault")) {
        return fault(checksum, words[2]);
    }
    if (is(words[0], "correct")) {
        return correct(checksum, words[2], count == 4 ? words[3] : (Word){NULL, 0});
    }
    return NO_COMMAND;
}

/* The command of a line. */
static uint32_t execute(const uint8_t *line, size_t length) {
    Word words[MOST_WORDS];
    if (length > LINE_LIMIT) {
        return LINE_TOO_LONG;
    }
    if (!is_utf8(line, length)) {
        return BECH32_NOT_UTF8;
    }
    size_t count = split(line, length, words);
    if (count == 2 && is(words[0], "decode")) {
        return decode(words[1]);
    }
    if (count == 2 && is(words[0], "segwit-decode")) {
        return segwit_decode(words[1]);
    }
    if (count == 4 && is(words[0], "segwit-encode")) {
        return segwit_encode(words[1], words[2], words[3]);
    }
    return count < 3 ? NO_COMMAND : execute_by(checksum_of(words[1]), words, count);
}

/* Adds the reply to a line. */
static void reply(const uint8_t *line, size_t length) {
    size_t before = output_length;
    put("ok ", 3);
    uint32_t number = execute(line, length);
    if (number != BECH32_OK) {
        output_length = before;
        put("err ", 4);
        put_decimal(number);
    }
    put_byte('\n');
}

/* Writes the replies that wait. */
static int flush(void) {
    for (size_t at = 0; at < output_length;) {
        ssize_t written = write(1, output + at, output_length - at);
        if (written <= 0) {
            return 0;
        }
        at += (size_t)written;
    }
    output_length = 0;
    return 1;
}

/* Replies to the finished lines of bytes, and answers how many bytes these are, or SIZE_MAX where the
 * replies cannot be written. */
static size_t reply_to_lines(const uint8_t *bytes, size_t length) {
    size_t at = 0;
    for (const uint8_t *end; (end = memchr(bytes + at, '\n', length - at)) != NULL;) {
        reply(bytes + at, (size_t)(end - bytes) - at);
        at = (size_t)(end - bytes) + 1;
        if (output_length > ROOM && !flush()) {
            return SIZE_MAX;
        }
    }
    return flush() ? at : SIZE_MAX;
}

/* Replies to each line. Of one that is too long only so much is kept that it stays too long. */
int main(void) {
    static uint8_t input[ROOM];
    size_t length = 0;
    ssize_t more;
    fill_digits();
    while ((more = read(0, input + length, sizeof input - length)) > 0) {
        length += (size_t)more;
        size_t done = reply_to_lines(input, length);
        if (done == SIZE_MAX) {
            return 1;
        }
        length -= done;
        memmove(input, input + done, length);
        length = smaller(length, LINE_LIMIT + 1);
    }
    if (length > 0) {
        reply(input, length);
    }
    return more < 0 || !flush();
}
