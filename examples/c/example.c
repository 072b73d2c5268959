/* Each function of bech32.h: encodes, decodes and tests texts, mends one, lists the texts near to mistyped ones,
 * writes and reads addresses, feeds an engine, and says what a refusal means. */
#include <ctype.h>
#include <stdio.h>
#include <string.h>

#include "bech32.h"

static void put_refusal(FILE *out, const char *what, uint32_t number) {
    uint8_t message[BECH32_MAX_MESSAGE];
    size_t message_length = 0;
    bech32_message(number, message, sizeof message, &message_length);
    fprintf(out, "%s: refusal %u, %.*s", what, (unsigned)number, (int)message_length, (char *)message);
}

/* Says why a text is refused, and where. With these four numbers one character is at fault, and bech32_fault
 * gives its place. With the others it gives a length: print no place. */
static void put_fault(const char *text) {
    size_t hrp_length, data_length, place;
    uint32_t number = bech32_check(BECH32_BECH32, (const uint8_t *)text, strlen(text), &hrp_length,
                                   &data_length);
    put_refusal(stdout, text, number);
    if (number == BECH32_HRP_NOT_ASCII || number == BECH32_HRP_INVALID ||
        number == BECH32_INVALID_CHARACTER || number == BECH32_MIXED_CASE) {
        bech32_fault(BECH32_BECH32, (const uint8_t *)text, strlen(text), &place);
        printf(": byte %u", (unsigned)place);
    }
    printf("\n");
}

static int has(const char *text, int (*is_one)(int)) {
    while (*text != 0 && !is_one((unsigned char)*text)) {
        text++;
    }
    return *text != 0;
}

/* The library writes lower case. A text that was typed in upper case is mended in upper case. */
static void keep_case(const char *typed, uint8_t *text, size_t length) {
    for (size_t i = 0; has(typed, isupper) && !has(typed, islower) && i < length; i++) {
        text[i] = (uint8_t)toupper(text[i]);
    }
}

/* Ends with a refusal that should not be. */
static int refused(const char *what, uint32_t number) {
    put_refusal(stderr, what, number);
    fprintf(stderr, "\n");
    return 1;
}

static void put_hex(const uint8_t *bytes, size_t length) {
    for (size_t i = 0; i < length; i++) {
        printf("%02x", bytes[i]);
    }
}

/* Bytes as a text, and back. */
static int texts(void) {
    const uint8_t part[] = {'a', 'b', 'c'}, data[] = {0xab, 0xab, 0xab, 0xab, 0xab};
    uint8_t text[BECH32_MAX_TEXT], hrp[BECH32_MAX_HRP], bytes[BECH32_MAX_BYTES];
    size_t text_length, hrp_length, bytes_length;
    uint32_t number;

    number = bech32_encode(BECH32_BECH32M, part, sizeof part, data, sizeof data, text, sizeof text,
                           &text_length);
    if (number != BECH32_OK) {
        return refused("encode", number);
    }
    number = bech32_decode(text, text_length, hrp, sizeof hrp, &hrp_length, bytes, sizeof bytes,
                           &bytes_length);
    if (number != BECH32_OK) {
        return refused("decode", number);
    }
    printf("%.*s: %.*s ", (int)text_length, (char *)text, (int)hrp_length, (char *)hrp);
    put_hex(bytes, bytes_length);
    printf("\n");
    return 0;
}

/* Texts that are refused, and how another is mended whose fourth character from the end is doubtful. */
static int corrections(void) {
    uint8_t mended[BECH32_MAX_TEXT], values[BECH32_MAX_LISTED];
    size_t locations[BECH32_MAX_LISTED], count, mended_length;
    uint32_t number;

    put_fault("a12uel5m");
    put_fault("x1b4n0q5v");

    const char *mistyped = "A12UEL5Q";
    const size_t erasures[] = {3};
    number = bech32_correct(BECH32_BECH32, (const uint8_t *)mistyped, strlen(mistyped), erasures, 1,
                            locations, BECH32_MAX_LISTED, values, BECH32_MAX_LISTED, &count, mended,
                            sizeof mended, &mended_length);
    if (number != BECH32_OK) {
        return refused("correct", number);
    }
    keep_case(mistyped, mended, mended_length);
    printf("%s:", mistyped);
    for (size_t i = 0; i < count; i++) {
        printf(" %u at %u,", (unsigned)values[i], (unsigned)locations[i]);
    }
    printf(" %.*s\n", (int)mended_length, (char *)mended);
    return 0;
}

/* The address near to one with two wrong characters; and the address that an edit makes of one with a missing
 * character, with what is done and where. The memory begins at a multiple of 16. */
static int near_addresses(void) {
    static uint8_t bytes[BECH32_NEAREST_PLAIN_MEMORY(BECH32_MAX_SEGWIT_TEXT) + 15u];
    static const char *const done[] = {"", "swapped", "left out", "put in"};
    bech32_memory memory = {bytes + (0u - (uintptr_t)bytes) % 16u, sizeof bytes - 15u};
    uint8_t texts[BECH32_NEAR_EDITS * (BECH32_MAX_SEGWIT_TEXT + 1)], kinds[BECH32_NEAR_EDITS];
    size_t locations[BECH32_NEAR_EDITS], count;
    uint32_t number;

    const char *mistyped = "bc1qw5q8d6qejxtdg4y5r3zarvary0c5xw7kv8f3t5";
    number = bech32_nearest(BECH32_BECH32, (const uint8_t *)mistyped, strlen(mistyped), NULL, 0,
                            BECH32_MAX_ERRORS, &memory, texts, sizeof texts, &count);
    if (number != BECH32_OK) {
        return refused("nearest", number);
    }
    for (size_t i = 0; i < count; i++) {
        printf("%s: %.*s\n", mistyped, (int)strlen(mistyped), (char *)texts + i * strlen(mistyped));
    }

    const char *shorter = "bc1qw508d6qejxtdg4y5r3zrvary0c5xw7kv8f3t4";
    number = bech32_near_edits(BECH32_BECH32, (const uint8_t *)shorter, strlen(shorter), &memory, kinds,
                               BECH32_NEAR_EDITS, locations, BECH32_NEAR_EDITS, texts, sizeof texts,
                               &count);
    if (number != BECH32_OK) {
        return refused("near_edits", number);
    }
    for (size_t i = 0, at = 0, length; i < count; i++, at += length) {
        length = strlen(shorter) + (kinds[i] == BECH32_PUT_IN) - (kinds[i] == BECH32_LEFT_OUT);
        printf("%s: %s at %u, %.*s\n", shorter, done[kinds[i]], (unsigned)locations[i], (int)length,
               (char *)texts + at);
    }
    return 0;
}

/* An address, and that of its program on the test network. */
static int addresses(void) {
    const char *address = "BC1QW508D6QEJXTDG4Y5R3ZARVARY0C5XW7KV8F3T4";
    uint8_t hrp[BECH32_MAX_HRP], program[BECH32_MAX_SEGWIT_PROGRAM], text[BECH32_MAX_SEGWIT_TEXT];
    size_t hrp_length, program_length, text_length;
    uint32_t version, number;

    number = bech32_segwit_decode((const uint8_t *)address, strlen(address), hrp, sizeof hrp,
                                  &hrp_length, &version, program, sizeof program, &program_length);
    if (number != BECH32_OK) {
        return refused("segwit_decode", number);
    }
    printf("%.*s version %u, ", (int)hrp_length, (char *)hrp, (unsigned)version);
    put_hex(program, program_length);

    number = bech32_segwit_encode((const uint8_t *)"tb", 2, version, program, program_length, text,
                                  sizeof text, &text_length);
    if (number != BECH32_OK) {
        return refused("segwit_encode", number);
    }
    printf("\n%.*s\n", (int)text_length, (char *)text);
    return 0;
}

/* The remainder of a12uel5l: the elements of its human-readable part, then those of its data part. */
static int remainder_of_a_text(void) {
    const uint8_t elements[] = {3, 0, 1, 10, 28, 25, 31, 20, 31};
    uint32_t residue, number;

    number = bech32_residue(BECH32_BECH32, elements, sizeof elements, &residue);
    if (number != BECH32_OK) {
        return refused("residue", number);
    }
    printf("a12uel5l: remainder %u, target %u\n", (unsigned)residue, (unsigned)BECH32_TARGET);
    return 0;
}

int main(void) {
    printf("bech32 %s\n", BECH32_VERSION);
    if (bech32_version() != BECH32_VERSION_NUMBER) {
        fprintf(stderr, "another version of the library is linked\n");
        return 1;
    }
    return texts() || corrections() || near_addresses() || addresses() || remainder_of_a_text();
}
