/*
 * The instructions of calls on a Cortex-M3 board, by a clock that counts one each 40 of them (qemu with -icount shift=0). Prints
 * a line for each call: its function, what it is given, and how many. It fails where a call does not succeed.
 */
#include <stdio.h>
#include <stdlib.h>
#include <string.h>

#include "bech32.h"
#include "codex32.h"
#include "plain.h"

#define CONTROL (*(volatile uint32_t *)0xe000e010)
#define RELOAD (*(volatile uint32_t *)0xe000e014)
#define NOW (*(volatile uint32_t *)0xe000e018)

#define SHORT "bc1qw508d6qejxtdg4y5r3zarvary0c5xw7kv8f3t4"
#define LONG "bc1p0xlxvlhemja6c4dqv22uapctqupfhlxm9h8z3k2e72q4k9hcz7vqzk5jj0"
#define STRING "ms10testsxxxxxxxxxxxxxxxxxxxxxxxxxx4nzvca9cmczlw"

static uint8_t lent[16880] __attribute__((aligned(16)));
static uint8_t text[1024], out[1024], hrp[83], bytes[64], values[8], set[2 * CODEX32_TEXT_SIZE];
static size_t text_length, bytes_length, length, hrp_length, count, locations[8], lengths[2], erasures[3] = {1, 9, 20};
static uint32_t checksum, version, word;

static int encode(void) {
    return bech32_encode(checksum, (const uint8_t *)"bc", 2, bytes, bytes_length, out, 90, &length);
}

static int decode(void) {
    return bech32_decode(text, text_length, hrp, 83, &hrp_length, bytes, 64, &length);
}

static int check(void) {
    return bech32_check(checksum, text, text_length, &hrp_length, &length);
}

static int fault(void) {
    return bech32_fault(checksum, text, text_length, &length) != BECH32_INVALID_CHARACTER;
}

static int segwit_encode(void) {
    return bech32_segwit_encode((const uint8_t *)"bc", 2, version, bytes, bytes_length, out, 90, &length);
}

static int segwit_decode(void) {
    return bech32_segwit_decode(text, text_length, hrp, 83, &hrp_length, &version, bytes, 40, &bytes_length);
}

static int plain_encode(void) {
    return !plain_segwit_encode((char *)out, "bc", (int)version, bytes, bytes_length);
}

static int plain_decode(void) {
    int found;
    return !plain_segwit_decode(&found, bytes, &bytes_length, "bc", (const char *)text);
}

static int residue(void) {
    return bech32_residue(checksum, lent, 62, &word);
}

static int correct(void) {
    return bech32_correct(checksum, text, text_length, erasures, 3, locations, 8, values, 8, &count, out, sizeof out, &length);
}

static int nearest(void) {
    bech32_memory memory = {lent, sizeof lent};
    return bech32_nearest(checksum, text, text_length, erasures, 0, 2, &memory, out, sizeof out, &count);
}

static int share(void) {
    return codex32_share(text, text_length, &word, hrp, &version, out, 64, &length);
}

static int codex32_of_bytes(void) {
    return codex32_encode(2, (const uint8_t *)"test", 4, 'a', bytes, 16, out, 127, &length);
}

static int of_payload(void) {
    return codex32_encode_payload(2, (const uint8_t *)"test", 4, 'a', (const uint8_t *)STRING + 9, 26, out, 127, &length);
}

static int derive(void) {
    return codex32_derive('s', set, lengths[0] + lengths[1], lengths, 2, out, 127, &length);
}

static void of_text(const char *of, uint32_t by) {
    checksum = by, text_length = strlen(of);
    memcpy(text, of, text_length + 1);
}

static void must(int failed, const char *name) {
    if (failed) {
        printf("%s fails\n", name);
        exit(1);
    }
}

static void measure(const char *name, const char *given, int (*call)(void), unsigned calls) {
    must(call(), name);
    uint32_t before = NOW;
    for (unsigned i = 0; i < calls; i++) {
        call();
    }
    uint32_t ticks = (before - NOW) & 0xffffff;
    printf("%s\t%s\t%u\n", name, given, (unsigned)(ticks * 40ull / calls));
}

/* Of an address: the library's calls, and those of plain C, which put the same. */
static void measure_address(const char *of, const char *characters, const char *program) {
    static uint8_t put[91];
    of_text(of, 0);
    measure("bech32_segwit_decode", characters, segwit_decode, 200);
    measure("bech32_segwit_encode", program, segwit_encode, 200);
    memcpy(put, out, length);
    measure("plain_segwit_decode", characters, plain_decode, 200);
    measure("plain_segwit_encode", program, plain_encode, 200);
    must(length != text_length || memcmp(put, of, length) != 0 || strcmp((char *)out, of) != 0, of);
}

int main(void) {
    RELOAD = 0xffffff;
    NOW = 0;
    CONTROL = 5;
    measure_address(SHORT, "42 characters", "20 bytes");
    measure_address(LONG, "62 characters", "32 bytes");
    checksum = 2;
    measure("bech32_encode", "32 bytes", encode, 200);
    out[length] = 0;
    of_text((const char *)out, 2);
    measure("bech32_decode", "61 characters", decode, 200);
    of_text(LONG, 2);
    measure("bech32_check", "62 characters", check, 200);
    text[41] = 'b';
    measure("bech32_fault", "62 characters, one wrong", fault, 200);
    of_text(LONG, 2);
    text[52] = text[60] = text[41] = 'q';
    measure("bech32_correct", "three erasures in 62", correct, 200);
    measure("bech32_residue", "62 elements", residue, 200);
    of_text(LONG, 2);
    text[41] = 'y', text[20] = 'q';
    measure("bech32_nearest", "two errors in 62", nearest, 4);
    of_text(STRING, 0);
    measure("codex32_share", "48 characters", share, 100);
    measure("codex32_encode", "16 bytes", codex32_of_bytes, 100);
    measure("codex32_encode_payload", "26 characters", of_payload, 100);
    for (unsigned i = 0; i < 2; i++) {
        must(codex32_encode(2, (const uint8_t *)"test", 4, "ac"[i], bytes, 16, set + (i ? lengths[0] : 0), 127, &lengths[i]), "set");
    }
    measure("codex32_derive", "two of 16 bytes", derive, 20);
    return 0;
}
