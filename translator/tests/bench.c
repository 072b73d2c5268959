/*
 * Calls of the C functions, as in docs/BENCHMARKS.md, to count their instructions.
 *
 *     bench              prints the rows
 *     bench ROW CALLS    makes CALLS calls of one, counted from 0
 */
#include <stdio.h>
#include <stdlib.h>
#include <string.h>

#include "bech32.h"
#include "codex32.h"

#if defined(__GNUC__)
#define ALIGNED_TO_16 __attribute__((aligned(16)))
#else
#define ALIGNED_TO_16
#endif

static const uint8_t program[20] = {0x75, 0x1e, 0x76, 0xe8, 0x19, 0x91, 0x96, 0xd4, 0x54, 0x94,
                                    0x1c, 0x45, 0xd1, 0xb3, 0xa3, 0x23, 0xf1, 0x43, 0x3b, 0xd6};
static uint8_t bytes[1024], text[1024], out[1024], other[1024], values[8];
static size_t bytes_length, text_length, length, length_2, locations[8], count, given;
static const size_t erasures[3] = {1, 9, 20};
static uint32_t checksum, version, word;
static const char *hrp = "bc";
static ALIGNED_TO_16 uint8_t lent[65536];

static uint32_t encode(void) {
    return bech32_encode(checksum, (const uint8_t *)hrp, strlen(hrp), bytes, bytes_length, out, sizeof out, &length);
}

static uint32_t decode(void) {
    return bech32_decode(text, text_length, out, 83, &length, other, sizeof other, &length_2);
}

static uint32_t check(void) {
    return bech32_check(checksum, text, text_length, &length, &length_2);
}

static uint32_t fault(void) {
    return bech32_fault(checksum, text, text_length, &length);
}

static uint32_t segwit_encode(void) {
    return bech32_segwit_encode((const uint8_t *)hrp, 2, version, bytes, bytes_length, out, 90, &length);
}

static uint32_t segwit_decode(void) {
    return bech32_segwit_decode(text, text_length, out, 83, &length, &word, other, 40, &length_2);
}

static uint32_t residue(void) {
    return bech32_residue(checksum, bytes, bytes_length, &word);
}

static uint32_t correct(void) {
    return bech32_correct(checksum, text, text_length, erasures, given, locations, 8, values, 8, &count, out, sizeof out,
                          &length);
}

static uint32_t nearest(void) {
    bech32_memory memory = {lent, sizeof lent};
    return bech32_nearest(checksum, text, text_length, erasures, 0, 2, &memory, out, sizeof out, &count);
}

static uint32_t parse(void) {
    return codex32_parse(text, text_length, &word, &version, &length);
}

static uint32_t propose(void) {
    codex32_memory memory = {lent, sizeof lent};
    return codex32_propose(text, text_length, &memory, out, 93, &length);
}

static uint32_t share(void) {
    return codex32_share(text, text_length, &word, other, &version, out, sizeof out, &length);
}

static uint32_t codex32_of_bytes(void) {
    return codex32_encode(2, (const uint8_t *)"test", 4, 'a', bytes, bytes_length, out, 127, &length);
}

static uint8_t set[9 * CODEX32_TEXT_SIZE];
static size_t lengths[9], set_length, set_count;

static uint32_t derive(void) {
    return codex32_derive('s', set, set_length, lengths, set_count, out, 127, &length);
}

static uint32_t propose_long(void) {
    codex32_memory memory = {lent, sizeof lent};
    return codex32_propose_long(text, text_length, &memory, out, 127, &length);
}

static uint32_t recover(void) {
    return codex32_recover(set, set_length, lengths, set_count, other, sizeof other, &length);
}

static uint8_t drawn[CODEX32_RANDOM_SIZE(2, 16)], dealt[3 * 127];

static uint32_t split(void) {
    return codex32_split(2, (const uint8_t *)"test", 4, bytes, bytes_length, drawn, sizeof drawn, 3, dealt, sizeof dealt,
                         &length);
}

/* As many strings as their threshold, of this many bytes. */
static void of_set(uint32_t threshold, size_t size) {
    static const uint8_t letters[] = "acdefghjk";
    for (set_length = set_count = 0; set_count < threshold; set_count++) {
        for (size_t i = 0; i < size; i++) {
            bytes[i] = (uint8_t)(i * 7 + 3 * set_count);
        }
        if (codex32_encode(threshold, (const uint8_t *)"test", 4, letters[set_count], bytes, size, set + set_length, 127,
                           &lengths[set_count])) {
            exit(1);
        }
        set_length += lengths[set_count];
    }
}

static void of_bytes(const char *part, uint32_t by, size_t size) {
    hrp = part, checksum = by, bytes_length = size;
    for (size_t i = 0; i < size; i++) {
        bytes[i] = size == 20 ? program[i] : (uint8_t)(i * 7 + 3);
    }
    if (bech32_encode(by, (const uint8_t *)part, strlen(part), bytes, size, text, sizeof text, &text_length)) {
        exit(1);
    }
}

static void of_text(const char *of, uint32_t by) {
    checksum = by, text_length = strlen(of);
    memcpy(text, of, text_length);
}

static void mistype(size_t places) {
    for (size_t i = 0; i < places; i++) {
        uint8_t *byte = text + text_length - 1 - erasures[i];
        *byte = *byte == 'q' ? 'p' : 'q';
    }
}

#define SHORT "bc1qw508d6qejxtdg4y5r3zarvary0c5xw7kv8f3t4"
#define LONG "bc1p0xlxvlhemja6c4dqv22uapctqupfhlxm9h8z3k2e72q4k9hcz7vqzk5jj0"
#define STRING "ms10testsxxxxxxxxxxxxxxxxxxxxxxxxxx4nzvca9cmczlw"
#define LONG_STRING                                                                                                \
    "ms100c8vsm32zxfguhpchtlupzry9x8gf2tvdw0s3jn54khce6mua7lqpzygsfjd6an074rxvcemlh8wu3tk925acdefghjklmnpqrstuvwxy06f" \
    "hpv80undvarhrak"

static const struct {
    const char *name;
    uint32_t (*call)(void);
} rows[] = {
    {"encode, 20 bytes", encode},
    {"encode, 632 bytes", encode},
    {"decode, 41 characters", decode},
    {"decode, 1023 characters", decode},
    {"check, 41 characters", check},
    {"fault, 41 characters, one wrong", fault},
    {"segwit_encode, 20 bytes", segwit_encode},
    {"segwit_encode, 32 bytes", segwit_encode},
    {"segwit_decode, 42 characters", segwit_decode},
    {"segwit_decode, 62 characters", segwit_decode},
    {"residue, 1000 elements", residue},
    {"correct, one error", correct},
    {"correct, three erasures", correct},
    {"correct, none", correct},
    {"nearest, two errors in 62", nearest},
    {"codex32_parse, 48 characters", parse},
    {"codex32_propose, four wrong", propose},
    {"codex32_share, 48 characters", share},
    {"codex32_encode, 16 bytes", codex32_of_bytes},
    {"codex32_derive, two of 16 bytes", derive},
    {"codex32_derive, nine of 64 bytes", derive},
    {"codex32_propose_long, four wrong", propose_long},
    {"codex32_recover, two of 16 bytes", recover},
    {"codex32_split, 16 bytes into three", split},
};
#define ROWS (int)(sizeof rows / sizeof *rows)

static void prepare(int row) {
    switch (row) {
    case 0: case 2: case 4: of_bytes("bc", 1, 20); break;
    case 1: of_bytes("abcd", 2, 632); break;
    case 3: of_bytes("abcd", 1, 632); break;
    case 5: of_bytes("bc", 1, 20), mistype(1); break;
    case 6: of_bytes("bc", 1, 20); break;
    case 7: of_bytes("bc", 1, 32), version = 1; break;
    case 8: of_text(SHORT, 1); break;
    case 9: of_text(LONG, 2); break;
    case 10:
        checksum = 1, bytes_length = 1000;
        for (int i = 0; i < 1000; i++) {
            bytes[i] = (uint8_t)(i * 11 % 32);
        }
        break;
    case 11: of_bytes("bc", 1, 20), mistype(1); break;
    case 12: of_bytes("bc", 1, 20), mistype(3), given = 3; break;
    case 13: of_bytes("bc", 1, 20), mistype(2); break;
    case 14: of_text(LONG, 2), mistype(2); break;
    case 15: of_text(STRING, 0); break;
    case 16: of_text(STRING, 0), text[15] = text[16] = text[46] = '?', text[23] = 'q'; break;
    case 17: of_text(STRING, 0); break;
    case 18: bytes_length = 16; break;
    case 19: of_set(2, 16); break;
    case 20: of_set(9, 64); break;
    case 21: of_text(LONG_STRING, 0), text[15] = text[16] = text[46] = '?', text[23] = 'q'; break;
    case 22: of_set(2, 16); break;
    default:
        bytes_length = 16;
        for (size_t i = 0; i < sizeof drawn; i++) {
            drawn[i] = (uint8_t)(i * 29 + 7);
        }
    }
}

int main(int words, char **argument) {
    if (words < 3) {
        for (int row = 0; row < ROWS; row++) {
            printf("%s\n", rows[row].name);
        }
        return 0;
    }
    int row = atoi(argument[1]);
    uint32_t number = 0;
    prepare(row);
    for (long left = atol(argument[2]); left > 0; left--) {
        number = rows[row].call();
    }
    printf("%s: %u\n", rows[row].name, (unsigned)number);
    return 0;
}
