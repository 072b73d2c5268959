/*
 * What random calls do not reach: where each access is tested, a text of 2^32 bytes is refused, and is not read; and after
 * a call of codex32 nothing is left on the library's stack, whatever the call answered.
 *
 * Built over the text of a library (LIBRARY names its file), for gcc or clang.
 */
#include <stdio.h>

#include LIBRARY

static int failed;
static ALIGNED(16) u8 lent[65536];
static u8 text[128], out[1024];
static size_t length = 7;
static uint32_t word = 7;

static void expect(int holds, const char *what) {
    if (!holds) {
        printf("%s: FAILED\n", what);
        failed = 1;
    }
}

#ifdef OF_CODEX32

#define STRING "ms10testsxxxxxxxxxxxxxxxxxxxxxxxxxx4nzvca9cmczlw"
#define LONG_STRING                                                                                                \
    "ms100c8vsm32zxfguhpchtlupzry9x8gf2tvdw0s3jn54khce6mua7lqpzygsfjd6an074rxvcemlh8wu3tk925acdefghjklmnpqrstuvwxy06f" \
    "hpv80undvarhrak"
#define LOOKED_AT 40000u
#define LOWER 1024u

static size_t text_length, room, memory_size;

/* Calls from LOWER bytes further down the stack, which no compiler leaves out. */
static __attribute__((noinline)) uint32_t lower(uint32_t (*volatile call)(void)) {
    volatile u8 bytes[LOWER];
    for (size_t i = 0; i < LOWER; i++) {
        bytes[i] = 1;
    }
    return call() + bytes[1] - 1u;
}

static uint32_t parse(void) {
    return codex32_parse(text, text_length, &word, &word, &length);
}

static uint32_t propose(void) {
    codex32_memory memory = {lent, memory_size};
    return codex32_propose(text, text_length, &memory, out, room, &length);
}

static uint32_t share(void) {
    return codex32_share(text, text_length, &word, out + 512, &word, out, room, &length);
}

static uint32_t encode(void) {
    return codex32_encode(2, (const u8 *)"test", 4, 'a', text, 16, out, room, &length);
}

static uint32_t encode_payload(void) {
    return codex32_encode_payload(2, (const u8 *)"test", 4, 'a', text + CODEX32_PAYLOAD_AT, text_length < 94 ? 26 : 103, out,
                                  room, &length);
}

static uint32_t derive(void) {
    return codex32_derive(CODEX32_SECRET_INDEX, text, text_length, &text_length, 1, out, room, &length);
}

/* The text's characters are the secret and the random bytes. */
static uint32_t split(void) {
    return codex32_split(2, (const u8 *)"test", 4, text, 16, text, 26, 2, out, 2 * room, &length);
}

static uint32_t recover(void) {
    return codex32_recover(text, text_length, &text_length, 1, out, room, &length);
}

static uint32_t propose_long(void) {
    codex32_memory memory = {lent, memory_size};
    return codex32_propose_long(text, text_length, &memory, out, room, &length);
}

/* The longest run of zeros that a call leaves on the stack, which had none. */
static __attribute__((noinline)) size_t zeros_after(uint32_t (*call)(void), uint32_t wanted) {
    u8 here;
    volatile u8 *low = (volatile u8 *)((uintptr_t)&here - LOOKED_AT);
    size_t run = 0, longest = 0;
    for (size_t i = 0; i < LOOKED_AT - LOWER / 2; i++) {
        low[i] = 0xa5;
    }
    uint32_t number = lower(call);
    for (size_t i = 0; i < LOOKED_AT - LOWER / 2; i++) {
        run = low[i] ? 0 : run + 1;
        longest = run > longest ? run : longest;
    }
    expect(number == wanted, "the answer to a string");
    return longest;
}

static void expect_zeros(uint32_t (*call)(void), uint32_t wanted, size_t stated) {
    size_t zeros = zeros_after(call, wanted);
    printf("%u: %u zeros of %u\n", (unsigned)wanted, (unsigned)zeros, (unsigned)stated);
    expect(zeros >= stated, "what a string leaves on the stack");
}

/* Calls of all functions with a text, and their answers. */
static void try_string(const char *of, uint32_t parsed, uint32_t proposed, uint32_t shared, uint32_t derived,
                       uint32_t proposed_long) {
    const uint32_t encoded = room < 48 ? CODEX32_NO_ROOM : CODEX32_OK;
    text_length = strlen(of);
    memcpy(text, of, text_length);
    expect_zeros(parse, parsed, stack_codex32_parse);
    expect_zeros(propose, proposed, stack_codex32_propose);
    expect_zeros(share, shared, stack_codex32_share);
    expect_zeros(encode, encoded, stack_codex32_encode);
    expect_zeros(encode_payload, shared == CODEX32_INVALID_CHARACTER ? shared : encoded, stack_codex32_encode_payload);
    expect_zeros(derive, derived, stack_codex32_derive);
    expect_zeros(split, encoded, stack_codex32_split);
    expect_zeros(recover, derived, stack_codex32_recover);
    expect_zeros(propose_long, proposed_long, stack_codex32_propose_long);
}

static void try_all(void) {
    const uint32_t ok = CODEX32_OK, bad_length = CODEX32_BAD_LENGTH, invalid = CODEX32_INVALID_CHARACTER;
    const uint32_t wrong = CODEX32_WRONG_CHECKSUM, no_room = CODEX32_NO_ROOM, no_memory = CODEX32_NO_MEMORY;
    room = 127, memory_size = sizeof lent;
    try_string(STRING, ok, ok, ok, ok, bad_length);
    try_string(LONG_STRING, bad_length, bad_length, ok, ok, ok);
    try_string("ms10testsxxx?xxxx?xxxxxxxxxxxx?xxxx4nzvca?cmczlw", invalid, ok, invalid, invalid, bad_length);
    try_string("ms10testsxxxqxxxxqxxxxqxxxqxxxqxxxx4nzvcaqcmczlw", wrong, CODEX32_NO_NEAREST, wrong, wrong, bad_length);
    room = 3;
    try_string(STRING, ok, no_room, no_room, no_room, bad_length);
    try_string(LONG_STRING, bad_length, bad_length, no_room, no_room, no_room);
    memory_size = 0;
    try_string(STRING, ok, no_memory, no_room, no_room, bad_length);
    try_string(LONG_STRING, bad_length, bad_length, no_room, no_room, no_memory);
}

static void try_long(size_t most) {
    codex32_memory memory = {lent, sizeof lent};
    expect(codex32_parse(text, most, &word, &word, &length) == CODEX32_NO_MEMORY, "codex32_parse");
    expect(codex32_propose(text, most, &memory, out, sizeof out, &length) == CODEX32_NO_MEMORY, "codex32_propose");
    expect(codex32_share(text, most, &word, out, &word, out, sizeof out, &length) == CODEX32_NO_MEMORY, "codex32_share");
    expect(codex32_derive('s', text, most, &text_length, 1, out, sizeof out, &length) == CODEX32_NO_MEMORY, "codex32_derive");
    expect(codex32_recover(text, most, &text_length, 1, out, sizeof out, &length) == CODEX32_NO_MEMORY, "codex32_recover");
    expect(codex32_propose_long(text, most, &memory, out, sizeof out, &length) == CODEX32_NO_MEMORY, "codex32_propose_long");
    expect(codex32_encode_payload(2, (const u8 *)"test", 4, 'a', text, most, out, sizeof out, &length) == CODEX32_NO_MEMORY,
           "codex32_encode_payload");
    expect(codex32_encode(2, text, most, 'a', text, 16, out, sizeof out, &length) == CODEX32_BAD_IDENTIFIER, "an identifier");
    expect(codex32_encode_payload(2, text, most, 'a', text, 26, out, sizeof out, &length) == CODEX32_BAD_IDENTIFIER,
           "an identifier beside a payload");
    expect(codex32_encode(2, (const u8 *)"test", 4, 'a', text, most, out, sizeof out, &length) == CODEX32_BAD_SIZE, "bytes");
    expect(codex32_split(2, text, most, text, 16, text, 26, 2, out, sizeof out, &length) == CODEX32_BAD_IDENTIFIER,
           "an identifier beside a secret");
    expect(codex32_split(2, (const u8 *)"test", 4, text, most, text, 26, 2, out, sizeof out, &length) == CODEX32_BAD_SIZE,
           "a secret");
    expect(codex32_split(2, (const u8 *)"test", 4, text, 16, text, most, 2, out, sizeof out, &length) == CODEX32_BAD_RANDOM,
           "random bytes");
    expect(codex32_split(2, (const u8 *)"test", 4, text, 16, text, 26, most, out, sizeof out, &length) == CODEX32_BAD_COUNT,
           "shares");
    expect(memory.start == lent && memory.size == sizeof lent, "the memory that is lent");
}

#else

static u8 other[1024];
static size_t length_2 = 7;

static void try_all(void) {
}

static void try_long(size_t most) {
    bech32_memory memory = {lent, sizeof lent};
    const uint32_t wanted = BECH32_NO_MEMORY;
    expect(bech32_encode(1, text, most, other, 1, out, sizeof out, &length) == wanted, "bech32_encode");
    expect(bech32_decode(text, most, out, 83, &length, other, 634, &length_2) == wanted, "bech32_decode");
    expect(bech32_check(1, text, most, &length, &length_2) == wanted, "bech32_check");
    expect(bech32_fault(1, text, most, &length) == wanted, "bech32_fault");
    expect(bech32_segwit_encode(text, most, 1, other, 32, out, 90, &length) == wanted, "bech32_segwit_encode");
    expect(bech32_segwit_decode(text, most, out, 83, &length, &word, other, 40, &length_2) == wanted, "bech32_segwit_decode");
    expect(bech32_residue(1, text, most, &word) == wanted, "bech32_residue");
    expect(bech32_correct(1, text, most, &length, 0, &length_2, 1, other, 4, &length, out, sizeof out, &length) == wanted,
           "bech32_correct");
    expect(bech32_nearest(1, text, most, &length, 0, 2, &memory, out, sizeof out, &length) == wanted, "bech32_nearest");
    expect(bech32_near_edits(1, text, most, &memory, other, 4, &length_2, 1, out, sizeof out, &length) == wanted,
           "bech32_near_edits");
    expect(memory.start == lent && memory.size == sizeof lent && length_2 == 7, "what is lent, and the last length");
}

#endif

int main(void) {
    try_all();
#ifdef MACHINE_IS_TESTED
    if (SIZE_MAX > 0xffffffffu) {
        memset(out, 1, sizeof out);
        word = 7, length = 7;
        try_long((size_t)0xffffffffu + 1);
        expect(word == 7 && length == 7 && out[0] == 1, "what stays as it was");
    }
#else
    (void)try_long;
#endif
    return failed;
}
