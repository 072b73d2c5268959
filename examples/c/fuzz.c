/*
 * Calls every function of bech32.h and of codex32.h with random and mistyped input and with buffers of every size.
 *
 *     fuzz CALLS SEED
 *
 * Each buffer stands between two pages that nobody may touch, at the end of the one or at the
 * beginning of the other, and the bytes around it are known. After each call: on a refusal buffers
 * and lengths are as they were; else the bytes behind what was written are as they were, and the
 * lengths fit the buffers. What is given to be read is as it was. A buffer that is too small is
 * refused (92) exactly where the call succeeds with larger ones; of what is near as much is put there
 * as fits. What was written is read back.
 *
 * The pointer of an empty text or buffer is null half of the time, as the headers allow.
 *
 * Built for the address and undefined-behaviour checks (see fuzz), where the bytes around a buffer
 * are marked for them too. It prints the calls and refusals of each function.
 *
 * With FIRST_CALLS_ALONE defined it calls the eight functions that bench/limit has too, and no other.
 */
#define _DEFAULT_SOURCE
#include <stdio.h>
#include <stdlib.h>
#include <string.h>
#include <sys/mman.h>

#include "bech32.h"
#include "codex32.h"
#include "refusals.h"

#if defined(__has_feature)
#if __has_feature(address_sanitizer)
#define MARKS 1
#endif
#endif
#if defined(__SANITIZE_ADDRESS__)
#define MARKS 1
#endif
#ifdef MARKS
#include <sanitizer/asan_interface.h>
#define FORBID(at, length) ASAN_POISON_MEMORY_REGION(at, length)
#define ALLOW(at, length) ASAN_UNPOISON_MEMORY_REGION(at, length)
#else
#define FORBID(at, length) ((void)(at), (void)(length))
#define ALLOW(at, length) ((void)(at), (void)(length))
#endif

#define AREA 4096u     /* the bytes between two pages that nobody may touch */
#define MOST 1100u     /* a text, a part or bytes have at most this many bytes here, most of the time */
#define NUMBERS 100u   /* refusals have numbers below this */

/* What was being called, for the message of a failure. */
static const char *called = "";
static unsigned long long calls;

static void fail(const char *what) {
    fprintf(stderr, "%s, call %llu: %s\n", called, calls, what);
    abort();
}

static void expect(int is_so, const char *what) {
    if (!is_so) {
        fail(what);
    }
}

/* A generator of numbers, the same for the same seed (SplitMix64). */
static uint64_t state;

static uint64_t next_number(void) {
    uint64_t z = state += UINT64_C(0x9e3779b97f4a7c15);
    z = (z ^ (z >> 30)) * UINT64_C(0xbf58476d1ce4e5b9);
    z = (z ^ (z >> 27)) * UINT64_C(0x94d049bb133111eb);
    return z ^ (z >> 31);
}

static size_t below(size_t n) {
    return (size_t)(next_number() % n);
}

static int percent(unsigned cases) {
    return below(100) < cases;
}

/* Bytes between two pages that nobody may touch, and a buffer among them. */
typedef struct {
    uint8_t *bytes;         /* AREA of them */
    uint8_t before[AREA];   /* what they were before the call */
    uint8_t *buffer;        /* null for an empty buffer, at times */
    size_t length;
} Area;

static void make_area(Area *area, size_t page) {
    size_t middle = (AREA + page - 1) / page * page;
    uint8_t *all = mmap(NULL, middle + 2 * page, PROT_NONE, MAP_PRIVATE | MAP_ANONYMOUS, -1, 0);
    expect(all != MAP_FAILED, "no memory");
    expect(middle == AREA, "a page is larger than a buffer");
    expect(mprotect(all + page, middle, PROT_READ | PROT_WRITE) == 0, "no memory");
    area->bytes = all + page;
}

/* A buffer of this length, of which the content is given or is what it happens to be. */
static void place(Area *area, const void *content, size_t length, size_t alignment) {
    size_t at = percent(70) ? AREA - length : below((AREA - length) / alignment + 1) * alignment;
    if (percent(20)) {
        at = 0;
    }
    ALLOW(area->bytes, AREA);
    memset(area->bytes, (int)below(256), AREA);
    if (content != NULL && length > 0) {
        memcpy(area->bytes + at, content, length);
    }
    memcpy(area->before, area->bytes, AREA);
    FORBID(area->bytes, AREA);
    ALLOW(area->bytes + at, length);
    area->buffer = length == 0 && percent(50) ? NULL : area->bytes + at;
    area->length = length;
}

/* The area is as it was but for this many bytes at the front of its buffer. */
static void expect_kept(Area *area, size_t written, const char *what) {
    ALLOW(area->bytes, AREA);
    if (written == 0) {
        expect(memcmp(area->bytes, area->before, AREA) == 0, what);
        return;
    }
    expect(written <= area->length && area->buffer != NULL, "more was written than there is room for");
    size_t at = (size_t)(area->buffer - area->bytes);
    expect(memcmp(area->bytes, area->before, at) == 0, what);
    at += written;
    expect(memcmp(area->bytes + at, area->before + at, AREA - at) == 0, what);
}

/* The areas of a call: two that are read, two that are written, and two lengths. */
static Area read_1, read_2, written_1, written_2, length_1, length_2;

static size_t *new_length(Area *area) {
    size_t any = (size_t)next_number();
    place(area, &any, sizeof any, sizeof any);
    return (size_t *)(void *)area->buffer;
}

static size_t length_in(Area *area) {
    size_t length;
    memcpy(&length, area->buffer, sizeof length);
    return length;
}

/* A number of bytes with which there is often, but not always, room for what is written. */
static size_t room(size_t usual) {
    switch (below(6)) {
    case 0: return below(MOST);
    case 1: return below(usual + 2);
    case 2: return below(8);
    default: return usual;
    }
}

/* What the calls of a function answered. */
typedef struct {
    const char *name;
    unsigned long long calls, numbers[NUMBERS];
    const uint32_t *refusals; /* those that the header lists, ended by 0 (refusals.h) */
} Function;

static Function encode = {"bech32_encode", 0, {0}, of_encode};
static Function decode = {"bech32_decode", 0, {0}, of_decode};
static Function decode_strict = {"bech32_decode_strict", 0, {0}, of_decode_strict};
static Function decode_elements = {"bech32_decode_elements", 0, {0}, of_decode_elements};
static Function encode_elements = {"bech32_encode_elements", 0, {0}, of_encode_elements};
static Function check = {"bech32_check", 0, {0}, of_check};
static Function fault = {"bech32_fault", 0, {0}, of_check};
static Function segwit_encode = {"bech32_segwit_encode", 0, {0}, of_segwit_encode};
static Function segwit_decode = {"bech32_segwit_decode", 0, {0}, of_segwit_decode};
static Function residue = {"bech32_residue", 0, {0}, of_residue};

static Function suggest_calls = {"bech32_suggest", 0, {0}, of_suggest};

static Function check_many_calls = {"bech32_check_many", 0, {0}, of_check_many};
static Function segwit_decode_many_calls = {"bech32_segwit_decode_many", 0, {0}, of_segwit_decode_many};
static Function segwit_encode_many_calls = {"bech32_segwit_encode_many", 0, {0}, of_segwit_encode_many};
static Function validity_of_calls = {"bech32_validity_of", 0, {0}, of_validity_of};

/* The sentences of the numbers. */
static Function message = {"bech32_message", 0, {0}, of_message};
static Function codex32_message_calls = {"codex32_message", 0, {0}, of_codex32_message};

static void begin(Function *function) {
    called = function->name;
    calls++;
}

/* Counts an answer, which must be one that the header lists. */
static void count(Function *function, uint32_t number) {
    const uint32_t *listed = function->refusals;
    while (*listed != 0 && *listed != number) {
        listed++;
    }
    expect(number == BECH32_OK || *listed != 0, "a refusal that the header does not list");
    function->calls++;
    function->numbers[number]++;
}

/* The answer with buffers that are large enough decides: with smaller ones it is 92. */
static void expect_number(uint32_t number, uint32_t ample, int fits) {
    expect(number == (ample == BECH32_OK && !fits ? BECH32_NO_ROOM : ample),
           "the answer is not that of larger buffers, or of buffers without room");
}

/* Input: a human-readable part, bytes, and a text, each with its length. */
static uint8_t part[AREA], data[AREA], text[AREA];
static size_t part_length, data_length, text_length;

static const char alphabet[] = "qpzry9x8gf2tvdw0s3jn54khce6mua7l";

static uint8_t lowered(uint8_t byte) {
    return byte >= 'A' && byte <= 'Z' ? (uint8_t)(byte + 32) : byte;
}

static void random_part(void) {
    static const char *known[] = {"bc", "tb", "bcrt", "BC", "a", "A", "1", "aB", "\xc3\xa9", "a b"};
    if (percent(50)) {
        const char *one = known[below(sizeof known / sizeof *known)];
        part_length = strlen(one);
        memcpy(part, one, part_length);
        return;
    }
    part_length = percent(80) ? 1 + below(20) : below(100);
    int any_byte = percent(3), is_upper = percent(20);
    for (size_t i = 0; i < part_length; i++) {
        uint8_t byte = (uint8_t)(33 + below(94));
        int is_letter = lowered(byte) >= 'a' && lowered(byte) <= 'z';
        part[i] = is_letter ? (uint8_t)(lowered(byte) - (is_upper ? 32 : 0)) : byte;
        if (any_byte) {
            part[i] = (uint8_t)below(256);
        }
    }
}

static void random_data(size_t usual) {
    data_length = percent(90) ? below(usual + 1) : below(MOST);
    for (size_t i = 0; i < data_length || i < BECH32_MAX_SEGWIT_PROGRAM; i++) {
        data[i] = (uint8_t)below(256);
    }
}

static uint32_t random_checksum(void) {
    return percent(95) ? 1 + (uint32_t)below(2) : (uint32_t)next_number();
}

static uint32_t random_version(void) {
    return percent(60) ? (uint32_t)below(2) : percent(90) ? (uint32_t)below(35) : (uint32_t)next_number();
}

/* The remainder of BIP-173's own program for a checksum. */
static uint32_t polymod(const uint8_t *values, size_t length) {
    static const uint32_t generator[5] = {0x3b6a57b2, 0x26508e6d, 0x1ea119fa, 0x3d4233dd, 0x2a1462b3};
    uint32_t word = 1;
    for (size_t i = 0; i < length; i++) {
        uint32_t top = word >> 25;
        word = (word & 0x1ffffff) << 5 ^ values[i];
        for (int bit = 0; bit < 5; bit++) {
            word ^= top >> bit & 1 ? generator[bit] : 0;
        }
    }
    return word;
}

/* The text of elements, as BIP-173's own program makes it: no rule of addresses is kept, or tested. */
static void text_of_elements(const uint8_t *elements, size_t length, uint32_t target) {
    static uint8_t values[AREA];
    size_t n = 0;
    for (size_t i = 0; i < part_length; i++) {
        values[n++] = lowered(part[i]) >> 5;
        text[i] = lowered(part[i]);
    }
    values[n++] = 0;
    for (size_t i = 0; i < part_length; i++) {
        values[n++] = lowered(part[i]) & 31;
    }
    memcpy(values + n, elements, length);
    memset(values + n + length, 0, 6);
    uint32_t sum = polymod(values, n + length + 6) ^ target;
    text_length = part_length;
    text[text_length++] = '1';
    for (size_t i = 0; i < length; i++) {
        text[text_length++] = (uint8_t)alphabet[elements[i]];
    }
    for (int i = 5; i >= 0; i--) {
        text[text_length++] = (uint8_t)alphabet[sum >> 5 * i & 31];
    }
}

static void random_elements(void) {
    static uint8_t elements[MOST];
    size_t length = percent(20) ? below(5) : percent(95) ? below(75) : below(MOST);
    for (size_t i = 0; i < length; i++) {
        elements[i] = (uint8_t)below(32);
    }
    if (length > 0 && percent(80)) {
        elements[0] &= 1;
        elements[length - 1] &= percent(50) ? 16 : 31;
    }
    int is_first = length > 0 && elements[0] == 0;
    text_of_elements(elements, length, is_first ? BECH32_TARGET : BECH32M_TARGET);
}

/* A text that is accepted, one that is one to four changes from such a text, or any bytes. */
static void random_text(void) {
    uint32_t number = BECH32_OK;
    random_part();
    random_data(60);
    switch (below(3)) {
    case 0:
        number = bech32_encode(1 + (uint32_t)below(2), part, part_length, data, data_length, text,
                               sizeof text, &text_length);
        break;
    case 1:
        data_length = percent(50) ? 20 + 12 * below(2) : 2 + below(39);
        number = bech32_segwit_encode(part, part_length, (uint32_t)below(3), data, data_length, text,
                                      sizeof text, &text_length);
        break;
    default:
        random_elements();
    }
    if (number != BECH32_OK || percent(8)) {
        text_length = percent(80) ? below(100) : below(MOST);
        for (size_t i = 0; i < text_length; i++) {
            text[i] = (uint8_t)alphabet[below(32)];
        }
        if (text_length > 0 && percent(90)) {
            text[below(text_length)] = '1';
        }
    }
    int is_upper = percent(20);
    for (size_t i = 0; is_upper && i < text_length; i++) {
        text[i] = text[i] >= 'a' && text[i] <= 'z' ? (uint8_t)(text[i] - 32) : text[i];
    }
    for (size_t i = percent(40) ? 0 : 1 + below(4); i > 0 && text_length > 0; i--) {
        uint8_t letter = (uint8_t)alphabet[below(32)];
        text[below(text_length)] = percent(85) ? letter : (uint8_t)below(256);
    }
    if (percent(3) && text_length >= 2) {
        memcpy(text + below(text_length - 1), "\xc3\xa9", 2);
    }
}

static int same_lowered(const uint8_t *a, const uint8_t *b, size_t length) {
    for (size_t i = 0; i < length; i++) {
        if (lowered(a[i]) != lowered(b[i])) {
            return 0;
        }
    }
    return 1;
}

static void try_encode(void) {
    static uint8_t ample[AREA], back_part[AREA], back[AREA];
    size_t length = 0, h = 0, n = 0;
    uint32_t checksum = random_checksum();
    begin(&encode);
    random_part();
    random_data(640);
    uint32_t expected = bech32_encode(checksum, part, part_length, data, data_length, ample,
                                      sizeof ample, &length);
    place(&read_1, part, part_length, 1);
    place(&read_2, data, data_length, 1);
    place(&written_1, NULL, room(expected == BECH32_OK ? length : BECH32_MAX_TEXT), 1);
    size_t *told = new_length(&length_1);
    uint32_t number =
        bech32_encode(checksum, read_1.buffer, part_length, read_2.buffer, data_length,
                      written_1.buffer, written_1.length, told);
    count(&encode, number);
    expect_number(number, expected, length <= written_1.length);
    expect_kept(&read_1, 0, "the human-readable part changed");
    expect_kept(&read_2, 0, "the bytes changed");
    expect_kept(&written_1, number == BECH32_OK ? length : 0, "the buffer changed elsewhere");
    expect_kept(&length_1, number == BECH32_OK ? sizeof length : 0, "the length changed");
    if (number != BECH32_OK) {
        return;
    }
    expect(length_in(&length_1) == length && length == part_length + 7 + (8 * data_length + 4) / 5,
           "the length of the text");
    expect(memcmp(written_1.buffer, ample, length) == 0, "another text");
    expect(bech32_check(checksum, ample, length, &h, &n) == BECH32_OK && h == part_length &&
               n == length - part_length - 7,
           "the text is not accepted");
    expect(bech32_decode(ample, length, back_part, sizeof back_part, &h, back, sizeof back, &n) ==
                   BECH32_OK &&
               h == part_length && n == data_length && memcmp(back, data, n) == 0 &&
               same_lowered(back_part, part, h),
           "the text is not decoded to what was encoded");
}

static void try_decode(void) {
    static uint8_t ample_part[AREA], ample[AREA];
    size_t h = 0, n = 0, unused;
    begin(&decode);
    random_text();
    uint32_t expected =
        bech32_decode(text, text_length, ample_part, sizeof ample_part, &h, ample, sizeof ample, &n);
    place(&read_1, text, text_length, 1);
    place(&written_1, NULL, room(expected == BECH32_OK ? h : BECH32_MAX_HRP), 1);
    place(&written_2, NULL, room(expected == BECH32_OK ? n : BECH32_MAX_BYTES), 1);
    size_t *told_1 = new_length(&length_1), *told_2 = new_length(&length_2);
    uint32_t number = bech32_decode(read_1.buffer, text_length, written_1.buffer, written_1.length,
                                    told_1, written_2.buffer, written_2.length, told_2);
    int is_ok = number == BECH32_OK;
    count(&decode, number);
    expect_number(number, expected, h <= written_1.length && n <= written_2.length);
    expect_kept(&read_1, 0, "the text changed");
    expect_kept(&written_1, is_ok ? h : 0, "the first buffer changed elsewhere");
    expect_kept(&written_2, is_ok ? n : 0, "the second buffer changed elsewhere");
    expect_kept(&length_1, is_ok ? sizeof h : 0, "the first length changed");
    expect_kept(&length_2, is_ok ? sizeof n : 0, "the second length changed");
    if (is_ok) {
        expect(length_in(&length_1) == h && length_in(&length_2) == n, "the lengths");
        expect(memcmp(written_1.buffer, text, h) == 0, "another human-readable part");
        expect(n == 0 || memcmp(written_2.buffer, ample, n) == 0, "other bytes");
    }
    expect((expected == BECH32_OK) ==
               (bech32_check(BECH32_BECH32, text, text_length, &unused, &unused) == BECH32_OK ||
                bech32_check(BECH32_BECH32M, text, text_length, &unused, &unused) == BECH32_OK),
           "bech32_check says otherwise");
}

/* Decodes by one of the two functions that take a checksum, and counts the answer. What a text is decoded to is
   encoded again by `encode_again` to that text, in lower case. */
static void try_decode_by(Function *function,
                          uint32_t (*decode_by)(uint32_t, const uint8_t *, size_t, uint8_t *, size_t, size_t *,
                                                uint8_t *, size_t, size_t *),
                          int (*encode_again)(uint32_t, const uint8_t *, size_t, const uint8_t *, size_t)) {
    static uint8_t ample_part[AREA], ample[AREA];
    size_t h = 0, n = 0, unused;
    uint32_t checksum = random_checksum();
    begin(function);
    random_text();
    uint32_t expected = decode_by(checksum, text, text_length, ample_part, sizeof ample_part, &h, ample,
                                  sizeof ample, &n);
    place(&read_1, text, text_length, 1);
    place(&written_1, NULL, room(expected == BECH32_OK ? h : BECH32_MAX_HRP), 1);
    place(&written_2, NULL, room(expected == BECH32_OK ? n : BECH32_MAX_ELEMENTS), 1);
    size_t *told_1 = new_length(&length_1), *told_2 = new_length(&length_2);
    uint32_t number = decode_by(checksum, read_1.buffer, text_length, written_1.buffer, written_1.length, told_1,
                                written_2.buffer, written_2.length, told_2);
    int is_ok = number == BECH32_OK;
    count(function, number);
    expect_number(number, expected, h <= written_1.length && n <= written_2.length);
    expect_kept(&read_1, 0, "the text changed");
    expect_kept(&written_1, is_ok ? h : 0, "the first buffer changed elsewhere");
    expect_kept(&written_2, is_ok ? n : 0, "the second buffer changed elsewhere");
    expect_kept(&length_1, is_ok ? sizeof h : 0, "the first length changed");
    expect_kept(&length_2, is_ok ? sizeof n : 0, "the second length changed");
    if (is_ok) {
        expect(length_in(&length_1) == h && length_in(&length_2) == n, "the lengths");
        expect(memcmp(written_1.buffer, text, h) == 0, "another human-readable part");
        expect(n == 0 || memcmp(written_2.buffer, ample, n) == 0, "other bytes");
        expect(encode_again(checksum, ample_part, h, ample, n), "another text has these parts");
    }
    expect(expected != BECH32_OK || bech32_check(checksum, text, text_length, &unused, &unused) == BECH32_OK,
           "bech32_check says otherwise");
}

static int is_text(const uint8_t *again, size_t length) {
    return length == text_length && same_lowered(again, text, length);
}

static int strictly_again(uint32_t checksum, const uint8_t *hrp, size_t h, const uint8_t *bytes, size_t n) {
    static uint8_t again[AREA];
    size_t length = 0;
    return bech32_encode(checksum, hrp, h, bytes, n, again, sizeof again, &length) == BECH32_OK &&
           is_text(again, length);
}

static void try_decode_strict(void) { try_decode_by(&decode_strict, bech32_decode_strict, strictly_again); }

static int in_elements_again(uint32_t checksum, const uint8_t *hrp, size_t h, const uint8_t *elements, size_t n) {
    static uint8_t again[AREA];
    size_t length = 0, where = 0;
    return bech32_encode_elements(checksum, hrp, h, elements, n, &where, again, sizeof again, &length) ==
               BECH32_OK &&
           is_text(again, length);
}

static void try_decode_elements(void) {
    try_decode_by(&decode_elements, bech32_decode_elements, in_elements_again);
}

static void try_encode_elements(void) {
    static uint8_t ample[AREA];
    size_t length = 0, where = AREA, h = 0, n = 0;
    uint32_t checksum = random_checksum();
    begin(&encode_elements);
    random_part();
    random_data(1016);
    for (size_t i = 0; i < data_length; i++) {
        data[i] = (uint8_t)(data[i] % 32);
    }
    if (data_length > 0 && percent(20)) {
        data[below(data_length)] = (uint8_t)(32 + below(224));
    }
    uint32_t expected = bech32_encode_elements(checksum, part, part_length, data, data_length, &where, ample,
                                               sizeof ample, &length);
    place(&read_1, part, part_length, 1);
    place(&read_2, data, data_length, 1);
    place(&written_1, NULL, room(expected == BECH32_OK ? length : BECH32_MAX_TEXT), 1);
    size_t *told_1 = new_length(&length_1), *told_2 = new_length(&length_2);
    uint32_t number = bech32_encode_elements(checksum, read_1.buffer, part_length, read_2.buffer, data_length,
                                             told_2, written_1.buffer, written_1.length, told_1);
    int is_ok = number == BECH32_OK, is_placed = number == BECH32_BAD_ELEMENT;
    count(&encode_elements, number);
    expect_number(number, expected, length <= written_1.length);
    expect_kept(&read_1, 0, "the human-readable part changed");
    expect_kept(&read_2, 0, "the elements changed");
    expect_kept(&written_1, is_ok ? length : 0, "the buffer changed elsewhere");
    expect_kept(&length_1, is_ok ? sizeof length : 0, "the length changed");
    expect_kept(&length_2, is_placed ? sizeof where : 0, "the place changed");
    if (is_placed) {
        expect(length_in(&length_2) == where && where < data_length && data[where] > 31, "the place");
        for (size_t i = 0; i < where; i++) {
            expect(data[i] <= 31, "an earlier byte is above 31");
        }
    }
    if (is_ok) {
        expect(length_in(&length_1) == length && length == part_length + 7 + data_length,
               "the length of the text");
        expect(memcmp(written_1.buffer, ample, length) == 0, "another text");
        expect(bech32_check(checksum, ample, length, &h, &n) == BECH32_OK && h == part_length && n == data_length,
               "the text is not accepted");
    }
}

static void try_check(void) {
    uint32_t checksum = random_checksum();
    begin(&check);
    random_text();
    place(&read_1, text, text_length, 1);
    size_t *told_1 = new_length(&length_1), *told_2 = new_length(&length_2);
    uint32_t number = bech32_check(checksum, read_1.buffer, text_length, told_1, told_2);
    int is_ok = number == BECH32_OK;
    count(&check, number);
    expect_kept(&read_1, 0, "the text changed");
    expect_kept(&length_1, is_ok ? sizeof(size_t) : 0, "the first length changed");
    expect_kept(&length_2, is_ok ? sizeof(size_t) : 0, "the second length changed");
    if (is_ok) {
        size_t h = length_in(&length_1), n = length_in(&length_2);
        expect(h >= 1 && h <= BECH32_MAX_HRP && h + 1 + n + 6 == text_length && text[h] == '1',
               "the lengths");
    }
}

/* Whether the fault of a text that is refused by this number may stand at a place. */
static int may_stand_at(uint32_t number, size_t at) {
    static const char alphabet[] = "qpzry9x8gf2tvdw0s3jn54khce6mua7lQPZRY9X8GF2TVDW0S3JN54KHCE6MUA7L";
    int byte = at < text_length ? text[at] : -1;
    switch (number) {
    case BECH32_HRP_EMPTY: return at == 0 && byte == '1';
    case BECH32_HRP_TOO_LONG: return at > BECH32_MAX_HRP && byte == '1';
    case BECH32_HRP_NOT_ASCII: return byte >= 0xc0;
    case BECH32_HRP_INVALID: return byte >= 0 && (byte < 33 || byte == 127);
    case BECH32_INVALID_CHARACTER:
        return byte == 0 || ((byte > 0 && byte < 0x80 && byte != '1' && strchr(alphabet, byte) == NULL) ||
                             byte >= 0xc0);
    case BECH32_MIXED_CASE: return (byte >= 'a' && byte <= 'z') || (byte >= 'A' && byte <= 'Z');
    default: return at == text_length;
    }
}

static void try_fault(void) {
    uint32_t checksum = random_checksum();
    size_t h, n;
    begin(&fault);
    random_text();
    place(&read_1, text, text_length, 1);
    size_t *told = new_length(&length_1);
    uint32_t number = bech32_fault(checksum, read_1.buffer, text_length, told);
    int has_place = number != BECH32_OK && number != BECH32_NOT_UTF8 && number != BECH32_BAD_NUMBER;
    count(&fault, number);
    expect(number == bech32_check(checksum, text, text_length, &h, &n), "bech32_check says otherwise");
    expect_kept(&read_1, 0, "the text changed");
    expect_kept(&length_1, has_place ? sizeof(size_t) : 0, "the place changed");
    expect(!has_place || may_stand_at(number, length_in(&length_1)), "another place");
}

static void try_segwit_encode(void) {
    static uint8_t ample[AREA], back_part[AREA], back[AREA];
    size_t length = 0, h = 0, n = 0;
    uint32_t version = random_version(), back_version = 99;
    begin(&segwit_encode);
    random_part();
    random_data(45);
    if (percent(60) && data_length >= 20) {
        data_length = data_length >= 32 ? 32 : 20;
    }
    uint32_t expected = bech32_segwit_encode(part, part_length, version, data, data_length, ample,
                                             sizeof ample, &length);
    place(&read_1, part, part_length, 1);
    place(&read_2, data, data_length, 1);
    place(&written_1, NULL, room(expected == BECH32_OK ? length : BECH32_MAX_SEGWIT_TEXT), 1);
    size_t *told = new_length(&length_1);
    uint32_t number =
        bech32_segwit_encode(read_1.buffer, part_length, version, read_2.buffer, data_length,
                             written_1.buffer, written_1.length, told);
    count(&segwit_encode, number);
    expect_number(number, expected, length <= written_1.length);
    expect_kept(&read_1, 0, "the human-readable part changed");
    expect_kept(&read_2, 0, "the program changed");
    expect_kept(&written_1, number == BECH32_OK ? length : 0, "the buffer changed elsewhere");
    expect_kept(&length_1, number == BECH32_OK ? sizeof length : 0, "the length changed");
    if (number != BECH32_OK) {
        return;
    }
    expect(length_in(&length_1) == length && length <= BECH32_MAX_SEGWIT_TEXT, "the length");
    expect(memcmp(written_1.buffer, ample, length) == 0, "another address");
    expect(bech32_segwit_decode(ample, length, back_part, sizeof back_part, &h, &back_version, back,
                                sizeof back, &n) == BECH32_OK &&
               h == part_length && back_version == version && n == data_length &&
               memcmp(back, data, n) == 0 && same_lowered(back_part, part, h),
           "the address is not decoded to what was encoded");
}

static void try_segwit_decode(void) {
    static uint8_t ample_part[AREA], ample[AREA], back[AREA];
    size_t h = 0, n = 0, length = 0;
    uint32_t ample_version = 0;
    begin(&segwit_decode);
    random_text();
    uint32_t expected = bech32_segwit_decode(text, text_length, ample_part, sizeof ample_part, &h,
                                             &ample_version, ample, sizeof ample, &n);
    place(&read_1, text, text_length, 1);
    place(&written_1, NULL, room(expected == BECH32_OK ? h : BECH32_MAX_HRP), 1);
    place(&written_2, NULL, room(expected == BECH32_OK ? n : BECH32_MAX_SEGWIT_PROGRAM), 1);
    uint32_t any = (uint32_t)next_number();
    place(&read_2, &any, sizeof any, sizeof any);
    size_t *told_1 = new_length(&length_1), *told_2 = new_length(&length_2);
    uint32_t number = bech32_segwit_decode(
        read_1.buffer, text_length, written_1.buffer, written_1.length, told_1,
        (uint32_t *)(void *)read_2.buffer, written_2.buffer, written_2.length, told_2);
    int is_ok = number == BECH32_OK;
    count(&segwit_decode, number);
    expect_number(number, expected, h <= written_1.length && n <= written_2.length);
    expect_kept(&read_1, 0, "the text changed");
    expect_kept(&read_2, is_ok ? sizeof any : 0, "the version changed");
    expect_kept(&written_1, is_ok ? h : 0, "the first buffer changed elsewhere");
    expect_kept(&written_2, is_ok ? n : 0, "the second buffer changed elsewhere");
    expect_kept(&length_1, is_ok ? sizeof h : 0, "the first length changed");
    expect_kept(&length_2, is_ok ? sizeof n : 0, "the second length changed");
    if (!is_ok) {
        return;
    }
    expect(length_in(&length_1) == h && length_in(&length_2) == n && n <= BECH32_MAX_SEGWIT_PROGRAM,
           "the lengths");
    expect(memcmp(read_2.buffer, &ample_version, sizeof any) == 0 && ample_version <= 16, "the version");
    expect(memcmp(written_2.buffer, ample, n) == 0, "another program");
    expect(bech32_segwit_encode(ample_part, h, ample_version, ample, n, back, sizeof back, &length) ==
                   BECH32_OK &&
               length == text_length && same_lowered(back, text, length),
           "the address is not the one of its parts");
}

static void try_residue(void) {
    uint32_t checksum = random_checksum(), any = (uint32_t)next_number(), told;
    int is_above = percent(20), has_above = 0;
    begin(&residue);
    random_data(80);
    for (size_t i = 0; i < data_length; i++) {
        data[i] &= 31;
    }
    if (is_above && data_length > 0) {
        data[below(data_length)] = (uint8_t)(32 + below(224));
        has_above = 1;
    }
    place(&read_1, data, data_length, 1);
    place(&written_1, &any, sizeof any, sizeof any);
    uint32_t number = bech32_residue(checksum, read_1.buffer, data_length,
                                     (uint32_t *)(void *)written_1.buffer);
    count(&residue, number);
    expect((number == BECH32_OK) == (!has_above && (checksum == 1 || checksum == 2)), "the answer");
    expect_kept(&read_1, 0, "the elements changed");
    expect_kept(&written_1, number == BECH32_OK ? sizeof any : 0, "the remainder changed");
    if (number == BECH32_OK) {
        memcpy(&told, written_1.buffer, sizeof told);
        expect(told == polymod(data, data_length), "another remainder");
    }
}

/* Mistyped texts. */
static Function correct = {"bech32_correct", 0, {0}, of_correct};
static Area erasures_area, locations_area, values_area, mended_area, length_3;

static void try_correct(void) {
    static uint8_t ample[AREA];
    size_t erasures[8], erasures_length = percent(60) ? 0 : below(6), ample_locations[8];
    size_t items = 0, length = 0, h = 0, n = 0;
    uint8_t ample_values[8];
    uint32_t checksum = random_checksum();
    begin(&correct);
    random_text();
    for (size_t i = 0; i < erasures_length; i++) {
        erasures[i] = percent(95) ? below(text_length + 1) : (size_t)next_number();
    }
    uint32_t expected = bech32_correct(checksum, text, text_length, erasures, erasures_length,
                                       ample_locations, 8, ample_values, 8, &items, ample,
                                       sizeof ample, &length);
    place(&read_1, text, text_length, 1);
    place(&erasures_area, erasures, erasures_length * sizeof *erasures, sizeof *erasures);
    place(&locations_area, NULL, below(6) * sizeof(size_t), sizeof(size_t));
    place(&values_area, NULL, below(6), 1);
    place(&mended_area, NULL, room(expected == BECH32_OK ? length : text_length), 1);
    size_t *told_items = new_length(&length_1), *told_length = new_length(&length_3);
    size_t locations_room = locations_area.length / sizeof(size_t);
    uint32_t number = bech32_correct(
        checksum, read_1.buffer, text_length, (const size_t *)(void *)erasures_area.buffer,
        erasures_length, (size_t *)(void *)locations_area.buffer, locations_room, values_area.buffer,
        values_area.length, told_items, mended_area.buffer, mended_area.length, told_length);
    int is_ok = number == BECH32_OK;
    count(&correct, number);
    expect_number(number, expected,
                  items <= locations_room && items <= values_area.length &&
                      length <= mended_area.length);
    expect_kept(&read_1, 0, "the text changed");
    expect_kept(&erasures_area, 0, "the erasures changed");
    expect_kept(&locations_area, is_ok ? items * sizeof(size_t) : 0, "the locations changed");
    expect_kept(&values_area, is_ok ? items : 0, "the values changed");
    expect_kept(&mended_area, is_ok ? length : 0, "the mended text's buffer changed elsewhere");
    expect_kept(&length_1, is_ok ? sizeof items : 0, "the number of items changed");
    expect_kept(&length_3, is_ok ? sizeof length : 0, "the length changed");
    if (!is_ok) {
        return;
    }
    expect(length_in(&length_1) == items && items <= 3, "the number of items");
    expect(length_in(&length_3) == length && length == text_length, "the length");
    expect(memcmp(mended_area.buffer, ample, length) == 0, "another mended text");
    expect(bech32_check(checksum, ample, length, &h, &n) == BECH32_OK, "the mended text is refused");
    for (size_t i = 0; i < items; i++) {
        expect(ample_locations[i] < n + 6 && ample_values[i] < 32, "the listing");
        expect(memcmp(locations_area.buffer + i * sizeof(size_t), &ample_locations[i],
                      sizeof(size_t)) == 0 &&
                   values_area.buffer[i] == ample_values[i],
               "another listing");
    }
}

/* Codex32 strings. */
static Function read_codex32 = {"codex32_parse", 0, {0}, of_codex32_parse};
static Area threshold_area, share_index_area;

/* A known string, one that is some changes from it, or any text. */
static void random_string(void) {
    static const char *known[] = {
        "ms10testsxxxxxxxxxxxxxxxxxxxxxxxxxx4nzvca9cmczlw",
        "ms12testaxxxxxxxxxxxxxxxxxxxxxxxxxxk2htcew89530d",
        "ms1qtestsxxxxxxxxxxxxxxxxxxxxxxxxxxq68ksv56lmaq5",
        "ms10testaxxxxxxxxxxxxxxxxxxxxxxxxxxzd568kp774rau",
        "ms13lwj58s47h5wpzp0pm9dmwl0n4084llte76ftpzr2phlsa93mxazghatx2hglr8p754666v",
    };
    if (percent(20)) {
        random_text();
        return;
    }
    const char *one = known[below(sizeof known / sizeof *known)];
    text_length = strlen(one);
    memcpy(text, one, text_length);
    for (size_t i = percent(50) ? 0 : 1 + below(4); i > 0; i--) {
        uint8_t letter = (uint8_t)alphabet[below(32)];
        text[below(text_length)] = percent(90) ? letter : (uint8_t)below(256);
    }
    if (percent(5)) {
        text_length = below(text_length + 1);
    }
}

static void try_codex32_parse(void) {
    uint32_t before[2] = {(uint32_t)next_number(), (uint32_t)next_number()};
    begin(&read_codex32);
    random_string();
    place(&read_1, text, text_length, 1);
    place(&threshold_area, &before[0], sizeof before[0], sizeof before[0]);
    place(&share_index_area, &before[1], sizeof before[1], sizeof before[1]);
    size_t *told = new_length(&length_1);
    uint32_t number = codex32_parse(read_1.buffer, text_length,
                                    (uint32_t *)(void *)threshold_area.buffer,
                                    (uint32_t *)(void *)share_index_area.buffer, told);
    int is_ok = number == CODEX32_OK;
    count(&read_codex32, number);
    expect_kept(&read_1, 0, "the text changed");
    expect_kept(&threshold_area, is_ok ? sizeof before[0] : 0, "the threshold changed");
    expect_kept(&share_index_area, is_ok ? sizeof before[1] : 0, "the share index changed");
    expect_kept(&length_1, is_ok ? sizeof(size_t) : 0, "the length changed");
    if (!is_ok) {
        return;
    }
    uint32_t threshold, share_index;
    memcpy(&threshold, threshold_area.buffer, sizeof threshold);
    memcpy(&share_index, share_index_area.buffer, sizeof share_index);
    expect(text_length >= CODEX32_MIN_TEXT && text_length <= CODEX32_MAX_TEXT &&
               length_in(&length_1) + CODEX32_PAYLOAD_AT + 13 == text_length,
           "the length of the payload");
    expect(text[CODEX32_THRESHOLD_AT] == '0' + threshold && threshold <= 9 && threshold != 1 &&
               text[CODEX32_SHARE_INDEX_AT] == share_index &&
               (threshold != 0 || lowered(text[CODEX32_SHARE_INDEX_AT]) == 's'),
           "the threshold or the share index");
}

static Function propose_codex32 = {"codex32_propose", 0, {0}, of_codex32_propose};
static Area memory_area;

/* Ample memory, and memory of any size that ends where nobody may touch. */
static _Alignas(16) uint8_t ample_memory[CODEX32_MEMORY(AREA)];
static _Alignas(16) uint8_t some_memory[CODEX32_MEMORY(AREA)];

static void try_codex32_propose(void) {
    static uint8_t ample[AREA];
    size_t length = 0;
    codex32_memory whole = {ample_memory, sizeof ample_memory};
    begin(&propose_codex32);
    random_string();
    for (size_t i = percent(50) ? 0 : 1 + below(9); i > 0 && text_length > 4; i--) {
        text[3 + below(text_length - 3)] = '?';
    }
    uint32_t expected =
        codex32_propose(text, text_length, &whole, ample, sizeof ample, &length);
    expect(whole.start == ample_memory && whole.size == sizeof ample_memory, "the memory was kept");
    expect(expected != CODEX32_NO_MEMORY, "the memory that the header states does not suffice");
    int is_small = percent(30);
    size_t enough = CODEX32_MEMORY(text_length);
    size_t size = is_small ? below(enough) : enough;
    codex32_memory memory = {some_memory + (sizeof some_memory - size) / 16 * 16, size};
    FORBID(some_memory, sizeof some_memory);
    ALLOW(memory.start, size);
    place(&read_1, text, text_length, 1);
    place(&memory_area, &memory, sizeof memory, sizeof(size_t));
    place(&written_1, NULL, room(expected == CODEX32_OK ? length : text_length), 1);
    size_t *told = new_length(&length_1);
    uint32_t number = codex32_propose(read_1.buffer, text_length,
                                      (codex32_memory *)(void *)memory_area.buffer, written_1.buffer,
                                      written_1.length, told);
    int is_ok = number == CODEX32_OK;
    count(&propose_codex32, number);
    if (number == CODEX32_NO_MEMORY) {
        expect(is_small && (expected == CODEX32_OK || expected == CODEX32_NO_NEAREST),
               "want of memory in place of a refusal");
    } else {
        expect_number(number, expected, length <= written_1.length);
    }
    expect_kept(&read_1, 0, "the text changed");
    expect_kept(&memory_area, 0, "the memory was kept");
    expect_kept(&written_1, is_ok ? length : 0, "the buffer changed elsewhere");
    expect_kept(&length_1, is_ok ? sizeof length : 0, "the length changed");
    if (is_ok) {
        expect(length_in(&length_1) == length && length == text_length, "the length");
        expect(memcmp(written_1.buffer, ample, length) == 0, "another text");
    }
}

/* Strings of either length. Random headers and bytes, of which a string is mostly made. */
static Function read_share = {"codex32_share", 0, {0}, of_codex32_share};
static Function encode_codex32 = {"codex32_encode", 0, {0}, of_codex32_encode};
static Function encode_payload = {"codex32_encode_payload", 0, {0}, of_codex32_encode_payload};
static Function derive_codex32 = {"codex32_derive", 0, {0}, of_codex32_derive};
static Function split_codex32 = {"codex32_split", 0, {0}, of_codex32_split};
static Function recover_codex32 = {"codex32_recover", 0, {0}, of_codex32_recover};
static Function propose_long_codex32 = {"codex32_propose_long", 0, {0}, of_codex32_propose_long};
static Area identifier_area, lengths_area;

static uint8_t name[CODEX32_IDENTIFIER_LENGTH];

static uint32_t random_threshold(void) {
    return percent(90) ? (uint32_t)below(10) : (uint32_t)next_number();
}

static uint32_t random_index(uint32_t threshold) {
    if (threshold == 0 && percent(80)) {
        return CODEX32_SECRET_INDEX;
    }
    return percent(95) ? (uint32_t)(uint8_t)alphabet[below(32)]
                       : percent(50) ? (uint32_t)below(256) : (uint32_t)next_number();
}

static void random_name(void) {
    for (size_t i = 0; i < sizeof name; i++) {
        name[i] = (uint8_t)alphabet[below(32)];
    }
}

static void random_secret(void) {
    random_data(64);
    data_length = percent(60) ? 16 + below(29) : percent(70) ? 63 + below(2) : data_length;
}

/* A string of either length, one with six bits left over, or what random_string makes. */
static void random_share(void) {
    if (percent(4)) {
        text_length = 52;
        memcpy(text, "ms12xh04fm5amh7k7ay0jj7mgh3ndf4zdx0dmxgdrhz38hawaewk", text_length);
        return;
    }
    uint32_t threshold = random_threshold();
    random_name();
    random_secret();
    if (percent(30) || codex32_encode(threshold, name, sizeof name, random_index(threshold), data,
                                      data_length, text, sizeof text, &text_length) != CODEX32_OK) {
        random_string();
        return;
    }
    for (size_t i = percent(60) ? 0 : 1 + below(5); i > 0; i--) {
        text[below(text_length)] = (uint8_t)alphabet[below(32)];
    }
}

static void try_codex32_share(void) {
    static uint8_t ample[AREA];
    uint8_t ample_name[CODEX32_IDENTIFIER_LENGTH];
    uint32_t before[2] = {(uint32_t)next_number(), (uint32_t)next_number()};
    uint32_t threshold = 0, share_index = 0;
    size_t length = 0;
    begin(&read_share);
    random_share();
    uint32_t expected = codex32_share(text, text_length, &threshold, ample_name, &share_index, ample,
                                      CODEX32_BYTES_SIZE, &length);
    expect(expected != CODEX32_NO_ROOM, "the room that the header states does not suffice");
    place(&read_1, text, text_length, 1);
    place(&threshold_area, &before[0], sizeof before[0], sizeof before[0]);
    place(&share_index_area, &before[1], sizeof before[1], sizeof before[1]);
    place(&identifier_area, NULL, sizeof ample_name, 1);
    place(&written_1, NULL, room(expected == CODEX32_OK ? length : CODEX32_BYTES_SIZE), 1);
    size_t *told = new_length(&length_1);
    uint32_t number = codex32_share(
        read_1.buffer, text_length, (uint32_t *)(void *)threshold_area.buffer, identifier_area.buffer,
        (uint32_t *)(void *)share_index_area.buffer, written_1.buffer, written_1.length, told);
    int is_ok = number == CODEX32_OK;
    count(&read_share, number);
    expect_number(number, expected, length <= written_1.length);
    expect_kept(&read_1, 0, "the text changed");
    expect_kept(&threshold_area, is_ok ? sizeof before[0] : 0, "the threshold changed");
    expect_kept(&share_index_area, is_ok ? sizeof before[1] : 0, "the share index changed");
    expect_kept(&identifier_area, is_ok ? sizeof ample_name : 0, "the identifier changed");
    expect_kept(&written_1, is_ok ? length : 0, "the buffer changed elsewhere");
    expect_kept(&length_1, is_ok ? sizeof length : 0, "the length changed");
    if (!is_ok) {
        return;
    }
    expect(length_in(&length_1) == length && memcmp(written_1.buffer, ample, length) == 0, "other bytes");
    expect(text[CODEX32_THRESHOLD_AT] == '0' + threshold &&
               lowered(text[CODEX32_SHARE_INDEX_AT]) == share_index &&
               same_lowered(text + CODEX32_IDENTIFIER_AT, ample_name, sizeof ample_name),
           "another header");
    /* Made again of what was told, it has the same characters but for the bits that are left over. */
    size_t again = 0, payload = text_length - 9 - (text_length <= CODEX32_MAX_TEXT ? 13 : 15);
    expect(codex32_encode(threshold, ample_name, sizeof ample_name, share_index, ample, length, data,
                          sizeof data, &again) == CODEX32_OK &&
               again == CODEX32_ENCODED_SIZE(length) &&
               same_lowered(text, data, CODEX32_PAYLOAD_AT + (8 * length) / 5) &&
               again >= CODEX32_PAYLOAD_AT + payload,
           "another string is made of what was told");
}

static void try_codex32_encode(void) {
    static uint8_t ample[AREA];
    size_t length = 0, name_length = percent(95) ? sizeof name : below(sizeof name);
    uint32_t threshold = random_threshold(), share_index = random_index(threshold);
    begin(&encode_codex32);
    random_name();
    random_secret();
    if (percent(5)) {
        name[below(sizeof name)] = (uint8_t)below(256);
    }
    uint32_t expected = codex32_encode(threshold, name, name_length, share_index, data, data_length,
                                       ample, CODEX32_TEXT_SIZE, &length);
    expect(expected != CODEX32_NO_ROOM, "the room that the header states does not suffice");
    place(&read_1, name, name_length, 1);
    place(&read_2, data, data_length, 1);
    place(&written_1, NULL, room(expected == CODEX32_OK ? length : CODEX32_TEXT_SIZE), 1);
    size_t *told = new_length(&length_1);
    uint32_t number = codex32_encode(threshold, read_1.buffer, name_length, share_index, read_2.buffer,
                                     data_length, written_1.buffer, written_1.length, told);
    int is_ok = number == CODEX32_OK;
    count(&encode_codex32, number);
    expect_number(number, expected, length <= written_1.length);
    expect_kept(&read_1, 0, "the identifier changed");
    expect_kept(&read_2, 0, "the bytes changed");
    expect_kept(&written_1, is_ok ? length : 0, "the buffer changed elsewhere");
    expect_kept(&length_1, is_ok ? sizeof length : 0, "the length changed");
    if (!is_ok) {
        return;
    }
    uint8_t back_name[CODEX32_IDENTIFIER_LENGTH], back[CODEX32_BYTES_SIZE];
    uint32_t back_threshold, back_index;
    size_t back_length;
    expect(length_in(&length_1) == length && length == CODEX32_ENCODED_SIZE(data_length) &&
               memcmp(written_1.buffer, ample, length) == 0,
           "another text");
    expect(codex32_share(ample, length, &back_threshold, back_name, &back_index, back, sizeof back,
                         &back_length) == CODEX32_OK &&
               back_threshold == threshold && same_lowered(back_name, name, sizeof name) &&
               back_index == lowered((uint8_t)share_index) && back_length == data_length &&
               memcmp(back, data, data_length) == 0,
           "the text is not read as what it was made of");
}

/* Random characters of a payload, mostly as many as bytes have, in either case, and with some mistake at
 * times. */
static void random_payload(void) {
    size_t bytes = percent(70) ? 16 + below(29) : 63 + below(2);
    data_length = percent(80) ? (8 * bytes + 4) / 5 : percent(80) ? below(110) : below(MOST);
    int in_upper_case = percent(20);
    for (size_t i = 0; i < data_length; i++) {
        uint8_t letter = (uint8_t)alphabet[below(32)];
        data[i] = in_upper_case && letter >= 'a' ? (uint8_t)(letter - 32) : letter;
    }
    if (data_length > 0 && percent(15)) {
        uint8_t *one = &data[below(data_length)];
        *one = percent(50) ? (uint8_t)below(256) : *one >= 'a' ? (uint8_t)(*one - 32) : lowered(*one);
    }
}

static void try_codex32_encode_payload(void) {
    static uint8_t ample[AREA];
    size_t length = 0, name_length = percent(97) ? sizeof name : below(sizeof name);
    uint32_t threshold = random_threshold(), share_index = random_index(threshold);
    begin(&encode_payload);
    random_name();
    random_payload();
    uint32_t expected = codex32_encode_payload(threshold, name, name_length, share_index, data,
                                               data_length, ample, CODEX32_TEXT_SIZE, &length);
    expect(expected != CODEX32_NO_ROOM, "the room that the header states does not suffice");
    place(&read_1, name, name_length, 1);
    place(&read_2, data, data_length, 1);
    place(&written_1, NULL, room(expected == CODEX32_OK ? length : CODEX32_TEXT_SIZE), 1);
    size_t *told = new_length(&length_1);
    uint32_t number = codex32_encode_payload(threshold, read_1.buffer, name_length, share_index,
                                             read_2.buffer, data_length, written_1.buffer,
                                             written_1.length, told);
    int is_ok = number == CODEX32_OK;
    count(&encode_payload, number);
    expect_number(number, expected, length <= written_1.length);
    expect_kept(&read_1, 0, "the identifier changed");
    expect_kept(&read_2, 0, "the characters changed");
    expect_kept(&written_1, is_ok ? length : 0, "the buffer changed elsewhere");
    expect_kept(&length_1, is_ok ? sizeof length : 0, "the length changed");
    if (!is_ok) {
        return;
    }
    uint32_t back_threshold, back_index;
    size_t payload_length = data_length;
    expect(length_in(&length_1) == length && memcmp(written_1.buffer, ample, length) == 0 &&
               length == CODEX32_PAYLOAD_AT + data_length + (data_length <= 71 ? 13 : 15),
           "another text");
    if (length <= CODEX32_MAX_TEXT) {
        expect(codex32_parse(ample, length, &back_threshold, &back_index, &payload_length) == CODEX32_OK &&
                   back_threshold == threshold && back_index == lowered((uint8_t)share_index) &&
                   payload_length == data_length,
               "the text is not read as what it was made of");
    }
    uint8_t back_name[CODEX32_IDENTIFIER_LENGTH], back[CODEX32_BYTES_SIZE];
    size_t back_length;
    expect(same_lowered(ample + CODEX32_IDENTIFIER_AT, name, sizeof name) &&
               same_lowered(ample + CODEX32_PAYLOAD_AT, data, data_length) &&
               codex32_share(ample, length, &back_threshold, back_name, &back_index, back, sizeof back,
                             &back_length) == CODEX32_OK &&
               back_length == 5 * data_length / 8,
           "the text has another payload");
}

/* Texts of one set, at most times, one behind another, with their lengths. */
static size_t lengths[40], texts_count;

static void random_texts(void) {
    uint32_t threshold = percent(70) ? 2 + (uint32_t)below(8) : percent(50) ? 0 : random_threshold();
    size_t at = below(32);
    text_length = 0;
    random_name();
    data_length = percent(80) ? 16 + below(29) : 63 + below(2);
    texts_count = threshold == 0 ? 1 : percent(80) && threshold <= 9 ? threshold : below(40);
    size_t other = percent(10) ? below(10) : 40;
    for (size_t i = 0; i < texts_count; i++) {
        size_t length = 0;
        if (i == other) {
            name[0] = name[0] == 'q' ? 'p' : 'q';
        }
        uint32_t index = threshold == 0 ? CODEX32_SECRET_INDEX : (uint32_t)(uint8_t)alphabet[(at + i) % 32];
        for (size_t j = 0; j < data_length; j++) {
            data[j] = (uint8_t)below(256);
        }
        if (codex32_encode(threshold, name, sizeof name, index, data, data_length,
                           text + text_length, AREA - text_length, &length) != CODEX32_OK) {
            length = text_length + 50 < AREA ? below(50) : 0;
            memset(text + text_length, 'q', length);
        }
        lengths[i] = length;
        text_length += length;
    }
}

/* Some mistake in them. */
static void mistake_in_texts(void) {
    if (texts_count == 0) {
        return;
    }
    switch (below(7)) {
    case 0: lengths[below(texts_count)] += 1 + below(3); break;
    case 1: lengths[below(texts_count)] = (size_t)next_number(); break;
    case 2: texts_count = below(texts_count); break;
    case 3: text_length -= lengths[--texts_count]; break;
    case 4:
        if (text_length > 0) {
            text[below(text_length)] = (uint8_t)below(256);
        }
        break;
    case 5:
        if (texts_count > 1 && lengths[0] == lengths[1]) {
            memcpy(text, text + lengths[0], lengths[0]);
        }
        break;
    default:
        if (text_length + lengths[0] <= AREA && texts_count < 40) {
            memmove(text + lengths[0], text, text_length);
            text_length += lengths[0];
            memmove(lengths + 1, lengths, texts_count++ * sizeof *lengths);
        }
    }
}

static void try_codex32_derive(void) {
    static uint8_t ample[AREA];
    size_t length = 0;
    begin(&derive_codex32);
    random_texts();
    if (percent(50)) {
        mistake_in_texts();
    }
    uint32_t share_index = percent(30) ? CODEX32_SECRET_INDEX : random_index(2);
    uint32_t expected = codex32_derive(share_index, text, text_length, lengths, texts_count, ample,
                                       CODEX32_TEXT_SIZE, &length);
    expect(expected != CODEX32_NO_ROOM, "the room that the header states does not suffice");
    place(&read_1, text, text_length, 1);
    place(&lengths_area, lengths, texts_count * sizeof *lengths, sizeof *lengths);
    place(&written_1, NULL, room(expected == CODEX32_OK ? length : CODEX32_TEXT_SIZE), 1);
    size_t *told = new_length(&length_1);
    uint32_t number = codex32_derive(share_index, read_1.buffer, text_length,
                                     (const size_t *)(const void *)lengths_area.buffer, texts_count,
                                     written_1.buffer, written_1.length, told);
    int is_ok = number == CODEX32_OK;
    count(&derive_codex32, number);
    expect_number(number, expected, length <= written_1.length);
    expect_kept(&read_1, 0, "the texts changed");
    expect_kept(&lengths_area, 0, "their lengths changed");
    expect_kept(&written_1, is_ok ? length : 0, "the buffer changed elsewhere");
    expect_kept(&length_1, is_ok ? sizeof length : 0, "the length changed");
    if (!is_ok) {
        return;
    }
    expect(length_in(&length_1) == length && length == lengths[0] &&
               memcmp(written_1.buffer, ample, length) == 0,
           "another text");
    /* In place of the last text, it gives that back, where there is none to spare. */
    size_t before = text_length - lengths[texts_count - 1], back_length = 0;
    uint32_t threshold = (uint32_t)text[CODEX32_THRESHOLD_AT] - '0', last = text[before + 8];
    if (texts_count != (threshold == 0 ? 1 : threshold)) {
        return;
    }
    static uint8_t back[AREA];
    uint8_t kept[CODEX32_TEXT_SIZE];
    memcpy(kept, text + before, length);
    memcpy(text + before, ample, length);
    number = codex32_derive(last, text, text_length, lengths, texts_count, back, sizeof back,
                            &back_length);
    int is_another = 1;
    for (size_t i = 0; i + 1 < texts_count; i++) {
        is_another = is_another && lowered(text[i * length + 8]) != lowered((uint8_t)share_index);
    }
    expect(number == (is_another ? CODEX32_OK : CODEX32_INDEX_TWICE), "it is not taken in place of a text");
    expect(!is_another || (back_length == length && same_lowered(back, kept, length)),
           "another text comes back");
}

/* The texts of a set, some mistake in them at times, or strings with six bits left over. */
static void random_set(void) {
    static const char *of_two[] = {"ms12xh04fm5amh7k7ay0jj7mgh3ndf4zdx0dmxgdrhz38hawaewk",
                                   "ms12xh04azr4k7e2n9c0twmg5yqd8lup3vxs6hj7gh6sdaqwtg68"};
    static const char *alone[] = {"ms10xh04szr4k7e2n9c0twmg5yqd8lup3vxs6hjtq8gu9wgjv3s5"};
    random_texts();
    if (percent(40)) {
        mistake_in_texts();
    }
    if (percent(4)) {
        text_length = 0;
        texts_count = 1 + below(2);
        for (size_t i = 0; i < texts_count; i++) {
            lengths[i] = strlen(alone[0]);
            memcpy(text + text_length, texts_count == 1 ? alone[i] : of_two[i], lengths[i]);
            text_length += lengths[i];
        }
    }
}

static void try_codex32_recover(void) {
    static uint8_t derived[AREA], ample[AREA];
    uint8_t any_name[CODEX32_IDENTIFIER_LENGTH];
    uint32_t threshold, share_index;
    size_t length = 0, derived_length = 0, again = 0;
    begin(&recover_codex32);
    random_set();
    /* The bytes are those of the secret's string. */
    uint32_t expected = codex32_derive(CODEX32_SECRET_INDEX, text, text_length, lengths, texts_count, derived,
                                       sizeof derived, &derived_length);
    if (expected == CODEX32_OK) {
        expected = codex32_share(derived, derived_length, &threshold, any_name, &share_index, ample,
                                 CODEX32_BYTES_SIZE, &length);
    }
    place(&read_1, text, text_length, 1);
    place(&lengths_area, lengths, texts_count * sizeof *lengths, sizeof *lengths);
    place(&written_1, NULL, room(expected == CODEX32_OK ? length : CODEX32_BYTES_SIZE), 1);
    size_t *told = new_length(&length_1);
    uint32_t number = codex32_recover(read_1.buffer, text_length,
                                      (const size_t *)(const void *)lengths_area.buffer, texts_count,
                                      written_1.buffer, written_1.length, told);
    int is_ok = number == CODEX32_OK;
    count(&recover_codex32, number);
    expect_number(number, expected, length <= written_1.length);
    expect_kept(&read_1, 0, "the texts changed");
    expect_kept(&lengths_area, 0, "their lengths changed");
    expect_kept(&written_1, is_ok ? length : 0, "the buffer changed elsewhere");
    expect_kept(&length_1, is_ok ? sizeof length : 0, "the length changed");
    expect(!is_ok || (length_in(&length_1) == length && memcmp(written_1.buffer, ample, length) == 0),
           "other bytes than those of the secret's string");
    expect(codex32_recover(text, text_length, lengths, texts_count, ample, CODEX32_BYTES_SIZE, &again) ==
               expected,
           "the room that the header states does not suffice");
}

/* A secret to split: the random bytes, and the indices of its shares. */
static uint8_t drawn[AREA];
static size_t drawn_length;
static const char share_indices[] = "acdefghjklmnpqrtuvwxyz023456789";

static int is_name(size_t length) {
    int has_lower = 0, has_upper = 0;
    for (size_t i = 0; i < length; i++) {
        if (name[i] == 0 || strchr(alphabet, lowered(name[i])) == NULL) {
            return 0;
        }
        has_lower = has_lower || (name[i] >= 'a' && name[i] <= 'z');
        has_upper = has_upper || (name[i] >= 'A' && name[i] <= 'Z');
    }
    return length == sizeof name && !(has_lower && has_upper);
}

/* Whether random bytes in `drawn` are all equal. */
static int are_equal(void) {
    size_t same = 0;
    while (same < drawn_length && drawn[same] == drawn[0]) {
        same++;
    }
    return same == drawn_length && drawn_length >= 2;
}

/* What the header says of a secret in `data` and random bytes in `drawn`. */
static uint32_t split_refusal(uint32_t threshold, size_t name_length, size_t shares) {
    if (threshold == 1 || threshold > 9) {
        return CODEX32_BAD_THRESHOLD;
    }
    if (!is_name(name_length)) {
        return CODEX32_BAD_IDENTIFIER;
    }
    if (threshold == 0) {
        return CODEX32_BAD_SHARE_INDEX;
    }
    if ((data_length < 16 || data_length > 44) && data_length != 63 && data_length != 64) {
        return CODEX32_BAD_SIZE;
    }
    if (shares < threshold || shares > CODEX32_MAX_SPLIT) {
        return CODEX32_BAD_COUNT;
    }
    if (drawn_length != CODEX32_RANDOM_SIZE(threshold, data_length)) {
        return CODEX32_BAD_RANDOM;
    }
    return are_equal() ? CODEX32_EQUAL_RANDOM : CODEX32_OK;
}

/* The shares are those that the other functions make: by the random characters, and derived. */
static void expect_shares(uint32_t threshold, const uint8_t *shares, size_t shares_count, size_t length) {
    uint8_t set[9 * CODEX32_TEXT_SIZE], payload[CODEX32_TEXT_SIZE], one[CODEX32_TEXT_SIZE];
    size_t set_lengths[9], characters = (8 * data_length + 4) / 5, n = 0, any = below(shares_count);
    for (uint32_t i = 0; i < threshold; i++) {
        set_lengths[i] = length;
    }
    for (size_t i = 0; i + 1 < threshold; i++) {
        for (size_t j = 0; j < characters; j++) {
            payload[j] = (uint8_t)alphabet[drawn[i * characters + j] & 31];
        }
        expect(codex32_encode_payload(threshold, name, sizeof name, (uint8_t)share_indices[i], payload, characters,
                                      set + i * length, sizeof one, &n) == CODEX32_OK &&
                   n == length && memcmp(set + i * length, shares + i * length, length) == 0,
               "a share is not that of the random bytes");
    }
    expect(codex32_encode(threshold, name, sizeof name, CODEX32_SECRET_INDEX, data, data_length,
                          set + (threshold - 1) * length, sizeof one, &n) == CODEX32_OK &&
               n == length,
           "the secret has no string");
    for (size_t i = threshold - 1; i < shares_count; i++) {
        if (i == any || i + 1 == shares_count) {
            expect(codex32_derive((uint8_t)share_indices[i], set, threshold * length, set_lengths, threshold, one,
                                  sizeof one, &n) == CODEX32_OK &&
                       n == length && memcmp(one, shares + i * length, length) == 0,
                   "a share is not the derived one");
        }
    }
}

/* As many of the shares as the threshold, or some more, recover the secret, in whatever order they come. */
static void expect_secret(uint32_t threshold, const uint8_t *shares, size_t shares_count, size_t length) {
    static uint8_t some[AREA];
    uint8_t back[CODEX32_BYTES_SIZE];
    size_t order[CODEX32_MAX_SPLIT] = {0}, some_lengths[CODEX32_MAX_SPLIT], n = 0;
    size_t more = percent(70) ? 0 : below(shares_count - threshold + 1), taken = threshold + more;
    for (size_t i = 0; i < shares_count; i++) {
        size_t at = below(i + 1);
        order[i] = order[at];
        order[at] = i;
    }
    for (size_t i = 0; i < taken; i++) {
        memcpy(some + i * length, shares + order[i] * length, length);
        some_lengths[i] = length;
    }
    expect(codex32_recover(some, taken * length, some_lengths, taken, back, sizeof back, &n) == CODEX32_OK &&
               n == data_length && memcmp(back, data, n) == 0,
           "shares do not recover the secret");
    expect(codex32_recover(some, (threshold - 1) * length, some_lengths, threshold - 1, back, sizeof back, &n) ==
               CODEX32_TOO_FEW_SHARES,
           "fewer shares than the threshold are not refused");
}

static void random_drawn(uint32_t threshold) {
    int is_known = threshold >= 2 && threshold <= 9 && data_length <= 64;
    drawn_length = is_known && percent(95) ? CODEX32_RANDOM_SIZE(threshold, data_length) : below(MOST);
    for (size_t i = 0; i < drawn_length; i++) {
        drawn[i] = (uint8_t)next_number();
    }
    /* At times nobody filled them, or all of them but one. */
    if (drawn_length > 0 && percent(10)) {
        uint8_t other = drawn[0];
        memset(drawn, (uint8_t)next_number(), drawn_length);
        drawn[below(drawn_length)] = percent(50) ? drawn[0] : other;
    }
}

/* A name in either case, and with some mistake at times. */
static void random_written_name(void) {
    int is_upper = percent(20);
    random_name();
    for (size_t i = 0; is_upper && i < sizeof name; i++) {
        name[i] = name[i] >= 'a' ? (uint8_t)(name[i] - 32) : name[i];
    }
    if (percent(5)) {
        name[below(sizeof name)] = (uint8_t)below(256);
    }
}

static void try_codex32_split(void) {
    static uint8_t ample[AREA];
    size_t length = 0, name_length = percent(97) ? sizeof name : below(sizeof name);
    uint32_t threshold = percent(90) ? 2 + (uint32_t)below(8) : random_threshold();
    size_t shares = percent(80) ? threshold + below(4) : percent(80) ? below(40) : (size_t)next_number();
    begin(&split_codex32);
    random_written_name();
    random_secret();
    random_drawn(threshold);
    uint32_t expected = codex32_split(threshold, name, name_length, data, data_length, drawn, drawn_length,
                                      shares, ample, sizeof ample, &length);
    expect(expected == split_refusal(threshold, name_length, shares), "another answer than the header's");
    size_t size = expected == CODEX32_OK ? shares * length : 0;
    place(&identifier_area, name, name_length, 1);
    place(&read_1, data, data_length, 1);
    place(&read_2, drawn, drawn_length, 1);
    place(&written_1, NULL, room(expected == CODEX32_OK ? size : CODEX32_TEXT_SIZE), 1);
    size_t *told = new_length(&length_1);
    uint32_t number =
        codex32_split(threshold, identifier_area.buffer, name_length, read_1.buffer, data_length, read_2.buffer,
                      drawn_length, shares, written_1.buffer, written_1.length, told);
    int is_ok = number == CODEX32_OK;
    count(&split_codex32, number);
    expect_number(number, expected, size <= written_1.length);
    expect_kept(&identifier_area, 0, "the identifier changed");
    expect_kept(&read_1, 0, "the secret changed");
    expect_kept(&read_2, 0, "the random bytes changed");
    expect_kept(&written_1, is_ok ? size : 0, "the buffer changed elsewhere");
    expect_kept(&length_1, is_ok ? sizeof length : 0, "the length changed");
    if (!is_ok) {
        return;
    }
    expect(length_in(&length_1) == length && length == CODEX32_ENCODED_SIZE(data_length) &&
               memcmp(written_1.buffer, ample, size) == 0,
           "other shares");
    expect_shares(threshold, ample, shares, length);
    expect_secret(threshold, ample, shares, length);
}

static void try_codex32_propose_long(void) {
    static uint8_t ample[AREA];
    size_t length = 0;
    codex32_memory whole = {ample_memory, sizeof ample_memory};
    begin(&propose_long_codex32);
    random_share();
    for (size_t i = percent(50) ? 0 : 1 + below(9); i > 0 && text_length > 4; i--) {
        text[3 + below(text_length - 3)] = '?';
    }
    uint32_t expected =
        codex32_propose_long(text, text_length, &whole, ample, sizeof ample, &length);
    expect(whole.start == ample_memory && whole.size == sizeof ample_memory, "the memory was kept");
    expect(expected != CODEX32_NO_MEMORY, "the memory that the header states does not suffice");
    int is_small = percent(30);
    size_t enough = CODEX32_MEMORY(text_length);
    size_t size = is_small ? below(enough) : enough;
    codex32_memory memory = {some_memory + (sizeof some_memory - size) / 16 * 16, size};
    FORBID(some_memory, sizeof some_memory);
    ALLOW(memory.start, size);
    place(&read_1, text, text_length, 1);
    place(&memory_area, &memory, sizeof memory, sizeof(size_t));
    place(&written_1, NULL, room(expected == CODEX32_OK ? length : text_length), 1);
    size_t *told = new_length(&length_1);
    uint32_t number = codex32_propose_long(read_1.buffer, text_length,
                                           (codex32_memory *)(void *)memory_area.buffer,
                                           written_1.buffer, written_1.length, told);
    int is_ok = number == CODEX32_OK;
    count(&propose_long_codex32, number);
    if (number == CODEX32_NO_MEMORY) {
        expect(is_small && (expected == CODEX32_OK || expected == CODEX32_NO_NEAREST),
               "want of memory in place of a refusal");
    } else {
        expect_number(number, expected, length <= written_1.length);
    }
    expect_kept(&read_1, 0, "the text changed");
    expect_kept(&memory_area, 0, "the memory was kept");
    expect_kept(&written_1, is_ok ? length : 0, "the buffer changed elsewhere");
    expect_kept(&length_1, is_ok ? sizeof length : 0, "the length changed");
    if (is_ok) {
        expect(length_in(&length_1) == length && length == text_length, "the length");
        expect(memcmp(written_1.buffer, ample, length) == 0, "another text");
    }
}

/* Texts near to a mistyped one: few errors and erasures, since many take long. */
static Function nearest = {"bech32_nearest", 0, {0}, of_nearest};

static void expect_near(uint32_t checksum, const uint8_t *found, size_t errors, const size_t *erasures,
                        size_t erasures_length) {
    size_t h, n, different = 0;
    expect(bech32_check(checksum, found, text_length, &h, &n) == BECH32_OK, "a near text is refused");
    for (size_t i = 0; i < text_length; i++) {
        int is_erased = 0;
        for (size_t j = 0; j < erasures_length; j++) {
            is_erased = is_erased || erasures[j] == text_length - 1 - i;
        }
        different += !is_erased && lowered(text[i]) != found[i];
    }
    expect(different <= errors && same_lowered(found, text, h + 1), "a text that is not near");
}

#define NEAREST 110u
static _Alignas(16) uint8_t near_memory[BECH32_NEAREST_MEMORY(NEAREST)];

static void try_nearest(void) {
    static uint8_t ample[BECH32_NEAREST_TEXTS(NEAREST) * NEAREST];
    size_t erasures[4], all = 0, errors = percent(95) ? below(3) : below(5);
    size_t erasures_length = errors < 3 ? below(4) : (size_t)percent(10);
    uint32_t checksum = random_checksum();
    begin(&nearest);
    random_text();
    text_length = text_length > NEAREST ? NEAREST : text_length;
    bech32_memory whole = {near_memory, BECH32_NEAREST_MEMORY(text_length)};
    for (size_t i = 0; i < erasures_length; i++) {
        erasures[i] = percent(95) ? below(text_length + 1) : (size_t)next_number();
    }
    uint32_t expected = bech32_nearest(checksum, text, text_length, erasures, erasures_length, errors,
                                       &whole, ample, BECH32_NEAREST_TEXTS(text_length) * text_length,
                                       &all);
    expect(whole.start == near_memory && whole.size == BECH32_NEAREST_MEMORY(text_length),
           "the memory was kept");
    expect(expected != BECH32_NO_MEMORY && expected != BECH32_NO_ROOM, "memory or room does not suffice");
    size_t size = percent(30) ? below(sizeof some_memory) : sizeof some_memory;
    bech32_memory memory = {some_memory + (sizeof some_memory - size) / 16 * 16, size};
    FORBID(some_memory, sizeof some_memory);
    ALLOW(memory.start, size);
    place(&read_1, text, text_length, 1);
    place(&erasures_area, erasures, erasures_length * sizeof *erasures, sizeof *erasures);
    place(&memory_area, &memory, sizeof memory, sizeof(size_t));
    place(&written_1, NULL, room(text_length), 1);
    size_t *told = new_length(&length_1);
    uint32_t number = bech32_nearest(
        checksum, read_1.buffer, text_length, (const size_t *)(void *)erasures_area.buffer,
        erasures_length, errors, (bech32_memory *)(void *)memory_area.buffer, written_1.buffer,
        written_1.length, told);
    int is_counted = number == BECH32_OK || number == BECH32_NO_ROOM;
    count(&nearest, number);
    if (number != BECH32_NO_MEMORY) {
        expect_number(number, expected, all * text_length <= written_1.length);
    }
    expect_kept(&read_1, 0, "the text changed");
    expect_kept(&erasures_area, 0, "the erasures changed");
    expect_kept(&memory_area, 0, "the memory was kept");
    expect_kept(&length_1, is_counted ? sizeof all : 0, "the number of texts changed");
    expect(!is_counted || length_in(&length_1) == all, "the number of texts");
    size_t most = text_length == 0 ? 0 : written_1.length / text_length;
    size_t items = !is_counted ? 0 : all < most ? all : most;
    expect_kept(&written_1, items * text_length, "the buffer changed elsewhere");
    expect(items == 0 || memcmp(written_1.buffer, ample, items * text_length) == 0, "other texts");
    for (size_t i = 0; i < items; i++) {
        expect_near(checksum, written_1.buffer + i * text_length, errors, erasures, erasures_length);
    }
}

/* Confidential addresses of Liquid. */
static Function liquid_encode = {"bech32_liquid_encode", 0, {0}, of_liquid_encode};

static Function liquid_decode = {"bech32_liquid_decode", 0, {0}, of_liquid_decode};

static Function liquid_nearest = {"bech32_liquid_nearest", 0, {0}, of_liquid_nearest};

static void random_key(uint8_t *key) {
    for (size_t i = 0; i < BECH32_LIQUID_KEY_LENGTH; i++) {
        key[i] = (uint8_t)next_number();
    }
}

static void try_liquid_encode(void) {
    static uint8_t ample[AREA], back_part[AREA], back[AREA];
    uint8_t key[BECH32_LIQUID_KEY_LENGTH], back_key[BECH32_LIQUID_KEY_LENGTH];
    size_t length = 0, h = 0, n = 0;
    uint32_t version = percent(80) ? 0 : random_version(), back_version = 99;
    begin(&liquid_encode);
    random_key(key);
    random_part();
    random_data(45);
    if (percent(60) && data_length >= 20) {
        data_length = data_length >= 32 ? 32 : 20;
    }
    uint32_t expected =
        bech32_liquid_encode(part, part_length, version, key, data, data_length, ample, sizeof ample, &length);
    place(&read_1, part, part_length, 1);
    place(&read_2, data, data_length, 1);
    place(&identifier_area, key, sizeof key, 1);
    place(&written_1, NULL, room(expected == BECH32_OK ? length : BECH32_MAX_LIQUID_TEXT), 1);
    size_t *told = new_length(&length_1);
    uint32_t number =
        bech32_liquid_encode(read_1.buffer, part_length, version, identifier_area.buffer, read_2.buffer,
                             data_length, written_1.buffer, written_1.length, told);
    count(&liquid_encode, number);
    expect_number(number, expected, length <= written_1.length);
    expect_kept(&read_1, 0, "the human-readable part changed");
    expect_kept(&read_2, 0, "the program changed");
    expect_kept(&identifier_area, 0, "the key changed");
    expect_kept(&written_1, number == BECH32_OK ? length : 0, "the buffer changed elsewhere");
    expect_kept(&length_1, number == BECH32_OK ? sizeof length : 0, "the length changed");
    if (number != BECH32_OK) {
        return;
    }
    expect(length_in(&length_1) == length && length <= BECH32_MAX_LIQUID_TEXT, "the length");
    expect(memcmp(written_1.buffer, ample, length) == 0, "another address");
    expect(bech32_liquid_decode(ample, length, back_part, sizeof back_part, &h, &back_version, back_key, back,
                                sizeof back, &n) == BECH32_OK &&
               h == part_length && back_version == version && n == data_length &&
               memcmp(back, data, n) == 0 && memcmp(back_key, key, sizeof key) == 0 &&
               same_lowered(back_part, part, h),
           "the address is not decoded to what was encoded");
}

/* Makes the text one of Liquid, most of the time, mistyped or not. */
static void random_liquid_text(void) {
    uint8_t key[BECH32_LIQUID_KEY_LENGTH];
    random_key(key);
    random_text();
    random_data(45);
    data_length = percent(50) ? 32 : 20;
    if (percent(90)) {
        expect(bech32_liquid_encode((const uint8_t *)"lq", 2, 0, key, data, data_length, text, sizeof text,
                                    &text_length) == BECH32_OK,
               "no address");
        for (size_t i = percent(50) ? below(4) : 0; i > 0; i--) {
            text[below(text_length)] = (uint8_t)"qpzry9x8gf2tvdw0s3jn54khce6mua7l"[below(32)];
        }
    }
}

static void try_liquid_decode(void) {
    static uint8_t ample_part[AREA], ample[AREA], back[AREA];
    uint8_t ample_key[BECH32_LIQUID_KEY_LENGTH];
    size_t h = 0, n = 0, length = 0;
    uint32_t ample_version = 0;
    begin(&liquid_decode);
    random_liquid_text();
    uint32_t expected = bech32_liquid_decode(text, text_length, ample_part, sizeof ample_part, &h,
                                             &ample_version, ample_key, ample, sizeof ample, &n);
    place(&read_1, text, text_length, 1);
    place(&written_1, NULL, room(expected == BECH32_OK ? h : BECH32_MAX_HRP), 1);
    place(&written_2, NULL, room(expected == BECH32_OK ? n : BECH32_MAX_LIQUID_PROGRAM), 1);
    place(&identifier_area, NULL, BECH32_LIQUID_KEY_LENGTH, 1);
    uint32_t any = (uint32_t)next_number();
    place(&read_2, &any, sizeof any, sizeof any);
    size_t *told_1 = new_length(&length_1), *told_2 = new_length(&length_2);
    uint32_t number = bech32_liquid_decode(
        read_1.buffer, text_length, written_1.buffer, written_1.length, told_1,
        (uint32_t *)(void *)read_2.buffer, identifier_area.buffer, written_2.buffer, written_2.length, told_2);
    int is_ok = number == BECH32_OK;
    count(&liquid_decode, number);
    expect_number(number, expected, h <= written_1.length && n <= written_2.length);
    expect_kept(&read_1, 0, "the text changed");
    expect_kept(&read_2, is_ok ? sizeof any : 0, "the version changed");
    expect_kept(&identifier_area, is_ok ? BECH32_LIQUID_KEY_LENGTH : 0, "the key changed");
    expect_kept(&written_1, is_ok ? h : 0, "the first buffer changed elsewhere");
    expect_kept(&written_2, is_ok ? n : 0, "the second buffer changed elsewhere");
    expect_kept(&length_1, is_ok ? sizeof h : 0, "the first length changed");
    expect_kept(&length_2, is_ok ? sizeof n : 0, "the second length changed");
    if (!is_ok) {
        return;
    }
    expect(length_in(&length_1) == h && length_in(&length_2) == n && n <= BECH32_MAX_LIQUID_PROGRAM,
           "the lengths");
    expect(memcmp(read_2.buffer, &ample_version, sizeof any) == 0 && ample_version == 0, "the version");
    expect(memcmp(identifier_area.buffer, ample_key, sizeof ample_key) == 0, "another key");
    expect(memcmp(written_2.buffer, ample, n) == 0, "another program");
    expect(bech32_liquid_encode(ample_part, h, ample_version, ample_key, ample, n, back, sizeof back,
                                &length) == BECH32_OK &&
               length == text_length && same_lowered(back, text, length),
           "the address is not the one of its parts");
}

static _Alignas(16) uint8_t liquid_memory[BECH32_LIQUID_NEAREST_MEMORY(BECH32_MAX_LIQUID_TEXT)];

/* Whether so many errors may be looked for: at most three, and twice as many and at most six erasures are seven at most. */
static int is_liquid_asked(const size_t *erasures, size_t erasures_length, size_t errors) {
    size_t different = 0;
    for (size_t i = 0; i < erasures_length; i++) {
        size_t j = 0;
        while (j < i && erasures[j] != erasures[i]) {
            j++;
        }
        different += i == j;
    }
    return errors <= BECH32_MAX_LIQUID_ERRORS && (different > 6 || 2 * errors + different <= 7);
}

static void try_liquid_nearest(void) {
    static uint8_t ample[64u * BECH32_MAX_LIQUID_TEXT];
    size_t erasures[9], all = 0, errors = percent(95) ? below(4) : below(6);
    size_t erasures_length = percent(80) && errors < 4 ? below(8 - 2 * errors) : below(10);
    begin(&liquid_nearest);
    random_liquid_text();
    text_length = text_length > BECH32_MAX_LIQUID_TEXT ? BECH32_MAX_LIQUID_TEXT : text_length;
    bech32_memory whole = {liquid_memory, BECH32_LIQUID_NEAREST_MEMORY(text_length)};
    for (size_t i = 0; i < erasures_length; i++) {
        erasures[i] = percent(95) ? below(text_length + 1) : (size_t)next_number();
    }
    uint32_t expected = bech32_liquid_nearest(text, text_length, erasures, erasures_length, errors, &whole,
                                              ample, sizeof ample, &all);
    expect(whole.start == liquid_memory && whole.size == BECH32_LIQUID_NEAREST_MEMORY(text_length),
           "the memory was kept");
    expect(expected != BECH32_NO_MEMORY && expected != BECH32_NO_ROOM, "memory or room does not suffice");
    expect((expected == BECH32_BAD_NUMBER) == !is_liquid_asked(erasures, erasures_length, errors), "how many errors are looked for");
    size_t size = percent(30) ? below(sizeof some_memory) : sizeof some_memory;
    bech32_memory memory = {some_memory + (sizeof some_memory - size) / 16 * 16, size};
    FORBID(some_memory, sizeof some_memory);
    ALLOW(memory.start, size);
    place(&read_1, text, text_length, 1);
    place(&erasures_area, erasures, erasures_length * sizeof *erasures, sizeof *erasures);
    place(&memory_area, &memory, sizeof memory, sizeof(size_t));
    place(&written_1, NULL, room(text_length), 1);
    size_t *told = new_length(&length_1);
    uint32_t number = bech32_liquid_nearest(
        read_1.buffer, text_length, (const size_t *)(void *)erasures_area.buffer, erasures_length, errors,
        (bech32_memory *)(void *)memory_area.buffer, written_1.buffer, written_1.length, told);
    int is_counted = number == BECH32_OK || number == BECH32_NO_ROOM;
    count(&liquid_nearest, number);
    if (number != BECH32_NO_MEMORY) {
        expect_number(number, expected, all * text_length <= written_1.length);
    }
    expect_kept(&read_1, 0, "the text changed");
    expect_kept(&erasures_area, 0, "the erasures changed");
    expect_kept(&memory_area, 0, "the memory was kept");
    expect_kept(&length_1, is_counted ? sizeof all : 0, "the number of texts changed");
    expect(!is_counted || length_in(&length_1) == all, "the number of texts");
    size_t most = text_length == 0 ? 0 : written_1.length / text_length;
    size_t items = !is_counted ? 0 : all < most ? all : most;
    expect_kept(&written_1, items * text_length, "the buffer changed elsewhere");
    expect(items == 0 || memcmp(written_1.buffer, ample, items * text_length) == 0, "other texts");
}

/* Texts that one edit makes of a mistyped one. */
static Function near_edits = {"bech32_near_edits", 0, {0}, of_near_edits};

#define EDITS 64u

static size_t edited_length(uint8_t done) {
    return text_length + (done == BECH32_PUT_IN) - (done == BECH32_LEFT_OUT);
}

/* The found text is the given one with the edit, in lower case, and is accepted. */
static void expect_edit(uint32_t checksum, const uint8_t *found, uint8_t done, size_t location) {
    static uint8_t made[AREA];
    size_t h, n, length = edited_length(done), front = length - 1 - location;
    expect(done >= BECH32_SWAPPED && done <= BECH32_PUT_IN && location < length + 1, "no such edit");
    if (done == BECH32_SWAPPED) {
        memcpy(made, text, length);
        made[front] = text[front - 1];
        made[front - 1] = text[front];
    } else if (done == BECH32_LEFT_OUT) {
        front = text_length - 1 - location;
        memcpy(made, text, front);
        memcpy(made + front, text + front + 1, length - front);
    } else {
        memcpy(made, text, front);
        made[front] = found[front];
        memcpy(made + front + 1, text + front, text_length - front);
    }
    expect(same_lowered(made, found, length), "another text than that of the edit");
    expect(bech32_check(checksum, found, length, &h, &n) == BECH32_OK, "a text that is made is refused");
    expect(length != text_length || !same_lowered(found, text, length), "the text itself");
    expect(same_lowered(found, text, h + 1), "another human-readable part");
    for (size_t i = 0; i < length; i++) {
        expect(found[i] == lowered(found[i]), "a text that is not in lower case");
    }
}

/* A text, of which often one character is left out, put in, or swapped with its neighbour. */
static void random_edited_text(void) {
    random_text();
    text_length = text_length > MOST - 1 ? MOST - 1 : text_length;
    if (text_length < 2 || percent(25)) {
        return;
    }
    size_t at = 1 + below(text_length - 1);
    if (percent(33)) {
        memmove(text + at, text + at + 1, text_length - at - 1);
        text_length--;
    } else if (percent(50)) {
        memmove(text + at + 1, text + at, text_length - at);
        text[at] = (uint8_t)alphabet[below(32)];
        text_length++;
    } else {
        uint8_t byte = text[at];
        text[at] = text[at - 1];
        text[at - 1] = byte;
    }
}

static void try_near_edits(void) {
    static uint8_t ample[EDITS * (MOST + 1)], ample_kinds[EDITS];
    static size_t ample_locations[EDITS];
    size_t all = 0, size_of_all = 0, fit = 0, fit_size = 0;
    uint32_t checksum = random_checksum();
    bech32_memory whole = {ample_memory, sizeof ample_memory};
    begin(&near_edits);
    random_edited_text();
    uint32_t expected =
        bech32_near_edits(checksum, text, text_length, &whole, ample_kinds, EDITS, ample_locations,
                          EDITS, ample, sizeof ample, &all);
    expect(whole.start == ample_memory && whole.size == sizeof ample_memory, "the memory was kept");
    expect(expected != BECH32_NO_MEMORY && expected != BECH32_NO_ROOM, "memory or room does not suffice");
    for (size_t i = 0; i < all; i++) {
        expect_edit(checksum, ample + size_of_all, ample_kinds[i], ample_locations[i]);
        size_of_all += edited_length(ample_kinds[i]);
    }
    int is_small = percent(30);
    size_t enough = BECH32_NEAR_EDITS_MEMORY(text_length), size = is_small ? below(enough) : enough;
    bech32_memory memory = {some_memory + (sizeof some_memory - size) / 16 * 16, size};
    FORBID(some_memory, sizeof some_memory);
    ALLOW(memory.start, size);
    place(&read_1, text, text_length, 1);
    place(&memory_area, &memory, sizeof memory, sizeof(size_t));
    place(&locations_area, NULL, below(4) * sizeof(size_t), sizeof(size_t));
    place(&values_area, NULL, below(4), 1);
    place(&written_1, NULL, room(size_of_all), 1);
    size_t *told = new_length(&length_1), locations_room = locations_area.length / sizeof(size_t);
    uint32_t number = bech32_near_edits(
        checksum, read_1.buffer, text_length, (bech32_memory *)(void *)memory_area.buffer,
        values_area.buffer, values_area.length, (size_t *)(void *)locations_area.buffer, locations_room,
        written_1.buffer, written_1.length, told);
    int is_counted = number == BECH32_OK || number == BECH32_NO_ROOM;
    count(&near_edits, number);
    while (is_counted && fit < all && fit < values_area.length && fit < locations_room &&
           fit_size + edited_length(ample_kinds[fit]) <= written_1.length) {
        fit_size += edited_length(ample_kinds[fit++]);
    }
    if (number == BECH32_NO_MEMORY) {
        expect((is_small || all > BECH32_NEAR_EDITS) && expected == BECH32_OK,
               "want of memory in place of a refusal, or where what the header states is lent");
    } else {
        expect_number(number, expected, fit == all);
    }
    expect_kept(&read_1, 0, "the text changed");
    expect_kept(&memory_area, 0, "the memory was kept");
    expect_kept(&length_1, is_counted ? sizeof all : 0, "the number of edits changed");
    expect(!is_counted || length_in(&length_1) == all, "the number of edits");
    expect_kept(&values_area, fit, "the kinds changed elsewhere");
    expect_kept(&locations_area, fit * sizeof(size_t), "the locations changed elsewhere");
    expect_kept(&written_1, fit_size, "the texts changed elsewhere");
    if (fit > 0) {
        expect(memcmp(values_area.buffer, ample_kinds, fit) == 0, "other kinds");
        expect(memcmp(locations_area.buffer, ample_locations, fit * sizeof(size_t)) == 0, "other locations");
        expect(memcmp(written_1.buffer, ample, fit_size) == 0, "other texts");
    }
}

/* What was typed for an address, with characters that nobody can read, and what is suggested for it. */
static _Alignas(16) uint8_t suggest_memory[BECH32_SUGGEST_MEMORY];

static size_t suggested_length(uint8_t done) {
    return text_length + (done == BECH32_PUT_IN) - (done == BECH32_LEFT_OUT);
}

/* The suggestion is an address of the network. */
static void expect_suggestion(const uint8_t *found, uint8_t done) {
    static uint8_t found_part[AREA], found_program[AREA];
    uint32_t version = 0;
    size_t h = 0, n = 0;
    expect(done <= BECH32_REPLACED, "another kind");
    expect(bech32_segwit_decode(found, suggested_length(done), found_part, sizeof found_part, &h, &version,
                                found_program, sizeof found_program, &n) == BECH32_OK &&
               h == 2 && memcmp(found_part, "bc", 2) == 0,
           "what is suggested is no address of the network");
}

static void try_suggest(void) {
    static uint8_t ample[90u * BECH32_SUGGESTIONS], ample_kinds[BECH32_SUGGESTIONS];
    static size_t ample_places[BECH32_SUGGESTIONS];
    size_t all = 0, size_of_all = 0, fit = 0, fit_size = 0;
    bech32_memory whole = {suggest_memory, sizeof suggest_memory};
    begin(&suggest_calls);
    random_edited_text();
    for (size_t i = text_length > 4 && percent(30) ? below(4) : 0; i > 0; i--) {
        text[below(text_length)] = '?';
    }
    uint32_t expected = bech32_suggest(text, text_length, (const uint8_t *)"bc", 2, &whole, ample_kinds,
                                       BECH32_SUGGESTIONS, ample_places, BECH32_SUGGESTIONS, ample,
                                       sizeof ample, &all);
    expect(whole.start == suggest_memory && whole.size == sizeof suggest_memory, "the memory was kept");
    expect(expected != BECH32_NO_MEMORY && expected != BECH32_NO_ROOM, "memory or room does not suffice");
    for (size_t i = 0; i < all; i++) {
        expect_suggestion(ample + size_of_all, ample_kinds[i]);
        size_of_all += suggested_length(ample_kinds[i]);
    }
    int is_small = percent(30);
    size_t size = is_small ? below(sizeof suggest_memory) : sizeof suggest_memory;
    bech32_memory memory = {suggest_memory + (sizeof suggest_memory - size) / 16 * 16, size};
    place(&read_1, text, text_length, 1);
    place(&memory_area, &memory, sizeof memory, sizeof(size_t));
    place(&locations_area, NULL, below(4) * sizeof(size_t), sizeof(size_t));
    place(&values_area, NULL, below(4), 1);
    place(&written_1, NULL, room(size_of_all), 1);
    size_t *told = new_length(&length_1), places_room = locations_area.length / sizeof(size_t);
    uint32_t number = bech32_suggest(
        read_1.buffer, text_length, (const uint8_t *)"bc", 2, (bech32_memory *)(void *)memory_area.buffer,
        values_area.buffer, values_area.length, (size_t *)(void *)locations_area.buffer, places_room,
        written_1.buffer, written_1.length, told);
    int is_counted = number == BECH32_OK || number == BECH32_NO_ROOM;
    count(&suggest_calls, number);
    while (is_counted && fit < all && fit < values_area.length && fit < places_room &&
           fit_size + suggested_length(ample_kinds[fit]) <= written_1.length) {
        fit_size += suggested_length(ample_kinds[fit++]);
    }
    if (number == BECH32_NO_MEMORY) {
        expect(is_small && expected == BECH32_OK, "out of memory in place of a refusal, or with what the header states");
    } else {
        expect_number(number, expected, fit == all);
    }
    expect_kept(&read_1, 0, "the text changed");
    expect_kept(&memory_area, 0, "the memory was kept");
    expect_kept(&length_1, is_counted ? sizeof all : 0, "the number of suggestions changed");
    expect(!is_counted || length_in(&length_1) == all, "the number of suggestions");
    expect_kept(&values_area, fit, "the kinds changed elsewhere");
    expect_kept(&locations_area, fit * sizeof(size_t), "the places changed elsewhere");
    expect_kept(&written_1, fit_size, "the texts changed elsewhere");
    if (fit > 0) {
        expect(memcmp(values_area.buffer, ample_kinds, fit) == 0, "other kinds");
        expect(memcmp(locations_area.buffer, ample_places, fit * sizeof(size_t)) == 0, "other places");
        expect(memcmp(written_1.buffer, ample, fit_size) == 0, "other texts");
    }
}

typedef uint32_t Message(uint32_t, uint8_t *, size_t, size_t *);

/* The sentence of any number, which is there for those that a call returns, and in ASCII. */
static void try_sentence(Function *function, Message *call, const uint32_t *known) {
    uint8_t ample[BECH32_MAX_MESSAGE];
    size_t length = 0;
    begin(function);
    uint32_t asked = percent(90) ? (uint32_t)below(NUMBERS) : (uint32_t)next_number();
    expect(call(asked, ample, sizeof ample, &length) == BECH32_OK && length <= sizeof ample,
           "the room that the header states does not suffice");
    for (; *known != 0; known++) {
        expect(*known != asked || length > 0, "a number that calls return has no sentence");
    }
    for (size_t i = 0; i < length; i++) {
        expect(ample[i] >= ' ' && ample[i] <= '~', "a sentence is not ASCII");
    }
    place(&written_1, NULL, room(length), 1);
    size_t *told = new_length(&length_1);
    uint32_t number = call(asked, written_1.buffer, written_1.length, told);
    int is_ok = number == BECH32_OK;
    count(function, number);
    expect_number(number, BECH32_OK, length <= written_1.length);
    expect_kept(&written_1, is_ok ? length : 0, "the buffer changed elsewhere");
    expect_kept(&length_1, is_ok ? sizeof length : 0, "the length changed");
    expect(!is_ok || (length_in(&length_1) == length &&
                      (length == 0 || memcmp(written_1.buffer, ample, length) == 0)),
           "another sentence");
}

static void try_message(void) {
    static const uint32_t of_rows[] = {BECH32_NULL_ROW, BECH32_OTHER_HRP, 0};
    const uint32_t *known[] = {of_encode,  of_encode_elements, of_segwit_decode, of_segwit_encode,
                               of_correct, of_liquid_decode,   of_suggest,       of_rows};
    expect(bech32_version() == BECH32_VERSION_NUMBER, "another version");
    try_sentence(&message, bech32_message, known[below(sizeof known / sizeof *known)]);
}

static void try_codex32_message(void) {
    const uint32_t *known[] = {of_codex32_share, of_codex32_encode, of_codex32_derive, of_codex32_split,
                               of_codex32_recover, of_codex32_propose};
    expect(codex32_version() == CODEX32_VERSION_NUMBER, "another version");
    try_sentence(&codex32_message_calls, codex32_message, known[below(sizeof known / sizeof *known)]);
}

/* Descriptors: their checksums, and those that one edit makes of a text. */
static Function descriptor_checksum = {"bech32_descriptor_checksum", 0, {0}, of_descriptor_checksum};
static Function descriptor_check = {"bech32_descriptor_check", 0, {0}, of_descriptor_check};
static Function descriptor_mend = {"bech32_descriptor_mend", 0, {0}, of_descriptor_mend};
static Function descriptor_mend_two = {"bech32_descriptor_mend_two", 0, {0}, of_descriptor_mend_two};

/* Characters of a descriptor, at times with a byte that is none. */
static void random_characters(size_t most) {
    text_length = below(most + 1);
    for (size_t i = 0; i < text_length; i++) {
        text[i] = (uint8_t)(32 + below(95));
    }
    if (text_length > 0 && percent(20)) {
        text[below(text_length)] = (uint8_t)below(256);
    }
}

/* The longest descriptor here, and memory for its search, as ample_memory and some_memory are. */
#define DESCRIPTOR 109u
static _Alignas(16) uint8_t ample_for_descriptor[BECH32_DESCRIPTOR_TWO_MEMORY(DESCRIPTOR)];
static _Alignas(16) uint8_t some_for_descriptor[BECH32_DESCRIPTOR_TWO_MEMORY(DESCRIPTOR)];

/* A text with its checksum, of which often a character or two are other ones. */
static void random_descriptor(void) {
    size_t length = 0, at = 0;
    random_characters(DESCRIPTOR - 9);
    text[text_length] = '#';
    bech32_descriptor_checksum(text, text_length, text + text_length + 1, 8, &length, &at);
    text_length += length == 8 ? 9 : below(9);
    if (text_length > 0 && percent(60)) {
        text[below(text_length)] = (uint8_t)below(percent(20) ? 256 : 128);
    }
    if (text_length > 1 && percent(20)) {
        at = 1 + below(text_length - 1);
        memmove(text + at - 1, text + at, text_length - at);
        text_length--;
    }
}

static void try_descriptor_checksum(void) {
    begin(&descriptor_checksum);
    random_characters(200);
    place(&read_1, text, text_length, 1);
    place(&written_1, NULL, room(8), 1);
    size_t *told = new_length(&length_1), *at = new_length(&length_2);
    uint32_t number = bech32_descriptor_checksum(read_1.buffer, text_length, written_1.buffer, written_1.length, told, at);
    count(&descriptor_checksum, number);
    expect_kept(&read_1, 0, "the text changed");
    expect_kept(&written_1, number == BECH32_OK ? 8 : 0, "the buffer changed elsewhere");
    expect_kept(&length_1, number == BECH32_OK ? sizeof(size_t) : 0, "the length changed");
    expect_kept(&length_2, number == BECH32_NOT_IN_DESCRIPTOR ? sizeof(size_t) : 0, "the place changed");
    if (number == BECH32_NOT_IN_DESCRIPTOR) {
        uint8_t byte = text[length_in(&length_2)];
        expect(byte < 32 || byte > 126, "a place of a character");
    }
    if (number == BECH32_OK) {
        expect(length_in(&length_1) == 8, "another length");
        text[text_length] = '#';
        memcpy(text + text_length + 1, written_1.buffer, 8);
        expect(bech32_descriptor_check(text, text_length + 9, &text_length) == BECH32_OK, "a wrong checksum");
    }
}

static void try_descriptor_check(void) {
    begin(&descriptor_check);
    random_descriptor();
    place(&read_1, text, text_length, 1);
    size_t *at = new_length(&length_1);
    uint32_t number = bech32_descriptor_check(read_1.buffer, text_length, at);
    count(&descriptor_check, number);
    expect_kept(&read_1, 0, "the text changed");
    expect_kept(&length_1, number == BECH32_NOT_IN_DESCRIPTOR ? sizeof(size_t) : 0, "the place changed");
    expect(number != BECH32_NOT_IN_DESCRIPTOR || length_in(&length_1) < text_length, "a place behind the text");
    expect((number == BECH32_NO_DESCRIPTOR_CHECKSUM) == (text_length < 9 || text[text_length - 9] != '#'),
           "whether there is a checksum");
}

/* The found text is the given one with the edit, and is a descriptor. */
static void expect_mended(const uint8_t *found, uint8_t done, const size_t *places) {
    static uint8_t made[AREA];
    size_t length = edited_length(done), at = places[0], told;
    expect(done >= BECH32_SWAPPED && done <= BECH32_CHANGED && at < length + (done == BECH32_LEFT_OUT), "no such edit");
    expect(places[1] == at + (done == BECH32_SWAPPED), "another second place");
    if (done == BECH32_LEFT_OUT) {
        memcpy(made, text, at);
        memcpy(made + at, text + at + 1, length - at);
    } else if (done == BECH32_PUT_IN) {
        memcpy(made, text, at);
        made[at] = found[at];
        memcpy(made + at + 1, text + at, text_length - at);
    } else {
        memcpy(made, text, length);
        made[at] = done == BECH32_SWAPPED ? text[at + 1] : found[at];
        made[places[1]] = done == BECH32_SWAPPED ? text[at] : found[at];
    }
    expect(memcmp(made, found, length) == 0, "another text than that of the edit");
    expect(bech32_descriptor_check(found, length, &told) == BECH32_OK, "a text that is made is refused");
    expect(length != text_length || memcmp(found, text, length) != 0, "the text itself");
}

static void try_descriptor_mend(void) {
    static uint8_t ample[EDITS * (MOST + 1)], ample_kinds[EDITS];
    static size_t ample_places[2 * EDITS];
    size_t all = 0, size_of_all = 0, fit = 0, fit_size = 0, changed = below(3);
    bech32_memory whole = {ample_for_descriptor, sizeof ample_for_descriptor};
    begin(&descriptor_mend);
    random_descriptor();
    uint32_t expected = bech32_descriptor_mend(text, text_length, changed, &whole, ample_kinds, EDITS, ample_places,
                                               2 * EDITS, ample, sizeof ample, &all);
    expect(whole.start == ample_for_descriptor && whole.size == sizeof ample_for_descriptor, "the memory was kept");
    expect(expected == (changed > 1 ? BECH32_BAD_NUMBER : BECH32_OK), "another number");
    for (size_t i = 0; i < all; i++) {
        expect_mended(ample + size_of_all, ample_kinds[i], ample_places + 2 * i);
        size_of_all += edited_length(ample_kinds[i]);
    }
    int is_small = percent(30);
    size_t enough = BECH32_DESCRIPTOR_MEND_MEMORY(text_length), size = is_small ? below(enough) : enough;
    bech32_memory memory = {some_for_descriptor + (sizeof some_for_descriptor - size) / 16 * 16, size};
    FORBID(some_for_descriptor, sizeof some_for_descriptor);
    ALLOW(memory.start, size);
    place(&read_1, text, text_length, 1);
    place(&memory_area, &memory, sizeof memory, sizeof(size_t));
    place(&locations_area, NULL, below(5) * sizeof(size_t), sizeof(size_t));
    place(&values_area, NULL, below(4), 1);
    place(&written_1, NULL, room(size_of_all), 1);
    size_t *told = new_length(&length_1), places_room = locations_area.length / sizeof(size_t);
    uint32_t number = bech32_descriptor_mend(
        read_1.buffer, text_length, changed, (bech32_memory *)(void *)memory_area.buffer, values_area.buffer,
        values_area.length, (size_t *)(void *)locations_area.buffer, places_room, written_1.buffer, written_1.length, told);
    int is_counted = number == BECH32_OK || number == BECH32_NO_ROOM;
    count(&descriptor_mend, number);
    while (is_counted && fit < all && fit < values_area.length && 2 * fit + 2 <= places_room &&
           fit_size + edited_length(ample_kinds[fit]) <= written_1.length) {
        fit_size += edited_length(ample_kinds[fit++]);
    }
    if (number == BECH32_NO_MEMORY) {
        expect(is_small && expected == BECH32_OK, "want of memory in place of a refusal, or where the stated size is lent");
    } else {
        expect_number(number, expected, fit == all);
    }
    expect_kept(&read_1, 0, "the text changed");
    expect_kept(&memory_area, 0, "the memory was kept");
    expect_kept(&length_1, is_counted ? sizeof all : 0, "the number of texts changed");
    expect(!is_counted || length_in(&length_1) == all, "the number of texts");
    expect_kept(&values_area, fit, "the kinds changed elsewhere");
    expect_kept(&locations_area, 2 * fit * sizeof(size_t), "the places changed elsewhere");
    expect_kept(&written_1, fit_size, "the buffer changed elsewhere");
    expect(fit_size == 0 || memcmp(written_1.buffer, ample, fit_size) == 0, "other texts");
}

/* Columns of random rows, in each layout, with nulls, with offsets that are wrong, and with buffers that end too soon. */
enum { ROWS = 24 };
static Area offsets_area, validity_area, column_area, numbers_area, versions_area, parts_area, places_area;
static uint8_t column_bytes[AREA], column_offsets[8 * (ROWS + 1)];
static bech32_column column;
static size_t column_first, column_count;

/* One row: a text, or a program, often of a length that a version allows. */
static void random_row(int is_program) {
    if (!is_program) {
        random_text();
        return;
    }
    random_data(45);
    text_length = percent(60) ? 20 + 12 * below(2) : data_length;
    memcpy(text, data, text_length);
}

static void put_offset(size_t i, uint64_t offset, size_t width) {
    uint32_t narrow = (uint32_t)offset;
    memcpy(column_offsets + i * width, width == 4 ? (const void *)&narrow : (const void *)&offset, width);
}

/* Rows one behind another, as many as there is room for: their offsets, and how many bytes they have. */
static size_t random_rows(int is_program, size_t rows, size_t offset_width) {
    size_t end = 0;
    for (size_t i = 0; i < rows; i++) {
        put_offset(i, end, offset_width);
        random_row(is_program);
        size_t length = column.layout >= BECH32_FIXED ? column.width : text_length;
        length = length > AREA - end ? AREA - end : length;
        memset(column_bytes + end, 0, length);
        memcpy(column_bytes + end, text, text_length < length ? text_length : length);
        end += length;
    }
    put_offset(rows, end, offset_width);
    return end;
}

/* A length, or often less, so that a buffer ends too soon. */
static size_t cut_short(size_t length) {
    return percent(85) || length == 0 ? length : below(length);
}

static void random_column(int is_program) {
    size_t rows = below(ROWS + 1), offset_width;
    column.layout = percent(97) ? 1 + (uint32_t)below(4) : (uint32_t)next_number();
    column.width = is_program && percent(60) ? 20 + 12 * below(2) : below(100);
    offset_width = column.layout == BECH32_OFFSETS_64 ? 8 : 4;
    place(&read_1, column_bytes, cut_short(random_rows(is_program, rows, offset_width)), 1);
    for (size_t i = below(10); i < 2; i++) {
        put_offset(below(rows + 1), percent(50) ? below(AREA) : next_number(), offset_width);
    }
    place(&offsets_area, column_offsets, percent(95) ? cut_short((rows + 1) * offset_width) : 0, 1);
    for (size_t i = 0; i < ROWS / 8; i++) {
        text[i] = (uint8_t)(next_number() | next_number());
    }
    place(&validity_area, text, percent(50) ? 0 : cut_short((rows + 7) / 8), 1);
    column.bytes = read_1.buffer, column.bytes_length = read_1.length;
    column.offsets = offsets_area.buffer, column.offsets_length = offsets_area.length;
    column.validity = validity_area.buffer, column.validity_length = validity_area.length;
    column.rows = percent(95) ? rows : below(ROWS + 1);
    if (percent(2)) {
        column.rows = column.width = SIZE_MAX;
    }
    place(&column_area, &column, sizeof column, sizeof(size_t));
    column_first = below((column.rows < ROWS ? column.rows : ROWS) + 1);
    column_count = below((column.rows < ROWS ? column.rows : ROWS) - column_first + 1);
    if (percent(3)) {
        column_first = percent(50) ? SIZE_MAX - below(ROWS) : column_first + ROWS;
    }
    place(&numbers_area, NULL, column_count, 1);
}

static const bech32_column *given_column(void) {
    return (const bech32_column *)(void *)column_area.buffer;
}

static int has_rows(void) {
    return column.layout >= 1 && column.layout <= 4 && column_first <= column.rows &&
           column_count <= column.rows - column_first;
}

/* Offset i, or one behind all bytes where it is not there or is negative. */
static size_t offset_of(size_t i) {
    size_t width = column.layout == BECH32_OFFSETS_64 ? 8 : 4;
    if ((i + 1) * width > column.offsets_length) {
        return AREA + 1;
    }
    int64_t offset;
    int32_t narrow;
    memcpy(&offset, column_offsets + i * 8 / (8 / width), 8 <= width ? 8 : 0);
    memcpy(&narrow, column_offsets + i * width, 4);
    offset = width == 4 ? narrow : offset;
    return offset < 0 || offset > AREA ? AREA + 1 : (size_t)offset;
}

/* The number of row `first + i` without its bytes, or 0, and then its bytes are in `text`. */
static uint32_t read_row(size_t i) {
    size_t row = column_first + i, start = 0, end = 0;
    if (column.validity_length > 0) {
        if (row / 8 >= column.validity_length) {
            return BECH32_BAD_NUMBER;
        }
        if ((column.validity[row / 8] >> row % 8 & 1) == 0) {
            return BECH32_NULL_ROW;
        }
    }
    if (column.layout <= BECH32_OFFSETS_64) {
        start = offset_of(row), end = offset_of(row + 1);
    } else if (column.width > AREA) {
        end = AREA + 1;
    } else {
        start = row * column.width, end = start + column.width;
    }
    if (start > end || end > column.bytes_length) {
        return BECH32_BAD_NUMBER;
    }
    while (column.layout == BECH32_FIXED_ZERO && end > start && column_bytes[end - 1] == 0) {
        end--;
    }
    text_length = end - start;
    memcpy(text, column_bytes + start, text_length);
    return BECH32_OK;
}

static void expect_column_kept(void) {
    expect_kept(&read_1, 0, "the bytes of the column changed");
    expect_kept(&offsets_area, 0, "the offsets of the column changed");
    expect_kept(&validity_area, 0, "the validity of the column changed");
    expect_kept(&column_area, 0, "the column changed");
}

static void try_check_many(void) {
    uint32_t checksum = percent(90) ? (uint32_t)below(5) : (uint32_t)next_number();
    begin(&check_many_calls);
    random_column(0);
    uint32_t number = bech32_check_many(checksum, given_column(), column_first, numbers_area.buffer, column_count);
    count(&check_many_calls, number);
    expect(number == (checksum <= 4 && has_rows() ? BECH32_OK : BECH32_BAD_NUMBER), "the answer");
    expect_column_kept();
    expect_kept(&numbers_area, number == BECH32_OK ? column_count : 0, "the numbers changed elsewhere");
    for (size_t i = 0; number == BECH32_OK && i < column_count; i++) {
        uint32_t expected = read_row(i);
        size_t h, n;
        if (expected == BECH32_OK) {
            expected = bech32_check(checksum == 0 ? BECH32_BECH32M : checksum, text, text_length, &h, &n);
            if (checksum == 0 && expected != BECH32_OK) {
                expected = bech32_check(BECH32_BECH32, text, text_length, &h, &n);
            }
        }
        expect(numbers_area.buffer[i] == expected, "another number of a row");
    }
}

/* What a row of addresses gives. */
typedef struct {
    uint32_t number, version;
    size_t hrp_length, length;
    uint8_t program[BECH32_MAX_SEGWIT_PROGRAM];
} Decoded;

static void decode_one(size_t i, Decoded *row) {
    uint8_t found[BECH32_MAX_HRP];
    memset(row, 0, sizeof *row);
    row->number = read_row(i);
    if (row->number == BECH32_OK) {
        row->number = bech32_segwit_decode(text, text_length, found, sizeof found, &row->hrp_length, &row->version,
                                           row->program, sizeof row->program, &row->length);
    }
    if (row->number == BECH32_OK && part_length > 0 &&
        (row->hrp_length != part_length || !same_lowered(found, part, part_length))) {
        row->number = BECH32_OTHER_HRP;
    }
    if (row->number != BECH32_OK) {
        row->version = 0, row->hrp_length = row->length = 0;
    }
}

static int32_t place_in(size_t i) {
    int32_t place;
    memcpy(&place, places_area.buffer + 4 * i, sizeof place);
    return place;
}

/* Room for `items` items and some more, or none, or too little. */
static size_t item_room(size_t items) {
    return percent(60) ? items + below(3) : percent(60) ? 0 : below(items + 1);
}

static void try_segwit_decode_many(void) {
    static const char *const wanted[] = {"", "bc", "TB", "a", "x", "\xff", "", "b\xc3\xa9", " bc", "Bc"};
    static const uint32_t faults[] = {0, 0, 0, 0, 0, 2, 12, 13, 14, 15};
    Decoded row;
    size_t put = 0, done = 0;
    int is_put = 1;
    begin(&segwit_decode_many_calls);
    random_column(0);
    size_t which = below(percent(20) ? 10 : 5);
    char longest[BECH32_MAX_HRP + 2] = {0};
    memset(longest, 'q', BECH32_MAX_HRP + 1);
    const char *one = faults[which] == BECH32_HRP_TOO_LONG ? longest : wanted[which];
    size_t hrp_length = strlen(one);
    place(&identifier_area, one, hrp_length, 1);
    place(&versions_area, NULL, item_room(column_count), 1);
    place(&parts_area, NULL, item_room(column_count), 1);
    place(&places_area, NULL, 4 * item_room(column_count + 1), 4);
    place(&written_2, NULL, percent(70) ? BECH32_MAX_SEGWIT_PROGRAM * column_count : below(BECH32_MAX_SEGWIT_PROGRAM * column_count + 1), 1);
    size_t *told = new_length(&length_1), places = places_area.length / 4;
    uint32_t number = bech32_segwit_decode_many(
        given_column(), column_first, identifier_area.buffer, hrp_length, numbers_area.buffer, column_count,
        versions_area.buffer, versions_area.length, parts_area.buffer, parts_area.length,
        (int32_t *)(void *)places_area.buffer, places, written_2.buffer, written_2.length, told);
    count(&segwit_decode_many_calls, number);
    expect_column_kept();
    if (!has_rows()) {
        expect(number == BECH32_BAD_NUMBER, "the answer without such rows");
    }
    int is_told = has_rows() && faults[which] == 0;
    expect(is_told || !has_rows() || number == faults[which], "the answer for a part that is none");
    for (; is_told && is_put && done < column_count; done += (size_t)is_put) {
        memcpy(part, one, part_length = hrp_length);
        decode_one(done, &row);
        size_t length = places > 0 ? row.length : 0;
        is_put = (versions_area.length == 0 || done < versions_area.length) &&
                 (parts_area.length == 0 || done < parts_area.length) && (places == 0 || done + 1 < places) &&
                 put + length <= written_2.length;
        if (is_put) {
            ALLOW(written_2.bytes, AREA);
            expect(length == 0 || memcmp(written_2.buffer + put, row.program, length) == 0, "another program");
            put += length;
            expect(numbers_area.buffer[done] == row.number, "another number of a row");
            expect(versions_area.length == 0 || versions_area.buffer[done] == row.version, "another version");
            expect(parts_area.length == 0 || parts_area.buffer[done] == row.hrp_length, "another length of a part");
            expect(places == 0 || place_in(done + 1) == (int32_t)put, "another offset");
        }
    }
    expect(!is_told || number == (done == column_count ? BECH32_OK : BECH32_NO_ROOM), "the answer");
    expect(!is_told || places == 0 || place_in(0) == 0, "the first offset");
    expect_kept(&identifier_area, 0, "the human-readable part changed");
    expect_kept(&numbers_area, done, "the numbers changed elsewhere");
    expect_kept(&versions_area, versions_area.length > 0 ? done : 0, "the versions changed elsewhere");
    expect_kept(&parts_area, parts_area.length > 0 ? done : 0, "the lengths changed elsewhere");
    expect_kept(&places_area, is_told && places > 0 ? 4 * (done + 1) : 0, "the offsets changed elsewhere");
    expect_kept(&written_2, put, "the programs changed elsewhere");
    expect_kept(&length_1, is_told ? sizeof done : 0, "the number of rows changed");
    expect(!is_told || length_in(&length_1) == done, "another number of rows");
}

static void try_segwit_encode_many(void) {
    uint8_t ample[AREA];
    size_t put = 0, done = 0, length = 0;
    int is_put = 1;
    begin(&segwit_encode_many_calls);
    random_column(1);
    random_part();
    place(&identifier_area, part, part_length, 1);
    for (size_t i = 0; i < ROWS; i++) {
        text[i] = (uint8_t)random_version();
    }
    place(&versions_area, text, percent(90) ? column_count : below(ROWS), 1);
    place(&places_area, NULL, 4 * item_room(column_count + 1), 4);
    place(&written_2, NULL, percent(70) ? BECH32_MAX_SEGWIT_TEXT * column_count : below(BECH32_MAX_SEGWIT_TEXT * column_count + 1), 1);
    size_t *told = new_length(&length_1), places = places_area.length / 4;
    uint32_t number = bech32_segwit_encode_many(
        identifier_area.buffer, part_length, versions_area.buffer, versions_area.length, given_column(), column_first,
        numbers_area.buffer, column_count, (int32_t *)(void *)places_area.buffer, places, written_2.buffer,
        written_2.length, told);
    int is_told = has_rows() && versions_area.length >= column_count;
    count(&segwit_encode_many_calls, number);
    expect_column_kept();
    expect(is_told || number == BECH32_BAD_NUMBER, "the answer without such rows");
    for (; is_told && is_put && done < column_count; done += (size_t)is_put) {
        uint32_t expected = read_row(done);
        length = 0;
        if (expected == BECH32_OK) {
            expected = bech32_segwit_encode(part, part_length, versions_area.buffer[done], text, text_length, ample,
                                            sizeof ample, &length);
        }
        is_put = done + 1 < places && put + length <= written_2.length;
        if (is_put) {
            ALLOW(written_2.bytes, AREA);
            expect(length == 0 || memcmp(written_2.buffer + put, ample, length) == 0, "another address");
            put += length;
            expect(numbers_area.buffer[done] == expected, "another number of a row");
            expect(place_in(done + 1) == (int32_t)put, "another offset");
        }
    }
    expect(!is_told || number == (done == column_count ? BECH32_OK : BECH32_NO_ROOM), "the answer");
    expect(!is_told || places == 0 || place_in(0) == 0, "the first offset");
    expect_kept(&identifier_area, 0, "the human-readable part changed");
    expect_kept(&versions_area, 0, "the versions changed");
    expect_kept(&numbers_area, done, "the numbers changed elsewhere");
    expect_kept(&places_area, is_told && places > 0 ? 4 * (done + 1) : 0, "the offsets changed elsewhere");
    expect_kept(&written_2, put, "the addresses changed elsewhere");
    expect_kept(&length_1, is_told ? sizeof done : 0, "the number of rows changed");
    expect(!is_told || length_in(&length_1) == done, "another number of rows");
}

static void try_validity_of(void) {
    size_t rows = below(200), accepted = 0, bytes = (rows + 7) / 8;
    begin(&validity_of_calls);
    for (size_t i = 0; i < rows; i++) {
        text[i] = (uint8_t)(percent(50) ? 0 : below(256));
        accepted += text[i] == 0;
    }
    place(&numbers_area, text, rows, 1);
    place(&written_1, NULL, percent(80) ? bytes + below(4) : below(bytes + 1), 1);
    size_t *told = new_length(&length_1);
    uint32_t number = bech32_validity_of(numbers_area.buffer, rows, written_1.buffer, written_1.length, told);
    count(&validity_of_calls, number);
    expect(number == (bytes <= written_1.length ? BECH32_OK : BECH32_NO_ROOM), "the answer");
    expect_kept(&numbers_area, 0, "the numbers changed");
    expect_kept(&written_1, number == BECH32_OK ? bytes : 0, "the validity changed elsewhere");
    expect_kept(&length_1, number == BECH32_OK ? sizeof accepted : 0, "the number of rows changed");
    for (size_t i = 0; number == BECH32_OK && i < 8 * bytes; i++) {
        expect((written_1.buffer[i / 8] >> i % 8 & 1) == (i < rows && text[i] == 0), "another bit");
    }
    expect(number != BECH32_OK || length_in(&length_1) == accepted, "another number of rows");
}

/* Each text is the given one with other characters at the two places, and is a descriptor. */
static void try_descriptor_mend_two(void) {
    static uint8_t ample[EDITS * MOST], made[AREA];
    static size_t ample_places[2 * EDITS];
    size_t all = 0, fit = 0, told = 0;
    bech32_memory whole = {ample_for_descriptor, sizeof ample_for_descriptor};
    begin(&descriptor_mend_two);
    random_descriptor();
    uint32_t expected =
        bech32_descriptor_mend_two(text, text_length, &whole, ample_places, 2 * EDITS, ample, sizeof ample, &all);
    expect(whole.start == ample_for_descriptor && whole.size == sizeof ample_for_descriptor, "the memory was kept");
    expect(expected == BECH32_OK, "another number");
    for (size_t i = 0; i < all; i++) {
        const uint8_t *found = ample + i * text_length;
        size_t first = ample_places[2 * i], second = ample_places[2 * i + 1];
        expect(first < second && second < text_length, "places in another order, or behind the text");
        memcpy(made, text, text_length);
        made[first] = found[first];
        made[second] = found[second];
        expect(memcmp(made, found, text_length) == 0, "another text than that of the places");
        expect(found[first] != text[first] && found[second] != text[second], "a character that is not changed");
        expect(bech32_descriptor_check(found, text_length, &told) == BECH32_OK, "a text that is made is refused");
    }
    int is_small = percent(30);
    size_t enough = BECH32_DESCRIPTOR_TWO_MEMORY(text_length), size = is_small ? below(enough) : enough;
    bech32_memory memory = {some_for_descriptor + (sizeof some_for_descriptor - size) / 16 * 16, size};
    FORBID(some_for_descriptor, sizeof some_for_descriptor);
    ALLOW(memory.start, size);
    place(&read_1, text, text_length, 1);
    place(&memory_area, &memory, sizeof memory, sizeof(size_t));
    place(&locations_area, NULL, below(5) * sizeof(size_t), sizeof(size_t));
    place(&written_1, NULL, room(all * text_length), 1);
    size_t *count_of = new_length(&length_1), places_room = locations_area.length / sizeof(size_t);
    uint32_t number = bech32_descriptor_mend_two(
        read_1.buffer, text_length, (bech32_memory *)(void *)memory_area.buffer, (size_t *)(void *)locations_area.buffer,
        places_room, written_1.buffer, written_1.length, count_of);
    int is_counted = number == BECH32_OK || number == BECH32_NO_ROOM;
    count(&descriptor_mend_two, number);
    while (is_counted && fit < all && 2 * fit + 2 <= places_room && (fit + 1) * text_length <= written_1.length) {
        fit++;
    }
    if (number == BECH32_NO_MEMORY) {
        expect(is_small, "out of memory where the stated size is lent");
    } else {
        expect_number(number, expected, fit == all);
    }
    expect_kept(&read_1, 0, "the text changed");
    expect_kept(&memory_area, 0, "the memory was kept");
    expect_kept(&length_1, is_counted ? sizeof all : 0, "the number of texts changed");
    expect(!is_counted || length_in(&length_1) == all, "the number of texts");
    expect_kept(&locations_area, 2 * fit * sizeof(size_t), "the places changed elsewhere");
    expect_kept(&written_1, fit * text_length, "the buffer changed elsewhere");
    expect(fit == 0 || memcmp(written_1.buffer, ample, fit * text_length) == 0, "other texts");
}

static void print(const Function *function) {
    printf("%s: %llu calls; ", function->name, function->calls);
    printf("%llu answered", function->numbers[BECH32_OK]);
    for (uint32_t number = 1; number < NUMBERS; number++) {
        if (function->numbers[number] > 0) {
            printf(", refusal %u %llu", (unsigned)number, function->numbers[number]);
        }
    }
    printf("\n");
}

int main(int argc, char **argv) {
    static void (*const tries[])(void) = {
        try_encode,        try_decode,        try_check,   try_fault,
        try_segwit_encode, try_segwit_decode, try_residue, try_correct,
#ifndef FIRST_CALLS_ALONE
        try_decode_strict, try_decode_elements, try_encode_elements, try_suggest,
        try_codex32_parse, try_codex32_propose, try_codex32_share,
        try_codex32_encode, try_codex32_encode_payload, try_codex32_derive, try_codex32_split,
        try_codex32_recover, try_codex32_propose_long,
        try_nearest, try_near_edits, try_liquid_encode, try_liquid_decode, try_liquid_nearest, try_message, try_descriptor_checksum, try_descriptor_check, try_descriptor_mend,
        try_descriptor_mend_two, try_codex32_message, try_check_many, try_segwit_decode_many, try_segwit_encode_many, try_validity_of,
#endif
    };
    unsigned long long count = argc > 1 ? strtoull(argv[1], NULL, 10) : 100000;
    Area *areas[] = {
        &read_1,        &read_2,         &written_1,   &written_2,   &length_1, &length_2,
        &erasures_area, &locations_area, &values_area, &mended_area, &length_3,
        &threshold_area, &share_index_area, &memory_area, &identifier_area, &lengths_area,
        &offsets_area, &validity_area, &column_area, &numbers_area, &versions_area, &parts_area, &places_area,
    };
    state = argc > 2 ? strtoull(argv[2], NULL, 10) : 1;
    for (size_t i = 0; i < sizeof areas / sizeof *areas; i++) {
        make_area(areas[i], AREA);
    }
    while (calls < count) {
        tries[below(sizeof tries / sizeof *tries)]();
    }
    printf("%llu calls\n", calls);
    print(&encode);
    print(&decode);
    print(&decode_strict);
    print(&decode_elements);
    print(&encode_elements);
    print(&check);
    print(&fault);
    print(&segwit_encode);
    print(&segwit_decode);
    print(&residue);
    print(&correct);
    print(&read_codex32);
    print(&propose_codex32);
    print(&read_share);
    print(&encode_codex32);
    print(&encode_payload);
    print(&derive_codex32);
    print(&split_codex32);
    print(&recover_codex32);
    print(&propose_long_codex32);
    print(&nearest);
    print(&near_edits);
    print(&liquid_encode);
    print(&liquid_decode);
    print(&liquid_nearest);
    print(&suggest_calls);
    print(&descriptor_checksum);
    print(&descriptor_check);
    print(&descriptor_mend);
    print(&check_many_calls);
    print(&segwit_decode_many_calls);
    print(&segwit_encode_many_calls);
    print(&validity_of_calls);

    print(&descriptor_mend_two);
    print(&message);
    print(&codex32_message_calls);
    return 0;
}
