/*
 * Calls codex32 with secrets of which memcheck is told that no bit is known: under valgrind, each branch and each address
 * that depends on one is reported.
 *
 *     steady    the calls on secrets, of strings and of texts with a fault in them
 *
 * It prints a line for each part. The status is 1 where a call has another answer than is expected, 2 where there was a
 * report.
 *
 * What may be told is told by eleven functions of the library, which valgrind calls through those that TELLS, TELLS_PLACE and
 * TELLS_RESIDUE make here: what they return is known from there on, of a place the character that stands there, and of the
 * error residue all that they put. The library has no word of that in it, and any other way from a secret to a branch is
 * reported. A call without reports takes the same way for all secrets of its form, so that one secret of each will do.
 */
#include "codex32.h"
#include "texts.h"

#include <stdio.h>
#include <valgrind/memcheck.h>

enum { MOST_TEXTS = 12, SHORTEST = CODEX32_MIN_TEXT, MEMORY = 1 << 16 };

static const char *part;
static unsigned long calls;
static int is_wrong;

/* ---- what is told */

static unsigned long told[11];

/* The texts of the call under way. */
static const char *given;
static size_t given_size;

static void show(const void *start, size_t size)
{
    (void)VALGRIND_MAKE_MEM_DEFINED(start, size);
}

/* No more is told than yes or no. */
static void tell(int at, unsigned long answer, unsigned long a, unsigned long b)
{
    (void)a, (void)b;
    told[at]++;
    if ((answer & 0xff) > 1) {
        printf("%s: more is told than yes or no\n", part);
        is_wrong = 1;
    }
}

/* The first argument that is an address in the texts of the call. In the C file another argument may stand before it. */
static const char *text_in(unsigned long a, unsigned long b)
{
    unsigned long first = (unsigned long)given;
    return a - first < given_size ? (const char *)a : b - first < given_size ? (const char *)b : NULL;
}

/* A place is told of a text: where it starts, if it is one of the call. */
static const char *tell_place(int at, unsigned long answer, unsigned long a, unsigned long b)
{
    const char *start = text_in(a, b);
    told[at]++;
    if (start && answer <= (size_t)(given + given_size - start))
        return start;
    printf("%s: a place is told that is in no text\n", part);
    is_wrong = 1;
    return NULL;
}

/* The error residue. It stands where the first argument says, or the second one: in the C file another argument may stand
 * before it, and else the second says where the error is, whose first row says the same. */
static void tell_residue(int at, unsigned long answer, unsigned long a, unsigned long b)
{
    enum { RESIDUE = 25, LEAST_ADDRESS = 1 << 16 };
    (void)answer;
    told[at]++;
    if (a >= LEAST_ADDRESS)
        show((const void *)a, RESIDUE);
    if (b >= LEAST_ADDRESS)
        show((const void *)b, RESIDUE);
}

/* The character that ends at a place. */
static void tell_end(int at, unsigned long answer, unsigned long a, unsigned long b)
{
    const char *start = tell_place(at, answer, a, b);
    while (start && answer > 0) {
        show(start + --answer, 1);
        if ((start[answer] & 0xc0) != 0x80)
            return;
    }
}

/* The one that begins there. */
static void tell_start(int at, unsigned long answer, unsigned long a, unsigned long b)
{
    const char *start = tell_place(at, answer, a, b);
    if (!start || start + answer == given + given_size)
        return;
    show(start + answer, 1);
    unsigned char first = (unsigned char)start[answer];
    show(start + answer, first < 0x80 ? 1 : first < 0xe0 ? 2 : first < 0xf0 ? 3 : 4);
}

/* One function goes by its name in the archive, and in the C file by the one that tools/steady gives it. */
#define TELLS_BY(name, at, tells)                                                                                      \
    unsigned long I_WRAP_SONAME_FNNAME_ZZ(NONE, name)(unsigned long, unsigned long, unsigned long, unsigned long,        \
                                                      unsigned long, unsigned long);                                   \
    unsigned long I_WRAP_SONAME_FNNAME_ZZ(NONE, name)(unsigned long a, unsigned long b, unsigned long c,                 \
                                                      unsigned long d, unsigned long e, unsigned long f)               \
    {                                                                                                                  \
        OrigFn function;                                                                                               \
        unsigned long answer;                                                                                          \
        VALGRIND_GET_ORIG_FN(function);                                                                                \
        CALL_FN_W_6W(answer, function, a, b, c, d, e, f);                                                              \
        (void)VALGRIND_MAKE_MEM_DEFINED(&answer, sizeof answer);                                                       \
        tells(at, answer, a, b);                                                                                       \
        return answer;                                                                                                 \
    }
#define TELLS(at, name, c_name) TELLS_BY(name, at, tell) TELLS_BY(c_name, at, tell)
#define TELLS_PLACE(at, name, c_name, tells) TELLS_BY(name, at, tells) TELLS_BY(c_name, at, tells)
#define TELLS_RESIDUE(at, name, c_name) TELLS_BY(name, at, tell_residue) TELLS_BY(c_name, at, tell_residue)

/* whether all characters are of the alphabet; whether letters of both cases stand among them */
TELLS(0, codex32ZusteadyZcZcareZuofZualphabet, are_of_alphabetZa)
TELLS(1, codex32ZusteadyZcZchasZubothZucases, has_both_casesZa)
/* whether the checksum is right, of either length */
TELLS(2, codex32ZusteadyZutextsZcZcresidueZcZcisZutargetZa, is_targetZa)
TELLS(2, codex32ZusmallZcZcregisterZcZchasZutarget, hasZutargetZa)
/* whether a share beyond the threshold is the one that the others give */
TELLS(3, codex32ZusharesZcZcagreementZcZcareZuelementsZuof, are_elements_ofZa)
/* where the last character ends that is not of the alphabet; where the first begins that is not from 33 to 126 */
TELLS_PLACE(4, codex32ZusteadyZcZcdataZustart, dataZustartZa, tell_end)
TELLS_PLACE(5, codex32ZusteadyZcZcgraphicZucount, graphicZucountZa, tell_start)
/* of a damaged text, of each character: whether it is `1`, `?`, or may stand in a data part as it is read */
TELLS(6, codex32ZcZcdamagedZcZcisZuseparator, isZuseparatorZa)
TELLS(7, codex32ZcZcunreadableZcZcisZuunreadable, isZuunreadableZa)
TELLS(8, codex32ZcZcdamagedZcZcisZudataZucharacter, isZudataZucharacterZa)
/* and to what finds its errors, by how much the checksum is wrong */
TELLS_RESIDUE(9, codex32ZusteadyZutextsZcZcresidueZcZcputZuerrorZuresidue, putZuerrorZuresidueZa)
/* whether all random bytes are equal */
TELLS(10, codex32ZcZcsplittingZcZcareZuequal, areZuequalZa)

/* ---- secrets */

/* Of a secret character the highest bit is 0, as of all ASCII, and no other is known. */
static void hide(void *start, size_t size)
{
    static unsigned char bits[LONGEST];
    memset(bits, 0x7f, sizeof bits);
    (void)VALGRIND_SET_VBITS(start, bits, size);
}

/* Of a string all behind its share index is secret, but what is no ASCII: which bytes are is told as a fault of its own. */
static void hide_string(char *text, size_t size)
{
    for (size_t i = HEADER; i < size; i++)
        if (((unsigned char)text[i] & 0x80) == 0)
            hide(text + i, 1);
}

/* The texts of a call, of the same number of characters each. */
static void give(char *texts, size_t size, size_t count)
{
    given = texts;
    given_size = count * size;
    for (size_t i = 0; i < count; i++)
        hide_string(texts + i * size, size);
}

static void hide_bytes(void *start, size_t size)
{
    (void)VALGRIND_MAKE_MEM_UNDEFINED(start, size);
}

/* A call ended: which refusal it has may be told. */
static void expect(uint32_t number, uint32_t expected, const char *call, size_t size)
{
    show(&number, sizeof number);
    calls++;
    if (number != expected) {
        printf("%s: %s of %zu characters or bytes returns %u, not %u\n", part, call, size, number, expected);
        is_wrong = 1;
    }
}

/* ---- one call */

static void read_share(const char *text, size_t size, size_t room, uint32_t expected)
{
    char copy[2 * LONGEST];
    uint8_t identifier[4], bytes[MOST_BYTES];
    uint32_t threshold, share_index;
    size_t count;
    memcpy(copy, text, size);
    give(copy, size, 1);
    uint32_t number = codex32_share((const uint8_t *)copy, size, &threshold, identifier, &share_index, bytes, room, &count);
    expect(number, expected, "codex32_share", size);
}

static void parse(const char *text, size_t size, uint32_t expected)
{
    char copy[2 * LONGEST];
    uint32_t threshold, share_index;
    size_t count;
    memcpy(copy, text, size);
    give(copy, size, 1);
    uint32_t number = codex32_parse((const uint8_t *)copy, size, &threshold, &share_index, &count);
    expect(number, expected, "codex32_parse", size);
}

/* The nearest text to a damaged one. */
static void propose(const char *text, size_t size, uint32_t expected)
{
    static uint8_t room[MEMORY];
    char copy[2 * LONGEST];
    uint8_t proposed[LONGEST];
    size_t count;
    codex32_memory memory = {room, sizeof room};
    memcpy(copy, text, size);
    give(copy, size, 1);
    uint32_t number = (size <= CODEX32_MAX_TEXT ? codex32_propose : codex32_propose_long)((const uint8_t *)copy, size, &memory,
                                                                                       proposed, sizeof proposed, &count);
    expect(number, expected, "a proposal", size);
}

static void encode(size_t count, unsigned threshold, char share_index, size_t room, uint32_t expected)
{
    uint8_t bytes[2 * MOST_BYTES], text[LONGEST];
    size_t size;
    for (size_t i = 0; i < count; i++)
        bytes[i] = any_byte();
    hide_bytes(bytes, count);
    uint32_t number = codex32_encode(threshold, (const uint8_t *)"test", 4, (uint32_t)share_index, bytes, count, text, room,
                                     &size);
    expect(number, expected, "codex32_encode", count);
}

static void encode_payload(const char *payload, size_t count, unsigned threshold, char share_index, uint32_t expected)
{
    char copy[LONGEST];
    uint8_t text[LONGEST];
    size_t size;
    memcpy(copy, payload, count);
    hide(copy, count);
    uint32_t number = codex32_encode_payload(threshold, (const uint8_t *)"test", 4, (uint32_t)share_index,
                                             (const uint8_t *)copy, count, text, sizeof text, &size);
    expect(number, expected, "codex32_encode_payload", count);
}

typedef struct {
    size_t size, count, lengths[MOST_TEXTS];
    char texts[MOST_TEXTS * LONGEST];
} Set;

static void derive(const Set *set, char share_index, size_t room, uint32_t expected)
{
    Set copy = *set;
    uint8_t text[LONGEST];
    size_t size;
    give(copy.texts, copy.size, copy.count);
    uint32_t number = codex32_derive((uint32_t)share_index, (const uint8_t *)copy.texts, copy.count * copy.size,
                                     copy.lengths, copy.count, text, room, &size);
    expect(number, expected, "codex32_derive", set->size);
}

/* The bytes of a secret that shares recover. */
static void recover(const Set *set, size_t room, uint32_t expected)
{
    Set copy = *set;
    uint8_t bytes[MOST_BYTES];
    size_t count;
    give(copy.texts, copy.size, copy.count);
    uint32_t number = codex32_recover((const uint8_t *)copy.texts, copy.count * copy.size, copy.lengths, copy.count, bytes,
                                      room, &count);
    expect(number, expected, "codex32_recover", set->size);
}

/* Of the secret and of the random bytes nothing is known; how many there are is. */
static void split_by(const uint8_t *drawn_bytes, size_t count, unsigned threshold, size_t drawn, size_t shares, size_t room,
                     uint32_t expected)
{
    uint8_t bytes[2 * MOST_BYTES], random[8 * LONGEST], texts[CODEX32_MAX_SPLIT * LONGEST];
    size_t size;
    for (size_t i = 0; i < count; i++)
        bytes[i] = any_byte();
    memcpy(random, drawn_bytes, drawn);
    hide_bytes(bytes, count);
    hide_bytes(random, drawn);
    uint32_t number = codex32_split(threshold, (const uint8_t *)"test", 4, bytes, count, random, drawn, shares, texts, room,
                                    &size);
    expect(number, expected, "codex32_split", count);
}

static void split(size_t count, unsigned threshold, size_t drawn, size_t shares, size_t room, uint32_t expected)
{
    uint8_t random[8 * LONGEST];
    for (size_t i = 0; i < drawn; i++)
        random[i] = any_byte();
    split_by(random, count, threshold, drawn, shares, room, expected);
}

/* With random bytes that are all equal. */
static void split_unfilled(size_t count, unsigned threshold, size_t shares, size_t room)
{
    uint8_t random[8 * LONGEST];
    memset(random, any_byte(), sizeof random);
    split_by(random, count, threshold, CODEX32_RANDOM_SIZE(threshold, count), shares, room, CODEX32_EQUAL_RANDOM);
}

/* ---- sets of strings */

static char *text_of(Set *set, size_t i)
{
    return set->texts + i * set->size;
}

/* Any strings of one threshold and length, each at another index, are shares of a secret where they are no more than it. */
static void put_set(Set *set, size_t size, unsigned threshold)
{
    set->size = size;
    set->count = threshold == 0 ? 1 : threshold;
    for (size_t i = 0; i < MOST_TEXTS; i++)
        set->lengths[i] = size;
    for (size_t i = 0; i < set->count; i++)
        put_string(text_of(set, i), size, threshold, threshold == 0 ? 's' : indices[i]);
}

/* One more share, that the others give. */
static void add_share(Set *set)
{
    uint8_t text[LONGEST];
    size_t size = 0, at = set->count;
    given = set->texts;
    given_size = at * set->size;
    uint32_t number = codex32_derive((uint32_t)indices[at], (const uint8_t *)set->texts, at * set->size, set->lengths, at,
                                     text, sizeof text, &size);
    expect(number, CODEX32_OK, "codex32_derive", set->size);
    memcpy(text_of(set, at), text, set->size);
    set->count++;
}

static void raise_set(Set *set)
{
    raise_case(set->texts, set->count * set->size);
}

/* ---- the parts */

/* 0, and 2 to 9 */
static unsigned next_threshold(unsigned threshold)
{
    return threshold == 0 ? 2 : threshold + 1;
}

/* 48 to 93, and 125 to 127 */
static size_t next_size(size_t size)
{
    return size == CODEX32_MAX_TEXT ? CODEX32_MIN_LONG_TEXT : size + 1;
}

/* 16 to 44, and 63 and 64 */
static size_t next_count(size_t count)
{
    return count == 44 ? 63 : count + 1;
}

#define EACH_THRESHOLD(k) (unsigned k = 0; k <= 9; k = next_threshold(k))
#define EACH_SIZE(size) (size_t size = SHORTEST; size <= LONGEST; size = next_size(size))
#define EACH_COUNT(count) (size_t count = 16; count <= MOST_BYTES; count = next_count(count))

static char any_index(unsigned threshold)
{
    return threshold == 0 ? 's' : 'c';
}

/* At most four bits are left over behind the bytes of a payload. */
static int has_bytes(size_t size)
{
    return (size - HEADER - checksum_of(size)->length) * 5 % 8 <= 4;
}

static void read_string(const char *text, size_t size, uint32_t refused)
{
    uint32_t of_bytes = has_bytes(size) ? CODEX32_OK : CODEX32_BITS_LEFT_OVER;
    read_share(text, size, MOST_BYTES, refused != CODEX32_OK ? refused : of_bytes);
    if (size <= CODEX32_MAX_TEXT)
        parse(text, size, refused);
}

/* Strings of each length and threshold, in both cases. */
static void strings(void)
{
    for EACH_SIZE(size) {
        for EACH_THRESHOLD(threshold) {
            char text[LONGEST];
            put_string(text, size, threshold, any_index(threshold));
            read_string(text, size, CODEX32_OK);
            raise_case(text, size);
            read_string(text, size, CODEX32_OK);
        }
    }
}

/* Strings of each number of bytes and threshold, and of the characters of a payload in both cases. */
static void encodings(void)
{
    for EACH_COUNT(count) {
        for EACH_THRESHOLD(threshold) {
            char text[LONGEST], share_index = any_index(threshold);
            size_t size = CODEX32_ENCODED_SIZE(count), length = size - HEADER - checksum_of(size)->length;
            encode(count, threshold, share_index, LONGEST, CODEX32_OK);
            put_string(text, size, threshold, share_index);
            encode_payload(text + HEADER, length, threshold, share_index, CODEX32_OK);
            raise_case(text, size);
            encode_payload(text + HEADER, length, threshold, share_index, CODEX32_OK);
        }
    }
}

/* The secret and a share, of as many shares as the threshold, of each length, in both cases. */
static void derivations(void)
{
    for EACH_SIZE(size) {
        for EACH_THRESHOLD(threshold) {
            Set set;
            put_set(&set, size, threshold);
            derive(&set, 's', LONGEST, CODEX32_OK);
            derive(&set, '9', LONGEST, threshold == 0 ? CODEX32_BAD_SHARE_INDEX : CODEX32_OK);
            raise_set(&set);
            derive(&set, 's', LONGEST, CODEX32_OK);
        }
    }
}

/* One and three shares more than the threshold, which go with the others or contradict them. */
static void more_shares(void)
{
    for EACH_COUNT(count) {
        for (unsigned threshold = 2; threshold <= 9; threshold++) {
            Set set;
            size_t size = CODEX32_ENCODED_SIZE(count);
            put_set(&set, size, threshold);
            add_share(&set);
            derive(&set, 's', LONGEST, CODEX32_OK);
            add_share(&set);
            add_share(&set);
            raise_set(&set);
            derive(&set, 's', LONGEST, CODEX32_OK);
            put_set(&set, size, threshold);
            set.count += 3;
            for (size_t i = threshold; i < set.count; i++)
                put_string(text_of(&set, i), size, threshold, indices[i]);
            derive(&set, 's', LONGEST, CODEX32_CONTRADICTION);
            recover(&set, MOST_BYTES, CODEX32_CONTRADICTION);
        }
    }
}

/* The bytes of the secret, of as many shares as the threshold and of two more, of each length, in both cases. */
static void recoveries(void)
{
    for EACH_SIZE(size) {
        for EACH_THRESHOLD(threshold) {
            Set set;
            uint32_t expected = has_bytes(size) ? CODEX32_OK : CODEX32_BITS_LEFT_OVER;
            put_set(&set, size, threshold);
            recover(&set, MOST_BYTES, expected);
            if (threshold != 0) {
                add_share(&set);
                add_share(&set);
            }
            raise_set(&set);
            recover(&set, MOST_BYTES, expected);
        }
    }
}

/* Secrets of each number of bytes, split by each threshold into as few shares as it says, one more, and all. */
static void splits(void)
{
    for EACH_COUNT(count) {
        for (unsigned threshold = 2; threshold <= 9; threshold++) {
            size_t drawn = CODEX32_RANDOM_SIZE(threshold, count), room = CODEX32_MAX_SPLIT * LONGEST;
            split(count, threshold, drawn, threshold, room, CODEX32_OK);
            split(count, threshold, drawn, threshold + 1, room, CODEX32_OK);
            if (count % 16 == 0 || count > 44)
                split(count, threshold, drawn, CODEX32_MAX_SPLIT, room, CODEX32_OK);
        }
    }
}

/* Texts whose checksum is wrong at its end, or by a character of the payload. */
static void wrong_checksums(void)
{
    for EACH_SIZE(size) {
        Set set;
        put_set(&set, size, 3);
        char *last = text_of(&set, 2), *at = last + (size % 2 == 0 ? HEADER : size - 1);
        *at = *at == 'q' ? 'p' : 'q';
        read_string(last, size, CODEX32_WRONG_CHECKSUM);
        derive(&set, 's', LONGEST, CODEX32_WRONG_CHECKSUM);
        recover(&set, MOST_BYTES, CODEX32_WRONG_CHECKSUM);
        raise_set(&set);
        read_string(last, size, CODEX32_WRONG_CHECKSUM);
        derive(&set, 's', LONGEST, CODEX32_WRONG_CHECKSUM);
    }
}

/* Other refusals of strings whose checksum is right: of their headers, their number, and the room. */
static void refused_strings(size_t size)
{
    Set set;
    put_set(&set, size, 3);
    derive(&set, 's', size - 1, CODEX32_NO_ROOM);
    recover(&set, 15, CODEX32_NO_ROOM);
    set.count--;
    derive(&set, 's', LONGEST, CODEX32_TOO_FEW_SHARES);
    recover(&set, MOST_BYTES, CODEX32_TOO_FEW_SHARES);
    put_string(text_of(&set, 1), size, 2, 'c');
    derive(&set, 's', LONGEST, CODEX32_OTHER_SET);
    put_string(text_of(&set, 1), size, 3, 'a');
    derive(&set, 's', LONGEST, CODEX32_INDEX_TWICE);
    read_share(set.texts, size, 15, CODEX32_NO_ROOM);
    set.texts[CODEX32_THRESHOLD_AT] = 'q';
    put_checksum(set.texts, size);
    read_string(set.texts, size, CODEX32_BAD_THRESHOLD);
    put_string(set.texts, size, 0, 'a');
    read_string(set.texts, size, CODEX32_BAD_SHARE_INDEX);
}

static void refusals(void)
{
    for EACH_COUNT(count) {
        refused_strings(CODEX32_ENCODED_SIZE(count));
        encode(count, 2, 'c', CODEX32_ENCODED_SIZE(count) - 1, CODEX32_NO_ROOM);
        size_t drawn = CODEX32_RANDOM_SIZE(3, count), room = 4 * CODEX32_ENCODED_SIZE(count);
        split(count, 3, drawn, 4, room - 1, CODEX32_NO_ROOM);
        split(count, 3, drawn - 1, 4, room, CODEX32_BAD_RANDOM);
        split_unfilled(count, 3, 4, room);
        split(count, 3, drawn, 2, room, CODEX32_BAD_COUNT);
    }
    for (size_t count = 0; count <= MOST_BYTES + 2; count += count == 15 ? 30 : count == 62 ? 3 : 1)
        encode(count, 2, 'c', LONGEST, CODEX32_BAD_SIZE);
    split(15, 2, 24, 2, 2 * LONGEST, CODEX32_BAD_SIZE);
    split(16, 0, 0, 1, LONGEST, CODEX32_BAD_SHARE_INDEX);
    char payload[26 + 1] = "qqqqqqqqqqqqqqqqqqqqqqqqqq";
    encode_payload(payload, 25, 2, 'c', CODEX32_BAD_SIZE);
    payload[20] = 'P';
    encode_payload(payload, 26, 2, 'c', CODEX32_MIXED_CASE);
    payload[20] = 'b';
    encode_payload(payload, 26, 2, 'c', CODEX32_INVALID_CHARACTER);
}

/* ---- texts with a fault */

/* Whether strings may have this many characters. */
static int is_size(size_t size)
{
    return (size >= SHORTEST && size <= CODEX32_MAX_TEXT) || (size >= CODEX32_MIN_LONG_TEXT && size <= LONGEST);
}

/* Reads a text with a fault, alone and in a set. */
static void read_faulty(const char *text, size_t size, uint32_t refused)
{
    Set set;
    read_share(text, size, MOST_BYTES, refused);
    parse(text, size, refused == CODEX32_NOT_MS && size > CODEX32_MAX_TEXT ? CODEX32_BAD_LENGTH : refused);
    if (memchr(text, '?', size) == NULL)
        propose(text, size, refused);
    if (!is_size(size))
        return;
    put_set(&set, size, 2);
    memcpy(text_of(&set, 1), text, size);
    derive(&set, 's', LONGEST, refused);
    memcpy(text_of(&set, 0), text, size);
    derive(&set, 's', LONGEST, refused);
    recover(&set, MOST_BYTES, refused);
}

/* A text is refused by the first of its faults. `1` makes what stands before it the human-readable part. */
static uint32_t part_refusal(size_t place)
{
    return place > 83 ? CODEX32_HRP_TOO_LONG : CODEX32_NOT_MS;
}

/* One character was mistyped, at a place. */
static void mistyped(const char *text, size_t size, size_t at)
{
    static const char others[] = "b i!?\x7f\n";
    char copy[2 * LONGEST];
    for (const char *it = others; *it; it++) {
        memcpy(copy, text, size);
        copy[at] = *it;
        read_faulty(copy, size, CODEX32_INVALID_CHARACTER);
    }
    copy[at] = '1';
    read_faulty(copy, size, part_refusal(at));
    memcpy(copy, text, size);
    copy[at] = 'P';
    copy[at == HEADER ? HEADER + 1 : HEADER] = 'p';
    read_faulty(copy, size, CODEX32_MIXED_CASE);
}

/* Two were: the latter one is `1`, or both are others. */
static void mistyped_twice(const char *text, size_t size, size_t at)
{
    char copy[2 * LONGEST];
    memcpy(copy, text, size);
    copy[HEADER] = 'b';
    copy[at] = '!';
    read_faulty(copy, size, CODEX32_INVALID_CHARACTER);
    copy[at] = '1';
    read_faulty(copy, size, part_refusal(at));
    copy[HEADER] = ' ';
    read_faulty(copy, size, at > 83 ? CODEX32_HRP_TOO_LONG : CODEX32_HRP_INVALID);
    memcpy(copy + HEADER, "\xc3\xa9", 2);
    read_faulty(copy, size, at > 83 ? CODEX32_HRP_TOO_LONG : CODEX32_HRP_NOT_ASCII);
    copy[at] = 'q';
    read_faulty(copy, size, CODEX32_INVALID_CHARACTER);
}

/* The front of a text is another one. */
static void other_front(const char *text, size_t size)
{
    char copy[2 * LONGEST];
    memcpy(copy, text, size);
    copy[0] = 'n';
    read_faulty(copy, size, CODEX32_NOT_MS);
    copy[2] = 'q';
    read_faulty(copy, size, CODEX32_NO_SEPARATOR);
    copy[0] = '1';
    read_faulty(copy, size, CODEX32_HRP_EMPTY);
}

/* Texts that are nearly strings, of some lengths, at the first place, the last, and others. */
static void faulty_texts(void)
{
    static const size_t sizes[] = {SHORTEST, 74, CODEX32_MAX_TEXT, CODEX32_MIN_LONG_TEXT, LONGEST};
    for (size_t i = 0; i < sizeof sizes / sizeof *sizes; i++) {
        char text[LONGEST];
        size_t size = sizes[i];
        put_string(text, size, 2, 'a');
        for (size_t at = HEADER + 2; at < size; at += 9)
            mistyped_twice(text, size, at);
        other_front(text, size);
        for (size_t at = HEADER; at < size; at += at < size - 14 ? 13 : 1)
            mistyped(text, size, at);
        raise_case(text, size);
        mistyped(text, size, size / 2);
    }
}

/* Texts of other lengths, without another fault and with one that comes before it. */
static void wrong_lengths(void)
{
    char text[2 * LONGEST];
    put_string(text, LONGEST, 2, 'a');
    memcpy(text + LONGEST, text + HEADER, LONGEST - HEADER);
    for (size_t size = HEADER + 1; size <= LONGEST + 20; size++) {
        if (size > CODEX32_MAX_TEXT)
            parse(text, size, CODEX32_BAD_LENGTH);
        if (is_size(size))
            continue;
        read_faulty(text, size, CODEX32_BAD_LENGTH);
        char last = text[size - 1];
        text[size - 1] = 'b';
        read_faulty(text, size, CODEX32_INVALID_CHARACTER);
        text[size - 1] = last;
    }
}

/* ---- damaged texts */

/* A string with some wrong characters and some that cannot be read, in both cases. */
static void propose_damaged(size_t size, size_t wrong, size_t unreadable)
{
    char text[LONGEST];
    put_string(text, size, 2, 'a');
    for (size_t i = 0; i < wrong; i++)
        text[HEADER + 5 * i] = text[HEADER + 5 * i] == 'q' ? 'p' : 'q';
    for (size_t i = 0; i < unreadable; i++)
        text[size - 1 - 3 * i] = '?';
    uint32_t expected = 2 * wrong + unreadable > 8 ? CODEX32_NO_NEAREST : CODEX32_OK;
    propose(text, size, expected);
    raise_case(text, size);
    propose(text, size, expected);
}

/* Of each length, with as many as are mended, fewer, and more. */
static void proposals(void)
{
    for EACH_SIZE(size) {
        for (size_t wrong = 0; wrong <= 4; wrong++) {
            propose_damaged(size, wrong, 0);
            propose_damaged(size, wrong, 8 - 2 * wrong);
            propose_damaged(size, 0, 7 + wrong);
        }
        propose_damaged(size, 5, 0);
    }
}

/* ---- all */

typedef struct {
    const char *name;
    void (*run)(void);
} Part;

static const Part parts[] = {
    {"strings", strings},
    {"encodings", encodings},
    {"derivations", derivations},
    {"more shares", more_shares},
    {"recoveries", recoveries},
    {"splits", splits},
    {"wrong checksums", wrong_checksums},
    {"refusals", refusals},
    {"faulty texts", faulty_texts},
    {"wrong lengths", wrong_lengths},
    {"proposals", proposals},
    {NULL, NULL},
};

/* Where one of the eleven is in line, or has another name, what it tells is reported. */
static void show_told(void)
{
    static const char *names[] = {"are_of_alphabet", "has_both_cases", "is_target",         "are_elements_of",  "data_start",
                                  "graphic_count",   "is_separator",   "is_unreadable",     "is_data_character",
                                  "put_error_residue", "are_equal"};
    for (int i = 0; i < 11; i++)
        printf("told %lu times by %s\n", told[i], names[i]);
}

int main(void)
{
    for (const Part *it = parts; it->name; it++, calls = 0) {
        unsigned long before = VALGRIND_COUNT_ERRORS;
        part = it->name;
        it->run();
        printf("%-15s %5lu calls, %lu reports\n", part, calls, VALGRIND_COUNT_ERRORS - before);
    }
    show_told();
    return is_wrong ? 1 : VALGRIND_COUNT_ERRORS != 0 ? 2 : 0;
}
