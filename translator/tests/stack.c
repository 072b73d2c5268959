/*
 * The bytes of the library's stack that calls of each function take, beside the size that is stated for it: the least
 * with which these calls do not end in a trap. A function that took more than is stated would trap in these calls.
 *
 * Built over the text of a library (LIBRARY names its file), with -Dstack_NAME=stack_size for each function: a variable
 * holds the stack sizes.
 */
#include <setjmp.h>
#include <stdio.h>

static jmp_buf back;
static unsigned stack_size;
#define MACHINE_TRAP() longjmp(back, 1)

#include LIBRARY

static ALIGNED(16) u8 lent[65536];
static u8 text[1024], out[65536], other[1024];
static size_t text_length, length, length_2;
static uint32_t word;

/* The n-th character of a text that is damaged in several ways: refused, mended, or searched for. */
static void damage(const char *of, unsigned n) {
    text_length = strlen(of);
    memcpy(text, of, text_length);
    unsigned most = text_length < 22 ? (unsigned)text_length - 2 : 20;
    for (unsigned i = 0; i < n % 4; i++) {
        size_t at = text_length - 1 - (7 * n + 11 * i) % most;
        text[at] = (u8)(text[at] == 'q' ? 'p' : 'q');
    }
    if (n % 7 == 6) {
        text[n % text_length] = 0xc3;
    }
}

#ifdef OF_CODEX32

static uint32_t try_parse(unsigned n) {
    damage("ms10testsxxxxxxxxxxxxxxxxxxxxxxxxxx4nzvca9cmczlw", n);
    return codex32_parse(text, text_length, &word, &word, &length);
}

static uint32_t try_propose(unsigned n) {
    codex32_memory memory = {lent, sizeof lent};
    damage("ms10testsxxxxxxxxxxxxxxxxxxxxxxxxxx4nzvca9cmczlw", n);
    for (unsigned i = 0; i < n % 9; i++) {
        text[10 + 4 * i] = '?';
    }
    return codex32_propose(text, text_length, &memory, out, sizeof out, &length);
}

#define LONG                                                                                                       \
    "ms100c8vsm32zxfguhpchtlupzry9x8gf2tvdw0s3jn54khce6mua7lqpzygsfjd6an074rxvcemlh8wu3tk925acdefghjklmnpqrstuvwxy06f" \
    "hpv80undvarhrak"

static uint32_t try_share(unsigned n) {
    damage(n % 2 ? LONG : "ms10testsxxxxxxxxxxxxxxxxxxxxxxxxxx4nzvca9cmczlw", n / 2);
    return codex32_share(text, text_length, &word, other, &word, out, n % 5 ? 64 : 3, &length);
}

#define LETTERS "qpzry9x8gf2tvdw0s3jn54khce6mua7l"

static uint32_t try_encode(unsigned n) {
    static const u8 bytes[64] = "0123456789abcdef0123456789abcdef0123456789abcdef0123456789abcde";
    return codex32_encode(n % 7, (const u8 *)"test", n % 11 ? 4 : 3, n % 7 && n % 3 ? 'a' : 's', bytes,
                          n % 2 ? 64 - n % 4 / 2 : n, out, n % 9 ? 127 : 20, &length);
}

static uint32_t try_encode_payload(unsigned n) {
    static const u8 payload[104] = "q" LETTERS LETTERS LETTERS "pzry9x";
    return codex32_encode_payload(n % 7, (const u8 *)"test", n % 11 ? 4 : 3, n % 7 && n % 3 ? 'a' : 's', payload + n % 2,
                                  n % 3 ? 103 - n % 4 : n, out, n % 9 ? 127 : 20, &length);
}

static u8 texts[10 * 127];
static size_t lengths[10], total;

/* A set of each threshold, with a string to spare or without, which some of the sets contradict: how many strings. */
static size_t make_texts(unsigned n) {
    static const u8 letters[] = "acdefghjkl";
    static u8 bytes[64];
    size_t threshold = 2 + n % 8, spare = n / 8 % 2;
    total = 0;
    for (size_t i = 0; i < threshold + spare; i++) {
        bytes[3] = (u8)(i + n);
        u8 *at = texts + total;
        int is_derived = i >= threshold && n % 3;
        if (!is_derived && codex32_encode((uint32_t)threshold, (const u8 *)"test", 4, letters[i], bytes, n % 5 ? 16 : 64, at,
                                          127, &lengths[i]) != CODEX32_OK) {
            return 0;
        }
        if (is_derived && codex32_derive(letters[i], texts, total, lengths, i, at, 127, &lengths[i]) != CODEX32_OK) {
            return 0;
        }
        total += lengths[i];
    }
    return threshold + spare - !(n % 10);
}

static uint32_t try_derive(unsigned n) {
    size_t count = make_texts(n);
    return codex32_derive(n % 7 ? 's' : 'c', texts, total, lengths, count, out, 127, &length);
}

static uint32_t try_recover(unsigned n) {
    size_t count = make_texts(n);
    return codex32_recover(texts, total, lengths, count, out, n % 5 ? 64 : 3, &length);
}

/* Of each threshold, into as few shares and into as many as there can be. */
static uint32_t try_split(unsigned n) {
    static const u8 bytes[1024] = "0123456789abcdef0123456789abcdef0123456789abcdef0123456789abcdef";
    uint32_t threshold = n % 11;
    size_t size = n % 3 ? 64 - n % 4 / 2 : n, count = n % 2 ? CODEX32_MAX_SPLIT : threshold + n % 5;
    size_t drawn = threshold < 2 || n % 7 == 0 ? n : CODEX32_RANDOM_SIZE(threshold, size);
    return codex32_split(threshold, (const u8 *)"test", n % 13 ? 4 : 3, bytes, size, bytes, drawn, count, out,
                         n % 9 ? sizeof out : 20, &length);
}

static uint32_t try_propose_long(unsigned n) {
    codex32_memory memory = {lent, sizeof lent};
    damage(LONG, n);
    for (unsigned i = 0; i < n % 9; i++) {
        text[10 + 4 * i] = '?';
    }
    return codex32_propose_long(text, text_length, &memory, out, sizeof out, &length);
}

static uint32_t try_message(unsigned n) {
    return codex32_message(2 * n, out, n % 5 ? CODEX32_MAX_MESSAGE : 20, &length);
}

static uint32_t try_version(unsigned n) {
    return codex32_version() + n;
}

static const struct {
    const char *name;
    uint32_t (*call)(unsigned n);
    unsigned stated;
} functions[] = {
    {"codex32_parse", try_parse, STATED_parse},
    {"codex32_share", try_share, STATED_share},
    {"codex32_encode", try_encode, STATED_encode},
    {"codex32_encode_payload", try_encode_payload, STATED_encode_payload},
    {"codex32_derive", try_derive, STATED_derive},
    {"codex32_split", try_split, STATED_split},
    {"codex32_recover", try_recover, STATED_recover},
    {"codex32_propose", try_propose, STATED_propose},
    {"codex32_propose_long", try_propose_long, STATED_propose_long},
    {"codex32_message", try_message, STATED_message},
    {"codex32_version", try_version, STATED_version},
};

#else

#define ADDRESS "bc1p0xlxvlhemja6c4dqv22uapctqupfhlxm9h8z3k2e72q4k9hcz7vqzk5jj0"

static const u8 bytes[40] = "0123456789abcdef0123456789abcdef";
static const size_t erasures[5] = {1, 5, 3, 4, 2};

static uint32_t try_encode(unsigned n) {
    return bech32_encode(1 + n % 3, (const u8 *)"bc", n % 5, bytes, n % 40, out, n % 9 ? 90 : 20, &length);
}

static uint32_t try_decode(unsigned n) {
    damage(n & 64 ? ADDRESS : "A12UEL5L", n);
    return bech32_decode(text, text_length, out, 83, &length, other, n % 5 ? 64 : 3, &length_2);
}

static uint32_t try_check(unsigned n) {
    damage(ADDRESS, n);
    return bech32_check(1 + n % 3, text, text_length, &length, &length_2);
}

static uint32_t try_fault(unsigned n) {
    damage(ADDRESS, n);
    return bech32_fault(1 + n % 3, text, text_length, &length);
}

static uint32_t try_segwit_encode(unsigned n) {
    return bech32_segwit_encode((const u8 *)"bc", 2, n % 18, bytes, n % 42, out, n % 9 ? 90 : 20, &length);
}

static uint32_t try_segwit_decode(unsigned n) {
    damage(ADDRESS, n % 8 ? n : 0);
    return bech32_segwit_decode(text, text_length, out, 83, &length, &word, other, 40, &length_2);
}

static uint32_t try_residue(unsigned n) {
    u8 elements[64] = {0};
    elements[n % 64] = (u8)(n % 33);
    return bech32_residue(1 + n % 3, elements, n % 65, &word);
}

static uint32_t try_correct(unsigned n) {
    size_t locations[4];
    damage(ADDRESS, n);
    return bech32_correct(1 + n % 2, text, text_length, erasures, n / 4 % 6, locations, 4, other, 4, &length_2, out, 90, &length);
}

static uint32_t try_nearest(unsigned n) {
    bech32_memory memory = {lent, n % 11 ? sizeof lent : 900};
    unsigned given = n % 6, errors = n / 6 % 3;
    damage(ADDRESS, n);
    return bech32_nearest(1 + n % 2, text, text_length, erasures, given, errors, &memory, out, sizeof out, &length);
}

/* Texts with a character left out, put in or swapped, and of up to 1,020 characters. */
static uint32_t try_near_edits(unsigned n) {
    bech32_memory memory = {lent, n % 11 ? sizeof lent : 900};
    size_t locations[4], at = n % 5 ? 20 : 5;
    damage(ADDRESS, n % 7 == 6 ? n : 0);
    if (n % 3 == 0) {
        memmove(text + at, text + at + 1, --text_length - at);
    } else if (n % 3 == 1) {
        memmove(text + at + 1, text + at, text_length++ - at);
    }
    while (n % 8 == 7 && text_length < 1020) {
        text[text_length++] = 'q';
    }
    return bech32_near_edits(1 + n % 2, text, text_length, &memory, other, n % 4, locations, 4, out, sizeof out, &length);
}

static uint32_t try_decode_strict(unsigned n) {
    damage(ADDRESS, n);
    return bech32_decode_strict(1 + n % 3, text, text_length, out, n % 9 ? sizeof out : 20, &length, other,
                                n % 9 ? sizeof other : 20, &length_2);
}

static uint32_t try_decode_elements(unsigned n) {
    damage(ADDRESS, n);
    return bech32_decode_elements(1 + n % 3, text, text_length, out, n % 9 ? sizeof out : 20, &length, other,
                                  n % 9 ? sizeof other : 20, &length_2);
}

static uint32_t try_encode_elements(unsigned n) {
    u8 elements[64] = {0};
    elements[n % 64] = (u8)(n % 33);
    return bech32_encode_elements(1 + n % 3, (const u8 *)"bc", n % 5, elements, n % 65, &length, out,
                                  n % 9 ? sizeof out : 20, &length_2);
}

#define LIQUID "lq1qqf8er278e6nyvuwtgf39e6ewvdcnjupn9a86rzpx655y5lhkt0walu3djf9cklkxd3ryld97hu8h3xepw7sh2rlu7q45dcew5"

static uint32_t try_liquid_encode(unsigned n) {
    return bech32_liquid_encode((const u8 *)"lq", 2, n % 18 % 3, bytes, bytes, n % 3 ? 20 : n % 42, out, n % 9 ? 201 : 20, &length);
}

static uint32_t try_liquid_decode(unsigned n) {
    u8 key[BECH32_LIQUID_KEY_LENGTH];
    damage(LIQUID, n % 8 ? n : 0);
    return bech32_liquid_decode(text, text_length, out, 83, &length, &word, key, other, 32, &length_2);
}

static const size_t liquid_erasures[7] = {1, 5, 30, 4, 2, 70, 11};

static uint32_t try_liquid_nearest(unsigned n) {
    bech32_memory memory = {lent, n % 11 ? sizeof lent : 900};
    unsigned given = n % 8, errors = n / 8 % 3;
    damage(LIQUID, n);
    return bech32_liquid_nearest(text, text_length, liquid_erasures, given, errors, &memory, out, sizeof out, &length);
}

static uint32_t try_descriptor_checksum(unsigned n) {
    damage(ADDRESS, n);
    return bech32_descriptor_checksum(text, text_length, out, n % 9 ? sizeof out : 20, &length, &length_2);
}

static uint32_t try_descriptor_check(unsigned n) {
    damage(ADDRESS, n);
    return bech32_descriptor_check(text, text_length, &length);
}

static uint32_t try_descriptor_mend(unsigned n) {
    static const char of[] = "raw(deadbeef)#89f8spxm";
    bech32_memory memory = {lent, n % 11 ? sizeof lent : 900};
    size_t places[8];
    damage(of, n % 7 == 6 ? n : n % 2);
    return bech32_descriptor_mend(text, text_length, n % 3, &memory, other, n % 4, places, 8, out, sizeof out, &length);
}

static uint32_t try_descriptor_mend_two(unsigned n) {
    static const char of[] = "raw(deadbeef)#89f8spxm";
    bech32_memory memory = {lent, n % 11 ? sizeof lent : 900};
    size_t places[8];
    damage(of, n % 7 == 6 ? n : n % 2);
    return bech32_descriptor_mend_two(text, text_length, &memory, places, n % 8, out, sizeof out, &length);
}

static uint32_t try_suggest(unsigned n) {
    bech32_memory memory = {lent, n % 11 ? sizeof lent : 900};
    size_t places[4];
    damage(ADDRESS, n);
    if (n % 5 == 4) {
        text[20] = '?';
    }
    return bech32_suggest(text, text_length, (const u8 *)"bc", 2, &memory, other, n % 4, places, 4, out, sizeof out, &length);
}

/* Columns of two damaged addresses, and of their programs, in each layout. */
static int32_t places[3], offsets[3];
static u8 both[2 * 91];

static bech32_column column_of(unsigned n, size_t first, size_t second) {
    bech32_column column = {both, first + second, offsets, sizeof offsets, NULL, 0, 2, first, n % 4 + 1};
    offsets[1] = (int32_t)first;
    offsets[2] = (int32_t)(first + second);
    return column;
}

static bech32_column damaged_column(unsigned n) {
    damage(ADDRESS, n);
    memset(both, 0, sizeof both);
    memcpy(both, text, text_length);
    memcpy(both + text_length, ADDRESS, text_length);
    return column_of(n, text_length, text_length);
}

static uint32_t try_check_many(unsigned n) {
    bech32_column column = damaged_column(n);
    return bech32_check_many(n % 5, &column, 0, other, 2);
}

static uint32_t try_segwit_decode_many(unsigned n) {
    bech32_column column = damaged_column(n);
    const char *wanted = n % 13 ? "bc" : "b\xff";
    return bech32_segwit_decode_many(&column, n % 2, (const u8 *)wanted, n % 3, other, 2 - n % 2, other + 2, 2, other + 4, 2,
                                     places, n % 7 ? 3 : 0, out, n % 9 ? sizeof out : 20, &length);
}

static uint32_t try_segwit_encode_many(unsigned n) {
    bech32_column column = column_of(n, n % 11 ? 20 : 2, 20 + n % 5);
    u8 versions[2] = {(u8)(n % 3), (u8)(n % 18)};
    return bech32_segwit_encode_many((const u8 *)"bc", 2, versions, 2, &column, 0, other, 2, places, n % 7 ? 3 : 1, out,
                                     n % 9 ? sizeof out : 50, &length);
}

static uint32_t try_validity_of(unsigned n) {
    return bech32_validity_of(both, n, out, n % 5 ? sizeof out : 3, &length);
}

static uint32_t try_message(unsigned n) {
    return bech32_message(n, out, n % 5 ? BECH32_MAX_MESSAGE : 20, &length);
}

static uint32_t try_version(unsigned n) {
    return bech32_version() + n;
}

static const struct {
    const char *name;
    uint32_t (*call)(unsigned n);
    unsigned stated;
} functions[] = {
    {"bech32_encode", try_encode, STATED_encode},
    {"bech32_decode", try_decode, STATED_decode},
    {"bech32_check", try_check, STATED_check},
    {"bech32_fault", try_fault, STATED_fault},
    {"bech32_segwit_encode", try_segwit_encode, STATED_segwit_encode},
    {"bech32_segwit_decode", try_segwit_decode, STATED_segwit_decode},
    {"bech32_residue", try_residue, STATED_residue},
    {"bech32_correct", try_correct, STATED_correct},
    {"bech32_nearest", try_nearest, STATED_nearest},
    {"bech32_near_edits", try_near_edits, STATED_near_edits},
    {"bech32_decode_strict", try_decode_strict, STATED_decode_strict},
    {"bech32_decode_elements", try_decode_elements, STATED_decode_elements},
    {"bech32_encode_elements", try_encode_elements, STATED_encode_elements},
    {"bech32_liquid_encode", try_liquid_encode, STATED_liquid_encode},
    {"bech32_liquid_decode", try_liquid_decode, STATED_liquid_decode},
    {"bech32_liquid_nearest", try_liquid_nearest, STATED_liquid_nearest},
    {"bech32_descriptor_checksum", try_descriptor_checksum, STATED_descriptor_checksum},
    {"bech32_descriptor_check", try_descriptor_check, STATED_descriptor_check},
    {"bech32_descriptor_mend", try_descriptor_mend, STATED_descriptor_mend},
    {"bech32_descriptor_mend_two", try_descriptor_mend_two, STATED_descriptor_mend_two},
    {"bech32_suggest", try_suggest, STATED_suggest},
    {"bech32_check_many", try_check_many, STATED_check_many},
    {"bech32_segwit_decode_many", try_segwit_decode_many, STATED_segwit_decode_many},
    {"bech32_segwit_encode_many", try_segwit_encode_many, STATED_segwit_encode_many},
    {"bech32_validity_of", try_validity_of, STATED_validity_of},
    {"bech32_message", try_message, STATED_message},
    {"bech32_version", try_version, STATED_version},
};

#endif

#define CALLS 60u

/* Whether none of the calls of a function traps with a stack of this many bytes. */
static int suffices(unsigned function, unsigned size) {
    static unsigned n;
    stack_size = size;
    if (setjmp(back)) {
        return 0;
    }
    for (n = 0; n < CALLS; n++) {
        functions[function].call(n);
    }
    return 1;
}

int main(void) {
    int failed = 0;
    for (unsigned i = 0; i < sizeof functions / sizeof *functions; i++) {
        unsigned stated = functions[i].stated, low = 0, high = stated / 16;
        int enough = suffices(i, stated);
        while (enough && low < high) {
            unsigned middle = (low + high) / 2;
            if (suffices(i, 16 * middle)) {
                high = middle;
            } else {
                low = middle + 1;
            }
        }
        /* The least that is stated is that of a function which takes none. */
        failed |= !enough || (low == 0 && stated > 16);
        printf("%s: %u bytes are stated, %u are taken%s\n", functions[i].name, stated, 16 * high,
               enough ? "" : ": TOO FEW ARE STATED");
    }
    return failed;
}
