/*
 * What the worst input of each search takes: a row of docs/HOSTILE.md for each, or only for those whose name begins with
 * the word given. With the word `mend` instead: how many times as long two changed characters of a descriptor take as one
 * edit does, where two are wrong.
 *
 * Of each search, inputs of several kinds are tried. The row names the kind of the one that takes longest. It has the longest
 * time, and the most memory, of any: the time is the processor's, the least of three calls; the memory is what a call touched
 * of the memory lent and of the room for what it lists, in pages of 4,096 bytes. The status is 1 where a call returns another
 * number than is expected.
 */
#define _DEFAULT_SOURCE
#include "bech32.h"
#include "codex32.h"

#include <stdio.h>
#include <stdlib.h>
#include <string.h>
#include <sys/mman.h>
#include <time.h>

enum { PAGE = 4096, TRIES = 3 };

static const char alphabet[] = BECH32_ALPHABET;
static const char characters[] = "0123456789()[],'/*abcdefgh@:$%{}IJKLMNOPQRSTUVWXYZ&+-.;<=>?!^_|~ijklmnopqrstuvwxyzABCDEFGH`#\"\\ ";

static const char *wanted;
static int faults;

static size_t below(size_t n) {
    static uint64_t state = 1;
    state = state * 6364136223846793005u + 1442695040888963407u;
    return (size_t)(state >> 33) % n;
}

/* ---- memory of which it is known how much was touched */

typedef struct {
    uint8_t *start;
    size_t size;
} Area;

static Area area(size_t size) {
    Area it = {NULL, (size + PAGE) / PAGE * PAGE};
    it.start = mmap(NULL, it.size, PROT_READ | PROT_WRITE, MAP_PRIVATE | MAP_ANONYMOUS | MAP_NORESERVE, -1, 0);
    if (it.start == MAP_FAILED) {
        fputs("worst: no memory\n", stderr);
        exit(2);
    }
    return it;
}

static size_t touched(Area it) {
    unsigned char *resident = malloc(it.size / PAGE);
    size_t bytes = 0;
    if (resident == NULL || mincore(it.start, it.size, resident) != 0) {
        fputs("worst: it is not known how much memory was used\n", stderr);
        exit(2);
    }
    for (size_t at = 0; at < it.size / PAGE; at++) {
        bytes += (resident[at] & 1) * (size_t)PAGE;
    }
    free(resident);
    return bytes;
}

/* ---- rows */

/* What a call is given, and what it returns: one of two numbers. */
typedef struct {
    uint8_t text[BECH32_MAX_LONG_TEXT + BECH32_MAX_DESCRIPTOR];
    size_t length, errors, erasures[8], given;
    uint32_t checksum, expected, other;
    size_t memory_size, room, listed;
    Area memory, texts, kinds, places;
} Input;

typedef uint32_t Call(Input *it);

static struct {
    const char *name, *limits, *worst;
    double seconds;
    size_t lent, listed, count;
    char kind[200];
} row;

static int begins(const char *name, const char *limits) {
    row.name = name, row.limits = limits;
    row.seconds = 0, row.lent = row.listed = row.count = 0;
    row.kind[0] = 0;
    return wanted == NULL || strncmp(name, wanted, strlen(wanted)) == 0;
}

static double now(void) {
    struct timespec at;
    clock_gettime(CLOCK_PROCESS_CPUTIME_ID, &at);
    return (double)at.tv_sec + 1e-9 * (double)at.tv_nsec;
}

static size_t most(size_t a, size_t b) { return a > b ? a : b; }

static void measure(Call *call, Input *it, const char *kind) {
    it->memory = area(it->memory_size), it->texts = area(it->room);
    it->kinds = area(it->room), it->places = area(16 * it->room);
    it->listed = 0;
    uint32_t number = call(it);
    if (number != it->expected && number != it->other) {
        printf("%s, %s: answer %u\n", row.name, kind, (unsigned)number);
        faults++;
    }
    row.lent = most(row.lent, touched(it->memory));
    row.listed = most(row.listed, touched(it->texts) + touched(it->kinds) + touched(it->places));
    row.count = most(row.count, it->listed);
    double least = 1e9;
    for (int i = 0; i < TRIES; i++) {
        double before = now();
        call(it);
        double took = now() - before;
        least = took < least ? took : least;
    }
    if (least > row.seconds) {
        row.seconds = least;
        snprintf(row.kind, sizeof row.kind, "%s", kind);
    }
    munmap(it->memory.start, it->memory.size), munmap(it->texts.start, it->texts.size);
    munmap(it->kinds.start, it->kinds.size), munmap(it->places.start, it->places.size);
}

/* A number with its unit, two digits of it, rounded up; nothing of 0. */
static void print_number(double number, const char *const units[], double step) {
    char digits[30];
    int unit = 0;
    if (number <= 0) {
        printf("|");
        return;
    }
    while (number >= step && units[unit + 1] != NULL) {
        number /= step, unit++;
    }
    snprintf(digits, sizeof digits, number < 9.95 && unit > 0 ? "%.1f" : "%.0f", number);
    printf("%s %s|", digits, units[unit]);
}

static void ends(void) {
    static const char *const times[] = {"µs", "ms", "s", NULL}, *const sizes[] = {"bytes", "kB", "MB", NULL};
    if (row.count > 1) {
        printf("|%s|%s|%zu texts: %s|", row.name, row.limits, row.count, row.kind);
    } else {
        printf("|%s|%s|%s|", row.name, row.limits, row.kind);
    }
    print_number(row.seconds * 1e6, times, 1000);
    print_number((double)row.lent, sizes, 1000);
    print_number((double)row.listed, sizes, 1000);
    printf("\n");
    fflush(stdout);
}

/* ---- texts of Bech32 */

static void put_checksum(Input *it) {
    uint8_t elements[BECH32_MAX_LONG_TEXT + 1] = {3, 0, 1};
    uint32_t residue = 0;
    for (size_t i = 3; i <= it->length; i++) {
        elements[i] = i < it->length - 5 ? (uint8_t)(strchr(alphabet, it->text[i - 1]) - alphabet) : 0;
    }
    bech32_residue(BECH32_BECH32, elements, it->length + 1, &residue);
    residue ^= it->checksum == BECH32_BECH32M ? BECH32M_TARGET : BECH32_TARGET;
    for (size_t i = 0; i < 6; i++) {
        it->text[it->length - 6 + i] = (uint8_t)alphabet[residue >> 5 * (5 - i) & 31];
    }
}

/* A text of this length that is accepted: `a1`, and anything behind it. */
static void make_text(Input *it, uint32_t checksum, size_t length) {
    memset(it, 0, sizeof *it);
    it->checksum = checksum, it->length = length;
    memcpy(it->text, "a1", 2);
    for (size_t i = 2; i < length; i++) {
        it->text[i] = (uint8_t)alphabet[below(32)];
    }
    put_checksum(it);
}

static void change(Input *it, size_t location) {
    uint8_t *at = it->text + it->length - 1 - location, old = *at;
    while (*at == old) {
        *at = (uint8_t)alphabet[below(32)];
    }
}

/* Changes characters: those at erasures, known ones or anywhere, and others. */
static void damage(Input *it, size_t given, const size_t *known, size_t errors) {
    size_t all = it->length - 2;
    for (size_t i = 0; i < given; i++) {
        it->erasures[i] = known ? known[i] : below(all);
        change(it, it->erasures[i]);
    }
    it->given = given;
    for (size_t i = 0; i < errors; i++) {
        change(it, below(all));
    }
}

static const size_t near_33[] = {0, 33, 66, 99, 132, 165}, near_90[] = {3, 38, 80};

static uint32_t correct(Input *it) {
    size_t locations[BECH32_MAX_LISTED], count, length;
    uint8_t values[BECH32_MAX_LISTED], mended[BECH32_MAX_TEXT];
    return bech32_correct(it->checksum, it->text, it->length, it->erasures, it->given, locations, BECH32_MAX_LISTED, values,
                          BECH32_MAX_LISTED, &count, mended, sizeof mended, &length);
}

static uint32_t nearest(Input *it) {
    bech32_memory memory = {it->memory.start, it->memory_size};
    return bech32_nearest(it->checksum, it->text, it->length, it->erasures, it->given, it->errors, &memory, it->texts.start,
                          it->room, &it->listed);
}

static uint32_t near_edits(Input *it) {
    bech32_memory memory = {it->memory.start, it->memory_size};
    return bech32_near_edits(it->checksum, it->text, it->length, &memory, it->kinds.start, BECH32_NEAR_EDITS,
                             (size_t *)(void *)it->places.start, BECH32_NEAR_EDITS, it->texts.start, it->room, &it->listed);
}

static uint32_t suggest(Input *it) {
    bech32_memory memory = {it->memory.start, it->memory_size};
    return bech32_suggest(it->text, it->length, (const uint8_t *)"a", 1, &memory, it->kinds.start, BECH32_SUGGESTIONS,
                          (size_t *)(void *)it->places.start, BECH32_SUGGESTIONS, it->texts.start, it->room, &it->listed);
}

static uint32_t liquid_nearest(Input *it) {
    bech32_memory memory = {it->memory.start, it->memory_size};
    return bech32_liquid_nearest(it->text, it->length, it->erasures, it->given, it->errors, &memory, it->texts.start, it->room,
                                 &it->listed);
}

static void of_correct(void) {
    static Input it;
    if (!begins("`bech32_correct`", "1,023; 3 erasures")) {
        return;
    }
    for (size_t given = 0; given <= 3; given++) {
        for (size_t errors = 0; errors <= 3; errors++) {
            for (int i = 0; i < 20; i++) {
                char kind[100];
                make_text(&it, BECH32_BECH32 + i % 2, BECH32_MAX_TEXT);
                damage(&it, given, i % 3 ? NULL : near_33, errors);
                it.expected = correct(&it);
                snprintf(kind, sizeof kind, "%zu erased, %zu wrong", given, errors);
                measure(correct, &it, kind);
            }
        }
    }
    ends();
}

/* Beside these erasures, of which tools/nearest_check/most.c found that they have the most texts; and beside others. */
static void of_nearest(const char *name, const char *limits, size_t length, size_t given, const size_t *known, size_t memory,
                       size_t texts, uint32_t expected) {
    static Input it;
    if (!begins(name, limits)) {
        return;
    }
    for (size_t wrong = 0; wrong <= 4; wrong++) {
        for (int i = 0; i < (length > 200 ? 2 : 10); i++) {
            char kind[100];
            make_text(&it, BECH32_BECH32 + i % 2, length);
            damage(&it, given, i ? NULL : known, wrong);
            it.errors = BECH32_MAX_ERRORS, it.memory_size = memory, it.room = texts * length;
            it.other = expected;
            if (given == 0) {
                snprintf(kind, sizeof kind, "%zu wrong", wrong);
            } else if (i == 0) {
                snprintf(kind, sizeof kind, "erasures at locations %zu, %zu, %zu", known[0], known[1], known[2]);
            } else {
                snprintf(kind, sizeof kind, "%zu erased, %zu wrong", given, wrong);
            }
            measure(nearest, &it, kind);
        }
    }
    ends();
}

static void of_near_edits(void) {
    static Input it;
    size_t lengths[] = {BECH32_MAX_TEXT - 1, BECH32_MAX_TEXT, BECH32_MAX_TEXT + 1};
    if (!begins("`bech32_near_edits`", "1,024")) {
        return;
    }
    for (size_t at = 0; at < 3; at++) {
        for (size_t errors = 0; errors <= 2; errors++) {
            for (int i = 0; i < 12; i++) {
                char kind[100];
                make_text(&it, BECH32_BECH32 + i % 2, lengths[at]);
                damage(&it, 0, NULL, errors);
                if (i % 4 == 3) {
                    memset(it.text + 2, 'q', it.length - 3);
                    it.text[it.length - 1] = 'p';
                }
                it.memory_size = BECH32_NEAR_EDITS_MEMORY(it.length), it.room = BECH32_NEAR_EDITS * (it.length + 1);
                snprintf(kind, sizeof kind, "%s", i % 4 == 3 ? "`q` but for the last" : "any");
                measure(near_edits, &it, kind);
            }
        }
    }
    ends();
}

static void of_suggest(void) {
    static Input it;
    if (!begins("`bech32_suggest`", "91; 3 `?`")) {
        return;
    }
    for (size_t unread = 0; unread <= 4; unread++) {
        for (size_t errors = 0; errors <= 3; errors++) {
            for (int i = 0; i < 40; i++) {
                char kind[100];
                size_t length = (i % 4 ? 90 : 91) - (i % 4 == 3);
                make_text(&it, BECH32_BECH32 + i % 2, length);
                it.text[2] = i % 2 ? 'p' : 'q';
                put_checksum(&it);
                damage(&it, 0, NULL, errors);
                for (size_t k = 0; k < unread; k++) {
                    it.text[i % 3 ? 3 + below(length - 3) : length - 1 - 20 * k] = '?';
                }
                it.memory_size = BECH32_SUGGEST_MEMORY, it.room = BECH32_SUGGESTIONS * BECH32_MAX_SEGWIT_TEXT;
                snprintf(kind, sizeof kind, "%zu `?`", unread);
                measure(suggest, &it, kind);
            }
        }
    }
    ends();
}

/* Twice the errors, plus the erasures, is at most seven. */
static void of_liquid_nearest(const char *name, const char *limits, size_t length) {
    static Input it;
    if (!begins(name, limits)) {
        return;
    }
    for (size_t errors = 0; errors <= BECH32_MAX_LIQUID_ERRORS; errors++) {
        for (size_t given = 0; given <= 6 && 2 * errors + given <= 7; given++) {
            for (int i = 0; i < 4; i++) {
                char kind[100];
                make_text(&it, BECH32_BECH32, length);
                damage(&it, given, i % 2 ? NULL : near_33, i < 2 ? 0 : errors + 1);
                it.errors = errors, it.memory_size = 1 << 26, it.room = 1 << 22;
                snprintf(kind, sizeof kind, "%zu errors, %zu erased", errors, given);
                measure(liquid_nearest, &it, kind);
            }
        }
    }
    ends();
}

/* ---- descriptors */

static uint32_t mend(Input *it) {
    bech32_memory memory = {it->memory.start, it->memory_size};
    return bech32_descriptor_mend(it->text, it->length, 1, &memory, it->kinds.start, it->room / it->length,
                                  (size_t *)(void *)it->places.start, 2 * (it->room / it->length), it->texts.start, it->room,
                                  &it->listed);
}

static uint32_t mend_two(Input *it) {
    bech32_memory memory = {it->memory.start, it->memory_size};
    return bech32_descriptor_mend_two(it->text, it->length, &memory, (size_t *)(void *)it->places.start,
                                      it->room / it->length, it->texts.start, it->room, &it->listed);
}

/* Characters of a descriptor with the right checksum; then some of them are others. */
static void make_descriptor(Input *it, size_t length, size_t errors, int any) {
    size_t place, count = 0;
    memset(it, 0, sizeof *it);
    it->length = length;
    for (size_t i = 0; i < length; i++) {
        it->text[i] = (uint8_t)characters[below(95)];
    }
    if (any) {
        return;
    }
    it->text[length - 9] = '#';
    bech32_descriptor_checksum(it->text, length - 9, it->text + length - 8, 8, &count, &place);
    for (size_t i = 0; i < errors; i++) {
        size_t at = below(length - 9);
        uint8_t old = it->text[at];
        while (it->text[at] == old) {
            it->text[at] = (uint8_t)characters[below(95)];
        }
    }
}

static void of_mend(const char *name, const char *limits, Call *call, size_t length, size_t memory, int tries) {
    static Input it;
    if (!begins(name, limits)) {
        return;
    }
    for (int i = 0; i < tries; i++) {
        static const char *const kinds[] = {"none wrong", "1 wrong", "2 wrong", "3 wrong", "any"};
        make_descriptor(&it, length, (size_t)(i % 5), i % 5 == 4);
        it.memory_size = memory, it.room = 16 * (length + 1);
        measure(call, &it, kinds[i % 5]);
    }
    ends();
}

/* How many times as long two changes take, of texts in which two characters are wrong. */
static void compare_mends(void) {
    static const size_t sizes[] = {30, 100, 400, BECH32_MAX_DESCRIPTOR_TWO};
    static Input it;
    for (size_t at = 0; at < 4; at++) {
        double ratio = 0;
        for (int i = 0; i < 5; i++) {
            double one;
            make_descriptor(&it, sizes[at], 2, 0);
            it.memory_size = BECH32_DESCRIPTOR_TWO_MEMORY(sizes[at]), it.room = 16 * (sizes[at] + 1);
            begins("", "");
            measure(mend, &it, "");
            one = row.seconds, row.seconds = 0;
            measure(mend_two, &it, "");
            ratio += row.seconds / one / 5;
        }
        printf("%zu characters: %.0f times\n", sizes[at], ratio);
    }
}

/* ---- codex32 */

static uint32_t propose(Input *it) {
    uint8_t proposed[CODEX32_TEXT_SIZE];
    size_t length;
    codex32_memory memory = {it->memory.start, it->memory_size};
    return codex32_propose(it->text, it->length, &memory, proposed, sizeof proposed, &length);
}

static uint32_t propose_long(Input *it) {
    uint8_t proposed[CODEX32_TEXT_SIZE];
    size_t length;
    codex32_memory memory = {it->memory.start, it->memory_size};
    return codex32_propose_long(it->text, it->length, &memory, proposed, sizeof proposed, &length);
}

static void make_secret(Input *it, size_t size) {
    uint8_t bytes[CODEX32_BYTES_SIZE];
    memset(it, 0, sizeof *it);
    for (size_t i = 0; i < size; i++) {
        bytes[i] = (uint8_t)below(256);
    }
    codex32_encode(0, (const uint8_t *)"leet", 4, CODEX32_SECRET_INDEX, bytes, size, it->text, sizeof it->text, &it->length);
}

static void of_propose(const char *name, const char *limits, Call *call, size_t size) {
    static Input it;
    if (!begins(name, limits)) {
        return;
    }
    for (size_t unread = 0; unread <= 9; unread++) {
        for (size_t errors = 0; errors <= 5; errors++) {
            for (int i = 0; i < 20; i++) {
                char kind[100];
                make_secret(&it, size);
                for (size_t k = 0; k < errors; k++) {
                    it.text[3 + below(it.length - 3)] = (uint8_t)alphabet[below(32)];
                }
                for (size_t k = 0; k < unread; k++) {
                    it.text[3 + below(it.length - 3)] = '?';
                }
                it.memory_size = CODEX32_MEMORY(it.length);
                it.memory = area(it.memory_size);
                it.expected = call(&it);
                munmap(it.memory.start, it.memory.size);
                it.expected = it.expected == CODEX32_NO_MEMORY ? CODEX32_OK : it.expected;
                snprintf(kind, sizeof kind, "%zu `?`, %zu wrong", unread, errors);
                measure(call, &it, kind);
            }
        }
    }
    ends();
}

static uint8_t shares[CODEX32_MAX_SHARES * CODEX32_TEXT_SIZE];
static size_t lengths[CODEX32_MAX_SHARES];

static uint32_t split(Input *it) {
    static uint8_t bytes[CODEX32_BYTES_SIZE] = {1, 2, 3}, drawn[8 * CODEX32_TEXT_SIZE] = {5, 4, 3, 2, 1};
    return codex32_split(9, (const uint8_t *)"leet", 4, bytes, sizeof bytes, drawn, CODEX32_RANDOM_SIZE(9, sizeof bytes),
                         CODEX32_MAX_SPLIT, shares, sizeof shares, &it->length);
}

static uint32_t derive(Input *it) {
    uint8_t text[CODEX32_TEXT_SIZE];
    size_t length;
    return codex32_derive('s', shares, it->given * it->length, lengths, it->given, text, sizeof text, &length);
}

static uint32_t recover(Input *it) {
    uint8_t bytes[CODEX32_BYTES_SIZE];
    size_t length;
    return codex32_recover(shares, it->given * it->length, lengths, it->given, bytes, sizeof bytes, &length);
}

static void of_shares(const char *name, const char *limits, Call *call, const char *kind) {
    static Input it;
    memset(&it, 0, sizeof it);
    split(&it);
    for (size_t i = 0; i < CODEX32_MAX_SPLIT; i++) {
        lengths[i] = it.length;
    }
    it.given = CODEX32_MAX_SPLIT;
    if (begins(name, limits)) {
        measure(call, &it, kind);
        ends();
    }
}

/* ---- columns: one row */

static uint8_t many[1000 * BECH32_MAX_LONG_TEXT];
static size_t many_width;

static uint32_t check_many(Input *it) {
    bech32_column texts = {many, 1000 * many_width, NULL, 0, NULL, 0, 1000, many_width, BECH32_FIXED};
    return bech32_check_many(0, &texts, 0, it->kinds.start, 1000);
}

static uint32_t decode_many(Input *it) {
    bech32_column texts = {many, 1000 * many_width, NULL, 0, NULL, 0, 1000, many_width, BECH32_FIXED};
    size_t done;
    return bech32_segwit_decode_many(&texts, 0, (const uint8_t *)"bc", 2, it->kinds.start, 1000, it->kinds.start + 1000, 1000,
                                     it->kinds.start + 2000, 1000, (int32_t *)(void *)it->places.start, 1001, it->texts.start,
                                     40000, &done);
}

static void of_columns(const char *name, const char *limits, Call *call, size_t width) {
    static Input it;
    char kind[100];
    if (!begins(name, limits)) {
        return;
    }
    many_width = width;
    for (size_t i = 0; i < 1000; i++) {
        make_text(&it, BECH32_BECH32, width);
        memcpy(many + i * width, it.text, width);
    }
    it.room = 40000;
    snprintf(kind, sizeof kind, "1,000 of %zu", width);
    measure(call, &it, kind);
    ends();
}

int main(int count, char **words) {
    wanted = count > 1 ? words[1] : NULL;
    if (wanted != NULL && strcmp(wanted, "mend") == 0) {
        compare_mends();
        return faults != 0;
    }
    of_correct();
    of_nearest("`bech32_nearest`, an address", "90; 3 erasures", 90, 3, near_90, BECH32_NEAREST_MEMORY(90u),
               BECH32_NEAREST_TEXTS(90u), BECH32_OK);
    of_nearest("`bech32_nearest`, no erasures", "1,023", 1023, 0, near_33, BECH32_NEAREST_PLAIN_MEMORY(1023u),
               BECH32_NEAREST_PLAIN_TEXTS(1023u), BECH32_OK);
    of_nearest("`bech32_nearest`, 16 MiB lent", "1,023; 3 erasures", 1023, 3, near_33, 1 << 24,
               BECH32_NEAREST_TEXTS(1023u), BECH32_NO_MEMORY);
    of_nearest("`bech32_nearest`, 860 MB lent", "1,023; 3 erasures", 1023, 3, near_33, BECH32_NEAREST_MEMORY(1023u),
               BECH32_NEAREST_TEXTS(1023u), BECH32_OK);
    of_near_edits();
    of_suggest();
    of_liquid_nearest("`bech32_liquid_nearest`", "201; 2 × errors + erasures: 7", 201);
    of_liquid_nearest("`bech32_liquid_nearest`", "1,023; the same", 1023);
    of_mend("`bech32_descriptor_mend`", "7,500", mend, BECH32_MAX_DESCRIPTOR,
            BECH32_DESCRIPTOR_MEND_MEMORY(BECH32_MAX_DESCRIPTOR), 10);
    of_mend("`bech32_descriptor_mend_two`", "1,400", mend_two, BECH32_MAX_DESCRIPTOR_TWO,
            BECH32_DESCRIPTOR_TWO_MEMORY(BECH32_MAX_DESCRIPTOR_TWO), 10);
    of_propose("`codex32_propose`", "93; 2 × errors + `?`: 8", propose, 44);
    of_propose("`codex32_propose_long`", "127; the same", propose_long, 64);
    of_shares("`codex32_derive`", "32 strings of 127", derive, "31 shares, threshold 9");
    of_shares("`codex32_recover`", "32 strings of 127", recover, "31 shares, threshold 9");
    of_shares("`codex32_split`", "31 shares of 127", split, "31 shares, threshold 9");
    of_columns("`bech32_check_many`", "rows", check_many, BECH32_MAX_TEXT);
    of_columns("`bech32_segwit_decode_many`", "rows", decode_many, BECH32_MAX_SEGWIT_TEXT);
    return faults != 0;
}
