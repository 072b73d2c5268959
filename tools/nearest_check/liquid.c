/*
 * Whether bech32_liquid_nearest does with as much memory as bech32.h states, in a second, for all that it may be asked.
 *
 *     liquid FROM TO           at each length of text, and for each number of errors and erasures of which twice the one and
 *                              the other are at most seven: wrong characters and erasures anywhere, and 33 locations apart,
 *                              where any seven of the code's columns add up to zero, so that a text has several near ones;
 *                              then one more erasure, which is refused, and more than six without memory
 *
 * The status is 1 where the right text is not listed, memory does not suffice or is not given back, the answer is another,
 * or a call takes a second.
 */
#include "bech32.h"

#include <stdio.h>
#include <stdlib.h>
#include <string.h>
#include <time.h>

enum { LONGEST = 1023, SHORTEST = 14, MOST = 7, ROOM = 1 << 17 };

static const char alphabet[] = "qpzry9x8gf2tvdw0s3jn54khce6mua7l";

static uint8_t right[LONGEST], text[LONGEST], *lent, texts[ROOM];
static size_t length;
static long calls, wrong, most;
static double slowest;

static size_t below(size_t n) {
    static uint64_t state = 1;
    state = state * 6364136223846793005u + 1442695040888963407u;
    return (size_t)(state >> 33) % n;
}

/* The remainder of elements by Blech32 (Elements, src/blech32.cpp). */
static uint64_t remainder_of(const uint8_t *elements, size_t count) {
    static const uint64_t words[] = {0x7d52fba40bd886, 0x5e8dbf1a03950c, 0x1c3a3c74072a18, 0x385d72fa0e5139, 0x7093e5a608865b};
    uint64_t remainder = 1;
    for (size_t i = 0; i < count; i++) {
        uint64_t top = remainder >> 55;
        remainder = (remainder & 0x7fffffffffffff) << 5 ^ elements[i];
        for (int bit = 0; bit < 5; bit++)
            remainder ^= top >> bit & 1 ? words[bit] : 0;
    }
    return remainder;
}

/* A text of this many characters that Blech32 accepts. */
static void make_text(size_t characters) {
    uint8_t elements[LONGEST + 1] = {3, 0, 1};
    size_t data = characters - SHORTEST;
    length = characters;
    for (size_t i = 0; i < data; i++)
        elements[3 + i] = (uint8_t)below(32);
    uint64_t checksum = remainder_of(elements, length + 1) ^ 1;
    for (size_t i = 0; i < 12; i++)
        elements[3 + data + i] = checksum >> 5 * (11 - i) & 31;
    memcpy(right, "a1", 2);
    for (size_t i = 2; i < length; i++)
        right[i] = (uint8_t)alphabet[elements[i + 1]];
}

static void change(size_t location) {
    uint8_t *at = text + length - 1 - location;
    *at = (uint8_t)alphabet[(size_t)(strchr(alphabet, *at) - alphabet) ^ (1 + below(31))];
}

static void fault(const char *what, size_t errors, size_t erasures, uint32_t number, size_t count) {
    printf("%zu characters, %zu errors, %zu erasures: %s: answer %u, %zu texts\n", length, errors, erasures, what,
           (unsigned)number, count);
    wrong++;
}

/* Asks with so much memory; the answer has to be this number. Returns how many texts there are. */
static size_t ask(const size_t *erasures, size_t given, size_t errors, size_t size, uint32_t wanted) {
    bech32_memory memory = {lent, size};
    size_t count = 0;
    clock_t start = clock();
    uint32_t number = bech32_liquid_nearest(text, length, erasures, given, errors, &memory, texts, sizeof texts, &count);
    double took = (double)(clock() - start) / CLOCKS_PER_SEC;
    slowest = took > slowest ? took : slowest;
    most = (long)count > most ? (long)count : most;
    calls++;
    if (number != wanted || memory.size != size || took > 1)
        fault("asked", errors, given, number, count);
    return number == BECH32_OK ? count : 0;
}

static int is_listed(size_t count) {
    for (size_t i = 0; i < count; i++)
        if (memcmp(texts + i * length, right, length) == 0)
            return 1;
    return 0;
}

/* Different locations, this many apart or a multiple of it. */
static int choose(size_t *locations, size_t count, size_t apart) {
    size_t of = (length - 3) / apart + 1;
    if (of < count)
        return 0;
    for (size_t i = 0, j; i < count; i++)
        do {
            locations[i] = below(of) * apart;
            for (j = 0; j < i && locations[j] != locations[i]; j++)
                continue;
        } while (j < i);
    return 1;
}

/* The first of the locations are erasures, and the others are wrong. */
static void try(size_t erasures, size_t errors, size_t apart) {
    size_t locations[MOST + 1];
    if (!choose(locations, erasures + errors, apart))
        return;
    memcpy(text, right, length);
    for (size_t i = 0; i < erasures + errors; i++)
        change(locations[i]);
    size_t count = ask(locations, erasures, errors, BECH32_LIQUID_NEAREST_MEMORY(length), BECH32_OK);
    if (!is_listed(count))
        fault("the right text is not listed", errors, erasures, BECH32_OK, count);
}

static void refuses(size_t errors, size_t apart) {
    size_t locations[MOST + 1];
    memcpy(text, right, length);
    if (errors > 0 && choose(locations, MOST + 1 - 2 * errors, apart))
        ask(locations, MOST + 1 - 2 * errors, errors, 0, BECH32_BAD_NUMBER);
    for (size_t given = MOST; given <= MOST + 1; given++)
        if (choose(locations, given, apart) && ask(locations, given, errors, 0, BECH32_OK) != 0)
            fault("texts beside more than six erasures", errors, given, BECH32_OK, 1);
}

int main(int count, char **words) {
    if (count != 3)
        return fputs("usage: liquid FROM TO\n", stderr), 2;
    lent = aligned_alloc(4096, (BECH32_LIQUID_NEAREST_MEMORY(LONGEST) + 4095u) / 4096u * 4096u);
    if (lent == NULL)
        return fputs("liquid: no memory\n", stderr), 1;
    for (size_t n = strtoul(words[1], NULL, 10); n <= strtoul(words[2], NULL, 10) && n <= LONGEST; n++) {
        if (n < SHORTEST)
            continue;
        make_text(n);
        for (size_t apart = 1; apart <= 33; apart += 32)
            for (size_t errors = 0; errors <= 3; errors++) {
                for (size_t erasures = 0; 2 * errors + erasures <= MOST && erasures < MOST; erasures++)
                    try(erasures, errors, apart);
                refuses(errors, apart);
            }
    }
    printf("%ld calls of bech32_liquid_nearest with just the memory that is stated, with up to %ld texts, the slowest %.3f s, "
           "%ld wrong\n",
           calls, most, slowest, wrong);
    return calls == 0 || wrong != 0;
}
