/*
 * Whether bech32_nearest does with as much memory, and as much room for texts, as bech32.h states.
 *
 *     room worst               lines of `most accepted 2 ..` on standard input: characters of the data part, how many
 *                              texts there are (0: any number), and the erasures. As many are listed, of a text that
 *                              is accepted with other characters there
 *     room all FROM TO         at each length of text, with three erasures anywhere and two errors
 *     room few                 at each length: less memory, for no erasures or one (and two, up to 90 characters) with
 *                              two errors, and for three with one, where they have the most texts
 *
 * The status is 1 where a call has any other answer than these texts, all of them, and all of its memory back.
 */
#include "bech32.h"

#include <stdio.h>
#include <stdlib.h>
#include <string.h>

enum { LONGEST = 1023, SHORTEST = 8 };

static const char alphabet[] = "qpzry9x8gf2tvdw0s3jn54khce6mua7l";

static uint8_t text[LONGEST], *lent, *texts;
static size_t length;
static long calls, wrong, most;

static size_t below(size_t n)
{
    static uint64_t state = 1;
    state = state * 6364136223846793005u + 1442695040888963407u;
    return (size_t)(state >> 33) % n;
}

/* A text of this many characters that is accepted: random elements, and what leaves the residue of a right text. */
static void make_text(size_t characters)
{
    uint8_t elements[LONGEST + 1] = {3, 0, 1};
    uint32_t residue = 0;
    length = characters;
    memcpy(text, "a1", 2);
    for (size_t i = 3; i < length - 5; i++)
        elements[i] = (uint8_t)below(32);
    bech32_residue(BECH32_BECH32, elements, length + 1, &residue);
    residue ^= BECH32_TARGET;
    for (size_t i = 0; i < 6; i++)
        elements[length - 5 + i] = residue >> 5 * (5 - i) & 31;
    for (size_t i = 2; i < length; i++)
        text[i] = (uint8_t)alphabet[elements[i + 1]];
}

static void change(size_t location)
{
    uint8_t *at = text + length - 1 - location;
    *at = (uint8_t)alphabet[(size_t)(strchr(alphabet, *at) - alphabet) ^ (1 + below(31))];
}

/* Lists the texts with just this much memory and room; there have to be this many, or any number from 1 on. */
static void list(const size_t *erasures, size_t given, size_t errors, size_t size, size_t room, long wanted)
{
    bech32_memory memory = {lent, size};
    size_t count = 0;
    uint32_t number = bech32_nearest(BECH32_BECH32, text, length, erasures, given, errors, &memory, texts,
                                     room * length, &count);
    calls++;
    most = (long)count > most ? (long)count : most;
    if (number != BECH32_OK || memory.size != size || (wanted ? (long)count != wanted : count == 0)) {
        printf("%zu characters, %zu erasures, %zu errors: answer %u, %zu texts\n", length, given, errors,
               (unsigned)number, count);
        wrong++;
    }
}

static void list_all(const size_t *erasures, long wanted)
{
    list(erasures, 3, 2, BECH32_NEAREST_MEMORY(length), BECH32_NEAREST_TEXTS(length), wanted);
}

static void list_few(const size_t *erasures, size_t given, size_t errors)
{
    list(erasures, given, errors, BECH32_NEAREST_FEW_MEMORY(length), BECH32_NEAREST_FEW_TEXTS(length), 0);
}

static void worst(void)
{
    size_t characters, erasures[3];
    long wanted;
    while (scanf("%zu %ld %zu %zu %zu", &characters, &wanted, erasures, erasures + 1, erasures + 2) == 5)
        if (characters + 2 >= SHORTEST) {
            make_text(characters + 2);
            list_all(erasures, wanted);
        }
}

/* Three locations that differ, or fewer, below a number of characters. */
static void choose(size_t *locations, size_t count, size_t characters)
{
    for (size_t i = 0, j; i < count; i++)
        do {
            locations[i] = below(characters);
            for (j = 0; j < i && locations[j] != locations[i]; j++)
                continue;
        } while (j < i);
}

static void all(size_t from, size_t to)
{
    size_t locations[5];
    for (size_t n = from; n <= to; n++) {
        make_text(n);
        choose(locations, 5, n - 2);
        for (size_t i = 0; i < 5; i++)
            change(locations[i]);
        list_all(locations, 0);
    }
}

/* Errors and erasures anywhere, and 33 locations apart: of such columns any four add up to zero. */
static void few(void)
{
    size_t locations[5];
    for (size_t n = SHORTEST; n <= LONGEST; n++)
        for (size_t given = 0; given <= 3; given++) {
            size_t errors = given < 3 ? 2 : 1, apart = n % 2 ? 33 : 1, of = (n - 3) / apart + 1;
            if ((given == 2 && n > 90) || of < given + errors)
                continue;
            make_text(n);
            choose(locations, given + errors, of);
            for (size_t i = 0; i < given + errors; i++) {
                locations[i] *= apart;
                change(locations[i]);
            }
            if (given > 0)
                list_few(locations, given, errors);
            else
                list(locations, 0, errors, BECH32_NEAREST_PLAIN_MEMORY(n), BECH32_NEAREST_PLAIN_TEXTS(n), 0);
        }
}

int main(int count, char **words)
{
    const char *mode = count > 1 ? words[1] : "";
    lent = aligned_alloc(4096, (BECH32_NEAREST_MEMORY(LONGEST) + 4095u) / 4096u * 4096u);
    texts = malloc((size_t)BECH32_NEAREST_TEXTS(LONGEST) * LONGEST);
    if (lent == NULL || texts == NULL)
        return fputs("room: no memory\n", stderr), 1;
    if (count == 2 && strcmp(mode, "worst") == 0)
        worst();
    else if (count == 4 && strcmp(mode, "all") == 0)
        all(strtoul(words[2], NULL, 10), strtoul(words[3], NULL, 10));
    else if (count == 2 && strcmp(mode, "few") == 0)
        few();
    else
        return fputs("usage: room worst | all FROM TO | few\n", stderr), 2;
    printf("%ld calls with just the memory and the room that are stated, with up to %ld texts, %ld wrong\n", calls, most,
           wrong);
    return calls == 0 || wrong != 0;
}
