/*
 * Texts near to mistyped ones, by bech32_nearest: against rows, and over many errors.
 *
 *     check rows               rows of model.py on standard input
 *     check pairs TEXT         each text with two wrong characters gives back the right one, and nothing else
 *     check random COUNT       the same of random long texts with two errors or one, where the code tells them apart
 *     check three COUNT TEXT   how many texts with three wrong characters have an answer; none may be the right text
 *
 * The status is 1 where the library differs from what is expected.
 */
#include "bech32.h"

#include <stdio.h>
#include <stdlib.h>
#include <string.h>

static const char alphabet[] = "qpzry9x8gf2tvdw0s3jn54khce6mua7l";

enum { LONGEST = 1023, MOST = 64, MEMORY = 1 << 20 };

static const size_t no_erasures[1];
static uint8_t texts[MOST * LONGEST];
static _Alignas(4096) uint8_t room[MEMORY];

/* The near texts are put into `texts`; returns their number, or minus the number of the refusal. */
static long nearest(uint32_t checksum, const char *text, const size_t *erasures, size_t given, size_t errors)
{
    bech32_memory memory = {room, MEMORY};
    size_t count = 0;
    uint32_t number = bech32_nearest(checksum, (const uint8_t *)text, strlen(text), erasures, given, errors, &memory,
                                     texts, sizeof texts, &count);
    return number == BECH32_OK ? (long)count : -(long)number;
}

static int is_the_text(const char *right)
{
    return memcmp(texts, right, strlen(right)) == 0;
}

static int rows(void)
{
    static char line[1 << 20];
    long read = 0, wrong = 0, answers = 0;
    while (fgets(line, sizeof line, stdin)) {
        char *field[5] = {line};
        line[strcspn(line, "\n")] = 0;
        for (int i = 1; i < 5; i++) {
            field[i] = strchr(field[i - 1], '\t') + 1;
            field[i][-1] = 0;
        }
        size_t erasures[16], given = 0;
        for (char *at = strtok(field[2], ","); at; at = strtok(NULL, ","))
            erasures[given++] = strtoul(at, NULL, 10);
        uint32_t checksum = strcmp(field[0], "bech32") == 0 ? BECH32_BECH32 : BECH32_BECH32M;
        long found = nearest(checksum, field[1], erasures, given, strtoul(field[3], NULL, 10));
        long expected = 0;
        int same = found >= 0;
        for (char *at = strtok(field[4], " "); at; at = strtok(NULL, " "), expected++)
            same = same && expected < found && memcmp(texts + expected * strlen(at), at, strlen(at)) == 0;
        read++;
        answers += expected;
        if (!same || found != expected) {
            wrong++;
            printf("%s erasures %zu errors %s: %ld texts, expected %ld\n", field[1], given, field[3], found, expected);
        }
    }
    printf("%ld rows with %ld near texts, %ld wrong\n", read, answers, wrong);
    return read == 0 || wrong != 0;
}

/* The text with the element at a place of its data part changed by a value. */
static void change(char *text, size_t place, unsigned value)
{
    unsigned element = (unsigned)(strchr(alphabet, text[place]) - alphabet);
    text[place] = alphabet[element ^ value];
}

/* One text with wrong characters: whether the right one is the only near text. */
static int gives_back(uint32_t checksum, const char *text, const char *right)
{
    return nearest(checksum, text, no_erasures, 0, 2) == 1 && is_the_text(right);
}

static int pairs(const char *right)
{
    char text[LONGEST + 1];
    size_t length = strlen(right), first = (size_t)(strrchr(right, '1') - right) + 1;
    long tried = 0, wrong = 0;
    for (size_t one = first; one < length; one++)
        for (size_t other = one + 1; other < length; other++)
            for (unsigned a = 1; a < 32; a++)
                for (unsigned b = 1; b < 32; b++) {
                    strcpy(text, right);
                    change(text, one, a);
                    change(text, other, b);
                    tried++;
                    wrong += !gives_back(BECH32_BECH32, text, right);
                }
    printf("%ld pairs of errors, %ld wrong\n", tried, wrong);
    return tried == 0 || wrong != 0;
}

static unsigned long state = 88172645463325252;

/* A number below a limit (xorshift). */
static size_t below(size_t limit)
{
    state ^= state << 13;
    state ^= state >> 7;
    state ^= state << 17;
    return (size_t)(state % limit);
}

/* Changes this many different characters of the data part. */
static void mistype(char *text, size_t errors)
{
    size_t first = (size_t)(strrchr(text, '1') - text) + 1, length = strlen(text) - first, places[3];
    for (size_t i = 0; i < errors; i++) {
        size_t j;
        do {
            places[i] = below(length);
            for (j = 0; j < i && places[j] != places[i]; j++)
                continue;
        } while (j < i);
        change(text, first + places[i], 1 + (unsigned)below(31));
    }
}

/* Two wrong characters at most, in random texts of up to 89 characters. */
static int at_random(long count)
{
    char right[LONGEST + 1], text[LONGEST + 1];
    uint8_t bytes[48];
    long wrong = 0;
    for (long i = 0; i < count; i++) {
        uint32_t checksum = below(2) ? BECH32_BECH32 : BECH32_BECH32M;
        size_t size = below(sizeof bytes + 1), length;
        for (size_t j = 0; j < size; j++)
            bytes[j] = (uint8_t)below(256);
        if (bech32_encode(checksum, (const uint8_t *)"bc", 2, bytes, size, (uint8_t *)right, LONGEST, &length) != 0)
            return 1;
        right[length] = 0;
        strcpy(text, right);
        mistype(text, below(3));
        wrong += !gives_back(checksum, text, right);
    }
    printf("%ld random texts with two wrong characters at most, %ld wrong\n", count, wrong);
    return count == 0 || wrong != 0;
}

/* Three wrong characters: an answer is never the right text, which is too far away. */
static int three(long count, const char *right)
{
    char text[LONGEST + 1];
    long answered = 0, wrong = 0;
    for (long i = 0; i < count; i++) {
        strcpy(text, right);
        mistype(text, 3);
        long found = nearest(BECH32_BECH32, text, no_erasures, 0, 2);
        answered += found == 1;
        wrong += found < 0 || found > 1 || (found == 1 && is_the_text(right));
    }
    printf("%ld texts with three wrong characters, %ld with an answer, %ld wrong\n", count, answered, wrong);
    return count == 0 || wrong != 0;
}

int main(int count, char **words)
{
    const char *mode = count > 1 ? words[1] : "";
    if (count == 2 && strcmp(mode, "rows") == 0)
        return rows();
    if (count == 3 && strcmp(mode, "pairs") == 0)
        return pairs(words[2]);
    if (count == 3 && strcmp(mode, "random") == 0)
        return at_random(strtol(words[2], NULL, 10));
    if (count == 4 && strcmp(mode, "three") == 0)
        return three(strtol(words[2], NULL, 10), words[3]);
    fputs("usage: check rows | pairs TEXT | random COUNT | three COUNT TEXT\n", stderr);
    return 2;
}
