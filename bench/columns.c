/*
 * Calls for columns beside calls for one address each, over the same 10,000 addresses: of ten six have 42 characters and four
 * 62, and one of a hundred has a wrong character.
 *
 *     columns                    of each kind, the nanoseconds an address of each way: the least of 101 turns, one after the other
 *     columns KIND WAY TURNS     so many turns of one way alone, to be counted
 *     columns list               the kinds and ways
 *
 * `calls` are the calls for one, of which only the number is kept; `loop` writes the arrays of the column too, as C would;
 * `column` is the call for the column, and `wanted` the same with a human-readable part that is wanted.
 */
#include "bech32.h"

#include <stdio.h>
#include <stdlib.h>
#include <string.h>
#include <time.h>

enum { ROWS = 10000, TURNS = 101, SHORT = 20, LONG = 32, ROOM = BECH32_MAX_SEGWIT_TEXT };

static uint8_t texts[ROWS * ROOM], programs[ROWS * LONG];
static int32_t text_offsets[ROWS + 1], program_offsets[ROWS + 1];
static bech32_column addresses, given;

/* What is made, and told. */
static uint8_t numbers[ROWS], versions[ROWS], hrp_lengths[ROWS], made[ROWS * ROOM];
static int32_t offsets[ROWS + 1];
static const uint8_t hrp[] = {'b', 'c'}, zeros[ROWS];

static void make(void)
{
    uint64_t state = 80;
    for (size_t i = 0; i < ROWS; i++) {
        size_t size = i % 10 < 6 ? SHORT : LONG, length = 0;
        uint8_t *program = programs + program_offsets[i], *text = texts + text_offsets[i];
        for (size_t j = 0; j < size; j++) {
            state = state * 6364136223846793005u + 1442695040888963407u;
            program[j] = (uint8_t)(state >> 56);
        }
        if (bech32_segwit_encode(hrp, sizeof hrp, 0, program, size, text, ROOM, &length) != BECH32_OK)
            abort();
        if (i % 100 == 99)
            text[20] = text[20] == 'q' ? 'p' : 'q';
        program_offsets[i + 1] = program_offsets[i] + (int32_t)size;
        text_offsets[i + 1] = text_offsets[i] + (int32_t)length;
    }
    addresses = (bech32_column){.bytes = texts, .bytes_length = (size_t)text_offsets[ROWS], .offsets = text_offsets,
        .offsets_length = sizeof text_offsets, .rows = ROWS, .layout = BECH32_OFFSETS_32};
    given = (bech32_column){.bytes = programs, .bytes_length = (size_t)program_offsets[ROWS], .offsets = program_offsets,
        .offsets_length = sizeof program_offsets, .rows = ROWS, .layout = BECH32_OFFSETS_32};
}

static void check_calls(void)
{
    size_t hrp_length, data_length;
    for (size_t i = 0; i < ROWS; i++)
        numbers[i] = (uint8_t)bech32_check(BECH32_BECH32, texts + text_offsets[i], (size_t)(text_offsets[i + 1] - text_offsets[i]),
            &hrp_length, &data_length);
}

static void check_column(void)
{
    if (bech32_check_many(BECH32_BECH32, &addresses, 0, numbers, ROWS) != BECH32_OK)
        abort();
}

static void decode_calls(void)
{
    uint8_t part[BECH32_MAX_HRP], program[BECH32_MAX_SEGWIT_PROGRAM];
    size_t part_length, program_length;
    uint32_t version;
    for (size_t i = 0; i < ROWS; i++)
        numbers[i] = (uint8_t)bech32_segwit_decode(texts + text_offsets[i], (size_t)(text_offsets[i + 1] - text_offsets[i]), part,
            sizeof part, &part_length, &version, program, sizeof program, &program_length);
}

static void decode_loop(void)
{
    uint8_t part[BECH32_MAX_HRP];
    int32_t end = 0;
    offsets[0] = 0;
    for (size_t i = 0; i < ROWS; i++) {
        size_t part_length = 0, program_length = 0;
        uint32_t version = 0;
        numbers[i] = (uint8_t)bech32_segwit_decode(texts + text_offsets[i], (size_t)(text_offsets[i + 1] - text_offsets[i]), part,
            sizeof part, &part_length, &version, made + end, sizeof made - (size_t)end, &program_length);
        versions[i] = numbers[i] == 0 ? (uint8_t)version : 0;
        hrp_lengths[i] = numbers[i] == 0 ? (uint8_t)part_length : 0;
        end += numbers[i] == 0 ? (int32_t)program_length : 0;
        offsets[i + 1] = end;
    }
}

static void decoded_as(size_t hrp_length)
{
    size_t done;
    if (bech32_segwit_decode_many(&addresses, 0, hrp, hrp_length, numbers, ROWS, versions, ROWS, hrp_lengths, ROWS, offsets,
            ROWS + 1, made, sizeof made, &done) != BECH32_OK)
        abort();
}

static void decode_column(void) { decoded_as(0); }
static void decode_wanted(void) { decoded_as(sizeof hrp); }

static size_t program_length(size_t i) { return (size_t)(program_offsets[i + 1] - program_offsets[i]); }

static void encode_calls(void)
{
    uint8_t text[ROOM];
    size_t length;
    for (size_t i = 0; i < ROWS; i++)
        numbers[i] = (uint8_t)bech32_segwit_encode(hrp, sizeof hrp, 0, programs + program_offsets[i], program_length(i), text,
            sizeof text, &length);
}

static void encode_loop(void)
{
    int32_t end = 0;
    offsets[0] = 0;
    for (size_t i = 0; i < ROWS; i++) {
        size_t length = 0;
        numbers[i] = (uint8_t)bech32_segwit_encode(hrp, sizeof hrp, zeros[i], programs + program_offsets[i], program_length(i),
            made + end, sizeof made - (size_t)end, &length);
        end += numbers[i] == 0 ? (int32_t)length : 0;
        offsets[i + 1] = end;
    }
}

static void encode_column(void)
{
    size_t done;
    if (bech32_segwit_encode_many(hrp, sizeof hrp, zeros, ROWS, &given, 0, numbers, ROWS, offsets, ROWS + 1, made, sizeof made,
            &done) != BECH32_OK)
        abort();
}

static const struct {
    const char *kind, *way;
    void (*turn)(void);
    size_t refused;
} ways[] = {
    {"check", "calls", check_calls, ROWS / 100}, {"check", "column", check_column, ROWS / 100},
    {"decode", "calls", decode_calls, ROWS / 100}, {"decode", "loop", decode_loop, ROWS / 100},
    {"decode", "column", decode_column, ROWS / 100}, {"decode", "wanted", decode_wanted, ROWS / 100},
    {"encode", "calls", encode_calls, 0}, {"encode", "loop", encode_loop, 0}, {"encode", "column", encode_column, 0},
};
enum { WAYS = sizeof ways / sizeof *ways };

static double now(void)
{
    struct timespec it;
    clock_gettime(CLOCK_PROCESS_CPUTIME_ID, &it);
    return 1e9 * (double)it.tv_sec + (double)it.tv_nsec;
}

/* One turn of a way, which refuses as many addresses as are wrong: its nanoseconds an address. */
static double timed(size_t way)
{
    memset(numbers, 255, sizeof numbers);
    double start = now();
    ways[way].turn();
    double found = (now() - start) / ROWS;
    size_t refused = 0;
    for (size_t i = 0; i < ROWS; i++)
        refused += numbers[i] != 0;
    if (refused != ways[way].refused)
        abort();
    return found;
}

int main(int words, char **word)
{
    double least[WAYS];
    make();
    if (words == 4) {
        for (size_t way = 0; way < WAYS; way++)
            if (strcmp(word[1], ways[way].kind) == 0 && strcmp(word[2], ways[way].way) == 0)
                for (long turns = strtol(word[3], NULL, 10); turns > 0; turns--)
                    ways[way].turn();
        return 0;
    }
    for (size_t turn = 0; turn < TURNS; turn++)
        for (size_t way = 0; way < WAYS; way++) {
            double found = words > 1 ? 0 : timed(way);
            least[way] = turn == 0 || found < least[way] ? found : least[way];
        }
    for (size_t way = 0; way < WAYS; way++)
        printf("%s %s %.1f\n", ways[way].kind, ways[way].way, least[way]);
    return 0;
}
