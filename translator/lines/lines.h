/* What the programs b32, c32 and mend reply to a line, over bech32.h and codex32.h: see lines.c. */
#ifndef LINES_H
#define LINES_H

#include <stddef.h>
#include <stdint.h>

/* A line has this many bytes at most, of b32 fewer, and so has a word of it. Words are not empty, and one space stands
 * between two. */
#define LINE_LIMIT 16384u
#define B32_LINE_LIMIT 4096u
#define MOST_WORDS (LINE_LIMIT / 2u)

/* What a word holds at most: two digits for a byte, and at least a digit and a comma for a location. */
#define MOST_BYTES (LINE_LIMIT / 2u)
#define MOST_LOCATIONS (LINE_LIMIT / 2u)

/* Refusals of the programs; the others are those of the libraries (docs/refusals.tsv has all). */
#define FINE 0u
#define LINE_TOO_LONG 1u
#define LINE_NOT_UTF8 2u
#define NO_COMMAND 3u
#define BAD_WORD 4u
#define BAD_HEX 5u
#define NOT_IN_DESCRIPTOR 80u
#define OUT_OF_MEMORY 91u

typedef struct {
    const uint8_t *bytes;
    size_t length;
} Word;

/* The words of a line behind that of the command. */
typedef struct {
    const Word *word;
    size_t count;
} Words;

/* What is said and not written yet. It grows; where it cannot, it has failed. */
typedef struct {
    uint8_t *bytes;
    size_t length, room;
    int has_failed;
} Out;

/* Puts the answer to a command, or returns the number of the refusal, and what was put is then left out. */
typedef uint32_t Answer(const Words *words, Out *out);

/* A command, and how many words it takes. A table of them ends in one without a name. */
typedef struct {
    const char *name;
    size_t least, most;
    Answer *answer;
} Command;

extern const Command b32_commands[], c32_commands[], mend_commands[];

/* Commands of one word, which is the rest of the line: it may have spaces, or be empty. They are tried first. */
extern const Command mend_rest_commands[];

/* Whether a word is a text of C. */
int is_word(Word word, const char *text);

/* The number of a checksum in bech32.h, or 0 where the word names none. Of those for long texts the second knows too. */
uint32_t checksum_of(Word word);
uint32_t any_checksum_of(Word word);

/* Reads a number of at most `most`, in decimal without leading zeros, or returns 0. */
int read_number(Word word, size_t most, size_t *number);

/* Reads locations, with commas between them, or returns 0. `locations` has room for MOST_LOCATIONS. */
int read_locations(Word word, size_t *locations, size_t *count);

/* Reads pairs of hexadecimal digits, or `-` for no bytes, or returns 0. `bytes` has room for half of the word. */
int read_hex(Word word, uint8_t *bytes, size_t *count);

void put(Out *out, const uint8_t *bytes, size_t length);
void put_text(Out *out, const char *text);
void put_number(Out *out, size_t number);

/* ASCII letters in lower case. */
void put_lowered(Out *out, const uint8_t *bytes, size_t length);

/* Pairs of hexadecimal digits, or `-` for no bytes. */
void put_hex(Out *out, const uint8_t *bytes, size_t length);

#endif
