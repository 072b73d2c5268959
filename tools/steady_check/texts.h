/*
 * Strings of codex32 for tests, made by BIP-93 alone: any payload, and its checksum.
 */
#ifndef TEXTS_H
#define TEXTS_H

#include <stddef.h>
#include <stdint.h>
#include <string.h>

enum { HEADER = 9, LONGEST = 127, MOST_BYTES = 64 };

static const char alphabet[] = "qpzry9x8gf2tvdw0s3jn54khce6mua7l";

/* The indices of shares. */
static const char indices[] = "acdefghjklmnpqrtuvwxyz023456789";

__extension__ typedef unsigned __int128 Wide;

#define WIDE(high, low) ((Wide)(high) << 64 | (low))

typedef struct {
    size_t length;
    Wide words[5], target;
} Checksum;

/* BIP-93, Checksum. */
static const Checksum checksum = {
    13,
    {WIDE(0x1, 0x9dc500ce73fde210), WIDE(0x1, 0xbfae00def77fe529), WIDE(0x1, 0xfbd920fffe7bee52),
     WIDE(0x1, 0x739640bdeee3fdad), WIDE(0x0, 0x7729a039cfc75f5a)},
    WIDE(0x1, 0x0ce0795c2fd1e62a),
};

/* BIP-93, Long codex32 Strings. */
static const Checksum long_checksum = {
    15,
    {WIDE(0x3d5, 0x9d273535ea62d897), WIDE(0x7a9, 0xbecb6361c6c51507), WIDE(0x543, 0xf9b7e6c38d8a2a0e),
     WIDE(0x0c5, 0x77eaeccf1990d13c), WIDE(0x188, 0x7f74f8dc71b10651)},
    WIDE(0x433, 0x81e570bf4798ab26),
};

static inline const Checksum *checksum_of(size_t size)
{
    return size <= 93 ? &checksum : &long_checksum;
}

static inline unsigned element_of(char c)
{
    return (unsigned)(strchr(alphabet, c) - alphabet);
}

/* The residue with one element more. */
static inline Wide next_residue(const Checksum *of, Wide residue, unsigned element)
{
    unsigned place = 5 * (unsigned)(of->length - 1);
    unsigned highest = (unsigned)(residue >> place);
    residue = (residue & (((Wide)1 << place) - 1)) << 5 ^ element;
    for (unsigned i = 0; i < 5; i++)
        residue ^= highest >> i & 1 ? of->words[i] : 0;
    return residue;
}

/* Puts the checksum of a text in lower case behind its payload. */
static inline void put_checksum(char *text, size_t size)
{
    const Checksum *of = checksum_of(size);
    Wide residue = 0x23181b3;
    for (size_t i = 3; i < size; i++)
        residue = next_residue(of, residue, i < size - of->length ? element_of(text[i]) : 0);
    residue ^= of->target;
    for (size_t i = 0; i < of->length; i++)
        text[size - 1 - i] = alphabet[(unsigned)(residue >> 5 * i) & 31];
}

static inline uint8_t any_byte(void)
{
    static uint64_t state = 1;
    state = state * 6364136223846793005u + 1442695040888963407u;
    return (uint8_t)(state >> 56);
}

/* Puts a string of this many characters, in lower case. */
static inline void put_string(char *text, size_t size, unsigned threshold, char share_index)
{
    memcpy(text, "ms10test", HEADER - 1);
    text[3] = (char)('0' + threshold);
    text[HEADER - 1] = share_index;
    for (size_t i = HEADER; i < size; i++)
        text[i] = alphabet[any_byte() & 31];
    put_checksum(text, size);
}

static inline void raise_case(char *text, size_t size)
{
    for (size_t i = 0; i < size; i++)
        text[i] = (char)(text[i] >= 'a' && text[i] <= 'z' ? text[i] - 32 : text[i]);
}

#endif
