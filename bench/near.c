/*
 * COUNT calls of bech32_nearest: near COUNT, for an address of 62 characters with two wrong ones; near COUNT BYTES, for a
 * text of BYTES bytes (51 are 90 characters, 620 are 1,000) with two wrong ones beside three erasures.
 */
#include "bech32.h"

#include <stdio.h>
#include <stdlib.h>
#include <string.h>

static const char right[] = "bc1p0xlxvlhemja6c4dqv22uapctqupfhlxm9h8z3k2e72q4k9hcz7vqzk5jj0";
static const char wrong[] = "bc1p0xlxvlhemja6c4dqq22uapctqupfhlxm9h8z3k2e72q4q9hcz7vqzk5jj0";

enum { MEMORY = 32 << 20, ROOM = 16 << 20 };

static const size_t erasures[] = {5, 27, 48}, changed[] = {5, 13, 27, 48, 70};
static uint8_t *lent, texts[ROOM];

/* As many calls as are wanted; of the last, how many texts there are. */
static size_t called(long calls, const uint8_t *text, size_t length, size_t given)
{
    size_t count = 0;
    for (long left = calls; left > 0; left--) {
        bech32_memory memory = {lent, MEMORY};
        count = 0;
        if (bech32_nearest(BECH32_BECH32M, text, length, erasures, given, 2, &memory, texts, ROOM, &count) != BECH32_OK)
            return 0;
    }
    return count;
}

static int is_among(const uint8_t *text, size_t length, size_t count)
{
    for (size_t i = 0; i < count; i++)
        if (memcmp(texts + i * length, text, length) == 0)
            return 1;
    return 0;
}

static int beside_erasures(long calls, size_t size)
{
    static uint8_t bytes[BECH32_MAX_BYTES], text[BECH32_MAX_TEXT], mistyped[BECH32_MAX_TEXT];
    size_t length;
    for (size_t i = 0; i < size && i < sizeof bytes; i++)
        bytes[i] = (uint8_t)(i * i);
    if (size < 51 || bech32_encode(BECH32_BECH32M, (const uint8_t *)"a", 1, bytes, size, text, sizeof text, &length) != 0)
        return 0;
    memcpy(mistyped, text, length);
    for (size_t i = 0; i < sizeof changed / sizeof *changed; i++) {
        uint8_t *at = mistyped + length - 1 - changed[i];
        *at = *at == 'q' ? 'p' : 'q';
    }
    return calls == 0 || is_among(text, length, called(calls, mistyped, length, 3));
}

int main(int words, char **word)
{
    long calls = words > 1 ? strtol(word[1], NULL, 10) : 0;
    const uint8_t *text = (const uint8_t *)right;
    lent = aligned_alloc(16, MEMORY);
    int found = words > 2 ? beside_erasures(calls, strtoul(word[2], NULL, 10))
                          : calls == 0 || (called(calls, (const uint8_t *)wrong, sizeof wrong - 1, 0) == 1 &&
                                           is_among(text, sizeof right - 1, 1));
    if (!found)
        fputs("near: not the right text\n", stderr);
    return !found;
}
