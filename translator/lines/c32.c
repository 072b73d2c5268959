/* The commands of c32: codex32 strings and shares (BIP-93). Nothing is wiped: the lines and replies show what is secret. */
#include <string.h>

#include "codex32.h"
#include "lines.h"

/* What a share index is handed over as where the word for it is not one character. */
#define NO_INDEX 0u

/* The same for a threshold: no string has this one. */
#define NO_THRESHOLD 1u

static uint32_t threshold_of(Word word) {
    size_t number;
    return read_number(word, 9, &number) ? (uint32_t)number : NO_THRESHOLD;
}

static uint32_t index_of(Word word) {
    return word.length == 1 ? word.bytes[0] : NO_INDEX;
}

static uint32_t parse(const Words *words, Out *out) {
    Word text = words->word[0];
    uint32_t threshold, share_index;
    size_t payload_length;
    uint32_t number =
        codex32_parse(text.bytes, text.length, &threshold, &share_index, &payload_length);
    if (number == CODEX32_OK) {
        put_text(out, "ok ");
        put_number(out, threshold);
        put_text(out, " ");
        put(out, text.bytes + CODEX32_IDENTIFIER_AT, CODEX32_IDENTIFIER_LENGTH);
        put_text(out, " ");
        put(out, text.bytes + CODEX32_SHARE_INDEX_AT, 1);
        put_text(out, " ");
        put(out, text.bytes + CODEX32_PAYLOAD_AT, payload_length);
    }
    return number;
}

typedef uint32_t Propose(const uint8_t *text, size_t text_length, codex32_memory *memory,
                         uint8_t *proposed, size_t proposed_room, size_t *proposed_length);

static uint32_t propose_by(Propose *by, Word text, Out *out) {
    /* Enough for any line. Memory that is lent begins at a multiple of 16. */
    static uint8_t block[CODEX32_MEMORY(LINE_LIMIT) + 15u];
    codex32_memory memory = {block + (0u - (uintptr_t)block) % 16u, CODEX32_MEMORY(LINE_LIMIT)};
    uint8_t proposed[CODEX32_TEXT_SIZE];
    size_t length;
    uint32_t number = by(text.bytes, text.length, &memory, proposed, sizeof proposed, &length);
    if (number == CODEX32_NO_NEAREST) {
        put_text(out, "none");
        return FINE;
    }
    if (number == CODEX32_OK) {
        put_text(out, "some ");
        put(out, proposed, length);
    }
    return number;
}

static uint32_t propose(const Words *words, Out *out) {
    return propose_by(codex32_propose, words->word[0], out);
}

static uint32_t propose_long(const Words *words, Out *out) {
    return propose_by(codex32_propose_long, words->word[0], out);
}

static uint32_t share(const Words *words, Out *out) {
    Word text = words->word[0];
    uint8_t identifier[CODEX32_IDENTIFIER_LENGTH], bytes[CODEX32_BYTES_SIZE];
    uint32_t threshold, share_index;
    size_t count;
    uint32_t number = codex32_share(text.bytes, text.length, &threshold, identifier, &share_index,
                                    bytes, sizeof bytes, &count);
    if (number == CODEX32_OK) {
        uint8_t index = (uint8_t)share_index;
        put_text(out, "ok ");
        put_number(out, threshold);
        put_text(out, " ");
        put(out, identifier, sizeof identifier);
        put_text(out, " ");
        put(out, &index, 1);
        put_text(out, " ");
        put_hex(out, bytes, count);
    }
    return number;
}

static uint32_t encode(const Words *words, Out *out) {
    Word identifier = words->word[1];
    uint8_t bytes[MOST_BYTES], text[CODEX32_TEXT_SIZE];
    size_t count, length;
    uint32_t number = BAD_HEX;
    if (read_hex(words->word[3], bytes, &count)) {
        number = codex32_encode(threshold_of(words->word[0]), identifier.bytes, identifier.length,
                                index_of(words->word[2]), bytes, count, text, sizeof text, &length);
    }
    if (number == CODEX32_OK) {
        put_text(out, "ok ");
        put(out, text, length);
    }
    return number;
}

/* Texts one behind another, as the library takes them. */
typedef struct {
    uint8_t texts[LINE_LIMIT];
    size_t lengths[CODEX32_MAX_SHARES], length;
} Strings;

static void gather(Strings *it, const Word *word, size_t count) {
    it->length = 0;
    for (size_t i = 0; i < count; i++) {
        memcpy(it->texts + it->length, word[i].bytes, word[i].length);
        it->lengths[i] = word[i].length;
        it->length += word[i].length;
    }
}

static uint32_t derive_few(uint32_t share_index, const Word *word, size_t count, uint8_t *text,
                           size_t *length) {
    Strings it;
    gather(&it, word, count);
    return codex32_derive(share_index, it.texts, it.length, it.lengths, count, text,
                          CODEX32_TEXT_SIZE, length);
}

/* Why more texts than a set has give no string: one is refused, or of another set, or has the index of another. The
 * library takes no more than a set has, so they are tested one by one, and each beside the first. */
static uint32_t refuse_many(uint32_t share_index, const Word *word, size_t count) {
    uint8_t text[CODEX32_TEXT_SIZE];
    size_t length;
    if (derive_few(share_index, word, 1, text, &length) == CODEX32_NO_SHARE_INDEX) {
        return CODEX32_NO_SHARE_INDEX;
    }
    for (size_t i = 0; i < count; i++) {
        uint32_t number = derive_few(CODEX32_SECRET_INDEX, word + i, 1, text, &length);
        if (number != CODEX32_OK && number != CODEX32_TOO_FEW_SHARES) {
            return number;
        }
    }
    for (size_t i = 1; i < count; i++) {
        Word pair[2] = {word[0], word[i]};
        if (derive_few(CODEX32_SECRET_INDEX, pair, 2, text, &length) == CODEX32_OTHER_SET) {
            return CODEX32_OTHER_SET;
        }
    }
    return CODEX32_INDEX_TWICE;
}

static uint32_t derive_at(uint32_t share_index, const Word *word, size_t count, Out *out) {
    uint8_t text[CODEX32_TEXT_SIZE];
    size_t length;
    if (count > CODEX32_MAX_SHARES) {
        return refuse_many(share_index, word, count);
    }
    uint32_t number = derive_few(share_index, word, count, text, &length);
    if (number == CODEX32_OK) {
        put_text(out, "ok ");
        put(out, text, length);
    }
    return number;
}

static uint32_t derive(const Words *words, Out *out) {
    return derive_at(index_of(words->word[0]), words->word + 1, words->count - 1, out);
}

static uint32_t recover(const Words *words, Out *out) {
    return derive_at(CODEX32_SECRET_INDEX, words->word, words->count, out);
}

static uint32_t split(const Words *words, Out *out) {
    static uint8_t secret[MOST_BYTES], random[MOST_BYTES];
    static uint8_t texts[CODEX32_MAX_SPLIT * CODEX32_TEXT_SIZE];
    Word identifier = words->word[2];
    size_t count, secret_length, random_length, length;
    if (!read_number(words->word[1], 99, &count)) {
        return BAD_WORD;
    }
    uint32_t number = BAD_HEX;
    if (read_hex(words->word[3], secret, &secret_length) &&
        read_hex(words->word[4], random, &random_length)) {
        number = codex32_split(threshold_of(words->word[0]), identifier.bytes, identifier.length,
                               secret, secret_length, random, random_length, count, texts,
                               sizeof texts, &length);
    }
    if (number == CODEX32_OK) {
        put_text(out, "ok");
        for (size_t i = 0; i < count; i++) {
            put_text(out, " ");
            put(out, texts + i * length, length);
        }
    }
    return number;
}

const Command c32_commands[] = {
    {"parse", 1, 1, parse},
    {"propose", 1, 1, propose},
    {"propose-long", 1, 1, propose_long},
    {"share", 1, 1, share},
    {"encode", 4, 4, encode},
    {"derive", 2, MOST_WORDS, derive},
    {"recover", 1, MOST_WORDS, recover},
    {"split", 5, 5, split},
    {NULL, 0, 0, NULL},
};
