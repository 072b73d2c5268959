/* The commands of mend: mistyped texts of Bech32 and Bech32m, of Liquid, and descriptors. */
#include <stdlib.h>

#include "bech32.h"
#include "lines.h"

/* The most memory that a call is lent, 16 MiB. A string that needs more (up to 860 MB, see bech32.h) is refused with 91. */
#define MOST_MEMORY ((size_t)1 << 24)

/* The most near texts that are listed. If there are more, the reply lists the first ones and ends in ` more`. */
#define MOST_TEXTS 1000u

/* Memory that is lent, of which the first 15 bytes at most are left out, since it begins at a multiple of 16. */
typedef struct {
    uint8_t *block;
    bech32_memory memory;
} Lent;

static int lend(Lent *lent, size_t size) {
    uint8_t *block = malloc(size + 15u);
    lent->block = block;
    lent->memory.start = block == NULL ? NULL : block + (0u - (uintptr_t)block) % 16u;
    lent->memory.size = size;
    return block != NULL;
}

/* Memory that a function kept, whose size is then 0, stays its own. */
static void take_back(Lent *lent) {
    if (lent->memory.size != 0) {
        free(lent->block);
    }
}

/* A search: the text, and the rooms that it is tried in. */
typedef struct {
    uint32_t checksum;
    Word text;
    const size_t *erasures;
    size_t erasures_length, errors;
    /* Bytes to lend, and results that there is room for. */
    size_t memory, room;
    size_t count;
    uint8_t *texts, *kinds;
    size_t *locations;
} Search;

static uint32_t nearest_once(Search *it, bech32_memory *memory) {
    it->texts = malloc(it->room * it->text.length);
    if (it->texts == NULL) {
        return OUT_OF_MEMORY;
    }
    return bech32_nearest(it->checksum, it->text.bytes, it->text.length, it->erasures,
                          it->erasures_length, it->errors, memory, it->texts,
                          it->room * it->text.length, &it->count);
}

static uint32_t edits_once(Search *it, bech32_memory *memory) {
    size_t texts_room = it->room * (it->text.length + 1);
    it->texts = malloc(texts_room);
    it->kinds = malloc(it->room);
    it->locations = malloc(it->room * sizeof *it->locations);
    if (it->texts == NULL || it->kinds == NULL || it->locations == NULL) {
        return OUT_OF_MEMORY;
    }
    return bech32_near_edits(it->checksum, it->text.bytes, it->text.length, memory, it->kinds,
                             it->room, it->locations, it->room, it->texts, texts_room, &it->count);
}

static void drop_results(Search *it) {
    free(it->texts);
    free(it->kinds);
    free(it->locations);
    it->texts = it->kinds = NULL;
    it->locations = NULL;
}

/* Searches, with more room where there are more results, and with more memory where it did not suffice. */
static uint32_t search(Search *it, uint32_t (*once)(Search *, bech32_memory *)) {
    for (;;) {
        Lent lent;
        uint32_t number = lend(&lent, it->memory) ? once(it, &lent.memory) : OUT_OF_MEMORY;
        int is_spent = lent.block != NULL && number == BECH32_NO_MEMORY && it->memory < MOST_MEMORY;
        take_back(&lent);
        if (number == BECH32_NO_ROOM) {
            it->room = it->count;
        } else if (is_spent) {
            it->memory = it->memory < MOST_MEMORY / 2 ? 2 * it->memory : MOST_MEMORY;
        } else {
            return number;
        }
        drop_results(it);
    }
}

static uint32_t liquid_once(Search *it, bech32_memory *memory) {
    it->texts = malloc(it->room * it->text.length);
    if (it->texts == NULL) {
        return OUT_OF_MEMORY;
    }
    return bech32_liquid_nearest(it->text.bytes, it->text.length, it->erasures, it->erasures_length, it->errors,
                                 memory, it->texts, it->room * it->text.length, &it->count);
}

static uint32_t descriptor_once(Search *it, bech32_memory *memory) {
    size_t texts_room = it->room * (it->text.length + 1);
    it->texts = malloc(texts_room);
    it->kinds = malloc(it->room);
    it->locations = malloc(2 * it->room * sizeof *it->locations);
    if (it->texts == NULL || it->kinds == NULL || it->locations == NULL) {
        return OUT_OF_MEMORY;
    }
    return bech32_descriptor_mend(it->text.bytes, it->text.length, 1, memory, it->kinds, it->room, it->locations,
                                  2 * it->room, it->texts, texts_room, &it->count);
}

/* The length of a text, by which memory is lent. A longer one is refused. */
static size_t measure(Word text) {
    return text.length < BECH32_MAX_TEXT ? text.length : BECH32_MAX_TEXT;
}

/* All texts, each with a space before it. */
static void put_texts(Out *out, const Search *it) {
    put_text(out, "ok");
    for (size_t i = 0; i < it->count; i++) {
        put_text(out, " ");
        put(out, it->texts + i * it->text.length, it->text.length);
    }
}

static uint32_t nearest(const Words *words, Out *out) {
    size_t erasures[MOST_LOCATIONS];
    Search it = {checksum_of(words->word[0]), words->word[1], erasures, 0, 0, 0, 0, 0, NULL, NULL, NULL};
    if (it.checksum == 0) {
        return NO_COMMAND;
    }
    if (words->count == 4 && !read_locations(words->word[2], erasures, &it.erasures_length)) {
        return BAD_WORD;
    }
    if (!read_number(words->word[words->count - 1], BECH32_MAX_ERRORS, &it.errors)) {
        return BAD_WORD;
    }
    it.room = MOST_TEXTS;
    Lent lent;
    uint32_t number = lend(&lent, MOST_MEMORY) ? nearest_once(&it, &lent.memory) : OUT_OF_MEMORY;
    take_back(&lent);
    if (number == BECH32_NO_ROOM) {
        it.count = MOST_TEXTS;
        put_texts(out, &it);
        put_text(out, " more");
        number = BECH32_OK;
    } else if (number == BECH32_OK) {
        put_texts(out, &it);
    }
    drop_results(&it);
    return number;
}

/* Each edit with its word, its location and the text that it makes. */
static void put_edits(Out *out, const Search *it) {
    static const char *const done[] = {"", " swapped ", " left-out ", " put-in "};
    const uint8_t *text = it->texts;
    for (size_t i = 0; i < it->count; i++) {
        size_t length = it->text.length;
        length += it->kinds[i] == BECH32_PUT_IN;
        length -= it->kinds[i] == BECH32_LEFT_OUT;
        put_text(out, done[it->kinds[i]]);
        put_number(out, it->locations[i]);
        put_text(out, " ");
        put(out, text, length);
        text += length;
    }
}

static uint32_t edits(const Words *words, Out *out) {
    Search it = {checksum_of(words->word[0]), words->word[1], NULL, 0, 0, 0, 0, 0, NULL, NULL, NULL};
    if (it.checksum == 0) {
        return NO_COMMAND;
    }
    it.memory = BECH32_NEAR_EDITS_MEMORY(measure(it.text));
    it.room = BECH32_NEAR_EDITS;
    uint32_t number = search(&it, edits_once);
    if (number == BECH32_OK) {
        put_text(out, "ok");
        put_edits(out, &it);
    }
    drop_results(&it);
    return number;
}

/* Each address with the word for what is done, and the first place. */
static uint32_t suggest(const Words *words, Out *out) {
    static const char *const done[] = {" unchanged ", " swapped ", " left-out ", " put-in ", " replaced "};
    Word part = words->word[0], typed = words->word[1];
    uint8_t kinds[BECH32_SUGGESTIONS], texts[BECH32_SUGGESTIONS * BECH32_MAX_SEGWIT_TEXT];
    size_t places[BECH32_SUGGESTIONS], count;
    Lent lent;
    if (!lend(&lent, BECH32_SUGGEST_MEMORY)) {
        return OUT_OF_MEMORY;
    }
    uint32_t number = bech32_suggest(typed.bytes, typed.length, part.bytes, part.length, &lent.memory, kinds,
                                     BECH32_SUGGESTIONS, places, BECH32_SUGGESTIONS, texts, sizeof texts, &count);
    take_back(&lent);
    if (number == BECH32_OK) {
        const uint8_t *text = texts;
        put_text(out, "ok");
        for (size_t i = 0; i < count; i++) {
            size_t length = typed.length;
            length += kinds[i] == BECH32_PUT_IN;
            length -= kinds[i] == BECH32_LEFT_OUT;
            put_text(out, done[kinds[i]]);
            put_number(out, places[i]);
            put_text(out, " ");
            put(out, text, length);
            text += length;
        }
    }
    return number;
}

static uint32_t fault(const Words *words, Out *out) {
    uint32_t checksum = checksum_of(words->word[0]);
    Word text = words->word[1];
    size_t place = 0;
    if (checksum == 0) {
        return NO_COMMAND;
    }
    uint32_t number = bech32_fault(checksum, text.bytes, text.length, &place);
    if (number == BECH32_OK) {
        put_text(out, "ok");
        return FINE;
    }
    put_text(out, "err ");
    put_number(out, number);
    put_text(out, " ");
    put_number(out, place);
    return FINE;
}

/* Where neither checksum accepts the text, the refusal is that of Bech32m. */
static uint32_t checksum(const Words *words, Out *out) {
    Word text = words->word[0];
    size_t hrp_length, data_length;
    uint32_t number =
        bech32_check(BECH32_BECH32M, text.bytes, text.length, &hrp_length, &data_length);
    if (number == BECH32_OK) {
        put_text(out, "ok bech32m");
        return FINE;
    }
    if (bech32_check(BECH32_BECH32, text.bytes, text.length, &hrp_length, &data_length) == BECH32_OK) {
        put_text(out, "ok bech32");
        return FINE;
    }
    return number;
}

static uint32_t liquid(const Words *words, Out *out) {
    size_t erasures[MOST_LOCATIONS];
    Search it = {0, words->word[0], erasures, 0, 0, 0, 1, 0, NULL, NULL, NULL};
    if (words->count == 3 && !read_locations(words->word[1], erasures, &it.erasures_length)) {
        return BAD_WORD;
    }
    if (!read_number(words->word[words->count - 1], BECH32_MAX_LIQUID_ERRORS, &it.errors)) {
        return BAD_WORD;
    }
    it.memory = BECH32_LIQUID_NEAREST_MEMORY(measure(it.text));
    uint32_t number = search(&it, liquid_once);
    if (number == BECH32_OK) {
        put_texts(out, &it);
    }
    drop_results(&it);
    return number;
}

/* ---- descriptors, which may hold private keys: nothing of them is kept, and nothing is wiped */

static uint32_t descriptor(const Words *words, Out *out) {
    static const char *const done[] = {"", " swapped ", " left-out ", " put-in ", " changed "};
    Search it = {0, words->word[0], NULL, 0, 0, 0, BECH32_NEAR_EDITS, 0, NULL, NULL, NULL};
    it.memory = BECH32_DESCRIPTOR_MEND_MEMORY(it.text.length);
    uint32_t number = search(&it, descriptor_once);
    if (number == BECH32_OK) {
        const uint8_t *text = it.texts;
        put_text(out, "ok");
        for (size_t i = 0; i < it.count; i++) {
            size_t length = it.text.length;
            length += it.kinds[i] == BECH32_PUT_IN;
            length -= it.kinds[i] == BECH32_LEFT_OUT;
            put_text(out, done[it.kinds[i]]);
            put_number(out, it.locations[2 * i]);
            put_text(out, " ");
            put(out, text, length);
            text += length;
        }
    }
    drop_results(&it);
    return number;
}

/* A refusal, with the place of a character that may not stand there. */
static uint32_t refuse_at(Out *out, uint32_t number, size_t place) {
    if (number != NOT_IN_DESCRIPTOR) {
        return number;
    }
    put_text(out, "err ");
    put_number(out, number);
    put_text(out, " ");
    put_number(out, place);
    return FINE;
}

static uint32_t descriptor_check(const Words *words, Out *out) {
    Word text = words->word[0];
    size_t place = 0;
    uint32_t number = bech32_descriptor_check(text.bytes, text.length, &place);
    if (number == BECH32_OK) {
        put_text(out, "ok");
    }
    return refuse_at(out, number, place);
}

static uint32_t descriptor_checksum(const Words *words, Out *out) {
    Word text = words->word[0];
    uint8_t letters[BECH32_DESCRIPTOR_CHECKSUM];
    size_t length = 0, place = 0;
    uint32_t number =
        bech32_descriptor_checksum(text.bytes, text.length, letters, sizeof letters, &length, &place);
    if (number == BECH32_OK) {
        put_text(out, "ok ");
        put(out, letters, length);
    }
    return refuse_at(out, number, place);
}

const Command mend_commands[] = {
    {"nearest", 3, 4, nearest},
    {"edits", 2, 2, edits},
    {"suggest", 2, 2, suggest},
    {"fault", 2, 2, fault},
    {"checksum", 1, 1, checksum},
    {"liquid", 2, 3, liquid},
    {NULL, 0, 0, NULL},
};

const Command mend_rest_commands[] = {
    {"descriptor", 1, 1, descriptor},
    {"descriptor-check", 1, 1, descriptor_check},
    {"descriptor-checksum", 1, 1, descriptor_checksum},
    {NULL, 0, 0, NULL},
};
