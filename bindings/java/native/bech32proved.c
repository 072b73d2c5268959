/*
 * The calls of bech32.h and codex32.h for Java (JNI): bech32proved/Native.java declares them. Each takes arrays of Java, and
 * returns the number of a refusal, or 0. Arrays are pinned for the time of a call, so that no copy of a secret is left; a
 * search, which may take long, works on copies. The stack behind a call on secrets is wiped.
 */
#include <jni.h>
#include <stdlib.h>
#include <string.h>

#include "bech32.h"
#include "codex32.h"

#define OUT_OF_MEMORY ((jint)BECH32_NO_MEMORY)
#define NATIVE(type, name) JNIEXPORT type JNICALL Java_bech32proved_Native_##name

/* An array, pinned. */
typedef struct {
    jarray array;
    void *items;
    size_t length;
} Pinned;

/* Pins arrays, or none where one cannot be. Between this and the next function no other one of Java is called. */
static int pin(JNIEnv *env, Pinned *all, size_t count) {
    for (size_t i = 0; i < count; i++) {
        all[i].length = all[i].array == NULL ? 0 : (size_t)(*env)->GetArrayLength(env, all[i].array);
        all[i].items = NULL;
    }
    for (size_t i = 0; i < count; i++) {
        if (all[i].array == NULL) {
            continue;
        }
        all[i].items = (*env)->GetPrimitiveArrayCritical(env, all[i].array, NULL);
        if (all[i].items == NULL) {
            while (i-- > 0) {
                if (all[i].array != NULL) {
                    (*env)->ReleasePrimitiveArrayCritical(env, all[i].array, all[i].items, JNI_ABORT);
                }
            }
            return 0;
        }
    }
    return 1;
}

static void unpin(JNIEnv *env, Pinned *all, size_t count) {
    for (size_t i = count; i-- > 0;) {
        if (all[i].array != NULL) {
            (*env)->ReleasePrimitiveArrayCritical(env, all[i].array, all[i].items, 0);
        }
    }
}

#define COUNT(all) (sizeof(all) / sizeof(all)[0])

/* Puts lengths into an array of Java. */
static void say(const Pinned *out, size_t first, size_t second) {
    jint *items = out->items;
    items[0] = (jint)first;
    if (out->length > 1) {
        items[1] = (jint)second;
    }
}

NATIVE(jint, message)(JNIEnv *env, jclass self, jint number, jboolean is_codex32, jbyteArray message) {
    uint8_t said[BECH32_MAX_MESSAGE];
    size_t length = 0;
    (void)self;
    (is_codex32 ? codex32_message : bech32_message)((uint32_t)number, said, sizeof said, &length);
    (*env)->SetByteArrayRegion(env, message, 0, (jsize)length, (const jbyte *)said);
    return (jint)length;
}

NATIVE(jint, version)(JNIEnv *env, jclass self, jboolean is_codex32) {
    (void)env;
    (void)self;
    return (jint)(is_codex32 ? codex32_version() : bech32_version());
}

/* Into `out`: text_length. */
NATIVE(jint, encode)
(JNIEnv *env, jclass self, jint checksum, jbyteArray hrp, jbyteArray bytes, jbyteArray text, jintArray out) {
    Pinned it[] = {{hrp, 0, 0}, {bytes, 0, 0}, {text, 0, 0}, {out, 0, 0}};
    (void)self;
    if (!pin(env, it, COUNT(it))) {
        return OUT_OF_MEMORY;
    }
    size_t text_length = 0;
    uint32_t number = bech32_encode((uint32_t)checksum, it[0].items, it[0].length, it[1].items, it[1].length,
                                    it[2].items, it[2].length, &text_length);
    say(&it[3], text_length, 0);
    unpin(env, it, COUNT(it));
    return (jint)number;
}

/* Into `out`: text_length and place. */
NATIVE(jint, encodeElements)
(JNIEnv *env, jclass self, jint checksum, jbyteArray hrp, jbyteArray elements, jbyteArray text, jintArray out) {
    Pinned it[] = {{hrp, 0, 0}, {elements, 0, 0}, {text, 0, 0}, {out, 0, 0}};
    (void)self;
    if (!pin(env, it, COUNT(it))) {
        return OUT_OF_MEMORY;
    }
    size_t text_length = 0, place = 0;
    uint32_t number = bech32_encode_elements((uint32_t)checksum, it[0].items, it[0].length, it[1].items, it[1].length,
                                             &place, it[2].items, it[2].length, &text_length);
    say(&it[3], text_length, place);
    unpin(env, it, COUNT(it));
    return (jint)number;
}

/* Into `out`: hrp_length and data_length. */
NATIVE(jint, check)(JNIEnv *env, jclass self, jint checksum, jbyteArray text, jintArray out) {
    Pinned it[] = {{text, 0, 0}, {out, 0, 0}};
    (void)self;
    if (!pin(env, it, COUNT(it))) {
        return OUT_OF_MEMORY;
    }
    size_t hrp_length = 0, data_length = 0;
    uint32_t number = bech32_check((uint32_t)checksum, it[0].items, it[0].length, &hrp_length, &data_length);
    say(&it[1], hrp_length, data_length);
    unpin(env, it, COUNT(it));
    return (jint)number;
}

/* Into `out`: place. */
NATIVE(jint, fault)(JNIEnv *env, jclass self, jint checksum, jbyteArray text, jintArray out) {
    Pinned it[] = {{text, 0, 0}, {out, 0, 0}};
    (void)self;
    if (!pin(env, it, COUNT(it))) {
        return OUT_OF_MEMORY;
    }
    size_t place = 0;
    uint32_t number = bech32_fault((uint32_t)checksum, it[0].items, it[0].length, &place);
    say(&it[1], place, 0);
    unpin(env, it, COUNT(it));
    return (jint)number;
}

/* Into `out`: text_length. */
NATIVE(jint, segwitEncode)
(JNIEnv *env, jclass self, jbyteArray hrp, jint version, jbyteArray program, jbyteArray text, jintArray out) {
    Pinned it[] = {{hrp, 0, 0}, {program, 0, 0}, {text, 0, 0}, {out, 0, 0}};
    (void)self;
    if (!pin(env, it, COUNT(it))) {
        return OUT_OF_MEMORY;
    }
    size_t text_length = 0;
    uint32_t number = bech32_segwit_encode(it[0].items, it[0].length, (uint32_t)version, it[1].items, it[1].length,
                                           it[2].items, it[2].length, &text_length);
    say(&it[3], text_length, 0);
    unpin(env, it, COUNT(it));
    return (jint)number;
}

/* Into `out`: hrp_length, program_length and version. */
NATIVE(jint, segwitDecode)
(JNIEnv *env, jclass self, jbyteArray text, jbyteArray hrp, jbyteArray program, jintArray out) {
    Pinned it[] = {{text, 0, 0}, {hrp, 0, 0}, {program, 0, 0}, {out, 0, 0}};
    (void)self;
    if (!pin(env, it, COUNT(it))) {
        return OUT_OF_MEMORY;
    }
    size_t hrp_length = 0, program_length = 0;
    uint32_t version = 0;
    uint32_t number = bech32_segwit_decode(it[0].items, it[0].length, it[1].items, it[1].length, &hrp_length,
                                           &version, it[2].items, it[2].length, &program_length);
    say(&it[3], hrp_length, program_length);
    ((jint *)it[3].items)[2] = (jint)version;
    unpin(env, it, COUNT(it));
    return (jint)number;
}

/* Into `out`: checksum_length and place. */
NATIVE(jint, descriptorChecksum)(JNIEnv *env, jclass self, jbyteArray text, jbyteArray checksum, jintArray out) {
    Pinned it[] = {{text, 0, 0}, {checksum, 0, 0}, {out, 0, 0}};
    (void)self;
    if (!pin(env, it, COUNT(it))) {
        return OUT_OF_MEMORY;
    }
    size_t checksum_length = 0, place = 0;
    uint32_t number = bech32_descriptor_checksum(it[0].items, it[0].length, it[1].items, it[1].length,
                                                 &checksum_length, &place);
    say(&it[2], checksum_length, place);
    unpin(env, it, COUNT(it));
    codex32_wipe_stack();
    return (jint)number;
}

/* Into `out`: place. */
NATIVE(jint, descriptorCheck)(JNIEnv *env, jclass self, jbyteArray text, jintArray out) {
    Pinned it[] = {{text, 0, 0}, {out, 0, 0}};
    (void)self;
    if (!pin(env, it, COUNT(it))) {
        return OUT_OF_MEMORY;
    }
    size_t place = 0;
    uint32_t number = bech32_descriptor_check(it[0].items, it[0].length, &place);
    say(&it[1], place, 0);
    unpin(env, it, COUNT(it));
    codex32_wipe_stack();
    return (jint)number;
}

/* Into `out`: accepted. */
NATIVE(jint, validityOf)(JNIEnv *env, jclass self, jbyteArray numbers, jbyteArray validity, jintArray out) {
    Pinned it[] = {{numbers, 0, 0}, {validity, 0, 0}, {out, 0, 0}};
    (void)self;
    if (!pin(env, it, COUNT(it))) {
        return OUT_OF_MEMORY;
    }
    size_t accepted = 0;
    uint32_t number = bech32_validity_of(it[0].items, it[0].length, it[1].items, it[1].length, &accepted);
    say(&it[2], accepted, 0);
    unpin(env, it, COUNT(it));
    return (jint)number;
}

/* Into `out`: text_length. */
NATIVE(jint, split)
(JNIEnv *env, jclass self, jint threshold, jbyteArray identifier, jbyteArray secret, jbyteArray random, jint count,
 jbyteArray texts, jintArray out) {
    Pinned it[] = {{identifier, 0, 0}, {secret, 0, 0}, {random, 0, 0}, {texts, 0, 0}, {out, 0, 0}};
    (void)self;
    if (!pin(env, it, COUNT(it))) {
        return OUT_OF_MEMORY;
    }
    size_t text_length = 0;
    uint32_t number = codex32_split((uint32_t)threshold, it[0].items, it[0].length, it[1].items, it[1].length,
                                    it[2].items, it[2].length, (size_t)count, it[3].items, it[3].length, &text_length);
    say(&it[4], text_length, 0);
    unpin(env, it, COUNT(it));
    codex32_wipe_stack();
    return (jint)number;
}

/* By either checksum where `checksum` is 0, else strictly, or to elements. */
NATIVE(jint, decode)
(JNIEnv *env, jclass self, jint checksum, jboolean is_elements, jbyteArray text, jbyteArray hrp, jbyteArray data,
 jintArray out) {
    Pinned it[] = {{text, 0, 0}, {hrp, 0, 0}, {data, 0, 0}, {out, 0, 0}};
    (void)self;
    if (!pin(env, it, COUNT(it))) {
        return OUT_OF_MEMORY;
    }
    size_t hrp_length = 0, length = 0;
    uint32_t number;
    if (checksum == 0) {
        number = bech32_decode(it[0].items, it[0].length, it[1].items, it[1].length, &hrp_length, it[2].items,
                               it[2].length, &length);
    } else {
        number = (is_elements ? bech32_decode_elements : bech32_decode_strict)(
            (uint32_t)checksum, it[0].items, it[0].length, it[1].items, it[1].length, &hrp_length, it[2].items,
            it[2].length, &length);
    }
    say(&it[3], hrp_length, length);
    unpin(env, it, COUNT(it));
    return (jint)number;
}

/* No correction has more erasures than these; Java hands over each once. */
#define MOST_ERASURES 8u

static size_t erasures_of(const Pinned *from, size_t *to) {
    const jint *items = from->items;
    size_t count = from->length < MOST_ERASURES ? from->length : MOST_ERASURES;
    for (size_t i = 0; i < count; i++) {
        to[i] = (size_t)items[i];
    }
    return count;
}

NATIVE(jint, correct)
(JNIEnv *env, jclass self, jint checksum, jbyteArray text, jintArray erasures, jintArray locations, jbyteArray values,
 jbyteArray mended, jintArray out) {
    Pinned it[] = {{text, 0, 0}, {erasures, 0, 0}, {locations, 0, 0}, {values, 0, 0}, {mended, 0, 0}, {out, 0, 0}};
    (void)self;
    if (!pin(env, it, COUNT(it))) {
        return OUT_OF_MEMORY;
    }
    size_t known[MOST_ERASURES], found[BECH32_MAX_LISTED], count = 0, length = 0;
    size_t known_count = erasures_of(&it[1], known);
    uint32_t number =
        bech32_correct((uint32_t)checksum, it[0].items, it[0].length, known, known_count, found, BECH32_MAX_LISTED,
                       it[3].items, it[3].length, &count, it[4].items, it[4].length, &length);
    for (size_t i = 0; i < count; i++) {
        ((jint *)it[2].items)[i] = (jint)found[i];
    }
    say(&it[5], count, length);
    unpin(env, it, COUNT(it));
    return (jint)number;
}

NATIVE(jint, liquidEncode)
(JNIEnv *env, jclass self, jbyteArray hrp, jint version, jbyteArray key, jbyteArray program, jbyteArray text,
 jintArray out) {
    Pinned it[] = {{hrp, 0, 0}, {key, 0, 0}, {program, 0, 0}, {text, 0, 0}, {out, 0, 0}};
    (void)self;
    if (!pin(env, it, COUNT(it))) {
        return OUT_OF_MEMORY;
    }
    size_t length = 0;
    uint32_t number = it[1].length != BECH32_LIQUID_KEY_LENGTH
                          ? BECH32_NO_BLINDING_KEY
                          : bech32_liquid_encode(it[0].items, it[0].length, (uint32_t)version, it[1].items, it[2].items,
                                                 it[2].length, it[3].items, it[3].length, &length);
    say(&it[4], length, 0);
    unpin(env, it, COUNT(it));
    return (jint)number;
}

NATIVE(jint, liquidDecode)
(JNIEnv *env, jclass self, jbyteArray text, jbyteArray hrp, jbyteArray key, jbyteArray program, jintArray out) {
    Pinned it[] = {{text, 0, 0}, {hrp, 0, 0}, {key, 0, 0}, {program, 0, 0}, {out, 0, 0}};
    (void)self;
    if (!pin(env, it, COUNT(it))) {
        return OUT_OF_MEMORY;
    }
    size_t hrp_length = 0, length = 0;
    uint32_t version = 0;
    uint32_t number = bech32_liquid_decode(it[0].items, it[0].length, it[1].items, it[1].length, &hrp_length, &version,
                                           it[2].items, it[3].items, it[3].length, &length);
    say(&it[4], hrp_length, length);
    ((jint *)it[4].items)[2] = (jint)version;
    unpin(env, it, COUNT(it));
    return (jint)number;
}

/* The buffers of a column, arrays of Java or direct buffers, behind other arrays: how many are then in all. */
enum { BYTES, OFFSETS, VALIDITY, BUFFERS };

static size_t buffers_of(JNIEnv *env, Pinned *all, size_t count, const jobject *buffers, void **direct) {
    jclass kind = (*env)->FindClass(env, "java/nio/ByteBuffer");
    for (size_t i = 0; i < BUFFERS; i++) {
        int is_direct = kind != NULL && buffers[i] != NULL && (*env)->IsInstanceOf(env, buffers[i], kind);
        direct[i] = is_direct ? (*env)->GetDirectBufferAddress(env, buffers[i]) : NULL;
        all[count + i].array = is_direct ? NULL : buffers[i];
    }
    return count + BUFFERS;
}

/* The column of pinned arrays, whose lengths and layout are the last but one and the last of these. */
static bech32_column column_of(const Pinned *buffers, void *const *direct, const jlong *lengths, const jint *layout) {
    const void *items[BUFFERS];
    for (size_t i = 0; i < BUFFERS; i++) {
        items[i] = direct[i] != NULL ? direct[i] : buffers[i].items;
    }
    bech32_column column = {items[BYTES], (size_t)lengths[BYTES], items[OFFSETS], (size_t)lengths[OFFSETS],
                            items[VALIDITY], (size_t)lengths[VALIDITY], (size_t)layout[0], (size_t)layout[1],
                            (uint32_t)layout[2]};
    return column;
}

static uint8_t *from(const Pinned *it, jint at) { return (uint8_t *)it->items + at; }

NATIVE(jint, checkMany)
(JNIEnv *env, jclass self, jint checksum, jobject bytes, jobject offsets, jobject validity, jlongArray lengths,
 jintArray layout, jint first, jbyteArray numbers, jint at, jint count) {
    Pinned it[3 + BUFFERS] = {{numbers, 0, 0}, {lengths, 0, 0}, {layout, 0, 0}};
    void *direct[BUFFERS];
    size_t all = buffers_of(env, it, 3, (jobject[]){bytes, offsets, validity}, direct);
    (void)self;
    if (!pin(env, it, all)) {
        return OUT_OF_MEMORY;
    }
    bech32_column texts = column_of(it + 3, direct, it[1].items, it[2].items);
    uint32_t number = bech32_check_many((uint32_t)checksum, &texts, (size_t)first, from(&it[0], at), (size_t)count);
    unpin(env, it, all);
    return (jint)number;
}

NATIVE(jint, segwitDecodeMany)
(JNIEnv *env, jclass self, jobject bytes, jobject offsets, jobject validity, jlongArray lengths, jintArray layout,
 jint first, jbyteArray hrp, jbyteArray numbers, jbyteArray versions, jbyteArray hrp_lengths, jint at, jint count,
 jintArray program_offsets, jbyteArray programs) {
    Pinned it[8 + BUFFERS] = {{lengths, 0, 0}, {layout, 0, 0}, {hrp, 0, 0}, {numbers, 0, 0}, {versions, 0, 0},
                              {hrp_lengths, 0, 0}, {program_offsets, 0, 0}, {programs, 0, 0}};
    void *direct[BUFFERS];
    size_t all = buffers_of(env, it, 8, (jobject[]){bytes, offsets, validity}, direct), done = 0, rows = (size_t)count;
    (void)self;
    if (!pin(env, it, all)) {
        return OUT_OF_MEMORY;
    }
    bech32_column texts = column_of(it + 8, direct, it[0].items, it[1].items);
    uint32_t number = bech32_segwit_decode_many(&texts, (size_t)first, it[2].items, it[2].length, from(&it[3], at), rows,
                                                from(&it[4], at), rows, from(&it[5], at), rows, it[6].items,
                                                it[6].length, it[7].items, it[7].length, &done);
    unpin(env, it, all);
    return (jint)number;
}

NATIVE(jint, segwitEncodeMany)
(JNIEnv *env, jclass self, jbyteArray hrp, jbyteArray versions, jobject bytes, jobject offsets, jobject validity,
 jlongArray lengths, jintArray layout, jint first, jbyteArray numbers, jint at, jint count, jintArray text_offsets,
 jbyteArray texts) {
    Pinned it[7 + BUFFERS] = {{lengths, 0, 0}, {layout, 0, 0}, {hrp, 0, 0}, {versions, 0, 0}, {numbers, 0, 0},
                              {text_offsets, 0, 0}, {texts, 0, 0}};
    void *direct[BUFFERS];
    size_t all = buffers_of(env, it, 7, (jobject[]){bytes, offsets, validity}, direct), done = 0, rows = (size_t)count;
    (void)self;
    if (!pin(env, it, all)) {
        return OUT_OF_MEMORY;
    }
    bech32_column programs = column_of(it + 7, direct, it[0].items, it[1].items);
    uint32_t number = bech32_segwit_encode_many(it[2].items, it[2].length, from(&it[3], at), rows, &programs,
                                                (size_t)first, from(&it[4], at), rows, it[5].items, it[5].length,
                                                it[6].items, it[6].length, &done);
    unpin(env, it, all);
    return (jint)number;
}

/* What a search works on: copies of what it is given, and where its results are put. All is wiped and freed. */
typedef struct {
    uint8_t *text, *hrp, *block, *kinds, *texts;
    size_t text_length, hrp_length, block_size, most, texts_room, places_count;
    size_t *places, known[MOST_ERASURES], known_count, count;
    bech32_memory memory;
} Search;

static uint8_t *copied(JNIEnv *env, jbyteArray array, size_t *length) {
    *length = (size_t)(*env)->GetArrayLength(env, array);
    uint8_t *made = malloc(*length + 1);
    if (made != NULL) {
        (*env)->GetByteArrayRegion(env, array, 0, (jsize)*length, (jbyte *)made);
    }
    return made;
}

/* Memory that is lent begins at a multiple of 16. */
static int begin(JNIEnv *env, Search *it, jbyteArray text, jint memory, jbyteArray kinds, jintArray places,
                 jbyteArray texts) {
    it->most = kinds == NULL ? 0 : (size_t)(*env)->GetArrayLength(env, kinds);
    it->places_count = places == NULL ? 0 : (size_t)(*env)->GetArrayLength(env, places);
    it->texts_room = (size_t)(*env)->GetArrayLength(env, texts);
    it->text = copied(env, text, &it->text_length);
    it->block_size = (size_t)memory + 15u;
    it->block = malloc(it->block_size);
    it->kinds = calloc(it->most + 1, 1);
    it->places = calloc(it->places_count + 1, sizeof *it->places);
    it->texts = calloc(it->texts_room + 1, 1);
    if (it->block != NULL) {
        it->memory.start = it->block + (0u - (uintptr_t)it->block) % 16u;
        it->memory.size = (size_t)memory;
    }
    return it->text != NULL && it->block != NULL && it->kinds != NULL && it->places != NULL && it->texts != NULL;
}

static void drop(uint8_t *bytes, size_t size) {
    if (bytes != NULL) {
        codex32_wipe(bytes, size);
        free(bytes);
    }
}

/* Puts what was found into the arrays of Java, and gives all memory back; memory that the library kept stays its own. */
static jint end(JNIEnv *env, Search *it, uint32_t number, jbyteArray kinds, jintArray places, jbyteArray texts,
                jintArray out) {
    jint count = (jint)it->count;
    (*env)->SetIntArrayRegion(env, out, 0, 1, &count);
    if (number == 0) {
        (*env)->SetByteArrayRegion(env, texts, 0, (jsize)it->texts_room, (const jbyte *)it->texts);
        if (kinds != NULL) {
            (*env)->SetByteArrayRegion(env, kinds, 0, (jsize)it->most, (const jbyte *)it->kinds);
        }
        for (size_t i = 0; i < it->places_count && i < 2 * it->count; i++) {
            jint place = (jint)it->places[i];
            (*env)->SetIntArrayRegion(env, places, (jsize)i, 1, &place);
        }
    }
    if (it->block != NULL && it->memory.size != 0) {
        drop(it->block, it->block_size);
    }
    drop(it->text, it->text_length);
    drop(it->texts, it->texts_room);
    free(it->hrp);
    free(it->kinds);
    free(it->places);
    codex32_wipe_stack();
    return (jint)number;
}

/* By Blech32 where `checksum` is 0. */
NATIVE(jint, nearest)
(JNIEnv *env, jclass self, jint checksum, jbyteArray text, jintArray erasures, jint errors, jint memory,
 jbyteArray texts, jintArray out) {
    Search it;
    jint known[MOST_ERASURES];
    (void)self;
    memset(&it, 0, sizeof it);
    it.known_count = (size_t)(*env)->GetArrayLength(env, erasures);
    it.known_count = it.known_count < MOST_ERASURES ? it.known_count : MOST_ERASURES;
    (*env)->GetIntArrayRegion(env, erasures, 0, (jsize)it.known_count, known);
    for (size_t i = 0; i < it.known_count; i++) {
        it.known[i] = (size_t)known[i];
    }
    uint32_t number = BECH32_NO_MEMORY;
    if (begin(env, &it, text, memory, NULL, NULL, texts)) {
        number = checksum == 0 ? bech32_liquid_nearest(it.text, it.text_length, it.known, it.known_count,
                                                       (size_t)errors, &it.memory, it.texts, it.texts_room, &it.count)
                               : bech32_nearest((uint32_t)checksum, it.text, it.text_length, it.known, it.known_count,
                                                (size_t)errors, &it.memory, it.texts, it.texts_room, &it.count);
    }
    return end(env, &it, number, NULL, NULL, texts, out);
}

NATIVE(jint, nearEdits)
(JNIEnv *env, jclass self, jint checksum, jbyteArray text, jint memory, jbyteArray kinds, jintArray places,
 jbyteArray texts, jintArray out) {
    Search it;
    (void)self;
    memset(&it, 0, sizeof it);
    uint32_t number = BECH32_NO_MEMORY;
    if (begin(env, &it, text, memory, kinds, places, texts)) {
        number = bech32_near_edits((uint32_t)checksum, it.text, it.text_length, &it.memory, it.kinds, it.most, it.places,
                                   it.places_count, it.texts, it.texts_room, &it.count);
    }
    return end(env, &it, number, kinds, places, texts, out);
}

NATIVE(jint, suggest)
(JNIEnv *env, jclass self, jbyteArray text, jbyteArray hrp, jint memory, jbyteArray kinds, jintArray places,
 jbyteArray texts, jintArray out) {
    Search it;
    (void)self;
    memset(&it, 0, sizeof it);
    it.hrp = copied(env, hrp, &it.hrp_length);
    uint32_t number = BECH32_NO_MEMORY;
    if (begin(env, &it, text, memory, kinds, places, texts) && it.hrp != NULL) {
        number = bech32_suggest(it.text, it.text_length, it.hrp, it.hrp_length, &it.memory, it.kinds, it.most, it.places,
                                it.places_count, it.texts, it.texts_room, &it.count);
    }
    return end(env, &it, number, kinds, places, texts, out);
}

NATIVE(jint, descriptorMend)
(JNIEnv *env, jclass self, jbyteArray text, jint changed, jint memory, jbyteArray kinds, jintArray places,
 jbyteArray texts, jintArray out) {
    Search it;
    (void)self;
    memset(&it, 0, sizeof it);
    uint32_t number = BECH32_NO_MEMORY;
    if (begin(env, &it, text, memory, kinds, places, texts)) {
        number = bech32_descriptor_mend(it.text, it.text_length, (size_t)changed, &it.memory, it.kinds, it.most,
                                        it.places, it.places_count, it.texts, it.texts_room, &it.count);
    }
    return end(env, &it, number, kinds, places, texts, out);
}

NATIVE(jint, descriptorMendTwo)
(JNIEnv *env, jclass self, jbyteArray text, jint memory, jintArray places, jbyteArray texts, jintArray out) {
    Search it;
    (void)self;
    memset(&it, 0, sizeof it);
    uint32_t number = BECH32_NO_MEMORY;
    if (begin(env, &it, text, memory, NULL, places, texts)) {
        number = bech32_descriptor_mend_two(it.text, it.text_length, &it.memory, it.places, it.places_count, it.texts,
                                            it.texts_room, &it.count);
    }
    return end(env, &it, number, NULL, places, texts, out);
}

/* Threshold, share index and length of the payload. */
NATIVE(jint, parse)(JNIEnv *env, jclass self, jbyteArray text, jintArray out) {
    Pinned it[] = {{text, 0, 0}, {out, 0, 0}};
    (void)self;
    if (!pin(env, it, COUNT(it))) {
        return OUT_OF_MEMORY;
    }
    uint32_t threshold = 0, index = 0;
    size_t length = 0;
    uint32_t number = codex32_parse(it[0].items, it[0].length, &threshold, &index, &length);
    say(&it[1], threshold, index);
    ((jint *)it[1].items)[2] = (jint)length;
    unpin(env, it, COUNT(it));
    codex32_wipe_stack();
    return (jint)number;
}

/* Threshold, share index and number of bytes. */
NATIVE(jint, share)
(JNIEnv *env, jclass self, jbyteArray text, jbyteArray identifier, jbyteArray bytes, jintArray out) {
    Pinned it[] = {{text, 0, 0}, {identifier, 0, 0}, {bytes, 0, 0}, {out, 0, 0}};
    (void)self;
    if (!pin(env, it, COUNT(it))) {
        return OUT_OF_MEMORY;
    }
    uint32_t threshold = 0, index = 0;
    size_t count = 0;
    uint32_t number = codex32_share(it[0].items, it[0].length, &threshold, it[1].items, &index, it[2].items, it[2].length,
                                    &count);
    say(&it[3], threshold, index);
    ((jint *)it[3].items)[2] = (jint)count;
    unpin(env, it, COUNT(it));
    codex32_wipe_stack();
    return (jint)number;
}

/* Of bytes, or of the characters of a payload. */
NATIVE(jint, shareOf)
(JNIEnv *env, jclass self, jboolean is_payload, jint threshold, jbyteArray identifier, jint index, jbyteArray bytes,
 jbyteArray text, jintArray out) {
    Pinned it[] = {{identifier, 0, 0}, {bytes, 0, 0}, {text, 0, 0}, {out, 0, 0}};
    (void)self;
    if (!pin(env, it, COUNT(it))) {
        return OUT_OF_MEMORY;
    }
    size_t length = 0;
    uint32_t number = (is_payload ? codex32_encode_payload : codex32_encode)(
        (uint32_t)threshold, it[0].items, it[0].length, (uint32_t)index, it[1].items, it[1].length, it[2].items,
        it[2].length, &length);
    say(&it[3], length, 0);
    unpin(env, it, COUNT(it));
    codex32_wipe_stack();
    return (jint)number;
}

/* The string at an index, or where that is 0 the bytes of the secret. `lengths` are those of more texts than a set has, too. */
NATIVE(jint, derive)
(JNIEnv *env, jclass self, jint index, jbyteArray texts, jintArray lengths, jbyteArray made, jintArray out) {
    Pinned it[] = {{texts, 0, 0}, {lengths, 0, 0}, {made, 0, 0}, {out, 0, 0}};
    (void)self;
    if (!pin(env, it, COUNT(it))) {
        return OUT_OF_MEMORY;
    }
    size_t each[CODEX32_MAX_SHARES + 1], count = it[1].length, length = 0;
    count = count < COUNT(each) ? count : COUNT(each);
    for (size_t i = 0; i < count; i++) {
        each[i] = (size_t)((const jint *)it[1].items)[i];
    }
    uint32_t number = index < 0 ? codex32_recover(it[0].items, it[0].length, each, count, it[2].items, it[2].length, &length)
                                : codex32_derive((uint32_t)index, it[0].items, it[0].length, each, count, it[2].items,
                                                 it[2].length, &length);
    say(&it[3], length, 0);
    unpin(env, it, COUNT(it));
    codex32_wipe_stack();
    return (jint)number;
}

NATIVE(jint, propose)
(JNIEnv *env, jclass self, jboolean is_long, jbyteArray text, jbyteArray memory, jbyteArray proposed, jintArray out) {
    Pinned it[] = {{text, 0, 0}, {memory, 0, 0}, {proposed, 0, 0}, {out, 0, 0}};
    (void)self;
    if (!pin(env, it, COUNT(it))) {
        return OUT_OF_MEMORY;
    }
    size_t left_out = (0u - (uintptr_t)it[1].items) % 16u, length = 0;
    codex32_memory lent = {(uint8_t *)it[1].items + left_out, it[1].length - left_out};
    uint32_t number = (is_long ? codex32_propose_long : codex32_propose)(it[0].items, it[0].length, &lent, it[2].items,
                                                                        it[2].length, &length);
    say(&it[3], length, 0);
    codex32_wipe(it[1].items, it[1].length);
    unpin(env, it, COUNT(it));
    codex32_wipe_stack();
    return (jint)number;
}
