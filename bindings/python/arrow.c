/*
 * Memory that Python, NumPy and readers of Arrow hold together, and arrays of Arrow over it (the Arrow C data interface): whoever
 * lets go last frees it. A reader may do so after the interpreter has ended, so no function here needs it, but for the ends of
 * capsules, which the interpreter calls.
 */
#include <stdint.h>
#include <stdlib.h>

#if defined(_WIN32)
#include <intrin.h>
#define SHOWN __declspec(dllexport)
#define ADD(count, value) (_InterlockedExchangeAdd((volatile long *)(count), (value)) + (value))
typedef long Count;
#else
#define SHOWN __attribute__((visibility("default")))
#define ADD(count, value) __atomic_add_fetch((count), (value), __ATOMIC_ACQ_REL)
typedef int Count;
#endif

struct ArrowSchema {
    const char *format, *name, *metadata;
    int64_t flags, n_children;
    struct ArrowSchema **children, *dictionary;
    void (*release)(struct ArrowSchema *);
    void *private_data;
};

struct ArrowArray {
    int64_t length, null_count, offset, n_buffers, n_children;
    const void **buffers;
    struct ArrowArray **children, *dictionary;
    void (*release)(struct ArrowArray *);
    void *private_data;
};

#define NULLABLE 2

/* What stands before memory that is held: bytes come from a multiple of 64 on, as Arrow wants it. */
typedef union {
    struct {
        Count count;
        void *block;
    } it;
    char room[64];
} Held;

SHOWN void *bech32_proved_hold(size_t size);
SHOWN void bech32_proved_drop(void *bytes);
SHOWN void *bech32_proved_schema(int is_text, int is_large);
SHOWN void *bech32_proved_array(int64_t length, int64_t null_count, void *validity, void *offsets, void *bytes);
SHOWN void bech32_proved_capsules(void *(*pointer)(void *capsule, const char *name));
SHOWN void bech32_proved_end_schema(void *capsule);
SHOWN void bech32_proved_end_array(void *capsule);

/* Memory of this size, which is held once, or null. */
void *bech32_proved_hold(size_t size) {
    char *block = size <= SIZE_MAX - 2 * sizeof(Held) ? malloc(size + 2 * sizeof(Held)) : NULL;
    if (block == NULL) {
        return NULL;
    }
    Held *held = (Held *)(block + (sizeof(Held) - (uintptr_t)block % sizeof(Held)) % sizeof(Held));
    held->it.count = 1;
    held->it.block = block;
    return held + 1;
}

static void *shared(void *bytes) {
    if (bytes != NULL) {
        ADD(&((Held *)bytes - 1)->it.count, 1);
    }
    return bytes;
}

void bech32_proved_drop(void *bytes) {
    if (bytes != NULL) {
        Held *held = (Held *)bytes - 1;
        if (ADD(&held->it.count, -1) == 0) {
            free(held->it.block);
        }
    }
}

static void release_schema(struct ArrowSchema *schema) { schema->release = NULL; }

/* The type of a column: texts or bytes, with offsets of 32 or 64 bits. */
void *bech32_proved_schema(int is_text, int is_large) {
    static const char *const formats[] = {"z", "Z", "u", "U"};
    struct ArrowSchema *schema = calloc(1, sizeof *schema);
    if (schema != NULL) {
        schema->format = formats[2 * (is_text != 0) + (is_large != 0)];
        schema->name = "";
        schema->flags = NULLABLE;
        schema->release = release_schema;
    }
    return schema;
}

static void release_array(struct ArrowArray *array) {
    for (int64_t i = 0; i < array->n_buffers; i++) {
        bech32_proved_drop((void *)(uintptr_t)array->buffers[i]);
    }
    free(array->private_data);
    array->release = NULL;
}

/* An array over memory that is held: it holds each buffer once more, until it is released. */
void *bech32_proved_array(int64_t length, int64_t null_count, void *validity, void *offsets, void *bytes) {
    struct ArrowArray *array = calloc(1, sizeof *array);
    const void **buffers = calloc(3, sizeof *buffers);
    if (array == NULL || buffers == NULL) {
        free(array);
        free(buffers);
        return NULL;
    }
    buffers[0] = shared(validity);
    buffers[1] = shared(offsets);
    buffers[2] = shared(bytes);
    array->length = length;
    array->null_count = null_count;
    array->n_buffers = 3;
    array->buffers = buffers;
    array->release = release_array;
    array->private_data = buffers;
    return array;
}

/* PyCapsule_GetPointer of the interpreter that loaded this. */
static void *(*pointer_of)(void *capsule, const char *name);

void bech32_proved_capsules(void *(*pointer)(void *capsule, const char *name)) { pointer_of = pointer; }

/* A capsule ends: what nobody has taken is released. */
void bech32_proved_end_schema(void *capsule) {
    struct ArrowSchema *schema = pointer_of(capsule, "arrow_schema");
    if (schema != NULL && schema->release != NULL) {
        schema->release(schema);
    }
    free(schema);
}

void bech32_proved_end_array(void *capsule) {
    struct ArrowArray *array = pointer_of(capsule, "arrow_array");
    if (array != NULL && array->release != NULL) {
        array->release(array);
    }
    free(array);
}
