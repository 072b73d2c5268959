/*
 * Whether anything of a secret is left on the stack after a call and codex32_wipe_stack. Each call is made on a stack of its
 * own, which was painted, and which is searched afterwards for eight or more in a row of the characters, the elements or the
 * bytes of what is secret, from first to last or from last to first.
 *
 * It prints a line for each call: the stack that it takes, what it leaves without the wipe, and with it. The status is 1
 * where anything is left with it, or a call takes more stack than CODEX32_STACK_SIZE; 2 where a call fails, or the search
 * does not find what it has to find.
 */
#define _GNU_SOURCE
#include "codex32.h"
#include "texts.h"

#include <stdio.h>
#include <stdlib.h>
#include <ucontext.h>

enum {
    STACK = 1 << 18, PAINT = 0xa5, ROW = 8, MOST_KEYS = 1 << 14,
    THRESHOLD = 9, COUNT = 11, LETTERS = LONGEST - HEADER - 15, RANDOM = (THRESHOLD - 1) * LETTERS, MEMORY = 1 << 16
};

static unsigned char *stack;
static int is_wiped;

/* ---- what is secret */

static char shares[THRESHOLD][LONGEST], shorter[CODEX32_MAX_TEXT], damaged[LONGEST], damaged_shorter[CODEX32_MAX_TEXT];
static uint8_t secret[LONGEST], secret_bytes[MOST_BYTES], random_bytes[RANDOM], split[COUNT * LONGEST];

/* Eight in a row, each as a number, in the order of these numbers. */
typedef struct {
    const char *name;
    size_t count;
    uint64_t keys[MOST_KEYS];
} Rows;

static Rows rows[] = {{"characters", 0, {0}}, {"elements", 0, {0}}, {"bytes", 0, {0}}};

static void add_rows(Rows *to, const void *start, size_t size)
{
    const unsigned char *row = start;
    for (size_t i = 0; i + ROW <= size && to->count + 2 <= MOST_KEYS; i++) {
        unsigned char reversed[ROW];
        for (size_t j = 0; j < ROW; j++)
            reversed[j] = row[i + ROW - 1 - j];
        memcpy(&to->keys[to->count++], row + i, ROW);
        memcpy(&to->keys[to->count++], reversed, ROW);
    }
}

static void add_text(const void *start, size_t size)
{
    const char *text = start;
    unsigned char elements[LONGEST];
    for (size_t i = HEADER; i < size; i++)
        elements[i] = (unsigned char)element_of(text[i]);
    add_rows(&rows[0], text + HEADER, size - HEADER);
    add_rows(&rows[1], elements + HEADER, size - HEADER);
}

static void add_random(void)
{
    unsigned char elements[RANDOM];
    for (size_t i = 0; i < RANDOM; i++)
        elements[i] = random_bytes[i] & 31;
    add_rows(&rows[1], elements, RANDOM);
    add_rows(&rows[2], random_bytes, RANDOM);
}

static int in_order(const void *one, const void *other)
{
    uint64_t a, b;
    memcpy(&a, one, sizeof a);
    memcpy(&b, other, sizeof b);
    return a < b ? -1 : a > b;
}

/* ---- the calls */

static size_t lengths[THRESHOLD], size;
static uint8_t text[COUNT * LONGEST], bytes[MOST_BYTES], identifier[4];
static uint32_t threshold, share_index, number;
static _Alignas(16) uint8_t lent[MEMORY];
static codex32_memory memory = {lent, sizeof lent};
static const uint8_t name[] = {'t', 'e', 's', 't'};

/* A call, and the wipe in the function that made it. */
#define CALL(of, ...)                             \
    static void make_##of(void)                   \
    {                                             \
        number = codex32_##of(__VA_ARGS__);       \
        if (is_wiped)                             \
            codex32_wipe_stack();                 \
    }

#define TEXT(of) (const uint8_t *)(of), sizeof(of)

CALL(share, secret, LONGEST, &threshold, identifier, &share_index, bytes, MOST_BYTES, &size)
CALL(parse, TEXT(shorter), &threshold, &share_index, &size)
CALL(encode, THRESHOLD, name, 4, 's', secret_bytes, MOST_BYTES, text, sizeof text, &size)
CALL(encode_payload, THRESHOLD, name, 4, 's', secret + HEADER, LETTERS, text, sizeof text, &size)
CALL(derive, 's', TEXT(shares), lengths, THRESHOLD, text, sizeof text, &size)
CALL(split, THRESHOLD, name, 4, secret_bytes, MOST_BYTES, random_bytes, RANDOM, COUNT, text, sizeof text, &size)
CALL(recover, TEXT(shares), lengths, THRESHOLD, bytes, MOST_BYTES, &size)
CALL(propose, TEXT(damaged_shorter), &memory, text, sizeof text, &size)
CALL(propose_long, TEXT(damaged), &memory, text, sizeof text, &size)

/* A copy of the secret, which stays there, or is wiped by codex32_wipe. */
static __attribute__((noinline)) void copy(int is_copy_wiped)
{
    uint8_t copied[LONGEST];
    memcpy(copied, secret, LONGEST);
    __asm__ volatile("" : : "r"(copied) : "memory");
    if (is_copy_wiped)
        codex32_wipe(copied, sizeof copied);
    number = CODEX32_OK;
}

/* Some bytes further down than the function that wipes, as a library's buffers are. */
static __attribute__((noinline)) void copy_below(int is_copy_wiped)
{
    volatile uint8_t some[64] = {0};
    copy(is_copy_wiped);
    some[1] = some[0];
}

static void make_copy(void)
{
    copy_below(0);
    if (is_wiped)
        codex32_wipe_stack();
}

static void make_wiped_copy(void)
{
    copy_below(1);
}

typedef struct {
    const char *name;
    void (*make)(void);
} Call;

static const Call calls[] = {
    {"codex32_share", make_share},
    {"codex32_parse", make_parse},
    {"codex32_encode", make_encode},
    {"codex32_encode_payload", make_encode_payload},
    {"codex32_derive", make_derive},
    {"codex32_split", make_split},
    {"codex32_recover", make_recover},
    {"codex32_propose", make_propose},
    {"codex32_propose_long", make_propose_long},
};

static const Call a_copy = {"a copy of 118 characters", make_copy};
static const Call a_wiped_copy = {"the same, wiped by codex32_wipe", make_wiped_copy};

/* ---- one call on a painted stack */

static void call_on_painted_stack(const Call *call)
{
    static ucontext_t back, there;
    memset(stack, PAINT, STACK);
    getcontext(&there);
    there.uc_stack.ss_sp = stack;
    there.uc_stack.ss_size = STACK;
    there.uc_link = &back;
    makecontext(&there, call->make, 0);
    swapcontext(&back, &there);
    if (number != CODEX32_OK) {
        printf("%s returns %u\n", call->name, number);
        exit(2);
    }
}

/* The bytes of the stack that were written to. */
static size_t touched(void)
{
    size_t untouched = 0;
    while (untouched < STACK && stack[untouched] == PAINT)
        untouched++;
    return STACK - untouched;
}

/* How many bytes stand in rows of a kind. */
static size_t found(const Rows *of)
{
    size_t count = 0, end = 0;
    for (size_t at = STACK - touched(); at + ROW <= STACK; at++) {
        uint64_t key;
        memcpy(&key, stack + at, ROW);
        if (bsearch(&key, of->keys, of->count, sizeof key, in_order)) {
            count += at + ROW - (at > end ? at : end);
            end = at + ROW;
        }
    }
    return count;
}

static size_t print_found(void)
{
    size_t all = 0;
    for (int i = 0; i < 3; i++) {
        size_t some = found(&rows[i]);
        if (some > 0)
            printf("%s %zu %s", all > 0 ? "," : "", some, rows[i].name);
        all += some;
    }
    if (all == 0)
        printf(" nothing");
    return all;
}

/* Whether nothing is left of a call, with the wipe, and its stack is no larger than what is wiped. */
static int leaves_nothing(const Call *call)
{
    is_wiped = 0;
    call_on_painted_stack(call);
    size_t taken = touched();
    printf("%s takes %zu bytes of stack, and leaves", call->name, taken);
    print_found();
    is_wiped = 1;
    call_on_painted_stack(call);
    printf("; after codex32_wipe_stack");
    size_t left = print_found();
    int is_enough = taken <= CODEX32_STACK_SIZE;
    printf("%s%s\n", left == 0 ? "" : ": LEFT", is_enough ? "" : ": MORE STACK THAN IS WIPED");
    return left == 0 && is_enough;
}

/* The search finds a copy. */
static void expect_search(void)
{
    is_wiped = 0;
    call_on_painted_stack(&a_copy);
    printf("%s: found", a_copy.name);
    if (print_found() < LONGEST - HEADER) {
        printf(": IT IS NOT FOUND\n");
        exit(2);
    }
    printf("\n");
}

/* ---- all */

static void damage(char *to, const char *of, size_t length)
{
    memcpy(to, of, length);
    for (size_t i = 0; i < 3; i++)
        to[HEADER + 7 * i] = to[HEADER + 7 * i] == 'q' ? 'p' : 'q';
}

static void make_secrets(void)
{
    for (size_t i = 0; i < THRESHOLD; i++) {
        lengths[i] = LONGEST;
        put_string(shares[i], LONGEST, THRESHOLD, indices[i]);
    }
    put_string(shorter, sizeof shorter, THRESHOLD, 'a');
    damage(damaged, shares[0], sizeof damaged);
    damage(damaged_shorter, shorter, sizeof shorter);
    for (size_t i = 0; i < RANDOM; i++)
        random_bytes[i] = any_byte();
    number = codex32_derive('s', TEXT(shares), lengths, THRESHOLD, secret, LONGEST, &size);
    if (number == CODEX32_OK)
        number = codex32_share(secret, LONGEST, &threshold, identifier, &share_index, secret_bytes, MOST_BYTES, &size);
    if (number == CODEX32_OK)
        number = codex32_split(THRESHOLD, name, 4, secret_bytes, MOST_BYTES, random_bytes, RANDOM, COUNT, split, sizeof split,
                               &size);
    if (number != CODEX32_OK) {
        printf("a call returns %u\n", number);
        exit(2);
    }
}

static void sort_secrets(void)
{
    for (size_t i = 0; i < THRESHOLD; i++)
        add_text(shares[i], LONGEST);
    for (size_t i = 0; i < COUNT; i++)
        add_text(split + i * LONGEST, LONGEST);
    add_text(secret, LONGEST);
    add_text(shorter, sizeof shorter);
    add_text(damaged, LONGEST);
    add_text(damaged_shorter, sizeof damaged_shorter);
    add_rows(&rows[2], secret_bytes, MOST_BYTES);
    add_random();
    for (int i = 0; i < 3; i++)
        qsort(rows[i].keys, rows[i].count, sizeof *rows[i].keys, in_order);
}

int main(void)
{
    stack = malloc(STACK);
    make_secrets();
    sort_secrets();
    expect_search();
    int is_clean = leaves_nothing(&a_copy);
    is_clean = leaves_nothing(&a_wiped_copy) && is_clean;
    for (size_t i = 0; i < sizeof calls / sizeof *calls; i++)
        is_clean = leaves_nothing(&calls[i]) && is_clean;
    return is_clean ? 0 : 1;
}
