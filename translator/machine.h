/*
 * The machine on which the functions of a library for wasm64 run. A call makes it on the stack of C: it has no other
 * memory, keeps nothing, and calls memmove, memset, and MACHINE_TRAP where the library does what it never should. Numbers
 * stand in memory as the library has them, the lowest byte first, on every processor.
 *
 * An address is the caller's own, and is not tested, as in a library that was compiled for the processor. With
 * MACHINE_IS_TESTED the high 32 bits of an address are the number of a part, and the low 32 bits the place in it. Part 0
 * has no bytes, part 1 is the library's stack, part 2 its constants, and each other one is what the caller handed over,
 * where it lies. Each access is tested to be within its part, and each write whether the part may be written to.
 */
#include <stddef.h>
#include <stdint.h>
#include <string.h>

#ifndef MACHINE_TRAP
#include <stdlib.h>
#define MACHINE_TRAP() abort()
#endif

typedef uint8_t u8;
typedef uint16_t u16;
typedef uint32_t u32;
typedef uint64_t u64;

#if defined(__GNUC__)
#define NEVER(x) __builtin_expect(!!(x), 0)
#define OWN static inline __attribute__((unused))
#else
#define NEVER(x) (x)
#define OWN static inline
#endif

#if defined(__cplusplus)
#define ALIGNED(bytes) alignas(bytes)
#elif defined(__STDC_VERSION__) && __STDC_VERSION__ >= 201112L
#define ALIGNED(bytes) _Alignas(bytes)
#elif defined(__GNUC__)
#define ALIGNED(bytes) __attribute__((aligned(bytes)))
#elif defined(_MSC_VER)
#define ALIGNED(bytes) __declspec(align(bytes))
#else
#define ALIGNED(bytes)
#endif

/* The constants of the library, aligned as its addresses expect, by the number where a compiler knows no other way: start
 * tests it. */
ALIGNED(16) static const union {
    u8 at[CONSTANTS_SIZE];
    u64 number;
} constants = {{
@CONSTANTS@
}};

#ifdef MACHINE_IS_TESTED
#define PARTS 12u

typedef struct {
    u8 *at;
    size_t readable; /* as many bytes */
    size_t writable; /* as many, or none */
} Part;
#endif

typedef struct {
    u64 stack_pointer;
    u64 stack_low; /* below this it may not go */
#ifdef MACHINE_IS_TESTED
    u32 count; /* of the parts that are there */
    Part parts[PARTS];
#endif
} Machine;

OWN void trap(void) {
    for (;;) {
        MACHINE_TRAP();
    }
}

/* A number of bytes, where the processor's memory may have as many. */
OWN size_t size_of(u64 size) {
    if (NEVER(size > SIZE_MAX)) {
        trap();
    }
    return (size_t)size;
}

/* ---- where the bytes of an address lie */

#ifdef MACHINE_IS_TESTED

#define PLACE(place) (((u64)2 << 32) + (u64)(place))

OWN const u8 *readable(const Machine *m, u64 address, size_t size) {
    u32 part = (u32)(address >> 32), from = (u32)address;
    if (NEVER(part >= m->count || from > m->parts[part].readable || size > m->parts[part].readable - from)) {
        trap();
    }
    return m->parts[part].at + from;
}

OWN u8 *writable(const Machine *m, u64 address, size_t size) {
    u32 part = (u32)(address >> 32), from = (u32)address;
    if (NEVER(part >= m->count || from > m->parts[part].writable || size > m->parts[part].writable - from)) {
        trap();
    }
    return m->parts[part].at + from;
}

#else

#define PLACE(place) ((u64)(uintptr_t)constants.at + (u64)(place))

OWN const u8 *readable(const Machine *m, u64 address, size_t size) {
    (void)m;
    (void)size;
    return (const u8 *)(uintptr_t)address;
}

OWN u8 *writable(const Machine *m, u64 address, size_t size) {
    (void)m;
    (void)size;
    return (u8 *)(uintptr_t)address;
}

#endif

/* ---- numbers in memory, by bytes */

OWN u32 get_16(const u8 *p) {
    return p[0] | (u32)p[1] << 8;
}

OWN u32 get_32(const u8 *p) {
    return p[0] | (u32)p[1] << 8 | (u32)p[2] << 16 | (u32)p[3] << 24;
}

OWN u64 get_64(const u8 *p) {
    return p[0] | (u64)p[1] << 8 | (u64)p[2] << 16 | (u64)p[3] << 24 | (u64)p[4] << 32 | (u64)p[5] << 40 |
           (u64)p[6] << 48 | (u64)p[7] << 56;
}

OWN void put_16(u8 *p, u32 x) {
    p[0] = (u8)(x & 255);
    p[1] = (u8)(x >> 8 & 255);
}

OWN void put_32(u8 *p, u32 x) {
    p[0] = (u8)(x & 255);
    p[1] = (u8)(x >> 8 & 255);
    p[2] = (u8)(x >> 16 & 255);
    p[3] = (u8)(x >> 24 & 255);
}

OWN void put_64(u8 *p, u64 x) {
    p[0] = (u8)(x & 255);
    p[1] = (u8)(x >> 8 & 255);
    p[2] = (u8)(x >> 16 & 255);
    p[3] = (u8)(x >> 24 & 255);
    p[4] = (u8)(x >> 32 & 255);
    p[5] = (u8)(x >> 40 & 255);
    p[6] = (u8)(x >> 48 & 255);
    p[7] = (u8)(x >> 56 & 255);
}

/* ---- the instructions that C has no sign for, by the names that translator/translate gives them. A number is held without
 * a sign; where an instruction reads it with one, that is worked out on numbers without. */

/* In the order of numbers with a sign. */
#define SIGNED_32(x) ((u32)(x) ^ (u32)0x80000000u)
#define SIGNED_64(x) ((u64)(x) ^ (u64)1 << 63)

OWN u32 I32_EXTEND8_S(u32 x) {
    return (u32)(((x & 0xffu) ^ 0x80u) - 0x80u);
}

OWN u32 I32_EXTEND16_S(u32 x) {
    return (u32)(((x & 0xffffu) ^ 0x8000u) - 0x8000u);
}

OWN u64 I64_EXTEND8_S(u64 x) {
    return ((x & 0xffu) ^ 0x80u) - 0x80u;
}

OWN u64 I64_EXTEND16_S(u64 x) {
    return ((x & 0xffffu) ^ 0x8000u) - 0x8000u;
}

OWN u64 I64_EXTEND32_S(u64 x) {
    return ((x & 0xffffffffu) ^ 0x80000000u) - 0x80000000u;
}

OWN u64 I64_EXTEND_I32_S(u32 x) {
    return I64_EXTEND32_S(x);
}

OWN u32 I32_SHR_S(u32 x, u32 y) {
    u32 sign = (u32)(0u - (x >> 31));
    return (u32)((x ^ sign) >> (y & 31) ^ sign);
}

OWN u64 I64_SHR_S(u64 x, u64 y) {
    u64 sign = 0u - (x >> 63);
    return (x ^ sign) >> (y & 63) ^ sign;
}

OWN u32 I32_MUL(u32 x, u32 y) {
    return (u32)(1u * x * y);
}

OWN u32 I32_DIV_U(u32 x, u32 y) {
    if (NEVER(y == 0)) {
        trap();
    }
    return x / y;
}

OWN u32 I32_REM_U(u32 x, u32 y) {
    if (NEVER(y == 0)) {
        trap();
    }
    return x % y;
}

OWN u64 I64_DIV_U(u64 x, u64 y) {
    if (NEVER(y == 0)) {
        trap();
    }
    return x / y;
}

OWN u64 I64_REM_U(u64 x, u64 y) {
    if (NEVER(y == 0)) {
        trap();
    }
    return x % y;
}

OWN u32 I32_ROTL(u32 x, u32 y) {
    return (u32)(x << (y & 31) | x >> ((32 - (y & 31)) & 31));
}

OWN u32 I32_ROTR(u32 x, u32 y) {
    return (u32)(x >> (y & 31) | x << ((32 - (y & 31)) & 31));
}

OWN u64 I64_ROTL(u64 x, u64 y) {
    return x << (y & 63) | x >> ((64 - (y & 63)) & 63);
}

OWN u64 I64_ROTR(u64 x, u64 y) {
    return x >> (y & 63) | x << ((64 - (y & 63)) & 63);
}

OWN u64 I64_CTZ(u64 x) {
#if defined(__GNUC__)
    return x ? (u64)__builtin_ctzll(x) : 64;
#else
    u64 n = 0;
    while (n < 64 && !(x >> n & 1)) {
        n++;
    }
    return n;
#endif
}

OWN u64 I64_CLZ(u64 x) {
#if defined(__GNUC__)
    return x ? (u64)__builtin_clzll(x) : 64;
#else
    u64 n = 0;
    while (n < 64 && !(x >> (63 - n) & 1)) {
        n++;
    }
    return n;
#endif
}

OWN u64 I64_POPCNT(u64 x) {
    u64 n = 0;
    for (; x; x &= x - 1) {
        n++;
    }
    return n;
}

OWN u32 I32_CTZ(u32 x) {
    return (u32)I64_CTZ(x | (u64)1 << 32);
}

OWN u32 I32_CLZ(u32 x) {
    return (u32)(I64_CLZ(x) - 32);
}

OWN u32 I32_POPCNT(u32 x) {
    return (u32)I64_POPCNT(x);
}

#define LOAD(name, type, size, value)                \
    OWN type name(const Machine *m, u64 address) {   \
        const u8 *p = readable(m, address, size);    \
        return (value);                              \
    }

LOAD(I32_LOAD8_U, u32, 1, p[0])
LOAD(I64_LOAD8_U, u64, 1, p[0])
LOAD(I32_LOAD8_S, u32, 1, I32_EXTEND8_S(p[0]))
LOAD(I64_LOAD8_S, u64, 1, I64_EXTEND8_S(p[0]))
LOAD(I32_LOAD16_U, u32, 2, get_16(p))
LOAD(I64_LOAD16_U, u64, 2, get_16(p))
LOAD(I32_LOAD16_S, u32, 2, I32_EXTEND16_S(get_16(p)))
LOAD(I64_LOAD16_S, u64, 2, I64_EXTEND16_S(get_16(p)))
LOAD(I32_LOAD, u32, 4, get_32(p))
LOAD(I64_LOAD32_U, u64, 4, get_32(p))
LOAD(I64_LOAD32_S, u64, 4, I64_EXTEND32_S(get_32(p)))
LOAD(I64_LOAD, u64, 8, get_64(p))

#define STORE(name, type, size, put)                   \
    OWN void name(const Machine *m, u64 address, type x) { \
        u8 *p = writable(m, address, size);            \
        put;                                           \
    }

STORE(I32_STORE8, u32, 1, p[0] = (u8)(x & 255))
STORE(I64_STORE8, u64, 1, p[0] = (u8)(x & 255))
STORE(I32_STORE16, u32, 2, put_16(p, x))
STORE(I64_STORE16, u64, 2, put_16(p, (u32)(x & 0xffffu)))
STORE(I32_STORE, u32, 4, put_32(p, x))
STORE(I64_STORE32, u64, 4, put_32(p, (u32)(x & 0xffffffffu)))
STORE(I64_STORE, u64, 8, put_64(p, x))

OWN void MEMORY_COPY(const Machine *m, u64 to, u64 from, u64 size) {
    if (size > 0) {
        memmove(writable(m, to, size_of(size)), readable(m, from, size_of(size)), (size_t)size);
    }
}

OWN void MEMORY_FILL(const Machine *m, u64 to, u32 byte, u64 size) {
    if (size > 0) {
        memset(writable(m, to, size_of(size)), (int)(byte & 255), (size_t)size);
    }
}

/* What a function of the library begins with: this many bytes of the stack are there. */
#define FRAME(m, size)                                             \
    do {                                                           \
        if (NEVER((m)->stack_pointer - (m)->stack_low < (size))) { \
            trap();                                                \
        }                                                          \
    } while (0)

/* ---- what a link would add */

/* Whether a call is under way in this machine: never, since each call makes its own. */
OWN u32 ENTER(Machine *m) {
    (void)m;
    return 0;
}

OWN void LEAVE(Machine *m) {
    (void)m;
}

OWN void TRAP(Machine *m) {
    (void)m;
    trap();
}

/* The product of two numbers of 128 bits, each as its low and its high half, is put at an address. */
OWN void MULTIPLY_128(Machine *m, u64 to, u64 a, u64 a_high, u64 b, u64 b_high) {
    u64 a_0 = a & 0xffffffffu, a_1 = a >> 32, b_0 = b & 0xffffffffu, b_1 = b >> 32;
    u64 low = a_0 * b_0, middle = a_1 * b_0 + (low >> 32), other = a_0 * b_1 + (middle & 0xffffffffu);
    I64_STORE(m, to, other << 32 | (low & 0xffffffffu));
    I64_STORE(m, to + 8, a_1 * b_1 + (middle >> 32) + (other >> 32) + a * b_high + a_high * b);
}

/* A number of 128 bits, its low half and its high one, by a number of bits to the right, below 128, is put at an address. */
OWN void SHIFT_RIGHT_128(Machine *m, u64 to, u64 low, u64 high, u32 by) {
    u64 next = by & 64 ? 0 : high;
    low = by & 64 ? high : low;
    by &= 63;
    I64_STORE(m, to, low >> by | (by == 0 ? 0 : next << (64 - by)));
    I64_STORE(m, to + 8, next >> by);
}

/* ---- what the calls make a machine of */

#ifdef MACHINE_IS_TESTED

OWN u64 part(Machine *m, u8 *at, size_t readable, size_t writable) {
    if (NEVER(m->count == PARTS)) {
        trap();
    }
    m->parts[m->count].at = at;
    m->parts[m->count].readable = readable;
    m->parts[m->count].writable = writable;
    return (u64)m->count++ << 32;
}

/* The address that bytes have in the machine, where they may only be read. */
OWN u64 lend(Machine *m, const u8 *at, u64 size) {
    return part(m, (u8 *)at, size_of(size), 0);
}

/* The address that bytes have in the machine, where they may be written. */
OWN u64 lend_room(Machine *m, u8 *at, u64 size) {
    return part(m, at, size_of(size), size_of(size));
}

OWN void start(Machine *m, u8 *stack, size_t size) {
    m->count = 0;
    lend(m, stack, 0);
    m->stack_low = lend_room(m, stack, size);
    m->stack_pointer = m->stack_low + size;
    lend(m, constants.at, CONSTANTS_SIZE);
}

/* A part has less than 2^32 bytes. What is longer, and is not read to its end in any case, is handed over in part. */
#define IS_TOO_LONG(size) ((u64)(size) >> 32 != 0)
#define MOST ((u64)1 << 28)
#define SOME(size) ((u64)(size) < MOST ? (u64)(size) : MOST)

#else

OWN u64 lend(Machine *m, const u8 *at, u64 size) {
    (void)m;
    (void)size;
    return (u64)(uintptr_t)at;
}

OWN u64 lend_room(Machine *m, u8 *at, u64 size) {
    return lend(m, at, size);
}

/* The library's stack begins at a multiple of 16. */
OWN void start(Machine *m, u8 *stack, size_t size) {
    u64 low = (u64)(uintptr_t)stack;
    m->stack_low = low + (0u - low) % 16;
    m->stack_pointer = m->stack_low + size;
    if (NEVER((uintptr_t)constants.at % MACHINE_ALIGN != 0)) {
        trap();
    }
}

#define IS_TOO_LONG(size) 0
#define SOME(size) ((u64)(size))

#endif

/* A new machine, with as much stack as a function takes. */
#define MACHINE(function)                          \
    Machine m;                                     \
    ALIGNED(16) u8 stack[stack_##function + 15u];  \
    start(&m, stack, stack_##function)

/* Numbers of eight bytes each, in the library's order: those that a function is given, and those that it writes. */
#define GIVEN(count)                     \
    ALIGNED(16) u64 given_words[count];  \
    u8 *const given = (u8 *)given_words

#define NUMBERS(count)                           \
    ALIGNED(16) u64 number_words[count] = {0};   \
    u8 *const numbers = (u8 *)number_words
