/*
 * bech32.h in C99: the functions of the proved library, made of its object for WebAssembly (sha256
 * 3d20eb6edfe9f8b9bef2390a11f20bc0215cc2a377469d22135441d2476827f6) by translator/translate. Do not edit.
 *
 *     cc -std=c99 -O2 -c bech32_small.c
 *
 * It takes no memory, keeps nothing between calls, and has no data that changes. It calls memmove and memset
 * alone, and abort where the library does what it never should, unless MACHINE_TRAP() is defined. With
 * MACHINE_IS_TESTED defined, each access is tested to be within the stack, the constants, or what the caller
 * handed over. The bytes of the library's stack that a call takes, on the stack of C:
 *
 *     bech32_check          560
 *     bech32_correct        624
 *     bech32_decode         512
 *     bech32_encode         464
 *     bech32_fault          560
 *     bech32_message        16
 *     bech32_segwit_decode  576
 *     bech32_segwit_encode  448
 *     bech32_version        16
 *
 * SPDX-License-Identifier: MIT
 */
#include "bech32.h"

#ifndef stack_bech32_check
#define stack_bech32_check 560u
#endif
#ifndef stack_bech32_correct
#define stack_bech32_correct 624u
#endif
#ifndef stack_bech32_decode
#define stack_bech32_decode 512u
#endif
#ifndef stack_bech32_encode
#define stack_bech32_encode 464u
#endif
#ifndef stack_bech32_fault
#define stack_bech32_fault 560u
#endif
#ifndef stack_bech32_message
#define stack_bech32_message 16u
#endif
#ifndef stack_bech32_segwit_decode
#define stack_bech32_segwit_decode 576u
#endif
#ifndef stack_bech32_segwit_encode
#define stack_bech32_segwit_encode 448u
#endif
#ifndef stack_bech32_version
#define stack_bech32_version 16u
#endif
#define CONSTANTS_SIZE 2116u
#define MACHINE_ALIGN 4

/*
 * The machine on which the functions of a library for wasm64 run. A call makes it on the stack of C: it has no other
 * memory, keeps nothing, and calls memmove, memset, and MACHINE_TRAP where the library does what it never should. Numbers
 * stand in memory as the library has them, the lowest byte first, on every processor.
 *
 * An address is the caller's own, and is not tested, as in a library that was compiled for the processor. With
 * MACHINE_IS_TESTED the high 32 bits of an address are the number of a part, and the low 32 bits the place in it. Part 0
 * has no bytes, part 1 is the library's stack, part 2 its constants, and each other one is what the caller handed over,
 * where it lies. Each access is tested to be within its part, and each write whether the part may be written to.
 */
#include <stddef.h>
#include <stdint.h>
#include <string.h>

#ifndef MACHINE_TRAP
#include <stdlib.h>
#define MACHINE_TRAP() abort()
#endif

typedef uint8_t u8;
typedef uint16_t u16;
typedef uint32_t u32;
typedef uint64_t u64;

#if defined(__GNUC__)
#define NEVER(x) __builtin_expect(!!(x), 0)
#define OWN static inline __attribute__((unused))
#else
#define NEVER(x) (x)
#define OWN static inline
#endif

#if defined(__cplusplus)
#define ALIGNED(bytes) alignas(bytes)
#elif defined(__STDC_VERSION__) && __STDC_VERSION__ >= 201112L
#define ALIGNED(bytes) _Alignas(bytes)
#elif defined(__GNUC__)
#define ALIGNED(bytes) __attribute__((aligned(bytes)))
#elif defined(_MSC_VER)
#define ALIGNED(bytes) __declspec(align(bytes))
#else
#define ALIGNED(bytes)
#endif

/* The constants of the library, aligned as its addresses expect, by the number where a compiler knows no other way: start
 * tests it. */
ALIGNED(16) static const union {
    u8 at[CONSTANTS_SIZE];
    u64 number;
} constants = {{
    255, 255, 255, 255, 255, 255, 255, 255, 255, 255, 255, 255, 255, 255, 255, 255, 255, 255, 255, 255, 255, 255, 255, 255,
    255, 255, 255, 255, 255, 255, 255, 255, 255, 255, 255, 255, 255, 255, 255, 255, 255, 255, 255, 255, 255, 255, 255, 255,
    15, 255, 10, 17, 21, 20, 26, 30, 7, 5, 255, 255, 255, 255, 255, 255, 255, 29, 255, 24, 13, 25, 9, 8,
    23, 255, 18, 22, 31, 27, 19, 255, 1, 0, 3, 16, 11, 28, 12, 14, 6, 4, 2, 255, 255, 255, 255, 255,
    255, 29, 255, 24, 13, 25, 9, 8, 23, 255, 18, 22, 31, 27, 19, 255, 1, 0, 3, 16, 11, 28, 12, 14,
    6, 4, 2, 255, 255, 255, 255, 255, 0, 0, 0, 0, 178, 87, 106, 59, 109, 142, 80, 38, 223, 217, 58, 29,
    250, 25, 161, 30, 72, 78, 203, 37, 151, 151, 241, 56, 37, 192, 155, 3, 221, 51, 66, 61, 111, 100, 40, 6,
    176, 189, 18, 27, 2, 234, 120, 32, 39, 42, 227, 35, 149, 125, 137, 24, 74, 164, 179, 5, 248, 243, 217, 62,
    179, 98, 20, 42, 1, 53, 126, 17, 222, 236, 68, 12, 108, 187, 46, 55, 73, 123, 181, 52, 251, 44, 223, 15,
    36, 245, 229, 18, 150, 162, 143, 41, 110, 81, 86, 23, 220, 6, 60, 44, 3, 223, 6, 49, 177, 136, 108, 10,
    148, 72, 247, 9, 38, 31, 157, 50, 249, 198, 167, 47, 75, 145, 205, 20, 0, 0, 1, 14, 2, 28, 15, 22,
    3, 5, 29, 26, 16, 7, 23, 11, 4, 25, 6, 10, 30, 13, 27, 21, 17, 18, 8, 19, 24, 9, 12, 20,
    1, 2, 4, 8, 16, 9, 18, 13, 26, 29, 19, 15, 30, 21, 3, 6, 12, 24, 25, 27, 31, 23, 7, 14,
    28, 17, 11, 22, 5, 10, 20, 0, 113, 0, 0, 0, 112, 0, 0, 0, 122, 0, 0, 0, 114, 0, 0, 0,
    121, 0, 0, 0, 57, 0, 0, 0, 120, 0, 0, 0, 56, 0, 0, 0, 103, 0, 0, 0, 102, 0, 0, 0,
    50, 0, 0, 0, 116, 0, 0, 0, 118, 0, 0, 0, 100, 0, 0, 0, 119, 0, 0, 0, 48, 0, 0, 0,
    115, 0, 0, 0, 51, 0, 0, 0, 106, 0, 0, 0, 110, 0, 0, 0, 53, 0, 0, 0, 52, 0, 0, 0,
    107, 0, 0, 0, 104, 0, 0, 0, 99, 0, 0, 0, 101, 0, 0, 0, 54, 0, 0, 0, 109, 0, 0, 0,
    117, 0, 0, 0, 97, 0, 0, 0, 55, 0, 0, 0, 108, 0, 0, 0, 116, 104, 101, 32, 114, 111, 119, 32,
    105, 115, 32, 110, 117, 108, 108, 116, 104, 101, 32, 110, 117, 109, 98, 101, 114, 32, 111, 102, 32, 110, 111, 32,
    99, 104, 101, 99, 107, 115, 117, 109, 44, 32, 97, 110, 32, 101, 108, 101, 109, 101, 110, 116, 32, 97, 98, 111,
    118, 101, 32, 51, 49, 44, 32, 116, 111, 111, 32, 109, 97, 110, 121, 32, 101, 114, 114, 111, 114, 115, 44, 32,
    111, 114, 32, 110, 111, 32, 115, 117, 99, 104, 32, 114, 111, 119, 115, 116, 104, 101, 32, 116, 101, 120, 116, 32,
    104, 97, 115, 32, 109, 111, 114, 101, 32, 116, 104, 97, 110, 32, 49, 48, 50, 51, 32, 99, 104, 97, 114, 97,
    99, 116, 101, 114, 115, 32, 40, 55, 48, 56, 57, 32, 98, 121, 32, 97, 32, 108, 111, 110, 103, 32, 99, 104,
    101, 99, 107, 115, 117, 109, 41, 116, 111, 111, 32, 102, 101, 119, 32, 99, 104, 97, 114, 97, 99, 116, 101, 114,
    115, 32, 102, 111, 114, 32, 97, 32, 99, 104, 101, 99, 107, 115, 117, 109, 32, 115, 116, 97, 110, 100, 32, 98,
    101, 104, 105, 110, 100, 32, 116, 104, 101, 32, 115, 101, 112, 97, 114, 97, 116, 111, 114, 110, 111, 32, 99, 111,
    114, 114, 101, 99, 116, 105, 111, 110, 32, 111, 102, 32, 116, 104, 101, 32, 100, 97, 116, 97, 32, 112, 97, 114,
    116, 32, 109, 101, 110, 100, 115, 32, 116, 104, 101, 32, 116, 101, 120, 116, 116, 104, 101, 32, 116, 101, 120, 116,
    32, 104, 97, 115, 32, 109, 111, 114, 101, 32, 116, 104, 97, 110, 32, 57, 48, 32, 99, 104, 97, 114, 97, 99,
    116, 101, 114, 115, 116, 104, 101, 32, 97, 100, 100, 114, 101, 115, 115, 32, 104, 97, 115, 32, 110, 111, 32, 119,
    105, 116, 110, 101, 115, 115, 32, 118, 101, 114, 115, 105, 111, 110, 105, 116, 115, 32, 119, 105, 116, 110, 101, 115,
    115, 32, 118, 101, 114, 115, 105, 111, 110, 32, 105, 115, 32, 97, 98, 111, 118, 101, 32, 49, 54, 109, 111, 114,
    101, 32, 116, 104, 97, 110, 32, 102, 111, 117, 114, 32, 98, 105, 116, 115, 32, 115, 116, 97, 110, 100, 32, 98,
    101, 104, 105, 110, 100, 32, 116, 104, 101, 32, 108, 97, 115, 116, 32, 119, 104, 111, 108, 101, 32, 98, 121, 116,
    101, 116, 104, 101, 32, 98, 105, 116, 115, 32, 98, 101, 104, 105, 110, 100, 32, 116, 104, 101, 32, 108, 97, 115,
    116, 32, 119, 104, 111, 108, 101, 32, 98, 121, 116, 101, 32, 97, 114, 101, 32, 110, 111, 116, 32, 97, 108, 108,
    32, 122, 101, 114, 111, 116, 104, 101, 32, 112, 114, 111, 103, 114, 97, 109, 32, 104, 97, 115, 32, 108, 101, 115,
    115, 32, 116, 104, 97, 110, 32, 50, 32, 98, 121, 116, 101, 115, 116, 104, 101, 32, 112, 114, 111, 103, 114, 97,
    109, 32, 104, 97, 115, 32, 109, 111, 114, 101, 32, 116, 104, 97, 110, 32, 52, 48, 32, 98, 121, 116, 101, 115,
    105, 110, 32, 118, 101, 114, 115, 105, 111, 110, 32, 48, 32, 116, 104, 101, 32, 112, 114, 111, 103, 114, 97, 109,
    32, 104, 97, 115, 32, 110, 101, 105, 116, 104, 101, 114, 32, 50, 48, 32, 110, 111, 114, 32, 51, 50, 32, 98,
    121, 116, 101, 115, 116, 104, 101, 32, 97, 100, 100, 114, 101, 115, 115, 32, 104, 97, 115, 32, 97, 110, 111, 116,
    104, 101, 114, 32, 104, 117, 109, 97, 110, 45, 114, 101, 97, 100, 97, 98, 108, 101, 32, 112, 97, 114, 116, 32,
    116, 104, 97, 110, 32, 105, 115, 32, 119, 97, 110, 116, 101, 100, 116, 104, 101, 32, 116, 101, 120, 116, 32, 119,
    111, 117, 108, 100, 32, 104, 97, 118, 101, 32, 109, 111, 114, 101, 32, 116, 104, 97, 110, 32, 49, 48, 50, 51,
    32, 99, 104, 97, 114, 97, 99, 116, 101, 114, 115, 32, 40, 55, 48, 56, 57, 32, 98, 121, 32, 97, 32, 108,
    111, 110, 103, 32, 99, 104, 101, 99, 107, 115, 117, 109, 41, 116, 104, 101, 32, 119, 105, 116, 110, 101, 115, 115,
    32, 118, 101, 114, 115, 105, 111, 110, 32, 105, 115, 32, 97, 98, 111, 118, 101, 32, 49, 54, 116, 104, 101, 32,
    97, 100, 100, 114, 101, 115, 115, 32, 119, 111, 117, 108, 100, 32, 104, 97, 118, 101, 32, 109, 111, 114, 101, 32,
    116, 104, 97, 110, 32, 57, 48, 32, 99, 104, 97, 114, 97, 99, 116, 101, 114, 115, 97, 110, 32, 101, 108, 101,
    109, 101, 110, 116, 32, 105, 115, 32, 97, 98, 111, 118, 101, 32, 51, 49, 97, 32, 99, 111, 110, 102, 105, 100,
    101, 110, 116, 105, 97, 108, 32, 97, 100, 100, 114, 101, 115, 115, 32, 111, 102, 32, 97, 110, 111, 116, 104, 101,
    114, 32, 119, 105, 116, 110, 101, 115, 115, 32, 118, 101, 114, 115, 105, 111, 110, 32, 116, 104, 97, 110, 32, 48,
    32, 105, 115, 32, 110, 111, 116, 32, 115, 117, 112, 112, 111, 114, 116, 101, 100, 97, 32, 99, 111, 110, 102, 105,
    100, 101, 110, 116, 105, 97, 108, 32, 97, 100, 100, 114, 101, 115, 115, 32, 104, 97, 115, 32, 108, 101, 115, 115,
    32, 116, 104, 97, 110, 32, 51, 51, 32, 98, 121, 116, 101, 115, 32, 98, 101, 104, 105, 110, 100, 32, 105, 116,
    115, 32, 118, 101, 114, 115, 105, 111, 110, 97, 32, 99, 104, 97, 114, 97, 99, 116, 101, 114, 32, 109, 97, 121,
    32, 110, 111, 116, 32, 115, 116, 97, 110, 100, 32, 105, 110, 32, 97, 32, 100, 101, 115, 99, 114, 105, 112, 116,
    111, 114, 44, 32, 111, 114, 32, 110, 111, 116, 32, 105, 110, 32, 105, 116, 115, 32, 99, 104, 101, 99, 107, 115,
    117, 109, 116, 104, 101, 32, 116, 101, 120, 116, 32, 100, 111, 101, 115, 32, 110, 111, 116, 32, 101, 110, 100, 32,
    105, 110, 32, 96, 35, 96, 32, 97, 110, 100, 32, 101, 105, 103, 104, 116, 32, 99, 104, 97, 114, 97, 99, 116,
    101, 114, 115, 116, 104, 101, 32, 116, 101, 120, 116, 32, 104, 97, 115, 32, 109, 111, 114, 101, 32, 116, 104, 97,
    110, 32, 55, 53, 48, 48, 32, 99, 104, 97, 114, 97, 99, 116, 101, 114, 115, 32, 40, 49, 52, 48, 48, 32,
    102, 111, 114, 32, 116, 119, 111, 32, 99, 104, 97, 110, 103, 101, 115, 41, 44, 32, 116, 111, 111, 32, 109, 97,
    110, 121, 32, 116, 111, 32, 98, 101, 32, 109, 101, 110, 100, 101, 100, 97, 32, 116, 101, 120, 116, 32, 111, 114,
    32, 97, 32, 104, 117, 109, 97, 110, 45, 114, 101, 97, 100, 97, 98, 108, 101, 32, 112, 97, 114, 116, 32, 105,
    115, 32, 110, 111, 116, 32, 85, 84, 70, 45, 56, 116, 104, 101, 32, 104, 117, 109, 97, 110, 45, 114, 101, 97,
    100, 97, 98, 108, 101, 32, 112, 97, 114, 116, 32, 105, 115, 32, 101, 109, 112, 116, 121, 116, 104, 101, 32, 104,
    117, 109, 97, 110, 45, 114, 101, 97, 100, 97, 98, 108, 101, 32, 112, 97, 114, 116, 32, 104, 97, 115, 32, 109,
    111, 114, 101, 32, 116, 104, 97, 110, 32, 56, 51, 32, 98, 121, 116, 101, 115, 116, 104, 101, 32, 104, 117, 109,
    97, 110, 45, 114, 101, 97, 100, 97, 98, 108, 101, 32, 112, 97, 114, 116, 32, 104, 97, 115, 32, 97, 32, 99,
    104, 97, 114, 97, 99, 116, 101, 114, 32, 116, 104, 97, 116, 32, 105, 115, 32, 110, 111, 116, 32, 65, 83, 67,
    73, 73, 116, 104, 101, 32, 104, 117, 109, 97, 110, 45, 114, 101, 97, 100, 97, 98, 108, 101, 32, 112, 97, 114,
    116, 32, 104, 97, 115, 32, 97, 32, 98, 121, 116, 101, 32, 116, 104, 97, 116, 32, 105, 115, 32, 110, 111, 116,
    32, 102, 114, 111, 109, 32, 51, 51, 32, 116, 111, 32, 49, 50, 54, 116, 104, 101, 32, 104, 117, 109, 97, 110,
    45, 114, 101, 97, 100, 97, 98, 108, 101, 32, 112, 97, 114, 116, 32, 104, 97, 115, 32, 108, 101, 116, 116, 101,
    114, 115, 32, 111, 102, 32, 98, 111, 116, 104, 32, 99, 97, 115, 101, 115, 97, 32, 99, 104, 97, 114, 97, 99,
    116, 101, 114, 32, 98, 101, 104, 105, 110, 100, 32, 116, 104, 101, 32, 115, 101, 112, 97, 114, 97, 116, 111, 114,
    32, 109, 97, 121, 32, 110, 111, 116, 32, 115, 116, 97, 110, 100, 32, 116, 104, 101, 114, 101, 116, 104, 101, 32,
    116, 101, 120, 116, 32, 104, 97, 115, 32, 108, 101, 116, 116, 101, 114, 115, 32, 111, 102, 32, 98, 111, 116, 104,
    32, 99, 97, 115, 101, 115, 116, 104, 101, 32, 116, 101, 120, 116, 32, 104, 97, 115, 32, 110, 111, 32, 115, 101,
    112, 97, 114, 97, 116, 111, 114, 44, 32, 96, 49, 96, 116, 104, 101, 32, 99, 104, 101, 99, 107, 115, 117, 109,
    32, 105, 115, 32, 119, 114, 111, 110, 103, 116, 104, 101, 32, 108, 101, 110, 116, 32, 109, 101, 109, 111, 114, 121,
    32, 100, 105, 100, 32, 110, 111, 116, 32, 115, 117, 102, 102, 105, 99, 101, 97, 32, 98, 117, 102, 102, 101, 114,
    32, 105, 115, 32, 116, 111, 111, 32, 115, 109, 97, 108, 108, 0, 0, 0, 12, 0, 0, 0, 11, 0, 0, 0,
    13, 0, 0, 0, 14, 0, 0, 0, 15, 0, 0, 0, 16, 0, 0, 0, 31, 0, 0, 0, 33, 0, 0, 0,
    32, 0, 0, 0,
}};

#ifdef MACHINE_IS_TESTED
#define PARTS 12u

typedef struct {
    u8 *at;
    size_t readable; /* as many bytes */
    size_t writable; /* as many, or none */
} Part;
#endif

typedef struct {
    u64 stack_pointer;
    u64 stack_low; /* below this it may not go */
#ifdef MACHINE_IS_TESTED
    u32 count; /* of the parts that are there */
    Part parts[PARTS];
#endif
} Machine;

OWN void trap(void) {
    for (;;) {
        MACHINE_TRAP();
    }
}

/* A number of bytes, where the processor's memory may have as many. */
OWN size_t size_of(u64 size) {
    if (NEVER(size > SIZE_MAX)) {
        trap();
    }
    return (size_t)size;
}

/* ---- where the bytes of an address lie */

#ifdef MACHINE_IS_TESTED

#define PLACE(place) (((u64)2 << 32) + (u64)(place))

OWN const u8 *readable(const Machine *m, u64 address, size_t size) {
    u32 part = (u32)(address >> 32), from = (u32)address;
    if (NEVER(part >= m->count || from > m->parts[part].readable || size > m->parts[part].readable - from)) {
        trap();
    }
    return m->parts[part].at + from;
}

OWN u8 *writable(const Machine *m, u64 address, size_t size) {
    u32 part = (u32)(address >> 32), from = (u32)address;
    if (NEVER(part >= m->count || from > m->parts[part].writable || size > m->parts[part].writable - from)) {
        trap();
    }
    return m->parts[part].at + from;
}

#else

#define PLACE(place) ((u64)(uintptr_t)constants.at + (u64)(place))

OWN const u8 *readable(const Machine *m, u64 address, size_t size) {
    (void)m;
    (void)size;
    return (const u8 *)(uintptr_t)address;
}

OWN u8 *writable(const Machine *m, u64 address, size_t size) {
    (void)m;
    (void)size;
    return (u8 *)(uintptr_t)address;
}

#endif

/* ---- numbers in memory, by bytes */

OWN u32 get_16(const u8 *p) {
    return p[0] | (u32)p[1] << 8;
}

OWN u32 get_32(const u8 *p) {
    return p[0] | (u32)p[1] << 8 | (u32)p[2] << 16 | (u32)p[3] << 24;
}

OWN u64 get_64(const u8 *p) {
    return p[0] | (u64)p[1] << 8 | (u64)p[2] << 16 | (u64)p[3] << 24 | (u64)p[4] << 32 | (u64)p[5] << 40 |
           (u64)p[6] << 48 | (u64)p[7] << 56;
}

OWN void put_16(u8 *p, u32 x) {
    p[0] = (u8)(x & 255);
    p[1] = (u8)(x >> 8 & 255);
}

OWN void put_32(u8 *p, u32 x) {
    p[0] = (u8)(x & 255);
    p[1] = (u8)(x >> 8 & 255);
    p[2] = (u8)(x >> 16 & 255);
    p[3] = (u8)(x >> 24 & 255);
}

OWN void put_64(u8 *p, u64 x) {
    p[0] = (u8)(x & 255);
    p[1] = (u8)(x >> 8 & 255);
    p[2] = (u8)(x >> 16 & 255);
    p[3] = (u8)(x >> 24 & 255);
    p[4] = (u8)(x >> 32 & 255);
    p[5] = (u8)(x >> 40 & 255);
    p[6] = (u8)(x >> 48 & 255);
    p[7] = (u8)(x >> 56 & 255);
}

/* ---- the instructions that C has no sign for, by the names that translator/translate gives them. A number is held without
 * a sign; where an instruction reads it with one, that is worked out on numbers without. */

/* In the order of numbers with a sign. */
#define SIGNED_32(x) ((u32)(x) ^ (u32)0x80000000u)
#define SIGNED_64(x) ((u64)(x) ^ (u64)1 << 63)

OWN u32 I32_EXTEND8_S(u32 x) {
    return (u32)(((x & 0xffu) ^ 0x80u) - 0x80u);
}

OWN u32 I32_EXTEND16_S(u32 x) {
    return (u32)(((x & 0xffffu) ^ 0x8000u) - 0x8000u);
}

OWN u64 I64_EXTEND8_S(u64 x) {
    return ((x & 0xffu) ^ 0x80u) - 0x80u;
}

OWN u64 I64_EXTEND16_S(u64 x) {
    return ((x & 0xffffu) ^ 0x8000u) - 0x8000u;
}

OWN u64 I64_EXTEND32_S(u64 x) {
    return ((x & 0xffffffffu) ^ 0x80000000u) - 0x80000000u;
}

OWN u64 I64_EXTEND_I32_S(u32 x) {
    return I64_EXTEND32_S(x);
}

OWN u32 I32_SHR_S(u32 x, u32 y) {
    u32 sign = (u32)(0u - (x >> 31));
    return (u32)((x ^ sign) >> (y & 31) ^ sign);
}

OWN u64 I64_SHR_S(u64 x, u64 y) {
    u64 sign = 0u - (x >> 63);
    return (x ^ sign) >> (y & 63) ^ sign;
}

OWN u32 I32_MUL(u32 x, u32 y) {
    return (u32)(1u * x * y);
}

OWN u32 I32_DIV_U(u32 x, u32 y) {
    if (NEVER(y == 0)) {
        trap();
    }
    return x / y;
}

OWN u32 I32_REM_U(u32 x, u32 y) {
    if (NEVER(y == 0)) {
        trap();
    }
    return x % y;
}

OWN u64 I64_DIV_U(u64 x, u64 y) {
    if (NEVER(y == 0)) {
        trap();
    }
    return x / y;
}

OWN u64 I64_REM_U(u64 x, u64 y) {
    if (NEVER(y == 0)) {
        trap();
    }
    return x % y;
}

OWN u32 I32_ROTL(u32 x, u32 y) {
    return (u32)(x << (y & 31) | x >> ((32 - (y & 31)) & 31));
}

OWN u32 I32_ROTR(u32 x, u32 y) {
    return (u32)(x >> (y & 31) | x << ((32 - (y & 31)) & 31));
}

OWN u64 I64_ROTL(u64 x, u64 y) {
    return x << (y & 63) | x >> ((64 - (y & 63)) & 63);
}

OWN u64 I64_ROTR(u64 x, u64 y) {
    return x >> (y & 63) | x << ((64 - (y & 63)) & 63);
}

OWN u64 I64_CTZ(u64 x) {
#if defined(__GNUC__)
    return x ? (u64)__builtin_ctzll(x) : 64;
#else
    u64 n = 0;
    while (n < 64 && !(x >> n & 1)) {
        n++;
    }
    return n;
#endif
}

OWN u64 I64_CLZ(u64 x) {
#if defined(__GNUC__)
    return x ? (u64)__builtin_clzll(x) : 64;
#else
    u64 n = 0;
    while (n < 64 && !(x >> (63 - n) & 1)) {
        n++;
    }
    return n;
#endif
}

OWN u64 I64_POPCNT(u64 x) {
    u64 n = 0;
    for (; x; x &= x - 1) {
        n++;
    }
    return n;
}

OWN u32 I32_CTZ(u32 x) {
    return (u32)I64_CTZ(x | (u64)1 << 32);
}

OWN u32 I32_CLZ(u32 x) {
    return (u32)(I64_CLZ(x) - 32);
}

OWN u32 I32_POPCNT(u32 x) {
    return (u32)I64_POPCNT(x);
}

#define LOAD(name, type, size, value)                \
    OWN type name(const Machine *m, u64 address) {   \
        const u8 *p = readable(m, address, size);    \
        return (value);                              \
    }

LOAD(I32_LOAD8_U, u32, 1, p[0])
LOAD(I64_LOAD8_U, u64, 1, p[0])
LOAD(I32_LOAD8_S, u32, 1, I32_EXTEND8_S(p[0]))
LOAD(I64_LOAD8_S, u64, 1, I64_EXTEND8_S(p[0]))
LOAD(I32_LOAD16_U, u32, 2, get_16(p))
LOAD(I64_LOAD16_U, u64, 2, get_16(p))
LOAD(I32_LOAD16_S, u32, 2, I32_EXTEND16_S(get_16(p)))
LOAD(I64_LOAD16_S, u64, 2, I64_EXTEND16_S(get_16(p)))
LOAD(I32_LOAD, u32, 4, get_32(p))
LOAD(I64_LOAD32_U, u64, 4, get_32(p))
LOAD(I64_LOAD32_S, u64, 4, I64_EXTEND32_S(get_32(p)))
LOAD(I64_LOAD, u64, 8, get_64(p))

#define STORE(name, type, size, put)                   \
    OWN void name(const Machine *m, u64 address, type x) { \
        u8 *p = writable(m, address, size);            \
        put;                                           \
    }

STORE(I32_STORE8, u32, 1, p[0] = (u8)(x & 255))
STORE(I64_STORE8, u64, 1, p[0] = (u8)(x & 255))
STORE(I32_STORE16, u32, 2, put_16(p, x))
STORE(I64_STORE16, u64, 2, put_16(p, (u32)(x & 0xffffu)))
STORE(I32_STORE, u32, 4, put_32(p, x))
STORE(I64_STORE32, u64, 4, put_32(p, (u32)(x & 0xffffffffu)))
STORE(I64_STORE, u64, 8, put_64(p, x))

OWN void MEMORY_COPY(const Machine *m, u64 to, u64 from, u64 size) {
    if (size > 0) {
        memmove(writable(m, to, size_of(size)), readable(m, from, size_of(size)), (size_t)size);
    }
}

OWN void MEMORY_FILL(const Machine *m, u64 to, u32 byte, u64 size) {
    if (size > 0) {
        memset(writable(m, to, size_of(size)), (int)(byte & 255), (size_t)size);
    }
}

/* What a function of the library begins with: this many bytes of the stack are there. */
#define FRAME(m, size)                                             \
    do {                                                           \
        if (NEVER((m)->stack_pointer - (m)->stack_low < (size))) { \
            trap();                                                \
        }                                                          \
    } while (0)

/* ---- what a link would add */

/* Whether a call is under way in this machine: never, since each call makes its own. */
OWN u32 ENTER(Machine *m) {
    (void)m;
    return 0;
}

OWN void LEAVE(Machine *m) {
    (void)m;
}

OWN void TRAP(Machine *m) {
    (void)m;
    trap();
}

/* The product of two numbers of 128 bits, each as its low and its high half, is put at an address. */
OWN void MULTIPLY_128(Machine *m, u64 to, u64 a, u64 a_high, u64 b, u64 b_high) {
    u64 a_0 = a & 0xffffffffu, a_1 = a >> 32, b_0 = b & 0xffffffffu, b_1 = b >> 32;
    u64 low = a_0 * b_0, middle = a_1 * b_0 + (low >> 32), other = a_0 * b_1 + (middle & 0xffffffffu);
    I64_STORE(m, to, other << 32 | (low & 0xffffffffu));
    I64_STORE(m, to + 8, a_1 * b_1 + (middle >> 32) + (other >> 32) + a * b_high + a_high * b);
}

/* A number of 128 bits, its low half and its high one, by a number of bits to the right, below 128, is put at an address. */
OWN void SHIFT_RIGHT_128(Machine *m, u64 to, u64 low, u64 high, u32 by) {
    u64 next = by & 64 ? 0 : high;
    low = by & 64 ? high : low;
    by &= 63;
    I64_STORE(m, to, low >> by | (by == 0 ? 0 : next << (64 - by)));
    I64_STORE(m, to + 8, next >> by);
}

/* ---- what the calls make a machine of */

#ifdef MACHINE_IS_TESTED

OWN u64 part(Machine *m, u8 *at, size_t readable, size_t writable) {
    if (NEVER(m->count == PARTS)) {
        trap();
    }
    m->parts[m->count].at = at;
    m->parts[m->count].readable = readable;
    m->parts[m->count].writable = writable;
    return (u64)m->count++ << 32;
}

/* The address that bytes have in the machine, where they may only be read. */
OWN u64 lend(Machine *m, const u8 *at, u64 size) {
    return part(m, (u8 *)at, size_of(size), 0);
}

/* The address that bytes have in the machine, where they may be written. */
OWN u64 lend_room(Machine *m, u8 *at, u64 size) {
    return part(m, at, size_of(size), size_of(size));
}

OWN void start(Machine *m, u8 *stack, size_t size) {
    m->count = 0;
    lend(m, stack, 0);
    m->stack_low = lend_room(m, stack, size);
    m->stack_pointer = m->stack_low + size;
    lend(m, constants.at, CONSTANTS_SIZE);
}

/* A part has less than 2^32 bytes. What is longer, and is not read to its end in any case, is handed over in part. */
#define IS_TOO_LONG(size) ((u64)(size) >> 32 != 0)
#define MOST ((u64)1 << 28)
#define SOME(size) ((u64)(size) < MOST ? (u64)(size) : MOST)

#else

OWN u64 lend(Machine *m, const u8 *at, u64 size) {
    (void)m;
    (void)size;
    return (u64)(uintptr_t)at;
}

OWN u64 lend_room(Machine *m, u8 *at, u64 size) {
    return lend(m, at, size);
}

/* The library's stack begins at a multiple of 16. */
OWN void start(Machine *m, u8 *stack, size_t size) {
    u64 low = (u64)(uintptr_t)stack;
    m->stack_low = low + (0u - low) % 16;
    m->stack_pointer = m->stack_low + size;
    if (NEVER((uintptr_t)constants.at % MACHINE_ALIGN != 0)) {
        trap();
    }
}

#define IS_TOO_LONG(size) 0
#define SOME(size) ((u64)(size))

#endif

/* A new machine, with as much stack as a function takes. */
#define MACHINE(function)                          \
    Machine m;                                     \
    ALIGNED(16) u8 stack[stack_##function + 15u];  \
    start(&m, stack, stack_##function)

/* Numbers of eight bytes each, in the library's order: those that a function is given, and those that it writes. */
#define GIVEN(count)                     \
    ALIGNED(16) u64 given_words[count];  \
    u8 *const given = (u8 *)given_words

#define NUMBERS(count)                           \
    ALIGNED(16) u64 number_words[count] = {0};   \
    u8 *const numbers = (u8 *)number_words

/* The functions of the library. */

static void f3(Machine *m, u64 l0, u32 l1, u64 l2, u64 l3);
static void f4(Machine *m, u64 l0, u32 l1, u64 l2, u64 l3, u64 l4);
static void f5(Machine *m, u64 l0, u64 l1, u64 l2);
static void f6(Machine *m, u64 l0, u64 l1, u64 l2);
static void f7(Machine *m, u64 l0, u64 l1, u64 l2);
static u32 f8(Machine *m, u64 l0, u64 l1, u64 l2, u64 l3);
static u64 f9(Machine *m, u64 l0, u64 l1, u64 l2);
static void f10(Machine *m, u64 l0, u32 l1, u64 l2, u32 l3, u64 l4, u64 l5);
static void f11(Machine *m, u64 l0, u64 l1, u64 l2, u64 l3);
static void f12(Machine *m, u64 l0, u32 l1, u64 l2, u64 l3);
static void f13(Machine *m, u64 l0, u32 l1, u64 l2, u64 l3);
static void f14(Machine *m, u64 l0, u32 l1, u64 l2, u64 l3);
static void f15(Machine *m, u64 l0, u32 l1, u64 l2, u64 l3, u64 l4);
static u32 f16(Machine *m, u32 l0);
static u32 f17(Machine *m, u64 l0);
static u32 f18(Machine *m, u32 l0, u32 l1);
static void f19(Machine *m, u64 l0, u64 l1, u64 l2, u64 l3);
static void f20(Machine *m, u64 l0, u64 l1, u64 l2, u64 l3, u64 l4, u64 l5, u64 l6, u64 l7, u64 l8);
static u64 f21(Machine *m, u64 l0, u64 l1, u64 l2, u64 l3);
static void f22(Machine *m, u64 l0, u32 l1, u64 l2, u64 l3, u64 l4, u64 l5, u64 l6, u64 l7, u64 l8);
static void f23(Machine *m, u64 l0, u64 l1, u64 l2);
static u64 f24(Machine *m, u32 l0, u64 l1, u64 l2, u32 l3, u32 l4, u64 l5, u64 l6, u64 l7, u64 l8);
static u32 f25(Machine *m, u64 l0, u64 l1);
static void f26(Machine *m, u64 l0, u64 l1, u32 l2);
static u32 of_bech32_check(Machine *m, u32 l0, u64 l1, u64 l2, u64 l3, u64 l4);
static u32 f28(Machine *m, u32 l0, u64 l1, u64 l2, u64 l3, u64 l4);
static u32 of_bech32_correct(Machine *m, u32 l0, u64 l1, u64 l2, u64 l3, u64 l4, u64 l5, u64 l6, u64 l7, u64 l8, u64 l9, u64 l10, u64 l11, u64 l12);
static u32 f30(Machine *m, u32 l0, u64 l1, u64 l2, u64 l3, u64 l4, u64 l5, u64 l6, u64 l7, u64 l8, u64 l9, u64 l10, u64 l11, u64 l12);
static u32 of_bech32_decode(Machine *m, u64 l0, u64 l1, u64 l2, u64 l3, u64 l4, u64 l5, u64 l6, u64 l7);
static u32 f32(Machine *m, u64 l0, u64 l1, u64 l2, u64 l3, u64 l4, u64 l5, u64 l6, u64 l7);
static u32 of_bech32_encode(Machine *m, u32 l0, u64 l1, u64 l2, u64 l3, u64 l4, u64 l5, u64 l6, u64 l7);
static u32 f34(Machine *m, u32 l0, u64 l1, u64 l2, u64 l3, u64 l4, u64 l5, u64 l6, u64 l7);
static u32 of_bech32_fault(Machine *m, u32 l0, u64 l1, u64 l2, u64 l3);
static u32 f36(Machine *m, u32 l0, u64 l1, u64 l2, u64 l3);
static u32 of_bech32_message(Machine *m, u32 l0, u64 l1, u64 l2, u64 l3);
static u32 f38(Machine *m, u32 l0, u64 l1, u64 l2, u64 l3);
static u32 of_bech32_segwit_decode(Machine *m, u64 l0, u64 l1, u64 l2, u64 l3, u64 l4, u64 l5, u64 l6, u64 l7, u64 l8);
static u32 f40(Machine *m, u64 l0, u64 l1, u64 l2, u64 l3, u64 l4, u64 l5, u64 l6, u64 l7, u64 l8);
static u32 of_bech32_segwit_encode(Machine *m, u64 l0, u64 l1, u32 l2, u64 l3, u64 l4, u64 l5, u64 l6, u64 l7);
static u32 f42(Machine *m, u64 l0, u64 l1, u32 l2, u64 l3, u64 l4, u64 l5, u64 l6, u64 l7);
static u32 of_bech32_version(Machine *m);
static void f44(Machine *m);

/* bech32_small::decode::checked_by */
static void f3(Machine *m, u64 l0, u32 l1, u64 l2, u64 l3) {
    u32 w0;
    u64 l4 = 0, t0, t1;
    FRAME(m, 32u);
    t0 = m->stack_pointer;
    t0 = t0 - 32ull;
    l4 = t0;
    m->stack_pointer = l4;
    I64_STORE(m, l4 + 24u, 0ull);
    I64_STORE(m, l4 + 16u, 0ull);
    I64_STORE(m, l4 + 8u, 0ull);
    w0 = l1 + 4294967295u;
    switch (w0) {
    case 0: goto L6;
    case 1: goto L5;
    case 2: goto L4;
    case 3: goto L3;
    default: goto L2;
    }
    L6:;
    t0 = l4 + 8ull;
    f4(m, t0, 1u, 1023ull, l2, l3);
    goto L1;
    L5:;
    t0 = l4 + 8ull;
    f4(m, t0, 734539939u, 1023ull, l2, l3);
    goto L1;
    L4:;
    t0 = l4 + 8ull;
    f4(m, t0, 1u, 7089ull, l2, l3);
    goto L1;
    L3:;
    t0 = l4 + 8ull;
    f4(m, t0, 734539939u, 7089ull, l2, l3);
    goto L1;
    L2:;
    I64_STORE(m, l4 + 8u, 17179869185ull);
    L1:;
    w0 = I32_LOAD8_U(m, l4 + 8u);
    I32_STORE(m, l0, w0);
    t0 = l0 + 4ull;
    w0 = I32_LOAD(m, l4 + 12u);
    I32_STORE(m, t0, w0);
    t0 = l0 + 8ull;
    t1 = I64_LOAD(m, l4 + 16u);
    I64_STORE(m, t0, t1);
    t0 = l0 + 16ull;
    t1 = I64_LOAD(m, l4 + 24u);
    I64_STORE(m, t0, t1);
    t0 = l4 + 32ull;
    m->stack_pointer = t0;
    return;
    TRAP(m);
    return;
}

/* bech32_small::decode::checked */
static void f4(Machine *m, u64 l0, u32 l1, u64 l2, u64 l3, u64 l4) {
    u32 w0;
    u64 l5 = 0, t0, t1;
    FRAME(m, 64u);
    t0 = m->stack_pointer;
    t0 = t0 - 64ull;
    l5 = t0;
    m->stack_pointer = l5;
    I64_STORE(m, l5 + 56u, 0ull);
    I64_STORE(m, l5 + 48u, 0ull);
    I64_STORE(m, l5 + 40u, 0ull);
    I64_STORE(m, l5 + 32u, 0ull);
    I64_STORE(m, l5 + 24u, 0ull);
    I64_STORE(m, l5 + 16u, 0ull);
    I64_STORE(m, l5 + 8u, 0ull);
    I64_STORE(m, l5, 0ull);
    f5(m, l5, l3, l4);
    w0 = I32_LOAD8_U(m, l5);
    if (w0) goto L3;
    w0 = l2 >= l4;
    if (w0) goto L2;
    I64_STORE(m, l0, 133143986177ull);
    t0 = l0 + 8ull;
    I64_STORE(m, t0, 0ull);
    t0 = l0 + 16ull;
    I64_STORE(m, t0, 0ull);
    goto L0;
    L3:;
    I32_STORE(m, l0, 1u);
    t0 = l0 + 8ull;
    I64_STORE(m, t0, 0ull);
    t0 = l0 + 4ull;
    w0 = I32_LOAD(m, l5 + 4u);
    I32_STORE(m, t0, w0);
    t0 = l0 + 16ull;
    I64_STORE(m, t0, 0ull);
    goto L0;
    L2:;
    t0 = I64_LOAD(m, l5 + 48u);
    l4 = t0;
    w0 = l4 > 5ull;
    if (w0) goto L4;
    I64_STORE(m, l0, 137438953473ull);
    t0 = l0 + 8ull;
    I64_STORE(m, t0, 0ull);
    t0 = l0 + 16ull;
    I64_STORE(m, t0, 0ull);
    goto L0;
    L4:;
    w0 = I32_LOAD(m, l5 + 56u);
    w0 = w0 == l1;
    if (w0) goto L5;
    I64_STORE(m, l0, 141733920769ull);
    t0 = l0 + 8ull;
    I64_STORE(m, t0, 0ull);
    t0 = l0 + 16ull;
    I64_STORE(m, t0, 0ull);
    goto L0;
    L5:;
    t0 = I64_LOAD(m, l5 + 32u);
    l3 = t0;
    I64_STORE(m, l0, 0ull);
    t0 = l0 + 16ull;
    t1 = l4 + 18446744073709551610ull;
    I64_STORE(m, t0, t1);
    t0 = l0 + 8ull;
    I64_STORE(m, t0, l3);
    goto L0;
    TRAP(m);
    return;
    L0:;
    t0 = l5 + 64ull;
    m->stack_pointer = t0;
}

/* bech32_small::input::read */
static void f5(Machine *m, u64 l0, u64 l1, u64 l2) {
    u32 l8 = 0, l10 = 0, l11 = 0, l12 = 0, l13 = 0, l14 = 0, w0, w1, w2;
    u64 l3 = 0, l4 = 0, l5 = 0, l6 = 0, l7 = 0, l9 = 0, l15 = 0, l16 = 0, l17 = 0, t0;
    FRAME(m, 128u);
    t0 = m->stack_pointer;
    t0 = t0 - 128ull;
    l3 = t0;
    m->stack_pointer = l3;
    l4 = l3;
    l3 = 0ull;
    I64_STORE(m, l4 + 16u, 0ull);
    I64_STORE(m, l4 + 8u, 0ull);
    I64_STORE(m, l4, 0ull);
    f6(m, l4, l1, l2);
    w0 = I32_LOAD8_U(m, l4);
    w0 = w0 != 1u;
    if (w0) goto L12;
    t0 = I64_LOAD(m, l4 + 16u);
    l5 = t0;
    t0 = I64_LOAD(m, l4 + 8u);
    l6 = t0;
    l7 = l6;
    L13:;
    w0 = l5 == l3;
    l8 = w0;
    if (l8) goto L11;
    t0 = l3 + 1ull;
    l3 = t0;
    t0 = l7 + 18446744073709551615ull;
    l7 = t0;
    t0 = l7 + l5;
    l9 = t0;
    w0 = I32_LOAD8_U(m, l9);
    l10 = w0;
    w0 = l10 + 4294967248u;
    w0 = w0 & 255u;
    w0 = w0 > 9u;
    w1 = l10 & 223u;
    w1 = w1 + 4294967231u;
    w1 = w1 & 255u;
    w1 = w1 > 25u;
    w0 = w0 & w1;
    if (w0) goto L14;
    w0 = l10 | 32u;
    l11 = w0;
    w0 = l11 ^ 111u;
    l12 = w0;
    w0 = l11 ^ 105u;
    l13 = w0;
    w0 = l11 ^ 98u;
    l14 = w0;
    w0 = l11 ^ 49u;
    l11 = w0;
    w0 = l14 < l11;
    w0 = w0 ? l14 : l11;
    l11 = w0;
    w0 = l13 < l11;
    w0 = w0 ? l13 : l11;
    l11 = w0;
    w0 = l12 < l11;
    w0 = w0 ? l12 : l11;
    if (w0) goto L13;
    L14:;
    l11 = 0u;
    w0 = I32_EXTEND8_S(l10);
    l10 = w0;
    w0 = SIGNED_32(l10) < SIGNED_32(0u);
    if (w0) goto L16;
    t0 = l5 - l3;
    l15 = t0;
    goto L15;
    L16:;
    l15 = 18446744073709551614ull;
    t0 = l9 + 18446744073709551615ull;
    w0 = I32_LOAD8_U(m, t0);
    w0 = w0 > 191u;
    if (w0) goto L17;
    t0 = l9 + 18446744073709551614ull;
    w0 = I32_LOAD8_U(m, t0);
    w0 = w0 > 191u;
    t0 = w0 ? 18446744073709551613ull : 18446744073709551612ull;
    l15 = t0;
    L17:;
    t0 = l15 + l5;
    l9 = t0;
    t0 = l9 - l3;
    t0 = t0 + 1ull;
    l15 = t0;
    t0 = l7 + l9;
    l3 = t0;
    t0 = l3 + 1ull;
    w0 = I32_LOAD8_S(m, t0);
    l12 = w0;
    w0 = l12 & 255u;
    l10 = w0;
    w0 = SIGNED_32(l12) > SIGNED_32(4294967295u);
    if (w0) goto L15;
    t0 = l3 + 2ull;
    w0 = I32_LOAD8_U(m, t0);
    w0 = w0 & 63u;
    l13 = w0;
    w0 = l12 > 4294967263u;
    if (w0) goto L18;
    w0 = l10 << 6;
    w0 = w0 & 1984u;
    w0 = w0 | l13;
    l10 = w0;
    goto L15;
    L18:;
    t0 = l3 + 3ull;
    w0 = I32_LOAD8_U(m, t0);
    w0 = w0 & 63u;
    l14 = w0;
    w0 = l12 > 4294967279u;
    if (w0) goto L19;
    w0 = l13 << 6;
    w1 = l10 << 12;
    w1 = w1 & 61440u;
    w0 = w0 | w1;
    w0 = w0 | l14;
    l10 = w0;
    goto L15;
    L19:;
    w0 = l14 << 6;
    w1 = l13 << 12;
    w2 = l10 << 18;
    w2 = w2 & 1835008u;
    w1 = w1 | w2;
    w0 = w0 | w1;
    t0 = l3 + 4ull;
    w1 = I32_LOAD8_U(m, t0);
    w1 = w1 & 63u;
    w0 = w0 | w1;
    l10 = w0;
    L15:;
    w0 = l10 == 49u;
    if (w0) goto L20;
    l12 = 21u;
    goto L4;
    L20:;
    l16 = l6;
    w0 = l5 == 0;
    if (w0) goto L8;
    goto L9;
    L12:;
    I64_STORE(m, l0, 8589934593ull);
    t0 = l0 + 8ull;
    I64_STORE(m, t0, 0ull);
    t0 = l0 + 16ull;
    I64_STORE(m, t0, 0ull);
    t0 = l0 + 24ull;
    I64_STORE(m, t0, 0ull);
    t0 = l0 + 32ull;
    I64_STORE(m, t0, 0ull);
    t0 = l0 + 40ull;
    I64_STORE(m, t0, 0ull);
    t0 = l0 + 48ull;
    I64_STORE(m, t0, 0ull);
    t0 = l0 + 56ull;
    I64_STORE(m, t0, 0ull);
    goto L0;
    L11:;
    l15 = 0ull;
    l16 = 0ull;
    w0 = l5 == 0;
    w0 = w0 == 0;
    if (w0) goto L9;
    goto L6;
    TRAP(m);
    return;
    L9:;
    w0 = l5 != 1ull;
    if (w0) goto L23;
    l3 = 0ull;
    l11 = 0u;
    l10 = 0u;
    goto L22;
    L23:;
    t0 = l5 & 1ull;
    l17 = t0;
    t0 = l5 & 18446744073709551614ull;
    l9 = t0;
    l3 = 0ull;
    l11 = 0u;
    l10 = 0u;
    L24:;
    t0 = l6 + l3;
    l7 = t0;
    w0 = I32_LOAD8_U(m, l7);
    l12 = w0;
    w0 = l12 + 4294967231u;
    w0 = w0 & 255u;
    w0 = w0 < 26u;
    w0 = l10 | w0;
    t0 = l7 + 1ull;
    w1 = I32_LOAD8_U(m, t0);
    l13 = w1;
    w1 = l13 + 4294967231u;
    w1 = w1 & 255u;
    w1 = w1 < 26u;
    w0 = w0 | w1;
    l10 = w0;
    w0 = l12 + 4294967199u;
    w0 = w0 & 255u;
    w0 = w0 < 26u;
    w0 = l11 | w0;
    w1 = l13 + 4294967199u;
    w1 = w1 & 255u;
    w1 = w1 < 26u;
    w0 = w0 | w1;
    l11 = w0;
    t0 = l3 + 2ull;
    l3 = t0;
    w0 = l9 != l3;
    if (w0) goto L24;
    w0 = l17 == 0;
    if (w0) goto L21;
    L22:;
    t0 = l6 + l3;
    w0 = I32_LOAD8_U(m, t0);
    l12 = w0;
    w0 = l12 + 4294967231u;
    w0 = w0 & 255u;
    w0 = w0 < 26u;
    w0 = l10 | w0;
    l10 = w0;
    w0 = l12 + 4294967199u;
    w0 = w0 & 255u;
    w0 = w0 < 26u;
    w0 = l11 | w0;
    l11 = w0;
    L21:;
    w0 = l11 & l10;
    l11 = w0;
    if (l8) goto L7;
    w0 = l11 & 1u;
    if (w0) goto L7;
    L8:;
    t0 = l4 + 24ull;
    MEMORY_FILL(m, t0, 0u, 104ull);
    t0 = l4 + 24ull;
    f7(m, t0, l16, l15);
    w0 = I32_LOAD8_U(m, l4 + 24u);
    l11 = w0;
    w0 = l11 == 0;
    if (w0) goto L25;
    l10 = 1u;
    w0 = l11 == 1u;
    if (w0) goto L5;
    L25:;
    l10 = 0u;
    t0 = l15 + 1ull;
    l7 = t0;
    t0 = l6 + l7;
    l3 = t0;
    t0 = l5 - l7;
    l5 = t0;
    w0 = f8(m, l16, l15, l3, l5);
    l11 = w0;
    l12 = 0u;
    goto L1;
    L7:;
    l10 = 1u;
    w0 = l11 & 1u;
    w0 = w0 == 0;
    if (w0) goto L6;
    l11 = 0u;
    l12 = 22u;
    l1 = 0ull;
    goto L3;
    L6:;
    l11 = 0u;
    l12 = 23u;
    goto L4;
    L5:;
    t0 = I64_LOAD8_U(m, l4 + 32u);
    t0 = t0 << 2;
    w0 = I32_LOAD(m, t0 + PLACE(2080u));
    l12 = w0;
    l11 = 0u;
    l16 = 0ull;
    l1 = 0ull;
    l2 = 0ull;
    goto L2;
    L4:;
    l1 = 0ull;
    l10 = 1u;
    L3:;
    l2 = 0ull;
    l16 = 0ull;
    L2:;
    l15 = 0ull;
    l3 = 0ull;
    l5 = 0ull;
    L1:;
    I32_STORE(m, l0, l10);
    t0 = l0 + 60ull;
    I32_STORE(m, t0, 0u);
    t0 = l0 + 56ull;
    I32_STORE(m, t0, l11);
    t0 = l0 + 48ull;
    I64_STORE(m, t0, l5);
    t0 = l0 + 40ull;
    I64_STORE(m, t0, l3);
    t0 = l0 + 32ull;
    I64_STORE(m, t0, l15);
    t0 = l0 + 24ull;
    I64_STORE(m, t0, l16);
    t0 = l0 + 16ull;
    I64_STORE(m, t0, l2);
    t0 = l0 + 8ull;
    I64_STORE(m, t0, l1);
    t0 = l0 + 4ull;
    I32_STORE(m, t0, l12);
    L0:;
    t0 = l4 + 128ull;
    m->stack_pointer = t0;
}

/* bech32_small::input::text_of */
static void f6(Machine *m, u64 l0, u64 l1, u64 l2) {
    u32 l8 = 0, l11 = 0, w0, w1;
    u64 l3 = 0, l4 = 0, l5 = 0, l6 = 0, l7 = 0, l9 = 0, l10 = 0, t0, t1;
    FRAME(m, 16u);
    t0 = m->stack_pointer;
    t0 = t0 - 16ull;
    l3 = t0;
    m->stack_pointer = l3;
    l4 = l3;
    w0 = l2 == 0;
    if (w0) goto L1;
    t0 = l2 + 18446744073709551608ull;
    l5 = t0;
    t0 = l1 + l5;
    l6 = t0;
    l3 = 0ull;
    L3:;
    l7 = l3;
    t0 = l1 + l7;
    l3 = t0;
    w0 = I32_LOAD8_U(m, l3);
    l8 = w0;
    t0 = l2 - l7;
    l9 = t0;
    w0 = l9 < 2ull;
    if (w0) goto L8;
    w0 = I32_EXTEND8_S(l8);
    w0 = SIGNED_32(w0) < SIGNED_32(0u);
    if (w0) goto L8;
    l10 = 1ull;
    t0 = l3 + 1ull;
    w0 = I32_LOAD8_S(m, t0);
    w0 = SIGNED_32(w0) < SIGNED_32(0u);
    if (w0) goto L7;
    I64_STORE(m, l4 + 8u, l2);
    I64_STORE(m, l4, l1);
    w0 = l9 > 7ull;
    if (w0) goto L9;
    w0 = I32_LOAD8_S(m, l3);
    w0 = SIGNED_32(w0) >= SIGNED_32(0u);
    if (w0) goto L10;
    l3 = l7;
    goto L4;
    L10:;
    t0 = l7 + 1ull;
    l3 = t0;
    w0 = l3 == l2;
    if (w0) goto L1;
    t0 = l1 + l3;
    w0 = I32_LOAD8_S(m, t0);
    w0 = SIGNED_32(w0) < SIGNED_32(0u);
    if (w0) goto L4;
    t0 = l7 + 2ull;
    l3 = t0;
    w0 = l3 == l2;
    if (w0) goto L1;
    t0 = l1 + l3;
    w0 = I32_LOAD8_S(m, t0);
    w0 = SIGNED_32(w0) < SIGNED_32(0u);
    if (w0) goto L4;
    t0 = l7 + 3ull;
    l3 = t0;
    w0 = l3 == l2;
    if (w0) goto L1;
    t0 = l1 + l3;
    w0 = I32_LOAD8_S(m, t0);
    w0 = SIGNED_32(w0) < SIGNED_32(0u);
    if (w0) goto L4;
    t0 = l7 + 4ull;
    l3 = t0;
    w0 = l3 == l2;
    if (w0) goto L1;
    t0 = l1 + l3;
    w0 = I32_LOAD8_S(m, t0);
    w0 = SIGNED_32(w0) < SIGNED_32(0u);
    if (w0) goto L4;
    t0 = l7 + 5ull;
    l3 = t0;
    w0 = l3 == l2;
    if (w0) goto L1;
    t0 = l1 + l3;
    w0 = I32_LOAD8_S(m, t0);
    w0 = SIGNED_32(w0) < SIGNED_32(0u);
    if (w0) goto L4;
    t0 = l7 + 6ull;
    l3 = t0;
    w0 = l3 == l2;
    if (w0) goto L1;
    t0 = l1 + l3;
    w0 = I32_LOAD8_S(m, t0);
    w0 = SIGNED_32(w0) < SIGNED_32(0u);
    if (w0) goto L4;
    goto L1;
    L9:;
    t0 = I64_LOAD(m, l3);
    t0 = t0 & 9259542123273814144ull;
    l3 = t0;
    t0 = I64_CTZ(l3);
    t0 = t0 >> 3;
    w0 = l3 == 0;
    t0 = w0 ? 8ull : t0;
    t0 = t0 + l7;
    l3 = t0;
    t0 = l7 + 8ull;
    w0 = l3 < t0;
    if (w0) goto L4;
    t0 = l2 - l3;
    w0 = t0 < 32ull;
    if (w0) goto L11;
    L12:;
    t0 = l1 + l3;
    l7 = t0;
    t0 = l7 + 8ull;
    t0 = I64_LOAD(m, t0);
    t1 = I64_LOAD(m, l7);
    t0 = t0 | t1;
    t1 = l7 + 16ull;
    t1 = I64_LOAD(m, t1);
    t0 = t0 | t1;
    t1 = l7 + 24ull;
    t1 = I64_LOAD(m, t1);
    t0 = t0 | t1;
    t0 = t0 & 9259542123273814144ull;
    w0 = t0 != 0ull;
    if (w0) goto L11;
    t0 = l3 + 32ull;
    t0 = f9(m, l4, t0, l2);
    l3 = t0;
    t0 = l2 - l3;
    w0 = t0 > 31ull;
    if (w0) goto L12;
    L11:;
    t0 = l2 - l3;
    l7 = t0;
    L13:;
    w0 = l7 < 9ull;
    if (w0) goto L6;
    t0 = l7 + 18446744073709551608ull;
    l7 = t0;
    t0 = l1 + l3;
    t0 = I64_LOAD(m, t0);
    t0 = t0 & 9259542123273814144ull;
    l10 = t0;
    t0 = I64_CTZ(l10);
    t0 = t0 >> 3;
    w0 = l10 == 0;
    t0 = w0 ? 8ull : t0;
    l10 = t0;
    t0 = l10 + l3;
    t1 = l3 + 8ull;
    l3 = t1;
    w0 = t0 >= l3;
    if (w0) goto L13;
    t0 = l10 + l3;
    t0 = t0 + 18446744073709551608ull;
    l3 = t0;
    goto L4;
    L8:;
    l10 = 1ull;
    w0 = I32_EXTEND8_S(l8);
    w0 = SIGNED_32(w0) > SIGNED_32(4294967295u);
    if (w0) goto L7;
    w0 = l8 < 194u;
    if (w0) goto L5;
    w0 = l8 > 223u;
    if (w0) goto L14;
    l10 = 2ull;
    w0 = l9 < 2ull;
    if (w0) goto L5;
    t0 = l3 + 1ull;
    w0 = I32_LOAD8_S(m, t0);
    w0 = SIGNED_32(w0) <= SIGNED_32(4294967231u);
    if (w0) goto L7;
    goto L5;
    L14:;
    w0 = l8 > 239u;
    if (w0) goto L16;
    w0 = l9 < 3ull;
    if (w0) goto L5;
    t0 = l3 + 1ull;
    w0 = I32_LOAD8_S(m, t0);
    l11 = w0;
    w0 = SIGNED_32(l11) > SIGNED_32(4294967231u);
    if (w0) goto L5;
    t0 = l3 + 2ull;
    w0 = I32_LOAD8_S(m, t0);
    w0 = SIGNED_32(w0) > SIGNED_32(4294967231u);
    if (w0) goto L5;
    w0 = l8 << 6;
    w1 = l11 & 255u;
    w0 = w0 + w1;
    w0 = w0 + 4294952832u;
    l8 = w0;
    w0 = l8 < 32u;
    if (w0) goto L5;
    l10 = 3ull;
    w0 = l8 < 864u;
    if (w0) goto L7;
    w0 = l8 < 896u;
    t0 = w0 ? 0ull : 3ull;
    l10 = t0;
    goto L15;
    L16:;
    w0 = l9 < 4ull;
    if (w0) goto L5;
    t0 = l3 + 1ull;
    w0 = I32_LOAD8_S(m, t0);
    l11 = w0;
    w0 = SIGNED_32(l11) > SIGNED_32(4294967231u);
    if (w0) goto L5;
    t0 = l3 + 2ull;
    w0 = I32_LOAD8_S(m, t0);
    w0 = SIGNED_32(w0) > SIGNED_32(4294967231u);
    if (w0) goto L5;
    t0 = l3 + 3ull;
    w0 = I32_LOAD8_S(m, t0);
    w0 = SIGNED_32(w0) > SIGNED_32(4294967231u);
    if (w0) goto L5;
    w0 = l8 << 6;
    w1 = l11 & 255u;
    w0 = w0 + w1;
    w0 = w0 + 4294951808u;
    l8 = w0;
    w0 = l8 < 16u;
    if (w0) goto L5;
    w0 = l8 < 272u;
    t0 = w0 ? 4ull : 0ull;
    l10 = t0;
    L15:;
    w0 = l10 == 0;
    if (w0) goto L5;
    L7:;
    t0 = l10 + l7;
    l3 = t0;
    goto L4;
    L6:;
    t0 = I64_LOAD(m, l6);
    t0 = t0 & 9259542123273814144ull;
    l3 = t0;
    t0 = I64_CTZ(l3);
    t0 = t0 >> 3;
    w0 = l3 == 0;
    t0 = w0 ? 8ull : t0;
    t0 = t0 + l5;
    l3 = t0;
    goto L4;
    L5:;
    l1 = 0ull;
    l2 = 0ull;
    l3 = 0ull;
    goto L0;
    L4:;
    w0 = l3 < l2;
    if (w0) goto L3;
    goto L1;
    TRAP(m);
    return;
    L1:;
    l3 = 1ull;
    L0:;
    I64_STORE(m, l0, l3);
    t0 = l0 + 16ull;
    I64_STORE(m, t0, l2);
    t0 = l0 + 8ull;
    I64_STORE(m, t0, l1);
    t0 = l4 + 16ull;
    m->stack_pointer = t0;
}

/* bech32_hrp::Hrp::parse */
static void f7(Machine *m, u64 l0, u64 l1, u64 l2) {
    u32 l5 = 0, l6 = 0, l8 = 0, l9 = 0, l10 = 0, l12 = 0, l13 = 0, w0, w1, w2;
    u64 l3 = 0, l4 = 0, l7 = 0, l11 = 0, t0, t1, t2;
    FRAME(m, 304u);
    t0 = m->stack_pointer;
    t0 = t0 - 304ull;
    l3 = t0;
    m->stack_pointer = l3;
    l4 = l3;
    l5 = 0u;
    t0 = l4 + 8ull;
    MEMORY_FILL(m, t0, 0u, 72ull);
    t0 = l4 + 154ull;
    MEMORY_FILL(m, t0, 0u, 67ull);
    t0 = l4 + 80ull;
    MEMORY_FILL(m, t0, 0u, 72ull);
    l3 = 0ull;
    w0 = l2 != 0ull;
    if (w0) goto L5;
    t0 = l4 + 8ull;
    MEMORY_FILL(m, t0, 0u, 72ull);
    l6 = 1u;
    l7 = 1ull;
    l8 = 0u;
    goto L4;
    L5:;
    w0 = l2 > 83ull;
    if (w0) goto L2;
    l9 = 0u;
    l10 = 0u;
    l7 = l2;
    l3 = l1;
    L8:;
    t0 = l3 + 1ull;
    l11 = t0;
    w0 = I32_LOAD8_S(m, l3);
    l12 = w0;
    w0 = l12 & 255u;
    l13 = w0;
    w0 = SIGNED_32(l12) < SIGNED_32(0u);
    if (w0) goto L10;
    t0 = l7 + 18446744073709551615ull;
    l7 = t0;
    l3 = l11;
    goto L9;
    L10:;
    w0 = I32_LOAD8_U(m, l11);
    w0 = w0 & 63u;
    l5 = w0;
    w0 = l12 > 4294967263u;
    if (w0) goto L12;
    w0 = l13 << 6;
    w0 = w0 & 1984u;
    w0 = w0 | l5;
    l13 = w0;
    l11 = 2ull;
    goto L11;
    L12:;
    w0 = I32_LOAD8_U(m, l3 + 2u);
    w0 = w0 & 63u;
    l6 = w0;
    w0 = l12 > 4294967279u;
    if (w0) goto L13;
    w0 = l5 << 6;
    w1 = l13 << 12;
    w1 = w1 & 61440u;
    w0 = w0 | w1;
    w0 = w0 | l6;
    l13 = w0;
    l11 = 3ull;
    goto L11;
    L13:;
    w0 = l6 << 6;
    w1 = l5 << 12;
    w2 = l13 << 18;
    w2 = w2 & 1835008u;
    w1 = w1 | w2;
    w0 = w0 | w1;
    w1 = I32_LOAD8_U(m, l3 + 3u);
    w1 = w1 & 63u;
    w0 = w0 | w1;
    l13 = w0;
    l11 = 4ull;
    L11:;
    w0 = l13 > 127u;
    if (w0) goto L7;
    t0 = l7 - l11;
    l7 = t0;
    t0 = l3 + l11;
    l3 = t0;
    L9:;
    w0 = l13 + 4294967263u;
    w0 = w0 & 255u;
    w0 = w0 <= 93u;
    if (w0) goto L14;
    l6 = 3u;
    l8 = 0u;
    l5 = l13;
    goto L6;
    L14:;
    l8 = 0u;
    l6 = 4u;
    w0 = l13 + 4294967199u;
    l12 = w0;
    w0 = l12 & 255u;
    w0 = w0 < 26u;
    w0 = l10 & w0;
    w0 = w0 == 0;
    if (w0) goto L15;
    l5 = 0u;
    goto L6;
    L15:;
    l5 = 0u;
    w0 = l13 + 4294967231u;
    l13 = w0;
    w0 = l13 & 255u;
    w0 = w0 < 26u;
    w0 = l9 & w0;
    if (w0) goto L6;
    w0 = l13 & 255u;
    w0 = w0 < 26u;
    w0 = l10 | w0;
    l10 = w0;
    w0 = l12 & 255u;
    w0 = w0 < 26u;
    w0 = l9 | w0;
    l9 = w0;
    w0 = l7 != 0ull;
    if (w0) goto L8;
    t0 = 83ull - l2;
    l3 = t0;
    w0 = l3 == 0;
    if (w0) goto L16;
    t0 = l4 + 221ull;
    t0 = t0 + l2;
    MEMORY_FILL(m, t0, 0u, l3);
    L16:;
    w0 = l2 == 0;
    if (w0) goto L17;
    t0 = l4 + 221ull;
    MEMORY_COPY(m, t0, l1, l2);
    L17:;
    t0 = I64_LOAD(m, l4 + 229u);
    l11 = t0;
    w0 = I32_LOAD(m, l4 + 225u);
    l8 = w0;
    w0 = I32_LOAD8_U(m, l4 + 222u);
    l5 = w0;
    w0 = I32_LOAD8_U(m, l4 + 221u);
    l6 = w0;
    t0 = I64_LOAD16_U(m, l4 + 223u);
    l3 = t0;
    t0 = l4 + 154ull;
    t1 = l4 + 221ull;
    t1 = t1 + 16ull;
    MEMORY_COPY(m, t0, t1, 67ull);
    t0 = l4 + 80ull;
    t1 = l4 + 154ull;
    MEMORY_COPY(m, t0, t1, 67ull);
    t0 = l4 + 8ull;
    t1 = l4 + 80ull;
    MEMORY_COPY(m, t0, t1, 72ull);
    t0 = l3 << 16;
    l3 = t0;
    l7 = 0ull;
    goto L0;
    L7:;
    l5 = 0u;
    l6 = 2u;
    l8 = l13;
    L6:;
    t0 = l4 + 8ull;
    MEMORY_FILL(m, t0, 0u, 72ull);
    l3 = 0ull;
    l7 = 1ull;
    L4:;
    l11 = 0ull;
    goto L1;
    TRAP(m);
    return;
    L2:;
    l6 = 0u;
    t0 = l4 + 8ull;
    MEMORY_FILL(m, t0, 0u, 72ull);
    l3 = 0ull;
    l7 = 1ull;
    l5 = 0u;
    l8 = 0u;
    l11 = l2;
    L1:;
    l2 = 0ull;
    L0:;
    t0 = l0 + 16ull;
    I64_STORE(m, t0, l11);
    I64_STORE(m, l0, l7);
    t0 = l0 + 8ull;
    t1 = (u64)l8;
    t1 = t1 << 32;
    t1 = l3 | t1;
    t2 = (u64)l5;
    t2 = t2 & 255ull;
    t2 = t2 << 8;
    t1 = t1 | t2;
    t2 = (u64)l6;
    t2 = t2 & 255ull;
    t1 = t1 | t2;
    I64_STORE(m, t0, t1);
    t0 = l0 + 24ull;
    t1 = l4 + 8ull;
    MEMORY_COPY(m, t0, t1, 72ull);
    t0 = l0 + 96ull;
    I64_STORE(m, t0, l2);
    t0 = l4 + 304ull;
    m->stack_pointer = t0;
}

/* bech32_small::elements::residue_of */
static u32 f8(Machine *m, u64 l0, u64 l1, u64 l2, u64 l3) {
    u32 l4 = 0, l6 = 0, w0, w1, w2;
    u64 l5 = 0, l7 = 0, l8 = 0, t0;
    w0 = l1 == 0;
    w0 = w0 == 0;
    if (w0) goto L2;
    l4 = 32u;
    goto L1;
    L2:;
    l5 = 0ull;
    l4 = 1u;
    L3:;
    w0 = l4 << 5;
    w0 = w0 & 1073741792u;
    t0 = l0 + l5;
    w1 = I32_LOAD8_U(m, t0);
    l6 = w1;
    w1 = l6 + 32u;
    w2 = l6 + 4294967231u;
    w2 = w2 & 255u;
    w2 = w2 < 26u;
    w1 = w2 ? w1 : l6;
    w1 = w1 & 224u;
    w1 = w1 >> 5;
    w0 = w0 | w1;
    w1 = l4 >> 23;
    t0 = (u64)w1;
    t0 = t0 & 124ull;
    t0 = t0 + PLACE(128u);
    w1 = I32_LOAD(m, t0);
    w0 = w0 ^ w1;
    l4 = w0;
    t0 = l5 + 1ull;
    l5 = t0;
    w0 = l1 != l5;
    if (w0) goto L3;
    w0 = l4 >> 23;
    t0 = (u64)w0;
    t0 = t0 & 124ull;
    t0 = t0 + PLACE(128u);
    w0 = I32_LOAD(m, t0);
    w1 = l4 << 5;
    w1 = w1 & 1073741792u;
    w0 = w0 ^ w1;
    l4 = w0;
    l5 = 0ull;
    w0 = l1 == 1ull;
    if (w0) goto L4;
    t0 = l1 & 1ull;
    l7 = t0;
    t0 = l1 & 18446744073709551614ull;
    l8 = t0;
    l5 = 0ull;
    L5:;
    w0 = l4 << 5;
    w0 = w0 & 1073741792u;
    t0 = l0 + l5;
    l1 = t0;
    w1 = I32_LOAD8_U(m, l1);
    w1 = w1 & 31u;
    w0 = w0 | w1;
    w1 = l4 >> 23;
    t0 = (u64)w1;
    t0 = t0 & 124ull;
    t0 = t0 + PLACE(128u);
    w1 = I32_LOAD(m, t0);
    w0 = w0 ^ w1;
    l4 = w0;
    w0 = l4 << 5;
    w0 = w0 & 1073741792u;
    t0 = l1 + 1ull;
    w1 = I32_LOAD8_U(m, t0);
    w1 = w1 & 31u;
    w0 = w0 | w1;
    w1 = l4 >> 23;
    t0 = (u64)w1;
    t0 = t0 & 124ull;
    t0 = t0 + PLACE(128u);
    w1 = I32_LOAD(m, t0);
    w0 = w0 ^ w1;
    l4 = w0;
    t0 = l5 + 2ull;
    l5 = t0;
    w0 = l8 != l5;
    if (w0) goto L5;
    w0 = l7 == 0;
    if (w0) goto L1;
    L4:;
    w0 = l4 << 5;
    w0 = w0 & 1073741792u;
    t0 = l0 + l5;
    w1 = I32_LOAD8_U(m, t0);
    w1 = w1 & 31u;
    w0 = w0 | w1;
    w1 = l4 >> 23;
    t0 = (u64)w1;
    t0 = t0 & 124ull;
    t0 = t0 + PLACE(128u);
    w1 = I32_LOAD(m, t0);
    w0 = w0 ^ w1;
    l4 = w0;
    L1:;
    w0 = l3 == 0;
    if (w0) goto L6;
    l5 = 0ull;
    w0 = l3 == 1ull;
    if (w0) goto L7;
    t0 = l3 & 1ull;
    l8 = t0;
    t0 = l3 & 18446744073709551614ull;
    l1 = t0;
    l5 = 0ull;
    L8:;
    w0 = l4 << 5;
    w0 = w0 & 1073741792u;
    t0 = l2 + l5;
    l0 = t0;
    t0 = I64_LOAD8_U(m, l0);
    w1 = I32_LOAD8_U(m, t0 + PLACE(0u));
    w0 = w0 + w1;
    w1 = l4 >> 23;
    t0 = (u64)w1;
    t0 = t0 & 124ull;
    t0 = t0 + PLACE(128u);
    w1 = I32_LOAD(m, t0);
    w0 = w0 ^ w1;
    l4 = w0;
    w0 = l4 << 5;
    w0 = w0 & 1073741792u;
    t0 = l0 + 1ull;
    t0 = I64_LOAD8_U(m, t0);
    w1 = I32_LOAD8_U(m, t0 + PLACE(0u));
    w0 = w0 + w1;
    w1 = l4 >> 23;
    t0 = (u64)w1;
    t0 = t0 & 124ull;
    t0 = t0 + PLACE(128u);
    w1 = I32_LOAD(m, t0);
    w0 = w0 ^ w1;
    l4 = w0;
    t0 = l5 + 2ull;
    l5 = t0;
    w0 = l1 != l5;
    if (w0) goto L8;
    w0 = l8 == 0;
    if (w0) goto L6;
    L7:;
    w0 = l4 << 5;
    w0 = w0 & 1073741792u;
    t0 = l2 + l5;
    t0 = I64_LOAD8_U(m, t0);
    w1 = I32_LOAD8_U(m, t0 + PLACE(0u));
    w0 = w0 + w1;
    w1 = l4 >> 23;
    t0 = (u64)w1;
    t0 = t0 & 124ull;
    t0 = t0 + PLACE(128u);
    w1 = I32_LOAD(m, t0);
    w0 = w0 ^ w1;
    l4 = w0;
    L6:;
    return l4;
    TRAP(m);
    return 0;
}

/* core::slice::words::skip_far::<#52f9edcae2f82f51> */
static u64 f9(Machine *m, u64 l0, u64 l1, u64 l2) {
    u32 w0;
    u64 l3 = 0, t0, t1;
    t0 = l2 - l1;
    l3 = t0;
    w0 = l3 < 64ull;
    if (w0) goto L1;
    t0 = I64_LOAD(m, l0);
    l0 = t0;
    L2:;
    t0 = l0 + l1;
    l2 = t0;
    t0 = l2 + 16ull;
    t0 = I64_LOAD(m, t0);
    t1 = I64_LOAD(m, l2);
    t0 = t0 | t1;
    t1 = l2 + 32ull;
    t1 = I64_LOAD(m, t1);
    t0 = t0 | t1;
    t1 = l2 + 48ull;
    t1 = I64_LOAD(m, t1);
    t0 = t0 | t1;
    t1 = l2 + 8ull;
    t1 = I64_LOAD(m, t1);
    t0 = t0 | t1;
    t1 = l2 + 24ull;
    t1 = I64_LOAD(m, t1);
    t0 = t0 | t1;
    t1 = l2 + 40ull;
    t1 = I64_LOAD(m, t1);
    t0 = t0 | t1;
    t1 = l2 + 56ull;
    t1 = I64_LOAD(m, t1);
    t0 = t0 | t1;
    t0 = t0 & 9259542123273814144ull;
    w0 = t0 != 0ull;
    if (w0) goto L1;
    t0 = l1 + 64ull;
    l1 = t0;
    t0 = l3 + 18446744073709551552ull;
    l3 = t0;
    w0 = l3 > 63ull;
    if (w0) goto L2;
    L1:;
    return l1;
    TRAP(m);
    return 0;
}

/* bech32_small::correct::listing_of */
static void f10(Machine *m, u64 l0, u32 l1, u64 l2, u32 l3, u64 l4, u64 l5) {
    u32 w0;
    u64 l6 = 0, l7 = 0, t0, t1;
    FRAME(m, 128u);
    t0 = m->stack_pointer;
    t0 = t0 - 128ull;
    l6 = t0;
    m->stack_pointer = l6;
    I64_STORE(m, l6 + 96u, 0ull);
    I64_STORE(m, l6 + 88u, 0ull);
    I64_STORE(m, l6 + 80u, 0ull);
    I64_STORE(m, l6 + 72u, 0ull);
    I64_STORE(m, l6 + 64u, 0ull);
    I64_STORE(m, l6, 0ull);
    I64_STORE(m, l6 + 8u, 0ull);
    I64_STORE(m, l6 + 16u, 0ull);
    I64_STORE(m, l6 + 24u, 0ull);
    I64_STORE(m, l6 + 32u, 0ull);
    I64_STORE(m, l6 + 40u, 0ull);
    I64_STORE(m, l6 + 48u, 0ull);
    I64_STORE(m, l6 + 56u, 0ull);
    w0 = l3 != l1;
    if (w0) goto L2;
    I64_STORE(m, l0, 1ull);
    t0 = l0 + 8ull;
    I64_STORE(m, t0, 0ull);
    t0 = l0 + 16ull;
    I64_STORE(m, t0, 0ull);
    t0 = l0 + 24ull;
    I64_STORE(m, t0, 0ull);
    t0 = l0 + 32ull;
    I64_STORE(m, t0, 0ull);
    t0 = l0 + 40ull;
    I64_STORE(m, t0, 0ull);
    t0 = l0 + 48ull;
    I64_STORE(m, t0, 0ull);
    t0 = l0 + 56ull;
    I64_STORE(m, t0, 0ull);
    goto L0;
    L2:;
    t0 = l6 + 64ull;
    f11(m, t0, l4, l5, l2);
    w0 = I32_LOAD8_U(m, l6 + 64u);
    w0 = w0 != 1u;
    if (w0) goto L7;
    w0 = l3 ^ l1;
    l3 = w0;
    t0 = I64_LOAD(m, l6 + 72u);
    l4 = t0;
    t0 = I64_LOAD(m, l6 + 96u);
    l5 = t0;
    w0 = l5 > 1ull;
    if (w0) goto L4;
    w0 = (u32)l5;
    switch (w0) {
    case 0: goto L6;
    case 1: goto L5;
    default: goto L6;
    }
    L7:;
    I64_STORE(m, l0 + 56u, 0ull);
    I64_STORE(m, l0 + 48u, 0ull);
    I64_STORE(m, l0 + 40u, 0ull);
    I64_STORE(m, l0 + 32u, 0ull);
    I64_STORE(m, l0 + 24u, 0ull);
    I64_STORE(m, l0 + 16u, 0ull);
    I64_STORE(m, l0 + 8u, 0ull);
    I64_STORE(m, l0, 0ull);
    goto L0;
    L6:;
    l5 = 0ull;
    I64_STORE(m, l6 + 120u, 0ull);
    I64_STORE(m, l6 + 112u, 0ull);
    I64_STORE(m, l6 + 104u, 0ull);
    t0 = l6 + 104ull;
    f12(m, t0, l3, l2, l2);
    t0 = l6 + 49ull;
    l2 = t0;
    t0 = l6 + 33ull;
    l4 = t0;
    t0 = l6 + 8ull;
    l7 = t0;
    w0 = I32_LOAD8_U(m, l6 + 104u);
    w0 = w0 != 1u;
    if (w0) goto L9;
    t0 = I64_LOAD(m, l6 + 120u);
    I64_STORE(m, l7 + 8u, t0);
    t0 = I64_LOAD(m, l6 + 112u);
    I64_STORE(m, l7, t0);
    I32_STORE(m, l4, 0u);
    I32_STORE(m, l4 + 3u, 0u);
    I32_STORE(m, l2, 0u);
    I32_STORE(m, l2 + 3u, 0u);
    l5 = 1ull;
    goto L8;
    L9:;
    I64_STORE(m, l7 + 8u, 0ull);
    I64_STORE(m, l7, 0ull);
    I32_STORE(m, l4, 0u);
    I32_STORE(m, l4 + 3u, 0u);
    I32_STORE(m, l2, 0u);
    I32_STORE(m, l2 + 3u, 0u);
    L8:;
    I64_STORE(m, l6 + 56u, l5);
    I32_STORE8(m, l6 + 48u, 0u);
    I64_STORE(m, l6 + 40u, 0ull);
    I32_STORE8(m, l6 + 32u, 0u);
    I64_STORE(m, l6 + 24u, 0ull);
    I64_STORE(m, l6, l5);
    goto L3;
    L5:;
    f13(m, l6, l3, l2, l4);
    goto L3;
    L4:;
    t0 = I64_LOAD(m, l6 + 80u);
    l2 = t0;
    w0 = l5 > 2ull;
    if (w0) goto L10;
    f14(m, l6, l3, l4, l2);
    goto L3;
    L10:;
    t0 = I64_LOAD(m, l6 + 88u);
    f15(m, l6, l3, l4, l2, t0);
    L3:;
    t0 = I64_LOAD8_U(m, l6);
    I64_STORE(m, l0, t0);
    t0 = l0 + 8ull;
    t1 = I64_LOAD(m, l6 + 8u);
    I64_STORE(m, t0, t1);
    t0 = l0 + 16ull;
    t1 = I64_LOAD(m, l6 + 16u);
    I64_STORE(m, t0, t1);
    t0 = l0 + 24ull;
    t1 = I64_LOAD(m, l6 + 24u);
    I64_STORE(m, t0, t1);
    t0 = l0 + 32ull;
    t1 = I64_LOAD(m, l6 + 32u);
    I64_STORE(m, t0, t1);
    t0 = l0 + 40ull;
    t1 = I64_LOAD(m, l6 + 40u);
    I64_STORE(m, t0, t1);
    t0 = l0 + 48ull;
    t1 = I64_LOAD(m, l6 + 48u);
    I64_STORE(m, t0, t1);
    t0 = l0 + 56ull;
    t1 = I64_LOAD(m, l6 + 56u);
    I64_STORE(m, t0, t1);
    goto L0;
    TRAP(m);
    return;
    L0:;
    t0 = l6 + 128ull;
    m->stack_pointer = t0;
}

/* bech32_small::search::erasures_of */
static void f11(Machine *m, u64 l0, u64 l1, u64 l2, u64 l3) {
    u32 l8 = 0, l14 = 0, w0, w1, w2, w3;
    u64 l4 = 0, l5 = 0, l6 = 0, l7 = 0, l9 = 0, l10 = 0, l11 = 0, l12 = 0, l13 = 0, l15 = 0, l16 = 0, t0, t1;
    FRAME(m, 32u);
    t0 = m->stack_pointer;
    t0 = t0 - 32ull;
    l4 = t0;
    l5 = 0ull;
    I64_STORE(m, l4 + 24u, 0ull);
    I64_STORE(m, l4 + 16u, 0ull);
    I64_STORE(m, l4 + 8u, 0ull);
    w0 = l2 == 0;
    if (w0) goto L2;
    t0 = l4 + 0ull;
    l6 = t0;
    t0 = l4 + 18446744073709551592ull;
    l7 = t0;
    l5 = 0ull;
    l8 = 0u;
    l9 = 0ull;
    L3:;
    w0 = l5 == 0;
    if (w0) goto L5;
    t0 = l5 & 18446744073709551612ull;
    l10 = t0;
    t0 = (u64)l8;
    t0 = t0 & 3ull;
    l11 = t0;
    t0 = l5 & 3ull;
    l12 = t0;
    L6:;
    t0 = l9 << 3;
    t0 = l1 + t0;
    t0 = I64_LOAD(m, t0);
    l13 = t0;
    w0 = l3 <= l13;
    if (w0) goto L0;
    l14 = 0u;
    l15 = l5;
    w0 = l5 < 4ull;
    if (w0) goto L8;
    l16 = 0ull;
    l14 = 0u;
    l15 = l7;
    L9:;
    t0 = I64_LOAD(m, l15);
    w0 = l13 == t0;
    t0 = l15 + 8ull;
    t0 = I64_LOAD(m, t0);
    w1 = l13 == t0;
    t0 = l15 + 16ull;
    t0 = I64_LOAD(m, t0);
    w2 = l13 == t0;
    t0 = l15 + 24ull;
    t0 = I64_LOAD(m, t0);
    w3 = l13 == t0;
    w2 = w2 | w3;
    w1 = w1 | w2;
    w0 = w0 | w1;
    w0 = w0 | l14;
    l14 = w0;
    t0 = l15 + 18446744073709551584ull;
    l15 = t0;
    t0 = l16 + 4ull;
    l16 = t0;
    w0 = l10 != l16;
    if (w0) goto L9;
    w0 = l12 == 0;
    if (w0) goto L7;
    t0 = l5 - l16;
    l15 = t0;
    L8:;
    t0 = l15 << 3;
    t0 = l6 + t0;
    l15 = t0;
    l16 = l11;
    L10:;
    t0 = I64_LOAD(m, l15);
    w0 = l13 == t0;
    w0 = w0 | l14;
    l14 = w0;
    t0 = l15 + 18446744073709551608ull;
    l15 = t0;
    t0 = l16 + 18446744073709551615ull;
    l16 = t0;
    w0 = l16 != 0ull;
    if (w0) goto L10;
    L7:;
    w0 = l14 & 1u;
    w0 = w0 == 0;
    if (w0) goto L11;
    t0 = l9 + 1ull;
    l9 = t0;
    w0 = l9 < l2;
    if (w0) goto L6;
    goto L2;
    L11:;
    w0 = l5 != 3ull;
    if (w0) goto L4;
    I64_STORE(m, l0 + 32u, 0ull);
    I64_STORE(m, l0 + 24u, 0ull);
    I64_STORE(m, l0 + 16u, 0ull);
    I64_STORE(m, l0 + 8u, 0ull);
    I64_STORE(m, l0, 0ull);
    return;
    L5:;
    t0 = l9 << 3;
    t0 = l1 + t0;
    t0 = I64_LOAD(m, t0);
    l13 = t0;
    w0 = l3 <= l13;
    if (w0) goto L0;
    L4:;
    t0 = l4 + 8ull;
    t1 = l5 << 3;
    t0 = t0 + t1;
    I64_STORE(m, t0, l13);
    w0 = l8 + 1u;
    l8 = w0;
    t0 = l7 + 8ull;
    l7 = t0;
    t0 = l5 + 1ull;
    l5 = t0;
    t0 = l9 + 1ull;
    l9 = t0;
    w0 = l9 < l2;
    if (w0) goto L3;
    L2:;
    I64_STORE(m, l0, 1ull);
    t0 = l0 + 8ull;
    t1 = I64_LOAD(m, l4 + 8u);
    I64_STORE(m, t0, t1);
    t0 = l0 + 16ull;
    t1 = I64_LOAD(m, l4 + 16u);
    I64_STORE(m, t0, t1);
    t0 = l0 + 24ull;
    t1 = I64_LOAD(m, l4 + 24u);
    I64_STORE(m, t0, t1);
    t0 = l0 + 32ull;
    I64_STORE(m, t0, l5);
    return;
    TRAP(m);
    return;
    L0:;
    I64_STORE(m, l0 + 32u, 0ull);
    I64_STORE(m, l0 + 24u, 0ull);
    I64_STORE(m, l0 + 16u, 0ull);
    I64_STORE(m, l0 + 8u, 0ull);
    I64_STORE(m, l0, 0ull);
}

/* bech32_small::search::error_apart */
static void f12(Machine *m, u64 l0, u32 l1, u64 l2, u64 l3) {
    u32 w0;
    u64 l5 = 0, t0;
    w0 = l2 == 0;
    if (w0) goto L1;
    l5 = 0ull;
    L2:;
    w0 = l1 > 31u;
    if (w0) goto L3;
    w0 = l3 == l5;
    if (w0) goto L3;
    I64_STORE(m, l0, 1ull);
    t0 = l0 + 17ull;
    I32_STORE(m, t0, 0u);
    t0 = l0 + 16ull;
    I32_STORE8(m, t0, l1);
    t0 = l0 + 8ull;
    I64_STORE(m, t0, l5);
    t0 = l0 + 20ull;
    I32_STORE(m, t0, 0u);
    return;
    L3:;
    w0 = f16(m, l1);
    l1 = w0;
    t0 = l5 + 1ull;
    l5 = t0;
    w0 = l2 != l5;
    if (w0) goto L2;
    L1:;
    I64_STORE(m, l0 + 16u, 0ull);
    I64_STORE(m, l0 + 8u, 0ull);
    I64_STORE(m, l0, 0ull);
    return;
    TRAP(m);
    return;
}

/* bech32_small::search::error_beside */
static void f13(Machine *m, u64 l0, u32 l1, u64 l2, u64 l3) {
    u32 l5 = 0, l6 = 0, l7 = 0, w0;
    u64 l4 = 0, t0, t1;
    FRAME(m, 32u);
    t0 = m->stack_pointer;
    t0 = t0 - 32ull;
    l4 = t0;
    m->stack_pointer = l4;
    I64_STORE(m, l4 + 24u, 0ull);
    I64_STORE(m, l4 + 16u, 0ull);
    I64_STORE(m, l4 + 8u, 0ull);
    l5 = 0u;
    w0 = f17(m, l3);
    l6 = w0;
    L2:;
    w0 = f18(m, l5, l6);
    l7 = w0;
    w0 = l1 != l7;
    if (w0) goto L3;
    I64_STORE(m, l0, 1ull);
    t0 = l0 + 17ull;
    I64_STORE(m, t0, 0ull);
    t0 = l0 + 16ull;
    I32_STORE8(m, t0, l5);
    t0 = l0 + 8ull;
    I64_STORE(m, t0, l3);
    t0 = l0 + 25ull;
    I64_STORE(m, t0, 0ull);
    t0 = l0 + 33ull;
    I64_STORE(m, t0, 0ull);
    t0 = l0 + 41ull;
    I64_STORE(m, t0, 0ull);
    t0 = l0 + 48ull;
    I64_STORE(m, t0, 0ull);
    t0 = l0 + 56ull;
    I64_STORE(m, t0, 1ull);
    goto L1;
    L3:;
    t0 = l4 + 8ull;
    w0 = l7 ^ l1;
    f12(m, t0, w0, l2, l3);
    w0 = I32_LOAD8_U(m, l4 + 8u);
    w0 = w0 != 1u;
    if (w0) goto L4;
    I64_STORE(m, l0, 1ull);
    t0 = l0 + 17ull;
    I32_STORE(m, t0, 0u);
    t0 = l0 + 16ull;
    I32_STORE8(m, t0, l5);
    t0 = l0 + 8ull;
    I64_STORE(m, t0, l3);
    t0 = l0 + 20ull;
    I32_STORE(m, t0, 0u);
    t0 = l0 + 32ull;
    w0 = I32_LOAD8_U(m, l4 + 24u);
    I32_STORE8(m, t0, w0);
    t0 = l0 + 24ull;
    t1 = I64_LOAD(m, l4 + 16u);
    I64_STORE(m, t0, t1);
    t0 = l0 + 33ull;
    w0 = I32_LOAD(m, l4 + 25u);
    I32_STORE(m, t0, w0);
    t0 = l0 + 36ull;
    w0 = I32_LOAD(m, l4 + 28u);
    I32_STORE(m, t0, w0);
    t0 = l0 + 40ull;
    I64_STORE(m, t0, 0ull);
    t0 = l0 + 48ull;
    I64_STORE(m, t0, 0ull);
    t0 = l0 + 56ull;
    I64_STORE(m, t0, 2ull);
    goto L1;
    L4:;
    w0 = l5 & 255u;
    l7 = w0;
    w0 = l5 + 1u;
    l5 = w0;
    w0 = l7 < 31u;
    if (w0) goto L2;
    I64_STORE(m, l0 + 56u, 0ull);
    I64_STORE(m, l0 + 48u, 0ull);
    I64_STORE(m, l0 + 40u, 0ull);
    I64_STORE(m, l0 + 32u, 0ull);
    I64_STORE(m, l0 + 24u, 0ull);
    I64_STORE(m, l0 + 16u, 0ull);
    I64_STORE(m, l0 + 8u, 0ull);
    I64_STORE(m, l0, 0ull);
    L1:;
    t0 = l4 + 32ull;
    m->stack_pointer = t0;
    return;
    TRAP(m);
    return;
}

/* bech32_small::search::values_at_two */
static void f14(Machine *m, u64 l0, u32 l1, u64 l2, u64 l3) {
    u32 l6 = 0, l7 = 0, l8 = 0, w0;
    u64 l4 = 0, l5 = 0, t0;
    FRAME(m, 32u);
    t0 = m->stack_pointer;
    t0 = t0 - 32ull;
    l4 = t0;
    m->stack_pointer = l4;
    l5 = l4;
    l6 = 0u;
    I32_STORE(m, l5 + 27u, 0u);
    I32_STORE(m, l5 + 24u, 0u);
    I32_STORE(m, l5 + 16u, 0u);
    I32_STORE(m, l5 + 19u, 0u);
    I32_STORE(m, l5 + 8u, 0u);
    I32_STORE(m, l5 + 11u, 0u);
    w0 = f17(m, l2);
    l7 = w0;
    w0 = l3 == 0;
    if (w0) goto L3;
    l4 = l3;
    L4:;
    w0 = f16(m, l7);
    l7 = w0;
    t0 = l4 + 18446744073709551615ull;
    l4 = t0;
    w0 = l4 != 0ull;
    if (w0) goto L4;
    l4 = l3;
    L5:;
    w0 = f16(m, l1);
    l1 = w0;
    t0 = l4 + 18446744073709551615ull;
    l4 = t0;
    w0 = l4 != 0ull;
    if (w0) goto L5;
    L3:;
    w0 = f18(m, 0u, l7);
    w0 = w0 ^ l1;
    l8 = w0;
    w0 = l8 < 32u;
    if (w0) goto L1;
    l6 = 1u;
    w0 = f18(m, 1u, l7);
    w0 = w0 ^ l1;
    l8 = w0;
    w0 = l8 < 32u;
    if (w0) goto L1;
    l6 = 2u;
    w0 = f18(m, 2u, l7);
    w0 = w0 ^ l1;
    l8 = w0;
    w0 = l8 < 32u;
    if (w0) goto L1;
    l6 = 3u;
    w0 = f18(m, 3u, l7);
    w0 = w0 ^ l1;
    l8 = w0;
    w0 = l8 < 32u;
    if (w0) goto L1;
    l6 = 4u;
    w0 = f18(m, 4u, l7);
    w0 = w0 ^ l1;
    l8 = w0;
    w0 = l8 < 32u;
    if (w0) goto L1;
    l6 = 5u;
    w0 = f18(m, 5u, l7);
    w0 = w0 ^ l1;
    l8 = w0;
    w0 = l8 < 32u;
    if (w0) goto L1;
    l6 = 6u;
    w0 = f18(m, 6u, l7);
    w0 = w0 ^ l1;
    l8 = w0;
    w0 = l8 < 32u;
    if (w0) goto L1;
    l6 = 7u;
    w0 = f18(m, 7u, l7);
    w0 = w0 ^ l1;
    l8 = w0;
    w0 = l8 < 32u;
    if (w0) goto L1;
    l6 = 8u;
    w0 = f18(m, 8u, l7);
    w0 = w0 ^ l1;
    l8 = w0;
    w0 = l8 < 32u;
    if (w0) goto L1;
    l6 = 9u;
    w0 = f18(m, 9u, l7);
    w0 = w0 ^ l1;
    l8 = w0;
    w0 = l8 < 32u;
    if (w0) goto L1;
    l6 = 10u;
    w0 = f18(m, 10u, l7);
    w0 = w0 ^ l1;
    l8 = w0;
    w0 = l8 < 32u;
    if (w0) goto L1;
    l6 = 11u;
    w0 = f18(m, 11u, l7);
    w0 = w0 ^ l1;
    l8 = w0;
    w0 = l8 < 32u;
    if (w0) goto L1;
    l6 = 12u;
    w0 = f18(m, 12u, l7);
    w0 = w0 ^ l1;
    l8 = w0;
    w0 = l8 < 32u;
    if (w0) goto L1;
    l6 = 13u;
    w0 = f18(m, 13u, l7);
    w0 = w0 ^ l1;
    l8 = w0;
    w0 = l8 < 32u;
    if (w0) goto L1;
    l6 = 14u;
    w0 = f18(m, 14u, l7);
    w0 = w0 ^ l1;
    l8 = w0;
    w0 = l8 < 32u;
    if (w0) goto L1;
    l6 = 15u;
    w0 = f18(m, 15u, l7);
    w0 = w0 ^ l1;
    l8 = w0;
    w0 = l8 < 32u;
    if (w0) goto L1;
    l6 = 16u;
    w0 = f18(m, 16u, l7);
    w0 = w0 ^ l1;
    l8 = w0;
    w0 = l8 < 32u;
    if (w0) goto L1;
    l6 = 17u;
    w0 = f18(m, 17u, l7);
    w0 = w0 ^ l1;
    l8 = w0;
    w0 = l8 < 32u;
    if (w0) goto L1;
    l6 = 18u;
    w0 = f18(m, 18u, l7);
    w0 = w0 ^ l1;
    l8 = w0;
    w0 = l8 < 32u;
    if (w0) goto L1;
    l6 = 19u;
    w0 = f18(m, 19u, l7);
    w0 = w0 ^ l1;
    l8 = w0;
    w0 = l8 < 32u;
    if (w0) goto L1;
    l6 = 20u;
    w0 = f18(m, 20u, l7);
    w0 = w0 ^ l1;
    l8 = w0;
    w0 = l8 < 32u;
    if (w0) goto L1;
    l6 = 21u;
    w0 = f18(m, 21u, l7);
    w0 = w0 ^ l1;
    l8 = w0;
    w0 = l8 < 32u;
    if (w0) goto L1;
    l6 = 22u;
    w0 = f18(m, 22u, l7);
    w0 = w0 ^ l1;
    l8 = w0;
    w0 = l8 < 32u;
    if (w0) goto L1;
    l6 = 23u;
    w0 = f18(m, 23u, l7);
    w0 = w0 ^ l1;
    l8 = w0;
    w0 = l8 < 32u;
    if (w0) goto L1;
    l6 = 24u;
    w0 = f18(m, 24u, l7);
    w0 = w0 ^ l1;
    l8 = w0;
    w0 = l8 < 32u;
    if (w0) goto L1;
    l6 = 25u;
    w0 = f18(m, 25u, l7);
    w0 = w0 ^ l1;
    l8 = w0;
    w0 = l8 < 32u;
    if (w0) goto L1;
    l6 = 26u;
    w0 = f18(m, 26u, l7);
    w0 = w0 ^ l1;
    l8 = w0;
    w0 = l8 < 32u;
    if (w0) goto L1;
    l6 = 27u;
    w0 = f18(m, 27u, l7);
    w0 = w0 ^ l1;
    l8 = w0;
    w0 = l8 < 32u;
    if (w0) goto L1;
    l6 = 28u;
    w0 = f18(m, 28u, l7);
    w0 = w0 ^ l1;
    l8 = w0;
    w0 = l8 < 32u;
    if (w0) goto L1;
    l6 = 29u;
    w0 = f18(m, 29u, l7);
    w0 = w0 ^ l1;
    l8 = w0;
    w0 = l8 < 32u;
    if (w0) goto L1;
    l6 = 30u;
    w0 = f18(m, 30u, l7);
    w0 = w0 ^ l1;
    l8 = w0;
    w0 = l8 < 32u;
    if (w0) goto L1;
    l6 = 31u;
    w0 = f18(m, 31u, l7);
    w0 = w0 ^ l1;
    l8 = w0;
    w0 = l8 < 32u;
    if (w0) goto L1;
    I64_STORE(m, l0 + 56u, 0ull);
    I64_STORE(m, l0 + 48u, 0ull);
    I64_STORE(m, l0 + 40u, 0ull);
    I64_STORE(m, l0 + 32u, 0ull);
    I64_STORE(m, l0 + 24u, 0ull);
    I64_STORE(m, l0 + 16u, 0ull);
    I64_STORE(m, l0 + 8u, 0ull);
    I64_STORE(m, l0, 0ull);
    goto L0;
    TRAP(m);
    return;
    L1:;
    I64_STORE(m, l0, 1ull);
    t0 = l0 + 16ull;
    I32_STORE8(m, t0, l6);
    t0 = l0 + 8ull;
    I64_STORE(m, t0, l2);
    t0 = l0 + 17ull;
    w0 = I32_LOAD(m, l5 + 24u);
    I32_STORE(m, t0, w0);
    t0 = l0 + 20ull;
    w0 = I32_LOAD(m, l5 + 27u);
    I32_STORE(m, t0, w0);
    t0 = l0 + 32ull;
    I32_STORE8(m, t0, l8);
    t0 = l0 + 24ull;
    I64_STORE(m, t0, l3);
    t0 = l0 + 33ull;
    w0 = I32_LOAD(m, l5 + 16u);
    I32_STORE(m, t0, w0);
    t0 = l0 + 36ull;
    w0 = I32_LOAD(m, l5 + 19u);
    I32_STORE(m, t0, w0);
    t0 = l0 + 48ull;
    I32_STORE8(m, t0, 0u);
    t0 = l0 + 40ull;
    I64_STORE(m, t0, 0ull);
    t0 = l0 + 49ull;
    w0 = I32_LOAD(m, l5 + 8u);
    I32_STORE(m, t0, w0);
    t0 = l0 + 52ull;
    w0 = I32_LOAD(m, l5 + 11u);
    I32_STORE(m, t0, w0);
    t0 = l0 + 56ull;
    I64_STORE(m, t0, 2ull);
    L0:;
    t0 = l5 + 32ull;
    m->stack_pointer = t0;
}

/* bech32_small::search::values_at_three */
static void f15(Machine *m, u64 l0, u32 l1, u64 l2, u64 l3, u64 l4) {
    u32 l6 = 0, l7 = 0, l8 = 0, w0;
    u64 l5 = 0, t0, t1;
    FRAME(m, 64u);
    t0 = m->stack_pointer;
    t0 = t0 - 64ull;
    l5 = t0;
    m->stack_pointer = l5;
    I64_STORE(m, l5 + 56u, 0ull);
    I64_STORE(m, l5 + 48u, 0ull);
    I64_STORE(m, l5 + 40u, 0ull);
    I64_STORE(m, l5 + 32u, 0ull);
    I64_STORE(m, l5 + 24u, 0ull);
    I64_STORE(m, l5 + 16u, 0ull);
    I64_STORE(m, l5 + 8u, 0ull);
    I64_STORE(m, l5, 0ull);
    l6 = 0u;
    w0 = f17(m, l2);
    l7 = w0;
    L2:;
    w0 = f18(m, l6, l7);
    w0 = w0 ^ l1;
    f14(m, l5, w0, l3, l4);
    w0 = I32_LOAD8_U(m, l5);
    w0 = w0 != 1u;
    if (w0) goto L3;
    I64_STORE(m, l0, 1ull);
    t0 = l0 + 17ull;
    I32_STORE(m, t0, 0u);
    t0 = l0 + 16ull;
    I32_STORE8(m, t0, l6);
    t0 = l0 + 8ull;
    I64_STORE(m, t0, l2);
    t0 = l0 + 20ull;
    I32_STORE(m, t0, 0u);
    t0 = l0 + 24ull;
    t1 = I64_LOAD(m, l5 + 8u);
    I64_STORE(m, t0, t1);
    t0 = l0 + 32ull;
    t1 = I64_LOAD(m, l5 + 16u);
    I64_STORE(m, t0, t1);
    t0 = l0 + 40ull;
    t1 = I64_LOAD(m, l5 + 24u);
    I64_STORE(m, t0, t1);
    t0 = l0 + 48ull;
    t1 = I64_LOAD(m, l5 + 32u);
    I64_STORE(m, t0, t1);
    t0 = l0 + 56ull;
    I64_STORE(m, t0, 3ull);
    goto L1;
    L3:;
    w0 = l6 & 255u;
    l8 = w0;
    w0 = l6 + 1u;
    l6 = w0;
    w0 = l8 < 31u;
    if (w0) goto L2;
    I64_STORE(m, l0 + 56u, 0ull);
    I64_STORE(m, l0 + 48u, 0ull);
    I64_STORE(m, l0 + 40u, 0ull);
    I64_STORE(m, l0 + 32u, 0ull);
    I64_STORE(m, l0 + 24u, 0ull);
    I64_STORE(m, l0 + 16u, 0ull);
    I64_STORE(m, l0 + 8u, 0ull);
    I64_STORE(m, l0, 0ull);
    L1:;
    t0 = l5 + 64ull;
    m->stack_pointer = t0;
    return;
    TRAP(m);
    return;
}

/* bech32_small::rows::divided_by_x */
static u32 f16(Machine *m, u32 l0) {
    u32 l1 = 0, w0, w1;
    w0 = l0 >> 5;
    l1 = w0;
    w0 = l1 ^ 579596712u;
    w1 = l0 & 1u;
    w0 = w1 ? w0 : l1;
    l1 = w0;
    w0 = l1 ^ 386123600u;
    w1 = l0 & 2u;
    w0 = w1 ? w0 : l1;
    l1 = w0;
    w0 = l1 ^ 748105641u;
    w1 = l0 & 4u;
    w0 = w1 ? w0 : l1;
    l1 = w0;
    w0 = l1 ^ 187587186u;
    w1 = l0 & 8u;
    w0 = w1 ? w0 : l1;
    l1 = w0;
    w0 = l1 ^ 349738477u;
    w1 = l0 & 16u;
    w0 = w1 ? w0 : l1;
    return w0;
    TRAP(m);
    return 0;
}

/* bech32_small::rows::power_of_x */
static u32 f17(Machine *m, u64 l0) {
    u32 l1 = 0, w0, w1;
    u64 l2 = 0, t0;
    w0 = l0 == 0;
    w0 = w0 == 0;
    if (w0) goto L1;
    return 1u;
    L1:;
    l1 = 1u;
    w0 = l0 == 1ull;
    if (w0) goto L3;
    t0 = l0 & 1ull;
    l2 = t0;
    t0 = l0 & 18446744073709551614ull;
    l0 = t0;
    l1 = 1u;
    L4:;
    w0 = l1 >> 23;
    t0 = (u64)w0;
    t0 = t0 & 124ull;
    t0 = t0 + PLACE(128u);
    w0 = I32_LOAD(m, t0);
    w1 = l1 << 5;
    w1 = w1 & 1073741792u;
    w0 = w0 ^ w1;
    l1 = w0;
    w0 = l1 >> 23;
    t0 = (u64)w0;
    t0 = t0 & 124ull;
    t0 = t0 + PLACE(128u);
    w0 = I32_LOAD(m, t0);
    w1 = l1 << 5;
    w1 = w1 & 1073741792u;
    w0 = w0 ^ w1;
    l1 = w0;
    t0 = l0 + 18446744073709551614ull;
    l0 = t0;
    w0 = l0 != 0ull;
    if (w0) goto L4;
    w0 = l2 == 0;
    if (w0) goto L2;
    L3:;
    w0 = l1 >> 23;
    t0 = (u64)w0;
    t0 = t0 & 124ull;
    t0 = t0 + PLACE(128u);
    w0 = I32_LOAD(m, t0);
    w1 = l1 << 5;
    w1 = w1 & 1073741792u;
    w0 = w0 ^ w1;
    l1 = w0;
    L2:;
    return l1;
    TRAP(m);
    return 0;
}

/* bech32_small::rows::times */
static u32 f18(Machine *m, u32 l0, u32 l1) {
    u32 l3 = 0, l4 = 0, l5 = 0, w0, w1;
    u64 l2 = 0, t0;
    w0 = l0 & 255u;
    if (w0) goto L1;
    return 0u;
    L1:;
    t0 = (u64)l0;
    t0 = t0 & 255ull;
    l2 = t0;
    l0 = 0u;
    l3 = 0u;
    w0 = l1 >> 25;
    w0 = w0 & 31u;
    l4 = w0;
    w0 = l4 == 0;
    if (w0) goto L2;
    t0 = l2 + PLACE(256u);
    w0 = I32_LOAD8_U(m, t0);
    t0 = (u64)l4;
    w1 = I32_LOAD8_U(m, t0 + PLACE(256u));
    w0 = w0 + w1;
    w0 = w0 & 255u;
    w0 = I32_REM_U(w0, 31u);
    t0 = (u64)w0;
    w0 = I32_LOAD8_U(m, t0 + PLACE(288u));
    w0 = w0 << 5;
    l3 = w0;
    L2:;
    w0 = l1 >> 20;
    w0 = w0 & 31u;
    l4 = w0;
    w0 = l4 == 0;
    if (w0) goto L3;
    t0 = l2 + PLACE(256u);
    w0 = I32_LOAD8_U(m, t0);
    t0 = (u64)l4;
    w1 = I32_LOAD8_U(m, t0 + PLACE(256u));
    w0 = w0 + w1;
    w0 = w0 & 255u;
    w0 = I32_REM_U(w0, 31u);
    t0 = (u64)w0;
    w0 = I32_LOAD8_U(m, t0 + PLACE(288u));
    l0 = w0;
    L3:;
    w0 = l0 + l3;
    l4 = w0;
    l0 = 0u;
    l3 = 0u;
    w0 = l1 >> 15;
    w0 = w0 & 31u;
    l5 = w0;
    w0 = l5 == 0;
    if (w0) goto L4;
    t0 = l2 + PLACE(256u);
    w0 = I32_LOAD8_U(m, t0);
    t0 = (u64)l5;
    w1 = I32_LOAD8_U(m, t0 + PLACE(256u));
    w0 = w0 + w1;
    w0 = w0 & 255u;
    w0 = I32_REM_U(w0, 31u);
    t0 = (u64)w0;
    w0 = I32_LOAD8_U(m, t0 + PLACE(288u));
    w0 = w0 << 5;
    l3 = w0;
    L4:;
    w0 = l4 << 10;
    w0 = w0 + l3;
    l3 = w0;
    w0 = l1 >> 10;
    w0 = w0 & 31u;
    l4 = w0;
    w0 = l4 == 0;
    if (w0) goto L5;
    t0 = l2 + PLACE(256u);
    w0 = I32_LOAD8_U(m, t0);
    t0 = (u64)l4;
    w1 = I32_LOAD8_U(m, t0 + PLACE(256u));
    w0 = w0 + w1;
    w0 = w0 & 255u;
    w0 = I32_REM_U(w0, 31u);
    t0 = (u64)w0;
    w0 = I32_LOAD8_U(m, t0 + PLACE(288u));
    l0 = w0;
    L5:;
    w0 = l0 + l3;
    l4 = w0;
    l0 = 0u;
    l3 = 0u;
    w0 = l1 >> 5;
    w0 = w0 & 31u;
    l5 = w0;
    w0 = l5 == 0;
    if (w0) goto L6;
    t0 = l2 + PLACE(256u);
    w0 = I32_LOAD8_U(m, t0);
    t0 = (u64)l5;
    w1 = I32_LOAD8_U(m, t0 + PLACE(256u));
    w0 = w0 + w1;
    w0 = w0 & 255u;
    w0 = I32_REM_U(w0, 31u);
    t0 = (u64)w0;
    w0 = I32_LOAD8_U(m, t0 + PLACE(288u));
    w0 = w0 << 5;
    l3 = w0;
    L6:;
    w0 = l4 << 10;
    w0 = w0 + l3;
    l3 = w0;
    w0 = l1 & 31u;
    l1 = w0;
    w0 = l1 == 0;
    if (w0) goto L7;
    t0 = l2 + PLACE(256u);
    w0 = I32_LOAD8_U(m, t0);
    t0 = (u64)l1;
    w1 = I32_LOAD8_U(m, t0 + PLACE(256u));
    w0 = w0 + w1;
    w0 = w0 & 255u;
    w0 = I32_REM_U(w0, 31u);
    t0 = (u64)w0;
    w0 = I32_LOAD8_U(m, t0 + PLACE(288u));
    l0 = w0;
    L7:;
    w0 = l0 + l3;
    return w0;
    TRAP(m);
    return 0;
}

/* bech32_correction::mending::mend */
static void f19(Machine *m, u64 l0, u64 l1, u64 l2, u64 l3) {
    u32 w0, w1;
    u64 t0;
    w0 = l3 == 0;
    if (w0) goto L1;
    t0 = l0 + l1;
    l0 = t0;
    L2:;
    t0 = I64_LOAD(m, l2);
    t0 = t0 ^ 18446744073709551615ull;
    t0 = l0 + t0;
    l1 = t0;
    t0 = I64_LOAD8_U(m, l1);
    w0 = I32_LOAD8_U(m, t0 + PLACE(0u));
    t0 = l2 + 8ull;
    w1 = I32_LOAD8_U(m, t0);
    w0 = w0 ^ w1;
    t0 = (u64)w0;
    t0 = t0 & 255ull;
    t0 = t0 << 2;
    w0 = I32_LOAD(m, t0 + PLACE(320u));
    I32_STORE8(m, l1, w0);
    t0 = l2 + 16ull;
    l2 = t0;
    t0 = l3 + 18446744073709551615ull;
    l3 = t0;
    w0 = l3 != 0ull;
    if (w0) goto L2;
    L1:;
    return;
    TRAP(m);
    return;
}

/* bech32_small::decode::put_parts */
static void f20(Machine *m, u64 l0, u64 l1, u64 l2, u64 l3, u64 l4, u64 l5, u64 l6, u64 l7, u64 l8) {
    u32 l10 = 0, w0;
    u64 l11 = 0, l12 = 0, l13 = 0, t0, t1;
    l10 = 0u;
    l11 = 0ull;
    w0 = l6 < l2;
    if (w0) goto L1;
    t0 = l4 & 7ull;
    t0 = t0 * 5ull;
    t0 = t0 >> 3;
    t1 = l4 >> 3;
    t1 = t1 * 5ull;
    t0 = t0 + t1;
    w0 = l8 < t0;
    if (w0) goto L1;
    t0 = l5 - l1;
    w0 = t0 >= l2;
    if (w0) goto L3;
    t0 = l2 & 3ull;
    l12 = t0;
    l11 = 0ull;
    w0 = l2 < 4ull;
    if (w0) goto L4;
    t0 = l2 & 18446744073709551612ull;
    l13 = t0;
    l11 = 0ull;
    L5:;
    t0 = l5 + l11;
    l2 = t0;
    t0 = l1 + l11;
    l6 = t0;
    w0 = I32_LOAD8_U(m, l6);
    I32_STORE8(m, l2, w0);
    t0 = l2 + 1ull;
    t1 = l6 + 1ull;
    w0 = I32_LOAD8_U(m, t1);
    I32_STORE8(m, t0, w0);
    t0 = l2 + 2ull;
    t1 = l6 + 2ull;
    w0 = I32_LOAD8_U(m, t1);
    I32_STORE8(m, t0, w0);
    t0 = l2 + 3ull;
    t1 = l6 + 3ull;
    w0 = I32_LOAD8_U(m, t1);
    I32_STORE8(m, t0, w0);
    t0 = l11 + 4ull;
    l11 = t0;
    w0 = l13 != l11;
    if (w0) goto L5;
    w0 = l12 == 0;
    if (w0) goto L2;
    L4:;
    t0 = l5 + l11;
    l2 = t0;
    t0 = l1 + l11;
    l11 = t0;
    L6:;
    w0 = I32_LOAD8_U(m, l11);
    I32_STORE8(m, l2, w0);
    t0 = l2 + 1ull;
    l2 = t0;
    t0 = l11 + 1ull;
    l11 = t0;
    t0 = l12 + 18446744073709551615ull;
    l12 = t0;
    w0 = l12 != 0ull;
    if (w0) goto L6;
    goto L2;
    L3:;
    w0 = l2 == 0;
    if (w0) goto L2;
    MEMORY_COPY(m, l5, l1, l2);
    L2:;
    l10 = 1u;
    t0 = f21(m, l3, l4, l7, l8);
    l11 = t0;
    L1:;
    I64_STORE(m, l0 + 8u, l11);
    I32_STORE8(m, l0, l10);
    return;
    TRAP(m);
    return;
}

/* bech32_small::elements::put_bytes */
static u64 f21(Machine *m, u64 l0, u64 l1, u64 l2, u64 l3) {
    u32 l4 = 0, l6 = 0, l8 = 0, w0, w1;
    u64 l5 = 0, l7 = 0, t0;
    w0 = l1 == 0;
    w0 = w0 == 0;
    if (w0) goto L1;
    return 0ull;
    L1:;
    l4 = 0u;
    l5 = 0ull;
    l6 = 0u;
    l7 = 0ull;
    L3:;
    w0 = l6 << 5;
    t0 = l0 + l7;
    t0 = I64_LOAD8_U(m, t0);
    w1 = I32_LOAD8_U(m, t0 + PLACE(0u));
    l6 = w1;
    w0 = w0 + l6;
    l8 = w0;
    w0 = l4 > 2u;
    if (w0) goto L4;
    t0 = l7 + 1ull;
    l7 = t0;
    w0 = l7 >= l1;
    if (w0) goto L2;
    w0 = l8 << 5;
    t0 = l0 + l7;
    t0 = I64_LOAD8_U(m, t0);
    w1 = I32_LOAD8_U(m, t0 + PLACE(0u));
    l6 = w1;
    w0 = w0 + l6;
    l8 = w0;
    w0 = l4 + 5u;
    l4 = w0;
    L4:;
    w0 = l4 + 4294967293u;
    l4 = w0;
    w0 = l5 >= l3;
    if (w0) goto L5;
    t0 = l2 + l5;
    w0 = l8 >> (l4 & 31);
    I32_STORE8(m, t0, w0);
    t0 = l5 + 1ull;
    l5 = t0;
    L5:;
    t0 = l7 + 1ull;
    l7 = t0;
    w0 = l7 < l1;
    if (w0) goto L3;
    L2:;
    return l5;
    TRAP(m);
    return 0;
}

/* bech32_small::encode::encoded */
static void f22(Machine *m, u64 l0, u32 l1, u64 l2, u64 l3, u64 l4, u64 l5, u64 l6, u64 l7, u64 l8) {
    u32 w0;
    u64 l9 = 0, l10 = 0, l11 = 0, t0, t1;
    FRAME(m, 16u);
    t0 = m->stack_pointer;
    t0 = t0 - 16ull;
    l9 = t0;
    m->stack_pointer = l9;
    t0 = l9 + 8ull;
    f23(m, t0, l3, l4);
    w0 = I32_LOAD8_U(m, l9 + 8u);
    if (w0) goto L3;
    w0 = l6 > 1099511627775ull;
    if (w0) goto L5;
    t0 = l6 << 3;
    t0 = t0 | 4ull;
    t0 = I64_DIV_U(t0, 5ull);
    l10 = t0;
    goto L4;
    L5:;
    t0 = I64_DIV_U(l6, 5ull);
    l10 = t0;
    t0 = l10 << 3;
    t1 = l10 * 5ull;
    t1 = l6 - t1;
    w0 = (u32)t1;
    w0 = w0 << 3;
    w0 = w0 | 4u;
    w0 = w0 & 252u;
    w0 = I32_DIV_U(w0, 5u);
    t1 = (u64)w0;
    t0 = t0 + t1;
    w0 = l6 < 11529215046068469760ull;
    t0 = w0 ? t0 : 18446744073709551615ull;
    l10 = t0;
    L4:;
    t0 = l4 + l10;
    t0 = t0 + 1ull;
    l11 = t0;
    w0 = l11 < l10;
    t0 = w0 ? 18446744073709551615ull : l11;
    l10 = t0;
    t0 = l10 + 6ull;
    l11 = t0;
    w0 = l11 < l10;
    t0 = w0 ? 18446744073709551615ull : l11;
    l10 = t0;
    w0 = l2 >= l10;
    if (w0) goto L2;
    I64_STORE(m, l0, 219043332097ull);
    t0 = l0 + 8ull;
    I64_STORE(m, t0, 0ull);
    goto L0;
    L3:;
    w0 = I32_LOAD(m, l9 + 12u);
    l1 = w0;
    I32_STORE(m, l0, 1u);
    t0 = l0 + 8ull;
    I64_STORE(m, t0, 0ull);
    t0 = l0 + 4ull;
    I32_STORE(m, t0, l1);
    goto L0;
    L2:;
    w0 = l8 >= l10;
    if (w0) goto L6;
    I64_STORE(m, l0, 395136991233ull);
    t0 = l0 + 8ull;
    I64_STORE(m, t0, 0ull);
    goto L0;
    L6:;
    t0 = l0 + 8ull;
    t1 = f24(m, l1, l3, l4, 0u, 0u, l5, l6, l7, l8);
    I64_STORE(m, t0, t1);
    I64_STORE(m, l0, 0ull);
    goto L0;
    TRAP(m);
    return;
    L0:;
    t0 = l9 + 16ull;
    m->stack_pointer = t0;
}

/* bech32_small::input::test_part */
static void f23(Machine *m, u64 l0, u64 l1, u64 l2) {
    u32 l4 = 0, l5 = 0, w0;
    u64 l3 = 0, t0, t1;
    FRAME(m, 128u);
    t0 = m->stack_pointer;
    t0 = t0 - 128ull;
    l3 = t0;
    m->stack_pointer = l3;
    I64_STORE(m, l3 + 120u, 0ull);
    I64_STORE(m, l3 + 112u, 0ull);
    I64_STORE(m, l3 + 104u, 0ull);
    l4 = 0u;
    MEMORY_FILL(m, l3, 0u, 104ull);
    t0 = l3 + 104ull;
    f6(m, t0, l1, l2);
    l5 = 1u;
    w0 = I32_LOAD8_U(m, l3 + 104u);
    w0 = w0 == 1u;
    if (w0) goto L2;
    l4 = 2u;
    goto L1;
    L2:;
    t0 = I64_LOAD(m, l3 + 112u);
    t1 = I64_LOAD(m, l3 + 120u);
    f7(m, l3, t0, t1);
    w0 = I32_LOAD8_U(m, l3);
    l5 = w0;
    if (l5) goto L3;
    l5 = 0u;
    goto L1;
    L3:;
    l4 = 11u;
    t0 = I64_LOAD8_U(m, l3 + 8u);
    w0 = (u32)t0;
    switch (w0) {
    case 0: goto L8;
    case 1: goto L1;
    case 2: goto L7;
    case 3: goto L6;
    case 4: goto L5;
    case 5: goto L4;
    default: goto L8;
    }
    L8:;
    l4 = 12u;
    goto L1;
    L7:;
    l4 = 13u;
    goto L1;
    L6:;
    l4 = 14u;
    goto L1;
    L5:;
    l4 = 15u;
    goto L1;
    L4:;
    l4 = 16u;
    L1:;
    I32_STORE(m, l0 + 4u, l4);
    I32_STORE8(m, l0, l5);
    t0 = l3 + 128ull;
    m->stack_pointer = t0;
    return;
    TRAP(m);
    return;
}

/* bech32_small::text::put_in_room */
static u64 f24(Machine *m, u32 l0, u64 l1, u64 l2, u32 l3, u32 l4, u64 l5, u64 l6, u64 l7, u64 l8) {
    u32 l10 = 0, l12 = 0, l15 = 0, l16 = 0, l17 = 0, w0, w1, w2;
    u64 l9 = 0, l11 = 0, l13 = 0, l14 = 0, t0, t1;
    w0 = l2 == 0;
    w0 = w0 == 0;
    if (w0) goto L2;
    l9 = 0ull;
    l10 = 32u;
    goto L1;
    L2:;
    l10 = 1u;
    l9 = l1;
    l11 = l2;
    L3:;
    w0 = l10 << 5;
    w0 = w0 & 1073741792u;
    w1 = I32_LOAD8_U(m, l9);
    l12 = w1;
    w1 = l12 + 32u;
    w2 = l12 + 4294967231u;
    w2 = w2 & 255u;
    w2 = w2 < 26u;
    w1 = w2 ? w1 : l12;
    w1 = w1 & 224u;
    w1 = w1 >> 5;
    w0 = w0 | w1;
    w1 = l10 >> 23;
    t0 = (u64)w1;
    t0 = t0 & 124ull;
    t0 = t0 + PLACE(128u);
    w1 = I32_LOAD(m, t0);
    w0 = w0 ^ w1;
    l10 = w0;
    t0 = l9 + 1ull;
    l9 = t0;
    l13 = 0ull;
    t0 = l11 + 18446744073709551615ull;
    l11 = t0;
    w0 = l11 != 0ull;
    if (w0) goto L3;
    w0 = l10 >> 23;
    t0 = (u64)w0;
    t0 = t0 & 124ull;
    t0 = t0 + PLACE(128u);
    w0 = I32_LOAD(m, t0);
    w1 = l10 << 5;
    w1 = w1 & 1073741792u;
    w0 = w0 ^ w1;
    l10 = w0;
    t0 = l2 + 18446744073709551615ull;
    w0 = t0 == 0;
    l12 = w0;
    if (l12) goto L5;
    t0 = l2 & 1ull;
    l14 = t0;
    t0 = l2 & 18446744073709551614ull;
    l11 = t0;
    l13 = 0ull;
    L6:;
    w0 = l10 << 5;
    w0 = w0 & 1073741792u;
    t0 = l1 + l13;
    l9 = t0;
    w1 = I32_LOAD8_U(m, l9);
    w1 = w1 & 31u;
    w0 = w0 | w1;
    w1 = l10 >> 23;
    t0 = (u64)w1;
    t0 = t0 & 124ull;
    t0 = t0 + PLACE(128u);
    w1 = I32_LOAD(m, t0);
    w0 = w0 ^ w1;
    l10 = w0;
    w0 = l10 << 5;
    w0 = w0 & 1073741792u;
    t0 = l9 + 1ull;
    w1 = I32_LOAD8_U(m, t0);
    w1 = w1 & 31u;
    w0 = w0 | w1;
    w1 = l10 >> 23;
    t0 = (u64)w1;
    t0 = t0 & 124ull;
    t0 = t0 + PLACE(128u);
    w1 = I32_LOAD(m, t0);
    w0 = w0 ^ w1;
    l10 = w0;
    t0 = l13 + 2ull;
    l13 = t0;
    w0 = l11 != l13;
    if (w0) goto L6;
    w0 = l14 == 0;
    if (w0) goto L4;
    L5:;
    w0 = l10 << 5;
    w0 = w0 & 1073741792u;
    t0 = l1 + l13;
    w1 = I32_LOAD8_U(m, t0);
    w1 = w1 & 31u;
    w0 = w0 | w1;
    w1 = l10 >> 23;
    t0 = (u64)w1;
    t0 = t0 & 124ull;
    t0 = t0 + PLACE(128u);
    w1 = I32_LOAD(m, t0);
    w0 = w0 ^ w1;
    l10 = w0;
    L4:;
    w0 = l12 == 0;
    if (w0) goto L8;
    l9 = 0ull;
    l13 = 0ull;
    goto L7;
    L8:;
    t0 = l2 & 1ull;
    l14 = t0;
    t0 = l2 & 18446744073709551614ull;
    l11 = t0;
    l9 = 0ull;
    l13 = 0ull;
    L9:;
    w0 = l9 >= l8;
    if (w0) goto L10;
    t0 = l7 + l9;
    t1 = l1 + l13;
    w0 = I32_LOAD8_U(m, t1);
    l12 = w0;
    w0 = l12 + 32u;
    w1 = l12 + 4294967231u;
    w1 = w1 & 255u;
    w1 = w1 < 26u;
    w0 = w1 ? w0 : l12;
    I32_STORE8(m, t0, w0);
    t0 = l9 + 1ull;
    l9 = t0;
    L10:;
    w0 = l9 >= l8;
    if (w0) goto L11;
    t0 = l7 + l9;
    t1 = l1 + l13;
    t1 = t1 + 1ull;
    w0 = I32_LOAD8_U(m, t1);
    l12 = w0;
    w0 = l12 + 32u;
    w1 = l12 + 4294967231u;
    w1 = w1 & 255u;
    w1 = w1 < 26u;
    w0 = w1 ? w0 : l12;
    I32_STORE8(m, t0, w0);
    t0 = l9 + 1ull;
    l9 = t0;
    L11:;
    t0 = l13 + 2ull;
    l13 = t0;
    w0 = l11 != l13;
    if (w0) goto L9;
    w0 = l14 == 0;
    if (w0) goto L1;
    L7:;
    w0 = l9 >= l8;
    if (w0) goto L1;
    t0 = l7 + l9;
    t1 = l1 + l13;
    w0 = I32_LOAD8_U(m, t1);
    l12 = w0;
    w0 = l12 + 32u;
    w1 = l12 + 4294967231u;
    w1 = w1 & 255u;
    w1 = w1 < 26u;
    w0 = w1 ? w0 : l12;
    I32_STORE8(m, t0, w0);
    t0 = l9 + 1ull;
    l9 = t0;
    L1:;
    w0 = l9 >= l8;
    if (w0) goto L12;
    t0 = l7 + l9;
    I32_STORE8(m, t0, 49u);
    t0 = l9 + 1ull;
    l9 = t0;
    L12:;
    w0 = l3 & 255u;
    w0 = w0 == 0;
    l3 = w0;
    l15 = 0u;
    l16 = 0u;
    l12 = 0u;
    L14:;
    w0 = l3 & 1u;
    if (w0) goto L16;
    l17 = 0u;
    l3 = l4;
    goto L15;
    L16:;
    w0 = l12 & 255u;
    w0 = w0 > 4u;
    if (w0) goto L18;
    w0 = l6 == 0;
    w0 = l16 | w0;
    w0 = w0 & 1u;
    if (w0) goto L19;
    w0 = l15 << 8;
    w1 = I32_LOAD8_U(m, l5);
    l15 = w1;
    w0 = w0 | l15;
    w0 = w0 & 65535u;
    w1 = l12 + 3u;
    l12 = w1;
    w1 = l12 & 255u;
    w0 = w0 >> (w1 & 31);
    w0 = w0 & 31u;
    l3 = w0;
    t0 = l6 + 18446744073709551615ull;
    l6 = t0;
    t0 = l5 + 1ull;
    l5 = t0;
    l16 = 0u;
    goto L17;
    L19:;
    w0 = l12 & 255u;
    w0 = w0 == 0;
    if (w0) goto L13;
    w0 = 5u - l12;
    w0 = w0 & 255u;
    w0 = l15 << (w0 & 31);
    w0 = w0 & 30u;
    l3 = w0;
    l12 = 0u;
    l16 = 1u;
    goto L17;
    L18:;
    w0 = l15 & 255u;
    w1 = l12 + 4294967291u;
    l12 = w1;
    w1 = l12 & 255u;
    w0 = w0 >> (w1 & 31);
    w0 = w0 & 31u;
    l3 = w0;
    L17:;
    l17 = l4;
    L15:;
    w0 = l10 << 5;
    w0 = w0 & 1073741792u;
    w1 = l3 & 255u;
    w0 = w0 + w1;
    w1 = l10 >> 23;
    t0 = (u64)w1;
    t0 = t0 & 124ull;
    t0 = t0 + PLACE(128u);
    w1 = I32_LOAD(m, t0);
    w0 = w0 ^ w1;
    l10 = w0;
    w0 = l9 < l8;
    if (w0) goto L20;
    L21:;
    w0 = l12 & 255u;
    w0 = w0 < 5u;
    if (w0) goto L23;
    w0 = l15 & 255u;
    w1 = l12 + 4294967291u;
    l12 = w1;
    w1 = l12 & 255u;
    w0 = w0 >> (w1 & 31);
    w0 = w0 & 31u;
    l3 = w0;
    goto L22;
    L23:;
    w0 = l6 == 0;
    w0 = l16 | w0;
    w0 = w0 & 1u;
    if (w0) goto L24;
    w0 = l15 << 8;
    w1 = I32_LOAD8_U(m, l5);
    l15 = w1;
    w0 = w0 | l15;
    w0 = w0 & 65535u;
    w1 = l12 + 3u;
    l12 = w1;
    w1 = l12 & 255u;
    w0 = w0 >> (w1 & 31);
    w0 = w0 & 31u;
    l3 = w0;
    t0 = l6 + 18446744073709551615ull;
    l6 = t0;
    t0 = l5 + 1ull;
    l5 = t0;
    l16 = 0u;
    goto L22;
    L24:;
    w0 = l12 & 255u;
    w0 = w0 == 0;
    if (w0) goto L13;
    w0 = 5u - l12;
    w0 = w0 & 255u;
    w0 = l15 << (w0 & 31);
    w0 = w0 & 30u;
    l3 = w0;
    l12 = 0u;
    l16 = 1u;
    L22:;
    w0 = l10 << 5;
    w0 = w0 & 1073741792u;
    w0 = w0 | l3;
    w1 = l10 >> 23;
    t0 = (u64)w1;
    t0 = t0 & 124ull;
    t0 = t0 + PLACE(128u);
    w1 = I32_LOAD(m, t0);
    w0 = w0 ^ w1;
    l10 = w0;
    w0 = l9 >= l8;
    if (w0) goto L21;
    L20:;
    t0 = l7 + l9;
    t1 = (u64)l3;
    t1 = t1 & 255ull;
    t1 = t1 << 2;
    w0 = I32_LOAD(m, t1 + PLACE(320u));
    I32_STORE8(m, t0, w0);
    t0 = l9 + 1ull;
    l9 = t0;
    l3 = 1u;
    l4 = l17;
    goto L14;
    L13:;
    w0 = l10 >> 23;
    t0 = (u64)w0;
    t0 = t0 & 124ull;
    t0 = t0 + PLACE(128u);
    w0 = I32_LOAD(m, t0);
    w1 = l10 << 5;
    w1 = w1 & 1073741792u;
    w2 = l0 >> 25;
    w1 = w1 | w2;
    w0 = w0 ^ w1;
    l10 = w0;
    w0 = l10 << 5;
    w0 = w0 & 1073741792u;
    w1 = l0 >> 20;
    w1 = w1 & 31u;
    w0 = w0 | w1;
    w1 = l10 >> 23;
    t0 = (u64)w1;
    t0 = t0 & 124ull;
    t0 = t0 + PLACE(128u);
    w1 = I32_LOAD(m, t0);
    w0 = w0 ^ w1;
    l10 = w0;
    w0 = l10 << 5;
    w0 = w0 & 1073741792u;
    w1 = l0 >> 15;
    w1 = w1 & 31u;
    w0 = w0 | w1;
    w1 = l10 >> 23;
    t0 = (u64)w1;
    t0 = t0 & 124ull;
    t0 = t0 + PLACE(128u);
    w1 = I32_LOAD(m, t0);
    w0 = w0 ^ w1;
    l10 = w0;
    w0 = l10 << 5;
    w0 = w0 & 1073741792u;
    w1 = l0 >> 10;
    w1 = w1 & 31u;
    w0 = w0 | w1;
    w1 = l10 >> 23;
    t0 = (u64)w1;
    t0 = t0 & 124ull;
    t0 = t0 + PLACE(128u);
    w1 = I32_LOAD(m, t0);
    w0 = w0 ^ w1;
    l10 = w0;
    w0 = l10 << 5;
    w0 = w0 & 1073741792u;
    w1 = l0 >> 5;
    w1 = w1 & 31u;
    w0 = w0 | w1;
    w1 = l10 >> 23;
    t0 = (u64)w1;
    t0 = t0 & 124ull;
    t0 = t0 + PLACE(128u);
    w1 = I32_LOAD(m, t0);
    w0 = w0 ^ w1;
    l10 = w0;
    w0 = l10 << 5;
    w0 = w0 & 1073741792u;
    w1 = l0 & 31u;
    w0 = w0 | w1;
    w1 = l10 >> 23;
    t0 = (u64)w1;
    t0 = t0 & 124ull;
    t0 = t0 + PLACE(128u);
    w1 = I32_LOAD(m, t0);
    w0 = w0 ^ w1;
    l10 = w0;
    w0 = l9 >= l8;
    if (w0) goto L25;
    t0 = l7 + l9;
    w0 = l10 >> 23;
    t1 = (u64)w0;
    t1 = t1 & 124ull;
    t1 = t1 + PLACE(320u);
    w0 = I32_LOAD(m, t1);
    I32_STORE8(m, t0, w0);
    t0 = l9 + 1ull;
    l9 = t0;
    L25:;
    w0 = l9 >= l8;
    if (w0) goto L26;
    t0 = l7 + l9;
    w0 = l10 >> 18;
    t1 = (u64)w0;
    t1 = t1 & 124ull;
    t1 = t1 + PLACE(320u);
    w0 = I32_LOAD(m, t1);
    I32_STORE8(m, t0, w0);
    t0 = l9 + 1ull;
    l9 = t0;
    L26:;
    w0 = l9 >= l8;
    if (w0) goto L27;
    t0 = l7 + l9;
    w0 = l10 >> 13;
    t1 = (u64)w0;
    t1 = t1 & 124ull;
    t1 = t1 + PLACE(320u);
    w0 = I32_LOAD(m, t1);
    I32_STORE8(m, t0, w0);
    t0 = l9 + 1ull;
    l9 = t0;
    L27:;
    w0 = l9 >= l8;
    if (w0) goto L28;
    t0 = l7 + l9;
    w0 = l10 >> 8;
    t1 = (u64)w0;
    t1 = t1 & 124ull;
    t1 = t1 + PLACE(320u);
    w0 = I32_LOAD(m, t1);
    I32_STORE8(m, t0, w0);
    t0 = l9 + 1ull;
    l9 = t0;
    L28:;
    w0 = l9 >= l8;
    if (w0) goto L29;
    t0 = l7 + l9;
    w0 = l10 >> 3;
    t1 = (u64)w0;
    t1 = t1 & 124ull;
    t1 = t1 + PLACE(320u);
    w0 = I32_LOAD(m, t1);
    I32_STORE8(m, t0, w0);
    t0 = l9 + 1ull;
    l9 = t0;
    L29:;
    w0 = l9 >= l8;
    if (w0) goto L30;
    t0 = l7 + l9;
    w0 = l10 << 2;
    t1 = (u64)w0;
    t1 = t1 & 124ull;
    t1 = t1 + PLACE(320u);
    w0 = I32_LOAD(m, t1);
    I32_STORE8(m, t0, w0);
    t0 = l9 + 1ull;
    l9 = t0;
    L30:;
    return l9;
    TRAP(m);
    return 0;
}

/* bech32_small::segwit::number_of_long */
static u32 f25(Machine *m, u64 l0, u64 l1) {
    u32 l3 = 0, w0;
    u64 l2 = 0, t0;
    FRAME(m, 32u);
    t0 = m->stack_pointer;
    t0 = t0 - 32ull;
    l2 = t0;
    m->stack_pointer = l2;
    I64_STORE(m, l2 + 24u, 0ull);
    I64_STORE(m, l2 + 16u, 0ull);
    I64_STORE(m, l2 + 8u, 0ull);
    t0 = l2 + 8ull;
    f6(m, t0, l0, l1);
    w0 = I32_LOAD8_U(m, l2 + 8u);
    l3 = w0;
    t0 = l2 + 32ull;
    m->stack_pointer = t0;
    w0 = l3 == 1u;
    w0 = w0 ? 41u : 2u;
    return w0;
    TRAP(m);
    return 0;
}

/* bech32_decode::reading::Reading+Bech32m::refusal_by */
static void f26(Machine *m, u64 l0, u64 l1, u32 l2) {
    u32 l5 = 0, l6 = 0, l7 = 0, l8 = 0, l9 = 0, l10 = 0, l11 = 0, l12 = 0, w0;
    u64 l3 = 0, l4 = 0, l13 = 0, t0, t1;
    FRAME(m, 32u);
    t0 = m->stack_pointer;
    t0 = t0 - 32ull;
    l3 = t0;
    w0 = l2 & 255u;
    if (w0) goto L4;
    t0 = l1 + 8ull;
    t0 = I64_LOAD(m, t0);
    l4 = t0;
    w0 = l4 >= 1024ull;
    if (w0) goto L3;
    t0 = l1 + 40ull;
    t0 = I64_LOAD(m, t0);
    w0 = t0 > 5ull;
    if (w0) goto L5;
    l5 = 0u;
    I32_STORE(m, l3 + 23u, 0u);
    l4 = 0ull;
    I64_STORE(m, l3 + 16u, 0ull);
    I64_STORE(m, l3 + 8u, 0ull);
    l6 = 2u;
    l2 = 1u;
    l7 = 0u;
    l8 = 0u;
    l9 = 0u;
    l10 = 0u;
    l11 = 0u;
    l1 = 0ull;
    l12 = 0u;
    l13 = 0ull;
    goto L2;
    L5:;
    l2 = 0u;
    l5 = 0u;
    l7 = 0u;
    l8 = 0u;
    l9 = 0u;
    l10 = 0u;
    l11 = 0u;
    t0 = l1 + 48ull;
    w0 = I32_LOAD(m, t0);
    l12 = w0;
    w0 = l12 == 1u;
    if (w0) goto L6;
    w0 = l12 & 31u;
    l5 = w0;
    w0 = l12 >> 25;
    w0 = w0 & 31u;
    l11 = w0;
    w0 = l12 >> 20;
    w0 = w0 & 31u;
    l10 = w0;
    w0 = l12 >> 15;
    w0 = w0 & 31u;
    l9 = w0;
    w0 = l12 >> 10;
    w0 = w0 & 31u;
    l8 = w0;
    w0 = l12 >> 5;
    w0 = w0 & 31u;
    l7 = w0;
    l2 = 1u;
    L6:;
    I32_STORE(m, l3 + 23u, 0u);
    l4 = 0ull;
    I64_STORE(m, l3 + 16u, 0ull);
    I64_STORE(m, l3 + 8u, 0ull);
    l6 = l2;
    l1 = 0ull;
    l12 = l2;
    l13 = 0ull;
    goto L2;
    L4:;
    t0 = l1 + 8ull;
    t0 = I64_LOAD(m, t0);
    l4 = t0;
    w0 = l4 >= 1024ull;
    if (w0) goto L3;
    t0 = l1 + 40ull;
    t0 = I64_LOAD(m, t0);
    w0 = t0 > 5ull;
    if (w0) goto L7;
    l5 = 0u;
    I32_STORE(m, l3 + 23u, 0u);
    l13 = 0ull;
    I64_STORE(m, l3 + 16u, 0ull);
    I64_STORE(m, l3 + 8u, 0ull);
    l6 = 2u;
    l2 = 1u;
    l7 = 0u;
    l8 = 0u;
    l9 = 0u;
    l10 = 0u;
    l11 = 0u;
    l4 = 0ull;
    l1 = 0ull;
    l12 = 0u;
    goto L2;
    L7:;
    l4 = 0ull;
    l2 = 0u;
    l5 = 0u;
    l7 = 0u;
    l8 = 0u;
    l9 = 0u;
    l10 = 0u;
    l11 = 0u;
    l12 = 0u;
    l13 = 0ull;
    t0 = l1 + 48ull;
    w0 = I32_LOAD(m, t0);
    l6 = w0;
    w0 = l6 == 734539939u;
    if (w0) goto L8;
    w0 = l6 & 31u;
    l5 = w0;
    w0 = l6 >> 25;
    w0 = w0 & 31u;
    l11 = w0;
    w0 = l6 >> 20;
    w0 = w0 & 31u;
    l10 = w0;
    w0 = l6 >> 15;
    w0 = w0 & 31u;
    l9 = w0;
    w0 = l6 >> 10;
    w0 = w0 & 31u;
    l8 = w0;
    w0 = l6 >> 5;
    w0 = w0 & 31u;
    l7 = w0;
    l13 = 1521108417953923072ull;
    l12 = 3u;
    l2 = 1u;
    L8:;
    I32_STORE(m, l3 + 23u, 0u);
    I64_STORE(m, l3 + 16u, 0ull);
    I64_STORE(m, l3 + 8u, 0ull);
    l6 = l2;
    l1 = 0ull;
    goto L2;
    L3:;
    l6 = 0u;
    I32_STORE(m, l3 + 23u, 0u);
    l13 = 0ull;
    I64_STORE(m, l3 + 16u, 0ull);
    I64_STORE(m, l3 + 8u, 0ull);
    l1 = 1023ull;
    l2 = 1u;
    l5 = 0u;
    l7 = 0u;
    l8 = 0u;
    l9 = 0u;
    l10 = 0u;
    l11 = 0u;
    l12 = 0u;
    L2:;
    if (l2) goto L0;
    TRAP(m);
    return;
    L0:;
    I32_STORE8(m, l0, l6);
    t0 = l0 + 16ull;
    I64_STORE(m, t0, l1);
    t0 = l0 + 8ull;
    I64_STORE(m, t0, l4);
    t0 = l0 + 7ull;
    I32_STORE8(m, t0, 0u);
    t0 = l0 + 6ull;
    I32_STORE8(m, t0, l11);
    t0 = l0 + 5ull;
    I32_STORE8(m, t0, l10);
    t0 = l0 + 4ull;
    I32_STORE8(m, t0, l9);
    t0 = l0 + 3ull;
    I32_STORE8(m, t0, l8);
    t0 = l0 + 2ull;
    I32_STORE8(m, t0, l7);
    t0 = l0 + 1ull;
    I32_STORE8(m, t0, l5);
    t0 = l0 + 32ull;
    t1 = I64_LOAD(m, l3 + 8u);
    I64_STORE(m, t0, t1);
    t0 = l0 + 40ull;
    t1 = I64_LOAD(m, l3 + 16u);
    I64_STORE(m, t0, t1);
    t0 = l0 + 47ull;
    w0 = I32_LOAD(m, l3 + 23u);
    I32_STORE(m, t0, w0);
    t0 = l0 + 24ull;
    t1 = (u64)l12;
    t1 = t1 << 16;
    t1 = t1 | l13;
    I64_STORE(m, t0, t1);
}

/* bech32_check */
static u32 of_bech32_check(Machine *m, u32 l0, u64 l1, u64 l2, u64 l3, u64 l4) {
    u32 w0;
    w0 = ENTER(m);
    w0 = w0 == 0;
    if (w0) goto L0;
    TRAP(m);
    TRAP(m);
    return 0;
    L0:;
    w0 = f28(m, l0, l1, l2, l3, l4);
    l0 = w0;
    LEAVE(m);
    return l0;
}

/* rattle::export bech32_check */
static u32 f28(Machine *m, u32 l0, u64 l1, u64 l2, u64 l3, u64 l4) {
    u32 w0;
    u64 l5 = 0, t0, t1;
    FRAME(m, 32u);
    t0 = m->stack_pointer;
    t0 = t0 - 32ull;
    l5 = t0;
    m->stack_pointer = l5;
    I64_STORE(m, l5 + 24u, 0ull);
    I64_STORE(m, l5 + 16u, 0ull);
    I64_STORE(m, l5 + 8u, 0ull);
    t0 = l5 + 8ull;
    w0 = l1 == 0;
    t1 = w0 ? 4096ull : 0ull;
    t1 = l1 + t1;
    f3(m, t0, l0, t1, l2);
    w0 = I32_LOAD8_U(m, l5 + 8u);
    if (w0) goto L1;
    t0 = I64_LOAD(m, l5 + 16u);
    I64_STORE(m, l3, t0);
    t0 = I64_LOAD(m, l5 + 24u);
    I64_STORE(m, l4, t0);
    l0 = 0u;
    goto L0;
    TRAP(m);
    return 0;
    L1:;
    w0 = I32_LOAD(m, l5 + 12u);
    l0 = w0;
    L0:;
    t0 = l5 + 32ull;
    m->stack_pointer = t0;
    return l0;
}

/* bech32_correct */
static u32 of_bech32_correct(Machine *m, u32 l0, u64 l1, u64 l2, u64 l3, u64 l4, u64 l5, u64 l6, u64 l7, u64 l8, u64 l9, u64 l10, u64 l11, u64 l12) {
    u32 w0;
    w0 = ENTER(m);
    w0 = w0 == 0;
    if (w0) goto L0;
    TRAP(m);
    TRAP(m);
    return 0;
    L0:;
    w0 = f30(m, l0, l1, l2, l3, l4, l5, l6, l7, l8, l9, l10, l11, l12);
    l0 = w0;
    LEAVE(m);
    return l0;
}

/* rattle::export bech32_correct */
static u32 f30(Machine *m, u32 l0, u64 l1, u64 l2, u64 l3, u64 l4, u64 l5, u64 l6, u64 l7, u64 l8, u64 l9, u64 l10, u64 l11, u64 l12) {
    u32 l14 = 0, w0, w1;
    u64 l13 = 0, l15 = 0, l16 = 0, l17 = 0, l18 = 0, l19 = 0, l20 = 0, t0, t1, t2;
    FRAME(m, 192u);
    t0 = m->stack_pointer;
    t0 = t0 - 192ull;
    l13 = t0;
    m->stack_pointer = l13;
    I64_STORE(m, l13 + 72u, 0ull);
    I64_STORE(m, l13 + 80u, 0ull);
    I64_STORE(m, l13 + 88u, 0ull);
    I64_STORE(m, l13 + 96u, 0ull);
    I64_STORE(m, l13 + 104u, 0ull);
    I64_STORE(m, l13 + 112u, 0ull);
    I64_STORE(m, l13 + 120u, 0ull);
    I64_STORE(m, l13 + 128u, 0ull);
    I64_STORE(m, l13 + 8u, 0ull);
    I64_STORE(m, l13 + 16u, 0ull);
    I64_STORE(m, l13 + 24u, 0ull);
    I64_STORE(m, l13 + 32u, 0ull);
    I64_STORE(m, l13 + 40u, 0ull);
    I64_STORE(m, l13 + 48u, 0ull);
    I64_STORE(m, l13 + 56u, 0ull);
    I64_STORE(m, l13 + 64u, 0ull);
    l14 = 4u;
    w0 = l0 + 4294967295u;
    switch (w0) {
    case 0: goto L2;
    case 1: goto L3;
    default: goto L1;
    }
    L3:;
    l0 = 734539939u;
    L2:;
    t0 = l13 + 72ull;
    w0 = l1 == 0;
    t1 = w0 ? 4096ull : 0ull;
    l15 = t1;
    t1 = l1 + l15;
    l16 = t1;
    f5(m, t0, l16, l2);
    w0 = I32_LOAD8_U(m, l13 + 72u);
    if (w0) goto L4;
    t0 = I64_LOAD(m, l13 + 88u);
    w0 = t0 <= 1023ull;
    if (w0) goto L5;
    l14 = 31u;
    goto L1;
    L5:;
    t0 = I64_LOAD(m, l13 + 120u);
    l17 = t0;
    w0 = l17 > 5ull;
    if (w0) goto L6;
    l14 = 32u;
    goto L1;
    L6:;
    t0 = l13 + 8ull;
    w0 = I32_LOAD(m, l13 + 128u);
    w1 = l3 == 0;
    t1 = w1 ? 4096ull : 0ull;
    t1 = l3 + t1;
    f10(m, t0, l0, l17, w0, t1, l4);
    w0 = I32_LOAD8_U(m, l13 + 8u);
    w0 = w0 == 1u;
    if (w0) goto L7;
    l14 = 34u;
    goto L1;
    L7:;
    t0 = I64_LOAD(m, l13 + 64u);
    l17 = t0;
    I64_STORE(m, l13 + 184u, l17);
    t0 = I64_LOAD(m, l13 + 56u);
    I64_STORE(m, l13 + 176u, t0);
    t0 = I64_LOAD(m, l13 + 48u);
    I64_STORE(m, l13 + 168u, t0);
    t0 = I64_LOAD(m, l13 + 40u);
    I64_STORE(m, l13 + 160u, t0);
    t0 = I64_LOAD(m, l13 + 32u);
    I64_STORE(m, l13 + 152u, t0);
    t0 = I64_LOAD(m, l13 + 24u);
    I64_STORE(m, l13 + 144u, t0);
    t0 = I64_LOAD(m, l13 + 16u);
    I64_STORE(m, l13 + 136u, t0);
    l14 = 92u;
    w0 = l11 < l2;
    if (w0) goto L1;
    w0 = l6 < l17;
    if (w0) goto L1;
    w0 = l8 < l17;
    if (w0) goto L1;
    w0 = l10 == 0;
    t0 = w0 ? 4096ull : 0ull;
    l18 = t0;
    t0 = l10 + l18;
    l8 = t0;
    w0 = l17 == 0;
    if (w0) goto L8;
    w0 = l7 == 0;
    t0 = w0 ? 4096ull : 0ull;
    t0 = l7 + t0;
    l7 = t0;
    w0 = l5 == 0;
    t0 = w0 ? 4096ull : 0ull;
    t0 = l5 + t0;
    l19 = t0;
    l11 = 0ull;
    w0 = l17 == 1ull;
    if (w0) goto L9;
    t0 = l17 & 1ull;
    l20 = t0;
    t0 = l17 & 18446744073709551614ull;
    l5 = t0;
    l11 = 0ull;
    t0 = l13 + 136ull;
    l3 = t0;
    l4 = l19;
    L10:;
    t0 = I64_LOAD(m, l3);
    I64_STORE(m, l4, t0);
    t0 = l7 + l11;
    l6 = t0;
    t0 = l3 + 8ull;
    w0 = I32_LOAD8_U(m, t0);
    I32_STORE8(m, l6, w0);
    t0 = l4 + 8ull;
    t1 = l3 + 16ull;
    t1 = I64_LOAD(m, t1);
    I64_STORE(m, t0, t1);
    t0 = l6 + 1ull;
    t1 = l3 + 24ull;
    w0 = I32_LOAD8_U(m, t1);
    I32_STORE8(m, t0, w0);
    t0 = l4 + 16ull;
    l4 = t0;
    t0 = l3 + 32ull;
    l3 = t0;
    t0 = l11 + 2ull;
    l11 = t0;
    w0 = l5 != l11;
    if (w0) goto L10;
    w0 = l20 == 0;
    if (w0) goto L8;
    L9:;
    t0 = l11 << 3;
    t0 = l19 + t0;
    t1 = l13 + 136ull;
    t2 = l11 << 4;
    t1 = t1 + t2;
    l3 = t1;
    t1 = I64_LOAD(m, l3);
    I64_STORE(m, t0, t1);
    t0 = l7 + l11;
    t1 = l3 + 8ull;
    w0 = I32_LOAD8_U(m, t1);
    I32_STORE8(m, t0, w0);
    L8:;
    t0 = l13 + 16ull;
    l5 = t0;
    t0 = l8 - l16;
    w0 = t0 >= l2;
    if (w0) goto L13;
    t0 = l2 & 3ull;
    l6 = t0;
    l4 = 0ull;
    w0 = l2 < 4ull;
    if (w0) goto L14;
    t0 = l2 & 18446744073709551612ull;
    l7 = t0;
    l4 = 0ull;
    L15:;
    t0 = l8 + l4;
    l3 = t0;
    t0 = l16 + l4;
    l11 = t0;
    w0 = I32_LOAD8_U(m, l11);
    I32_STORE8(m, l3, w0);
    t0 = l3 + 1ull;
    t1 = l11 + 1ull;
    w0 = I32_LOAD8_U(m, t1);
    I32_STORE8(m, t0, w0);
    t0 = l3 + 2ull;
    t1 = l11 + 2ull;
    w0 = I32_LOAD8_U(m, t1);
    I32_STORE8(m, t0, w0);
    t0 = l3 + 3ull;
    t1 = l11 + 3ull;
    w0 = I32_LOAD8_U(m, t1);
    I32_STORE8(m, t0, w0);
    t0 = l4 + 4ull;
    l4 = t0;
    w0 = l7 != l4;
    if (w0) goto L15;
    w0 = l6 == 0;
    if (w0) goto L12;
    L14:;
    t0 = l18 + l4;
    t0 = l10 + t0;
    l3 = t0;
    t0 = l15 + l4;
    t0 = l1 + t0;
    l1 = t0;
    L16:;
    w0 = I32_LOAD8_U(m, l1);
    I32_STORE8(m, l3, w0);
    t0 = l3 + 1ull;
    l3 = t0;
    t0 = l1 + 1ull;
    l1 = t0;
    t0 = l6 + 18446744073709551615ull;
    l6 = t0;
    w0 = l6 != 0ull;
    if (w0) goto L16;
    goto L12;
    L13:;
    w0 = l2 == 0;
    l14 = w0;
    if (l14) goto L17;
    MEMORY_COPY(m, l8, l16, l2);
    L17:;
    if (l14) goto L11;
    L12:;
    l1 = 0ull;
    w0 = l2 == 1ull;
    if (w0) goto L18;
    t0 = l2 & 1ull;
    l10 = t0;
    t0 = l2 & 18446744073709551614ull;
    l4 = t0;
    l1 = 0ull;
    L19:;
    t0 = l8 + l1;
    l3 = t0;
    w0 = I32_LOAD8_U(m, l3);
    l14 = w0;
    w0 = l14 + 32u;
    w1 = l14 + 4294967231u;
    w1 = w1 & 255u;
    w1 = w1 < 26u;
    w0 = w1 ? w0 : l14;
    I32_STORE8(m, l3, w0);
    t0 = l3 + 1ull;
    l3 = t0;
    w0 = I32_LOAD8_U(m, l3);
    l14 = w0;
    w0 = l14 + 32u;
    w1 = l14 + 4294967231u;
    w1 = w1 & 255u;
    w1 = w1 < 26u;
    w0 = w1 ? w0 : l14;
    I32_STORE8(m, l3, w0);
    t0 = l1 + 2ull;
    l1 = t0;
    w0 = l4 != l1;
    if (w0) goto L19;
    w0 = l10 == 0;
    if (w0) goto L11;
    L18:;
    t0 = l8 + l1;
    l1 = t0;
    w0 = I32_LOAD8_U(m, l1);
    l14 = w0;
    w0 = l14 + 32u;
    w1 = l14 + 4294967231u;
    w1 = w1 & 255u;
    w1 = w1 < 26u;
    w0 = w1 ? w0 : l14;
    I32_STORE8(m, l1, w0);
    L11:;
    f19(m, l8, l2, l5, l17);
    I64_STORE(m, l9, l17);
    I64_STORE(m, l12, l2);
    l14 = 0u;
    goto L1;
    L4:;
    w0 = I32_LOAD(m, l13 + 76u);
    l14 = w0;
    L1:;
    t0 = l13 + 192ull;
    m->stack_pointer = t0;
    return l14;
    TRAP(m);
    return 0;
}

/* bech32_decode */
static u32 of_bech32_decode(Machine *m, u64 l0, u64 l1, u64 l2, u64 l3, u64 l4, u64 l5, u64 l6, u64 l7) {
    u32 l8 = 0, w0;
    w0 = ENTER(m);
    w0 = w0 == 0;
    if (w0) goto L0;
    TRAP(m);
    TRAP(m);
    return 0;
    L0:;
    w0 = f32(m, l0, l1, l2, l3, l4, l5, l6, l7);
    l8 = w0;
    LEAVE(m);
    return l8;
}

/* rattle::export bech32_decode */
static u32 f32(Machine *m, u64 l0, u64 l1, u64 l2, u64 l3, u64 l4, u64 l5, u64 l6, u64 l7) {
    u32 l9 = 0, w0;
    u64 l8 = 0, l10 = 0, l11 = 0, t0, t1, t2;
    FRAME(m, 80u);
    t0 = m->stack_pointer;
    t0 = t0 - 80ull;
    l8 = t0;
    m->stack_pointer = l8;
    I64_STORE(m, l8 + 72u, 0ull);
    I64_STORE(m, l8 + 64u, 0ull);
    I64_STORE(m, l8 + 56u, 0ull);
    I64_STORE(m, l8 + 48u, 0ull);
    I64_STORE(m, l8 + 40u, 0ull);
    I64_STORE(m, l8 + 32u, 0ull);
    I64_STORE(m, l8 + 24u, 0ull);
    I64_STORE(m, l8 + 16u, 0ull);
    t0 = l8 + 16ull;
    w0 = l0 == 0;
    t1 = w0 ? 4096ull : 0ull;
    t1 = l0 + t1;
    f5(m, t0, t1, l1);
    w0 = I32_LOAD8_U(m, l8 + 16u);
    if (w0) goto L4;
    t0 = I64_LOAD(m, l8 + 32u);
    w0 = t0 <= 1023ull;
    if (w0) goto L5;
    l9 = 31u;
    goto L0;
    L5:;
    t0 = I64_LOAD(m, l8 + 64u);
    l0 = t0;
    w0 = l0 >= 6ull;
    if (w0) goto L6;
    l9 = 32u;
    goto L0;
    L6:;
    t0 = I64_LOAD(m, l8 + 56u);
    l10 = t0;
    t0 = I64_LOAD(m, l8 + 48u);
    l1 = t0;
    t0 = I64_LOAD(m, l8 + 40u);
    l11 = t0;
    w0 = I32_LOAD(m, l8 + 72u);
    l9 = w0;
    w0 = l9 == 1u;
    if (w0) goto L3;
    w0 = l9 == 734539939u;
    if (w0) goto L3;
    l9 = 33u;
    goto L0;
    L4:;
    w0 = I32_LOAD(m, l8 + 20u);
    l9 = w0;
    goto L0;
    L3:;
    t0 = l0 + 18446744073709551610ull;
    w0 = l2 == 0;
    t1 = w0 ? 4096ull : 0ull;
    t1 = l2 + t1;
    w0 = l5 == 0;
    t2 = w0 ? 4096ull : 0ull;
    t2 = l5 + t2;
    f20(m, l8, l11, l1, l10, t0, t1, l3, t2, l6);
    w0 = I32_LOAD8_U(m, l8);
    w0 = w0 == 1u;
    if (w0) goto L1;
    l9 = 92u;
    goto L0;
    TRAP(m);
    return 0;
    L1:;
    t0 = I64_LOAD(m, l8 + 8u);
    l0 = t0;
    I64_STORE(m, l4, l1);
    I64_STORE(m, l7, l0);
    l9 = 0u;
    L0:;
    t0 = l8 + 80ull;
    m->stack_pointer = t0;
    return l9;
}

/* bech32_encode */
static u32 of_bech32_encode(Machine *m, u32 l0, u64 l1, u64 l2, u64 l3, u64 l4, u64 l5, u64 l6, u64 l7) {
    u32 w0;
    w0 = ENTER(m);
    w0 = w0 == 0;
    if (w0) goto L0;
    TRAP(m);
    TRAP(m);
    return 0;
    L0:;
    w0 = f34(m, l0, l1, l2, l3, l4, l5, l6, l7);
    l0 = w0;
    LEAVE(m);
    return l0;
}

/* rattle::export bech32_encode */
static u32 f34(Machine *m, u32 l0, u64 l1, u64 l2, u64 l3, u64 l4, u64 l5, u64 l6, u64 l7) {
    u32 w0;
    u64 l8 = 0, t0;
    FRAME(m, 16u);
    t0 = m->stack_pointer;
    t0 = t0 - 16ull;
    l8 = t0;
    m->stack_pointer = l8;
    w0 = l5 == 0;
    t0 = w0 ? 4096ull : 0ull;
    t0 = l5 + t0;
    l5 = t0;
    w0 = l3 == 0;
    t0 = w0 ? 4096ull : 0ull;
    t0 = l3 + t0;
    l3 = t0;
    w0 = l1 == 0;
    t0 = w0 ? 4096ull : 0ull;
    t0 = l1 + t0;
    l1 = t0;
    I64_STORE(m, l8 + 8u, 0ull);
    I64_STORE(m, l8, 0ull);
    w0 = l0 + 4294967295u;
    switch (w0) {
    case 0: goto L4;
    case 1: goto L7;
    case 2: goto L6;
    case 3: goto L5;
    default: goto L1;
    }
    L7:;
    f22(m, l8, 734539939u, 1023ull, l1, l2, l3, l4, l5, l6);
    goto L3;
    L6:;
    f22(m, l8, 1u, 7089ull, l1, l2, l3, l4, l5, l6);
    goto L3;
    L5:;
    f22(m, l8, 734539939u, 7089ull, l1, l2, l3, l4, l5, l6);
    goto L3;
    L4:;
    f22(m, l8, 1u, 1023ull, l1, l2, l3, l4, l5, l6);
    L3:;
    w0 = I32_LOAD8_U(m, l8);
    w0 = w0 == 0;
    if (w0) goto L8;
    w0 = I32_LOAD(m, l8 + 4u);
    l0 = w0;
    goto L0;
    L8:;
    t0 = I64_LOAD(m, l8 + 8u);
    I64_STORE(m, l7, t0);
    l0 = 0u;
    goto L0;
    TRAP(m);
    return 0;
    L1:;
    l0 = 4u;
    L0:;
    t0 = l8 + 16ull;
    m->stack_pointer = t0;
    return l0;
}

/* bech32_fault */
static u32 of_bech32_fault(Machine *m, u32 l0, u64 l1, u64 l2, u64 l3) {
    u32 w0;
    w0 = ENTER(m);
    w0 = w0 == 0;
    if (w0) goto L0;
    TRAP(m);
    TRAP(m);
    return 0;
    L0:;
    w0 = f36(m, l0, l1, l2, l3);
    l0 = w0;
    LEAVE(m);
    return l0;
}

/* rattle::export bech32_fault */
static u32 f36(Machine *m, u32 l0, u64 l1, u64 l2, u64 l3) {
    u32 l7 = 0, l8 = 0, l9 = 0, l10 = 0, w0, w1;
    u64 l4 = 0, l5 = 0, l6 = 0, l11 = 0, l12 = 0, t0, t1;
    FRAME(m, 32u);
    t0 = m->stack_pointer;
    t0 = t0 - 32ull;
    l4 = t0;
    m->stack_pointer = l4;
    l5 = l4;
    I64_STORE(m, l5 + 24u, 0ull);
    I64_STORE(m, l5 + 16u, 0ull);
    I64_STORE(m, l5 + 8u, 0ull);
    t0 = l5 + 8ull;
    w0 = l1 == 0;
    t1 = w0 ? 4096ull : 0ull;
    t1 = l1 + t1;
    l6 = t1;
    f3(m, t0, l0, l6, l2);
    w0 = I32_LOAD(m, l5 + 12u);
    w1 = I32_LOAD8_U(m, l5 + 8u);
    w0 = w1 ? w0 : 0u;
    l7 = w0;
    w0 = l7 + 4294967275u;
    switch (w0) {
    case 0: goto L4;
    case 1: goto L1;
    case 2: goto L0;
    default: goto L2;
    }
    L4:;
    w0 = l2 == 0;
    w0 = w0 == 0;
    if (w0) goto L5;
    l2 = 0ull;
    goto L0;
    L5:;
    t0 = l6 + 18446744073709551615ull;
    l1 = t0;
    L6:;
    t0 = l1 + l2;
    w0 = I32_LOAD8_U(m, t0);
    l0 = w0;
    w0 = l0 + 4294967248u;
    w0 = w0 & 255u;
    w0 = w0 > 9u;
    w1 = l0 & 223u;
    w1 = w1 + 4294967231u;
    w1 = w1 & 255u;
    w1 = w1 > 25u;
    w0 = w0 & w1;
    if (w0) goto L8;
    w0 = l0 | 32u;
    l0 = w0;
    w0 = l0 ^ 111u;
    l8 = w0;
    w0 = l0 ^ 105u;
    l9 = w0;
    w0 = l0 ^ 98u;
    l10 = w0;
    w0 = l0 ^ 49u;
    l0 = w0;
    w0 = l10 < l0;
    w0 = w0 ? l10 : l0;
    l0 = w0;
    w0 = l9 < l0;
    w0 = w0 ? l9 : l0;
    l0 = w0;
    w0 = l8 < l0;
    w0 = w0 ? l8 : l0;
    if (w0) goto L7;
    L8:;
    t0 = l6 + 18446744073709551615ull;
    l4 = t0;
    L10:;
    t0 = l4 + l2;
    w0 = I32_LOAD8_S(m, t0);
    w0 = SIGNED_32(w0) <= SIGNED_32(4294967231u);
    if (w0) goto L11;
    l1 = l2;
    goto L9;
    L11:;
    l1 = 0ull;
    t0 = l2 + 18446744073709551615ull;
    l2 = t0;
    w0 = l2 != 0ull;
    if (w0) goto L10;
    L9:;
    w0 = l1 != 0ull;
    t0 = (u64)w0;
    t0 = l1 - t0;
    l2 = t0;
    goto L0;
    L7:;
    t0 = l2 + 18446744073709551615ull;
    l2 = t0;
    w0 = l2 == 0;
    w0 = w0 == 0;
    if (w0) goto L6;
    l2 = 0ull;
    goto L0;
    TRAP(m);
    return 0;
    L2:;
    w0 = l7 < 11u;
    if (w0) goto L12;
    w0 = l7 > 12u;
    if (w0) goto L13;
    w0 = l2 == 0;
    w0 = w0 == 0;
    if (w0) goto L14;
    l2 = 0ull;
    goto L0;
    L14:;
    t0 = l6 + 18446744073709551615ull;
    l4 = t0;
    L16:;
    t0 = l4 + l2;
    w0 = I32_LOAD8_U(m, t0);
    w0 = w0 != 49u;
    if (w0) goto L17;
    l1 = l2;
    goto L15;
    L17:;
    l1 = 0ull;
    t0 = l2 + 18446744073709551615ull;
    l2 = t0;
    w0 = l2 != 0ull;
    if (w0) goto L16;
    L15:;
    w0 = l1 != 0ull;
    t0 = (u64)w0;
    t0 = l1 - t0;
    l2 = t0;
    goto L0;
    L13:;
    w0 = l7 > 15u;
    if (w0) goto L18;
    w0 = l2 == 0;
    w0 = w0 == 0;
    if (w0) goto L19;
    l2 = 0ull;
    goto L0;
    L19:;
    t0 = l6 + 18446744073709551615ull;
    l4 = t0;
    l1 = l2;
    L21:;
    t0 = l4 + l1;
    w0 = I32_LOAD8_U(m, t0);
    w0 = w0 == 49u;
    if (w0) goto L20;
    t0 = l1 + 18446744073709551615ull;
    l1 = t0;
    w0 = l1 == 0;
    w0 = w0 == 0;
    if (w0) goto L21;
    l2 = 0ull;
    goto L0;
    L20:;
    l2 = 0ull;
    w0 = l1 < 2ull;
    if (w0) goto L0;
    t0 = l1 + 18446744073709551615ull;
    l11 = t0;
    t0 = l1 + 18446744073709551615ull;
    l4 = t0;
    l2 = 0ull;
    L23:;
    t0 = l6 + l2;
    w0 = I32_LOAD8_U(m, t0);
    w0 = w0 + 4294967169u;
    w0 = w0 & 255u;
    w0 = w0 < 162u;
    if (w0) goto L22;
    t0 = l2 + 1ull;
    l2 = t0;
    w0 = l4 != l2;
    if (w0) goto L23;
    l2 = l11;
    L22:;
    t0 = l1 + 18446744073709551615ull;
    l12 = t0;
    l4 = 0ull;
    L25:;
    t0 = l6 + l4;
    w0 = I32_LOAD8_U(m, t0);
    w0 = w0 + 4294967199u;
    w0 = w0 & 255u;
    w0 = w0 < 26u;
    if (w0) goto L24;
    t0 = l4 + 1ull;
    l4 = t0;
    w0 = l12 != l4;
    if (w0) goto L25;
    l4 = l11;
    L24:;
    t0 = l1 + 18446744073709551615ull;
    l12 = t0;
    l1 = 0ull;
    L27:;
    t0 = l6 + l1;
    w0 = I32_LOAD8_U(m, t0);
    w0 = w0 + 4294967231u;
    w0 = w0 & 255u;
    w0 = w0 < 26u;
    if (w0) goto L26;
    t0 = l1 + 1ull;
    l1 = t0;
    w0 = l12 != l1;
    if (w0) goto L27;
    l1 = l11;
    L26:;
    w0 = l1 > l4;
    t0 = w0 ? l1 : l4;
    l1 = t0;
    w0 = l1 < l2;
    t0 = w0 ? l1 : l2;
    l2 = t0;
    goto L0;
    L18:;
    w0 = l7 + 4294967265u;
    w0 = w0 < 3u;
    if (w0) goto L0;
    L12:;
    t0 = I64_LOAD(m, l3);
    l2 = t0;
    goto L0;
    L1:;
    w0 = l2 == 0;
    w0 = w0 == 0;
    if (w0) goto L28;
    l2 = 0ull;
    goto L0;
    L28:;
    l1 = 0ull;
    L30:;
    t0 = l6 + l1;
    w0 = I32_LOAD8_U(m, t0);
    w0 = w0 + 4294967199u;
    w0 = w0 & 255u;
    w0 = w0 < 26u;
    if (w0) goto L29;
    t0 = l1 + 1ull;
    l1 = t0;
    w0 = l2 != l1;
    if (w0) goto L30;
    l1 = l2;
    L29:;
    l4 = 0ull;
    L32:;
    t0 = l6 + l4;
    w0 = I32_LOAD8_U(m, t0);
    w0 = w0 + 4294967231u;
    w0 = w0 & 255u;
    w0 = w0 < 26u;
    if (w0) goto L31;
    t0 = l4 + 1ull;
    l4 = t0;
    w0 = l2 != l4;
    if (w0) goto L32;
    l4 = l2;
    L31:;
    w0 = l4 > l1;
    t0 = w0 ? l4 : l1;
    l2 = t0;
    L0:;
    I64_STORE(m, l3, l2);
    t0 = l5 + 32ull;
    m->stack_pointer = t0;
    return l7;
}

/* bech32_message */
static u32 of_bech32_message(Machine *m, u32 l0, u64 l1, u64 l2, u64 l3) {
    u32 w0;
    w0 = ENTER(m);
    w0 = w0 == 0;
    if (w0) goto L0;
    TRAP(m);
    TRAP(m);
    return 0;
    L0:;
    w0 = f38(m, l0, l1, l2, l3);
    l0 = w0;
    LEAVE(m);
    return l0;
}

/* rattle::export bech32_message */
static u32 f38(Machine *m, u32 l0, u64 l1, u64 l2, u64 l3) {
    u32 w0;
    u64 l4 = 0, l5 = 0, l6 = 0, l7 = 0, l8 = 0, l9 = 0, t0, t1;
    l4 = 0ull;
    w0 = l1 == 0;
    t0 = w0 ? 4096ull : 0ull;
    t0 = l1 + t0;
    l5 = t0;
    l6 = PLACE(448u);
    l7 = 15ull;
    l1 = PLACE(2077u);
    w0 = l0 + 4294967295u;
    switch (w0) {
    case 0: goto L5;
    case 1: goto L6;
    case 2: goto L4;
    case 3: goto L39;
    case 4: goto L4;
    case 5: goto L4;
    case 6: goto L4;
    case 7: goto L4;
    case 8: goto L4;
    case 9: goto L4;
    case 10: goto L17;
    case 11: goto L16;
    case 12: goto L15;
    case 13: goto L14;
    case 14: goto L13;
    case 15: goto L4;
    case 16: goto L4;
    case 17: goto L4;
    case 18: goto L4;
    case 19: goto L4;
    case 20: goto L12;
    case 21: goto L11;
    case 22: goto L10;
    case 23: goto L4;
    case 24: goto L4;
    case 25: goto L4;
    case 26: goto L4;
    case 27: goto L4;
    case 28: goto L4;
    case 29: goto L4;
    case 30: goto L38;
    case 31: goto L37;
    case 32: goto L9;
    case 33: goto L36;
    case 34: goto L4;
    case 35: goto L4;
    case 36: goto L4;
    case 37: goto L4;
    case 38: goto L4;
    case 39: goto L4;
    case 40: goto L35;
    case 41: goto L34;
    case 42: goto L33;
    case 43: goto L32;
    case 44: goto L31;
    case 45: goto L30;
    case 46: goto L29;
    case 47: goto L28;
    case 48: goto L27;
    case 49: goto L4;
    case 50: goto L26;
    case 51: goto L25;
    case 52: goto L24;
    case 53: goto L4;
    case 54: goto L4;
    case 55: goto L4;
    case 56: goto L4;
    case 57: goto L4;
    case 58: goto L4;
    case 59: goto L4;
    case 60: goto L4;
    case 61: goto L4;
    case 62: goto L4;
    case 63: goto L4;
    case 64: goto L4;
    case 65: goto L4;
    case 66: goto L23;
    case 67: goto L4;
    case 68: goto L4;
    case 69: goto L22;
    case 70: goto L4;
    case 71: goto L4;
    case 72: goto L4;
    case 73: goto L4;
    case 74: goto L4;
    case 75: goto L4;
    case 76: goto L4;
    case 77: goto L4;
    case 78: goto L21;
    case 79: goto L20;
    case 80: goto L4;
    case 81: goto L4;
    case 82: goto L4;
    case 83: goto L4;
    case 84: goto L4;
    case 85: goto L4;
    case 86: goto L4;
    case 87: goto L19;
    case 88: goto L18;
    case 89: goto L4;
    case 90: goto L8;
    case 91: goto L7;
    default: goto L4;
    }
    L39:;
    l6 = PLACE(463u);
    l7 = 80ull;
    goto L5;
    L38:;
    l6 = PLACE(543u);
    l7 = 64ull;
    goto L5;
    L37:;
    l6 = PLACE(607u);
    l7 = 60ull;
    goto L5;
    L36:;
    l6 = PLACE(667u);
    l7 = 45ull;
    goto L5;
    L35:;
    l6 = PLACE(712u);
    l7 = 36ull;
    goto L5;
    L34:;
    l6 = PLACE(748u);
    l7 = 34ull;
    goto L5;
    L33:;
    l6 = PLACE(782u);
    l7 = 31ull;
    goto L5;
    L32:;
    l6 = PLACE(813u);
    l7 = 52ull;
    goto L5;
    L31:;
    l6 = PLACE(865u);
    l7 = 52ull;
    goto L5;
    L30:;
    l6 = PLACE(917u);
    l7 = 33ull;
    goto L5;
    L29:;
    l6 = PLACE(950u);
    l7 = 34ull;
    goto L5;
    L28:;
    l6 = PLACE(984u);
    l7 = 52ull;
    goto L5;
    L27:;
    l6 = PLACE(1036u);
    l7 = 58ull;
    goto L5;
    L26:;
    l6 = PLACE(1094u);
    l7 = 71ull;
    goto L5;
    L25:;
    l6 = PLACE(1165u);
    l7 = 31ull;
    goto L5;
    L24:;
    l6 = PLACE(1196u);
    l7 = 46ull;
    goto L5;
    L23:;
    l6 = PLACE(1242u);
    l7 = 22ull;
    goto L5;
    L22:;
    l6 = PLACE(1264u);
    l7 = 73ull;
    goto L5;
    L21:;
    l6 = PLACE(1337u);
    l7 = 64ull;
    goto L5;
    L20:;
    l6 = PLACE(1401u);
    l7 = 65ull;
    goto L5;
    L19:;
    l6 = PLACE(1466u);
    l7 = 49ull;
    goto L5;
    L18:;
    l6 = PLACE(1515u);
    l7 = 84ull;
    goto L5;
    L17:;
    l6 = PLACE(1643u);
    l7 = 32ull;
    goto L5;
    L16:;
    l6 = PLACE(1675u);
    l7 = 46ull;
    goto L5;
    L15:;
    l6 = PLACE(1721u);
    l7 = 57ull;
    goto L5;
    L14:;
    l6 = PLACE(1778u);
    l7 = 61ull;
    goto L5;
    L13:;
    l6 = PLACE(1839u);
    l7 = 49ull;
    goto L5;
    L12:;
    l6 = PLACE(1888u);
    l7 = 52ull;
    goto L5;
    L11:;
    l6 = PLACE(1940u);
    l7 = 34ull;
    goto L5;
    L10:;
    l6 = PLACE(1974u);
    l7 = 30ull;
    goto L5;
    L9:;
    l6 = PLACE(2004u);
    l7 = 21ull;
    goto L5;
    L8:;
    l6 = PLACE(2025u);
    l7 = 31ull;
    goto L5;
    L7:;
    l6 = PLACE(2056u);
    l7 = 21ull;
    goto L5;
    L6:;
    l6 = PLACE(1599u);
    l7 = 44ull;
    L5:;
    l0 = 92u;
    w0 = l2 < l7;
    if (w0) goto L1;
    t0 = l5 - l6;
    w0 = t0 < l7;
    if (w0) goto L3;
    l4 = l7;
    l1 = l6;
    L4:;
    w0 = l4 == 0;
    if (w0) goto L2;
    MEMORY_COPY(m, l5, l1, l4);
    goto L2;
    L3:;
    t0 = l7 & 124ull;
    l8 = t0;
    t0 = l7 & 3ull;
    l9 = t0;
    l1 = 0ull;
    L40:;
    t0 = l5 + l1;
    l4 = t0;
    t0 = l6 + l1;
    l2 = t0;
    w0 = I32_LOAD8_U(m, l2);
    I32_STORE8(m, l4, w0);
    t0 = l4 + 1ull;
    t1 = l2 + 1ull;
    w0 = I32_LOAD8_U(m, t1);
    I32_STORE8(m, t0, w0);
    t0 = l4 + 2ull;
    t1 = l2 + 2ull;
    w0 = I32_LOAD8_U(m, t1);
    I32_STORE8(m, t0, w0);
    t0 = l4 + 3ull;
    t1 = l2 + 3ull;
    w0 = I32_LOAD8_U(m, t1);
    I32_STORE8(m, t0, w0);
    t0 = l1 + 4ull;
    l1 = t0;
    w0 = l8 != l1;
    if (w0) goto L40;
    w0 = l9 == 0;
    if (w0) goto L41;
    t0 = l6 + l1;
    l4 = t0;
    t0 = l5 + l1;
    l1 = t0;
    L42:;
    w0 = I32_LOAD8_U(m, l4);
    I32_STORE8(m, l1, w0);
    t0 = l1 + 1ull;
    l1 = t0;
    t0 = l4 + 1ull;
    l4 = t0;
    t0 = l9 + 18446744073709551615ull;
    l9 = t0;
    w0 = l9 != 0ull;
    if (w0) goto L42;
    L41:;
    l4 = l7;
    L2:;
    I64_STORE(m, l3, l4);
    l0 = 0u;
    L1:;
    return l0;
    TRAP(m);
    return 0;
}

/* bech32_segwit_decode */
static u32 of_bech32_segwit_decode(Machine *m, u64 l0, u64 l1, u64 l2, u64 l3, u64 l4, u64 l5, u64 l6, u64 l7, u64 l8) {
    u32 l9 = 0, w0;
    w0 = ENTER(m);
    w0 = w0 == 0;
    if (w0) goto L0;
    TRAP(m);
    TRAP(m);
    return 0;
    L0:;
    w0 = f40(m, l0, l1, l2, l3, l4, l5, l6, l7, l8);
    l9 = w0;
    LEAVE(m);
    return l9;
}

/* rattle::export bech32_segwit_decode */
static u32 f40(Machine *m, u64 l0, u64 l1, u64 l2, u64 l3, u64 l4, u64 l5, u64 l6, u64 l7, u64 l8) {
    u32 l10 = 0, l14 = 0, l15 = 0, l16 = 0, w0, w1;
    u64 l9 = 0, l11 = 0, l12 = 0, l13 = 0, l17 = 0, t0, t1, t2, t3;
    FRAME(m, 144u);
    t0 = m->stack_pointer;
    t0 = t0 - 144ull;
    l9 = t0;
    m->stack_pointer = l9;
    w0 = l0 == 0;
    t0 = w0 ? 4096ull : 0ull;
    t0 = l0 + t0;
    l0 = t0;
    I64_STORE(m, l9 + 136u, 0ull);
    I64_STORE(m, l9 + 128u, 0ull);
    I64_STORE(m, l9 + 120u, 0ull);
    I64_STORE(m, l9 + 112u, 0ull);
    I64_STORE(m, l9 + 104u, 0ull);
    I64_STORE(m, l9 + 96u, 0ull);
    I64_STORE(m, l9 + 88u, 0ull);
    I64_STORE(m, l9 + 80u, 0ull);
    w0 = l1 < 91ull;
    if (w0) goto L4;
    w0 = f25(m, l0, l1);
    l10 = w0;
    goto L0;
    L4:;
    t0 = l9 + 80ull;
    f5(m, t0, l0, l1);
    t0 = I64_LOAD(m, l9 + 88u);
    I64_STORE(m, l9 + 24u, t0);
    t0 = I64_LOAD(m, l9 + 96u);
    I64_STORE(m, l9 + 32u, t0);
    t0 = I64_LOAD(m, l9 + 104u);
    I64_STORE(m, l9 + 40u, t0);
    t0 = I64_LOAD(m, l9 + 112u);
    I64_STORE(m, l9 + 48u, t0);
    t0 = I64_LOAD(m, l9 + 120u);
    I64_STORE(m, l9 + 56u, t0);
    t0 = I64_LOAD(m, l9 + 128u);
    I64_STORE(m, l9 + 64u, t0);
    t0 = I64_LOAD(m, l9 + 136u);
    I64_STORE(m, l9 + 72u, t0);
    w0 = I32_LOAD8_U(m, l9 + 80u);
    w0 = w0 == 0;
    if (w0) goto L5;
    w0 = I32_LOAD(m, l9 + 84u);
    l10 = w0;
    goto L0;
    L5:;
    w0 = I32_LOAD(m, l9 + 72u);
    l10 = w0;
    t0 = I64_LOAD(m, l9 + 56u);
    l1 = t0;
    t0 = I64_LOAD(m, l9 + 48u);
    l11 = t0;
    t0 = I64_LOAD(m, l9 + 40u);
    l12 = t0;
    t0 = I64_LOAD(m, l9 + 32u);
    l13 = t0;
    t0 = I64_LOAD(m, l9 + 64u);
    l0 = t0;
    I64_STORE(m, l9 + 128u, 0ull);
    I64_STORE(m, l9 + 120u, 0ull);
    I64_STORE(m, l9 + 112u, 0ull);
    I64_STORE(m, l9 + 104u, 0ull);
    I64_STORE(m, l9 + 96u, 0ull);
    I64_STORE(m, l9 + 88u, 0ull);
    I64_STORE(m, l9 + 80u, 0ull);
    w0 = l0 != 0ull;
    if (w0) goto L6;
    l10 = 42u;
    goto L0;
    L6:;
    w0 = I32_LOAD8_U(m, l1);
    l14 = w0;
    t0 = (u64)l14;
    t0 = t0 & 255ull;
    w0 = I32_LOAD8_U(m, t0 + PLACE(0u));
    l15 = w0;
    w0 = l15 > 16u;
    if (w0) goto L8;
    w0 = l13 < 1024ull;
    w1 = l0 > 5ull;
    w0 = w0 & w1;
    l16 = w0;
    w0 = l14 & 223u;
    l14 = w0;
    w0 = l14 != 81u;
    if (w0) goto L10;
    w0 = l10 == 1u;
    w0 = l16 & w0;
    if (w0) goto L9;
    goto L1;
    L10:;
    w0 = l10 == 734539939u;
    w0 = l16 & w0;
    w0 = w0 != 1u;
    if (w0) goto L1;
    L9:;
    t0 = l0 + 18446744073709551610ull;
    l13 = t0;
    w0 = l13 == 0;
    w0 = w0 == 0;
    if (w0) goto L11;
    l10 = 42u;
    goto L0;
    L11:;
    t0 = l0 + 18446744073709551609ull;
    l0 = t0;
    w0 = l0 == 0;
    if (w0) goto L12;
    t0 = l0 * 5ull;
    t0 = t0 & 7ull;
    l17 = t0;
    w0 = l17 <= 4ull;
    if (w0) goto L13;
    l10 = 44u;
    goto L0;
    L13:;
    t0 = l1 + l13;
    t0 = t0 + 18446744073709551615ull;
    t0 = I64_LOAD8_U(m, t0);
    w0 = I32_LOAD8_U(m, t0 + PLACE(0u));
    w1 = (u32)l17;
    w1 = 4294967295u << (w1 & 31);
    w1 = w1 ^ 4294967295u;
    w0 = w0 & w1;
    w0 = w0 == 0;
    if (w0) goto L12;
    l10 = 45u;
    goto L0;
    L12:;
    t0 = l0 & 7ull;
    t0 = t0 * 5ull;
    t0 = t0 >> 3;
    t1 = l0 >> 3;
    t1 = t1 * 5ull;
    t0 = t0 + t1;
    l13 = t0;
    w0 = l13 >= 2ull;
    if (w0) goto L14;
    l10 = 46u;
    goto L0;
    L14:;
    w0 = l13 <= 40ull;
    if (w0) goto L15;
    l10 = 47u;
    goto L0;
    L15:;
    w0 = l14 != 81u;
    if (w0) goto L7;
    l10 = 48u;
    t0 = l13 + 18446744073709551596ull;
    l13 = t0;
    w0 = l13 > 12ull;
    if (w0) goto L0;
    w0 = (u32)l13;
    switch (w0) {
    case 0: goto L7;
    case 1: goto L0;
    case 2: goto L0;
    case 3: goto L0;
    case 4: goto L0;
    case 5: goto L0;
    case 6: goto L0;
    case 7: goto L0;
    case 8: goto L0;
    case 9: goto L0;
    case 10: goto L0;
    case 11: goto L0;
    case 12: goto L7;
    default: goto L7;
    }
    L8:;
    l10 = 43u;
    goto L0;
    L7:;
    t0 = l9 + 8ull;
    t1 = l1 + 1ull;
    w0 = l2 == 0;
    t2 = w0 ? 4096ull : 0ull;
    t2 = l2 + t2;
    w0 = l6 == 0;
    t3 = w0 ? 4096ull : 0ull;
    t3 = l6 + t3;
    f20(m, t0, l12, l11, t1, l0, t2, l3, t3, l7);
    w0 = I32_LOAD8_U(m, l9 + 8u);
    w0 = w0 == 1u;
    if (w0) goto L2;
    l10 = 92u;
    goto L0;
    TRAP(m);
    return 0;
    L2:;
    t0 = I64_LOAD(m, l9 + 16u);
    l0 = t0;
    I64_STORE(m, l4, l11);
    I32_STORE(m, l5, l15);
    I64_STORE(m, l8, l0);
    l10 = 0u;
    goto L0;
    L1:;
    t0 = l9 + 80ull;
    t1 = l9 + 24ull;
    f26(m, t0, t1, l15);
    t0 = I64_LOAD8_U(m, l9 + 80u);
    t0 = t0 << 2;
    w0 = I32_LOAD(m, t0 + PLACE(2104u));
    l10 = w0;
    L0:;
    t0 = l9 + 144ull;
    m->stack_pointer = t0;
    return l10;
}

/* bech32_segwit_encode */
static u32 of_bech32_segwit_encode(Machine *m, u64 l0, u64 l1, u32 l2, u64 l3, u64 l4, u64 l5, u64 l6, u64 l7) {
    u32 w0;
    w0 = ENTER(m);
    w0 = w0 == 0;
    if (w0) goto L0;
    TRAP(m);
    TRAP(m);
    return 0;
    L0:;
    w0 = f42(m, l0, l1, l2, l3, l4, l5, l6, l7);
    l2 = w0;
    LEAVE(m);
    return l2;
}

/* rattle::export bech32_segwit_encode */
static u32 f42(Machine *m, u64 l0, u64 l1, u32 l2, u64 l3, u64 l4, u64 l5, u64 l6, u64 l7) {
    u32 l9 = 0, w0, w1;
    u64 l8 = 0, l10 = 0, l11 = 0, t0, t1;
    FRAME(m, 16u);
    t0 = m->stack_pointer;
    t0 = t0 - 16ull;
    l8 = t0;
    m->stack_pointer = l8;
    w0 = l2 <= 31u;
    if (w0) goto L3;
    l9 = 4u;
    goto L0;
    L3:;
    t0 = l8 + 8ull;
    w0 = l0 == 0;
    t1 = w0 ? 4096ull : 0ull;
    t1 = l0 + t1;
    l0 = t1;
    f23(m, t0, l0, l1);
    w0 = I32_LOAD8_U(m, l8 + 8u);
    if (w0) goto L1;
    w0 = l2 <= 16u;
    if (w0) goto L4;
    l9 = 52u;
    goto L0;
    L4:;
    w0 = l4 >= 2ull;
    if (w0) goto L5;
    l9 = 46u;
    goto L0;
    L5:;
    w0 = l4 <= 40ull;
    if (w0) goto L6;
    l9 = 47u;
    goto L0;
    L6:;
    if (l2) goto L7;
    l9 = 48u;
    t0 = l4 + 18446744073709551596ull;
    l10 = t0;
    w0 = l10 > 12ull;
    if (w0) goto L0;
    w0 = (u32)l10;
    switch (w0) {
    case 0: goto L7;
    case 1: goto L0;
    case 2: goto L0;
    case 3: goto L0;
    case 4: goto L0;
    case 5: goto L0;
    case 6: goto L0;
    case 7: goto L0;
    case 8: goto L0;
    case 9: goto L0;
    case 10: goto L0;
    case 11: goto L0;
    case 12: goto L7;
    default: goto L7;
    }
    L7:;
    w0 = (u32)l4;
    w0 = w0 << 3;
    w0 = w0 | 4u;
    w0 = w0 & 65532u;
    w0 = I32_DIV_U(w0, 5u);
    t0 = (u64)w0;
    l10 = t0;
    t0 = l1 + l10;
    t0 = t0 + 1ull;
    l11 = t0;
    w0 = l11 < l10;
    t0 = w0 ? 18446744073709551615ull : l11;
    l10 = t0;
    t0 = l10 + 7ull;
    l11 = t0;
    w0 = l11 < l10;
    t0 = w0 ? 18446744073709551615ull : l11;
    l10 = t0;
    w0 = l10 < 91ull;
    if (w0) goto L8;
    l9 = 53u;
    goto L0;
    L8:;
    w0 = l6 >= l10;
    if (w0) goto L9;
    l9 = 92u;
    goto L0;
    L9:;
    w0 = l2 ? 734539939u : 1u;
    w1 = l3 == 0;
    t0 = w1 ? 4096ull : 0ull;
    t0 = l3 + t0;
    w1 = l5 == 0;
    t1 = w1 ? 4096ull : 0ull;
    t1 = l5 + t1;
    t0 = f24(m, w0, l0, l1, 1u, l2, t0, l4, t1, l6);
    I64_STORE(m, l7, t0);
    l9 = 0u;
    goto L0;
    TRAP(m);
    return 0;
    L1:;
    w0 = I32_LOAD(m, l8 + 12u);
    l9 = w0;
    L0:;
    t0 = l8 + 16ull;
    m->stack_pointer = t0;
    return l9;
}

/* bech32_version */
static u32 of_bech32_version(Machine *m) {
    u32 w0;
    w0 = ENTER(m);
    w0 = w0 == 0;
    if (w0) goto L0;
    TRAP(m);
    TRAP(m);
    return 0;
    L0:;
    f44(m);
    LEAVE(m);
    return 100u;
}

/* rattle::export bech32_version */
static void f44(Machine *m) {
    (void)m;

}

/*
 * How the functions of bech32.h run those of the library: this file has what bech32_calls.c, which is made of the header,
 * calls, and the functions that it does not have. Texts, bytes and buffers are handed to the library where they lie.
 * Lengths, locations and other numbers are put in the library's form, eight bytes each, and what it answers is given to
 * the caller where the header says so.
 *
 * With MACHINE_IS_TESTED a text, a human-readable part, elements, numbers or a column of 2^32 bytes or more are refused with
 * BECH32_NO_MEMORY, and of longer buffers, bytes to encode and programs SOME bytes are handed over: no answer depends
 * on more.
 */

/* A function of the library that calls itself does so once for each erasure, of which there are six at most. */
#define DEPTH 7

/* The different ones of erasures, in their order, four at most: where there are more than three, the answer depends on
 * that alone. */
#define MOST_ERASURES 4u
#define MOST_LIQUID_ERASURES 7u

OWN size_t put_erasures(u8 *numbers, size_t most, const size_t *erasures, size_t length) {
    size_t count = 0;
    for (size_t i = 0; i < length && count < most; i++) {
        size_t j = 0;
        while (j < count && get_64(numbers + 8 * j) != erasures[i]) {
            j++;
        }
        if (j == count) {
            put_64(numbers + 8 * count++, erasures[i]);
        }
    }
    return count;
}

/* At most this many locations are put in the library's form beside the other numbers. More, which few texts have, are put
 * at the end of the lent memory. */
#define FEW_EDITS (2u * BECH32_NEAR_EDITS)

/* A location that no edit has: what stands where the library put none. */
#define NO_LOCATION (~(u64)0)

uint32_t bech32_correct(uint32_t checksum, const uint8_t *text, size_t text_length, const size_t *erasures,
                        size_t erasures_length, size_t *locations, size_t locations_room, uint8_t *values,
                        size_t values_room, size_t *count, uint8_t *mended, size_t mended_room, size_t *mended_length) {
    GIVEN(MOST_ERASURES);
    NUMBERS(2 + BECH32_MAX_LISTED);
    if (IS_TOO_LONG(text_length)) {
        return BECH32_NO_MEMORY;
    }
    MACHINE(bech32_correct);
    u64 given_count = put_erasures(given, MOST_ERASURES, erasures, erasures_length);
    u64 most = locations_room < BECH32_MAX_LISTED ? locations_room : BECH32_MAX_LISTED;
    u64 values_size = SOME(values_room), mended_size = SOME(mended_room);
    u64 text_at = lend(&m, text, text_length), given_at = lend(&m, given, sizeof given_words);
    u64 values_at = lend_room(&m, values, values_size), mended_at = lend_room(&m, mended, mended_size);
    u64 at = lend_room(&m, numbers, sizeof number_words);
    uint32_t number = of_bech32_correct(&m, checksum, text_at, text_length, given_at, given_count, at + 16, most,
                                        values_at, values_size, at, mended_at, mended_size, at + 8);
    if (number == BECH32_OK) {
        *count = (size_t)get_64(numbers);
        *mended_length = (size_t)get_64(numbers + 8);
        for (size_t i = 0; i < *count; i++) {
            locations[i] = (size_t)get_64(numbers + 16 + 8 * i);
        }
    }
    return number;
}

/*
 * Columns. ROWS rows are handed over at a time, with their offsets in the library's form: no row depends on another, and
 * each buffer is handed over from the first row on that is not yet put.
 */
#define ROWS 64u
#define MOST_OFFSETS (ROWS + 9u)
#define COLUMN_SIZE 72u

OWN u8 *behind(u8 *at, size_t size) {
    return at == NULL ? NULL : at + size;
}

/* Puts offsets from one on in the library's form, as many as there are and are asked for, and gives their length. */
OWN size_t put_column_offsets(u8 *form, const bech32_column *column, size_t first, size_t count) {
    size_t width = column->layout == BECH32_OFFSETS_32 ? 4 : 8, items = column->offsets_length / width, i;
    const u8 *from = (const u8 *)column->offsets;
    for (i = 0; i < count && first + i < items; i++) {
        int32_t narrow;
        int64_t wide;
        if (width == 4) {
            memcpy(&narrow, from + (first + i) * 4, sizeof narrow);
            put_32(form + 4 * i, (u32)narrow);
        } else {
            memcpy(&wide, from + (first + i) * 8, sizeof wide);
            put_64(form + 8 * i, (u64)wide);
        }
    }
    return i * width;
}

/* Puts a column of the library in front of its offsets: `count` rows from row first % 8 on, which are those from `first`
 * on. At least the first of these has to be in the column. */
OWN void put_column(Machine *m, u8 *form, u64 at, const bech32_column *column, size_t first, size_t count) {
    size_t skip = first % 8, base = first - skip, bits = base / 8, offsets_length = 0, bytes_length = column->bytes_length;
    const u8 *bytes = column->bytes;
    u32 layout = column->layout;
    if (layout == BECH32_OFFSETS_32 || layout == BECH32_OFFSETS_64) {
        offsets_length = put_column_offsets(form + COLUMN_SIZE, column, base, skip + count + 1);
    } else if (column->width > 0 && base > bytes_length / column->width) {
        bytes_length = 0;
    } else if (base > 0 && column->width > 0) {
        bytes += base * column->width;
        bytes_length -= base * column->width;
    }
    size_t validity_length = column->validity_length > bits ? column->validity_length - bits : 0;
    if (validity_length < column->validity_length && validity_length == 0 && layout - 1u < 4u) {
        /* No bit of these rows is there, as none is in a column without offsets. */
        layout = BECH32_OFFSETS_32;
        offsets_length = 0;
    }
    put_64(form, lend(m, bytes, bytes_length));
    put_64(form + 8, bytes_length);
    put_64(form + 16, at + COLUMN_SIZE);
    put_64(form + 24, offsets_length);
    put_64(form + 32, lend(m, validity_length > 0 ? column->validity + bits : NULL, validity_length));
    put_64(form + 40, validity_length);
    put_64(form + 48, skip + count);
    put_64(form + 56, column->width);
    put_64(form + 64, layout);
}

OWN int has_rows(const bech32_column *column, size_t first, size_t count) {
    return first <= column->rows && count <= column->rows - first;
}

OWN size_t lesser(size_t a, size_t b) {
    return a < b ? a : b;
}

/* Gives the offsets of the rows that were put, and where the last one ends. */
OWN size_t take_offsets(int32_t *offsets, const u8 *form, size_t rows, size_t end) {
    for (size_t i = 0; i <= rows; i++) {
        offsets[i] = (int32_t)(end + get_32(form + 4 * i));
    }
    return end + get_32(form + 4 * rows);
}

/* Made by tools/make (tools/make.d/machine_calls) from include/bech32.h; do not edit. */

uint32_t bech32_message(uint32_t number, uint8_t *message, size_t message_room, size_t *message_length) {
    NUMBERS(1);
    MACHINE(bech32_message);
    u64 message_size = SOME(message_room), message_at = lend_room(&m, message, message_size);
    u64 at = lend_room(&m, numbers, sizeof number_words);
    uint32_t answer = of_bech32_message(&m, number, message_at, message_size, at);
    if (answer == BECH32_OK) {
        *message_length = (size_t)get_64(numbers);
    }
    return answer;
}

uint32_t bech32_version(void) {
    MACHINE(bech32_version);
    uint32_t answer = of_bech32_version(&m);
    return answer;
}

uint32_t bech32_encode(uint32_t checksum, const uint8_t *hrp, size_t hrp_length, const uint8_t *bytes,
                       size_t bytes_length, uint8_t *text, size_t text_room, size_t *text_length) {
    NUMBERS(1);
    if (IS_TOO_LONG(hrp_length)) {
        return BECH32_NO_MEMORY;
    }
    MACHINE(bech32_encode);
    u64 hrp_at = lend(&m, hrp, hrp_length);
    u64 bytes_size = SOME(bytes_length), bytes_at = lend(&m, bytes, bytes_size);
    u64 text_size = SOME(text_room), text_at = lend_room(&m, text, text_size);
    u64 at = lend_room(&m, numbers, sizeof number_words);
    uint32_t answer = of_bech32_encode(&m, checksum, hrp_at, hrp_length, bytes_at, bytes_size, text_at, text_size,
                                       at);
    if (answer == BECH32_OK) {
        *text_length = (size_t)get_64(numbers);
    }
    return answer;
}

uint32_t bech32_decode(const uint8_t *text, size_t text_length, uint8_t *hrp, size_t hrp_room, size_t *hrp_length,
                       uint8_t *bytes, size_t bytes_room, size_t *bytes_length) {
    NUMBERS(2);
    if (IS_TOO_LONG(text_length)) {
        return BECH32_NO_MEMORY;
    }
    MACHINE(bech32_decode);
    u64 text_at = lend(&m, text, text_length);
    u64 hrp_size = SOME(hrp_room), hrp_at = lend_room(&m, hrp, hrp_size);
    u64 bytes_size = SOME(bytes_room), bytes_at = lend_room(&m, bytes, bytes_size);
    u64 at = lend_room(&m, numbers, sizeof number_words);
    uint32_t answer = of_bech32_decode(&m, text_at, text_length, hrp_at, hrp_size, at, bytes_at, bytes_size, at + 8);
    if (answer == BECH32_OK) {
        *hrp_length = (size_t)get_64(numbers);
        *bytes_length = (size_t)get_64(numbers + 8);
    }
    return answer;
}

uint32_t bech32_check(uint32_t checksum, const uint8_t *text, size_t text_length, size_t *hrp_length,
                      size_t *data_length) {
    NUMBERS(2);
    if (IS_TOO_LONG(text_length)) {
        return BECH32_NO_MEMORY;
    }
    MACHINE(bech32_check);
    u64 text_at = lend(&m, text, text_length);
    u64 at = lend_room(&m, numbers, sizeof number_words);
    uint32_t answer = of_bech32_check(&m, checksum, text_at, text_length, at, at + 8);
    if (answer == BECH32_OK) {
        *hrp_length = (size_t)get_64(numbers);
        *data_length = (size_t)get_64(numbers + 8);
    }
    return answer;
}

uint32_t bech32_fault(uint32_t checksum, const uint8_t *text, size_t text_length, size_t *place) {
    NUMBERS(1);
    if (IS_TOO_LONG(text_length)) {
        return BECH32_NO_MEMORY;
    }
    MACHINE(bech32_fault);
    u64 text_at = lend(&m, text, text_length);
    u64 at = lend_room(&m, numbers, sizeof number_words);
    uint32_t answer = of_bech32_fault(&m, checksum, text_at, text_length, at);
    if (answer != BECH32_OK && answer != BECH32_NOT_UTF8 && answer != BECH32_BAD_NUMBER) {
        *place = (size_t)get_64(numbers);
    }
    return answer;
}

uint32_t bech32_segwit_encode(const uint8_t *hrp, size_t hrp_length, uint32_t version, const uint8_t *program,
                              size_t program_length, uint8_t *text, size_t text_room, size_t *text_length) {
    NUMBERS(1);
    if (IS_TOO_LONG(hrp_length)) {
        return BECH32_NO_MEMORY;
    }
    MACHINE(bech32_segwit_encode);
    u64 hrp_at = lend(&m, hrp, hrp_length);
    u64 program_size = SOME(program_length), program_at = lend(&m, program, program_size);
    u64 text_size = SOME(text_room), text_at = lend_room(&m, text, text_size);
    u64 at = lend_room(&m, numbers, sizeof number_words);
    uint32_t answer = of_bech32_segwit_encode(&m, hrp_at, hrp_length, version, program_at, program_size, text_at,
                                              text_size, at);
    if (answer == BECH32_OK) {
        *text_length = (size_t)get_64(numbers);
    }
    return answer;
}

uint32_t bech32_segwit_decode(const uint8_t *text, size_t text_length, uint8_t *hrp, size_t hrp_room,
                              size_t *hrp_length, uint32_t *version, uint8_t *program, size_t program_room,
                              size_t *program_length) {
    NUMBERS(3);
    if (IS_TOO_LONG(text_length)) {
        return BECH32_NO_MEMORY;
    }
    MACHINE(bech32_segwit_decode);
    u64 text_at = lend(&m, text, text_length);
    u64 hrp_size = SOME(hrp_room), hrp_at = lend_room(&m, hrp, hrp_size);
    u64 program_size = SOME(program_room), program_at = lend_room(&m, program, program_size);
    u64 at = lend_room(&m, numbers, sizeof number_words);
    uint32_t answer = of_bech32_segwit_decode(&m, text_at, text_length, hrp_at, hrp_size, at, at + 8, program_at,
                                              program_size, at + 16);
    if (answer == BECH32_OK) {
        *hrp_length = (size_t)get_64(numbers);
        *version = get_32(numbers + 8);
        *program_length = (size_t)get_64(numbers + 16);
    }
    return answer;
}

