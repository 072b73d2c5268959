/*
 * codex32.h in C99: the functions of the proved library, made of its object for WebAssembly (sha256
 * ed2a5365639fff05271c2874fe75b6a56819ae8c6516f968568557c8702f9547) by translator/translate. Do not edit.
 *
 *     cc -std=c99 -O2 -c codex32_small.c
 *
 * It takes no memory, keeps nothing between calls, and has no data that changes. It calls memmove and memset
 * alone, and abort where the library does what it never should, unless MACHINE_TRAP() is defined. With
 * MACHINE_IS_TESTED defined, each access is tested to be within the stack, the constants, or what the caller
 * handed over. The bytes of the library's stack that a call takes, on the stack of C:
 *
 *     codex32_derive          1328
 *     codex32_encode          224
 *     codex32_encode_payload  352
 *     codex32_message         16
 *     codex32_share           432
 *     codex32_version         16
 *
 * SPDX-License-Identifier: MIT
 */
#include "codex32.h"

#ifndef stack_codex32_derive
#define stack_codex32_derive 1328u
#endif
#ifndef stack_codex32_encode
#define stack_codex32_encode 224u
#endif
#ifndef stack_codex32_encode_payload
#define stack_codex32_encode_payload 352u
#endif
#ifndef stack_codex32_message
#define stack_codex32_message 16u
#endif
#ifndef stack_codex32_share
#define stack_codex32_share 432u
#endif
#ifndef stack_codex32_version
#define stack_codex32_version 16u
#endif
#define CONSTANTS_SIZE 3068u
#define MACHINE_ALIGN 8

/*
 * The machine on which the functions of a library for wasm64 run. A call makes it on the stack of C: it has no other
 * memory, keeps nothing, and calls memmove, memset, and MACHINE_TRAP where the library does what it never should. Numbers
 * stand in memory as the library has them, the lowest byte first, on every processor.
 *
 * An address is the caller's own, and is not tested, as in a library that was compiled for the processor. With
 * MACHINE_IS_TESTED the high 32 bits of an address are the number of a part, and the low 32 bits the place in it. Part 0
 * has no bytes, part 1 is the library's stack, part 2 its constants, and each other one is what the caller handed over,
 * where it lies. Each access is tested to be within its part, and each write whether the part may be written to.
 */
#include <stddef.h>
#include <stdint.h>
#include <string.h>

#ifndef MACHINE_TRAP
#include <stdlib.h>
#define MACHINE_TRAP() abort()
#endif

typedef uint8_t u8;
typedef uint16_t u16;
typedef uint32_t u32;
typedef uint64_t u64;

#if defined(__GNUC__)
#define NEVER(x) __builtin_expect(!!(x), 0)
#define OWN static inline __attribute__((unused))
#else
#define NEVER(x) (x)
#define OWN static inline
#endif

#if defined(__cplusplus)
#define ALIGNED(bytes) alignas(bytes)
#elif defined(__STDC_VERSION__) && __STDC_VERSION__ >= 201112L
#define ALIGNED(bytes) _Alignas(bytes)
#elif defined(__GNUC__)
#define ALIGNED(bytes) __attribute__((aligned(bytes)))
#elif defined(_MSC_VER)
#define ALIGNED(bytes) __declspec(align(bytes))
#else
#define ALIGNED(bytes)
#endif

/* The constants of the library, aligned as its addresses expect, by the number where a compiler knows no other way: start
 * tests it. */
ALIGNED(16) static const union {
    u8 at[CONSTANTS_SIZE];
    u64 number;
} constants = {{
    255, 255, 255, 255, 255, 255, 255, 255, 255, 255, 255, 255, 255, 255, 255, 255, 255, 255, 255, 255, 255, 255, 255, 255,
    255, 255, 255, 255, 255, 255, 255, 255, 255, 255, 255, 255, 255, 255, 255, 255, 255, 255, 255, 255, 255, 255, 255, 255,
    15, 255, 10, 17, 21, 20, 26, 30, 7, 5, 255, 255, 255, 255, 255, 255, 255, 29, 255, 24, 13, 25, 9, 8,
    23, 255, 18, 22, 31, 27, 19, 255, 1, 0, 3, 16, 11, 28, 12, 14, 6, 4, 2, 255, 255, 255, 255, 255,
    255, 29, 255, 24, 13, 25, 9, 8, 23, 255, 18, 22, 31, 27, 19, 255, 1, 0, 3, 16, 11, 28, 12, 14,
    6, 4, 2, 255, 255, 255, 255, 255, 19, 13, 0, 3, 3, 1, 0, 0, 0, 0, 0, 0, 0, 0, 0, 16,
    16, 24, 27, 31, 25, 25, 25, 0, 8, 17, 27, 25, 23, 4, 22, 5, 6, 21, 23, 6, 21, 25, 9, 26,
    25, 10, 15, 0, 0, 0, 0, 0, 129, 64, 32, 16, 2, 129, 64, 9, 131, 193, 96, 25, 4, 2, 37, 18,
    133, 66, 5, 2, 6, 131, 101, 27, 135, 195, 69, 11, 8, 148, 72, 13, 137, 212, 104, 29, 10, 21, 8, 4,
    139, 85, 40, 20, 12, 150, 109, 31, 141, 214, 77, 15, 14, 23, 45, 22, 143, 87, 13, 6, 80, 34, 53, 26,
    209, 98, 21, 10, 82, 163, 117, 19, 211, 227, 85, 3, 84, 32, 16, 8, 213, 96, 48, 24, 86, 161, 80, 1,
    215, 225, 112, 17, 88, 182, 125, 23, 217, 246, 93, 7, 90, 55, 61, 30, 219, 119, 29, 14, 92, 180, 88, 5,
    221, 244, 120, 21, 94, 53, 24, 12, 223, 117, 56, 28, 0, 0, 1, 14, 2, 28, 15, 22, 3, 5, 29, 26,
    16, 7, 23, 11, 4, 25, 6, 10, 30, 13, 27, 21, 17, 18, 8, 19, 24, 9, 12, 20, 1, 2, 4, 8,
    16, 9, 18, 13, 26, 29, 19, 15, 30, 21, 3, 6, 12, 24, 25, 27, 31, 23, 7, 14, 28, 17, 11, 22,
    5, 10, 20, 0, 0, 0, 0, 0, 0, 0, 0, 0, 0, 0, 0, 0, 0, 0, 0, 0, 0, 0, 0, 0,
    0, 0, 0, 0, 0, 0, 0, 0, 0, 0, 0, 0, 0, 0, 0, 0, 0, 0, 0, 0, 0, 0, 0, 0,
    0, 0, 25, 3, 114, 113, 21, 0, 0, 128, 73, 0, 185, 197, 158, 5, 0, 64, 157, 131, 119, 251, 37, 1,
    0, 96, 7, 65, 188, 47, 109, 0, 0, 80, 117, 225, 73, 5, 17, 0, 0, 0, 248, 0, 42, 125, 40, 0,
    0, 0, 101, 3, 231, 79, 1, 0, 0, 128, 19, 128, 118, 212, 148, 5, 0, 64, 114, 195, 244, 136, 2, 1,
    0, 224, 78, 161, 119, 254, 115, 0, 0, 0, 225, 3, 88, 12, 61, 0, 0, 128, 44, 3, 94, 138, 159, 5,
    0, 192, 194, 2, 49, 35, 165, 4, 0, 160, 111, 131, 119, 70, 229, 1, 0, 48, 233, 64, 214, 109, 237, 0,
    0, 0, 197, 0, 250, 48, 240, 0, 0, 128, 154, 0, 87, 101, 80, 0, 0, 192, 86, 131, 140, 67, 109, 0,
    0, 160, 237, 192, 177, 238, 58, 5, 0, 48, 208, 35, 229, 177, 111, 1, 0, 0, 220, 3, 136, 65, 229, 0,
    0, 0, 211, 0, 238, 160, 206, 5, 0, 128, 3, 0, 211, 152, 80, 1, 0, 64, 135, 129, 190, 161, 126, 5,
    0, 96, 113, 195, 50, 201, 53, 1, 0, 0, 61, 0, 208, 77, 216, 0, 0, 128, 255, 3, 176, 42, 81, 0,
    0, 64, 61, 3, 138, 187, 233, 5, 0, 96, 232, 2, 143, 71, 48, 4, 0, 208, 70, 131, 136, 160, 80, 1,
    0, 0, 36, 3, 162, 60, 205, 0, 0, 0, 182, 3, 9, 239, 207, 5, 0, 0, 36, 129, 229, 108, 192, 4,
    0, 0, 140, 67, 207, 193, 250, 4, 0, 0, 32, 99, 200, 175, 143, 1, 0, 0, 73, 3, 56, 100, 200, 3,
    0, 128, 97, 1, 230, 2, 20, 1, 0, 64, 104, 1, 93, 126, 166, 1, 0, 224, 196, 129, 49, 40, 136, 2,
    0, 144, 70, 64, 215, 115, 162, 4, 0, 0, 80, 0, 74, 21, 221, 3, 0, 0, 40, 1, 95, 199, 138, 4,
    0, 0, 245, 131, 146, 133, 7, 1, 0, 128, 219, 193, 254, 100, 169, 3, 0, 64, 239, 160, 96, 64, 27, 4,
    0, 0, 177, 3, 18, 25, 224, 3, 0, 128, 4, 2, 1, 77, 21, 1, 0, 192, 63, 128, 171, 170, 38, 4,
    0, 32, 4, 67, 166, 138, 4, 2, 0, 240, 65, 224, 214, 182, 148, 6, 0, 0, 168, 0, 96, 104, 245, 3,
    0, 0, 77, 2, 184, 136, 139, 4, 0, 128, 238, 3, 84, 93, 147, 4, 0, 192, 77, 3, 118, 43, 47, 2,
    0, 32, 252, 1, 231, 59, 160, 6, 0, 0, 140, 3, 194, 84, 56, 3, 0, 0, 251, 1, 177, 103, 68, 1,
    0, 128, 222, 130, 161, 29, 155, 1, 0, 192, 225, 64, 193, 229, 246, 7, 0, 32, 214, 98, 227, 252, 145, 4,
    0, 0, 149, 0, 176, 37, 45, 3, 0, 128, 178, 1, 8, 162, 218, 4, 0, 192, 139, 0, 70, 198, 34, 1,
    0, 32, 91, 1, 109, 201, 250, 6, 0, 112, 87, 130, 123, 243, 75, 5, 0, 0, 116, 3, 232, 41, 16, 3,
    0, 0, 158, 2, 86, 40, 69, 1, 0, 0, 241, 3, 39, 229, 11, 4, 0, 128, 58, 130, 60, 74, 118, 7,
    0, 192, 107, 194, 17, 254, 225, 7, 0, 0, 109, 0, 154, 88, 5, 3, 0, 128, 215, 2, 239, 237, 219, 4,
    0, 64, 232, 128, 240, 50, 166, 4, 0, 224, 194, 194, 255, 163, 116, 7, 0, 144, 119, 35, 16, 134, 184, 7,
    0, 0, 0, 1, 250, 77, 100, 5, 0, 0, 201, 3, 197, 66, 122, 1, 0, 128, 161, 129, 93, 19, 127, 0,
    0, 64, 136, 64, 59, 186, 76, 5, 0, 224, 148, 96, 120, 195, 68, 1, 0, 0, 25, 2, 136, 60, 113, 5,
    0, 128, 128, 3, 124, 135, 228, 4, 0, 192, 180, 3, 18, 236, 194, 1, 0, 160, 103, 1, 53, 176, 191, 5,
    0, 48, 217, 129, 111, 70, 201, 1, 0, 0, 248, 1, 208, 48, 76, 5, 0, 0, 172, 0, 34, 13, 123, 1,
    0, 0, 250, 1, 75, 195, 251, 5, 0, 0, 178, 130, 76, 55, 194, 4, 0, 0, 50, 193, 19, 157, 183, 1,
    0, 0, 225, 2, 162, 65, 89, 5, 0, 128, 229, 0, 155, 200, 229, 4, 0, 64, 163, 130, 52, 48, 82, 4,
    0, 96, 71, 195, 29, 220, 47, 4, 0, 80, 141, 32, 137, 46, 57, 1, 0, 0, 197, 1, 0, 125, 148, 5,
    0, 128, 83, 3, 146, 39, 42, 1, 0, 64, 55, 2, 193, 116, 122, 0, 0, 96, 192, 129, 139, 113, 15, 0,
    0, 208, 250, 66, 118, 251, 13, 0, 0, 0, 220, 2, 114, 12, 129, 5, 0, 0, 26, 3, 43, 226, 180, 4,
    0, 0, 234, 128, 166, 171, 223, 1, 0, 0, 194, 193, 38, 59, 237, 0, 0, 0, 194, 162, 236, 34, 164, 0,
    0, 0, 61, 1, 42, 0, 188, 5, 0, 128, 54, 0, 117, 104, 43, 1, 0, 192, 20, 130, 167, 136, 238, 5,
    0, 160, 173, 66, 118, 221, 153, 1, 0, 48, 132, 226, 68, 107, 182, 0, 0, 0, 36, 2, 88, 113, 169, 5,
    0, 0, 127, 0, 204, 173, 181, 4, 0, 128, 133, 1, 240, 91, 95, 4, 0, 64, 161, 3, 244, 94, 97, 1,
    0, 96, 119, 2, 44, 77, 18, 0, 0, 0, 73, 2, 194, 41, 172, 6, 0, 128, 168, 2, 35, 64, 110, 0,
    0, 192, 73, 129, 224, 109, 169, 0, 0, 32, 76, 192, 75, 179, 226, 6, 0, 240, 50, 33, 116, 179, 174, 5,
    0, 0, 80, 1, 176, 88, 185, 6, 0, 0, 225, 2, 154, 133, 240, 5, 0, 128, 92, 2, 23, 146, 144, 0,
    0, 192, 51, 128, 118, 222, 249, 6, 0, 32, 131, 193, 190, 0, 53, 5, 0, 0, 177, 2, 232, 84, 132, 6,
    0, 128, 205, 1, 196, 15, 111, 0, 0, 64, 86, 0, 118, 189, 57, 5, 0, 224, 140, 2, 127, 16, 246, 7,
    0, 144, 221, 128, 10, 254, 4, 7, 0, 0, 168, 1, 154, 37, 145, 6, 0, 0, 132, 1, 125, 202, 241, 5,
    0, 0, 15, 130, 177, 78, 20, 5, 0, 128, 165, 67, 61, 144, 115, 6, 0, 64, 56, 97, 67, 91, 10, 7,
    0, 0, 140, 2, 56, 25, 92, 6, 0, 0, 50, 2, 116, 37, 62, 0, 0, 0, 63, 2, 12, 42, 252, 0,
    0, 128, 172, 1, 122, 127, 181, 3, 0, 192, 208, 3, 43, 148, 149, 4, 0, 0, 149, 1, 74, 104, 73, 6,
    0, 128, 123, 2, 205, 224, 160, 5, 0, 64, 226, 129, 211, 245, 221, 0, 0, 224, 246, 65, 52, 82, 187, 3,
    0, 144, 232, 227, 221, 26, 126, 4, 0, 0, 116, 2, 18, 100, 116, 6, 0, 0, 87, 1, 147, 106, 63, 0,
    0, 128, 88, 131, 234, 214, 124, 5, 0, 192, 87, 195, 100, 209, 189, 2, 0, 32, 105, 162, 165, 23, 97, 6,
    0, 0, 109, 1, 96, 21, 97, 6, 0, 128, 30, 1, 42, 175, 161, 5, 0, 192, 201, 1, 5, 5, 73, 5,
    0, 32, 79, 131, 37, 57, 41, 3, 0, 112, 76, 67, 207, 110, 29, 7, 116, 104, 101, 114, 101, 32, 97, 114,
    101, 32, 109, 111, 114, 101, 32, 116, 104, 97, 110, 32, 51, 50, 32, 116, 101, 120, 116, 115, 44, 32, 111, 114,
    32, 116, 104, 101, 105, 114, 32, 108, 101, 110, 103, 116, 104, 115, 32, 100, 111, 32, 110, 111, 116, 32, 97, 100,
    100, 32, 117, 112, 32, 116, 111, 32, 116, 104, 97, 116, 32, 111, 102, 32, 97, 108, 108, 116, 104, 101, 114, 101,
    32, 105, 115, 32, 110, 111, 32, 110, 101, 97, 114, 101, 115, 116, 32, 116, 101, 120, 116, 116, 104, 101, 114, 101,
    32, 97, 114, 101, 32, 110, 101, 105, 116, 104, 101, 114, 32, 49, 54, 32, 116, 111, 32, 52, 52, 32, 98, 121,
    116, 101, 115, 32, 110, 111, 114, 32, 54, 51, 32, 111, 114, 32, 54, 52, 116, 104, 101, 114, 101, 32, 97, 114,
    101, 32, 110, 111, 116, 32, 97, 115, 32, 109, 97, 110, 121, 32, 114, 97, 110, 100, 111, 109, 32, 98, 121, 116,
    101, 115, 32, 97, 115, 32, 99, 104, 97, 114, 97, 99, 116, 101, 114, 115, 32, 97, 114, 101, 32, 100, 114, 97,
    119, 110, 116, 104, 101, 32, 114, 97, 110, 100, 111, 109, 32, 98, 121, 116, 101, 115, 32, 97, 114, 101, 32, 97,
    108, 108, 32, 101, 113, 117, 97, 108, 116, 104, 101, 114, 101, 32, 97, 114, 101, 32, 102, 101, 119, 101, 114, 32,
    115, 104, 97, 114, 101, 115, 32, 116, 104, 97, 110, 32, 116, 104, 101, 32, 116, 104, 114, 101, 115, 104, 111, 108,
    100, 97, 32, 115, 104, 97, 114, 101, 32, 104, 97, 115, 32, 97, 110, 111, 116, 104, 101, 114, 32, 116, 104, 114,
    101, 115, 104, 111, 108, 100, 44, 32, 105, 100, 101, 110, 116, 105, 102, 105, 101, 114, 32, 111, 114, 32, 108, 101,
    110, 103, 116, 104, 32, 116, 104, 97, 110, 32, 116, 104, 101, 32, 102, 105, 114, 115, 116, 116, 119, 111, 32, 115,
    104, 97, 114, 101, 115, 32, 104, 97, 118, 101, 32, 111, 110, 101, 32, 105, 110, 100, 101, 120, 116, 104, 101, 32,
    115, 104, 97, 114, 101, 115, 32, 99, 111, 110, 116, 114, 97, 100, 105, 99, 116, 32, 101, 97, 99, 104, 32, 111,
    116, 104, 101, 114, 116, 104, 101, 114, 101, 32, 97, 114, 101, 32, 102, 101, 119, 101, 114, 32, 115, 104, 97, 114,
    101, 115, 32, 116, 104, 97, 110, 32, 116, 104, 101, 32, 116, 104, 114, 101, 115, 104, 111, 108, 100, 44, 32, 111,
    114, 32, 109, 111, 114, 101, 32, 116, 104, 97, 110, 32, 51, 49, 116, 104, 101, 32, 104, 117, 109, 97, 110, 45,
    114, 101, 97, 100, 97, 98, 108, 101, 32, 112, 97, 114, 116, 32, 105, 115, 32, 110, 111, 116, 32, 96, 109, 115,
    96, 97, 32, 99, 111, 100, 101, 120, 51, 50, 32, 115, 116, 114, 105, 110, 103, 32, 104, 97, 115, 32, 52, 56,
    32, 116, 111, 32, 57, 51, 32, 99, 104, 97, 114, 97, 99, 116, 101, 114, 115, 44, 32, 97, 32, 108, 111, 110,
    103, 32, 111, 110, 101, 32, 49, 50, 53, 32, 116, 111, 32, 49, 50, 55, 116, 104, 101, 32, 116, 104, 114, 101,
    115, 104, 111, 108, 100, 32, 105, 115, 32, 110, 101, 105, 116, 104, 101, 114, 32, 48, 32, 110, 111, 114, 32, 97,
    32, 100, 105, 103, 105, 116, 32, 102, 114, 111, 109, 32, 50, 32, 116, 111, 32, 57, 116, 104, 101, 32, 116, 104,
    114, 101, 115, 104, 111, 108, 100, 32, 105, 115, 32, 48, 44, 32, 97, 110, 100, 32, 116, 104, 101, 32, 115, 104,
    97, 114, 101, 32, 105, 110, 100, 101, 120, 32, 105, 115, 32, 110, 111, 116, 32, 96, 115, 96, 116, 104, 101, 32,
    105, 100, 101, 110, 116, 105, 102, 105, 101, 114, 32, 105, 115, 32, 110, 111, 116, 32, 102, 111, 117, 114, 32, 99,
    104, 97, 114, 97, 99, 116, 101, 114, 115, 32, 111, 102, 32, 116, 104, 101, 32, 97, 108, 112, 104, 97, 98, 101,
    116, 32, 105, 110, 32, 111, 110, 101, 32, 99, 97, 115, 101, 116, 104, 101, 32, 115, 104, 97, 114, 101, 32, 105,
    110, 100, 101, 120, 32, 105, 115, 32, 110, 111, 116, 32, 111, 110, 101, 32, 99, 104, 97, 114, 97, 99, 116, 101,
    114, 32, 111, 102, 32, 116, 104, 101, 32, 97, 108, 112, 104, 97, 98, 101, 116, 109, 111, 114, 101, 32, 116, 104,
    97, 110, 32, 102, 111, 117, 114, 32, 98, 105, 116, 115, 32, 115, 116, 97, 110, 100, 32, 98, 101, 104, 105, 110,
    100, 32, 116, 104, 101, 32, 98, 121, 116, 101, 115, 32, 111, 102, 32, 116, 104, 101, 32, 112, 97, 121, 108, 111,
    97, 100, 97, 32, 116, 101, 120, 116, 32, 111, 114, 32, 97, 32, 104, 117, 109, 97, 110, 45, 114, 101, 97, 100,
    97, 98, 108, 101, 32, 112, 97, 114, 116, 32, 105, 115, 32, 110, 111, 116, 32, 85, 84, 70, 45, 56, 116, 104,
    101, 32, 104, 117, 109, 97, 110, 45, 114, 101, 97, 100, 97, 98, 108, 101, 32, 112, 97, 114, 116, 32, 105, 115,
    32, 101, 109, 112, 116, 121, 116, 104, 101, 32, 104, 117, 109, 97, 110, 45, 114, 101, 97, 100, 97, 98, 108, 101,
    32, 112, 97, 114, 116, 32, 104, 97, 115, 32, 109, 111, 114, 101, 32, 116, 104, 97, 110, 32, 56, 51, 32, 98,
    121, 116, 101, 115, 116, 104, 101, 32, 104, 117, 109, 97, 110, 45, 114, 101, 97, 100, 97, 98, 108, 101, 32, 112,
    97, 114, 116, 32, 104, 97, 115, 32, 97, 32, 99, 104, 97, 114, 97, 99, 116, 101, 114, 32, 116, 104, 97, 116,
    32, 105, 115, 32, 110, 111, 116, 32, 65, 83, 67, 73, 73, 116, 104, 101, 32, 104, 117, 109, 97, 110, 45, 114,
    101, 97, 100, 97, 98, 108, 101, 32, 112, 97, 114, 116, 32, 104, 97, 115, 32, 97, 32, 98, 121, 116, 101, 32,
    116, 104, 97, 116, 32, 105, 115, 32, 110, 111, 116, 32, 102, 114, 111, 109, 32, 51, 51, 32, 116, 111, 32, 49,
    50, 54, 116, 104, 101, 32, 104, 117, 109, 97, 110, 45, 114, 101, 97, 100, 97, 98, 108, 101, 32, 112, 97, 114,
    116, 32, 104, 97, 115, 32, 108, 101, 116, 116, 101, 114, 115, 32, 111, 102, 32, 98, 111, 116, 104, 32, 99, 97,
    115, 101, 115, 97, 32, 99, 104, 97, 114, 97, 99, 116, 101, 114, 32, 98, 101, 104, 105, 110, 100, 32, 116, 104,
    101, 32, 115, 101, 112, 97, 114, 97, 116, 111, 114, 32, 109, 97, 121, 32, 110, 111, 116, 32, 115, 116, 97, 110,
    100, 32, 116, 104, 101, 114, 101, 116, 104, 101, 32, 116, 101, 120, 116, 32, 104, 97, 115, 32, 108, 101, 116, 116,
    101, 114, 115, 32, 111, 102, 32, 98, 111, 116, 104, 32, 99, 97, 115, 101, 115, 116, 104, 101, 32, 116, 101, 120,
    116, 32, 104, 97, 115, 32, 110, 111, 32, 115, 101, 112, 97, 114, 97, 116, 111, 114, 44, 32, 96, 49, 96, 116,
    104, 101, 32, 99, 104, 101, 99, 107, 115, 117, 109, 32, 105, 115, 32, 119, 114, 111, 110, 103, 116, 104, 101, 32,
    108, 101, 110, 116, 32, 109, 101, 109, 111, 114, 121, 32, 100, 105, 100, 32, 110, 111, 116, 32, 115, 117, 102, 102,
    105, 99, 101, 97, 32, 98, 117, 102, 102, 101, 114, 32, 105, 115, 32, 116, 111, 111, 32, 115, 109, 97, 108, 108,
    23, 0, 0, 0, 24, 0, 0, 0, 21, 0, 0, 0, 22, 0, 0, 0, 12, 0, 0, 0, 11, 0, 0, 0,
    13, 0, 0, 0, 14, 0, 0, 0, 15, 0, 0, 0, 16, 0, 0, 0, 31, 0, 0, 0, 33, 0, 0, 0,
    32, 0, 0, 0, 83, 0, 0, 0, 85, 0, 0, 0, 86, 0, 0, 0, 84, 0, 0, 0, 84, 0, 0, 0,
    56, 0, 0, 0, 78, 0, 0, 0, 66, 0, 0, 0, 68, 0, 0, 0, 92, 0, 0, 0, 75, 0, 0, 0,
    76, 0, 0, 0, 84, 0, 0, 0, 74, 0, 0, 0, 77, 0, 0, 0, 91, 0, 0, 0,
}};

#ifdef MACHINE_IS_TESTED
#define PARTS 12u

typedef struct {
    u8 *at;
    size_t readable; /* as many bytes */
    size_t writable; /* as many, or none */
} Part;
#endif

typedef struct {
    u64 stack_pointer;
    u64 stack_low; /* below this it may not go */
#ifdef MACHINE_IS_TESTED
    u32 count; /* of the parts that are there */
    Part parts[PARTS];
#endif
} Machine;

OWN void trap(void) {
    for (;;) {
        MACHINE_TRAP();
    }
}

/* A number of bytes, where the processor's memory may have as many. */
OWN size_t size_of(u64 size) {
    if (NEVER(size > SIZE_MAX)) {
        trap();
    }
    return (size_t)size;
}

/* ---- where the bytes of an address lie */

#ifdef MACHINE_IS_TESTED

#define PLACE(place) (((u64)2 << 32) + (u64)(place))

OWN const u8 *readable(const Machine *m, u64 address, size_t size) {
    u32 part = (u32)(address >> 32), from = (u32)address;
    if (NEVER(part >= m->count || from > m->parts[part].readable || size > m->parts[part].readable - from)) {
        trap();
    }
    return m->parts[part].at + from;
}

OWN u8 *writable(const Machine *m, u64 address, size_t size) {
    u32 part = (u32)(address >> 32), from = (u32)address;
    if (NEVER(part >= m->count || from > m->parts[part].writable || size > m->parts[part].writable - from)) {
        trap();
    }
    return m->parts[part].at + from;
}

#else

#define PLACE(place) ((u64)(uintptr_t)constants.at + (u64)(place))

OWN const u8 *readable(const Machine *m, u64 address, size_t size) {
    (void)m;
    (void)size;
    return (const u8 *)(uintptr_t)address;
}

OWN u8 *writable(const Machine *m, u64 address, size_t size) {
    (void)m;
    (void)size;
    return (u8 *)(uintptr_t)address;
}

#endif

/* ---- numbers in memory, by bytes */

OWN u32 get_16(const u8 *p) {
    return p[0] | (u32)p[1] << 8;
}

OWN u32 get_32(const u8 *p) {
    return p[0] | (u32)p[1] << 8 | (u32)p[2] << 16 | (u32)p[3] << 24;
}

OWN u64 get_64(const u8 *p) {
    return p[0] | (u64)p[1] << 8 | (u64)p[2] << 16 | (u64)p[3] << 24 | (u64)p[4] << 32 | (u64)p[5] << 40 |
           (u64)p[6] << 48 | (u64)p[7] << 56;
}

OWN void put_16(u8 *p, u32 x) {
    p[0] = (u8)(x & 255);
    p[1] = (u8)(x >> 8 & 255);
}

OWN void put_32(u8 *p, u32 x) {
    p[0] = (u8)(x & 255);
    p[1] = (u8)(x >> 8 & 255);
    p[2] = (u8)(x >> 16 & 255);
    p[3] = (u8)(x >> 24 & 255);
}

OWN void put_64(u8 *p, u64 x) {
    p[0] = (u8)(x & 255);
    p[1] = (u8)(x >> 8 & 255);
    p[2] = (u8)(x >> 16 & 255);
    p[3] = (u8)(x >> 24 & 255);
    p[4] = (u8)(x >> 32 & 255);
    p[5] = (u8)(x >> 40 & 255);
    p[6] = (u8)(x >> 48 & 255);
    p[7] = (u8)(x >> 56 & 255);
}

/* ---- the instructions that C has no sign for, by the names that translator/translate gives them. A number is held without
 * a sign; where an instruction reads it with one, that is worked out on numbers without. */

/* In the order of numbers with a sign. */
#define SIGNED_32(x) ((u32)(x) ^ (u32)0x80000000u)
#define SIGNED_64(x) ((u64)(x) ^ (u64)1 << 63)

OWN u32 I32_EXTEND8_S(u32 x) {
    return (u32)(((x & 0xffu) ^ 0x80u) - 0x80u);
}

OWN u32 I32_EXTEND16_S(u32 x) {
    return (u32)(((x & 0xffffu) ^ 0x8000u) - 0x8000u);
}

OWN u64 I64_EXTEND8_S(u64 x) {
    return ((x & 0xffu) ^ 0x80u) - 0x80u;
}

OWN u64 I64_EXTEND16_S(u64 x) {
    return ((x & 0xffffu) ^ 0x8000u) - 0x8000u;
}

OWN u64 I64_EXTEND32_S(u64 x) {
    return ((x & 0xffffffffu) ^ 0x80000000u) - 0x80000000u;
}

OWN u64 I64_EXTEND_I32_S(u32 x) {
    return I64_EXTEND32_S(x);
}

OWN u32 I32_SHR_S(u32 x, u32 y) {
    u32 sign = (u32)(0u - (x >> 31));
    return (u32)((x ^ sign) >> (y & 31) ^ sign);
}

OWN u64 I64_SHR_S(u64 x, u64 y) {
    u64 sign = 0u - (x >> 63);
    return (x ^ sign) >> (y & 63) ^ sign;
}

OWN u32 I32_MUL(u32 x, u32 y) {
    return (u32)(1u * x * y);
}

OWN u32 I32_DIV_U(u32 x, u32 y) {
    if (NEVER(y == 0)) {
        trap();
    }
    return x / y;
}

OWN u32 I32_REM_U(u32 x, u32 y) {
    if (NEVER(y == 0)) {
        trap();
    }
    return x % y;
}

OWN u64 I64_DIV_U(u64 x, u64 y) {
    if (NEVER(y == 0)) {
        trap();
    }
    return x / y;
}

OWN u64 I64_REM_U(u64 x, u64 y) {
    if (NEVER(y == 0)) {
        trap();
    }
    return x % y;
}

OWN u32 I32_ROTL(u32 x, u32 y) {
    return (u32)(x << (y & 31) | x >> ((32 - (y & 31)) & 31));
}

OWN u32 I32_ROTR(u32 x, u32 y) {
    return (u32)(x >> (y & 31) | x << ((32 - (y & 31)) & 31));
}

OWN u64 I64_ROTL(u64 x, u64 y) {
    return x << (y & 63) | x >> ((64 - (y & 63)) & 63);
}

OWN u64 I64_ROTR(u64 x, u64 y) {
    return x >> (y & 63) | x << ((64 - (y & 63)) & 63);
}

OWN u64 I64_CTZ(u64 x) {
#if defined(__GNUC__)
    return x ? (u64)__builtin_ctzll(x) : 64;
#else
    u64 n = 0;
    while (n < 64 && !(x >> n & 1)) {
        n++;
    }
    return n;
#endif
}

OWN u64 I64_CLZ(u64 x) {
#if defined(__GNUC__)
    return x ? (u64)__builtin_clzll(x) : 64;
#else
    u64 n = 0;
    while (n < 64 && !(x >> (63 - n) & 1)) {
        n++;
    }
    return n;
#endif
}

OWN u64 I64_POPCNT(u64 x) {
    u64 n = 0;
    for (; x; x &= x - 1) {
        n++;
    }
    return n;
}

OWN u32 I32_CTZ(u32 x) {
    return (u32)I64_CTZ(x | (u64)1 << 32);
}

OWN u32 I32_CLZ(u32 x) {
    return (u32)(I64_CLZ(x) - 32);
}

OWN u32 I32_POPCNT(u32 x) {
    return (u32)I64_POPCNT(x);
}

#define LOAD(name, type, size, value)                \
    OWN type name(const Machine *m, u64 address) {   \
        const u8 *p = readable(m, address, size);    \
        return (value);                              \
    }

LOAD(I32_LOAD8_U, u32, 1, p[0])
LOAD(I64_LOAD8_U, u64, 1, p[0])
LOAD(I32_LOAD8_S, u32, 1, I32_EXTEND8_S(p[0]))
LOAD(I64_LOAD8_S, u64, 1, I64_EXTEND8_S(p[0]))
LOAD(I32_LOAD16_U, u32, 2, get_16(p))
LOAD(I64_LOAD16_U, u64, 2, get_16(p))
LOAD(I32_LOAD16_S, u32, 2, I32_EXTEND16_S(get_16(p)))
LOAD(I64_LOAD16_S, u64, 2, I64_EXTEND16_S(get_16(p)))
LOAD(I32_LOAD, u32, 4, get_32(p))
LOAD(I64_LOAD32_U, u64, 4, get_32(p))
LOAD(I64_LOAD32_S, u64, 4, I64_EXTEND32_S(get_32(p)))
LOAD(I64_LOAD, u64, 8, get_64(p))

#define STORE(name, type, size, put)                   \
    OWN void name(const Machine *m, u64 address, type x) { \
        u8 *p = writable(m, address, size);            \
        put;                                           \
    }

STORE(I32_STORE8, u32, 1, p[0] = (u8)(x & 255))
STORE(I64_STORE8, u64, 1, p[0] = (u8)(x & 255))
STORE(I32_STORE16, u32, 2, put_16(p, x))
STORE(I64_STORE16, u64, 2, put_16(p, (u32)(x & 0xffffu)))
STORE(I32_STORE, u32, 4, put_32(p, x))
STORE(I64_STORE32, u64, 4, put_32(p, (u32)(x & 0xffffffffu)))
STORE(I64_STORE, u64, 8, put_64(p, x))

OWN void MEMORY_COPY(const Machine *m, u64 to, u64 from, u64 size) {
    if (size > 0) {
        memmove(writable(m, to, size_of(size)), readable(m, from, size_of(size)), (size_t)size);
    }
}

OWN void MEMORY_FILL(const Machine *m, u64 to, u32 byte, u64 size) {
    if (size > 0) {
        memset(writable(m, to, size_of(size)), (int)(byte & 255), (size_t)size);
    }
}

/* What a function of the library begins with: this many bytes of the stack are there. */
#define FRAME(m, size)                                             \
    do {                                                           \
        if (NEVER((m)->stack_pointer - (m)->stack_low < (size))) { \
            trap();                                                \
        }                                                          \
    } while (0)

/* ---- what a link would add */

/* Whether a call is under way in this machine: never, since each call makes its own. */
OWN u32 ENTER(Machine *m) {
    (void)m;
    return 0;
}

OWN void LEAVE(Machine *m) {
    (void)m;
}

OWN void TRAP(Machine *m) {
    (void)m;
    trap();
}

/* The product of two numbers of 128 bits, each as its low and its high half, is put at an address. */
OWN void MULTIPLY_128(Machine *m, u64 to, u64 a, u64 a_high, u64 b, u64 b_high) {
    u64 a_0 = a & 0xffffffffu, a_1 = a >> 32, b_0 = b & 0xffffffffu, b_1 = b >> 32;
    u64 low = a_0 * b_0, middle = a_1 * b_0 + (low >> 32), other = a_0 * b_1 + (middle & 0xffffffffu);
    I64_STORE(m, to, other << 32 | (low & 0xffffffffu));
    I64_STORE(m, to + 8, a_1 * b_1 + (middle >> 32) + (other >> 32) + a * b_high + a_high * b);
}

/* A number of 128 bits, its low half and its high one, by a number of bits to the right, below 128, is put at an address. */
OWN void SHIFT_RIGHT_128(Machine *m, u64 to, u64 low, u64 high, u32 by) {
    u64 next = by & 64 ? 0 : high;
    low = by & 64 ? high : low;
    by &= 63;
    I64_STORE(m, to, low >> by | (by == 0 ? 0 : next << (64 - by)));
    I64_STORE(m, to + 8, next >> by);
}

/* ---- what the calls make a machine of */

#ifdef MACHINE_IS_TESTED

OWN u64 part(Machine *m, u8 *at, size_t readable, size_t writable) {
    if (NEVER(m->count == PARTS)) {
        trap();
    }
    m->parts[m->count].at = at;
    m->parts[m->count].readable = readable;
    m->parts[m->count].writable = writable;
    return (u64)m->count++ << 32;
}

/* The address that bytes have in the machine, where they may only be read. */
OWN u64 lend(Machine *m, const u8 *at, u64 size) {
    return part(m, (u8 *)at, size_of(size), 0);
}

/* The address that bytes have in the machine, where they may be written. */
OWN u64 lend_room(Machine *m, u8 *at, u64 size) {
    return part(m, at, size_of(size), size_of(size));
}

OWN void start(Machine *m, u8 *stack, size_t size) {
    m->count = 0;
    lend(m, stack, 0);
    m->stack_low = lend_room(m, stack, size);
    m->stack_pointer = m->stack_low + size;
    lend(m, constants.at, CONSTANTS_SIZE);
}

/* A part has less than 2^32 bytes. What is longer, and is not read to its end in any case, is handed over in part. */
#define IS_TOO_LONG(size) ((u64)(size) >> 32 != 0)
#define MOST ((u64)1 << 28)
#define SOME(size) ((u64)(size) < MOST ? (u64)(size) : MOST)

#else

OWN u64 lend(Machine *m, const u8 *at, u64 size) {
    (void)m;
    (void)size;
    return (u64)(uintptr_t)at;
}

OWN u64 lend_room(Machine *m, u8 *at, u64 size) {
    return lend(m, at, size);
}

/* The library's stack begins at a multiple of 16. */
OWN void start(Machine *m, u8 *stack, size_t size) {
    u64 low = (u64)(uintptr_t)stack;
    m->stack_low = low + (0u - low) % 16;
    m->stack_pointer = m->stack_low + size;
    if (NEVER((uintptr_t)constants.at % MACHINE_ALIGN != 0)) {
        trap();
    }
}

#define IS_TOO_LONG(size) 0
#define SOME(size) ((u64)(size))

#endif

/* A new machine, with as much stack as a function takes. */
#define MACHINE(function)                          \
    Machine m;                                     \
    ALIGNED(16) u8 stack[stack_##function + 15u];  \
    start(&m, stack, stack_##function)

/* Numbers of eight bytes each, in the library's order: those that a function is given, and those that it writes. */
#define GIVEN(count)                     \
    ALIGNED(16) u64 given_words[count];  \
    u8 *const given = (u8 *)given_words

#define NUMBERS(count)                           \
    ALIGNED(16) u64 number_words[count] = {0};   \
    u8 *const numbers = (u8 *)number_words

/* The functions of the library. */

static void f3(Machine *m, u64 l0, u64 l1, u64 l2);
static void f4(Machine *m, u64 l0, u64 l1, u64 l2);
static void f5(Machine *m, u64 l0, u64 l1, u64 l2);
static void f6(Machine *m, u64 l0, u64 l1, u64 l2);
static u32 f7(Machine *m, u32 l0, u64 l1, u64 l2);
static u32 f8(Machine *m, u64 l0);
static u64 f9(Machine *m, u64 l0, u64 l1, u64 l2);
static u64 f10(Machine *m, u64 l0, u64 l1);
static u32 f11(Machine *m, u64 l0, u64 l1);
static u64 f12(Machine *m, u64 l0, u64 l1);
static void f13(Machine *m, u32 l0, u64 l1, u64 l2, u64 l3, u64 l4);
static u32 f14(Machine *m, u32 l0);
static void f15(Machine *m, u32 l0, u64 l1, u64 l2, u32 l3);
static u32 f16(Machine *m, u32 l0, u32 l1);
static void f17(Machine *m, u64 l0, u64 l1, u64 l2, u64 l3, u64 l4);
static void f18(Machine *m, u64 l0, u64 l1, u64 l2, u64 l3, u32 l4);
static void f19(Machine *m, u64 l0, u64 l1, u64 l2, u64 l3, u32 l4);
static u32 f20(Machine *m, u64 l0, u64 l1, u64 l2);
static u32 f21(Machine *m, u32 l0, u32 l1);
static u32 f22(Machine *m, u32 l0);
static void f23(Machine *m, u64 l0, u32 l1, u64 l2, u64 l3, u32 l4);
static u32 f24(Machine *m, u64 l0, u64 l1);
static void f25(Machine *m, u32 l0, u64 l1, u64 l2, u64 l3, u32 l4, u64 l5, u64 l6);
static void f26(Machine *m, u32 l0, u64 l1, u64 l2, u64 l3);
static u32 of_codex32_derive(Machine *m, u32 l0, u64 l1, u64 l2, u64 l3, u64 l4, u64 l5, u64 l6, u64 l7);
static u32 f28(Machine *m, u32 l0, u64 l1, u64 l2, u64 l3, u64 l4, u64 l5, u64 l6, u64 l7);
static u32 of_codex32_encode(Machine *m, u32 l0, u64 l1, u64 l2, u32 l3, u64 l4, u64 l5, u64 l6, u64 l7, u64 l8);
static u32 f30(Machine *m, u32 l0, u64 l1, u64 l2, u32 l3, u64 l4, u64 l5, u64 l6, u64 l7, u64 l8);
static u32 of_codex32_encode_payload(Machine *m, u32 l0, u64 l1, u64 l2, u32 l3, u64 l4, u64 l5, u64 l6, u64 l7, u64 l8);
static u32 f32(Machine *m, u32 l0, u64 l1, u64 l2, u32 l3, u64 l4, u64 l5, u64 l6, u64 l7, u64 l8);
static u32 of_codex32_message(Machine *m, u32 l0, u64 l1, u64 l2, u64 l3);
static u32 f34(Machine *m, u32 l0, u64 l1, u64 l2, u64 l3);
static u32 of_codex32_share(Machine *m, u64 l0, u64 l1, u64 l2, u64 l3, u64 l4, u64 l5, u64 l6, u64 l7);
static u32 f36(Machine *m, u64 l0, u64 l1, u64 l2, u64 l3, u64 l4, u64 l5, u64 l6, u64 l7);
static u32 of_codex32_version(Machine *m);
static void f38(Machine *m);

/* codex32_small::derive::part_of */
static void f3(Machine *m, u64 l0, u64 l1, u64 l2) {
    u32 l4 = 0, l5 = 0, w0;
    u64 l3 = 0, l6 = 0, l7 = 0, l8 = 0, l9 = 0, t0, t1, t2, t3;
    FRAME(m, 32u);
    t0 = m->stack_pointer;
    t0 = t0 - 32ull;
    l3 = t0;
    m->stack_pointer = l3;
    I64_STORE(m, l3 + 24u, 0ull);
    I64_STORE(m, l3 + 16u, 0ull);
    I64_STORE(m, l3 + 8u, 0ull);
    t0 = l3 + 8ull;
    f4(m, t0, l1, l2);
    w0 = I32_LOAD8_U(m, l3 + 8u);
    if (w0) goto L2;
    t0 = I64_LOAD(m, l3 + 24u);
    l1 = t0;
    t0 = I64_LOAD(m, l3 + 16u);
    l2 = t0;
    w0 = I32_LOAD8_U(m, l2);
    w0 = w0 + 4294967248u;
    l4 = w0;
    w0 = l4 & 255u;
    l5 = w0;
    w0 = l5 == 0;
    if (w0) goto L4;
    w0 = l5 == 1u;
    if (w0) goto L1;
    w0 = l4 & 255u;
    w0 = w0 > 9u;
    if (w0) goto L1;
    w0 = I32_LOAD8_U(m, l2 + 5u);
    l5 = w0;
    goto L3;
    L4:;
    w0 = I32_LOAD8_U(m, l2 + 5u);
    l5 = w0;
    w0 = l5 & 223u;
    w0 = w0 != 83u;
    if (w0) goto L1;
    L3:;
    t0 = I64_LOAD8_U(m, l2 + 1u);
    l6 = t0;
    t0 = I64_LOAD8_U(m, l2 + 2u);
    l7 = t0;
    t0 = I64_LOAD8_U(m, l2 + 3u);
    l8 = t0;
    t0 = I64_LOAD8_U(m, l2 + 4u);
    l9 = t0;
    t0 = l0 + 24ull;
    I64_STORE(m, t0, l1);
    t0 = l0 + 16ull;
    I64_STORE(m, t0, l2);
    I64_STORE(m, l0, 0ull);
    t0 = l0 + 8ull;
    t1 = (u64)l5;
    t1 = t1 & 255ull;
    t1 = I64_LOAD8_U(m, t1 + PLACE(0u));
    t1 = t1 << 40;
    t2 = (u64)l4;
    t2 = t2 & 255ull;
    t1 = t1 | t2;
    t2 = I64_LOAD8_U(m, l8 + PLACE(0u));
    t2 = t2 << 16;
    t3 = I64_LOAD8_U(m, l9 + PLACE(0u));
    t3 = t3 << 24;
    t2 = t2 | t3;
    t3 = I64_LOAD8_U(m, l7 + PLACE(0u));
    t3 = t3 << 8;
    t2 = t2 | t3;
    t3 = I64_LOAD8_U(m, l6 + PLACE(0u));
    t2 = t2 | t3;
    t2 = t2 << 8;
    t1 = t1 | t2;
    I64_STORE(m, t0, t1);
    goto L0;
    L2:;
    I32_STORE(m, l0, 1u);
    t0 = l0 + 8ull;
    I64_STORE(m, t0, 0ull);
    t0 = l0 + 4ull;
    w0 = I32_LOAD(m, l3 + 12u);
    I32_STORE(m, t0, w0);
    t0 = l0 + 16ull;
    I64_STORE(m, t0, 0ull);
    t0 = l0 + 24ull;
    I64_STORE(m, t0, 0ull);
    goto L0;
    L1:;
    TRAP(m);
    return;
    L0:;
    t0 = l3 + 32ull;
    m->stack_pointer = t0;
}

/* codex32_small::share::data_part_of */
static void f4(Machine *m, u64 l0, u64 l1, u64 l2) {
    u32 l5 = 0, l6 = 0, l7 = 0, l9 = 0, w0, w1;
    u64 l3 = 0, l4 = 0, l8 = 0, t0, t1;
    FRAME(m, 192u);
    t0 = m->stack_pointer;
    t0 = t0 - 192ull;
    l3 = t0;
    m->stack_pointer = l3;
    t0 = l3 + 80ull;
    MEMORY_FILL(m, t0, 0u, 72ull);
    MEMORY_FILL(m, l3, 0u, 80ull);
    f5(m, l3, l1, l2);
    w0 = I32_LOAD8_U(m, l3);
    if (w0) goto L4;
    t0 = I64_LOAD(m, l3 + 16u);
    l4 = t0;
    t0 = I64_LOAD(m, l3 + 8u);
    l2 = t0;
    I64_STORE(m, l3 + 184u, 0ull);
    I64_STORE(m, l3 + 176u, 0ull);
    I64_STORE(m, l3 + 168u, 0ull);
    I64_STORE(m, l3 + 160u, 0ull);
    I64_STORE(m, l3 + 152u, 0ull);
    t0 = l3 + 152ull;
    f6(m, t0, l2, l4);
    w0 = I32_LOAD(m, l3 + 164u);
    l5 = w0;
    w0 = I32_LOAD(m, l3 + 160u);
    l6 = w0;
    w0 = l6 & 255u;
    l7 = w0;
    t0 = I64_LOAD(m, l3 + 168u);
    l8 = t0;
    w0 = I32_LOAD8_U(m, l3 + 152u);
    l9 = w0;
    if (l9) goto L7;
    t0 = I64_LOAD(m, l3 + 176u);
    l2 = t0;
    t0 = I64_LOAD(m, l3 + 184u);
    l1 = t0;
    t0 = l4 + 18446744073709551568ull;
    w0 = t0 < 46ull;
    if (w0) goto L8;
    t0 = l4 + 18446744073709551491ull;
    w0 = t0 > 2ull;
    if (w0) goto L6;
    L8:;
    w0 = l8 != 2ull;
    if (w0) goto L10;
    w0 = l5 & 255u;
    w0 = l9 ? w0 : l5;
    t0 = (u64)w0;
    t0 = t0 << 32;
    w0 = l9 ? l7 : l6;
    t1 = (u64)w0;
    t0 = t0 | t1;
    l8 = t0;
    w0 = I32_LOAD8_U(m, l8);
    l7 = w0;
    w0 = l7 + 32u;
    w1 = l7 + 4294967231u;
    w1 = w1 & 255u;
    w1 = w1 < 26u;
    w0 = w1 ? w0 : l7;
    w0 = w0 & 255u;
    w0 = w0 != 109u;
    if (w0) goto L10;
    w0 = I32_LOAD8_U(m, l8 + 1u);
    l7 = w0;
    w0 = l7 + 32u;
    w1 = l7 + 4294967231u;
    w1 = w1 & 255u;
    w1 = w1 < 26u;
    w0 = w1 ? w0 : l7;
    w0 = w0 & 255u;
    w0 = w0 == 115u;
    if (w0) goto L9;
    L10:;
    l2 = 0ull;
    l5 = 81u;
    goto L1;
    L9:;
    l7 = 1u;
    w0 = l4 > 93ull;
    w0 = f7(m, w0, l2, l1);
    if (w0) goto L5;
    l2 = 0ull;
    l5 = 33u;
    l1 = 0ull;
    goto L0;
    L7:;
    if (l7) goto L12;
    w0 = l5 & 255u;
    t0 = (u64)w0;
    t0 = t0 << 2;
    w0 = I32_LOAD(m, t0 + PLACE(2952u));
    l5 = w0;
    goto L11;
    L12:;
    t0 = l8 & 255ull;
    t0 = t0 << 2;
    w0 = I32_LOAD(m, t0 + PLACE(2968u));
    l5 = w0;
    L11:;
    l2 = 0ull;
    goto L1;
    L6:;
    l2 = 0ull;
    l5 = 82u;
    goto L1;
    L5:;
    w0 = I32_LOAD8_U(m, l2);
    l5 = w0;
    w0 = l5 == 48u;
    if (w0) goto L14;
    w0 = l5 + 4294967246u;
    w0 = w0 & 255u;
    w0 = w0 < 8u;
    if (w0) goto L2;
    l5 = 83u;
    goto L13;
    L14:;
    t0 = l2 + 5ull;
    w0 = I32_LOAD8_U(m, t0);
    l5 = w0;
    w0 = l5 + 32u;
    w1 = l5 + 4294967231u;
    w1 = w1 & 255u;
    w1 = w1 < 26u;
    w0 = w1 ? w0 : l5;
    w0 = w0 & 255u;
    w0 = w0 == 115u;
    if (w0) goto L2;
    l5 = 84u;
    L13:;
    l2 = 0ull;
    l1 = 0ull;
    goto L0;
    L4:;
    w0 = I32_LOAD16_U(m, l3 + 8u);
    I32_STORE16(m, l3 + 80u, w0);
    t0 = I64_LOAD8_U(m, l3 + 16u);
    I64_STORE(m, l3 + 88u, t0);
    w0 = I32_LOAD8_U(m, l3 + 24u);
    I32_STORE8(m, l3 + 96u, w0);
    t0 = I64_LOAD(m, l3 + 25u);
    I64_STORE(m, l3 + 97u, t0);
    t0 = I64_LOAD(m, l3 + 33u);
    I64_STORE(m, l3 + 105u, t0);
    t0 = I64_LOAD(m, l3 + 41u);
    I64_STORE(m, l3 + 113u, t0);
    t0 = I64_LOAD(m, l3 + 49u);
    I64_STORE(m, l3 + 121u, t0);
    t0 = I64_LOAD(m, l3 + 57u);
    I64_STORE(m, l3 + 129u, t0);
    t0 = I64_LOAD(m, l3 + 65u);
    I64_STORE(m, l3 + 137u, t0);
    w0 = I32_LOAD16_U(m, l3 + 73u);
    I32_STORE16(m, l3 + 145u, w0);
    l1 = 0ull;
    l7 = 1u;
    t0 = l3 + 80ull;
    w0 = f8(m, t0);
    l5 = w0;
    l2 = 0ull;
    goto L0;
    TRAP(m);
    return;
    L2:;
    l7 = 0u;
    l5 = 0u;
    goto L0;
    L1:;
    l7 = 1u;
    l1 = 0ull;
    L0:;
    I32_STORE(m, l0, l7);
    t0 = l0 + 16ull;
    I64_STORE(m, t0, l1);
    t0 = l0 + 8ull;
    I64_STORE(m, t0, l2);
    t0 = l0 + 4ull;
    I32_STORE(m, t0, l5);
    t0 = l3 + 192ull;
    m->stack_pointer = t0;
}

/* codex32_calls::input::text_of */
static void f5(Machine *m, u64 l0, u64 l1, u64 l2) {
    u32 l8 = 0, l11 = 0, w0, w1;
    u64 l3 = 0, l4 = 0, l5 = 0, l6 = 0, l7 = 0, l9 = 0, l10 = 0, t0, t1;
    FRAME(m, 112u);
    t0 = m->stack_pointer;
    t0 = t0 - 112ull;
    l3 = t0;
    m->stack_pointer = l3;
    l4 = l3;
    w0 = l2 == 0;
    if (w0) goto L1;
    t0 = l2 + 18446744073709551608ull;
    l5 = t0;
    t0 = l1 + l5;
    l6 = t0;
    l3 = 0ull;
    L3:;
    l7 = l3;
    t0 = l1 + l7;
    l3 = t0;
    w0 = I32_LOAD8_U(m, l3);
    l8 = w0;
    t0 = l2 - l7;
    l9 = t0;
    w0 = l9 < 2ull;
    if (w0) goto L8;
    w0 = I32_EXTEND8_S(l8);
    w0 = SIGNED_32(w0) < SIGNED_32(0u);
    if (w0) goto L8;
    l10 = 1ull;
    t0 = l3 + 1ull;
    w0 = I32_LOAD8_S(m, t0);
    w0 = SIGNED_32(w0) < SIGNED_32(0u);
    if (w0) goto L7;
    I64_STORE(m, l4 + 64u, l2);
    I64_STORE(m, l4 + 56u, l1);
    w0 = l9 > 7ull;
    if (w0) goto L9;
    w0 = I32_LOAD8_S(m, l3);
    w0 = SIGNED_32(w0) >= SIGNED_32(0u);
    if (w0) goto L10;
    l3 = l7;
    goto L4;
    L10:;
    t0 = l7 + 1ull;
    l3 = t0;
    w0 = l3 == l2;
    if (w0) goto L1;
    t0 = l1 + l3;
    w0 = I32_LOAD8_S(m, t0);
    w0 = SIGNED_32(w0) < SIGNED_32(0u);
    if (w0) goto L4;
    t0 = l7 + 2ull;
    l3 = t0;
    w0 = l3 == l2;
    if (w0) goto L1;
    t0 = l1 + l3;
    w0 = I32_LOAD8_S(m, t0);
    w0 = SIGNED_32(w0) < SIGNED_32(0u);
    if (w0) goto L4;
    t0 = l7 + 3ull;
    l3 = t0;
    w0 = l3 == l2;
    if (w0) goto L1;
    t0 = l1 + l3;
    w0 = I32_LOAD8_S(m, t0);
    w0 = SIGNED_32(w0) < SIGNED_32(0u);
    if (w0) goto L4;
    t0 = l7 + 4ull;
    l3 = t0;
    w0 = l3 == l2;
    if (w0) goto L1;
    t0 = l1 + l3;
    w0 = I32_LOAD8_S(m, t0);
    w0 = SIGNED_32(w0) < SIGNED_32(0u);
    if (w0) goto L4;
    t0 = l7 + 5ull;
    l3 = t0;
    w0 = l3 == l2;
    if (w0) goto L1;
    t0 = l1 + l3;
    w0 = I32_LOAD8_S(m, t0);
    w0 = SIGNED_32(w0) < SIGNED_32(0u);
    if (w0) goto L4;
    t0 = l7 + 6ull;
    l3 = t0;
    w0 = l3 == l2;
    if (w0) goto L1;
    t0 = l1 + l3;
    w0 = I32_LOAD8_S(m, t0);
    w0 = SIGNED_32(w0) < SIGNED_32(0u);
    if (w0) goto L4;
    goto L1;
    L9:;
    t0 = I64_LOAD(m, l3);
    t0 = t0 & 9259542123273814144ull;
    l3 = t0;
    t0 = I64_CTZ(l3);
    t0 = t0 >> 3;
    w0 = l3 == 0;
    t0 = w0 ? 8ull : t0;
    t0 = t0 + l7;
    l3 = t0;
    t0 = l7 + 8ull;
    w0 = l3 < t0;
    if (w0) goto L4;
    t0 = l2 - l3;
    w0 = t0 < 32ull;
    if (w0) goto L11;
    L12:;
    t0 = l1 + l3;
    l7 = t0;
    t0 = l7 + 8ull;
    t0 = I64_LOAD(m, t0);
    t1 = I64_LOAD(m, l7);
    t0 = t0 | t1;
    t1 = l7 + 16ull;
    t1 = I64_LOAD(m, t1);
    t0 = t0 | t1;
    t1 = l7 + 24ull;
    t1 = I64_LOAD(m, t1);
    t0 = t0 | t1;
    t0 = t0 & 9259542123273814144ull;
    w0 = t0 != 0ull;
    if (w0) goto L11;
    t0 = l4 + 56ull;
    t1 = l3 + 32ull;
    t0 = f9(m, t0, t1, l2);
    l3 = t0;
    t0 = l2 - l3;
    w0 = t0 > 31ull;
    if (w0) goto L12;
    L11:;
    t0 = l2 - l3;
    l7 = t0;
    L13:;
    w0 = l7 < 9ull;
    if (w0) goto L6;
    t0 = l7 + 18446744073709551608ull;
    l7 = t0;
    t0 = l1 + l3;
    t0 = I64_LOAD(m, t0);
    t0 = t0 & 9259542123273814144ull;
    l10 = t0;
    t0 = I64_CTZ(l10);
    t0 = t0 >> 3;
    w0 = l10 == 0;
    t0 = w0 ? 8ull : t0;
    l10 = t0;
    t0 = l10 + l3;
    t1 = l3 + 8ull;
    l3 = t1;
    w0 = t0 >= l3;
    if (w0) goto L13;
    t0 = l10 + l3;
    t0 = t0 + 18446744073709551608ull;
    l3 = t0;
    goto L4;
    L8:;
    l10 = 1ull;
    w0 = I32_EXTEND8_S(l8);
    w0 = SIGNED_32(w0) > SIGNED_32(4294967295u);
    if (w0) goto L7;
    w0 = l8 < 194u;
    if (w0) goto L5;
    w0 = l8 > 223u;
    if (w0) goto L14;
    l10 = 2ull;
    w0 = l9 < 2ull;
    if (w0) goto L5;
    t0 = l3 + 1ull;
    w0 = I32_LOAD8_S(m, t0);
    w0 = SIGNED_32(w0) <= SIGNED_32(4294967231u);
    if (w0) goto L7;
    goto L5;
    L14:;
    w0 = l8 > 239u;
    if (w0) goto L16;
    w0 = l9 < 3ull;
    if (w0) goto L5;
    t0 = l3 + 1ull;
    w0 = I32_LOAD8_S(m, t0);
    l11 = w0;
    w0 = SIGNED_32(l11) > SIGNED_32(4294967231u);
    if (w0) goto L5;
    t0 = l3 + 2ull;
    w0 = I32_LOAD8_S(m, t0);
    w0 = SIGNED_32(w0) > SIGNED_32(4294967231u);
    if (w0) goto L5;
    w0 = l8 << 6;
    w1 = l11 & 255u;
    w0 = w0 + w1;
    w0 = w0 + 4294952832u;
    l8 = w0;
    w0 = l8 < 32u;
    if (w0) goto L5;
    l10 = 3ull;
    w0 = l8 < 864u;
    if (w0) goto L7;
    w0 = l8 < 896u;
    t0 = w0 ? 0ull : 3ull;
    l10 = t0;
    goto L15;
    L16:;
    w0 = l9 < 4ull;
    if (w0) goto L5;
    t0 = l3 + 1ull;
    w0 = I32_LOAD8_S(m, t0);
    l11 = w0;
    w0 = SIGNED_32(l11) > SIGNED_32(4294967231u);
    if (w0) goto L5;
    t0 = l3 + 2ull;
    w0 = I32_LOAD8_S(m, t0);
    w0 = SIGNED_32(w0) > SIGNED_32(4294967231u);
    if (w0) goto L5;
    t0 = l3 + 3ull;
    w0 = I32_LOAD8_S(m, t0);
    w0 = SIGNED_32(w0) > SIGNED_32(4294967231u);
    if (w0) goto L5;
    w0 = l8 << 6;
    w1 = l11 & 255u;
    w0 = w0 + w1;
    w0 = w0 + 4294951808u;
    l8 = w0;
    w0 = l8 < 16u;
    if (w0) goto L5;
    w0 = l8 < 272u;
    t0 = w0 ? 4ull : 0ull;
    l10 = t0;
    L15:;
    w0 = l10 == 0;
    if (w0) goto L5;
    L7:;
    t0 = l10 + l7;
    l3 = t0;
    goto L4;
    L6:;
    t0 = I64_LOAD(m, l6);
    t0 = t0 & 9259542123273814144ull;
    l3 = t0;
    t0 = I64_CTZ(l3);
    t0 = t0 >> 3;
    w0 = l3 == 0;
    t0 = w0 ? 8ull : t0;
    t0 = t0 + l5;
    l3 = t0;
    goto L4;
    L5:;
    I32_STORE16(m, l4 + 104u, 0u);
    l1 = 0ull;
    I64_STORE(m, l4 + 96u, 0ull);
    I64_STORE(m, l4 + 88u, 0ull);
    I64_STORE(m, l4 + 80u, 0ull);
    I64_STORE(m, l4 + 72u, 0ull);
    I64_STORE(m, l4 + 64u, 0ull);
    I64_STORE(m, l4 + 56u, 0ull);
    l3 = 1ull;
    l2 = 0ull;
    goto L0;
    L4:;
    w0 = l3 < l2;
    if (w0) goto L3;
    goto L1;
    TRAP(m);
    return;
    L1:;
    I32_STORE16(m, l4 + 104u, 0u);
    l3 = 0ull;
    I64_STORE(m, l4 + 96u, 0ull);
    I64_STORE(m, l4 + 88u, 0ull);
    I64_STORE(m, l4 + 80u, 0ull);
    I64_STORE(m, l4 + 72u, 0ull);
    I64_STORE(m, l4 + 64u, 0ull);
    I64_STORE(m, l4 + 56u, 0ull);
    L0:;
    w0 = I32_LOAD16_U(m, l4 + 104u);
    I32_STORE16(m, l4 + 48u, w0);
    t0 = I64_LOAD(m, l4 + 96u);
    I64_STORE(m, l4 + 40u, t0);
    t0 = I64_LOAD(m, l4 + 88u);
    I64_STORE(m, l4 + 32u, t0);
    t0 = I64_LOAD(m, l4 + 80u);
    I64_STORE(m, l4 + 24u, t0);
    t0 = I64_LOAD(m, l4 + 72u);
    I64_STORE(m, l4 + 16u, t0);
    t0 = I64_LOAD(m, l4 + 64u);
    I64_STORE(m, l4 + 8u, t0);
    t0 = I64_LOAD(m, l4 + 56u);
    I64_STORE(m, l4, t0);
    t0 = l0 + 24ull;
    I32_STORE8(m, t0, 0u);
    t0 = l0 + 16ull;
    I64_STORE(m, t0, l2);
    t0 = l0 + 8ull;
    I64_STORE(m, t0, l1);
    I64_STORE(m, l0, l3);
    t0 = l0 + 25ull;
    t1 = I64_LOAD(m, l4);
    I64_STORE(m, t0, t1);
    t0 = l0 + 33ull;
    t1 = I64_LOAD(m, l4 + 8u);
    I64_STORE(m, t0, t1);
    t0 = l0 + 41ull;
    t1 = I64_LOAD(m, l4 + 16u);
    I64_STORE(m, t0, t1);
    t0 = l0 + 49ull;
    t1 = I64_LOAD(m, l4 + 24u);
    I64_STORE(m, t0, t1);
    t0 = l0 + 57ull;
    t1 = I64_LOAD(m, l4 + 32u);
    I64_STORE(m, t0, t1);
    t0 = l0 + 65ull;
    t1 = I64_LOAD(m, l4 + 40u);
    I64_STORE(m, t0, t1);
    t0 = l0 + 73ull;
    w0 = I32_LOAD16_U(m, l4 + 48u);
    I32_STORE16(m, t0, w0);
    t0 = l4 + 112ull;
    m->stack_pointer = t0;
}

/* codex32_steady::texts::parts::parts_of */
static void f6(Machine *m, u64 l0, u64 l1, u64 l2) {
    u32 l6 = 0, l9 = 0, l10 = 0, l11 = 0, w0, w1, w2;
    u64 l4 = 0, l5 = 0, l7 = 0, l8 = 0, l12 = 0, t0, t1;
    t0 = f10(m, l1, l2);
    l4 = t0;
    w0 = l4 == 0;
    if (w0) goto L1;
    t0 = l4 + 18446744073709551615ull;
    l5 = t0;
    t0 = l1 + l5;
    w0 = I32_LOAD8_S(m, t0);
    l6 = w0;
    w0 = SIGNED_32(l6) >= SIGNED_32(0u);
    if (w0) goto L3;
    l7 = 18446744073709551614ull;
    t0 = l1 + l4;
    l8 = t0;
    t0 = l8 + 18446744073709551614ull;
    w0 = I32_LOAD8_U(m, t0);
    w0 = w0 > 191u;
    if (w0) goto L4;
    t0 = l8 + 18446744073709551613ull;
    w0 = I32_LOAD8_U(m, t0);
    w0 = w0 > 191u;
    t0 = w0 ? 18446744073709551613ull : 18446744073709551612ull;
    l7 = t0;
    L4:;
    t0 = l7 + l4;
    l5 = t0;
    t0 = l1 + l5;
    l4 = t0;
    w0 = I32_LOAD8_S(m, l4);
    l9 = w0;
    w0 = l9 & 255u;
    l6 = w0;
    w0 = SIGNED_32(l9) > SIGNED_32(4294967295u);
    if (w0) goto L3;
    w0 = I32_LOAD8_U(m, l4 + 1u);
    w0 = w0 & 63u;
    l10 = w0;
    w0 = l9 > 4294967263u;
    if (w0) goto L5;
    w0 = l6 << 6;
    w0 = w0 & 1984u;
    w0 = w0 | l10;
    l6 = w0;
    goto L3;
    L5:;
    w0 = I32_LOAD8_U(m, l4 + 2u);
    w0 = w0 & 63u;
    l11 = w0;
    w0 = l9 > 4294967279u;
    if (w0) goto L6;
    w0 = l10 << 6;
    w1 = l6 << 12;
    w1 = w1 & 61440u;
    w0 = w0 | w1;
    w0 = w0 | l11;
    l6 = w0;
    goto L3;
    L6:;
    w0 = l11 << 6;
    w1 = l10 << 12;
    w2 = l6 << 18;
    w2 = w2 & 1835008u;
    w1 = w1 | w2;
    w0 = w0 | w1;
    w1 = I32_LOAD8_U(m, l4 + 3u);
    w1 = w1 & 63u;
    w0 = w0 | w1;
    l6 = w0;
    L3:;
    w0 = l6 != 49u;
    if (w0) goto L8;
    l7 = 0ull;
    w0 = f11(m, l1, l2);
    w0 = w0 == 0;
    if (w0) goto L7;
    l1 = 12884901888ull;
    l4 = 1ull;
    l8 = 0ull;
    l12 = 0ull;
    goto L0;
    L8:;
    t0 = (u64)l6;
    l8 = t0;
    l12 = 0ull;
    l1 = 8589934592ull;
    l4 = 1ull;
    l7 = 0ull;
    goto L0;
    L7:;
    w0 = l5 == 0;
    w0 = w0 == 0;
    if (w0) goto L9;
    l4 = 1ull;
    l1 = 1ull;
    l8 = 1ull;
    l12 = 0ull;
    goto L0;
    L9:;
    l4 = 1ull;
    w0 = l5 <= 83ull;
    if (w0) goto L10;
    l1 = 1ull;
    l8 = 0ull;
    l12 = l5;
    goto L0;
    L10:;
    t0 = f12(m, l1, l5);
    l4 = t0;
    w0 = l5 == l4;
    if (w0) goto L11;
    t0 = l1 + l4;
    l1 = t0;
    w0 = I32_LOAD8_S(m, l1);
    l9 = w0;
    w0 = l9 & 255u;
    l6 = w0;
    w0 = SIGNED_32(l9) > SIGNED_32(4294967295u);
    if (w0) goto L12;
    w0 = I32_LOAD8_U(m, l1 + 1u);
    w0 = w0 & 63u;
    l10 = w0;
    w0 = l9 > 4294967263u;
    if (w0) goto L13;
    w0 = l6 << 6;
    w0 = w0 & 1984u;
    w0 = w0 | l10;
    l6 = w0;
    goto L12;
    L13:;
    w0 = I32_LOAD8_U(m, l1 + 2u);
    w0 = w0 & 63u;
    l11 = w0;
    w0 = l9 > 4294967279u;
    if (w0) goto L14;
    w0 = l10 << 6;
    w1 = l6 << 12;
    w1 = w1 & 61440u;
    w0 = w0 | w1;
    w0 = w0 | l11;
    l6 = w0;
    goto L12;
    L14:;
    w0 = l11 << 6;
    w1 = l10 << 12;
    w2 = l6 << 18;
    w2 = w2 & 1835008u;
    w1 = w1 | w2;
    w0 = w0 | w1;
    w1 = I32_LOAD8_U(m, l1 + 3u);
    w1 = w1 & 63u;
    w0 = w0 | w1;
    l6 = w0;
    L12:;
    w0 = l6 < 128u;
    l9 = w0;
    w0 = l9 ? 0u : l6;
    t0 = (u64)w0;
    t0 = t0 << 32;
    w0 = l6 << 8;
    w0 = w0 & 65280u;
    w0 = w0 | 3u;
    w0 = l9 ? w0 : 2u;
    t1 = (u64)w0;
    t0 = t0 | t1;
    l8 = t0;
    l4 = 1ull;
    l1 = 1ull;
    l12 = 0ull;
    goto L0;
    L11:;
    t0 = l5 + 1ull;
    l4 = t0;
    t0 = l1 + l4;
    l12 = t0;
    t0 = l2 - l4;
    l7 = t0;
    l4 = 0ull;
    l8 = l5;
    goto L0;
    TRAP(m);
    return;
    L1:;
    l8 = 0ull;
    w0 = f11(m, l1, l2);
    t0 = w0 ? 12884901888ull : 0ull;
    l1 = t0;
    l4 = 1ull;
    l12 = 0ull;
    l7 = 0ull;
    L0:;
    I64_STORE(m, l0, l4);
    t0 = l0 + 32ull;
    I64_STORE(m, t0, l7);
    t0 = l0 + 24ull;
    I64_STORE(m, t0, l12);
    t0 = l0 + 16ull;
    I64_STORE(m, t0, l8);
    t0 = l0 + 8ull;
    I64_STORE(m, t0, l1);
}

/* codex32_small::register::has_target */
static u32 f7(Machine *m, u32 l0, u64 l1, u64 l2) {
    u32 l4 = 0, l5 = 0, l6 = 0, l7 = 0, l8 = 0, l9 = 0, l10 = 0, l11 = 0, l12 = 0, l13 = 0, l14 = 0, w0, w1;
    u64 l3 = 0, t0;
    FRAME(m, 16u);
    t0 = m->stack_pointer;
    t0 = t0 - 16ull;
    l3 = t0;
    m->stack_pointer = l3;
    I64_STORE(m, l3 + 7u, 0ull);
    I64_STORE(m, l3, 0ull);
    w0 = l0 & 1u;
    l4 = w0;
    t0 = l4 ? 15ull : 13ull;
    f13(m, l0, l3, t0, l1, l2);
    w0 = I32_LOAD8_U(m, l3 + 10u);
    l0 = w0;
    w0 = I32_LOAD8_U(m, l3 + 9u);
    l5 = w0;
    w0 = I32_LOAD8_U(m, l3 + 8u);
    l6 = w0;
    w0 = I32_LOAD8_U(m, l3 + 7u);
    l7 = w0;
    w0 = I32_LOAD8_U(m, l3 + 6u);
    l8 = w0;
    w0 = I32_LOAD8_U(m, l3 + 5u);
    l9 = w0;
    w0 = I32_LOAD8_U(m, l3 + 4u);
    l10 = w0;
    w0 = I32_LOAD8_U(m, l3 + 3u);
    l11 = w0;
    w0 = I32_LOAD8_U(m, l3 + 2u);
    l12 = w0;
    w0 = I32_LOAD8_U(m, l3 + 1u);
    l13 = w0;
    w0 = I32_LOAD8_U(m, l3);
    l14 = w0;
    if (l4) goto L2;
    w0 = l14 & 255u;
    w0 = w0 == 10u;
    w1 = l13 & 255u;
    w1 = w1 == 17u;
    w0 = w0 & w1;
    w1 = l12 & 255u;
    w1 = w1 == 25u;
    w0 = w0 & w1;
    w1 = l11 & 255u;
    w1 = w1 == 3u;
    w0 = w0 & w1;
    w1 = l10 & 255u;
    w1 = w1 == 29u;
    w0 = w0 & w1;
    w1 = l9 & 255u;
    w1 = w1 == 23u;
    w0 = w0 & w1;
    w1 = l8 & 255u;
    w1 = w1 == 16u;
    w0 = w0 & w1;
    w1 = l7 & 255u;
    w1 = w1 == 11u;
    w0 = w0 & w1;
    w1 = l6 & 255u;
    w1 = w1 == 25u;
    w0 = w0 & w1;
    w1 = l5 & 255u;
    w1 = w1 == 3u;
    w0 = w0 & w1;
    w1 = l0 & 255u;
    w1 = w1 == 24u;
    w0 = w0 & w1;
    w1 = I32_LOAD8_U(m, l3 + 11u);
    w1 = w1 == 25u;
    w0 = w0 & w1;
    w1 = I32_LOAD8_U(m, l3 + 12u);
    w1 = w1 == 16u;
    w0 = w0 & w1;
    l0 = w0;
    goto L1;
    L2:;
    w0 = l14 & 255u;
    w0 = w0 == 6u;
    w1 = l13 & 255u;
    w1 = w1 == 25u;
    w0 = w0 & w1;
    w1 = l12 & 255u;
    w1 = w1 == 10u;
    w0 = w0 & w1;
    w1 = l11 & 255u;
    w1 = w1 == 17u;
    w0 = w0 & w1;
    w1 = l10 & 255u;
    w1 = w1 == 25u;
    w0 = w0 & w1;
    w1 = l9 & 255u;
    w1 = w1 == 3u;
    w0 = w0 & w1;
    w1 = l8 & 255u;
    w1 = w1 == 29u;
    w0 = w0 & w1;
    w1 = l7 & 255u;
    w1 = w1 == 23u;
    w0 = w0 & w1;
    w1 = l6 & 255u;
    w1 = w1 == 16u;
    w0 = w0 & w1;
    w1 = l5 & 255u;
    w1 = w1 == 11u;
    w0 = w0 & w1;
    w1 = l0 & 255u;
    w1 = w1 == 25u;
    w0 = w0 & w1;
    w1 = I32_LOAD8_U(m, l3 + 11u);
    w1 = w1 == 3u;
    w0 = w0 & w1;
    w1 = I32_LOAD8_U(m, l3 + 12u);
    w1 = w1 == 24u;
    w0 = w0 & w1;
    w1 = I32_LOAD8_U(m, l3 + 13u);
    w1 = w1 == 25u;
    w0 = w0 & w1;
    w1 = I32_LOAD8_U(m, l3 + 14u);
    w1 = w1 == 16u;
    w0 = w0 & w1;
    l0 = w0;
    L1:;
    t0 = l3 + 16ull;
    m->stack_pointer = t0;
    return l0;
    TRAP(m);
    return 0;
}

/* codex32_calls::refusal::Refusal::number */
static u32 f8(Machine *m, u64 l0) {
    u32 l1 = 0, l3 = 0, w0;
    u64 l2 = 0, t0;
    t0 = l0 + 1ull;
    w0 = I32_LOAD8_U(m, t0);
    l1 = w0;
    t0 = (u64)l1;
    t0 = t0 & 255ull;
    l2 = t0;
    l3 = 2u;
    t0 = I64_LOAD8_U(m, l0);
    w0 = (u32)t0;
    switch (w0) {
    case 0: goto L1;
    case 1: goto L14;
    case 2: goto L13;
    case 3: goto L12;
    case 4: goto L11;
    case 5: goto L4;
    case 6: goto L10;
    case 7: goto L9;
    case 8: goto L3;
    case 9: goto L2;
    case 10: goto L8;
    case 11: goto L7;
    default: goto L1;
    }
    L14:;
    return 4u;
    L13:;
    return 21u;
    L12:;
    return 22u;
    L11:;
    t0 = l0 + 16ull;
    w0 = I32_LOAD8_U(m, t0);
    l1 = w0;
    l3 = 81u;
    t0 = l0 + 8ull;
    w0 = I32_LOAD8_U(m, t0);
    switch (w0) {
    case 0: goto L19;
    case 1: goto L18;
    case 2: goto L1;
    case 3: goto L5;
    case 4: goto L17;
    case 5: goto L16;
    case 6: goto L15;
    default: goto L19;
    }
    L19:;
    w0 = l1 & 255u;
    w0 = w0 == 0;
    if (w0) goto L6;
    t0 = l0 + 24ull;
    w0 = I32_LOAD8_U(m, t0);
    t0 = (u64)w0;
    t0 = t0 << 2;
    w0 = I32_LOAD(m, t0 + PLACE(2968u));
    return w0;
    L18:;
    return 82u;
    L17:;
    return 83u;
    L16:;
    return 84u;
    L15:;
    return 91u;
    L10:;
    return 87u;
    L9:;
    w0 = l1 & 255u;
    w0 = w0 ? 91u : 56u;
    return w0;
    L8:;
    return 34u;
    L7:;
    return 92u;
    L6:;
    t0 = l0 + 20ull;
    t0 = I64_LOAD8_U(m, t0);
    t0 = t0 << 2;
    w0 = I32_LOAD(m, t0 + PLACE(2952u));
    return w0;
    L5:;
    t0 = (u64)l1;
    t0 = t0 & 255ull;
    t0 = t0 << 2;
    w0 = I32_LOAD(m, t0 + PLACE(2992u));
    return w0;
    L4:;
    t0 = l2 << 2;
    w0 = I32_LOAD(m, t0 + PLACE(3004u));
    return w0;
    L3:;
    t0 = l2 << 2;
    w0 = I32_LOAD(m, t0 + PLACE(3044u));
    return w0;
    L2:;
    t0 = l2 << 2;
    w0 = I32_LOAD(m, t0 + PLACE(3020u));
    l3 = w0;
    L1:;
    return l3;
    TRAP(m);
    return 0;
}

/* core::slice::words::skip_far::<#52f9edcae2f82f51> */
static u64 f9(Machine *m, u64 l0, u64 l1, u64 l2) {
    u32 w0;
    u64 l3 = 0, t0, t1;
    t0 = l2 - l1;
    l3 = t0;
    w0 = l3 < 64ull;
    if (w0) goto L1;
    t0 = I64_LOAD(m, l0);
    l0 = t0;
    L2:;
    t0 = l0 + l1;
    l2 = t0;
    t0 = l2 + 16ull;
    t0 = I64_LOAD(m, t0);
    t1 = I64_LOAD(m, l2);
    t0 = t0 | t1;
    t1 = l2 + 32ull;
    t1 = I64_LOAD(m, t1);
    t0 = t0 | t1;
    t1 = l2 + 48ull;
    t1 = I64_LOAD(m, t1);
    t0 = t0 | t1;
    t1 = l2 + 8ull;
    t1 = I64_LOAD(m, t1);
    t0 = t0 | t1;
    t1 = l2 + 24ull;
    t1 = I64_LOAD(m, t1);
    t0 = t0 | t1;
    t1 = l2 + 40ull;
    t1 = I64_LOAD(m, t1);
    t0 = t0 | t1;
    t1 = l2 + 56ull;
    t1 = I64_LOAD(m, t1);
    t0 = t0 | t1;
    t0 = t0 & 9259542123273814144ull;
    w0 = t0 != 0ull;
    if (w0) goto L1;
    t0 = l1 + 64ull;
    l1 = t0;
    t0 = l3 + 18446744073709551552ull;
    l3 = t0;
    w0 = l3 > 63ull;
    if (w0) goto L2;
    L1:;
    return l1;
    TRAP(m);
    return 0;
}

/* codex32_steady::data_start */
static u64 f10(Machine *m, u64 l0, u64 l1) {
    u32 l3 = 0, l4 = 0, l5 = 0, l6 = 0, l7 = 0, w0, w1;
    u64 l2 = 0, t0;
    w0 = l1 == 0;
    w0 = w0 == 0;
    if (w0) goto L1;
    return 0ull;
    L1:;
    t0 = l0 + 18446744073709551615ull;
    l2 = t0;
    l3 = 0u;
    l0 = 0ull;
    L2:;
    t0 = l2 + l1;
    w0 = I32_LOAD8_U(m, t0);
    l4 = w0;
    w0 = l4 + 4294967238u;
    w0 = w0 & 255u;
    w0 = w0 < 246u;
    w1 = l4 & 223u;
    w1 = w1 + 4294967205u;
    w1 = w1 & 255u;
    w1 = w1 < 230u;
    w0 = w0 & w1;
    w1 = l4 | 32u;
    l4 = w1;
    w1 = l4 ^ 111u;
    l5 = w1;
    w1 = l4 ^ 105u;
    l6 = w1;
    w1 = l4 ^ 98u;
    l7 = w1;
    w1 = l4 ^ 49u;
    l4 = w1;
    w1 = l7 < l4;
    w1 = w1 ? l7 : l4;
    l4 = w1;
    w1 = l6 < l4;
    w1 = w1 ? l6 : l4;
    l4 = w1;
    w1 = l5 < l4;
    w1 = w1 ? l5 : l4;
    w1 = w1 == 0;
    w0 = w0 | w1;
    w0 = l3 | w0;
    l3 = w0;
    t0 = (u64)l3;
    t0 = t0 & 1ull;
    t0 = l0 + t0;
    l0 = t0;
    t0 = l1 + 18446744073709551615ull;
    l1 = t0;
    w0 = l1 != 0ull;
    if (w0) goto L2;
    return l0;
    TRAP(m);
    return 0;
}

/* codex32_steady::has_both_cases */
static u32 f11(Machine *m, u64 l0, u64 l1) {
    u32 l2 = 0, l3 = 0, l7 = 0, l8 = 0, w0, w1;
    u64 l4 = 0, l5 = 0, l6 = 0, t0;
    w0 = l1 == 0;
    w0 = w0 == 0;
    if (w0) goto L2;
    l2 = 0u;
    goto L1;
    L2:;
    w0 = l1 != 1ull;
    if (w0) goto L5;
    l1 = 0ull;
    l2 = 0u;
    l3 = 0u;
    goto L4;
    L5:;
    t0 = l1 & 1ull;
    l4 = t0;
    t0 = l1 & 18446744073709551614ull;
    l5 = t0;
    l1 = 0ull;
    l2 = 0u;
    l3 = 0u;
    L6:;
    t0 = l0 + l1;
    l6 = t0;
    w0 = I32_LOAD8_U(m, l6);
    l7 = w0;
    w0 = l7 + 4294967231u;
    w0 = w0 & 255u;
    w0 = w0 < 26u;
    w0 = l3 | w0;
    t0 = l6 + 1ull;
    w1 = I32_LOAD8_U(m, t0);
    l8 = w1;
    w1 = l8 + 4294967231u;
    w1 = w1 & 255u;
    w1 = w1 < 26u;
    w0 = w0 | w1;
    l3 = w0;
    w0 = l7 + 4294967199u;
    w0 = w0 & 255u;
    w0 = w0 < 26u;
    w0 = l2 | w0;
    w1 = l8 + 4294967199u;
    w1 = w1 & 255u;
    w1 = w1 < 26u;
    w0 = w0 | w1;
    l2 = w0;
    t0 = l1 + 2ull;
    l1 = t0;
    w0 = l5 != l1;
    if (w0) goto L6;
    w0 = l4 == 0;
    if (w0) goto L3;
    L4:;
    t0 = l0 + l1;
    w0 = I32_LOAD8_U(m, t0);
    l7 = w0;
    w0 = l7 + 4294967231u;
    w0 = w0 & 255u;
    w0 = w0 < 26u;
    w0 = l3 | w0;
    l3 = w0;
    w0 = l7 + 4294967199u;
    w0 = w0 & 255u;
    w0 = w0 < 26u;
    w0 = l2 | w0;
    l2 = w0;
    L3:;
    w0 = l3 & l2;
    l2 = w0;
    L1:;
    w0 = l2 & 1u;
    return w0;
    TRAP(m);
    return 0;
}

/* codex32_steady::graphic_count */
static u64 f12(Machine *m, u64 l0, u64 l1) {
    u32 l3 = 0, w0;
    u64 l2 = 0, l4 = 0, l5 = 0, l6 = 0, t0, t1;
    w0 = l1 == 0;
    w0 = w0 == 0;
    if (w0) goto L1;
    return 0ull;
    L1:;
    w0 = l1 != 1ull;
    if (w0) goto L4;
    l2 = 0ull;
    l3 = 1u;
    l1 = 0ull;
    goto L3;
    L4:;
    t0 = l1 & 1ull;
    l4 = t0;
    t0 = l1 & 18446744073709551614ull;
    l5 = t0;
    l2 = 0ull;
    l3 = 1u;
    l1 = 0ull;
    L5:;
    t0 = l0 + l1;
    l6 = t0;
    w0 = I32_LOAD8_U(m, l6);
    w0 = w0 + 4294967263u;
    w0 = w0 & 255u;
    w0 = w0 < 94u;
    w0 = l3 & w0;
    l3 = w0;
    t0 = (u64)l3;
    t0 = l2 + t0;
    t1 = l6 + 1ull;
    w0 = I32_LOAD8_U(m, t1);
    w0 = w0 + 4294967263u;
    w0 = w0 & 255u;
    w0 = w0 < 94u;
    w0 = l3 & w0;
    l3 = w0;
    t1 = (u64)l3;
    t0 = t0 + t1;
    l2 = t0;
    t0 = l1 + 2ull;
    l1 = t0;
    w0 = l5 != l1;
    if (w0) goto L5;
    w0 = l4 == 0;
    if (w0) goto L2;
    L3:;
    t0 = l0 + l1;
    w0 = I32_LOAD8_U(m, t0);
    w0 = w0 + 4294967263u;
    w0 = w0 & 255u;
    w0 = w0 < 94u;
    w0 = l3 & w0;
    t0 = (u64)w0;
    t0 = l2 + t0;
    l2 = t0;
    L2:;
    return l2;
    TRAP(m);
    return 0;
}

/* codex32_small::register::put_remainder */
static void f13(Machine *m, u32 l0, u64 l1, u64 l2, u64 l3, u64 l4) {
    u32 w0;
    u64 l6 = 0, l7 = 0, l8 = 0, l9 = 0, t0, t1;
    t0 = l2 & 3ull;
    l6 = t0;
    l7 = 18446744073709551604ull;
    L1:;
    t0 = l1 + l7;
    l8 = t0;
    t0 = l8 + 15ull;
    t1 = l7 + PLACE(143u);
    w0 = I32_LOAD8_U(m, t1);
    w0 = w0 & 31u;
    I32_STORE8(m, t0, w0);
    t0 = l8 + 14ull;
    t1 = l7 + PLACE(142u);
    w0 = I32_LOAD8_U(m, t1);
    w0 = w0 & 31u;
    I32_STORE8(m, t0, w0);
    t0 = l8 + 13ull;
    t1 = l7 + PLACE(141u);
    w0 = I32_LOAD8_U(m, t1);
    w0 = w0 & 31u;
    I32_STORE8(m, t0, w0);
    t0 = l8 + 12ull;
    t1 = l7 + PLACE(140u);
    w0 = I32_LOAD8_U(m, t1);
    w0 = w0 & 31u;
    I32_STORE8(m, t0, w0);
    t0 = l7 + 4ull;
    l7 = t0;
    w0 = l7 != 0ull;
    if (w0) goto L1;
    w0 = l6 == 0;
    if (w0) goto L2;
    t0 = l1 + l7;
    l9 = t0;
    l8 = 0ull;
    L3:;
    t0 = l9 + l8;
    t0 = t0 + 12ull;
    t1 = l7 + l8;
    t1 = t1 + PLACE(140u);
    w0 = I32_LOAD8_U(m, t1);
    w0 = w0 & 31u;
    I32_STORE8(m, t0, w0);
    t0 = l8 + 1ull;
    l8 = t0;
    w0 = l6 != l8;
    if (w0) goto L3;
    L2:;
    w0 = l4 == 0;
    if (w0) goto L4;
    L5:;
    w0 = I32_LOAD8_U(m, l3);
    w0 = f14(m, w0);
    w0 = w0 & 255u;
    f15(m, l0, l1, l2, w0);
    t0 = l3 + 1ull;
    l3 = t0;
    t0 = l4 + 18446744073709551615ull;
    l4 = t0;
    w0 = l4 != 0ull;
    if (w0) goto L5;
    L4:;
    return;
    TRAP(m);
    return;
}

/* codex32_steady::element_of_character */
static u32 f14(Machine *m, u32 l0) {
    u32 w0, w1;
    u64 l1 = 0, t0;
    w0 = l0 >> 1;
    w0 = w0 & 32u;
    w1 = l0 & 31u;
    w0 = w0 | w1;
    t0 = (u64)w0;
    l1 = t0;
    t0 = 4790889477394432ull >> (l1 & 63);
    w0 = (u32)t0;
    w0 = w0 << 4;
    t0 = 30733258052820992ull >> (l1 & 63);
    w1 = (u32)t0;
    w1 = w1 << 3;
    w0 = w0 + w1;
    t0 = 6035709003104256ull >> (l1 & 63);
    w1 = (u32)t0;
    w1 = w1 & 3u;
    w0 = w0 | w1;
    t0 = 404978414874361856ull >> (l1 & 63);
    w1 = (u32)t0;
    w1 = w1 << 1;
    w1 = w1 & 6u;
    w0 = w0 + w1;
    t0 = 82748658904023040ull >> (l1 & 63);
    w1 = (u32)t0;
    w1 = w1 << 2;
    w1 = w1 & 12u;
    w0 = w0 + w1;
    w0 = w0 & 31u;
    return w0;
    TRAP(m);
    return 0;
}

/* codex32_small::register::take_in */
static void f15(Machine *m, u32 l0, u64 l1, u64 l2, u32 l3) {
    u32 l5 = 0, w0;
    u64 l6 = 0, l7 = 0, t0;
    t0 = l1 + l2;
    t0 = t0 + 18446744073709551615ull;
    w0 = I32_LOAD8_U(m, t0);
    l5 = w0;
    w0 = l0 & 1u;
    if (w0) goto L2;
    l6 = 0ull;
    L3:;
    t0 = l1 + l6;
    l7 = t0;
    w0 = I32_LOAD8_U(m, l7);
    l0 = w0;
    t0 = l6 + PLACE(143u);
    w0 = I32_LOAD8_U(m, t0);
    w0 = w0 & 31u;
    w0 = f16(m, w0, l5);
    w0 = w0 & 255u;
    w0 = w0 ^ l3;
    I32_STORE8(m, l7, w0);
    l3 = l0;
    t0 = l6 + 1ull;
    l6 = t0;
    w0 = l2 != l6;
    if (w0) goto L3;
    goto L1;
    L2:;
    l6 = 0ull;
    L4:;
    t0 = l1 + l6;
    l7 = t0;
    w0 = I32_LOAD8_U(m, l7);
    l0 = w0;
    t0 = l6 + PLACE(156u);
    w0 = I32_LOAD8_U(m, t0);
    w0 = w0 & 31u;
    w0 = f16(m, w0, l5);
    w0 = w0 & 255u;
    w0 = w0 ^ l3;
    I32_STORE8(m, l7, w0);
    l3 = l0;
    t0 = l6 + 1ull;
    l6 = t0;
    w0 = l2 != l6;
    if (w0) goto L4;
    L1:;
    return;
    TRAP(m);
    return;
}

/* codex32_small::product::product */
static u32 f16(Machine *m, u32 l0, u32 l1) {
    u32 w0, w1;
    u64 t0;
    t0 = (u64)l0;
    t0 = t0 & 255ull;
    t0 = t0 << 2;
    w0 = I32_LOAD(m, t0 + PLACE(172u));
    w1 = l1 & 255u;
    w1 = I32_MUL(w1, 1082401u);
    w1 = w1 & 17043521u;
    w1 = I32_MUL(w1, 31u);
    w0 = w0 & w1;
    l1 = w0;
    w0 = l1 >> 12;
    w1 = l1 >> 6;
    w0 = w0 ^ w1;
    w1 = l1 >> 18;
    w0 = w0 ^ w1;
    w1 = l1 >> 24;
    w0 = w0 ^ w1;
    w0 = w0 ^ l1;
    w0 = w0 & 31u;
    return w0;
    TRAP(m);
    return 0;
}

/* codex32_small::derive::put_parts */
static void f17(Machine *m, u64 l0, u64 l1, u64 l2, u64 l3, u64 l4) {
    u32 l8 = 0, l9 = 0, w0;
    u64 l5 = 0, l6 = 0, l7 = 0, t0;
    FRAME(m, 32u);
    t0 = m->stack_pointer;
    t0 = t0 - 32ull;
    l5 = t0;
    m->stack_pointer = l5;
    l6 = l5;
    I64_STORE(m, l6 + 24u, 0ull);
    I64_STORE(m, l6 + 16u, 0ull);
    I64_STORE(m, l6 + 8u, 0ull);
    I64_STORE(m, l6, 0ull);
    w0 = l4 == 0;
    if (w0) goto L1;
    t0 = l6 + 8ull;
    l5 = t0;
    L4:;
    t0 = I64_LOAD(m, l3);
    l7 = t0;
    f3(m, l6, l2, l7);
    w0 = I32_LOAD8_U(m, l6);
    if (w0) goto L3;
    t0 = I64_LOAD(m, l5 + 16u);
    I64_STORE(m, l1 + 16u, t0);
    t0 = I64_LOAD(m, l5 + 8u);
    I64_STORE(m, l1 + 8u, t0);
    t0 = I64_LOAD(m, l5);
    I64_STORE(m, l1, t0);
    t0 = l3 + 8ull;
    l3 = t0;
    t0 = l1 + 24ull;
    l1 = t0;
    t0 = l2 + l7;
    l2 = t0;
    t0 = l4 + 18446744073709551615ull;
    l4 = t0;
    w0 = l4 == 0;
    if (w0) goto L1;
    goto L4;
    L3:;
    l8 = 1u;
    w0 = I32_LOAD(m, l6 + 4u);
    l9 = w0;
    goto L0;
    TRAP(m);
    return;
    L1:;
    l9 = 0u;
    l8 = 0u;
    L0:;
    I32_STORE(m, l0 + 4u, l9);
    I32_STORE8(m, l0, l8);
    t0 = l6 + 32ull;
    m->stack_pointer = t0;
}

/* codex32_small::derive::put_elements */
static void f18(Machine *m, u64 l0, u64 l1, u64 l2, u64 l3, u32 l4) {
    u32 l6 = 0, l7 = 0, l14 = 0, w0, w1;
    u64 l8 = 0, l9 = 0, l10 = 0, l11 = 0, l12 = 0, l13 = 0, t0, t1;
    l6 = 3u;
    w0 = l3 == 0;
    if (w0) goto L0;
    w0 = I32_LOAD8_U(m, l2);
    l7 = w0;
    l8 = l2;
    l9 = l3;
    L2:;
    l6 = 0u;
    w0 = l7 & 255u;
    w1 = I32_LOAD8_U(m, l8);
    w0 = w0 != w1;
    if (w0) goto L0;
    t0 = l2 + 1ull;
    w0 = I32_LOAD(m, t0);
    t0 = l8 + 1ull;
    w1 = I32_LOAD(m, t0);
    w0 = w0 != w1;
    if (w0) goto L0;
    t0 = l2 + 16ull;
    t0 = I64_LOAD(m, t0);
    l10 = t0;
    t0 = l8 + 16ull;
    t0 = I64_LOAD(m, t0);
    w0 = l10 != t0;
    if (w0) goto L0;
    t0 = l8 + 24ull;
    l8 = t0;
    l11 = 18446744073709551615ull;
    t0 = l9 + 18446744073709551615ull;
    l9 = t0;
    w0 = l9 != 0ull;
    if (w0) goto L2;
    t0 = l3 * 24ull;
    t0 = t0 + l2;
    t0 = t0 + 18446744073709551597ull;
    l12 = t0;
    l13 = l3;
    L3:;
    l8 = l13;
    t0 = l8 + 18446744073709551615ull;
    l13 = t0;
    t0 = l8 * 24ull;
    t0 = t0 + l2;
    t0 = t0 + 18446744073709551597ull;
    w0 = I32_LOAD8_U(m, t0);
    l14 = w0;
    l9 = l11;
    l8 = l12;
    L5:;
    t0 = l9 + 1ull;
    l9 = t0;
    w0 = l9 == 0;
    if (w0) goto L4;
    w0 = I32_LOAD8_U(m, l8);
    l6 = w0;
    t0 = l8 + 18446744073709551592ull;
    l8 = t0;
    w0 = l14 & 255u;
    w0 = l6 != w0;
    if (w0) goto L5;
    l6 = 1u;
    goto L0;
    L4:;
    t0 = l11 + 18446744073709551615ull;
    l11 = t0;
    w0 = l13 == 0;
    w0 = w0 == 0;
    if (w0) goto L3;
    w0 = l4 & 255u;
    w0 = w0 == 16u;
    if (w0) goto L6;
    w0 = l7 & 255u;
    if (w0) goto L6;
    l6 = 2u;
    goto L0;
    L6:;
    l6 = 3u;
    w0 = l7 & 255u;
    l7 = w0;
    w0 = l7 > 1u;
    w0 = w0 ? l7 : 1u;
    t0 = (u64)w0;
    l11 = t0;
    w0 = l3 < l11;
    if (w0) goto L0;
    w0 = l3 <= l11;
    if (w0) goto L7;
    t0 = l3 - l11;
    l9 = t0;
    t0 = l11 * 24ull;
    t0 = t0 + l2;
    t0 = t0 + 16ull;
    l8 = t0;
    l6 = 1u;
    L8:;
    t0 = l8 + 18446744073709551605ull;
    w0 = I32_LOAD8_U(m, t0);
    f19(m, l1, l10, l2, l11, w0);
    t0 = l8 + 18446744073709551608ull;
    t0 = I64_LOAD(m, t0);
    t1 = I64_LOAD(m, l8);
    w0 = f20(m, l1, t0, t1);
    w0 = l6 & w0;
    l6 = w0;
    t0 = l8 + 24ull;
    l8 = t0;
    t0 = l9 + 18446744073709551615ull;
    l9 = t0;
    w0 = l9 != 0ull;
    if (w0) goto L8;
    if (l6) goto L7;
    I32_STORE16(m, l0, 1025u);
    t0 = l0 + 8ull;
    I64_STORE(m, t0, 0ull);
    return;
    L7:;
    f19(m, l1, l10, l2, l11, l4);
    t0 = l0 + 8ull;
    I64_STORE(m, t0, l10);
    I32_STORE16(m, l0, 0u);
    return;
    TRAP(m);
    return;
    L0:;
    I32_STORE8(m, l0, 1u);
    t0 = l0 + 8ull;
    I64_STORE(m, t0, 0ull);
    t0 = l0 + 1ull;
    I32_STORE8(m, t0, l6);
}

/* codex32_steady::shares::share::share_at::<#d3a5b22fb1a2e82d> */
static void f19(Machine *m, u64 l0, u64 l1, u64 l2, u64 l3, u32 l4) {
    u32 l8 = 0, l13 = 0, l14 = 0, l15 = 0, l16 = 0, w0, w1, w2, w3;
    u64 l5 = 0, l6 = 0, l7 = 0, l9 = 0, l10 = 0, l11 = 0, l12 = 0, l17 = 0, t0, t1;
    FRAME(m, 32u);
    t0 = m->stack_pointer;
    t0 = t0 - 32ull;
    l5 = t0;
    m->stack_pointer = l5;
    l6 = l5;
    I32_STORE8(m, l6 + 24u, 0u);
    l7 = 0ull;
    I64_STORE(m, l6 + 16u, 0ull);
    I64_STORE(m, l6, 0ull);
    I32_STORE8(m, l6 + 8u, 0u);
    w0 = l3 == 0;
    l8 = w0;
    if (l8) goto L1;
    t0 = l3 & 3ull;
    l9 = t0;
    w0 = l3 < 4ull;
    if (w0) goto L3;
    t0 = l2 + 77ull;
    l5 = t0;
    t0 = l3 & 18446744073709551612ull;
    l10 = t0;
    l7 = 0ull;
    L4:;
    t0 = l6 + 16ull;
    t0 = t0 + l7;
    l11 = t0;
    t0 = l5 + 18446744073709551544ull;
    w0 = I32_LOAD8_U(m, t0);
    I32_STORE8(m, l11, w0);
    t0 = l11 + 1ull;
    t1 = l5 + 18446744073709551568ull;
    w0 = I32_LOAD8_U(m, t1);
    I32_STORE8(m, t0, w0);
    t0 = l11 + 2ull;
    t1 = l5 + 18446744073709551592ull;
    w0 = I32_LOAD8_U(m, t1);
    I32_STORE8(m, t0, w0);
    t0 = l11 + 3ull;
    w0 = I32_LOAD8_U(m, l5);
    I32_STORE8(m, t0, w0);
    t0 = l5 + 96ull;
    l5 = t0;
    t0 = l7 + 4ull;
    l7 = t0;
    w0 = l10 != l7;
    if (w0) goto L4;
    w0 = l9 == 0;
    if (w0) goto L2;
    L3:;
    t0 = l7 * 24ull;
    t0 = t0 + l2;
    t0 = t0 + 5ull;
    l5 = t0;
    t0 = l6 + 16ull;
    t0 = t0 + l7;
    l11 = t0;
    L5:;
    w0 = I32_LOAD8_U(m, l5);
    I32_STORE8(m, l11, w0);
    t0 = l5 + 24ull;
    l5 = t0;
    t0 = l11 + 1ull;
    l11 = t0;
    t0 = l9 + 18446744073709551615ull;
    l9 = t0;
    w0 = l9 != 0ull;
    if (w0) goto L5;
    L2:;
    t0 = l6 + 18446744073709551615ull;
    l12 = t0;
    t0 = l6 + 18446744073709551612ull;
    l10 = t0;
    l13 = 0u;
    l9 = 0ull;
    L6:;
    l14 = 1u;
    w0 = l9 == 0;
    l15 = w0;
    if (l15) goto L7;
    t0 = l6 + 16ull;
    t0 = t0 + l9;
    w0 = I32_LOAD8_U(m, t0);
    l16 = w0;
    w0 = l16 & 255u;
    w1 = l4 & 255u;
    w0 = w0 == w1;
    if (w0) goto L9;
    w0 = l16 ^ l4;
    t0 = (u64)w0;
    t0 = t0 & 255ull;
    l17 = t0;
    l5 = 0ull;
    L10:;
    t0 = l6 + l5;
    l11 = t0;
    t0 = I64_LOAD8_U(m, l11);
    l7 = t0;
    w0 = l7 == 0;
    w0 = w0 == 0;
    if (w0) goto L12;
    l14 = 0u;
    goto L11;
    L12:;
    t0 = l17 + PLACE(300u);
    w0 = I32_LOAD8_U(m, t0);
    t0 = l6 + 16ull;
    t0 = t0 + l5;
    w1 = I32_LOAD8_U(m, t0);
    w1 = w1 ^ l16;
    t0 = (u64)w1;
    t0 = t0 & 255ull;
    w1 = I32_LOAD8_U(m, t0 + PLACE(300u));
    w1 = 31u - w1;
    w1 = w1 & 255u;
    w1 = I32_REM_U(w1, 31u);
    t0 = (u64)w1;
    t0 = I64_LOAD8_U(m, t0 + PLACE(332u));
    w1 = I32_LOAD8_U(m, t0 + PLACE(300u));
    w0 = w0 + w1;
    w0 = w0 & 255u;
    w0 = I32_REM_U(w0, 31u);
    t0 = (u64)w0;
    t0 = I64_LOAD8_U(m, t0 + PLACE(332u));
    w0 = I32_LOAD8_U(m, t0 + PLACE(300u));
    w1 = I32_LOAD8_U(m, l7 + PLACE(300u));
    w0 = w0 + w1;
    w0 = w0 & 255u;
    w0 = I32_REM_U(w0, 31u);
    t0 = (u64)w0;
    w0 = I32_LOAD8_U(m, t0 + PLACE(332u));
    l14 = w0;
    L11:;
    I32_STORE8(m, l11, l14);
    t0 = l5 + 1ull;
    l5 = t0;
    w0 = l9 != l5;
    if (w0) goto L10;
    goto L8;
    L9:;
    if (l15) goto L8;
    MEMORY_FILL(m, l6, 0u, l9);
    L8:;
    l14 = 0u;
    l5 = l9;
    w0 = l9 < 4ull;
    if (w0) goto L14;
    t0 = l9 & 18446744073709551612ull;
    t0 = 0ull - t0;
    l7 = t0;
    t0 = l9 & 3ull;
    l17 = t0;
    l14 = 0u;
    l11 = 0ull;
    L15:;
    t0 = l10 + l11;
    l5 = t0;
    w0 = I32_LOAD8_U(m, l5);
    t0 = l5 + 1ull;
    w1 = I32_LOAD8_U(m, t0);
    t0 = l5 + 2ull;
    w2 = I32_LOAD8_U(m, t0);
    t0 = l5 + 3ull;
    w3 = I32_LOAD8_U(m, t0);
    w3 = w3 ^ l14;
    w2 = w2 ^ w3;
    w1 = w1 ^ w2;
    w0 = w0 ^ w1;
    l14 = w0;
    t0 = l11 + 18446744073709551612ull;
    l11 = t0;
    w0 = l7 != l11;
    if (w0) goto L15;
    w0 = l17 == 0;
    if (w0) goto L13;
    t0 = l9 + l11;
    l5 = t0;
    L14:;
    t0 = (u64)l13;
    t0 = t0 & 3ull;
    l11 = t0;
    t0 = l12 + l5;
    l5 = t0;
    L16:;
    w0 = I32_LOAD8_U(m, l5);
    w0 = w0 ^ l14;
    l14 = w0;
    t0 = l5 + 18446744073709551615ull;
    l5 = t0;
    t0 = l11 + 18446744073709551615ull;
    l11 = t0;
    w0 = l11 != 0ull;
    if (w0) goto L16;
    L13:;
    w0 = l14 ^ 1u;
    l14 = w0;
    L7:;
    t0 = l6 + l9;
    I32_STORE8(m, t0, l14);
    w0 = l13 + 1u;
    l13 = w0;
    t0 = l10 + 1ull;
    l10 = t0;
    t0 = l9 + 1ull;
    l9 = t0;
    w0 = l9 != l3;
    if (w0) goto L6;
    L1:;
    w0 = l1 == 0;
    l14 = w0;
    if (l14) goto L17;
    if (l14) goto L17;
    MEMORY_FILL(m, l0, 0u, l1);
    L17:;
    if (l8) goto L18;
    L19:;
    t0 = l3 + 18446744073709551615ull;
    l3 = t0;
    t0 = l3 * 24ull;
    t0 = l2 + t0;
    l5 = t0;
    t0 = l5 + 16ull;
    t0 = I64_LOAD(m, t0);
    l9 = t0;
    w0 = l9 == 0;
    if (w0) goto L20;
    t0 = l6 + l3;
    w0 = I32_LOAD8_U(m, t0);
    l14 = w0;
    t0 = l5 + 8ull;
    t0 = I64_LOAD(m, t0);
    l11 = t0;
    l5 = l0;
    L21:;
    w0 = I32_LOAD8_U(m, l5);
    w1 = I32_LOAD8_U(m, l11);
    w1 = f21(m, l14, w1);
    w1 = w1 & 255u;
    w0 = w0 ^ w1;
    I32_STORE8(m, l5, w0);
    t0 = l5 + 1ull;
    l5 = t0;
    t0 = l11 + 1ull;
    l11 = t0;
    t0 = l9 + 18446744073709551615ull;
    l9 = t0;
    w0 = l9 != 0ull;
    if (w0) goto L21;
    L20:;
    w0 = l3 != 0ull;
    if (w0) goto L19;
    L18:;
    t0 = l6 + 32ull;
    m->stack_pointer = t0;
    return;
    TRAP(m);
    return;
}

/* codex32_steady::shares::agreement::are_elements_of */
static u32 f20(Machine *m, u64 l0, u64 l1, u64 l2) {
    u32 l4 = 0, l5 = 0, w0, w1;
    u64 t0;
    l4 = 1u;
    w0 = l2 == 0;
    if (w0) goto L1;
    L2:;
    w0 = I32_LOAD8_U(m, l1);
    w0 = f14(m, w0);
    l5 = w0;
    w0 = I32_LOAD8_U(m, l0);
    w1 = l5 & 255u;
    w0 = w0 == w1;
    w0 = l4 & w0;
    l4 = w0;
    t0 = l0 + 1ull;
    l0 = t0;
    t0 = l1 + 1ull;
    l1 = t0;
    t0 = l2 + 18446744073709551615ull;
    l2 = t0;
    w0 = l2 != 0ull;
    if (w0) goto L2;
    L1:;
    return l4;
    TRAP(m);
    return 0;
}

/* codex32_steady::multiple_of_character */
static u32 f21(Machine *m, u32 l0, u32 l1) {
    u32 w0, w1;
    u64 l2 = 0, l3 = 0, t0, t1;
    t0 = (u64)l0;
    t0 = t0 & 255ull;
    t0 = t0 * 40ull;
    l2 = t0;
    t0 = I64_LOAD(m, l2 + PLACE(376u));
    w0 = l1 >> 1;
    w0 = w0 & 32u;
    w1 = l1 & 31u;
    w0 = w0 | w1;
    t1 = (u64)w0;
    l3 = t1;
    t0 = t0 >> (l3 & 63);
    w0 = (u32)t0;
    w0 = w0 << 1;
    w0 = w0 & 6u;
    t0 = I64_LOAD(m, l2 + PLACE(368u));
    t0 = t0 >> (l3 & 63);
    w1 = (u32)t0;
    w1 = w1 & 3u;
    w0 = w0 + w1;
    t0 = I64_LOAD(m, l2 + PLACE(384u));
    t0 = t0 >> (l3 & 63);
    w1 = (u32)t0;
    w1 = w1 << 2;
    w1 = w1 & 12u;
    w0 = w0 + w1;
    t0 = I64_LOAD(m, l2 + PLACE(392u));
    t0 = t0 >> (l3 & 63);
    w1 = (u32)t0;
    w1 = w1 << 3;
    w0 = w0 + w1;
    t0 = I64_LOAD(m, l2 + PLACE(400u));
    t0 = t0 >> (l3 & 63);
    w1 = (u32)t0;
    w1 = w1 << 4;
    w0 = w0 + w1;
    w0 = w0 & 31u;
    return w0;
    TRAP(m);
    return 0;
}

/* codex32_steady::character_of */
static u32 f22(Machine *m, u32 l0) {
    u32 w0, w1;
    u64 l1 = 0, t0;
    w0 = l0 << 1;
    t0 = (u64)w0;
    t0 = t0 & 254ull;
    l1 = t0;
    t0 = 4991484071189483861ull >> (l1 & 63);
    w0 = (u32)t0;
    w0 = w0 << 6;
    t0 = 3848099035142096289ull >> (l1 & 63);
    w1 = (u32)t0;
    w1 = w1 & 3u;
    w0 = w0 | w1;
    t0 = 15119892230837742112ull >> (l1 & 63);
    w1 = (u32)t0;
    w1 = w1 << 2;
    w1 = w1 & 12u;
    w0 = w0 | w1;
    t0 = 13527317601142374399ull >> (l1 & 63);
    w1 = (u32)t0;
    w1 = w1 << 4;
    w1 = w1 & 48u;
    w0 = w0 | w1;
    return w0;
    TRAP(m);
    return 0;
}

/* codex32_small::encode::header_by */
static void f23(Machine *m, u64 l0, u32 l1, u64 l2, u64 l3, u32 l4) {
    u32 l6 = 0, l7 = 0, l8 = 0, l9 = 0, l10 = 0, l11 = 0, w0, w1;
    u64 l5 = 0, t0;
    FRAME(m, 96u);
    t0 = m->stack_pointer;
    t0 = t0 - 96ull;
    l5 = t0;
    m->stack_pointer = l5;
    l6 = 83u;
    l7 = 0u;
    l8 = 1u;
    w0 = l1 > 9u;
    if (w0) goto L2;
    l9 = 0u;
    w0 = l1 == 1u;
    if (w0) goto L1;
    l7 = 0u;
    t0 = l5 + 16ull;
    MEMORY_FILL(m, t0, 0u, 80ull);
    t0 = l5 + 16ull;
    f5(m, t0, l2, l3);
    w0 = I32_LOAD8_U(m, l5 + 16u);
    if (w0) goto L3;
    t0 = I64_LOAD(m, l5 + 32u);
    w0 = t0 != 4ull;
    if (w0) goto L3;
    t0 = I64_LOAD(m, l5 + 24u);
    l3 = t0;
    w0 = f24(m, l3, 4ull);
    w0 = w0 == 0;
    if (w0) goto L3;
    w0 = f11(m, l3, 4ull);
    if (w0) goto L3;
    l6 = 86u;
    l7 = 0u;
    l8 = 1u;
    w0 = l4 > 127u;
    if (w0) goto L2;
    l9 = 0u;
    t0 = (u64)l4;
    w0 = I32_LOAD8_U(m, t0 + PLACE(0u));
    l10 = w0;
    w0 = l10 <= 31u;
    if (w0) goto L4;
    l7 = 0u;
    goto L1;
    L4:;
    t0 = I64_LOAD8_U(m, l3 + 3u);
    w0 = I32_LOAD8_U(m, t0 + PLACE(0u));
    l7 = w0;
    t0 = I64_LOAD8_U(m, l3 + 2u);
    w0 = I32_LOAD8_U(m, t0 + PLACE(0u));
    l6 = w0;
    t0 = I64_LOAD8_U(m, l3 + 1u);
    w0 = I32_LOAD8_U(m, t0 + PLACE(0u));
    l9 = w0;
    t0 = I64_LOAD8_U(m, l3);
    w0 = I32_LOAD8_U(m, t0 + PLACE(0u));
    l11 = w0;
    if (l1) goto L5;
    w0 = l4 & 95u;
    w0 = w0 == 83u;
    if (w0) goto L5;
    l6 = 84u;
    l7 = 0u;
    goto L2;
    L5:;
    w0 = l6 << 16;
    w1 = l7 << 24;
    w0 = w0 | w1;
    w1 = l9 << 8;
    w1 = w1 | l11;
    l7 = w1;
    w0 = w0 | l7;
    I32_STORE(m, l5 + 8u, w0);
    I32_STORE8(m, l5 + 12u, l10);
    w0 = I32_LOAD16_U(m, l5 + 10u);
    w1 = l10 << 16;
    w0 = w0 | w1;
    l6 = w0;
    l8 = 0u;
    l9 = l1;
    goto L1;
    L3:;
    l6 = 85u;
    l8 = 1u;
    L2:;
    l9 = 0u;
    L1:;
    I32_STORE8(m, l0, l8);
    t0 = l0 + 4ull;
    I32_STORE(m, t0, l6);
    t0 = l0 + 2ull;
    I32_STORE16(m, t0, l7);
    t0 = l0 + 1ull;
    I32_STORE8(m, t0, l9);
    t0 = l5 + 96ull;
    m->stack_pointer = t0;
    return;
    TRAP(m);
    return;
}

/* codex32_steady::are_of_alphabet */
static u32 f24(Machine *m, u64 l0, u64 l1) {
    u32 l2 = 0, l3 = 0, l4 = 0, l5 = 0, l6 = 0, w0, w1;
    u64 t0;
    l2 = 1u;
    w0 = l1 == 0;
    if (w0) goto L1;
    L2:;
    w0 = I32_LOAD8_U(m, l0);
    l3 = w0;
    w0 = l3 + 4294967248u;
    w0 = w0 & 255u;
    w0 = w0 < 10u;
    w1 = l3 & 223u;
    w1 = w1 + 4294967231u;
    w1 = w1 & 255u;
    w1 = w1 < 26u;
    w0 = w0 | w1;
    w1 = l3 | 32u;
    l3 = w1;
    w1 = l3 ^ 111u;
    l4 = w1;
    w1 = l3 ^ 105u;
    l5 = w1;
    w1 = l3 ^ 98u;
    l6 = w1;
    w1 = l3 ^ 49u;
    l3 = w1;
    w1 = l6 < l3;
    w1 = w1 ? l6 : l3;
    l3 = w1;
    w1 = l5 < l3;
    w1 = w1 ? l5 : l3;
    l3 = w1;
    w1 = l4 < l3;
    w1 = w1 ? l4 : l3;
    w1 = w1 != 0u;
    w0 = w0 & w1;
    w0 = l2 & w0;
    l2 = w0;
    t0 = l0 + 1ull;
    l0 = t0;
    t0 = l1 + 18446744073709551615ull;
    l1 = t0;
    w0 = l1 != 0ull;
    if (w0) goto L2;
    L1:;
    return l2;
    TRAP(m);
    return 0;
}

/* codex32_small::encode::put_string */
static void f25(Machine *m, u32 l0, u64 l1, u64 l2, u64 l3, u32 l4, u64 l5, u64 l6) {
    u32 l8 = 0, l9 = 0, l10 = 0, l11 = 0, l12 = 0, w0, w1;
    u64 l13 = 0, l14 = 0, l15 = 0, l16 = 0, t0, t1;
    w0 = I32_LOAD8_U(m, l3);
    l8 = w0;
    t0 = l3 + 1ull;
    w0 = I32_LOAD(m, t0);
    l9 = w0;
    w0 = f22(m, l9);
    l10 = w0;
    w0 = l9 >> 8;
    w0 = f22(m, w0);
    l11 = w0;
    w0 = l9 >> 16;
    w0 = f22(m, w0);
    l12 = w0;
    w0 = l9 >> 24;
    w0 = f22(m, w0);
    l9 = w0;
    t0 = l3 + 5ull;
    w0 = I32_LOAD8_U(m, t0);
    w0 = f22(m, w0);
    I32_STORE8(m, l1 + 8u, w0);
    I32_STORE8(m, l1 + 7u, l9);
    I32_STORE8(m, l1 + 6u, l12);
    I32_STORE8(m, l1 + 5u, l11);
    I32_STORE8(m, l1 + 4u, l10);
    w0 = l8 + 48u;
    I32_STORE8(m, l1 + 3u, w0);
    I32_STORE8(m, l1 + 2u, 49u);
    I32_STORE16(m, l1, 29549u);
    t0 = l1 + 3ull;
    l13 = t0;
    w0 = l4 & 1u;
    if (w0) goto L2;
    t0 = l1 + 9ull;
    l3 = t0;
    l8 = 0u;
    l10 = 0u;
    l9 = 0u;
    L3:;
    w0 = l9 & 255u;
    w0 = w0 < 5u;
    if (w0) goto L5;
    w0 = l8 & 255u;
    w1 = l9 + 4294967291u;
    l9 = w1;
    w1 = l9 & 255u;
    w0 = w0 >> (w1 & 31);
    w0 = w0 & 31u;
    l4 = w0;
    goto L4;
    L5:;
    w0 = l6 == 0;
    w0 = l10 | w0;
    w0 = w0 & 1u;
    if (w0) goto L6;
    w0 = l8 << 8;
    w1 = I32_LOAD8_U(m, l5);
    l8 = w1;
    w0 = w0 | l8;
    w0 = w0 & 65535u;
    w1 = l9 + 3u;
    l9 = w1;
    w1 = l9 & 255u;
    w0 = w0 >> (w1 & 31);
    w0 = w0 & 31u;
    l4 = w0;
    t0 = l6 + 18446744073709551615ull;
    l6 = t0;
    t0 = l5 + 1ull;
    l5 = t0;
    l10 = 0u;
    goto L4;
    L6:;
    w0 = l9 & 255u;
    w0 = w0 == 0;
    if (w0) goto L1;
    w0 = 5u - l9;
    w0 = w0 & 255u;
    w0 = l8 << (w0 & 31);
    w0 = w0 & 30u;
    l4 = w0;
    l9 = 0u;
    l10 = 1u;
    L4:;
    w0 = f22(m, l4);
    I32_STORE8(m, l3, w0);
    t0 = l3 + 1ull;
    l3 = t0;
    goto L3;
    L2:;
    w0 = l6 == 0;
    if (w0) goto L1;
    t0 = l6 & 3ull;
    l14 = t0;
    l15 = 0ull;
    w0 = l6 < 4ull;
    if (w0) goto L7;
    t0 = l6 & 18446744073709551612ull;
    l16 = t0;
    l15 = 0ull;
    L8:;
    t0 = l1 + l15;
    l3 = t0;
    t0 = l3 + 9ull;
    t1 = l5 + l15;
    l6 = t1;
    w0 = I32_LOAD8_U(m, l6);
    w0 = w0 | 32u;
    I32_STORE8(m, t0, w0);
    t0 = l3 + 10ull;
    t1 = l6 + 1ull;
    w0 = I32_LOAD8_U(m, t1);
    w0 = w0 | 32u;
    I32_STORE8(m, t0, w0);
    t0 = l3 + 11ull;
    t1 = l6 + 2ull;
    w0 = I32_LOAD8_U(m, t1);
    w0 = w0 | 32u;
    I32_STORE8(m, t0, w0);
    t0 = l3 + 12ull;
    t1 = l6 + 3ull;
    w0 = I32_LOAD8_U(m, t1);
    w0 = w0 | 32u;
    I32_STORE8(m, t0, w0);
    t0 = l15 + 4ull;
    l15 = t0;
    w0 = l16 != l15;
    if (w0) goto L8;
    w0 = l14 == 0;
    if (w0) goto L1;
    L7:;
    t0 = l5 + l15;
    l3 = t0;
    t0 = l15 + l1;
    t0 = t0 + 9ull;
    l6 = t0;
    L9:;
    w0 = I32_LOAD8_U(m, l3);
    w0 = w0 | 32u;
    I32_STORE8(m, l6, w0);
    t0 = l3 + 1ull;
    l3 = t0;
    t0 = l6 + 1ull;
    l6 = t0;
    t0 = l14 + 18446744073709551615ull;
    l14 = t0;
    w0 = l14 != 0ull;
    if (w0) goto L9;
    L1:;
    w0 = l0 & 1u;
    t0 = w0 ? 18446744073709551601ull : 18446744073709551603ull;
    t0 = t0 + l2;
    l3 = t0;
    t0 = l1 + l3;
    t1 = l3 + 18446744073709551613ull;
    f26(m, l0, t0, l13, t1);
    return;
    TRAP(m);
    return;
}

/* codex32_small::register::put_checksum */
static void f26(Machine *m, u32 l0, u64 l1, u64 l2, u64 l3) {
    u32 l6 = 0, w0;
    u64 l4 = 0, l5 = 0, l7 = 0, t0;
    FRAME(m, 16u);
    t0 = m->stack_pointer;
    t0 = t0 - 16ull;
    l4 = t0;
    m->stack_pointer = l4;
    l5 = l4;
    I64_STORE(m, l5 + 7u, 0ull);
    I64_STORE(m, l5, 0ull);
    l4 = 13ull;
    w0 = l0 & 1u;
    l6 = w0;
    t0 = l6 ? 15ull : 13ull;
    l7 = t0;
    f13(m, l0, l5, l7, l2, l3);
    if (l6) goto L2;
    f15(m, 0u, l5, 13ull, 16u);
    f15(m, 0u, l5, 13ull, 25u);
    f15(m, 0u, l5, 13ull, 24u);
    f15(m, 0u, l5, 13ull, 3u);
    f15(m, 0u, l5, 13ull, 25u);
    f15(m, 0u, l5, 13ull, 11u);
    f15(m, 0u, l5, 13ull, 16u);
    f15(m, 0u, l5, 13ull, 23u);
    f15(m, 0u, l5, 13ull, 29u);
    f15(m, 0u, l5, 13ull, 3u);
    f15(m, 0u, l5, 13ull, 25u);
    f15(m, 0u, l5, 13ull, 17u);
    f15(m, 0u, l5, 13ull, 10u);
    goto L1;
    L2:;
    f15(m, 1u, l5, 15ull, 16u);
    f15(m, 1u, l5, 15ull, 25u);
    f15(m, 1u, l5, 15ull, 24u);
    f15(m, 1u, l5, 15ull, 3u);
    f15(m, 1u, l5, 15ull, 25u);
    f15(m, 1u, l5, 15ull, 11u);
    f15(m, 1u, l5, 15ull, 16u);
    f15(m, 1u, l5, 15ull, 23u);
    f15(m, 1u, l5, 15ull, 29u);
    f15(m, 1u, l5, 15ull, 3u);
    f15(m, 1u, l5, 15ull, 25u);
    f15(m, 1u, l5, 15ull, 17u);
    f15(m, 1u, l5, 15ull, 10u);
    f15(m, 1u, l5, 15ull, 25u);
    f15(m, 1u, l5, 15ull, 6u);
    l4 = 15ull;
    L1:;
    t0 = l4 + l5;
    t0 = t0 + 18446744073709551615ull;
    l4 = t0;
    L3:;
    w0 = I32_LOAD8_U(m, l4);
    w0 = f22(m, w0);
    I32_STORE8(m, l1, w0);
    t0 = l4 + 18446744073709551615ull;
    l4 = t0;
    t0 = l1 + 1ull;
    l1 = t0;
    t0 = l7 + 18446744073709551615ull;
    l7 = t0;
    w0 = l7 != 0ull;
    if (w0) goto L3;
    t0 = l5 + 16ull;
    m->stack_pointer = t0;
    return;
    TRAP(m);
    return;
}

/* codex32_derive */
static u32 of_codex32_derive(Machine *m, u32 l0, u64 l1, u64 l2, u64 l3, u64 l4, u64 l5, u64 l6, u64 l7) {
    u32 w0;
    w0 = ENTER(m);
    w0 = w0 == 0;
    if (w0) goto L0;
    TRAP(m);
    TRAP(m);
    return 0;
    L0:;
    w0 = f28(m, l0, l1, l2, l3, l4, l5, l6, l7);
    l0 = w0;
    LEAVE(m);
    return l0;
}

/* rattle::export codex32_derive */
static u32 f28(Machine *m, u32 l0, u64 l1, u64 l2, u64 l3, u64 l4, u64 l5, u64 l6, u64 l7) {
    u32 l10 = 0, l12 = 0, w0;
    u64 l8 = 0, l9 = 0, l11 = 0, l13 = 0, t0, t1, t2, t3, t4;
    FRAME(m, 960u);
    t0 = m->stack_pointer;
    t0 = t0 - 960ull;
    l8 = t0;
    m->stack_pointer = l8;
    l9 = l8;
    l10 = 4u;
    w0 = l4 > 32ull;
    if (w0) goto L0;
    w0 = l3 == 0;
    t0 = w0 ? 4096ull : 0ull;
    t0 = l3 + t0;
    l11 = t0;
    w0 = l4 == 0;
    l12 = w0;
    if (l12) goto L2;
    l8 = l11;
    l3 = l4;
    L3:;
    t0 = I64_LOAD(m, l8);
    l13 = t0;
    w0 = l2 < l13;
    if (w0) goto L0;
    t0 = l8 + 8ull;
    l8 = t0;
    t0 = l2 - l13;
    l2 = t0;
    t0 = l3 + 18446744073709551615ull;
    l3 = t0;
    w0 = l3 != 0ull;
    if (w0) goto L3;
    L2:;
    w0 = l2 != 0ull;
    if (w0) goto L0;
    l10 = 86u;
    w0 = l0 > 127u;
    if (w0) goto L0;
    t0 = (u64)l0;
    w0 = I32_LOAD8_U(m, t0 + PLACE(0u));
    l0 = w0;
    w0 = l0 > 31u;
    if (w0) goto L0;
    I64_STORE(m, l9 + 40u, 0ull);
    I64_STORE(m, l9 + 32u, 0ull);
    I64_STORE(m, l9 + 24u, 0ull);
    I64_STORE(m, l9 + 16u, 0ull);
    w0 = l12 == 0;
    if (w0) goto L4;
    l10 = 74u;
    goto L0;
    L4:;
    t0 = l9 + 16ull;
    w0 = l1 == 0;
    t1 = w0 ? 4096ull : 0ull;
    t1 = l1 + t1;
    l13 = t1;
    t1 = I64_LOAD(m, l11);
    l1 = t1;
    f3(m, t0, l13, l1);
    w0 = I32_LOAD8_U(m, l9 + 16u);
    if (w0) goto L5;
    t0 = I64_LOAD(m, l9 + 40u);
    l2 = t0;
    I64_STORE(m, l9 + 64u, l2);
    t0 = I64_LOAD(m, l9 + 32u);
    l8 = t0;
    I64_STORE(m, l9 + 56u, l8);
    t0 = I64_LOAD(m, l9 + 24u);
    l3 = t0;
    I64_STORE(m, l9 + 48u, l3);
    I64_STORE(m, l9 + 72u, l3);
    I64_STORE(m, l9 + 80u, l8);
    I64_STORE(m, l9 + 88u, l2);
    I64_STORE(m, l9 + 96u, l3);
    I64_STORE(m, l9 + 104u, l8);
    I64_STORE(m, l9 + 112u, l2);
    I64_STORE(m, l9 + 136u, l2);
    I64_STORE(m, l9 + 128u, l8);
    I64_STORE(m, l9 + 120u, l3);
    I64_STORE(m, l9 + 144u, l3);
    I64_STORE(m, l9 + 152u, l8);
    I64_STORE(m, l9 + 160u, l2);
    t0 = I64_LOAD(m, l9 + 40u);
    l2 = t0;
    I64_STORE(m, l9 + 184u, l2);
    t0 = I64_LOAD(m, l9 + 32u);
    l8 = t0;
    I64_STORE(m, l9 + 176u, l8);
    t0 = I64_LOAD(m, l9 + 24u);
    l3 = t0;
    I64_STORE(m, l9 + 168u, l3);
    I64_STORE(m, l9 + 208u, l2);
    I64_STORE(m, l9 + 200u, l8);
    I64_STORE(m, l9 + 192u, l3);
    I64_STORE(m, l9 + 232u, l2);
    I64_STORE(m, l9 + 224u, l8);
    I64_STORE(m, l9 + 216u, l3);
    I64_STORE(m, l9 + 240u, l3);
    I64_STORE(m, l9 + 248u, l8);
    I64_STORE(m, l9 + 256u, l2);
    I64_STORE(m, l9 + 264u, l3);
    I64_STORE(m, l9 + 272u, l8);
    I64_STORE(m, l9 + 280u, l2);
    t0 = I64_LOAD(m, l9 + 40u);
    l2 = t0;
    I64_STORE(m, l9 + 304u, l2);
    t0 = I64_LOAD(m, l9 + 32u);
    l8 = t0;
    I64_STORE(m, l9 + 296u, l8);
    t0 = I64_LOAD(m, l9 + 24u);
    l3 = t0;
    I64_STORE(m, l9 + 288u, l3);
    I64_STORE(m, l9 + 328u, l2);
    I64_STORE(m, l9 + 320u, l8);
    I64_STORE(m, l9 + 312u, l3);
    I64_STORE(m, l9 + 344u, l8);
    I64_STORE(m, l9 + 352u, l2);
    I64_STORE(m, l9 + 336u, l3);
    I64_STORE(m, l9 + 360u, l3);
    I64_STORE(m, l9 + 368u, l8);
    I64_STORE(m, l9 + 376u, l2);
    I64_STORE(m, l9 + 384u, l3);
    I64_STORE(m, l9 + 392u, l8);
    I64_STORE(m, l9 + 400u, l2);
    t0 = I64_LOAD(m, l9 + 40u);
    l2 = t0;
    I64_STORE(m, l9 + 424u, l2);
    t0 = I64_LOAD(m, l9 + 32u);
    l8 = t0;
    I64_STORE(m, l9 + 416u, l8);
    t0 = I64_LOAD(m, l9 + 24u);
    l3 = t0;
    I64_STORE(m, l9 + 408u, l3);
    I64_STORE(m, l9 + 432u, l3);
    I64_STORE(m, l9 + 440u, l8);
    I64_STORE(m, l9 + 448u, l2);
    I64_STORE(m, l9 + 456u, l3);
    I64_STORE(m, l9 + 464u, l8);
    I64_STORE(m, l9 + 472u, l2);
    I64_STORE(m, l9 + 480u, l3);
    I64_STORE(m, l9 + 488u, l8);
    I64_STORE(m, l9 + 496u, l2);
    I64_STORE(m, l9 + 520u, l2);
    I64_STORE(m, l9 + 512u, l8);
    I64_STORE(m, l9 + 504u, l3);
    t0 = I64_LOAD(m, l9 + 40u);
    l2 = t0;
    I64_STORE(m, l9 + 544u, l2);
    t0 = I64_LOAD(m, l9 + 32u);
    l8 = t0;
    I64_STORE(m, l9 + 536u, l8);
    t0 = I64_LOAD(m, l9 + 24u);
    l3 = t0;
    I64_STORE(m, l9 + 528u, l3);
    I64_STORE(m, l9 + 568u, l2);
    I64_STORE(m, l9 + 560u, l8);
    I64_STORE(m, l9 + 552u, l3);
    I64_STORE(m, l9 + 592u, l2);
    I64_STORE(m, l9 + 584u, l8);
    I64_STORE(m, l9 + 576u, l3);
    I64_STORE(m, l9 + 616u, l2);
    I64_STORE(m, l9 + 608u, l8);
    I64_STORE(m, l9 + 600u, l3);
    I64_STORE(m, l9 + 624u, l3);
    I64_STORE(m, l9 + 632u, l8);
    I64_STORE(m, l9 + 640u, l2);
    t0 = I64_LOAD(m, l9 + 40u);
    I64_STORE(m, l9 + 664u, t0);
    t0 = I64_LOAD(m, l9 + 32u);
    I64_STORE(m, l9 + 656u, t0);
    t0 = I64_LOAD(m, l9 + 24u);
    I64_STORE(m, l9 + 648u, t0);
    t0 = I64_LOAD(m, l9 + 40u);
    I64_STORE(m, l9 + 688u, t0);
    t0 = I64_LOAD(m, l9 + 32u);
    I64_STORE(m, l9 + 680u, t0);
    t0 = I64_LOAD(m, l9 + 24u);
    I64_STORE(m, l9 + 672u, t0);
    t0 = I64_LOAD(m, l9 + 40u);
    I64_STORE(m, l9 + 712u, t0);
    t0 = I64_LOAD(m, l9 + 32u);
    I64_STORE(m, l9 + 704u, t0);
    t0 = I64_LOAD(m, l9 + 24u);
    I64_STORE(m, l9 + 696u, t0);
    t0 = I64_LOAD(m, l9 + 40u);
    I64_STORE(m, l9 + 736u, t0);
    t0 = I64_LOAD(m, l9 + 32u);
    I64_STORE(m, l9 + 728u, t0);
    t0 = I64_LOAD(m, l9 + 24u);
    I64_STORE(m, l9 + 720u, t0);
    t0 = I64_LOAD(m, l9 + 40u);
    I64_STORE(m, l9 + 760u, t0);
    t0 = I64_LOAD(m, l9 + 32u);
    I64_STORE(m, l9 + 752u, t0);
    t0 = I64_LOAD(m, l9 + 24u);
    I64_STORE(m, l9 + 744u, t0);
    t0 = I64_LOAD(m, l9 + 40u);
    I64_STORE(m, l9 + 784u, t0);
    t0 = I64_LOAD(m, l9 + 32u);
    I64_STORE(m, l9 + 776u, t0);
    t0 = I64_LOAD(m, l9 + 24u);
    I64_STORE(m, l9 + 768u, t0);
    t0 = I64_LOAD(m, l9 + 40u);
    I64_STORE(m, l9 + 808u, t0);
    t0 = I64_LOAD(m, l9 + 32u);
    I64_STORE(m, l9 + 800u, t0);
    t0 = I64_LOAD(m, l9 + 24u);
    I64_STORE(m, l9 + 792u, t0);
    t0 = l9 + 8ull;
    t1 = l9 + 72ull;
    t2 = l13 + l1;
    t3 = l11 + 8ull;
    t4 = l4 + 18446744073709551615ull;
    f17(m, t0, t1, t2, t3, t4);
    w0 = I32_LOAD8_U(m, l9 + 8u);
    if (w0) goto L7;
    I64_STORE(m, l9 + 824u, 0ull);
    I64_STORE(m, l9 + 816u, 0ull);
    t0 = l9 + 836ull;
    MEMORY_FILL(m, t0, 0u, 124ull);
    t0 = l9 + 816ull;
    t1 = l9 + 836ull;
    t2 = l9 + 48ull;
    f18(m, t0, t1, t2, l4, l0);
    w0 = I32_LOAD8_U(m, l9 + 816u);
    if (w0) goto L6;
    l10 = 92u;
    t0 = I64_LOAD(m, l9 + 824u);
    l3 = t0;
    t0 = l3 + 3ull;
    l13 = t0;
    w0 = l6 < l13;
    if (w0) goto L0;
    w0 = l5 == 0;
    t0 = w0 ? 4096ull : 0ull;
    t0 = l5 + t0;
    l2 = t0;
    I32_STORE8(m, l2 + 2u, 49u);
    I32_STORE16(m, l2, 29549u);
    w0 = l3 == 0;
    if (w0) goto L8;
    t0 = l2 + 3ull;
    l2 = t0;
    t0 = l9 + 836ull;
    l8 = t0;
    L9:;
    w0 = I32_LOAD8_U(m, l8);
    w0 = f22(m, w0);
    I32_STORE8(m, l2, w0);
    t0 = l8 + 1ull;
    l8 = t0;
    t0 = l2 + 1ull;
    l2 = t0;
    t0 = l3 + 18446744073709551615ull;
    l3 = t0;
    w0 = l3 == 0;
    w0 = w0 == 0;
    if (w0) goto L9;
    L8:;
    I64_STORE(m, l7, l13);
    l10 = 0u;
    goto L0;
    L7:;
    w0 = I32_LOAD(m, l9 + 12u);
    l10 = w0;
    goto L0;
    L6:;
    t0 = I64_LOAD8_U(m, l9 + 817u);
    t0 = t0 << 2;
    w0 = I32_LOAD(m, t0 + PLACE(3044u));
    l10 = w0;
    goto L0;
    L5:;
    w0 = I32_LOAD(m, l9 + 20u);
    l10 = w0;
    goto L0;
    TRAP(m);
    return 0;
    L0:;
    t0 = l9 + 960ull;
    m->stack_pointer = t0;
    return l10;
}

/* codex32_encode */
static u32 of_codex32_encode(Machine *m, u32 l0, u64 l1, u64 l2, u32 l3, u64 l4, u64 l5, u64 l6, u64 l7, u64 l8) {
    u32 w0;
    w0 = ENTER(m);
    w0 = w0 == 0;
    if (w0) goto L0;
    TRAP(m);
    TRAP(m);
    return 0;
    L0:;
    w0 = f30(m, l0, l1, l2, l3, l4, l5, l6, l7, l8);
    l3 = w0;
    LEAVE(m);
    return l3;
}

/* rattle::export codex32_encode */
static u32 f30(Machine *m, u32 l0, u64 l1, u64 l2, u32 l3, u64 l4, u64 l5, u64 l6, u64 l7, u64 l8) {
    u32 w0;
    u64 l9 = 0, t0, t1, t2;
    FRAME(m, 16u);
    t0 = m->stack_pointer;
    t0 = t0 - 16ull;
    l9 = t0;
    m->stack_pointer = l9;
    I64_STORE(m, l9, 0ull);
    w0 = l1 == 0;
    t0 = w0 ? 4096ull : 0ull;
    t0 = l1 + t0;
    f23(m, l9, l0, t0, l2, l3);
    w0 = I32_LOAD(m, l9 + 4u);
    l3 = w0;
    w0 = I32_LOAD8_U(m, l9);
    if (w0) goto L0;
    I32_STORE16(m, l9 + 11u, l3);
    t0 = l9 + 13ull;
    w0 = l3 >> 16;
    I32_STORE8(m, t0, w0);
    w0 = I32_LOAD8_U(m, l9 + 3u);
    I32_STORE8(m, l9 + 10u, w0);
    w0 = I32_LOAD16_U(m, l9 + 1u);
    I32_STORE16(m, l9 + 8u, w0);
    t0 = l5 + 18446744073709551571ull;
    w0 = t0 > 18446744073709551586ull;
    if (w0) goto L3;
    t0 = l5 + 18446744073709551551ull;
    w0 = t0 >= 18446744073709551614ull;
    if (w0) goto L3;
    l3 = 56u;
    goto L0;
    L3:;
    t0 = l5 + 18446744073709551553ull;
    w0 = t0 < 2ull;
    l0 = w0;
    t0 = l0 ? 15ull : 13ull;
    w0 = (u32)l5;
    w0 = w0 << 3;
    w0 = w0 | 4u;
    w0 = w0 & 65532u;
    w0 = I32_DIV_U(w0, 5u);
    w0 = w0 + 9u;
    t1 = (u64)w0;
    t0 = t0 + t1;
    l1 = t0;
    w0 = l7 >= l1;
    if (w0) goto L1;
    l3 = 92u;
    goto L0;
    TRAP(m);
    return 0;
    L1:;
    l3 = 0u;
    w0 = l6 == 0;
    t0 = w0 ? 4096ull : 0ull;
    t0 = l6 + t0;
    t1 = l9 + 8ull;
    w0 = l4 == 0;
    t2 = w0 ? 4096ull : 0ull;
    t2 = l4 + t2;
    f25(m, l0, t0, l1, t1, 0u, t2, l5);
    I64_STORE(m, l8, l1);
    L0:;
    t0 = l9 + 16ull;
    m->stack_pointer = t0;
    return l3;
}

/* codex32_encode_payload */
static u32 of_codex32_encode_payload(Machine *m, u32 l0, u64 l1, u64 l2, u32 l3, u64 l4, u64 l5, u64 l6, u64 l7, u64 l8) {
    u32 w0;
    w0 = ENTER(m);
    w0 = w0 == 0;
    if (w0) goto L0;
    TRAP(m);
    TRAP(m);
    return 0;
    L0:;
    w0 = f32(m, l0, l1, l2, l3, l4, l5, l6, l7, l8);
    l3 = w0;
    LEAVE(m);
    return l3;
}

/* rattle::export codex32_encode_payload */
static u32 f32(Machine *m, u32 l0, u64 l1, u64 l2, u32 l3, u64 l4, u64 l5, u64 l6, u64 l7, u64 l8) {
    u32 w0;
    u64 l9 = 0, t0, t1;
    FRAME(m, 144u);
    t0 = m->stack_pointer;
    t0 = t0 - 144ull;
    l9 = t0;
    m->stack_pointer = l9;
    t0 = l9 + 64ull;
    MEMORY_FILL(m, t0, 0u, 72ull);
    I64_STORE(m, l9 + 56u, 0ull);
    t0 = l9 + 56ull;
    w0 = l1 == 0;
    t1 = w0 ? 4096ull : 0ull;
    t1 = l1 + t1;
    f23(m, t0, l0, t1, l2, l3);
    w0 = I32_LOAD(m, l9 + 60u);
    l3 = w0;
    w0 = I32_LOAD8_U(m, l9 + 56u);
    if (w0) goto L0;
    I32_STORE16(m, l9 + 139u, l3);
    t0 = l9 + 141ull;
    w0 = l3 >> 16;
    I32_STORE8(m, t0, w0);
    w0 = I32_LOAD8_U(m, l9 + 59u);
    I32_STORE8(m, l9 + 138u, w0);
    w0 = I32_LOAD16_U(m, l9 + 57u);
    I32_STORE16(m, l9 + 136u, w0);
    w0 = l4 == 0;
    t0 = w0 ? 4096ull : 0ull;
    t0 = l4 + t0;
    l1 = t0;
    w0 = f24(m, l1, l5);
    if (w0) goto L5;
    I32_STORE16(m, l9 + 48u, 0u);
    I64_STORE(m, l9 + 40u, 0ull);
    I64_STORE(m, l9 + 32u, 0ull);
    I64_STORE(m, l9 + 24u, 0ull);
    I64_STORE(m, l9 + 16u, 0ull);
    I64_STORE(m, l9 + 8u, 0ull);
    I64_STORE(m, l9, 0ull);
    l3 = 2u;
    goto L4;
    L5:;
    w0 = f11(m, l1, l5);
    w0 = w0 == 0;
    if (w0) goto L3;
    I32_STORE16(m, l9 + 48u, 0u);
    I64_STORE(m, l9 + 40u, 0ull);
    I64_STORE(m, l9 + 32u, 0ull);
    I64_STORE(m, l9 + 24u, 0ull);
    I64_STORE(m, l9 + 16u, 0ull);
    I64_STORE(m, l9 + 8u, 0ull);
    I64_STORE(m, l9, 0ull);
    l3 = 3u;
    L4:;
    I32_STORE8(m, l9 + 80u, 0u);
    I64_STORE(m, l9 + 72u, 0ull);
    I32_STORE8(m, l9 + 65u, 0u);
    I32_STORE8(m, l9 + 64u, l3);
    t0 = I64_LOAD(m, l9);
    I64_STORE(m, l9 + 81u, t0);
    t0 = I64_LOAD(m, l9 + 8u);
    I64_STORE(m, l9 + 89u, t0);
    t0 = I64_LOAD(m, l9 + 16u);
    I64_STORE(m, l9 + 97u, t0);
    t0 = I64_LOAD(m, l9 + 24u);
    I64_STORE(m, l9 + 105u, t0);
    t0 = I64_LOAD(m, l9 + 32u);
    I64_STORE(m, l9 + 113u, t0);
    t0 = I64_LOAD(m, l9 + 40u);
    I64_STORE(m, l9 + 121u, t0);
    w0 = I32_LOAD16_U(m, l9 + 48u);
    I32_STORE16(m, l9 + 129u, w0);
    t0 = l9 + 64ull;
    w0 = f8(m, t0);
    l3 = w0;
    goto L0;
    L3:;
    t0 = l5 + 18446744073709551590ull;
    w0 = t0 > 45ull;
    if (w0) goto L7;
    t0 = l5 * 5ull;
    t0 = t0 & 7ull;
    w0 = t0 < 5ull;
    if (w0) goto L8;
    l3 = 56u;
    goto L0;
    L8:;
    l3 = 0u;
    goto L6;
    L7:;
    l3 = 56u;
    t0 = l5 + 18446744073709551515ull;
    w0 = t0 > 2ull;
    if (w0) goto L0;
    t0 = l5 * 5ull;
    t0 = t0 & 7ull;
    w0 = t0 > 4ull;
    if (w0) goto L0;
    l3 = 1u;
    L6:;
    t0 = l3 ? 15ull : 13ull;
    t0 = l5 + t0;
    t0 = t0 + 9ull;
    l2 = t0;
    w0 = l7 >= l2;
    if (w0) goto L1;
    l3 = 92u;
    goto L0;
    TRAP(m);
    return 0;
    L1:;
    w0 = l6 == 0;
    t0 = w0 ? 4096ull : 0ull;
    t0 = l6 + t0;
    t1 = l9 + 136ull;
    f25(m, l3, t0, l2, t1, 1u, l1, l5);
    I64_STORE(m, l8, l2);
    l3 = 0u;
    L0:;
    t0 = l9 + 144ull;
    m->stack_pointer = t0;
    return l3;
}

/* codex32_message */
static u32 of_codex32_message(Machine *m, u32 l0, u64 l1, u64 l2, u64 l3) {
    u32 w0;
    w0 = ENTER(m);
    w0 = w0 == 0;
    if (w0) goto L0;
    TRAP(m);
    TRAP(m);
    return 0;
    L0:;
    w0 = f34(m, l0, l1, l2, l3);
    l0 = w0;
    LEAVE(m);
    return l0;
}

/* rattle::export codex32_message */
static u32 f34(Machine *m, u32 l0, u64 l1, u64 l2, u64 l3) {
    u32 w0;
    u64 l4 = 0, l5 = 0, l6 = 0, l7 = 0, l8 = 0, l9 = 0, t0, t1;
    l4 = 0ull;
    w0 = l1 == 0;
    t0 = w0 ? 4096ull : 0ull;
    t0 = l1 + t0;
    l5 = t0;
    l6 = PLACE(1648u);
    l7 = 75ull;
    l1 = PLACE(2952u);
    w0 = l0 + 4294967294u;
    switch (w0) {
    case 0: goto L6;
    case 1: goto L4;
    case 2: goto L5;
    case 3: goto L4;
    case 4: goto L4;
    case 5: goto L4;
    case 6: goto L4;
    case 7: goto L4;
    case 8: goto L4;
    case 9: goto L17;
    case 10: goto L16;
    case 11: goto L15;
    case 12: goto L14;
    case 13: goto L13;
    case 14: goto L4;
    case 15: goto L4;
    case 16: goto L4;
    case 17: goto L4;
    case 18: goto L4;
    case 19: goto L12;
    case 20: goto L11;
    case 21: goto L10;
    case 22: goto L4;
    case 23: goto L4;
    case 24: goto L4;
    case 25: goto L4;
    case 26: goto L4;
    case 27: goto L4;
    case 28: goto L4;
    case 29: goto L4;
    case 30: goto L4;
    case 31: goto L9;
    case 32: goto L33;
    case 33: goto L4;
    case 34: goto L4;
    case 35: goto L4;
    case 36: goto L4;
    case 37: goto L4;
    case 38: goto L4;
    case 39: goto L4;
    case 40: goto L4;
    case 41: goto L4;
    case 42: goto L4;
    case 43: goto L4;
    case 44: goto L4;
    case 45: goto L4;
    case 46: goto L4;
    case 47: goto L4;
    case 48: goto L4;
    case 49: goto L4;
    case 50: goto L4;
    case 51: goto L4;
    case 52: goto L4;
    case 53: goto L4;
    case 54: goto L32;
    case 55: goto L4;
    case 56: goto L4;
    case 57: goto L4;
    case 58: goto L4;
    case 59: goto L4;
    case 60: goto L4;
    case 61: goto L4;
    case 62: goto L4;
    case 63: goto L4;
    case 64: goto L31;
    case 65: goto L4;
    case 66: goto L30;
    case 67: goto L4;
    case 68: goto L4;
    case 69: goto L4;
    case 70: goto L4;
    case 71: goto L4;
    case 72: goto L29;
    case 73: goto L28;
    case 74: goto L27;
    case 75: goto L26;
    case 76: goto L25;
    case 77: goto L4;
    case 78: goto L4;
    case 79: goto L24;
    case 80: goto L23;
    case 81: goto L22;
    case 82: goto L21;
    case 83: goto L20;
    case 84: goto L19;
    case 85: goto L18;
    case 86: goto L4;
    case 87: goto L4;
    case 88: goto L4;
    case 89: goto L8;
    case 90: goto L7;
    default: goto L4;
    }
    L33:;
    l6 = PLACE(1723u);
    l7 = 24ull;
    goto L5;
    L32:;
    l6 = PLACE(1747u);
    l7 = 45ull;
    goto L5;
    L31:;
    l6 = PLACE(1792u);
    l7 = 58ull;
    goto L5;
    L30:;
    l6 = PLACE(1850u);
    l7 = 30ull;
    goto L5;
    L29:;
    l6 = PLACE(1880u);
    l7 = 41ull;
    goto L5;
    L28:;
    l6 = PLACE(1921u);
    l7 = 66ull;
    goto L5;
    L27:;
    l6 = PLACE(1987u);
    l7 = 25ull;
    goto L5;
    L26:;
    l6 = PLACE(2012u);
    l7 = 32ull;
    goto L5;
    L25:;
    l6 = PLACE(2044u);
    l7 = 58ull;
    goto L5;
    L24:;
    l6 = PLACE(2102u);
    l7 = 35ull;
    goto L5;
    L23:;
    l6 = PLACE(2137u);
    l7 = 63ull;
    goto L5;
    L22:;
    l6 = PLACE(2200u);
    l7 = 50ull;
    goto L5;
    L21:;
    l6 = PLACE(2250u);
    l7 = 50ull;
    goto L5;
    L20:;
    l6 = PLACE(2300u);
    l7 = 65ull;
    goto L5;
    L19:;
    l6 = PLACE(2365u);
    l7 = 52ull;
    goto L5;
    L18:;
    l6 = PLACE(2417u);
    l7 = 57ull;
    goto L5;
    L17:;
    l6 = PLACE(2518u);
    l7 = 32ull;
    goto L5;
    L16:;
    l6 = PLACE(2550u);
    l7 = 46ull;
    goto L5;
    L15:;
    l6 = PLACE(2596u);
    l7 = 57ull;
    goto L5;
    L14:;
    l6 = PLACE(2653u);
    l7 = 61ull;
    goto L5;
    L13:;
    l6 = PLACE(2714u);
    l7 = 49ull;
    goto L5;
    L12:;
    l6 = PLACE(2763u);
    l7 = 52ull;
    goto L5;
    L11:;
    l6 = PLACE(2815u);
    l7 = 34ull;
    goto L5;
    L10:;
    l6 = PLACE(2849u);
    l7 = 30ull;
    goto L5;
    L9:;
    l6 = PLACE(2879u);
    l7 = 21ull;
    goto L5;
    L8:;
    l6 = PLACE(2900u);
    l7 = 31ull;
    goto L5;
    L7:;
    l6 = PLACE(2931u);
    l7 = 21ull;
    goto L5;
    L6:;
    l6 = PLACE(2474u);
    l7 = 44ull;
    L5:;
    l0 = 92u;
    w0 = l2 < l7;
    if (w0) goto L1;
    t0 = l5 - l6;
    w0 = t0 < l7;
    if (w0) goto L3;
    l4 = l7;
    l1 = l6;
    L4:;
    w0 = l4 == 0;
    if (w0) goto L2;
    MEMORY_COPY(m, l5, l1, l4);
    goto L2;
    L3:;
    t0 = l7 & 124ull;
    l8 = t0;
    t0 = l7 & 3ull;
    l9 = t0;
    l1 = 0ull;
    L34:;
    t0 = l5 + l1;
    l4 = t0;
    t0 = l6 + l1;
    l2 = t0;
    w0 = I32_LOAD8_U(m, l2);
    I32_STORE8(m, l4, w0);
    t0 = l4 + 1ull;
    t1 = l2 + 1ull;
    w0 = I32_LOAD8_U(m, t1);
    I32_STORE8(m, t0, w0);
    t0 = l4 + 2ull;
    t1 = l2 + 2ull;
    w0 = I32_LOAD8_U(m, t1);
    I32_STORE8(m, t0, w0);
    t0 = l4 + 3ull;
    t1 = l2 + 3ull;
    w0 = I32_LOAD8_U(m, t1);
    I32_STORE8(m, t0, w0);
    t0 = l1 + 4ull;
    l1 = t0;
    w0 = l8 != l1;
    if (w0) goto L34;
    w0 = l9 == 0;
    if (w0) goto L35;
    t0 = l6 + l1;
    l4 = t0;
    t0 = l5 + l1;
    l1 = t0;
    L36:;
    w0 = I32_LOAD8_U(m, l4);
    I32_STORE8(m, l1, w0);
    t0 = l1 + 1ull;
    l1 = t0;
    t0 = l4 + 1ull;
    l4 = t0;
    t0 = l9 + 18446744073709551615ull;
    l9 = t0;
    w0 = l9 != 0ull;
    if (w0) goto L36;
    L35:;
    l4 = l7;
    L2:;
    I64_STORE(m, l3, l4);
    l0 = 0u;
    L1:;
    return l0;
    TRAP(m);
    return 0;
}

/* codex32_share */
static u32 of_codex32_share(Machine *m, u64 l0, u64 l1, u64 l2, u64 l3, u64 l4, u64 l5, u64 l6, u64 l7) {
    u32 l8 = 0, w0;
    w0 = ENTER(m);
    w0 = w0 == 0;
    if (w0) goto L0;
    TRAP(m);
    TRAP(m);
    return 0;
    L0:;
    w0 = f36(m, l0, l1, l2, l3, l4, l5, l6, l7);
    l8 = w0;
    LEAVE(m);
    return l8;
}

/* rattle::export codex32_share */
static u32 f36(Machine *m, u64 l0, u64 l1, u64 l2, u64 l3, u64 l4, u64 l5, u64 l6, u64 l7) {
    u32 l9 = 0, l12 = 0, l13 = 0, l14 = 0, w0, w1;
    u64 l8 = 0, l10 = 0, l11 = 0, t0, t1;
    FRAME(m, 128u);
    t0 = m->stack_pointer;
    t0 = t0 - 128ull;
    l8 = t0;
    m->stack_pointer = l8;
    I64_STORE(m, l8 + 16u, 0ull);
    I64_STORE(m, l8 + 8u, 0ull);
    I64_STORE(m, l8, 0ull);
    w0 = l0 == 0;
    t0 = w0 ? 4096ull : 0ull;
    t0 = l0 + t0;
    f4(m, l8, t0, l1);
    w0 = I32_LOAD8_U(m, l8);
    if (w0) goto L2;
    t0 = I64_LOAD(m, l8 + 16u);
    l0 = t0;
    t0 = l0 + 18446744073709551525ull;
    w0 = t0 < 18446744073709551522ull;
    t0 = w0 ? 18446744073709551601ull : 18446744073709551603ull;
    t0 = l0 + t0;
    t0 = t0 + 18446744073709551610ull;
    l1 = t0;
    t0 = l1 * 5ull;
    t0 = t0 & 7ull;
    w0 = t0 <= 4ull;
    if (w0) goto L3;
    l9 = 87u;
    goto L1;
    L3:;
    t0 = l1 & 7ull;
    t0 = t0 * 5ull;
    t0 = t0 >> 3;
    t1 = l1 >> 3;
    t1 = t1 * 5ull;
    t0 = t0 + t1;
    w0 = l6 >= t0;
    if (w0) goto L4;
    l9 = 92u;
    goto L1;
    L4:;
    t0 = I64_LOAD(m, l8 + 8u);
    l10 = t0;
    l9 = 0u;
    t0 = l8 + 25ull;
    MEMORY_FILL(m, t0, 0u, 103ull);
    w0 = l1 == 0;
    w0 = w0 == 0;
    if (w0) goto L6;
    l6 = 0ull;
    goto L5;
    L6:;
    w0 = l5 == 0;
    t0 = w0 ? 4096ull : 0ull;
    t0 = l5 + t0;
    l11 = t0;
    t0 = l10 + 6ull;
    l6 = t0;
    l0 = 0ull;
    L7:;
    t0 = l8 + 25ull;
    t0 = t0 + l0;
    t1 = l6 + l0;
    w0 = I32_LOAD8_U(m, t1);
    w0 = f14(m, w0);
    w0 = w0 & 255u;
    I32_STORE8(m, t0, w0);
    t0 = l0 + 1ull;
    l0 = t0;
    w0 = l1 != l0;
    if (w0) goto L7;
    t0 = l8 + 25ull;
    l0 = t0;
    l12 = 0u;
    l6 = 0ull;
    l13 = 0u;
    L8:;
    t0 = l1 + 18446744073709551615ull;
    l5 = t0;
    w0 = l13 & 255u;
    w0 = w0 << 5;
    w1 = I32_LOAD8_U(m, l0);
    l13 = w1;
    w0 = w0 + l13;
    l14 = w0;
    w0 = l12 & 255u;
    w0 = w0 < 3u;
    if (w0) goto L10;
    t0 = l0 + 1ull;
    l0 = t0;
    w0 = l12 + 4294967293u;
    l12 = w0;
    w0 = l12 & 255u;
    w0 = l14 >> (w0 & 31);
    l14 = w0;
    l1 = l5;
    goto L9;
    L10:;
    w0 = l5 == 0;
    if (w0) goto L5;
    w0 = l14 << 5;
    t0 = l0 + 1ull;
    w1 = I32_LOAD8_U(m, t0);
    l13 = w1;
    w0 = w0 + l13;
    w0 = w0 & 65535u;
    w1 = l12 + 2u;
    l12 = w1;
    w1 = l12 & 255u;
    w0 = w0 >> (w1 & 31);
    l14 = w0;
    t0 = l1 + 18446744073709551614ull;
    l1 = t0;
    t0 = l0 + 2ull;
    l0 = t0;
    L9:;
    t0 = l11 + l6;
    I32_STORE8(m, t0, l14);
    t0 = l6 + 1ull;
    l6 = t0;
    w0 = l1 != 0ull;
    if (w0) goto L8;
    L5:;
    w0 = I32_LOAD8_U(m, l10 + 5u);
    l12 = w0;
    w0 = I32_LOAD(m, l10 + 1u);
    l13 = w0;
    w0 = I32_LOAD8_U(m, l10);
    w0 = w0 + 4294967248u;
    w0 = w0 & 255u;
    I32_STORE(m, l2, w0);
    w0 = l13 | 538976288u;
    I32_STORE(m, l3, w0);
    w0 = l12 | 32u;
    I32_STORE(m, l4, w0);
    I64_STORE(m, l7, l6);
    goto L1;
    L2:;
    w0 = I32_LOAD(m, l8 + 4u);
    l9 = w0;
    L1:;
    t0 = l8 + 128ull;
    m->stack_pointer = t0;
    return l9;
    TRAP(m);
    return 0;
}

/* codex32_version */
static u32 of_codex32_version(Machine *m) {
    u32 w0;
    w0 = ENTER(m);
    w0 = w0 == 0;
    if (w0) goto L0;
    TRAP(m);
    TRAP(m);
    return 0;
    L0:;
    f38(m);
    LEAVE(m);
    return 100u;
}

/* rattle::export codex32_version */
static void f38(Machine *m) {
    (void)m;

}

/*
 * How the functions of codex32.h run those of the library, as translator/bech32_own.c says it for bech32.h; a text, a
 * payload or the texts of a set are refused with CODEX32_NO_MEMORY there. A string is a secret: the library's stack is
 * filled with zeros before a call ends.
 */

/* A function of the library that calls itself does so once for each character that cannot be read, eight at most. */
#define DEPTH 9

OWN void wipe(volatile u8 *stack, size_t size) {
    for (size_t i = 0; i < size; i++) {
        stack[i] = 0;
    }
}

/* The lengths of texts, in their order. Of more than there can be one more is handed over: the answer depends on that
 * alone. */
OWN size_t put_lengths(u8 *given, const size_t *lengths, size_t count) {
    size_t most = count < CODEX32_MAX_SHARES + 1u ? count : CODEX32_MAX_SHARES + 1u;
    for (size_t i = 0; i < most; i++) {
        put_64(given + 8 * i, lengths[i]);
    }
    return most;
}

/* Made by tools/make (tools/make.d/machine_calls) from include/codex32.h; do not edit. */

uint32_t codex32_message(uint32_t number, uint8_t *message, size_t message_room, size_t *message_length) {
    NUMBERS(1);
    MACHINE(codex32_message);
    u64 message_size = SOME(message_room), message_at = lend_room(&m, message, message_size);
    u64 at = lend_room(&m, numbers, sizeof number_words);
    uint32_t answer = of_codex32_message(&m, number, message_at, message_size, at);
    if (answer == CODEX32_OK) {
        *message_length = (size_t)get_64(numbers);
    }
    return answer;
}

uint32_t codex32_version(void) {
    MACHINE(codex32_version);
    uint32_t answer = of_codex32_version(&m);
    return answer;
}

uint32_t codex32_share(const uint8_t *text, size_t text_length, uint32_t *threshold,
                       uint8_t identifier[CODEX32_IDENTIFIER_LENGTH], uint32_t *share_index, uint8_t *bytes,
                       size_t bytes_room, size_t *bytes_length) {
    NUMBERS(3);
    if (IS_TOO_LONG(text_length)) {
        return CODEX32_NO_MEMORY;
    }
    MACHINE(codex32_share);
    u64 text_at = lend(&m, text, text_length);
    u64 identifier_at = lend_room(&m, identifier, CODEX32_IDENTIFIER_LENGTH);
    u64 bytes_size = SOME(bytes_room), bytes_at = lend_room(&m, bytes, bytes_size);
    u64 at = lend_room(&m, numbers, sizeof number_words);
    uint32_t answer = of_codex32_share(&m, text_at, text_length, at, identifier_at, at + 8, bytes_at, bytes_size,
                                       at + 16);
    if (answer == CODEX32_OK) {
        *threshold = get_32(numbers);
        *share_index = get_32(numbers + 8);
        *bytes_length = (size_t)get_64(numbers + 16);
    }
    wipe(stack, sizeof stack);
    return answer;
}

uint32_t codex32_encode(uint32_t threshold, const uint8_t *identifier, size_t identifier_length, uint32_t share_index,
                        const uint8_t *bytes, size_t bytes_length, uint8_t *text, size_t text_room,
                        size_t *text_length) {
    NUMBERS(1);
    MACHINE(codex32_encode);
    u64 identifier_size = SOME(identifier_length), identifier_at = lend(&m, identifier, identifier_size);
    u64 bytes_size = SOME(bytes_length), bytes_at = lend(&m, bytes, bytes_size);
    u64 text_size = SOME(text_room), text_at = lend_room(&m, text, text_size);
    u64 at = lend_room(&m, numbers, sizeof number_words);
    uint32_t answer = of_codex32_encode(&m, threshold, identifier_at, identifier_size, share_index, bytes_at,
                                        bytes_size, text_at, text_size, at);
    if (answer == CODEX32_OK) {
        *text_length = (size_t)get_64(numbers);
    }
    wipe(stack, sizeof stack);
    return answer;
}

uint32_t codex32_encode_payload(uint32_t threshold, const uint8_t *identifier, size_t identifier_length,
                                uint32_t share_index, const uint8_t *payload, size_t payload_length, uint8_t *text,
                                size_t text_room, size_t *text_length) {
    NUMBERS(1);
    if (IS_TOO_LONG(payload_length)) {
        return CODEX32_NO_MEMORY;
    }
    MACHINE(codex32_encode_payload);
    u64 identifier_size = SOME(identifier_length), identifier_at = lend(&m, identifier, identifier_size);
    u64 payload_at = lend(&m, payload, payload_length);
    u64 text_size = SOME(text_room), text_at = lend_room(&m, text, text_size);
    u64 at = lend_room(&m, numbers, sizeof number_words);
    uint32_t answer = of_codex32_encode_payload(&m, threshold, identifier_at, identifier_size, share_index,
                                                payload_at, payload_length, text_at, text_size, at);
    if (answer == CODEX32_OK) {
        *text_length = (size_t)get_64(numbers);
    }
    wipe(stack, sizeof stack);
    return answer;
}

uint32_t codex32_derive(uint32_t share_index, const uint8_t *texts, size_t texts_length, const size_t *lengths,
                        size_t count, uint8_t *text, size_t text_room, size_t *text_length) {
    GIVEN(CODEX32_MAX_SHARES + 1u);
    NUMBERS(1);
    if (IS_TOO_LONG(texts_length)) {
        return CODEX32_NO_MEMORY;
    }
    MACHINE(codex32_derive);
    u64 given_count = put_lengths(given, lengths, count), given_at = lend(&m, given, 8 * given_count);
    u64 texts_at = lend(&m, texts, texts_length);
    u64 text_size = SOME(text_room), text_at = lend_room(&m, text, text_size);
    u64 at = lend_room(&m, numbers, sizeof number_words);
    uint32_t answer = of_codex32_derive(&m, share_index, texts_at, texts_length, given_at, given_count, text_at,
                                        text_size, at);
    if (answer == CODEX32_OK) {
        *text_length = (size_t)get_64(numbers);
    }
    wipe(stack, sizeof stack);
    return answer;
}

