/* Made by tools/make from include/codex32.h.in and docs/refusals.tsv; do not edit. */

/*
 * Codex32 (BIP-93): splits a secret into shares and recovers it from them, reads, makes and derives
 * strings, and proposes the nearest string to a damaged one.
 *
 * The library is proved: for every input each function does what is said here, ends, and reads and
 * writes no memory but the caller's, within the lengths that are given. Where something is tested and
 * not proved, this says so. The library takes no memory but what a caller lends it, keeps nothing
 * between calls, and needs no start-up; it calls memcpy, memmove and memset alone. Any number of threads
 * may call it.
 *
 * Each function returns CODEX32_OK, or the number of a refusal (below). On a refusal it writes
 * nothing but lent memory. Otherwise the output stands at the front of the buffer, and the bytes behind
 * it stay as they were. No output ends in a zero byte.
 *
 * All strings are written in lower case, those proposed for a string in upper case too. To give them
 * back in upper case, change `a` to `z` into `A` to `Z`: the checksum accepts both.
 *
 * A pointer beside a length or a room of 0 is not followed, and may be null; no other pointer may be.
 * Nothing that a function writes to may overlap with anything else that it is given. These two rules,
 * true lengths, and what is said of lent memory are all that a caller owes. The C file of the library,
 * if it tests each access (MACHINE_IS_TESTED), refuses a text or a payload of 2^32 bytes or more with
 * CODEX32_NO_MEMORY, before all else.
 *
 * Secrets are the characters behind the share index of a text, the bytes of a payload, and random bytes.
 * The time of a call, and which memory it reads, do not depend on them; those of codex32_propose and
 * codex32_propose_long depend on errors, as is said there. They may depend on all else: lengths and
 * numbers, threshold, identifier, share index and case; on which refusal is returned; on whether a
 * checksum is right; on where the first fault of a text stands, and on the character there; on what is
 * not ASCII; and on whether a share beyond the threshold is the one that the others give. This is tested,
 * and not proved: tools/steady looks in the machine code for branches and addresses that depend on
 * secrets, in the static library for Linux on x86-64, and in the C file as gcc and clang compile it there.
 * Not tested: other builds, and instructions that take longer for some numbers.
 *
 * The library keeps nothing of a secret, but its calls leave copies on the stack. To leave none, call
 * codex32_wipe_stack after them, and codex32_wipe for what you hold yourself (both at the end).
 *
 * This describes the version of the library that CODEX32_VERSION names, which is that of the file
 * VERSION and of the packages over it.
 */
#ifndef CODEX32_H
#define CODEX32_H

#include <stddef.h>
#include <stdint.h>

#ifdef __cplusplus
extern "C" {
#endif

/* The version of the library. */
#define CODEX32_VERSION "0.1.0"

/* The same as a number: 10,000 times the first, 100 times the second, and the third. */
#define CODEX32_VERSION_NUMBER 100u

/* The least and the greatest length of a codex32 string, in characters. */
#define CODEX32_MIN_TEXT 48u
#define CODEX32_MAX_TEXT 93u

/* The same of a long string (BIP-93, Long codex32 Strings). */
#define CODEX32_MIN_LONG_TEXT 125u
#define CODEX32_MAX_LONG_TEXT 127u

/* Enough room: for the text of a string of either length, and for the bytes of its payload. */
#define CODEX32_TEXT_SIZE 127u
#define CODEX32_BYTES_SIZE 64u

/* Enough room for the sentence of a refusal. */
#define CODEX32_MAX_MESSAGE 100u

/* The length of the string of bytes_length bytes, 16 to 44, or 63 or 64. */
#define CODEX32_ENCODED_SIZE(bytes_length)                                                         \
    (9u + (8u * (bytes_length) + 4u) / 5u + ((bytes_length) <= 44u ? 13u : 15u))

/* The share index of the secret, the most strings of a set, and the most shares that codex32_split makes:
 * one at each index but that of the secret. */
#define CODEX32_SECRET_INDEX ((uint32_t)'s')
#define CODEX32_MAX_SHARES 32u
#define CODEX32_MAX_SPLIT 31u

/* The random bytes that codex32_split takes: one for each character of the payloads that are drawn. */
#define CODEX32_RANDOM_SIZE(threshold, secret_length)                                              \
    (((threshold) - 1u) * ((8u * (secret_length) + 4u) / 5u))

/* Where the parts of a codex32 string stand in its text, counted from 0. */
#define CODEX32_THRESHOLD_AT 3u
#define CODEX32_IDENTIFIER_AT 4u
#define CODEX32_IDENTIFIER_LENGTH 4u
#define CODEX32_SHARE_INDEX_AT 8u
#define CODEX32_PAYLOAD_AT 9u

/* Return values. */
#define CODEX32_OK 0u
#define CODEX32_NOT_UTF8 2u             /* a text or a human-readable part is not UTF-8 */
#define CODEX32_BAD_LENGTHS 4u          /* there are more than 32 texts, or their lengths do not add up to
                                           that of all */
#define CODEX32_HRP_EMPTY 11u           /* the human-readable part is empty */
#define CODEX32_HRP_TOO_LONG 12u        /* the human-readable part has more than 83 bytes */
#define CODEX32_HRP_NOT_ASCII 13u       /* the human-readable part has a character that is not ASCII */
#define CODEX32_HRP_INVALID 14u         /* the human-readable part has a byte that is not from 33 to 126 */
#define CODEX32_HRP_MIXED_CASE 15u      /* the human-readable part has letters of both cases */
#define CODEX32_INVALID_CHARACTER 21u   /* a character behind the separator may not stand there */
#define CODEX32_MIXED_CASE 22u          /* the text has letters of both cases */
#define CODEX32_NO_SEPARATOR 23u        /* the text has no separator, `1` */
#define CODEX32_WRONG_CHECKSUM 33u      /* the checksum is wrong */
#define CODEX32_NO_NEAREST 34u          /* there is no nearest text */
#define CODEX32_BAD_SIZE 56u            /* there are neither 16 to 44 bytes nor 63 or 64 */
#define CODEX32_BAD_RANDOM 66u          /* there are not as many random bytes as characters are drawn */
#define CODEX32_EQUAL_RANDOM 68u        /* the random bytes are all equal */
#define CODEX32_TOO_FEW_SHARES 74u      /* there are fewer shares than the threshold */
#define CODEX32_OTHER_SET 75u           /* a share has another threshold, identifier or length than the
                                           first */
#define CODEX32_INDEX_TWICE 76u         /* two shares have one index */
#define CODEX32_CONTRADICTION 77u       /* the shares contradict each other */
#define CODEX32_BAD_COUNT 78u           /* there are fewer shares than the threshold, or more than 31 */
#define CODEX32_NOT_MS 81u              /* the human-readable part is not `ms` */
#define CODEX32_BAD_LENGTH 82u          /* a codex32 string has 48 to 93 characters, a long one 125 to
                                           127 */
#define CODEX32_BAD_THRESHOLD 83u       /* the threshold is neither 0 nor a digit from 2 to 9 */
#define CODEX32_BAD_SHARE_INDEX 84u     /* the threshold is 0, and the share index is not `s` */
#define CODEX32_BAD_IDENTIFIER 85u      /* the identifier is not four characters of the alphabet in one
                                           case */
#define CODEX32_NO_SHARE_INDEX 86u      /* the share index is not one character of the alphabet */
#define CODEX32_BITS_LEFT_OVER 87u      /* more than four bits stand behind the bytes of the payload */
#define CODEX32_NO_MEMORY 91u           /* the lent memory did not suffice */
#define CODEX32_NO_ROOM 92u             /* a buffer is too small */

/*
 * Puts the sentence of a refusal into `message`: the one beside its number above, in English and ASCII,
 * without a full stop. *message_length is its length, at most CODEX32_MAX_MESSAGE, and 0 for CODEX32_OK
 * and for numbers that are not above.
 *
 * Refusals: 92.
 */
uint32_t codex32_message(uint32_t number, uint8_t *message, size_t message_room, size_t *message_length);

/* The version of the library that is linked: CODEX32_VERSION_NUMBER if it is that of this header. */
uint32_t codex32_version(void);

/*
 * Reads a codex32 string. *threshold is its threshold, 0 or from 2 to 9, *share_index the character of
 * its share index, and *payload_length the length of its payload. The parts stand in the text, in its
 * case, at the places above: four characters of the identifier from text[CODEX32_IDENTIFIER_AT] on,
 * and *payload_length characters of the payload from text[CODEX32_PAYLOAD_AT] on.
 *
 * Refusals, the first that applies: 2; 21, 22, 23, 11 to 15; 82; 81; 33; 83; 84.
 */
uint32_t codex32_parse(const uint8_t *text, size_t text_length, uint32_t *threshold,
                       uint32_t *share_index, size_t *payload_length);

/*
 * Reads a string of either length, 48 to 93 characters or 125 to 127: a share, or the secret at the index
 * `s` (BIP-93, codex32 and Long codex32 Strings). *threshold is its threshold, 0 or from 2 to 9;
 * `identifier` gets the four characters of its identifier, and *share_index that of its share index, in
 * lower case. The bytes of its payload are put into `bytes`, and *bytes_length is their number, 16 to 44 or
 * 63 or 64: CODEX32_BYTES_SIZE suffices. Up to four bits left over behind them, whatever they are, are left
 * out (BIP-93, Unshared Secret).
 *
 * `bytes` is the secret, or a share of it: wipe it, and the text, when you are done.
 *
 * Refusals, the first that applies: 2; 21, 22, 23, 11 to 15; 82; 81; 33; 83; 84; 87; 92.
 */
uint32_t codex32_share(const uint8_t *text, size_t text_length, uint32_t *threshold,
                       uint8_t identifier[CODEX32_IDENTIFIER_LENGTH], uint32_t *share_index,
                       uint8_t *bytes, size_t bytes_room, size_t *bytes_length);

/*
 * Makes the string of a header and bytes, in lower case (BIP-93, codex32, Unshared Secret and Long codex32
 * Strings): of 16 to 44 bytes one of 48 to 93 characters, of 63 or 64 bytes a long one. `threshold` is 0 or
 * from 2 to 9; the identifier, four characters of the alphabet in one case; `share_index`, a character of
 * the alphabet in either case, `s` where the threshold is 0. The string is put into `text`, and
 * *text_length is its length, CODEX32_ENCODED_SIZE(bytes_length): CODEX32_TEXT_SIZE suffices. The bits left
 * over are zero.
 *
 * To share a secret, call codex32_split: this function does not make shares that keep it.
 *
 * Refusals, the first that applies: 83, 85, 86, 84, 56, 92.
 */
uint32_t codex32_encode(uint32_t threshold, const uint8_t *identifier, size_t identifier_length,
                        uint32_t share_index, const uint8_t *bytes, size_t bytes_length,
                        uint8_t *text, size_t text_room, size_t *text_length);

/*
 * Makes the string of a header and the characters of a payload, in lower case. The header is given as to
 * codex32_encode. The payload's characters are of the alphabet, in one case, and 26 to 71 of them make a
 * string of 48 to 93, 101 or 103 a long one: as many as 16 to 44 bytes, 63 or 64 have. At most four bits
 * are left over, whatever they are. The string is put into `text`, and *text_length is its length,
 * CODEX32_PAYLOAD_AT + payload_length + 13, or of a long one + 15: CODEX32_TEXT_SIZE suffices.
 *
 * To share a secret, call codex32_split, which makes all of its strings.
 *
 * Refusals, the first that applies: 83, 85, 86, 84; of the payload 21, 22, 56; 92.
 */
uint32_t codex32_encode_payload(uint32_t threshold, const uint8_t *identifier, size_t identifier_length,
                                uint32_t share_index, const uint8_t *payload, size_t payload_length,
                                uint8_t *text, size_t text_room, size_t *text_length);

/*
 * Derives the string at an index from others of its set, in lower case (BIP-93, Recovering Secret): at
 * CODEX32_SECRET_INDEX the secret. `share_index` is a character of the alphabet in either case. The texts
 * stand one behind another in `texts`, `count` of them, at most CODEX32_MAX_SHARES, and `lengths` are
 * theirs, which add up to texts_length. They have the same threshold, identifier and length, and each
 * another index; there are at least as many as the threshold. With the threshold 0 the one string is the
 * secret. If there are more than the threshold, all are tested. The string is put into `text`, and
 * *text_length is its length, that of each: CODEX32_TEXT_SIZE suffices.
 *
 * Refusals, the first that applies: 4; 86; of the texts in their order 2; 21, 22, 23, 11 to 15; 82; 81;
 * 33; 83; 84; then 75, 76, 84, 74, 77; 92.
 */
uint32_t codex32_derive(uint32_t share_index, const uint8_t *texts, size_t texts_length,
                        const size_t *lengths, size_t count, uint8_t *text, size_t text_room,
                        size_t *text_length);

/*
 * Splits a secret into `count` shares in lower case, of which any `threshold` recover it, and fewer say
 * nothing of it if the random bytes are uniform (BIP-93). The secret has 16 to 44 bytes, or 63 or 64.
 * `threshold` is from 2 to 9; the identifier, four characters of the alphabet in one case; `count`, from
 * the threshold to CODEX32_MAX_SPLIT. The shares stand one behind another in `texts`, and *text_length is
 * the length of each, CODEX32_ENCODED_SIZE(secret_length). From the first on, their indices are `a`, `c`,
 * `d` and so on in `acdefghjklmnpqrtuvwxyz023456789`.
 *
 * Give each split a new identifier, drawn at random: shares of two splits of one secret with the same
 * identifier are taken for one set, and as many of them as the threshold recover other bytes, with
 * CODEX32_OK. To get more shares later, derive them from enough shares (codex32_derive).
 *
 * `random` has CODEX32_RANDOM_SIZE(threshold, secret_length) bytes, random_length of them. Take them
 * from the operating system's generator of random numbers, make no shares where it fails, use them for
 * one call alone, and wipe them, and the secret, when you are done. Bytes that are all equal were never
 * filled in, and are refused: with them, anyone would know the first shares. The payloads of all shares before
 * the `threshold`-th are drawn: each random byte gives one of their characters, in their order, by its
 * lowest five bits. The other shares are derived from these and the secret's own string, that of
 * codex32_encode at CODEX32_SECRET_INDEX.
 *
 * Proved, whatever the bytes of `random` are: any `threshold` of the shares recover the secret. Proved too:
 * whichever threshold - 1 shares are known, for each secret of this length exactly one choice of the drawn
 * characters gives these shares. So they say nothing of the secret, nor do fewer, if the random bytes are
 * uniform. No proof says that they are.
 *
 * Refusals, the first that applies: 83, 85, 84 (the threshold is 0), 56, 78, 66, 68, 92.
 */
uint32_t codex32_split(uint32_t threshold, const uint8_t *identifier, size_t identifier_length,
                       const uint8_t *secret, size_t secret_length, const uint8_t *random,
                       size_t random_length, size_t count, uint8_t *texts, size_t texts_room,
                       size_t *text_length);

/*
 * Recovers a secret from shares of one set: the bytes of the string that codex32_derive makes of them at
 * CODEX32_SECRET_INDEX (BIP-93, Recovering Secret). The texts stand one behind another in `texts`,
 * `count` of them, at most CODEX32_MAX_SHARES, and `lengths` are theirs, which add up to texts_length.
 * They have the same threshold, identifier and length, and each another index; there are at least as
 * many as the threshold. If there are more, all are tested; if there are not, a share of another secret
 * gives other bytes, unnoticed. With the threshold 0 the one string is the secret. The bytes are put
 * into `bytes`, and *bytes_length is their number, 16 to 44 or 63 or 64: CODEX32_BYTES_SIZE suffices. Up
 * to four bits left over behind them, whatever they are, are left out. Wipe the bytes, and the texts,
 * when you are done.
 *
 * Refusals, the first that applies: 4; of the texts in their order 2; 21, 22, 23, 11 to 15; 82; 81; 33;
 * 83; 84; then 75, 76, 74, 77; 87; 92.
 */
uint32_t codex32_recover(const uint8_t *texts, size_t texts_length, const size_t *lengths, size_t count,
                         uint8_t *bytes, size_t bytes_room, size_t *bytes_length);

/*
 * Memory that a function may use: `size` bytes from `start` on, aligned to 16 bytes, in which the caller
 * keeps nothing. With every number but 91 the memory is the caller's again afterwards, and this is
 * unchanged. With 91 that is so too, or `size` was not 0 and the function keeps the memory and sets it
 * to 0.
 *
 * Tested, and not proved: that no function ever keeps the memory, and that none returns 91 if as many
 * bytes are lent as is stated below. tools/every-length lent makes calls at every length, each with exactly
 * that many bytes; the tests lists_or_wants_memory of bech32_c and names_the_least_memory of codex32_c
 * lend fewer.
 */
typedef struct {
    uint8_t *start;
    size_t size;
} codex32_memory;

/* The bytes that suffice for a text of text_length bytes. */
#define CODEX32_MEMORY(text_length) (16384u + 8u * (text_length))

/*
 * Proposes the nearest text to a damaged codex32 string, in which each `?` behind the last `1` is a
 * character that cannot be read. It has the same human-readable part and length, its checksum is right,
 * and twice the number of changed characters, plus the number of unreadable ones, is at most 8; there is at
 * most one such text. It is put into `proposed`, in lower case, and *proposed_length is its length, that of
 * the damaged text. It may not be what was meant: show it, and ask. Neither threshold nor share index is
 * tested. The time of the call, and which memory it reads, may depend on where the last `1` and each `?`
 * stand; and where the checksum is wrong, on the errors alone: which characters are wrong or unreadable,
 * and what is added to them. Of an unreadable one, that tells which character it is.
 *
 * Refusals, the first that applies: 2; 21, 22, 23, 11 to 15; 82; 81; 34; 92; and 91 in place of 0, 34 or
 * 92 where `memory` does not suffice. With every refusal, 91 too, `proposed` is as it was.
 */
uint32_t codex32_propose(const uint8_t *text, size_t text_length, codex32_memory *memory,
                         uint8_t *proposed, size_t proposed_room, size_t *proposed_length);

/*
 * Proposes the nearest text to a damaged long string, of 125 to 127 characters, within the bounds of
 * codex32_propose, by the checksum of long strings (BIP-93, Long codex32 Strings). The time of the call,
 * and which memory it reads, depend on what is said there.
 *
 * Refusals, the first that applies: 2; 21, 22, 23, 11 to 15; 82; 81; 34; 92; and 91 in place of 0, 34 or
 * 92 where `memory` does not suffice.
 */
uint32_t codex32_propose_long(const uint8_t *text, size_t text_length, codex32_memory *memory,
                              uint8_t *proposed, size_t proposed_room, size_t *proposed_length);

/*
 * Fills `size` bytes from `start` on with zeros, and no compiler leaves that out: for secrets, shares,
 * random bytes, and buffers that they stood in. Like the next function it is C of this header, tested
 * and not proved.
 */
static inline void codex32_wipe(void *start, size_t size) {
    volatile uint8_t *bytes = (volatile uint8_t *)start;
    while (size > 0) {
        bytes[--size] = 0;
    }
}

/* More bytes of the stack than any function of the library takes. A program that has less stack, and calls
 * few of them, may define a smaller number before it includes this header. */
#ifndef CODEX32_STACK_SIZE
#define CODEX32_STACK_SIZE 16384u
#endif

/* A function that is no part of its caller, and leaves zeros in registers where the compiler knows how: gcc
 * from 11 on, clang from 15 on. */
#if defined(__has_attribute)
#if __has_attribute(zero_call_used_regs) && (defined(__x86_64__) || defined(__aarch64__))
#define CODEX32_APART static __attribute__((noinline, unused, zero_call_used_regs("all")))
#endif
#endif
#ifndef CODEX32_APART
#if defined(__GNUC__)
#define CODEX32_APART static __attribute__((noinline, unused))
#elif defined(_MSC_VER)
#define CODEX32_APART static __inline __declspec(noinline)
#else
#define CODEX32_APART static inline
#endif
#endif

/*
 * Fills CODEX32_STACK_SIZE bytes of the stack below the function that calls it with zeros, in which
 * calls of the library left copies of secrets: call it after them, in the function that made them or in
 * one that called that. tools/steady searches the stack for what is left behind each call: no eight
 * characters, elements or bytes of a secret in a row. The C file of the library fills its own stack with
 * zeros before a call ends, but not what the C compiler puts elsewhere: call it there too.
 *
 * What stays: your own variables and the copies that your compiler makes of them, registers that the
 * compiler does not clear, and what the system copied: memory that was swapped out or dumped, and what
 * was saved of registers and stack for a signal or another thread.
 */
CODEX32_APART void codex32_wipe_stack(void) {
    volatile uint64_t room[CODEX32_STACK_SIZE / 8u + 1u];
    volatile uint64_t *at = room, *const end = room + sizeof room / 8u;
    while (at != end) {
        *at++ = 0;
    }
}

#ifdef __cplusplus
}
#endif

#endif
