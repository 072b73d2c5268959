/* Made by tools/make from include/bech32.h.in and docs/refusals.tsv; do not edit. */

/*
 * Bech32 (BIP-173) and Bech32m (BIP-350): texts and segwit addresses, written, read and mended; Blech32, the
 * confidential addresses of Liquid; and the checksums of output descriptors (BIP-380).
 *
 * The library is proved: for every input each function does what is said here, ends, and reads and
 * writes no memory but the caller's, within the lengths that are given. Where something is tested and
 * not proved, this says so. The library takes no memory but what a caller lends (bech32_memory), keeps
 * nothing between calls, and needs no start-up; it calls memcpy, memmove and memset alone. Any number of
 * threads may call it.
 *
 * Each function returns BECH32_OK, or the number of a refusal (below). On a refusal it writes nothing:
 * the buffers and the lengths stay as they were. The exceptions are the place of bech32_fault, of
 * bech32_encode_elements and of bech32_descriptor_checksum and _check, lent memory, what is said where
 * memory is lent, and the rows before one for which a buffer is too small. Otherwise the output stands at
 * the front of the buffer, and the bytes behind it stay as they were. No output ends in a zero byte.
 *
 * All texts are written in lower case, those mended from text in upper case too. To give them back in
 * upper case, change `a` to `z` into `A` to `Z`: the checksum accepts both.
 *
 * A buffer is a pointer and the number of bytes it has room for. A pointer beside a length or a room of
 * 0 is not followed, and may be null; no other pointer may be. Nothing that a function writes to may
 * overlap with anything else that it is given. These two rules, true lengths, and what is said of lent
 * memory are all that a caller owes.
 *
 * Lengths are in bytes; in a text that is accepted or written these are characters. The C file of the
 * library, if it tests each access (MACHINE_IS_TESTED), refuses a text, a human-readable part,
 * elements, numbers or the bytes of a column of 2^32 bytes or more with BECH32_NO_MEMORY, before all else.
 *
 * This describes the version of the library that BECH32_VERSION names, which is that of the file
 * VERSION and of the packages over it. The refusals are those of the Rust crate bech32 0.12.0, in its
 * order.
 */
#ifndef BECH32_H
#define BECH32_H

#include <stddef.h>
#include <stdint.h>

#ifdef __cplusplus
extern "C" {
#endif

/* The version of the library. */
#define BECH32_VERSION "0.1.0"

/* The same as a number: 10,000 times the first, 100 times the second, and the third. */
#define BECH32_VERSION_NUMBER 100u

/*
 * Checksums. The long ones are the same for texts of up to BECH32_MAX_LONG_TEXT characters, as invoices,
 * nostr and age have them: up to 1,023 characters they accept the same texts. Above that nothing is promised
 * of wrong characters, and texts are not mended, since a wrong character leaves the same remainder as one
 * 1,023 locations away (at location 1,200 the same as at 177): bech32_correct, bech32_nearest,
 * bech32_near_edits and bech32_residue take the first two, by which a text of more than 1,023 characters is
 * refused (31).
 */
#define BECH32_BECH32 1u       /* BIP-173 */
#define BECH32_BECH32M 2u      /* BIP-350 */
#define BECH32_LONG_BECH32 3u  /* the same as BECH32_BECH32, for long texts */
#define BECH32_LONG_BECH32M 4u /* the same as BECH32_BECH32M, for long texts */

/* The remainders of valid texts, as bech32_residue gives them. */
#define BECH32_TARGET 1u
#define BECH32M_TARGET 0x2bc830a3u

/* The characters of the elements from 0 to 31, in lower case. */
#define BECH32_ALPHABET "qpzry9x8gf2tvdw0s3jn54khce6mua7l"

/* Sizes of buffers that are always large enough. */
#define BECH32_MAX_TEXT 1023u           /* a text */
#define BECH32_MAX_HRP 83u              /* a human-readable part */
#define BECH32_MAX_BYTES 634u           /* the bytes of a text */
#define BECH32_MAX_ELEMENTS 1015u       /* the elements of a text, without those of the checksum */
#define BECH32_MAX_LONG_TEXT 7089u      /* a text by a long checksum */
#define BECH32_MAX_LONG_BYTES 4425u     /* the bytes of such a text */
#define BECH32_MAX_LONG_ELEMENTS 7081u  /* the elements of such a text */
#define BECH32_MAX_SEGWIT_TEXT 90u      /* a segwit address */
#define BECH32_MAX_SEGWIT_PROGRAM 40u   /* a witness program */
#define BECH32_MAX_LISTED 3u            /* the locations of a correction */
#define BECH32_MAX_MESSAGE 100u         /* the sentence of a refusal */
#define BECH32_MAX_LIQUID_TEXT 201u     /* a confidential address */
#define BECH32_MAX_LIQUID_PROGRAM 32u   /* its witness program */

/* The bytes of a blinding key. */
#define BECH32_LIQUID_KEY_LENGTH 33u

/* The most errors that bech32_nearest looks for. */
#define BECH32_MAX_ERRORS 2u

/* What is done to a text (bech32_near_edits and bech32_suggest, which alone gives the first and the last). */
#define BECH32_UNCHANGED 0u /* nothing */
#define BECH32_SWAPPED 1u   /* the characters at location + 1 and location are swapped */
#define BECH32_LEFT_OUT 2u  /* the character at location is left out */
#define BECH32_PUT_IN 3u    /* a character is put in, and then stands at location */
#define BECH32_REPLACED 4u  /* characters are replaced by others */

/* Room for this many edits is usually enough in bech32_near_edits: it seldom finds more than two. */
#define BECH32_NEAR_EDITS 8u

/* What else is done to a descriptor (bech32_descriptor_mend). */
#define BECH32_CHANGED 4u /* the character at place is changed */

/*
 * The characters of a descriptor's checksum, and the most of a text that bech32_descriptor_mend mends, and
 * that bech32_descriptor_mend_two mends.
 */
#define BECH32_DESCRIPTOR_CHECKSUM 8u
#define BECH32_MAX_DESCRIPTOR 7500u
#define BECH32_MAX_DESCRIPTOR_TWO 1400u

/* Return values. */
#define BECH32_OK 0u
#define BECH32_NULL_ROW 1u              /* the row is null */
#define BECH32_NOT_UTF8 2u              /* a text or a human-readable part is not UTF-8 */
#define BECH32_BAD_NUMBER 4u            /* the number of no checksum, an element above 31, too many errors,
                                           or no such rows */
#define BECH32_HRP_EMPTY 11u            /* the human-readable part is empty */
#define BECH32_HRP_TOO_LONG 12u         /* the human-readable part has more than 83 bytes */
#define BECH32_HRP_NOT_ASCII 13u        /* the human-readable part has a character that is not ASCII */
#define BECH32_HRP_INVALID 14u          /* the human-readable part has a byte that is not from 33 to 126 */
#define BECH32_HRP_MIXED_CASE 15u       /* the human-readable part has letters of both cases */
#define BECH32_INVALID_CHARACTER 21u    /* a character behind the separator may not stand there */
#define BECH32_MIXED_CASE 22u           /* the text has letters of both cases */
#define BECH32_NO_SEPARATOR 23u         /* the text has no separator, `1` */
#define BECH32_TEXT_TOO_LONG 31u        /* the text has more than 1023 characters (7089 by a long
                                           checksum) */
#define BECH32_NO_CHECKSUM 32u          /* too few characters for a checksum stand behind the separator */
#define BECH32_WRONG_CHECKSUM 33u       /* the checksum is wrong */
#define BECH32_NO_CORRECTION 34u        /* no correction of the data part mends the text */
#define BECH32_ADDRESS_TOO_LONG 41u     /* the text has more than 90 characters */
#define BECH32_NO_DATA 42u              /* the address has no witness version */
#define BECH32_BAD_VERSION 43u          /* its witness version is above 16 */
#define BECH32_PADDING_TOO_LONG 44u     /* more than four bits stand behind the last whole byte */
#define BECH32_PADDING_NOT_ZERO 45u     /* the bits behind the last whole byte are not all zero */
#define BECH32_PROGRAM_TOO_SHORT 46u    /* the program has less than 2 bytes */
#define BECH32_PROGRAM_TOO_LONG 47u     /* the program has more than 40 bytes */
#define BECH32_PROGRAM_NOT_V0 48u       /* in version 0 the program has neither 20 nor 32 bytes */
#define BECH32_OTHER_HRP 49u            /* the address has another human-readable part than is wanted */
#define BECH32_ENCODED_TOO_LONG 51u     /* the text would have more than 1023 characters (7089 by a long
                                           checksum) */
#define BECH32_ENCODED_BAD_VERSION 52u  /* the witness version is above 16 */
#define BECH32_ENCODED_ADDRESS_TOO_LONG 53u /* the address would have more than 90 characters */
#define BECH32_BAD_ELEMENT 67u          /* an element is above 31 */
#define BECH32_UNSUPPORTED_VERSION 70u  /* a confidential address of another witness version than 0 is not
                                           supported */
#define BECH32_NO_BLINDING_KEY 79u      /* a confidential address has less than 33 bytes behind its
                                           version */
#define BECH32_NOT_IN_DESCRIPTOR 80u    /* a character may not stand in a descriptor, or not in its
                                           checksum */
#define BECH32_NO_DESCRIPTOR_CHECKSUM 88u /* the text does not end in `#` and eight characters */
#define BECH32_DESCRIPTOR_TOO_LONG 89u  /* the text has more than 7500 characters (1400 for two changes),
                                           too many to be mended */
#define BECH32_NO_MEMORY 91u            /* the lent memory did not suffice */
#define BECH32_NO_ROOM 92u              /* a buffer is too small */

/*
 * Puts the sentence of a refusal into `message`: the one beside its number above, in English and ASCII,
 * without a full stop. *message_length is its length, at most BECH32_MAX_MESSAGE, and 0 for BECH32_OK
 * and for numbers that are not above.
 *
 * Refusals: 92.
 */
uint32_t bech32_message(uint32_t number, uint8_t *message, size_t message_room, size_t *message_length);

/* The version of the library that is linked: BECH32_VERSION_NUMBER if it is that of this header. */
uint32_t bech32_version(void);

/*
 * Encodes bytes under a human-readable part by a checksum, any of the four. The text, in lower case, is put
 * into `text`, and *text_length is its length: that of the human-readable part, 7, and 8 for each 5 bytes,
 * rounded up.
 *
 * Refusals, the first that applies: 4, 2, 11 to 15, 51, 92.
 */
uint32_t bech32_encode(uint32_t checksum, const uint8_t *hrp, size_t hrp_length,
                       const uint8_t *bytes, size_t bytes_length, uint8_t *text,
                       size_t text_room, size_t *text_length);

/*
 * Decodes a text that Bech32m or Bech32 accepts. Its human-readable part, in the case of the text,
 * is put into `hrp`, and its bytes into `bytes`; *hrp_length and *bytes_length are their lengths. Bits
 * behind the last whole byte are dropped.
 *
 * Decode an address by bech32_segwit_decode, not by this. The first element of an address is its
 * witness version, so this puts the program shifted by five bits. That looks like a hash, but it is not
 * the program. Where a text identifies something, decode it by bech32_decode_strict: this accepts several
 * spellings of the same bytes.
 *
 * Refusals, the first that applies: 2; 21, 22, 23, 11 to 15; 31, 32, 33; 92.
 */
uint32_t bech32_decode(const uint8_t *text, size_t text_length, uint8_t *hrp, size_t hrp_room,
                       size_t *hrp_length, uint8_t *bytes, size_t bytes_room,
                       size_t *bytes_length);

/*
 * Decodes a text that a checksum, any of the four, accepts as bech32_decode does, and refuses bits behind
 * the last whole byte that are more than four, or not all zero. So, in its case, the text is the only one
 * that this function decodes by this checksum to its human-readable part and its bytes; bech32_encode writes
 * it from them, in lower case.
 *
 * Refusals, the first that applies: 4; 2; 21, 22, 23, 11 to 15; 31, 32, 33; 44, 45; 92.
 */
uint32_t bech32_decode_strict(uint32_t checksum, const uint8_t *text, size_t text_length, uint8_t *hrp,
                              size_t hrp_room, size_t *hrp_length, uint8_t *bytes, size_t bytes_room,
                              size_t *bytes_length);

/*
 * Decodes a text that a checksum, any of the four, accepts to elements, a byte from 0 to 31 each: those of
 * its data part, without the six of the checksum. The human-readable part, in the case of the text, is put
 * into `hrp`, and the elements into `elements`; *hrp_length and *elements_length are their lengths. This
 * reads what is not bytes alone: the addresses of silent payments (BIP-352), whose first element is a
 * version, and invoices (BOLT 11). In its case, the text is the only one that this checksum accepts for its
 * human-readable part and its elements; bech32_encode_elements writes it from them, in lower case.
 *
 * Refusals, the first that applies: 4; 2; 21, 22, 23, 11 to 15; 31, 32, 33; 92.
 */
uint32_t bech32_decode_elements(uint32_t checksum, const uint8_t *text, size_t text_length, uint8_t *hrp,
                                size_t hrp_room, size_t *hrp_length, uint8_t *elements,
                                size_t elements_room, size_t *elements_length);

/*
 * Encodes elements, a byte from 0 to 31 each, under a human-readable part by a checksum, any of the four.
 * The text, in lower case, is put into `text`, and *text_length is its length: that of the human-readable
 * part, 7, and elements_length. The elements of bytes are their bits, five at a time, the highest first, with
 * zeros behind the last. With 67, *place is where the first element above 31 stands, counted from 0; with
 * every other number it stays as it was.
 *
 * Refusals, the first that applies: 4, 2, 11 to 15, 51, 67, 92.
 */
uint32_t bech32_encode_elements(uint32_t checksum, const uint8_t *hrp, size_t hrp_length,
                                const uint8_t *elements, size_t elements_length, size_t *place,
                                uint8_t *text, size_t text_room, size_t *text_length);

/*
 * Tests whether a checksum, any of the four, accepts a text. *hrp_length is then the length of the
 * human-readable part, which the text begins with, and *data_length that of the data part behind the
 * separator, without the six characters of the checksum.
 *
 * Refusals, the first that applies: 4; 2; 21, 22, 23, 11 to 15; 31, 32, 33.
 */
uint32_t bech32_check(uint32_t checksum, const uint8_t *text, size_t text_length,
                      size_t *hrp_length, size_t *data_length);

/*
 * Returns what bech32_check returns for a text, and says where the fault is.
 *
 * With four numbers one character is at fault, and *place, which is less than text_length, is where it
 * begins, in bytes from 0:
 *   13, 14    the first character that may not stand in a human-readable part;
 *   21        the last character behind the separator that may not stand there (of the whole text, if it
 *             has no separator);
 *   22        the first letter with one of the other case before it.
 * With the others no single character is at fault, and *place is a length. Show no place to people: with
 * 23 and 31 to 33 it would be one behind the end of the text.
 *   11, 12    the length of the human-readable part;
 *   23, 31 to 33    the length of the text.
 * With 0, 2 and 4 *place stays as it was. If bech32_decode or bech32_segwit_decode refuses a text with 11
 * to 14 or 21 to 23, this returns the same number, by either checksum.
 */
uint32_t bech32_fault(uint32_t checksum, const uint8_t *text, size_t text_length, size_t *place);

/*
 * Encodes a segwit address of a witness version (0 to 16) and a program: version 0 by Bech32, the others
 * by Bech32m. It is put into `text`, in lower case, and *text_length is its length.
 *
 * Refusals, the first that applies: 4 (a version above 31), 2, 11 to 15, 52, 46, 47, 48, 53, 92.
 */
uint32_t bech32_segwit_encode(const uint8_t *hrp, size_t hrp_length, uint32_t version,
                              const uint8_t *program, size_t program_length, uint8_t *text,
                              size_t text_room, size_t *text_length);

/*
 * Decodes a segwit address. Its human-readable part, in the case of the text, is put into `hrp`, and
 * its program into `program`; *hrp_length and *program_length are their lengths, and *version is the
 * witness version. Any human-readable part is accepted: compare it with that of your network.
 *
 * Refusals, the first that applies: 2; 41; 21, 22, 23, 11 to 15; 42, 43; 32, 33; 42, 44 to 48; 92.
 */
uint32_t bech32_segwit_decode(const uint8_t *text, size_t text_length, uint8_t *hrp,
                              size_t hrp_room, size_t *hrp_length, uint32_t *version,
                              uint8_t *program, size_t program_room, size_t *program_length);

/*
 * Feeds elements, a byte from 0 to 31 each, to the engine of a checksum (BECH32_BECH32 or
 * BECH32_BECH32M). *residue is then the remainder of the polynomial 1 with the elements behind it,
 * the first the highest: six coefficients, five bits each, the constant term lowest. For the elements of
 * a valid text, with those of its human-readable part before them (the high three bits of each byte in
 * lower case, a zero, the low five bits of each), it is BECH32_TARGET or BECH32M_TARGET.
 *
 * Refusals: 4.
 */
uint32_t bech32_residue(uint32_t checksum, const uint8_t *elements, size_t elements_length,
                        uint32_t *residue);

/*
 * Mends a mistyped text by a checksum (BECH32_BECH32 or BECH32_BECH32M). `erasures` are the locations
 * of characters that are known to be wrong; location 0 is the last character. If the checksum accepts
 * the text, *count is 0. Else *count locations are put into `locations`, each erasure once and in the
 * order given, then those of the other errors, and the elements to add there, from 0 to 31 each, into
 * `values`: to add elements is to take the exclusive or of their five bits. The text with them added, in
 * lower case, is put into `mended`; *mended_length is its length, which is text_length. locations_room
 * and values_room are numbers of items: BECH32_MAX_LISTED are enough.
 *
 * It finds the correction of the data part in which twice the number of errors outside the erasures, plus
 * the number of erasures, is at most three: there is at most one. It may not be what was meant: show it,
 * and ask.
 *
 * Refusals, the first that applies: 4; 2; 21, 22, 23, 11 to 15; 31, 32; 34 (there is no such correction,
 * or an erasure is not in the data part); 92.
 */
uint32_t bech32_correct(uint32_t checksum, const uint8_t *text, size_t text_length,
                        const size_t *erasures, size_t erasures_length, size_t *locations,
                        size_t locations_room, uint8_t *values, size_t values_room, size_t *count,
                        uint8_t *mended, size_t mended_room, size_t *mended_length);

/*
 * Memory that a function may use: `size` bytes from `start` on, aligned to 16 bytes, in which the caller
 * keeps nothing. With every number but 91 the memory is the caller's again afterwards, and this is
 * unchanged. With 91 that is so too, or `size` was not 0 and the function keeps the memory and sets it
 * to 0.
 *
 * Tested, and not proved: that no function ever keeps the memory, and that none returns 91 if as many
 * bytes are lent as is stated below. tools/every-length lent and tools/nearest make calls at every length,
 * each with exactly that many bytes; the tests lists_or_wants_memory of bech32_c and
 * names_the_least_memory of codex32_c lend fewer.
 */
typedef struct {
    uint8_t *start;
    size_t size;
} bech32_memory;

/*
 * The most near texts that any text of a length has, and the bytes that suffice for it, whatever the
 * checksum, the erasures and the errors: 460 texts and 423 kilobytes at 90 characters. These figures, and
 * those of the next two comments, are computed and tested, not proved: tools/nearest_check/most.c computes
 * the most texts at each length, and tools/nearest lists them in exactly this memory and room. Proved is
 * that without erasures there is one text at most, or at most text_length / 2.
 *
 * From 135 characters on the figures are large, 860 megabytes at 1,023: beside three erasures that are 33
 * locations apart, a text that is accepted with other characters there has that many near texts. Beside
 * most other erasures it has text_length * text_length / 68. You may lend less, and call again with more
 * if that does not suffice. A server lends little, and so bounds the time as well: with 16 megabytes, which
 * suffice for 9,000 near texts of 800 characters, no call took more than 0.1 seconds.
 */
#define BECH32_NEAREST_TEXTS(text_length)                             \
    (64u + 3u * (text_length) + (text_length) * (text_length) / 64u + \
     BECH32_NEAREST_APART(text_length))
#define BECH32_NEAREST_MEMORY(text_length)                                      \
    (24576u + 288u * (text_length) + 512u * BECH32_NEAREST_APART(text_length) + \
     BECH32_NEAREST_TEXTS(text_length) * ((text_length) + 720u))
#define BECH32_NEAREST_APART(text_length)                              \
    ((text_length) < 135u ? 0u                                         \
                          : 481u * (((text_length) - 3u) / 33u - 2u) * \
                                (((text_length) - 3u) / 33u - 3u))

/*
 * The same for searches with few results, which are the ones to show to people: two errors with up to two
 * erasures in up to 90 characters, two errors with one erasure in longer texts, one error with three.
 */
#define BECH32_NEAREST_FEW_TEXTS(text_length) (20u + ((text_length) > 90u ? (text_length) : 0u))
#define BECH32_NEAREST_FEW_MEMORY(text_length) \
    (24576u + 288u * (text_length) + BECH32_NEAREST_FEW_TEXTS(text_length) * ((text_length) + 720u))

/* The same without erasures: one text in up to 91 characters. */
#define BECH32_NEAREST_PLAIN_TEXTS(text_length) ((text_length) > 91u ? 16u : 1u)
#define BECH32_NEAREST_PLAIN_MEMORY(text_length) (16384u + 32u * (text_length))

/*
 * Lists the texts near to a mistyped one: all that a checksum (BECH32_BECH32 or BECH32_BECH32M) accepts
 * and that differ from it in at most `errors` characters of the data part, 0 to BECH32_MAX_ERRORS, outside
 * `erasures`. These are the locations of at most three characters that are known to be wrong; location 0
 * is the last character. If there are more, or one is not in the data part, no text is near.
 *
 * The texts, in lower case, are put into `texts` one behind another: *count texts of text_length bytes
 * each. *count may be 0. If they do not all fit (92), *count is the number of all, so *count times
 * text_length is the room that all take, and the first texts_room / text_length of them are put.
 *
 * Their order goes by the changes outside the erasures, from the highest location down: the text whose
 * highest location is lower comes first; of two with the same, the one with the lower value added there;
 * then likewise by the next location. A text without such changes is the first of all: if the checksum
 * accepts the mistyped text, that is this text itself.
 *
 * Without erasures and with up to 89 characters in the data part, as in each segwit address, there is at
 * most one text: the right one, if no more than `errors` of its characters are wrong. With erasures, or in
 * longer texts, there may be many. It may be that none is what was meant: show them, and ask.
 *
 * Milliseconds of a call with wrong characters anywhere (at 2.5 GHz, the least of several), and how many
 * texts there are beside two and three erasures:
 *
 *                 one error, erasures   | two errors, erasures         | texts, erasures
 *     characters     0, 1     2      3  |     0      1      2      3   |     2        3
 *         42        0.002  0.03   0.05  |  0.03    0.1    0.1   0.15   |     1       17
 *         62        0.002  0.07   0.08  |  0.04   0.15   0.15   0.25   |     2       50
 *         90        0.003   0.1   0.15  |  0.05   0.25    0.3   0.45   |     4      110
 *        200        0.003  0.25    0.3  |   0.1    0.4   0.55    1.8   |    20      550
 *        400        0.004   0.4    0.4  |  0.16    0.9    1.1    6.5   |    75    2,300
 *      1,000        0.005   1.5    0.9  |  0.45    2.6    4.7     68   |   450   14,500
 *
 * The most texts that there are (above) take 0.3 ms at 92 characters, 85 at 400, and 1,250 at 1,023.
 *
 * Refusals, the first that applies: 4; 2; 21, 22, 23, 11 to 15; 31, 32; 92; and 91 in place of 0 or 92
 * where `memory` does not suffice. If the function keeps the memory (above), `texts` may have changed;
 * with every other refusal but 92, and with every other 91, it is as it was.
 *
 * Such a 91 never comes with more than three different erasures, nor with one that is not in the data
 * part. If twice `errors` plus the number of different erasures is at most three, it comes only where
 * there is such a text. With more, memory may be needed before any text is found.
 */
uint32_t bech32_nearest(uint32_t checksum, const uint8_t *text, size_t text_length,
                        const size_t *erasures, size_t erasures_length, size_t errors,
                        bech32_memory *memory, uint8_t *texts, size_t texts_room, size_t *count);

/* These bytes suffice for BECH32_NEAR_EDITS edits of a text; for more edits, lend more. */
#define BECH32_NEAR_EDITS_MEMORY(text_length) (4096u + 16u * (text_length))

/*
 * Lists the other texts that one edit makes of a text and that a checksum (BECH32_BECH32 or BECH32_BECH32M)
 * accepts: two neighbours of the data part are swapped, one of its characters is left out, or one is put
 * in. The text need only be in the grammar: one that is too short for a checksum by one character, or too
 * long by one, can be mended too.
 *
 * *count, which may be 0, is their number. For each, what is done (BECH32_SWAPPED, BECH32_LEFT_OUT or
 * BECH32_PUT_IN) is put into `kinds`, and where into `locations`: location 0 is the last character, of this
 * text for a swap or a character left out, of the new text for a character put in. The new texts, in lower
 * case, are put into `texts` one behind another: each has text_length bytes after a swap, one less if a
 * character is left out, one more if one is put in. Swaps come first, then what leaves a character out, then
 * what puts one in; in each kind the locations rise. Each text is listed once: of a run of equal characters
 * the last is left out, and an equal one is put in behind the run.
 *
 * If they do not all fit (92), *count is the number of all, and the first of them are put, as many as all
 * three buffers have room for. kinds_room and locations_room are numbers of items; *count times
 * (text_length + 1) bytes are always enough for `texts`. It may be that none is what was meant: show them,
 * and ask. BECH32_BECH32 accepts a text that ends in `p` with any number of `q` before the `p` as well.
 *
 * Refusals, the first that applies: 4; 2; 21, 22, 23, 11 to 15; 92; and 91 in place of 0 or 92 where
 * `memory` does not suffice. No memory is needed where *count is 0. If the function keeps the memory
 * (above), the buffers may have changed; with every other refusal but 92, and with every other 91, they
 * are as they were.
 */
uint32_t bech32_near_edits(uint32_t checksum, const uint8_t *text, size_t text_length,
                           bech32_memory *memory, uint8_t *kinds, size_t kinds_room, size_t *locations,
                           size_t locations_room, uint8_t *texts, size_t texts_room, size_t *count);

/*
 * Encodes a confidential address of Liquid, by Blech32: of a witness version, a blinding key, the
 * BECH32_LIQUID_KEY_LENGTH bytes at `key`, and a program. It is put into `text`, in lower case, and
 * *text_length is its length. Only version 0 is supported (70): the addresses of the others, 1 to 16, have
 * another checksum, Blech32m. That the key is a point of the curve is not tested.
 *
 * Refusals, the first that applies: 4 (a version above 31), 2, 11 to 15, 52, 70, 46, 47, 48, 92.
 */
uint32_t bech32_liquid_encode(const uint8_t *hrp, size_t hrp_length, uint32_t version,
                              const uint8_t key[BECH32_LIQUID_KEY_LENGTH], const uint8_t *program,
                              size_t program_length, uint8_t *text, size_t text_room,
                              size_t *text_length);

/*
 * Decodes a confidential address of Liquid. Its human-readable part, in the case of the text, is put into
 * `hrp`, its blinding key into the BECH32_LIQUID_KEY_LENGTH bytes at `key`, and its program, of 20 or 32
 * bytes, into `program`; *hrp_length and *program_length are their lengths, and *version is the witness
 * version, which is 0: addresses of versions 1 to 16 are refused with 70, whatever their checksum. Any
 * human-readable part is accepted: compare it with that of your network (`lq`). That the key is a point of
 * the curve is not tested.
 *
 * Refusals, the first that applies: 2; 21, 22, 23, 11 to 15; 42, 43, 70; 31, 32, 33; 42, 44, 45; 79; 46
 * to 48; 92.
 */
uint32_t bech32_liquid_decode(const uint8_t *text, size_t text_length, uint8_t *hrp, size_t hrp_room,
                              size_t *hrp_length, uint32_t *version,
                              uint8_t key[BECH32_LIQUID_KEY_LENGTH], uint8_t *program,
                              size_t program_room, size_t *program_length);

/* The most errors that bech32_liquid_nearest looks for. */
#define BECH32_MAX_LIQUID_ERRORS 3u

/*
 * These bytes suffice for bech32_liquid_nearest (tested, not proved: tools/nearest makes calls at every
 * length, with every number of errors and erasures, also 33 locations apart, in exactly this memory).
 */
#define BECH32_LIQUID_NEAREST_MEMORY(text_length) (24576u + 1024u * (text_length))

/*
 * Lists the texts near to a mistyped one, as bech32_nearest does, but by Blech32, beside at most six
 * erasures, and with `errors` from 0 to BECH32_MAX_LIQUID_ERRORS: all that Blech32 accepts and that differ
 * from it in at most `errors` characters of the data part outside `erasures`. Twice `errors`, plus the
 * number of different erasures, may be at most seven: three errors beside one erasure at most, two beside
 * three, one beside five. If there are more than six different erasures, or one is not in the data part,
 * no text is near.
 *
 * To mend a text, choose `errors` so that twice this number, plus the number of erasures, is at most six: up
 * to three without erasures, none beside six. There is then one text at most: the right one, if no more of
 * its characters are wrong. It may not be what was meant: show it, and ask. It need not be an address:
 * decode it. With one more erasure there may be several texts, but no more than two in an address. A call
 * takes at most 2 ms at BECH32_MAX_LIQUID_TEXT characters and 40 at 1,023 (at 2.5 GHz).
 *
 * Refusals, the first that applies: 4 (more than three errors, or more than seven, where twice `errors`
 * and the number of at most six different erasures are added); 2; 21, 22, 23, 11 to 15; 31, 32; 92; and
 * 91 in place of 0 or 92 where `memory` does not suffice, which never comes with more than six different
 * erasures, nor with one that is not in the data part. If the function keeps the memory, `texts` may
 * have changed.
 */
uint32_t bech32_liquid_nearest(const uint8_t *text, size_t text_length, const size_t *erasures,
                               size_t erasures_length, size_t errors, bech32_memory *memory,
                               uint8_t *texts, size_t texts_room, size_t *count);
/*
 * Computes the checksum of an output descriptor (BIP-380). `text` is the descriptor without `#` and
 * checksum: each of its bytes has to be one of the 95 characters of BIP-380, which are the bytes from 32
 * to 126. The eight characters are put into `checksum`, and *checksum_length is 8.
 *
 * With 80, *place is the place, counted from 0, of the first byte that is no such character.
 *
 * A descriptor may hold private keys. Nothing of it is kept; but its bytes, and the checksum, may stand
 * on the stack behind the call, and the caller wipes buffers and lent memory itself. So for all four
 * functions.
 *
 * Refusals, the first that applies: 80, 92.
 */
uint32_t bech32_descriptor_checksum(const uint8_t *text, size_t text_length, uint8_t *checksum,
                                    size_t checksum_room, size_t *checksum_length, size_t *place);

/*
 * Tests an output descriptor with its checksum: characters of BIP-380, `#`, and the eight characters of
 * the checksum, which are those of Bech32 in lower case. What the characters before `#` say is not read.
 *
 * With 80, *place is the place, counted from 0, of the first byte that is not allowed there.
 *
 * Refusals, the first that applies: 88, 80, 33.
 */
uint32_t bech32_descriptor_check(const uint8_t *text, size_t text_length, size_t *place);

/* These bytes suffice for a few texts (bech32_descriptor_mend); for many, lend more. */
#define BECH32_DESCRIPTOR_MEND_MEMORY(text_length) (16384u + 400u * (text_length))

/*
 * Lists the other texts that one edit makes of this one and that bech32_descriptor_check accepts: a
 * character is changed (unless `changed`, the most characters that may be, is 0), two neighbours are
 * swapped, a character is left out, or one is put in. The edit may be in the checksum, or be the `#`. A
 * character is a byte: any byte of the text may be wrong.
 *
 * *count, which may be 0, is their number. For each, what is done (BECH32_CHANGED, BECH32_SWAPPED,
 * BECH32_LEFT_OUT or BECH32_PUT_IN) is put into `kinds`. Where it is done is put into `places`, two for
 * each text, from 0 for the first character: those of the two that are swapped, else the place twice, in
 * this text of a character that is changed or left out, in the new one of one that is put in. The new
 * texts are put into `texts` one behind another: each has text_length bytes, but one less if a character
 * is left out, and one more if one is put in.
 *
 * First come texts with one character changed, then two swapped, one left out, one put in. In each kind
 * the places rise, and at one place the codes of the characters put there. Each text is listed once: of
 * a run of equal characters the last is left out, and an equal one is put in behind the run.
 *
 * If they do not all fit (92), *count is the number of all, and the first of them are put, as many as
 * all three buffers have room for. kinds_room and places_room are numbers of items; *count times
 * (text_length + 1) bytes are always enough for `texts`. It may be that none is what was meant: compare
 * it with the wallet's addresses.
 *
 * Refusals, the first that applies: 4 (`changed` is above 1); 89 (more than 7,500 bytes); 92; and 91 in
 * place of 0 or 92 where the text has at least eight bytes and `memory` does not suffice. If the
 * function keeps the memory (above), the buffers may have changed; with every other refusal but 92, and
 * with every other 91, they are as they were.
 */
uint32_t bech32_descriptor_mend(const uint8_t *text, size_t text_length, size_t changed,
                                bech32_memory *memory, uint8_t *kinds, size_t kinds_room,
                                size_t *places, size_t places_room, uint8_t *texts,
                                size_t texts_room, size_t *count);

/* These bytes suffice for a few texts (bech32_descriptor_mend_two); for many, lend more. */
#define BECH32_DESCRIPTOR_TWO_MEMORY(text_length) (65536u + 4608u * (text_length))

/*
 * Lists the texts that two changed characters make of this one and that bech32_descriptor_check accepts.
 * Either may be in the checksum, or be the `#`. A character is a byte: any bytes of the text may be wrong.
 * Try bech32_descriptor_mend first: where two characters are wrong, it takes about a 15th of the time at 30
 * characters and a 150th at 1,400 (`tools/worst mend`), and less memory.
 *
 * A text of BECH32_MAX_DESCRIPTOR_TWO bytes has 8,574,612,720 others that differ from it in two characters
 * and have characters where they may stand, and the checksum accepts one in 2^40. So of 100 such texts that
 * are no mistyped descriptors at most one is expected to be answered with any text; of shorter ones, fewer.
 *
 * *count, which may be 0, is their number. Of each both places are put into `places`, the lower one first,
 * from 0 for the first character. The new texts, each of text_length bytes, are put into `texts` one behind
 * another. They are in the order of the second place, then of the code of the character put there, then of
 * the first place, and of the character put there. Each text is listed once.
 *
 * If they do not all fit (92), *count is the number of all, and the first of them are put, as many as
 * both buffers have room for. places_room is a number of items. It may be that none is what was meant:
 * compare it with the wallet's addresses.
 *
 * Refusals, the first that applies: 89 (more than 1,400 bytes); 92; and 91 in place of 0 or 92 where the
 * text has at least nine bytes and `memory` does not suffice. If the function keeps the memory (above),
 * the buffers may have changed; with every other refusal but 92, and with every other 91, they are as
 * they were.
 */
uint32_t bech32_descriptor_mend_two(const uint8_t *text, size_t text_length, bech32_memory *memory,
                                    size_t *places, size_t places_room, uint8_t *texts,
                                    size_t texts_room, size_t *count);

/* These suffice for bech32_suggest: bytes of memory, and room for this many addresses. */
#define BECH32_SUGGEST_MEMORY 196608u
#define BECH32_SUGGESTIONS 48u

/*
 * Did you mean? Lists the segwit addresses of a network that someone who typed `text` may have meant: those
 * that bech32_segwit_decode accepts, whose human-readable part is `hrp`, in either case, and whose form is in
 * use: version 0 with a program of 20 or 32 bytes (BIP-141), or version 1 with one of 32 (BIP-341). An output
 * of another form has no rule for spending, and anyone may take it, so no guess is of such a form. The text
 * itself is no guess: if it is an address of that network, it is listed, whatever its form. Each `?` in the
 * text is a character that cannot be read; its letters may be of either case, but not of both.
 *
 * The texts tried are, in this order, those that bech32_nearest lists by BECH32_BECH32, and by
 * BECH32_BECH32M, with the `?` as erasures and as many errors as are said below; then, of a text without
 * `?`, those that bech32_near_edits lists by BECH32_BECH32, and by BECH32_BECH32M. The addresses among them
 * are listed in that order, each once. Two neighbours that are swapped differ at two characters, so
 * bech32_nearest lists them where two errors are looked for: they are BECH32_SWAPPED, and stand in its order.
 *
 * *count, which may be 0, is their number. For each, what is done (BECH32_UNCHANGED, BECH32_SWAPPED,
 * BECH32_LEFT_OUT, BECH32_PUT_IN or BECH32_REPLACED) is put into `kinds`, and where into `places`: the first
 * place, counted from 0 at the front, at which the address and the text, in lower case, differ (or one of
 * them ends). That is the first of two that are swapped, the one that is left out, and the one that is put
 * in. Where characters are replaced, both have one length: all places at which they differ are replaced, and
 * each `?` is one of these. The addresses, in lower case, are put into `texts` one behind another: each has
 * text_length bytes, one less with BECH32_LEFT_OUT, one more with BECH32_PUT_IN.
 *
 * So few texts are tried that of 100 which are no mistyped addresses at most one gets an answer by chance.
 * Of n characters behind the separator, u of them `?`, with at most e errors among the other m = n - u, both
 * checksums together try 2 * 32^u texts with e = 0, (1 + 31 * m) times as many with e = 1,
 * (1 + 31 * m + 961 * m * (m - 1) / 2) times as many with e = 2, and without `?` another 62 + 68 * n by
 * edits; a checksum accepts one in 2^30. The errors looked for are the most, up to 2, for which 100 times
 * the texts are at most 2^30: 2 without `?`; 1 beside one (2 if n is at most 20) or beside two; 0 beside
 * three. With more `?`, with n less than 10, or with more than BECH32_MAX_SEGWIT_TEXT + 1 bytes nothing is
 * tried, and *count is 0.
 *
 * If they do not all fit (92), *count is the number of all, and the first of them are put, as many as all
 * three buffers have room for. kinds_room and places_room are numbers of items; *count times
 * BECH32_MAX_SEGWIT_TEXT bytes are always enough for `texts`.
 *
 * If `text` is in the grammar, and no more characters of its data part are wrong than are looked for, the
 * right address is among them, where its form is in use. That is not so of an error in the human-readable
 * part, or of a character that may not stand in the data part. Each is a guess: show it, and let people
 * compare it with the source before it is paid to.
 *
 * Refusals, the first that applies: of `hrp` 2, 11 to 15; of `text` 2; 21, 22, 23, 11 to 15 (each `?`
 * read as `0`; of a text of more than 91 bytes nothing of these); 92; and 91 in place of 0 or 92 where
 * `memory` does not suffice. No memory is needed where nothing is tried. If the function keeps the
 * memory (above), the buffers may have changed; with every other refusal but 92, and with every other
 * 91, they are as they were.
 */
uint32_t bech32_suggest(const uint8_t *text, size_t text_length, const uint8_t *hrp, size_t hrp_length,
                        bech32_memory *memory, uint8_t *kinds, size_t kinds_room, size_t *places,
                        size_t places_room, uint8_t *texts, size_t texts_room, size_t *count);

/*
 * Columns: many rows in one call, as databases and data frames have them.
 *
 * A column is laid out as Apache Arrow has it: the bytes of all rows one behind another, offsets, and a bit
 * for each row that is 0 where the row is null. So the buffers of an Arrow array are handed over as they
 * are, and what is written is an Arrow array again: utf8 or binary, with offsets of 32 bits. Rows may also
 * have one width. Rows are counted from 0. `first` and `count` cut a column, so threads can share one, each
 * with rows and buffers of its own.
 *
 * A bad row ends nothing: its number, a byte, is put into `numbers`, and the next row is read. The number
 * is the first that applies of: 4, its bit is not in `validity`; BECH32_NULL_ROW, it is null; 4, its
 * offsets are not in `offsets`, fall, or are negative, or its bytes are not in `bytes`; what the call for
 * one text returns, which is 0 where the row is accepted; BECH32_OTHER_HRP. Whatever the buffers hold,
 * nothing outside of them is read.
 *
 * Of each buffer, what is behind the last row that is put stays as it was.
 */

/* How a column is laid out. */
#define BECH32_OFFSETS_32 1u /* offsets are int32_t: Arrow's utf8 and binary */
#define BECH32_OFFSETS_64 2u /* offsets are int64_t: Arrow's large_utf8 and large_binary */
#define BECH32_FIXED 3u      /* each row has `width` bytes: Arrow's fixed_size_binary */
#define BECH32_FIXED_ZERO 4u /* the same, and a row ends before the zeros at its end: NumPy's S */

/*
 * A column. Row i has the bytes from offset i up to offset i + 1, or those from i * width up to (i + 1) *
 * width. Offsets are in the order of bytes of the machine, and need not be aligned. Each buffer has its
 * length in bytes: there are rows + 1 offsets, so `offsets` has 4 * (rows + 1) or 8 * (rows + 1). Where
 * rows have a width, `offsets` is not read.
 */
typedef struct {
    const uint8_t *bytes;    /* of all rows */
    size_t bytes_length;
    const void *offsets;     /* where each row begins, and the last one ends */
    size_t offsets_length;   /* in bytes */
    const uint8_t *validity; /* bit i % 8 of byte i / 8, the lowest bit first, is 0 where row i is null */
    size_t validity_length;  /* in bytes; 0: no row is null */
    size_t rows;             /* how many rows there are */
    size_t width;            /* the bytes of each row, where they have one width */
    uint32_t layout;         /* BECH32_OFFSETS_32 to BECH32_FIXED_ZERO */
} bech32_column;

/*
 * Tests `count` rows from `first` on by a checksum, any of the four, or with 0 by BECH32_BECH32M and
 * BECH32_BECH32: one that accepts the text suffices. `numbers` has count bytes: numbers[i] is the number of
 * row first + i, as bech32_check returns it.
 *
 * Refusals: 4 (no such checksum or layout, or there are no such rows).
 */
uint32_t bech32_check_many(uint32_t checksum, const bech32_column *texts, size_t first,
                           uint8_t *numbers, size_t count);

/*
 * Decodes `count` segwit addresses, the rows from `first` on. `numbers` has count bytes: numbers[i] is the
 * number of row first + i, as bech32_segwit_decode returns it. If hrp_length is not 0, an address with
 * another human-readable part than `hrp`, in either case, has the number BECH32_OTHER_HRP: name that of
 * your network.
 *
 * versions[i] is the witness version, and hrp_lengths[i] the length of the human-readable part, with which
 * the text begins. The programs are put into `programs` one behind another: that of row first + i stands
 * from program_offsets[i] up to program_offsets[i + 1], and program_offsets[0] is 0. Where the number is
 * not 0, version and length are 0 and the program is empty. What is not wanted has a room of 0: versions,
 * hrp_lengths, or program_offsets, and then no program is put.
 *
 * versions_room and hrp_lengths_room are at least count, program_offsets_room, in items, at least count +
 * 1, and count times BECH32_MAX_SEGWIT_PROGRAM bytes are always enough for `programs`. *done is the number
 * of the rows that are put: count, or with 92 fewer, as many as all buffers have room for, and as have less
 * than 2^31 bytes of programs. The call for the others begins at first + *done.
 *
 * Refusals, the first that applies: 4 (no such layout, or there are no such rows); of `hrp`, if
 * hrp_length is not 0, 2, 12 to 15; 92.
 */
uint32_t bech32_segwit_decode_many(const bech32_column *texts, size_t first, const uint8_t *hrp,
                                   size_t hrp_length, uint8_t *numbers, size_t count, uint8_t *versions,
                                   size_t versions_room, uint8_t *hrp_lengths, size_t hrp_lengths_room,
                                   int32_t *program_offsets, size_t program_offsets_room,
                                   uint8_t *programs, size_t programs_room, size_t *done);

/*
 * Encodes `count` segwit addresses of one human-readable part. Their programs are the rows of `programs`
 * from `first` on; versions[i] is the witness version of row first + i, and versions_length, in bytes, is
 * at least count. `numbers` has count bytes: numbers[i] is the number of row first + i, as
 * bech32_segwit_encode returns it. The addresses, in lower case, are put into `texts` one behind another:
 * that of row first + i stands from text_offsets[i] up to text_offsets[i + 1], text_offsets[0] is 0, and
 * where the number is not 0 the address is empty.
 *
 * text_offsets_room, in items, is at least count + 1, and count times BECH32_MAX_SEGWIT_TEXT bytes are
 * always enough for `texts`. *done is as bech32_segwit_decode_many has it.
 *
 * Refusals, the first that applies: 4 (no such layout, there are no such rows, or fewer versions); 92.
 */
uint32_t bech32_segwit_encode_many(const uint8_t *hrp, size_t hrp_length, const uint8_t *versions,
                                   size_t versions_length, const bech32_column *programs, size_t first,
                                   uint8_t *numbers, size_t count, int32_t *text_offsets,
                                   size_t text_offsets_room, uint8_t *texts, size_t texts_room,
                                   size_t *done);

/*
 * Makes the validity of what was decoded or encoded: bit i % 8 of validity[i / 8], the lowest bit first, is
 * 1 where numbers[i] is 0. The bits behind the last are 0: (count + 7) / 8 bytes are put. *accepted is how
 * many numbers are 0.
 *
 * Refusals: 92.
 */
uint32_t bech32_validity_of(const uint8_t *numbers, size_t count, uint8_t *validity,
                            size_t validity_room, size_t *accepted);

#ifdef __cplusplus
}
#endif

#endif
