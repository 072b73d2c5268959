/*
 * Addresses by the algorithms of BIP-173 and BIP-350 as plain C, a character at a time, without a table but that of the
 * characters, and without a proof: what calls of the library are counted beside.
 */
#ifndef PLAIN_H
#define PLAIN_H

#include <stddef.h>
#include <stdint.h>

/* Puts the address of a program and a zero behind it; returns 1, or 0 where there is none. */
int plain_segwit_encode(char *text, const char *hrp, int version, const uint8_t *program, size_t length);

/* Reads an address of this human-readable part, in lower case; returns 1, or 0 where it is none. */
int plain_segwit_decode(int *version, uint8_t *program, size_t *length, const char *hrp, const char *text);

#endif
