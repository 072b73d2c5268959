/*
 * How far C gets: the calls of include/bech32.h as fast as C was made to go here, with the same answers
 * and the same refusals in the same order. They are measured beside the library (bench/run) and compared
 * with it (bench/limit/test, `bench compare`). A measure, and no part of the library: nothing is proved.
 *
 * What makes them fast: eight characters are looked up at once in tables by place, which give their
 * elements and what is wrong with them; the remainder takes eight elements a step, by four tables of 1,024
 * words; bytes and elements go over as words of 40 bits; a correction has its syndromes from three tables,
 * and its errors in closed form. Only what is refused is read a second time, to find its first fault.
 *
 * The tables take 52 KB, and are filled before main begins.
 */
#ifndef LIMIT_H
#define LIMIT_H

#include <stddef.h>
#include <stdint.h>

#include "bech32.h"

uint32_t limit_encode(uint32_t checksum, const uint8_t *hrp, size_t hrp_length,
                      const uint8_t *bytes, size_t bytes_length, uint8_t *text, size_t text_room,
                      size_t *text_length);

uint32_t limit_decode(const uint8_t *text, size_t text_length, uint8_t *hrp, size_t hrp_room,
                      size_t *hrp_length, uint8_t *bytes, size_t bytes_room, size_t *bytes_length);

uint32_t limit_check(uint32_t checksum, const uint8_t *text, size_t text_length,
                     size_t *hrp_length, size_t *data_length);

uint32_t limit_fault(uint32_t checksum, const uint8_t *text, size_t text_length, size_t *place);

uint32_t limit_segwit_encode(const uint8_t *hrp, size_t hrp_length, uint32_t version,
                             const uint8_t *program, size_t program_length, uint8_t *text,
                             size_t text_room, size_t *text_length);

uint32_t limit_segwit_decode(const uint8_t *text, size_t text_length, uint8_t *hrp, size_t hrp_room,
                             size_t *hrp_length, uint32_t *version, uint8_t *program,
                             size_t program_room, size_t *program_length);

uint32_t limit_residue(uint32_t checksum, const uint8_t *elements, size_t elements_length,
                       uint32_t *residue);

uint32_t limit_correct(uint32_t checksum, const uint8_t *text, size_t text_length,
                       const size_t *erasures, size_t erasures_length, size_t *locations,
                       size_t locations_room, uint8_t *values, size_t values_room, size_t *count,
                       uint8_t *mended, size_t mended_room, size_t *mended_length);

#endif
