/* Encodes and decodes segwit addresses. */
#include "encode.h"

/* The target of the checksum of a witness version. */
INLINE uint32_t segwit_target(uint32_t version) {
    return version == 0 ? BECH32_TARGET : BECH32M_TARGET;
}

/* The first of 46 to 48 that a program's length is refused with, or 0. */
INLINE uint32_t program_refusal(uint32_t version, size_t length) {
    if (length < 2) {
        return BECH32_PROGRAM_TOO_SHORT;
    }
    if (length > BECH32_MAX_SEGWIT_PROGRAM) {
        return BECH32_PROGRAM_TOO_LONG;
    }
    return version == 0 && length != 20 && length != 32 ? BECH32_PROGRAM_NOT_V0 : BECH32_OK;
}

/* The first of 52, 46 to 48, 53, 92 that an address is refused with, or 0. */
INLINE uint32_t address_refusal(uint32_t version, size_t program_length, size_t hrp_length,
                                size_t room) {
    if (version > 16) {
        return BECH32_ENCODED_BAD_VERSION;
    }
    uint32_t number = program_refusal(version, program_length);
    if (number != BECH32_OK) {
        return number;
    }
    size_t length = hrp_length + 8 + elements_of(program_length);
    if (length > BECH32_MAX_SEGWIT_TEXT) {
        return BECH32_ENCODED_ADDRESS_TOO_LONG;
    }
    return length > room ? BECH32_NO_ROOM : BECH32_OK;
}

uint32_t limit_segwit_encode(const uint8_t *hrp, size_t hrp_length, uint32_t version,
                             const uint8_t *program, size_t program_length, uint8_t *text,
                             size_t text_room, size_t *text_length) {
    if (version > 31) {
        return BECH32_BAD_NUMBER;
    }
    Part part;
    uint32_t number = read_hrp(hrp, hrp_length, &part);
    if (number != BECH32_OK) {
        return number;
    }
    number = address_refusal(version, program_length, hrp_length, text_room);
    if (number != BECH32_OK) {
        return number;
    }
    put_text(text, hrp, part, (int)version, program, program_length, segwit_target(version));
    *text_length = hrp_length + 8 + elements_of(program_length);
    return BECH32_OK;
}

/* Reads an address as far as its text goes. Answers the first of 2; 41; 21 to 23, 11 to 14; 42, 43; 32,
 * 33; 42, or 0. */
INLINE uint32_t read_address(const uint8_t *text, size_t length, uint64_t *words,
                             Reading *reading) {
    if (length > BECH32_MAX_SEGWIT_TEXT) {
        return is_utf8(text, length) ? BECH32_ADDRESS_TOO_LONG : BECH32_NOT_UTF8;
    }
    uint32_t number = read_text(text, length, 1, words, reading);
    if (number != BECH32_OK) {
        return number;
    }
    if (reading->hrp_length + 1 == length) {
        return BECH32_NO_DATA;
    }
    if (reading->version > 16) {
        return BECH32_BAD_VERSION;
    }
    number = checksum_refusal(reading, reading->data_length + 1,
                              segwit_target((uint32_t)reading->version));
    return number == BECH32_OK && reading->data_length < 6 ? BECH32_NO_DATA : number;
}

/* The first of 44, 45 that the bits behind whole bytes are refused with, or 0. */
INLINE uint32_t padding_refusal(const uint64_t *words, size_t elements) {
    size_t bits = 5 * elements % 8;
    if (bits > 4) {
        return BECH32_PADDING_TOO_LONG;
    }
    if (bits == 0) {
        return BECH32_OK;
    }
    uint64_t last = words[(elements - 1) / 8] >> 5 * (7 - (elements - 1) % 8);
    return last & ((1u << bits) - 1) ? BECH32_PADDING_NOT_ZERO : BECH32_OK;
}

uint32_t limit_segwit_decode(const uint8_t *text, size_t text_length, uint8_t *hrp, size_t hrp_room,
                             size_t *hrp_length, uint32_t *version, uint8_t *program,
                             size_t program_room, size_t *program_length) {
    uint64_t words[WORDS];
    Reading reading;
    uint32_t number = read_address(text, text_length, words, &reading);
    if (number != BECH32_OK) {
        return number;
    }
    size_t elements = reading.data_length - 6, length = 5 * elements / 8;
    number = padding_refusal(words, elements);
    if (number == BECH32_OK) {
        number = program_refusal((uint32_t)reading.version, length);
    }
    if (number != BECH32_OK) {
        return number;
    }
    if (reading.hrp_length > hrp_room || length > program_room) {
        return BECH32_NO_ROOM;
    }
    memcpy(hrp, text, reading.hrp_length);
    put_bytes(words, length, program);
    *hrp_length = reading.hrp_length;
    *version = (uint32_t)reading.version;
    *program_length = length;
    return BECH32_OK;
}
