/*
 * The commands of b32: texts of Bech32 and Bech32m, segwit addresses (BIP-173, BIP-350), long texts, and confidential
 * addresses of Liquid.
 */
#include "bech32.h"
#include "lines.h"

static uint32_t encode(const Words *words, Out *out) {
    uint32_t checksum = any_checksum_of(words->word[0]);
    Word hrp = words->word[1];
    uint8_t bytes[MOST_BYTES], text[BECH32_MAX_LONG_TEXT];
    size_t count, length;
    if (checksum == 0) {
        return NO_COMMAND;
    }
    if (!read_hex(words->word[2], bytes, &count)) {
        return BAD_HEX;
    }
    uint32_t number =
        bech32_encode(checksum, hrp.bytes, hrp.length, bytes, count, text, sizeof text, &length);
    if (number == BECH32_OK) {
        put_text(out, "ok ");
        put(out, text, length);
    }
    return number;
}

static uint32_t decode(const Words *words, Out *out) {
    Word text = words->word[0];
    uint8_t hrp[BECH32_MAX_HRP], bytes[BECH32_MAX_BYTES];
    size_t hrp_length, count;
    uint32_t number = bech32_decode(text.bytes, text.length, hrp, sizeof hrp, &hrp_length, bytes,
                                    sizeof bytes, &count);
    if (number == BECH32_OK) {
        put_text(out, "ok ");
        put_lowered(out, hrp, hrp_length);
        put_text(out, " ");
        put_hex(out, bytes, count);
    }
    return number;
}

typedef uint32_t DecodeBy(uint32_t checksum, const uint8_t *text, size_t text_length, uint8_t *hrp, size_t hrp_room,
                          size_t *hrp_length, uint8_t *bytes, size_t bytes_room, size_t *bytes_length);

static uint32_t decode_by(const Words *words, Out *out, DecodeBy *call) {
    uint32_t checksum = any_checksum_of(words->word[0]);
    Word text = words->word[1];
    uint8_t hrp[BECH32_MAX_HRP], bytes[BECH32_MAX_LONG_ELEMENTS];
    size_t hrp_length, count;
    if (checksum == 0) {
        return NO_COMMAND;
    }
    uint32_t number =
        call(checksum, text.bytes, text.length, hrp, sizeof hrp, &hrp_length, bytes, sizeof bytes, &count);
    if (number == BECH32_OK) {
        put_text(out, "ok ");
        put_lowered(out, hrp, hrp_length);
        put_text(out, " ");
        put_hex(out, bytes, count);
    }
    return number;
}

static uint32_t decode_strict(const Words *words, Out *out) { return decode_by(words, out, bech32_decode_strict); }

static uint32_t decode_elements(const Words *words, Out *out) {
    return decode_by(words, out, bech32_decode_elements);
}

static uint32_t encode_elements(const Words *words, Out *out) {
    uint32_t checksum = any_checksum_of(words->word[0]);
    Word hrp = words->word[1];
    uint8_t elements[MOST_BYTES], text[BECH32_MAX_LONG_TEXT];
    size_t count, place, length;
    if (checksum == 0) {
        return NO_COMMAND;
    }
    if (!read_hex(words->word[2], elements, &count)) {
        return BAD_HEX;
    }
    uint32_t number = bech32_encode_elements(checksum, hrp.bytes, hrp.length, elements, count, &place, text,
                                             sizeof text, &length);
    if (number == BECH32_OK) {
        put_text(out, "ok ");
        put(out, text, length);
    }
    return number;
}

static uint32_t segwit_encode(const Words *words, Out *out) {
    Word hrp = words->word[0];
    uint8_t program[MOST_BYTES], text[BECH32_MAX_SEGWIT_TEXT];
    size_t version, count, length;
    if (!read_number(words->word[1], 31, &version)) {
        return BAD_WORD;
    }
    if (!read_hex(words->word[2], program, &count)) {
        return BAD_HEX;
    }
    uint32_t number = bech32_segwit_encode(hrp.bytes, hrp.length, (uint32_t)version, program, count,
                                           text, sizeof text, &length);
    if (number == BECH32_OK) {
        put_text(out, "ok ");
        put(out, text, length);
    }
    return number;
}

static uint32_t segwit_decode(const Words *words, Out *out) {
    Word text = words->word[0];
    uint8_t hrp[BECH32_MAX_HRP], program[BECH32_MAX_SEGWIT_PROGRAM];
    size_t hrp_length, count;
    uint32_t version;
    uint32_t number = bech32_segwit_decode(text.bytes, text.length, hrp, sizeof hrp, &hrp_length,
                                           &version, program, sizeof program, &count);
    if (number == BECH32_OK) {
        put_text(out, "ok ");
        put_lowered(out, hrp, hrp_length);
        put_text(out, " ");
        put_number(out, version);
        put_text(out, " ");
        put_hex(out, program, count);
    }
    return number;
}

/* What is added where, each with a space behind it. */
static void put_listing(Out *out, const size_t *locations, const uint8_t *values, size_t count) {
    static const char alphabet[] = "qpzry9x8gf2tvdw0s3jn54khce6mua7l";
    for (size_t i = 0; i < count; i++) {
        uint8_t said[3] = {':', (uint8_t)alphabet[values[i]], ' '};
        put_number(out, locations[i]);
        put(out, said, sizeof said);
    }
}

static uint32_t correct(const Words *words, Out *out) {
    uint32_t checksum = checksum_of(words->word[0]);
    Word text = words->word[1];
    size_t erasures[MOST_LOCATIONS], erasures_length = 0;
    size_t locations[BECH32_MAX_LISTED], count, length;
    uint8_t values[BECH32_MAX_LISTED], mended[BECH32_MAX_TEXT];
    if (checksum == 0) {
        return NO_COMMAND;
    }
    if (words->count == 3 && !read_locations(words->word[2], erasures, &erasures_length)) {
        return BAD_WORD;
    }
    uint32_t number = bech32_correct(checksum, text.bytes, text.length, erasures, erasures_length,
                                     locations, BECH32_MAX_LISTED, values, BECH32_MAX_LISTED, &count,
                                     mended, sizeof mended, &length);
    if (number == BECH32_NO_CORRECTION) {
        put_text(out, "none");
        return FINE;
    }
    if (number != BECH32_OK) {
        return number;
    }
    if (count == 0) {
        put_text(out, "fine");
        return FINE;
    }
    put_text(out, "ok ");
    put_listing(out, locations, values, count);
    put(out, mended, length);
    return FINE;
}

static uint32_t liquid_encode(const Words *words, Out *out) {
    Word hrp = words->word[0];
    uint8_t key[MOST_BYTES], program[MOST_BYTES], text[BECH32_MAX_LIQUID_TEXT];
    size_t version, key_length, count, length;
    if (!read_number(words->word[1], 31, &version)) {
        return BAD_WORD;
    }
    if (!read_hex(words->word[2], key, &key_length) || key_length != BECH32_LIQUID_KEY_LENGTH) {
        return BAD_HEX;
    }
    if (!read_hex(words->word[3], program, &count)) {
        return BAD_HEX;
    }
    uint32_t number = bech32_liquid_encode(hrp.bytes, hrp.length, (uint32_t)version, key, program, count, text,
                                           sizeof text, &length);
    if (number == BECH32_OK) {
        put_text(out, "ok ");
        put(out, text, length);
    }
    return number;
}

static uint32_t liquid_decode(const Words *words, Out *out) {
    Word text = words->word[0];
    uint8_t hrp[BECH32_MAX_HRP], key[BECH32_LIQUID_KEY_LENGTH], program[BECH32_MAX_LIQUID_PROGRAM];
    size_t hrp_length, count;
    uint32_t version;
    uint32_t number = bech32_liquid_decode(text.bytes, text.length, hrp, sizeof hrp, &hrp_length, &version, key,
                                           program, sizeof program, &count);
    if (number == BECH32_OK) {
        put_text(out, "ok ");
        put_lowered(out, hrp, hrp_length);
        put_text(out, " ");
        put_number(out, version);
        put_text(out, " ");
        put_hex(out, key, sizeof key);
        put_text(out, " ");
        put_hex(out, program, count);
    }
    return number;
}

const Command b32_commands[] = {
    {"encode", 3, 3, encode},
    {"decode", 1, 1, decode},
    {"decode-strict", 2, 2, decode_strict},
    {"decode-elements", 2, 2, decode_elements},
    {"encode-elements", 3, 3, encode_elements},
    {"segwit-encode", 3, 3, segwit_encode},
    {"segwit-decode", 1, 1, segwit_decode},
    {"correct", 2, 3, correct},
    {"liquid-encode", 4, 4, liquid_encode},
    {"liquid-decode", 1, 1, liquid_decode},
    {NULL, 0, 0, NULL},
};
