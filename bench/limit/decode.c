/* Decodes texts, tests them, and says where their fault stands. */
#include <string.h>

#include "bytes.h"
#include "text.h"

/* The refusal of a text by the checksum of a target, or 0 where it is read and accepted. */
INLINE uint32_t checked(uint32_t target, const uint8_t *text, size_t length, Reading *reading) {
    uint32_t number = read_text(text, length, 0, NULL, reading);
    return number != BECH32_OK ? number : checksum_refusal(reading, reading->data_length, target);
}

uint32_t limit_check(uint32_t checksum, const uint8_t *text, size_t text_length,
                     size_t *hrp_length, size_t *data_length) {
    uint32_t target = target_of(checksum);
    if (target == 0) {
        return BECH32_BAD_NUMBER;
    }
    Reading reading;
    uint32_t number = checked(target, text, text_length, &reading);
    if (number == BECH32_OK) {
        *hrp_length = reading.hrp_length;
        *data_length = reading.data_length - 6;
    }
    return number;
}

uint32_t limit_fault(uint32_t checksum, const uint8_t *text, size_t text_length, size_t *place) {
    size_t hrp_length, data_length;
    uint32_t number = limit_check(checksum, text, text_length, &hrp_length, &data_length);
    if (number != BECH32_OK && number != BECH32_NOT_UTF8 && number != BECH32_BAD_NUMBER) {
        *place = place_of(number, text, text_length);
    }
    return number;
}

/* The refusal of a text by Bech32m and Bech32, or 0 where one of them accepts it. */
INLINE uint32_t either_refusal(const Reading *reading) {
    uint32_t target = reading->remainder == BECH32_TARGET ? BECH32_TARGET : BECH32M_TARGET;
    return checksum_refusal(reading, reading->data_length, target);
}

uint32_t limit_decode(const uint8_t *text, size_t text_length, uint8_t *hrp, size_t hrp_room,
                      size_t *hrp_length, uint8_t *bytes, size_t bytes_room, size_t *bytes_length) {
    uint64_t words[WORDS];
    Reading reading;
    uint32_t number = read_text(text, text_length, 0, words, &reading);
    if (number == BECH32_OK) {
        number = either_refusal(&reading);
    }
    if (number != BECH32_OK) {
        return number;
    }
    size_t length = (reading.data_length - 6) * 5 / 8;
    if (reading.hrp_length > hrp_room || length > bytes_room) {
        return BECH32_NO_ROOM;
    }
    memcpy(hrp, text, reading.hrp_length);
    put_bytes(words, length, bytes);
    *hrp_length = reading.hrp_length;
    *bytes_length = length;
    return BECH32_OK;
}
