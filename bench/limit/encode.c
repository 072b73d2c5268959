/* Encodes bytes. */
#include "encode.h"

uint32_t limit_encode(uint32_t checksum, const uint8_t *hrp, size_t hrp_length,
                      const uint8_t *bytes, size_t bytes_length, uint8_t *text, size_t text_room,
                      size_t *text_length) {
    uint32_t target = target_of(checksum);
    if (target == 0) {
        return BECH32_BAD_NUMBER;
    }
    Part part;
    uint32_t number = read_hrp(hrp, hrp_length, &part);
    if (number != BECH32_OK) {
        return number;
    }
    if (bytes_length > BECH32_MAX_BYTES) {
        return BECH32_ENCODED_TOO_LONG;
    }
    size_t length = hrp_length + 7 + elements_of(bytes_length);
    if (length > BECH32_MAX_TEXT) {
        return BECH32_ENCODED_TOO_LONG;
    }
    if (length > text_room) {
        return BECH32_NO_ROOM;
    }
    put_text(text, hrp, part, -1, bytes, bytes_length, target);
    *text_length = length;
    return BECH32_OK;
}
