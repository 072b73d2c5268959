/* The remainder of elements. */
#include "bytes.h"
#include "limit.h"

/* Eight bytes below 32 as a word of 40 bits. */
INLINE uint64_t packed(uint64_t bytes) {
    bytes = (bytes & UINT64_C(0x001f001f001f001f)) | (bytes >> 3 & UINT64_C(0x03e003e003e003e0));
    bytes = (bytes & UINT64_C(0x000003ff000003ff)) | (bytes >> 6 & UINT64_C(0x000ffc00000ffc00));
    return (bytes & 0xfffff) | (bytes >> 12 & UINT64_C(0xfffff00000));
}

uint32_t limit_residue(uint32_t checksum, const uint8_t *elements, size_t elements_length,
                       uint32_t *residue) {
    uint32_t remainder = 1;
    uint64_t seen = 0;
    size_t i = 0;
    for (; i + 8 <= elements_length; i += 8) {
        uint64_t bytes = number_of(elements + i);
        seen |= bytes;
        remainder = step_eight(remainder, packed(bytes));
    }
    size_t count = elements_length - i;
    uint64_t bytes = last_bytes(elements, elements_length, count);
    seen |= bytes;
    if ((checksum != BECH32_BECH32 && checksum != BECH32_BECH32M) ||
        seen & UINT64_C(0xe0e0e0e0e0e0e0e0)) {
        return BECH32_BAD_NUMBER;
    }
    *residue = step_rest(remainder, packed(bytes), count);
    return BECH32_OK;
}
