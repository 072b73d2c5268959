//! The constants of the headers.
//!
//! Made by tools/make (tools/make.d/to_packages) from include/bech32.h and include/codex32.h; do not edit.
#![allow(dead_code)]

pub const BECH32_VERSION: &str = "0.1.0";
pub const BECH32_VERSION_NUMBER: usize = 100;
pub const BECH32_BECH32: usize = 1;
pub const BECH32_BECH32M: usize = 2;
pub const BECH32_LONG_BECH32: usize = 3;
pub const BECH32_LONG_BECH32M: usize = 4;
pub const BECH32_TARGET: usize = 1;
pub const BECH32M_TARGET: usize = 734539939;
pub const BECH32_ALPHABET: &str = "qpzry9x8gf2tvdw0s3jn54khce6mua7l";
pub const BECH32_MAX_TEXT: usize = 1023;
pub const BECH32_MAX_HRP: usize = 83;
pub const BECH32_MAX_BYTES: usize = 634;
pub const BECH32_MAX_ELEMENTS: usize = 1015;
pub const BECH32_MAX_LONG_TEXT: usize = 7089;
pub const BECH32_MAX_LONG_BYTES: usize = 4425;
pub const BECH32_MAX_LONG_ELEMENTS: usize = 7081;
pub const BECH32_MAX_SEGWIT_TEXT: usize = 90;
pub const BECH32_MAX_SEGWIT_PROGRAM: usize = 40;
pub const BECH32_MAX_LISTED: usize = 3;
pub const BECH32_MAX_MESSAGE: usize = 100;
pub const BECH32_MAX_LIQUID_TEXT: usize = 201;
pub const BECH32_MAX_LIQUID_PROGRAM: usize = 32;
pub const BECH32_LIQUID_KEY_LENGTH: usize = 33;
pub const BECH32_MAX_ERRORS: usize = 2;
pub const BECH32_UNCHANGED: usize = 0;
pub const BECH32_SWAPPED: usize = 1;
pub const BECH32_LEFT_OUT: usize = 2;
pub const BECH32_PUT_IN: usize = 3;
pub const BECH32_REPLACED: usize = 4;
pub const BECH32_NEAR_EDITS: usize = 8;
pub const BECH32_CHANGED: usize = 4;
pub const BECH32_DESCRIPTOR_CHECKSUM: usize = 8;
pub const BECH32_MAX_DESCRIPTOR: usize = 7500;
pub const BECH32_MAX_DESCRIPTOR_TWO: usize = 1400;
pub const BECH32_OK: usize = 0;
pub const BECH32_NULL_ROW: usize = 1;
pub const BECH32_NOT_UTF8: usize = 2;
pub const BECH32_BAD_NUMBER: usize = 4;
pub const BECH32_HRP_EMPTY: usize = 11;
pub const BECH32_HRP_TOO_LONG: usize = 12;
pub const BECH32_HRP_NOT_ASCII: usize = 13;
pub const BECH32_HRP_INVALID: usize = 14;
pub const BECH32_HRP_MIXED_CASE: usize = 15;
pub const BECH32_INVALID_CHARACTER: usize = 21;
pub const BECH32_MIXED_CASE: usize = 22;
pub const BECH32_NO_SEPARATOR: usize = 23;
pub const BECH32_TEXT_TOO_LONG: usize = 31;
pub const BECH32_NO_CHECKSUM: usize = 32;
pub const BECH32_WRONG_CHECKSUM: usize = 33;
pub const BECH32_NO_CORRECTION: usize = 34;
pub const BECH32_ADDRESS_TOO_LONG: usize = 41;
pub const BECH32_NO_DATA: usize = 42;
pub const BECH32_BAD_VERSION: usize = 43;
pub const BECH32_PADDING_TOO_LONG: usize = 44;
pub const BECH32_PADDING_NOT_ZERO: usize = 45;
pub const BECH32_PROGRAM_TOO_SHORT: usize = 46;
pub const BECH32_PROGRAM_TOO_LONG: usize = 47;
pub const BECH32_PROGRAM_NOT_V0: usize = 48;
pub const BECH32_OTHER_HRP: usize = 49;
pub const BECH32_ENCODED_TOO_LONG: usize = 51;
pub const BECH32_ENCODED_BAD_VERSION: usize = 52;
pub const BECH32_ENCODED_ADDRESS_TOO_LONG: usize = 53;
pub const BECH32_BAD_ELEMENT: usize = 67;
pub const BECH32_UNSUPPORTED_VERSION: usize = 70;
pub const BECH32_NO_BLINDING_KEY: usize = 79;
pub const BECH32_NOT_IN_DESCRIPTOR: usize = 80;
pub const BECH32_NO_DESCRIPTOR_CHECKSUM: usize = 88;
pub const BECH32_DESCRIPTOR_TOO_LONG: usize = 89;
pub const BECH32_NO_MEMORY: usize = 91;
pub const BECH32_NO_ROOM: usize = 92;
pub const fn bech32_nearest_few_texts(text_length: usize) -> usize {
    20 + (if text_length > 90 { text_length } else { 0 })
}
pub const fn bech32_nearest_few_memory(text_length: usize) -> usize {
    24576 + 288 * text_length + bech32_nearest_few_texts(text_length) * (text_length + 720)
}
pub const fn bech32_nearest_plain_texts(text_length: usize) -> usize {
    if text_length > 91 {
        16
    } else {
        1
    }
}
pub const fn bech32_nearest_plain_memory(text_length: usize) -> usize {
    16384 + 32 * text_length
}
pub const fn bech32_near_edits_memory(text_length: usize) -> usize {
    4096 + 16 * text_length
}
pub const BECH32_MAX_LIQUID_ERRORS: usize = 3;
pub const fn bech32_liquid_nearest_memory(text_length: usize) -> usize {
    24576 + 1024 * text_length
}
pub const fn bech32_descriptor_mend_memory(text_length: usize) -> usize {
    16384 + 400 * text_length
}
pub const fn bech32_descriptor_two_memory(text_length: usize) -> usize {
    65536 + 4608 * text_length
}
pub const BECH32_SUGGEST_MEMORY: usize = 196608;
pub const BECH32_SUGGESTIONS: usize = 48;
pub const BECH32_OFFSETS_32: usize = 1;
pub const BECH32_OFFSETS_64: usize = 2;
pub const BECH32_FIXED: usize = 3;
pub const BECH32_FIXED_ZERO: usize = 4;
pub const CODEX32_VERSION: &str = "0.1.0";
pub const CODEX32_VERSION_NUMBER: usize = 100;
pub const CODEX32_MIN_TEXT: usize = 48;
pub const CODEX32_MAX_TEXT: usize = 93;
pub const CODEX32_MIN_LONG_TEXT: usize = 125;
pub const CODEX32_MAX_LONG_TEXT: usize = 127;
pub const CODEX32_TEXT_SIZE: usize = 127;
pub const CODEX32_BYTES_SIZE: usize = 64;
pub const CODEX32_MAX_MESSAGE: usize = 100;
pub const CODEX32_SECRET_INDEX: usize = 115;
pub const CODEX32_MAX_SHARES: usize = 32;
pub const CODEX32_MAX_SPLIT: usize = 31;
pub const CODEX32_THRESHOLD_AT: usize = 3;
pub const CODEX32_IDENTIFIER_AT: usize = 4;
pub const CODEX32_IDENTIFIER_LENGTH: usize = 4;
pub const CODEX32_SHARE_INDEX_AT: usize = 8;
pub const CODEX32_PAYLOAD_AT: usize = 9;
pub const CODEX32_OK: usize = 0;
pub const CODEX32_NOT_UTF8: usize = 2;
pub const CODEX32_BAD_LENGTHS: usize = 4;
pub const CODEX32_HRP_EMPTY: usize = 11;
pub const CODEX32_HRP_TOO_LONG: usize = 12;
pub const CODEX32_HRP_NOT_ASCII: usize = 13;
pub const CODEX32_HRP_INVALID: usize = 14;
pub const CODEX32_HRP_MIXED_CASE: usize = 15;
pub const CODEX32_INVALID_CHARACTER: usize = 21;
pub const CODEX32_MIXED_CASE: usize = 22;
pub const CODEX32_NO_SEPARATOR: usize = 23;
pub const CODEX32_WRONG_CHECKSUM: usize = 33;
pub const CODEX32_NO_NEAREST: usize = 34;
pub const CODEX32_BAD_SIZE: usize = 56;
pub const CODEX32_BAD_RANDOM: usize = 66;
pub const CODEX32_EQUAL_RANDOM: usize = 68;
pub const CODEX32_TOO_FEW_SHARES: usize = 74;
pub const CODEX32_OTHER_SET: usize = 75;
pub const CODEX32_INDEX_TWICE: usize = 76;
pub const CODEX32_CONTRADICTION: usize = 77;
pub const CODEX32_BAD_COUNT: usize = 78;
pub const CODEX32_NOT_MS: usize = 81;
pub const CODEX32_BAD_LENGTH: usize = 82;
pub const CODEX32_BAD_THRESHOLD: usize = 83;
pub const CODEX32_BAD_SHARE_INDEX: usize = 84;
pub const CODEX32_BAD_IDENTIFIER: usize = 85;
pub const CODEX32_NO_SHARE_INDEX: usize = 86;
pub const CODEX32_BITS_LEFT_OVER: usize = 87;
pub const CODEX32_NO_MEMORY: usize = 91;
pub const CODEX32_NO_ROOM: usize = 92;
pub const fn codex32_memory(text_length: usize) -> usize {
    16384 + 8 * text_length
}
pub const CODEX32_STACK_SIZE: usize = 16384;
