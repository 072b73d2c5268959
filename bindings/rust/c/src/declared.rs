//! The constants of the headers.
//!
//! Made by tools/make (tools/make.d/to_packages) from include/bech32.h and include/codex32.h; do not edit.
#![allow(dead_code)]

pub const BECH32_VERSION: &str = "0.1.0";
pub const BECH32_VERSION_NUMBER: usize = 100;
pub const BECH32_BECH32: usize = 1;
pub const BECH32_BECH32M: usize = 2;
pub const BECH32_LONG_BECH32: usize = 3;
pub const BECH32_LONG_BECH32M: usize = 4;
pub const BECH32_TARGET: usize = 1;
pub const BECH32M_TARGET: usize = 734539939;
pub const BECH32_ALPHABET: &str = "qpzry9x8gf2tvdw0s3jn54khce6mua7l";
pub const BECH32_MAX_TEXT: usize = 1023;
pub const BECH32_MAX_HRP: usize = 83;
pub const BECH32_MAX_BYTES: usize = 634;
pub const BECH32_MAX_ELEMENTS: usize = 1015;
pub const BECH32_MAX_LONG_TEXT: usize = 7089;
pub const BECH32_MAX_LONG_BYTES: usize = 4425;
pub const BECH32_MAX_LONG_ELEMENTS: usize = 7081;
pub const BECH32_MAX_SEGWIT_TEXT: usize = 90;
pub const BECH32_MAX_SEGWIT_PROGRAM: usize = 40;
pub const BECH32_MAX_LISTED: usize = 3;
pub const BECH32_MAX_MESSAGE: usize = 100;
pub const BECH32_MAX_LIQUID_TEXT: usize = 201;
pub const BECH32_MAX_LIQUID_PROGRAM: usize = 32;
pub const BECH32_LIQUID_KEY_LENGTH: usize = 33;
pub const BECH32_MAX_ERRORS: usize = 2;
pub const BECH32_UNCHANGED: usize = 0;
pub const BECH32_SWAPPED: usize = 1;
pub const BECH32_LEFT_OUT: usize = 2;
pub const BECH32_PUT_IN: usize = 3;
pub const BECH32_REPLACED: usize = 4;
pub const BECH32_NEAR_EDITS: usize = 8;
pub const BECH32_CHANGED: usize = 4;
pub const BECH32_DESCRIPTOR_CHECKSUM: usize = 8;
pub const BECH32_MAX_DESCRIPTOR: usize = 7500;
pub const BECH32_MAX_DESCRIPTOR_TWO: usize = 1400;
pub const BECH32_OK: usize = 0;
pub const BECH32_NULL_ROW: usize = 1;
pub const BECH32_NOT_UTF8: usize = 2;
pub const BECH32_BAD_NUMBER: usize = 4;
pub const BECH32_HRP_EMPTY: usize = 11;
pub const BECH32_HRP_TOO_LONG: usize = 12;
pub const BECH32_HRP_NOT_ASCII: usize = 13;
pub const BECH32_HRP_INVALID: usize = 14;
pub const BECH32_HRP_MIXED_CASE: usize = 15;
pub const BECH32_INVALID_CHARACTER: usize = 21;
pub const BECH32_MIXED_CASE: usize = 22;
pub const BECH32_NO_SEPARATOR: usize = 23;
pub const BECH32_TEXT_TOO_LONG: usize = 31;
pub const BECH32_NO_CHECKSUM: usize = 32;
pub const BECH32_WRONG_CHECKSUM: usize = 33;
pub const BECH32_NO_CORRECTION: usize = 34;
pub const BECH32_ADDRESS_TOO_LONG: usize = 41;
pub const BECH32_NO_DATA: usize = 42;
pub const BECH32_BAD_VERSION: usize = 43;
pub const BECH32_PADDING_TOO_LONG: usize = 44;
pub const BECH32_PADDING_NOT_ZERO: usize = 45;
pub const BECH32_PROGRAM_TOO_SHORT: usize = 46;
pub const BECH32_PROGRAM_TOO_LONG: usize = 47;
pub const BECH32_PROGRAM_NOT_V0: usize = 48;
pub const BECH32_OTHER_HRP: usize = 49;
pub const BECH32_ENCODED_TOO_LONG: usize = 51;
pub const BECH32_ENCODED_BAD_VERSION: usize = 52;
pub const BECH32_ENCODED_ADDRESS_TOO_LONG: usize = 53;
pub const BECH32_BAD_ELEMENT: usize = 67;
pub const BECH32_UNSUPPORTED_VERSION: usize = 70;
pub const BECH32_NO_BLINDING_KEY: usize = 79;
pub const BECH32_NOT_IN_DESCRIPTOR: usize = 80;
pub const BECH32_NO_DESCRIPTOR_CHECKSUM: usize = 88;
pub const BECH32_DESCRIPTOR_TOO_LONG: usize = 89;
pub const BECH32_NO_MEMORY: usize = 91;
pub const BECH32_NO_ROOM: usize = 92;
pub const fn bech32_nearest_few_texts(text_length: usize) -> usize {
    20 + (if text_length > 90 { text_length } else { 0 })
}
pub const fn bech32_nearest_few_memory(text_length: usize) -> usize {
    24576 + 288 * text_length + bech32_nearest_few_texts(text_length) * (text_length + 720)
}
pub const fn bech32_nearest_plain_texts(text_length: usize) -> usize {
    if text_length > 91 {
        16
    } else {
        1
    }
}
pub const fn bech32_nearest_plain_memory(text_length: usize) -> usize {
    16384 + 32 * text_length
}
pub const fn bech32_near_edits_memory(text_length: usize) -> usize {
    4096 + 16 * text_length
}
pub const BECH32_MAX_LIQUID_ERRORS: usize = 3;
pub const fn bech32_liquid_nearest_memory(text_length: usize) -> usize {
    24576 + 1024 * text_length
}
pub const fn bech32_descriptor_mend_memory(text_length: usize) -> usize {
    16384 + 400 * text_length
}
pub const fn bech32_descriptor_two_memory(text_length: usize) -> usize {
    65536 + 4608 * text_length
}
pub const BECH32_SUGGEST_MEMORY: usize = 196608;
pub const BECH32_SUGGESTIONS: usize = 48;
pub const BECH32_OFFSETS_32: usize = 1;
pub const BECH32_OFFSETS_64: usize = 2;
pub const BECH32_FIXED: usize = 3;
pub const BECH32_FIXED_ZERO: usize = 4;
pub const CODEX32_VERSION: &str = "0.1.0";
pub const CODEX32_VERSION_NUMBER: usize = 100;
pub const CODEX32_MIN_TEXT: usize = 48;
pub const CODEX32_MAX_TEXT: usize = 93;
pub const CODEX32_MIN_LONG_TEXT: usize = 125;
pub const CODEX32_MAX_LONG_TEXT: usize = 127;
pub const CODEX32_TEXT_SIZE: usize = 127;
pub const CODEX32_BYTES_SIZE: usize = 64;
pub const CODEX32_MAX_MESSAGE: usize = 100;
pub const CODEX32_SECRET_INDEX: usize = 115;
pub const CODEX32_MAX_SHARES: usize = 32;
pub const CODEX32_MAX_SPLIT: usize = 31;
pub const CODEX32_THRESHOLD_AT: usize = 3;
pub const CODEX32_IDENTIFIER_AT: usize = 4;
pub const CODEX32_IDENTIFIER_LENGTH: usize = 4;
pub const CODEX32_SHARE_INDEX_AT: usize = 8;
pub const CODEX32_PAYLOAD_AT: usize = 9;
pub const CODEX32_OK: usize = 0;
pub const CODEX32_NOT_UTF8: usize = 2;
pub const CODEX32_BAD_LENGTHS: usize = 4;
pub const CODEX32_HRP_EMPTY: usize = 11;
pub const CODEX32_HRP_TOO_LONG: usize = 12;
pub const CODEX32_HRP_NOT_ASCII: usize = 13;
pub const CODEX32_HRP_INVALID: usize = 14;
pub const CODEX32_HRP_MIXED_CASE: usize = 15;
pub const CODEX32_INVALID_CHARACTER: usize = 21;
pub const CODEX32_MIXED_CASE: usize = 22;
pub const CODEX32_NO_SEPARATOR: usize = 23;
pub const CODEX32_WRONG_CHECKSUM: usize = 33;
pub const CODEX32_NO_NEAREST: usize = 34;
pub const CODEX32_BAD_SIZE: usize = 56;
pub const CODEX32_BAD_RANDOM: usize = 66;
pub const CODEX32_EQUAL_RANDOM: usize = 68;
pub const CODEX32_TOO_FEW_SHARES: usize = 74;
pub const CODEX32_OTHER_SET: usize = 75;
pub const CODEX32_INDEX_TWICE: usize = 76;
pub const CODEX32_CONTRADICTION: usize = 77;
pub const CODEX32_BAD_COUNT: usize = 78;
pub const CODEX32_NOT_MS: usize = 81;
pub const CODEX32_BAD_LENGTH: usize = 82;
pub const CODEX32_BAD_THRESHOLD: usize = 83;
pub const CODEX32_BAD_SHARE_INDEX: usize = 84;
pub const CODEX32_BAD_IDENTIFIER: usize = 85;
pub const CODEX32_NO_SHARE_INDEX: usize = 86;
pub const CODEX32_BITS_LEFT_OVER: usize = 87;
pub const CODEX32_NO_MEMORY: usize = 91;
pub const CODEX32_NO_ROOM: usize = 92;
pub const fn codex32_memory(text_length: usize) -> usize {
    16384 + 8 * text_length
}
pub const CODEX32_STACK_SIZE: usize = 16384;

#[repr(C)]
pub struct Memory {
    pub start: *mut u8,
    pub size: usize,
}

#[repr(C)]
pub struct Column {
    pub bytes: *const u8,
    pub bytes_length: usize,
    pub offsets: *const u8,
    pub offsets_length: usize,
    pub validity: *const u8,
    pub validity_length: usize,
    pub rows: usize,
    pub width: usize,
    pub layout: u32,
}

extern "C" {
    pub fn bech32_message(
        number: u32,
        message: *mut u8,
        message_room: usize,
        message_length: *mut usize,
    ) -> u32;
    pub fn bech32_version() -> u32;
    pub fn bech32_encode(
        checksum: u32,
        hrp: *const u8,
        hrp_length: usize,
        bytes: *const u8,
        bytes_length: usize,
        text: *mut u8,
        text_room: usize,
        text_length: *mut usize,
    ) -> u32;
    pub fn bech32_decode(
        text: *const u8,
        text_length: usize,
        hrp: *mut u8,
        hrp_room: usize,
        hrp_length: *mut usize,
        bytes: *mut u8,
        bytes_room: usize,
        bytes_length: *mut usize,
    ) -> u32;
    pub fn bech32_decode_strict(
        checksum: u32,
        text: *const u8,
        text_length: usize,
        hrp: *mut u8,
        hrp_room: usize,
        hrp_length: *mut usize,
        bytes: *mut u8,
        bytes_room: usize,
        bytes_length: *mut usize,
    ) -> u32;
    pub fn bech32_decode_elements(
        checksum: u32,
        text: *const u8,
        text_length: usize,
        hrp: *mut u8,
        hrp_room: usize,
        hrp_length: *mut usize,
        elements: *mut u8,
        elements_room: usize,
        elements_length: *mut usize,
    ) -> u32;
    pub fn bech32_encode_elements(
        checksum: u32,
        hrp: *const u8,
        hrp_length: usize,
        elements: *const u8,
        elements_length: usize,
        place: *mut usize,
        text: *mut u8,
        text_room: usize,
        text_length: *mut usize,
    ) -> u32;
    pub fn bech32_check(
        checksum: u32,
        text: *const u8,
        text_length: usize,
        hrp_length: *mut usize,
        data_length: *mut usize,
    ) -> u32;
    pub fn bech32_fault(
        checksum: u32,
        text: *const u8,
        text_length: usize,
        place: *mut usize,
    ) -> u32;
    pub fn bech32_segwit_encode(
        hrp: *const u8,
        hrp_length: usize,
        version: u32,
        program: *const u8,
        program_length: usize,
        text: *mut u8,
        text_room: usize,
        text_length: *mut usize,
    ) -> u32;
    pub fn bech32_segwit_decode(
        text: *const u8,
        text_length: usize,
        hrp: *mut u8,
        hrp_room: usize,
        hrp_length: *mut usize,
        version: *mut u32,
        program: *mut u8,
        program_room: usize,
        program_length: *mut usize,
    ) -> u32;
    pub fn bech32_residue(
        checksum: u32,
        elements: *const u8,
        elements_length: usize,
        residue: *mut u32,
    ) -> u32;
    pub fn bech32_correct(
        checksum: u32,
        text: *const u8,
        text_length: usize,
        erasures: *const usize,
        erasures_length: usize,
        locations: *mut usize,
        locations_room: usize,
        values: *mut u8,
        values_room: usize,
        count: *mut usize,
        mended: *mut u8,
        mended_room: usize,
        mended_length: *mut usize,
    ) -> u32;
    pub fn bech32_nearest(
        checksum: u32,
        text: *const u8,
        text_length: usize,
        erasures: *const usize,
        erasures_length: usize,
        errors: usize,
        memory: *mut Memory,
        texts: *mut u8,
        texts_room: usize,
        count: *mut usize,
    ) -> u32;
    pub fn bech32_near_edits(
        checksum: u32,
        text: *const u8,
        text_length: usize,
        memory: *mut Memory,
        kinds: *mut u8,
        kinds_room: usize,
        locations: *mut usize,
        locations_room: usize,
        texts: *mut u8,
        texts_room: usize,
        count: *mut usize,
    ) -> u32;
    pub fn bech32_liquid_encode(
        hrp: *const u8,
        hrp_length: usize,
        version: u32,
        key: *const u8,
        program: *const u8,
        program_length: usize,
        text: *mut u8,
        text_room: usize,
        text_length: *mut usize,
    ) -> u32;
    pub fn bech32_liquid_decode(
        text: *const u8,
        text_length: usize,
        hrp: *mut u8,
        hrp_room: usize,
        hrp_length: *mut usize,
        version: *mut u32,
        key: *mut u8,
        program: *mut u8,
        program_room: usize,
        program_length: *mut usize,
    ) -> u32;
    pub fn bech32_liquid_nearest(
        text: *const u8,
        text_length: usize,
        erasures: *const usize,
        erasures_length: usize,
        errors: usize,
        memory: *mut Memory,
        texts: *mut u8,
        texts_room: usize,
        count: *mut usize,
    ) -> u32;
    pub fn bech32_descriptor_checksum(
        text: *const u8,
        text_length: usize,
        checksum: *mut u8,
        checksum_room: usize,
        checksum_length: *mut usize,
        place: *mut usize,
    ) -> u32;
    pub fn bech32_descriptor_check(text: *const u8, text_length: usize, place: *mut usize) -> u32;
    pub fn bech32_descriptor_mend(
        text: *const u8,
        text_length: usize,
        changed: usize,
        memory: *mut Memory,
        kinds: *mut u8,
        kinds_room: usize,
        places: *mut usize,
        places_room: usize,
        texts: *mut u8,
        texts_room: usize,
        count: *mut usize,
    ) -> u32;
    pub fn bech32_descriptor_mend_two(
        text: *const u8,
        text_length: usize,
        memory: *mut Memory,
        places: *mut usize,
        places_room: usize,
        texts: *mut u8,
        texts_room: usize,
        count: *mut usize,
    ) -> u32;
    pub fn bech32_suggest(
        text: *const u8,
        text_length: usize,
        hrp: *const u8,
        hrp_length: usize,
        memory: *mut Memory,
        kinds: *mut u8,
        kinds_room: usize,
        places: *mut usize,
        places_room: usize,
        texts: *mut u8,
        texts_room: usize,
        count: *mut usize,
    ) -> u32;
    pub fn bech32_check_many(
        checksum: u32,
        texts: *const Column,
        first: usize,
        numbers: *mut u8,
        count: usize,
    ) -> u32;
    pub fn bech32_segwit_decode_many(
        texts: *const Column,
        first: usize,
        hrp: *const u8,
        hrp_length: usize,
        numbers: *mut u8,
        count: usize,
        versions: *mut u8,
        versions_room: usize,
        hrp_lengths: *mut u8,
        hrp_lengths_room: usize,
        program_offsets: *mut i32,
        program_offsets_room: usize,
        programs: *mut u8,
        programs_room: usize,
        done: *mut usize,
    ) -> u32;
    pub fn bech32_segwit_encode_many(
        hrp: *const u8,
        hrp_length: usize,
        versions: *const u8,
        versions_length: usize,
        programs: *const Column,
        first: usize,
        numbers: *mut u8,
        count: usize,
        text_offsets: *mut i32,
        text_offsets_room: usize,
        texts: *mut u8,
        texts_room: usize,
        done: *mut usize,
    ) -> u32;
    pub fn bech32_validity_of(
        numbers: *const u8,
        count: usize,
        validity: *mut u8,
        validity_room: usize,
        accepted: *mut usize,
    ) -> u32;
    pub fn codex32_message(
        number: u32,
        message: *mut u8,
        message_room: usize,
        message_length: *mut usize,
    ) -> u32;
    pub fn codex32_version() -> u32;
    pub fn codex32_parse(
        text: *const u8,
        text_length: usize,
        threshold: *mut u32,
        share_index: *mut u32,
        payload_length: *mut usize,
    ) -> u32;
    pub fn codex32_share(
        text: *const u8,
        text_length: usize,
        threshold: *mut u32,
        identifier: *mut u8,
        share_index: *mut u32,
        bytes: *mut u8,
        bytes_room: usize,
        bytes_length: *mut usize,
    ) -> u32;
    pub fn codex32_encode(
        threshold: u32,
        identifier: *const u8,
        identifier_length: usize,
        share_index: u32,
        bytes: *const u8,
        bytes_length: usize,
        text: *mut u8,
        text_room: usize,
        text_length: *mut usize,
    ) -> u32;
    pub fn codex32_encode_payload(
        threshold: u32,
        identifier: *const u8,
        identifier_length: usize,
        share_index: u32,
        payload: *const u8,
        payload_length: usize,
        text: *mut u8,
        text_room: usize,
        text_length: *mut usize,
    ) -> u32;
    pub fn codex32_derive(
        share_index: u32,
        texts: *const u8,
        texts_length: usize,
        lengths: *const usize,
        count: usize,
        text: *mut u8,
        text_room: usize,
        text_length: *mut usize,
    ) -> u32;
    pub fn codex32_split(
        threshold: u32,
        identifier: *const u8,
        identifier_length: usize,
        secret: *const u8,
        secret_length: usize,
        random: *const u8,
        random_length: usize,
        count: usize,
        texts: *mut u8,
        texts_room: usize,
        text_length: *mut usize,
    ) -> u32;
    pub fn codex32_recover(
        texts: *const u8,
        texts_length: usize,
        lengths: *const usize,
        count: usize,
        bytes: *mut u8,
        bytes_room: usize,
        bytes_length: *mut usize,
    ) -> u32;
    pub fn codex32_propose(
        text: *const u8,
        text_length: usize,
        memory: *mut Memory,
        proposed: *mut u8,
        proposed_room: usize,
        proposed_length: *mut usize,
    ) -> u32;
    pub fn codex32_propose_long(
        text: *const u8,
        text_length: usize,
        memory: *mut Memory,
        proposed: *mut u8,
        proposed_room: usize,
        proposed_length: *mut usize,
    ) -> u32;
}
