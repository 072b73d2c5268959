package bech32proved;

/**
 * The constants of the headers.
 *
 * <p>Made by tools/make (tools/make.d/to_packages) from include/bech32.h and include/codex32.h; do not edit.
 */
final class Declared {
    private Declared() {}

    static final String BECH32_VERSION = "0.1.0";
    static final int BECH32_VERSION_NUMBER = 100;
    static final int BECH32_BECH32 = 1;
    static final int BECH32_BECH32M = 2;
    static final int BECH32_LONG_BECH32 = 3;
    static final int BECH32_LONG_BECH32M = 4;
    static final int BECH32_TARGET = 1;
    static final int BECH32M_TARGET = 734539939;
    static final String BECH32_ALPHABET = "qpzry9x8gf2tvdw0s3jn54khce6mua7l";
    static final int BECH32_MAX_TEXT = 1023;
    static final int BECH32_MAX_HRP = 83;
    static final int BECH32_MAX_BYTES = 634;
    static final int BECH32_MAX_ELEMENTS = 1015;
    static final int BECH32_MAX_LONG_TEXT = 7089;
    static final int BECH32_MAX_LONG_BYTES = 4425;
    static final int BECH32_MAX_LONG_ELEMENTS = 7081;
    static final int BECH32_MAX_SEGWIT_TEXT = 90;
    static final int BECH32_MAX_SEGWIT_PROGRAM = 40;
    static final int BECH32_MAX_LISTED = 3;
    static final int BECH32_MAX_MESSAGE = 100;
    static final int BECH32_MAX_LIQUID_TEXT = 201;
    static final int BECH32_MAX_LIQUID_PROGRAM = 32;
    static final int BECH32_LIQUID_KEY_LENGTH = 33;
    static final int BECH32_MAX_ERRORS = 2;
    static final int BECH32_UNCHANGED = 0;
    static final int BECH32_SWAPPED = 1;
    static final int BECH32_LEFT_OUT = 2;
    static final int BECH32_PUT_IN = 3;
    static final int BECH32_REPLACED = 4;
    static final int BECH32_NEAR_EDITS = 8;
    static final int BECH32_CHANGED = 4;
    static final int BECH32_DESCRIPTOR_CHECKSUM = 8;
    static final int BECH32_MAX_DESCRIPTOR = 7500;
    static final int BECH32_MAX_DESCRIPTOR_TWO = 1400;
    static final int BECH32_OK = 0;
    static final int BECH32_NULL_ROW = 1;
    static final int BECH32_NOT_UTF8 = 2;
    static final int BECH32_BAD_NUMBER = 4;
    static final int BECH32_HRP_EMPTY = 11;
    static final int BECH32_HRP_TOO_LONG = 12;
    static final int BECH32_HRP_NOT_ASCII = 13;
    static final int BECH32_HRP_INVALID = 14;
    static final int BECH32_HRP_MIXED_CASE = 15;
    static final int BECH32_INVALID_CHARACTER = 21;
    static final int BECH32_MIXED_CASE = 22;
    static final int BECH32_NO_SEPARATOR = 23;
    static final int BECH32_TEXT_TOO_LONG = 31;
    static final int BECH32_NO_CHECKSUM = 32;
    static final int BECH32_WRONG_CHECKSUM = 33;
    static final int BECH32_NO_CORRECTION = 34;
    static final int BECH32_ADDRESS_TOO_LONG = 41;
    static final int BECH32_NO_DATA = 42;
    static final int BECH32_BAD_VERSION = 43;
    static final int BECH32_PADDING_TOO_LONG = 44;
    static final int BECH32_PADDING_NOT_ZERO = 45;
    static final int BECH32_PROGRAM_TOO_SHORT = 46;
    static final int BECH32_PROGRAM_TOO_LONG = 47;
    static final int BECH32_PROGRAM_NOT_V0 = 48;
    static final int BECH32_OTHER_HRP = 49;
    static final int BECH32_ENCODED_TOO_LONG = 51;
    static final int BECH32_ENCODED_BAD_VERSION = 52;
    static final int BECH32_ENCODED_ADDRESS_TOO_LONG = 53;
    static final int BECH32_BAD_ELEMENT = 67;
    static final int BECH32_UNSUPPORTED_VERSION = 70;
    static final int BECH32_NO_BLINDING_KEY = 79;
    static final int BECH32_NOT_IN_DESCRIPTOR = 80;
    static final int BECH32_NO_DESCRIPTOR_CHECKSUM = 88;
    static final int BECH32_DESCRIPTOR_TOO_LONG = 89;
    static final int BECH32_NO_MEMORY = 91;
    static final int BECH32_NO_ROOM = 92;

    static int BECH32_NEAREST_FEW_TEXTS(int text_length) {
        return 20 + (text_length > 90 ? text_length : 0);
    }


    static int BECH32_NEAREST_FEW_MEMORY(int text_length) {
        return 24576 + 288 * text_length + BECH32_NEAREST_FEW_TEXTS(text_length) * (text_length + 720);
    }


    static int BECH32_NEAREST_PLAIN_TEXTS(int text_length) {
        return text_length > 91 ? 16 : 1;
    }


    static int BECH32_NEAREST_PLAIN_MEMORY(int text_length) {
        return 16384 + 32 * text_length;
    }


    static int BECH32_NEAR_EDITS_MEMORY(int text_length) {
        return 4096 + 16 * text_length;
    }

    static final int BECH32_MAX_LIQUID_ERRORS = 3;

    static int BECH32_LIQUID_NEAREST_MEMORY(int text_length) {
        return 24576 + 1024 * text_length;
    }


    static int BECH32_DESCRIPTOR_MEND_MEMORY(int text_length) {
        return 16384 + 400 * text_length;
    }


    static int BECH32_DESCRIPTOR_TWO_MEMORY(int text_length) {
        return 65536 + 4608 * text_length;
    }

    static final int BECH32_SUGGEST_MEMORY = 196608;
    static final int BECH32_SUGGESTIONS = 48;
    static final int BECH32_OFFSETS_32 = 1;
    static final int BECH32_OFFSETS_64 = 2;
    static final int BECH32_FIXED = 3;
    static final int BECH32_FIXED_ZERO = 4;
    static final String CODEX32_VERSION = "0.1.0";
    static final int CODEX32_VERSION_NUMBER = 100;
    static final int CODEX32_MIN_TEXT = 48;
    static final int CODEX32_MAX_TEXT = 93;
    static final int CODEX32_MIN_LONG_TEXT = 125;
    static final int CODEX32_MAX_LONG_TEXT = 127;
    static final int CODEX32_TEXT_SIZE = 127;
    static final int CODEX32_BYTES_SIZE = 64;
    static final int CODEX32_MAX_MESSAGE = 100;
    static final int CODEX32_SECRET_INDEX = 115;
    static final int CODEX32_MAX_SHARES = 32;
    static final int CODEX32_MAX_SPLIT = 31;
    static final int CODEX32_THRESHOLD_AT = 3;
    static final int CODEX32_IDENTIFIER_AT = 4;
    static final int CODEX32_IDENTIFIER_LENGTH = 4;
    static final int CODEX32_SHARE_INDEX_AT = 8;
    static final int CODEX32_PAYLOAD_AT = 9;
    static final int CODEX32_OK = 0;
    static final int CODEX32_NOT_UTF8 = 2;
    static final int CODEX32_BAD_LENGTHS = 4;
    static final int CODEX32_HRP_EMPTY = 11;
    static final int CODEX32_HRP_TOO_LONG = 12;
    static final int CODEX32_HRP_NOT_ASCII = 13;
    static final int CODEX32_HRP_INVALID = 14;
    static final int CODEX32_HRP_MIXED_CASE = 15;
    static final int CODEX32_INVALID_CHARACTER = 21;
    static final int CODEX32_MIXED_CASE = 22;
    static final int CODEX32_NO_SEPARATOR = 23;
    static final int CODEX32_WRONG_CHECKSUM = 33;
    static final int CODEX32_NO_NEAREST = 34;
    static final int CODEX32_BAD_SIZE = 56;
    static final int CODEX32_BAD_RANDOM = 66;
    static final int CODEX32_EQUAL_RANDOM = 68;
    static final int CODEX32_TOO_FEW_SHARES = 74;
    static final int CODEX32_OTHER_SET = 75;
    static final int CODEX32_INDEX_TWICE = 76;
    static final int CODEX32_CONTRADICTION = 77;
    static final int CODEX32_BAD_COUNT = 78;
    static final int CODEX32_NOT_MS = 81;
    static final int CODEX32_BAD_LENGTH = 82;
    static final int CODEX32_BAD_THRESHOLD = 83;
    static final int CODEX32_BAD_SHARE_INDEX = 84;
    static final int CODEX32_BAD_IDENTIFIER = 85;
    static final int CODEX32_NO_SHARE_INDEX = 86;
    static final int CODEX32_BITS_LEFT_OVER = 87;
    static final int CODEX32_NO_MEMORY = 91;
    static final int CODEX32_NO_ROOM = 92;

    static int CODEX32_MEMORY(int text_length) {
        return 16384 + 8 * text_length;
    }

    static final int CODEX32_STACK_SIZE = 16384;
}
