"""The functions, structures and constants of the headers.

Made by tools/make (tools/make.d/to_packages) from include/bech32.h and include/codex32.h; do not edit.
"""

import ctypes

_BYTES, _SIZE, _NUMBER, _POINTER = ctypes.c_char_p, ctypes.c_size_t, ctypes.c_uint32, ctypes.POINTER
_SIZES, _NUMBERS = _POINTER(_SIZE), _POINTER(_NUMBER)

BECH32_VERSION = "0.1.0"
BECH32_VERSION_NUMBER = 100
BECH32_BECH32 = 1
BECH32_BECH32M = 2
BECH32_LONG_BECH32 = 3
BECH32_LONG_BECH32M = 4
BECH32_TARGET = 1
BECH32M_TARGET = 734539939
BECH32_ALPHABET = "qpzry9x8gf2tvdw0s3jn54khce6mua7l"
BECH32_MAX_TEXT = 1023
BECH32_MAX_HRP = 83
BECH32_MAX_BYTES = 634
BECH32_MAX_ELEMENTS = 1015
BECH32_MAX_LONG_TEXT = 7089
BECH32_MAX_LONG_BYTES = 4425
BECH32_MAX_LONG_ELEMENTS = 7081
BECH32_MAX_SEGWIT_TEXT = 90
BECH32_MAX_SEGWIT_PROGRAM = 40
BECH32_MAX_LISTED = 3
BECH32_MAX_MESSAGE = 100
BECH32_MAX_LIQUID_TEXT = 201
BECH32_MAX_LIQUID_PROGRAM = 32
BECH32_LIQUID_KEY_LENGTH = 33
BECH32_MAX_ERRORS = 2
BECH32_UNCHANGED = 0
BECH32_SWAPPED = 1
BECH32_LEFT_OUT = 2
BECH32_PUT_IN = 3
BECH32_REPLACED = 4
BECH32_NEAR_EDITS = 8
BECH32_CHANGED = 4
BECH32_DESCRIPTOR_CHECKSUM = 8
BECH32_MAX_DESCRIPTOR = 7500
BECH32_MAX_DESCRIPTOR_TWO = 1400
BECH32_OK = 0
BECH32_NULL_ROW = 1
BECH32_NOT_UTF8 = 2
BECH32_BAD_NUMBER = 4
BECH32_HRP_EMPTY = 11
BECH32_HRP_TOO_LONG = 12
BECH32_HRP_NOT_ASCII = 13
BECH32_HRP_INVALID = 14
BECH32_HRP_MIXED_CASE = 15
BECH32_INVALID_CHARACTER = 21
BECH32_MIXED_CASE = 22
BECH32_NO_SEPARATOR = 23
BECH32_TEXT_TOO_LONG = 31
BECH32_NO_CHECKSUM = 32
BECH32_WRONG_CHECKSUM = 33
BECH32_NO_CORRECTION = 34
BECH32_ADDRESS_TOO_LONG = 41
BECH32_NO_DATA = 42
BECH32_BAD_VERSION = 43
BECH32_PADDING_TOO_LONG = 44
BECH32_PADDING_NOT_ZERO = 45
BECH32_PROGRAM_TOO_SHORT = 46
BECH32_PROGRAM_TOO_LONG = 47
BECH32_PROGRAM_NOT_V0 = 48
BECH32_OTHER_HRP = 49
BECH32_ENCODED_TOO_LONG = 51
BECH32_ENCODED_BAD_VERSION = 52
BECH32_ENCODED_ADDRESS_TOO_LONG = 53
BECH32_BAD_ELEMENT = 67
BECH32_UNSUPPORTED_VERSION = 70
BECH32_NO_BLINDING_KEY = 79
BECH32_NOT_IN_DESCRIPTOR = 80
BECH32_NO_DESCRIPTOR_CHECKSUM = 88
BECH32_DESCRIPTOR_TOO_LONG = 89
BECH32_NO_MEMORY = 91
BECH32_NO_ROOM = 92
BECH32_MAX_LIQUID_ERRORS = 3
BECH32_SUGGEST_MEMORY = 196608
BECH32_SUGGESTIONS = 48
BECH32_OFFSETS_32 = 1
BECH32_OFFSETS_64 = 2
BECH32_FIXED = 3
BECH32_FIXED_ZERO = 4
CODEX32_VERSION = "0.1.0"
CODEX32_VERSION_NUMBER = 100
CODEX32_MIN_TEXT = 48
CODEX32_MAX_TEXT = 93
CODEX32_MIN_LONG_TEXT = 125
CODEX32_MAX_LONG_TEXT = 127
CODEX32_TEXT_SIZE = 127
CODEX32_BYTES_SIZE = 64
CODEX32_MAX_MESSAGE = 100
CODEX32_SECRET_INDEX = 115
CODEX32_MAX_SHARES = 32
CODEX32_MAX_SPLIT = 31
CODEX32_THRESHOLD_AT = 3
CODEX32_IDENTIFIER_AT = 4
CODEX32_IDENTIFIER_LENGTH = 4
CODEX32_SHARE_INDEX_AT = 8
CODEX32_PAYLOAD_AT = 9
CODEX32_OK = 0
CODEX32_NOT_UTF8 = 2
CODEX32_BAD_LENGTHS = 4
CODEX32_HRP_EMPTY = 11
CODEX32_HRP_TOO_LONG = 12
CODEX32_HRP_NOT_ASCII = 13
CODEX32_HRP_INVALID = 14
CODEX32_HRP_MIXED_CASE = 15
CODEX32_INVALID_CHARACTER = 21
CODEX32_MIXED_CASE = 22
CODEX32_NO_SEPARATOR = 23
CODEX32_WRONG_CHECKSUM = 33
CODEX32_NO_NEAREST = 34
CODEX32_BAD_SIZE = 56
CODEX32_BAD_RANDOM = 66
CODEX32_EQUAL_RANDOM = 68
CODEX32_TOO_FEW_SHARES = 74
CODEX32_OTHER_SET = 75
CODEX32_INDEX_TWICE = 76
CODEX32_CONTRADICTION = 77
CODEX32_BAD_COUNT = 78
CODEX32_NOT_MS = 81
CODEX32_BAD_LENGTH = 82
CODEX32_BAD_THRESHOLD = 83
CODEX32_BAD_SHARE_INDEX = 84
CODEX32_BAD_IDENTIFIER = 85
CODEX32_NO_SHARE_INDEX = 86
CODEX32_BITS_LEFT_OVER = 87
CODEX32_NO_MEMORY = 91
CODEX32_NO_ROOM = 92
CODEX32_STACK_SIZE = 16384


def BECH32_NEAREST_FEW_TEXTS(text_length: int) -> int:
    return 20 + (text_length if text_length > 90 else 0)


def BECH32_NEAREST_FEW_MEMORY(text_length: int) -> int:
    return 24576 + 288 * text_length + BECH32_NEAREST_FEW_TEXTS(text_length) * (text_length + 720)


def BECH32_NEAREST_PLAIN_TEXTS(text_length: int) -> int:
    return 16 if text_length > 91 else 1


def BECH32_NEAREST_PLAIN_MEMORY(text_length: int) -> int:
    return 16384 + 32 * text_length


def BECH32_NEAR_EDITS_MEMORY(text_length: int) -> int:
    return 4096 + 16 * text_length


def BECH32_LIQUID_NEAREST_MEMORY(text_length: int) -> int:
    return 24576 + 1024 * text_length


def BECH32_DESCRIPTOR_MEND_MEMORY(text_length: int) -> int:
    return 16384 + 400 * text_length


def BECH32_DESCRIPTOR_TWO_MEMORY(text_length: int) -> int:
    return 65536 + 4608 * text_length


def CODEX32_MEMORY(text_length: int) -> int:
    return 16384 + 8 * text_length


class Memory(ctypes.Structure):
    _fields_ = [
        ("start", ctypes.c_void_p),
        ("size", _SIZE),
    ]


class Column(ctypes.Structure):
    _fields_ = [
        ("bytes", ctypes.c_void_p),
        ("bytes_length", _SIZE),
        ("offsets", ctypes.c_void_p),
        ("offsets_length", _SIZE),
        ("validity", ctypes.c_void_p),
        ("validity_length", _SIZE),
        ("rows", _SIZE),
        ("width", _SIZE),
        ("layout", _NUMBER),
    ]


# The types of each function's arguments.
FUNCTIONS = {
    "bech32_message": (_NUMBER, _BYTES, _SIZE, _SIZES),
    "bech32_version": (),
    "bech32_encode": (_NUMBER, _BYTES, _SIZE, _BYTES, _SIZE, _BYTES, _SIZE, _SIZES),
    "bech32_decode": (_BYTES, _SIZE, _BYTES, _SIZE, _SIZES, _BYTES, _SIZE, _SIZES),
    "bech32_decode_strict": (_NUMBER, _BYTES, _SIZE, _BYTES, _SIZE, _SIZES, _BYTES, _SIZE, _SIZES),
    "bech32_decode_elements": (
        _NUMBER,
        _BYTES,
        _SIZE,
        _BYTES,
        _SIZE,
        _SIZES,
        _BYTES,
        _SIZE,
        _SIZES,
    ),
    "bech32_encode_elements": (
        _NUMBER,
        _BYTES,
        _SIZE,
        _BYTES,
        _SIZE,
        _SIZES,
        _BYTES,
        _SIZE,
        _SIZES,
    ),
    "bech32_check": (_NUMBER, _BYTES, _SIZE, _SIZES, _SIZES),
    "bech32_fault": (_NUMBER, _BYTES, _SIZE, _SIZES),
    "bech32_segwit_encode": (_BYTES, _SIZE, _NUMBER, _BYTES, _SIZE, _BYTES, _SIZE, _SIZES),
    "bech32_segwit_decode": (_BYTES, _SIZE, _BYTES, _SIZE, _SIZES, _NUMBERS, _BYTES, _SIZE, _SIZES),
    "bech32_residue": (_NUMBER, _BYTES, _SIZE, _NUMBERS),
    "bech32_correct": (
        _NUMBER,
        _BYTES,
        _SIZE,
        _SIZES,
        _SIZE,
        _SIZES,
        _SIZE,
        _BYTES,
        _SIZE,
        _SIZES,
        _BYTES,
        _SIZE,
        _SIZES,
    ),
    "bech32_nearest": (
        _NUMBER,
        _BYTES,
        _SIZE,
        _SIZES,
        _SIZE,
        _SIZE,
        _POINTER(Memory),
        _BYTES,
        _SIZE,
        _SIZES,
    ),
    "bech32_near_edits": (
        _NUMBER,
        _BYTES,
        _SIZE,
        _POINTER(Memory),
        _BYTES,
        _SIZE,
        _SIZES,
        _SIZE,
        _BYTES,
        _SIZE,
        _SIZES,
    ),
    "bech32_liquid_encode": (_BYTES, _SIZE, _NUMBER, _BYTES, _BYTES, _SIZE, _BYTES, _SIZE, _SIZES),
    "bech32_liquid_decode": (
        _BYTES,
        _SIZE,
        _BYTES,
        _SIZE,
        _SIZES,
        _NUMBERS,
        _BYTES,
        _BYTES,
        _SIZE,
        _SIZES,
    ),
    "bech32_liquid_nearest": (
        _BYTES,
        _SIZE,
        _SIZES,
        _SIZE,
        _SIZE,
        _POINTER(Memory),
        _BYTES,
        _SIZE,
        _SIZES,
    ),
    "bech32_descriptor_checksum": (_BYTES, _SIZE, _BYTES, _SIZE, _SIZES, _SIZES),
    "bech32_descriptor_check": (_BYTES, _SIZE, _SIZES),
    "bech32_descriptor_mend": (
        _BYTES,
        _SIZE,
        _SIZE,
        _POINTER(Memory),
        _BYTES,
        _SIZE,
        _SIZES,
        _SIZE,
        _BYTES,
        _SIZE,
        _SIZES,
    ),
    "bech32_descriptor_mend_two": (
        _BYTES,
        _SIZE,
        _POINTER(Memory),
        _SIZES,
        _SIZE,
        _BYTES,
        _SIZE,
        _SIZES,
    ),
    "bech32_suggest": (
        _BYTES,
        _SIZE,
        _BYTES,
        _SIZE,
        _POINTER(Memory),
        _BYTES,
        _SIZE,
        _SIZES,
        _SIZE,
        _BYTES,
        _SIZE,
        _SIZES,
    ),
    "bech32_check_many": (_NUMBER, _POINTER(Column), _SIZE, _BYTES, _SIZE),
    "bech32_segwit_decode_many": (
        _POINTER(Column),
        _SIZE,
        _BYTES,
        _SIZE,
        _BYTES,
        _SIZE,
        _BYTES,
        _SIZE,
        _BYTES,
        _SIZE,
        _POINTER(ctypes.c_int32),
        _SIZE,
        _BYTES,
        _SIZE,
        _SIZES,
    ),
    "bech32_segwit_encode_many": (
        _BYTES,
        _SIZE,
        _BYTES,
        _SIZE,
        _POINTER(Column),
        _SIZE,
        _BYTES,
        _SIZE,
        _POINTER(ctypes.c_int32),
        _SIZE,
        _BYTES,
        _SIZE,
        _SIZES,
    ),
    "bech32_validity_of": (_BYTES, _SIZE, _BYTES, _SIZE, _SIZES),
    "codex32_message": (_NUMBER, _BYTES, _SIZE, _SIZES),
    "codex32_version": (),
    "codex32_parse": (_BYTES, _SIZE, _NUMBERS, _NUMBERS, _SIZES),
    "codex32_share": (_BYTES, _SIZE, _NUMBERS, _BYTES, _NUMBERS, _BYTES, _SIZE, _SIZES),
    "codex32_encode": (_NUMBER, _BYTES, _SIZE, _NUMBER, _BYTES, _SIZE, _BYTES, _SIZE, _SIZES),
    "codex32_encode_payload": (
        _NUMBER,
        _BYTES,
        _SIZE,
        _NUMBER,
        _BYTES,
        _SIZE,
        _BYTES,
        _SIZE,
        _SIZES,
    ),
    "codex32_derive": (_NUMBER, _BYTES, _SIZE, _SIZES, _SIZE, _BYTES, _SIZE, _SIZES),
    "codex32_split": (
        _NUMBER,
        _BYTES,
        _SIZE,
        _BYTES,
        _SIZE,
        _BYTES,
        _SIZE,
        _SIZE,
        _BYTES,
        _SIZE,
        _SIZES,
    ),
    "codex32_recover": (_BYTES, _SIZE, _SIZES, _SIZE, _BYTES, _SIZE, _SIZES),
    "codex32_propose": (_BYTES, _SIZE, _POINTER(Memory), _BYTES, _SIZE, _SIZES),
    "codex32_propose_long": (_BYTES, _SIZE, _POINTER(Memory), _BYTES, _SIZE, _SIZES),
}
