"""Bech32 (BIP-173), Bech32m (BIP-350), segwit addresses and codex32 (BIP-93), read and written by the
static libraries bech32_c and codex32_c, each function of which is proved to do what its contract says of
every input.

    >>> from bech32_proved import Checksum, correct, decode, encode, segwit
    >>> encode(Checksum.BECH32M, "abc", bytes([0xab] * 5))
    'abc14w46h2ata5yucn'
    >>> decode("abc14w46h2ata5yucn").data.hex()
    'ababababab'
    >>> segwit.decode("BC1QW508D6QEJXTDG4Y5R3ZARVARY0C5XW7KV8F3T4", "bc").version
    0
    >>> correct(Checksum.BECH32, "a12uel5q").text
    'a12uel5l'

`python -m bech32_proved` replies to lines, as the programs b32, c32 and mend do.

A text that is refused is an exception of its own class (`bech32_proved.errors`), with the place of the
character at fault where there is one. What is proved is the library; this package is tested.
"""

from . import codex32, descriptor, errors, liquid, segwit
from .edits import Edit, EditKind, NearEdit, near_edits
from .errors import Refused
from .texts import (
    ALPHABET,
    Change,
    Checksum,
    Correction,
    Decoded,
    DecodedWithChecksum,
    Elements,
    Parts,
    check,
    convertbits,
    correct,
    decode,
    decode_elements,
    decode_strict,
    decode_with_checksum,
    encode,
    encode_elements,
    nearest,
)

__version__ = "0.1.0"

__all__ = [
    "ALPHABET",
    "Change",
    "Checksum",
    "Correction",
    "Decoded",
    "DecodedWithChecksum",
    "Edit",
    "EditKind",
    "Elements",
    "NearEdit",
    "Parts",
    "Refused",
    "check",
    "codex32",
    "convertbits",
    "correct",
    "decode",
    "decode_elements",
    "decode_strict",
    "decode_with_checksum",
    "descriptor",
    "encode",
    "encode_elements",
    "errors",
    "liquid",
    "near_edits",
    "nearest",
    "segwit",
]
