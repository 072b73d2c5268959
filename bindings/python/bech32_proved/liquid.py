"""Confidential addresses of Liquid: a witness version, a blinding key and a program, by the checksum Blech32.

    >>> text = "lq1qqf8er278e6nyvuwtgf39e6ewvdcnjupn9a86rzpx655y5lhkt0walu3djf9cklkxd3ryld97hu8h3xepw7sh2rlu7q45dcew5"
    >>> address = decode(text)
    >>> address.hrp, address.version, len(address.key), len(address.program)
    ('lq', 0, 33, 20)
    >>> encode(*address) == text
    True

Only version 0 is read and written: the addresses of the others have another checksum, Blech32m. That a key is a point of
the curve is not tested.
"""

import ctypes
from typing import Iterable, List, NamedTuple, Optional

from . import _declared, _library
from ._library import Buffer, Octets, given, octets, refuse, utf8, whole
from .texts import Correction, _known, listed_near

# There is no correction, and a version is above 31.
_NO_CORRECTION = _declared.BECH32_NO_CORRECTION
_NO_ELEMENT = _declared.BECH32_BAD_NUMBER

# A text is mended if twice the number of wrong characters, plus the number of those known to be wrong, is at most this.
_BOUND = 6

# What twice the errors, with the number of characters that are known to be wrong, may be at most.
_MOST_SOUGHT = 7


class Address(NamedTuple):
    """The parts of a confidential address."""

    hrp: str
    """Its human-readable part, in the case of the text: compare it with that of your network (`lq`)."""

    version: int
    """Its witness version, which is 0."""

    key: bytes
    """Its blinding key, of 33 bytes."""

    program: bytes
    """Its witness program, of 20 or 32 bytes."""


def encode(hrp: str, version: int, key: Octets, program: Octets) -> str:
    """Encodes the confidential address of a witness version, a blinding key of 33 bytes and a program, in lower case.

    Of a key of another length, `ValueError`.

    Raises the first that applies of the refusals that `bech32_proved.errors` lists for this function.
    """
    witness_version, blinding_key = whole(version, "version"), bytes(octets(key, "key"))
    if len(blinding_key) != _library.LIQUID_KEY_LENGTH:
        raise ValueError(f"key must have {_library.LIQUID_KEY_LENGTH} bytes, not {len(blinding_key)}")
    # The library takes a number of 32 bits.
    if not 0 <= witness_version < 2**32:
        refuse(_NO_ELEMENT)
    text, held = Buffer(_library.MAX_LIQUID_TEXT), bytes(octets(program, "program"))
    number = _library.liquid_encode(
        *given(utf8(hrp, "hrp")), witness_version, blinding_key, *given(held), *text.out
    )
    if number != 0:
        refuse(number, hrp)
    return text.text()


def decode(text: str) -> Address:
    """Decodes a confidential address. It accepts any human-readable part: compare it with that of your network.

    Raises the first that applies of the refusals that `bech32_proved.errors` lists for this function.
    """
    data = utf8(text)
    hrp, program = Buffer(_library.MAX_HRP), Buffer(_library.MAX_LIQUID_PROGRAM)
    key, version = ctypes.create_string_buffer(_library.LIQUID_KEY_LENGTH), ctypes.c_uint32()
    number = _library.liquid_decode(*given(data), *hrp.out, ctypes.byref(version), key, *program.out)
    if number != 0:
        refuse(number, text, data)
    return Address(hrp.text(), version.value, key.raw, program.bytes())


def correct(text: str, places: Iterable[int] = (), *, erasures: Iterable[int] = ()) -> Correction:
    """Mends a mistyped text by Blech32, in its case. `?`, `places` and `erasures` are as in `bech32_proved.correct`.

    It finds up to three wrong characters, or up to six that are known to be wrong, or fewer wrong ones beside these: twice
    their number, with that of those, is at most six. There is at most one such correction. It may not be what was meant:
    show it, and ask. It need not be an address: decode it.

        >>> text = "lq1qqf8qr2q8e6nyvuwtgf39e6ewvdcnjupn9a86rzpx655y5lhkt0walu3djf9cklkxd3ryld97hu8h3xepw7sh2rlu7q45dcew5"
        >>> print(*correct(text).changes, sep="; ")
        character 8: q becomes e; character 11: q becomes 7

    Raises `NoCorrection` if there is none, and what `nearest` raises.
    """
    typed = _known(text, places, erasures)
    known = len(set(typed.known))
    # With more than six there is none, but the faults of the text are told first.
    found = listed_near(_library.liquid_nearest, (), typed, _errors_beside(known))
    if known > _BOUND or not found:
        refuse(_NO_CORRECTION, text)
    return found[0]


def nearest(
    text: str, places: Iterable[int] = (), errors: Optional[int] = None, *, erasures: Iterable[int] = ()
) -> List[Correction]:
    """Lists the texts near to a mistyped one, in its case: all that Blech32 accepts and that differ from it in at most
    `errors` characters, 0 to 3, behind the separator and beside those that are known to be wrong, of which there may be
    six. Twice `errors`, with their number, may be at most seven. Where it is at most six, there is one text at most: so
    many are looked for where `errors` is left out, 3 beside none that are known to be wrong, 2 beside one or two, 1 beside
    three or four, and none beside five or six.

    Raises what `bech32_proved.nearest` raises.
    """
    typed = _known(text, places, erasures)
    known = len(set(typed.known))
    wrong = _errors_beside(known) if errors is None else whole(errors, "errors")
    if wrong not in range(4):
        raise ValueError(f"errors must be 0, 1, 2 or 3, not {wrong}")
    if is_too_much(known, wrong):
        most = (_MOST_SOUGHT - known) // 2
        raise ValueError(f"errors must be at most {most} beside {known} that are known to be wrong, not {wrong}")
    return listed_near(_library.liquid_nearest, (), typed, wrong)


def is_too_much(known: int, wrong: int) -> bool:
    """Whether so many errors are not looked for beside this many characters that are known to be wrong."""
    return known <= _BOUND and 2 * wrong + known > _MOST_SOUGHT


def _errors_beside(known: int) -> int:
    # How many errors one correction has beside this many characters that are known to be wrong.
    return max(_BOUND - known, 0) // 2
