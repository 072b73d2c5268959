"""Segwit addresses (BIP-173, BIP-350)."""

import ctypes
from typing import List, NamedTuple, Optional, Tuple

from . import _declared, _library
from ._library import Buffer, Lent, Octets, given, in_case_of, octets, refuse, utf8, whole
from .edits import Edit, EditKind
from .texts import Change

# A version is above 31.
_NO_ELEMENT = _declared.BECH32_BAD_NUMBER

# The address is one of another network.
_OTHER_HRP = _declared.BECH32_OTHER_HRP


class Address(NamedTuple):
    """The parts of a segwit address."""

    hrp: str
    """Its human-readable part, in the case of the text: compare it with that of your network."""

    version: int
    """Its witness version, from 0 to 16."""

    program: bytes
    """Its witness program, of 2 to 40 bytes."""


def encode(hrp: str, version: int, program: Octets) -> str:
    """Encodes the address of a witness version and a program, in lower case.

    Raises the first that applies of the refusals that `bech32_proved.errors` lists for this function.
    """
    witness_version = whole(version, "version")
    # The library takes a number of 32 bits.
    if not 0 <= witness_version < 2**32:
        refuse(_NO_ELEMENT)
    text, held = Buffer(_library.MAX_ADDRESS), bytes(octets(program, "program"))
    number = _library.segwit_encode(
        *given(utf8(hrp, "hrp")), witness_version, *given(held), *text.out
    )
    if number != 0:
        refuse(number, hrp)
    return text.text()


def decode(text: str, hrp: Optional[str] = None) -> Address:
    """Decodes an address of the network whose human-readable part is `hrp`, in either case. If that is None, it accepts any
    human-readable part: compare it with that of your network.

        >>> decode("BC1QW508D6QEJXTDG4Y5R3ZARVARY0C5XW7KV8F3T4", "bc").version
        0
        >>> decode("BC1QW508D6QEJXTDG4Y5R3ZARVARY0C5XW7KV8F3T4", hrp="tb")
        Traceback (most recent call last):
        ...
        bech32_proved.errors.OtherHrp: the address has another human-readable part than is wanted

    Raises, of `hrp`, `HrpEmpty`, `HrpTooLong`, `HrpNotAscii`, `HrpInvalid` or `HrpMixedCase`; then the first that applies of
    the refusals that `bech32_proved.errors` lists for this function; and last `OtherHrp`.
    """
    data, wanted = utf8(text), None if hrp is None else part_of(hrp).lower()
    part, program = Buffer(_library.MAX_HRP), Buffer(_library.MAX_PROGRAM)
    version = ctypes.c_uint32()
    number = _library.segwit_decode(
        *given(data), *part.out, ctypes.byref(version), *program.out
    )
    if number != 0:
        refuse(number, text, data)
    address = Address(part.text(), version.value, program.bytes())
    if wanted is not None and address.hrp.lower().encode("ascii") != wanted:
        refuse(_OTHER_HRP, text)
    return address


class Suggestion(NamedTuple):
    """An address that may have been meant, and what is changed to make it. Printed, it is what is changed, to be shown to
    people, who count from 1 as these words do."""

    text: str
    """The address, in the case of the text that was typed: in upper case if its letters are, else in lower case."""

    changes: Tuple[Change, ...]
    """The characters that are replaced, in rising order, each `?` with them. There are none where the text is an address as
    it was typed, or where `edit` makes it."""

    edit: Optional[Edit]
    """The one edit that makes the address, where no characters are replaced."""

    def __str__(self) -> str:
        return "; ".join(str(it) for it in self.changes) if self.edit is None else str(self.edit)


def suggest(text: str, hrp: str) -> List[Suggestion]:
    """Did you mean? Lists the addresses of a network, that of a human-readable part, that someone may have meant who typed
    a text. Each `?` in it is a character that cannot be read. Each is of a form in use (version 0 with 20 or 32 bytes,
    version 1 with 32), but for the text itself, which is listed if it is an address of the network.

        >>> [found] = suggest("bc1q?508d6qejxtdg4y5r3zarvaty0c5xw7kv8f3t4", "bc")
        >>> found.text
        'bc1qw508d6qejxtdg4y5r3zarvary0c5xw7kv8f3t4'
        >>> print(found)
        character 5: ? becomes w; character 28: t becomes r

    Tried are the texts with up to two other characters, as many as are unlikely to be right by chance beside what cannot be
    read, and if there is no `?`, those that one edit makes: a character left out, one put in, or two neighbours swapped. Of
    texts that are no mistyped addresses, at most one in 100 gets an answer. It is a guess: show it, and let people compare
    it with the source before it is paid to.

    Raises the first of, of `hrp`: `HrpEmpty`, `HrpTooLong`, `HrpNotAscii`, `HrpInvalid`, `HrpMixedCase`; and of `text`:
    `InvalidCharacter`, `MixedCase`, `NoSeparator`, and the same.
    """
    data, part = utf8(text), part_of(hrp)
    most, lent = _library.SUGGESTIONS, Lent(_library.SUGGEST_MEMORY)
    kinds, places = ctypes.create_string_buffer(most), (ctypes.c_size_t * most)()
    texts, count = ctypes.create_string_buffer(most * _library.MAX_ADDRESS), ctypes.c_size_t()
    outs = (kinds, most, places, most, texts, len(texts), ctypes.byref(count))
    number = _library.suggest(*given(data), *given(part), ctypes.byref(lent.memory), *outs)
    if number != 0:
        refuse(number, text, _as_read(text, data))
    found, end = [], 0
    for kind, place in zip(kinds.raw[: count.value], places):
        start, end = end, end + len(text) + _LONGER.get(kind, 0)
        found.append(_suggestion(text, kind, place, texts.raw[start:end].decode("ascii")))
    return found


def part_of(hrp: str) -> bytes:
    """The bytes of a human-readable part. Raises what `suggest` does of `hrp`."""
    part = utf8(hrp, "hrp")
    number = _library.encode(1, *given(part), *given(b""), *Buffer(_library.MAX_TEXT).out)
    if number != 0:
        refuse(number, hrp)
    return part


# By how many characters they make a text longer.
_LONGER = {EditKind.LEFT_OUT.value: -1, EditKind.PUT_IN.value: 1}


def _suggestion(text: str, kind: int, place: int, made: str) -> Suggestion:
    old, new = in_case_of(text, text.lower()), in_case_of(text, made)
    if kind in [it.value for it in EditKind]:
        it, size = (new if kind == EditKind.PUT_IN.value else old), 2 if kind == EditKind.SWAPPED.value else 1
        return Suggestion(new, (), Edit(EditKind(kind), place, it[place : place + size]))
    pairs = enumerate(zip(old, new))
    return Suggestion(new, tuple(Change(at, *pair) for at, pair in pairs if pair[0] != pair[1]), None)


def _as_read(text: str, data: bytes) -> bytes:
    # Behind the last `1`, each character that cannot be read is looked at as `0`, which has no case.
    front, one, behind = text.rpartition("1")
    return (front + one + behind.replace("?", "0")).encode("utf-8") if one else data
