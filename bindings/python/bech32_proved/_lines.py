"""What the programs b32, c32 and mend reply to a line, by the functions of the package."""

import ctypes
import os
import re
from typing import Callable, Dict, List, NamedTuple, Tuple

from . import _library, codex32, descriptor, liquid, segwit, texts
from ._library import given
from .edits import EditKind, NearEdit, near_edits
from .errors import NoCorrection, NotInDescriptor, Refused
from .texts import ALPHABET, Checksum, Correction, as_typed

LINE_LIMITS = {"b32": 4096, "c32": 16384, "mend": 16384}
"""The bytes that a line of each program has at most."""

# Refusals of the programs; the others are those of the libraries.
_LINE_TOO_LONG = 1
_LINE_NOT_UTF8 = 2
_NO_COMMAND = 3
_BAD_WORD = 4
_BAD_HEX = 5
_OUT_OF_MEMORY = 91

_CHECKSUMS = {"bech32": Checksum.BECH32, "bech32m": Checksum.BECH32M}
_LONG_CHECKSUMS = {"long-bech32": Checksum.LONG_BECH32, "long-bech32m": Checksum.LONG_BECH32M}

# No string has this threshold, which stands for a word that is no threshold.
_NO_THRESHOLD = 1

# The largest location, witness version, number of errors, threshold and number of shares that a word may name.
_MOST_LOCATION, _MOST_VERSION, _MOST_ERRORS, _MOST_THRESHOLD, _MOST_SHARES = _library.MAX_TEXT - 1, 31, 2, 9, 99
_MOST_LIQUID_ERRORS = 3

# Of more near texts than this, as many are listed, the first, and that there are more.
_MOST_TEXTS = 1000

_DONE = {EditKind.SWAPPED: "swapped", EditKind.LEFT_OUT: "left-out", EditKind.PUT_IN: "put-in"}
_MENDED = {
    descriptor.Mistake.SWAPPED: "swapped",
    descriptor.Mistake.LEFT_OUT: "left-out",
    descriptor.Mistake.PUT_IN: "put-in",
    descriptor.Mistake.CHANGED: "changed",
}


class _NotAnswered(Exception):
    # A line is refused by a number.

    def __init__(self, number: int) -> None:
        super().__init__()
        self.number = number


# ---- words


def _checksum(word: str) -> Checksum:
    if word not in _CHECKSUMS:
        raise _NotAnswered(_NO_COMMAND)
    return _CHECKSUMS[word]


def _any_checksum(word: str) -> Checksum:
    return _LONG_CHECKSUMS[word] if word in _LONG_CHECKSUMS else _checksum(word)


def _number(word: str, most: int) -> int:
    # A number in decimal, without leading zeros.
    if not re.fullmatch("0|[1-9][0-9]*", word) or len(word) > len(str(most)) or int(word) > most:
        raise _NotAnswered(_BAD_WORD)
    return int(word)


def _locations(words: List[str]) -> List[int]:
    # Those of a word, or of none, which names none.
    return [_number(piece, _MOST_LOCATION) for word in words for piece in word.split(",")]


def _bytes(word: str) -> bytes:
    # Pairs of hexadecimal digits, or `-` for no bytes.
    if word == "-":
        return b""
    if not re.fullmatch("(?:[0-9A-Fa-f]{2})+", word):
        raise _NotAnswered(_BAD_HEX)
    return bytes.fromhex(word)


def _threshold(word: str) -> int:
    return int(word) if re.fullmatch("[0-9]", word) else _NO_THRESHOLD


def _index(word: str) -> str:
    # The word for no share index is empty, as that of none is.
    return word if len(word) == 1 else ""


def _hexadecimal(data: bytes) -> str:
    return data.hex() or "-"


# ---- b32


def _encode(checksum: str, hrp: str, data: str) -> str:
    known = _any_checksum(checksum)
    return f"ok {texts.encode(known, hrp, _bytes(data))}"


def _decode(text: str) -> str:
    hrp, data = texts.decode(text)
    return f"ok {hrp.lower()} {_hexadecimal(data)}"


def _decode_strict(checksum: str, text: str) -> str:
    hrp, data = texts.decode_strict(_any_checksum(checksum), text)
    return f"ok {hrp.lower()} {_hexadecimal(data)}"


def _decode_elements(checksum: str, text: str) -> str:
    hrp, elements = texts.decode_elements(_any_checksum(checksum), text)
    return f"ok {hrp.lower()} {_hexadecimal(elements)}"


def _encode_elements(checksum: str, hrp: str, elements: str) -> str:
    known = _any_checksum(checksum)
    return f"ok {texts.encode_elements(known, hrp, _bytes(elements))}"


def _segwit_encode(hrp: str, version: str, program: str) -> str:
    number = _number(version, _MOST_VERSION)
    return f"ok {segwit.encode(hrp, number, _bytes(program))}"


def _segwit_decode(text: str) -> str:
    hrp, version, program = segwit.decode(text)
    return f"ok {hrp.lower()} {version} {program.hex()}"


def _liquid_encode(hrp: str, version: str, key: str, program: str) -> str:
    number, blinding_key = _number(version, _MOST_VERSION), _bytes(key)
    if len(blinding_key) != _library.LIQUID_KEY_LENGTH:
        raise _NotAnswered(_BAD_HEX)
    return f"ok {liquid.encode(hrp, number, blinding_key, _bytes(program))}"


def _liquid_decode(text: str) -> str:
    hrp, version, key, program = liquid.decode(text)
    return f"ok {hrp.lower()} {version} {key.hex()} {program.hex()}"


def _correct(checksum: str, text: str, *locations: str) -> str:
    known = _checksum(checksum)
    try:
        mended = texts.corrected(known, as_typed(text, _locations([*locations])))
    except NoCorrection:
        return "none"
    return _mended(mended) if mended.errors else "fine"


def _mended(mended: Correction) -> str:
    items = [f"{location}:{ALPHABET[value or 0]}" for location, value in mended.errors]
    return " ".join(["ok", *items, mended.text.lower()])


# ---- c32


def _parse(text: str) -> str:
    share = codex32.parse(text)
    return f"ok {share.threshold} {share.identifier} {share.share_index} {share.payload!s}"


def _propose(text: str) -> str:
    found = codex32.propose(text)
    return "none" if found is None else f"some {found.lower()}"


def _propose_long(text: str) -> str:
    found = codex32.propose_long(text)
    return "none" if found is None else f"some {found.lower()}"


def _share(text: str) -> str:
    share = codex32.share(text)
    return f"ok {share.threshold} {share.identifier} {share.share_index} {share.data.hex()}"


def _make(threshold: str, identifier: str, index: str, data: str) -> str:
    held = _bytes(data)
    return f"ok {codex32.encode(_threshold(threshold), identifier, _index(index), held)}"


def _derive(index: str, *strings: str) -> str:
    return f"ok {codex32.derive(strings, _index(index))}"


def _recover(*strings: str) -> str:
    return f"ok {codex32.derive(strings, 's')}"


def _split(threshold: str, count: str, identifier: str, secret: str, random: str) -> str:
    number = _number(count, _MOST_SHARES)
    held, drawn = _bytes(secret), _bytes(random)
    shares = codex32.split(held, _threshold(threshold), number, identifier, _random=drawn)
    return " ".join(["ok", *shares])


# ---- mend


def _nearest(checksum: str, text: str, *words: str) -> str:
    *locations, errors = words
    known, located = _checksum(checksum), _locations(locations)
    near = texts.near(known, as_typed(text, located), _number(errors, _MOST_ERRORS))
    more = ["more"] if len(near) > _MOST_TEXTS else []
    return " ".join(["ok", *(it.text.lower() for it in near[:_MOST_TEXTS]), *more])


def _edits(checksum: str, text: str) -> str:
    return " ".join(["ok", *(_edit(text, near) for near in near_edits(_checksum(checksum), text))])


def _edit(text: str, near: NearEdit) -> str:
    # The location is the number of characters behind what was done.
    kind, place, characters = near.edit
    size = len(near.text) if kind is EditKind.PUT_IN else len(text)
    return f"{_DONE[kind]} {size - len(characters) - place} {near.text.lower()}"


def _suggest(part: str, text: str) -> str:
    return " ".join(["ok", *(_suggestion(text.lower(), it) for it in segwit.suggest(text, part))])


def _suggestion(text: str, found: segwit.Suggestion) -> str:
    # The place is the first at which the texts differ, or at which one ends.
    address = found.text.lower()
    done = "replaced" if found.changes else "unchanged" if found.edit is None else _DONE[found.edit.kind]
    return f"{done} {len(os.path.commonprefix([text, address]))} {address}"


def _fault(checksum: str, text: str) -> str:
    place = ctypes.c_size_t()
    number = _library.fault(_checksum(checksum).value, *given(text.encode("utf-8")), ctypes.byref(place))
    return "ok" if number == 0 else f"err {number} {place.value}"


def _accepting(text: str) -> str:
    try:
        texts.check(Checksum.BECH32M, text)
    except Refused as refused:
        # That of Bech32m is the one that is told.
        try:
            texts.check(Checksum.BECH32, text)
        except Refused:
            raise refused from None
        return "ok bech32"
    return "ok bech32m"


def _liquid(text: str, *words: str) -> str:
    *locations, errors = words
    typed = as_typed(text, _locations(locations))
    wrong = _number(errors, _MOST_LIQUID_ERRORS)
    if liquid.is_too_much(len(set(typed.known)), wrong):
        raise _NotAnswered(_BAD_WORD)
    near = texts.listed_near(_library.liquid_nearest, (), typed, wrong)
    return " ".join(["ok", *(it.text.lower() for it in near)])


def _descriptor(text: str) -> str:
    found = descriptor.mend(bytearray(text.encode("utf-8")))
    return " ".join(["ok", *(f"{_MENDED[it.kind]} {it.places[0]} {it.text}" for it in found)])


def _checked(data: bytearray) -> str:
    descriptor.check(data)
    return "ok"


def _descriptor_check(text: str) -> str:
    return _with_place(_checked, text)


def _descriptor_checksum(text: str) -> str:
    return _with_place(lambda data: f"ok {descriptor.checksum(data)}", text)


def _with_place(call: Callable[[bytearray], str], text: str) -> str:
    # The place of a character that may not stand where it does is in bytes.
    try:
        return call(bytearray(text.encode("utf-8")))
    except NotInDescriptor as refused:
        return f"err {refused.number} {refused.place}"


# ---- lines


class _Command(NamedTuple):
    answer: Callable[..., str]
    # How many words stand behind that of the command.
    least: int
    most: int
    # Whether its one word is the rest of the line, which may have spaces, or be empty.
    takes_rest: bool = False


# No line has more words.
_ANY = max(LINE_LIMITS.values())

PROGRAMS: Dict[str, Dict[str, _Command]] = {
    "b32": {
        "encode": _Command(_encode, 3, 3),
        "decode": _Command(_decode, 1, 1),
        "decode-strict": _Command(_decode_strict, 2, 2),
        "decode-elements": _Command(_decode_elements, 2, 2),
        "encode-elements": _Command(_encode_elements, 3, 3),
        "segwit-encode": _Command(_segwit_encode, 3, 3),
        "segwit-decode": _Command(_segwit_decode, 1, 1),
        "liquid-encode": _Command(_liquid_encode, 4, 4),
        "liquid-decode": _Command(_liquid_decode, 1, 1),
        "correct": _Command(_correct, 2, 3),
    },
    "c32": {
        "parse": _Command(_parse, 1, 1),
        "propose": _Command(_propose, 1, 1),
        "propose-long": _Command(_propose_long, 1, 1),
        "share": _Command(_share, 1, 1),
        "encode": _Command(_make, 4, 4),
        "derive": _Command(_derive, 2, _ANY),
        "recover": _Command(_recover, 1, _ANY),
        "split": _Command(_split, 5, 5),
    },
    "mend": {
        "nearest": _Command(_nearest, 3, 4),
        "edits": _Command(_edits, 2, 2),
        "suggest": _Command(_suggest, 2, 2),
        "fault": _Command(_fault, 2, 2),
        "checksum": _Command(_accepting, 1, 1),
        "liquid": _Command(_liquid, 2, 3),
        "descriptor": _Command(_descriptor, 1, 1, takes_rest=True),
        "descriptor-check": _Command(_descriptor_check, 1, 1, takes_rest=True),
        "descriptor-checksum": _Command(_descriptor_checksum, 1, 1, takes_rest=True),
    },
}
"""The commands of each program by their words."""


def _asked(program: str, line: bytes) -> Tuple[_Command, List[str]]:
    # A command, and the words behind its own, between single spaces.
    if len(line) > LINE_LIMITS[program]:
        raise _NotAnswered(_LINE_TOO_LONG)
    try:
        name, space, rest = line.decode("utf-8").partition(" ")
    except UnicodeDecodeError:
        raise _NotAnswered(_LINE_NOT_UTF8) from None
    command = PROGRAMS[program].get(name)
    if command is None or not space:
        raise _NotAnswered(_NO_COMMAND)
    words = [rest] if command.takes_rest else rest.split(" ")
    if not command.takes_rest and "" in words or not command.least <= len(words) <= command.most:
        raise _NotAnswered(_NO_COMMAND)
    return command, words


def reply(program: str, line: bytes) -> str:
    """The reply of a program to a line, both without their end."""
    try:
        command, words = _asked(program, line)
        return command.answer(*words)
    except (Refused, _NotAnswered) as refused:
        return f"err {refused.number}"
    except MemoryError:
        return f"err {_OUT_OF_MEMORY}"
