"""Characters that were left out, put in or swapped in a text."""

import ctypes
from enum import Enum
from typing import Any, List, NamedTuple, Tuple

from . import _library, _searches
from ._library import given, in_case_of, utf8
from .texts import Checksum, _number

# The texts that there is room for at first. If there are more, the first call says how many, and a second one puts
# them.
_LEAST_TEXTS = 8


class EditKind(Enum):
    """What is done to a text."""

    SWAPPED = 1
    """Two neighbours are swapped."""

    LEFT_OUT = 2
    """A character is left out."""

    PUT_IN = 3
    """A character is put in."""


# By how many characters they make a text longer.
_LONGER = {EditKind.SWAPPED: 0, EditKind.LEFT_OUT: -1, EditKind.PUT_IN: 1}


class Edit(NamedTuple):
    """What is done to a mistyped text to make another of it.

        >>> print(near_edits(Checksum.BECH32, "a12uel5")[0].edit)
        character 8: l is put in
    """

    kind: EditKind
    """What is done."""

    place: int
    """Where, counted from 0 on: the place of the first of two that are swapped; of a character that is left out,
    its place in the mistyped text; of one that is put in, its place in the new text. People count from 1, as
    what is printed does."""

    characters: str
    """This character, or the two that are swapped, as they stand in the mistyped text; in its case."""

    def __str__(self) -> str:
        if self.kind is EditKind.SWAPPED:
            first, second = self.characters
            return f"characters {self.place + 1} and {self.place + 2}: {first} and {second} are swapped"
        done = "left out" if self.kind is EditKind.LEFT_OUT else "put in"
        return f"character {self.place + 1}: {self.characters} is {done}"


class NearEdit(NamedTuple):
    """A text that one edit makes of a mistyped one."""

    text: str
    """The text, in the case of the mistyped one: in upper case if its letters are, else in lower case."""

    edit: Edit
    """What is done to the mistyped text."""


def near_edits(checksum: Checksum, text: str) -> List[NearEdit]:
    """Lists the texts that one edit makes of a mistyped one, in its case: all others that the checksum accepts and
    that come from it by leaving out one character behind the separator, by putting one in, or by swapping two
    neighbours. Each is listed once. What stands before the separator stays as it is.

        >>> near_edits(Checksum.BECH32, "bc1qw508d6qejxtdg4y53zarvary0c5xw7kv8f3t4")[0].text
        'bc1qw508d6qejxtdg4y5r3zarvary0c5xw7kv8f3t4'

    If one character is missing or too many, or two neighbours are swapped, the right text is nearly always the
    only one listed; of other texts the list is nearly always empty. It may not be what was meant: show it, and
    ask.

    Bech32 accepts a text that ends in `p` with any number of `q` before the `p` as well. So if the text that is
    found ends in `p`, an edit of its last two characters says little: ask first about a text that `nearest` finds.
    Bech32m has no such weakness.

    Swaps come first, then what leaves a character out, then what puts one in; in each kind, those with fewer
    characters behind them come first. If several edits make the same text, the one with the fewest characters
    behind it is listed: of a run of equal characters the last is left out, and an equal one is put in behind the
    run.

    The text may have any length, and any number of characters behind the separator. Raises what `check` raises,
    but for `TextTooLong`, `NoChecksum` and `WrongChecksum`; and `MemoryError` if the texts are too many for 16 MB.
    """
    known, data = _number(checksum), utf8(text)
    search, asked = _searches.Search(text, data), (known, *given(data))
    room = _Room(_LEAST_TEXTS, len(data))
    count = search.count(_library.near_edits, asked, *room.out)
    if count > _LEAST_TEXTS:
        room = _Room(count, len(data))
        search.count(_library.near_edits, asked, *room.out)
    return room.read(text, count)


class _Room:
    # Room for a number of edits of a text of this length, and for what they make of it.

    def __init__(self, count: int, length: int) -> None:
        self._texts, size = _searches.texts(count * (length + 1))
        self._kinds = ctypes.create_string_buffer(max(count, 1))
        self._locations = (ctypes.c_size_t * max(count, 1))()
        self.out = (self._kinds, count, self._locations, count, self._texts, size)

    def read(self, text: str, count: int) -> List[NearEdit]:
        # The first of those that were put, in the case of the mistyped text.
        old = in_case_of(text, text.lower())
        found, end = [], 0
        for number, location in zip(self._kinds.raw[:count], self._locations[:count]):
            kind = EditKind(number)
            start, end = end, end + len(old) + _LONGER[kind]
            near = in_case_of(text, self._texts.raw[start:end].decode("ascii"))
            found.append(NearEdit(near, _edit(kind, location, old, near)))
        return found


def _edit(kind: EditKind, location: int, old: str, near: str) -> Edit:
    # The edit by which a text becomes another one; the location is the number of characters behind it.
    if kind is EditKind.PUT_IN:
        place = len(near) - 1 - location
        return Edit(kind, place, near[place])
    size = 2 if kind is EditKind.SWAPPED else 1
    place = len(old) - size - location
    return Edit(kind, place, old[place : place + size])
