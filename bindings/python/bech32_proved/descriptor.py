"""Output descriptors (BIP-380): their checksum computed and tested, and mistyped ones mended.

    >>> checksum("raw(deadbeef)")
    '89f8spxm'
    >>> check("raw(deadbeef)#89f8spxm")
    'raw(deadbeef)'
    >>> [str(it) for it in mend("raw(deedbeef)#89f8spxm")]
    ['character 7: e becomes a']

What a descriptor says is not read: neither its script nor its keys are tested.

A descriptor may hold private keys: type such a one only on a computer that is offline. Each text may be a `bytearray`, which
is read where it lies and is yours to wipe. The buffers of a call, and the stack that the library used, are wiped after it.
"""

import ctypes
from enum import Enum
from typing import Any, Callable, List, NamedTuple, NoReturn, Optional, Tuple

from . import _declared, _library, errors
from ._library import Copied, Lent, Text, given, secretly, whole

# The lent memory does not suffice, and a buffer is too small.
_NO_MEMORY = _declared.BECH32_NO_MEMORY
_NO_ROOM = _declared.BECH32_NO_ROOM

# What stands for a character that is not ASCII: one that no descriptor has.
_STRANGE = 0x7F

# The texts that there is room for at first, and the factor by which memory grows if it does not suffice.
_LEAST_TEXTS, _GROWTH = 8, 8

# The bytes that are lent at most, and that texts fill at most.
MOST_MEMORY = 1 << 28


class Mistake(Enum):
    """What was done to a right text where it was mistyped, said as what is done to mend it."""

    SWAPPED = 1
    """Two neighbours are swapped."""

    LEFT_OUT = 2
    """A character is left out."""

    PUT_IN = 3
    """A character is put in."""

    CHANGED = 4
    """A character is changed."""


# By how many characters they make a text longer.
_LONGER = {Mistake.LEFT_OUT: -1, Mistake.PUT_IN: 1}


class Mended(NamedTuple):
    """A text with a right checksum, and what is done to the mistyped one to make it."""

    text: str
    """The text, with its checksum."""

    kind: Mistake
    """What is done."""

    places: Tuple[int, ...]
    """Where, counted from 0 on: one place, or two of characters that are swapped, or of two that are changed; in the
    mistyped text, but of a character that is put in, in the new one."""

    from_: str
    """What stands there in the mistyped text: a character for each place, none for one that is put in."""

    to: str
    """What stands there in the mended text: none for a character that is left out."""

    def __str__(self) -> str:
        numbers = [place + 1 for place in self.places]
        if self.kind is Mistake.SWAPPED:
            return f"characters {numbers[0]} and {numbers[1]}: {self.from_[0]} and {self.from_[1]} are swapped"
        if self.kind is Mistake.LEFT_OUT:
            return f"character {numbers[0]}: {self.from_} is left out"
        if self.kind is Mistake.PUT_IN:
            return f"character {numbers[0]}: {self.to} is put in"
        if len(numbers) == 2:
            both = f"{self.from_[0]} becomes {self.to[0]}, {self.from_[1]} becomes {self.to[1]}"
            return f"characters {numbers[0]} and {numbers[1]}: {both}"
        return f"character {numbers[0]}: {self.from_} becomes {self.to}"


def checksum(text: Text) -> str:
    """Computes the checksum of a descriptor without one, eight characters: `text`, `#` and these are the descriptor.

    Raises the first that applies of the refusals that `bech32_proved.errors` lists for this function.
    """
    data, made, place = _copied(text), ctypes.create_string_buffer(_library.DESCRIPTOR_CHECKSUM), ctypes.c_size_t()
    length = ctypes.c_size_t()
    outs = (made, len(made), ctypes.byref(length), ctypes.byref(place))
    try:
        number = secretly(_library.descriptor_checksum, *data.given, *outs)
        if number != 0:
            _refuse(number, text, place.value)
        return made.raw.decode("ascii")
    finally:
        data.wipe()


def check(text: Text) -> Text:
    """Tests the checksum of a descriptor, and returns the descriptor without it.

    Raises the first that applies of the refusals that `bech32_proved.errors` lists for this function.
    """
    data, place = _copied(text), ctypes.c_size_t()
    try:
        number = secretly(_library.descriptor_check, *data.given, ctypes.byref(place))
        if number != 0:
            _refuse(number, text, place.value)
        return text[: -_library.DESCRIPTOR_CHECKSUM - 1]
    finally:
        data.wipe()


def mend(text: Text, changed: int = 1) -> List[Mended]:
    """Lists the other texts with a right checksum that one mistake makes of this one: a character is changed (unless
    `changed`, the most characters that may be, is 0), or two neighbours are swapped, or a character is left out, or one is
    put in. The mistake may be in the checksum, or be the `#`.

    First come texts with one character changed, then two swapped, one left out, one put in; of each kind those with the
    lower places first. Each is listed once. Of a descriptor with one such mistake the right text is nearly always the only
    one listed; of others the list is nearly always empty. It may not be what was meant: compare the addresses of the
    wallet.

    Raises `DescriptorTooLong` of more than 7,500 characters, `ValueError` of more than one changed, and `MemoryError` if
    the texts are too many for 256 MB.
    """
    most = whole(changed, "changed")
    if most not in range(2):
        raise ValueError(f"changed must be 0 or 1, not {most}")
    return _listed(text, lambda room, data: room.count(data, most))


def mend_two(text: Text) -> List[Mended]:
    """Lists the texts with a right checksum that come from this one by two of its characters changed. Either may be in the
    checksum, or be the `#`. Try `mend` first: where two characters are wrong, it takes about a 15th of the time at 30
    characters and a 150th at 1,400, and less memory.

    They are in the order of their second places. Each is listed once. Of a descriptor with two such mistakes the right text
    is nearly always the only one listed; of 100 texts that are no mistyped descriptors at most one is expected to be
    answered with any. It may not be what was meant: compare the addresses of the wallet.

    Raises `DescriptorTooLong` of more than 1,400 characters, and `MemoryError` if the texts are too many for 256 MB.
    """
    return _listed(text, lambda room, data: room.count_two(data))


def _listed(text: Text, count_in: "Callable[[_Room, Copied], int]") -> List[Mended]:
    # The texts that a call puts into as much room as they need.
    data = _copied(text)
    try:
        room = _Room(_LEAST_TEXTS, len(data.octets))
        count = count_in(room, data)
        if count > _LEAST_TEXTS:
            room = _Room(count, len(data.octets))
            count_in(room, data)
        return room.read(text, count)
    finally:
        data.wipe()


class _Room:
    # Room for a number of texts that are made of one of this length, and for what makes them.

    def __init__(self, count: int, length: int) -> None:
        size = count * (length + 1)
        if size > MOST_MEMORY:
            raise MemoryError("there are more texts than can be listed")
        self._length = length
        self._texts = ctypes.create_string_buffer(max(size, 1))
        self._kinds = ctypes.create_string_buffer(count)
        self._places = (ctypes.c_size_t * (2 * count))()
        self._out = (self._kinds, count, self._places, 2 * count, self._texts, size)

    def count(self, data: Copied, changed: int) -> int:
        # How many texts one mistake makes. As many as fit are put.
        call, size = _library.descriptor_mend, min(self._length, _library.MAX_DESCRIPTOR)
        return self._count(call, (*data.given, changed), _declared.BECH32_DESCRIPTOR_MEND_MEMORY(size), self._out)

    def count_two(self, data: Copied) -> int:
        # How many come from two changed characters. As many as fit are put.
        call, size = _library.descriptor_mend_two, min(self._length, _library.MAX_DESCRIPTOR_TWO)
        ctypes.memset(self._kinds, Mistake.CHANGED.value, len(self._kinds))
        return self._count(call, data.given, _declared.BECH32_DESCRIPTOR_TWO_MEMORY(size), self._out[2:])

    def _count(self, call: Any, given: Tuple[Any, ...], size: int, out: Tuple[Any, ...]) -> int:
        count = ctypes.c_size_t()
        while True:
            lent = Lent(size)
            memory = ctypes.byref(lent.memory)
            try:
                number = _library.interruptible(secretly, call, *given, memory, *out, ctypes.byref(count))
            finally:
                lent.wipe()
            if number != _NO_MEMORY or size >= MOST_MEMORY:
                break
            size = min(_GROWTH * size, MOST_MEMORY)
        if number == _NO_MEMORY:
            raise MemoryError("there are more texts than can be listed")
        if number not in (0, _NO_ROOM):
            raise errors.BY_NUMBER[number]()
        return count.value

    def read(self, text: Text, count: int) -> List[Mended]:
        # The first of those that were put. Nothing of them is left here.
        old = text if isinstance(text, str) else text.decode("latin-1")
        found, end = [], 0
        for at, number in enumerate(self._kinds.raw[:count]):
            kind = Mistake(number)
            start, end = end, end + len(old) + _LONGER.get(kind, 0)
            near = str(memoryview(self._texts)[start:end], "ascii")
            found.append(_mended(kind, self._places[2 * at], self._places[2 * at + 1], old, near))
        ctypes.memset(self._texts, 0, len(self._texts))
        return found


def _mended(kind: Mistake, first: int, second: int, old: str, near: str) -> Mended:
    # A text that is made of another.
    places = (first,) if first == second else (first, second)
    from_ = "" if kind is Mistake.PUT_IN else "".join(old[place] for place in places)
    to = "" if kind is Mistake.LEFT_OUT else "".join(near[place] for place in places)
    return Mended(near, kind, places, from_, to)


def _copied(text: Text) -> Copied:
    # The bytes of a text, one for each character.
    if isinstance(text, bytearray):
        return Copied(text, is_ours=False)
    if not isinstance(text, str):
        raise TypeError(f"text must be a str or a bytearray, not {type(text).__name__}")
    return Copied(bytearray(ord(it) if it.isascii() else _STRANGE for it in text))


def _refuse(number: int, text: Text, place: int) -> NoReturn:
    # Raises the refusal of a number.
    at: Optional[int] = place if number == errors.NotInDescriptor.number else None
    kind: Any = errors.BY_NUMBER[number]
    raise kind(text, at)
