"""Texts of any human-readable part."""

import ctypes
from enum import Enum
from functools import partial
from typing import Any, FrozenSet, Iterable, List, NamedTuple, Optional, Tuple, Union

from . import _declared, _library, _searches
from ._library import Buffer, Octets, given, in_case_of, listed, octets, refuse, utf8, whole
from .errors import BadElement, WrongChecksum

ALPHABET = "qpzry9x8gf2tvdw0s3jn54khce6mua7l"
"""The characters of the elements from 0 to 31, in lower case."""

# A character that cannot be read, and what stands in its place for the library: a digit, which has no case.
_UNREADABLE, _FILLER = "?", "0"

# There is no correction.
_NO_CORRECTION = _declared.BECH32_NO_CORRECTION

# The bytes that near texts are put into at first. If all of them take more, the first search says how much, and a
# second one puts them.
_LEAST_ROOM = 1 << 14


class Checksum(Enum):
    """A checksum."""

    BECH32 = 1
    """That of BIP-173."""

    BECH32M = 2
    """That of BIP-350."""

    LONG_BECH32 = 3
    """That of BIP-173 for texts of up to 7,089 characters, as invoices, nostr and age have them. A text of up to 1,023
    has the same checksum by BECH32. Above that nothing is promised of wrong characters, and no text is mended: what a
    wrong character leaves 1,200 characters before the end, one 177 before it leaves too."""

    LONG_BECH32M = 4
    """That of BIP-350 for such texts."""

    @property
    def _is_long(self) -> bool:
        return self in (Checksum.LONG_BECH32, Checksum.LONG_BECH32M)


class Decoded(NamedTuple):
    """What a text holds."""

    hrp: str
    """Its human-readable part, in the case of the text."""

    data: bytes
    """Its bytes. Bits behind the last whole byte are dropped. Of an address these are not its program."""


class DecodedWithChecksum(NamedTuple):
    """What a text holds, and which checksum accepts it."""

    hrp: str
    """Its human-readable part, in the case of the text."""

    data: bytes
    """Its bytes. Bits behind the last whole byte are dropped. Of an address these are not its program."""

    checksum: Checksum
    """The checksum that accepts it."""


class Elements(NamedTuple):
    """What a text holds, as elements."""

    hrp: str
    """Its human-readable part, in the case of the text."""

    elements: bytes
    """The elements of its data part, 0 to 31 each, without those of the checksum."""


class Parts(NamedTuple):
    """The parts of a text, in its case."""

    hrp: str
    """What stands before the separator."""

    data_part: str
    """What stands behind it, without the six characters of the checksum."""


class Change(NamedTuple):
    """A character of a mistyped text, and the one that is in its place in a mended one. Where it was known to be
    wrong they may be the same.

        >>> print(correct(Checksum.BECH32, "a12uel5q").changes[0])
        character 8: q becomes l
    """

    place: int
    """Where it stands, counted from 0 on. People count from 1, as what is printed does."""

    from_: str
    """What stands there in the mistyped text: `?` of a character that cannot be read."""

    to: str
    """What stands there in the mended one. Both have the case of the mistyped text."""

    def __str__(self) -> str:
        if self.from_ == self.to:
            return f"character {self.place + 1}: {self.to} stays"
        return f"character {self.place + 1}: {self.from_} becomes {self.to}"


class Correction(NamedTuple):
    """How a mistyped text is mended."""

    text: str
    """The mended text, in the case of the mistyped one: in upper case if its letters are, else in lower case."""

    errors: Tuple[Tuple[int, Optional[int]], ...]
    """The locations that were wrong, 0 that of the last character, with the element, from 0 to 31, that
    was added there by exclusive or, or None where the text has `?`: those that were known to be wrong first.
    `correct` lists none where the text was right."""

    @property
    def changes(self) -> Tuple[Change, ...]:
        """The same as places, counted from the front of the text and in rising order, with the characters
        before and after: what to show to people."""
        located = sorted(self.errors, key=lambda error: -error[0])
        return tuple(self._change(*error) for error in located)

    def _change(self, location: int, value: Optional[int]) -> Change:
        place = len(self.text) - 1 - location
        to = self.text[place]
        if value is None:
            return Change(place, _UNREADABLE, to)
        from_ = ALPHABET[ALPHABET.index(to.lower()) ^ value]
        return Change(place, in_case_of(self.text, from_), to)


class Typed(NamedTuple):
    """A mistyped text as it is given to the library."""

    text: str
    """The text."""

    data: bytes
    """Its bytes as the library reads them, without a `?` behind the separator."""

    known: List[int]
    """The locations of characters that are known to be wrong: 0 is the last character."""

    unreadable: FrozenSet[int]
    """Those of them that cannot be read."""

    def listed(self, errors: Iterable[Tuple[int, Optional[int]]]) -> Tuple[Tuple[int, Optional[int]], ...]:
        """What was added at locations, of which those that cannot be read had no element."""
        return tuple((location, None if location in self.unreadable else value) for location, value in errors)


def encode(checksum: Checksum, hrp: str, data: Octets) -> str:
    """Encodes bytes under a human-readable part by a checksum, in lower case.

    Raises the first that applies of the refusals that `bech32_proved.errors` lists for this function.
    """
    known = _any_number(checksum)
    text = Buffer(_library.MAX_LONG_TEXT if Checksum(known)._is_long else _library.MAX_TEXT)
    number = _library.encode(
        known, *given(utf8(hrp, "hrp")), *given(bytes(octets(data))), *text.out
    )
    if number != 0:
        refuse(number, hrp)
    return text.text()


def decode(text: str) -> Decoded:
    """Decodes a text that Bech32m or Bech32 accepts. `decode_with_checksum` also says which of them does. What
    identifies something is decoded by `decode_strict`, which accepts one spelling of it.

    Decode an address by `segwit.decode`, not by this. The first element of an address is its witness version, so
    this returns the program shifted by five bits. That looks like a hash, but it is not the program.

    Raises the first that applies of the refusals that `bech32_proved.errors` lists for this function.
    """
    data = utf8(text)
    hrp, found = Buffer(_library.MAX_HRP), Buffer(_library.MAX_BYTES)
    number = _library.decode(*given(data), *hrp.out, *found.out)
    if number != 0:
        refuse(number, text, data)
    return Decoded(hrp.text(), found.bytes())


def decode_strict(checksum: Checksum, text: str) -> Decoded:
    """Decodes a text that a checksum accepts, and refuses bits behind the last whole byte that are more than four, or not
    all zero. So the text is, in its case, the only one by this checksum of its human-readable part and its bytes:
    `encode` writes it of them, in lower case. Decode so what identifies something, as an account or a key: else it has
    several spellings.

        >>> decode("a1qpamnt9j") == decode("a1qqqd87cq")
        True
        >>> decode_strict(Checksum.BECH32, "a1qpamnt9j")
        Traceback (most recent call last):
        ...
        bech32_proved.errors.PaddingNotZero: the bits behind the last whole byte are not all zero

    Raises the first that applies of the refusals that `bech32_proved.errors` lists for this function.
    """
    known, data = _any_number(checksum), utf8(text)
    hrp = Buffer(_library.MAX_HRP)
    found = Buffer(_library.MAX_LONG_BYTES if Checksum(known)._is_long else _library.MAX_BYTES)
    number = _library.decode_strict(known, *given(data), *hrp.out, *found.out)
    if number != 0:
        refuse(number, text, data)
    return Decoded(hrp.text(), found.bytes())


def decode_elements(checksum: Checksum, text: str) -> Elements:
    """Decodes a text that a checksum accepts to elements, 0 to 31 each. This reads what is not bytes alone, as an
    address of silent payments (BIP-352), whose first element is a version, or an invoice (BOLT 11). The text is, in its
    case, the only one by this checksum that has them: `encode_elements` writes it, in lower case.

        >>> decode_elements(Checksum.BECH32, "A1QPAMNT9J")
        Elements(hrp='A', elements=b'\\x00\\x01')

    Raises the first that applies of the refusals that `bech32_proved.errors` lists for this function.
    """
    known, data = _any_number(checksum), utf8(text)
    hrp = Buffer(_library.MAX_HRP)
    found = Buffer(_library.MAX_LONG_ELEMENTS if Checksum(known)._is_long else _library.MAX_ELEMENTS)
    number = _library.decode_elements(known, *given(data), *hrp.out, *found.out)
    if number != 0:
        refuse(number, text, data)
    return Elements(hrp.text(), found.bytes())


def encode_elements(checksum: Checksum, hrp: str, elements: Octets) -> str:
    """Encodes elements, 0 to 31 each, under a human-readable part by a checksum, in lower case. The elements of bytes are
    their bits, five at a time, the highest first, with zeros behind the last.

        >>> encode_elements(Checksum.BECH32, "a", bytes([0, 1]))
        'a1qpamnt9j'

    The place of what is raised for an element is that of the first above 31.

    Raises the first that applies of the refusals that `bech32_proved.errors` lists for this function.
    """
    known, held = _any_number(checksum), bytes(octets(elements, "elements"))
    text, place = Buffer(_library.MAX_LONG_TEXT if Checksum(known)._is_long else _library.MAX_TEXT), ctypes.c_size_t()
    number = _library.encode_elements(
        known, *given(utf8(hrp, "hrp")), *given(held), ctypes.byref(place), *text.out
    )
    if number == BadElement.number:
        at = place.value
        raise BadElement(None, at, f"an element is above 31: {held[at]}, at place {at}")
    if number != 0:
        refuse(number, hrp)
    return text.text()


# Bytes are regrouped in pieces that a text has room for: five bytes are eight elements.
_BYTES, _ELEMENTS = 4400, 7040


def convertbits(data: Union[Octets, Iterable[int]], frombits: int, tobits: int, pad: bool = True) -> Optional[List[int]]:
    """Regroups bytes into elements of five bits, or elements into bytes: like the function of this name in the reference
    implementation of BIP-173, for the widths 8 and 5 that it is called with.

        >>> convertbits(bytes([255, 0]), 8, 5)
        [31, 28, 0, 0]
        >>> convertbits([31, 28, 0, 0], 5, 8, False)
        [255, 0]

    With `pad`, zeros follow the last bits if these do not fill a group. Without it the bits that are left over are
    dropped; returns None if these fill a group of the width that was given, or are not all zero. Returns None too if a
    number in `data` is negative or has more than `frombits` bits.

    Raises `ValueError` for other widths.
    """
    if (frombits, tobits) not in ((8, 5), (5, 8)):
        raise ValueError(f"bits are regrouped from 8 to 5 or from 5 to 8, not from {frombits} to {tobits}")
    if isinstance(data, (bytes, bytearray, memoryview)):
        numbers = list(bytes(data))
    else:
        numbers = [whole(it, "a number") for it in listed(data, "data must be bytes or a list of numbers, not")]
    if any(it >> frombits for it in numbers):
        return None
    return _to_elements(numbers, pad) if frombits == 8 else _to_bytes(numbers, pad)


def _to_elements(data: List[int], pad: bool) -> Optional[List[int]]:
    made: List[int] = []
    for at in range(0, len(data), _BYTES):
        text = encode(Checksum.LONG_BECH32, "a", bytes(data[at : at + _BYTES]))
        made += decode_elements(Checksum.LONG_BECH32, text).elements
    if pad or 8 * len(data) % 5 == 0:
        return made
    return None if made[-1] else made[:-1]


def _to_bytes(elements: List[int], pad: bool) -> Optional[List[int]]:
    # Zero elements follow the others, until all of them fill whole bytes.
    size, rest = len(elements), 5 * len(elements) % 8
    if not pad and rest >= 5:
        return None
    whole_blocks = elements + [0] * (-size % 8)
    made: List[int] = []
    for at in range(0, len(whole_blocks), _ELEMENTS):
        text = encode_elements(Checksum.LONG_BECH32, "a", bytes(whole_blocks[at : at + _ELEMENTS]))
        made += decode_strict(Checksum.LONG_BECH32, text).data
    full = 5 * size // 8
    if pad:
        return made[: full + (1 if rest else 0)]
    return None if rest and made[full] else made[:full]


def decode_with_checksum(text: str) -> DecodedWithChecksum:
    """Decodes a text like `decode`, and says which checksum accepts it. Decode an address by `segwit.decode`.

        >>> decode_with_checksum("A1LQFN3A").checksum
        <Checksum.BECH32M: 2>

    Raises what `decode` raises.
    """
    hrp, found = decode(text)
    try:
        check(Checksum.BECH32M, text)
    except WrongChecksum:
        return DecodedWithChecksum(hrp, found, Checksum.BECH32)
    return DecodedWithChecksum(hrp, found, Checksum.BECH32M)


def check(checksum: Checksum, text: str) -> Parts:
    """Tests that a checksum accepts a text, and returns its parts.

    Raises what `decode` raises.
    """
    known, data = _any_number(checksum), utf8(text)
    hrp_length, data_length = ctypes.c_size_t(), ctypes.c_size_t()
    number = _library.check(
        known,
        *given(data),
        ctypes.byref(hrp_length),
        ctypes.byref(data_length),
    )
    if number != 0:
        refuse(number, text, data)
    behind = hrp_length.value + 1
    return Parts(text[: hrp_length.value], text[behind : behind + data_length.value])


def correct(
    checksum: Checksum, text: str, places: Iterable[int] = (), *, erasures: Iterable[int] = ()
) -> Correction:
    """Mends a mistyped text, in its case. Each `?` behind the last `1` is a character that cannot be read. `places`
    are those of other characters that are known to be wrong, counted from 0 on. `erasures` are the same, counted
    from the end: the character at a place has the location `len(text) - 1 - place`, and the last one 0.

        >>> correct(Checksum.BECH32, "A12UEL5Q").text
        'A12UEL5L'
        >>> print(*correct(Checksum.BECH32, "a1?ue?5q", [7]).changes, sep="; ")
        character 3: ? becomes 2; character 6: ? becomes l; character 8: q becomes l

    It finds one wrong character; or one, beside one that is known to be wrong; or up to three that are known to be.
    Within these bounds there is at most one correction of the characters behind the separator. It may not be what
    was meant: show it, and ask. `nearest` finds two wrong characters.

    Raises what `check` raises, but `NoCorrection` in place of `WrongChecksum`: if there is no such correction, or
    a place is not behind the separator. Of a place that the text does not have and a negative location, `ValueError`.
    """
    _number(checksum)
    return corrected(checksum, _known(text, places, erasures))


def corrected(checksum: Checksum, typed: Typed) -> Correction:
    """The correction of a mistyped text."""
    number, room = _number(checksum), _library.MAX_LISTED
    locations, count = (ctypes.c_size_t * room)(), ctypes.c_size_t()
    values, mended = ctypes.create_string_buffer(room), Buffer(_library.MAX_TEXT)
    refusal = _library.correct(
        number,
        *given(typed.data),
        *_as_sizes(typed.known),
        *(locations, room, values, room, ctypes.byref(count)),
        *mended.out,
    )
    errors: List[Tuple[int, Optional[int]]] = list(zip(locations[: count.value], values.raw[: count.value]))
    if refusal == 0 and typed.unreadable and count.value == 0:
        # What was read in the place of each `?` is right.
        errors = [(location, 0) for location in dict.fromkeys(typed.known)]
        size = len(typed.text) - 1 - typed.text.rfind("1")
        refusal = 0 if len(errors) <= room and max(typed.known) < size else _NO_CORRECTION
    if refusal != 0:
        refuse(refusal, typed.text, typed.data)
    return Correction(in_case_of(typed.text, mended.text()), typed.listed(errors))


def nearest(
    checksum: Checksum, text: str, places: Iterable[int] = (), errors: int = 2, *, erasures: Iterable[int] = ()
) -> List[Correction]:
    """Lists the texts near to a mistyped one, in its case: all that the checksum accepts and that differ from it
    in at most `errors` characters, 0 to 2, behind the separator and beside the characters that are known to be
    wrong. These are each `?` behind the last `1`, which cannot be read, and the characters at `places`, counted
    from 0 on, or at `erasures`, counted from the end as in `correct`. The list may be empty.

        >>> [it.text for it in nearest(Checksum.BECH32, "bc1q?508d6qejxtdg4y5r3zarvaty0c5xw7kv8f3t4")]
        ['bc1qw508d6qejxtdg4y5r3zarvary0c5xw7kv8f3t4']

    With at most 89 characters behind the separator and none known to be wrong, it has at most one text. If no more
    than `errors` characters are wrong, that text is the right one. It may not be what was meant: of random texts of
    62 characters, some 15 in 10,000 have a near one. Show it, and ask.

    The order is that of the highest location of a change outside those, then that of the element added there, then
    that of the next such location. A text without such changes is first: one that the checksum accepts is the first
    of its own list. The list is empty if one of those is not behind the separator, or if there are more than three.

    The time of a search for two errors, in milliseconds of a processor at 2.5 GHz, rounded, and the number of
    texts. If these fill more than 16 KB, there is a second search, which takes as long.

        characters   none known   one          two          three
        42           0.03, 1      0.1, 1       0.1, 1       0.15, 17
        62           0.05, 1      0.15, 1      0.15, 2      0.25, 50
        90           0.05, 1      0.25, 1      0.3, 4       0.45, 110
        200          0.1, 1       0.4, 2       0.55, 20     1.8, 550
        400          0.2, 1       0.9, 3       1.1, 75      6.5, 2,300
        1,000        0.5, 2       2.6, 14      4.7, 450     too many for 16 MB

    One error takes at most 0.15 ms up to 90 characters, and 1.5 ms at 1,000. From 135 characters on a text may
    have far more near ones beside three erasures that are 33 locations apart. No search takes more than 0.2
    seconds: it ends where 16 MB do not suffice.

    What helps a person is a short list: at most two errors with two erasures up to 90 characters, two errors with
    one erasure in longer texts, and one error with three erasures. Beyond these the right text is one of many
    that are as near.

    Called in the main thread, it searches in another one, so that Ctrl-C ends the call at once. The library
    cannot be stopped: until the search, or the program, ends, it keeps a processor and its memory.

    Raises what `check` raises, but for `WrongChecksum`; `ValueError` of more than two errors, a place that the text
    does not have, or a negative location, and `MemoryError` if the texts are too many for 16 MB.
    """
    _number(checksum)
    wrong = whole(errors, "errors")
    if wrong not in range(3):
        raise ValueError(f"errors must be 0, 1 or 2, not {wrong}")
    return near(checksum, _known(text, places, erasures), wrong)


def near(checksum: Checksum, typed: Typed, wrong: int) -> List[Correction]:
    """The texts near to a mistyped one, which differ in at most `wrong` characters."""
    return listed_near(_library.nearest, (_number(checksum),), typed, wrong)


def listed_near(function: Any, before: Tuple[Any, ...], typed: Typed, wrong: int) -> List[Correction]:
    """What a function of the library lists as near to a text; `before` it stands what the function is given besides."""
    text, data, known = typed.text, typed.data, typed.known
    asked = (*before, *given(data), *_as_sizes(known), ctypes.c_size_t(wrong))
    search, texts = _searches.Search(text, data), _searches.texts(_LEAST_ROOM)
    call = partial(_library.interruptible, function)
    count = search.count(call, asked, *texts)
    if count * len(data) > _LEAST_ROOM:
        texts = _searches.texts(count * len(data))
        search.count(call, asked, *texts)
    found = texts[0][: count * len(data)].decode("ascii")
    each = [found[n : n + len(data)] for n in range(0, len(found), len(data))]
    read = data.decode("utf-8")
    return [Correction(in_case_of(text, near), typed.listed(_changes(read, near, known))) for near in each]


def as_typed(text: str, known: List[int]) -> Typed:
    """A text in which `?` is a character like others."""
    return Typed(text, utf8(text), known, frozenset())


def _known(text: str, places: Iterable[int], erasures: Iterable[int]) -> Typed:
    # A text with what is known to be wrong, each `?` behind its separator too.
    data, last, begin = utf8(text), len(text) - 1, text.rfind("1") + 1
    known = [*_places(places, last), *_locations(erasures)]
    if begin == 0 or _UNREADABLE not in text[begin:]:
        return Typed(text, data, known, frozenset())
    unreadable = [last - place for place in range(begin, last + 1) if text[place] == _UNREADABLE]
    read = text[:begin] + text[begin:].replace(_UNREADABLE, _FILLER)
    each = list(dict.fromkeys([*known, *unreadable]))
    return Typed(text, read.encode("utf-8"), each, frozenset(unreadable))


def _number(checksum: Checksum) -> int:
    # The number of a checksum in the library, of those that mend texts.
    known = _any_number(checksum)
    if Checksum(known)._is_long:
        said = f"not {Checksum(known)}: long texts are not mended"
        raise ValueError(f"checksum must be Checksum.BECH32 or Checksum.BECH32M, {said}")
    return known


def _any_number(checksum: Checksum) -> int:
    # The number of a checksum in the library.
    try:
        return Checksum(checksum).value
    except ValueError:
        # Of what is no number the type alone: it may be data that stands in the wrong place.
        shown = checksum if isinstance(checksum, int) else type(checksum).__name__
        raise ValueError(f"checksum must be Checksum.BECH32 or Checksum.BECH32M, not {shown}") from None


def _places(places: Iterable[int], last: int) -> List[int]:
    # The locations of places in a text, of which this is the last.
    known = listed(places, "places must be a list of places, not")
    located = [whole(place, "each place of places") for place in known]
    for place in located:
        if not 0 <= place <= last:
            raise ValueError(f"the text has no place {place} (0 is the first character)")
    return [last - place for place in located]


def _locations(erasures: Iterable[int]) -> List[int]:
    # The locations of erasures.
    known = listed(erasures, "erasures must be a list of locations, not")
    located = [whole(location, "each location of erasures") for location in known]
    for location in located:
        if location < 0:
            raise ValueError(f"a location of erasures is negative: {location} (0 is the last character)")
    return located


def _as_sizes(known: List[int]) -> Tuple[Any, int]:
    # Locations as a function takes them. One that no text has is one past the end of any.
    sizes = [min(n, _library.MAX_SIZE) for n in known]
    return (ctypes.c_size_t * max(len(sizes), 1))(*sizes), len(sizes)


def _changes(text: str, near: str, erasures: List[int]) -> Tuple[Tuple[int, int], ...]:
    # What is added to a text to give a near one, in the order of `correct`: at the erasures, at location 0,
    # and then from the highest location down.
    pairs = list(zip(reversed(text.lower()), reversed(near)))
    others = [0, *range(len(pairs) - 1, 0, -1)]
    changed = [n for n in others if pairs[n][0] != pairs[n][1]]
    values = [[ALPHABET.find(character) for character in pair] for pair in pairs]
    return tuple((n, values[n][0] ^ values[n][1]) for n in dict.fromkeys([*erasures, *changed]))
