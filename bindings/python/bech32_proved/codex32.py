"""Codex32 strings (BIP-93): a secret split into shares, any `threshold` of which recover it, and the nearest string
to a damaged one.

`split` makes the shares of a secret of 16 to 44 bytes, or of 63 or 64, and `recover` gives its bytes back:

    >>> secret = bytes(range(16))
    >>> shares = split(secret, 3, 5)
    >>> recover(shares[2:]) == secret
    True
    >>> recover(shares[3:])
    Traceback (most recent call last):
    ...
    bech32_proved.errors.TooFewShares: there are fewer shares than the threshold

Fewer shares than the threshold say nothing about the secret. `encode` makes the string of a secret that is not shared,
and `derive` one share more of a set.

Type secrets and shares only on a computer that is offline. Python cannot wipe `str` and `bytes`, and may keep copies of
them. So a text or bytes may be given as a `bytearray`, which is read where it lies, and with `into=bytearray` what is
returned is one: nothing is then left of them but these, which are yours to wipe.

    >>> secret = bytearray(range(16))
    >>> shares = split(secret, 2, 3, "cash", into=bytearray)
    >>> recovered = recover(shares[1:], into=bytearray)
    >>> recovered == secret
    True
    >>> for it in [secret, recovered, *shares]:
    ...     it[:] = bytes(len(it))

The buffers that a call makes for itself, and the stack that the library used, are wiped after it. The branches that
the library takes, and the memory that it reads, do not depend on a secret, but on errors and unreadable characters in
`propose` and `propose_long`, and where the place of a character at fault is looked for. That is tested in the machine
code for Linux on x86-64, and not proved; nothing is said of what Python does.
"""

import ctypes
import secrets
from typing import Any, Iterable, List, NamedTuple, NoReturn, Optional, Tuple, Type, Union, overload

from . import _declared, _library
from ._library import MAX_SIZE, Buffer, Copied, Lent, Octets, Text, copied_octets, copied_text, given, in_case_of
from ._library import listed, refuse, secretly, string, utf8, whole
from .texts import ALPHABET

# Where the parts stand in a string, and what the strings of one set have in common.
_IDENTIFIER = slice(_declared.CODEX32_IDENTIFIER_AT, _declared.CODEX32_SHARE_INDEX_AT)
_SHARE_INDEX = slice(_declared.CODEX32_SHARE_INDEX_AT, _declared.CODEX32_PAYLOAD_AT)
_PAYLOAD = _declared.CODEX32_PAYLOAD_AT
_COMMON = slice(_declared.CODEX32_THRESHOLD_AT, _declared.CODEX32_SHARE_INDEX_AT)

# The most characters of a string, and of one of either length; the most bytes of one; the most strings of a set, and
# the most shares that a secret is split into.
_MAX_TEXT = _declared.CODEX32_MAX_TEXT
_MAX_LONG_TEXT = _declared.CODEX32_TEXT_SIZE
_MAX_BYTES = _declared.CODEX32_BYTES_SIZE
_MAX_SHARES = _declared.CODEX32_MAX_SHARES
_MAX_SPLIT = _declared.CODEX32_MAX_SPLIT

_CHARACTERS = ALPHABET.encode("ascii")

# An identifier that stands for one that is not drawn yet.
_ANY = b"qqqq"

# A text is not UTF-8: a `str` is not refused so, but as `NotUnicode`.
_NOT_UTF8 = _declared.CODEX32_NOT_UTF8
_NO_TEXT = "the text is not UTF-8"

# A character of a payload is not of the alphabet, or its letters have both cases; and what is said of these.
_INVALID_CHARACTER = _declared.CODEX32_INVALID_CHARACTER
_MIXED_CASE = _declared.CODEX32_MIXED_CASE
_OF_A_PAYLOAD = {
    _INVALID_CHARACTER: "a character of the payload is not of the alphabet",
    _MIXED_CASE: "the payload has letters of both cases",
}

# There is no nearest text.
_NO_NEAREST = _declared.CODEX32_NO_NEAREST

# A share is of another set than the first, or an index stands twice.
_OTHER_SET = _declared.CODEX32_OTHER_SET
_INDEX_TWICE = _declared.CODEX32_INDEX_TWICE

# There are not as many random bytes as are drawn.
_BAD_RANDOM = _declared.CODEX32_BAD_RANDOM

# What is given is no threshold, or no share index.
_BAD_THRESHOLD = _declared.CODEX32_BAD_THRESHOLD
_NO_SHARE_INDEX = _declared.CODEX32_NO_SHARE_INDEX

# Too many bits are left over, or a buffer is too small: the string itself is accepted.
_BITS_LEFT_OVER = _declared.CODEX32_BITS_LEFT_OVER
_NO_ROOM = _declared.CODEX32_NO_ROOM


class Share(NamedTuple):
    """The parts of a codex32 string, in its case."""

    threshold: int
    """How many shares recover the secret, from 2 to 9, or 0 if this is the secret itself."""

    identifier: str
    """Four characters, which the shares of one secret have in common."""

    share_index: str
    """The character of the share, `s` or `S` of the secret."""

    payload: Text
    """What it holds, a character for each five bits: a `str`, or of a `bytearray` a `bytearray`."""


class ShareWithBytes(NamedTuple):
    """What a string of either length holds."""

    threshold: int
    """How many shares recover the secret, from 2 to 9, or 0 if this is the secret itself."""

    identifier: str
    """Four characters, which the shares of one secret have in common, in lower case."""

    share_index: str
    """The character of the share, `s` of the secret, in lower case."""

    data: Union[bytes, bytearray]
    """Its bytes, 16 to 44, or 63 or 64. At most four bits behind them, whatever they are, are left out."""

    text: Text
    """The string itself, as it was given."""


def parse(text: Text) -> Share:
    """Reads a codex32 string of 48 to 93 characters.

    Raises the first that applies of the refusals that `bech32_proved.errors` lists for this function.
    """
    data = copied_text(text, "text")
    threshold, share_index, length = ctypes.c_uint32(), ctypes.c_uint32(), ctypes.c_size_t()
    outs = (ctypes.byref(threshold), ctypes.byref(share_index), ctypes.byref(length))
    try:
        number = secretly(_library.codex32_parse, *data.given, *outs)
        if number != 0:
            _refuse(number, text, data)
        payload = text[_PAYLOAD : _PAYLOAD + length.value]
        return Share(threshold.value, _part(text, _IDENTIFIER), chr(share_index.value), payload)
    finally:
        data.wipe()


def share(text: Text, *, into: Union[Type[bytes], Type[bytearray]] = bytes) -> ShareWithBytes:
    """Reads a string of either length, 48 to 93 characters or 125 to 127: a share, or the secret at the index
    `s`. Its bytes are `bytes`, or a `bytearray` with `into=bytearray`.

    Raises the first that applies of the refusals that `bech32_proved.errors` lists for this function.
    """
    _tested(into, bytes)
    data, held = copied_text(text, "text"), Buffer(_MAX_BYTES)
    try:
        number, header = _shared(data, held)
        if number != 0:
            _refuse(number, text, data)
        held_bytes: Any = held.made(into)
        return ShareWithBytes(*header, held_bytes, text)
    finally:
        data.wipe()
        held.wipe()


@overload
def encode(threshold: int, identifier: str, share_index: str, data: Octets) -> str: ...
@overload
def encode(
    threshold: int, identifier: str, share_index: str, data: Octets, *, into: Type[bytearray]
) -> bytearray: ...
def encode(threshold: int, identifier: str, share_index: str, data: Octets, *, into: Any = str) -> Any:
    """Makes the string of a header and bytes, in lower case: of 16 to 44 bytes one of 48 to 93 characters, of 63
    or 64 a long one. The bits left over are zero. To share a secret, call `split`. The string is a `str`, or with
    `into=bytearray` a `bytearray`.

    The threshold is 0, or from 2 to 9; the identifier, four characters of the alphabet in one case; the share
    index, a character of the alphabet in either case, `s` where the threshold is 0.

        >>> encode(0, "test", "s", bytes([0x31] * 16))[:16]
        'ms10testsxycnzvf'

    Raises the first that applies of the refusals that `bech32_proved.errors` lists for this function.
    """
    _tested(into, str)
    header = _header(threshold, identifier, share_index)
    text, held = Buffer(_MAX_LONG_TEXT), copied_octets(data, "data")
    try:
        number = secretly(_library.codex32_encode, *header, *held.given, *text.out)
        if number != 0:
            refuse(number)
        return text.made(into)
    finally:
        held.wipe()
        text.wipe()


@overload
def encode_payload(threshold: int, identifier: str, share_index: str, payload: Text) -> str: ...
@overload
def encode_payload(
    threshold: int, identifier: str, share_index: str, payload: Text, *, into: Type[bytearray]
) -> bytearray: ...
def encode_payload(
    threshold: int, identifier: str, share_index: str, payload: Text, *, into: Any = str
) -> Any:
    """Makes the string of a header and the characters of its payload, in lower case. They are of the alphabet, in
    one case, and as many as 16 to 44 bytes have, from 26 to 71, or as 63 or 64 have, 101 or 103: at most four bits
    are left over, whatever they are. The header is that of `encode`, and so is what is returned. To share a secret,
    call `split`.

        >>> encode_payload(2, "name", "a", "320ZYXWVUTSRQPNMLKJHGFEDCA")
        'ms12namea320zyxwvutsrqpnmlkjhgfedcaxrpp870hkkqrm'

    The text of what is raised for a character, and its place, are those of the payload.

    Raises the first that applies of the refusals that `bech32_proved.errors` lists for this function.
    """
    _tested(into, str)
    header = _header(threshold, identifier, share_index)
    text, held = Buffer(_MAX_LONG_TEXT), copied_text(payload, "payload")
    try:
        number = secretly(_library.codex32_encode_payload, *header, *held.given, *text.out)
        if number in (_INVALID_CHARACTER, _MIXED_CASE):
            # Here a `1` is a character like `b`, and no separator.
            looked_at = Copied(held.octets.replace(b"1", b"b"))
            _refuse(number, payload, looked_at, _OF_A_PAYLOAD[number])
        if number != 0:
            refuse(number)
        return text.made(into)
    finally:
        held.wipe()
        text.wipe()


@overload
def derive(texts: Iterable[Text], share_index: str) -> str: ...
@overload
def derive(texts: Iterable[Text], share_index: str, *, into: Type[bytearray]) -> bytearray: ...
def derive(texts: Iterable[Text], share_index: str, *, into: Any = str) -> Any:
    """Derives the string at an index from others of its set, in lower case. They have the same threshold,
    identifier and length, and each another index; there are at least as many as the threshold. With the threshold
    0 the one string is the secret. If there are more than the threshold, all are tested. The string is a `str`, or
    with `into=bytearray` a `bytearray`.

        >>> shares = ["MS12NAMEA320ZYXWVUTSRQPNMLKJHGFEDCAXRPP870HKKQRM"]
        >>> shares.append("MS12NAMECACDEFGHJKLMNPQRSTUVWXYZ023FTR2GDZMPY6PN")
        >>> derive(shares, "d")
        'ms12namedll4f8jlh4e5vdvuldlfxu2jhdnlsm97xvenrxeg'

    The text of what is raised is that of the first text that is refused, is of another set than the first, or
    has an index that stands before it.

    Raises the first that applies of the refusals that `bech32_proved.errors` lists for this function.
    """
    _tested(into, str)
    index, shares = _character(share_index), _texts(texts)
    with_index = (_library.codex32_derive, index)
    # Of no texts the index is told first.
    if _called(with_index, [], Buffer(1)) == _NO_SHARE_INDEX:
        refuse(_NO_SHARE_INDEX)
    return _made_of(shares, with_index, Buffer(_MAX_LONG_TEXT), into)


@overload
def split(secret: Octets, threshold: int, count: int, identifier: Optional[str] = None) -> List[str]: ...
@overload
def split(
    secret: Octets, threshold: int, count: int, identifier: Optional[str] = None, *, into: Type[bytearray]
) -> List[bytearray]: ...
def split(
    secret: Octets,
    threshold: int,
    count: int,
    identifier: Optional[str] = None,
    *,
    into: Any = str,
    _random: Optional[Octets] = None,
) -> Any:
    """Splits a secret of 16 to 44 bytes, or of 63 or 64, into `count` shares, from the threshold to 31: any
    `threshold` of them, 2 to 9, give it to `recover`, and fewer say nothing about it.

    Proved of the library, whatever the random bytes are: any `threshold` of the shares recover the secret. Proved
    too: whichever `threshold` - 1 shares are known, for each secret of this length exactly one choice of the drawn
    characters gives these. So they say nothing about the secret if the random bytes are uniform, which no proof
    says.

    The shares are in lower case, at the first indices of `acdefghjklmnpqrtuvwxyz023456789`, each a `str`, or with
    `into=bytearray` a `bytearray`. The characters of those before the `threshold`-th are the lowest five bits of
    the operating system's random bytes (`secrets`), and the others are derived from these and the secret's own
    string (BIP-93). If the system has no random bytes, what `secrets` raises is raised here, and there is no share.

    The identifier, four characters of the alphabet in one case, is the same in all shares: None draws it at random,
    which the standard leaves free. Give each split a new one. Shares of two splits of one secret with the same
    identifier are taken for one set, and `recover` returns other bytes, without an error. To get more shares later,
    derive them from enough shares (`derive`).

        >>> shares = split(bytes(16), 2, 3, "cash")
        >>> [text[:9] for text in shares]
        ['ms12casha', 'ms12cashc', 'ms12cashd']

    Raises the first that applies of the refusals that `bech32_proved.errors` lists for this function.
    """
    _tested(into, str)
    number, named = _threshold(threshold), _ANY if identifier is None else _named(identifier)
    most = min(max(whole(count, "count"), 0), MAX_SIZE)
    held, texts = copied_octets(secret, "secret"), Buffer(_MAX_SPLIT * _MAX_LONG_TEXT)
    random = copied_octets(b"" if _random is None else _random, "_random")
    try:
        answer = _split(number, named, held, random, most, texts)
        if _random is None and answer == _BAD_RANDOM:
            # All else is in order.
            random = Copied(bytearray((number - 1) * ((8 * len(held.octets) + 4) // 5)))
            _draw(random.octets)
            named = _drawn_identifier() if identifier is None else named
            answer = _split(number, named, held, random, most, texts)
        if answer != 0:
            refuse(answer)
        return [texts.made(into, place) for place in range(most)]
    finally:
        held.wipe()
        random.wipe()
        texts.wipe()


@overload
def recover(texts: Iterable[Text]) -> bytes: ...
@overload
def recover(texts: Iterable[Text], *, into: Type[bytearray]) -> bytearray: ...
def recover(texts: Iterable[Text], *, into: Any = bytes) -> Any:
    """Recovers the bytes of a secret from shares of it, at least as many as the threshold. If there are more, all are
    tested; if there are not, a share of another secret gives other bytes, unnoticed. The bytes are `bytes`, or with
    `into=bytearray` a `bytearray`. The secret's own string is `derive` of the shares at `s`; its identifier and
    threshold are those of each of them (`share`).

        >>> shares = ["MS12NAMEA320ZYXWVUTSRQPNMLKJHGFEDCAXRPP870HKKQRM"]
        >>> shares.append("MS12NAMECACDEFGHJKLMNPQRSTUVWXYZ023FTR2GDZMPY6PN")
        >>> recover(shares).hex()
        'd1808e096b35b209ca12132b264662a5'

    The text of what is raised is as of `derive`.

    Raises the first that applies of the refusals that `bech32_proved.errors` lists for this function.
    """
    _tested(into, bytes)
    return _made_of(_texts(texts), (_library.codex32_recover,), Buffer(_MAX_BYTES), into)


@overload
def propose(text: Text) -> Optional[str]: ...
@overload
def propose(text: Text, *, into: Type[bytearray]) -> Optional[bytearray]: ...
def propose(text: Text, *, into: Any = str) -> Any:
    """Proposes the nearest text to a damaged codex32 string, in its case: in upper case if its letters are, else in
    lower case. Returns None if there is none. Each `?` behind the last `1` is a character that cannot be read.

        >>> propose("MS12NAME?320ZYXWVUTSRQPNMLKJHGFEDCAXRPP87?HKKQQQ")
        'MS12NAMEA320ZYXWVUTSRQPNMLKJHGFEDCAXRPP870HKKQRM'

    Twice the number of changed characters, plus the number of unreadable ones, is at most 8. There is at most one
    such text. It may not be what was meant: show it, and ask. Neither threshold nor share index is tested. The text
    is a `str`, or with `into=bytearray` a `bytearray`. The time of a call, and which memory it reads, depend on the
    text and its errors.

    Raises the first that applies of the refusals that `bech32_proved.errors` lists for this function.
    """
    return _proposed(_library.codex32_propose, text, _MAX_TEXT, into)


@overload
def propose_long(text: Text) -> Optional[str]: ...
@overload
def propose_long(text: Text, *, into: Type[bytearray]) -> Optional[bytearray]: ...
def propose_long(text: Text, *, into: Any = str) -> Any:
    """Proposes the nearest text to a damaged long string, of 125 to 127 characters, within the bounds of `propose`
    and in the case of the damaged one. Returns None if there is none.

    Raises the first that applies of the refusals that `bech32_proved.errors` lists for this function.
    """
    return _proposed(_library.codex32_propose_long, text, _MAX_LONG_TEXT, into)


def _proposed(function: Any, text: Text, room: int, into: Any) -> Any:
    _tested(into, str)
    data = copied_text(text, "text")
    lent, proposed = Lent(_declared.CODEX32_MEMORY(len(data.octets))), Buffer(room)
    try:
        number = secretly(function, *data.given, ctypes.byref(lent.memory), *proposed.out)
        if number == _NO_NEAREST:
            return None
        if number != 0:
            _refuse(number, text, Copied(_as_read(data.octets)))
        return in_case_of(text, proposed.made(into))
    finally:
        data.wipe()
        lent.wipe()
        proposed.wipe()


def _tested(into: Any, other: type) -> None:
    # What a result is made, which is a type.
    if into is not other and into is not bytearray:
        shown = into.__name__ if isinstance(into, type) else f"a value of {type(into).__name__}"
        raise TypeError(f"into must be {other.__name__} or bytearray, not {shown}")


def _refuse(number: int, text: Text, looked_at: Copied, sentence: Optional[str] = None) -> NoReturn:
    # Raises the refusal of a text, and wipes what was looked at. Where a place is looked for, the other library is
    # called, and leaves something on the stack too.
    try:
        refuse(number, text, looked_at.octets, _NO_TEXT if number == _NOT_UTF8 else sentence)
    finally:
        looked_at.wipe()
        _library.wipe_stack()


def _shared(data: Copied, held: Buffer) -> Tuple[int, Tuple[int, str, str]]:
    # What the library returns for a string of either length, whose bytes it puts into a buffer, and its header.
    threshold, share_index = ctypes.c_uint32(), ctypes.c_uint32()
    identifier = ctypes.create_string_buffer(4)
    outs = (ctypes.byref(threshold), identifier, ctypes.byref(share_index), *held.out)
    number = secretly(_library.codex32_share, *data.given, *outs)
    return number, (threshold.value, identifier.raw.decode("ascii"), chr(share_index.value))


def _split(number: int, named: bytes, held: Copied, random: Copied, count: int, texts: Buffer) -> int:
    # What the library returns where it splits a secret.
    rest = (*held.given, *random.given, count, *texts.out)
    return secretly(_library.codex32_split, number, *given(named), *rest)


def _made_of(texts: List[Text], call: Tuple[Any, ...], made: Buffer, into: Any) -> Any:
    # What a call makes of the strings of a set.
    held = [copied_text(text, "each share of texts") for text in texts]
    try:
        for text, data in zip(texts, held):
            # There is no room for its bytes, which is said behind all faults of the text.
            number, _ = _shared(data, Buffer(1))
            if number not in (_BITS_LEFT_OVER, _NO_ROOM):
                _refuse(number, text, data)
        if len(held) <= _MAX_SHARES:
            number = _called(call, held, made)
        else:
            number = _OTHER_SET if any(_set_of(text) != _set_of(texts[0]) for text in texts) else _INDEX_TWICE
        if number != 0:
            refuse(number, _at_fault(number, texts))
        return made.made(into)
    finally:
        for data in held:
            data.wipe()
        made.wipe()


def _called(call: Tuple[Any, ...], held: List[Copied], made: Buffer) -> int:
    # What a function of the library returns for strings, which stand one behind another for it.
    sizes = [len(data.octets) for data in held]
    copied, end = Copied(bytearray(sum(sizes))), 0
    lengths = (ctypes.c_size_t * max(len(sizes), 1))(*sizes)
    function, *before = call
    try:
        # A slice of a `bytearray` would be assigned by another copy, and one of a view is not.
        with memoryview(copied.octets) as joined:
            for data, size in zip(held, sizes):
                joined[end : end + size] = data.octets
                end += size
        return secretly(function, *before, *copied.given, lengths, len(sizes), *made.out)
    finally:
        copied.wipe()


def _part(text: Text, part: slice) -> str:
    # Characters of a text that is accepted.
    found = text[part]
    return found if isinstance(found, str) else found.decode("ascii")


def _set_of(text: Text) -> Tuple[str, int]:
    # What the strings of one set have in common.
    return _part(text, _COMMON).lower(), len(text)


def _at_fault(number: int, texts: List[Text]) -> Optional[Text]:
    # The first text for which strings give none.
    indices = [_part(text, _SHARE_INDEX).lower() for text in texts]
    for place, text in enumerate(texts):
        if number == _OTHER_SET and _set_of(text) != _set_of(texts[0]):
            return text
        if number == _INDEX_TWICE and indices[place] in indices[:place]:
            return text
    return None


def _threshold(threshold: int) -> int:
    # A threshold as the library takes it, which is a number of 32 bits.
    number = whole(threshold, "threshold")
    if not 0 <= number < 2**32:
        refuse(_BAD_THRESHOLD)
    return number


def _named(identifier: str) -> bytes:
    # An identifier as the library takes it.
    return string(identifier, "identifier").encode("utf-8", "surrogatepass")


def _draw(buffer: bytearray) -> None:
    # Fills a buffer with random bytes, each drawn by itself: no `bytes` holds several of them.
    for place in range(len(buffer)):
        buffer[place] = secrets.randbits(8)


def _drawn_identifier() -> bytes:
    # Four characters at random.
    drawn = bytearray(4)
    _draw(drawn)
    return bytes(_CHARACTERS[byte & 31] for byte in drawn)


def _header(threshold: int, identifier: str, share_index: str) -> Tuple[int, bytes, int, int]:
    # A threshold, an identifier and a share index as the library takes them.
    number = whole(threshold, "threshold")
    named, index = _named(identifier), _character(share_index)
    return (_threshold(number), *given(named), index)


def _character(share_index: str) -> int:
    # A share index as the library takes it. More or less than one character are none.
    word = string(share_index, "share_index")
    return ord(word) if len(word) == 1 else 0


def _texts(texts: Iterable[Text]) -> List[Text]:
    # The texts of shares.
    said = "texts must be a list of shares, not"
    if isinstance(texts, bytearray):
        raise TypeError(f"{said} bytearray")
    return listed(texts, said)


def _as_read(data: bytearray) -> bytearray:
    # Behind the last `1`, each character that cannot be read is looked at as `0`, which has no case.
    read = data[:]
    for place in range(read.rfind(b"1") + 1, len(read)):
        if b"1" in read and read[place] == ord("?"):
            read[place] = ord("0")
    return read
