"""The functions of the shared libraries, as `bech32.h` and `codex32.h` declare them. Each returns a number: 0,
or that of a refusal."""

import ctypes
import operator
import threading
from concurrent import futures
from pathlib import Path
from typing import Any, Iterable, List, NoReturn, Optional, Tuple, Type, TypeVar, Union, cast

from . import _declared, errors
from ._refused import begins_character

Octets = Union[bytes, bytearray, memoryview]
Text = Union[str, bytearray]
_Value = TypeVar("_Value")
_Made = TypeVar("_Made", str, bytes, bytearray)

_FOLDER = Path(__file__).resolve().parent

# Sizes of buffers that are always large enough.
MAX_TEXT, MAX_HRP = _declared.BECH32_MAX_TEXT, _declared.BECH32_MAX_HRP
MAX_BYTES, MAX_ELEMENTS = _declared.BECH32_MAX_BYTES, _declared.BECH32_MAX_ELEMENTS
MAX_LONG_TEXT = _declared.BECH32_MAX_LONG_TEXT
MAX_LONG_BYTES, MAX_LONG_ELEMENTS = _declared.BECH32_MAX_LONG_BYTES, _declared.BECH32_MAX_LONG_ELEMENTS
MAX_ADDRESS, MAX_PROGRAM = _declared.BECH32_MAX_SEGWIT_TEXT, _declared.BECH32_MAX_SEGWIT_PROGRAM
MAX_LISTED = _declared.BECH32_MAX_LISTED

# The largest number that the library takes for a size.
MAX_SIZE = ctypes.c_size_t(-1).value

_SIZE = ctypes.c_size_t

# A column, as Arrow lays it out.
Column = _declared.Column


class Memory(_declared.Memory):
    """Memory that a function may use."""

    held: Any
    """What it is memory of."""


# How long the main thread waits, in seconds, before it looks for a signal, where one does not end the wait.
_TURN = 0.1


def _library(name: str) -> ctypes.CDLL:
    file = _FOLDER / name
    if not file.is_file():
        raise ImportError(
            f"{name} is not in {_FOLDER}. A folder of sources has no library: install the package by "
            "`pip install ./bindings/python`, and import bech32_proved from another folder."
        )
    try:
        return ctypes.CDLL(str(file))
    except OSError as e:
        raise ImportError(
            f"{file} does not load here ({e}). A wheel is for one system and one kind of processor: its name "
            "says which."
        ) from e


_BECH32 = _library("libbech32_c.so")
_CODEX32 = _library("libcodex32_c.so")


def _function(name: str) -> Any:
    function = getattr(_BECH32 if name.startswith("bech32_") else _CODEX32, name)
    function.restype, function.argtypes = ctypes.c_uint32, _declared.FUNCTIONS[name]
    return function


encode = _function("bech32_encode")
decode = _function("bech32_decode")
check = _function("bech32_check")
fault = _function("bech32_fault")
segwit_encode = _function("bech32_segwit_encode")
segwit_decode = _function("bech32_segwit_decode")
correct = _function("bech32_correct")
nearest = _function("bech32_nearest")
near_edits = _function("bech32_near_edits")
codex32_parse = _function("codex32_parse")
codex32_share = _function("codex32_share")
codex32_encode = _function("codex32_encode")
codex32_encode_payload = _function("codex32_encode_payload")
codex32_derive = _function("codex32_derive")
codex32_split = _function("codex32_split")
codex32_recover = _function("codex32_recover")
codex32_propose = _function("codex32_propose")
codex32_propose_long = _function("codex32_propose_long")
decode_strict = _function("bech32_decode_strict")
decode_elements = _function("bech32_decode_elements")
encode_elements = _function("bech32_encode_elements")

# Those of Liquid's confidential addresses, and the sizes of buffers for them.
MAX_LIQUID_TEXT, MAX_LIQUID_PROGRAM = _declared.BECH32_MAX_LIQUID_TEXT, _declared.BECH32_MAX_LIQUID_PROGRAM
LIQUID_KEY_LENGTH = _declared.BECH32_LIQUID_KEY_LENGTH

liquid_encode = _function("bech32_liquid_encode")
liquid_decode = _function("bech32_liquid_decode")
liquid_nearest = _function("bech32_liquid_nearest")

# Those of descriptors: the characters of a checksum, and the most of a text that is mended by one edit, and by two.
DESCRIPTOR_CHECKSUM = _declared.BECH32_DESCRIPTOR_CHECKSUM
MAX_DESCRIPTOR, MAX_DESCRIPTOR_TWO = _declared.BECH32_MAX_DESCRIPTOR, _declared.BECH32_MAX_DESCRIPTOR_TWO

descriptor_checksum = _function("bech32_descriptor_checksum")
descriptor_check = _function("bech32_descriptor_check")
descriptor_mend = _function("bech32_descriptor_mend")
descriptor_mend_two = _function("bech32_descriptor_mend_two")

# These suffice for a call: bytes that are lent, and room for this many addresses.
SUGGEST_MEMORY, SUGGESTIONS = _declared.BECH32_SUGGEST_MEMORY, _declared.BECH32_SUGGESTIONS

suggest = _function("bech32_suggest")

# How a column is laid out.
OFFSETS_32, OFFSETS_64 = _declared.BECH32_OFFSETS_32, _declared.BECH32_OFFSETS_64
FIXED, FIXED_ZERO = _declared.BECH32_FIXED, _declared.BECH32_FIXED_ZERO

check_many = _function("bech32_check_many")
segwit_decode_many = _function("bech32_segwit_decode_many")
segwit_encode_many = _function("bech32_segwit_encode_many")
validity_of = _function("bech32_validity_of")
message = _function("bech32_message")


def _of_arrow(name: str, result: Any, *arguments: Any) -> Any:
    # A function of arrow.c.
    function = getattr(_BECH32, f"bech32_proved_{name}")
    function.restype, function.argtypes = result, arguments
    return function


hold = _of_arrow("hold", ctypes.c_void_p, _SIZE)
drop = _of_arrow("drop", None, ctypes.c_void_p)
new_schema = _of_arrow("schema", ctypes.c_void_p, ctypes.c_int, ctypes.c_int)
new_array = _of_arrow("array", ctypes.c_void_p, ctypes.c_int64, ctypes.c_int64, *[ctypes.c_void_p] * 3)
capsules = _of_arrow("capsules", None, ctypes.c_void_p)
end_schema = _of_arrow("end_schema", None, ctypes.c_void_p)
end_array = _of_arrow("end_array", None, ctypes.c_void_p)

# codex32_wipe_stack, which is a function of the header alone (wipe.c).
wipe_stack = getattr(_CODEX32, "bech32_proved_wipe_stack")
wipe_stack.restype, wipe_stack.argtypes = None, ()


def secretly(function: Any, *arguments: Any) -> int:
    """What a function returns that is called on secrets. What it left on the stack is wiped: both are called here,
    so that their parts of the stack begin at the same place."""
    try:
        return int(function(*arguments))
    finally:
        wipe_stack()


def interruptible(function: Any, *arguments: Any) -> int:
    """What a function returns that may take long: Ctrl-C ends the wait for it, and not the function.

    A signal is handled in the main thread alone, and not before a function of the library is left. So the
    function runs in another thread, which keeps what it was given until it is done, and which the end of
    the program does not wait for.
    """
    if threading.current_thread() is not threading.main_thread():
        return int(function(*arguments))
    returned: "futures.Future[int]" = futures.Future()

    def run() -> None:
        try:
            returned.set_result(function(*arguments))
        except BaseException as e:
            returned.set_exception(e)

    try:
        threading.Thread(target=run, name="bech32_proved", daemon=True).start()
    except RuntimeError:
        # No thread can be started.
        return int(function(*arguments))
    while True:
        try:
            return returned.result(_TURN)
        except futures.TimeoutError:
            continue


class Lent:
    """Memory that a call is lent."""

    def __init__(self, size: int) -> None:
        self._bytes = ctypes.create_string_buffer(size + 15)
        self.memory = Memory((ctypes.addressof(self._bytes) + 15) // 16 * 16, size)
        # A call that goes on after an interrupt has this description alone.
        self.memory.held = self._bytes

    def wipe(self) -> None:
        """Puts zeros into all of it."""
        ctypes.memset(self._bytes, 0, len(self._bytes))


class Copied:
    """Bytes that a call reads. They are wiped after it, unless they are the caller's."""

    def __init__(self, octets: bytearray, is_ours: bool = True) -> None:
        self.octets, self._is_ours = octets, is_ours
        self.given = given(octets)

    def wipe(self) -> None:
        """Puts zeros into all of it where it is no memory of the caller's, which is given back."""
        self.given = given(b"")
        if self._is_ours:
            self.octets[:] = bytes(len(self.octets))


def copied_text(text: Text, what: str) -> Copied:
    """The bytes of a text, where it is a `bytearray` those in its own memory; `what` names the argument."""
    if isinstance(text, bytearray):
        return Copied(text, is_ours=False)
    if not isinstance(text, str):
        raise TypeError(f"{what} must be a str or a bytearray, not {type(text).__name__}")
    return Copied(bytearray(utf8(text)))


def copied_octets(data: Octets, what: str) -> Copied:
    """Bytes, where they are a `bytearray` those in its own memory; `what` names the argument."""
    if isinstance(data, bytearray):
        return Copied(data, is_ours=False)
    return Copied(bytearray(octets(data, what)))


class Buffer:
    """Room for bytes that a call writes, and their number."""

    def __init__(self, room: int) -> None:
        self._bytes = ctypes.create_string_buffer(room)
        self._length = _SIZE()
        self.out = (self._bytes, room, ctypes.byref(self._length))

    def made(self, into: Type[_Made], place: int = 0) -> _Made:
        """What was written, as a `str`, `bytes` or a `bytearray`; the one at a place of several of one length."""
        length = self._length.value
        written = memoryview(self._bytes)[place * length : (place + 1) * length]
        made: Any = str(written, "ascii") if into is str else into(written)  # type: ignore[call-arg]
        return cast(_Made, made)

    def bytes(self) -> bytes:
        """What was written, which is no secret: a slice is copied twice."""
        return self._bytes[: self._length.value]

    def text(self) -> str:
        """The same, which is ASCII."""
        return self._bytes[: self._length.value].decode("ascii")

    def wipe(self) -> None:
        """Puts zeros into all of it."""
        ctypes.memset(self._bytes, 0, len(self._bytes))


def given(data: Union[bytes, bytearray]) -> Tuple[Any, int]:
    """Bytes as a function takes them: a pointer, which is never null, and a length."""
    if type(data) is bytes:
        return data, len(data)
    if isinstance(data, bytearray) and data:
        return (ctypes.c_char * len(data)).from_buffer(data), len(data)
    return bytes(data), len(data)


def string(value: str, what: str = "text") -> str:
    """An argument that has to be a `str`; `what` names it."""
    if not isinstance(value, str):
        raise TypeError(f"{what} must be a str, not {type(value).__name__}")
    return value


def whole(value: int, what: str) -> int:
    """An argument that has to be a whole number; `what` names it."""
    try:
        return operator.index(value)
    except TypeError:
        raise TypeError(f"{what} must be an int, not {type(value).__name__}") from None


def listed(values: Iterable[_Value], said: str) -> List[_Value]:
    """The items of an argument that has to be iterable and no one text; `said`, with its type, says so."""
    try:
        items = iter(values)
    except TypeError:
        raise TypeError(f"{said} {type(values).__name__}") from None
    if isinstance(values, (str, bytes)):
        raise TypeError(f"{said} {type(values).__name__}")
    return list(items)


def utf8(text: str, what: str = "text") -> bytes:
    """The bytes of a text; `what` names the argument."""
    try:
        return string(text, what).encode("utf-8")
    except UnicodeEncodeError as e:
        raise errors.NotUnicode(text, e.start) from None


def octets(data: Octets, what: str = "data") -> memoryview:
    """The bytes of an argument that holds bytes; `what` names it."""
    try:
        return memoryview(data)
    except TypeError:
        raise TypeError(f"{what} must be bytes, a bytearray or a memoryview, not {type(data).__name__}") from None


def in_case_of(text: Text, made: _Made) -> _Made:
    """What was made of a text that the library accepts or mends, in its case: upper case where the text has
    letters in upper case and none in lower case, and else lower case, as the library writes it."""
    if not text.isupper():
        return made
    if not isinstance(made, bytearray):
        return made.upper()
    # In its place: what `upper` makes of it is another one.
    for place, byte in enumerate(made):
        if ord("a") <= byte <= ord("z"):
            made[place] = byte - 32
    return made


def _place(data: Union[bytes, bytearray]) -> Optional[int]:
    # The character at fault in a text that is refused for its characters, by either checksum.
    place = _SIZE()
    number = fault(1, *given(data), ctypes.byref(place))
    if number not in errors.OF_A_CHARACTER:
        return None
    return sum(begins_character(byte) for byte in data[: place.value])


def refuse(
    number: int,
    text: Optional[Text] = None,
    looked_at: Union[bytes, bytearray, None] = None,
    sentence: Optional[str] = None,
) -> NoReturn:
    """Raises the refusal of a number: of a text, where one is refused, and of the bytes of it that the
    function looked at; with another sentence than that of its class, where one is given."""
    place = None
    if text is not None and looked_at is not None and number in errors.OF_A_CHARACTER:
        place = _place(looked_at)
    refused = errors.BY_NUMBER[number](text, place, sentence)
    refused.number = number
    raise refused
