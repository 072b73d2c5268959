"""Whole columns of segwit addresses and Bech32 texts: one call for many rows. This module wants NumPy; the others do not.

    >>> from bech32_proved import columns
    >>> found = columns.decode(["bc1qw508d6qejxtdg4y5r3zarvary0c5xw7kv8f3t4", None, "bc1qq"], hrp="bc")
    >>> found.numbers.tolist()
    [0, 1, 32]
    >>> found.versions[0], found.programs[0].hex()
    (0, '751e76e8199196d454941c45d1b3a323f1433bd6')
    >>> columns.message(32)
    'too few characters for a checksum stand behind the separator'
    >>> columns.encode("bc", found.versions, found.programs).to_list()
    ['bc1qw508d6qejxtdg4y5r3zarvary0c5xw7kv8f3t4', None, None]

A column is any of

- what has `__arrow_c_array__` or `__arrow_c_stream__` (pyarrow, polars, DuckDB, nanoarrow, pandas with types of Arrow): its
  buffers are read where they are;
- a NumPy array of bytes (dtype `S62`), read where it is too, or of texts (`U62`), or of objects;
- a list, or a pandas Series, of `str`, `bytes` or None (NaN and `pandas.NA` are null too), copied once;
- the lines of a file's bytes, by `of_lines`.

No row raises: each has its number, 0 where it is accepted, NULL_ROW, BAD_ROW, OTHER_HRP, or that of a refusal, and `message`
says it. Results are NumPy arrays, and `Rows`, which other libraries take by `__arrow_c_array__` without a copy. `threads` cuts
a column into parts; other threads of Python run meanwhile. `progress` is called, now and then, with the rows that are
done; Ctrl-C ends a call between two parts.
"""

import ctypes
import weakref
from concurrent.futures import FIRST_COMPLETED, ThreadPoolExecutor, wait
from operator import index
from typing import Any, Callable, List, Mapping, NamedTuple, Optional, Tuple, Union

import numpy as np

from . import _arrow, _declared, _library
from .segwit import part_of
from .texts import Checksum

NULL_ROW = _declared.BECH32_NULL_ROW
"""The row is null."""

BAD_ROW = _declared.BECH32_BAD_NUMBER
"""The offsets of the row, or its bit of validity, do not lie in the column."""

OTHER_HRP = _declared.BECH32_OTHER_HRP
"""The address has another human-readable part than is wanted."""

Progress = Optional[Callable[[int], Any]]

_LAYOUTS = {np.dtype(np.int32): _library.OFFSETS_32, np.dtype(np.int64): _library.OFFSETS_64}
_MAX_PROGRAM, _MAX_ADDRESS = _library.MAX_PROGRAM, _library.MAX_ADDRESS
# The most rows of one call: it takes some hundredths of a second, and after it Ctrl-C is noticed.
_ROWS = 1 << 18
# Room for all rows is made at once if it has at most this many bytes: what is not written of it takes no memory.
_ROOM = 1 << 30
# Above this many rows the offsets of all rows have 64 bits.
_SMALL = (2**31 - 1) // _MAX_ADDRESS


def message(number: int) -> str:
    """The sentence of a number; of 0 it is empty.

    >>> columns.message(columns.NULL_ROW)
    'the row is null'
    """
    if number == BAD_ROW:
        return "the offsets of the row do not lie in the column"
    text, length = ctypes.create_string_buffer(100), ctypes.c_size_t()
    _library.message(index(number), text, 100, ctypes.byref(length))
    return text.raw[: length.value].decode("ascii")


def _held(count: int, kind: Any) -> Any:
    # A NumPy array in memory that readers of Arrow may hold after it.
    size = count * np.dtype(kind).itemsize
    place = _library.hold(size)
    if place is None:
        raise MemoryError
    memory = (ctypes.c_uint8 * max(size, 1)).from_address(place)
    weakref.finalize(memory, _library.drop, place)
    return np.frombuffer(memory, kind, count)


def _place(array: Optional[Any]) -> Optional[int]:
    return None if array is None else array.ctypes.data


def _bytes(array: Any, first: int = 0) -> ctypes.c_char_p:
    return ctypes.c_char_p(array.ctypes.data + first)


def _offsets(array: Any) -> Any:
    return array.ctypes.data_as(ctypes.POINTER(ctypes.c_int32))


class Rows:
    """Rows of bytes or of texts, as Arrow lays them out: `len`, items, and `to_list`. A row without a result is None."""

    def __init__(self, offsets: Any, data: Any, numbers: Any, is_text: bool) -> None:
        self.offsets, self.data, self.is_text = offsets, data, is_text
        self.validity = _held((len(numbers) + 7) // 8, np.uint8)
        accepted = ctypes.c_size_t()
        _stop(_library.validity_of(_bytes(numbers), len(numbers), _bytes(self.validity), len(self.validity), accepted))
        self.null_count = len(numbers) - accepted.value

    def __len__(self) -> int:
        return len(self.offsets) - 1

    def __getitem__(self, place: int) -> Union[None, bytes, str]:
        at = range(len(self))[place]
        if not self.validity[at >> 3] >> (at & 7) & 1:
            return None
        row: bytes = self.data[self.offsets[at] : self.offsets[at + 1]].tobytes()
        return row.decode("ascii") if self.is_text else row

    def to_list(self) -> List[Any]:
        """The rows as `str` or `bytes`, and None."""
        offsets = self.offsets.tolist()
        whole: Any = self.data[: offsets[-1]].tobytes()
        if self.is_text:
            whole = whole.decode("ascii")
        rows = [whole[start:end] for start, end in zip(offsets, offsets[1:])]
        if self.null_count:
            bits = np.unpackbits(self.validity, count=len(self), bitorder="little")
            for at in np.flatnonzero(bits == 0).tolist():
                rows[at] = None
        return rows

    def __arrow_c_schema__(self) -> Any:
        return _arrow.schema_capsule(self.is_text, self.offsets.dtype == np.int64)

    def __arrow_c_array__(self, requested_schema: Any = None) -> Tuple[Any, Any]:
        places = _place(self.validity) if self.null_count else None, _place(self.offsets), _place(self.data)
        return self.__arrow_c_schema__(), _arrow.array_capsule(len(self), self.null_count, *places)


class Lines(NamedTuple):
    """The lines of a file's bytes, as a column."""

    offsets: Any
    data: Any
    validity: Any = None


def of_lines(block: bytes) -> Lines:
    """The lines of bytes as a column, without the ends of lines; what stands behind the last end is a line too.

    >>> columns.check(columns.of_lines(b"a12uel5l\\na12uel5q\\n")).tolist()
    [0, 33]
    """
    data = np.frombuffer(block, np.uint8)
    ends = np.flatnonzero(data == ord("\n"))
    if len(data) and (not len(ends) or ends[-1] != len(data) - 1):
        ends = np.append(ends, len(data))
    offsets = np.zeros(len(ends) + 1, np.int64)
    # Without the ends before them.
    offsets[1:] = ends - np.arange(len(ends))
    return Lines(offsets, np.frombuffer(block.replace(b"\n", b""), np.uint8))


class Addresses(NamedTuple):
    """What segwit addresses hold, an item a row."""

    numbers: Any
    """0, or why there is nothing: `message` says it. NumPy, uint8."""

    versions: Any
    """The witness versions; 0 where the number is not 0. NumPy, uint8."""

    hrp_lengths: Any
    """How long the human-readable part is, with which the text begins; 0 where the number is not 0. NumPy, uint8."""

    programs: Rows
    """The witness programs, None where the number is not 0."""


class Texts(NamedTuple):
    """Addresses that were written, an item a row."""

    numbers: Any
    """0, or why there is no address. NumPy, uint8."""

    texts: Rows
    """The addresses, in lower case, None where the number is not 0."""

    def to_list(self) -> List[Optional[str]]:
        """The addresses, and None."""
        return self.texts.to_list()


class _Piece(NamedTuple):
    # A column as the library takes it, its first row, and what its buffers belong to.
    column: _library.Column
    first: int
    kept: Any


def _laid(offsets: Any, data: Any, validity: Any = None) -> _Piece:
    offsets, data = np.ascontiguousarray(offsets), np.ascontiguousarray(data)
    column = _library.Column(
        *(_place(data), data.nbytes, _place(offsets), offsets.nbytes),
        *(_place(validity), 0 if validity is None else validity.nbytes),
        *(len(offsets) - 1, 0, _LAYOUTS[offsets.dtype]),
    )
    return _Piece(column, 0, (offsets, data, validity))


def _fixed(array: Any) -> _Piece:
    array = np.ascontiguousarray(array)
    rows, width = len(array), array.dtype.itemsize
    column = _library.Column(_place(array), array.nbytes, None, 0, None, 0, rows, width, _library.FIXED_ZERO)
    return _Piece(column, 0, array)


def _octets(row: Any) -> bytes:
    # Half of a surrogate pair has no bytes in UTF-8: what is made of it here is refused by its number.
    return row.encode("utf-8", "surrogatepass") if isinstance(row, str) else bytes(row)


def _is_null(row: Any) -> bool:
    if row is None:
        return True
    if isinstance(row, (str, bytes, bytearray, memoryview)):
        return False
    # NaN and NaT are not equal to themselves, and pandas.NA is neither.
    same = row == row
    if not isinstance(same, (bool, np.bool_)) or not same:
        return True
    raise TypeError(f"a row is a text, bytes or null, and not {type(row).__name__}")


def _joined_texts(rows: List[Any]) -> Optional[str]:
    try:
        return "".join(rows)
    except TypeError:
        return None


def _listed(rows: List[Any]) -> _Piece:
    count, validity = len(rows), None
    joined = _joined_texts(rows)
    if joined is None:
        nulls = [at for at, row in enumerate(rows) if _is_null(row)]
        if nulls:
            bits = np.ones(count, np.uint8)
            bits[nulls] = 0
            validity = np.packbits(bits, bitorder="little")
            rows = rows.copy()
            for at in nulls:
                rows[at] = ""
        joined = _joined_texts(rows)
    if joined is not None and joined.isascii():
        data = np.frombuffer(joined.encode("ascii"), np.uint8)
    else:
        rows = [_octets(row) for row in rows]
        data = np.frombuffer(b"".join(rows), np.uint8)
    offsets = np.zeros(count + 1, np.int64)
    np.cumsum(np.fromiter(map(len, rows), np.int64, count), out=offsets[1:])
    return _laid(offsets, data, validity)


def _pieces(column: Any) -> List[_Piece]:
    # A column as the library takes it.
    if isinstance(column, (Rows, Lines)):
        return [_laid(column.offsets, column.data, column.validity)]
    if hasattr(column, "__arrow_c_stream__") or hasattr(column, "__arrow_c_array__"):
        return [_of_arrow(it) for it in _arrow.arrays_of(column)]
    is_plain = isinstance(column, np.ndarray) and not isinstance(column, np.ma.MaskedArray)
    if is_plain and column.ndim == 1 and column.dtype.kind == "S" and column.dtype.itemsize:
        return [_fixed(column)]
    if isinstance(column, (str, bytes, bytearray)):
        raise TypeError("a column is wanted, and not one text")
    # Iterated, these give their names or keys: a table of pandas, an array of rows and columns, a dict.
    if getattr(column, "ndim", 1) != 1 or isinstance(column, Mapping):
        raise TypeError(f"one column is wanted, such as table['address'], and not a {type(column).__name__}")
    return [_listed(column.tolist() if hasattr(column, "tolist") else list(column))]


def _of_arrow(array: _arrow.Array) -> _Piece:
    layouts = {"u": _library.OFFSETS_32, "z": _library.OFFSETS_32, "U": _library.OFFSETS_64, "Z": _library.OFFSETS_64}
    rows = array.offset + array.length
    if array.format == "n":
        return _listed([None] * array.length)
    if array.format in ("vu", "vz"):
        return _of_views(array)
    bits, bits_length = array.buffers[0] if array.buffers else None, 0
    if bits is not None:
        bits_length = (rows + 7) // 8
    if array.format in layouts:
        kind = ctypes.c_int32 if layouts[array.format] == _library.OFFSETS_32 else ctypes.c_int64
        offsets, size = array.buffers[1], ctypes.sizeof(kind)
        if not offsets:
            # Arrow lets a column without rows have no offsets.
            return _laid(np.zeros(1, np.int32), np.zeros(0, np.uint8))
        # The interface does not say how long the bytes are: the last offset does.
        length = max(kind.from_address(offsets + rows * size).value, 0)
        column = _library.Column(
            *(array.buffers[2], length, offsets, (rows + 1) * size, bits, bits_length, rows, 0, layouts[array.format])
        )
    elif array.format.startswith("w:"):
        width = int(array.format[2:])
        column = _library.Column(
            *(array.buffers[1], rows * width, None, 0, bits, bits_length, rows, width, _library.FIXED)
        )
    else:
        raise TypeError(f"a column of texts or bytes is wanted, and not of Arrow's format {array.format!r}")
    return _Piece(column, array.offset, array)


# A row of Arrow's views: its length, and its first bytes; or, of more than twelve, where they are.
_VIEW = np.dtype([("length", np.int32), ("first", np.int32), ("buffer", np.int32), ("offset", np.int32)])


def _buffer(place: Optional[int], kind: Any, count: int) -> Any:
    # What stands at a place.
    size = count * np.dtype(kind).itemsize
    if not size:
        return np.zeros(0, kind)
    return np.frombuffer((ctypes.c_uint8 * size).from_address(place or 0), kind, count)


def _of_views(array: _arrow.Array) -> _Piece:
    # Copied: the library reads rows that stand one behind another. The first block has the bytes in the views themselves.
    rows, sizes = array.offset + array.length, array.buffers[-1]
    views = _buffer(array.buffers[1], _VIEW, rows)[array.offset :]
    places = zip(array.buffers[2:-1], _buffer(sizes, np.int64, len(array.buffers) - 3).tolist())
    blocks = [views.view(np.uint8), *(_buffer(place, np.uint8, size) for place, size in places)]
    bits = np.ones(array.length, np.uint8)
    if array.buffers[0]:
        all_bits = np.unpackbits(_buffer(array.buffers[0], np.uint8, (rows + 7) // 8), bitorder="little")
        bits = all_bits[array.offset : rows]
    lengths = views["length"].astype(np.int64) * bits
    is_short = lengths <= 12
    block = np.where(is_short, 0, views["buffer"] + 1)
    starts = np.where(is_short, 16 * np.arange(array.length) + 4, views["offset"])
    if ((lengths < 0) | (block < 0) | (block >= len(blocks)) | (starts < 0)).any() or (
        starts + lengths > np.array([len(it) for it in blocks])[block]
    ).any():
        raise ValueError("a row of views does not lie in its buffers")
    offsets = np.concatenate([np.zeros(1, np.int64), np.cumsum(lengths)])
    data = np.empty(offsets[-1], np.uint8)
    for at, of in enumerate(blocks):
        own = np.flatnonzero(block == at)
        for first in range(0, len(own), _ROWS // 8):
            part = own[first : first + _ROWS // 8]
            count = lengths[part]
            step = np.arange(count.sum()) - np.repeat(np.cumsum(count) - count, count)
            data[np.repeat(offsets[part], count) + step] = of[np.repeat(starts[part], count) + step]
    return _laid(offsets, data, np.packbits(bits, bitorder="little"))


class _Part(NamedTuple):
    # Some rows of a piece: the first of them in it, and in the whole column.
    piece: _Piece
    first: int
    count: int
    at: int


def _parts(pieces: List[_Piece], threads: int) -> Tuple[int, List[_Part]]:
    total = sum(it.column.rows - it.first for it in pieces)
    size = max(1, min(_ROWS, -(-total // threads)))
    parts, at = [], 0
    for it in pieces:
        for first in range(it.first, it.column.rows, size):
            count = min(size, it.column.rows - first)
            parts.append(_Part(it, first, count, at))
            at += count
    return total, parts


def _each(work: Callable[[_Part], Any], parts: List[_Part], threads: int, progress: Progress) -> List[Any]:
    # What is made of each part, by some threads; between parts Ctrl-C is seen, and progress is told.
    done, made = 0, {}
    if threads == 1 or len(parts) < 2:
        for at, part in enumerate(parts):
            made[at] = work(part)
            done = _told(progress, done + part.count)
        return [made[at] for at in range(len(parts))]
    with ThreadPoolExecutor(threads) as pool:
        waiting = {pool.submit(work, part): at for at, part in enumerate(parts)}
        try:
            while waiting:
                for future in wait(waiting, return_when=FIRST_COMPLETED).done:
                    at = waiting.pop(future)
                    made[at] = future.result()
                    done = _told(progress, done + parts[at].count)
        finally:
            for future in waiting:
                future.cancel()
    return [made[at] for at in range(len(parts))]


def _told(progress: Progress, done: int) -> int:
    if progress is not None:
        progress(done)
    return done


def _stop(number: int) -> None:
    if number:
        raise ValueError(message(number))


def _many(threads: int) -> int:
    count = _library.whole(threads, "threads")
    if count < 1:
        raise ValueError(f"threads must be at least 1, not {count}")
    return count


def _part_of(hrp: str) -> bytes:
    if not isinstance(hrp, str):
        raise TypeError(f"hrp must be a str, not {type(hrp).__name__}")
    return hrp.encode("utf-8", "surrogatepass")


def check(texts: Any, checksum: Optional[Checksum] = None, threads: int = 1, progress: Progress = None) -> Any:
    """Tests each row by a checksum, or where it is None by Bech32m and Bech32. Returns the numbers: 0 is accepted."""
    if checksum is not None and not isinstance(checksum, Checksum):
        raise TypeError(f"checksum must be a Checksum or None, not {type(checksum).__name__}")
    number, pieces = 0 if checksum is None else checksum.value, _pieces(texts)
    threads = _many(threads)
    total, parts = _parts(pieces, threads)
    numbers = np.empty(total, np.uint8)

    def work(part: _Part) -> None:
        _stop(_library.check_many(number, part.piece.column, part.first, _bytes(numbers, part.at), part.count))

    _each(work, parts, threads, progress)
    return numbers


def decode(texts: Any, hrp: Optional[str] = None, threads: int = 1, progress: Progress = None) -> Addresses:
    """Decodes segwit addresses. Name the human-readable part of your network: other addresses then have the number
    OTHER_HRP. Where it is None any is accepted, and yours to compare.

    Raises, of a part that is none, `HrpTooLong`, `HrpNotAscii`, `HrpInvalid` or `HrpMixedCase`."""
    if hrp == "":
        raise ValueError("no address has an empty human-readable part")
    wanted, threads = b"" if hrp is None else part_of(hrp), _many(threads)
    total, parts = _parts(_pieces(texts), threads)
    numbers, versions, lengths = (np.empty(total, np.uint8) for _ in range(3))

    def put(part: _Part, own: Any, data: Any) -> None:
        done = ctypes.c_size_t()
        _stop(
            _library.segwit_decode_many(
                *(part.piece.column, part.first, wanted, len(wanted), _bytes(numbers, part.at), part.count),
                *(_bytes(versions, part.at), part.count, _bytes(lengths, part.at), part.count),
                *(_offsets(own), len(own), _bytes(data), len(data), done),
            )
        )

    return Addresses(numbers, versions, lengths, Rows(*_made(put, parts, threads, progress, _MAX_PROGRAM), numbers, False))


def _made(put: Callable[[_Part, Any, Any], None], parts: List[_Part], threads: int, progress: Progress, most: int) -> Tuple[Any, Any]:
    # The offsets and the bytes of all rows: `put` puts those of a part, and a row has at most `most` bytes.
    total = sum(it.count for it in parts)
    if total * most > _ROOM or (threads > 1 and len(parts) > 1):
        return _gathered(put, parts, threads, progress, most)
    offsets, data = _held(total + 1, np.int32), _held(total * most, np.uint8)
    offsets[0] = end = 0

    def work(part: _Part) -> None:
        # Where they stay, behind those of the parts before.
        nonlocal end
        own = offsets[part.at : part.at + part.count + 1]
        put(part, own, data[end:])
        if end:
            own += end
        end = int(own[-1])

    _each(work, parts, 1, progress)
    return offsets, data[:end]


def _gathered(
    put: Callable[[_Part, Any, Any], None], parts: List[_Part], threads: int, progress: Progress, most: int
) -> Tuple[Any, Any]:
    # The same of parts that are put beside one another, and then one behind another.
    def work(part: _Part) -> Tuple[_Part, Any, Any]:
        own, data = np.empty(part.count + 1, np.int32), np.empty(part.count * most, np.uint8)
        put(part, own, data)
        return part, own, data[: own[-1]]

    made, total = _each(work, parts, threads, progress), sum(it.count for it in parts)
    offsets = _held(total + 1, np.int32 if total <= _SMALL else np.int64)
    data = _held(sum(len(it[2]) for it in made), np.uint8)
    offsets[0] = end = 0
    for part, own, bytes_of in made:
        offsets[part.at + 1 : part.at + part.count + 1] = own[1:]
        offsets[part.at + 1 : part.at + part.count + 1] += end
        data[end : end + len(bytes_of)] = bytes_of
        end += len(bytes_of)
    return offsets, data


def encode(hrp: str, versions: Any, programs: Any, threads: int = 1, progress: Progress = None) -> Texts:
    """Encodes segwit addresses of one human-readable part: a version and a program for each.

    Raises `ValueError` where there are not as many versions as programs.
    """
    part_of, threads = _part_of(hrp), _many(threads)
    total, parts = _parts(_pieces(programs), threads)
    versions = np.asarray(versions)
    if versions.shape != (total,):
        raise ValueError("there are not as many versions as programs")
    if total and versions.dtype.kind not in "iu":
        raise TypeError("a witness version is a whole number")
    # Of one that no element has, the number is that of one above 16.
    versions = np.where((versions >= 0) & (versions <= 31), versions, 31)
    versions, numbers = np.ascontiguousarray(versions, np.uint8), np.empty(total, np.uint8)

    def put(part: _Part, own: Any, data: Any) -> None:
        done = ctypes.c_size_t()
        _stop(
            _library.segwit_encode_many(
                *(part_of, len(part_of), _bytes(versions, part.at), part.count),
                *(part.piece.column, part.first, _bytes(numbers, part.at), part.count),
                *(_offsets(own), len(own), _bytes(data), len(data), done),
            )
        )

    return Texts(numbers, Rows(*_made(put, parts, threads, progress, _MAX_ADDRESS), numbers, True))
