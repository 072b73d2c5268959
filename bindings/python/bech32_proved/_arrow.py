"""The Arrow C data interface: buffers of other libraries, read where they are, and our own, handed over (arrow.c)."""

import ctypes
from typing import Any, List, NamedTuple, Optional

from . import _library

_POINTER, _LONG = ctypes.c_void_p, ctypes.c_int64


class _Schema(ctypes.Structure):
    pass


class _Array(ctypes.Structure):
    pass


class _Stream(ctypes.Structure):
    pass


_FREE_SCHEMA = ctypes.CFUNCTYPE(None, ctypes.POINTER(_Schema))
_FREE_ARRAY = ctypes.CFUNCTYPE(None, ctypes.POINTER(_Array))
_FREE_STREAM = ctypes.CFUNCTYPE(None, ctypes.POINTER(_Stream))

_Schema._fields_ = [
    *(("format", ctypes.c_char_p), ("name", ctypes.c_char_p), ("metadata", ctypes.c_char_p), ("flags", _LONG)),
    *(("n_children", _LONG), ("children", _POINTER), ("dictionary", _POINTER), ("release", _FREE_SCHEMA)),
    ("private_data", _POINTER),
]
_Array._fields_ = [
    *(("length", _LONG), ("null_count", _LONG), ("offset", _LONG), ("n_buffers", _LONG), ("n_children", _LONG)),
    *(("buffers", ctypes.POINTER(_POINTER)), ("children", _POINTER), ("dictionary", _POINTER)),
    *(("release", _FREE_ARRAY), ("private_data", _POINTER)),
]
_Stream._fields_ = [
    ("get_schema", ctypes.CFUNCTYPE(ctypes.c_int, ctypes.POINTER(_Stream), ctypes.POINTER(_Schema))),
    ("get_next", ctypes.CFUNCTYPE(ctypes.c_int, ctypes.POINTER(_Stream), ctypes.POINTER(_Array))),
    ("get_last_error", ctypes.CFUNCTYPE(ctypes.c_char_p, ctypes.POINTER(_Stream))),
    ("release", _FREE_STREAM),
    ("private_data", _POINTER),
]

_pointer = ctypes.pythonapi.PyCapsule_GetPointer
_pointer.restype, _pointer.argtypes = _POINTER, [ctypes.py_object, ctypes.c_char_p]
_capsule = ctypes.pythonapi.PyCapsule_New
_capsule.restype, _capsule.argtypes = ctypes.py_object, [_POINTER, ctypes.c_char_p, _POINTER]
_library.capsules(ctypes.cast(ctypes.pythonapi.PyCapsule_GetPointer, _POINTER))
_END_OF_SCHEMA = ctypes.cast(_library.end_schema, _POINTER)
_END_OF_ARRAY = ctypes.cast(_library.end_array, _POINTER)


class Array(NamedTuple):
    """An array of a library, which is released when the last that has it ends."""

    format: str
    length: int
    offset: int
    buffers: List[Optional[int]]
    """Where they are."""
    owner: Any


class _Owned:
    # A structure that was moved here, and is released at the end.

    def __init__(self, it: Any) -> None:
        self.it = it

    def __del__(self) -> None:
        if self.it.release:
            self.it.release(ctypes.byref(self.it))


def _moved(kind: Any, address: int) -> _Owned:
    # Takes a structure over: the one that was there counts as released.
    ours = kind()
    ctypes.memmove(ctypes.byref(ours), address, ctypes.sizeof(kind))
    theirs = kind.from_address(address)
    theirs.release = type(theirs.release)()
    return _Owned(ours)


def _read(schema: Any, owner: _Owned) -> Array:
    it = owner.it
    if it.dictionary:
        raise TypeError("a column of a dictionary's indices is not read here: cast it to texts first")
    buffers = [it.buffers[at] for at in range(it.n_buffers)]
    # The bits count only where there are nulls (-1: it is not known).
    if it.null_count == 0 and buffers:
        buffers[0] = None
    return Array(schema.format.decode(), it.length, it.offset, buffers, owner)


def arrays_of(column: Any) -> List[Array]:
    """The arrays of what has `__arrow_c_array__` or `__arrow_c_stream__`."""
    if hasattr(column, "__arrow_c_array__"):
        said, held = column.__arrow_c_array__()
        schema = _Schema.from_address(_pointer(said, b"arrow_schema"))
        return [_read(schema, _moved(_Array, _pointer(held, b"arrow_array")))]
    held = column.__arrow_c_stream__()
    stream = _moved(_Stream, _pointer(held, b"arrow_array_stream"))
    at = ctypes.byref(stream.it)
    schema = _Owned(_Schema())
    _stop(stream, stream.it.get_schema(at, ctypes.byref(schema.it)))
    found = []
    while True:
        array = _Owned(_Array())
        _stop(stream, stream.it.get_next(at, ctypes.byref(array.it)))
        if not array.it.release:
            return found
        found.append(_read(schema.it, array))


def _stop(stream: _Owned, status: int) -> None:
    if status:
        said = stream.it.get_last_error(ctypes.byref(stream.it))
        raise OSError(status, (said or b"the stream of arrays ended").decode())


def schema_capsule(is_text: bool, is_large: bool) -> Any:
    """A type's description."""
    return _capsule(_held(_library.new_schema(is_text, is_large)), b"arrow_schema", _END_OF_SCHEMA)


def array_capsule(length: int, null_count: int, validity: Optional[int], offsets: int, data: int) -> Any:
    """An array of memory that is held: the places of its buffers."""
    made = _library.new_array(length, null_count, validity, offsets, data)
    return _capsule(_held(made), b"arrow_array", _END_OF_ARRAY)


def _held(place: Optional[int]) -> int:
    if place is None:
        raise MemoryError
    return place
