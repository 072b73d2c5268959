"""Calls of the library that list texts, and that count them all even if there is too little room."""

import ctypes
from typing import Any, Callable, Tuple

from . import _declared
from ._library import MAX_TEXT, Lent, refuse

# The bytes that a search is lent: at first, with as many more for each character of a text; at most; and the factor
# by which they grow if they do not suffice.
LEAST_MEMORY, OF_A_CHARACTER, MOST_MEMORY, _GROWTH = 1 << 16, 512, 1 << 24, 8

# The lent memory does not suffice.
_NO_MEMORY = _declared.BECH32_NO_MEMORY

# A buffer is too small.
_NO_ROOM = _declared.BECH32_NO_ROOM


class Search:
    """Calls about one text, in memory that the next one has as well."""

    def __init__(self, text: str, data: bytes) -> None:
        self._text, self._data = text, data
        self._size = LEAST_MEMORY + OF_A_CHARACTER * min(len(data), MAX_TEXT)
        self._lent = Lent(self._size)

    def count(self, call: Callable[..., int], asked: Tuple[Any, ...], *room: Any) -> int:
        """How many texts there are in all. As many as fit are put into the room."""
        count = ctypes.c_size_t()
        while True:
            number = call(*asked, ctypes.byref(self._lent.memory), *room, ctypes.byref(count))
            if number != _NO_MEMORY or self._size >= MOST_MEMORY:
                break
            self._size = min(_GROWTH * self._size, MOST_MEMORY)
            self._lent = Lent(self._size)
        if number == _NO_MEMORY:
            raise MemoryError("there are more near texts than can be listed")
        if number not in (0, _NO_ROOM):
            refuse(number, self._text, self._data)
        return count.value


def texts(size: int) -> Tuple[Any, int]:
    """Room for texts of `size` bytes in all."""
    if size > MOST_MEMORY:
        raise MemoryError("there are more near texts than can be listed")
    return ctypes.create_string_buffer(max(size, 1)), size
