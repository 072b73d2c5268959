"""What all refusals have: `errors` has a class for each."""

from typing import Any, ClassVar, Optional, Tuple, Union

from . import _declared

# What is refused first in a text without a separator, and what is said of it.
_INVALID_CHARACTER = _declared.BECH32_INVALID_CHARACTER
_NO_SEPARATOR_AND_CHARACTER = "the text has no separator, '1', and a character that may not stand behind one"


def begins_character(byte: int) -> bool:
    """Whether a byte of UTF-8 is the first of a character."""
    return byte & 0xC0 != 0x80


class Refused(ValueError):
    """A call refuses what it is given.

    `text` is the text that is refused, where one is: what was given, and no copy of it. `place` is that of the
    character at fault, counted in characters from 0, and `character` that character, where one is. What is printed
    is for people: it names the character, and counts from 1. `number` is that of the refusal in `bech32.h` and
    `codex32.h`.
    """

    sentence: ClassVar[str] = "what was given is refused"
    number: int = 0
    text: Union[str, bytearray, None]
    place: Optional[int]

    def __init__(
        self, text: Union[str, bytearray, None] = None, place: Optional[int] = None, said: Optional[str] = None
    ) -> None:
        self.text, self.place = text, place
        # What is printed before the character: None for the sentence of the class.
        self._said = said
        super().__init__((said or self._sentence()) + self._where())

    @property
    def character(self) -> Optional[str]:
        """The character at fault, where one is."""
        if self.text is None or self.place is None:
            return None
        if isinstance(self.text, str):
            return self.text[self.place : self.place + 1] or None
        begins = [at for at, byte in enumerate(self.text) if begins_character(byte)]
        start, *rest = begins[self.place : self.place + 2] or [len(self.text)]
        return self.text[start : rest[0] if rest else None].decode("utf-8", "replace") or None

    def _sentence(self) -> str:
        # The sentence of the class, but for a text that has no separator for a character to stand behind.
        separator: Any = "1" if isinstance(self.text, str) else b"1"
        if self.number == _INVALID_CHARACTER and self.text is not None and separator not in self.text:
            return _NO_SEPARATOR_AND_CHARACTER
        return self.sentence

    def _where(self) -> str:
        character = self.character
        if self.place is None or character is None:
            return ""
        # What would not show, or may be taken for another, has its code point.
        shown = character if "!" <= character <= "~" else f"U+{ord(character):04X}"
        return f": character {self.place + 1}, {shown}"

    def __reduce__(self) -> Tuple[Any, ...]:
        # The arguments of an exception are its words; pickle and copy make one of what it was made of.
        return type(self), (self.text, self.place, self._said), self.__dict__
