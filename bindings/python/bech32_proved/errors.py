"""Why a call refuses what it is given. Each class is a `Refused`, which is a `ValueError`.

A call names the first fault that applies. These raise the first of:

- `encode`: HrpEmpty, HrpTooLong, HrpNotAscii, HrpInvalid, HrpMixedCase, EncodedTooLong.
- `decode`: InvalidCharacter, MixedCase, NoSeparator, HrpEmpty, HrpTooLong, HrpNotAscii, HrpInvalid,
  HrpMixedCase; TextTooLong, NoChecksum, WrongChecksum.
- `decode_strict`: InvalidCharacter, MixedCase, NoSeparator, HrpEmpty, HrpTooLong, HrpNotAscii, HrpInvalid,
  HrpMixedCase; TextTooLong, NoChecksum, WrongChecksum; PaddingTooLong, PaddingNotZero.
- `decode_elements`: InvalidCharacter, MixedCase, NoSeparator, HrpEmpty, HrpTooLong, HrpNotAscii, HrpInvalid,
  HrpMixedCase; TextTooLong, NoChecksum, WrongChecksum.
- `encode_elements`: HrpEmpty, HrpTooLong, HrpNotAscii, HrpInvalid, HrpMixedCase, EncodedTooLong, BadElement.
- `check`: InvalidCharacter, MixedCase, NoSeparator, HrpEmpty, HrpTooLong, HrpNotAscii, HrpInvalid,
  HrpMixedCase; TextTooLong, NoChecksum, WrongChecksum.
- `segwit.encode`: HrpEmpty, HrpTooLong, HrpNotAscii, HrpInvalid, HrpMixedCase, BadVersion, ProgramTooShort,
  ProgramTooLong, ProgramNotV0, EncodedAddressTooLong.
- `segwit.decode`: AddressTooLong; InvalidCharacter, MixedCase, NoSeparator, HrpEmpty, HrpTooLong,
  HrpNotAscii, HrpInvalid, HrpMixedCase; NoData, BadVersion; NoChecksum, WrongChecksum; NoData,
  PaddingTooLong, PaddingNotZero, ProgramTooShort, ProgramTooLong, ProgramNotV0.
- `liquid.encode`: HrpEmpty, HrpTooLong, HrpNotAscii, HrpInvalid, HrpMixedCase, BadVersion,
  UnsupportedVersion, ProgramTooShort, ProgramTooLong, ProgramNotV0.
- `liquid.decode`: InvalidCharacter, MixedCase, NoSeparator, HrpEmpty, HrpTooLong, HrpNotAscii, HrpInvalid,
  HrpMixedCase; NoData, BadVersion, UnsupportedVersion; TextTooLong, NoChecksum, WrongChecksum; NoData,
  PaddingTooLong, PaddingNotZero; NoBlindingKey; ProgramTooShort, ProgramTooLong, ProgramNotV0.
- `descriptor.checksum`: NotInDescriptor.
- `descriptor.check`: NoDescriptorChecksum, NotInDescriptor, WrongChecksum.
- `codex32.parse`: InvalidCharacter, MixedCase, NoSeparator, HrpEmpty, HrpTooLong, HrpNotAscii, HrpInvalid,
  HrpMixedCase; BadLength; NotMs; WrongChecksum; BadThreshold; BadShareIndex.
- `codex32.share`: InvalidCharacter, MixedCase, NoSeparator, HrpEmpty, HrpTooLong, HrpNotAscii, HrpInvalid,
  HrpMixedCase; BadLength; NotMs; WrongChecksum; BadThreshold; BadShareIndex; BitsLeftOver.
- `codex32.propose`: InvalidCharacter, MixedCase, NoSeparator, HrpEmpty, HrpTooLong, HrpNotAscii, HrpInvalid,
  HrpMixedCase; BadLength; NotMs.
- `codex32.propose_long`: InvalidCharacter, MixedCase, NoSeparator, HrpEmpty, HrpTooLong, HrpNotAscii,
  HrpInvalid, HrpMixedCase; BadLength; NotMs.
- `codex32.encode`: BadThreshold, BadIdentifier, NoShareIndex, BadShareIndex, BadSize.
- `codex32.encode_payload`: BadThreshold, BadIdentifier, NoShareIndex, BadShareIndex; InvalidCharacter,
  MixedCase, BadSize.
- `codex32.derive`: NoShareIndex; InvalidCharacter, MixedCase, NoSeparator, HrpEmpty, HrpTooLong, HrpNotAscii,
  HrpInvalid, HrpMixedCase; BadLength; NotMs; WrongChecksum; BadThreshold; BadShareIndex; OtherSet,
  IndexTwice, BadShareIndex, TooFewShares, Contradiction.
- `codex32.split`: BadThreshold, BadIdentifier, BadShareIndex, BadSize, BadCount, BadRandom, EqualRandom.
- `codex32.recover`: InvalidCharacter, MixedCase, NoSeparator, HrpEmpty, HrpTooLong, HrpNotAscii, HrpInvalid,
  HrpMixedCase; BadLength; NotMs; WrongChecksum; BadThreshold; BadShareIndex; OtherSet, IndexTwice,
  TooFewShares, Contradiction; BitsLeftOver.

Made by tools/make from docs/refusals.tsv; do not edit.
"""

from typing import Dict, Type

from ._refused import Refused as Refused


class NullRow(Refused):
    """The row is null."""

    sentence = "the row is null"
    number = 1


class NotUnicode(Refused):
    """The text holds half of a surrogate pair, which is no character."""

    sentence = "the text holds half of a surrogate pair, which is no character"
    number = 2


class HrpEmpty(Refused):
    """The human-readable part is empty."""

    sentence = "the human-readable part is empty"
    number = 11


class HrpTooLong(Refused):
    """The human-readable part has more than 83 bytes."""

    sentence = "the human-readable part has more than 83 bytes"
    number = 12


class HrpNotAscii(Refused):
    """The human-readable part has a character that is not ASCII."""

    sentence = "the human-readable part has a character that is not ASCII"
    number = 13


class HrpInvalid(Refused):
    """The human-readable part has a character whose code is not from 33 to 126."""

    sentence = "the human-readable part has a character whose code is not from 33 to 126"
    number = 14


class HrpMixedCase(Refused):
    """The human-readable part has letters of both cases."""

    sentence = "the human-readable part has letters of both cases"
    number = 15


class InvalidCharacter(Refused):
    """A character behind the separator may not stand there."""

    sentence = "a character behind the separator may not stand there"
    number = 21


class MixedCase(Refused):
    """The text has letters of both cases."""

    sentence = "the text has letters of both cases"
    number = 22


class NoSeparator(Refused):
    """The text has no separator, `1`."""

    sentence = "the text has no separator, '1'"
    number = 23


class TextTooLong(Refused):
    """The text has more than 1023 characters (7089 by a long checksum)."""

    sentence = "the text has more than 1023 characters (7089 by a long checksum)"
    number = 31


class NoChecksum(Refused):
    """Too few characters for a checksum stand behind the separator."""

    sentence = "too few characters for a checksum stand behind the separator"
    number = 32


class WrongChecksum(Refused):
    """The checksum is wrong."""

    sentence = "the checksum is wrong"
    number = 33


class NoCorrection(Refused):
    """No correction of so few characters mends the text."""

    sentence = "no correction of so few characters mends the text"
    number = 34


class AddressTooLong(Refused):
    """The text has more than 90 characters."""

    sentence = "the text has more than 90 characters"
    number = 41


class NoData(Refused):
    """The address has no witness version."""

    sentence = "the address has no witness version"
    number = 42


class BadVersion(Refused):
    """The witness version is not from 0 to 16."""

    sentence = "the witness version is not from 0 to 16"
    number = 43


class PaddingTooLong(Refused):
    """More than four bits stand behind the last whole byte."""

    sentence = "more than four bits stand behind the last whole byte"
    number = 44


class PaddingNotZero(Refused):
    """The bits behind the last whole byte are not all zero."""

    sentence = "the bits behind the last whole byte are not all zero"
    number = 45


class ProgramTooShort(Refused):
    """The witness program has less than 2 bytes."""

    sentence = "the witness program has less than 2 bytes"
    number = 46


class ProgramTooLong(Refused):
    """The witness program has more than 40 bytes."""

    sentence = "the witness program has more than 40 bytes"
    number = 47


class ProgramNotV0(Refused):
    """A witness program of version 0 has 20 or 32 bytes."""

    sentence = "a witness program of version 0 has 20 or 32 bytes"
    number = 48


class OtherHrp(Refused):
    """The address has another human-readable part than is wanted."""

    sentence = "the address has another human-readable part than is wanted"
    number = 49


class EncodedTooLong(Refused):
    """The text would have more than 1023 characters (7089 by a long checksum)."""

    sentence = "the text would have more than 1023 characters (7089 by a long checksum)"
    number = 51


class EncodedAddressTooLong(Refused):
    """The address would have more than 90 characters."""

    sentence = "the address would have more than 90 characters"
    number = 53


class BadSize(Refused):
    """There are neither 16 to 44 bytes nor 63 or 64."""

    sentence = "there are neither 16 to 44 bytes nor 63 or 64"
    number = 56


class BadRandom(Refused):
    """There are not as many random bytes as characters are drawn."""

    sentence = "there are not as many random bytes as characters are drawn"
    number = 66


class BadElement(Refused):
    """An element is above 31."""

    sentence = "an element is above 31"
    number = 67


class EqualRandom(Refused):
    """The random bytes are all equal."""

    sentence = "the random bytes are all equal"
    number = 68


class UnsupportedVersion(Refused):
    """A confidential address of another witness version than 0 is not supported."""

    sentence = "a confidential address of another witness version than 0 is not supported"
    number = 70


class TooFewShares(Refused):
    """There are fewer shares than the threshold."""

    sentence = "there are fewer shares than the threshold"
    number = 74


class OtherSet(Refused):
    """A share has another threshold, identifier or length than the first."""

    sentence = "a share has another threshold, identifier or length than the first"
    number = 75


class IndexTwice(Refused):
    """Two shares have one index."""

    sentence = "two shares have one index"
    number = 76


class Contradiction(Refused):
    """The shares contradict each other."""

    sentence = "the shares contradict each other"
    number = 77


class BadCount(Refused):
    """There are fewer shares than the threshold, or more than 31."""

    sentence = "there are fewer shares than the threshold, or more than 31"
    number = 78


class NoBlindingKey(Refused):
    """A confidential address has less than 33 bytes behind its version."""

    sentence = "a confidential address has less than 33 bytes behind its version"
    number = 79


class NotInDescriptor(Refused):
    """A character may not stand in a descriptor, or not in its checksum."""

    sentence = "a character may not stand in a descriptor, or not in its checksum"
    number = 80


class NotMs(Refused):
    """The human-readable part is not `ms`."""

    sentence = "the human-readable part is not 'ms'"
    number = 81


class BadLength(Refused):
    """A codex32 string has 48 to 93 characters, a long one 125 to 127."""

    sentence = "a codex32 string has 48 to 93 characters, a long one 125 to 127"
    number = 82


class BadThreshold(Refused):
    """The threshold is neither 0 nor a digit from 2 to 9."""

    sentence = "the threshold is neither 0 nor a digit from 2 to 9"
    number = 83


class BadShareIndex(Refused):
    """The threshold is 0, and the share index is not `s`."""

    sentence = "the threshold is 0, and the share index is not 's'"
    number = 84


class BadIdentifier(Refused):
    """The identifier is not four characters of the alphabet in one case."""

    sentence = "the identifier is not four characters of the alphabet in one case"
    number = 85


class NoShareIndex(Refused):
    """The share index is not one character of the alphabet."""

    sentence = "the share index is not one character of the alphabet"
    number = 86


class BitsLeftOver(Refused):
    """More than four bits stand behind the bytes of the payload."""

    sentence = "more than four bits stand behind the bytes of the payload"
    number = 87


class NoDescriptorChecksum(Refused):
    """The text does not end in `#` and eight characters."""

    sentence = "the text does not end in '#' and eight characters"
    number = 88


class DescriptorTooLong(Refused):
    """The text has more than 7500 characters (1400 for two changes), too many to be mended."""

    sentence = "the text has more than 7500 characters (1400 for two changes), too many to be mended"
    number = 89


# Those for which bech32_fault gives the place of a character.
OF_A_CHARACTER = frozenset({13, 14, 21, 22})

# The refusals by the numbers of bech32.h and codex32.h.
BY_NUMBER: Dict[int, Type[Refused]] = {
    1: NullRow,
    2: NotUnicode,
    4: BadVersion,
    11: HrpEmpty,
    12: HrpTooLong,
    13: HrpNotAscii,
    14: HrpInvalid,
    15: HrpMixedCase,
    21: InvalidCharacter,
    22: MixedCase,
    23: NoSeparator,
    31: TextTooLong,
    32: NoChecksum,
    33: WrongChecksum,
    34: NoCorrection,
    41: AddressTooLong,
    42: NoData,
    43: BadVersion,
    44: PaddingTooLong,
    45: PaddingNotZero,
    46: ProgramTooShort,
    47: ProgramTooLong,
    48: ProgramNotV0,
    49: OtherHrp,
    51: EncodedTooLong,
    52: BadVersion,
    53: EncodedAddressTooLong,
    56: BadSize,
    66: BadRandom,
    67: BadElement,
    68: EqualRandom,
    70: UnsupportedVersion,
    74: TooFewShares,
    75: OtherSet,
    76: IndexTwice,
    77: Contradiction,
    78: BadCount,
    79: NoBlindingKey,
    80: NotInDescriptor,
    81: NotMs,
    82: BadLength,
    83: BadThreshold,
    84: BadShareIndex,
    85: BadIdentifier,
    86: NoShareIndex,
    87: BitsLeftOver,
    88: NoDescriptorChecksum,
    89: DescriptorTooLong,
}
