// Made by tools/make from docs/refusals.tsv; do not edit.

/** Why a text, or what is to become one, is refused; and the place, where there is one. */
export type Code =
  /** The row is null. */
  | 'NULL_ROW'
  /** The human-readable part is empty; the place of the `1`. */
  | 'HRP_EMPTY'
  /** The human-readable part has more than 83 bytes; the place of the first byte too many. */
  | 'HRP_TOO_LONG'
  /** The human-readable part has a character that is not ASCII; the place of the character. */
  | 'HRP_NOT_ASCII'
  /** The human-readable part has a byte that is not from 33 to 126; the place of the character. */
  | 'HRP_INVALID'
  /** The human-readable part has letters of both cases; the place of the first letter of the other case. */
  | 'HRP_MIXED_CASE'
  /** A character behind the separator may not stand there; the place of the last such character, of the whole text where there is no `1`. */
  | 'INVALID_CHARACTER'
  /** The text has letters of both cases; the place of the first letter of the other case. */
  | 'MIXED_CASE'
  /** The text has no separator, `1`. */
  | 'NO_SEPARATOR'
  /** The text has more than 1023 characters (7089 by a long checksum); the place of the first one too many. */
  | 'TEXT_TOO_LONG'
  /** Too few characters for a checksum stand behind the separator; the place of the `1`. */
  | 'NO_CHECKSUM'
  /** The checksum is wrong. */
  | 'WRONG_CHECKSUM'
  /** The text has more than 90 characters; the place of the first one too many. */
  | 'ADDRESS_TOO_LONG'
  /** The address has no witness version; the place of the `1`. */
  | 'NO_DATA'
  /** Its witness version is above 16; the place of the version. */
  | 'BAD_VERSION'
  /** More than four bits stand behind the last whole byte; the place of the last character before the checksum. */
  | 'PADDING_TOO_LONG'
  /** The bits behind the last whole byte are not all zero; the place of the last character before the checksum. */
  | 'PADDING_NOT_ZERO'
  /** The program has less than 2 bytes. */
  | 'PROGRAM_TOO_SHORT'
  /** The program has more than 40 bytes. */
  | 'PROGRAM_TOO_LONG'
  /** In version 0 the program has neither 20 nor 32 bytes. */
  | 'PROGRAM_NOT_V0'
  /** The address has another human-readable part than is wanted. */
  | 'OTHER_HRP'
  /** The text would have more than 1023 characters (7089 by a long checksum). */
  | 'ENCODED_TOO_LONG'
  /** The witness version is above 16. */
  | 'ENCODED_BAD_VERSION'
  /** The address would have more than 90 characters. */
  | 'ENCODED_ADDRESS_TOO_LONG'
  /** There are neither 16 to 44 bytes nor 63 or 64. */
  | 'BAD_SIZE'
  /** There are not as many random bytes as characters are drawn. */
  | 'BAD_RANDOM'
  /** An element is above 31; the place of the element. */
  | 'BAD_ELEMENT'
  /** The random bytes are all equal. */
  | 'EQUAL_RANDOM'
  /** A confidential address of another witness version than 0 is not supported; the place of the version. */
  | 'UNSUPPORTED_VERSION'
  /** There are fewer shares than the threshold. */
  | 'TOO_FEW_SHARES'
  /** A share has another threshold, identifier or length than the first. */
  | 'OTHER_SET'
  /** Two shares have one index. */
  | 'INDEX_TWICE'
  /** The shares contradict each other. */
  | 'CONTRADICTION'
  /** There are fewer shares than the threshold, or more than 31. */
  | 'BAD_COUNT'
  /** A confidential address has less than 33 bytes behind its version. */
  | 'NO_BLINDING_KEY'
  /** A character may not stand in a descriptor, or not in its checksum; the place of the character. */
  | 'NOT_IN_DESCRIPTOR'
  /** The human-readable part is not `ms`; the place of the first other character. */
  | 'NOT_MS'
  /** A codex32 string has 48 to 93 characters, a long one 125 to 127; the place of the first one too many. */
  | 'BAD_LENGTH'
  /** The threshold is neither 0 nor a digit from 2 to 9; the place of the character. */
  | 'BAD_THRESHOLD'
  /** The threshold is 0, and the share index is not `s`; the place of the character. */
  | 'BAD_SHARE_INDEX'
  /** The identifier is not four characters of the alphabet in one case. */
  | 'BAD_IDENTIFIER'
  /** The share index is not one character of the alphabet. */
  | 'NO_SHARE_INDEX'
  /** More than four bits stand behind the bytes of the payload. */
  | 'BITS_LEFT_OVER'
  /** The text does not end in `#` and eight characters. */
  | 'NO_DESCRIPTOR_CHECKSUM'
  /** The text has more than 7500 characters (1400 for two changes), too many to be mended. */
  | 'DESCRIPTOR_TOO_LONG';
