// Made by tools/make from bindings/java/src/bech32proved/Refusal.java.in and docs/refusals.tsv; do not edit.

package bech32proved;

/** Why something is refused: the numbers and sentences of bech32.h and codex32.h. */
public enum Refusal {
    /** The row is null. */
    NULL_ROW(1, false),
    /** A text or a human-readable part is not UTF-8. */
    NOT_UTF8(2, false),
    /** The number of no checksum, an element above 31, too many errors, or no such rows. */
    BAD_NUMBER(4, false),
    /** There are more than 32 texts, or their lengths do not add up to that of all. */
    BAD_LENGTHS(4, true),
    /** The human-readable part is empty. */
    HRP_EMPTY(11, false),
    /** The human-readable part has more than 83 bytes. */
    HRP_TOO_LONG(12, false),
    /** The human-readable part has a character that is not ASCII. */
    HRP_NOT_ASCII(13, false),
    /** The human-readable part has a byte that is not from 33 to 126. */
    HRP_INVALID(14, false),
    /** The human-readable part has letters of both cases. */
    HRP_MIXED_CASE(15, false),
    /** A character behind the separator may not stand there. */
    INVALID_CHARACTER(21, false),
    /** The text has letters of both cases. */
    MIXED_CASE(22, false),
    /** The text has no separator, {@code 1}. */
    NO_SEPARATOR(23, false),
    /** The text has more than 1023 characters (7089 by a long checksum). */
    TEXT_TOO_LONG(31, false),
    /** Too few characters for a checksum stand behind the separator. */
    NO_CHECKSUM(32, false),
    /** The checksum is wrong. */
    WRONG_CHECKSUM(33, false),
    /** No correction of the data part mends the text. */
    NO_CORRECTION(34, false),
    /** There is no nearest text. */
    NO_NEAREST(34, true),
    /** The text has more than 90 characters. */
    ADDRESS_TOO_LONG(41, false),
    /** The address has no witness version. */
    NO_DATA(42, false),
    /** Its witness version is above 16. */
    BAD_VERSION(43, false),
    /** More than four bits stand behind the last whole byte. */
    PADDING_TOO_LONG(44, false),
    /** The bits behind the last whole byte are not all zero. */
    PADDING_NOT_ZERO(45, false),
    /** The program has less than 2 bytes. */
    PROGRAM_TOO_SHORT(46, false),
    /** The program has more than 40 bytes. */
    PROGRAM_TOO_LONG(47, false),
    /** In version 0 the program has neither 20 nor 32 bytes. */
    PROGRAM_NOT_V0(48, false),
    /** The address has another human-readable part than is wanted. */
    OTHER_HRP(49, false),
    /** The text would have more than 1023 characters (7089 by a long checksum). */
    ENCODED_TOO_LONG(51, false),
    /** The witness version is above 16. */
    ENCODED_BAD_VERSION(52, false),
    /** The address would have more than 90 characters. */
    ENCODED_ADDRESS_TOO_LONG(53, false),
    /** There are neither 16 to 44 bytes nor 63 or 64. */
    BAD_SIZE(56, true),
    /** There are not as many random bytes as characters are drawn. */
    BAD_RANDOM(66, true),
    /** An element is above 31. */
    BAD_ELEMENT(67, false),
    /** The random bytes are all equal. */
    EQUAL_RANDOM(68, true),
    /** A confidential address of another witness version than 0 is not supported. */
    UNSUPPORTED_VERSION(70, false),
    /** There are fewer shares than the threshold. */
    TOO_FEW_SHARES(74, true),
    /** A share has another threshold, identifier or length than the first. */
    OTHER_SET(75, true),
    /** Two shares have one index. */
    INDEX_TWICE(76, true),
    /** The shares contradict each other. */
    CONTRADICTION(77, true),
    /** There are fewer shares than the threshold, or more than 31. */
    BAD_COUNT(78, true),
    /** A confidential address has less than 33 bytes behind its version. */
    NO_BLINDING_KEY(79, false),
    /** A character may not stand in a descriptor, or not in its checksum. */
    NOT_IN_DESCRIPTOR(80, false),
    /** The human-readable part is not {@code ms}. */
    NOT_MS(81, true),
    /** A codex32 string has 48 to 93 characters, a long one 125 to 127. */
    BAD_LENGTH(82, true),
    /** The threshold is neither 0 nor a digit from 2 to 9. */
    BAD_THRESHOLD(83, true),
    /** The threshold is 0, and the share index is not {@code s}. */
    BAD_SHARE_INDEX(84, true),
    /** The identifier is not four characters of the alphabet in one case. */
    BAD_IDENTIFIER(85, true),
    /** The share index is not one character of the alphabet. */
    NO_SHARE_INDEX(86, true),
    /** More than four bits stand behind the bytes of the payload. */
    BITS_LEFT_OVER(87, true),
    /** The text does not end in {@code #} and eight characters. */
    NO_DESCRIPTOR_CHECKSUM(88, false),
    /** The text has more than 7500 characters (1400 for two changes), too many to be mended. */
    DESCRIPTOR_TOO_LONG(89, false),
    /** The lent memory did not suffice. */
    NO_MEMORY(91, false),
    /** A buffer is too small. */
    NO_ROOM(92, false);

    private final int number;
    private final boolean isCodex32;

    Refusal(int number, boolean isCodex32) {
        this.number = number;
        this.isCodex32 = isCodex32;
    }

    /** The number in bech32.h or codex32.h. */
    public int number() {
        return number;
    }

    /** The sentence, in English, without a full stop. */
    public String sentence() {
        return Native.sentence(number, isCodex32);
    }

    /** The refusal of a number, of codex32.h where two have it. */
    static Refusal of(int number, boolean isCodex32) {
        Refusal found = null;
        for (Refusal refusal : values()) {
            if (refusal.number == number && (found == null || refusal.isCodex32 == isCodex32)) {
                found = refusal;
            }
        }
        if (found == null) {
            throw new IllegalStateException("no refusal has the number " + number);
        }
        return found;
    }
}
