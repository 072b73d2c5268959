// Made by tools/make from docs/refusals.tsv; do not edit.

// Hands the refusals of `include/bech32.h` to a macro, after what is given.
macro_rules! bech32_refusals {
    ($make:ident! $($front:tt)*) => {
        $make! { $($front)* {
            NullRow = 1, "the row is null";
            NotUtf8 = 2, "a text or a human-readable part is not UTF-8";
            BadNumber = 4, "the number of no checksum, an element above 31, too many errors, or no such rows";
            HrpEmpty = 11, "the human-readable part is empty";
            HrpTooLong = 12, "the human-readable part has more than 83 bytes";
            HrpNotAscii = 13, "the human-readable part has a character that is not ASCII";
            HrpInvalid = 14, "the human-readable part has a byte that is not from 33 to 126";
            HrpMixedCase = 15, "the human-readable part has letters of both cases";
            InvalidCharacter = 21, "a character behind the separator may not stand there";
            MixedCase = 22, "the text has letters of both cases";
            NoSeparator = 23, "the text has no separator, 1";
            TextTooLong = 31, "the text has more than 1023 characters (7089 by a long checksum)";
            NoChecksum = 32, "too few characters for a checksum stand behind the separator";
            WrongChecksum = 33, "the checksum is wrong";
            NoCorrection = 34, "no correction of the data part mends the text";
            AddressTooLong = 41, "the text has more than 90 characters";
            NoData = 42, "the address has no witness version";
            BadVersion = 43, "its witness version is above 16";
            PaddingTooLong = 44, "more than four bits stand behind the last whole byte";
            PaddingNotZero = 45, "the bits behind the last whole byte are not all zero";
            ProgramTooShort = 46, "the program has less than 2 bytes";
            ProgramTooLong = 47, "the program has more than 40 bytes";
            ProgramNotV0 = 48, "in version 0 the program has neither 20 nor 32 bytes";
            OtherHrp = 49, "the address has another human-readable part than is wanted";
            EncodedTooLong = 51, "the text would have more than 1023 characters (7089 by a long checksum)";
            EncodedBadVersion = 52, "the witness version is above 16";
            EncodedAddressTooLong = 53, "the address would have more than 90 characters";
            BadElement = 67, "an element is above 31";
            UnsupportedVersion = 70, "a confidential address of another witness version than 0 is not supported";
            NoBlindingKey = 79, "a confidential address has less than 33 bytes behind its version";
            NotInDescriptor = 80, "a character may not stand in a descriptor, or not in its checksum";
            NoDescriptorChecksum = 88, "the text does not end in # and eight characters";
            DescriptorTooLong = 89, "the text has more than 7500 characters (1400 for two changes), too many to be mended";
            NoMemory = 91, "the lent memory did not suffice";
            NoRoom = 92, "a buffer is too small";
        } }
    };
}
pub(crate) use bech32_refusals;

// Hands the refusals of `include/codex32.h` to a macro, after what is given.
#[cfg(feature = "codex32")]
macro_rules! codex32_refusals {
    ($make:ident! $($front:tt)*) => {
        $make! { $($front)* {
            NotUtf8 = 2, "a text or a human-readable part is not UTF-8";
            BadLengths = 4, "there are more than 32 texts, or their lengths do not add up to that of all";
            HrpEmpty = 11, "the human-readable part is empty";
            HrpTooLong = 12, "the human-readable part has more than 83 bytes";
            HrpNotAscii = 13, "the human-readable part has a character that is not ASCII";
            HrpInvalid = 14, "the human-readable part has a byte that is not from 33 to 126";
            HrpMixedCase = 15, "the human-readable part has letters of both cases";
            InvalidCharacter = 21, "a character behind the separator may not stand there";
            MixedCase = 22, "the text has letters of both cases";
            NoSeparator = 23, "the text has no separator, 1";
            WrongChecksum = 33, "the checksum is wrong";
            NoNearest = 34, "there is no nearest text";
            BadSize = 56, "there are neither 16 to 44 bytes nor 63 or 64";
            BadRandom = 66, "there are not as many random bytes as characters are drawn";
            EqualRandom = 68, "the random bytes are all equal";
            TooFewShares = 74, "there are fewer shares than the threshold";
            OtherSet = 75, "a share has another threshold, identifier or length than the first";
            IndexTwice = 76, "two shares have one index";
            Contradiction = 77, "the shares contradict each other";
            BadCount = 78, "there are fewer shares than the threshold, or more than 31";
            NotMs = 81, "the human-readable part is not ms";
            BadLength = 82, "a codex32 string has 48 to 93 characters, a long one 125 to 127";
            BadThreshold = 83, "the threshold is neither 0 nor a digit from 2 to 9";
            BadShareIndex = 84, "the threshold is 0, and the share index is not s";
            BadIdentifier = 85, "the identifier is not four characters of the alphabet in one case";
            NoShareIndex = 86, "the share index is not one character of the alphabet";
            BitsLeftOver = 87, "more than four bits stand behind the bytes of the payload";
            NoMemory = 91, "the lent memory did not suffice";
            NoRoom = 92, "a buffer is too small";
        } }
    };
}
#[cfg(feature = "codex32")]
pub(crate) use codex32_refusals;
