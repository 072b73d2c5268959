//! Why texts are refused, with the character or the length at fault.

use crate::checksum::BECH32;
use crate::part;
use crate::rules::{WitnessLengthError, MAX_STRING_LENGTH};
use crate::Fe32;
use core::fmt;
#[cfg(feature = "std")]
use std::error::Error;

// For each error an `impl Error` with its cause, and an `impl From` of the cause.
macro_rules! causes {
    ($($error:ident { $($variant:ident($cause:ty)),* })*) => {
        $(
            #[cfg(feature = "std")]
            impl Error for $error {
                fn source(&self) -> Option<&(dyn Error + 'static)> {
                    match self {
                        $($error::$variant(e) => Some(e),)*
                        #[allow(unreachable_patterns)]
                        _ => None,
                    }
                }
            }

            $(
                impl From<$cause> for $error {
                    fn from(e: $cause) -> $error {
                        $error::$variant(e)
                    }
                }
            )*
        )*
    };
}
pub(crate) use causes;

/// Why the characters of a text are refused.
#[derive(Clone, Copy, Debug, PartialEq, Eq)]
#[non_exhaustive]
pub enum CharError {
    /// The text has no separator `1`.
    MissingSeparator,
    /// No characters stand behind the separator (never given: an empty data part is read).
    NothingAfterSeparator,
    /// The last character behind the separator that may not stand there (of the whole text, where it
    /// has no separator).
    InvalidChar(char),
    /// Letters of both cases.
    MixedCase,
}

impl fmt::Display for CharError {
    fn fmt(&self, f: &mut fmt::Formatter<'_>) -> fmt::Result {
        match self {
            CharError::MissingSeparator => f.write_str("missing human-readable separator, \"1\""),
            CharError::NothingAfterSeparator => {
                f.write_str("invalid data - no characters after the separator")
            }
            CharError::InvalidChar(c) => write!(f, "invalid character (code={c})"),
            CharError::MixedCase => f.write_str("mixed-case strings not allowed"),
        }
    }
}

#[cfg(feature = "std")]
impl Error for CharError {}

/// Why a text is not in the grammar.
#[derive(Clone, Copy, Debug, PartialEq, Eq)]
#[non_exhaustive]
pub enum UncheckedHrpstringError {
    /// Its characters.
    Char(CharError),
    /// Its human-readable part.
    Hrp(part::Error),
}

impl fmt::Display for UncheckedHrpstringError {
    fn fmt(&self, f: &mut fmt::Formatter<'_>) -> fmt::Result {
        f.write_str(match self {
            UncheckedHrpstringError::Char(_) => "character error",
            UncheckedHrpstringError::Hrp(_) => "invalid human-readable part",
        })
    }
}

/// A text is longer than its checksum allows.
#[derive(Clone, Copy, Debug, PartialEq, Eq)]
#[non_exhaustive]
pub struct CodeLengthError {
    /// The length of the text, checksum included, in characters.
    pub encoded_length: usize,
    /// The length that the checksum allows.
    pub code_length: usize,
}

impl fmt::Display for CodeLengthError {
    fn fmt(&self, f: &mut fmt::Formatter<'_>) -> fmt::Result {
        let (length, most) = (self.encoded_length, self.code_length);
        write!(
            f,
            "encoded length {length} exceeds maximum (code length) {most}"
        )
    }
}

#[cfg(feature = "std")]
impl Error for CodeLengthError {}

/// The remainder that a text leaves is not its checksum's target.
#[derive(Clone, Copy, Debug, PartialEq, Eq)]
pub struct InvalidResidueError {
    actual: u32,
    target: u32,
}

impl InvalidResidueError {
    // The error of a text that leaves this remainder, by a checksum with this target.
    pub(crate) fn new(actual: u32, target: u32) -> InvalidResidueError {
        InvalidResidueError { actual, target }
    }

    /// Whether the remainder is the target of Bech32, whatever checksum refused the text: a text that
    /// Bech32m refuses for its remainder is then one that Bech32 accepts.
    pub fn matches_bech32_checksum(&self) -> bool {
        self.actual == BECH32.target
    }
}

// A remainder, by the characters of its elements, the constant term first, up to the last that is not
// zero.
struct Residue(u32);

impl fmt::Display for Residue {
    fn fmt(&self, f: &mut fmt::Formatter<'_>) -> fmt::Result {
        let mut rest = self.0;
        loop {
            write!(f, "{}", Fe32::of_low_bits(rest))?;
            rest >>= 5;
            if rest == 0 {
                return Ok(());
            }
        }
    }
}

impl fmt::Display for InvalidResidueError {
    fn fmt(&self, f: &mut fmt::Formatter<'_>) -> fmt::Result {
        let (actual, target) = (Residue(self.actual), Residue(self.target));
        write!(f, "residue {actual} did not match target {target}")
    }
}

#[cfg(feature = "std")]
impl Error for InvalidResidueError {}

/// Why a checksum refuses a text.
#[derive(Clone, Copy, Debug, PartialEq, Eq)]
#[non_exhaustive]
pub enum ChecksumError {
    /// The text is longer than the checksum allows.
    CodeLength(CodeLengthError),
    /// The remainder is not the target.
    InvalidResidue(InvalidResidueError),
    /// The data part is shorter than the checksum.
    InvalidLength,
}

impl fmt::Display for ChecksumError {
    fn fmt(&self, f: &mut fmt::Formatter<'_>) -> fmt::Result {
        f.write_str(match self {
            ChecksumError::CodeLength(_) => "string exceeds maximum allowed length",
            ChecksumError::InvalidResidue(_) => "checksum failed",
            ChecksumError::InvalidLength => "the checksummed string is not a valid length",
        })
    }
}

/// Why a text is not one that a checksum accepts.
#[derive(Clone, Copy, Debug, PartialEq, Eq)]
#[non_exhaustive]
pub enum CheckedHrpstringError {
    /// It is not in the grammar.
    Parse(UncheckedHrpstringError),
    /// Its checksum.
    Checksum(ChecksumError),
}

impl fmt::Display for CheckedHrpstringError {
    fn fmt(&self, f: &mut fmt::Formatter<'_>) -> fmt::Result {
        f.write_str(match self {
            CheckedHrpstringError::Parse(_) => "parse failed",
            CheckedHrpstringError::Checksum(_) => "invalid checksum",
        })
    }
}

/// A segwit address would have more than [`MAX_STRING_LENGTH`] characters: how many.
#[derive(Clone, Copy, Debug, PartialEq, Eq)]
#[non_exhaustive]
pub struct SegwitCodeLengthError(pub usize);

impl fmt::Display for SegwitCodeLengthError {
    fn fmt(&self, f: &mut fmt::Formatter<'_>) -> fmt::Result {
        let length = self.0;
        write!(
            f,
            "encoded length {length} exceeds maximum (code length) {MAX_STRING_LENGTH}"
        )
    }
}

#[cfg(feature = "std")]
impl Error for SegwitCodeLengthError {}

/// Why the bits behind the last whole byte of a witness program are refused (BIP-173).
#[derive(Clone, Copy, Debug, PartialEq, Eq)]
#[non_exhaustive]
pub enum PaddingError {
    /// There are more than four.
    TooMuch,
    /// Not all of them are zero.
    NonZero,
}

impl fmt::Display for PaddingError {
    fn fmt(&self, f: &mut fmt::Formatter<'_>) -> fmt::Result {
        f.write_str(match self {
            PaddingError::TooMuch => "the data payload has too many bits of padding",
            PaddingError::NonZero => "the data payload is padded with non-zero bits",
        })
    }
}

#[cfg(feature = "std")]
impl Error for PaddingError {}

/// Why a text is no segwit address.
#[derive(Clone, Copy, Debug, PartialEq, Eq)]
#[non_exhaustive]
pub enum SegwitHrpstringError {
    /// It is not in the grammar.
    Unchecked(UncheckedHrpstringError),
    /// The data part is empty, or nothing is left of it before the checksum.
    NoData,
    /// It has more than [`MAX_STRING_LENGTH`] characters: how many.
    TooLong(usize),
    /// The witness version is above 16.
    InvalidWitnessVersion(Fe32),
    /// The bits behind the last whole byte of the program.
    Padding(PaddingError),
    /// The length of the program.
    WitnessLength(WitnessLengthError),
    /// The checksum.
    Checksum(ChecksumError),
}

impl fmt::Display for SegwitHrpstringError {
    fn fmt(&self, f: &mut fmt::Formatter<'_>) -> fmt::Result {
        match self {
            SegwitHrpstringError::Unchecked(_) => f.write_str("parsing unchecked hrpstring failed"),
            SegwitHrpstringError::NoData => {
                f.write_str("no data found after removing the checksum")
            }
            SegwitHrpstringError::TooLong(length) => {
                write!(
                    f,
                    "encoded length {length} exceeds spec limit {MAX_STRING_LENGTH} chars"
                )
            }
            SegwitHrpstringError::InvalidWitnessVersion(version) => {
                crate::rules::invalid(version, f)
            }
            SegwitHrpstringError::Padding(_) => f.write_str("invalid padding on the witness data"),
            SegwitHrpstringError::WitnessLength(_) => f.write_str("invalid witness length"),
            SegwitHrpstringError::Checksum(_) => f.write_str("invalid checksum"),
        }
    }
}

causes! {
    UncheckedHrpstringError { Char(CharError), Hrp(part::Error) }
    ChecksumError { CodeLength(CodeLengthError), InvalidResidue(InvalidResidueError) }
    CheckedHrpstringError { Parse(UncheckedHrpstringError), Checksum(ChecksumError) }
    SegwitHrpstringError {
        Unchecked(UncheckedHrpstringError), Padding(PaddingError),
        WitnessLength(WitnessLengthError), Checksum(ChecksumError)
    }
}
