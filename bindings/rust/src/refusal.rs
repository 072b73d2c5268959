//! Why the library refuses.

use crate::error::{
    CharError, CheckedHrpstringError, ChecksumError, CodeLengthError, InvalidResidueError,
    PaddingError, SegwitCodeLengthError, SegwitHrpstringError, UncheckedHrpstringError,
};
use crate::fe32::TryFromError;
use crate::part as hrp;
use crate::refusals::bech32_refusals;
use crate::rules::{InvalidWitnessVersionError, WitnessLengthError};
use crate::{segwit, DecodeError, EncodeError};

// An enumeration of refusals with their numbers and sentences.
macro_rules! refusals {
    ($(#[$about:meta])* pub enum $type:ident {
        $($name:ident = $number:literal, $words:literal;)*
    }) => {
        $(#[$about])*
        #[derive(Clone, Copy, Debug, PartialEq, Eq, PartialOrd, Ord, Hash)]
        #[non_exhaustive]
        #[repr(u32)]
        pub enum $type {
            $(#[doc = concat!($words, " (", $number, ")")] $name = $number,)*
        }

        impl $type {
            /// All refusals, in the order of their numbers.
            pub const ALL: &'static [$type] = &[$($type::$name),*];

            /// Its number, that of the header for C.
            #[must_use]
            pub fn number(self) -> u32 {
                self as u32
            }

            /// The refusal of a number, where there is one.
            #[must_use]
            pub fn from_number(number: u32) -> Option<$type> {
                match number {
                    $($number => Some($type::$name),)*
                    _ => None,
                }
            }
        }

        impl core::fmt::Display for $type {
            fn fmt(&self, f: &mut core::fmt::Formatter<'_>) -> core::fmt::Result {
                f.write_str(match self {
                    $($type::$name => $words,)*
                })
            }
        }

        #[cfg(feature = "std")]
        #[cfg(feature = "std")]
        impl std::error::Error for $type {}
    };
}
#[cfg(feature = "codex32")]
pub(crate) use refusals;

bech32_refusals! { refusals!
    /// Why a call refuses, by the numbers of `include/bech32.h`: each error of this crate has one.
    /// A call names the first refusal that applies, in the order that the header states for it.
    ///
    /// ```
    /// use bech32_proved::{decode, Refusal};
    ///
    /// let refusal = Refusal::from(decode("a12uel5q").unwrap_err());
    /// assert_eq!(refusal, Refusal::WrongChecksum);
    /// assert_eq!(refusal.number(), 33);
    /// assert_eq!(refusal.to_string(), "the checksum is wrong");
    /// ```
    pub enum Refusal
}

impl From<hrp::Error> for Refusal {
    fn from(e: hrp::Error) -> Refusal {
        match e {
            hrp::Error::Empty => Refusal::HrpEmpty,
            hrp::Error::TooLong(_) => Refusal::HrpTooLong,
            hrp::Error::NonAsciiChar(_) => Refusal::HrpNotAscii,
            hrp::Error::InvalidAsciiByte(_) => Refusal::HrpInvalid,
            hrp::Error::MixedCase => Refusal::HrpMixedCase,
        }
    }
}

impl From<CharError> for Refusal {
    fn from(e: CharError) -> Refusal {
        match e {
            CharError::InvalidChar(_) => Refusal::InvalidCharacter,
            CharError::MixedCase => Refusal::MixedCase,
            CharError::MissingSeparator => Refusal::NoSeparator,
            CharError::NothingAfterSeparator => Refusal::NoChecksum,
        }
    }
}

impl From<CodeLengthError> for Refusal {
    fn from(_: CodeLengthError) -> Refusal {
        Refusal::EncodedTooLong
    }
}

impl From<SegwitCodeLengthError> for Refusal {
    fn from(_: SegwitCodeLengthError) -> Refusal {
        Refusal::EncodedAddressTooLong
    }
}

impl From<InvalidResidueError> for Refusal {
    fn from(_: InvalidResidueError) -> Refusal {
        Refusal::WrongChecksum
    }
}

impl From<PaddingError> for Refusal {
    fn from(e: PaddingError) -> Refusal {
        match e {
            PaddingError::TooMuch => Refusal::PaddingTooLong,
            PaddingError::NonZero => Refusal::PaddingNotZero,
        }
    }
}

impl From<WitnessLengthError> for Refusal {
    fn from(e: WitnessLengthError) -> Refusal {
        match e {
            WitnessLengthError::TooShort => Refusal::ProgramTooShort,
            WitnessLengthError::TooLong => Refusal::ProgramTooLong,
            WitnessLengthError::InvalidSegwitV0 => Refusal::ProgramNotV0,
        }
    }
}

impl From<InvalidWitnessVersionError> for Refusal {
    fn from(_: InvalidWitnessVersionError) -> Refusal {
        Refusal::EncodedBadVersion
    }
}

impl From<TryFromError> for Refusal {
    fn from(_: TryFromError) -> Refusal {
        Refusal::BadNumber
    }
}

impl From<UncheckedHrpstringError> for Refusal {
    fn from(e: UncheckedHrpstringError) -> Refusal {
        match e {
            UncheckedHrpstringError::Char(e) => e.into(),
            UncheckedHrpstringError::Hrp(e) => e.into(),
        }
    }
}

impl From<ChecksumError> for Refusal {
    fn from(e: ChecksumError) -> Refusal {
        match e {
            ChecksumError::CodeLength(_) => Refusal::TextTooLong,
            ChecksumError::InvalidLength => Refusal::NoChecksum,
            ChecksumError::InvalidResidue(e) => e.into(),
        }
    }
}

impl From<CheckedHrpstringError> for Refusal {
    fn from(e: CheckedHrpstringError) -> Refusal {
        match e {
            CheckedHrpstringError::Parse(e) => e.into(),
            CheckedHrpstringError::Checksum(e) => e.into(),
        }
    }
}

impl From<SegwitHrpstringError> for Refusal {
    fn from(e: SegwitHrpstringError) -> Refusal {
        match e {
            SegwitHrpstringError::Unchecked(e) => e.into(),
            SegwitHrpstringError::NoData => Refusal::NoData,
            SegwitHrpstringError::TooLong(_) => Refusal::AddressTooLong,
            SegwitHrpstringError::InvalidWitnessVersion(_) => Refusal::BadVersion,
            SegwitHrpstringError::Padding(e) => e.into(),
            SegwitHrpstringError::WitnessLength(e) => e.into(),
            SegwitHrpstringError::Checksum(e) => e.into(),
        }
    }
}

impl From<DecodeError> for Refusal {
    fn from(e: DecodeError) -> Refusal {
        match e {
            DecodeError::Parse(e) => e.into(),
            DecodeError::Checksum(e) => e.into(),
        }
    }
}

// A writer fails for want of room at its end.
impl From<EncodeError> for Refusal {
    fn from(e: EncodeError) -> Refusal {
        match e {
            EncodeError::TooLong(e) => e.into(),
            EncodeError::Fmt(_) => Refusal::NoRoom,
        }
    }
}

impl From<segwit::DecodeError> for Refusal {
    fn from(e: segwit::DecodeError) -> Refusal {
        e.0.into()
    }
}

impl From<segwit::EncodeError> for Refusal {
    fn from(e: segwit::EncodeError) -> Refusal {
        match e {
            segwit::EncodeError::WitnessVersion(e) => e.into(),
            segwit::EncodeError::WitnessLength(e) => e.into(),
            segwit::EncodeError::TooLong(e) => e.into(),
            segwit::EncodeError::Fmt(_) => Refusal::NoRoom,
        }
    }
}
