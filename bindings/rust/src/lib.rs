//! Bech32 ([BIP-173]) and Bech32m ([BIP-350]): texts and segwit addresses, written and read by a
//! library of which each function is proved to do what its contract says of every input. Strings and
//! shares of a secret ([BIP-93]) are in [`codex32`].
//!
//! The names are those of the Rust crate bech32 0.12.0: a program that was written for it runs over this
//! one under that crate's name, by `bech32 = { package = "bech32_proved", .. }` in its manifest. The
//! README says what is not there. Beside that crate's errors, each of which holds the character or the
//! length at fault, [`Refusal`] has the number of any of them in `include/bech32.h`, and [`fault()`] says
//! for people what is wrong where in a text.
//!
//! The library is proved, and made into Rust without `unsafe` code by a program that is tested
//! (`translator/translate`): if that is wrong, a call may give a wrong answer or panic, and it cannot
//! read or write memory that is not its own. By the feature `c` the library is C. The code of this crate
//! around it is tested and not proved.
//!
//! # Encoding
//!
//! ```
//! use bech32_proved::{hrp, segwit, Bech32m, Hrp};
//!
//! let part = Hrp::parse("abc")?;
//! let text = bech32_proved::encode::<Bech32m>(part, &[0xab; 20])?;
//! assert_eq!(text, "abc14w46h2at4w46h2at4w46h2at4w46h2at958ngu");
//!
//! let address = segwit::encode(hrp::BC, segwit::VERSION_1, &[0xab; 20])?;
//! assert_eq!(address, "bc1p4w46h2at4w46h2at4w46h2at4w46h2at5kreae");
//! # Ok::<(), Box<dyn std::error::Error>>(())
//! ```
//!
//! # Decoding
//!
//! ```
//! use bech32_proved::primitives::decode::{CharError, CheckedHrpstring};
//! use bech32_proved::{segwit, Bech32m, DecodeError, Hrp, Refusal};
//!
//! let text = "abc14w46h2at4w46h2at4w46h2at4w46h2at958ngu";
//! let (part, bytes) = bech32_proved::decode(text)?;
//! assert_eq!(part, Hrp::parse("abc")?);
//! assert_eq!(bytes, [0xab; 20]);
//!
//! let checked = CheckedHrpstring::new::<Bech32m>(text)?;
//! assert_eq!(checked.hrp(), part);
//!
//! let (_, version, program) = segwit::decode("bc1p4w46h2at4w46h2at4w46h2at4w46h2at5kreae")?;
//! assert_eq!(version, segwit::VERSION_1);
//! assert_eq!(program, [0xab; 20]);
//!
//! let mistyped = "abc14w46h2at4w46h2at4w46h2at4w46h2at958ngx";
//! let error = bech32_proved::decode(mistyped).unwrap_err();
//! assert_eq!(error.to_string(), "no valid bech32 or bech32m checksum");
//! assert_eq!(Refusal::from(error), Refusal::WrongChecksum);
//!
//! let error = bech32_proved::decode("abc14w46h2at4w46b2at4w46h2at4w46h2at958ngu").unwrap_err();
//! assert_eq!(error, DecodeError::Parse(CharError::InvalidChar('b').into()));
//! # Ok::<(), Box<dyn std::error::Error>>(())
//! ```
//!
//! [BIP-173]: <https://github.com/bitcoin/bips/blob/master/bip-0173.mediawiki>
//! [BIP-350]: <https://github.com/bitcoin/bips/blob/master/bip-0350.mediawiki>
//! [BIP-93]: <https://github.com/bitcoin/bips/blob/master/bip-0093.mediawiki>

#![no_std]
// Without memory there are fewer calls than what they share.
#![cfg_attr(not(feature = "alloc"), allow(unused_imports, dead_code))]
#![forbid(unsafe_code)]
#![warn(missing_docs)]

#[cfg(feature = "alloc")]
extern crate alloc;
#[cfg(feature = "std")]
extern crate std;

// The proved library, as translator/translate writes it.
#[cfg(not(feature = "c"))]
#[rustfmt::skip]
#[path = "../../../dist/bech32.rs"]
mod bech32_form;
#[cfg(all(feature = "codex32", not(feature = "c")))]
#[rustfmt::skip]
#[path = "../../../dist/codex32.rs"]
mod codex32_form;

// What std has in scope by itself.
#[cfg(feature = "alloc")]
mod prelude {
    pub use alloc::borrow::ToOwned;
    pub use alloc::string::{String, ToString};
    pub use alloc::vec;
    pub use alloc::vec::Vec;
}

mod checksum;
#[cfg(feature = "codex32")]
pub mod codex32;
#[cfg(feature = "columns")]
pub mod columns;
#[cfg(feature = "correct")]
mod correction;
mod declared;
mod decode;
#[cfg(feature = "descriptor")]
pub mod descriptor;
#[cfg(feature = "correct")]
mod edits;
#[cfg(feature = "elements")]
mod elements;
mod encode;
mod error;
mod fault;
mod fe32;
mod iter;
#[cfg(feature = "correct")]
mod lent;
#[cfg(feature = "liquid")]
pub mod liquid;
mod part;
mod raw;
mod refusal;
mod refusals;
mod rules;
pub mod segwit;
#[cfg(feature = "correct")]
mod suggest;
mod text;

#[cfg(feature = "correct")]
pub use checksum::CorrectingChecksum;
pub use checksum::{Bech32, Bech32m, Checksum, LongBech32, LongBech32m, NoChecksum};
#[cfg(feature = "correct")]
pub use correction::{correct, nearest, Change, Correction};
#[cfg(feature = "correct")]
pub use edits::{near_edits, Edit, NearEdit};
#[cfg(feature = "elements")]
pub use elements::{decode_elements, decode_strict, encode_elements, TextError};
pub use fault::{fault, Fault};
pub use fe32::{Fe32, ALPHABET};
pub use iter::{ByteIterExt, Fe32IterExt};
pub use part::Hrp;
pub use refusal::Refusal;
#[cfg(feature = "alloc")]
pub use text::{decode, decode_with_checksum, encode, encode_lower, encode_upper};
pub use text::{
    encode_lower_to_fmt, encode_to_fmt, encode_upper_to_fmt, encoded_length, DecodeError,
    EncodeError, Variant,
};
#[cfg(feature = "std")]
pub use text::{encode_lower_to_writer, encode_to_writer, encode_upper_to_writer, EncodeIoError};

/// Human-readable parts, and those of the Bitcoin networks.
pub mod hrp {
    pub use crate::part::{Hrp, BC, BCRT, TB};
}

/// The parts of which the calls at the root are made, under the paths of the Rust crate.
pub mod primitives {
    pub use crate::checksum::{Bech32, Bech32m, LongBech32, LongBech32m, NoChecksum};

    /// Checksums.
    pub mod checksum {
        #[cfg(feature = "correct")]
        pub use crate::checksum::CorrectingChecksum;
        pub use crate::checksum::{Checksum, Engine, HrpFe32Iter, PackedFe32, PackedNull};
    }

    /// Mistyped texts mended.
    #[cfg(feature = "correct")]
    pub mod correction {
        pub use crate::correction::{correct, nearest, Change, Correction};
        pub use crate::edits::{near_edits, Edit, NearEdit};
    }

    /// Texts read, and why they are refused.
    pub mod decode {
        pub use crate::decode::{CheckedHrpstring, SegwitHrpstring, UncheckedHrpstring};
        pub use crate::error::{
            CharError, CheckedHrpstringError, ChecksumError, CodeLengthError, InvalidResidueError,
            PaddingError, SegwitCodeLengthError, SegwitHrpstringError, UncheckedHrpstringError,
        };
        pub use crate::iter::{AsciiToFe32Iter, ByteIter};
    }

    /// Texts written one element at a time.
    pub mod encode {
        pub use crate::encode::{ByteIter, CharIter, Encoder, Fe32Iter, WitnessVersionIter};
    }

    /// Elements of five bits.
    pub mod gf32 {
        pub use crate::fe32::{Fe32, FromCharError, TryFromError};
    }

    /// Human-readable parts.
    pub mod hrp {
        pub use crate::part::{
            ByteIter, CharIter, Error, Hrp, LowercaseByteIter, LowercaseCharIter, BC, BCRT, TB,
        };
    }

    /// Bytes as elements, and back, and elements with a checksum.
    pub mod iter {
        pub use crate::iter::{ByteIterExt, BytesToFes, Checksummed, Fe32IterExt, FesToBytes};
    }

    /// The rules of segwit addresses.
    pub mod segwit {
        pub use crate::rules::{
            is_valid_witness_program_length, is_valid_witness_version,
            validate_witness_program_length, validate_witness_version, InvalidWitnessVersionError,
            WitnessLengthError, MAX_STRING_LENGTH, VERSION_0, VERSION_1,
        };
    }
}

// The examples of README.md, which use all features, are tested with those of the documentation.
#[cfg(all(doctest, feature = "codex32", feature = "correct"))]
#[doc = include_str!("../README.md")]
struct Readme;
