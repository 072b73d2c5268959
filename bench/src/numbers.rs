//! The numbers of the Rust crate's errors, as `crates/bech32_numbers/specs/Numbers.antt` has them; and the
//! numbers of all refusals, of which each program here uses some.
#![allow(dead_code)]

use bech32::primitives::decode::{
    CharError, CheckedHrpstringError, ChecksumError, PaddingError, SegwitHrpstringError,
    UncheckedHrpstringError,
};
use bech32::primitives::hrp;
use bech32::primitives::segwit::WitnessLengthError;
use bech32::{segwit, DecodeError, EncodeError};

#[path = "refusals.rs"]
mod refusals;
pub use refusals::*;

// An error that the crate may add to those of 0.12.0.
const UNKNOWN: u32 = u32::MAX;

pub fn hrp(e: &hrp::Error) -> u32 {
    match e {
        hrp::Error::Empty => HRP_EMPTY,
        hrp::Error::TooLong(_) => HRP_TOO_LONG,
        hrp::Error::NonAsciiChar(_) => HRP_NOT_ASCII,
        hrp::Error::InvalidAsciiByte(_) => HRP_INVALID,
        hrp::Error::MixedCase => HRP_MIXED_CASE,
        _ => UNKNOWN,
    }
}

fn text(e: &UncheckedHrpstringError) -> u32 {
    match e {
        UncheckedHrpstringError::Char(CharError::InvalidChar(_)) => INVALID_CHARACTER,
        UncheckedHrpstringError::Char(CharError::MixedCase) => MIXED_CASE,
        UncheckedHrpstringError::Char(CharError::MissingSeparator) => NO_SEPARATOR,
        UncheckedHrpstringError::Char(CharError::NothingAfterSeparator) => NOTHING_BEHIND,
        UncheckedHrpstringError::Hrp(e) => hrp(e),
        _ => UNKNOWN,
    }
}

fn checksum(e: &ChecksumError) -> u32 {
    match e {
        ChecksumError::CodeLength(_) => TEXT_TOO_LONG,
        ChecksumError::InvalidLength => NO_CHECKSUM,
        ChecksumError::InvalidResidue(_) => WRONG_CHECKSUM,
        _ => UNKNOWN,
    }
}

pub fn checked(e: &CheckedHrpstringError) -> u32 {
    match e {
        CheckedHrpstringError::Parse(e) => text(e),
        CheckedHrpstringError::Checksum(e) => checksum(e),
        _ => UNKNOWN,
    }
}

fn program_length(e: &WitnessLengthError) -> u32 {
    match e {
        WitnessLengthError::TooShort => PROGRAM_TOO_SHORT,
        WitnessLengthError::TooLong => PROGRAM_TOO_LONG,
        WitnessLengthError::InvalidSegwitV0 => PROGRAM_NOT_V0,
        _ => UNKNOWN,
    }
}

pub fn address(e: &SegwitHrpstringError) -> u32 {
    match e {
        SegwitHrpstringError::Unchecked(e) => text(e),
        SegwitHrpstringError::TooLong(_) => ADDRESS_TOO_LONG,
        SegwitHrpstringError::NoData => NO_DATA,
        SegwitHrpstringError::InvalidWitnessVersion(_) => BAD_VERSION,
        SegwitHrpstringError::Padding(PaddingError::TooMuch) => PADDING_TOO_LONG,
        SegwitHrpstringError::Padding(PaddingError::NonZero) => PADDING_NOT_ZERO,
        SegwitHrpstringError::WitnessLength(e) => program_length(e),
        SegwitHrpstringError::Checksum(e) => checksum(e),
        _ => UNKNOWN,
    }
}

pub fn decode(e: &DecodeError) -> u32 {
    match e {
        DecodeError::Parse(e) => text(e),
        DecodeError::Checksum(e) => checksum(e),
        _ => UNKNOWN,
    }
}

pub fn encode(e: &EncodeError) -> u32 {
    match e {
        EncodeError::TooLong(_) => ENCODED_TOO_LONG,
        EncodeError::Fmt(_) => NOT_WRITTEN,
        _ => UNKNOWN,
    }
}

pub fn segwit_encode(e: &segwit::EncodeError) -> u32 {
    match e {
        segwit::EncodeError::WitnessVersion(_) => ENCODED_BAD_VERSION,
        segwit::EncodeError::WitnessLength(e) => program_length(e),
        segwit::EncodeError::TooLong(_) => ENCODED_ADDRESS_TOO_LONG,
        segwit::EncodeError::Fmt(_) => NOT_WRITTEN,
        _ => UNKNOWN,
    }
}
