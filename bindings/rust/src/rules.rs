//! The rules of segwit addresses on versions and lengths (BIP-173, Segwit address format): what the
//! library says of an address.

use crate::declared::BECH32_MAX_SEGWIT_TEXT;
use crate::segwit::MAX_PROGRAM_LENGTH;
use crate::{raw, Fe32, Refusal};
use core::fmt;
#[cfg(feature = "std")]
use std::error::Error;

/// The characters that a segwit address has at most.
pub const MAX_STRING_LENGTH: usize = BECH32_MAX_SEGWIT_TEXT;

/// The first witness version, whose addresses have the checksum Bech32.
pub const VERSION_0: Fe32 = Fe32::Q;

/// The witness version of taproot. It and those above it have the checksum Bech32m.
pub const VERSION_1: Fe32 = Fe32::P;

/// Whether an element is a witness version: from 0 to 16.
pub fn is_valid_witness_version(witness_version: Fe32) -> bool {
    validate_witness_version(witness_version).is_ok()
}

/// Whether a witness program of this version may have `length` bytes: 2 to 40, and 20 or 32 in
/// version 0.
pub fn is_valid_witness_program_length(length: usize, witness_version: Fe32) -> bool {
    validate_witness_program_length(length, witness_version).is_ok()
}

/// Tests that an element is a witness version: from 0 to 16.
///
/// # Errors
///
/// The element, where it is above 16.
pub fn validate_witness_version(witness_version: Fe32) -> Result<(), InvalidWitnessVersionError> {
    // Each version has programs of 32 bytes.
    match refusal_of(32, witness_version) {
        None => Ok(()),
        Some(_) => Err(InvalidWitnessVersionError(witness_version)),
    }
}

/// Tests how many bytes a witness program of this version has.
///
/// # Errors
///
/// The first of: less than 2; more than 40; neither 20 nor 32 in version 0.
pub fn validate_witness_program_length(
    length: usize,
    version: Fe32,
) -> Result<(), WitnessLengthError> {
    // The library refuses what is no version first. Here it has the programs of those above 0.
    let known = if is_valid_witness_version(version) {
        version
    } else {
        VERSION_1
    };
    refusal_of(length, known)
        .and_then(WitnessLengthError::of)
        .map_or(Ok(()), Err)
}

// Why the library writes no address with a program of `length` bytes. It fits in the buffer with this
// human-readable part, so that only version and length are refused.
fn refusal_of(length: usize, version: Fe32) -> Option<Refusal> {
    let mut address = [0; MAX_STRING_LENGTH];
    let program = [0; MAX_PROGRAM_LENGTH + 1];
    let program = &program[..length.min(program.len())];
    let version = u32::from(version.to_u8());
    raw::segwit_encode(b"bc", version, program, &mut address).err()
}

// Shows a witness version that is above 16.
pub(crate) fn invalid(version: &Fe32, f: &mut fmt::Formatter<'_>) -> fmt::Result {
    let value = version.to_u8();
    write!(
        f,
        "invalid segwit witness version: {value} (bech32 character: '{version}')"
    )
}

/// An element is no witness version: it is above 16.
#[derive(Clone, Copy, Debug, PartialEq, Eq)]
#[non_exhaustive]
pub struct InvalidWitnessVersionError(pub Fe32);

impl fmt::Display for InvalidWitnessVersionError {
    fn fmt(&self, f: &mut fmt::Formatter<'_>) -> fmt::Result {
        invalid(&self.0, f)
    }
}

#[cfg(feature = "std")]
impl Error for InvalidWitnessVersionError {}

/// Why a witness program is not of a lawful length.
#[derive(Clone, Copy, Debug, PartialEq, Eq)]
#[non_exhaustive]
pub enum WitnessLengthError {
    /// It has less than 2 bytes.
    TooShort,
    /// It has more than 40 bytes.
    TooLong,
    /// It is of version 0, and has neither 20 nor 32 bytes.
    InvalidSegwitV0,
}

impl WitnessLengthError {
    // What a refusal says of the length of a program.
    pub(crate) fn of(refusal: Refusal) -> Option<WitnessLengthError> {
        match refusal {
            Refusal::ProgramTooShort => Some(WitnessLengthError::TooShort),
            Refusal::ProgramTooLong => Some(WitnessLengthError::TooLong),
            Refusal::ProgramNotV0 => Some(WitnessLengthError::InvalidSegwitV0),
            _ => None,
        }
    }
}

impl fmt::Display for WitnessLengthError {
    fn fmt(&self, f: &mut fmt::Formatter<'_>) -> fmt::Result {
        f.write_str(match self {
            WitnessLengthError::TooShort => "witness program is less than 2 bytes long",
            WitnessLengthError::TooLong => "witness program is more than 40 bytes long",
            WitnessLengthError::InvalidSegwitV0 => {
                "the segwit v0 witness is not 20 or 32 bytes long"
            }
        })
    }
}

#[cfg(feature = "std")]
impl Error for WitnessLengthError {}
