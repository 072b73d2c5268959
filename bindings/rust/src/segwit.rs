//! Segwit addresses (BIP-173, BIP-350).
//!
//! ```
//! use bech32_proved::{hrp, segwit};
//!
//! let program = [
//!     0x75, 0x1e, 0x76, 0xe8, 0x19, 0x91, 0x96, 0xd4, 0x54, 0x94, 0x1c, 0x45, 0xd1, 0xb3, 0xa3,
//!     0x23, 0xf1, 0x43, 0x3b, 0xd6,
//! ];
//! let address = segwit::encode_v0(hrp::BC, &program)?;
//! assert_eq!(address, "bc1qw508d6qejxtdg4y5r3zarvary0c5xw7kv8f3t4");
//!
//! let (part, version, decoded) = segwit::decode(&address)?;
//! assert_eq!((part, version), (hrp::BC, segwit::VERSION_0));
//! assert_eq!(decoded, program);
//! # Ok::<(), Box<dyn std::error::Error>>(())
//! ```

use crate::declared::BECH32_MAX_SEGWIT_PROGRAM;
use crate::decode::no_address;
use crate::error::{causes, SegwitCodeLengthError, SegwitHrpstringError};
use crate::part::MAX_HRP_LENGTH;
#[cfg(feature = "alloc")]
use crate::prelude::*;
use crate::rules::{
    validate_witness_program_length, validate_witness_version, InvalidWitnessVersionError,
    WitnessLengthError, MAX_STRING_LENGTH,
};
use crate::text::length_of;
use crate::{raw, Bech32, Fe32, Hrp, Refusal};
use core::fmt;
#[cfg(feature = "std")]
use std::error::Error;
#[cfg(feature = "std")]
use std::io;

pub use crate::rules::{VERSION_0, VERSION_1};
#[cfg(feature = "correct")]
pub use crate::suggest::{suggest, Suggestion};

/// The bytes that a witness program has at most.
pub(crate) const MAX_PROGRAM_LENGTH: usize = BECH32_MAX_SEGWIT_PROGRAM;

// Puts an address into a buffer, in lower case, and gives it.
fn put<'b>(
    hrp: &Hrp,
    version: Fe32,
    program: &[u8],
    buffer: &'b mut [u8; MAX_STRING_LENGTH],
) -> Result<&'b mut str, Refusal> {
    let version = u32::from(version.to_u8());
    let length = raw::segwit_encode(hrp.as_bytes(), version, program, buffer)?;
    let written = &mut buffer[..length];
    Ok(core::str::from_utf8_mut(written).expect("the library's characters are ASCII"))
}

/// Encodes the segwit address of a witness version and a program, in lower case.
///
/// # Errors
///
/// The first of: a version above 16; a program of no lawful length; an address of more than
/// [`MAX_STRING_LENGTH`] characters. Of a part that [`Hrp::parse`] would refuse,
/// [`EncodeError::Fmt`].
#[cfg(feature = "alloc")]
pub fn encode(
    hrp: Hrp,
    witness_version: Fe32,
    witness_program: &[u8],
) -> Result<String, EncodeError> {
    let mut buffer = [0; MAX_STRING_LENGTH];
    match put(&hrp, witness_version, witness_program, &mut buffer) {
        Ok(address) => Ok((*address).to_owned()),
        Err(_) => Err(first_refusal(hrp, witness_version, witness_program)),
    }
}

// Why there is no such address. The library refuses the part first, and the crate last.
#[cold]
#[cfg(feature = "alloc")]
fn first_refusal(hrp: Hrp, version: Fe32, program: &[u8]) -> EncodeError {
    let tested = || {
        validate_witness_version(version)?;
        validate_witness_program_length(program.len(), version)?;
        encoded_length(hrp, version, program)?;
        Ok(())
    };
    tested().err().unwrap_or(EncodeError::Fmt(fmt::Error))
}

/// Encodes a segwit address of version 0.
///
/// # Errors
///
/// Those of [`encode`].
#[cfg(feature = "alloc")]
pub fn encode_v0(hrp: Hrp, witness_program: &[u8]) -> Result<String, EncodeError> {
    encode(hrp, VERSION_0, witness_program)
}

/// Encodes a segwit address of version 1.
///
/// # Errors
///
/// Those of [`encode`].
#[cfg(feature = "alloc")]
pub fn encode_v1(hrp: Hrp, witness_program: &[u8]) -> Result<String, EncodeError> {
    encode(hrp, VERSION_1, witness_program)
}

/// Writes a segwit address, in lower case.
///
/// # Errors
///
/// If there is no such address, and then nothing is written; or if the writer fails.
pub fn encode_to_fmt_unchecked<W: fmt::Write>(
    fmt: &mut W,
    hrp: Hrp,
    witness_version: Fe32,
    witness_program: &[u8],
) -> fmt::Result {
    encode_lower_to_fmt_unchecked(fmt, hrp, witness_version, witness_program)
}

/// Writes a segwit address, in lower case.
///
/// # Errors
///
/// If there is no such address, and then nothing is written; or if the writer fails.
pub fn encode_lower_to_fmt_unchecked<W: fmt::Write>(
    fmt: &mut W,
    hrp: Hrp,
    witness_version: Fe32,
    witness_program: &[u8],
) -> fmt::Result {
    let mut buffer = [0; MAX_STRING_LENGTH];
    let address = put(&hrp, witness_version, witness_program, &mut buffer);
    fmt.write_str(address.map_err(|_| fmt::Error)?)
}

/// Writes a segwit address, in upper case, for a QR code.
///
/// # Errors
///
/// If there is no such address, and then nothing is written; or if the writer fails.
pub fn encode_upper_to_fmt_unchecked<W: fmt::Write>(
    fmt: &mut W,
    hrp: Hrp,
    witness_version: Fe32,
    witness_program: &[u8],
) -> fmt::Result {
    let mut buffer = [0; MAX_STRING_LENGTH];
    let address = put(&hrp, witness_version, witness_program, &mut buffer);
    let address = address.map_err(|_| fmt::Error)?;
    address.make_ascii_uppercase();
    fmt.write_str(address)
}

/// Writes a segwit address, in lower case.
///
/// # Errors
///
/// If there is no such address, and then nothing is written; or if the writer fails.
#[cfg(feature = "std")]
pub fn encode_to_writer_unchecked<W: io::Write>(
    w: &mut W,
    hrp: Hrp,
    witness_version: Fe32,
    witness_program: &[u8],
) -> io::Result<()> {
    encode_lower_to_writer_unchecked(w, hrp, witness_version, witness_program)
}

/// Writes a segwit address, in lower case.
///
/// # Errors
///
/// If there is no such address, and then nothing is written; or if the writer fails.
#[cfg(feature = "std")]
pub fn encode_lower_to_writer_unchecked<W: io::Write>(
    w: &mut W,
    hrp: Hrp,
    witness_version: Fe32,
    witness_program: &[u8],
) -> io::Result<()> {
    let mut buffer = [0; MAX_STRING_LENGTH];
    let address = put(&hrp, witness_version, witness_program, &mut buffer);
    w.write_all(address.map_err(unwritten)?.as_bytes())
}

/// Writes a segwit address, in upper case, for a QR code.
///
/// # Errors
///
/// If there is no such address, and then nothing is written; or if the writer fails.
#[cfg(feature = "std")]
pub fn encode_upper_to_writer_unchecked<W: io::Write>(
    w: &mut W,
    hrp: Hrp,
    witness_version: Fe32,
    witness_program: &[u8],
) -> io::Result<()> {
    let mut buffer = [0; MAX_STRING_LENGTH];
    let address = put(&hrp, witness_version, witness_program, &mut buffer);
    let address = address.map_err(unwritten)?;
    address.make_ascii_uppercase();
    w.write_all(address.as_bytes())
}

// Why there is no address to write.
#[cfg(feature = "std")]
fn unwritten(refusal: Refusal) -> io::Error {
    io::Error::new(io::ErrorKind::InvalidInput, refusal)
}

/// The number of characters of a segwit address.
///
/// # Errors
///
/// That number, where it is more than [`MAX_STRING_LENGTH`].
pub fn encoded_length(
    hrp: Hrp,
    _witness_version: Fe32,
    witness_program: &[u8],
) -> Result<usize, SegwitCodeLengthError> {
    let length = length_of::<Bech32>(&hrp, witness_program) + 1;
    match length {
        0..=MAX_STRING_LENGTH => Ok(length),
        _ => Err(SegwitCodeLengthError(length)),
    }
}

/// Decodes a segwit address: its human-readable part, in the case of the text, its witness version
/// and its program. Any human-readable part is accepted: the caller compares it with that of its
/// network.
///
/// ```
/// use bech32_proved::{segwit, Refusal};
///
/// let error = segwit::decode("bc1pw5dgrnzv").unwrap_err();
/// assert_eq!(error.0.to_string(), "invalid witness length");
/// assert_eq!(Refusal::from(error), Refusal::ProgramTooShort);
/// ```
///
/// # Errors
///
/// Those of [`SegwitHrpstring::new`](crate::primitives::decode::SegwitHrpstring::new).
#[cfg(feature = "alloc")]
pub fn decode(s: &str) -> Result<(Hrp, Fe32, Vec<u8>), DecodeError> {
    let (mut hrp, mut program) = ([0; MAX_HRP_LENGTH], [0; MAX_PROGRAM_LENGTH]);
    let (hrp_length, version, program_length) =
        raw::segwit_decode(s.as_bytes(), &mut hrp, &mut program)
            .map_err(|refusal| no_address(s, refusal))?;
    Ok((
        Hrp::read(&hrp[..hrp_length]),
        Fe32::of_low_bits(version),
        program[..program_length].to_vec(),
    ))
}

/// Why a text is no segwit address.
#[derive(Clone, Copy, Debug, PartialEq, Eq)]
#[non_exhaustive]
pub struct DecodeError(pub SegwitHrpstringError);

impl fmt::Display for DecodeError {
    fn fmt(&self, f: &mut fmt::Formatter<'_>) -> fmt::Result {
        f.write_str("decoding segwit address failed")
    }
}

#[cfg(feature = "std")]
impl Error for DecodeError {
    fn source(&self) -> Option<&(dyn Error + 'static)> {
        Some(&self.0)
    }
}

impl From<SegwitHrpstringError> for DecodeError {
    fn from(e: SegwitHrpstringError) -> DecodeError {
        DecodeError(e)
    }
}

/// Why there is no segwit address.
#[derive(Clone, Copy, Debug, PartialEq, Eq)]
#[non_exhaustive]
pub enum EncodeError {
    /// The witness version is above 16.
    WitnessVersion(InvalidWitnessVersionError),
    /// The length of the program.
    WitnessLength(WitnessLengthError),
    /// It would have more than [`MAX_STRING_LENGTH`] characters.
    TooLong(SegwitCodeLengthError),
    /// A writer failed, or the human-readable part is none.
    Fmt(fmt::Error),
}

impl fmt::Display for EncodeError {
    fn fmt(&self, f: &mut fmt::Formatter<'_>) -> fmt::Result {
        f.write_str(match self {
            EncodeError::WitnessVersion(_) => "witness version",
            EncodeError::WitnessLength(_) => "witness length",
            EncodeError::TooLong(_) => "encode error",
            EncodeError::Fmt(_) => "writing to formatter failed",
        })
    }
}

causes! {
    EncodeError {
        WitnessVersion(InvalidWitnessVersionError), WitnessLength(WitnessLengthError),
        TooLong(SegwitCodeLengthError), Fmt(fmt::Error)
    }
}
