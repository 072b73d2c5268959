//! Texts of any human-readable part.

use crate::checksum::BECH32M;
#[cfg(feature = "alloc")]
use crate::declared::BECH32_MAX_BYTES;
use crate::declared::{BECH32_MAX_LONG_TEXT, BECH32_MAX_TEXT};
use crate::decode::undecoded;
use crate::error::{
    causes, CheckedHrpstringError, ChecksumError, CodeLengthError, UncheckedHrpstringError,
};
use crate::iter::{ByteIterExt, Fe32IterExt};
use crate::part::MAX_HRP_LENGTH;
#[cfg(feature = "alloc")]
use crate::prelude::*;
use crate::{raw, Checksum, Hrp};
use core::fmt;
#[cfg(feature = "std")]
use std::error::Error;
#[cfg(feature = "std")]
use std::io;

/// The characters that a text has at most which is mended.
#[cfg(feature = "correct")]
pub(crate) const MAX_TEXT_LENGTH: usize = BECH32_MAX_TEXT;

// The bytes that a text has at most.
#[cfg(feature = "alloc")]
const MAX_BYTES: usize = BECH32_MAX_BYTES;

/// The text of characters that the library wrote, or read in a text: ASCII.
pub(crate) fn ascii(bytes: &[u8]) -> &str {
    core::str::from_utf8(bytes).expect("the library's characters are ASCII")
}

/// Whether a text in the grammar has letters in upper case, and so none in lower case.
#[cfg(any(feature = "codex32", feature = "correct"))]
pub(crate) fn is_in_upper_case(s: &str) -> bool {
    let has = |is_one: fn(&u8) -> bool| s.bytes().any(|byte| is_one(&byte));
    has(u8::is_ascii_uppercase) && !has(u8::is_ascii_lowercase)
}

/// What the library made of a text, in lower case, in the case of that text.
#[cfg(feature = "correct")]
pub(crate) fn in_case_of(s: &str, mut made: String) -> String {
    if is_in_upper_case(s) {
        made.make_ascii_uppercase();
    }
    made
}

/// The characters of a text: five bits of the bytes each, rounded up, behind the human-readable part and
/// the separator, and those of the checksum.
pub(crate) fn length_of<Ck: Checksum>(hrp: &Hrp, data: &[u8]) -> usize {
    let (groups, others) = (data.len() / 5, data.len() % 5);
    let elements = groups.saturating_mul(8) + (8 * others).div_ceil(5);
    elements.saturating_add(hrp.len() + 1 + Ck::CHECKSUM_LENGTH)
}

/// The number of characters of the text of a human-readable part and bytes.
///
/// # Errors
///
/// That number, where it is more than the checksum allows.
pub fn encoded_length<Ck: Checksum>(hrp: Hrp, data: &[u8]) -> Result<usize, CodeLengthError> {
    too_long::<Ck>(length_of::<Ck>(&hrp, data))
}

/// The length of a text, where it is no more than the checksum allows.
pub(crate) fn too_long<Ck: Checksum>(encoded_length: usize) -> Result<usize, CodeLengthError> {
    let code_length = Ck::CODE_LENGTH;
    if encoded_length > code_length {
        return Err(CodeLengthError {
            encoded_length,
            code_length,
        });
    }
    Ok(encoded_length)
}

/// Encodes bytes under a human-readable part by a checksum. The text is in lower case.
///
/// ```
/// use bech32_proved::{encode, Bech32, Hrp};
///
/// assert_eq!(encode::<Bech32>(Hrp::parse("a")?, &[])?, "a12uel5l");
/// # Ok::<(), Box<dyn std::error::Error>>(())
/// ```
///
/// # Errors
///
/// [`EncodeError::TooLong`] where the text would have more than 1023 characters, or 7089 by a long checksum, if
/// it has a checksum.
/// Of a part that [`Hrp::parse`] would refuse, [`EncodeError::Fmt`].
#[cfg(feature = "alloc")]
pub fn encode<Ck: Checksum>(hrp: Hrp, data: &[u8]) -> Result<String, EncodeError> {
    encode_lower::<Ck>(hrp, data)
}

/// The same as [`encode`].
///
/// # Errors
///
/// Those of [`encode`].
#[cfg(feature = "alloc")]
pub fn encode_lower<Ck: Checksum>(hrp: Hrp, data: &[u8]) -> Result<String, EncodeError> {
    let length = encoded_length::<Ck>(hrp, data)?;
    let Some(code) = Ck::CODE else {
        return without_checksum::<Ck>(hrp, data);
    };
    let mut text = vec![0; length];
    let put = raw::encode(code.number, hrp.as_bytes(), data, &mut text);
    written(put.ok().map(|length| ascii(&text[..length]).to_owned()))
}

/// The text that the library wrote. It refuses none of these but for the human-readable part.
#[cfg(feature = "alloc")]
pub(crate) fn written(text: Option<String>) -> Result<String, EncodeError> {
    text.ok_or(EncodeError::Fmt(fmt::Error))
}

// The library has no call for these texts: it tests the human-readable part alone.
#[cfg(feature = "alloc")]
fn without_checksum<Ck: Checksum>(hrp: Hrp, data: &[u8]) -> Result<String, EncodeError> {
    Hrp::parse(hrp.as_str()).map_err(|_| EncodeError::Fmt(fmt::Error))?;
    let elements = data.iter().copied().bytes_to_fes();
    Ok(elements.with_checksum::<Ck>(&hrp).chars().collect())
}

/// Encodes bytes in upper case.
///
/// # Errors
///
/// Those of [`encode`].
#[cfg(feature = "alloc")]
pub fn encode_upper<Ck: Checksum>(hrp: Hrp, data: &[u8]) -> Result<String, EncodeError> {
    let mut text = encode_lower::<Ck>(hrp, data)?;
    text.make_ascii_uppercase();
    Ok(text)
}

// Hands over the text of bytes, in lower case, of which no memory is taken for one of at most 1023 characters.
fn in_buffer<Ck: Checksum>(
    hrp: Hrp,
    data: &[u8],
    write: &mut dyn FnMut(&mut str) -> fmt::Result,
) -> Result<(), EncodeError> {
    let length = encoded_length::<Ck>(hrp, data)?;
    let Some(code) = Ck::CODE else {
        Hrp::parse(hrp.as_str()).map_err(|_| EncodeError::Fmt(fmt::Error))?;
        let characters = data
            .iter()
            .copied()
            .bytes_to_fes()
            .with_checksum::<Ck>(&hrp)
            .chars();
        for character in characters {
            write(character.encode_utf8(&mut [0; 4]))?;
        }
        return Ok(());
    };
    if length > BECH32_MAX_TEXT {
        return put(
            code.number,
            hrp,
            data,
            &mut [0; BECH32_MAX_LONG_TEXT],
            write,
        );
    }
    put(code.number, hrp, data, &mut [0; BECH32_MAX_TEXT], write)
}

fn put(
    checksum: u32,
    hrp: Hrp,
    data: &[u8],
    buffer: &mut [u8],
    write: &mut dyn FnMut(&mut str) -> fmt::Result,
) -> Result<(), EncodeError> {
    let length = raw::encode(checksum, hrp.as_bytes(), data, buffer);
    let length = length.map_err(|_| EncodeError::Fmt(fmt::Error))?;
    let text = core::str::from_utf8_mut(&mut buffer[..length]);
    Ok(write(text.expect("the library's characters are ASCII"))?)
}

/// Writes the text of bytes, in lower case.
///
/// # Errors
///
/// Those of [`encode`], of which nothing is written, and [`EncodeError::Fmt`] where the writer fails.
pub fn encode_to_fmt<Ck: Checksum, W: fmt::Write>(
    fmt: &mut W,
    hrp: Hrp,
    data: &[u8],
) -> Result<(), EncodeError> {
    encode_lower_to_fmt::<Ck, W>(fmt, hrp, data)
}

/// The same as [`encode_to_fmt`].
///
/// # Errors
///
/// Those of [`encode_to_fmt`].
pub fn encode_lower_to_fmt<Ck: Checksum, W: fmt::Write>(
    fmt: &mut W,
    hrp: Hrp,
    data: &[u8],
) -> Result<(), EncodeError> {
    in_buffer::<Ck>(hrp, data, &mut |text| fmt.write_str(text))
}

/// Writes the text of bytes, in upper case.
///
/// # Errors
///
/// Those of [`encode_to_fmt`].
pub fn encode_upper_to_fmt<Ck: Checksum, W: fmt::Write>(
    fmt: &mut W,
    hrp: Hrp,
    data: &[u8],
) -> Result<(), EncodeError> {
    in_buffer::<Ck>(hrp, data, &mut |text| {
        text.make_ascii_uppercase();
        fmt.write_str(text)
    })
}

/// Writes the text of bytes, in lower case.
///
/// # Errors
///
/// Those of [`encode`], of which nothing is written, and [`EncodeIoError::Write`] where the writer
/// fails.
#[cfg(feature = "std")]
pub fn encode_to_writer<Ck: Checksum, W: io::Write>(
    w: &mut W,
    hrp: Hrp,
    data: &[u8],
) -> Result<(), EncodeIoError> {
    encode_lower_to_writer::<Ck, W>(w, hrp, data)
}

/// The same as [`encode_to_writer`].
///
/// # Errors
///
/// Those of [`encode_to_writer`].
#[cfg(feature = "std")]
pub fn encode_lower_to_writer<Ck: Checksum, W: io::Write>(
    w: &mut W,
    hrp: Hrp,
    data: &[u8],
) -> Result<(), EncodeIoError> {
    let text = encode_lower::<Ck>(hrp, data).map_err(unwritten)?;
    Ok(w.write_all(text.as_bytes())?)
}

/// Writes the text of bytes, in upper case.
///
/// # Errors
///
/// Those of [`encode_to_writer`].
#[cfg(feature = "std")]
pub fn encode_upper_to_writer<Ck: Checksum, W: io::Write>(
    w: &mut W,
    hrp: Hrp,
    data: &[u8],
) -> Result<(), EncodeIoError> {
    let text = encode_upper::<Ck>(hrp, data).map_err(unwritten)?;
    Ok(w.write_all(text.as_bytes())?)
}

// Why there is no text to write.
#[cfg(feature = "std")]
fn unwritten(e: EncodeError) -> EncodeIoError {
    match e {
        EncodeError::TooLong(e) => EncodeIoError::TooLong(e),
        EncodeError::Fmt(e) => EncodeIoError::Write(io::Error::new(io::ErrorKind::InvalidInput, e)),
    }
}

/// Decodes a text that Bech32m or Bech32 accepts: its human-readable part, in the case of the text,
/// and its bytes. Bits behind the last whole byte are dropped: what identifies something is decoded by
/// [`decode_strict`](crate::decode_strict), which accepts one spelling of it.
///
/// **Decode an address by [`segwit::decode`](crate::segwit::decode), not by this.** The first element of an
/// address is its witness version, so this returns the program shifted by five bits. That looks like a hash,
/// but it is not the program.
///
/// ```
/// use bech32_proved::primitives::decode::ChecksumError;
/// use bech32_proved::{decode, DecodeError, Hrp};
///
/// let (part, bytes) = decode("A1LQFN3A")?;
/// assert_eq!((part, bytes), (Hrp::parse("a")?, vec![]));
/// assert_eq!(decode("a12uel5"), Err(DecodeError::Checksum(ChecksumError::InvalidLength)));
/// # Ok::<(), Box<dyn std::error::Error>>(())
/// ```
///
/// # Errors
///
/// The text's first fault: its characters; its human-readable part; its length; its checksum, of
/// which the error is that of Bech32m.
#[cfg(feature = "alloc")]
pub fn decode(s: &str) -> Result<(Hrp, Vec<u8>), DecodeError> {
    let (mut hrp, mut bytes) = ([0; MAX_HRP_LENGTH], [0; MAX_BYTES]);
    let (hrp_length, bytes_length) =
        raw::decode(s.as_bytes(), &mut hrp, &mut bytes).map_err(|refusal| undecoded(s, refusal))?;
    Ok((
        Hrp::read(&hrp[..hrp_length]),
        bytes[..bytes_length].to_vec(),
    ))
}

/// Decodes a text like [`decode`], and says which checksum accepts it. Decode an address by
/// [`segwit::decode`](crate::segwit::decode).
///
/// ```
/// use bech32_proved::{decode_with_checksum, Variant};
///
/// let (_, _, variant) = decode_with_checksum("A1LQFN3A")?;
/// assert_eq!(variant, Variant::Bech32m);
/// assert_eq!(variant.to_string(), "Bech32m");
/// assert_eq!(decode_with_checksum("A12UEL5L")?.2, Variant::Bech32);
/// # Ok::<(), bech32_proved::DecodeError>(())
/// ```
///
/// # Errors
///
/// Those of [`decode`].
#[cfg(feature = "alloc")]
pub fn decode_with_checksum(s: &str) -> Result<(Hrp, Vec<u8>, Variant), DecodeError> {
    let (hrp, bytes) = decode(s)?;
    let variant = match raw::check(BECH32M.number, s.as_bytes()) {
        Ok(_) => Variant::Bech32m,
        Err(_) => Variant::Bech32,
    };
    Ok((hrp, bytes, variant))
}

/// Which checksum accepts a text.
#[derive(Clone, Copy, Debug, PartialEq, Eq, PartialOrd, Ord, Hash)]
pub enum Variant {
    /// That of BIP-173.
    Bech32,
    /// That of BIP-350.
    Bech32m,
}

impl fmt::Display for Variant {
    fn fmt(&self, f: &mut fmt::Formatter<'_>) -> fmt::Result {
        f.pad(match self {
            Variant::Bech32 => "Bech32",
            Variant::Bech32m => "Bech32m",
        })
    }
}

/// Why a text is not decoded.
#[derive(Clone, Copy, Debug, PartialEq, Eq)]
#[non_exhaustive]
pub enum DecodeError {
    /// It is not in the grammar.
    Parse(UncheckedHrpstringError),
    /// Neither checksum accepts it.
    Checksum(ChecksumError),
}

impl fmt::Display for DecodeError {
    fn fmt(&self, f: &mut fmt::Formatter<'_>) -> fmt::Result {
        f.write_str(match self {
            DecodeError::Parse(_) => "parsing failed",
            DecodeError::Checksum(_) => "no valid bech32 or bech32m checksum",
        })
    }
}

impl From<CheckedHrpstringError> for DecodeError {
    fn from(e: CheckedHrpstringError) -> DecodeError {
        match e {
            CheckedHrpstringError::Parse(e) => DecodeError::Parse(e),
            CheckedHrpstringError::Checksum(e) => DecodeError::Checksum(e),
        }
    }
}

/// Why there is no text.
#[derive(Clone, Copy, Debug, PartialEq, Eq)]
#[non_exhaustive]
pub enum EncodeError {
    /// It would be longer than its checksum allows.
    TooLong(CodeLengthError),
    /// A writer failed, or the human-readable part is none.
    Fmt(fmt::Error),
}

impl fmt::Display for EncodeError {
    fn fmt(&self, f: &mut fmt::Formatter<'_>) -> fmt::Result {
        f.write_str(match self {
            EncodeError::TooLong(_) => "encode error",
            EncodeError::Fmt(_) => "encode to formatter failed",
        })
    }
}

/// Why a text is not written.
#[cfg(feature = "std")]
#[derive(Debug)]
#[non_exhaustive]
pub enum EncodeIoError {
    /// It would be longer than its checksum allows.
    TooLong(CodeLengthError),
    /// The writer failed, or the human-readable part is none.
    Write(io::Error),
}

#[cfg(feature = "std")]
impl fmt::Display for EncodeIoError {
    fn fmt(&self, f: &mut fmt::Formatter<'_>) -> fmt::Result {
        f.write_str(match self {
            EncodeIoError::TooLong(_) => "encode error",
            EncodeIoError::Write(_) => "encode to writer failed",
        })
    }
}

causes! {
    DecodeError { Parse(UncheckedHrpstringError), Checksum(ChecksumError) }
    EncodeError { TooLong(CodeLengthError), Fmt(fmt::Error) }
}

#[cfg(feature = "std")]
causes! {
    EncodeIoError { TooLong(CodeLengthError), Write(io::Error) }
}
