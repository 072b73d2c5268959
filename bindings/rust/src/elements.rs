//! Texts as elements, and texts that are the only ones of their bytes.

use crate::decode::unchecked;
use crate::error::{
    causes, CheckedHrpstringError, ChecksumError, PaddingError, UncheckedHrpstringError,
};
use crate::part::MAX_HRP_LENGTH;
use crate::prelude::*;
use crate::primitives::decode::CheckedHrpstring;
use crate::text::{ascii, too_long, written};
use crate::{raw, Checksum, EncodeError, Fe32, Fe32IterExt, Hrp, Refusal};
use core::fmt;
#[cfg(feature = "std")]
use std::error::Error;

/// Decodes a text that a checksum accepts: its human-readable part, in the case of the text, and its bytes.
/// Other than [`decode`](crate::decode()), it tests the bits behind the last whole byte. So the text is, in its
/// case, the only one by this checksum of its human-readable part and its bytes: [`encode`](crate::encode)
/// writes it of them, in lower case. **Decode so what identifies something**, as an account or a key: else it
/// has several spellings.
///
/// ```
/// use bech32_proved::{decode, decode_strict, Bech32, Refusal};
///
/// let text = "npub10elfcs4fr0l0r8af98jlmgdh9c8tcxjvz9qkw038js35mp4dma8qzvjptg";
/// assert_eq!(decode_strict::<Bech32>(text)?, decode(text)?);
///
/// // A second spelling of the bytes of `a1qqqd87cq`.
/// let other = "a1qpamnt9j";
/// assert_eq!(decode(other)?, decode("a1qqqd87cq")?);
/// let error = decode_strict::<Bech32>(other).unwrap_err();
/// assert_eq!(Refusal::from(error), Refusal::PaddingNotZero);
/// # Ok::<(), Box<dyn std::error::Error>>(())
/// ```
///
/// # Errors
///
/// The first of: the text is not in the grammar; the checksum does not accept it; more than four bits stand
/// behind the last whole byte; these are not all zero.
pub fn decode_strict<Ck: Checksum>(s: &str) -> Result<(Hrp, Vec<u8>), TextError> {
    let Some(code) = Ck::CODE else {
        let checked = CheckedHrpstring::new::<Ck>(s)?;
        checked.validate_segwit_padding()?;
        return Ok((checked.hrp(), checked.byte_iter().collect()));
    };
    let (mut hrp, mut bytes) = ([0; MAX_HRP_LENGTH], vec![0; room(s, code.code_length)]);
    let (hrp_length, length) = raw::decode_strict(code.number, s.as_bytes(), &mut hrp, &mut bytes)
        .map_err(|refusal| match refusal {
            Refusal::PaddingTooLong => PaddingError::TooMuch.into(),
            Refusal::PaddingNotZero => PaddingError::NonZero.into(),
            _ => TextError::from(unchecked(code, s, refusal)),
        })?;
    bytes.truncate(length);
    Ok((Hrp::read(&hrp[..hrp_length]), bytes))
}

/// Decodes a text that a checksum accepts to elements: its human-readable part, in the case of the text, and
/// the elements of its data part, without those of the checksum. This reads what is not bytes alone, as an
/// address of silent payments (BIP-352), whose first element is a version, or an invoice (BOLT 11). The text is,
/// in its case, the only one by this checksum that has them: [`encode_elements`] writes it, in lower case.
///
/// ```
/// use bech32_proved::{decode_elements, encode_elements, Bech32, Fe32};
///
/// let (part, elements) = decode_elements::<Bech32>("a1qqqd87cq")?;
/// assert_eq!((part.as_str(), elements.as_slice()), ("a", [Fe32::Q, Fe32::Q].as_slice()));
/// assert_eq!(encode_elements::<Bech32>(part, &elements)?, "a1qqqd87cq");
/// # Ok::<(), Box<dyn std::error::Error>>(())
/// ```
///
/// # Errors
///
/// The first of: the text is not in the grammar; the checksum does not accept it.
pub fn decode_elements<Ck: Checksum>(s: &str) -> Result<(Hrp, Vec<Fe32>), CheckedHrpstringError> {
    let Some(code) = Ck::CODE else {
        let checked = CheckedHrpstring::new::<Ck>(s)?;
        return Ok((checked.hrp(), checked.fe32_iter().collect()));
    };
    let (mut hrp, mut elements) = ([0; MAX_HRP_LENGTH], vec![0; room(s, code.code_length)]);
    let (hrp_length, length) =
        raw::decode_elements(code.number, s.as_bytes(), &mut hrp, &mut elements)
            .map_err(|refusal| unchecked(code, s, refusal))?;
    let elements = elements[..length]
        .iter()
        .map(|e| Fe32::of_low_bits((*e).into()));
    Ok((Hrp::read(&hrp[..hrp_length]), elements.collect()))
}

/// Encodes elements under a human-readable part by a checksum, in lower case. The elements of bytes are
/// [`bytes_to_fes`](crate::ByteIterExt::bytes_to_fes).
///
/// # Errors
///
/// Those of [`encode`](crate::encode).
pub fn encode_elements<Ck: Checksum>(hrp: Hrp, elements: &[Fe32]) -> Result<String, EncodeError> {
    let length = hrp.len() + 1 + elements.len() + Ck::CHECKSUM_LENGTH;
    too_long::<Ck>(length)?;
    let Some(code) = Ck::CODE else {
        Hrp::parse(hrp.as_str()).map_err(|_| EncodeError::Fmt(fmt::Error))?;
        return Ok(elements
            .iter()
            .copied()
            .with_checksum::<Ck>(&hrp)
            .chars()
            .collect());
    };
    let values: Vec<u8> = elements.iter().map(|e| e.to_u8()).collect();
    let mut text = vec![0; length];
    let put = raw::encode_elements(code.number, hrp.as_bytes(), &values, &mut text);
    written(
        put.ok()
            .map(|(_, length)| ascii(&text[..length]).to_owned()),
    )
}

// Room for the data of a text: no text that is accepted has more.
fn room(s: &str, code_length: usize) -> usize {
    s.len().min(code_length)
}

/// Why a text is not decoded by a checksum that is asked for.
#[derive(Clone, Copy, Debug, PartialEq, Eq)]
#[non_exhaustive]
pub enum TextError {
    /// It is not in the grammar.
    Parse(UncheckedHrpstringError),
    /// The checksum does not accept it.
    Checksum(ChecksumError),
    /// The bits behind its last whole byte are more than four, or not all zero.
    Padding(PaddingError),
}

impl fmt::Display for TextError {
    fn fmt(&self, f: &mut fmt::Formatter<'_>) -> fmt::Result {
        f.write_str(match self {
            TextError::Parse(_) => "parsing failed",
            TextError::Checksum(_) => "no valid checksum",
            TextError::Padding(_) => "not the only text of its bytes",
        })
    }
}

impl From<CheckedHrpstringError> for TextError {
    fn from(e: CheckedHrpstringError) -> TextError {
        match e {
            CheckedHrpstringError::Parse(e) => TextError::Parse(e),
            CheckedHrpstringError::Checksum(e) => TextError::Checksum(e),
        }
    }
}

impl From<TextError> for Refusal {
    fn from(e: TextError) -> Refusal {
        match e {
            TextError::Parse(e) => e.into(),
            TextError::Checksum(e) => e.into(),
            TextError::Padding(e) => e.into(),
        }
    }
}

causes! {
    TextError {
        Parse(UncheckedHrpstringError), Checksum(ChecksumError), Padding(PaddingError)
    }
}
