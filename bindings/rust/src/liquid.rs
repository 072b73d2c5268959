//! Confidential addresses of Liquid: a witness version, a blinding key and a program, by the checksum Blech32.
//!
//! Only version 0 is read and written: the addresses of the others have another checksum, Blech32m.
//!
//! ```
//! use bech32_proved::{liquid, Refusal};
//!
//! let text = "lq1qqf8er278e6nyvuwtgf39e6ewvdcnjupn9a86rzpx655y5lhkt0walu3djf9cklkxd3ryld97hu8h3xepw7sh2rlu7q45dcew5";
//! let address = liquid::decode(text)?;
//! // Any human-readable part is accepted: compare it with that of your network.
//! assert_eq!((address.hrp.as_str(), address.version, address.program.len()), ("lq", 0, 20));
//! assert_eq!(liquid::encode(address.hrp, 0, &address.key, &address.program)?, text);
//! # Ok::<(), Refusal>(())
//! ```

#[cfg(feature = "correct")]
use crate::correction::{nearest_by, Correction};
use crate::declared;
use crate::part::MAX_HRP_LENGTH;
use crate::prelude::*;
use crate::text::ascii;
use crate::{raw, Hrp, Refusal};

/// The bytes of a blinding key.
pub const KEY_LENGTH: usize = declared::BECH32_LIQUID_KEY_LENGTH;

// The characters that an address has at most, and the bytes of its program.
const MAX_TEXT_LENGTH: usize = declared::BECH32_MAX_LIQUID_TEXT;
const MAX_LIQUID_PROGRAM: usize = declared::BECH32_MAX_LIQUID_PROGRAM;

// A text is mended if twice the number of wrong characters, plus the number of those known to be wrong, is at most this.
#[cfg(feature = "correct")]
const BOUND: usize = 6;

/// What a confidential address has.
#[derive(Clone, Debug, PartialEq, Eq)]
#[non_exhaustive]
pub struct Address {
    /// Its human-readable part, in the case of the text: `lq` on the main network.
    pub hrp: Hrp,
    /// Its witness version, which is 0.
    pub version: u32,
    /// Its blinding key. That it is a point of the curve is not tested.
    pub key: [u8; KEY_LENGTH],
    /// Its witness program, of 20 or 32 bytes.
    pub program: Vec<u8>,
}

/// Encodes a confidential address, in lower case. That the key is a point of the curve is not tested.
///
/// # Errors
///
/// What `bech32_liquid_encode` refuses with, the first that applies: of the version
/// [`Refusal::BadNumber`] above 31, then of the part, [`Refusal::EncodedBadVersion`] above 16,
/// [`Refusal::UnsupportedVersion`] above 0, and what is wrong with the length of the program.
pub fn encode(
    hrp: Hrp,
    version: u32,
    key: &[u8; KEY_LENGTH],
    program: &[u8],
) -> Result<String, Refusal> {
    let mut text = [0; MAX_TEXT_LENGTH];
    let length = raw::liquid_encode(hrp.as_bytes(), version, key, program, &mut text)?;
    Ok(ascii(&text[..length]).to_owned())
}

/// Decodes a confidential address. Any human-readable part is accepted: compare it with that of your network.
///
/// # Errors
///
/// What `bech32_liquid_decode` refuses with, the first that applies: the text is not in the grammar; no witness
/// version, or one that is not 0; the checksum; the bits behind the last whole byte; less than the 33 bytes of a
/// key; the length of the program.
pub fn decode(s: &str) -> Result<Address, Refusal> {
    let (mut hrp, mut key) = ([0; MAX_HRP_LENGTH], [0; KEY_LENGTH]);
    let mut program = [0; MAX_LIQUID_PROGRAM];
    let (hrp_length, version, length) =
        raw::liquid_decode(s.as_bytes(), &mut hrp, &mut key, &mut program)?;
    Ok(Address {
        hrp: Hrp::read(&hrp[..hrp_length]),
        version,
        key,
        program: program[..length].to_vec(),
    })
}

/// Mends a mistyped text by Blech32, in the case of the text. `erasures` are the locations of characters that
/// are known to be wrong; location 0 is the last character.
///
/// It finds up to three wrong characters, or up to six that are known to be wrong, or fewer wrong ones beside
/// these: twice their number, with that of the erasures, is at most six. There is at most one such correction of
/// the data part. **It may not be what was meant**: show it, and ask. It need not be an address: decode it.
///
/// ```
/// use bech32_proved::{liquid, Refusal};
///
/// let text = "lq1qqf8er278e6nyvuwtgf39e6ewvdcnjupn9a86rzpx655y5lhkt0walu3djf9cklkxd3ryld97hu8h3xepw7sh2rlu7q45dcew5";
/// let mistyped = text.replacen("f8er278", "f8qr2q8", 1);
/// let mended = liquid::correct(&mistyped, &[])?;
/// assert_eq!(mended.as_str(), text);
/// assert_eq!(mended.changes()[0].to_string(), "character 8: q becomes e");
/// # Ok::<(), Refusal>(())
/// ```
///
/// # Errors
///
/// Those of [`nearest`], and [`Refusal::NoCorrection`] if there is none.
#[cfg(feature = "correct")]
pub fn correct(s: &str, erasures: &[usize]) -> Result<Correction, Refusal> {
    let mut known = erasures.to_vec();
    known.sort_unstable();
    known.dedup();
    // With more than six there is none, but the faults of the text are told first.
    let errors = BOUND.saturating_sub(known.len()) / 2;
    let found = nearest(s, erasures, errors)?;
    let is_within = known.len() <= BOUND;
    found
        .into_iter()
        .next()
        .filter(|_| is_within)
        .ok_or(Refusal::NoCorrection)
}

/// Lists the texts near to a mistyped one, in its case: all that Blech32 accepts and that differ from it in at
/// most `errors` characters, 0 to 3, of the data part outside `erasures`, of which there may be six. Twice
/// `errors`, with the number of erasures, may be at most seven. Where it is at most six, there is one text at
/// most: with three errors without erasures, two beside one or two, one beside three or four, and none beside
/// five or six. The order is that of [`nearest`](crate::nearest).
///
/// # Errors
///
/// [`Refusal::BadNumber`] of more errors; else the first of: the text is not in the grammar;
/// [`Refusal::TextTooLong`] above 1,023 characters; [`Refusal::NoChecksum`].
#[cfg(feature = "correct")]
pub fn nearest(s: &str, erasures: &[usize], errors: usize) -> Result<Vec<Correction>, Refusal> {
    nearest_by(s, erasures, |memory, texts| {
        raw::liquid_nearest(s.as_bytes(), erasures, errors, memory, texts)
    })
}
