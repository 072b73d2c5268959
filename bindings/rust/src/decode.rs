//! Texts read: their characters tested, their checksum, and the rules of segwit addresses.

use crate::checksum::{residue_of, Code, HrpFe32Iter, BECH32, BECH32M};
use crate::declared::BECH32_MAX_LONG_TEXT;
use crate::error::{
    CharError, CheckedHrpstringError, ChecksumError, CodeLengthError, InvalidResidueError,
    PaddingError, SegwitHrpstringError, UncheckedHrpstringError,
};
use crate::iter::{AsciiToFe32Iter, ByteIter};
use crate::part::{self, MAX_HRP_LENGTH};
use crate::rules::{
    is_valid_witness_version, validate_witness_program_length, WitnessLengthError,
    MAX_STRING_LENGTH, VERSION_0,
};
use crate::segwit::MAX_PROGRAM_LENGTH;
use crate::{raw, Bech32, Checksum, Fe32, Hrp, Refusal};

/// A text whose characters were tested, and its checksum not.
///
/// ```
/// use bech32_proved::primitives::decode::UncheckedHrpstring;
/// use bech32_proved::{Bech32, Bech32m, Fe32};
///
/// let text = "BC1QW508D6QEJXTDG4Y5R3ZARVARY0C5XW7KV8F3T4";
/// let unchecked = UncheckedHrpstring::new(text)?;
/// assert_eq!(unchecked.witness_version(), Some(Fe32::Q));
/// assert!(unchecked.has_valid_checksum::<Bech32>());
/// assert!(!unchecked.has_valid_checksum::<Bech32m>());
/// # Ok::<(), bech32_proved::primitives::decode::UncheckedHrpstringError>(())
/// ```
#[derive(Clone, Copy, Debug)]
pub struct UncheckedHrpstring<'s> {
    text: &'s str,
    hrp: Hrp,
    data_part: &'s [u8],
}

impl<'s> UncheckedHrpstring<'s> {
    /// Reads a text, and does not test its checksum.
    ///
    /// # Errors
    ///
    /// The text's first fault: a character that may not stand there, letters of both cases, no
    /// separator, or what is wrong with the human-readable part.
    pub fn new(s: &'s str) -> Result<Self, UncheckedHrpstringError> {
        if let Err((refusal, place)) = raw::fault(BECH32.number, s.as_bytes()) {
            unread(s, refusal, place).map_or(Ok(()), Err)?;
        }
        // In a text of the grammar the last `1` is the separator.
        let (hrp, data_part) = s.rsplit_once('1').expect("the text has a separator");
        Ok(UncheckedHrpstring {
            text: s,
            hrp: Hrp::read(hrp.as_bytes()),
            data_part: data_part.as_bytes(),
        })
    }

    /// Its human-readable part, in the case of the text.
    pub fn hrp(&self) -> Hrp {
        self.hrp
    }

    /// The characters behind the separator, those of the checksum with them, in the case of the text.
    pub fn data_part_ascii(&self) -> &'s [u8] {
        self.data_part
    }

    /// The first element of the data part, where it is at most 16: a witness version.
    pub fn witness_version(&self) -> Option<Fe32> {
        version_in(self.data_part)
    }

    /// Takes the witness version off the data part, where there is one. The length that is tested
    /// with a checksum stays that of the whole text.
    pub fn remove_witness_version(&mut self) -> Option<Fe32> {
        let version = self.witness_version()?;
        self.data_part = &self.data_part[1..];
        Some(version)
    }

    /// Tests the checksum. [`NoChecksum`](crate::NoChecksum) is always right.
    ///
    /// # Errors
    ///
    /// The first of: the text is too long; the data part is shorter than the checksum; the checksum is
    /// wrong.
    pub fn validate_checksum<Ck: Checksum>(&self) -> Result<(), ChecksumError> {
        let Some(code) = Ck::CODE else {
            return Ok(());
        };
        let length = self.text.len();
        let is_whole = self.hrp.len() + 1 + self.data_part.len() == length;
        let checked = if is_whole || length > Ck::CODE_LENGTH {
            raw::check(code.number, self.text.as_bytes())
        } else {
            let mut without_version = [0; BECH32_MAX_LONG_TEXT];
            let head = self.hrp.len();
            without_version[..head].copy_from_slice(self.hrp.as_bytes());
            without_version[head] = b'1';
            without_version[head + 1..][..self.data_part.len()].copy_from_slice(self.data_part);
            raw::check(
                code.number,
                &without_version[..head + 1 + self.data_part.len()],
            )
        };
        checked.map(|_| ()).map_err(|refusal| {
            unchecksummed(code, length, &self.hrp, self.data_part, refusal)
                .expect("the text is in the grammar")
        })
    }

    /// Whether the checksum is right.
    pub fn has_valid_checksum<Ck: Checksum>(&self) -> bool {
        self.validate_checksum::<Ck>().is_ok()
    }

    /// Tests the checksum, and takes it off.
    ///
    /// # Errors
    ///
    /// Those of [`validate_checksum`](Self::validate_checksum).
    pub fn validate_and_remove_checksum<Ck: Checksum>(
        self,
    ) -> Result<CheckedHrpstring<'s>, ChecksumError> {
        self.validate_checksum::<Ck>()?;
        Ok(self.remove_checksum::<Ck>())
    }

    /// Takes the checksum off, which was tested before.
    ///
    /// # Panics
    ///
    /// Where the data part is shorter than the checksum.
    pub fn remove_checksum<Ck: Checksum>(self) -> CheckedHrpstring<'s> {
        let count = self.data_part.len().checked_sub(Ck::CHECKSUM_LENGTH);
        CheckedHrpstring {
            hrp: self.hrp,
            ascii: &self.data_part[..count.expect("the data part has a checksum")],
            text_length: self.text.len(),
        }
    }
}

/// A text that a checksum accepts.
///
/// ```
/// use bech32_proved::primitives::decode::CheckedHrpstring;
/// use bech32_proved::{Bech32, Bech32m, Fe32};
///
/// let text = "abcd14g08d6qejxtdg4y5r3zarvary0c5xw7kxugcx9";
/// let checked = CheckedHrpstring::new::<Bech32>(text)?;
/// assert_eq!(checked.hrp().as_str(), "abcd");
/// assert_eq!(checked.data_part_ascii_no_checksum(), b"4g08d6qejxtdg4y5r3zarvary0c5xw7k");
/// assert_eq!(checked.fe32_iter().next(), Some(Fe32::_4));
/// assert_eq!(checked.byte_iter().len(), 20);
///
/// let error = CheckedHrpstring::new::<Bech32m>(text).unwrap_err();
/// assert_eq!(error.to_string(), "invalid checksum");
/// # Ok::<(), bech32_proved::primitives::decode::CheckedHrpstringError>(())
/// ```
#[derive(Clone, Copy, Debug)]
pub struct CheckedHrpstring<'s> {
    hrp: Hrp,
    ascii: &'s [u8],
    text_length: usize,
}

impl<'s> CheckedHrpstring<'s> {
    /// Reads a text, and tests its checksum.
    ///
    /// # Errors
    ///
    /// Those of [`UncheckedHrpstring::new`], and then those of
    /// [`validate_checksum`](UncheckedHrpstring::validate_checksum).
    pub fn new<Ck: Checksum>(s: &'s str) -> Result<Self, CheckedHrpstringError> {
        let Some(code) = Ck::CODE else {
            return Ok(UncheckedHrpstring::new(s)?.remove_checksum::<Ck>());
        };
        let (hrp_length, data_length) =
            raw::check(code.number, s.as_bytes()).map_err(|refusal| unchecked(code, s, refusal))?;
        Ok(CheckedHrpstring {
            hrp: Hrp::read(&s.as_bytes()[..hrp_length]),
            ascii: &s.as_bytes()[hrp_length + 1..][..data_length],
            text_length: s.len(),
        })
    }

    /// Its human-readable part, in the case of the text.
    pub fn hrp(&self) -> Hrp {
        self.hrp
    }

    /// The characters behind the separator, without the six of the checksum, in the case of the
    /// text.
    pub fn data_part_ascii_no_checksum(&self) -> &'s [u8] {
        self.ascii
    }

    /// The first element of the data part, where it is at most 16: a witness version.
    pub fn witness_version(&self) -> Option<Fe32> {
        version_in(self.ascii)
    }

    /// Takes the witness version off the data part, where there is one.
    pub fn remove_witness_version(&mut self) -> Option<Fe32> {
        let version = self.witness_version()?;
        self.ascii = &self.ascii[1..];
        Some(version)
    }

    /// Its elements, without those of the checksum.
    pub fn fe32_iter(&self) -> AsciiToFe32Iter<'s> {
        AsciiToFe32Iter::new(self.ascii)
    }

    /// Its bytes. Bits after the last whole byte are dropped.
    pub fn byte_iter(&self) -> ByteIter<'s> {
        ByteIter::new(self.ascii)
    }

    /// Tests that the string is a segwit address, and removes the witness version. Any checksum may
    /// have accepted the string.
    ///
    /// # Errors
    ///
    /// The first of: no data part; more than [`MAX_STRING_LENGTH`] characters; a witness version
    /// above 16; the error of [`Self::validate_segwit_padding`]; the error of
    /// [`Self::validate_witness_program_length`].
    pub fn validate_segwit(mut self) -> Result<SegwitHrpstring<'s>, SegwitHrpstringError> {
        let first = self
            .fe32_iter()
            .next()
            .ok_or(SegwitHrpstringError::NoData)?;
        if self.text_length > MAX_STRING_LENGTH {
            return Err(SegwitHrpstringError::TooLong(self.text_length));
        }
        let version = self
            .remove_witness_version()
            .ok_or(SegwitHrpstringError::InvalidWitnessVersion(first))?;
        self.validate_segwit_padding()?;
        self.validate_witness_program_length(version)?;
        Ok(SegwitHrpstring {
            hrp: self.hrp,
            witness_version: version,
            ascii: self.ascii,
        })
    }

    /// Tests the bits behind the last whole byte: four at most, and all zero (BIP-173, Segwit address
    /// format). The witness version has to be taken off before.
    ///
    /// # Errors
    ///
    /// Where there are more, or one is not zero.
    pub fn validate_segwit_padding(&self) -> Result<(), PaddingError> {
        let count = self.ascii.len() * 5 % 8;
        if count > 4 {
            return Err(PaddingError::TooMuch);
        }
        let last = self.fe32_iter().last().map_or(0, Fe32::to_u8);
        match last & ((1 << count) - 1) {
            0 => Ok(()),
            _ => Err(PaddingError::NonZero),
        }
    }

    /// Tests the number of bytes as that of a witness program of this version. The witness version has
    /// to be taken off before.
    ///
    /// # Errors
    ///
    /// Those of [`validate_witness_program_length`].
    pub fn validate_witness_program_length(
        &self,
        witness_version: Fe32,
    ) -> Result<(), WitnessLengthError> {
        validate_witness_program_length(self.byte_iter().len(), witness_version)
    }
}

/// A segwit address.
///
/// ```
/// use bech32_proved::primitives::decode::SegwitHrpstring;
/// use bech32_proved::segwit::VERSION_0;
///
/// let address = SegwitHrpstring::new("bc1qar0srrr7xfkvy5l643lydnw9re59gtzzwf5mdq")?;
/// assert!(address.has_valid_hrp());
/// assert_eq!(address.witness_version(), VERSION_0);
/// assert_eq!(address.byte_iter().len(), 20);
/// # Ok::<(), bech32_proved::primitives::decode::SegwitHrpstringError>(())
/// ```
#[derive(Clone, Copy, Debug)]
pub struct SegwitHrpstring<'s> {
    hrp: Hrp,
    witness_version: Fe32,
    ascii: &'s [u8],
}

impl<'s> SegwitHrpstring<'s> {
    /// Reads a segwit address. Any human-readable part is accepted.
    ///
    /// # Errors
    ///
    /// The first of: more than [`MAX_STRING_LENGTH`] characters; those of
    /// [`UncheckedHrpstring::new`]; no data part; a witness version above 16; what is wrong with
    /// the checksum of that version; those of [`CheckedHrpstring::validate_segwit`].
    pub fn new(s: &'s str) -> Result<Self, SegwitHrpstringError> {
        let (mut hrp, mut program) = ([0; MAX_HRP_LENGTH], [0; MAX_PROGRAM_LENGTH]);
        let (hrp_length, version, _) = raw::segwit_decode(s.as_bytes(), &mut hrp, &mut program)
            .map_err(|refusal| no_address(s, refusal))?;
        // Behind the separator stand the witness version, the program and the checksum.
        let data_part = &s.as_bytes()[hrp_length + 2..];
        Ok(SegwitHrpstring {
            hrp: Hrp::read(&hrp[..hrp_length]),
            witness_version: Fe32::of_low_bits(version),
            ascii: &data_part[..data_part.len() - Bech32::CHECKSUM_LENGTH],
        })
    }

    /// Reads a segwit address whose checksum is Bech32, whatever its version: as before BIP-350.
    ///
    /// # Errors
    ///
    /// Those of [`UncheckedHrpstring::new`]; no data part; a witness version above 16; what is wrong
    /// with the checksum; those of [`CheckedHrpstring::validate_segwit`].
    pub fn new_bech32(s: &'s str) -> Result<Self, SegwitHrpstringError> {
        let unchecked = UncheckedHrpstring::new(s)?;
        if unchecked.witness_version().is_none() {
            return Err(no_version(unchecked.data_part_ascii()));
        }
        unchecked
            .validate_and_remove_checksum::<Bech32>()?
            .validate_segwit()
    }

    /// Whether its human-readable part is `bc` or `tb` (BIP-173), in either case.
    pub fn has_valid_hrp(&self) -> bool {
        self.hrp.is_valid_segwit()
    }

    /// Its human-readable part, in the case of the text.
    pub fn hrp(&self) -> Hrp {
        self.hrp
    }

    /// Its witness version, from 0 to 16.
    pub fn witness_version(&self) -> Fe32 {
        self.witness_version
    }

    /// The characters between the witness version and the checksum, in the case of the text.
    pub fn data_part_ascii_no_witver_no_checksum(&self) -> &'s [u8] {
        self.ascii
    }

    /// The bytes of its program.
    pub fn byte_iter(&self) -> ByteIter<'s> {
        ByteIter::new(self.ascii)
    }
}

// The first element of characters, where it is a witness version.
fn version_in(characters: &[u8]) -> Option<Fe32> {
    let first = AsciiToFe32Iter::new(characters).next()?;
    is_valid_witness_version(first).then_some(first)
}

// Why characters do not begin with a witness version.
fn no_version(characters: &[u8]) -> SegwitHrpstringError {
    let first = AsciiToFe32Iter::new(characters).next();
    first.map_or(
        SegwitHrpstringError::NoData,
        SegwitHrpstringError::InvalidWitnessVersion,
    )
}

// Why a text that is refused so, with its fault at this place, is not in the grammar: None where it is.
fn unread(s: &str, refusal: Refusal, place: usize) -> Option<UncheckedHrpstringError> {
    let character = match refusal {
        Refusal::InvalidCharacter => CharError::InvalidChar(s[place..].chars().next()?),
        Refusal::MixedCase => CharError::MixedCase,
        Refusal::NoSeparator => CharError::MissingSeparator,
        _ => {
            let (hrp, _) = s.rsplit_once('1')?;
            return part::Error::of(hrp, refusal).map(UncheckedHrpstringError::Hrp);
        }
    };
    Some(UncheckedHrpstringError::Char(character))
}

// What is wrong with a text of this length with these parts that a checksum refuses so: None where the
// text is not in the grammar.
fn unchecksummed(
    code: Code,
    length: usize,
    hrp: &Hrp,
    data_part: &[u8],
    refusal: Refusal,
) -> Option<ChecksumError> {
    match refusal {
        Refusal::TextTooLong => Some(ChecksumError::CodeLength(CodeLengthError {
            encoded_length: length,
            code_length: code.code_length,
        })),
        Refusal::NoChecksum => Some(ChecksumError::InvalidLength),
        Refusal::WrongChecksum => Some(ChecksumError::InvalidResidue(InvalidResidueError::new(
            residue(code, hrp, data_part),
            code.target,
        ))),
        _ => None,
    }
}

// The remainder of a text.
fn residue(code: Code, hrp: &Hrp, data_part: &[u8]) -> u32 {
    let elements = HrpFe32Iter::new(hrp).chain(AsciiToFe32Iter::new(data_part));
    // A text that is refused for its checksum is no longer, and the part is there twice.
    let (mut values, mut count) = ([0; BECH32_MAX_LONG_TEXT + MAX_HRP_LENGTH], 0);
    for element in elements {
        values[count] = element.to_u8();
        count += 1;
    }
    residue_of(code, &values[..count])
}

// The parts of a text that has a separator, to say why its checksum is refused.
fn split(s: &str) -> Option<(Hrp, &[u8])> {
    let (hrp, data_part) = s.rsplit_once('1')?;
    (hrp.len() <= MAX_HRP_LENGTH).then(|| (Hrp::read(hrp.as_bytes()), data_part.as_bytes()))
}

/// Why a text that a checksum refuses so is not accepted.
pub(crate) fn unchecked(code: Code, s: &str, refusal: Refusal) -> CheckedHrpstringError {
    let place = raw::fault(code.number, s.as_bytes()).map_or_else(|(_, place)| place, |()| 0);
    if let Some(error) = unread(s, refusal, place) {
        return CheckedHrpstringError::Parse(error);
    }
    split(s)
        .and_then(|(hrp, data_part)| unchecksummed(code, s.len(), &hrp, data_part, refusal))
        .map(CheckedHrpstringError::Checksum)
        .expect("a refusal of a text")
}

/// Why a text that [`crate::decode()`] refuses so is not accepted.
pub(crate) fn undecoded(s: &str, refusal: Refusal) -> CheckedHrpstringError {
    unchecked(BECH32M, s, refusal)
}

/// Why a text that is refused so is no segwit address.
pub(crate) fn no_address(s: &str, refusal: Refusal) -> SegwitHrpstringError {
    let padding = SegwitHrpstringError::Padding;
    if let Some(error) = WitnessLengthError::of(refusal) {
        return error.into();
    }
    match refusal {
        Refusal::AddressTooLong => SegwitHrpstringError::TooLong(s.len()),
        Refusal::NoData => SegwitHrpstringError::NoData,
        Refusal::PaddingTooLong => padding(PaddingError::TooMuch),
        Refusal::PaddingNotZero => padding(PaddingError::NonZero),
        _ => no_checked_address(s, refusal),
    }
}

// The same of a fault that is told before the checksum was accepted.
fn no_checked_address(s: &str, refusal: Refusal) -> SegwitHrpstringError {
    let data_part = split(s).map_or([].as_slice(), |(_, data_part)| data_part);
    if refusal == Refusal::BadVersion {
        return no_version(data_part);
    }
    let is_v0 = refusal == Refusal::WrongChecksum && version_in(data_part) == Some(VERSION_0);
    match unchecked(if is_v0 { BECH32 } else { BECH32M }, s, refusal) {
        CheckedHrpstringError::Parse(e) => SegwitHrpstringError::Unchecked(e),
        CheckedHrpstringError::Checksum(e) => SegwitHrpstringError::Checksum(e),
    }
}
