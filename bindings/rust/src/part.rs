//! Human-readable parts.

use crate::checksum::BECH32;
use crate::declared::BECH32_MAX_HRP;
#[cfg(feature = "alloc")]
use crate::prelude::*;
use crate::text::ascii;
use crate::{raw, Refusal};
use core::cmp::Ordering;
use core::fmt;
use core::hash::{Hash, Hasher};
use core::iter::{Copied, Map};
use core::slice;

/// The bytes that a human-readable part has at most (BIP-173).
pub(crate) const MAX_HRP_LENGTH: usize = BECH32_MAX_HRP;

// The characters of a separator and a checksum.
const WITHOUT_DATA: usize = 7;

/// The human-readable part of the Bitcoin network.
pub const BC: Hrp = Hrp::parse_unchecked("bc");

/// The human-readable part of the Bitcoin networks for tests, testnet and signet.
pub const TB: Hrp = Hrp::parse_unchecked("tb");

/// The human-readable part of a Bitcoin network of one's own, regtest.
pub const BCRT: Hrp = Hrp::parse_unchecked("bcrt");

/// The bytes of a human-readable part.
pub type ByteIter<'b> = Copied<slice::Iter<'b, u8>>;

/// The characters of a human-readable part.
pub type CharIter<'b> = Map<ByteIter<'b>, fn(u8) -> char>;

/// The bytes of a human-readable part, in lower case.
pub type LowercaseByteIter<'b> = Map<slice::Iter<'b, u8>, fn(&u8) -> u8>;

/// The characters of a human-readable part, in lower case.
pub type LowercaseCharIter<'b> = Map<LowercaseByteIter<'b>, fn(u8) -> char>;

/// The human-readable part of a text: 1 to 83 characters with codes from 33 to 126, without letters
/// of both cases.
///
/// Parts that differ in case alone are equal, and hash and sort alike; each keeps its own case.
///
/// ```
/// use bech32_proved::primitives::hrp::Error;
/// use bech32_proved::{hrp, Hrp};
///
/// assert_eq!(Hrp::parse("BC")?, hrp::BC);
/// assert_eq!(Hrp::parse("BC")?.as_str(), "BC");
/// assert_eq!(Hrp::parse("Bc"), Err(Error::MixedCase));
/// # Ok::<(), Error>(())
/// ```
#[derive(Clone, Copy)]
pub struct Hrp {
    bytes: [u8; MAX_HRP_LENGTH],
    length: usize,
}

impl Hrp {
    // The part that the library read.
    pub(crate) fn read(part: &[u8]) -> Hrp {
        let mut bytes = [0; MAX_HRP_LENGTH];
        bytes[..part.len()].copy_from_slice(part);
        Hrp {
            bytes,
            length: part.len(),
        }
    }

    /// Reads a human-readable part.
    ///
    /// # Errors
    ///
    /// [`Error::Empty`]; [`Error::TooLong`]; then what is wrong with the first character that may not
    /// stand there.
    pub fn parse(hrp: &str) -> Result<Hrp, Error> {
        // The library reads the part before it writes the text of no bytes, which has room.
        let mut text = [0; MAX_HRP_LENGTH + WITHOUT_DATA];
        match raw::encode(BECH32.number, hrp.as_bytes(), &[], &mut text) {
            Ok(_) => Ok(Hrp::read(hrp.as_bytes())),
            Err(refusal) => Err(Error::of(hrp, refusal).expect("a refusal of a part")),
        }
    }

    /// Reads a human-readable part from what a value prints.
    ///
    /// # Errors
    ///
    /// Those of [`Hrp::parse`].
    #[cfg(feature = "alloc")]
    pub fn parse_display<T: fmt::Display>(data: T) -> Result<Hrp, Error> {
        Hrp::parse(&data.to_string())
    }

    /// A part that is not tested, with `X` in place of each byte that is not from 33 to 126. The calls that
    /// write texts may return an error for one that [`Hrp::parse`] would refuse.
    ///
    /// # Panics
    ///
    /// Where it has more than 83 bytes.
    pub const fn parse_unchecked(hrp: &str) -> Hrp {
        let given = hrp.as_bytes();
        let mut bytes = [0; MAX_HRP_LENGTH];
        let mut i = 0;
        while i < given.len() {
            bytes[i] = match given[i] {
                byte @ 33..=126 => byte,
                _ => b'X',
            };
            i += 1;
        }
        Hrp {
            bytes,
            length: given.len(),
        }
    }

    /// Its bytes, in its case.
    pub fn as_bytes(&self) -> &[u8] {
        &self.bytes[..self.length]
    }

    /// Its characters, in its case.
    pub fn as_str(&self) -> &str {
        ascii(self.as_bytes())
    }

    /// Its characters in lower case.
    #[cfg(feature = "alloc")]
    pub fn to_lowercase(&self) -> String {
        self.as_str().to_ascii_lowercase()
    }

    /// Its bytes, in its case.
    pub fn byte_iter(&self) -> ByteIter<'_> {
        self.as_bytes().iter().copied()
    }

    /// Its characters, in its case.
    pub fn char_iter(&self) -> CharIter<'_> {
        self.byte_iter().map(char::from)
    }

    /// Its bytes in lower case.
    pub fn lowercase_byte_iter(&self) -> LowercaseByteIter<'_> {
        self.as_bytes().iter().map(u8::to_ascii_lowercase)
    }

    /// Its characters in lower case.
    pub fn lowercase_char_iter(&self) -> LowercaseCharIter<'_> {
        self.lowercase_byte_iter().map(char::from)
    }

    /// How many characters it has, from 1 to 83.
    #[allow(clippy::len_without_is_empty)]
    pub const fn len(&self) -> usize {
        self.length
    }

    /// Whether it is `bc` or `tb`, in either case (BIP-173, Segwit address format).
    pub fn is_valid_segwit(&self) -> bool {
        self.is_valid_on_mainnet() || self.is_valid_on_testnet()
    }

    /// Whether it is `bc`, in either case.
    pub fn is_valid_on_mainnet(&self) -> bool {
        *self == BC
    }

    /// Whether it is `tb`, in either case.
    pub fn is_valid_on_testnet(&self) -> bool {
        *self == TB
    }

    /// Whether it is `tb`, in either case.
    pub fn is_valid_on_signet(&self) -> bool {
        *self == TB
    }

    /// Whether it is `bcrt`, in either case.
    pub fn is_valid_on_regtest(&self) -> bool {
        *self == BCRT
    }
}

impl PartialEq for Hrp {
    fn eq(&self, other: &Hrp) -> bool {
        self.lowercase_byte_iter().eq(other.lowercase_byte_iter())
    }
}

impl Eq for Hrp {}

impl PartialOrd for Hrp {
    fn partial_cmp(&self, other: &Hrp) -> Option<Ordering> {
        Some(self.cmp(other))
    }
}

impl Ord for Hrp {
    fn cmp(&self, other: &Hrp) -> Ordering {
        self.lowercase_byte_iter().cmp(other.lowercase_byte_iter())
    }
}

impl Hash for Hrp {
    fn hash<H: Hasher>(&self, state: &mut H) {
        self.length.hash(state);
        self.lowercase_byte_iter().for_each(|byte| byte.hash(state));
    }
}

impl fmt::Display for Hrp {
    fn fmt(&self, f: &mut fmt::Formatter<'_>) -> fmt::Result {
        f.write_str(self.as_str())
    }
}

impl fmt::Debug for Hrp {
    fn fmt(&self, f: &mut fmt::Formatter<'_>) -> fmt::Result {
        f.debug_tuple("Hrp").field(&self.as_str()).finish()
    }
}

/// Why a text is no human-readable part.
#[derive(Clone, Copy, Debug, PartialEq, Eq)]
#[non_exhaustive]
pub enum Error {
    /// It has more than 83 bytes: how many.
    TooLong(usize),
    /// It is empty.
    Empty,
    /// It has this character, which is not ASCII.
    NonAsciiChar(char),
    /// It has this byte, which is ASCII and not from 33 to 126.
    InvalidAsciiByte(u8),
    /// It has letters of both cases.
    MixedCase,
}

impl Error {
    // What a refusal of a text as a human-readable part says of it.
    pub(crate) fn of(hrp: &str, refusal: Refusal) -> Option<Error> {
        match refusal {
            Refusal::HrpEmpty => Some(Error::Empty),
            Refusal::HrpTooLong => Some(Error::TooLong(hrp.len())),
            Refusal::HrpNotAscii => at_fault(hrp).map(Error::NonAsciiChar),
            Refusal::HrpInvalid => {
                let byte = at_fault(hrp).and_then(|c| u8::try_from(c).ok());
                byte.map(Error::InvalidAsciiByte)
            }
            Refusal::HrpMixedCase => Some(Error::MixedCase),
            _ => None,
        }
    }
}

// The character of a part that may not stand there. The library tells its place in a text that begins
// with the part. There letters of both cases would be told first.
fn at_fault(hrp: &str) -> Option<char> {
    let mut text = [b'q'; MAX_HRP_LENGTH + WITHOUT_DATA];
    let length = hrp.len();
    text[..length].copy_from_slice(hrp.as_bytes());
    text[..length].make_ascii_lowercase();
    text[length] = b'1';
    let (_, place) = raw::fault(BECH32.number, &text[..length + WITHOUT_DATA]).err()?;
    hrp[place..].chars().next()
}

impl fmt::Display for Error {
    fn fmt(&self, f: &mut fmt::Formatter<'_>) -> fmt::Result {
        match self {
            Error::TooLong(length) => write!(
                f,
                "hrp is too long, found {length} characters, must be <= {MAX_HRP_LENGTH}"
            ),
            Error::Empty => f.write_str("hrp is empty, must have at least 1 character"),
            Error::NonAsciiChar(c) => write!(f, "found non-ASCII character: {c}"),
            Error::InvalidAsciiByte(byte) => {
                write!(f, "byte value is not valid US-ASCII: '{byte:x}'")
            }
            Error::MixedCase => f.write_str("hrp cannot mix upper and lower case"),
        }
    }
}

#[cfg(feature = "std")]
impl std::error::Error for Error {}
