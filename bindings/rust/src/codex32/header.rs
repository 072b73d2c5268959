//! What stands before the payload of a string.

use super::{character, Refusal};
use crate::text::ascii;
use crate::{raw, Fe32};
use core::fmt;

// The characters of an identifier.
const IDENTIFIER_LENGTH: usize = 4;

// A lawful identifier.
const SOME_IDENTIFIER: &[u8] = b"test";

// Whether the library takes these parts: it makes no string of no bytes, and says so behind all faults of the
// parts.
fn tested(threshold: u32, identifier: &[u8], share_index: u32) -> Result<(), Refusal> {
    match raw::codex32_encode(threshold, identifier, share_index, &[], &mut []) {
        Ok(_) | Err(Refusal::BadSize) => Ok(()),
        Err(refusal) => Err(refusal),
    }
}

/// How many shares give the secret: 2 to 9, or 0 for a secret that is not shared (BIP-93, codex32).
///
/// ```
/// use bech32_proved::codex32::{Refusal, Threshold};
///
/// assert_eq!(Threshold::new(3)?.number(), 3);
/// assert_eq!(Threshold::new(1), Err(Refusal::BadThreshold));
/// # Ok::<(), Refusal>(())
/// ```
#[derive(Clone, Copy, Debug, PartialEq, Eq, PartialOrd, Ord, Hash)]
pub struct Threshold(u8);

impl Threshold {
    /// The threshold that is this number: 0, or from 2 to 9.
    ///
    /// # Errors
    ///
    /// [`Refusal::BadThreshold`] of every other number.
    pub fn new(number: u8) -> Result<Threshold, Refusal> {
        tested(number.into(), SOME_IDENTIFIER, character(Fe32::S))?;
        Ok(Threshold(number))
    }

    // The threshold that the library read.
    pub(super) fn read(digit: u8) -> Threshold {
        Threshold(digit - b'0')
    }

    /// The number, 0 or from 2 to 9.
    #[must_use]
    pub fn number(self) -> u8 {
        self.0
    }

    /// The digit.
    #[must_use]
    pub fn to_char(self) -> char {
        char::from(b'0' + self.0)
    }
}

impl From<Threshold> for u32 {
    fn from(threshold: Threshold) -> u32 {
        threshold.0.into()
    }
}

impl fmt::Display for Threshold {
    fn fmt(&self, f: &mut fmt::Formatter<'_>) -> fmt::Result {
        fmt::Display::fmt(&self.0, f)
    }
}

/// Four elements that name a secret, the same in all its shares (BIP-93, codex32).
///
/// ```
/// use bech32_proved::codex32::{Identifier, Refusal};
///
/// let identifier = Identifier::parse("CASH")?;
/// assert_eq!(identifier.to_string(), "cash");
/// assert_eq!(identifier, Identifier::parse("cash")?);
/// assert_eq!(Identifier::parse("Cash"), Err(Refusal::BadIdentifier));
/// assert_eq!(Identifier::parse("bank"), Err(Refusal::BadIdentifier));
/// # Ok::<(), Refusal>(())
/// ```
#[derive(Clone, Copy, Debug, PartialEq, Eq, Hash)]
pub struct Identifier([Fe32; IDENTIFIER_LENGTH]);

impl Identifier {
    /// The identifier of these elements.
    #[must_use]
    pub fn new(elements: [Fe32; 4]) -> Identifier {
        Identifier(elements)
    }

    /// Reads four characters of the alphabet, in one case.
    ///
    /// # Errors
    ///
    /// [`Refusal::BadIdentifier`] of every other word.
    pub fn parse(word: &str) -> Result<Identifier, Refusal> {
        tested(0, word.as_bytes(), character(Fe32::S))?;
        Ok(Identifier::read(word.as_bytes()))
    }

    // The identifier of four characters that the library read.
    pub(super) fn read(characters: &[u8]) -> Identifier {
        let mut elements = [Fe32::Q; IDENTIFIER_LENGTH];
        for (element, character) in elements.iter_mut().zip(characters) {
            *element = Fe32::from_char_unchecked(*character);
        }
        Identifier(elements)
    }

    /// The elements.
    #[must_use]
    pub fn elements(&self) -> [Fe32; 4] {
        self.0
    }

    // The characters, in lower case.
    pub(super) fn characters(&self) -> [u8; IDENTIFIER_LENGTH] {
        self.0.map(|element| element.to_char() as u8)
    }
}

impl fmt::Display for Identifier {
    fn fmt(&self, f: &mut fmt::Formatter<'_>) -> fmt::Result {
        f.pad(ascii(&self.characters()))
    }
}

/// What stands before the payload of a string: the threshold, the identifier, and which share it is. Where the
/// threshold is 0, that is `s`, the secret (BIP-93, codex32 and Unshared Secret).
#[derive(Clone, Copy, Debug, PartialEq, Eq, Hash)]
pub struct Header {
    threshold: Threshold,
    identifier: Identifier,
    share_index: Fe32,
}

impl Header {
    /// The header of these parts. The share index of a character is [`Fe32::from_char`], that of the secret
    /// [`Fe32::S`].
    ///
    /// ```
    /// use bech32_proved::codex32::{Header, Identifier, Refusal, Threshold};
    /// use bech32_proved::Fe32;
    ///
    /// let (unshared, identifier) = (Threshold::new(0)?, Identifier::parse("test")?);
    /// assert!(Header::new(unshared, identifier, Fe32::S).is_ok());
    /// let refused = Header::new(unshared, identifier, Fe32::from_char('a')?);
    /// assert_eq!(refused, Err(Refusal::BadShareIndex));
    /// # Ok::<(), Refusal>(())
    /// ```
    ///
    /// # Errors
    ///
    /// [`Refusal::BadShareIndex`] where the threshold is 0 and the share index is not `s`.
    pub fn new(
        threshold: Threshold,
        identifier: Identifier,
        share_index: Fe32,
    ) -> Result<Header, Refusal> {
        let characters = identifier.characters();
        tested(threshold.into(), &characters, character(share_index))?;
        Ok(Header {
            threshold,
            identifier,
            share_index,
        })
    }

    // The header of a string that the library read.
    pub(super) fn read(text: &[u8]) -> Header {
        Header {
            threshold: Threshold::read(text[3]),
            identifier: Identifier::read(&text[4..8]),
            share_index: Fe32::from_char_unchecked(text[8]),
        }
    }

    /// How many shares give the secret.
    #[must_use]
    pub fn threshold(&self) -> Threshold {
        self.threshold
    }

    /// What names the secret.
    #[must_use]
    pub fn identifier(&self) -> Identifier {
        self.identifier
    }

    /// Which share it is; [`Fe32::S`] is the secret.
    #[must_use]
    pub fn share_index(&self) -> Fe32 {
        self.share_index
    }
}
