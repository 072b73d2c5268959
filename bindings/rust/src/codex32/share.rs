//! Strings of either length in their parts.

use super::{Header, Identifier, Refusal, SecretBytes, Threshold, MAX_BYTES};
use crate::{raw, Fe32};
use core::fmt;

// Where the payload begins, and how many characters stand behind it in a string, by the most characters of
// one with the shorter checksum.
const PAYLOAD_AT: usize = 9;
const MAX_SHORT_LENGTH: usize = 93;
const CHECKSUM_LENGTH: usize = 13;
const LONG_CHECKSUM_LENGTH: usize = 15;

/// A string of either length, 48 to 93 characters or 125 to 127: a share, or the secret at the index `s`
/// (BIP-93, codex32 and Long codex32 Strings). Its checksum is right, and its header lawful. It borrows the
/// text, and copies nothing of its payload: whoever holds the text wipes it, as a [`SecretText`] does.
///
/// Printed for debugging, it shows its header alone. Compare shares by their text, as a [`SecretText`].
///
/// [`SecretText`]: super::SecretText
///
/// ```
/// use bech32_proved::codex32::{Refusal, Share};
/// use bech32_proved::Fe32;
///
/// let text = "ms10testsxxxxxxxxxxxxxxxxxxxxxxxxxx4nzvca9cmczlw";
/// let share = Share::parse(text)?;
/// assert_eq!(share.threshold().number(), 0);
/// assert_eq!(share.identifier().to_string(), "test");
/// assert_eq!(share.share_index(), Fe32::S);
/// assert_eq!(share.payload(), "xxxxxxxxxxxxxxxxxxxxxxxxxx");
/// assert_eq!(share.to_bytes()?[..5], [0x31, 0x8c, 0x63, 0x18, 0xc6]);
/// assert_eq!(share.as_str(), text);
/// # Ok::<(), Refusal>(())
/// ```
#[derive(Clone, Copy)]
pub struct Share<'s> {
    header: Header,
    text: &'s str,
}

impl<'s> Share<'s> {
    /// Reads a string of either length.
    ///
    /// # Errors
    ///
    /// The first of: [`Refusal::InvalidCharacter`], [`Refusal::MixedCase`], [`Refusal::NoSeparator`],
    /// [`Refusal::HrpEmpty`], [`Refusal::HrpTooLong`], [`Refusal::HrpNotAscii`], [`Refusal::HrpInvalid`],
    /// [`Refusal::HrpMixedCase`]; [`Refusal::BadLength`], neither 48 to 93 characters nor 125 to 127;
    /// [`Refusal::NotMs`]; [`Refusal::WrongChecksum`]; [`Refusal::BadThreshold`], neither 0 nor a digit from 2
    /// to 9; [`Refusal::BadShareIndex`], other than `s` where the threshold is 0.
    pub fn parse(text: &'s str) -> Result<Share<'s>, Refusal> {
        // The library says that there is no room for the bytes, or too many bits, behind all faults of the text.
        match raw::codex32_share(text.as_bytes(), &mut []) {
            Ok(_) | Err(Refusal::BitsLeftOver | Refusal::NoRoom) => Ok(Share {
                header: Header::read(text.as_bytes()),
                text,
            }),
            Err(refusal) => Err(refusal),
        }
    }

    /// What stands before the payload.
    #[must_use]
    pub fn header(&self) -> Header {
        self.header
    }

    /// How many shares give the secret: 2 to 9, or 0 for the secret itself.
    #[must_use]
    pub fn threshold(&self) -> Threshold {
        self.header.threshold()
    }

    /// What names the secret, the same in all its shares.
    #[must_use]
    pub fn identifier(&self) -> Identifier {
        self.header.identifier()
    }

    /// Which share it is; [`Fe32::S`] is the secret.
    #[must_use]
    pub fn share_index(&self) -> Fe32 {
        self.header.share_index()
    }

    /// The characters between the share index and the checksum, in the case of the text.
    #[must_use]
    pub fn payload(&self) -> &'s str {
        let checksum_length = if self.text.len() <= MAX_SHORT_LENGTH {
            CHECKSUM_LENGTH
        } else {
            LONG_CHECKSUM_LENGTH
        };
        &self.text[PAYLOAD_AT..self.text.len() - checksum_length]
    }

    /// The bytes of the payload, 16 to 44, or 63 or 64: the bits of its elements in groups of eight. At most
    /// four bits behind them, whatever they are, are left out (BIP-93, Unshared Secret).
    ///
    /// # Errors
    ///
    /// [`Refusal::BitsLeftOver`] where more than four are left over.
    pub fn to_bytes(&self) -> Result<SecretBytes, Refusal> {
        SecretBytes::put(MAX_BYTES, |bytes| {
            raw::codex32_share(self.text.as_bytes(), bytes)
        })
    }

    /// The whole text, in its case.
    #[must_use]
    pub fn as_str(&self) -> &'s str {
        self.text
    }

    // Whether both have the same threshold, identifier and length.
    pub(super) fn is_beside(&self, other: &Share<'_>) -> bool {
        self.threshold() == other.threshold()
            && self.identifier() == other.identifier()
            && self.text.len() == other.text.len()
    }
}

impl AsRef<str> for Share<'_> {
    fn as_ref(&self) -> &str {
        self.text
    }
}

impl fmt::Debug for Share<'_> {
    fn fmt(&self, f: &mut fmt::Formatter<'_>) -> fmt::Result {
        let mut shown = f.debug_struct("Share");
        shown.field("header", &self.header).finish_non_exhaustive()
    }
}
