//! Codex32 ([BIP-93]): a secret in strings that can be copied by hand, and shares of it, any `threshold` of
//! which recover it, and fewer of which say nothing about it.
//!
//! Strings are read, made and derived by the static library `codex32_c`, each function of which is proved to
//! do what its contract says of every input. This module is there by the feature `codex32`, which is on
//! unless `default-features = false`.
//!
//! # A secret, split into shares
//!
//! [`split`] makes the shares of a secret of 16 to 44 bytes, or of 63 or 64, by random bytes of the operating
//! system, and [`recover`] gives its bytes back:
//!
//! ```
//! use bech32_proved::codex32::{recover, split, Refusal, Threshold};
//!
//! let secret = [0xab; 16];
//! let shares = split(&secret, Threshold::new(3)?, 5, None)?;
//! for share in &shares {
//!     println!("{}", share.as_str());
//! }
//!
//! // Any three of the five recover the secret, and two say nothing about it.
//! assert_eq!(recover(&shares[2..])?, secret);
//! assert_eq!(recover(&shares[3..]), Err(Refusal::TooFewShares));
//! # Ok::<(), Box<dyn std::error::Error>>(())
//! ```
//!
//! If there are more shares than the threshold, all are tested, so one share to spare reveals a wrong one.
//! [`encode`] makes the string of a secret that is not shared, and [`derive()`] one share more of a set.
//!
//! # Damaged strings
//!
//! [`propose`] and [`propose_long`] look for the nearest string to a damaged one. A string that was proposed
//! may not be what was meant: show it, and ask.
//!
//! # Secrets
//!
//! Type secrets and shares only on a computer that is offline.
//!
//! - **What a call tells.** The branches that the library takes and the memory that it reads do not depend on
//!   the characters behind the share index of a string, on the bytes of a secret, or on random bytes, but in
//!   [`propose`], [`propose_long`] and [`fault()`]. They may depend on lengths, threshold, identifier, share
//!   index and case, on the refusal, where the first fault stands, and whether a share to spare agrees. That is
//!   tested in the machine code for Linux on x86-64, and not proved (`tools/steady` in the repository).
//! - **What a call leaves.** The memory that this crate takes for a call, and the stack below it, are filled with
//!   zeros; tests search them for what is left. Strings and bytes are returned as [`SecretText`] and
//!   [`SecretBytes`], which are wiped when they are dropped. A [`Share`] borrows its text.
//! - **What stays.** What you hold otherwise, such as a `String` that was read, or what was printed; copies that
//!   the compiler keeps in registers or puts on your part of the stack; memory that the system swapped out or
//!   dumped.
//!
//! [`fault()`]: crate::fault()
//! [BIP-93]: <https://github.com/bitcoin/bips/blob/master/bip-0093.mediawiki>

mod header;
mod refusal;
mod secret;
mod share;
mod split;

pub use header::{Header, Identifier, Threshold};
pub use refusal::Refusal;
pub use secret::{SecretBytes, SecretText};
pub use share::Share;
pub use split::{random_length, recover, split_with, MAX_SPLIT};
#[cfg(feature = "std")]
pub use split::{split, SplitError};

use crate::declared;
use crate::prelude::*;
use crate::raw;
use crate::Fe32;

/// The characters that a string has at most.
pub const MAX_TEXT_LENGTH: usize = declared::CODEX32_TEXT_SIZE;

/// The bytes that a string holds at most.
pub const MAX_BYTES: usize = declared::CODEX32_BYTES_SIZE;

/// The strings that a set has at most, one at each index.
pub const MAX_SHARES: usize = declared::CODEX32_MAX_SHARES;

// The bytes that suffice for the proposal of a text of at most this many characters. Of others none is looked for.
const MEMORY: usize = declared::codex32_memory(MAX_TEXT_LENGTH);

// The character of a share index, as the library takes it.
fn character(share_index: Fe32) -> u32 {
    share_index.to_char().into()
}

// The text that a call puts into a buffer, which becomes the string's.
fn written<E>(put: impl FnOnce(&mut [u8]) -> Result<usize, E>) -> Result<SecretText, E> {
    SecretBytes::put(MAX_TEXT_LENGTH, put).map(SecretText::written)
}

// Texts of strings one behind another, with their lengths.
fn joined<T: AsRef<str>>(shares: &[T]) -> Result<(SecretBytes, Vec<usize>), Refusal> {
    if shares.len() > MAX_SHARES {
        return Err(too_many(shares));
    }
    let texts = shares.iter().map(|share| share.as_ref().as_bytes());
    let lengths = texts.clone().map(<[u8]>::len).collect();
    Ok((SecretBytes::joined(texts), lengths))
}

// Why more shares than there are indices give no string: one is refused, they are not of one set, or an index
// stands twice.
fn too_many<T: AsRef<str>>(texts: &[T]) -> Refusal {
    let shares: Result<Vec<Share<'_>>, Refusal> = texts
        .iter()
        .map(|text| Share::parse(text.as_ref()))
        .collect();
    match shares {
        Err(refusal) => refusal,
        Ok(shares) if shares.iter().all(|share| share.is_beside(&shares[0])) => Refusal::IndexTwice,
        Ok(_) => Refusal::OtherSet,
    }
}

/// Makes the string of a header and bytes, in lower case: of 16 to 44 bytes one of 48 to 93 characters, of 63
/// or 64 a long one, of 125 or 127. The bits that are left over are zero. To share a secret, call [`split`].
///
/// ```
/// use bech32_proved::codex32::{encode, Header, Identifier, Refusal, Threshold};
/// use bech32_proved::Fe32;
///
/// let header = Header::new(Threshold::new(0)?, Identifier::parse("test")?, Fe32::S)?;
/// let text = encode(&header, &[0x31; 16])?;
/// assert_eq!(text.len(), 48);
/// assert!(text.starts_with("ms10tests"));
/// assert_eq!(encode(&header, &[0; 15]), Err(Refusal::BadSize));
/// # Ok::<(), Refusal>(())
/// ```
///
/// # Errors
///
/// [`Refusal::BadSize`] of another number of bytes.
pub fn encode(header: &Header, bytes: &[u8]) -> Result<SecretText, Refusal> {
    let (threshold, index) = (header.threshold(), header.share_index());
    let identifier = header.identifier().characters();
    written(|text| {
        raw::codex32_encode(threshold.into(), &identifier, character(index), bytes, text)
    })
}

/// Makes the string of a header and the characters of its payload, in lower case. They are of the alphabet, in
/// one case, and as many as 16 to 44 bytes have, from 26 to 71, or as 63 or 64 have, 101 or 103: at most four
/// bits are left over, whatever they are. To share a secret, call [`split`].
///
/// ```
/// use bech32_proved::codex32::{encode_payload, Header, Identifier, Refusal, Threshold};
/// use bech32_proved::Fe32;
///
/// let header = Header::new(Threshold::new(2)?, Identifier::parse("name")?, Fe32::A)?;
/// assert_eq!(
///     encode_payload(&header, "320ZYXWVUTSRQPNMLKJHGFEDCA")?,
///     "ms12namea320zyxwvutsrqpnmlkjhgfedcaxrpp870hkkqrm"
/// );
/// assert_eq!(encode_payload(&header, "320"), Err(Refusal::BadSize));
/// # Ok::<(), Refusal>(())
/// ```
///
/// # Errors
///
/// The first of: [`Refusal::InvalidCharacter`], of one that is not of the alphabet; [`Refusal::MixedCase`];
/// [`Refusal::BadSize`], of another number of characters.
pub fn encode_payload(header: &Header, characters: &str) -> Result<SecretText, Refusal> {
    let (threshold, index) = (header.threshold().into(), character(header.share_index()));
    let (identifier, payload) = (header.identifier().characters(), characters.as_bytes());
    written(|text| raw::codex32_encode_payload(threshold, &identifier, index, payload, text))
}

/// Derives the string at an index from others of its set, in lower case (BIP-93, Recovering Secret): texts or
/// [`Share`]s. They have the same threshold, identifier and length, and each another index; there are at least
/// as many as the threshold. With the threshold 0 the one string is the secret. If there are more than the
/// threshold, all are tested: they lie on one polynomial, or contradict each other.
///
/// The string has the threshold and the identifier of the set and the index that you ask for, and its
/// checksum is right.
///
/// ```
/// use bech32_proved::codex32::derive;
/// use bech32_proved::Fe32;
///
/// let shares = [
///     "MS12NAMEA320ZYXWVUTSRQPNMLKJHGFEDCAXRPP870HKKQRM",
///     "MS12NAMECACDEFGHJKLMNPQRSTUVWXYZ023FTR2GDZMPY6PN",
/// ];
/// assert_eq!(
///     derive(&shares, Fe32::D)?,
///     "ms12namedll4f8jlh4e5vdvuldlfxu2jhdnlsm97xvenrxeg"
/// );
/// # Ok::<(), bech32_proved::codex32::Refusal>(())
/// ```
///
/// # Errors
///
/// The first of: those of [`Share::parse`], of the texts in their order; [`Refusal::OtherSet`], if a share has
/// another threshold, identifier or length than the first; [`Refusal::IndexTwice`];
/// [`Refusal::BadShareIndex`], if the threshold is 0 and the index not `s`; [`Refusal::TooFewShares`];
/// [`Refusal::Contradiction`].
pub fn derive<T: AsRef<str>>(shares: &[T], share_index: Fe32) -> Result<SecretText, Refusal> {
    let (texts, lengths) = joined(shares)?;
    written(|text| raw::codex32_derive(character(share_index), &texts, &lengths, text))
}

/// Proposes the nearest string to a damaged one of 48 to 93 characters, in which each `?` behind the last `1`
/// is a character that cannot be read. Returns None if there is none.
///
/// It has the same human-readable part and length, its checksum is right, and twice the number of changed
/// characters, plus the number of unreadable ones, is at most 8; there is at most one such string. It is in
/// upper case if the letters of the damaged one are, else in lower case. **It may not be what was meant**: show
/// it, and ask. Neither threshold nor share index is tested. The time of the call, and which memory it reads,
/// depend on the text and its errors.
///
/// ```
/// use bech32_proved::codex32::propose;
///
/// let damaged = "ms12name?320zyxwvutsrqpnmlkjhgfedcaxrpp87?hkkqqq";
/// let proposed = "ms12namea320zyxwvutsrqpnmlkjhgfedcaxrpp870hkkqrm";
/// assert_eq!(propose(damaged)?.as_deref(), Some(proposed));
/// assert_eq!(propose(&damaged.to_uppercase())?.unwrap(), proposed.to_uppercase());
///
/// let lost = "ms12name?????????utsrqpnmlkjhgfedcaxrpp870hkkqrm";
/// assert_eq!(propose(lost)?, None);
/// # Ok::<(), bech32_proved::codex32::Refusal>(())
/// ```
///
/// # Errors
///
/// The first of: [`Refusal::InvalidCharacter`], [`Refusal::MixedCase`], [`Refusal::NoSeparator`],
/// [`Refusal::HrpEmpty`], [`Refusal::HrpTooLong`], [`Refusal::HrpNotAscii`], [`Refusal::HrpInvalid`],
/// [`Refusal::HrpMixedCase`], of the text with each such `?` read as `0`; [`Refusal::BadLength`];
/// [`Refusal::NotMs`].
pub fn propose(s: &str) -> Result<Option<SecretText>, Refusal> {
    proposed_by(raw::codex32_propose, s)
}

/// Proposes the nearest string to a damaged long one, of 125 to 127 characters, within the bounds of [`propose`]
/// and in the case of the damaged one. Returns None if there is none.
///
/// # Errors
///
/// Those of [`propose`].
pub fn propose_long(s: &str) -> Result<Option<SecretText>, Refusal> {
    proposed_by(raw::codex32_propose_long, s)
}

// Puts the proposal for a text into a buffer.
type Propose = fn(&[u8], usize, &mut [u8]) -> Result<usize, Refusal>;

fn proposed_by(propose: Propose, s: &str) -> Result<Option<SecretText>, Refusal> {
    let proposed = written(|text| propose(s.as_bytes(), MEMORY, text));
    match proposed {
        Err(Refusal::NoNearest) => Ok(None),
        other => other.map(|proposed| Some(proposed.in_case_of(s))),
    }
}
