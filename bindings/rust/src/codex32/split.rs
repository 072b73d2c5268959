//! A secret split into shares, and recovered.

use super::secret::{SecretBytes, SecretText};
use super::{joined, Identifier, Refusal, Threshold, MAX_BYTES, MAX_SHARES, MAX_TEXT_LENGTH};
use crate::prelude::*;
use crate::raw;
#[cfg(feature = "std")]
use crate::Fe32;
#[cfg(feature = "std")]
use core::fmt;
#[cfg(feature = "std")]
use std::error::Error;
#[cfg(feature = "std")]
use std::io;

/// The shares that a secret is split into at most: one at each index but `s`.
pub const MAX_SPLIT: usize = MAX_SHARES - 1;

/// Why [`split`] makes no shares.
#[cfg(feature = "std")]
#[derive(Debug)]
#[non_exhaustive]
pub enum SplitError {
    /// What was given is refused.
    Refused(Refusal),
    /// The operating system gave no random bytes, or none are taken from it here.
    Random(io::Error),
}

#[cfg(feature = "std")]
impl From<Refusal> for SplitError {
    fn from(refusal: Refusal) -> SplitError {
        SplitError::Refused(refusal)
    }
}

#[cfg(feature = "std")]
impl fmt::Display for SplitError {
    fn fmt(&self, f: &mut fmt::Formatter<'_>) -> fmt::Result {
        match self {
            SplitError::Refused(refusal) => refusal.fmt(f),
            SplitError::Random(_) => f.write_str("there are no random bytes"),
        }
    }
}

#[cfg(feature = "std")]
impl Error for SplitError {
    fn source(&self) -> Option<&(dyn Error + 'static)> {
        match self {
            SplitError::Refused(_) => None,
            SplitError::Random(error) => Some(error),
        }
    }
}

/// Splits a secret of 16 to 44 bytes, or of 63 or 64, into `count` shares, from the threshold to 31: any
/// `threshold` of them, 2 to 9, give it to [`recover`], and fewer say nothing about it.
///
/// Proved of the library, whatever the random bytes are: any `threshold` of the shares recover the secret. Proved
/// too: whichever `threshold` - 1 shares are known, for each secret of this length exactly one choice of the drawn
/// characters gives these. So they say nothing about the secret if the random bytes are uniform, which no proof
/// says.
///
/// The identifier is the same in all shares: None draws its four characters at random, which the standard leaves
/// free. Give each split a new one. Shares of two splits of one secret with the same identifier are taken for one
/// set, and [`recover`] returns other bytes, without an error. To get more shares later, derive them from enough
/// shares (`derive`).
///
/// The shares are in lower case, at the first indices of `acdefghjklmnpqrtuvwxyz023456789`. The characters of
/// those before the `threshold`-th are random bytes' lowest five bits, the others are derived from these and
/// the secret's own string (BIP-93).
///
/// The random bytes are the operating system's: on Unix those of `/dev/urandom`, once `/dev/random` has said
/// that the system has gathered enough. If it has none, there is no share. On other systems none are taken:
/// give [`split_with`] your own.
///
/// ```
/// use bech32_proved::codex32::{recover, split, Identifier, Refusal, Threshold};
///
/// let secret = [0xab; 16];
/// let identifier = Identifier::parse("cash")?;
/// let shares = split(&secret, Threshold::new(3)?, 5, Some(identifier))?;
/// assert!(shares[0].starts_with("ms13casha") && shares[4].starts_with("ms13cashf"));
///
/// assert_eq!(recover(&shares[1..4])?, secret);
/// assert_eq!(recover(&shares[1..3]), Err(Refusal::TooFewShares));
/// # Ok::<(), Box<dyn std::error::Error>>(())
/// ```
///
/// # Errors
///
/// The first of: [`Refusal::BadShareIndex`] if the threshold is 0; [`Refusal::BadSize`] of another number of
/// bytes; [`Refusal::BadCount`] of fewer shares than the threshold, or more than 31; [`SplitError::Random`];
/// [`Refusal::EqualRandom`] if the system's random bytes are all equal.
#[cfg(feature = "std")]
pub fn split(
    secret: &[u8],
    threshold: Threshold,
    count: usize,
    identifier: Option<Identifier>,
) -> Result<Vec<SecretText>, SplitError> {
    split_by(secret, threshold, count, identifier, draw)
}

/// Splits a secret as [`split`] does, by random bytes that are given: [`random_length`] of them, each of which
/// gives a character of the first shares, in their order, by its lowest five bits. Draw them uniformly and in
/// secret, from the operating system, and use them for one call alone: of bytes that are chosen in another way,
/// fewer shares than the threshold may tell the secret. Wipe them afterwards.
///
/// ```
/// use bech32_proved::codex32::{split_with, Identifier, Threshold};
///
/// // Nobody may know the random bytes: these are for a test.
/// let random: Vec<u8> = (0..26).collect();
/// let identifier = Identifier::parse("test")?;
/// let shares = split_with(&[0; 16], Threshold::new(2)?, 2, identifier, &random)?;
/// assert_eq!(&shares[0][..35], "ms12testaqpzry9x8gf2tvdw0s3jn54khce");
/// # Ok::<(), bech32_proved::codex32::Refusal>(())
/// ```
///
/// # Errors
///
/// Those of [`split`], but in place of the last [`Refusal::BadRandom`] of another number of random bytes, and then
/// [`Refusal::EqualRandom`] of random bytes that are all equal: nobody filled them.
pub fn split_with(
    secret: &[u8],
    threshold: Threshold,
    count: usize,
    identifier: Identifier,
    random: &[u8],
) -> Result<Vec<SecretText>, Refusal> {
    let mut texts = SecretBytes::zeros(MAX_TEXT_LENGTH * count.min(MAX_SPLIT));
    let length = raw::codex32_split(
        threshold.into(),
        &identifier.characters(),
        secret,
        random,
        count,
        texts.as_mut(),
    )?;
    let share = |text: &[u8]| SecretText::written(SecretBytes::joined([text].into_iter()));
    Ok(texts.chunks(length).take(count).map(share).collect())
}

/// The random bytes that [`split_with`] takes: one for each character that is drawn.
///
/// ```
/// use bech32_proved::codex32::{random_length, Threshold};
///
/// assert_eq!(random_length(Threshold::new(3)?, 16), 2 * 26);
/// # Ok::<(), bech32_proved::codex32::Refusal>(())
/// ```
#[must_use]
pub fn random_length(threshold: Threshold, secret_length: usize) -> usize {
    let characters = secret_length.saturating_mul(8).div_ceil(5);
    characters.saturating_mul(usize::from(threshold.number().saturating_sub(1)))
}

/// Recovers the bytes of a secret from shares of it, texts or [`Share`]s, at least as many as the threshold. If
/// there are more, all are tested. If there are not, a share of another secret gives other bytes, unnoticed.
///
/// The identifier and the threshold of the secret are those of any of its shares ([`Share`]), and its own
/// string is [`derive()`] at [`Fe32::S`].
///
/// ```
/// use bech32_proved::codex32::recover;
///
/// let secret = recover(&[
///     "MS12NAMEA320ZYXWVUTSRQPNMLKJHGFEDCAXRPP870HKKQRM",
///     "MS12NAMECACDEFGHJKLMNPQRSTUVWXYZ023FTR2GDZMPY6PN",
/// ])?;
/// assert_eq!(secret[..8], [0xd1, 0x80, 0x8e, 0x09, 0x6b, 0x35, 0xb2, 0x09]);
/// # Ok::<(), bech32_proved::codex32::Refusal>(())
/// ```
///
/// # Errors
///
/// Those of [`derive()`] at [`Fe32::S`]; then [`Refusal::BitsLeftOver`], where the payloads are not as long as
/// those of bytes.
///
/// [`derive()`]: super::derive()
/// [`Share`]: super::Share
pub fn recover<T: AsRef<str>>(shares: &[T]) -> Result<SecretBytes, Refusal> {
    let (texts, lengths) = joined(shares)?;
    SecretBytes::put(MAX_BYTES, |bytes| {
        raw::codex32_recover(&texts, &lengths, bytes)
    })
}

// Splits a secret by random bytes that are drawn, once all else is in order: that the library says of no random
// bytes.
#[cfg(feature = "std")]
fn split_by(
    secret: &[u8],
    threshold: Threshold,
    count: usize,
    identifier: Option<Identifier>,
    draw: impl Fn(&mut [u8]) -> io::Result<()>,
) -> Result<Vec<SecretText>, SplitError> {
    let any = Identifier::new([Fe32::Q; 4]);
    let without = split_with(secret, threshold, count, identifier.unwrap_or(any), &[]);
    match without {
        Err(refusal) if refusal != Refusal::BadRandom => return Err(refusal.into()),
        _ => {}
    }
    let mut random = SecretBytes::zeros(random_length(threshold, secret.len()));
    draw(random.as_mut()).map_err(SplitError::Random)?;
    let identifier = match identifier {
        Some(identifier) => identifier,
        None => drawn(draw).map_err(SplitError::Random)?,
    };
    split_with(secret, threshold, count, identifier, &random).map_err(SplitError::Refused)
}

// An identifier at random, the lowest five bits of four bytes.
#[cfg(feature = "std")]
fn drawn(draw: impl Fn(&mut [u8]) -> io::Result<()>) -> io::Result<Identifier> {
    let mut bytes = [0; 4];
    draw(&mut bytes)?;
    Ok(Identifier::new(
        bytes.map(|byte| Fe32::of_low_bits(byte.into())),
    ))
}

// Fills a buffer with random bytes of the operating system.
#[cfg(all(feature = "std", unix))]
fn draw(buffer: &mut [u8]) -> io::Result<()> {
    use std::fs::File;
    use std::io::Read;

    // The second never waits. On Linux it gives numbers before the system has gathered enough for them to be
    // random, and the first waits for that.
    File::open("/dev/random")?.read_exact(&mut [0])?;
    File::open("/dev/urandom")?.read_exact(buffer)
}

#[cfg(all(feature = "std", not(unix)))]
fn draw(_: &mut [u8]) -> io::Result<()> {
    Err(io::ErrorKind::Unsupported.into())
}

#[cfg(all(test, feature = "std"))]
mod tests {
    use super::*;
    use core::cell::Cell;

    fn threshold(number: u8) -> Threshold {
        Threshold::new(number).unwrap()
    }

    fn failing(_: &mut [u8]) -> io::Result<()> {
        Err(io::ErrorKind::NotFound.into())
    }

    #[test]
    fn without_random_bytes_there_is_no_share() {
        let identifier = Identifier::parse("cash").ok();
        for identifier in [identifier, None] {
            let made = split_by(&[7; 16], threshold(2), 3, identifier, failing);
            let Err(SplitError::Random(error)) = made else {
                panic!("there are shares")
            };
            assert_eq!(error.kind(), io::ErrorKind::NotFound);
        }
        // The identifier alone is not drawn.
        let calls = Cell::new(0);
        let once = |_: &mut [u8]| {
            calls.set(calls.get() + 1);
            if calls.get() == 1 {
                Ok(())
            } else {
                failing(&mut [])
            }
        };
        let made = split_by(&[7; 16], threshold(2), 3, None, once);
        assert!(matches!(made, Err(SplitError::Random(_))) && calls.get() == 2);
    }

    #[test]
    fn what_is_refused_draws_nothing() {
        let never = |_: &mut [u8]| -> io::Result<()> { panic!("random bytes are drawn") };
        for (size, number, count, refusal) in [
            (1, 0, 0, Refusal::BadShareIndex),
            (15, 2, 1, Refusal::BadSize),
            (1 << 20, 9, 40, Refusal::BadSize),
            (16, 3, 2, Refusal::BadCount),
            (16, 3, 32, Refusal::BadCount),
            (64, 9, usize::MAX, Refusal::BadCount),
        ] {
            let made = split_by(&vec![7; size], threshold(number), count, None, never);
            let Err(SplitError::Refused(found)) = made else {
                panic!("{size} {number} {count}")
            };
            assert_eq!(found, refusal);
        }
    }

    #[test]
    fn an_identifier_at_random_is_of_the_lowest_bits() {
        let rising = |buffer: &mut [u8]| {
            (0..).zip(buffer).for_each(|(n, byte)| *byte = 0xe0 | n);
            Ok(())
        };
        let shares = split_by(&[7; 16], threshold(2), 2, None, rising).unwrap();
        let wanted = "ms12qpzraqpzry9x8gf2tvdw0s3jn54khce";
        assert_eq!(&shares[0][..35], wanted);
        assert_eq!(&shares[1][..9], "ms12qpzrc");
    }

    #[cfg(unix)]
    #[test]
    fn draws_other_bytes_each_time() {
        let mut drawn = [[0; 32]; 4];
        drawn.iter_mut().for_each(|buffer| draw(buffer).unwrap());
        for (i, buffer) in drawn.iter().enumerate() {
            assert!(!drawn[..i].contains(buffer) && *buffer != [0; 32]);
        }
    }
}
