//! Output descriptors (BIP-380): their checksum computed and tested, and mistyped ones mended.
//!
//! ```
//! use bech32_proved::descriptor::{check, checksum, mend};
//!
//! assert_eq!(checksum("raw(deadbeef)")?, "89f8spxm");
//! assert_eq!(check("raw(deadbeef)#89f8spxm")?, "raw(deadbeef)");
//! let found = mend("raw(deedbeef)#89f8spxm", 1)?;
//! assert_eq!(found.len(), 1);
//! assert_eq!(found[0].as_str(), "raw(deadbeef)#89f8spxm");
//! assert_eq!(found[0].to_string(), "character 7: e becomes a");
//! # Ok::<(), bech32_proved::descriptor::Error>(())
//! ```
//!
//! What a descriptor says is not read: neither its script nor its keys are tested. It may hold private keys: type
//! such a one only on a computer that is offline. What a call takes for itself, and the stack that the library
//! used, are filled with zeros after it; the strings that you give and get are yours.

use crate::declared;
use crate::prelude::*;
use crate::raw;
use crate::text::ascii;
use crate::Refusal;
use core::fmt;

// The bytes that a call is lent at most, and that its texts fill at most.
const MOST_MEMORY: usize = 256 << 20;

// The characters of a checksum, and the most of a text that is mended by one edit, and by two.
const CHECKSUM_LENGTH: usize = declared::BECH32_DESCRIPTOR_CHECKSUM;
const MAX_LENGTH: usize = declared::BECH32_MAX_DESCRIPTOR;
const MAX_LENGTH_FOR_TWO: usize = declared::BECH32_MAX_DESCRIPTOR_TWO;

// The texts that there is room for at first, and the factor by which memory grows if it does not suffice.
const LEAST_TEXTS: usize = 8;
const GROWTH: usize = 8;

// What stands for a character that is not ASCII: one that no descriptor has.
const STRANGE: u8 = 0x7f;

/// Why a descriptor is refused.
#[derive(Clone, Copy, Debug, PartialEq, Eq, Hash)]
#[non_exhaustive]
pub enum Error {
    /// A character may not stand in a descriptor, or not in its checksum: how many characters stand before it.
    Character(usize),
    /// The text does not end in `#` and eight characters.
    NoChecksum,
    /// The checksum is wrong.
    WrongChecksum,
    /// The text has more than 7,500 characters (1,400 for two changes), too many to be mended.
    TooLong,
    /// More than one character may be changed.
    Changed,
    /// The texts are too many for 256 MB.
    Memory,
}

impl Error {
    // Of a refusal, with the place that was told.
    fn of(refusal: Refusal, place: usize) -> Error {
        match refusal {
            Refusal::NotInDescriptor => Error::Character(place),
            Refusal::NoDescriptorChecksum => Error::NoChecksum,
            Refusal::WrongChecksum => Error::WrongChecksum,
            Refusal::DescriptorTooLong => Error::TooLong,
            Refusal::BadNumber => Error::Changed,
            _ => Error::Memory,
        }
    }
}

impl From<Error> for Refusal {
    fn from(e: Error) -> Refusal {
        match e {
            Error::Character(_) => Refusal::NotInDescriptor,
            Error::NoChecksum => Refusal::NoDescriptorChecksum,
            Error::WrongChecksum => Refusal::WrongChecksum,
            Error::TooLong => Refusal::DescriptorTooLong,
            Error::Changed => Refusal::BadNumber,
            Error::Memory => Refusal::NoMemory,
        }
    }
}

impl fmt::Display for Error {
    fn fmt(&self, f: &mut fmt::Formatter<'_>) -> fmt::Result {
        match self {
            Error::Character(place) => {
                write!(f, "{}: character {}", Refusal::from(*self), place + 1)
            }
            Error::Changed => f.write_str("more than one character may be changed"),
            _ => Refusal::from(*self).fmt(f),
        }
    }
}

#[cfg(feature = "std")]
impl std::error::Error for Error {}

/// What is done to a mistyped text to mend it.
#[derive(Clone, Copy, Debug, PartialEq, Eq, Hash)]
pub enum Mistake {
    /// The characters at a place and behind it are swapped.
    Swapped(usize),
    /// The character at a place of the mistyped text is left out.
    LeftOut(usize),
    /// A character is put in, and then stands at a place of the new text.
    PutIn(usize),
    /// The character at a place is changed.
    Changed(usize),
}

impl Mistake {
    // By the library's number, and the first place.
    fn of(kind: u8, place: usize) -> Mistake {
        match kind {
            1 => Mistake::Swapped(place),
            2 => Mistake::LeftOut(place),
            3 => Mistake::PutIn(place),
            _ => Mistake::Changed(place),
        }
    }

    // The length of what it makes of a text of this length.
    fn length(self, length: usize) -> usize {
        match self {
            Mistake::LeftOut(_) => length - 1,
            Mistake::PutIn(_) => length + 1,
            _ => length,
        }
    }
}

/// A text with a right checksum that is made of a mistyped one. Printed, it is what is done, with the characters
/// before and after; people count from 1, as these words do.
#[derive(Clone, PartialEq, Eq, Hash)]
pub struct Mended {
    text: String,
    mistake: Mistake,
    // What stands at its places before, as it was typed.
    before: Vec<char>,
}

impl Mended {
    /// The text, with its checksum.
    pub fn as_str(&self) -> &str {
        &self.text
    }

    /// What is done to the mistyped text, with places from 0 on.
    pub fn mistake(&self) -> Mistake {
        self.mistake
    }
}

// A descriptor may hold private keys.
impl fmt::Debug for Mended {
    fn fmt(&self, f: &mut fmt::Formatter<'_>) -> fmt::Result {
        f.debug_struct("Mended")
            .field("mistake", &self.mistake)
            .finish_non_exhaustive()
    }
}

impl fmt::Display for Mended {
    fn fmt(&self, f: &mut fmt::Formatter<'_>) -> fmt::Result {
        let (text, before) = (self.text.as_bytes(), &self.before);
        match self.mistake {
            Mistake::Changed(place) => {
                let to = char::from(text[place]);
                write!(f, "character {}: {} becomes {to}", place + 1, before[0])
            }
            Mistake::Swapped(place) => write!(
                f,
                "characters {} and {}: {} and {} are swapped",
                place + 1,
                place + 2,
                before[0],
                before[1]
            ),
            Mistake::LeftOut(place) => {
                write!(f, "character {}: {} is left out", place + 1, before[0])
            }
            Mistake::PutIn(place) => {
                let to = char::from(text[place]);
                write!(f, "character {}: {to} is put in", place + 1)
            }
        }
    }
}

/// A text with a right checksum that comes from a mistyped one by two characters changed. Printed, it is what is done, with
/// the characters before and after; people count from 1, as these words do.
#[derive(Clone, PartialEq, Eq, Hash)]
pub struct MendedTwice {
    text: String,
    places: (usize, usize),
    before: (char, char),
}

impl MendedTwice {
    /// The text, with its checksum.
    pub fn as_str(&self) -> &str {
        &self.text
    }

    /// The two places from 0 on, the lower one first.
    pub fn places(&self) -> (usize, usize) {
        self.places
    }
}

// A descriptor may hold private keys.
impl fmt::Debug for MendedTwice {
    fn fmt(&self, f: &mut fmt::Formatter<'_>) -> fmt::Result {
        f.debug_struct("MendedTwice")
            .field("places", &self.places)
            .finish_non_exhaustive()
    }
}

impl fmt::Display for MendedTwice {
    fn fmt(&self, f: &mut fmt::Formatter<'_>) -> fmt::Result {
        let (text, (first, second)) = (self.text.as_bytes(), self.places);
        write!(
            f,
            "characters {} and {}: {} becomes {}, {} becomes {}",
            first + 1,
            second + 1,
            self.before.0,
            char::from(text[first]),
            self.before.1,
            char::from(text[second])
        )
    }
}

/// Computes the checksum of a descriptor without one, eight characters: `text`, `#` and these are the descriptor.
///
/// # Errors
///
/// [`Error::Character`] at the first that no descriptor has.
pub fn checksum(text: &str) -> Result<String, Error> {
    let mut made = [0; CHECKSUM_LENGTH];
    match raw::descriptor_checksum(text.as_bytes(), &mut made) {
        Ok(length) => Ok(ascii(&made[..length]).to_owned()),
        Err((refusal, place)) => Err(Error::of(refusal, characters(text, place))),
    }
}

/// Tests the checksum of a descriptor, and returns the descriptor without it.
///
/// # Errors
///
/// The first of: [`Error::NoChecksum`]; [`Error::Character`]; [`Error::WrongChecksum`].
pub fn check(text: &str) -> Result<&str, Error> {
    match raw::descriptor_check(text.as_bytes()) {
        Ok(()) => Ok(&text[..text.len() - CHECKSUM_LENGTH - 1]),
        Err((refusal, place)) => Err(Error::of(refusal, characters(text, place))),
    }
}

/// Lists the other texts with a right checksum that one mistake makes of this one: a character is changed (unless
/// `changed`, the most characters that may be, is 0), or two neighbours are swapped, or a character is left out, or
/// one is put in. The mistake may be in the checksum, or be the `#`.
///
/// First come texts with one character changed, then two swapped, one left out, one put in; of each kind those with
/// the lower places first. Each is listed once. Of a descriptor with one such mistake the right text is nearly
/// always the only one listed; of others the list is nearly always empty. **It may not be what was meant**: compare
/// the addresses of the wallet.
///
/// # Errors
///
/// The first of: [`Error::Changed`]; [`Error::TooLong`]; [`Error::Memory`].
pub fn mend(text: &str, changed: usize) -> Result<Vec<Mended>, Error> {
    // A byte for each character.
    let mut read: Vec<u8> = text.chars().map(byte_of).collect();
    let found = Room::new(LEAST_TEXTS, read.len()).and_then(|mut room| {
        let count = room.put(&read, changed)?;
        if count > LEAST_TEXTS {
            room = Room::new(count, read.len())?;
            room.put(&read, changed)?;
        }
        Ok(room.read(text, count))
    });
    raw::wipe(&mut read, 0);
    found
}

/// Lists the texts with a right checksum that come from this one by two of its characters changed. Either may be in the
/// checksum, or be the `#`. Try [`mend`] first: where two characters are wrong, it takes about a 15th of the time at
/// 30 characters and a 150th at 1,400, and less memory.
///
/// They are in the order of their second places. Each is listed once. Of a descriptor with two such mistakes the right text
/// is nearly always the only one listed; of 100 texts that are no mistyped descriptors at most one is expected to be
/// answered with any. **It may not be what was meant**: compare the addresses of the wallet.
///
/// # Errors
///
/// The first of: [`Error::TooLong`], of more than 1,400 characters; [`Error::Memory`].
pub fn mend_two(text: &str) -> Result<Vec<MendedTwice>, Error> {
    // A byte for each character.
    let mut read: Vec<u8> = text.chars().map(byte_of).collect();
    let found = Room::new(LEAST_TEXTS, read.len()).and_then(|mut room| {
        let count = room.put_two(&read)?;
        if count > LEAST_TEXTS {
            room = Room::new(count, read.len())?;
            room.put_two(&read)?;
        }
        Ok(room.read_two(text, count))
    });
    raw::wipe(&mut read, 0);
    found
}

fn byte_of(c: char) -> u8 {
    u8::try_from(c).ok().filter(u8::is_ascii).unwrap_or(STRANGE)
}

// How many characters stand before a place in bytes.
fn characters(text: &str, place: usize) -> usize {
    text.char_indices()
        .take_while(|(at, _)| *at < place)
        .count()
}

// Room for texts, and for what makes them.
struct Room {
    kinds: Vec<u8>,
    places: Vec<usize>,
    texts: Vec<u8>,
}

impl Room {
    // For a number of texts that are made of one of this length.
    fn new(count: usize, length: usize) -> Result<Room, Error> {
        let size = count.saturating_mul(length + 1);
        if size > MOST_MEMORY {
            return Err(Error::Memory);
        }
        Ok(Room {
            kinds: vec![0; count],
            places: vec![0; 2 * count],
            texts: vec![0; size],
        })
    }

    // Puts as many as there is room for, and returns the number of all.
    fn put(&mut self, text: &[u8], changed: usize) -> Result<usize, Error> {
        let size = declared::bech32_descriptor_mend_memory(text.len().min(MAX_LENGTH));
        with_memory(size, |memory| {
            let (kinds, places) = (&mut self.kinds, &mut self.places);
            raw::descriptor_mend(text, changed, memory, kinds, places, &mut self.texts)
        })
    }

    // The same of two changed characters.
    fn put_two(&mut self, text: &[u8]) -> Result<usize, Error> {
        let size = declared::bech32_descriptor_two_memory(text.len().min(MAX_LENGTH_FOR_TWO));
        with_memory(size, |memory| {
            raw::descriptor_mend_two(text, memory, &mut self.places, &mut self.texts)
        })
    }

    // The first of those that were put, of two changed characters.
    fn read_two(&self, text: &str, count: usize) -> Vec<MendedTwice> {
        let old: Vec<char> = text.chars().collect();
        let each = self.places.chunks_exact(2).take(count);
        each.enumerate()
            .map(|(i, places)| MendedTwice {
                text: ascii(&self.texts[i * old.len()..(i + 1) * old.len()]).to_owned(),
                places: (places[0], places[1]),
                before: (old[places[0]], old[places[1]]),
            })
            .collect()
    }

    // The first of those that were put.
    fn read(&self, text: &str, count: usize) -> Vec<Mended> {
        let old: Vec<char> = text.chars().collect();
        let mut end = 0;
        let each = self.kinds[..count].iter().zip(self.places.chunks_exact(2));
        each.map(|(kind, places)| {
            let mistake = Mistake::of(*kind, places[0]);
            let start = end;
            end += mistake.length(old.len());
            let before = match mistake {
                Mistake::PutIn(_) => vec![],
                Mistake::LeftOut(place) | Mistake::Changed(place) => vec![old[place]],
                Mistake::Swapped(place) => vec![old[place], old[place + 1]],
            };
            let text = ascii(&self.texts[start..end]).to_owned();
            Mended {
                text,
                mistake,
                before,
            }
        })
        .collect()
    }
}

// Calls with as much memory as suffices, from this many bytes on.
fn with_memory(
    least: usize,
    mut call: impl FnMut(usize) -> Result<usize, Refusal>,
) -> Result<usize, Error> {
    let mut size = least;
    loop {
        let counted = call(size);
        match counted {
            Err(Refusal::NoMemory) if size < MOST_MEMORY => {
                size = MOST_MEMORY.min(GROWTH * size);
            }
            other => return other.map_err(|refusal| Error::of(refusal, 0)),
        }
    }
}

impl Drop for Room {
    fn drop(&mut self) {
        raw::wipe(&mut self.texts, 0);
    }
}
