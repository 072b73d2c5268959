//! Mistyped texts mended.

use crate::checksum::CorrectingChecksum;
use crate::declared::BECH32_MAX_LISTED;
use crate::lent::{Lent, MOST_MEMORY};
use crate::prelude::*;
use crate::raw;
use crate::text::{ascii, in_case_of, is_in_upper_case, MAX_TEXT_LENGTH};
use crate::{Fe32, Refusal};
use core::fmt;
use core::iter::once;

// The locations that a correction has at most.
const MAX_LISTED: usize = BECH32_MAX_LISTED;

// The bytes that near texts are put into at first. If all of them take more, the first search says how much,
// and a second one puts them.
const LEAST_ROOM: usize = 16 << 10;

/// How a mistyped text is mended.
#[derive(Clone, Debug, PartialEq, Eq, Hash)]
pub struct Correction {
    errors: Vec<(usize, Fe32)>,
    text: String,
}

impl Correction {
    /// The locations, 0 that of the last character, with the element to add to the one that stands
    /// there: the erasures in the order given, then the other errors. [`correct`] lists none where the
    /// checksum accepts the text as it is.
    pub fn bch_errors(&self) -> impl Iterator<Item = (usize, Fe32)> + '_ {
        self.errors.iter().copied()
    }

    /// The mended text, which the checksum accepts, in the case of the mistyped one: in upper case if its
    /// letters are, else in lower case.
    pub fn as_str(&self) -> &str {
        &self.text
    }

    /// The same locations as places, counted from the front of the text and in rising order, with the
    /// characters before and after: what to show to people.
    ///
    /// ```
    /// use bech32_proved::{correct, Bech32, Change};
    ///
    /// let correction = correct::<Bech32>("BC1QAR0SRRR7XFKVY5L643LYDNW9RE59GTZZWF5MDX", &[])?;
    /// let changes = correction.changes();
    /// assert_eq!(changes, [Change { place: 41, from: 'X', to: 'Q' }]);
    /// assert_eq!(changes[0].to_string(), "character 42: X becomes Q");
    /// # Ok::<(), bech32_proved::Refusal>(())
    /// ```
    pub fn changes(&self) -> Vec<Change> {
        let is_upper = is_in_upper_case(&self.text);
        let shown = |element: Fe32| match element.to_char() {
            c if is_upper => c.to_ascii_uppercase(),
            c => c,
        };
        let change = |(location, value): (usize, Fe32)| {
            let place = self.text.len() - 1 - location;
            let element = Fe32::from_char_unchecked(self.text.as_bytes()[place]);
            Change {
                place,
                from: shown(element - value),
                to: shown(element),
            }
        };
        let mut changes: Vec<Change> = self.bch_errors().map(change).collect();
        changes.sort_by_key(|change| change.place);
        changes
    }
}

/// A character of a mistyped text, and the one that is in its place in a mended one. At an erasure they
/// may be the same.
#[derive(Clone, Copy, Debug, PartialEq, Eq, Hash)]
pub struct Change {
    /// How many characters stand before it. People count from 1, as this change's words do.
    pub place: usize,
    /// What stands there in the mistyped text.
    pub from: char,
    /// What stands there in the mended one. Both have the case of the mistyped text.
    pub to: char,
}

impl fmt::Display for Change {
    fn fmt(&self, f: &mut fmt::Formatter<'_>) -> fmt::Result {
        let (number, from, to) = (self.place + 1, self.from, self.to);
        if from == to {
            write!(f, "character {number}: {to} stays")
        } else {
            write!(f, "character {number}: {from} becomes {to}")
        }
    }
}

/// Mends a mistyped text by a checksum, in the case of the text. `erasures` are the locations of characters
/// that are known to be wrong; location 0 is the last character, as in the names of the Rust crate, and the
/// character at a place has the location `s.len() - 1 - place`.
///
/// It finds one wrong character; or one, beside one erasure; or up to three erasures. Within these bounds
/// there is at most one correction of the data part. **It may not be what was meant**: show it, and ask.
/// [`nearest`] finds two wrong characters.
///
/// ```
/// use bech32_proved::{correct, Bech32, Fe32, Refusal};
///
/// let correction = correct::<Bech32>("bc1qar0srrr7xfkvy5l643lydnw9re59gtzzwf5mdx", &[])?;
/// assert_eq!(correction.as_str(), "bc1qar0srrr7xfkvy5l643lydnw9re59gtzzwf5mdq");
/// assert!(correction.bch_errors().eq([(0, Fe32::X)]));
///
/// let two = "bc1qar0srrr7xfkvy5l64qlydnw9re59gtzzwf5mdx";
/// assert_eq!(correct::<Bech32>(two, &[]), Err(Refusal::NoCorrection));
/// let correction = correct::<Bech32>(two, &[0])?;
/// assert_eq!(correction.as_str(), "bc1qar0srrr7xfkvy5l643lydnw9re59gtzzwf5mdq");
///
/// assert_eq!(correct::<Bech32>("A12UEL5Q", &[])?.as_str(), "A12UEL5L");
/// # Ok::<(), Refusal>(())
/// ```
///
/// # Errors
///
/// The [`Refusal`] that [`CheckedHrpstring::new`](crate::primitives::decode::CheckedHrpstring::new) has, but
/// [`Refusal::NoCorrection`] in place of a wrong checksum: if there is no such correction, or an erasure is
/// not in the data part.
pub fn correct<Ck: CorrectingChecksum>(s: &str, erasures: &[usize]) -> Result<Correction, Refusal> {
    let (mut locations, mut values) = ([0; MAX_LISTED], [0; MAX_LISTED]);
    let mut mended = [0; MAX_TEXT_LENGTH];
    let (count, length) = raw::correct(
        Ck::NUMBER,
        s.as_bytes(),
        erasures,
        &mut locations,
        &mut values,
        &mut mended,
    )?;
    let errors = locations[..count].iter().zip(&values).map(|(l, v)| {
        let value = Fe32::try_from(*v).expect("the library's values are elements");
        (*l, value)
    });
    Ok(Correction {
        errors: errors.collect(),
        text: in_case_of(s, ascii(&mended[..length]).to_owned()),
    })
}

/// Lists the texts near to a mistyped one, in its case: all that a checksum accepts and that differ from it
/// in at most `errors` characters, 0 to 2, of the data part outside `erasures`. These are the locations of
/// characters that are known to be wrong; location 0 is the last character. The list may be empty.
///
/// With at most 89 characters in the data part and no erasures, it has at most one text. If no more than
/// `errors` characters are wrong, that text is the right one. **It may not be what was meant**: of random
/// texts of 62 characters, some 15 in 10,000 have a near one. Show it, and ask.
///
/// # Time
///
/// A search for two errors, in milliseconds of a processor at 2.5 GHz, rounded, and the number of texts. If
/// these fill more than 16 KB, there is a second search, which takes as long.
///
/// | characters | no erasure | one | two | three |
/// |---|---|---|---|---|
/// | 42 | 0.03, 1 | 0.1, 1 | 0.1, 1 | 0.15, 17 |
/// | 62 | 0.05, 1 | 0.15, 1 | 0.15, 2 | 0.25, 50 |
/// | 90 | 0.05, 1 | 0.25, 1 | 0.3, 4 | 0.45, 110 |
/// | 200 | 0.1, 1 | 0.4, 2 | 0.55, 20 | 1.8, 550 |
/// | 400 | 0.2, 1 | 0.9, 3 | 1.1, 75 | 6.5, 2,300 |
/// | 1,000 | 0.5, 2 | 2.6, 14 | 4.7, 450 | too many for 16 MB |
///
/// One error takes at most 0.15 ms up to 90 characters, and 1.5 ms at 1,000. From 135 characters on a text may
/// have far more near ones beside three erasures that are 33 locations apart. No search takes more than 0.2
/// seconds: it ends where 16 MB do not suffice.
///
/// What helps a person is a short list: at most two errors with two erasures up to 90 characters, two errors
/// with one erasure in longer texts, and one error with three erasures. Beyond these the right text is one of
/// many that are as near.
///
/// # The order
///
/// The order is that of the highest location of a change outside the erasures, then that of the
/// element added there, then that of the next such location. A text without such changes is first:
/// one that the checksum accepts is the first of its own list. The list is empty if an erasure is not in
/// the data part, or if there are more than three.
///
/// ```
/// use bech32_proved::{nearest, Bech32, Fe32, Refusal};
///
/// let two = "bc1qar0srrr7xfkvy5l64qlydnw9re59gtzzwf5mdx";
/// let found = nearest::<Bech32>(two, &[], 2)?;
/// assert_eq!(found.len(), 1);
/// assert_eq!(found[0].as_str(), "bc1qar0srrr7xfkvy5l643lydnw9re59gtzzwf5mdq");
/// assert!(found[0].bch_errors().eq([(0, Fe32::X), (20, Fe32::_3)]));
///
/// assert_eq!(nearest::<Bech32>(two, &[], 1)?, []);
/// assert_eq!(nearest::<Bech32>(two, &[], 3), Err(Refusal::BadNumber));
/// # Ok::<(), Refusal>(())
/// ```
///
/// # Errors
///
/// [`Refusal::BadNumber`] of more than two errors; else the [`Refusal`] that
/// [`CheckedHrpstring::new`](crate::primitives::decode::CheckedHrpstring::new) has, but for a wrong checksum;
/// else [`Refusal::NoMemory`] or [`Refusal::NoRoom`] if the texts are too many for 16 MB.
pub fn nearest<Ck: CorrectingChecksum>(
    s: &str,
    erasures: &[usize],
    errors: usize,
) -> Result<Vec<Correction>, Refusal> {
    nearest_by(s, erasures, |memory, texts| {
        raw::nearest(Ck::NUMBER, s.as_bytes(), erasures, errors, memory, texts)
    })
}

/// The texts near to a text that a call puts into a buffer, as many as it has room for; it returns how many
/// there are in all.
pub(crate) fn nearest_by(
    s: &str,
    erasures: &[usize],
    call: impl FnMut(usize, &mut [u8]) -> Result<usize, Refusal>,
) -> Result<Vec<Correction>, Refusal> {
    nearest_from(LEAST_ROOM, s, erasures, call)
}

// Like `nearest_by`, first with `least` bytes of room for the texts.
fn nearest_from(
    least: usize,
    s: &str,
    erasures: &[usize],
    mut call: impl FnMut(usize, &mut [u8]) -> Result<usize, Refusal>,
) -> Result<Vec<Correction>, Refusal> {
    let mut lent = Lent::for_text(s.len());
    // Puts as many as there is room for, and returns the number of all.
    let mut put = |texts: &mut [u8]| lent.to(|memory| call(memory, texts));
    let mut texts = vec![0; least];
    let count = put(&mut texts)?;
    let wanted = count.saturating_mul(s.len());
    if wanted > MOST_MEMORY {
        return Err(Refusal::NoRoom);
    }
    if wanted > least {
        texts = vec![0; wanted];
        put(&mut texts)?;
    }
    let found = texts.chunks_exact(s.len()).take(count).map(ascii);
    Ok(found.map(|near| correction_to(near, s, erasures)).collect())
}

// The correction of a text to one that is near.
fn correction_to(near: &str, s: &str, erasures: &[usize]) -> Correction {
    let old = s.bytes().map(|c| c.to_ascii_lowercase());
    let pairs: Vec<(u8, u8)> = old.zip(near.bytes()).rev().collect();
    let others = once(0).chain((1..pairs.len()).rev());
    let changed = others.filter(|location| pairs[*location].0 != pairs[*location].1);
    let mut errors: Vec<(usize, Fe32)> = vec![];
    for location in erasures.iter().copied().chain(changed) {
        if errors.iter().all(|(listed, _)| *listed != location) {
            errors.push((location, added(pairs[location])));
        }
    }
    Correction {
        errors,
        text: in_case_of(s, near.to_owned()),
    }
}

// What is added to the element of one character to get that of another.
fn added((old, new): (u8, u8)) -> Fe32 {
    Fe32::from_char_unchecked(new) - Fe32::from_char_unchecked(old)
}

#[cfg(test)]
mod tests {
    use super::*;
    use crate::Bech32;

    const MISTYPED: &str = "bc1qqq08d6qejxtdg4y5r3zarvary0c5xw7kv8f3t4";

    #[test]
    fn counts_the_texts_that_it_has_no_room_for() {
        let (text, length) = (MISTYPED.as_bytes(), MISTYPED.len());
        for room in [0, length - 1, length, length + 1] {
            let mut texts = vec![0; room];
            let count = raw::nearest(1, text, &[], 2, 1 << 16, &mut texts);
            assert_eq!(count, Ok(1));
            assert_eq!(texts.iter().all(|byte| *byte == 0), room < length);
        }
    }

    #[test]
    fn makes_room_for_all_texts() {
        let text = "split1checkupstagehan";
        let found = nearest::<Bech32>(text, &[3, 8, 1], 2).unwrap();
        assert_eq!(found.len(), 3);
        for least in [0, text.len() - 1, text.len(), 3 * text.len()] {
            let again = nearest_from(least, text, &[3, 8, 1], |memory, texts| {
                raw::nearest(1, text.as_bytes(), &[3, 8, 1], 2, memory, texts)
            });
            assert_eq!(again.as_ref(), Ok(&found));
        }
    }
}
