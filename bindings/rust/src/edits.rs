//! Characters that were left out, put in or swapped in a text.

use crate::checksum::CorrectingChecksum;
use crate::declared;
use crate::lent::{Lent, MOST_MEMORY};
use crate::prelude::*;
use crate::text::{ascii, in_case_of};
use crate::{raw, Refusal};
use core::fmt;

// The texts that there is room for at first. If there are more, the first call says how many, and a second
// one puts them.
const LEAST_TEXTS: usize = 8;

// The kinds of edits, as the library numbers them.
const SWAPPED: u8 = declared::BECH32_SWAPPED as u8;
const LEFT_OUT: u8 = declared::BECH32_LEFT_OUT as u8;

/// What is done to a mistyped text to make another of it. A place is the number of characters that stand
/// before: people count from 1, as this edit's words do. Characters have the case of the mistyped text.
#[derive(Clone, Copy, Debug, PartialEq, Eq, Hash)]
pub enum Edit {
    /// Two neighbours are swapped.
    Swapped {
        /// Where the first of them stands.
        place: usize,
        /// What stands there in the mistyped text.
        first: char,
        /// What stands behind it.
        second: char,
    },
    /// A character is left out.
    LeftOut {
        /// Where it stands in the mistyped text.
        place: usize,
        /// That character.
        character: char,
    },
    /// A character is put in.
    PutIn {
        /// Where it then stands.
        place: usize,
        /// That character.
        character: char,
    },
}

impl fmt::Display for Edit {
    fn fmt(&self, f: &mut fmt::Formatter<'_>) -> fmt::Result {
        match self {
            Edit::Swapped {
                place,
                first,
                second,
            } => {
                let (one, other) = (place + 1, place + 2);
                write!(
                    f,
                    "characters {one} and {other}: {first} and {second} are swapped"
                )
            }
            Edit::LeftOut { place, character } => {
                write!(f, "character {}: {character} is left out", place + 1)
            }
            Edit::PutIn { place, character } => {
                write!(f, "character {}: {character} is put in", place + 1)
            }
        }
    }
}

/// A text that one edit makes of a mistyped one, and that a checksum accepts.
#[derive(Clone, Debug, PartialEq, Eq, Hash)]
pub struct NearEdit {
    edit: Edit,
    text: String,
}

impl NearEdit {
    /// What is done to the mistyped text.
    pub fn edit(&self) -> Edit {
        self.edit
    }

    /// The text that it makes, which the checksum accepts, in the case of the mistyped one: in upper case if
    /// its letters are, else in lower case.
    pub fn as_str(&self) -> &str {
        &self.text
    }
}

/// Lists the texts that one edit makes of a mistyped one, in its case: all others that a checksum accepts and
/// that come from it by leaving out one character of the data part, by putting one in, or by swapping two
/// neighbours. Each is listed once. The human-readable part stays as it is.
///
/// If one character is missing or too many, or two neighbours are swapped, the right text is nearly always the
/// only one listed; of other texts the list is nearly always empty. **It may not be what was meant**: show it,
/// and ask.
///
/// [`Bech32`](crate::Bech32) accepts a text that ends in `p` with any number of `q` before the `p` as well. So if
/// the text that is found ends in `p`, an edit of its last two characters says little: ask first about a text
/// that [`nearest`](crate::nearest) finds. [`Bech32m`](crate::Bech32m) has no such weakness.
///
/// ```
/// use bech32_proved::{near_edits, Bech32, Edit};
///
/// // The 21st character is missing.
/// let found = near_edits::<Bech32>("bc1qw508d6qejxtdg4y53zarvary0c5xw7kv8f3t4")?;
/// assert_eq!(found.len(), 1);
/// assert_eq!(found[0].as_str(), "bc1qw508d6qejxtdg4y5r3zarvary0c5xw7kv8f3t4");
/// assert_eq!(found[0].edit(), Edit::PutIn { place: 20, character: 'r' });
/// assert_eq!(found[0].edit().to_string(), "character 21: r is put in");
///
/// let found = near_edits::<Bech32>("bc1qw508d6qejxtdg4y5r3azrvary0c5xw7kv8f3t4")?;
/// assert_eq!(found[0].edit().to_string(), "characters 23 and 24: a and z are swapped");
/// # Ok::<(), bech32_proved::Refusal>(())
/// ```
///
/// # The order
///
/// Swaps come first, then what leaves a character out, then what puts one in; in each kind, those with fewer
/// characters behind them come first. If several edits make the same text, the one with the fewest characters
/// behind it is listed: of a run of equal characters the last is left out, and an equal one is put in behind
/// the run.
///
/// # Errors
///
/// The [`Refusal`] that [`UncheckedHrpstring::new`](crate::primitives::decode::UncheckedHrpstring::new) has:
/// the text may have any length, and any number of characters behind its separator. Else
/// [`Refusal::NoMemory`] or [`Refusal::NoRoom`] if the texts are too many for 16 MB.
pub fn near_edits<Ck: CorrectingChecksum>(s: &str) -> Result<Vec<NearEdit>, Refusal> {
    near_edits_from::<Ck>(LEAST_TEXTS, s)
}

// Like `near_edits`, first with room for `least` texts.
fn near_edits_from<Ck: CorrectingChecksum>(
    least: usize,
    s: &str,
) -> Result<Vec<NearEdit>, Refusal> {
    let (mut lent, mut room) = (Lent::for_text(s.len()), Room::of(least, s));
    let count = room.fill::<Ck>(&mut lent, s)?;
    if count.saturating_mul(s.len() + 1) > MOST_MEMORY {
        return Err(Refusal::NoRoom);
    }
    if count > least {
        room = Room::of(count, s);
        room.fill::<Ck>(&mut lent, s)?;
    }
    Ok(room.read(count, s))
}

// Room for the edits of a text and for the texts that they make.
struct Room {
    kinds: Vec<u8>,
    locations: Vec<usize>,
    texts: Vec<u8>,
}

impl Room {
    // Room for `count` of them.
    fn of(count: usize, s: &str) -> Room {
        Room {
            kinds: vec![0; count],
            locations: vec![0; count],
            texts: vec![0; count * (s.len() + 1)],
        }
    }

    // Puts as many as there is room for, and returns how many there are.
    fn fill<Ck: CorrectingChecksum>(&mut self, lent: &mut Lent, s: &str) -> Result<usize, Refusal> {
        let (kinds, locations, texts) = (&mut self.kinds, &mut self.locations, &mut self.texts);
        lent.to(|lent| raw::near_edits(Ck::NUMBER, s.as_bytes(), lent, kinds, locations, texts))
    }

    // The first of those that were put.
    fn read(&self, count: usize, s: &str) -> Vec<NearEdit> {
        let edits = self.kinds.iter().zip(&self.locations).take(count);
        let mut rest = &self.texts[..];
        let near = |(kind, location): (&u8, &usize)| {
            let (text, others) = rest.split_at(length_by(*kind, s.len()));
            rest = others;
            let text = in_case_of(s, ascii(text).to_owned());
            NearEdit {
                edit: edit_of(*kind, *location, s, &text),
                text,
            }
        };
        edits.map(near).collect()
    }
}

// How long the text is that an edit of this kind makes.
fn length_by(kind: u8, length: usize) -> usize {
    match kind {
        SWAPPED => length,
        LEFT_OUT => length - 1,
        _ => length + 1,
    }
}

// The edit of a text that makes another one, by its kind and the characters that stand behind it.
fn edit_of(kind: u8, location: usize, s: &str, text: &str) -> Edit {
    let old = |place: usize| char::from(s.as_bytes()[place]);
    match kind {
        SWAPPED => {
            let place = s.len() - 2 - location;
            Edit::Swapped {
                place,
                first: old(place),
                second: old(place + 1),
            }
        }
        LEFT_OUT => {
            let place = s.len() - 1 - location;
            Edit::LeftOut {
                place,
                character: old(place),
            }
        }
        _ => {
            let place = text.len() - 1 - location;
            Edit::PutIn {
                place,
                character: char::from(text.as_bytes()[place]),
            }
        }
    }
}

#[cfg(test)]
mod tests {
    use super::*;
    use crate::Bech32;

    #[test]
    fn makes_room_for_all_texts() {
        let text = "ii2134hk2xmat79tqp";
        let found = near_edits::<Bech32>(text).unwrap();
        let texts: Vec<&str> = found.iter().map(NearEdit::as_str).collect();
        assert_eq!(texts, ["ii2134hk2xmat79tp", "ii2134hk2xmat79tqqp"]);
        for least in 0..3 {
            let again = near_edits_from::<Bech32>(least, text);
            assert_eq!(again.as_ref(), Ok(&found));
            let mut room = Room::of(least, text);
            assert_eq!(
                room.fill::<Bech32>(&mut Lent::for_text(text.len()), text),
                Ok(2)
            );
            assert_eq!(room.read(least, text), found[..least]);
        }
    }
}
