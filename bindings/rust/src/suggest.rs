//! Addresses that someone may have meant who typed another text.

use crate::declared;
use crate::edits::Edit;
use crate::prelude::*;
use crate::raw;
use crate::text::{ascii, in_case_of, is_in_upper_case};
use crate::{Change, Hrp, Refusal};
use core::fmt;

// These suffice for each call: bytes that are lent, and room for this many addresses.
const MEMORY: usize = declared::BECH32_SUGGEST_MEMORY;
const MOST: usize = declared::BECH32_SUGGESTIONS;
const MAX_LENGTH: usize = declared::BECH32_MAX_SEGWIT_TEXT;

/// An address that may have been meant, and what is changed to make it. Printed, it is what is changed, to be
/// shown to people, who count from 1 as these words do.
#[derive(Clone, Debug, PartialEq, Eq, Hash)]
pub struct Suggestion {
    text: String,
    changes: Vec<Change>,
    edit: Option<Edit>,
}

impl Suggestion {
    /// The address, in the case of the text that was typed: in upper case if its letters are, else in lower case.
    pub fn as_str(&self) -> &str {
        &self.text
    }

    /// The characters that are replaced, in rising order, each `?` with them. There are none where the text is an
    /// address as it was typed, or where [`edit`](Self::edit) makes it.
    pub fn changes(&self) -> &[Change] {
        &self.changes
    }

    /// The one edit that makes the address, where no characters are replaced.
    pub fn edit(&self) -> Option<Edit> {
        self.edit
    }
}

impl fmt::Display for Suggestion {
    fn fmt(&self, f: &mut fmt::Formatter<'_>) -> fmt::Result {
        if let Some(edit) = self.edit {
            return edit.fmt(f);
        }
        for (n, change) in self.changes.iter().enumerate() {
            write!(f, "{}{change}", if n == 0 { "" } else { "; " })?;
        }
        Ok(())
    }
}

/// Did you mean? Lists the segwit addresses of a network, that of a human-readable part, that someone may have
/// meant who typed a text. Each `?` in it is a character that cannot be read. They are of forms in use (version 0
/// with 20 or 32 bytes, version 1 with 32), but for the text itself, which is listed if it is an address of the
/// network.
///
/// Tried are the texts with up to two other characters, as many as are unlikely to be right by chance beside what
/// cannot be read, and if there is no `?`, those that one edit makes: a character left out, one put in, or two
/// neighbours swapped. Of texts that are no mistyped addresses, at most one in 100 gets an answer. **It is a guess**:
/// show it, and let people compare it with the source before it is paid to.
///
/// ```
/// use bech32_proved::{hrp, segwit};
///
/// let found = segwit::suggest("BC1Q?508D6QEJXTDG4Y5R3ZARVATY0C5XW7KV8F3T4", hrp::BC)?;
/// assert_eq!(found.len(), 1);
/// assert_eq!(found[0].as_str(), "BC1QW508D6QEJXTDG4Y5R3ZARVARY0C5XW7KV8F3T4");
/// assert_eq!(found[0].to_string(), "character 5: ? becomes W; character 28: T becomes R");
///
/// let found = segwit::suggest("bc1qw508d6qejxtdg4y53zarvary0c5xw7kv8f3t4", hrp::BC)?;
/// assert_eq!(found[0].to_string(), "character 21: r is put in");
/// # Ok::<(), bech32_proved::Refusal>(())
/// ```
///
/// # Errors
///
/// What `bech32_suggest` refuses with: what is wrong with the characters of the text.
pub fn suggest(s: &str, hrp: Hrp) -> Result<Vec<Suggestion>, Refusal> {
    let (mut kinds, mut places) = ([0; MOST], [0; MOST]);
    let mut texts = vec![0; MOST * MAX_LENGTH];
    let part = hrp.as_bytes();
    let count = raw::suggest(
        s.as_bytes(),
        part,
        MEMORY,
        &mut kinds,
        &mut places,
        &mut texts,
    )?;
    let each = kinds.iter().zip(places).take(count);
    let mut end = 0;
    Ok(each
        .map(|(kind, place)| {
            let start = end;
            end += length_of(*kind, s.len());
            suggestion(s, *kind, place, ascii(&texts[start..end]))
        })
        .collect())
}

// The length of what is made of a text of this length.
fn length_of(kind: u8, length: usize) -> usize {
    match kind {
        LEFT_OUT => length - 1,
        PUT_IN => length + 1,
        _ => length,
    }
}

const SWAPPED: u8 = declared::BECH32_SWAPPED as u8;
const LEFT_OUT: u8 = declared::BECH32_LEFT_OUT as u8;
const PUT_IN: u8 = declared::BECH32_PUT_IN as u8;

fn suggestion(s: &str, kind: u8, place: usize, made: &str) -> Suggestion {
    let (old, text) = (s.as_bytes(), in_case_of(s, made.to_owned()));
    let new = text.as_bytes();
    let is_upper = is_in_upper_case(s);
    let typed = |at: usize| match char::from(old[at]) {
        c if is_upper => c,
        c => c.to_ascii_lowercase(),
    };
    let edit = match kind {
        SWAPPED => Some(Edit::Swapped {
            place,
            first: typed(place),
            second: typed(place + 1),
        }),
        LEFT_OUT => Some(Edit::LeftOut {
            place,
            character: typed(place),
        }),
        PUT_IN => Some(Edit::PutIn {
            place,
            character: char::from(new[place]),
        }),
        _ => None,
    };
    let is_changed = |at: &usize| edit.is_none() && !old[*at].eq_ignore_ascii_case(&new[*at]);
    let changes = (0..old.len().min(new.len())).filter(is_changed);
    let changes = changes.map(|at| Change {
        place: at,
        from: typed(at),
        to: char::from(new[at]),
    });
    Suggestion {
        changes: changes.collect(),
        edit,
        text,
    }
}
