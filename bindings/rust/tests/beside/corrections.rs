//! What the other crate's corrector leads one to expect of `correct`.

use crate::calls::Expected;
use crate::numbers;
use bech32::primitives::correction::CorrectableError;
use bech32::primitives::decode::CheckedHrpstring;
use bech32::{Checksum, Fe32};
use std::panic::{catch_unwind, set_hook, take_hook, UnwindSafe};

// There is no correction.
const NONE: u32 = 34;

// Twice the errors, with the erasures, are this many at most.
const BOUND: usize = 3;

/// What `correct` is to reply, by what the other crate answers to the same text.
///
/// That crate looks for errors in the whole code and takes each erasure as often as it is given;
/// `correct` looks in the data part, and takes an erasure once.
pub fn expected<Ck: Checksum>(text: &str, erasures: &[usize]) -> Expected {
    let error = match CheckedHrpstring::new::<Ck>(text) {
        Ok(_) => return reply(text, &[], text.to_owned()).into(),
        Err(error) => error,
    };
    if error.residue_error().is_none() {
        return Err(numbers::checked(&error)).into();
    }
    let erasures = once_each(erasures);
    if erasures.iter().any(|l| *l >= data_length(text)) {
        return Err(NONE).into();
    }
    let listed = caught(|| {
        let mut corrector = error.correction_context::<Ck>()?;
        corrector.add_erasures(&erasures);
        let listing: Vec<(usize, Fe32)> = corrector.bch_errors()?.collect();
        Some(listing)
    });
    match listed {
        Some(None) => Err(NONE).into(),
        Some(Some(listing)) if listing.iter().any(|(l, _)| *l >= data_length(text)) => {
            Err(NONE).into()
        }
        Some(Some(listing)) => match mended::<Ck>(text, &erasures, &listing) {
            Some(mended) => reply(text, &listing, mended).into(),
            None => no_pattern(),
        },
        None => no_pattern(),
    }
}

// What an action gives, or None where it panics, of which nothing is printed.
fn caught<T>(action: impl FnOnce() -> T + UnwindSafe) -> Option<T> {
    let hook = take_hook();
    set_hook(Box::new(|_| {}));
    let done = catch_unwind(action);
    set_hook(hook);
    done.ok()
}

// The other crate panics, or what it lists is no correction: the row on `bch_errors`.
fn no_pattern() -> Expected {
    Expected {
        reply: Err(NONE),
        difference: Some("`Corrector::bch_errors`"),
    }
}

// A listing, the mended text, and the places of the listing from the front with the characters that
// stand there before and after.
fn reply(text: &str, listing: &[(usize, Fe32)], mended: String) -> Result<Vec<Vec<u8>>, u32> {
    let listing: Vec<(usize, u8)> = listing.iter().map(|(l, v)| (*l, v.to_u8())).collect();
    let pairs = text.chars().zip(mended.chars()).enumerate();
    let changes = pairs.filter(|(place, _)| {
        let location = text.len() - 1 - place;
        listing.iter().any(|(listed, _)| *listed == location)
    });
    let changes: Vec<(usize, char, char)> = changes.map(|(at, (a, b))| (at, a, b)).collect();
    Ok(vec![
        format!("{listing:?}").into_bytes(),
        mended.into_bytes(),
        format!("{changes:?}").into_bytes(),
    ])
}

fn once_each(erasures: &[usize]) -> Vec<usize> {
    let mut found = vec![];
    for location in erasures {
        if !found.contains(location) {
            found.push(*location);
        }
    }
    found
}

// The characters behind the separator.
fn data_length(text: &str) -> usize {
    text.rsplit_once('1').map_or(0, |(_, data)| data.len())
}

// The text with a listing's values added, in its case, where the checksum accepts it and the listing is
// within the bound.
fn mended<Ck: Checksum>(
    text: &str,
    erasures: &[usize],
    listing: &[(usize, Fe32)],
) -> Option<String> {
    let mut characters: Vec<char> = text.to_lowercase().chars().collect();
    let last = characters.len() - 1;
    for (location, value) in listing {
        let element = Fe32::from_char(characters[last - location]).ok()?;
        characters[last - location] = (element + *value).to_char();
    }
    let errors = listing
        .iter()
        .filter(|(l, _)| !erasures.contains(l))
        .count();
    let mut mended: String = characters.into_iter().collect();
    if text.contains(|c: char| c.is_ascii_uppercase()) {
        mended.make_ascii_uppercase();
    }
    let accepted = CheckedHrpstring::new::<Ck>(&mended).is_ok();
    (accepted && 2 * errors + erasures.len() <= BOUND).then_some(mended)
}
