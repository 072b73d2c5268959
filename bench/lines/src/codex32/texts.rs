//! Texts near codex32 strings, and what is damaged in them.

use super::answer::{CHECKSUM, FRONT, LONGEST, SHORTEST};
use super::checksum::Codex32;
use super::nearest::BOUND;
use crate::random::Random;
use crate::texts::{mistyped, ALPHABET};
use bech32::{Fe32, Fe32IterExt, Hrp};

// Strings of BIP-93, and one that is none for its threshold.
const KNOWN_TEXTS: [&str; 9] = [
    "ms10testsxxxxxxxxxxxxxxxxxxxxxxxxxx4nzvca9cmczlw",
    "MS12NAMEA320ZYXWVUTSRQPNMLKJHGFEDCAXRPP870HKKQRM",
    "MS12NAMECACDEFGHJKLMNPQRSTUVWXYZ023FTR2GDZMPY6PN",
    "ms13cashsllhdmn9m42vcsamx24zrxgs3qqjzqud4m0d6nln",
    "ms13casha320zyxwvutsrqpnmlkjhgfedca2a8d0zehn8a0t",
    "ms13cashcacdefghjklmnpqrstuvwxyz023949xq35my48dr",
    "ms13cashd0wsedstcdcts64cd7wvy4m90lm28w4ffupqs7rm",
    "ms10leetsllhdmn9m42vcsamx24zrxgs3qrl7ahwvhw4fnzrhve25gvezzyqqtum9pgv99ycma",
    "ms1qtestsxxxxxxxxxxxxxxxxxxxxxxxxxxq68ksv56lmaq5",
];

const OTHER_PARTS: [&str; 10] = ["m", "s", "mt", "bc", "msx", "xms", "ms1", "1", "?s", "m?"];

/// A text, and the one that the checksum accepts of which it was made, where it was made of one.
pub struct Text {
    pub text: String,
    pub origin: Option<String>,
}

/// A text that the checksum accepts, in lower case, if it is not too long for that.
fn accepted(random: &mut Random) -> String {
    if random.percent(5) {
        return random.pick(&KNOWN_TEXTS).to_ascii_lowercase();
    }
    let part = match random.percent(4) {
        true => random.pick(&OTHER_PARTS),
        false => "ms",
    };
    let length = match random.below(20) {
        0 => SHORTEST - 1,
        1 => LONGEST + 1,
        2..=6 => SHORTEST,
        7..=9 => LONGEST,
        _ => random.from_to(SHORTEST, LONGEST),
    };
    let mut data = header(random);
    // Few letters, `0` among them, at times: a character that cannot be read is read as that one.
    let letters: &[u8] = match random.percent(15) {
        true => b"0qs",
        false => ALPHABET,
    };
    let payload = length - CHECKSUM - data.len() - part.len() - 1;
    data.extend((0..payload).map(|_| char::from(random.pick(letters))));
    let hrp = Hrp::parse(part).expect("a human-readable part");
    let elements = data
        .chars()
        .map(|c| Fe32::from_char(c).expect("of the alphabet"));
    elements.with_checksum::<Codex32>(&hrp).chars().collect()
}

// Threshold, identifier and share index.
fn header(random: &mut Random) -> String {
    let threshold = match random.below(10) {
        0..=3 => b'0',
        4..=7 => random.pick(b"23456789"),
        _ => random.pick(ALPHABET),
    };
    let index = match random.percent(50) {
        true => b's',
        false => random.pick(ALPHABET),
    };
    let mut header = vec![threshold];
    header.extend((0..4).map(|_| random.pick(ALPHABET)));
    header.push(index);
    String::from_utf8(header).expect("ASCII")
}

// Characters of the front of a text and of the alphabet, as long as a string or nearly so.
fn meaningless(random: &mut Random) -> String {
    let length = random.from_to(SHORTEST - 1, LONGEST + 1) - FRONT.len();
    let data = (0..length).map(|_| char::from(random.pick(ALPHABET)));
    format!("{FRONT}{}", data.collect::<String>())
}

/// A text to be parsed: most of them a few changes from an accepted one.
pub fn typed(random: &mut Random) -> Text {
    let origin = accepted(random);
    let changes = match random.percent(35) {
        true => 0,
        false => random.from_to(1, 5),
    };
    let text = match random.below(20) {
        0 => meaningless(random),
        1 => with_other_characters(random, &origin, 0, 1),
        2..=12 => with_other_characters(random, &origin, changes, 0),
        _ => mistyped(random, &origin, changes),
    };
    Text {
        text: in_some_case(random, text),
        origin: Some(origin),
    }
}

/// A text for which a nearest one is to be proposed: most of them one to five changed characters and
/// up to nine that cannot be read from an accepted one.
pub fn damaged(random: &mut Random) -> Text {
    if random.percent(6) {
        let text = meaningless(random);
        let unreadable = random.below(BOUND + 2);
        return Text {
            text: with_other_characters(random, &text, 0, unreadable),
            origin: None,
        };
    }
    let origin = accepted(random);
    let (changes, unreadable) = match random.percent(65) {
        true => {
            let changes = random.from_to(0, BOUND / 2);
            (changes, random.from_to(0, BOUND - 2 * changes))
        }
        false => (random.from_to(1, 5), random.from_to(0, BOUND + 1)),
    };
    let mut text = with_other_characters(random, &origin, changes, unreadable);
    if random.percent(8) {
        text = mistyped(random, &text, 1);
    }
    Text {
        text: in_some_case(random, text),
        origin: Some(origin),
    }
}

// The text with this many characters behind the separator changed into others, and this many others made
// unreadable.
fn with_other_characters(
    random: &mut Random,
    text: &str,
    changes: usize,
    unreadable: usize,
) -> String {
    let mut text = text.as_bytes().to_vec();
    let data = text.iter().rposition(|b| *b == b'1').map_or(0, |p| p + 1);
    let mut places: Vec<usize> = (data..text.len()).collect();
    for number in 0..(changes + unreadable).min(places.len()) {
        let place = places.swap_remove(random.below(places.len()));
        text[place] = match number < changes {
            true => another(random, text[place]),
            false => b'?',
        };
    }
    String::from_utf8(text).expect("ASCII")
}

fn another(random: &mut Random, letter: u8) -> u8 {
    loop {
        let other = random.pick(ALPHABET);
        if other != letter {
            return other;
        }
    }
}

// The text in lower case, or in upper case, or with one letter in the other case.
fn in_some_case(random: &mut Random, text: String) -> String {
    match random.below(40) {
        0..=8 => text.to_ascii_uppercase(),
        9 => {
            let other = random.below(text.len().max(1));
            text.char_indices()
                .map(|(place, c)| match place == other {
                    true => c.to_ascii_uppercase(),
                    false => c,
                })
                .collect()
        }
        _ => text,
    }
}
