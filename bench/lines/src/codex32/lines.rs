//! The lines of a run for `c32`, each made from the run's seed and its own number.

use super::answer::LINE_LIMIT;
use super::texts::{damaged, typed};
use crate::lines::edit;
use crate::random::Random;

// Lines that are none of the commands, or whose texts are far from any string.
const ODD_LINES: [&str; 16] = [
    "",
    " ",
    "parse",
    "parse ",
    "propose",
    "propose  ms1",
    "propose ms1 ?",
    "parse ms1",
    "parse 1",
    "parse ?",
    "propose ?",
    "propose 1?",
    "propose 1",
    "propose ms1????????????????????????????????????????????????",
    "PARSE ms10testsxxxxxxxxxxxxxxxxxxxxxxxxxx4nzvca9cmczlw",
    "decode ms10testsxxxxxxxxxxxxxxxxxxxxxxxxxx4nzvca9cmczlw",
];

/// A line, its number, and the accepted text of which its own was made, where there is one.
pub struct Line {
    number: u64,
    bytes: Vec<u8>,
    origin: Option<String>,
}

impl AsRef<[u8]> for Line {
    fn as_ref(&self) -> &[u8] {
        &self.bytes
    }
}

impl Line {
    /// The number of the line.
    pub fn number(&self) -> u64 {
        self.number
    }

    /// The accepted text of which that of the line was made.
    pub fn origin(&self) -> Option<&str> {
        self.origin.as_deref()
    }

    /// The text for which a nearest one is to be proposed, where the line asks for that.
    pub fn proposed_for(&self) -> Option<&str> {
        std::str::from_utf8(&self.bytes)
            .ok()?
            .strip_prefix("propose ")
    }
}

/// The line of a run that has this number.
pub fn line(seed: u64, number: u64) -> Line {
    let random = &mut Random::of(seed, number);
    let (command, text) = match random.below(100) {
        0 => return odd(random, number),
        1..=34 => ("parse", typed(random)),
        _ => ("propose", damaged(random)),
    };
    let mut bytes = format!("{command} {}", text.text).into_bytes();
    if random.percent(2) {
        for _ in 0..random.from_to(1, 4) {
            edit(random, &mut bytes);
        }
    }
    bytes.retain(|b| *b != b'\n');
    Line {
        number,
        bytes,
        origin: text.origin,
    }
}

fn odd(random: &mut Random, number: u64) -> Line {
    let mut bytes = match random.below(6) {
        0..=2 => random.pick(&ODD_LINES).as_bytes().to_vec(),
        3 => around_the_limit(random),
        4 => long_part(random),
        _ => (0..random.below(60)).map(|_| random.byte()).collect(),
    };
    bytes.retain(|b| *b != b'\n');
    Line {
        number,
        bytes,
        origin: None,
    }
}

// A line of about as many bytes as a line may have.
fn around_the_limit(random: &mut Random) -> Vec<u8> {
    let mut line = random
        .pick(&["parse ms1", "propose ms1", ""])
        .as_bytes()
        .to_vec();
    let length = random.from_to(LINE_LIMIT - 3, LINE_LIMIT + 3);
    line.resize(length, random.pick(b"0?1q"));
    line
}

// A human-readable part that is empty, or about as long as one may be, or has characters that none has.
fn long_part(random: &mut Random) -> Vec<u8> {
    let letters = random.pick(&["x", "1", "\u{e9}", "\x7f", "\t"]);
    let part = match random.below(3) {
        0 => String::new(),
        1 => letters.repeat(random.from_to(80, 86)),
        _ => format!("m{letters}"),
    };
    let command = random.pick(&["parse", "propose"]);
    let data = random.pick(&["", "q", "qqqqqqqqqqqqqqqqqqqqqqqqqqqqqqqqqqqqqqqqqqqqqqq"]);
    format!("{command} {part}1{data}").into_bytes()
}
