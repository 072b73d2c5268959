//! Corrections by checksums that correct more than Bech32: that of codex32, and one of degree 15 as
//! `print_block` declares it, whose bound is 9. The same texts stand in `corrections/main.rt.in`.

use bech32::primitives::correction::CorrectableError;
use bech32::primitives::decode::CheckedHrpstring;
use bech32::{Bech32, Checksum, Fe1024, Fe32};
use std::hint::black_box;
use std::ops::RangeInclusive;

enum Degree15 {}

impl Checksum for Degree15 {
    type MidstateRepr = u128;
    type CorrectionField = Fe1024;
    const ROOT_GENERATOR: Fe1024 = Fe1024::new([Fe32::G, Fe32::G]);
    const ROOT_EXPONENTS: RangeInclusive<usize> = 84..=92;
    const CODE_LENGTH: usize = 93;
    const CHECKSUM_LENGTH: usize = 15;
    const GENERATOR_SH: [u128; 5] = [
        0x7e55fa627c65128fbe2,
        0x5da3bc96ecee0d5d6e4,
        0x1f463b6dcdfd3ab0ce8,
        0x3bac768b1fde5d299d0,
        0x7278e754bb9db353389,
    ];
    const TARGET_RESIDUE: u128 = 1;
}

enum Codex32 {}

impl Checksum for Codex32 {
    type MidstateRepr = u128;
    type CorrectionField = Fe1024;
    const ROOT_GENERATOR: Fe1024 = Fe1024::new([Fe32::_9, Fe32::_9]);
    const ROOT_EXPONENTS: RangeInclusive<usize> = 9..=16;
    const CODE_LENGTH: usize = 93;
    const CHECKSUM_LENGTH: usize = 13;
    const GENERATOR_SH: [u128; 5] = [
        0x19dc500ce73fde210,
        0x1bfae00def77fe529,
        0x1fbd920fffe7bee52,
        0x1739640bdeee3fdad,
        0x07729a039cfc75f5a,
    ];
    const TARGET_RESIDUE: u128 = 0x10ce0795c2fd1e62a;
}

/// What is corrected, and the name of its row.
pub const KINDS: [(&str, &str); 4] = [
    ("bech32", "one error in 41 characters, Bech32"),
    (
        "degree15",
        "three errors and three erasures in 41 characters, a bound of 9",
    ),
    ("changes", "codex32, four changes in 48 characters"),
    ("unreadable", "codex32, eight of 48 characters unreadable"),
];

const ONE_ERROR: &str = "bc15kj6tfd95kj6tfd95qj6tfd95kj6tfd969kcwl";
const THREE_AND_THREE: &str = "bc15kq6tfdq5kj6tfdq5kj6qfgjl597n9nqqmuqx9";
const CHANGES: &str = "ms10testsqxxxxxxxxxxxxxqxxxxxxxxxxx4qzvca9cmqzlw";
const UNREADABLE: &str = "ms10tes?sxxxxx?xxxxx?xxxxxx?xxxxx?x4nz?ca9?mczl?";

// The locations and values that are listed for a text which a checksum refuses.
fn listing<Ck: Checksum>(text: &str, erasures: &[usize]) -> Vec<(usize, Fe32)> {
    let error = CheckedHrpstring::new::<Ck>(black_box(text)).unwrap_err();
    let mut corrector = error.correction_context::<Ck>().unwrap();
    corrector.add_erasures(black_box(erasures));
    corrector.bch_errors().unwrap().collect()
}

fn listed<Ck: Checksum>(text: &str, erasures: &[usize]) -> usize {
    let items = listing::<Ck>(text, erasures);
    items
        .iter()
        .map(|(place, value)| place * 32 + usize::from(value.to_u8()))
        .sum()
}

// The nearest text, by the crate's corrector: each `?` is read as the element 0 and is an erasure.
fn proposed(text: &str) -> usize {
    let places = text.bytes().rev().enumerate();
    let erasures: Vec<usize> = places
        .filter(|(_, b)| *b == b'?')
        .map(|(place, _)| place)
        .collect();
    let read = text.replace('?', "q");
    let mut bytes = read.clone().into_bytes();
    for (place, value) in listing::<Codex32>(&read, &erasures) {
        let at = bytes.len() - 1 - place;
        let element = Fe32::from_char(char::from(bytes[at])).unwrap() + value;
        bytes[at] = element.to_char() as u8;
    }
    let nearest = String::from_utf8(bytes).unwrap();
    assert!(CheckedHrpstring::new::<Codex32>(&nearest).is_ok());
    nearest
        .bytes()
        .enumerate()
        .map(|(at, b)| at * usize::from(b))
        .sum()
}

/// The sum of what this many calls answer: of 32 times each location and its value, or of each byte of
/// the nearest text times its index.
pub fn corrected(kind: &str, calls: usize) -> usize {
    (0..calls)
        .map(|_| match kind {
            "bech32" => listed::<Bech32>(ONE_ERROR, &[]),
            "degree15" => listed::<Degree15>(THREE_AND_THREE, &[2, 17, 35]),
            "changes" => proposed(CHANGES),
            _ => proposed(UNREADABLE),
        })
        .sum()
}
