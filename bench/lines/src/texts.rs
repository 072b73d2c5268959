//! Human-readable parts, texts, and what is mistyped in them.

use crate::random::Random;
use bech32::{segwit, Bech32, Bech32m, Fe32, Fe32IterExt, Hrp};

/// The characters of the elements 0 to 31.
pub const ALPHABET: &[u8; 32] = b"qpzry9x8gf2tvdw0s3jn54khce6mua7l";

const KNOWN_PARTS: [&str; 12] = [
    "bc", "tb", "bcrt", "BC", "TB", "a", "A", "test", "1", "a1b", "?", "split",
];

// Parts that are refused, most of them.
const ODD_PARTS: [&str; 9] = [
    "aB",
    "Ab",
    "a\u{7f}",
    "\u{80}",
    "a\u{e9}",
    "\u{20ac}uro",
    "\t",
    "a\r",
    "\u{1f980}b",
];

// Texts of BIP-173 and BIP-350, accepted and refused.
const KNOWN_TEXTS: [&str; 30] = [
    "A12UEL5L",
    "a12uel5l",
    "an83characterlonghumanreadablepartthatcontainsthenumber1andtheexcludedcharactersbio1tt5tgs",
    "abcdef1qpzry9x8gf2tvdw0s3jn54khce6mua7lmqqqxw",
    "split1checkupstagehandshakeupstreamerranterredcaperred2y9e3w",
    "?1ezyfcl",
    "A1LQFN3A",
    "a1lqfn3a",
    "an83characterlonghumanreadablepartthatcontainsthetheexcludedcharactersbioandnumber11sg7hg6",
    "abcdef1l7aum6echk45nj3s0wdvt2fg8x9yrzpqzd3ryx",
    "split1checkupstagehandshakeupstreamerranterredcaperredlc445v",
    "?1v759aa",
    "BC1QW508D6QEJXTDG4Y5R3ZARVARY0C5XW7KV8F3T4",
    "tb1qrp33g0q5c5txsp9arysrx4k6zdkfs4nce4xj0gdcccefvpysxf3q0sl5k7",
    "bc1pw508d6qejxtdg4y5r3zarvary0c5xw7kw508d6qejxtdg4y5r3zarvary0c5xw7kt5nd6y",
    "BC1SW50QGDZ25J",
    "bc1zw508d6qejxtdg4y5r3zarvaryvaxxpcs",
    "tb1qqqqqp399et2xygdj5xreqhjjvcmzhxw4aywxecjdzew6hylgvsesrxh6hy",
    "tb1pqqqqp399et2xygdj5xreqhjjvcmzhxw4aywxecjdzew6hylgvsesf3hn0c",
    "bc1p0xlxvlhemja6c4dqv22uapctqupfhlxm9h8z3k2e72q4k9hcz7vqzk5jj0",
    "pzry9x0s0muk",
    "1pzry9x0s0muk",
    "x1b4n0q5v",
    "li1dgmt3",
    "A1G7SGD8",
    "10a06t8",
    "1qzzfhee",
    "bc1gmk9yu",
    "BC130XLXVLHEMJA6C4DQV22UAPCTQUPFHLXM9H8Z3K2E72Q4K9HCZ7VQ7ZWS8R",
    "tb1p0xlxvlhemja6c4dqv22uapctqupfhlxm9h8z3k2e72q4k9hcz7vpggkg4j",
];

/// Some bytes.
pub fn bytes(random: &mut Random, length: usize) -> Vec<u8> {
    (0..length).map(|_| random.byte()).collect()
}

/// A human-readable part, one of twelve of which is none.
pub fn part(random: &mut Random) -> String {
    match random.below(24) {
        0..=9 => random.pick(&KNOWN_PARTS).to_string(),
        10 => random.pick(&ODD_PARTS).to_string(),
        11 => graphic(random, 1, 12),
        12 => of_one_case(random, 70, 90),
        _ => of_one_case(random, 1, 12),
    }
}

fn graphic(random: &mut Random, least: usize, most: usize) -> String {
    let length = random.from_to(least, most);
    (0..length)
        .map(|_| random.from_to(33, 126) as u8 as char)
        .collect()
}

fn of_one_case(random: &mut Random, least: usize, most: usize) -> String {
    let text = graphic(random, least, most);
    match random.percent(80) {
        true => text.to_ascii_lowercase(),
        false => text.to_ascii_uppercase(),
    }
}

/// A text that a checksum accepts, nearly always: in one case, and not always an address.
pub fn accepted(random: &mut Random) -> String {
    let text = match random.below(16) {
        0..=4 => encoded(random),
        5..=9 => address(random),
        10..=13 => of_elements(random),
        _ => random.pick(&KNOWN_TEXTS).to_string(),
    };
    match random.percent(25) {
        true => text.to_ascii_uppercase(),
        false => text,
    }
}

fn parsed(part: &str) -> Hrp {
    Hrp::parse(part).unwrap_or_else(|_| Hrp::parse("bc").expect("a human-readable part"))
}

fn encoded(random: &mut Random) -> String {
    let hrp = parsed(&part(random));
    let length = match random.below(40) {
        0 => random.from_to(500, 640),
        1 => random.from_to(60, 500),
        _ => random.below(60),
    };
    let bytes = bytes(random, length);
    let text = match random.percent(50) {
        true => bech32::encode::<Bech32>(hrp, &bytes),
        false => bech32::encode::<Bech32m>(hrp, &bytes),
    };
    text.unwrap_or_else(|_| "a12uel5l".to_string())
}

fn address(random: &mut Random) -> String {
    let hrp = parsed(random.pick(&["bc", "tb", "bcrt", "BC", "a"]));
    let (version, length) = match random.below(3) {
        0 => (0, random.pick(&[20, 32])),
        1 => (1, 32),
        _ => (random.from_to(1, 16), random.from_to(2, 40)),
    };
    let program = bytes(random, length);
    let version = Fe32::try_from(version as u8).expect("below 32");
    segwit::encode(hrp, version, &program).expect("an address")
}

// Elements with their checksum: versions above 16, padding that is too long or not zero, programs
// of any length, texts of more than 1023 characters.
fn of_elements(random: &mut Random) -> String {
    let hrp = parsed(&part(random));
    let length = match random.below(30) {
        0 => random.from_to(1000, 1030),
        1..=3 => random.below(3),
        _ => random.below(75),
    };
    let mut elements: Vec<Fe32> = (0..length)
        .map(|_| Fe32::try_from(random.byte() & 31).expect("below 32"))
        .collect();
    if let Some(version) = elements.first_mut() {
        if random.percent(70) {
            *version = Fe32::try_from(random.below(3) as u8).expect("below 32");
        }
    }
    if let Some(last) = elements.last_mut() {
        if length > 1 && random.percent(50) {
            *last = Fe32::Q;
        }
    }
    let by_bech32 = match elements.first() {
        Some(version) if random.percent(80) => *version == Fe32::Q,
        _ => random.percent(50),
    };
    match by_bech32 {
        true => elements
            .into_iter()
            .with_checksum::<Bech32>(&hrp)
            .chars()
            .collect(),
        false => elements
            .into_iter()
            .with_checksum::<Bech32m>(&hrp)
            .chars()
            .collect(),
    }
}

/// A text of no meaning.
pub fn meaningless(random: &mut Random) -> String {
    let length = random.below(100);
    let mut text: Vec<u8> = (0..length).map(|_| random.pick(ALPHABET)).collect();
    for _ in 0..random.below(4) {
        if length > 0 {
            text[random.below(length)] = b'1';
        }
    }
    if length > 0 && random.percent(30) {
        text[random.below(length)] = random.from_to(33, 126) as u8;
    }
    String::from_utf8(text).expect("ASCII")
}

/// The text with this many changes.
pub fn mistyped(random: &mut Random, text: &str, changes: usize) -> String {
    let mut text: Vec<char> = text.chars().collect();
    for _ in 0..changes {
        change(random, &mut text);
    }
    text.into_iter().collect()
}

fn change(random: &mut Random, text: &mut Vec<char>) {
    if text.is_empty() {
        text.push('1');
        return;
    }
    let place = random.below(text.len());
    let is_upper = text.iter().any(|c| c.is_ascii_uppercase());
    let letter = char::from(random.pick(ALPHABET));
    let letter = if is_upper {
        letter.to_ascii_uppercase()
    } else {
        letter
    };
    match random.below(20) {
        0..=11 => text[place] = letter,
        12 => text[place] = random.from_to(33, 126) as u8 as char,
        13 => {
            text.remove(place);
        }
        14 => text.insert(place, letter),
        15 => text.insert(place, random.pick(&['1', 'q', 'p', 'b', '?', '~'])),
        16 => text.swap(place, random.below(place + 1)),
        17 => text[place] = flipped(text[place]),
        18 => text.push(letter),
        _ => {
            text[place] = random.pick(&[
                '\u{e9}',
                '\u{7f}',
                '\u{1}',
                '\u{20ac}',
                '1',
                '\r',
                '\u{1f980}',
            ])
        }
    }
}

fn flipped(c: char) -> char {
    match c.is_ascii_uppercase() {
        true => c.to_ascii_lowercase(),
        false => c.to_ascii_uppercase(),
    }
}
