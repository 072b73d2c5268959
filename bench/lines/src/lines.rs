//! The lines of a run, each made from the run's seed and its own number.

use crate::answer::{hex_of, LINE_LIMIT};
use crate::random::Random;
use crate::texts::{accepted, bytes, meaningless, mistyped, part, ALPHABET};

// Words where a number should be.
const ODD_NUMBERS: [&str; 12] = [
    "00",
    "01",
    "-1",
    "+1",
    "1.0",
    "0x1",
    "32",
    "99",
    "100",
    "4294967296",
    "\u{661}",
    "q",
];

// Words where the bytes should be.
const ODD_HEX: [&str; 8] = ["0", "0x00", "0g", "--", "-00", "00-", "\u{e9}\u{e9}", "fff"];

// Lines that are none of the commands.
const ODD_LINES: [&str; 14] = [
    "",
    " ",
    "decode",
    "decode ",
    " decode a12uel5l",
    "decode  a12uel5l",
    "decode a12uel5l ",
    "decode\ta12uel5l",
    "DECODE a12uel5l",
    "encode bech32 a",
    "encode bech32x a -",
    "encode bech32 a - -",
    "segwit-encode bc 0",
    "segwit-decode",
];

/// A line of a run, without its end: a command, or what is near one. `correct` is among the commands
/// where it is asked for.
pub fn line(seed: u64, number: u64, with_correct: bool) -> Vec<u8> {
    let random = &mut Random::of(seed, number);
    let commands = if with_correct { 100 } else { 70 };
    let mut line = match random.below(commands) {
        0..=13 => encode(random),
        14..=35 => format!("decode {}", text(random)),
        36..=47 => segwit_encode(random),
        48..=67 => format!("segwit-decode {}", text(random)),
        68..=69 => return odd(random),
        _ => correct(random),
    }
    .into_bytes();
    if random.percent(5) {
        for _ in 0..random.from_to(1, 4) {
            edit(random, &mut line);
        }
    }
    line.retain(|b| *b != b'\n');
    line
}

// A text: most of them one to four changes from an accepted one.
fn text(random: &mut Random) -> String {
    if random.percent(6) {
        return meaningless(random);
    }
    let text = accepted(random);
    let changes = if random.percent(30) {
        0
    } else {
        random.from_to(1, 4)
    };
    mistyped(random, &text, changes)
}

fn hex(random: &mut Random, length: usize) -> String {
    if random.percent(6) {
        return random.pick(&ODD_HEX).to_string();
    }
    let hex = hex_of(&bytes(random, length));
    match random.percent(20) {
        true => hex.to_ascii_uppercase(),
        false => hex,
    }
}

fn encode(random: &mut Random) -> String {
    let checksum = random.pick(&["bech32", "bech32m"]);
    let length = match random.below(30) {
        0 => random.from_to(600, 640),
        1 => random.below(1500),
        2..=4 => 0,
        _ => random.below(60),
    };
    format!("encode {checksum} {} {}", part(random), hex(random, length))
}

fn segwit_encode(random: &mut Random) -> String {
    let version = match random.below(20) {
        0 => random.pick(&ODD_NUMBERS).to_string(),
        1..=2 => random.from_to(17, 33).to_string(),
        3..=10 => "0".to_string(),
        _ => random.from_to(1, 16).to_string(),
    };
    let length = match random.below(10) {
        0..=3 => random.pick(&[20, 32]),
        4 => random.below(3),
        5 => random.from_to(38, 44),
        _ => random.from_to(2, 40),
    };
    format!(
        "segwit-encode {} {version} {}",
        part(random),
        hex(random, length)
    )
}

// A text with some characters of its data part changed, and some of these places, others, and the
// same ones again as the locations.
fn correct(random: &mut Random) -> String {
    let checksum = random.pick(&["bech32", "bech32m"]);
    if random.percent(10) {
        return format!("correct {checksum} {}", text(random));
    }
    let mut text = accepted(random).into_bytes();
    let data = text
        .iter()
        .rposition(|b| *b == b'1')
        .map_or(0, |place| place + 1);
    let length = text.len() - data;
    let is_upper = text.iter().any(u8::is_ascii_uppercase);
    let mut places: Vec<usize> = vec![];
    for _ in 0..random.below(5) {
        if length > 0 {
            let location = random.below(length);
            let letter = random.pick(ALPHABET);
            let place = text.len() - 1 - location;
            text[place] = if is_upper {
                letter.to_ascii_uppercase()
            } else {
                letter
            };
            if random.percent(45) {
                places.push(location);
            }
        }
    }
    add_other_locations(random, length, &mut places);
    let text = String::from_utf8_lossy(&text);
    let places: Vec<String> = places.iter().map(usize::to_string).collect();
    match places.is_empty() {
        true => format!("correct {checksum} {text}"),
        false => format!("correct {checksum} {text} {}", places.join(",")),
    }
}

fn add_other_locations(random: &mut Random, length: usize, places: &mut Vec<usize>) {
    if length > 0 && random.percent(15) {
        places.push(random.below(length));
    }
    if random.percent(4) {
        places.push(random.below(1040));
    }
    if !places.is_empty() && random.percent(8) {
        places.push(places[random.below(places.len())]);
    }
    if random.percent(1) {
        places.extend((0..random.from_to(4, 30)).map(|i| 7 * i));
    }
}

fn odd(random: &mut Random) -> Vec<u8> {
    match random.below(6) {
        0..=2 => random.pick(&ODD_LINES).as_bytes().to_vec(),
        3 => around_the_limit(random),
        _ => {
            let length = random.below(60);
            let mut line = bytes(random, length);
            line.retain(|b| *b != b'\n');
            line
        }
    }
}

// A line of about as many bytes as a line may have.
fn around_the_limit(random: &mut Random) -> Vec<u8> {
    let mut line = match random.below(3) {
        0 => b"decode ".to_vec(),
        1 => b"encode bech32 a ".to_vec(),
        _ => vec![],
    };
    let length = random.from_to(LINE_LIMIT - 3, LINE_LIMIT + 3);
    line.resize(length, random.pick(b"0a1q"));
    line
}

/// Changes a byte of a line, or its words.
pub fn edit(random: &mut Random, line: &mut Vec<u8>) {
    if line.is_empty() {
        return;
    }
    let place = random.below(line.len());
    match random.below(7) {
        0 => line[place] = random.byte(),
        1 => line[place] = random.pick(b" 1qQ,-0"),
        2 => {
            line.remove(place);
        }
        3 => line.insert(place, random.pick(b" 1q\r\t\0\x7f")),
        4 => line.insert(place, random.byte()),
        5 => line.truncate(place),
        _ => line.extend_from_slice(random.pick(&[" ", " -", " 0", "\r", "\u{e9}"]).as_bytes()),
    }
}
