//! What the Rust crate answers to the lines of `b32`.

use crate::numbers;
use bech32::primitives::decode::{CheckedHrpstring, CheckedHrpstringError};
use bech32::{segwit, Bech32, Bech32m, Checksum, CorrectableError, Fe32, Hrp};
use std::panic::{catch_unwind, AssertUnwindSafe};

/// A line of `b32` may have this many bytes.
pub const LINE_LIMIT: usize = 4096;

const HIGHEST_VERSION: usize = 31;
const HIGHEST_LOCATION: usize = 1022;

/// The reply to a command, or the number of its refusal.
pub type Answer = Result<String, u32>;

/// The reply to a line, without its end, by how many bytes it may have and what answers its words. It is `panic` where that
/// panics.
pub fn reply_by(line: &[u8], limit: usize, command: fn(&[&str]) -> Answer) -> String {
    match catch_unwind(AssertUnwindSafe(|| answer(line, limit, command))) {
        Ok(Ok(reply)) => reply,
        Ok(Err(number)) => format!("err {number}"),
        Err(_) => "panic".to_string(),
    }
}

fn answer(line: &[u8], limit: usize, command: fn(&[&str]) -> Answer) -> Answer {
    if line.len() > limit {
        return Err(numbers::LINE_TOO_LONG);
    }
    let line = std::str::from_utf8(line).map_err(|_| numbers::LINE_NOT_UTF8)?;
    let words: Vec<&str> = line.split(' ').collect();
    if words.iter().any(|word| word.is_empty()) {
        return Err(numbers::NO_COMMAND);
    }
    command(&words)
}

/// The reply of `b32` to a line, without its end. It is `panic` where the crate panics.
pub fn reply(line: &[u8]) -> String {
    reply_by(line, LINE_LIMIT, |words| match words[..] {
        ["encode", "bech32", hrp, hex] => encode::<Bech32>(hrp, hex),
        ["encode", "bech32m", hrp, hex] => encode::<Bech32m>(hrp, hex),
        ["decode", text] => decode(text),
        ["segwit-encode", hrp, version, hex] => segwit_encode(hrp, version, hex),
        ["segwit-decode", text] => segwit_decode(text),
        ["correct", "bech32", text] => correct::<Bech32>(text, &[]),
        ["correct", "bech32m", text] => correct::<Bech32m>(text, &[]),
        ["correct", "bech32", text, places] => correct::<Bech32>(text, &locations(places)?),
        ["correct", "bech32m", text, places] => correct::<Bech32m>(text, &locations(places)?),
        _ => Err(numbers::NO_COMMAND),
    })
}

fn encode<Ck: Checksum>(hrp: &str, hex: &str) -> Answer {
    let bytes = bytes_of(hex)?;
    let hrp = Hrp::parse(hrp).map_err(|e| numbers::hrp(&e))?;
    let text = bech32::encode::<Ck>(hrp, &bytes).map_err(|e| numbers::encode(&e))?;
    Ok(format!("ok {text}"))
}

fn decode(text: &str) -> Answer {
    let (hrp, bytes) = bech32::decode(text).map_err(|e| numbers::decode(&e))?;
    Ok(format!("ok {} {}", lowered(&hrp), hex_of(&bytes)))
}

fn segwit_encode(hrp: &str, version: &str, hex: &str) -> Answer {
    let version = number(version, HIGHEST_VERSION)?;
    let program = bytes_of(hex)?;
    let hrp = Hrp::parse(hrp).map_err(|e| numbers::hrp(&e))?;
    let version = Fe32::try_from(version as u8).map_err(|_| numbers::BAD_WORD)?;
    let text = segwit::encode(hrp, version, &program).map_err(|e| numbers::segwit_encode(&e))?;
    Ok(format!("ok {text}"))
}

fn segwit_decode(text: &str) -> Answer {
    let (hrp, version, program) = segwit::decode(text).map_err(|e| numbers::address(&e.0))?;
    let (hrp, hex) = (lowered(&hrp), hex_of(&program));
    Ok(format!("ok {hrp} {} {hex}", version.to_u8()))
}

fn correct<Ck: Checksum>(text: &str, erasures: &[usize]) -> Answer {
    let refusal: CheckedHrpstringError = match CheckedHrpstring::new::<Ck>(text) {
        Ok(_) => return Ok("fine".to_string()),
        Err(refusal) => refusal,
    };
    let Some(mut corrector) = refusal.correction_context::<Ck>() else {
        return Err(numbers::checked(&refusal));
    };
    corrector.add_erasures(erasures);
    let listing: Option<Vec<(usize, Fe32)>> = corrector.bch_errors().map(|e| e.collect());
    Ok(listing
        .and_then(|listing| mended(text, &listing))
        .unwrap_or_else(|| "none".to_string()))
}

// The reply with a listing, where each of its locations is in the data part.
fn mended(text: &str, listing: &[(usize, Fe32)]) -> Option<String> {
    let mended = with_listing(text, listing)?;
    let each: String = listing
        .iter()
        .map(|(location, value)| format!("{location}:{value} "))
        .collect();
    Some(format!("ok {each}{mended}"))
}

/// The text in lower case with the listed values added, where each location is in the data part.
pub fn with_listing(text: &str, listing: &[(usize, Fe32)]) -> Option<String> {
    let (hrp, data) = text.rsplit_once('1')?;
    let mut elements: Vec<Fe32> = data.chars().flat_map(Fe32::from_char).collect();
    for (location, value) in listing {
        let place = elements.len().checked_sub(1 + location)?;
        elements[place] += *value;
    }
    let data: String = elements.iter().map(|fe| fe.to_char()).collect();
    Some(format!("{}1{data}", hrp.to_ascii_lowercase()))
}

fn locations(word: &str) -> Result<Vec<usize>, u32> {
    word.split(',')
        .map(|w| number(w, HIGHEST_LOCATION))
        .collect()
}

// A number in decimal without leading zeros.
fn number(word: &str, highest: usize) -> Result<usize, u32> {
    let digits = !word.is_empty() && word.bytes().all(|b| b.is_ascii_digit());
    if !digits || (word.len() > 1 && word.starts_with('0')) {
        return Err(numbers::BAD_WORD);
    }
    match word.parse() {
        Ok(number) if number <= highest => Ok(number),
        _ => Err(numbers::BAD_WORD),
    }
}

fn bytes_of(word: &str) -> Result<Vec<u8>, u32> {
    if word == "-" {
        return Ok(vec![]);
    }
    let digits: Option<Vec<u32>> = word.chars().map(|c| c.to_digit(16)).collect();
    match digits {
        Some(digits) if digits.len() % 2 == 0 => {
            Ok(digits.chunks(2).map(|d| (16 * d[0] + d[1]) as u8).collect())
        }
        _ => Err(numbers::BAD_HEX),
    }
}

/// The word for bytes.
pub fn hex_of(bytes: &[u8]) -> String {
    if bytes.is_empty() {
        return "-".to_string();
    }
    let digit = |d: u8| char::from(b"0123456789abcdef"[usize::from(d)]);
    bytes
        .iter()
        .flat_map(|b| [digit(b >> 4), digit(b & 15)])
        .collect()
}

fn lowered(hrp: &Hrp) -> String {
    hrp.lowercase_char_iter().collect()
}
