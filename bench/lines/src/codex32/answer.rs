//! What the Rust crate answers to the lines of `c32`, with the rules of the profile put on top.

use super::checksum::Codex32;
use super::nearest::{Damaged, BOUND};
use crate::answer::{reply_by, with_listing, Answer};
use crate::numbers;
use bech32::primitives::decode::{CheckedHrpstring, CheckedHrpstringError};
use bech32::{CorrectableError, Fe32};

/// The characters before the parts' own: the human-readable part and the separator.
pub const FRONT: &str = "ms1";

/// A line of `c32` may have this many bytes.
pub const LINE_LIMIT: usize = 16384;

/// A string of codex32 has at least this many characters.
pub const SHORTEST: usize = 48;

/// A string of codex32 has at most this many characters.
pub const LONGEST: usize = 93;

/// The characters of the checksum.
pub const CHECKSUM: usize = 13;

/// The reply to a line, without its end. It is `panic` where the crate panics.
pub fn reply(line: &[u8]) -> String {
    reply_by(line, LINE_LIMIT, |words| match words[..] {
        ["parse", text] => parse(text),
        ["propose", text] => propose(text),
        _ => Err(numbers::NO_COMMAND),
    })
}

// What the crate says of the checksum of a text, where nothing before that is wrong.
fn checked(text: &str) -> Result<Result<CheckedHrpstring<'_>, CheckedHrpstringError>, u32> {
    let checked = CheckedHrpstring::new::<Codex32>(text);
    if let Err(e @ CheckedHrpstringError::Parse(_)) = &checked {
        return Err(numbers::checked(e));
    }
    if !(SHORTEST..=LONGEST).contains(&text.len()) {
        return Err(numbers::BAD_LENGTH);
    }
    match text.rsplit_once('1') {
        Some((part, _)) if part.eq_ignore_ascii_case("ms") => Ok(checked),
        _ => Err(numbers::NOT_MS),
    }
}

fn parse(text: &str) -> Answer {
    checked(text)?.map_err(|e| numbers::checked(&e))?;
    let data = &text[FRONT.len()..text.len() - CHECKSUM];
    let (threshold, index) = (&data[..1], &data[5..6]);
    if !"023456789".contains(threshold) {
        return Err(numbers::BAD_THRESHOLD);
    }
    if threshold == "0" && !index.eq_ignore_ascii_case("s") {
        return Err(numbers::BAD_SHARE_INDEX);
    }
    Ok(format!(
        "ok {threshold} {} {index} {}",
        &data[1..5],
        &data[6..]
    ))
}

fn propose(text: &str) -> Answer {
    let Damaged { read, unreadable } = Damaged::new(text);
    let none = || "none".to_string();
    let refusal = match checked(&read)? {
        _ if unreadable.len() > BOUND => return Ok(none()),
        Ok(_) => return Ok(format!("some {}", read.to_ascii_lowercase())),
        Err(refusal) => refusal,
    };
    let mut corrector = refusal.correction_context::<Codex32>().expect("a residue");
    corrector.add_erasures(&unreadable);
    let listing: Option<Vec<(usize, Fe32)>> = corrector.bch_errors().map(|e| e.collect());
    Ok(listing
        .and_then(|listing| with_listing(&read, &listing))
        .map_or_else(none, |text| format!("some {text}")))
}
