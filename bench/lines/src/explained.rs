//! Where a reply differs from that of the Rust crate as `docs/rust/DIFFERENCES.md` says.

use crate::answer;
use crate::patterns::has_solution;
use bech32::primitives::decode::CheckedHrpstring;
use bech32::{Bech32, Bech32m};

/// The place in `docs/rust/DIFFERENCES.md` that explains two different replies to a line, if any does.
pub fn explained(line: &[u8], ours: &[u8]) -> Option<&'static str> {
    let line = std::str::from_utf8(line).ok()?;
    let words: Vec<&str> = line.split(' ').collect();
    let ["correct", checksum, text, ref places @ ..] = words[..] else {
        return None;
    };
    let places = once(places.first().copied());
    let theirs = answer::reply(with_places(checksum, text, &places).as_bytes());
    if ours == theirs.as_bytes() {
        return Some("add_erasures: a repeated location counts once");
    }
    if ours == b"none" && is_no_correction(checksum, &theirs) && !is_solved(checksum, text, &places)
    {
        return Some("bch_errors: None where no pattern explains the residue");
    }
    None
}

// The locations of a word, each at its first place alone.
fn once(word: Option<&str>) -> Vec<&str> {
    let mut places: Vec<&str> = vec![];
    for place in word.iter().flat_map(|word| word.split(',')) {
        if !places.contains(&place) {
            places.push(place);
        }
    }
    places
}

fn with_places(checksum: &str, text: &str, places: &[&str]) -> String {
    match places.is_empty() {
        true => format!("correct {checksum} {text}"),
        false => format!("correct {checksum} {text} {}", places.join(",")),
    }
}

// Whether any pattern within the bound explains the residue, by trying each.
fn is_solved(checksum: &str, text: &str, places: &[&str]) -> bool {
    let places: Vec<usize> = places.iter().flat_map(|place| place.parse()).collect();
    match checksum {
        "bech32" => has_solution::<Bech32>(text, &places),
        _ => has_solution::<Bech32m>(text, &places),
    }
}

// Whether a reply is a listing that makes no text which the checksum accepts, or none at all.
fn is_no_correction(checksum: &str, reply: &str) -> bool {
    if reply == "panic" {
        return true;
    }
    let Some(text) = reply.strip_prefix("ok ").and_then(|r| r.rsplit(' ').next()) else {
        return false;
    };
    match checksum {
        "bech32" => CheckedHrpstring::new::<Bech32>(text).is_err(),
        _ => CheckedHrpstring::new::<Bech32m>(text).is_err(),
    }
}
