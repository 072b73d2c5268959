//! What may be proposed for a damaged text, from the definition alone.

use super::checksum::Codex32;
use bech32::primitives::decode::CheckedHrpstring;

/// Twice the number of changed characters, with the number of those that cannot be read, is at most
/// so much.
pub const BOUND: usize = 8;

/// A damaged text.
pub struct Damaged {
    /// The text with each `?` behind the last `1` read as `0`.
    pub read: String,
    /// The locations of each such `?`, of which 0 is the last character.
    pub unreadable: Vec<usize>,
}

impl Damaged {
    /// The text as it is read.
    pub fn new(text: &str) -> Self {
        let Some((part, data)) = text.rsplit_once('1') else {
            return Damaged {
                read: text.to_string(),
                unreadable: vec![],
            };
        };
        Damaged {
            read: format!("{part}1{}", data.replace('?', "0")),
            unreadable: data
                .bytes()
                .rev()
                .enumerate()
                .filter(|(_, character)| *character == b'?')
                .map(|(location, _)| location)
                .collect(),
        }
    }
}

/// Whether a text has the human-readable part and the length of a damaged one, and is within the
/// bound of it.
pub fn is_near(damaged: &str, text: &str) -> bool {
    let (Some((part, data)), Some((same_part, other))) =
        (damaged.rsplit_once('1'), text.rsplit_once('1'))
    else {
        return false;
    };
    let cost = |(one, another): (u8, u8)| match one {
        b'?' => 1,
        _ if one.eq_ignore_ascii_case(&another) => 0,
        _ => 2,
    };
    part.eq_ignore_ascii_case(same_part)
        && data.len() == other.len()
        && data.bytes().zip(other.bytes()).map(cost).sum::<usize>() <= BOUND
}

/// Whether a text is to be proposed for a damaged one: it is in lower case and near, and the checksum
/// accepts it.
pub fn is_proposal(damaged: &str, text: &str) -> bool {
    !text.bytes().any(|b| b.is_ascii_uppercase())
        && is_near(damaged, text)
        && CheckedHrpstring::new::<Codex32>(text).is_ok()
}
