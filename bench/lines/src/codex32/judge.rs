//! What is found of a reply of `c32`.

use super::answer;
use super::elimination::has_solution;
use super::lines::Line;
use super::nearest::{is_near, is_proposal, Damaged, BOUND};
use crate::compare::Finding;

const BY_CRATE: &str = "parts and refusals, by the Rust crate and the rules of the profile";
const BY_ORIGIN: &str = "some: the text of which the line was made";
const BY_DEFINITION: &str = "some: by the definition alone, as the line was made of none so near";
const FOUND: &str = "some: elimination finds a pattern too (each sixteenth line)";
const TOO_MANY: &str = "none: nine characters or more cannot be read";
const BY_ELIMINATION: [&str; 5] = [
    "none: elimination finds no pattern, at 7 or 8 unreadable characters",
    "none: elimination finds no pattern, at 5 or 6, with 1 error",
    "none: elimination finds no pattern, at 3 or 4, with 2 errors",
    "none: elimination finds no pattern, at 1 or 2, with 3 errors",
    "none: elimination finds no pattern, at no unreadable character, with 4 errors",
];

// Each line whose number is a multiple of this has its proposed text looked for by elimination.
const LOOKED_FOR: u64 = 16;

// Where the Rust crate's corrector gives an iterator, and no pattern explains the residue.
const PANIC: &str = "bch_errors: None where no pattern explains the residue, and the crate panics";
const NO_CORRECTION: &str =
    "bch_errors: None where no pattern explains the residue, and the crate lists no correction";

type Checked<T> = Result<T, String>;

/// What is found of the reply to a line: of a proposal by its definition, and of all other replies
/// that they are those of the Rust crate.
pub fn judge(line: &Line, reply: &[u8]) -> Finding {
    let theirs = answer::reply(line.as_ref());
    let reply = String::from_utf8_lossy(reply);
    let checked = match line.proposed_for() {
        Some(text) if !theirs.starts_with("err ") => check(line, text, &reply, &theirs),
        _ if reply == theirs => Ok((vec![BY_CRATE], None)),
        _ => Err("which is another one".to_string()),
    };
    match checked {
        Ok((means, explained)) => Finding {
            means,
            explained,
            fault: None,
        },
        Err(fault) => Finding {
            fault: Some(format!("{fault}; the Rust crate \"{theirs}\"")),
            ..Finding::default()
        },
    }
}

// The means by which the reply to `propose` was checked, where the text is not refused, and what
// explains that the Rust crate's is another one.
fn check(
    line: &Line,
    text: &str,
    reply: &str,
    theirs: &str,
) -> Checked<(Vec<&'static str>, Option<&'static str>)> {
    let origin = line.origin().filter(|origin| is_near(text, origin));
    let means = match reply.strip_prefix("some ") {
        Some(proposed) => check_some(line.number(), text, origin, proposed)?,
        None if reply == "none" => check_none(text, origin)?,
        None => return Err("which is no reply".to_string()),
    };
    Ok((means, explained(text, reply, theirs)?))
}

fn check_some(
    number: u64,
    text: &str,
    origin: Option<&str>,
    proposed: &str,
) -> Checked<Vec<&'static str>> {
    if !is_proposal(text, proposed) {
        return Err("which is none by the definition".to_string());
    }
    let mut means = vec![match origin {
        Some(origin) if origin != proposed => return Err(format!("but {origin} is near")),
        Some(_) => BY_ORIGIN,
        None => BY_DEFINITION,
    }];
    if number % LOOKED_FOR == 0 {
        if !has_solution(&Damaged::new(text)) {
            return Err("where elimination, which is at fault, finds no pattern".to_string());
        }
        means.push(FOUND);
    }
    Ok(means)
}

fn check_none(text: &str, origin: Option<&str>) -> Checked<Vec<&'static str>> {
    if let Some(origin) = origin {
        return Err(format!("but {origin} is near"));
    }
    let damaged = Damaged::new(text);
    let unreadable = damaged.unreadable.len();
    if unreadable > BOUND {
        return Ok(vec![TOO_MANY]);
    }
    match has_solution(&damaged) {
        true => Err("but elimination finds a pattern".to_string()),
        false => Ok(vec![BY_ELIMINATION[(BOUND - unreadable) / 2]]),
    }
}

// What `docs/rust/DIFFERENCES.md` says of two different replies, of which ours was checked: no more than
// that the crate finds something where nothing is to be found.
fn explained(text: &str, reply: &str, theirs: &str) -> Checked<Option<&'static str>> {
    if reply == theirs {
        return Ok(None);
    }
    match theirs.strip_prefix("some ") {
        _ if reply != "none" => Err("which nothing explains".to_string()),
        Some(listed) if is_proposal(text, listed) => Err("which is wrong".to_string()),
        Some(_) => Ok(Some(NO_CORRECTION)),
        None => Ok(Some(PANIC)),
    }
}
