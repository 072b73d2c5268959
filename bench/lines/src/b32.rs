//! The program `b32`, whose every reply but those that `docs/rust/DIFFERENCES.md` explains is the crate's.

use crate::answer;
use crate::compare::{Finding, Subject};
use crate::explained::explained;
use crate::lines;

/// `b32`, with or without its command `correct`.
pub struct B32 {
    pub with_correct: bool,
}

impl Subject for B32 {
    type Line = Vec<u8>;

    const COMMANDS: &'static [&'static str] = &[
        "encode",
        "decode",
        "segwit-encode",
        "segwit-decode",
        "correct",
    ];

    fn line(&self, seed: u64, number: u64) -> Vec<u8> {
        lines::line(seed, number, self.with_correct)
    }

    fn judge(&self, line: &Vec<u8>, reply: &[u8]) -> Finding {
        let theirs = answer::reply(line);
        if reply == theirs.as_bytes() {
            return Finding::default();
        }
        let explained = explained(line, reply);
        let fault = match explained {
            Some(_) => None,
            None => Some(format!("the Rust crate \"{theirs}\"")),
        };
        Finding {
            explained,
            fault,
            ..Finding::default()
        }
    }
}
