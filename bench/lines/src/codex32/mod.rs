//! The program `c32`: its replies beside those of the Rust crate, and by the definition of what is to
//! be proposed.

pub mod answer;
mod checksum;
mod elimination;
mod judge;
mod lines;
mod nearest;
mod texts;

use crate::compare::{Finding, Subject};
use bech32::Checksum;
use lines::Line;

/// The program `c32`.
pub struct C32;

/// Has the Rust crate test the constants of the checksum: it panics where they are wrong.
pub fn sanity_check() {
    checksum::Codex32::sanity_check();
}

impl Subject for C32 {
    type Line = Line;

    const COMMANDS: &'static [&'static str] = &["parse", "propose"];

    fn line(&self, seed: u64, number: u64) -> Line {
        lines::line(seed, number)
    }

    fn judge(&self, line: &Line, reply: &[u8]) -> Finding {
        judge::judge(line, reply)
    }
}
