//! The lines of `b32`, and those of `c32`, over the Rust crate bech32.
//!
//!     lines answer [codex32]    answers the lines of standard input as the crate does
//!     lines make SEED FIRST COUNT [correct|codex32]
//!                               prints lines of a run
//!     lines compare PROGRAM SEED COUNT [correct|codex32]
//!                               gives the lines of a run to a program, and compares
//!
//! The lines are those of `b32`, with `correct` among its commands where that word is given, and those
//! of `c32` where `codex32` is.

mod answer;
mod b32;
mod codex32;
mod compare;
mod explained;
mod lines;
#[allow(dead_code)]
mod numbers;
mod patterns;
mod random;
mod texts;

use b32::B32;
use codex32::C32;
use compare::{Run, Subject};
use std::io::{self, BufRead, BufWriter, Write};
use std::process::ExitCode;

fn answer_all(reply: fn(&[u8]) -> String) -> io::Result<ExitCode> {
    let mut output = BufWriter::new(io::stdout().lock());
    for line in io::stdin().lock().split(b'\n') {
        writeln!(output, "{}", reply(&line?))?;
    }
    output.flush()?;
    Ok(ExitCode::SUCCESS)
}

// Prints lines of a run, or gives them to a program, as the words say.
fn run<S: Subject>(subject: &S, words: &[&str]) -> io::Result<ExitCode> {
    let number = |word: &str| word.parse().map_err(io::Error::other);
    match *words {
        ["make", seed, first, count] => {
            let (seed, first, count): (_, u64, u64) =
                (number(seed)?, number(first)?, number(count)?);
            let mut output = BufWriter::new(io::stdout().lock());
            for number in first..first + count {
                output.write_all(subject.line(seed, number).as_ref())?;
                output.write_all(b"\n")?;
            }
            output.flush()?;
        }
        ["compare", program, seed, count] => {
            let (program, seed, lines) = (program.to_string(), number(seed)?, number(count)?);
            let met = Run {
                program,
                seed,
                lines,
            }
            .of(subject)?;
            met.print();
            if met.disagreements > 0 {
                return Ok(ExitCode::FAILURE);
            }
        }
        _ => return Err(io::Error::other("answer, make or compare")),
    }
    Ok(ExitCode::SUCCESS)
}

fn main() -> io::Result<ExitCode> {
    codex32::sanity_check();
    std::panic::set_hook(Box::new(|_| {}));
    let words: Vec<String> = std::env::args().skip(1).collect();
    let words: Vec<&str> = words.iter().map(String::as_str).collect();
    match *words {
        ["answer"] => answer_all(answer::reply),
        ["answer", "codex32"] => answer_all(codex32::answer::reply),
        [ref words @ .., "codex32"] => run(&C32, words),
        [ref words @ .., "correct"] => run(&B32 { with_correct: true }, words),
        ref words => run(
            &B32 {
                with_correct: false,
            },
            words,
        ),
    }
}
