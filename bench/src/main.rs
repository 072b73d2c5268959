//! Measures the static library `bech32_c` beside the Rust crate bech32 and the C of `bench/limit`.
//!
//!     bench compare ROUNDS           replies of all sides, refusals by number; fails where two differ
//!     bench time                     nanoseconds of a call, least and median of the rounds
//!     bench list                     the operations
//!     bench count SIDE N K           K calls of operation N, for a count of instructions: SIDE is
//!                                    ours, crate or limit
//!     bench calls                    the calls from Rattle: kind, bytes or text, name of the row
//!     bench called KIND WORD K       the crate's K calls of a kind on a number of bytes or a text, for a count
//!     bench written fmt|bytes SIZE K K texts of SIZE bytes written by the crate, for the same
//!     bench kinds                    what is corrected beside Bech32's own texts, with the name of its row
//!     bench corrected KIND K         the crate's K corrections of it, for the same
//!     bench table TIMES COUNTS       the table of two files, of good input and corrections
//!     bench bad TIMES COUNTS         the same of bad input
//!     bench chart TIMES COUNTS       their chart

mod called;
mod calls;
mod compare;
mod corrections;
mod declared;
mod limit;
mod numbers;
mod random;
mod report;
mod theirs;
mod workloads;

use std::time::Instant;

/// The parts of an answer, or the number of a refusal.
pub type Reply = Result<Vec<Vec<u8>>, u32>;

const ROUNDS: usize = 15;

fn nanoseconds(call: &mut dyn FnMut(), calls: u64) -> f64 {
    let start = Instant::now();
    for _ in 0..calls {
        call();
    }
    start.elapsed().as_nanos() as f64 / calls as f64
}

// How many calls take the slowest side ten milliseconds at least.
fn calls_of_a_round(sides: &mut [workloads::Side; 3]) -> u64 {
    let mut calls = 1;
    while sides
        .iter_mut()
        .all(|side| nanoseconds(&mut side.call, calls) * (calls as f64) < 1e7)
    {
        calls *= 2;
    }
    calls
}

// The least and the median of the rounds of each side, which take turns.
fn times(sides: &mut [workloads::Side; 3]) -> [[f64; 2]; 3] {
    let calls = calls_of_a_round(sides);
    let mut rounds = [vec![], vec![], vec![]];
    for _ in 0..ROUNDS {
        for (side, round) in sides.iter_mut().zip(&mut rounds) {
            round.push(nanoseconds(&mut side.call, calls));
        }
    }
    rounds.map(|mut round| {
        round.sort_by(f64::total_cmp);
        [round[0], round[ROUNDS / 2]]
    })
}

fn time(mut operation: workloads::Operation) {
    let times = times(&mut operation.sides);
    let columns = times.iter().flatten().map(|t| format!("\t{t:.1}"));
    println!(
        "{}\t{}{}",
        operation.name,
        operation.good.unwrap_or("-"),
        columns.collect::<String>()
    );
}

fn count(words: &[String]) {
    let (at, calls): (usize, u64) = (words[3].parse().unwrap(), words[4].parse().unwrap());
    let mut operation = workloads::operations().swap_remove(at);
    let side = ["ours", "crate", "limit"]
        .iter()
        .position(|s| *s == words[2]);
    let call = &mut operation.sides[side.unwrap()].call;
    for _ in 0..calls {
        call();
    }
}

fn rows(words: &[String]) -> Vec<report::Row> {
    let text = |path: &String| std::fs::read_to_string(path).unwrap_or_default();
    report::read(&text(&words[2]), &text(&words[3]))
}

fn main() {
    let words: Vec<String> = std::env::args().collect();
    match words.get(1).map(String::as_str) {
        Some("compare") => {
            let compared = compare::compare(words[2].parse().unwrap());
            for what in compared.different.iter().take(10) {
                eprintln!("different: {what}");
            }
            eprintln!(
                "{} replies compared, {} different; {} places; refusals {:?}",
                compared.replies,
                compared.different.len(),
                compared.places,
                compared.refusals
            );
            assert!(compared.different.is_empty());
        }
        Some("time") => workloads::operations().into_iter().for_each(time),
        Some("list") => workloads::operations()
            .iter()
            .for_each(|o| println!("{}", o.name)),
        Some("count") => count(&words),
        Some("calls") => called::rows()
            .iter()
            .for_each(|row| println!("{}\t{}\t{}", row.kind, row.word, row.name)),
        Some("called") => {
            let calls = words[4].parse().unwrap();
            println!("{}", called::called(&words[2], &words[3], calls));
        }
        Some("written") => {
            let number = |at: usize| words[at].parse().unwrap();
            println!("{}", theirs::written(&words[2], number(3), number(4)));
        }
        Some("kinds") => corrections::KINDS
            .iter()
            .for_each(|(kind, name)| println!("{kind}\t{name}")),
        Some("corrected") => {
            println!(
                "{}",
                corrections::corrected(&words[2], words[3].parse().unwrap())
            );
        }
        Some("table") => print!("{}", report::table(&rows(&words))),
        Some("bad") => print!("{}", report::table_of_bad(&rows(&words))),
        Some("chart") => print!("{}", report::chart(&rows(&words))),
        _ => panic!("compare, time, list, count, calls, called, written, kinds, corrected, table, bad or chart"),
    }
}
