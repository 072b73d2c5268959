//! A million random calls of this crate and of the Rust crate bech32, side by side, and the public
//! vectors by both.

mod calls;
#[cfg(feature = "correct")]
mod corrections;
mod inputs;
#[path = "../../../../bench/src/numbers.rs"]
mod numbers;
mod readers;
#[path = "../vectors/rows.rs"]
mod rows;

use calls::{Call, Code};
use inputs::Inputs;
use std::collections::BTreeMap;

const CALLS: u64 = 1_000_000;

const DIFFERENCES: &str = include_str!("../../../../docs/rust/DIFFERENCES.md");

// The refusals that these calls can meet.
const REFUSALS: [u32; 22] = [
    11, 12, 13, 14, 15, 21, 22, 23, 31, 32, 33, 41, 42, 43, 44, 45, 46, 47, 48, 51, 52, 53,
];

/// What was compared.
#[derive(Default)]
struct Compared {
    /// How many calls, and how many of them did not refuse, by function.
    calls: BTreeMap<&'static str, [u64; 2]>,
    /// How many refusals, by number.
    refusals: BTreeMap<u32, u64>,
    /// How many replies differ from the other crate's by a row of docs/rust/DIFFERENCES.md, by row.
    explained: BTreeMap<&'static str, u64>,
    /// The replies that differ without one.
    different: Vec<String>,
}

impl Compared {
    fn compare(&mut self, call: &Call) {
        let (ours, theirs) = (call.ours(), call.theirs());
        if ours != theirs.reply {
            let what = format!("{call:?}: {ours:?}, and not {:?}", theirs.reply);
            self.different.push(what);
        }
        if let Some(place) = theirs.difference {
            *self.explained.entry(place).or_default() += 1;
        }
        let counts = self.calls.entry(call.function()).or_default();
        counts[0] += 1;
        match ours {
            Ok(_) => counts[1] += 1,
            Err(number) => *self.refusals.entry(number).or_default() += 1,
        }
    }

    fn report(&self, what: &str) {
        let calls: u64 = self.calls.values().map(|counts| counts[0]).sum();
        println!("{what}: {calls} calls of both crates");
        for (function, [calls, answered]) in &self.calls {
            println!("  {function}: {calls}, of which {answered} were answered");
        }
        for (number, count) in &self.refusals {
            println!("  refusal {number}: {count}");
        }
        for (place, count) in &self.explained {
            println!("  the other crate differs, as the row {place} says: {count}");
        }
        println!("  disagreements: {}", self.different.len());
    }

    fn agreed(&self) {
        for place in self.explained.keys() {
            let row = format!("|{place}");
            assert!(
                DIFFERENCES.contains(&row),
                "docs/rust/DIFFERENCES.md has no row {place}"
            );
        }
        let first: Vec<&String> = self.different.iter().take(10).collect();
        assert!(first.is_empty(), "{first:#?}");
    }
}

fn vectors() -> Vec<Call> {
    let mut calls = vec![];
    let mut read = |text: &str| {
        calls.push(Call::Decode(text.to_owned()));
        calls.push(Call::Check(Code::Bech32, text.to_owned()));
        calls.push(Call::Check(Code::Bech32m, text.to_owned()));
        calls.push(Call::SegwitDecode(text.to_owned()));
        calls.push(Call::Read(text.to_owned()));
    };
    rows::BECH32.iter().for_each(|text| read(text));
    rows::BECH32M.iter().for_each(|text| read(text));
    rows::NOT_BECH32.iter().for_each(|(text, _)| read(text));
    rows::NOT_BECH32M.iter().for_each(|(text, _)| read(text));
    rows::ADDRESSES.iter().for_each(|(text, ..)| read(text));
    rows::MORE_ADDRESSES.iter().for_each(|text| read(text));
    rows::NOT_ADDRESSES.iter().for_each(|(text, _)| read(text));
    rows::PARTS
        .iter()
        .for_each(|(text, _)| calls.push(Call::Parse((*text).to_owned())));
    #[cfg(feature = "correct")]
    for (text, erasures, ..) in rows::CORRECTIONS {
        calls.push(Call::Correct(
            Code::Bech32,
            text.to_owned(),
            erasures.to_vec(),
        ));
    }
    calls
}

#[test]
fn both_crates_agree() {
    let (mut of_vectors, mut compared) = (Compared::default(), Compared::default());
    let mut inputs = Inputs::new(1);
    vectors().iter().for_each(|call| of_vectors.compare(call));
    (0..CALLS).for_each(|_| compared.compare(&inputs.call()));
    of_vectors.report("the public vectors");
    compared.report("random calls");
    of_vectors.agreed();
    compared.agreed();
    for number in REFUSALS {
        assert!(
            compared.refusals.contains_key(&number),
            "no call met {number}"
        );
    }
}

#[test]
fn elements_have_the_same_sums() {
    assert_eq!(readers::ours::sums(), readers::theirs::sums());
}
