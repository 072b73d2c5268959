//! Compares the replies of the library, the crate and C on texts and bytes of many kinds.

use crate::calls::{self, Calls, BECH32, BECH32M, LIMIT, OURS};
use crate::random::Numbers;
use crate::theirs;
use crate::workloads;
use crate::Reply;
use std::collections::BTreeSet;

// Human-readable parts, most of them none: empty, too long, of other characters, of both cases.
const PARTS: [&str; 6] = [
    "a",
    "",
    "an84characterslonghumanreadablepartthatcontainsthetheexcludedcharactersbioandnumber1",
    "\u{e9}",
    "a b",
    "aB",
];

// Texts that are refused, most of them from BIP-173 and BIP-350.
const TEXTS: [&str; 20] = [
    "",
    "a1",
    "1qqqqqq",
    "pzry9x0s0muk",
    "\u{e9}1qqqqqq",
    " 1nwldj5",
    "a12uel5l\r",
    "Q1q",
    "b12uel5l",
    "a1lqfn3a",
    "an84characterslonghumanreadablepartthatcontainsthetheexcludedcharactersbioandnumber11d6pts4",
    "anhrpthatistwentycha1pqyqszqgpqyqszqgpqyqszqgpqyqszqgpqyqszqgpqyqszqgpqyqszqgpqyqszqgqfrwjz",
    "tb1p0xlxvlhemja6c4dqv22uapctqupfhlxm9h8z3k2e72q4k9hcz7vq47Zagq",
    "BC130XLXVLHEMJA6C4DQV22UAPCTQUPFHLXM9H8Z3K2E72Q4K9HCZ7VQ7ZWS8R",
    "bc1p0xlxvlhemja6c4dqv22uapctqupfhlxm9h8z3k2e72q4k9hcz7v07qwwzcrf",
    "tb1p0xlxvlhemja6c4dqv22uapctqupfhlxm9h8z3k2e72q4k9hcz7vpggkg4j",
    "bc1pw5dgrnzv",
    "bc1p0xlxvlhemja6c4dqv22uapctqupfhlxm9h8z3k2e72q4k9hcz7v8n0nx0muaewav253zgeav",
    "BC1QR508D6QEJXTDG4Y5R3ZARVARYV98GJ9P",
    "BC1SW50QGDZ25K",
];

// The texts that a human-readable part and bytes have, in both cases.
fn texts(numbers: &mut Numbers) -> Vec<String> {
    let (part, bytes) = (numbers.part(), numbers.bytes(60));
    let version = numbers.below(18) as u32;
    [
        theirs::replies::encode(BECH32, &part, &bytes),
        theirs::replies::encode(BECH32M, &part, &bytes),
        theirs::replies::segwit_encode("bc", version, &bytes),
    ]
    .into_iter()
    .flatten()
    .map(|parts| String::from_utf8(parts[0].clone()).unwrap())
    .flat_map(|text| [text.to_uppercase(), text])
    .collect()
}

/// What was compared.
#[derive(Default)]
pub struct Compared {
    /// How many replies.
    pub replies: u64,
    /// How many of them have the place of a fault.
    pub places: u64,
    /// The numbers of the refusals among them.
    pub refusals: BTreeSet<u32>,
    /// Those that differ.
    pub different: Vec<String>,
}

// The replies of the three sides, of which two are called as from C.
fn of_all(of_c: impl Fn(&'static Calls) -> Reply, theirs: Reply) -> [Reply; 3] {
    [of_c(&OURS), theirs, of_c(&LIMIT)]
}

impl Compared {
    fn check(&mut self, what: String, replies: [Reply; 3]) {
        self.replies += 1;
        self.refusals.extend(replies[1].clone().err());
        if replies.iter().any(|reply| *reply != replies[1]) {
            self.different.push(format!("{what}: {replies:?}"));
        }
    }

    // The number and the place of a text's fault, of which the crate has no place.
    fn fault(&mut self, text: &[u8]) {
        for checksum in [BECH32, BECH32M] {
            let faults = [&OURS, &LIMIT].map(|calls| calls.fault(checksum, text));
            self.replies += 1;
            self.places += u64::from(faults[0].1 != usize::MAX);
            if faults[0] != faults[1] {
                self.different
                    .push(format!("fault {checksum} {text:?}: {faults:?}"));
            }
        }
    }

    fn written(&mut self, part: &str, bytes: &[u8]) {
        for checksum in [BECH32, BECH32M] {
            self.check(
                format!("encode {checksum} {part:?} {bytes:?}"),
                of_all(
                    |calls| calls::replies::encode(calls, checksum, part, bytes),
                    theirs::replies::encode(checksum, part, bytes),
                ),
            );
        }
    }

    fn address(&mut self, part: &str, version: u32, program: &[u8]) {
        self.check(
            format!("segwit_encode {part:?} {version} {program:?}"),
            of_all(
                |calls| calls::replies::segwit_encode(calls, part, version, program),
                theirs::replies::segwit_encode(part, version, program),
            ),
        );
    }

    fn remainder(&mut self, values: &[u8]) {
        for checksum in [BECH32, BECH32M] {
            self.check(
                format!("residue {checksum} {values:?}"),
                of_all(
                    |calls| calls::replies::residue(calls, checksum, values),
                    theirs::replies::residue(checksum, values),
                ),
            );
        }
    }

    fn mended(&mut self, text: &str, erasures: &[usize]) {
        for checksum in [BECH32, BECH32M] {
            self.check(
                format!("correct {checksum} {text:?} {erasures:?}"),
                of_all(
                    |calls| calls::replies::correct(calls, checksum, text, erasures),
                    theirs::replies::correct(checksum, text, erasures),
                ),
            );
        }
    }

    fn read(&mut self, text: &str) {
        self.check(
            format!("decode {text:?}"),
            of_all(
                |calls| calls::replies::decode(calls, text),
                theirs::replies::decode(text),
            ),
        );
        self.check(
            format!("segwit_decode {text:?}"),
            of_all(
                |calls| calls::replies::segwit_decode(calls, text),
                theirs::replies::segwit_decode(text),
            ),
        );
        for checksum in [BECH32, BECH32M] {
            self.check(
                format!("check {checksum} {text:?}"),
                of_all(
                    |calls| calls::replies::check(calls, checksum, text),
                    theirs::replies::check(checksum, text),
                ),
            );
        }
        self.fault(text.as_bytes());
    }

    // Texts with one byte changed to any, most of which are not UTF-8 then.
    fn damaged(&mut self, numbers: &mut Numbers, text: &str) {
        let mut bytes = text.as_bytes().to_vec();
        let place = numbers.below(bytes.len() as u64) as usize;
        bytes[place] = numbers.below(256) as u8;
        self.fault(&bytes);
    }
}

/// Compares the replies of the measured workloads, to inputs that are refused, and of this many rounds
/// of others.
pub fn compare(rounds: u64) -> Compared {
    let (mut numbers, mut compared) = (Numbers(1), Compared::default());
    for operation in workloads::operations() {
        let replies = operation.sides.map(|side| side.reply);
        assert!(
            replies[0].is_err() == operation.is_refused,
            "{}",
            operation.name
        );
        compared.check(operation.name, replies);
    }
    for part in PARTS {
        compared.written(part, &[0]);
        compared.address(part, 17, &[0]);
    }
    for text in TEXTS {
        compared.read(text);
    }
    compared.read(&format!("a1{}", "q".repeat(1022)));
    for _ in 0..rounds {
        let (part, bytes) = (numbers.part(), numbers.bytes(700));
        let program = numbers.bytes(44);
        let version = numbers.below(34) as u32;
        let values: Vec<u8> = (0..numbers.below(50))
            .map(|_| numbers.below(33) as u8)
            .collect();
        compared.written(&part, &bytes);
        compared.remainder(&values);
        compared.address(&part, version, &program);
        compared.address("bc", numbers.below(3) as u32, &program);
        for text in texts(&mut numbers) {
            let text = numbers.mistyped(&text);
            compared.read(&text);
            compared.damaged(&mut numbers, &text);
            let erasures: BTreeSet<usize> = (0..numbers.below(5))
                .map(|_| numbers.below(12) as usize)
                .collect();
            compared.mended(&text, &Vec::from_iter(erasures));
        }
    }
    compared
}
