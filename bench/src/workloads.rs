//! What the sides are measured on: an operation with its input, once for each side.
//!
//! All parse the human-readable part in each call. Ours reads bytes from a C caller, tests that they are
//! UTF-8, and writes into the caller's buffers, and so does the C of `bench/limit`; the crate takes a
//! `&str` and allocates its answer.

use crate::calls::{self, Buffers, Calls, BECH32, BECH32M, LIMIT, OURS};
use crate::random::Numbers;
use crate::theirs;
use crate::Reply;
use bech32::primitives::decode::CheckedHrpstring;
use bech32::{segwit, Bech32, Bech32m, Checksum, Fe32, Hrp};
use std::hint::black_box;

/// A side of an operation: what it answers, and a call.
pub struct Side {
    pub reply: Reply,
    pub call: Box<dyn FnMut()>,
}

pub struct Operation {
    pub name: String,
    /// Of bad input the operation on good input that it is compared with.
    pub good: Option<&'static str>,
    /// Whether all sides refuse it.
    pub is_refused: bool,
    /// Ours, the crate's, and C's.
    pub sides: [Side; 3],
}

const PROGRAM: [u8; 20] = [
    0x75, 0x1e, 0x76, 0xe8, 0x19, 0x91, 0x96, 0xd4, 0x54, 0x94, 0x1c, 0x45, 0xd1, 0xb3, 0xa3, 0x23,
    0xf1, 0x43, 0x3b, 0xd6,
];

fn taproot() -> Vec<u8> {
    (0..32).map(|i| (i * 37 + 11) as u8).collect()
}

fn many_bytes() -> Vec<u8> {
    (0..632).map(|i| (i * 7 + 3) as u8).collect()
}

/// A text of 41 characters.
pub fn short<Ck: Checksum>() -> String {
    bech32::encode::<Ck>(Hrp::parse("bc").unwrap(), &PROGRAM).unwrap()
}

/// A text of 1,023 characters.
pub fn long() -> String {
    let text = bech32::encode::<Bech32>(Hrp::parse("abcd").unwrap(), &many_bytes()).unwrap();
    assert_eq!(text.len(), 1023);
    text
}

/// Addresses of 42 characters (version 0) and of 62 (version 1).
pub fn addresses() -> [String; 2] {
    let bc = Hrp::parse("bc").unwrap();
    [(Fe32::Q, PROGRAM.to_vec()), (Fe32::P, taproot())]
        .map(|(version, program)| segwit::encode(bc, version, &program).unwrap())
}

// The side of the crate.
fn crate_side(reply: Reply, call: impl FnMut() + 'static) -> Side {
    Side {
        reply,
        call: Box::new(call),
    }
}

// A side that is called as from C, with buffers that every call uses again.
fn c_side(reply: Reply, mut call: impl FnMut(&mut Buffers) + 'static) -> Side {
    let mut out = Buffers::new();
    Side {
        reply,
        call: Box::new(move || {
            call(&mut out);
            black_box(&out.text);
        }),
    }
}

// An operation whose sides called as from C are made alike.
fn operation(name: &str, of_c: impl Fn(&'static Calls) -> Side, theirs: Side) -> Operation {
    Operation {
        name: name.to_string(),
        good: None,
        is_refused: false,
        sides: [of_c(&OURS), theirs, of_c(&LIMIT)],
    }
}

// The same on bad input, which all refuse.
fn on_bad_input(good: Option<&'static str>, operation: Operation) -> Operation {
    Operation {
        good,
        is_refused: true,
        ..operation
    }
}

fn encode(name: &str, checksum: u32, hrp: &'static str, bytes: Vec<u8>) -> Operation {
    let given = bytes.clone();
    let of_c = move |calls: &'static Calls| {
        let bytes = given.clone();
        let reply = calls::replies::encode(calls, checksum, hrp, &bytes);
        c_side(reply, move |out| {
            calls
                .encode(checksum, black_box(hrp), black_box(&bytes), out)
                .unwrap();
        })
    };
    let reply = theirs::replies::encode(checksum, hrp, &bytes);
    let theirs = match checksum {
        BECH32 => crate_side(reply, move || {
            let part = Hrp::parse(black_box(hrp)).unwrap();
            black_box(bech32::encode::<Bech32>(part, black_box(&bytes)).unwrap());
        }),
        _ => crate_side(reply, move || {
            let part = Hrp::parse(black_box(hrp)).unwrap();
            black_box(bech32::encode::<Bech32m>(part, black_box(&bytes)).unwrap());
        }),
    };
    operation(name, of_c, theirs)
}

fn decode(name: &str, text: String) -> Operation {
    let given = text.clone();
    let of_c = move |calls: &'static Calls| {
        let text = given.clone();
        c_side(calls::replies::decode(calls, &text), move |out| {
            let _ = black_box(calls.decode(black_box(&text), out));
        })
    };
    let theirs = crate_side(theirs::replies::decode(&text), move || {
        let _ = black_box(bech32::decode(black_box(&text)));
    });
    operation(name, of_c, theirs)
}

fn check(name: &str, text: String) -> Operation {
    let given = text.clone();
    let of_c = move |calls: &'static Calls| {
        let text = given.clone();
        let reply = calls::replies::check(calls, BECH32, &text);
        c_side(reply, move |_| {
            let _ = black_box(calls.check(BECH32, black_box(&text)));
        })
    };
    let theirs = crate_side(theirs::replies::check(BECH32, &text), move || {
        let _ = black_box(CheckedHrpstring::new::<Bech32>(black_box(&text)));
    });
    operation(name, of_c, theirs)
}

fn segwit_encode(name: &str, version: Fe32, program: Vec<u8>) -> Operation {
    let (number, given) = (u32::from(version.to_u8()), program.clone());
    let of_c = move |calls: &'static Calls| {
        let program = given.clone();
        let reply = calls::replies::segwit_encode(calls, "bc", number, &program);
        c_side(reply, move |out| {
            calls
                .segwit_encode(black_box("bc"), number, black_box(&program), out)
                .unwrap();
        })
    };
    let reply = theirs::replies::segwit_encode("bc", number, &program);
    let theirs = crate_side(reply, move || {
        let part = Hrp::parse(black_box("bc")).unwrap();
        black_box(segwit::encode(part, version, black_box(&program)).unwrap());
    });
    operation(name, of_c, theirs)
}

fn segwit_decode(name: &str, text: String) -> Operation {
    let given = text.clone();
    let of_c = move |calls: &'static Calls| {
        let text = given.clone();
        c_side(calls::replies::segwit_decode(calls, &text), move |out| {
            black_box(calls.segwit_decode(black_box(&text), out).unwrap());
        })
    };
    let theirs = crate_side(theirs::replies::segwit_decode(&text), move || {
        black_box(segwit::decode(black_box(&text)).unwrap());
    });
    operation(name, of_c, theirs)
}

// A correction of a Bech32 text that is refused for its residue.
fn correct(name: &str, text: String, erasures: &'static [usize]) -> Operation {
    let given = text.clone();
    let of_c = move |calls: &'static Calls| {
        let text = given.clone();
        let reply = calls::replies::correct(calls, BECH32, &text, erasures);
        c_side(reply, move |out| {
            let _ = black_box(calls.correct(BECH32, black_box(&text), black_box(erasures), out));
        })
    };
    let reply = theirs::replies::correct(BECH32, &text, erasures);
    let theirs = crate_side(reply, move || {
        let error = CheckedHrpstring::new::<Bech32>(black_box(&text)).unwrap_err();
        black_box(theirs::correct::<Bech32>(
            &error,
            &text,
            black_box(erasures),
        ));
    });
    operation(name, of_c, theirs)
}

/// A text with other characters at some locations, of which 0 is the last.
pub fn mistyped(text: &str, locations: &[usize]) -> String {
    let mut bytes = text.as_bytes().to_vec();
    for place in locations {
        let at = bytes.len() - 1 - place;
        bytes[at] = if bytes[at] == b'q' { b'p' } else { b'q' };
    }
    String::from_utf8(bytes).unwrap()
}

fn residue(name: &str) -> Operation {
    let values: Vec<u8> = (0..1000u32).map(|i| (i * 11 % 32) as u8).collect();
    let fes: Vec<Fe32> = values.iter().map(|v| Fe32::try_from(*v).unwrap()).collect();
    let reply = theirs::replies::residue(BECH32, &values);
    let of_c = move |calls: &'static Calls| {
        let values = values.clone();
        c_side(calls::replies::residue(calls, BECH32, &values), move |_| {
            black_box(calls.residue(BECH32, black_box(&values)).unwrap());
        })
    };
    let theirs = crate_side(reply, move || {
        black_box(theirs::residue(BECH32, black_box(&fes)));
    });
    operation(name, of_c, theirs)
}

fn on_good_input() -> Vec<Operation> {
    let short = short::<Bech32>();
    let [address_0, address_1] = addresses();
    vec![
        encode("encode, 20 bytes, Bech32", BECH32, "bc", PROGRAM.to_vec()),
        encode("encode, 632 bytes, Bech32m", BECH32M, "abcd", many_bytes()),
        decode("decode, 41 characters", self::short::<Bech32m>()),
        decode("decode, 1023 characters", long()),
        check("CheckedHrpstring::new, 41 characters", short.clone()),
        check("CheckedHrpstring::new, 1023 characters", long()),
        segwit_encode(
            "segwit::encode, version 0, 20 bytes",
            Fe32::Q,
            PROGRAM.to_vec(),
        ),
        segwit_encode("segwit::encode, version 1, 32 bytes", Fe32::P, taproot()),
        segwit_decode("segwit::decode, version 0, 42 characters", address_0),
        segwit_decode("segwit::decode, version 1, 62 characters", address_1),
        residue("Engine::input_fe, 1000 elements"),
        correct(
            "correct, one error in 41 characters",
            mistyped(&short, &[20]),
            &[],
        ),
        correct(
            "correct, two erasures in 41 characters",
            mistyped(&short, &[9, 30]),
            &[9, 30],
        ),
        correct(
            "correct, three erasures in 41 characters",
            mistyped(&short, &[0, 9, 30]),
            &[0, 9, 30],
        ),
        correct(
            "correct, one error beside an erasure in 41 characters",
            mistyped(&short, &[9, 30]),
            &[9],
        ),
        on_bad_input(
            None,
            correct(
                "correct, no pattern for 41 characters",
                mistyped(&short, &[3, 9, 15, 30]),
                &[],
            ),
        ),
        on_bad_input(
            None,
            correct(
                "correct, no pattern with an erasure for 41 characters",
                mistyped(&short, &[3, 18, 23]),
                &[23],
            ),
        ),
    ]
}

// A text with another character at an index.
fn with(text: &str, at: usize, character: &str) -> String {
    let mut text = text.to_string();
    text.replace_range(at..at + 1, character);
    text
}

// What makes a text bad, and the bad text: a byte that no human-readable part has, a character that is
// not of the alphabet, and one that is another.
fn bad_texts(text: &str) -> [(String, String); 3] {
    let n = text.len();
    [
        (
            format!("fault in the first of {n} characters"),
            with(text, 0, "\u{7f}"),
        ),
        (
            format!("fault in the last of {n} characters"),
            with(text, n - 1, "b"),
        ),
        (
            format!("wrong checksum, {n} characters"),
            mistyped(text, &[20]),
        ),
    ]
}

// Texts of 4,000 characters: of any that are printed, and of the alphabet alone.
fn garbage() -> [(String, String); 2] {
    let mut numbers = Numbers(1);
    let any = (0..4000).map(|_| char::from(33 + numbers.below(94) as u8));
    [
        ("4000 characters of garbage".to_string(), any.collect()),
        (
            "4000 characters without separator".to_string(),
            "qpzry9x8".repeat(500),
        ),
    ]
}

// An operation on each of the bad texts that have a good one, and on each that has none.
fn bad(
    name: &str,
    goods: [&'static str; 2],
    texts: [String; 2],
    read: fn(&str, String) -> Operation,
) -> Vec<Operation> {
    let of_good = goods
        .into_iter()
        .zip(texts)
        .flat_map(|(good, text)| bad_texts(&text).map(|bad| (good, bad)));
    of_good
        .chain(garbage().map(|bad| (goods[1], bad)))
        .map(|(good, (what, text))| {
            on_bad_input(Some(good), read(&format!("{name}, {what}"), text))
        })
        .collect()
}

/// All operations: those on bad input stand last.
pub fn operations() -> Vec<Operation> {
    let texts = [short::<Bech32>(), long()];
    let mut operations = on_good_input();
    let decodes = ["decode, 41 characters", "decode, 1023 characters"];
    operations.extend(bad("decode", decodes, texts.clone(), decode));
    let checks = [
        "CheckedHrpstring::new, 41 characters",
        "CheckedHrpstring::new, 1023 characters",
    ];
    operations.extend(bad("CheckedHrpstring::new", checks, texts, check));
    operations
}
