//! Calls as a Rattle program makes them, made of the crate: those of `calls.rt.in`.

use crate::theirs;
use crate::workloads::{addresses, long, mistyped, short};
use bech32::primitives::decode::CheckedHrpstring;
use bech32::{segwit, Bech32, Bech32m, Hrp};
use std::hint::black_box;

/// What is called, the number of bytes or the text that it is called on, and the name of its row.
pub struct Row {
    pub kind: &'static str,
    pub word: String,
    pub name: &'static str,
}

/// All rows.
pub fn rows() -> Vec<Row> {
    let short = short::<Bech32>();
    let one_error = mistyped(&short, &[20]);
    let [address_0, address_1] = addresses();
    let size = |size: usize| size.to_string();
    let rows = [
        ("encode", size(20), "encode, 20 bytes, Bech32m"),
        ("encode", size(632), "encode, 632 bytes, Bech32m"),
        ("decode", self::short::<Bech32m>(), "decode, 41 characters"),
        ("decode", long(), "decode, 1023 characters"),
        ("check", short, "CheckedHrpstring::new, 41 characters"),
        ("check", long(), "CheckedHrpstring::new, 1023 characters"),
        (
            "segwit",
            address_0,
            "segwit::decode, version 0, 42 characters",
        ),
        (
            "segwit",
            address_1,
            "segwit::decode, version 1, 62 characters",
        ),
        ("correct", one_error, "correct, one error in 41 characters"),
    ];
    rows.map(|(kind, word, name)| Row { kind, word, name })
        .into()
}

const DATA: [u8; 632] = [0xa5; 632];

// What makes a call, and gives the number of the bytes that it writes, or reads as data; of a
// correction that of the mended text.
fn call<'w>(kind: &str, word: &'w str) -> Box<dyn Fn() -> usize + 'w> {
    let hrp = Hrp::parse("abcd").unwrap();
    let data = word.parse().map_or(&[][..], |size: usize| &DATA[..size]);
    match kind {
        "encode" => Box::new(move || {
            black_box(bech32::encode::<Bech32m>(hrp, black_box(data)).unwrap()).len()
        }),
        "decode" => Box::new(move || black_box(bech32::decode(black_box(word)).unwrap()).1.len()),
        "check" => Box::new(move || {
            let checked = CheckedHrpstring::new::<Bech32>(black_box(word)).unwrap();
            black_box(checked).data_part_ascii_no_checksum().len()
        }),
        "segwit" => Box::new(move || black_box(segwit::decode(black_box(word)).unwrap()).2.len()),
        _ => Box::new(move || {
            let error = CheckedHrpstring::new::<Bech32>(black_box(word)).unwrap_err();
            let correction = theirs::correct::<Bech32>(&error, word, &[]).unwrap();
            black_box(correction).mended.len()
        }),
    }
}

/// The number of bytes of this many calls.
pub fn called(kind: &str, word: &str, calls: usize) -> usize {
    let call = call(kind, word);
    (0..calls).map(|_| call()).sum()
}
