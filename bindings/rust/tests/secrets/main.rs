//! What calls leave of a secret: eight of its bytes, characters or elements in a row are searched for in each block of
//! memory that is freed, and on the whole stack of a thread.
#![cfg(target_os = "linux")]

mod memory;
mod stack;

use bech32_proved::codex32::{
    derive, encode, encode_payload, propose, propose_long, recover, split, split_with, Header,
    Identifier, SecretText, Share, Threshold,
};
use bech32_proved::Fe32;
use std::hint::black_box;

// Secrets of both kinds of strings, with the random bytes that they are split by, and pieces of all that comes of them.
struct Secret {
    bytes: Vec<u8>,
    random: Vec<u8>,
    own: String,
    in_upper_case: String,
    shares: Vec<String>,
    pieces: Vec<u64>,
}

const THRESHOLD: u8 = 3;
const COUNT: usize = 5;

fn header(index: Fe32) -> Header {
    let threshold = Threshold::new(THRESHOLD).unwrap();
    Header::new(threshold, Identifier::parse("test").unwrap(), index).unwrap()
}

fn element(character: char) -> u8 {
    Fe32::from_char(character).unwrap().to_u8()
}

// A text that is made in one piece.
fn in_upper_case(text: &str) -> SecretText {
    let mut made = text.to_owned();
    made.make_ascii_uppercase();
    SecretText::from(made)
}

impl Secret {
    fn new(size: usize, seed: u64) -> Secret {
        let mut state = seed;
        let mut next = || {
            state = state.wrapping_mul(6364136223846793005).wrapping_add(1);
            (state >> 56) as u8
        };
        let bytes: Vec<u8> = (0..size).map(|_| next()).collect();
        let length = usize::from(THRESHOLD - 1) * (8 * size).div_ceil(5);
        let random: Vec<u8> = (0..length).map(|_| next()).collect();
        let of = header(Fe32::S);
        let own = encode(&of, &bytes).unwrap().to_string();
        let shares = split_with(&bytes, of.threshold(), COUNT, of.identifier(), &random).unwrap();
        let shares: Vec<String> = shares.iter().map(|it| it.to_string()).collect();
        let mut pieces = memory::eights(&bytes);
        pieces.extend(memory::eights(&random));
        for text in shares.iter().chain([&own]) {
            let secret = &text[9..];
            pieces.extend(memory::eights(secret.as_bytes()));
            pieces.extend(memory::eights(secret.to_uppercase().as_bytes()));
            let elements: Vec<u8> = secret.chars().map(element).collect();
            pieces.extend(memory::eights(&elements));
        }
        pieces.sort_unstable();
        Secret {
            bytes,
            random,
            in_upper_case: own.to_uppercase(),
            own,
            shares,
            pieces,
        }
    }

    // Makes each call on the secret, and drops what is returned.
    fn calls(&self) {
        let of = header(Fe32::S);
        let (threshold, identifier) = (of.threshold(), of.identifier());
        let with = split_with(&self.bytes, threshold, COUNT, identifier, &self.random).unwrap();
        assert!(with.iter().zip(&self.shares).all(|(a, b)| *a == *b));
        let drawn = split(&self.bytes, threshold, COUNT, None).unwrap();
        assert_eq!(recover(&drawn[1..]).unwrap(), self.bytes);
        assert_eq!(recover(&self.shares).unwrap().clone(), self.bytes);
        assert!(recover(&self.shares[..2]).is_err());
        assert_eq!(derive(&self.shares, Fe32::S).unwrap(), self.own);
        assert_eq!(encode(&of, &self.bytes).unwrap().clone(), self.own);
        let share = Share::parse(&self.own).unwrap();
        assert_eq!(encode_payload(&of, share.payload()).unwrap(), self.own);
        assert_eq!(share.to_bytes().unwrap(), self.bytes);
        // Refused, behind much of it.
        assert!(Share::parse(&self.own[..self.own.len() - 1]).is_err());
        assert!(encode(&of, &self.bytes[1..12]).is_err());
        self.proposals();
    }

    fn proposals(&self) {
        let propose = if self.own.len() < 100 {
            propose
        } else {
            propose_long
        };
        let (front, back) = self.own.split_at(20);
        let other = if back.starts_with('q') { "p" } else { "q" };
        for damaged in [
            [front, other, &back[1..]].concat(),
            [front, "????", &back[4..]].concat(),
        ] {
            let mut damaged = SecretText::from(damaged);
            assert_eq!(propose(&damaged).unwrap().unwrap(), self.own);
            damaged = in_upper_case(&damaged);
            let proposed = propose(&damaged).unwrap().unwrap();
            assert_eq!(proposed, self.in_upper_case);
        }
    }
}

#[test]
fn no_freed_memory_has_a_piece_of_it() {
    for (size, seed) in [(16, 1), (33, 2), (64, 3)] {
        let secret = Secret::new(size, seed);
        let left = memory::freed_with(&secret.pieces, || secret.calls());
        assert_eq!(left, 0, "{size} bytes");
        // What is not wiped is seen.
        for text in [&secret.own, &secret.in_upper_case, &secret.shares[0]] {
            let left = memory::freed_with(&secret.pieces, || drop(black_box(text.clone())));
            assert_eq!(left, 1);
        }
        let left = memory::freed_with(&secret.pieces, || drop(black_box(secret.bytes.clone())));
        assert_eq!(left, 1);
    }
}

#[test]
fn no_stack_has_a_piece_of_it() {
    for (size, seed) in [(16, 4), (33, 5), (64, 6)] {
        let secret = Secret::new(size, seed);
        let left = memory::count(&secret.pieces, &stack::after(|| secret.calls()));
        assert_eq!(left, 0, "{size} bytes");
        // What is not wiped is seen, below what the end of the thread puts there.
        let copy = || {
            let mut copied = [0_u8; 1 << 14];
            copied[..16].copy_from_slice(&secret.bytes[..16]);
            black_box(&copied);
        };
        assert!(memory::count(&secret.pieces, &stack::after(copy)) > 0);
    }
}
