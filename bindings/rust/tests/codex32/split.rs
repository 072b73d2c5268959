//! Secrets split into shares: the vector of BIP-93, all subsets of small sets, each size, and each refusal.

use super::{bytes, CASH, CASH_BYTES};
use bech32_proved::codex32::{
    encode, random_length, recover, split, split_with, Header, Identifier, Refusal, SecretText,
    Share, SplitError, Threshold, MAX_SPLIT,
};
use bech32_proved::Fe32;
use std::collections::HashSet;

const INDICES: &str = "acdefghjklmnpqrtuvwxyz023456789";

fn threshold(number: u8) -> Threshold {
    Threshold::new(number).unwrap()
}

fn identifier(word: &str) -> Identifier {
    Identifier::parse(word).unwrap()
}

// The bytes of characters, each with three bits above it that are left out.
fn random_of(characters: &str, above: u8) -> Vec<u8> {
    let element = |c| Fe32::from_char(c).unwrap().to_u8();
    characters
        .chars()
        .map(|c| element(c) | above << 5)
        .collect()
}

// The sets of `size` of the shares, by the bits of a number.
fn subsets(shares: &[SecretText], size: u32) -> Vec<Vec<&str>> {
    let numbers = (0..1_u32 << shares.len()).filter(|number| number.count_ones() == size);
    let of = |number: u32| {
        let chosen = (0..).zip(shares).filter(|(n, _)| number >> n & 1 == 1);
        chosen.map(|(_, share)| share.as_str()).collect()
    };
    numbers.map(of).collect()
}

// Any shares as many as the threshold, and more, recover the secret, and fewer do not.
fn each_subset_is_right(secret: &[u8], number: u8, shares: &[SecretText]) {
    for size in 0..=shares.len() as u32 {
        for subset in subsets(shares, size) {
            let found = recover(&subset);
            if size < number.into() {
                assert_eq!(found, Err(Refusal::TooFewShares), "{size} of {number}");
            } else {
                assert_eq!(found.unwrap(), *secret, "{size} of {number}");
            }
        }
    }
}

#[test]
fn splits_as_the_standard_does() {
    let [_, a, c] = CASH;
    let drawn = [&a[9..35], &c[9..35]].concat();
    for above in 0..8 {
        let random = random_of(&drawn, above);
        let secret = bytes(CASH_BYTES);
        let shares = split_with(&secret, threshold(3), 5, identifier("CASH"), &random).unwrap();
        let wanted = [
            a,
            c,
            "ms13cashd0wsedstcdcts64cd7wvy4m90lm28w4ffupqs7rm",
            "ms13casheekgpemxzshcrmqhaydlp6yhms3ws7320xyxsar9",
            "ms13cashf8jh6sdrkpyrsp5ut94pj8ktehhw2hfvyrj48704",
        ];
        assert_eq!(shares, wanted);
    }
}

#[test]
fn any_shares_as_many_as_the_threshold_recover_the_secret() {
    for number in 2..=9 {
        for count in usize::from(number)..=10.min(usize::from(number) + 3) {
            let secret: Vec<u8> = (0..16).map(|n| n * number).collect();
            let shares = split(&secret, threshold(number), count, None).unwrap();
            assert_eq!(shares.len(), count);
            let named = Share::parse(&shares[0]).unwrap().identifier();
            for (share, index) in shares.iter().zip(INDICES.chars()) {
                let share = Share::parse(share).unwrap();
                assert_eq!(share.threshold().number(), number);
                assert_eq!(share.identifier(), named);
                assert_eq!(share.share_index().to_char(), index);
            }
            each_subset_is_right(&secret, number, &shares);
        }
    }
}

#[test]
fn each_size_is_split() {
    for size in 0..100 {
        let secret: Vec<u8> = (0..size).map(|n: u8| n.wrapping_mul(3)).collect();
        let made = split(&secret, threshold(2), MAX_SPLIT, Some(identifier("test")));
        if !matches!(size, 16..=44 | 63..=64) {
            let Err(SplitError::Refused(Refusal::BadSize)) = made else {
                panic!("{size}")
            };
            continue;
        }
        let shares = made.unwrap();
        let indices: String = shares.iter().map(|share| &share[8..9]).collect();
        assert_eq!(indices, INDICES);
        for (i, share) in shares.iter().enumerate() {
            let other = &shares[(i + 7) % MAX_SPLIT];
            assert_eq!(recover(&[share, other]).unwrap(), secret, "{size}");
        }
        assert_eq!(recover(&shares).unwrap(), secret);
    }
}

#[test]
fn the_drawn_characters_are_the_random_bytes() {
    for (size, number) in [(16, 2), (20, 9), (33, 4), (44, 3), (63, 9), (64, 5)] {
        let secret = vec![0x5a; size];
        let length = random_length(threshold(number), size);
        let random: Vec<u8> = (0..length).map(|n| (n * n + n / 7) as u8).collect();
        let shares = split_with(&secret, threshold(number), 9, identifier("test"), &random);
        let shares = shares.unwrap();
        let header = Header::new(threshold(number), identifier("test"), Fe32::S).unwrap();
        let own = encode(&header, &secret).unwrap();
        assert!(shares.iter().all(|share| share.len() == own.len()));
        let drawn = shares[..usize::from(number) - 1].iter();
        let characters: String = drawn
            .map(|share| Share::parse(share).unwrap().payload())
            .collect();
        let element = |byte: &u8| Fe32::try_from(byte & 31).unwrap().to_char();
        assert_eq!(characters, random.iter().map(element).collect::<String>());
        // The secret's own string is one of the set.
        let last = shares.last().unwrap();
        let mut set: Vec<&str> = shares.iter().map(SecretText::as_str).collect();
        set.push(&own);
        assert_eq!(recover(&set).unwrap(), secret);
        set.drain(..set.len() - usize::from(number));
        assert_eq!(recover(&set).unwrap(), secret);
        assert!(set.contains(&last.as_str()));
    }
}

#[test]
fn each_call_draws_anew() {
    let (mut payloads, mut identifiers) = (HashSet::new(), HashSet::new());
    for _ in 0..50 {
        let shares = split(&[7; 16], threshold(2), 2, None).unwrap();
        let share = Share::parse(&shares[0]).unwrap();
        payloads.insert(share.payload().to_owned());
        identifiers.insert(share.identifier());
    }
    // That two of fifty identifiers are the same has a chance of 1 in 800.
    assert!(payloads.len() == 50 && identifiers.len() >= 48);
    let characters: HashSet<char> = payloads.iter().flat_map(|it| it.chars()).collect();
    assert_eq!(characters.len(), 32);
}

#[test]
fn refuses() {
    let test = identifier("test");
    let refused = |size: usize, number, count, random: usize| {
        let (secret, random) = (vec![7; size], vec![9; random]);
        split_with(&secret, threshold(number), count, test, &random).unwrap_err()
    };
    for (size, number, count, random, refusal) in [
        (1, 0, 0, 1, Refusal::BadShareIndex),
        (16, 0, 1, 0, Refusal::BadShareIndex),
        (15, 2, 1, 1, Refusal::BadSize),
        (1 << 20, 9, 32, 0, Refusal::BadSize),
        (16, 2, 1, 26, Refusal::BadCount),
        (16, 9, 8, 0, Refusal::BadCount),
        (16, 2, 32, 26, Refusal::BadCount),
        (16, 2, usize::MAX, 26, Refusal::BadCount),
        (16, 2, 2, 25, Refusal::BadRandom),
        (16, 2, 31, 27, Refusal::BadRandom),
        (16, 3, 3, 26, Refusal::BadRandom),
        (64, 2, 2, 0, Refusal::BadRandom),
        (16, 2, 2, 26, Refusal::EqualRandom),
        (64, 9, 31, 824, Refusal::EqualRandom),
    ] {
        let found = refused(size, number, count, random);
        assert_eq!(found, refusal, "{size} {number} {count} {random}");
    }
    let error = split(&[7; 15], threshold(2), 2, None).unwrap_err();
    assert_eq!(error.to_string(), Refusal::BadSize.to_string());
    assert!(std::error::Error::source(&error).is_none());
    let error = SplitError::Random(std::io::ErrorKind::NotFound.into());
    assert_eq!(error.to_string(), "there are no random bytes");
    assert!(std::error::Error::source(&error).is_some());
}
