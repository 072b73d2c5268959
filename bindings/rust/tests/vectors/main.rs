//! The public vectors, and what of this crate no other crate has: its numbers.

mod columns;
#[cfg(feature = "correct")]
mod descriptor;
mod elements;
mod liquid;
mod rows;
#[cfg(feature = "correct")]
mod suggest;

use bech32_proved::primitives::checksum::Engine;
use bech32_proved::primitives::decode::{
    CharError, CheckedHrpstring, CheckedHrpstringError, ChecksumError, SegwitHrpstring,
    SegwitHrpstringError, UncheckedHrpstring, UncheckedHrpstringError,
};
use bech32_proved::primitives::hrp::Error as HrpError;
use bech32_proved::{
    decode, decode_with_checksum, encode, encode_upper, encoded_length, fault, hrp, segwit, Bech32,
    Bech32m, ByteIterExt, Checksum, EncodeError, Fe32, Fe32IterExt, Hrp, NoChecksum, Refusal,
    Variant,
};
use std::collections::hash_map::DefaultHasher;
use std::hash::{Hash, Hasher};

const HEADER: &str = include_str!("../../../../dist/bech32.h");

// The number that the library answers: 0, or that of the refusal.
fn number<T>(result: Result<T, impl Into<Refusal>>) -> u32 {
    result.map_or_else(|e| e.into().number(), |_| 0)
}

fn part(text: &str) -> Hrp {
    Hrp::parse(text).unwrap()
}

// The bytes of hexadecimal digits.
fn bytes(digits: &str) -> Vec<u8> {
    let pairs = (0..digits.len()).step_by(2).map(|i| &digits[i..i + 2]);
    pairs
        .map(|pair| u8::from_str_radix(pair, 16).unwrap())
        .collect()
}

// That one checksum accepts a text, and gives its parts, and that the other refuses it.
fn accepted<Ck: Checksum, Other: Checksum>(text: &str, variant: Variant) {
    let checked = CheckedHrpstring::new::<Ck>(text).unwrap();
    let (before, behind) = text.rsplit_once('1').unwrap();
    assert_eq!(checked.hrp().as_str(), before);
    let data_part = checked.data_part_ascii_no_checksum();
    assert_eq!(data_part, &behind.as_bytes()[..behind.len() - 6]);
    let (hrp, found) = decode(text).unwrap();
    assert_eq!(hrp.as_str(), before);
    assert!(checked.byte_iter().eq(found.iter().copied()));
    assert_eq!(decode_with_checksum(text), Ok((hrp, found, variant)));
    let other = CheckedHrpstring::new::<Other>(text).unwrap_err();
    assert_eq!(Refusal::from(other), Refusal::WrongChecksum, "{text}");
}

#[test]
fn accepts_the_texts_of_the_bips() {
    rows::BECH32
        .iter()
        .for_each(|text| accepted::<Bech32, Bech32m>(text, Variant::Bech32));
    rows::BECH32M
        .iter()
        .for_each(|text| accepted::<Bech32m, Bech32>(text, Variant::Bech32m));
}

// Why the characters or the human-readable part of a text are refused.
fn parse_error(text: &str) -> UncheckedHrpstringError {
    UncheckedHrpstring::new(text).unwrap_err()
}

#[test]
fn says_which_character_is_at_fault() {
    for (text, error, place, words) in [
        (
            "x1b4n0q5v",
            CharError::InvalidChar('b').into(),
            2,
            "a character behind the separator may not stand there: character 3, b",
        ),
        (
            "x1b4\u{e9}0q5v",
            CharError::InvalidChar('\u{e9}').into(),
            4,
            "a character behind the separator may not stand there: character 5, U+00E9",
        ),
        (
            "\u{e9}x1q\u{202e}4n0q5v",
            CharError::InvalidChar('\u{202e}').into(),
            5,
            "a character behind the separator may not stand there: character 5, U+202E",
        ),
        (
            "1pzry9x0s0muk",
            HrpError::Empty.into(),
            0,
            "the human-readable part is empty",
        ),
        (
            "pzry9x0s0muk",
            CharError::MissingSeparator.into(),
            12,
            "the text has no separator, 1",
        ),
        (
            "h\u{e9}llo",
            CharError::InvalidChar('o').into(),
            5,
            "the text has no separator, 1, and a character that may not stand behind one: character 5, o",
        ),
        (
            "\u{20}1nwldj5",
            HrpError::InvalidAsciiByte(0x20).into(),
            0,
            "the human-readable part has a byte that is not from 33 to 126: character 1, U+0020",
        ),
        (
            "ab\u{80}1eym55h",
            HrpError::NonAsciiChar('\u{80}').into(),
            2,
            "the human-readable part has a character that is not ASCII: character 3, U+0080",
        ),
        (
            "A1G7SgD8",
            CharError::MixedCase.into(),
            5,
            "the text has letters of both cases: character 6, g",
        ),
    ] {
        assert_eq!(parse_error(text), error, "{text}");
        let faults = [
            fault::<Bech32>(text),
            fault::<Bech32m>(text),
            fault::<NoChecksum>(text),
        ];
        for found in faults.map(Option::unwrap) {
            assert_eq!(
                (found.refusal(), found.place()),
                (error.into(), place),
                "{text}"
            );
            assert_eq!(found.to_string(), words);
            let named = words.contains(": character ");
            let character = (text[..place].chars().count(), text[place..].chars().next());
            assert_eq!(
                found.character(),
                named.then(|| (character.0, character.1.unwrap()))
            );
        }
    }
    let long = format!("{}1qqqqqq", "a".repeat(84));
    assert_eq!(parse_error(&long), HrpError::TooLong(84).into());
    let of_part = fault::<Bech32>(&long).unwrap();
    assert_eq!((of_part.place(), of_part.character()), (84, None));
    assert_eq!(fault::<Bech32>("A12UEL5L"), None);
    assert_eq!(fault::<Bech32m>("A12UEL5L").unwrap().place(), 8);
    assert_eq!(fault::<NoChecksum>("A12"), None);
    assert_eq!(
        fault::<NoChecksum>(&format!("a1{}", "q".repeat(1022))),
        None
    );
}

#[test]
fn says_which_length_or_remainder_is_at_fault() {
    let long = format!("a1{}", "q".repeat(1022));
    let Err(CheckedHrpstringError::Checksum(ChecksumError::CodeLength(e))) =
        CheckedHrpstring::new::<Bech32>(&long)
    else {
        panic!("the text is too long");
    };
    assert_eq!((e.encoded_length, e.code_length), (1024, 1023));
    let Err(CheckedHrpstringError::Checksum(ChecksumError::InvalidResidue(e))) =
        CheckedHrpstring::new::<Bech32m>("A12UEL5L")
    else {
        panic!("the text is of Bech32");
    };
    assert!(e.matches_bech32_checksum());
    assert_eq!(e.to_string(), "residue p did not match target r9vsu4");
    let address = format!("bc1{}", "q".repeat(88));
    let error = SegwitHrpstring::new(&address).unwrap_err();
    assert_eq!(error, SegwitHrpstringError::TooLong(91));
    let version = SegwitHrpstring::new("bc13qqqqqq").unwrap_err();
    assert_eq!(
        version,
        SegwitHrpstringError::InvalidWitnessVersion(Fe32::_3)
    );
}

#[test]
fn readers_give_the_bytes_that_the_library_gives() {
    for (address, ..) in rows::ADDRESSES {
        let (hrp, version, program) = segwit::decode(address).unwrap();
        let read = SegwitHrpstring::new(address).unwrap();
        assert_eq!((read.hrp(), read.witness_version()), (hrp, version));
        assert!(read.byte_iter().eq(program));
    }
    let texts = rows::BECH32.iter().chain(&rows::BECH32M);
    for text in texts {
        let unchecked = UncheckedHrpstring::new(text).unwrap();
        let (hrp, bytes) = decode(text).unwrap();
        assert_eq!(unchecked.hrp().as_bytes(), hrp.as_bytes());
        let checked = unchecked.remove_checksum::<Bech32>();
        assert_eq!(checked.byte_iter().len(), bytes.len());
        assert!(checked.byte_iter().eq(bytes));
        let letters: String = checked.fe32_iter().map(Fe32::to_char).collect();
        let ascii = checked.data_part_ascii_no_checksum();
        assert_eq!(letters.as_bytes(), ascii.to_ascii_lowercase());
    }
}

#[test]
fn refuses_the_texts_of_the_bips() {
    for (text, wanted) in rows::NOT_BECH32 {
        assert_eq!(
            number(CheckedHrpstring::new::<Bech32>(text)),
            wanted,
            "{text}"
        );
        assert_eq!(number(decode(text)), wanted, "{text}");
    }
    for (text, wanted) in rows::NOT_BECH32M {
        assert_eq!(
            number(CheckedHrpstring::new::<Bech32m>(text)),
            wanted,
            "{text}"
        );
        assert_eq!(number(decode(text)), wanted, "{text}");
    }
}

#[test]
fn reads_and_writes_addresses() {
    for (address, hrp, version, program) in rows::ADDRESSES {
        let (found_hrp, found_version, found) = segwit::decode(address).unwrap();
        assert_eq!((found_hrp.as_str(), found_version.to_u8()), (hrp, version));
        assert_eq!(found, bytes(program), "{address}");
        let text = segwit::encode(found_hrp, found_version, &found).unwrap();
        assert_eq!(text, address.to_lowercase());
    }
    for address in rows::MORE_ADDRESSES {
        let (hrp, version, program) = segwit::decode(address).unwrap();
        assert_eq!(segwit::encode(hrp, version, &program).unwrap(), address);
    }
}

#[test]
fn refuses_what_is_no_address() {
    for (text, wanted) in rows::NOT_ADDRESSES {
        assert_eq!(number(segwit::decode(text)), wanted, "{text}");
    }
    let program = [0; 41];
    for (hrp, version, length, wanted) in [
        ("anhrpthatis18chars", Fe32::P, 40, 0),
        ("anhrpthatis19charsx", Fe32::P, 40, 53),
        ("bc", Fe32::_3, 2, 52),
        ("bc", Fe32::P, 1, 46),
        ("bc", Fe32::P, 41, 47),
        ("bc", Fe32::Q, 2, 48),
        ("bc", Fe32::S, 2, 0),
    ] {
        let text = segwit::encode(part(hrp), version, &program[..length]);
        assert_eq!(number(text), wanted, "{hrp} {version} {length}");
    }
}

#[test]
fn writes_texts() {
    let mut data = bytes("751e76e8199196d454941c45d1b3a323f1433bd6");
    data[0] = 0xff;
    let text = encode::<Bech32>(part("test"), &data).unwrap();
    assert_eq!(text, "test1lu08d6qejxtdg4y5r3zarvary0c5xw7kw79nnx");
    let text = encode::<Bech32m>(part("TEST"), &data).unwrap();
    assert_eq!(text, "test1lu08d6qejxtdg4y5r3zarvary0c5xw7kmz4lky");
    let text = encode_upper::<Bech32>(part("test"), &data).unwrap();
    assert_eq!(text, "TEST1LU08D6QEJXTDG4Y5R3ZARVARY0C5XW7KW79NNX");
    let (hrp, found) = decode(&text).unwrap();
    assert_eq!((hrp, hrp.as_str()), (part("test"), "TEST"));
    assert_eq!(found, data);
}

#[test]
fn fills_the_code() {
    let text = encode::<Bech32m>(part("abcd"), &[0; 632]).unwrap();
    assert_eq!(text.len(), 1023);
    assert_eq!(decode(&text).unwrap(), (part("abcd"), vec![0; 632]));
    let refusal = encode::<Bech32m>(part("abcde"), &[0; 632]).unwrap_err();
    let error =
        EncodeError::TooLong(encoded_length::<Bech32m>(part("abcde"), &[0; 632]).unwrap_err());
    assert_eq!(
        (refusal, Refusal::from(refusal)),
        (error, Refusal::EncodedTooLong)
    );
    let longest = encode::<Bech32>(part("a"), &[0xa5; 634]).unwrap();
    assert_eq!(decode(&longest).unwrap(), (part("a"), vec![0xa5; 634]));
    assert_eq!(number(decode(&format!("a1{}", "q".repeat(1022)))), 31);
    // Of 91 characters, which an address may not have.
    let above_segwit = format!("abcd1{}rw9z3s", "q".repeat(80));
    assert_eq!(number(decode(&above_segwit)), 0);
}

// The texts of the bytes 0xab, twenty times, of the Rust crate's examples.
#[test]
fn reads_and_writes_texts_without_a_checksum() {
    let plain = "abc14w46h2at4w46h2at4w46h2at4w46h2at";
    let text = encode::<NoChecksum>(part("ABC"), &[0xab; 20]).unwrap();
    assert_eq!(text, plain);
    let upper_case = encode_upper::<NoChecksum>(part("abc"), &[0xab; 20]).unwrap();
    assert_eq!(upper_case, plain.to_uppercase());
    for text in [plain, &upper_case] {
        let checked = CheckedHrpstring::new::<NoChecksum>(text).unwrap();
        assert_eq!(checked.hrp(), part("abc"));
        assert!(checked.byte_iter().eq([0xab; 20]));
        assert_eq!(number(decode(text)), 33);
        assert_eq!(number(CheckedHrpstring::new::<Bech32>(text)), 33);
    }
    // Of no length is one too long.
    let long = encode::<NoChecksum>(part("a"), &[0xa5; 2000]).unwrap();
    assert_eq!(
        encoded_length::<NoChecksum>(part("a"), &[0xa5; 2000]),
        Ok(3202)
    );
    assert_eq!(long.len(), 3202);
    let checked = CheckedHrpstring::new::<NoChecksum>(&long).unwrap();
    assert!(checked.byte_iter().eq([0xa5; 2000]));
    for (text, wanted) in [("a1", 0), ("a", 23), ("1q", 11), ("a1b", 21), ("a1Q", 22)] {
        assert_eq!(number(CheckedHrpstring::new::<NoChecksum>(text)), wanted);
    }
    let none = Hrp::parse_unchecked("aB");
    assert!(matches!(
        encode::<NoChecksum>(none, &[]),
        Err(EncodeError::Fmt(_))
    ));
}

#[test]
fn writes_texts_one_element_at_a_time() {
    for (address, hrp, version, program) in rows::ADDRESSES {
        let (hrp, version) = (part(hrp), Fe32::try_from(version).unwrap());
        let elements = bytes(program).into_iter().bytes_to_fes();
        let text: String = if version == Fe32::Q {
            let encoder = elements.with_checksum::<Bech32>(&hrp);
            encoder.with_witness_version(version).chars().collect()
        } else {
            let encoder = elements.with_checksum::<Bech32m>(&hrp);
            encoder.with_witness_version(version).chars().collect()
        };
        assert_eq!(text, address.to_lowercase());
    }
}

// That a checksum's engine ends in its target behind the elements of a text.
fn leaves_its_target<Ck: Checksum<MidstateRepr = u32>>(text: &str) {
    let unchecked = UncheckedHrpstring::new(text).unwrap();
    let mut engine = Engine::<Ck>::default();
    assert_eq!(*engine.residue(), 1);
    engine.input_hrp(unchecked.hrp());
    for character in unchecked.data_part_ascii() {
        engine.input_fe(Fe32::from_char(char::from(*character)).unwrap());
    }
    assert_eq!(*engine.residue(), Ck::TARGET_RESIDUE, "{text}");
}

#[test]
fn engines_end_in_their_targets() {
    rows::BECH32
        .iter()
        .for_each(|text| leaves_its_target::<Bech32>(text));
    rows::BECH32M
        .iter()
        .for_each(|text| leaves_its_target::<Bech32m>(text));
    assert_eq!(
        (Bech32::TARGET_RESIDUE, Bech32m::TARGET_RESIDUE),
        (1, 0x2bc8_30a3)
    );
}

// The hash of a part.
fn hash(hrp: &Hrp) -> u64 {
    let mut hasher = DefaultHasher::new();
    hrp.hash(&mut hasher);
    hasher.finish()
}

#[test]
fn reads_human_readable_parts() {
    for (text, wanted) in rows::PARTS {
        assert_eq!(number(Hrp::parse(text)), wanted, "{text}");
    }
    for (known, text) in [(hrp::BC, "bc"), (hrp::TB, "tb"), (hrp::BCRT, "bcrt")] {
        let upper_case = part(&text.to_uppercase());
        assert_eq!((known, known.as_str()), (upper_case, text));
        assert_eq!(hash(&known), hash(&upper_case));
        assert_eq!(upper_case.to_lowercase(), text);
        assert_eq!(upper_case.to_string(), text.to_uppercase());
    }
    assert!(part("A") < part("b") && part("a") < part("AB"));
    assert_eq!(number(Hrp::parse(&"a".repeat(83))), 0);
    assert_eq!(number(Hrp::parse(&"a".repeat(84))), 12);
}

#[test]
fn names_elements() {
    let characters: String = (0..32)
        .map(|v| Fe32::try_from(v).unwrap().to_char())
        .collect();
    assert_eq!(characters, "qpzry9x8gf2tvdw0s3jn54khce6mua7l");
    assert_eq!(number(Fe32::try_from(32)), 4);
    for (constant, character) in [
        (Fe32::Q, 'q'),
        (Fe32::_9, '9'),
        (Fe32::_0, '0'),
        (Fe32::L, 'l'),
    ] {
        assert_eq!(constant.to_char(), character);
    }
}

// The name of a refusal in the header: `HrpEmpty` is `BECH32_HRP_EMPTY` there.
fn name(refusal: &Refusal) -> String {
    let capital = |c: char| {
        [
            c.is_uppercase().then_some('_'),
            Some(c.to_ascii_uppercase()),
        ]
    };
    let words: String = format!("{refusal:?}")
        .chars()
        .flat_map(capital)
        .flatten()
        .collect();
    format!("BECH32{words}")
}

#[test]
fn has_the_numbers_of_the_header() {
    let (_, behind) = HEADER.split_once("/* Return values. */").unwrap();
    let (answers, _) = behind.split_once("\n\n").unwrap();
    let defined = answers.lines().filter_map(|line| {
        let mut words = line.strip_prefix("#define ")?.split_whitespace();
        let name = words.next()?.to_owned();
        let number: u32 = words.next()?.strip_suffix('u')?.parse().ok()?;
        Some((number, name))
    });
    let defined: Vec<(u32, String)> = defined.filter(|(number, _)| *number > 0).collect();
    let has_correction = defined.iter().any(|(number, _)| *number == 34);
    assert!(has_correction || !cfg!(feature = "correct"));
    let known = Refusal::ALL
        .iter()
        .map(|refusal| (refusal.number(), name(refusal)));
    let of_corrections = [34, 91];
    let known: Vec<(u32, String)> = known
        .filter(|(n, _)| has_correction || !of_corrections.contains(n))
        .collect();
    assert_eq!(known, defined);
    for refusal in Refusal::ALL {
        assert_eq!(Refusal::from_number(refusal.number()), Some(*refusal));
    }
    assert_eq!(Refusal::from_number(0), None);
}

#[cfg(feature = "correct")]
mod corrections {
    use super::{number, rows};
    use bech32_proved::primitives::decode::CheckedHrpstring;
    use bech32_proved::{
        correct, encode, near_edits, nearest, Bech32, Bech32m, Change, CorrectingChecksum,
        Correction, Edit, Fe32, Hrp, Refusal,
    };

    // A text with two wrong characters, what is added to it, and the one near text, by Bech32.
    type Near = (&'static str, &'static [(usize, u8)], &'static str);

    const NEAR: [Near; 2] = [
        (
            "bc1qar0srrr7xfkvy5l64qlydnw9re59gtzzwf5mdx",
            &[(0, 6), (20, 17)],
            "bc1qar0srrr7xfkvy5l643lydnw9re59gtzzwf5mdq",
        ),
        (
            "bc1qqq08d6qejxtdg4y5r3zarvary0c5xw7kv8f3t4",
            &[(37, 14), (36, 20)],
            "bc1qw508d6qejxtdg4y5r3zarvary0c5xw7kv8f3t4",
        ),
    ];

    // A text and the listing of a correction.
    fn parts(correction: &Correction) -> (&str, Vec<(usize, u8)>) {
        let errors = correction.bch_errors();
        let errors = errors.map(|(l, v)| (l, v.to_u8())).collect();
        (correction.as_str(), errors)
    }

    #[test]
    fn mends_texts() {
        for (text, erasures, listed, mended) in rows::CORRECTIONS {
            let correction = correct::<Bech32>(text, erasures);
            let Some(mended) = mended else {
                assert_eq!(number(correction), 34);
                continue;
            };
            let correction = correction.unwrap();
            assert_eq!(parts(&correction), (mended, listed.to_vec()));
            let changes = correction.changes();
            assert!(changes.windows(2).all(|it| it[0].place < it[1].place));
            assert_eq!(changes.len(), listed.len());
            for (location, value) in listed {
                let place = text.len() - 1 - location;
                let [from, to] = [text, mended].map(|it| char::from(it.as_bytes()[place]));
                assert!(changes.contains(&Change { place, from, to }));
                let sum = Fe32::from_char(from).unwrap() + Fe32::try_from(*value).unwrap();
                assert_eq!(sum, Fe32::from_char(to).unwrap());
            }
        }
    }

    #[test]
    fn changes_are_places_and_characters() {
        let (text, _, near) = NEAR[0];
        for (text, near, wanted) in [
            (
                text.to_owned(),
                near.to_owned(),
                ["character 22: q becomes 3", "character 42: x becomes q"],
            ),
            (
                text.to_uppercase(),
                near.to_uppercase(),
                ["character 22: Q becomes 3", "character 42: X becomes Q"],
            ),
        ] {
            let found = nearest::<Bech32>(&text, &[], 2).unwrap();
            let changes = found[0].changes();
            let words: Vec<String> = changes.iter().map(Change::to_string).collect();
            assert_eq!(words, wanted);
            assert_eq!(found[0].as_str(), near);
        }
        let known = nearest::<Bech32>("a12uel5l", &[2], 0).unwrap();
        assert_eq!(known[0].changes()[0].to_string(), "character 6: l stays");
    }

    #[test]
    fn leaves_accepted_texts() {
        let correction = correct::<Bech32m>("A1LQFN3A", &[0, 1, 2]).unwrap();
        assert_eq!(correction.as_str(), "A1LQFN3A");
        assert_eq!(correction.bch_errors().count(), 0);
    }

    // Whoever types upper case gets upper case: age refuses a secret key in lower case.
    #[test]
    fn keeps_the_case() {
        let part = Hrp::parse("age-secret-key-").unwrap();
        let lower = encode::<Bech32>(part, &[0x5a; 32]).unwrap();
        for key in [lower.clone(), lower.to_uppercase()] {
            assert!(key == lower || key.starts_with("AGE-SECRET-KEY-1"));
            let in_case = |c: char| {
                if key == lower {
                    c
                } else {
                    c.to_ascii_uppercase()
                }
            };
            let to = key.chars().nth(40).unwrap();
            let from = ['q', 'p'].map(in_case).into_iter().find(|c| *c != to);
            let from = from.unwrap();
            let (front, behind) = (&key[..40], &key[41..]);
            let one = format!("{front}{from}{behind}");
            let correction = correct::<Bech32>(&one, &[]).unwrap();
            assert_eq!(correction.as_str(), key);
            let place = 40;
            assert_eq!(correction.changes(), [Change { place, from, to }]);
            assert_eq!(nearest::<Bech32>(&one, &[], 2), Ok(vec![correction]));
            let missing = format!("{front}{behind}");
            let found = near_edits::<Bech32>(&missing).unwrap();
            assert_eq!((found.len(), found[0].as_str()), (1, key.as_str()));
            let Edit::PutIn { character, .. } = found[0].edit() else {
                panic!("a character is missing");
            };
            assert_eq!(character, to);
        }
        // A text without letters is mended in lower case.
        let digits = format!("01{}", "2".repeat(12));
        let found = nearest::<Bech32>(&digits, &[0, 1, 2], 2).unwrap();
        assert!(!found.is_empty());
        for near in found {
            assert_eq!(near.as_str(), near.as_str().to_lowercase());
        }
    }

    #[test]
    fn refuses_to_guess() {
        for (text, erasures, wanted) in [
            ("b12uel5l", [].as_slice(), 34),
            ("a12uel5q", &[1, 2], 34),
            ("a12uel5q", &[0, 1, 2, 3], 34),
            ("a12uel5q", &[6], 34),
            ("a12uel5q", &[3, 3], 0),
            ("a12ueL5q", &[], 22),
            ("a12uel5", &[], 32),
        ] {
            assert_eq!(
                number(correct::<Bech32>(text, erasures)),
                wanted,
                "{text} {erasures:?}"
            );
        }
    }

    // Where there is one correction, it is the one near text.
    #[test]
    fn near_texts_of_few_errors() {
        for (text, erasures, _, mended) in rows::CORRECTIONS {
            let errors = (3 - erasures.len()) / 2;
            let found = nearest::<Bech32>(text, erasures, errors).unwrap();
            let wanted = correct::<Bech32>(text, erasures).ok();
            assert_eq!(wanted.is_some(), mended.is_some());
            assert_eq!(found, Vec::from_iter(wanted), "{text} {erasures:?}");
        }
    }

    #[test]
    fn near_texts_of_two_errors() {
        for (text, listed, near) in NEAR {
            let found = nearest::<Bech32>(text, &[], 2).unwrap();
            let found: Vec<_> = found.iter().map(parts).collect();
            assert_eq!(found, [(near, listed.to_vec())]);
            let upper_case = text.to_uppercase();
            let again = nearest::<Bech32>(&upper_case, &[], 2).unwrap();
            let again: Vec<_> = again.iter().map(parts).collect();
            assert_eq!(again, [(near.to_uppercase().as_str(), listed.to_vec())]);
            assert_eq!(nearest::<Bech32>(text, &[], 1), Ok(vec![]));
        }
    }

    // An accepted text is the first of its own list.
    fn is_first<Ck: CorrectingChecksum>(text: &str) {
        let alone = nearest::<Ck>(text, &[], 0).unwrap();
        assert!(alone.iter().map(parts).eq([(text, vec![])]));
        let known = nearest::<Ck>(text, &[1, 0, 1], 0).unwrap();
        let zeros = vec![(1, 0), (0, 0)];
        assert!(known.iter().map(parts).eq([(text, zeros)]));
        let found = nearest::<Ck>(text, &[], 2).unwrap();
        assert_eq!(found.first(), alone.first());
        assert!(found.len() == 1 || text.len() > 89);
    }

    #[test]
    fn accepted_texts_are_first() {
        rows::BECH32
            .iter()
            .for_each(|text| is_first::<Bech32>(text));
        rows::BECH32M
            .iter()
            .for_each(|text| is_first::<Bech32m>(text));
    }

    #[test]
    fn near_texts_in_their_order() {
        let text = format!("a1{}", "z".repeat(1021));
        let found = nearest::<Bech32>(&text, &[], 2).unwrap();
        let listed: Vec<_> = found.iter().map(|near| parts(near).1).collect();
        assert_eq!(listed, [[(597, 28), (91, 7)], [(737, 28), (184, 1)]]);
        for near in &found {
            assert_eq!(number(CheckedHrpstring::new::<Bech32>(near.as_str())), 0);
        }
        let found = nearest::<Bech32>("split1checkupstagehan", &[3, 8, 1], 2).unwrap();
        let texts: Vec<&str> = found.iter().map(Correction::as_str).collect();
        assert_eq!(
            texts,
            [
                "split1checkuysyvg6h8n",
                "split1czecku5stag5hnn",
                "split15hecku0atag7hzn"
            ]
        );
    }

    #[test]
    fn near_texts_that_are_none() {
        for (text, erasures, errors, wanted) in [
            ("b12uel5l", [].as_slice(), 2, Ok(0)),
            ("a12uel5l", &[6], 0, Ok(0)),
            ("a12uel5l", &[usize::MAX], 2, Ok(0)),
            ("a12uel5l", &[0, 1, 2, 3], 2, Ok(0)),
            ("a12uel5l", &[3, 3, 3, 3], 0, Ok(1)),
            ("a12qqq5l", &[4, 3, 2], 0, Ok(1)),
            ("a12ueL5q", &[], 3, Err(Refusal::BadNumber)),
            ("a12uel5l", &[], usize::MAX, Err(Refusal::BadNumber)),
            ("a12ueL5q", &[], 2, Err(Refusal::MixedCase)),
            ("a12uel5", &[], 0, Err(Refusal::NoChecksum)),
            ("", &[], 2, Err(Refusal::NoSeparator)),
        ] {
            let found = nearest::<Bech32>(text, erasures, errors);
            let count = found.map(|found| found.len());
            assert_eq!(count, wanted, "{text} {erasures:?} {errors}");
        }
    }
}

#[cfg(feature = "correct")]
mod edits {
    use super::number;
    use bech32_proved::primitives::decode::CheckedHrpstring;
    use bech32_proved::{near_edits, Bech32, Bech32m, CorrectingChecksum, Edit, NearEdit, Refusal};

    // A checksum, a mistyped text, and the texts that one edit makes of it with these edits (`-`: none), as two
    // independent models found them.
    const ROWS: &str = include_str!("edits.tsv");

    const ADDRESS: &str = "bc1qw508d6qejxtdg4y5r3zarvary0c5xw7kv8f3t4";

    // A text with its edit as the rows have it, which count from the end and are in lower case.
    fn row(near: &NearEdit, length: usize) -> String {
        let text = near.as_str();
        let row = match near.edit() {
            Edit::Swapped {
                place,
                first,
                second,
            } => format!("{text},x{}:{first}{second}", length - 2 - place),
            Edit::LeftOut { place, character } => {
                format!("{text},-{}:{character}", length - 1 - place)
            }
            Edit::PutIn { place, character } => format!("{text},+{}:{character}", length - place),
        };
        row.to_lowercase()
    }

    fn rows<Ck: CorrectingChecksum>(text: &str) -> String {
        let found = near_edits::<Ck>(text).unwrap();
        for near in &found {
            assert_eq!(number(CheckedHrpstring::new::<Ck>(near.as_str())), 0);
        }
        let rows: Vec<String> = found.iter().map(|near| row(near, text.len())).collect();
        if rows.is_empty() {
            "-".to_owned()
        } else {
            rows.join(" ")
        }
    }

    #[test]
    fn the_texts_of_one_edit() {
        let mut count = 0;
        for line in ROWS.lines() {
            let parts: Vec<&str> = line.split('\t').collect();
            let found = match parts[0] {
                "Bech32" => rows::<Bech32>(parts[1]),
                _ => rows::<Bech32m>(parts[1]),
            };
            assert_eq!(found, parts[2], "{line}");
            count += 1;
        }
        assert_eq!(count, 51);
    }

    // What is said of the one edit that makes the address, in the case of a text, of this text.
    fn said(text: &str) -> String {
        let found = near_edits::<Bech32>(text).unwrap();
        let address = match text.starts_with('B') {
            true => ADDRESS.to_uppercase(),
            false => ADDRESS.to_owned(),
        };
        assert_eq!((found.len(), found[0].as_str()), (1, address.as_str()));
        found[0].edit().to_string()
    }

    #[test]
    fn edits_are_places_and_characters() {
        for (place, c) in ADDRESS.char_indices().skip(3) {
            let (front, behind) = ADDRESS.split_at(place);
            let (number, rest) = (place + 1, &behind[1..]);
            // Of a run of the same the last one is named.
            let next = rest.starts_with(c) || front.ends_with(c);
            let put_in = said(&format!("{front}{rest}"));
            let left_out = said(&format!("{front}{c}{behind}").to_uppercase());
            if !next {
                assert_eq!(put_in, format!("character {number}: {c} is put in"));
                let upper_case = c.to_ascii_uppercase();
                assert_eq!(
                    left_out,
                    format!("character {}: {upper_case} is left out", number + 1)
                );
            }
            let Some(other) = rest.chars().next().filter(|it| *it != c) else {
                continue;
            };
            let swapped = said(&format!("{front}{other}{c}{}", &rest[1..]));
            let (one, two) = (number, number + 1);
            assert_eq!(
                swapped,
                format!("characters {one} and {two}: {other} and {c} are swapped")
            );
        }
    }

    #[test]
    fn texts_of_any_length_in_the_grammar() {
        for (text, wanted) in [
            ("a12uel5", Ok(1)),
            ("bc1", Ok(0)),
            (ADDRESS, Ok(0)),
            ("", Err(Refusal::NoSeparator)),
            ("bc1b", Err(Refusal::InvalidCharacter)),
            ("bC1q", Err(Refusal::MixedCase)),
            ("1qqqqqq", Err(Refusal::HrpEmpty)),
            ("é1qqqqqq", Err(Refusal::HrpNotAscii)),
        ] {
            let count = near_edits::<Bech32>(text).map(|found| found.len());
            assert_eq!(count, wanted, "{text}");
        }
        let long = format!("a1{}", "q".repeat(100_000));
        assert_eq!(near_edits::<Bech32m>(&long), Ok(vec![]));
    }
}
