//! Elements, texts that are the only ones of their bytes, and long texts.

use bech32_proved::primitives::decode::{CheckedHrpstring, PaddingError};
use bech32_proved::{
    decode, decode_elements, decode_strict, encode, encode_elements, Bech32, Bech32m, Checksum,
    EncodeError, Fe32, Hrp, LongBech32, LongBech32m, NoChecksum, Refusal, TextError, ALPHABET,
};

fn part() -> Hrp {
    Hrp::parse("a").unwrap()
}

fn element(value: usize) -> Fe32 {
    Fe32::try_from(value as u8 % 32).unwrap()
}

fn elements_of_each_number<Ck: Checksum>() {
    for length in [0, 1, 2, 3, 31, 32, 1015] {
        let elements: Vec<Fe32> = (0..length).map(element).collect();
        let text = encode_elements::<Ck>(part(), &elements).unwrap();
        let shown: String = elements.iter().map(|e| e.to_char()).collect();
        assert_eq!(&text[2..2 + length], shown);
        assert_eq!(decode_elements::<Ck>(&text), Ok((part(), elements.clone())));
        let checked = CheckedHrpstring::new::<Ck>(&text).unwrap();
        assert!(checked.fe32_iter().eq(elements));
    }
}

#[test]
fn reads_and_writes_elements() {
    elements_of_each_number::<Bech32>();
    elements_of_each_number::<Bech32m>();
    elements_of_each_number::<LongBech32>();
    elements_of_each_number::<LongBech32m>();
    elements_of_each_number::<NoChecksum>();
    assert_eq!(ALPHABET.len(), 32);
    let too_many = [Fe32::Q; 1016];
    assert!(matches!(
        encode_elements::<Bech32>(part(), &too_many),
        Err(EncodeError::TooLong(e)) if (e.encoded_length, e.code_length) == (1024, 1023)
    ));
    assert!(encode_elements::<LongBech32>(part(), &[Fe32::L; 7081]).is_ok());
    assert!(encode_elements::<LongBech32m>(part(), &[Fe32::L; 7082]).is_err());
}

// An address of silent payments (BIP-352): its version, and 66 bytes.
const PAYMENTS: &str = "sp1qqgste7k9hx0qftg6qmwlkqtwuy6cycyavzmzj85c6qdfhjdpdjtdgqjuexzk6murw56suy3e0rd2cgqvycxttddwsvgxe2usfpxumr70xc9pkqwv";

#[test]
fn reads_an_address_of_silent_payments() {
    let (hrp, elements) = decode_elements::<Bech32m>(PAYMENTS).unwrap();
    assert_eq!(
        (hrp.as_str(), elements[0], elements.len()),
        ("sp", Fe32::Q, 107)
    );
    assert_eq!(
        encode_elements::<Bech32m>(hrp, &elements).unwrap(),
        PAYMENTS
    );
}

fn one_spelling<Ck: Checksum>() {
    for size in 0..12 {
        let data: Vec<u8> = (200..200 + size).collect();
        let right = encode::<Ck>(part(), &data).unwrap();
        assert_eq!(decode_strict::<Ck>(&right), Ok((part(), data.clone())));
        let (_, elements) = decode_elements::<Ck>(&right).unwrap();
        let free = 5 * elements.len() - 8 * data.len();
        for more in 1..1 << free {
            let mut other = elements.clone();
            *other.last_mut().unwrap() = *other.last().unwrap() + element(more);
            let text = encode_elements::<Ck>(part(), &other).unwrap();
            let error = TextError::Padding(PaddingError::NonZero);
            assert_eq!(decode_strict::<Ck>(&text), Err(error));
            assert_eq!(Refusal::from(error), Refusal::PaddingNotZero);
        }
        if free <= 2 {
            let other = [elements.as_slice(), &[Fe32::Q]].concat();
            let text = encode_elements::<Ck>(part(), &other).unwrap();
            let error = TextError::Padding(PaddingError::TooMuch);
            assert_eq!(decode_strict::<Ck>(&text), Err(error));
            assert_eq!(Refusal::from(error), Refusal::PaddingTooLong);
        }
    }
}

#[test]
fn decodes_one_spelling() {
    one_spelling::<Bech32>();
    one_spelling::<Bech32m>();
    one_spelling::<LongBech32>();
    one_spelling::<LongBech32m>();
    one_spelling::<NoChecksum>();
    for text in ["a12uel5q", "a12uelbl", "a12uEL5l", "1qqqqqq", "", "a1qqqqq"] {
        let wanted = CheckedHrpstring::new::<Bech32>(text).unwrap_err();
        assert_eq!(decode_strict::<Bech32>(text), Err(wanted.into()));
        assert_eq!(decode_elements::<Bech32>(text), Err(wanted));
    }
}

fn long_texts<Ck: Checksum, Short: Checksum>() {
    for size in [0, 634, 635, 1000, 4425] {
        let data: Vec<u8> = (0..size).map(|n| (n % 251) as u8).collect();
        let text = encode::<Ck>(part(), &data).unwrap();
        assert_eq!(decode_strict::<Ck>(&text), Ok((part(), data.clone())));
        if text.len() <= 1023 {
            assert_eq!(encode::<Short>(part(), &data), Ok(text));
        } else {
            let refused = CheckedHrpstring::new::<Short>(&text).unwrap_err();
            assert_eq!(Refusal::from(refused), Refusal::TextTooLong);
            assert_eq!(
                Refusal::from(decode(&text).unwrap_err()),
                Refusal::TextTooLong
            );
        }
    }
    assert!(encode::<Ck>(part(), &[0; 4426]).is_err());
    let refused = CheckedHrpstring::new::<Ck>(&format!("a1{}", "q".repeat(7088))).unwrap_err();
    assert_eq!(Refusal::from(refused), Refusal::TextTooLong);
    let refused = CheckedHrpstring::new::<Ck>(&format!("a1{}", "q".repeat(7087))).unwrap_err();
    assert_eq!(Refusal::from(refused), Refusal::WrongChecksum);
}

#[test]
fn reads_and_writes_long_texts() {
    long_texts::<LongBech32, Bech32>();
    long_texts::<LongBech32m, Bech32m>();
}
