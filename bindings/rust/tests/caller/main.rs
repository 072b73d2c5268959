//! A caller that was written for the Rust crate bech32 0.12.0, with another `use`.

use bech32_proved as bech32;

mod address;

use address::{Address, KnownHrp, ParseError, UnknownHrpError};
use bech32_proved::primitives::decode::{
    CharError, ChecksumError, SegwitHrpstringError, UncheckedHrpstringError,
};
use bech32_proved::{segwit, Fe32, Hrp, Refusal};
use std::error::Error;

// Of BIP-173 and BIP-350.
const MAINNET: &str = "bc1qw508d6qejxtdg4y5r3zarvary0c5xw7kv8f3t4";
const TAPROOT: &str = "tb1pqqqqp399et2xygdj5xreqhjjvcmzhxw4aywxecjdzew6hylgvsesf3hn0c";

// An error with its causes.
fn words(error: &dyn Error) -> String {
    match error.source() {
        None => error.to_string(),
        Some(cause) => format!("{error}: {}", words(cause)),
    }
}

#[test]
fn parses_and_displays() {
    let address: Address = MAINNET.to_uppercase().parse().unwrap();
    assert_eq!(
        (address.hrp, address.program.len()),
        (KnownHrp::Mainnet, 20)
    );
    assert_eq!(address.to_string(), MAINNET);
    assert_eq!(
        address.to_qr_uri(),
        format!("bitcoin:{}", MAINNET.to_uppercase())
    );
    let address: Address = TAPROOT.parse().unwrap();
    assert_eq!(
        (address.hrp, Fe32::from(address.version)),
        (KnownHrp::Testnets, Fe32::P)
    );
    assert_eq!(address.to_string(), TAPROOT);
}

#[test]
fn says_why_a_text_is_no_address() {
    let error = "bc1qw508d6qejxtdg4y5r3zarvary0c5xw7kv8f3t5"
        .parse::<Address>()
        .unwrap_err();
    assert!(
        words(&error).starts_with("bech32 error: decoding segwit address failed: invalid checksum")
    );
    let error = "bc1qw508d6qejxtdg4y5r3zarvary0c5xw7kv8b3t4"
        .parse::<Address>()
        .unwrap_err();
    let ParseError::Bech32(cause) = &error else {
        panic!("{error}");
    };
    let unchecked = UncheckedHrpstringError::Char(CharError::InvalidChar('b'));
    assert_eq!(cause.0, SegwitHrpstringError::Unchecked(unchecked));
    assert_eq!(Refusal::from(*cause).number(), 21);
    let of_no_network = segwit::encode_v0(Hrp::parse("an").unwrap(), &[0; 20]).unwrap();
    let unknown = ParseError::UnknownHrp(UnknownHrpError("an".to_owned()));
    assert_eq!(of_no_network.parse::<Address>(), Err(unknown));
}

#[test]
fn looks_at_parts() {
    assert_eq!(Address::network_of("BCRT1!"), None);
    assert_eq!(Address::network_of("BCRT1Q"), Some(KnownHrp::Regtest));
    // Of BIP-350: version 0 with the checksum of the others, and version 1 with that of version 0.
    for text in [
        "tb1q0xlxvlhemja6c4dqv22uapctqupfhlxm9h8z3k2e72q4k9hcz7vq24jc47",
        "bc1p0xlxvlhemja6c4dqv22uapctqupfhlxm9h8z3k2e72q4k9hcz7vqh2y7hd",
    ] {
        let Err(ParseError::Bech32(error)) = text.parse::<Address>() else {
            panic!("{text}");
        };
        let SegwitHrpstringError::Checksum(ChecksumError::InvalidResidue(residue)) = error.0 else {
            panic!("{text}: {error}");
        };
        assert_eq!(residue.matches_bech32_checksum(), text.starts_with("bc"));
        assert!(Address::has_checksum_of_other_version(text), "{text}");
    }
    assert!(!Address::has_checksum_of_other_version(MAINNET));
    assert_eq!(Address::elements("a12uel5l"), Some(vec![]));
    assert_eq!(
        Address::elements("abcdef1qpzry9x8gf2tvdw0s3jn54khce6mua7lmqqqxw")
            .unwrap()
            .len(),
        32
    );
    assert_eq!(Address::elements("a1lqfn3a"), None);
}
