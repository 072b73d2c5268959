//! A wallet's use of the crate bech32 0.12.0: addresses read, explained and written anew, an invoice, and
//! an offer, which has no checksum.

use bech32::primitives::checksum::Engine;
use bech32::primitives::decode::{CheckedHrpstring, ChecksumError, SegwitHrpstringError};
use bech32::{hrp, segwit, Bech32, Bech32m, Checksum, Fe32, Hrp, NoChecksum};
use bech32::{ByteIterExt, Fe32IterExt};
use std::error::Error;

const PASTED: [&str; 8] = [
    "BC1QW508D6QEJXTDG4Y5R3ZARVARY0C5XW7KV8F3T4",
    "tb1pqqqqp399et2xygdj5xreqhjjvcmzhxw4aywxecjdzew6hylgvsesf3hn0c",
    "tb1q0xlxvlhemja6c4dqv22uapctqupfhlxm9h8z3k2e72q4k9hcz7vq24jc47",
    "bc1p0xlxvlhemja6c4dqv22uapctqupfhlxm9h8z3k2e72q4k9hcz7vqh2y7hd",
    "bc1p38j9r5y49hruaue7wxjce0updqjuyyx0kh56v8s25huc6995vvpql3jow4",
    "bc1p0xlxvlhemja6c4dqv22uapctqupfhlxm9h8z3k2e72q4k9hcz7v07qwwzcrf",
    "BC130XLXVLHEMJA6C4DQV22UAPCTQUPFHLXM9H8Z3K2E72Q4K9HCZ7VQ7ZWS8R",
    "Bc1qw508d6qejxtdg4y5r3zarvary0c5xw7kv8f3t4",
];

fn explained(error: &dyn Error) -> String {
    match error.source() {
        None => error.to_string(),
        Some(cause) => format!("{error}: {}", explained(cause)),
    }
}

fn written<Ck: Checksum>(part: &Hrp, version: Fe32, program: &[u8]) -> String {
    let elements = program.iter().copied().bytes_to_fes();
    let encoder = elements.with_checksum::<Ck>(part);
    encoder.with_witness_version(version).chars().collect()
}

fn read(text: &str) -> Result<(), Box<dyn Error>> {
    let (part, version, program) = match segwit::decode(text) {
        Ok(parts) => parts,
        Err(error) => {
            println!("{text}: {}", explained(&error));
            if let SegwitHrpstringError::Checksum(ChecksumError::InvalidResidue(e)) = error.0 {
                println!("that of Bech32: {}", e.matches_bech32_checksum());
            }
            return Ok(());
        }
    };
    let networks = [part == hrp::BC, part.is_valid_on_testnet()];
    println!("{part} {networks:?} {version} {program:02x?}");
    let anew = match version {
        segwit::VERSION_0 => written::<Bech32>(&part, version, &program),
        _ => written::<Bech32m>(&part, version, &program),
    };
    println!("{anew} {}", segwit::encode(hrp::BCRT, version, &program)?);
    let mut code = String::from("bitcoin:");
    segwit::encode_upper_to_fmt_unchecked(&mut code, part, version, &program)?;
    println!("{code}");
    Ok(())
}

fn main() -> Result<(), Box<dyn Error>> {
    PASTED.iter().try_for_each(|text| read(text))?;
    let invoice = bech32::encode::<Bech32>(Hrp::parse("lnbc2500u")?, &[0x5a; 70])?;
    let checked = CheckedHrpstring::new::<Bech32>(&invoice)?;
    println!("{invoice} {}", checked.fe32_iter().count());
    let offer = bech32::encode_upper::<NoChecksum>(Hrp::parse("lno")?, &[0x0a; 9])?;
    let plain = CheckedHrpstring::new::<NoChecksum>(&offer)?;
    println!("{offer} {:?}", plain.byte_iter().collect::<Vec<u8>>());
    let mut engine = Engine::<Bech32>::new();
    engine.input_hrp(hrp::BC);
    let mut sum = Fe32::Q;
    for character in PASTED[0][3..].chars() {
        engine.input_fe(Fe32::from_char(character)?);
        sum += Fe32::from_char(character)?;
    }
    println!("{} {sum}", *engine.residue() == Bech32::TARGET_RESIDUE);
    for part in ["", "Bc", "b c", "b\u{e9}"] {
        println!("{part}: {}", explained(&Hrp::parse(part).unwrap_err()));
    }
    println!(
        "{}",
        explained(&segwit::encode_v0(hrp::TB, &[1; 21]).unwrap_err())
    );
    Ok(())
}
