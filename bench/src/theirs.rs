//! The same calls of the Rust crate.

use crate::calls::{BECH32, BECH32M};
use crate::Reply;
use bech32::primitives::checksum::Engine;
use bech32::primitives::correction::CorrectableError;
use bech32::primitives::decode::{CheckedHrpstring, CheckedHrpstringError};
use bech32::{segwit, Bech32, Bech32m, Checksum, Fe32, Hrp};
use std::hint::black_box;

pub fn residue(checksum: u32, values: &[Fe32]) -> u32 {
    match checksum {
        BECH32 => {
            let mut engine = Engine::<Bech32>::new();
            values.iter().for_each(|fe| engine.input_fe(*fe));
            *engine.residue()
        }
        _ => {
            let mut engine = Engine::<Bech32m>::new();
            values.iter().for_each(|fe| engine.input_fe(*fe));
            *engine.residue()
        }
    }
}

/// Writes the text of this many bytes in each call, to a new string or to a new byte vector, and says
/// how many bytes were written.
pub fn written(kind: &str, size: usize, calls: usize) -> usize {
    let hrp = Hrp::parse("abcd").unwrap();
    let data = [0xa5; 632];
    let mut written = 0;
    for _ in 0..calls {
        let data = black_box(&data[..size]);
        written += match kind {
            "fmt" => {
                let mut text = String::new();
                bech32::encode_to_fmt::<Bech32m, String>(&mut text, hrp, data).unwrap();
                black_box(text).len()
            }
            _ => {
                let mut bytes = Vec::new();
                bech32::encode_to_writer::<Bech32m, Vec<u8>>(&mut bytes, hrp, data).unwrap();
                black_box(bytes).len()
            }
        };
    }
    written
}

/// What the crate lists for a refused text, and the text with it added.
pub struct Correction {
    pub listing: Vec<(usize, Fe32)>,
    pub mended: String,
}

// The text in lower case with the listed elements added to its data part, where all stand in it.
fn mended(text: &str, listing: &[(usize, Fe32)]) -> Option<String> {
    let mut bytes = text.to_ascii_lowercase().into_bytes();
    let data = bytes.len() - bytes.iter().rposition(|b| *b == b'1')? - 1;
    for (place, value) in listing {
        if *place >= data {
            return None;
        }
        let at = bytes.len() - 1 - place;
        let element = Fe32::from_char(char::from(bytes[at])).ok()?;
        bytes[at] = (element + *value).to_char() as u8;
    }
    String::from_utf8(bytes).ok()
}

/// What the crate corrects in a text that is refused by this error.
pub fn correct<Ck: Checksum>(
    error: &CheckedHrpstringError,
    text: &str,
    erasures: &[usize],
) -> Option<Correction> {
    let mut corrector = error.correction_context::<Ck>()?;
    corrector.add_erasures(erasures);
    let listing: Vec<(usize, Fe32)> = corrector.bch_errors()?.collect();
    let mended = mended(text, &listing)?;
    Some(Correction { listing, mended })
}

/// What the calls say of a text or of bytes, in words that both sides share.
pub mod replies {
    use super::*;
    use crate::numbers;

    fn parsed(hrp: &str) -> Result<Hrp, u32> {
        Hrp::parse(hrp).map_err(|e| numbers::hrp(&e))
    }

    fn element<T>(number: T) -> Result<Fe32, u32>
    where
        Fe32: TryFrom<T>,
    {
        Fe32::try_from(number).map_err(|_| numbers::BAD_NUMBER)
    }

    pub fn encode(checksum: u32, hrp: &str, bytes: &[u8]) -> Reply {
        let hrp = parsed(hrp)?;
        let text = match checksum {
            BECH32 => bech32::encode::<Bech32>(hrp, bytes),
            BECH32M => bech32::encode::<Bech32m>(hrp, bytes),
            _ => return Err(numbers::BAD_NUMBER),
        };
        text.map(|t| vec![t.into_bytes()])
            .map_err(|e| numbers::encode(&e))
    }

    pub fn decode(text: &str) -> Reply {
        bech32::decode(text)
            .map(|(hrp, bytes)| vec![hrp.as_bytes().to_vec(), bytes])
            .map_err(|e| numbers::decode(&e))
    }

    pub fn check(checksum: u32, text: &str) -> Reply {
        let checked = match checksum {
            BECH32 => CheckedHrpstring::new::<Bech32>(text),
            BECH32M => CheckedHrpstring::new::<Bech32m>(text),
            _ => return Err(numbers::BAD_NUMBER),
        };
        checked
            .map(|c| {
                vec![
                    c.hrp().as_bytes().to_vec(),
                    c.data_part_ascii_no_checksum().to_vec(),
                ]
            })
            .map_err(|e| numbers::checked(&e))
    }

    pub fn segwit_encode(hrp: &str, version: u32, program: &[u8]) -> Reply {
        let version = element(version)?;
        segwit::encode(parsed(hrp)?, version, program)
            .map(|t| vec![t.into_bytes()])
            .map_err(|e| numbers::segwit_encode(&e))
    }

    pub fn segwit_decode(text: &str) -> Reply {
        segwit::decode(text)
            .map(|(hrp, version, program)| {
                vec![hrp.as_bytes().to_vec(), vec![version.to_u8()], program]
            })
            .map_err(|e| numbers::address(&e.0))
    }

    fn corrected<Ck: Checksum>(text: &str, erasures: &[usize]) -> Reply {
        let error = match CheckedHrpstring::new::<Ck>(text) {
            Ok(_) => return Ok(vec![vec![], text.to_ascii_lowercase().into_bytes()]),
            Err(error) => error,
        };
        let number = numbers::checked(&error);
        if number != numbers::WRONG_CHECKSUM {
            return Err(number);
        }
        // The crate may list what does not mend, or panic, of which nothing is printed.
        let shown = std::panic::take_hook();
        std::panic::set_hook(Box::new(|_| {}));
        let found = std::panic::catch_unwind(|| super::correct::<Ck>(&error, text, erasures));
        std::panic::set_hook(shown);
        let found = found.ok().flatten().ok_or(numbers::NO_CORRECTION)?;
        if CheckedHrpstring::new::<Ck>(&found.mended).is_err() {
            return Err(numbers::NO_CORRECTION);
        }
        let listing = found.listing.iter();
        let words = listing.map(|(place, value)| format!("{place}:{}", value.to_u8()));
        Ok(vec![
            words.collect::<Vec<_>>().join(" ").into_bytes(),
            found.mended.into_bytes(),
        ])
    }

    pub fn correct(checksum: u32, text: &str, erasures: &[usize]) -> Reply {
        match checksum {
            BECH32 => corrected::<Bech32>(text, erasures),
            BECH32M => corrected::<Bech32m>(text, erasures),
            _ => Err(numbers::BAD_NUMBER),
        }
    }

    pub fn residue(checksum: u32, values: &[u8]) -> Reply {
        let fes: Result<Vec<Fe32>, u32> = values.iter().map(|v| element(*v)).collect();
        Ok(vec![super::residue(checksum, &fes?).to_be_bytes().to_vec()])
    }
}
