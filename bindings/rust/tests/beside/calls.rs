//! Calls of either crate, and what both reply to them, in words that both share.

use crate::readers;
use std::fmt;

/// Which checksum.
#[derive(Clone, Copy, Debug)]
pub enum Code {
    Bech32,
    Bech32m,
}

/// A call of either crate.
#[derive(Debug)]
pub enum Call {
    Parse(String),
    Compare(String, String),
    Encode(Code, String, Vec<u8>),
    Decode(String),
    Check(Code, String),
    SegwitEncode(String, u8, Vec<u8>),
    SegwitDecode(String),
    Read(String),
    ReadPart(String, Vec<u8>),
    #[cfg(feature = "correct")]
    Correct(Code, String, Vec<usize>),
}

/// What was answered, in parts, or the number of the refusal.
pub type Reply = Result<Vec<Vec<u8>>, u32>;

/// What the other crate leads one to expect.
pub struct Expected {
    pub reply: Reply,
    /// The place of a row of docs/rust/DIFFERENCES.md, where the reply follows from that row.
    pub difference: Option<&'static str>,
}

impl From<Reply> for Expected {
    fn from(reply: Reply) -> Expected {
        Expected {
            reply,
            difference: None,
        }
    }
}

impl Call {
    /// The function that is called.
    pub fn function(&self) -> &'static str {
        match self {
            Call::Parse(_) => "Hrp::parse",
            Call::Compare(..) => "Hrp, compared",
            Call::Encode(..) => "encode",
            Call::Decode(_) => "decode",
            Call::Check(..) => "CheckedHrpstring::new",
            Call::SegwitEncode(..) => "segwit::encode",
            Call::SegwitDecode(_) => "segwit::decode",
            Call::Read(_) => "readers, errors, addresses",
            Call::ReadPart(..) => "Hrp, writers",
            #[cfg(feature = "correct")]
            Call::Correct(..) => "correct",
        }
    }

    /// What this crate replies.
    pub fn ours(&self) -> Reply {
        use bech32_proved::{Bech32, Bech32m};
        let reply = match self {
            Call::Parse(hrp) => ours::parse(hrp),
            Call::Compare(a, b) => ours::compare(a, b),
            Call::Encode(Code::Bech32, hrp, bytes) => ours::encode::<Bech32>(hrp, bytes),
            Call::Encode(Code::Bech32m, hrp, bytes) => ours::encode::<Bech32m>(hrp, bytes),
            Call::Decode(text) => ours::decode(text),
            Call::Check(Code::Bech32, text) => ours::check::<Bech32>(text),
            Call::Check(Code::Bech32m, text) => ours::check::<Bech32m>(text),
            Call::SegwitEncode(hrp, version, program) => {
                ours::segwit_encode(hrp, *version, program)
            }
            Call::SegwitDecode(text) => ours::segwit_decode(text),
            Call::Read(text) => said(readers::ours::said(text)),
            Call::ReadPart(hrp, bytes) => said(readers::ours::said_of_part(hrp, bytes)),
            #[cfg(feature = "correct")]
            Call::Correct(Code::Bech32, text, erasures) => ours::correct::<Bech32>(text, erasures),
            #[cfg(feature = "correct")]
            Call::Correct(Code::Bech32m, text, erasures) => {
                ours::correct::<Bech32m>(text, erasures)
            }
        };
        reply.map_err(|refusal| refusal.number())
    }

    /// What the other crate replies.
    pub fn theirs(&self) -> Expected {
        use bech32::{Bech32, Bech32m};
        match self {
            Call::Parse(hrp) => theirs::parse(hrp).into(),
            Call::Compare(a, b) => theirs::compare(a, b).into(),
            Call::Encode(Code::Bech32, hrp, bytes) => theirs::encode::<Bech32>(hrp, bytes).into(),
            Call::Encode(Code::Bech32m, hrp, bytes) => theirs::encode::<Bech32m>(hrp, bytes).into(),
            Call::Decode(text) => theirs::decode(text).into(),
            Call::Check(Code::Bech32, text) => theirs::check::<Bech32>(text).into(),
            Call::Check(Code::Bech32m, text) => theirs::check::<Bech32m>(text).into(),
            Call::SegwitEncode(hrp, version, program) => {
                theirs::segwit_encode(hrp, *version, program).into()
            }
            Call::SegwitDecode(text) => theirs::segwit_decode(text).into(),
            Call::Read(text) => Reply::Ok(vec![readers::theirs::said(text).into_bytes()]).into(),
            Call::ReadPart(hrp, bytes) => {
                Reply::Ok(vec![readers::theirs::said_of_part(hrp, bytes).into_bytes()]).into()
            }
            #[cfg(feature = "correct")]
            Call::Correct(Code::Bech32, text, erasures) => {
                crate::corrections::expected::<Bech32>(text, erasures)
            }
            #[cfg(feature = "correct")]
            Call::Correct(Code::Bech32m, text, erasures) => {
                crate::corrections::expected::<Bech32m>(text, erasures)
            }
        }
    }
}

// What is said, as a reply.
fn said(words: String) -> Result<Vec<Vec<u8>>, bech32_proved::Refusal> {
    Ok(vec![words.into_bytes()])
}

// A value in debugging form, as a part of a reply.
fn shown(value: impl fmt::Debug) -> Vec<u8> {
    format!("{value:?}").into_bytes()
}

mod ours {
    use super::shown;
    use bech32_proved::primitives::decode::CheckedHrpstring;
    #[cfg(feature = "correct")]
    use bech32_proved::CorrectingChecksum;
    use bech32_proved::{segwit, Checksum, Fe32, Hrp, Refusal};

    type Reply = Result<Vec<Vec<u8>>, Refusal>;

    pub fn parse(hrp: &str) -> Reply {
        let hrp = Hrp::parse(hrp)?;
        Ok(vec![
            hrp.as_bytes().to_vec(),
            hrp.to_lowercase().into_bytes(),
        ])
    }

    pub fn compare(a: &str, b: &str) -> Reply {
        let (a, b) = (Hrp::parse(a)?, Hrp::parse(b)?);
        Ok(vec![shown(a == b), shown(a.cmp(&b))])
    }

    pub fn encode<Ck: Checksum>(hrp: &str, bytes: &[u8]) -> Reply {
        let text = bech32_proved::encode::<Ck>(Hrp::parse(hrp)?, bytes)?;
        Ok(vec![text.into_bytes()])
    }

    pub fn decode(text: &str) -> Reply {
        let (hrp, bytes) = bech32_proved::decode(text)?;
        let (_, _, variant) = bech32_proved::decode_with_checksum(text)?;
        let variant = variant.to_string().into_bytes();
        Ok(vec![hrp.as_bytes().to_vec(), bytes, variant])
    }

    pub fn check<Ck: Checksum>(text: &str) -> Reply {
        let checked = CheckedHrpstring::new::<Ck>(text)?;
        Ok(vec![
            checked.hrp().as_bytes().to_vec(),
            checked.data_part_ascii_no_checksum().to_vec(),
            checked.byte_iter().collect(),
        ])
    }

    pub fn segwit_encode(hrp: &str, version: u8, program: &[u8]) -> Reply {
        let version = Fe32::try_from(version)?;
        let text = segwit::encode(Hrp::parse(hrp)?, version, program)?;
        Ok(vec![text.into_bytes()])
    }

    pub fn segwit_decode(text: &str) -> Reply {
        let (hrp, version, program) = segwit::decode(text)?;
        Ok(vec![
            hrp.as_bytes().to_vec(),
            vec![version.to_u8()],
            program,
        ])
    }

    #[cfg(feature = "correct")]
    pub fn correct<Ck: CorrectingChecksum>(text: &str, erasures: &[usize]) -> Reply {
        let correction = bech32_proved::correct::<Ck>(text, erasures)?;
        let listing = correction.bch_errors().map(|(l, v)| (l, v.to_u8()));
        let changes = correction.changes();
        let changes = changes.iter().map(|it| (it.place, it.from, it.to));
        Ok(vec![
            shown(listing.collect::<Vec<_>>()),
            correction.as_str().as_bytes().to_vec(),
            shown(changes.collect::<Vec<_>>()),
        ])
    }
}

/// What the other crate replies.
pub mod theirs {
    use super::{shown, Reply};
    use crate::numbers;
    use bech32::primitives::decode::CheckedHrpstring;
    use bech32::{segwit, Checksum, Fe32, Hrp};

    fn part(hrp: &str) -> Result<Hrp, u32> {
        Hrp::parse(hrp).map_err(|e| numbers::hrp(&e))
    }

    pub fn parse(hrp: &str) -> Reply {
        let hrp = part(hrp)?;
        Ok(vec![
            hrp.as_bytes().to_vec(),
            hrp.to_lowercase().into_bytes(),
        ])
    }

    pub fn compare(a: &str, b: &str) -> Reply {
        let (a, b) = (part(a)?, part(b)?);
        Ok(vec![shown(a == b), shown(a.cmp(&b))])
    }

    pub fn encode<Ck: Checksum>(hrp: &str, bytes: &[u8]) -> Reply {
        let text = bech32::encode::<Ck>(part(hrp)?, bytes).map_err(|e| numbers::encode(&e))?;
        Ok(vec![text.into_bytes()])
    }

    pub fn decode(text: &str) -> Reply {
        let (hrp, bytes) = bech32::decode(text).map_err(|e| numbers::decode(&e))?;
        let is_bech32 = CheckedHrpstring::new::<bech32::Bech32>(text).is_ok();
        let variant = if is_bech32 { "Bech32" } else { "Bech32m" };
        let variant = variant.to_owned().into_bytes();
        Ok(vec![hrp.as_bytes().to_vec(), bytes, variant])
    }

    pub fn check<Ck: Checksum>(text: &str) -> Reply {
        let checked = CheckedHrpstring::new::<Ck>(text).map_err(|e| numbers::checked(&e))?;
        Ok(vec![
            checked.hrp().as_bytes().to_vec(),
            checked.data_part_ascii_no_checksum().to_vec(),
            checked.byte_iter().collect(),
        ])
    }

    pub fn segwit_encode(hrp: &str, version: u8, program: &[u8]) -> Reply {
        let version = Fe32::try_from(version).map_err(|_| numbers::BAD_NUMBER)?;
        let text = segwit::encode(part(hrp)?, version, program);
        Ok(vec![text
            .map_err(|e| numbers::segwit_encode(&e))?
            .into_bytes()])
    }

    pub fn segwit_decode(text: &str) -> Reply {
        let decoded = segwit::decode(text).map_err(|e| numbers::address(&e.0))?;
        let (hrp, version, program) = decoded;
        Ok(vec![
            hrp.as_bytes().to_vec(),
            vec![version.to_u8()],
            program,
        ])
    }
}
