// Segwit addresses as a wallet's library has them: a program of a version, for a network, parsed and
// displayed. All that this file says of bech32 it says by the names of the Rust crate bech32 0.12.0.

use super::bech32::primitives::decode::{CheckedHrpstring, UncheckedHrpstring};
use super::bech32::primitives::gf32::Fe32;
use super::bech32::primitives::hrp::{self, Hrp};
use super::bech32::{self, segwit, Bech32, Bech32m};
use std::error::Error;
use std::fmt;
use std::str::FromStr;

/// The networks that share a human-readable part.
#[derive(Clone, Copy, Debug, PartialEq, Eq, PartialOrd, Ord, Hash)]
pub enum KnownHrp {
    Mainnet,
    Testnets,
    Regtest,
}

impl KnownHrp {
    pub fn from_hrp(hrp: Hrp) -> Result<KnownHrp, UnknownHrpError> {
        if hrp == bech32::hrp::BC {
            Ok(KnownHrp::Mainnet)
        } else if hrp.is_valid_on_testnet() || hrp.is_valid_on_signet() {
            Ok(KnownHrp::Testnets)
        } else if hrp == hrp::BCRT {
            Ok(KnownHrp::Regtest)
        } else {
            Err(UnknownHrpError(hrp.to_lowercase()))
        }
    }

    pub fn to_hrp(self) -> Hrp {
        match self {
            KnownHrp::Mainnet => bech32::hrp::BC,
            KnownHrp::Testnets => bech32::hrp::TB,
            KnownHrp::Regtest => bech32::hrp::BCRT,
        }
    }
}

/// The human-readable part of no known network.
#[derive(Clone, Debug, PartialEq, Eq)]
pub struct UnknownHrpError(pub String);

impl fmt::Display for UnknownHrpError {
    fn fmt(&self, f: &mut fmt::Formatter<'_>) -> fmt::Result {
        write!(f, "unknown hrp: {}", self.0)
    }
}

impl Error for UnknownHrpError {}

/// The version of a witness program.
#[derive(Clone, Copy, Debug, PartialEq, Eq, PartialOrd, Ord, Hash)]
pub struct WitnessVersion(u8);

impl WitnessVersion {
    pub fn to_fe(self) -> Fe32 {
        Fe32::try_from(self.0).expect("a version is an element")
    }
}

impl TryFrom<Fe32> for WitnessVersion {
    type Error = ParseError;

    fn try_from(value: Fe32) -> Result<WitnessVersion, ParseError> {
        match value.to_u8() {
            version @ 0..=16 => Ok(WitnessVersion(version)),
            version => Err(ParseError::WitnessVersion(version)),
        }
    }
}

impl From<WitnessVersion> for Fe32 {
    fn from(version: WitnessVersion) -> Fe32 {
        version.to_fe()
    }
}

/// Why a text is no address.
#[derive(Clone, Debug, PartialEq, Eq)]
#[non_exhaustive]
pub enum ParseError {
    Bech32(segwit::DecodeError),
    WitnessVersion(u8),
    UnknownHrp(UnknownHrpError),
}

impl fmt::Display for ParseError {
    fn fmt(&self, f: &mut fmt::Formatter<'_>) -> fmt::Result {
        match self {
            ParseError::Bech32(_) => f.write_str("bech32 error"),
            ParseError::WitnessVersion(version) => write!(f, "invalid witness version: {version}"),
            ParseError::UnknownHrp(_) => f.write_str("unknown hrp error"),
        }
    }
}

impl Error for ParseError {
    fn source(&self) -> Option<&(dyn Error + 'static)> {
        match self {
            ParseError::Bech32(e) => Some(e),
            ParseError::WitnessVersion(_) => None,
            ParseError::UnknownHrp(e) => Some(e),
        }
    }
}

impl From<segwit::DecodeError> for ParseError {
    fn from(e: segwit::DecodeError) -> ParseError {
        ParseError::Bech32(e)
    }
}

impl From<UnknownHrpError> for ParseError {
    fn from(e: UnknownHrpError) -> ParseError {
        ParseError::UnknownHrp(e)
    }
}

/// A segwit address.
#[derive(Clone, Debug, PartialEq, Eq, PartialOrd, Ord, Hash)]
pub struct Address {
    pub hrp: KnownHrp,
    pub version: WitnessVersion,
    pub program: Vec<u8>,
}

impl FromStr for Address {
    type Err = ParseError;

    fn from_str(s: &str) -> Result<Address, ParseError> {
        let (hrp, witness_version, program): (_, Fe32, Vec<u8>) = segwit::decode(s)?;
        Ok(Address {
            hrp: KnownHrp::from_hrp(hrp)?,
            version: WitnessVersion::try_from(witness_version)?,
            program,
        })
    }
}

/// In lower case, and by `{:#}` in upper case, as a QR code wants it.
impl fmt::Display for Address {
    fn fmt(&self, f: &mut fmt::Formatter<'_>) -> fmt::Result {
        let hrp = self.hrp.to_hrp();
        let version = self.version.to_fe();
        if f.alternate() {
            segwit::encode_upper_to_fmt_unchecked(f, hrp, version, &self.program)
        } else {
            segwit::encode_lower_to_fmt_unchecked(f, hrp, version, &self.program)
        }
    }
}

impl Address {
    /// The address as a link in a QR code.
    pub fn to_qr_uri(&self) -> String {
        format!("bitcoin:{self:#}")
    }

    /// What a text says of its network, were it an address or not.
    pub fn network_of(s: &str) -> Option<KnownHrp> {
        let unchecked = UncheckedHrpstring::new(s).ok()?;
        KnownHrp::from_hrp(unchecked.hrp()).ok()
    }

    /// Whether a text is no address for its checksum: that of version 0 in another version, or the other
    /// way round.
    pub fn has_checksum_of_other_version(s: &str) -> bool {
        let Ok(unchecked) = UncheckedHrpstring::new(s) else {
            return false;
        };
        match unchecked.witness_version() {
            Some(segwit::VERSION_0) => unchecked.has_valid_checksum::<Bech32m>(),
            Some(_) => unchecked.has_valid_checksum::<Bech32>(),
            None => false,
        }
    }

    /// The elements behind the human-readable part of a text that Bech32 accepts, as an invoice has them.
    pub fn elements(s: &str) -> Option<Vec<Fe32>> {
        let checked = CheckedHrpstring::new::<Bech32>(s).ok()?;
        Some(checked.fe32_iter().collect())
    }
}
