//! The checksums that the library knows, none, and the engine that makes them.

use crate::declared::{BECH32_MAX_LONG_TEXT, BECH32_MAX_TEXT};
use crate::{raw, Fe32, Hrp};
use core::fmt::Debug;
use core::ops::BitXor;

/// A checksum: [`Bech32`] or [`Bech32m`], the same for long texts, or [`NoChecksum`]. No other type can be one.
pub trait Checksum: sealed::Known {
    /// What holds a remainder: six elements, or none.
    type MidstateRepr: PackedFe32;

    /// The characters that a text has at most, those of its checksum with it.
    const CODE_LENGTH: usize;

    /// The characters of the checksum.
    const CHECKSUM_LENGTH: usize;

    /// The remainder that a valid text leaves.
    const TARGET_RESIDUE: Self::MidstateRepr;
}

/// A checksum by which mistyped texts are mended: [`Bech32`] or [`Bech32m`].
#[cfg(feature = "correct")]
pub trait CorrectingChecksum: Checksum + sealed::Numbered {}

/// The checksum of BIP-173.
#[derive(Clone, Copy, Debug, PartialEq, Eq, PartialOrd, Ord, Hash)]
pub enum Bech32 {}

/// The checksum of BIP-350.
#[derive(Clone, Copy, Debug, PartialEq, Eq, PartialOrd, Ord, Hash)]
pub enum Bech32m {}

/// The checksum of BIP-173 for long texts, of up to 7,089 characters, as invoices, nostr and age have them. Texts
/// of up to 1,023 characters have the same checksum by [`Bech32`]. Above that nothing is promised of wrong
/// characters, and no text is mended: what a wrong character leaves at location 1,200, one at 177 leaves too.
///
/// ```
/// use bech32_proved::{decode_strict, encode, Bech32, Hrp, LongBech32};
///
/// let part = Hrp::parse("naddr")?;
/// let text = encode::<LongBech32>(part, &[0xab; 1000])?;
/// assert_eq!((text.len(), decode_strict::<LongBech32>(&text)?.1), (1612, vec![0xab; 1000]));
/// assert!(encode::<Bech32>(part, &[0xab; 1000]).is_err());
/// # Ok::<(), Box<dyn std::error::Error>>(())
/// ```
#[derive(Clone, Copy, Debug, PartialEq, Eq, PartialOrd, Ord, Hash)]
pub enum LongBech32 {}

/// The checksum of BIP-350 for long texts, as [`LongBech32`] is that of BIP-173.
#[derive(Clone, Copy, Debug, PartialEq, Eq, PartialOrd, Ord, Hash)]
pub enum LongBech32m {}

/// No checksum: that of texts without one, which may be of any length.
///
/// ```
/// use bech32_proved::primitives::decode::CheckedHrpstring;
/// use bech32_proved::{encode, Hrp, NoChecksum};
///
/// let text = encode::<NoChecksum>(Hrp::parse("abc")?, &[0xab; 20])?;
/// assert_eq!(text, "abc14w46h2at4w46h2at4w46h2at4w46h2at");
/// let checked = CheckedHrpstring::new::<NoChecksum>(&text)?;
/// assert!(checked.byte_iter().eq([0xab; 20]));
/// # Ok::<(), Box<dyn std::error::Error>>(())
/// ```
#[derive(Clone, Copy, Debug, PartialEq, Eq, PartialOrd, Ord, Hash)]
pub enum NoChecksum {}

impl Checksum for Bech32 {
    type MidstateRepr = u32;
    const CODE_LENGTH: usize = BECH32_MAX_TEXT;
    const CHECKSUM_LENGTH: usize = LENGTH;
    const TARGET_RESIDUE: u32 = BECH32.target;
}

impl Checksum for Bech32m {
    type MidstateRepr = u32;
    const CODE_LENGTH: usize = BECH32_MAX_TEXT;
    const CHECKSUM_LENGTH: usize = LENGTH;
    const TARGET_RESIDUE: u32 = BECH32M.target;
}

impl Checksum for LongBech32 {
    type MidstateRepr = u32;
    const CODE_LENGTH: usize = LONG_BECH32.code_length;
    const CHECKSUM_LENGTH: usize = LENGTH;
    const TARGET_RESIDUE: u32 = LONG_BECH32.target;
}

impl Checksum for LongBech32m {
    type MidstateRepr = u32;
    const CODE_LENGTH: usize = LONG_BECH32M.code_length;
    const CHECKSUM_LENGTH: usize = LENGTH;
    const TARGET_RESIDUE: u32 = LONG_BECH32M.target;
}

impl Checksum for NoChecksum {
    type MidstateRepr = PackedNull;
    const CODE_LENGTH: usize = usize::MAX;
    const CHECKSUM_LENGTH: usize = 0;
    const TARGET_RESIDUE: PackedNull = PackedNull;
}

#[cfg(feature = "correct")]
impl CorrectingChecksum for Bech32 {}

#[cfg(feature = "correct")]
impl CorrectingChecksum for Bech32m {}

// The characters of the checksums that the library knows.
const LENGTH: usize = 6;

/// What the library knows a checksum by.
#[derive(Clone, Copy)]
pub struct Code {
    /// Its number in the library's calls.
    pub number: u32,
    /// That of the engine that makes its remainders.
    pub engine: u32,
    /// The characters that a text has at most.
    pub code_length: usize,
    /// The remainder that a valid text leaves, six elements of five bits, the constant term lowest.
    pub target: u32,
}

/// The checksum of BIP-173.
pub const BECH32: Code = Code {
    number: 1,
    engine: 1,
    code_length: BECH32_MAX_TEXT,
    target: 1,
};

/// The checksum of BIP-350.
pub const BECH32M: Code = Code {
    number: 2,
    engine: 2,
    code_length: BECH32_MAX_TEXT,
    target: 0x2bc8_30a3,
};

/// The checksum of BIP-173 for long texts.
pub const LONG_BECH32: Code = Code {
    number: 3,
    code_length: BECH32_MAX_LONG_TEXT,
    ..BECH32
};

/// The checksum of BIP-350 for long texts.
pub const LONG_BECH32M: Code = Code {
    number: 4,
    code_length: BECH32_MAX_LONG_TEXT,
    ..BECH32M
};

pub(crate) mod sealed {
    use super::Code;

    /// What stands for a checksum in the library's calls.
    pub trait Known {
        /// Nothing for texts without one.
        const CODE: Option<Code>;
    }

    /// The same of those that have a number.
    #[cfg(feature = "correct")]
    pub trait Numbered {
        /// The number.
        const NUMBER: u32;
    }

    impl Known for super::Bech32 {
        const CODE: Option<Code> = Some(super::BECH32);
    }

    impl Known for super::Bech32m {
        const CODE: Option<Code> = Some(super::BECH32M);
    }

    impl Known for super::LongBech32 {
        const CODE: Option<Code> = Some(super::LONG_BECH32);
    }

    impl Known for super::LongBech32m {
        const CODE: Option<Code> = Some(super::LONG_BECH32M);
    }

    impl Known for super::NoChecksum {
        const CODE: Option<Code> = None;
    }

    #[cfg(feature = "correct")]
    impl Numbered for super::Bech32 {
        const NUMBER: u32 = super::BECH32.number;
    }

    #[cfg(feature = "correct")]
    impl Numbered for super::Bech32m {
        const NUMBER: u32 = super::BECH32M.number;
    }

    /// What holds remainders.
    pub trait Packs {}

    impl Packs for u32 {}

    impl Packs for super::PackedNull {}
}

/// Elements in one number, five bits each: `u32`, or [`PackedNull`]. No other type can be one.
pub trait PackedFe32:
    Copy + Debug + PartialEq + Eq + BitXor<Self, Output = Self> + sealed::Packs
{
    /// The element 1 alone.
    const ONE: Self;

    /// How many elements it holds.
    const WIDTH: usize;

    /// Holds elements, of which the last is the constant term, the lowest.
    ///
    /// # Panics
    ///
    /// Of [`PackedNull`], where there are any.
    fn pack<I: Iterator<Item = u8>>(iter: I) -> Self;

    /// The element at a place, from 0 on, the constant term first.
    fn unpack(&self, n: usize) -> u8;
}

impl PackedFe32 for u32 {
    const ONE: u32 = 1;
    const WIDTH: usize = LENGTH;

    fn pack<I: Iterator<Item = u8>>(iter: I) -> u32 {
        iter.fold(0, |packed, element| packed << 5 | u32::from(element))
    }

    fn unpack(&self, n: usize) -> u8 {
        (self >> (5 * n) & 31) as u8
    }
}

/// No elements: the remainder where there is no checksum.
#[derive(Clone, Copy, Debug, PartialEq, Eq)]
pub struct PackedNull;

impl BitXor for PackedNull {
    type Output = PackedNull;

    fn bitxor(self, _: PackedNull) -> PackedNull {
        PackedNull
    }
}

impl PackedFe32 for PackedNull {
    const ONE: PackedNull = PackedNull;
    const WIDTH: usize = 0;

    fn pack<I: Iterator<Item = u8>>(mut iter: I) -> PackedNull {
        assert!(iter.next().is_none(), "no element fits into PackedNull");
        PackedNull
    }

    fn unpack(&self, _: usize) -> u8 {
        0
    }
}

/// The engine of a checksum: the remainder of elements that are put in one after another.
///
/// ```
/// use bech32_proved::primitives::checksum::{Checksum, Engine};
/// use bech32_proved::{Bech32, Fe32, Hrp};
///
/// let mut engine = Engine::<Bech32>::new();
/// engine.input_hrp(Hrp::parse("a")?);
/// for character in "2uel5l".chars() {
///     engine.input_fe(Fe32::from_char(character)?);
/// }
/// assert_eq!(*engine.residue(), Bech32::TARGET_RESIDUE);
/// # Ok::<(), Box<dyn std::error::Error>>(())
/// ```
#[derive(Clone, Copy, Debug, PartialEq, Eq)]
pub struct Engine<Ck: Checksum> {
    residue: Ck::MidstateRepr,
}

impl<Ck: Checksum> Engine<Ck> {
    /// An engine that nothing was put into.
    pub fn new() -> Engine<Ck> {
        Engine {
            residue: Ck::MidstateRepr::ONE,
        }
    }

    /// Puts in the elements of a human-readable part.
    pub fn input_hrp(&mut self, hrp: Hrp) {
        HrpFe32Iter::new(&hrp).for_each(|element| self.input_fe(element));
    }

    /// Puts in one element.
    pub fn input_fe(&mut self, e: Fe32) {
        let Some(code) = Ck::CODE else {
            return;
        };
        // The library starts from 1. Behind six elements it has their sum with what six zeros leave,
        // so there are six that bring it to where this engine stands; the new one stands behind them.
        let zeros = residue_of(code, &[0; LENGTH]);
        let mut elements = [e.to_u8(); LENGTH + 1];
        for (n, element) in elements[..LENGTH].iter_mut().rev().enumerate() {
            *element = self.residue.unpack(n) ^ zeros.unpack(n);
        }
        let residue = residue_of(code, &elements);
        self.residue = Ck::MidstateRepr::pack((0..LENGTH).rev().map(|n| residue.unpack(n)));
    }

    /// Puts in the remainder of valid texts, behind which the engine holds the elements of the checksum.
    pub fn input_target_residue(&mut self) {
        for n in (0..Ck::CHECKSUM_LENGTH).rev() {
            self.input_fe(Fe32::of_low_bits(Ck::TARGET_RESIDUE.unpack(n).into()));
        }
    }

    /// The remainder of what was put in.
    pub fn residue(&self) -> &Ck::MidstateRepr {
        &self.residue
    }
}

impl<Ck: Checksum> Default for Engine<Ck> {
    fn default() -> Engine<Ck> {
        Engine::new()
    }
}

/// The remainder that elements leave, a byte from 0 to 31 each.
pub fn residue_of(code: Code, elements: &[u8]) -> u32 {
    raw::residue(code.engine, elements).expect("these are elements")
}

/// The elements of a human-readable part, which a checksum is over: the high bits of each byte in lower
/// case, a zero, and the low bits of each (BIP-173, Checksum).
#[derive(Clone, Debug)]
pub struct HrpFe32Iter<'hrp> {
    bytes: &'hrp [u8],
    next: usize,
}

impl<'hrp> HrpFe32Iter<'hrp> {
    /// Those of this part.
    pub fn new(hrp: &'hrp Hrp) -> HrpFe32Iter<'hrp> {
        HrpFe32Iter {
            bytes: hrp.as_bytes(),
            next: 0,
        }
    }
}

impl Iterator for HrpFe32Iter<'_> {
    type Item = Fe32;

    fn next(&mut self) -> Option<Fe32> {
        let count = self.bytes.len();
        let lower = |at: usize| u32::from(self.bytes[at].to_ascii_lowercase());
        let bits = match self.next {
            at if at < count => lower(at) >> 5,
            at if at == count => 0,
            at if at <= 2 * count => lower(at - count - 1),
            _ => return None,
        };
        self.next += 1;
        Some(Fe32::of_low_bits(bits))
    }

    fn size_hint(&self) -> (usize, Option<usize>) {
        let left = 2 * self.bytes.len() + 1 - self.next;
        (left, Some(left))
    }
}

impl ExactSizeIterator for HrpFe32Iter<'_> {}

impl core::iter::FusedIterator for HrpFe32Iter<'_> {}
