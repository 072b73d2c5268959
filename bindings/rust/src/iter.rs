//! Bytes as elements of five bits, and back, and elements with a checksum, one at a time.

use crate::checksum::{Checksum, Engine, PackedFe32};
use crate::encode::{together, Encoder};
use crate::{Fe32, Hrp};
use core::iter::{Copied, Fuse, FusedIterator};
use core::slice;

/// Iterators of bytes, as elements.
pub trait ByteIterExt: Sized + Iterator<Item = u8> {
    /// The bits of the bytes in order, the highest of each first, five at a time. Where they do not fill
    /// the last element, zeros do.
    ///
    /// ```
    /// use bech32_proved::{ByteIterExt, Fe32};
    ///
    /// assert!([0xff].into_iter().bytes_to_fes().eq([Fe32::L, Fe32::U]));
    /// ```
    fn bytes_to_fes(self) -> BytesToFes<Self> {
        BytesToFes {
            bytes: self.fuse(),
            bits: 0,
            count: 0,
        }
    }
}

impl<I: Iterator<Item = u8>> ByteIterExt for I {}

/// Iterators of elements, as bytes.
pub trait Fe32IterExt: Sized + Iterator<Item = Fe32> {
    /// The bits of the elements in order, the highest of each first, eight at a time. Bits that do not
    /// fill the last byte are dropped.
    ///
    /// ```
    /// use bech32_proved::{Fe32, Fe32IterExt};
    ///
    /// assert!([Fe32::L, Fe32::U].into_iter().fes_to_bytes().eq([0xff]));
    /// ```
    fn fes_to_bytes(self) -> FesToBytes<Self> {
        FesToBytes {
            elements: self.fuse(),
            bits: 0,
            count: 0,
            fills: false,
        }
    }

    /// The same, where zeros fill the last byte.
    fn fes_to_bytes_zeropad(self) -> FesToBytes<Self> {
        FesToBytes {
            fills: true,
            ..self.fes_to_bytes()
        }
    }

    /// The text of the elements under a human-readable part, with a checksum: its characters, or its
    /// elements.
    ///
    /// ```
    /// use bech32_proved::{Bech32m, ByteIterExt, Fe32IterExt, Hrp};
    ///
    /// let hrp = Hrp::parse("abc")?;
    /// let elements = [0xab; 20].into_iter().bytes_to_fes();
    /// let text: String = elements.with_checksum::<Bech32m>(&hrp).chars().collect();
    /// assert_eq!(text, "abc14w46h2at4w46h2at4w46h2at4w46h2at958ngu");
    /// # Ok::<(), Box<dyn std::error::Error>>(())
    /// ```
    fn with_checksum<Ck: Checksum>(self, hrp: &Hrp) -> Encoder<'_, Self, Ck> {
        Encoder::new(self, hrp)
    }
}

impl<I: Iterator<Item = Fe32>> Fe32IterExt for I {}

/// The elements of bytes: [`ByteIterExt::bytes_to_fes`].
#[derive(Clone, Debug)]
pub struct BytesToFes<I: Iterator<Item = u8>> {
    bytes: Fuse<I>,
    // The bits that were taken and not given: `count` of them, the lowest.
    bits: u32,
    count: u32,
}

impl<I: Iterator<Item = u8>> Iterator for BytesToFes<I> {
    type Item = Fe32;

    fn next(&mut self) -> Option<Fe32> {
        if self.count < 5 {
            match self.bytes.next() {
                Some(byte) => {
                    self.bits = self.bits << 8 | u32::from(byte);
                    self.count += 8;
                }
                None if self.count == 0 => return None,
                None => {
                    self.bits <<= 5 - self.count;
                    self.count = 5;
                }
            }
        }
        self.count -= 5;
        Some(Fe32::of_low_bits(self.bits >> self.count))
    }

    fn size_hint(&self) -> (usize, Option<usize>) {
        let held = self.count as usize;
        let elements = |bytes: usize| Some(bytes.checked_mul(8)?.checked_add(held)?.div_ceil(5));
        let (least, most) = self.bytes.size_hint();
        (
            elements(least).unwrap_or(usize::MAX),
            most.and_then(elements),
        )
    }
}

impl<I: ExactSizeIterator<Item = u8>> ExactSizeIterator for BytesToFes<I> {}

impl<I: Iterator<Item = u8>> FusedIterator for BytesToFes<I> {}

/// The bytes of elements: [`Fe32IterExt::fes_to_bytes`].
#[derive(Clone, Debug)]
pub struct FesToBytes<I: Iterator<Item = Fe32>> {
    elements: Fuse<I>,
    // The bits that were taken and not given: `count` of them, the lowest.
    bits: u32,
    count: u32,
    // Whether zeros fill the last byte.
    fills: bool,
}

impl<I: Iterator<Item = Fe32>> Iterator for FesToBytes<I> {
    type Item = u8;

    fn next(&mut self) -> Option<u8> {
        while self.count < 8 {
            match self.elements.next() {
                Some(element) => {
                    self.bits = self.bits << 5 | u32::from(element.to_u8());
                    self.count += 5;
                }
                None if self.fills && self.count > 0 => {
                    self.bits <<= 8 - self.count;
                    self.count = 8;
                }
                None => return None,
            }
        }
        self.count -= 8;
        Some((self.bits >> self.count) as u8)
    }

    fn size_hint(&self) -> (usize, Option<usize>) {
        let held = self.count as usize + if self.fills { 7 } else { 0 };
        let bytes = |elements: usize| Some(elements.checked_mul(5)?.checked_add(held)? / 8);
        let (least, most) = self.elements.size_hint();
        (bytes(least).unwrap_or(usize::MAX), most.and_then(bytes))
    }
}

impl<I: ExactSizeIterator<Item = Fe32>> ExactSizeIterator for FesToBytes<I> {}

impl<I: Iterator<Item = Fe32>> FusedIterator for FesToBytes<I> {}

/// Elements, and then those of their checksum.
#[derive(Clone, Debug)]
pub struct Checksummed<I: Iterator<Item = Fe32>, Ck: Checksum> {
    elements: Fuse<I>,
    engine: Engine<Ck>,
    // How many elements of the checksum were not given.
    left: usize,
}

impl<I: Iterator<Item = Fe32>, Ck: Checksum> Checksummed<I, Ck> {
    /// The checksum over these elements alone.
    pub fn new(data: I) -> Checksummed<I, Ck> {
        Checksummed {
            elements: data.fuse(),
            engine: Engine::new(),
            left: Ck::CHECKSUM_LENGTH,
        }
    }

    /// The checksum over the elements of a human-readable part, which are not given, and these.
    pub fn new_hrp(hrp: Hrp, data: I) -> Checksummed<I, Ck> {
        let mut checksummed = Checksummed::new(data);
        checksummed.engine.input_hrp(hrp);
        checksummed
    }
}

impl<I: Iterator<Item = Fe32>, Ck: Checksum> Iterator for Checksummed<I, Ck> {
    type Item = Fe32;

    fn next(&mut self) -> Option<Fe32> {
        if let Some(element) = self.elements.next() {
            self.engine.input_fe(element);
            return Some(element);
        }
        if self.left == Ck::CHECKSUM_LENGTH {
            self.engine.input_target_residue();
        }
        self.left = self.left.checked_sub(1)?;
        let element = self.engine.residue().unpack(self.left);
        Some(Fe32::of_low_bits(element.into()))
    }

    fn size_hint(&self) -> (usize, Option<usize>) {
        together(self.elements.size_hint(), (self.left, Some(self.left)))
    }
}

impl<I: Iterator<Item = Fe32>, Ck: Checksum> FusedIterator for Checksummed<I, Ck> {}

/// The elements of characters of the alphabet.
#[derive(Clone, Debug)]
pub struct AsciiToFe32Iter<'s> {
    characters: Copied<slice::Iter<'s, u8>>,
}

impl<'s> AsciiToFe32Iter<'s> {
    // Of characters that were read in a data part.
    pub(crate) fn new(characters: &'s [u8]) -> AsciiToFe32Iter<'s> {
        AsciiToFe32Iter {
            characters: characters.iter().copied(),
        }
    }
}

impl Iterator for AsciiToFe32Iter<'_> {
    type Item = Fe32;

    fn next(&mut self) -> Option<Fe32> {
        self.characters.next().map(Fe32::from_char_unchecked)
    }

    fn size_hint(&self) -> (usize, Option<usize>) {
        self.characters.size_hint()
    }
}

impl ExactSizeIterator for AsciiToFe32Iter<'_> {}

impl FusedIterator for AsciiToFe32Iter<'_> {}

/// The bytes of a data part. Bits behind the last whole byte are dropped.
#[derive(Clone, Debug)]
pub struct ByteIter<'s> {
    bytes: FesToBytes<AsciiToFe32Iter<'s>>,
}

impl<'s> ByteIter<'s> {
    pub(crate) fn new(characters: &'s [u8]) -> ByteIter<'s> {
        ByteIter {
            bytes: AsciiToFe32Iter::new(characters).fes_to_bytes(),
        }
    }
}

impl Iterator for ByteIter<'_> {
    type Item = u8;

    fn next(&mut self) -> Option<u8> {
        self.bytes.next()
    }

    fn size_hint(&self) -> (usize, Option<usize>) {
        self.bytes.size_hint()
    }
}

impl ExactSizeIterator for ByteIter<'_> {}

impl FusedIterator for ByteIter<'_> {}
