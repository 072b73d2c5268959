//! Texts written one element at a time.

use crate::checksum::HrpFe32Iter;
use crate::iter::Checksummed;
use crate::part::LowercaseCharIter;
use crate::{Checksum, Fe32, Hrp};
use core::iter::{once, Chain, FusedIterator, Once};
use core::marker::PhantomData;

/// The text of elements: [`Fe32IterExt::with_checksum`](crate::Fe32IterExt::with_checksum) makes it. The
/// length of the text is not tested.
///
/// ```
/// use bech32_proved::{Bech32, ByteIterExt, Fe32, Fe32IterExt, Hrp};
///
/// let program = [
///     0x75, 0x1e, 0x76, 0xe8, 0x19, 0x91, 0x96, 0xd4, 0x54, 0x94, 0x1c, 0x45, 0xd1, 0xb3, 0xa3,
///     0x23, 0xf1, 0x43, 0x3b, 0xd6,
/// ];
/// let hrp = Hrp::parse("bc")?;
/// let elements = program.into_iter().bytes_to_fes();
/// let encoder = elements.with_checksum::<Bech32>(&hrp).with_witness_version(Fe32::Q);
/// let address: String = encoder.chars().collect();
/// assert_eq!(address, "bc1qw508d6qejxtdg4y5r3zarvary0c5xw7kv8f3t4");
/// # Ok::<(), Box<dyn std::error::Error>>(())
/// ```
#[derive(Clone, Debug)]
pub struct Encoder<'hrp, I: Iterator<Item = Fe32>, Ck: Checksum> {
    elements: WitnessVersionIter<I>,
    hrp: &'hrp Hrp,
    checksum: PhantomData<Ck>,
}

impl<'hrp, I: Iterator<Item = Fe32>, Ck: Checksum> Encoder<'hrp, I, Ck> {
    /// The text of these elements under a human-readable part.
    pub fn new(data: I, hrp: &'hrp Hrp) -> Self {
        Encoder {
            elements: WitnessVersionIter::new(None, data),
            hrp,
            checksum: PhantomData,
        }
    }

    /// The same with this element before the others, a witness version. It is not tested.
    pub fn with_witness_version(mut self, witness_version: Fe32) -> Self {
        self.elements.version = Some(witness_version);
        self
    }

    /// The characters of the text, in lower case.
    pub fn chars(self) -> CharIter<'hrp, I, Ck> {
        CharIter::new(self.hrp, self.elements)
    }

    /// The characters of the text, in lower case, as bytes.
    pub fn bytes(self) -> ByteIter<'hrp, I, Ck> {
        ByteIter::new(self.chars())
    }

    /// The elements that the checksum is over, those of the human-readable part first, and then its own.
    pub fn fes(self) -> Fe32Iter<'hrp, I, Ck> {
        Fe32Iter::new(self.hrp, self.elements)
    }
}

/// Elements with a witness version before them, where there is one.
#[derive(Clone, Debug)]
pub struct WitnessVersionIter<I: Iterator<Item = Fe32>> {
    version: Option<Fe32>,
    elements: I,
}

impl<I: Iterator<Item = Fe32>> WitnessVersionIter<I> {
    /// These elements behind this one.
    pub fn new(witness_version: Option<Fe32>, iter: I) -> Self {
        WitnessVersionIter {
            version: witness_version,
            elements: iter,
        }
    }
}

impl<I: Iterator<Item = Fe32>> Iterator for WitnessVersionIter<I> {
    type Item = Fe32;

    fn next(&mut self) -> Option<Fe32> {
        self.version.take().or_else(|| self.elements.next())
    }

    fn size_hint(&self) -> (usize, Option<usize>) {
        let version = usize::from(self.version.is_some());
        together((version, Some(version)), self.elements.size_hint())
    }
}

/// The characters of a text, in lower case: [`Encoder::chars`].
#[derive(Clone, Debug)]
pub struct CharIter<'hrp, I: Iterator<Item = Fe32>, Ck: Checksum> {
    front: Chain<LowercaseCharIter<'hrp>, Once<char>>,
    checksummed: Checksummed<WitnessVersionIter<I>, Ck>,
}

impl<'hrp, I: Iterator<Item = Fe32>, Ck: Checksum> CharIter<'hrp, I, Ck> {
    /// Those of the text of these elements.
    pub fn new(hrp: &'hrp Hrp, data: WitnessVersionIter<I>) -> Self {
        CharIter {
            front: hrp.lowercase_char_iter().chain(once('1')),
            checksummed: Checksummed::new_hrp(*hrp, data),
        }
    }
}

impl<I: Iterator<Item = Fe32>, Ck: Checksum> Iterator for CharIter<'_, I, Ck> {
    type Item = char;

    fn next(&mut self) -> Option<char> {
        let next = self.front.next();
        next.or_else(|| self.checksummed.next().map(Fe32::to_char))
    }

    fn size_hint(&self) -> (usize, Option<usize>) {
        together(self.front.size_hint(), self.checksummed.size_hint())
    }
}

impl<I: Iterator<Item = Fe32>, Ck: Checksum> FusedIterator for CharIter<'_, I, Ck> {}

/// The characters of a text, in lower case, as bytes: [`Encoder::bytes`].
#[derive(Clone, Debug)]
pub struct ByteIter<'hrp, I: Iterator<Item = Fe32>, Ck: Checksum> {
    characters: CharIter<'hrp, I, Ck>,
}

impl<'hrp, I: Iterator<Item = Fe32>, Ck: Checksum> ByteIter<'hrp, I, Ck> {
    /// The bytes of these characters.
    pub fn new(char_iter: CharIter<'hrp, I, Ck>) -> Self {
        ByteIter {
            characters: char_iter,
        }
    }
}

impl<I: Iterator<Item = Fe32>, Ck: Checksum> Iterator for ByteIter<'_, I, Ck> {
    type Item = u8;

    fn next(&mut self) -> Option<u8> {
        self.characters.next().map(|character| character as u8)
    }

    fn size_hint(&self) -> (usize, Option<usize>) {
        self.characters.size_hint()
    }
}

impl<I: Iterator<Item = Fe32>, Ck: Checksum> FusedIterator for ByteIter<'_, I, Ck> {}

/// The elements that a checksum is over, and then its own: [`Encoder::fes`].
#[derive(Clone, Debug)]
pub struct Fe32Iter<'hrp, I: Iterator<Item = Fe32>, Ck: Checksum> {
    front: HrpFe32Iter<'hrp>,
    checksummed: Checksummed<WitnessVersionIter<I>, Ck>,
}

impl<'hrp, I: Iterator<Item = Fe32>, Ck: Checksum> Fe32Iter<'hrp, I, Ck> {
    /// Those of the text of these elements.
    pub fn new(hrp: &'hrp Hrp, data: WitnessVersionIter<I>) -> Self {
        Fe32Iter {
            front: HrpFe32Iter::new(hrp),
            checksummed: Checksummed::new_hrp(*hrp, data),
        }
    }
}

impl<I: Iterator<Item = Fe32>, Ck: Checksum> Iterator for Fe32Iter<'_, I, Ck> {
    type Item = Fe32;

    fn next(&mut self) -> Option<Fe32> {
        self.front.next().or_else(|| self.checksummed.next())
    }

    fn size_hint(&self) -> (usize, Option<usize>) {
        together(self.front.size_hint(), self.checksummed.size_hint())
    }
}

impl<I: Iterator<Item = Fe32>, Ck: Checksum> FusedIterator for Fe32Iter<'_, I, Ck> {}

/// How many items two iterators give that follow one another.
pub(crate) fn together(
    first: (usize, Option<usize>),
    second: (usize, Option<usize>),
) -> (usize, Option<usize>) {
    let most = first.1.zip(second.1);
    (
        first.0.saturating_add(second.0),
        most.and_then(|(first, second)| first.checked_add(second)),
    )
}
