//! Columns: many rows in one call, as databases and data frames have them.
//!
//! A column is laid out as Apache Arrow has it, so the buffers of an array are handed over as they are: [`Column`]
//! borrows them, and is cut by [`rows`](Column::rows), so that threads can share one. What is decoded or encoded
//! is [`Rows`], which are Arrow's `LargeBinary` or `LargeUtf8`; these are made of a list too.
//!
//! ```
//! use bech32_proved::columns::{check_either, decode, encode, message, Rows};
//! use bech32_proved::hrp;
//!
//! let address = "bc1qw508d6qejxtdg4y5r3zarvary0c5xw7kv8f3t4";
//! let texts = Rows::of_nullable([Some(address), None, Some("bc1qq")]);
//! assert_eq!(check_either(texts.column()), [0, 1, 32]);
//!
//! let found = decode(texts.column(), Some(hrp::BC));
//! assert_eq!(found.numbers, [0, 1, 32]);
//! assert_eq!(message(32), "too few characters for a checksum stand behind the separator");
//! assert_eq!(found.programs.get(0).map(<[u8]>::len), Some(20));
//!
//! let made = encode(hrp::BC, &found.versions, found.programs.column());
//! assert!(made.texts.iter().eq([Some(address.as_bytes()), None, None]));
//! ```
//!
//! No row is an error: each has its number, 0 where it is accepted, else the first that applies of: that of
//! [`Refusal::NullRow`]; of [`Refusal::BadNumber`], where its offsets do not lie in the column, or its bit not in
//! the validity; what the call for one text refuses with; that of [`Refusal::OtherHrp`].

use crate::prelude::*;
use crate::segwit::MAX_PROGRAM_LENGTH;
use crate::{raw, rules, Checksum, Hrp, Refusal};
use core::ops::Range;

// Rows of which the results are worked out at once.
const ROWS: usize = 1 << 16;

// How the rows of a column are found.
#[derive(Clone, Copy, Debug)]
pub(crate) enum Layout<'a> {
    Offsets32(&'a [i32]),
    Offsets64(&'a [i64]),
    Fixed(usize),
}

/// A column of texts or of programs: the bytes of all rows, and where each begins and ends.
#[derive(Clone, Copy, Debug)]
pub struct Column<'a> {
    pub(crate) bytes: &'a [u8],
    pub(crate) layout: Layout<'a>,
    pub(crate) validity: Option<&'a [u8]>,
    // All rows of the buffers; those that are meant are `count` from `first` on.
    pub(crate) rows: usize,
    first: usize,
    count: usize,
}

impl<'a> Column<'a> {
    fn of(bytes: &'a [u8], layout: Layout<'a>, rows: usize) -> Self {
        Column {
            bytes,
            layout,
            validity: None,
            rows,
            first: 0,
            count: rows,
        }
    }

    /// Row i has the bytes from offset i up to offset i + 1: Arrow's `Utf8` and `Binary`. The offsets may be
    /// any: they are tested.
    #[must_use]
    pub fn new(bytes: &'a [u8], offsets: &'a [i32]) -> Self {
        let rows = offsets.len().saturating_sub(1);
        Column::of(bytes, Layout::Offsets32(offsets), rows)
    }

    /// The same of Arrow's `LargeUtf8` and `LargeBinary`.
    #[must_use]
    pub fn large(bytes: &'a [u8], offsets: &'a [i64]) -> Self {
        let rows = offsets.len().saturating_sub(1);
        Column::of(bytes, Layout::Offsets64(offsets), rows)
    }

    /// Rows of one width: Arrow's `FixedSizeBinary`. Of a width of 0 there are none.
    #[must_use]
    pub fn fixed(bytes: &'a [u8], width: usize) -> Self {
        let rows = bytes.len().checked_div(width).unwrap_or(0);
        Column::of(bytes, Layout::Fixed(width), rows)
    }

    /// Row i is null where bit i % 8 of byte i / 8, the lowest first, is 0.
    #[must_use]
    pub fn with_validity(self, validity: &'a [u8]) -> Self {
        Column {
            validity: Some(validity).filter(|it| !it.is_empty()),
            ..self
        }
    }

    /// Some rows of this column. Threads can have some each.
    ///
    /// # Panics
    ///
    /// If there are no such rows.
    #[must_use]
    pub fn rows(self, rows: Range<usize>) -> Self {
        assert!(
            rows.start <= rows.end && rows.end <= self.count,
            "the column has {} rows",
            self.count
        );
        Column {
            first: self.first + rows.start,
            count: rows.len(),
            ..self
        }
    }

    /// How many rows it has.
    #[must_use]
    pub fn len(&self) -> usize {
        self.count
    }

    /// Whether it has no row.
    #[must_use]
    pub fn is_empty(&self) -> bool {
        self.count == 0
    }

    /// The bytes of a row.
    ///
    /// # Errors
    ///
    /// [`Refusal::NullRow`]; [`Refusal::BadNumber`] where it does not lie in the column.
    pub fn row(&self, index: usize) -> Result<&'a [u8], Refusal> {
        if index >= self.count {
            return Err(Refusal::BadNumber);
        }
        let at = self.first + index;
        if let Some(validity) = self.validity {
            let byte = validity.get(at / 8).ok_or(Refusal::BadNumber)?;
            if byte >> (at % 8) & 1 == 0 {
                return Err(Refusal::NullRow);
            }
        }
        let of = |offset: i64| usize::try_from(offset).ok();
        let (start, end) = match self.layout {
            Layout::Offsets32(it) => (of(it[at].into()), of(it[at + 1].into())),
            Layout::Offsets64(it) => (of(it[at]), of(it[at + 1])),
            Layout::Fixed(width) => (Some(at * width), Some((at + 1) * width)),
        };
        let range = start.zip(end).map(|(start, end)| start..end);
        range
            .and_then(|range| self.bytes.get(range))
            .ok_or(Refusal::BadNumber)
    }
}

/// Rows of bytes, as Arrow lays them out: its `LargeBinary`, or `LargeUtf8` where they are texts.
#[derive(Clone, Debug, Default, PartialEq, Eq)]
pub struct Rows {
    offsets: Vec<i64>,
    data: Vec<u8>,
    validity: Vec<u8>,
    null_count: usize,
}

impl Rows {
    fn with_room(rows: usize) -> Self {
        let mut offsets = Vec::with_capacity(rows + 1);
        offsets.push(0);
        Rows {
            offsets,
            ..Rows::default()
        }
    }

    // Puts a row's end, and its bit.
    fn end(&mut self, is_valid: bool) {
        let at = self.len();
        if at % 8 == 0 {
            self.validity.push(0);
        }
        self.validity[at / 8] |= u8::from(is_valid) << (at % 8);
        self.null_count += usize::from(!is_valid);
        self.offsets.push(self.data.len() as i64);
    }

    /// The rows of a list, of which some may be null.
    pub fn of_nullable<T: AsRef<[u8]>>(rows: impl IntoIterator<Item = Option<T>>) -> Self {
        let rows = rows.into_iter();
        let mut all = Rows::with_room(rows.size_hint().0);
        for row in rows {
            if let Some(row) = &row {
                all.data.extend_from_slice(row.as_ref());
            }
            all.end(row.is_some());
        }
        all
    }

    /// The rows of a list: texts, or programs.
    pub fn of<T: AsRef<[u8]>>(rows: impl IntoIterator<Item = T>) -> Self {
        Rows::of_nullable(rows.into_iter().map(Some))
    }

    // What a call made of some rows.
    fn add(&mut self, offsets: &[i32], made: &[u8]) {
        let before = self.data.len() as i64;
        let ends = offsets.iter().skip(1);
        self.offsets.extend(ends.map(|it| before + i64::from(*it)));
        let length = offsets.last().map_or(0, |it| *it as usize);
        self.data.extend_from_slice(&made[..length]);
    }

    // The same with the bits of their numbers.
    fn marked(mut self, numbers: &[u8]) -> Self {
        self.validity = vec![0; numbers.len().div_ceil(8)];
        let accepted = raw::validity_of(numbers, &mut self.validity).expect(IN_ORDER);
        self.null_count = numbers.len() - accepted;
        self
    }

    /// How many rows there are.
    #[must_use]
    pub fn len(&self) -> usize {
        self.offsets.len().saturating_sub(1)
    }

    /// Whether there is none.
    #[must_use]
    pub fn is_empty(&self) -> bool {
        self.len() == 0
    }

    /// The bytes of a row; `None` where it is null, or where there is none.
    #[must_use]
    pub fn get(&self, index: usize) -> Option<&[u8]> {
        self.column().row(index).ok()
    }

    /// The rows, each `None` where it is null.
    pub fn iter(&self) -> impl ExactSizeIterator<Item = Option<&[u8]>> + '_ {
        (0..self.len()).map(|at| self.get(at))
    }

    /// The same as texts.
    pub fn texts(&self) -> impl ExactSizeIterator<Item = Option<&str>> + '_ {
        self.iter()
            .map(|row| row.and_then(|it| core::str::from_utf8(it).ok()))
    }

    /// These rows as a column.
    #[must_use]
    pub fn column(&self) -> Column<'_> {
        Column::large(&self.data, &self.offsets).with_validity(&self.validity)
    }

    /// Where each row begins, and the last one ends.
    #[must_use]
    pub fn offsets(&self) -> &[i64] {
        &self.offsets
    }

    /// The bytes of all rows.
    #[must_use]
    pub fn data(&self) -> &[u8] {
        &self.data
    }

    /// Bit i % 8 of byte i / 8, the lowest first, is 0 where row i is null.
    #[must_use]
    pub fn validity(&self) -> &[u8] {
        &self.validity
    }

    /// How many rows are null.
    #[must_use]
    pub fn null_count(&self) -> usize {
        self.null_count
    }

    /// The offsets, the bytes and the validity, to be the buffers of an array.
    #[must_use]
    pub fn into_parts(self) -> (Vec<i64>, Vec<u8>, Vec<u8>) {
        (self.offsets, self.data, self.validity)
    }
}

/// What segwit addresses hold, an item a row.
#[derive(Clone, Debug, PartialEq, Eq)]
#[non_exhaustive]
pub struct Addresses {
    /// 0, or why there is nothing: [`message`] says it.
    pub numbers: Vec<u8>,
    /// The witness versions; 0 where the number is not 0.
    pub versions: Vec<u8>,
    /// How long the human-readable part is, with which the text begins; 0 where the number is not 0.
    pub hrp_lengths: Vec<u8>,
    /// The witness programs, null where the number is not 0.
    pub programs: Rows,
}

/// Addresses that were written, an item a row.
#[derive(Clone, Debug, PartialEq, Eq)]
#[non_exhaustive]
pub struct Texts {
    /// 0, or why there is no address: [`message`] says it.
    pub numbers: Vec<u8>,
    /// The addresses, in lower case, null where the number is not 0.
    pub texts: Rows,
}

// What is handed to the library here is in order, whatever the rows are.
const IN_ORDER: &str = "each row is there, and there is room for all of them";

/// The sentence of a row's number; of 0 it is empty.
///
/// ```
/// assert_eq!(bech32_proved::columns::message(1), "the row is null");
/// ```
#[must_use]
pub fn message(number: u8) -> String {
    match Refusal::from_number(number.into()) {
        Some(Refusal::BadNumber) => "the offsets of the row do not lie in the column".to_owned(),
        refusal => refusal.map_or_else(String::new, |it| it.to_string()),
    }
}

/// Tests each row by a checksum, and returns the numbers: 0 is accepted.
#[must_use]
pub fn check<Ck: Checksum>(texts: Column<'_>) -> Vec<u8> {
    let mut numbers = vec![0; texts.len()];
    match Ck::CODE {
        Some(code) => raw::check_many(code.number, &texts, texts.first, &mut numbers),
        None => {
            for (at, number) in numbers.iter_mut().enumerate() {
                *number = number_by::<Ck>(texts.row(at));
            }
            Ok(())
        }
    }
    .expect(IN_ORDER);
    numbers
}

/// The same by Bech32m and Bech32: one that accepts the text suffices.
#[must_use]
pub fn check_either(texts: Column<'_>) -> Vec<u8> {
    let mut numbers = vec![0; texts.len()];
    raw::check_many(0, &texts, texts.first, &mut numbers).expect(IN_ORDER);
    numbers
}

// The number of a row by a checksum that the library does not know.
fn number_by<Ck: Checksum>(row: Result<&[u8], Refusal>) -> u8 {
    let text = row.and_then(|it| core::str::from_utf8(it).map_err(|_| Refusal::NotUtf8));
    let found = text.and_then(|it| {
        let checked = crate::primitives::decode::CheckedHrpstring::new::<Ck>(it);
        checked.map(|_| ()).map_err(Refusal::from)
    });
    found.map_or_else(|refusal| refusal.number() as u8, |()| 0)
}

/// Decodes segwit addresses. Name the human-readable part of your network: other addresses then have the number
/// of [`Refusal::OtherHrp`]. Where it is `None` any is accepted, and yours to compare.
#[must_use]
pub fn decode(texts: Column<'_>, hrp: Option<Hrp>) -> Addresses {
    let (count, most) = (texts.len(), texts.len().min(ROWS));
    let mut numbers = vec![0; count];
    let (mut versions, mut hrp_lengths) = (numbers.clone(), numbers.clone());
    let mut programs = Rows::with_room(count);
    let (mut offsets, mut made) = (vec![0; most + 1], vec![0; most * MAX_PROGRAM_LENGTH]);
    for start in (0..count).step_by(ROWS) {
        let rows = start..count.min(start + ROWS);
        let own = &mut offsets[..=rows.len()];
        let decoded = raw::Decoded {
            numbers: &mut numbers[rows.clone()],
            versions: &mut versions[rows.clone()],
            hrp_lengths: &mut hrp_lengths[rows],
            program_offsets: own,
            programs: &mut made,
        };
        let part = hrp.as_ref().map_or(&[][..], Hrp::as_bytes);
        raw::segwit_decode_many(&texts, texts.first + start, part, decoded).expect(IN_ORDER);
        programs.add(own, &made);
    }
    let programs = programs.marked(&numbers);
    Addresses {
        numbers,
        versions,
        hrp_lengths,
        programs,
    }
}

/// Encodes segwit addresses of one human-readable part: a witness version, from 0 to 16, and a program for each.
///
/// # Panics
///
/// If there are not as many versions as programs.
#[must_use]
pub fn encode(hrp: Hrp, versions: &[u8], programs: Column<'_>) -> Texts {
    let (count, most) = (programs.len(), programs.len().min(ROWS));
    assert_eq!(versions.len(), count, "a version for each program");
    // The number of a version above 31 is that of one above 16.
    let versions: Vec<u8> = versions.iter().map(|it| (*it).min(31)).collect();
    let (mut numbers, mut texts) = (vec![0; count], Rows::with_room(count));
    let mut offsets = vec![0; most + 1];
    let mut made = vec![0; most * rules::MAX_STRING_LENGTH];
    for start in (0..count).step_by(ROWS) {
        let rows = start..count.min(start + ROWS);
        let own = &mut offsets[..=rows.len()];
        let encoded = raw::Encoded {
            numbers: &mut numbers[rows.clone()],
            text_offsets: own,
            texts: &mut made,
        };
        let first = programs.first + start;
        raw::segwit_encode_many(hrp.as_bytes(), &versions[rows], &programs, first, encoded)
            .expect(IN_ORDER);
        texts.add(own, &made);
    }
    let texts = texts.marked(&numbers);
    Texts { numbers, texts }
}
