//! Columns as the functions take them.

use crate::declared;
use std::mem::size_of_val;
use std::ptr;

/// A column as Arrow has it. Its offsets may be any: the library tests them.
#[derive(Clone, Copy)]
pub struct Column<'a> {
    pub bytes: &'a [u8],
    pub offsets: Offsets<'a>,
    /// Bit i % 8 of byte i / 8 is 0 where row i is null. If there is no byte, no row is null.
    pub validity: &'a [u8],
    pub rows: usize,
}

/// How the rows of a column are found.
#[derive(Clone, Copy)]
pub enum Offsets<'a> {
    Narrow(&'a [i32]),
    Wide(&'a [i64]),
    /// The bytes of each row.
    Width(usize),
    /// Likewise; a row ends before the zeros at its end.
    WidthBeforeZeros(usize),
}

/// The column as C has it, which holds for as long as what it borrows. Each pointer stands with the length of its slice.
pub fn laid(column: &Column<'_>) -> declared::Column {
    let (offsets, offsets_length, width, layout) = match column.offsets {
        Offsets::Narrow(it) => (it.as_ptr().cast(), size_of_val(it), 0, 1),
        Offsets::Wide(it) => (it.as_ptr().cast(), size_of_val(it), 0, 2),
        Offsets::Width(width) => (ptr::null(), 0, width, 3),
        Offsets::WidthBeforeZeros(width) => (ptr::null(), 0, width, 4),
    };
    declared::Column {
        bytes: column.bytes.as_ptr(),
        bytes_length: column.bytes.len(),
        offsets,
        offsets_length,
        validity: column.validity.as_ptr(),
        validity_length: column.validity.len(),
        rows: column.rows,
        width,
        layout,
    }
}
