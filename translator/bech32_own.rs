// What the calls on columns need beside those that tools/make.d/native_calls writes.

/// A column as Arrow has it. Its offsets may be any: the library tests them.
#[cfg(feature = "columns")]
#[derive(Clone, Copy)]
pub struct Column<'a> {
    pub bytes: &'a [u8],
    pub offsets: Offsets<'a>,
    /// Bit i % 8 of byte i / 8 is 0 where row i is null. If there is no byte, no row is null.
    pub validity: &'a [u8],
    pub rows: usize,
}

/// How the rows of a column are found.
#[cfg(feature = "columns")]
#[derive(Clone, Copy)]
pub enum Offsets<'a> {
    Narrow(&'a [i32]),
    Wide(&'a [i64]),
    /// The bytes of each row.
    Width(usize),
    /// Likewise; a row ends before the zeros at its end.
    WidthBeforeZeros(usize),
}

/// Some rows of a column, with no more of its buffers than they need. The first row is at a multiple of eight, as is the first
/// bit of a byte of the validity.
#[cfg(feature = "columns")]
struct Part<'a> {
    bytes: &'a [u8],
    offsets: Offsets<'a>,
    // What is subtracted from each offset, since the bytes before it are left out.
    shift: i64,
    validity: &'a [u8],
    rows: usize,
    // The number of the layout in bech32.h, and the bytes of each row.
    layout: u64,
    width: usize,
}

/// The end of a slice, which is empty where it begins beyond that.
#[cfg(feature = "columns")]
fn from<T>(items: &[T], at: usize, most: usize) -> &[T] {
    let rest = items.get(at..).unwrap_or(&[]);
    &rest[..rest.len().min(most)]
}

#[cfg(feature = "columns")]
impl<'a> Part<'a> {
    /// The rows from `first` on, `count` of them, if the column has them.
    fn of(column: &Column<'a>, first: usize, count: usize) -> Option<Part<'a>> {
        if first > column.rows || count > column.rows - first {
            return None;
        }
        let base = first - first % 8;
        let rows = first % 8 + count;
        let mut part = Part {
            bytes: &[],
            offsets: Offsets::Narrow(&[]),
            shift: 0,
            validity: from(column.validity, base / 8, rows / 8 + 1),
            rows,
            layout: 2,
            width: 0,
        };
        if !column.validity.is_empty() && part.validity.is_empty() {
            // No bit of these rows is there, as none is in a column without offsets.
            return Some(part);
        }
        match column.offsets {
            Offsets::Narrow(offsets) => part.cut(column.bytes, Offsets::Narrow(from(offsets, base, rows + 1))),
            Offsets::Wide(offsets) => part.cut(column.bytes, Offsets::Wide(from(offsets, base, rows + 1))),
            Offsets::Width(width) => part.fixed(column.bytes, base, width, 3),
            Offsets::WidthBeforeZeros(width) => part.fixed(column.bytes, base, width, 4),
        }
        Some(part)
    }

    fn fixed(&mut self, bytes: &'a [u8], base: usize, width: usize, layout: u64) {
        self.bytes = from(bytes, base.saturating_mul(width), self.rows.saturating_mul(width));
        (self.width, self.layout) = (width, layout);
    }

    /// Takes the bytes from the first that a row has up to the last.
    fn cut(&mut self, bytes: &'a [u8], offsets: Offsets<'a>) {
        self.offsets = offsets;
        let (mut low, mut high) = (bytes.len(), 0);
        for i in 1..self.count() {
            let (start, end) = (self.offset(i - 1), self.offset(i));
            if start >= 0 && start <= end && end <= bytes.len() as i64 {
                low = low.min(start as usize);
                high = high.max(end as usize);
            }
        }
        low = low.min(high);
        self.bytes = &bytes[low..high];
        self.shift = low as i64;
    }

    fn count(&self) -> usize {
        match self.offsets {
            Offsets::Narrow(offsets) => offsets.len(),
            Offsets::Wide(offsets) => offsets.len(),
            _ => 0,
        }
    }

    /// An offset. One below those of the bytes that are there is negative: no row begins or ends there.
    fn offset(&self, i: usize) -> i64 {
        let offset = match self.offsets {
            Offsets::Narrow(offsets) => i64::from(offsets[i]),
            Offsets::Wide(offsets) => offsets[i],
            _ => -1,
        };
        if offset < self.shift {
            -1
        } else {
            offset - self.shift
        }
    }

    const HEAD: usize = 80;

    fn size(&self) -> usize {
        (Self::HEAD + self.validity.len() + self.bytes.len()).saturating_add(self.count().saturating_mul(8))
    }

    /// Puts it into the memory of a call, as the library has a column.
    fn put(&self, m: &mut [u8], at: u64) {
        let offsets_at = at + Self::HEAD as u64;
        let validity_at = offsets_at + 8 * self.count() as u64;
        let bytes_at = validity_at + self.validity.len() as u64;
        let head = [
            bytes_at,
            self.bytes.len() as u64,
            offsets_at,
            8 * self.count() as u64,
            validity_at,
            self.validity.len() as u64,
            self.rows as u64,
            self.width as u64,
            self.layout,
        ];
        for (i, number) in head.into_iter().enumerate() {
            store_64(m, at + 8 * i as u64, number);
        }
        for i in 0..self.count() {
            store_64(m, offsets_at + 8 * i as u64, self.offset(i) as u64);
        }
        put(m, validity_at, self.validity);
        put(m, bytes_at, self.bytes);
    }
}

#[cfg(feature = "columns")]
fn put_offsets(m: &mut [u8], at: u64, offsets: &[i32]) {
    for (i, offset) in offsets.iter().enumerate() {
        store_32(m, at + 4 * i as u64, *offset as u32);
    }
}

#[cfg(feature = "columns")]
fn take_offsets(m: &[u8], at: u64, offsets: &mut [i32]) {
    for (i, offset) in offsets.iter_mut().enumerate() {
        *offset = load_32(m, at + 4 * i as u64) as i32;
    }
}
