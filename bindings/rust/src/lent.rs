//! Memory for the calls that list texts.

use crate::text::MAX_TEXT_LENGTH;
use crate::Refusal;

// The bytes that a call is lent at first, and how many more for each character of a text, up to the longest that
// is searched.
const LEAST_MEMORY: usize = 64 << 10;
const OF_A_CHARACTER: usize = 512;

/// The bytes that a call is lent at most, and that its texts fill at most.
pub const MOST_MEMORY: usize = 16 << 20;

// The factor by which they grow if they do not suffice.
const GROWTH: usize = 8;

/// How much memory calls are lent, one after another.
pub struct Lent {
    size: usize,
}

impl Lent {
    /// As much as suffices for most texts of `length` characters.
    pub fn for_text(length: usize) -> Lent {
        Lent::of(LEAST_MEMORY + OF_A_CHARACTER * length.min(MAX_TEXT_LENGTH))
    }

    // Memory of `size` bytes.
    fn of(size: usize) -> Lent {
        Lent { size }
    }

    /// What a call returns. It is made again with more memory while there is too little.
    pub fn to<T>(
        &mut self,
        mut call: impl FnMut(usize) -> Result<T, Refusal>,
    ) -> Result<T, Refusal> {
        loop {
            let size = self.size;
            match call(size) {
                Err(Refusal::NoMemory) if size < MOST_MEMORY => {
                    *self = Lent::of(MOST_MEMORY.min(GROWTH * size));
                }
                other => return other,
            }
        }
    }
}

#[cfg(test)]
mod tests {
    use super::*;
    use crate::prelude::vec;
    use crate::raw;

    const MISTYPED: &[u8] = b"bc1qqq08d6qejxtdg4y5r3zarvary0c5xw7kv8f3t4";
    const MISSING: &[u8] = b"bc1qw508d6qejxtdg4y53zarvary0c5xw7kv8f3t4";

    // The number of near texts.
    fn nearest(lent: usize) -> Result<usize, Refusal> {
        raw::nearest(1, MISTYPED, &[], 2, lent, &mut [])
    }

    // The number of texts of one edit.
    fn near_edits(lent: usize) -> Result<usize, Refusal> {
        raw::near_edits(1, MISSING, lent, &mut [], &mut [], &mut [])
    }

    #[test]
    fn takes_more_memory_while_there_is_too_little() {
        for size in [16, 160, 1 << 12, LEAST_MEMORY] {
            let mut lent = Lent::of(size);
            assert_eq!(lent.to(nearest), Ok(1));
            // What has grown is there for the next call.
            assert_eq!(nearest(lent.size), Ok(1));
            assert_eq!(Lent::of(size).to(near_edits), Ok(1));
        }
        assert_eq!(nearest(0), Err(Refusal::NoMemory));
        assert_eq!(near_edits(0), Err(Refusal::NoMemory));
        let mixed = |lent: usize| raw::nearest(1, b"a12ueL5q", &[], 2, lent, &mut []);
        assert_eq!(mixed(0), Err(Refusal::MixedCase));
    }

    #[test]
    fn gives_up_where_the_most_does_not_suffice() {
        let mut sizes = vec![];
        let answer: Result<(), Refusal> = Lent::of(1 << 20).to(|lent| {
            sizes.push(lent);
            Err(Refusal::NoMemory)
        });
        assert_eq!(answer, Err(Refusal::NoMemory));
        assert_eq!(sizes, [1 << 20, 8 << 20, MOST_MEMORY]);
    }
}
