//! Whether any pattern within the bound explains why a text is refused, by elimination in the
//! equations that the 13 digits of the remainders give: no syndromes, no registers and no roots.

use super::answer::CHECKSUM;
use super::checksum::Codex32;
use super::nearest::{Damaged, BOUND};
use bech32::primitives::checksum::{Engine, PackedFe32};
use bech32::primitives::decode::UncheckedHrpstring;
use bech32::{Checksum, Fe32};
use std::sync::OnceLock;

// The digits of a remainder, from the lowest.
type Digits = [u8; CHECKSUM];

fn digits_of(remainder: u128) -> Digits {
    std::array::from_fn(|place| remainder.unpack(place))
}

fn element(value: usize) -> Fe32 {
    Fe32::try_from(value as u8).expect("below 32")
}

// The products and inverses of the 32 elements, and the remainders of the powers of x.
struct Tables {
    products: [[u8; 32]; 32],
    inverses: [u8; 32],
    powers: Vec<Digits>,
}

impl Tables {
    fn get() -> &'static Tables {
        static TABLES: OnceLock<Tables> = OnceLock::new();
        TABLES.get_or_init(|| {
            let product = |a, b| (element(a) * element(b)).to_u8();
            let inverse = |a: usize| match a {
                0 => 0,
                _ => (Fe32::P / element(a)).to_u8(),
            };
            let mut engine = Engine::<Codex32>::new(); // stands at the polynomial 1
            Tables {
                products: std::array::from_fn(|a| std::array::from_fn(|b| product(a, b))),
                inverses: std::array::from_fn(inverse),
                powers: (0..Codex32::CODE_LENGTH)
                    .map(|_| {
                        let power = digits_of(*engine.residue());
                        engine.input_fe(Fe32::Q);
                        power
                    })
                    .collect(),
            }
        })
    }

    // The multiple of some digits whose first digit that is not zero is one.
    fn pivot(&self, digits: &Digits) -> Option<Pivot> {
        let place = digits.iter().position(|digit| *digit != 0)?;
        let multiples = &self.products[usize::from(self.inverses[usize::from(digits[place])])];
        Some(Pivot {
            place,
            digits: digits.map(|digit| multiples[usize::from(digit)]),
        })
    }

    // The digits with a multiple of the pivot added, so that the one at the pivot's place is zero.
    fn eliminated(&self, pivot: &Pivot, digits: &Digits) -> Digits {
        let multiples = &self.products[usize::from(digits[pivot.place])];
        std::array::from_fn(|i| digits[i] ^ multiples[usize::from(pivot.digits[i])])
    }

    // Whether a remainder is a sum of multiples of at most this many of the columns. With the columns
    // that were eliminated before these are eight at most, which no equation ties to one another.
    fn is_sum(&self, remainder: &Digits, columns: &[Digits], most: usize) -> bool {
        let Some(remainder_pivot) = self.pivot(remainder) else {
            return true;
        };
        match most {
            0 => false,
            1 | 2 => self.is_sum_of_few(&remainder_pivot, columns, most),
            _ => columns.iter().enumerate().any(|(at, column)| {
                let pivot = self.pivot(column).expect("not zero: no equation ties it");
                let others: Vec<Digits> = columns[at + 1..]
                    .iter()
                    .map(|other| self.eliminated(&pivot, other))
                    .collect();
                self.is_sum(&self.eliminated(&pivot, remainder), &others, most - 1)
            }),
        }
    }

    // The same for one or two columns: the remainder eliminated, one is zero, or two are multiples of
    // one another.
    fn is_sum_of_few(&self, remainder: &Pivot, columns: &[Digits], most: usize) -> bool {
        let mut directions = Vec::with_capacity(columns.len());
        for column in columns {
            match self.pivot(&self.eliminated(remainder, column)) {
                Some(pivot) => directions.push(pivot.digits),
                None => return true,
            }
        }
        directions.sort_unstable();
        most == 2 && directions.windows(2).any(|two| two[0] == two[1])
    }
}

// Digits of which the first that is not zero is one, and its place.
struct Pivot {
    place: usize,
    digits: Digits,
}

/// Whether the residue of a text, with at most eight characters that cannot be read, is that of
/// elements at these and at as many further locations of the data part as the bound allows.
pub fn has_solution(text: &Damaged) -> bool {
    let tables = Tables::get();
    let read = UncheckedHrpstring::new(&text.read).expect("a text of the grammar");
    let mut engine = Engine::<Codex32>::new();
    engine.input_hrp(read.hrp());
    for character in read.data_part_ascii() {
        engine.input_fe(Fe32::from_char(char::from(*character)).expect("of the alphabet"));
    }
    let mut remainder = digits_of(*engine.residue() ^ Codex32::TARGET_RESIDUE);
    let (mut unreadable, mut columns) = (vec![], vec![]);
    for location in 0..read.data_part_ascii().len() {
        match text.unreadable.contains(&location) {
            true => unreadable.push(tables.powers[location]),
            false => columns.push(tables.powers[location]),
        }
    }
    let errors = (BOUND - unreadable.len()) / 2;
    while let Some(column) = unreadable.pop() {
        let pivot = tables
            .pivot(&column)
            .expect("not zero: no equation ties it");
        remainder = tables.eliminated(&pivot, &remainder);
        for other in unreadable.iter_mut().chain(&mut columns) {
            *other = tables.eliminated(&pivot, other);
        }
    }
    tables.is_sum(&remainder, &columns, errors)
}
