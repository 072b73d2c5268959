//! Whether any pattern within the bound explains why a text is refused: each of them is tried.

use bech32::primitives::checksum::{Engine, PackedFe32};
use bech32::primitives::decode::UncheckedHrpstring;
use bech32::{Bech32, Checksum, Fe32};
use std::collections::HashMap;
use std::sync::OnceLock;

const PLACES: usize = Bech32::CODE_LENGTH;

// Twice the errors outside the given locations, and these, are at most this many.
const BOUND: usize = 3;

// The remainders of single terms, which are those of both checksums: for each location and element,
// and the location for each remainder.
struct Terms {
    remainders: Vec<[u32; 32]>,
    locations: HashMap<u32, usize>,
}

impl Terms {
    fn new() -> Self {
        let (mut remainders, mut locations) = (vec![], HashMap::new());
        let mut engine = Engine::<Bech32>::new(); // stands at the polynomial 1
        for location in 0..PLACES {
            let power = *engine.residue();
            let row: [u32; 32] = std::array::from_fn(|value| times(value as u8, power));
            locations.extend(row[1..].iter().map(|remainder| (*remainder, location)));
            remainders.push(row);
            engine.input_fe(Fe32::Q);
        }
        assert_eq!(locations.len(), 31 * PLACES);
        Terms {
            remainders,
            locations,
        }
    }
}

fn element(value: u8) -> Fe32 {
    Fe32::try_from(value).expect("below 32")
}

fn times(value: u8, remainder: u32) -> u32 {
    let factor = element(value);
    let digits = (0..6)
        .rev()
        .map(|i| (factor * element(remainder.unpack(i))).to_u8());
    PackedFe32::pack(digits)
}

/// Whether a pattern in the data part of a text, which the checksum refuses for its residue, has that
/// residue as remainder: with at most as many errors outside the given locations as the bound allows.
pub fn has_solution<Ck: Checksum<MidstateRepr = u32>>(text: &str, given: &[usize]) -> bool {
    static TERMS: OnceLock<Terms> = OnceLock::new();
    let Ok(text) = UncheckedHrpstring::new(text) else {
        return false;
    };
    let data = text.data_part_ascii();
    if given.len() > BOUND || given.iter().any(|location| *location >= data.len()) {
        return false;
    }
    let mut engine = Engine::<Ck>::new();
    engine.input_hrp(text.hrp());
    for character in data {
        engine.input_fe(Fe32::from_char(char::from(*character)).expect("of the alphabet"));
    }
    let residue = *engine.residue() ^ Ck::TARGET_RESIDUE;
    let errors = (BOUND - given.len()) / 2;
    is_sum(
        TERMS.get_or_init(Terms::new),
        residue,
        given,
        errors,
        data.len(),
    )
}

// Whether a remainder is that of elements at the given locations and this many others, one at most,
// below the window.
fn is_sum(terms: &Terms, rest: u32, given: &[usize], errors: usize, window: usize) -> bool {
    match given.split_first() {
        Some((location, given)) => terms.remainders[*location]
            .iter()
            .any(|remainder| is_sum(terms, rest ^ remainder, given, errors, window)),
        None if rest == 0 => true,
        None if errors == 0 => false,
        None => terms
            .locations
            .get(&rest)
            .is_some_and(|location| *location < window),
    }
}
