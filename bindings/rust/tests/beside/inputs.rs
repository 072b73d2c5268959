//! Random calls: right texts, mistyped ones, and what is no text at all.

use crate::calls::{Call, Code};
use bech32::{segwit, Bech32, Bech32m, ByteIterExt, Fe32, Fe32IterExt, Hrp};

const CHARACTERS: &[u8; 32] = b"qpzry9x8gf2tvdw0s3jn54khce6mua7l";

/// A source of calls, the same for the same seed.
pub struct Inputs(u64);

impl Inputs {
    pub fn new(seed: u64) -> Inputs {
        Inputs(seed)
    }

    // A number below another (Knuth's MMIX generator, its upper half).
    fn below(&mut self, n: usize) -> usize {
        let next = self.0.wrapping_mul(6364136223846793005);
        self.0 = next.wrapping_add(1442695040888963407);
        (self.0 >> 33) as usize % n
    }

    fn one_in(&mut self, n: usize) -> bool {
        self.below(n) == 0
    }

    fn pick<T: Copy>(&mut self, items: &[T]) -> T {
        items[self.below(items.len())]
    }

    fn code(&mut self) -> Code {
        self.pick(&[Code::Bech32, Code::Bech32m])
    }

    fn bytes(&mut self, most: usize) -> Vec<u8> {
        let n = self.below(most + 1);
        (0..n).map(|_| self.below(256) as u8).collect()
    }

    fn elements(&mut self, most: usize) -> Vec<Fe32> {
        let n = self.below(most + 1);
        let element = |_| Fe32::try_from(self.below(32) as u8).unwrap();
        (0..n).map(element).collect()
    }

    // A character that is printed, or one of a few others.
    fn character(&mut self) -> char {
        match self.below(20) {
            0 => self.pick(&[
                '\u{7f}',
                '\n',
                '\u{0}',
                '\u{80}',
                '\u{e9}',
                '\u{2208}',
                '\u{1f600}',
            ]),
            _ => char::from(32 + self.below(95) as u8),
        }
    }

    // A human-readable part, of length 1 to 83 mostly below 12.
    fn right_part(&mut self) -> Hrp {
        let most = if self.one_in(20) { 83 } else { 12 };
        let n = 1 + self.below(most);
        let text: String = (0..n)
            .map(|_| char::from(33 + self.below(94) as u8))
            .collect();
        let text = if self.one_in(4) {
            text.to_ascii_uppercase()
        } else {
            text.to_ascii_lowercase()
        };
        Hrp::parse(&text).unwrap()
    }

    // What may be a human-readable part.
    fn part(&mut self) -> String {
        match self.below(8) {
            0 => {
                let n = self.below(100);
                (0..n)
                    .map(|_| char::from(33 + self.below(60) as u8))
                    .collect()
            }
            1 => {
                let n = self.below(4);
                (0..n).map(|_| self.character()).collect()
            }
            2 => self.pick(&["bc", "tb", "bcrt", "BC", "Bc"]).to_owned(),
            _ => self.right_part().to_string(),
        }
    }

    // A text that a checksum accepts.
    fn accepted(&mut self) -> String {
        let hrp = self.right_part();
        let most = if self.one_in(20) { 640 } else { 60 };
        let bytes = self.bytes(most);
        let text = match self.code() {
            Code::Bech32 => bech32::encode::<Bech32>(hrp, &bytes),
            Code::Bech32m => bech32::encode::<Bech32m>(hrp, &bytes),
        };
        text.unwrap_or_else(|_| "a12uel5l".to_owned())
    }

    // An address.
    fn address(&mut self) -> String {
        let version = self.below(17) as u8;
        let length = match version {
            0 => self.pick(&[20, 32]),
            _ => 2 + self.below(39),
        };
        let program: Vec<u8> = (0..length).map(|_| self.below(256) as u8).collect();
        let version = Fe32::try_from(version).unwrap();
        let hrp = self.pick(&[bech32::hrp::BC, bech32::hrp::TB, bech32::hrp::BCRT]);
        segwit::encode(hrp, version, &program).unwrap()
    }

    // A text with a right checksum whose elements are any: another version, padding, program.
    fn any_elements(&mut self) -> String {
        let hrp = self.pick(&[bech32::hrp::BC, bech32::hrp::TB]);
        let version = Fe32::try_from(self.below(20) as u8).unwrap();
        let elements = match self.below(3) {
            0 => self.elements(68),
            1 => self.elements(4),
            _ => self.bytes(42).iter().copied().bytes_to_fes().collect(),
        };
        let elements = elements.into_iter();
        match self.code() {
            Code::Bech32 => {
                let encoder = elements.with_checksum::<Bech32>(&hrp);
                encoder.with_witness_version(version).chars().collect()
            }
            Code::Bech32m => {
                let encoder = elements.with_checksum::<Bech32m>(&hrp);
                encoder.with_witness_version(version).chars().collect()
            }
        }
    }

    // Characters of the alphabet with a separator, or any.
    fn no_text(&mut self) -> String {
        let part = self.part();
        match self.below(4) {
            0 => {
                let n = self.below(20);
                (0..n).map(|_| self.character()).collect()
            }
            1 => format!("{part}1{}", "q".repeat(self.below(1100))),
            2 => part,
            _ => {
                let n = self.below(10);
                let data: String = (0..n).map(|_| char::from(self.pick(CHARACTERS))).collect();
                format!("{part}1{data}")
            }
        }
    }

    // A text with other characters of the alphabet at up to three places of its data part.
    fn mistyped(&mut self, text: &str) -> String {
        let mut characters: Vec<char> = text.chars().collect();
        let data = text
            .rsplit_once('1')
            .map_or(0, |(_, data)| data.chars().count());
        for _ in 0..self.below(4).min(data) {
            let place = characters.len() - 1 - self.below(data);
            let character = char::from(self.pick(CHARACTERS));
            characters[place] = match text.chars().any(char::is_uppercase) {
                true => character.to_ascii_uppercase(),
                false => character,
            };
        }
        characters.into_iter().collect()
    }

    // A text with anything done to it at a place or two.
    fn damaged(&mut self, text: &str) -> String {
        let mut characters: Vec<char> = text.chars().collect();
        for _ in 0..1 + self.below(2) {
            if characters.is_empty() {
                break;
            }
            let place = self.below(characters.len());
            match self.below(5) {
                0 => characters[place] = self.character(),
                1 => characters.insert(place, self.character()),
                2 => drop(characters.remove(place)),
                3 => characters[place] = characters[place].to_ascii_uppercase(),
                _ => characters.truncate(place),
            }
        }
        characters.into_iter().collect()
    }

    fn text(&mut self) -> String {
        let text = match self.below(8) {
            0..=2 => self.accepted(),
            3 | 4 => self.address(),
            5 | 6 => self.any_elements(),
            _ => return self.no_text(),
        };
        let text = if self.one_in(4) {
            text.to_uppercase()
        } else {
            text
        };
        match self.below(4) {
            0 | 1 => text,
            2 => self.mistyped(&text),
            _ => self.damaged(&text),
        }
    }

    // Locations, most of them in the data part of a text.
    #[cfg(feature = "correct")]
    fn erasures(&mut self, text: &str) -> Vec<usize> {
        let n = self.pick(&[0, 0, 0, 1, 1, 2, 3, 4, 5]);
        let most = text.len().max(8);
        let mut found: Vec<usize> = (0..n).map(|_| self.below(most)).collect();
        if self.one_in(50) {
            found.push(self.pick(&[1022, 1023, usize::MAX]));
        }
        found
    }

    #[cfg(feature = "correct")]
    fn correction(&mut self) -> Call {
        let text = match self.below(8) {
            0 => self.text(),
            1 | 2 => self.address(),
            _ => self.accepted(),
        };
        let text = self.mistyped(&text);
        let erasures = self.erasures(&text);
        Call::Correct(self.code(), text, erasures)
    }

    /// The next call.
    pub fn call(&mut self) -> Call {
        #[cfg(feature = "correct")]
        if self.one_in(8) {
            return self.correction();
        }
        match self.below(20) {
            16..=18 => Call::Read(self.text()),
            19 => Call::ReadPart(self.part(), self.bytes(700)),
            0 => Call::Parse(self.part()),
            1 => Call::Compare(self.part(), self.part()),
            2 | 3 => {
                let most = if self.one_in(4) { 700 } else { 60 };
                Call::Encode(self.code(), self.part(), self.bytes(most))
            }
            4 | 5 => {
                let version = self.pick(&[0, 0, 1, 2, 16, 17, 31]);
                Call::SegwitEncode(self.part(), version, self.bytes(44))
            }
            6..=8 => Call::Decode(self.text()),
            9..=11 => Call::Check(self.code(), self.text()),
            _ => Call::SegwitDecode(self.text()),
        }
    }
}
