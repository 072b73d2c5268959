//! Numbers by which inputs are made.

/// A generator of numbers, the same in each run.
pub struct Numbers(pub u64);

impl Numbers {
    /// A number below n.
    pub fn below(&mut self, n: u64) -> u64 {
        self.0 = self
            .0
            .wrapping_mul(6364136223846793005)
            .wrapping_add(1442695040888963407);
        (self.0 >> 33) % n
    }

    /// At most this many bytes.
    pub fn bytes(&mut self, most: u64) -> Vec<u8> {
        let n = self.below(most + 1);
        (0..n).map(|_| self.below(256) as u8).collect()
    }

    /// A human-readable part, which may have letters of both cases.
    pub fn part(&mut self) -> String {
        let n = 1 + self.below(12);
        (0..n)
            .map(|_| (33 + self.below(94)) as u8 as char)
            .collect()
    }

    /// Changes up to three characters, or leaves the text as it is.
    pub fn mistyped(&mut self, text: &str) -> String {
        let mut bytes = text.as_bytes().to_vec();
        for _ in 0..self.below(4) {
            let place = self.below(bytes.len() as u64) as usize;
            bytes[place] = (32 + self.below(96)) as u8;
        }
        String::from_utf8(bytes).unwrap()
    }
}
