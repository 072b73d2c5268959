//! The calls that `include/bech32.h` declares: those of the static library `bech32_c`, and those of
//! `bench/limit`, which is C.

use crate::{declared, limit, Reply};

pub const BECH32: u32 = 1;
pub const BECH32M: u32 = 2;

type Encode = unsafe extern "C" fn(
    u32,
    *const u8,
    usize,
    *const u8,
    usize,
    *mut u8,
    usize,
    *mut usize,
) -> u32;
type Decode = unsafe extern "C" fn(
    *const u8,
    usize,
    *mut u8,
    usize,
    *mut usize,
    *mut u8,
    usize,
    *mut usize,
) -> u32;
type Check = unsafe extern "C" fn(u32, *const u8, usize, *mut usize, *mut usize) -> u32;
type Fault = unsafe extern "C" fn(u32, *const u8, usize, *mut usize) -> u32;
type SegwitEncode = unsafe extern "C" fn(
    *const u8,
    usize,
    u32,
    *const u8,
    usize,
    *mut u8,
    usize,
    *mut usize,
) -> u32;
type SegwitDecode = unsafe extern "C" fn(
    *const u8,
    usize,
    *mut u8,
    usize,
    *mut usize,
    *mut u32,
    *mut u8,
    usize,
    *mut usize,
) -> u32;
type Residue = unsafe extern "C" fn(u32, *const u8, usize, *mut u32) -> u32;
type Correct = unsafe extern "C" fn(
    u32,
    *const u8,
    usize,
    *const usize,
    usize,
    *mut usize,
    usize,
    *mut u8,
    usize,
    *mut usize,
    *mut u8,
    usize,
    *mut usize,
) -> u32;

/// The functions of one side.
pub struct Calls {
    encode: Encode,
    decode: Decode,
    check: Check,
    fault: Fault,
    segwit_encode: SegwitEncode,
    segwit_decode: SegwitDecode,
    residue: Residue,
    correct: Correct,
}

/// The library.
pub static OURS: Calls = Calls {
    encode: declared::bech32_encode,
    decode: declared::bech32_decode,
    check: declared::bech32_check,
    fault: declared::bech32_fault,
    segwit_encode: declared::bech32_segwit_encode,
    segwit_decode: declared::bech32_segwit_decode,
    residue: declared::bech32_residue,
    correct: declared::bech32_correct,
};

/// As fast as C was made to go. `bench/run` declares these functions as those of the header.
pub static LIMIT: Calls = Calls {
    encode: limit::limit_encode,
    decode: limit::limit_decode,
    check: limit::limit_check,
    fault: limit::limit_fault,
    segwit_encode: limit::limit_segwit_encode,
    segwit_decode: limit::limit_segwit_decode,
    residue: limit::limit_residue,
    correct: limit::limit_correct,
};

/// The buffers of a caller, which every call uses again.
pub struct Buffers {
    pub hrp: [u8; 83],
    pub text: [u8; 1024],
    pub locations: [usize; 8],
    pub values: [u8; 8],
}

impl Buffers {
    pub fn new() -> Self {
        Buffers {
            hrp: [0; 83],
            text: [0; 1024],
            locations: [0; 8],
            values: [0; 8],
        }
    }
}

fn answered<T>(answer: u32, value: T) -> Result<T, u32> {
    match answer {
        0 => Ok(value),
        number => Err(number),
    }
}

impl Calls {
    pub fn encode(
        &self,
        checksum: u32,
        hrp: &str,
        bytes: &[u8],
        out: &mut Buffers,
    ) -> Result<usize, u32> {
        let mut length = 0;
        // SAFETY: each pointer stands with the length of its slice, and no two overlap.
        let answer = unsafe {
            (self.encode)(
                checksum,
                hrp.as_ptr(),
                hrp.len(),
                bytes.as_ptr(),
                bytes.len(),
                out.text.as_mut_ptr(),
                out.text.len(),
                &mut length,
            )
        };
        answered(answer, length)
    }

    pub fn decode(&self, text: &str, out: &mut Buffers) -> Result<(usize, usize), u32> {
        let (mut hrp_length, mut length) = (0, 0);
        // SAFETY: each pointer stands with the length of its slice, and no two overlap.
        let answer = unsafe {
            (self.decode)(
                text.as_ptr(),
                text.len(),
                out.hrp.as_mut_ptr(),
                out.hrp.len(),
                &mut hrp_length,
                out.text.as_mut_ptr(),
                out.text.len(),
                &mut length,
            )
        };
        answered(answer, (hrp_length, length))
    }

    pub fn check(&self, checksum: u32, text: &str) -> Result<(usize, usize), u32> {
        let (mut hrp_length, mut length) = (0, 0);
        // SAFETY: the pointer stands with the length of its slice.
        let answer = unsafe {
            (self.check)(
                checksum,
                text.as_ptr(),
                text.len(),
                &mut hrp_length,
                &mut length,
            )
        };
        answered(answer, (hrp_length, length))
    }

    /// The number of a text's refusal, or 0, and what the place is then that was `usize::MAX`.
    pub fn fault(&self, checksum: u32, text: &[u8]) -> (u32, usize) {
        let mut place = usize::MAX;
        // SAFETY: the pointer stands with the length of its slice.
        let number = unsafe { (self.fault)(checksum, text.as_ptr(), text.len(), &mut place) };
        (number, place)
    }

    pub fn segwit_encode(
        &self,
        hrp: &str,
        version: u32,
        program: &[u8],
        out: &mut Buffers,
    ) -> Result<usize, u32> {
        let mut length = 0;
        // SAFETY: each pointer stands with the length of its slice, and no two overlap.
        let answer = unsafe {
            (self.segwit_encode)(
                hrp.as_ptr(),
                hrp.len(),
                version,
                program.as_ptr(),
                program.len(),
                out.text.as_mut_ptr(),
                out.text.len(),
                &mut length,
            )
        };
        answered(answer, length)
    }

    pub fn segwit_decode(&self, text: &str, out: &mut Buffers) -> Result<(usize, u32, usize), u32> {
        let (mut hrp_length, mut version, mut length) = (0, 0, 0);
        // SAFETY: each pointer stands with the length of its slice, and no two overlap.
        let answer = unsafe {
            (self.segwit_decode)(
                text.as_ptr(),
                text.len(),
                out.hrp.as_mut_ptr(),
                out.hrp.len(),
                &mut hrp_length,
                &mut version,
                out.text.as_mut_ptr(),
                out.text.len(),
                &mut length,
            )
        };
        answered(answer, (hrp_length, version, length))
    }

    pub fn residue(&self, checksum: u32, values: &[u8]) -> Result<u32, u32> {
        let mut residue = 0;
        // SAFETY: the pointer stands with the length of its slice.
        let answer =
            unsafe { (self.residue)(checksum, values.as_ptr(), values.len(), &mut residue) };
        answered(answer, residue)
    }

    /// The number of listed locations, and that of the characters of the mended text.
    pub fn correct(
        &self,
        checksum: u32,
        text: &str,
        erasures: &[usize],
        out: &mut Buffers,
    ) -> Result<(usize, usize), u32> {
        let (mut count, mut length) = (0, 0);
        // SAFETY: each pointer stands with the length of its slice, and no two overlap.
        let answer = unsafe {
            (self.correct)(
                checksum,
                text.as_ptr(),
                text.len(),
                erasures.as_ptr(),
                erasures.len(),
                out.locations.as_mut_ptr(),
                out.locations.len(),
                out.values.as_mut_ptr(),
                out.values.len(),
                &mut count,
                out.text.as_mut_ptr(),
                out.text.len(),
                &mut length,
            )
        };
        answered(answer, (count, length))
    }
}

/// What the calls say of a text or of bytes, in words that all sides share.
pub mod replies {
    use super::*;

    fn written(answer: Result<usize, u32>, out: &Buffers) -> Reply {
        answer.map(|n| vec![out.text[..n].to_vec()])
    }

    pub fn encode(calls: &Calls, checksum: u32, hrp: &str, bytes: &[u8]) -> Reply {
        let mut out = Buffers::new();
        let answer = calls.encode(checksum, hrp, bytes, &mut out);
        written(answer, &out)
    }

    pub fn decode(calls: &Calls, text: &str) -> Reply {
        let mut out = Buffers::new();
        calls
            .decode(text, &mut out)
            .map(|(h, n)| vec![out.hrp[..h].to_vec(), out.text[..n].to_vec()])
    }

    pub fn check(calls: &Calls, checksum: u32, text: &str) -> Reply {
        calls.check(checksum, text).map(|(h, n)| {
            let text = text.as_bytes();
            vec![text[..h].to_vec(), text[h + 1..h + 1 + n].to_vec()]
        })
    }

    pub fn segwit_encode(calls: &Calls, hrp: &str, version: u32, program: &[u8]) -> Reply {
        let mut out = Buffers::new();
        let answer = calls.segwit_encode(hrp, version, program, &mut out);
        written(answer, &out)
    }

    pub fn segwit_decode(calls: &Calls, text: &str) -> Reply {
        let mut out = Buffers::new();
        calls
            .segwit_decode(text, &mut out)
            .map(|(h, v, n)| vec![out.hrp[..h].to_vec(), vec![v as u8], out.text[..n].to_vec()])
    }

    pub fn correct(calls: &Calls, checksum: u32, text: &str, erasures: &[usize]) -> Reply {
        let mut out = Buffers::new();
        let (count, length) = calls.correct(checksum, text, erasures, &mut out)?;
        let listing = out.locations[..count].iter().zip(&out.values[..count]);
        let words = listing.map(|(place, value)| format!("{place}:{value}"));
        Ok(vec![
            words.collect::<Vec<_>>().join(" ").into_bytes(),
            out.text[..length].to_vec(),
        ])
    }

    pub fn residue(calls: &Calls, checksum: u32, values: &[u8]) -> Reply {
        calls
            .residue(checksum, values)
            .map(|r| vec![r.to_be_bytes().to_vec()])
    }
}
