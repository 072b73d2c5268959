//! The functions of codex32.h in Rust without unsafe code, made of the proved library's object for WebAssembly (sha256
//! 91c6bfcb0576720901364a23ed31d8dae5fbc91c9015413f6e9eaa47b6b7cf6c) by translator/translate; do not edit.
#![allow(unused, clippy::all, clippy::pedantic, clippy::nursery, clippy::restriction)]

// The machine on which the functions of a library for wasm64 run, without unsafe code. A call makes its memory, one slice: the
// library's stack, and then copies of what the call is given and room for what it writes. An address below 2^32 is a place in
// that slice; from 2^32 on it is one of the constants, which nothing writes to. Each access is tested to be within the slice or
// within the constants: a wrong translation may give a wrong answer or a panic, and no fault of memory.

/// The address of the first constant.
const FIRST: u64 = 1 << 32;

/// The first of some bytes.
const fn first_of<const N: usize>(bytes: &[u8]) -> [u8; N] {
    let mut first = [0; N];
    let mut i = 0;
    while i < N {
        first[i] = bytes[i];
        i += 1;
    }
    first
}

/// What the library does where it does what it is proved never to do.
#[cold]
#[inline(never)]
fn trap() -> ! {
    panic!("the library did what it is proved never to do")
}

/// An address as an index: too large a one stays too large where an index has 32 bits.
#[inline(always)]
fn index(a: u64) -> usize {
    if usize::BITS < 64 && a > u32::MAX as u64 {
        usize::MAX
    } else {
        a as usize
    }
}

macro_rules! numbers {
    ($($t:ty, $size:literal, $load:ident, $constant:ident, $other:ident, $store:ident;)*) => {$(
        #[inline(always)]
        fn $load(m: &[u8], a: u64) -> $t {
            let i = index(a);
            match m.get(i..i.wrapping_add($size)).map(<[u8; $size]>::try_from) {
                Some(Ok(bytes)) => <$t>::from_le_bytes(bytes),
                _ => $other(&CONSTANTS, a.wrapping_sub(FIRST)),
            }
        }
        /// Of an address that is made of one among the constants.
        #[inline(always)]
        fn $constant(m: &[u8], a: u64) -> $t {
            let i = index(a.wrapping_sub(FIRST));
            match CONSTANTS.get(i..i.wrapping_add($size)).map(<[u8; $size]>::try_from) {
                Some(Ok(bytes)) => <$t>::from_le_bytes(bytes),
                _ => $other(m, a),
            }
        }
        /// Where the bytes are not in the place that was looked at first.
        #[cold]
        #[inline(never)]
        fn $other(part: &[u8], a: u64) -> $t {
            let i = index(a);
            match part.get(i..i.wrapping_add($size)).map(<[u8; $size]>::try_from) {
                Some(Ok(bytes)) => <$t>::from_le_bytes(bytes),
                _ => trap(),
            }
        }
        #[inline(always)]
        fn $store(m: &mut [u8], a: u64, x: $t) {
            let i = index(a);
            match m.get_mut(i..i.wrapping_add($size)) {
                Some(bytes) => bytes.copy_from_slice(&x.to_le_bytes()),
                None => trap(),
            }
        }
    )*};
}

numbers! {
    u8, 1, load_8, load_8_constant, load_8_other, store_8;
    u16, 2, load_16, load_16_constant, load_16_other, store_16;
    u32, 4, load_32, load_32_constant, load_32_other, store_32;
    u64, 8, load_64, load_64_constant, load_64_other, store_64;
}

/// `size` bytes from an address on, as a range.
#[inline(always)]
fn range(a: u64, size: u64) -> core::ops::Range<usize> {
    index(a)..index(a.saturating_add(size))
}

#[inline(always)]
fn fill(m: &mut [u8], to: u64, byte: u8, size: u64) {
    if size == 0 {
        return;
    }
    match m.get_mut(range(to, size)) {
        Some(bytes) => bytes.fill(byte),
        None => trap(),
    }
}

#[inline(always)]
fn copy(m: &mut [u8], to: u64, from: u64, size: u64) {
    if size == 0 {
        return;
    }
    let (source, target) = (range(from, size), range(to, size));
    if source.end <= m.len() && target.end <= m.len() {
        m.copy_within(source, target.start);
    } else {
        copy_constants(m, target, from, size);
    }
}

#[inline(never)]
fn copy_constants(m: &mut [u8], target: core::ops::Range<usize>, from: u64, size: u64) {
    match (m.get_mut(target), CONSTANTS.get(range(from.wrapping_sub(FIRST), size))) {
        (Some(bytes), Some(constants)) => bytes.copy_from_slice(constants),
        _ => trap(),
    }
}

/// The product of two numbers of 128 bits, each as its low and its high half, is put at an address.
fn multiply_128(m: &mut [u8], to: u64, a: u64, a_high: u64, b: u64, b_high: u64) {
    let whole = (a as u128 | (a_high as u128) << 64).wrapping_mul(b as u128 | (b_high as u128) << 64);
    store_64(m, to, whole as u64);
    store_64(m, to.wrapping_add(8), (whole >> 64) as u64);
}

/// A number of 128 bits, shifted to the right by fewer bits than 128, is put at an address.
fn shift_right_128(m: &mut [u8], to: u64, low: u64, high: u64, by: u32) {
    let whole = (low as u128 | (high as u128) << 64) >> (by & 127);
    store_64(m, to, whole as u64);
    store_64(m, to.wrapping_add(8), (whole >> 64) as u64);
}

// What the calls make a machine of.

/// The refusal of a call for which there is not enough memory.
const NO_MEMORY: u32 = 91;

/// Where what a call is given lies in its memory, after the stack, at multiples of 16. How much that is in all.
struct Layout(u64);

impl Layout {
    #[inline(always)]
    fn put(&mut self, size: usize) -> u64 {
        let at = self.0;
        self.0 = at.saturating_add(size as u64).saturating_add(15) & !15;
        at
    }
}

/// Runs a call in memory on the stack, if `N` or `M` bytes are enough, or on the heap. Secrets are filled with zeros.
#[inline(always)]
fn with<const N: usize, const M: usize, const SECRET: bool>(need: u64, call: &mut dyn FnMut(&mut [u8]) -> u32) -> u32 {
    if need <= N as u64 {
        in_place::<N, SECRET>(need as usize, call)
    } else if need <= M as u64 {
        in_place::<M, SECRET>(need as usize, call)
    } else if need < FIRST && need <= isize::MAX as u64 {
        on_heap::<SECRET>(need as usize, call)
    } else {
        NO_MEMORY
    }
}

#[inline(never)]
fn in_place<const N: usize, const SECRET: bool>(need: usize, call: &mut dyn FnMut(&mut [u8]) -> u32) -> u32 {
    let mut memory = [0u8; N];
    let number = call(&mut memory[..need]);
    if SECRET {
        wipe(&mut memory);
    }
    number
}

#[cfg(feature = "alloc")]
#[inline(never)]
fn on_heap<const SECRET: bool>(need: usize, call: &mut dyn FnMut(&mut [u8]) -> u32) -> u32 {
    let mut memory = alloc::vec::Vec::new();
    if memory.try_reserve_exact(need).is_err() {
        return NO_MEMORY;
    }
    memory.resize(need, 0u8);
    let number = call(&mut memory);
    if SECRET {
        wipe(&mut memory);
    }
    number
}

/// Where there is no heap, 32 KB of the stack are the most that a call has.
#[cfg(not(feature = "alloc"))]
fn on_heap<const SECRET: bool>(need: usize, call: &mut dyn FnMut(&mut [u8]) -> u32) -> u32 {
    if need > 32768 {
        return NO_MEMORY;
    }
    in_place::<32768, SECRET>(need, call)
}

/// Zeros, which a compiler does not leave out, since it is told that they are read.
#[inline(never)]
fn wipe(memory: &mut [u8]) {
    memory.fill(0);
    core::hint::black_box(memory);
}

/// As many bytes of what is not read to its end as any answer depends on.
#[inline(always)]
fn some(bytes: &[u8]) -> &[u8] {
    &bytes[..bytes.len().min(1 << 28)]
}

#[inline(always)]
fn some_mut(bytes: &mut [u8]) -> &mut [u8] {
    let most = bytes.len().min(1 << 28);
    &mut bytes[..most]
}

#[inline(always)]
fn put(m: &mut [u8], at: u64, bytes: &[u8]) {
    m[at as usize..at as usize + bytes.len()].copy_from_slice(bytes);
}

#[inline(always)]
fn take(m: &[u8], at: u64, bytes: &mut [u8]) {
    bytes.copy_from_slice(&m[at as usize..at as usize + bytes.len()]);
}

fn put_sizes(m: &mut [u8], at: u64, sizes: &[usize]) {
    for (i, size) in sizes.iter().enumerate() {
        store_64(m, at + 8 * i as u64, *size as u64);
    }
}

fn take_sizes(m: &[u8], at: u64, sizes: &mut [usize]) {
    for (i, size) in sizes.iter_mut().enumerate() {
        *size = index(load_64(m, at + 8 * i as u64));
    }
}

const CONSTANTS_SIZE: usize = 3060;
static CONSTANTS: [u8; CONSTANTS_SIZE] = first_of(ALL_CONSTANTS);
const ALL_CONSTANTS: &[u8; 3060] = b"\
    \xff\xff\xff\xff\xff\xff\xff\xff\xff\xff\xff\xff\xff\xff\xff\xff\xff\xff\xff\xff\xff\xff\xff\xff\xff\xff\xff\xff\xff\xff\xff\xff\
    \xff\xff\xff\xff\xff\xff\xff\xff\xff\xff\xff\xff\xff\xff\xff\xff\x0f\xff\x0a\x11\x15\x14\x1a\x1e\x07\x05\xff\xff\xff\xff\xff\xff\
    \xff\x1d\xff\x18\x0d\x19\x09\x08\x17\xff\x12\x16\x1f\x1b\x13\xff\x01\x00\x03\x10\x0b\x1c\x0c\x0e\x06\x04\x02\xff\xff\xff\xff\xff\
    \xff\x1d\xff\x18\x0d\x19\x09\x08\x17\xff\x12\x16\x1f\x1b\x13\xff\x01\x00\x03\x10\x0b\x1c\x0c\x0e\x06\x04\x02\xff\xff\xff\xff\xff\
    \x6d\x73\x00\x00\x01\x0e\x02\x1c\x0f\x16\x03\x05\x1d\x1a\x10\x07\x17\x0b\x04\x19\x06\x0a\x1e\x0d\x1b\x15\x11\x12\x08\x13\x18\x09\
    \x0c\x14\x01\x02\x04\x08\x10\x09\x12\x0d\x1a\x1d\x13\x0f\x1e\x15\x03\x06\x0c\x18\x19\x1b\x1f\x17\x07\x0e\x1c\x11\x0b\x16\x05\x0a\
    \x14\x00\x00\x00\x00\x00\x00\x00\x00\x00\x00\x00\x00\x00\x00\x00\x00\x00\x00\x00\x00\x00\x00\x00\x00\x00\x00\x00\x00\x00\x00\x00\
    \x00\x00\x00\x00\x00\x00\x00\x00\x00\x00\x00\x00\x00\x00\x00\x00\x00\x00\x19\x03\x72\x71\x15\x00\x00\x80\x49\x00\xb9\xc5\x9e\x05\
    \x00\x40\x9d\x83\x77\xfb\x25\x01\x00\x60\x07\x41\xbc\x2f\x6d\x00\x00\x50\x75\xe1\x49\x05\x11\x00\x00\x00\xf8\x00\x2a\x7d\x28\x00\
    \x00\x00\x65\x03\xe7\x4f\x01\x00\x00\x80\x13\x80\x76\xd4\x94\x05\x00\x40\x72\xc3\xf4\x88\x02\x01\x00\xe0\x4e\xa1\x77\xfe\x73\x00\
    \x00\x00\xe1\x03\x58\x0c\x3d\x00\x00\x80\x2c\x03\x5e\x8a\x9f\x05\x00\xc0\xc2\x02\x31\x23\xa5\x04\x00\xa0\x6f\x83\x77\x46\xe5\x01\
    \x00\x30\xe9\x40\xd6\x6d\xed\x00\x00\x00\xc5\x00\xfa\x30\xf0\x00\x00\x80\x9a\x00\x57\x65\x50\x00\x00\xc0\x56\x83\x8c\x43\x6d\x00\
    \x00\xa0\xed\xc0\xb1\xee\x3a\x05\x00\x30\xd0\x23\xe5\xb1\x6f\x01\x00\x00\xdc\x03\x88\x41\xe5\x00\x00\x00\xd3\x00\xee\xa0\xce\x05\
    \x00\x80\x03\x00\xd3\x98\x50\x01\x00\x40\x87\x81\xbe\xa1\x7e\x05\x00\x60\x71\xc3\x32\xc9\x35\x01\x00\x00\x3d\x00\xd0\x4d\xd8\x00\
    \x00\x80\xff\x03\xb0\x2a\x51\x00\x00\x40\x3d\x03\x8a\xbb\xe9\x05\x00\x60\xe8\x02\x8f\x47\x30\x04\x00\xd0\x46\x83\x88\xa0\x50\x01\
    \x00\x00\x24\x03\xa2\x3c\xcd\x00\x00\x00\xb6\x03\x09\xef\xcf\x05\x00\x00\x24\x81\xe5\x6c\xc0\x04\x00\x00\x8c\x43\xcf\xc1\xfa\x04\
    \x00\x00\x20\x63\xc8\xaf\x8f\x01\x00\x00\x49\x03\x38\x64\xc8\x03\x00\x80\x61\x01\xe6\x02\x14\x01\x00\x40\x68\x01\x5d\x7e\xa6\x01\
    \x00\xe0\xc4\x81\x31\x28\x88\x02\x00\x90\x46\x40\xd7\x73\xa2\x04\x00\x00\x50\x00\x4a\x15\xdd\x03\x00\x00\x28\x01\x5f\xc7\x8a\x04\
    \x00\x00\xf5\x83\x92\x85\x07\x01\x00\x80\xdb\xc1\xfe\x64\xa9\x03\x00\x40\xef\xa0\x60\x40\x1b\x04\x00\x00\xb1\x03\x12\x19\xe0\x03\
    \x00\x80\x04\x02\x01\x4d\x15\x01\x00\xc0\x3f\x80\xab\xaa\x26\x04\x00\x20\x04\x43\xa6\x8a\x04\x02\x00\xf0\x41\xe0\xd6\xb6\x94\x06\
    \x00\x00\xa8\x00\x60\x68\xf5\x03\x00\x00\x4d\x02\xb8\x88\x8b\x04\x00\x80\xee\x03\x54\x5d\x93\x04\x00\xc0\x4d\x03\x76\x2b\x2f\x02\
    \x00\x20\xfc\x01\xe7\x3b\xa0\x06\x00\x00\x8c\x03\xc2\x54\x38\x03\x00\x00\xfb\x01\xb1\x67\x44\x01\x00\x80\xde\x82\xa1\x1d\x9b\x01\
    \x00\xc0\xe1\x40\xc1\xe5\xf6\x07\x00\x20\xd6\x62\xe3\xfc\x91\x04\x00\x00\x95\x00\xb0\x25\x2d\x03\x00\x80\xb2\x01\x08\xa2\xda\x04\
    \x00\xc0\x8b\x00\x46\xc6\x22\x01\x00\x20\x5b\x01\x6d\xc9\xfa\x06\x00\x70\x57\x82\x7b\xf3\x4b\x05\x00\x00\x74\x03\xe8\x29\x10\x03\
    \x00\x00\x9e\x02\x56\x28\x45\x01\x00\x00\xf1\x03\x27\xe5\x0b\x04\x00\x80\x3a\x82\x3c\x4a\x76\x07\x00\xc0\x6b\xc2\x11\xfe\xe1\x07\
    \x00\x00\x6d\x00\x9a\x58\x05\x03\x00\x80\xd7\x02\xef\xed\xdb\x04\x00\x40\xe8\x80\xf0\x32\xa6\x04\x00\xe0\xc2\xc2\xff\xa3\x74\x07\
    \x00\x90\x77\x23\x10\x86\xb8\x07\x00\x00\x00\x01\xfa\x4d\x64\x05\x00\x00\xc9\x03\xc5\x42\x7a\x01\x00\x80\xa1\x81\x5d\x13\x7f\x00\
    \x00\x40\x88\x40\x3b\xba\x4c\x05\x00\xe0\x94\x60\x78\xc3\x44\x01\x00\x00\x19\x02\x88\x3c\x71\x05\x00\x80\x80\x03\x7c\x87\xe4\x04\
    \x00\xc0\xb4\x03\x12\xec\xc2\x01\x00\xa0\x67\x01\x35\xb0\xbf\x05\x00\x30\xd9\x81\x6f\x46\xc9\x01\x00\x00\xf8\x01\xd0\x30\x4c\x05\
    \x00\x00\xac\x00\x22\x0d\x7b\x01\x00\x00\xfa\x01\x4b\xc3\xfb\x05\x00\x00\xb2\x82\x4c\x37\xc2\x04\x00\x00\x32\xc1\x13\x9d\xb7\x01\
    \x00\x00\xe1\x02\xa2\x41\x59\x05\x00\x80\xe5\x00\x9b\xc8\xe5\x04\x00\x40\xa3\x82\x34\x30\x52\x04\x00\x60\x47\xc3\x1d\xdc\x2f\x04\
    \x00\x50\x8d\x20\x89\x2e\x39\x01\x00\x00\xc5\x01\x00\x7d\x94\x05\x00\x80\x53\x03\x92\x27\x2a\x01\x00\x40\x37\x02\xc1\x74\x7a\x00\
    \x00\x60\xc0\x81\x8b\x71\x0f\x00\x00\xd0\xfa\x42\x76\xfb\x0d\x00\x00\x00\xdc\x02\x72\x0c\x81\x05\x00\x00\x1a\x03\x2b\xe2\xb4\x04\
    \x00\x00\xea\x80\xa6\xab\xdf\x01\x00\x00\xc2\xc1\x26\x3b\xed\x00\x00\x00\xc2\xa2\xec\x22\xa4\x00\x00\x00\x3d\x01\x2a\x00\xbc\x05\
    \x00\x80\x36\x00\x75\x68\x2b\x01\x00\xc0\x14\x82\xa7\x88\xee\x05\x00\xa0\xad\x42\x76\xdd\x99\x01\x00\x30\x84\xe2\x44\x6b\xb6\x00\
    \x00\x00\x24\x02\x58\x71\xa9\x05\x00\x00\x7f\x00\xcc\xad\xb5\x04\x00\x80\x85\x01\xf0\x5b\x5f\x04\x00\x40\xa1\x03\xf4\x5e\x61\x01\
    \x00\x60\x77\x02\x2c\x4d\x12\x00\x00\x00\x49\x02\xc2\x29\xac\x06\x00\x80\xa8\x02\x23\x40\x6e\x00\x00\xc0\x49\x81\xe0\x6d\xa9\x00\
    \x00\x20\x4c\xc0\x4b\xb3\xe2\x06\x00\xf0\x32\x21\x74\xb3\xae\x05\x00\x00\x50\x01\xb0\x58\xb9\x06\x00\x00\xe1\x02\x9a\x85\xf0\x05\
    \x00\x80\x5c\x02\x17\x92\x90\x00\x00\xc0\x33\x80\x76\xde\xf9\x06\x00\x20\x83\xc1\xbe\x00\x35\x05\x00\x00\xb1\x02\xe8\x54\x84\x06\
    \x00\x80\xcd\x01\xc4\x0f\x6f\x00\x00\x40\x56\x00\x76\xbd\x39\x05\x00\xe0\x8c\x02\x7f\x10\xf6\x07\x00\x90\xdd\x80\x0a\xfe\x04\x07\
    \x00\x00\xa8\x01\x9a\x25\x91\x06\x00\x00\x84\x01\x7d\xca\xf1\x05\x00\x00\x0f\x82\xb1\x4e\x14\x05\x00\x80\xa5\x43\x3d\x90\x73\x06\
    \x00\x40\x38\x61\x43\x5b\x0a\x07\x00\x00\x8c\x02\x38\x19\x5c\x06\x00\x00\x32\x02\x74\x25\x3e\x00\x00\x00\x3f\x02\x0c\x2a\xfc\x00\
    \x00\x80\xac\x01\x7a\x7f\xb5\x03\x00\xc0\xd0\x03\x2b\x94\x95\x04\x00\x00\x95\x01\x4a\x68\x49\x06\x00\x80\x7b\x02\xcd\xe0\xa0\x05\
    \x00\x40\xe2\x81\xd3\xf5\xdd\x00\x00\xe0\xf6\x41\x34\x52\xbb\x03\x00\x90\xe8\xe3\xdd\x1a\x7e\x04\x00\x00\x74\x02\x12\x64\x74\x06\
    \x00\x00\x57\x01\x93\x6a\x3f\x00\x00\x80\x58\x83\xea\xd6\x7c\x05\x00\xc0\x57\xc3\x64\xd1\xbd\x02\x00\x20\x69\xa2\xa5\x17\x61\x06\
    \x00\x00\x6d\x01\x60\x15\x61\x06\x00\x80\x1e\x01\x2a\xaf\xa1\x05\x00\xc0\xc9\x01\x05\x05\x49\x05\x00\x20\x4f\x83\x25\x39\x29\x03\
    \x00\x70\x4c\x43\xcf\x6e\x1d\x07\x74\x68\x65\x72\x65\x20\x61\x72\x65\x20\x6d\x6f\x72\x65\x20\x74\x68\x61\x6e\x20\x33\x32\x20\x74\
    \x65\x78\x74\x73\x2c\x20\x6f\x72\x20\x74\x68\x65\x69\x72\x20\x6c\x65\x6e\x67\x74\x68\x73\x20\x64\x6f\x20\x6e\x6f\x74\x20\x61\x64\
    \x64\x20\x75\x70\x20\x74\x6f\x20\x74\x68\x61\x74\x20\x6f\x66\x20\x61\x6c\x6c\x74\x68\x65\x72\x65\x20\x69\x73\x20\x6e\x6f\x20\x6e\
    \x65\x61\x72\x65\x73\x74\x20\x74\x65\x78\x74\x74\x68\x65\x72\x65\x20\x61\x72\x65\x20\x6e\x65\x69\x74\x68\x65\x72\x20\x31\x36\x20\
    \x74\x6f\x20\x34\x34\x20\x62\x79\x74\x65\x73\x20\x6e\x6f\x72\x20\x36\x33\x20\x6f\x72\x20\x36\x34\x74\x68\x65\x72\x65\x20\x61\x72\
    \x65\x20\x6e\x6f\x74\x20\x61\x73\x20\x6d\x61\x6e\x79\x20\x72\x61\x6e\x64\x6f\x6d\x20\x62\x79\x74\x65\x73\x20\x61\x73\x20\x63\x68\
    \x61\x72\x61\x63\x74\x65\x72\x73\x20\x61\x72\x65\x20\x64\x72\x61\x77\x6e\x74\x68\x65\x20\x72\x61\x6e\x64\x6f\x6d\x20\x62\x79\x74\
    \x65\x73\x20\x61\x72\x65\x20\x61\x6c\x6c\x20\x65\x71\x75\x61\x6c\x74\x68\x65\x72\x65\x20\x61\x72\x65\x20\x66\x65\x77\x65\x72\x20\
    \x73\x68\x61\x72\x65\x73\x20\x74\x68\x61\x6e\x20\x74\x68\x65\x20\x74\x68\x72\x65\x73\x68\x6f\x6c\x64\x61\x20\x73\x68\x61\x72\x65\
    \x20\x68\x61\x73\x20\x61\x6e\x6f\x74\x68\x65\x72\x20\x74\x68\x72\x65\x73\x68\x6f\x6c\x64\x2c\x20\x69\x64\x65\x6e\x74\x69\x66\x69\
    \x65\x72\x20\x6f\x72\x20\x6c\x65\x6e\x67\x74\x68\x20\x74\x68\x61\x6e\x20\x74\x68\x65\x20\x66\x69\x72\x73\x74\x74\x77\x6f\x20\x73\
    \x68\x61\x72\x65\x73\x20\x68\x61\x76\x65\x20\x6f\x6e\x65\x20\x69\x6e\x64\x65\x78\x74\x68\x65\x20\x73\x68\x61\x72\x65\x73\x20\x63\
    \x6f\x6e\x74\x72\x61\x64\x69\x63\x74\x20\x65\x61\x63\x68\x20\x6f\x74\x68\x65\x72\x74\x68\x65\x72\x65\x20\x61\x72\x65\x20\x66\x65\
    \x77\x65\x72\x20\x73\x68\x61\x72\x65\x73\x20\x74\x68\x61\x6e\x20\x74\x68\x65\x20\x74\x68\x72\x65\x73\x68\x6f\x6c\x64\x2c\x20\x6f\
    \x72\x20\x6d\x6f\x72\x65\x20\x74\x68\x61\x6e\x20\x33\x31\x74\x68\x65\x20\x68\x75\x6d\x61\x6e\x2d\x72\x65\x61\x64\x61\x62\x6c\x65\
    \x20\x70\x61\x72\x74\x20\x69\x73\x20\x6e\x6f\x74\x20\x60\x6d\x73\x60\x61\x20\x63\x6f\x64\x65\x78\x33\x32\x20\x73\x74\x72\x69\x6e\
    \x67\x20\x68\x61\x73\x20\x34\x38\x20\x74\x6f\x20\x39\x33\x20\x63\x68\x61\x72\x61\x63\x74\x65\x72\x73\x2c\x20\x61\x20\x6c\x6f\x6e\
    \x67\x20\x6f\x6e\x65\x20\x31\x32\x35\x20\x74\x6f\x20\x31\x32\x37\x74\x68\x65\x20\x74\x68\x72\x65\x73\x68\x6f\x6c\x64\x20\x69\x73\
    \x20\x6e\x65\x69\x74\x68\x65\x72\x20\x30\x20\x6e\x6f\x72\x20\x61\x20\x64\x69\x67\x69\x74\x20\x66\x72\x6f\x6d\x20\x32\x20\x74\x6f\
    \x20\x39\x74\x68\x65\x20\x74\x68\x72\x65\x73\x68\x6f\x6c\x64\x20\x69\x73\x20\x30\x2c\x20\x61\x6e\x64\x20\x74\x68\x65\x20\x73\x68\
    \x61\x72\x65\x20\x69\x6e\x64\x65\x78\x20\x69\x73\x20\x6e\x6f\x74\x20\x60\x73\x60\x74\x68\x65\x20\x69\x64\x65\x6e\x74\x69\x66\x69\
    \x65\x72\x20\x69\x73\x20\x6e\x6f\x74\x20\x66\x6f\x75\x72\x20\x63\x68\x61\x72\x61\x63\x74\x65\x72\x73\x20\x6f\x66\x20\x74\x68\x65\
    \x20\x61\x6c\x70\x68\x61\x62\x65\x74\x20\x69\x6e\x20\x6f\x6e\x65\x20\x63\x61\x73\x65\x74\x68\x65\x20\x73\x68\x61\x72\x65\x20\x69\
    \x6e\x64\x65\x78\x20\x69\x73\x20\x6e\x6f\x74\x20\x6f\x6e\x65\x20\x63\x68\x61\x72\x61\x63\x74\x65\x72\x20\x6f\x66\x20\x74\x68\x65\
    \x20\x61\x6c\x70\x68\x61\x62\x65\x74\x6d\x6f\x72\x65\x20\x74\x68\x61\x6e\x20\x66\x6f\x75\x72\x20\x62\x69\x74\x73\x20\x73\x74\x61\
    \x6e\x64\x20\x62\x65\x68\x69\x6e\x64\x20\x74\x68\x65\x20\x62\x79\x74\x65\x73\x20\x6f\x66\x20\x74\x68\x65\x20\x70\x61\x79\x6c\x6f\
    \x61\x64\x61\x20\x74\x65\x78\x74\x20\x6f\x72\x20\x61\x20\x68\x75\x6d\x61\x6e\x2d\x72\x65\x61\x64\x61\x62\x6c\x65\x20\x70\x61\x72\
    \x74\x20\x69\x73\x20\x6e\x6f\x74\x20\x55\x54\x46\x2d\x38\x74\x68\x65\x20\x68\x75\x6d\x61\x6e\x2d\x72\x65\x61\x64\x61\x62\x6c\x65\
    \x20\x70\x61\x72\x74\x20\x69\x73\x20\x65\x6d\x70\x74\x79\x74\x68\x65\x20\x68\x75\x6d\x61\x6e\x2d\x72\x65\x61\x64\x61\x62\x6c\x65\
    \x20\x70\x61\x72\x74\x20\x68\x61\x73\x20\x6d\x6f\x72\x65\x20\x74\x68\x61\x6e\x20\x38\x33\x20\x62\x79\x74\x65\x73\x74\x68\x65\x20\
    \x68\x75\x6d\x61\x6e\x2d\x72\x65\x61\x64\x61\x62\x6c\x65\x20\x70\x61\x72\x74\x20\x68\x61\x73\x20\x61\x20\x63\x68\x61\x72\x61\x63\
    \x74\x65\x72\x20\x74\x68\x61\x74\x20\x69\x73\x20\x6e\x6f\x74\x20\x41\x53\x43\x49\x49\x74\x68\x65\x20\x68\x75\x6d\x61\x6e\x2d\x72\
    \x65\x61\x64\x61\x62\x6c\x65\x20\x70\x61\x72\x74\x20\x68\x61\x73\x20\x61\x20\x62\x79\x74\x65\x20\x74\x68\x61\x74\x20\x69\x73\x20\
    \x6e\x6f\x74\x20\x66\x72\x6f\x6d\x20\x33\x33\x20\x74\x6f\x20\x31\x32\x36\x74\x68\x65\x20\x68\x75\x6d\x61\x6e\x2d\x72\x65\x61\x64\
    \x61\x62\x6c\x65\x20\x70\x61\x72\x74\x20\x68\x61\x73\x20\x6c\x65\x74\x74\x65\x72\x73\x20\x6f\x66\x20\x62\x6f\x74\x68\x20\x63\x61\
    \x73\x65\x73\x61\x20\x63\x68\x61\x72\x61\x63\x74\x65\x72\x20\x62\x65\x68\x69\x6e\x64\x20\x74\x68\x65\x20\x73\x65\x70\x61\x72\x61\
    \x74\x6f\x72\x20\x6d\x61\x79\x20\x6e\x6f\x74\x20\x73\x74\x61\x6e\x64\x20\x74\x68\x65\x72\x65\x74\x68\x65\x20\x74\x65\x78\x74\x20\
    \x68\x61\x73\x20\x6c\x65\x74\x74\x65\x72\x73\x20\x6f\x66\x20\x62\x6f\x74\x68\x20\x63\x61\x73\x65\x73\x74\x68\x65\x20\x74\x65\x78\
    \x74\x20\x68\x61\x73\x20\x6e\x6f\x20\x73\x65\x70\x61\x72\x61\x74\x6f\x72\x2c\x20\x60\x31\x60\x74\x68\x65\x20\x63\x68\x65\x63\x6b\
    \x73\x75\x6d\x20\x69\x73\x20\x77\x72\x6f\x6e\x67\x74\x68\x65\x20\x6c\x65\x6e\x74\x20\x6d\x65\x6d\x6f\x72\x79\x20\x64\x69\x64\x20\
    \x6e\x6f\x74\x20\x73\x75\x66\x66\x69\x63\x65\x61\x20\x62\x75\x66\x66\x65\x72\x20\x69\x73\x20\x74\x6f\x6f\x20\x73\x6d\x61\x6c\x6c\
    \x71\x00\x00\x00\x70\x00\x00\x00\x7a\x00\x00\x00\x72\x00\x00\x00\x79\x00\x00\x00\x39\x00\x00\x00\x78\x00\x00\x00\x38\x00\x00\x00\
    \x67\x00\x00\x00\x66\x00\x00\x00\x32\x00\x00\x00\x74\x00\x00\x00\x76\x00\x00\x00\x64\x00\x00\x00\x77\x00\x00\x00\x30\x00\x00\x00\
    \x73\x00\x00\x00\x33\x00\x00\x00\x6a\x00\x00\x00\x6e\x00\x00\x00\x35\x00\x00\x00\x34\x00\x00\x00\x6b\x00\x00\x00\x68\x00\x00\x00\
    \x63\x00\x00\x00\x65\x00\x00\x00\x36\x00\x00\x00\x6d\x00\x00\x00\x75\x00\x00\x00\x61\x00\x00\x00\x37\x00\x00\x00\x6c\x00\x00\x00\
    \x61\x63\x64\x65\x66\x67\x68\x6a\x6b\x6c\x6d\x6e\x70\x71\x72\x74\x75\x76\x77\x78\x79\x7a\x30\x32\x33\x34\x35\x36\x37\x38\x39\x00\
    \x17\x00\x00\x00\x18\x00\x00\x00\x15\x00\x00\x00\x16\x00\x00\x00\x0c\x00\x00\x00\x0b\x00\x00\x00\x0d\x00\x00\x00\x0e\x00\x00\x00\
    \x0f\x00\x00\x00\x10\x00\x00\x00\x1f\x00\x00\x00\x21\x00\x00\x00\x20\x00\x00\x00\x53\x00\x00\x00\x55\x00\x00\x00\x56\x00\x00\x00\
    \x54\x00\x00\x00\x4b\x00\x00\x00\x4c\x00\x00\x00\x54\x00\x00\x00\x4a\x00\x00\x00\x4d\x00\x00\x00\x5b\x00\x00\x00\x54\x00\x00\x00\
    \x38\x00\x00\x00\x4e\x00\x00\x00\x42\x00\x00\x00\x44\x00\x00\x00\x5c\x00\x00\x00\
    ";

const STACK_CODEX32_DERIVE: usize = 3216;
const STACK_CODEX32_ENCODE: usize = 1088;
const STACK_CODEX32_ENCODE_PAYLOAD: usize = 1088;
const STACK_CODEX32_MESSAGE: usize = 16;
const STACK_CODEX32_PARSE: usize = 816;
const STACK_CODEX32_PROPOSE: usize = 7744;
const STACK_CODEX32_PROPOSE_LONG: usize = 7744;
const STACK_CODEX32_RECOVER: usize = 3440;
const STACK_CODEX32_SHARE: usize = 1264;
const STACK_CODEX32_SPLIT: usize = 1600;
const STACK_CODEX32_VERSION: usize = 16;

// Made by tools/make (tools/make.d/native_calls) from include/codex32.h; do not edit.

pub fn codex32_message(number: u32, message: &mut [u8], message_length: &mut usize) -> u32 {
    let message = some_mut(message);
    let mut layout = Layout(STACK_CODEX32_MESSAGE as u64);
    let message_at = layout.put(message.len());
    let message_length_at = layout.put(8);
    with::<{ STACK_CODEX32_MESSAGE + 512 }, { STACK_CODEX32_MESSAGE + 8192 }, false>(layout.0, &mut |m: &mut [u8]| {
        let answer = of_codex32_message(m, STACK_CODEX32_MESSAGE as u64, number, message_at, message.len() as u64, message_length_at);
        if answer == 0 {
            *message_length = index(load_64(m, message_length_at));
        }
        if answer == 0 {
            take(m, message_at, &mut message[..*message_length]);
        }
        answer
    })
}

pub fn codex32_version() -> u32 {
    let layout = Layout(STACK_CODEX32_VERSION as u64);
    with::<{ STACK_CODEX32_VERSION + 512 }, { STACK_CODEX32_VERSION + 8192 }, false>(layout.0, &mut |m: &mut [u8]| {
        let answer = of_codex32_version(m, STACK_CODEX32_VERSION as u64);
        answer
    })
}

pub fn codex32_parse(text: &[u8], threshold: &mut u32, share_index: &mut u32, payload_length: &mut usize) -> u32 {
    let mut layout = Layout(STACK_CODEX32_PARSE as u64);
    let text_at = layout.put(text.len());
    let threshold_at = layout.put(8);
    let share_index_at = layout.put(8);
    let payload_length_at = layout.put(8);
    with::<{ STACK_CODEX32_PARSE + 512 }, { STACK_CODEX32_PARSE + 8192 }, true>(layout.0, &mut |m: &mut [u8]| {
        put(m, text_at, text);
        let answer = of_codex32_parse(m, STACK_CODEX32_PARSE as u64, text_at, text.len() as u64, threshold_at, share_index_at, payload_length_at);
        if answer == 0 {
            *threshold = load_32(m, threshold_at);
            *share_index = load_32(m, share_index_at);
            *payload_length = index(load_64(m, payload_length_at));
        }
        answer
    })
}

pub fn codex32_share(text: &[u8], threshold: &mut u32, identifier: &mut [u8; 4], share_index: &mut u32, bytes: &mut [u8], bytes_length: &mut usize) -> u32 {
    let bytes = some_mut(bytes);
    let mut layout = Layout(STACK_CODEX32_SHARE as u64);
    let text_at = layout.put(text.len());
    let threshold_at = layout.put(8);
    let identifier_at = layout.put(4);
    let share_index_at = layout.put(8);
    let bytes_at = layout.put(bytes.len());
    let bytes_length_at = layout.put(8);
    with::<{ STACK_CODEX32_SHARE + 512 }, { STACK_CODEX32_SHARE + 8192 }, true>(layout.0, &mut |m: &mut [u8]| {
        put(m, text_at, text);
        put(m, identifier_at, identifier);
        let answer = of_codex32_share(m, STACK_CODEX32_SHARE as u64, text_at, text.len() as u64, threshold_at, identifier_at, share_index_at, bytes_at, bytes.len() as u64, bytes_length_at);
        if answer == 0 {
            *threshold = load_32(m, threshold_at);
            *share_index = load_32(m, share_index_at);
            *bytes_length = index(load_64(m, bytes_length_at));
        }
        take(m, identifier_at, identifier);
        if answer == 0 {
            take(m, bytes_at, &mut bytes[..*bytes_length]);
        }
        answer
    })
}

pub fn codex32_encode(threshold: u32, identifier: &[u8], share_index: u32, bytes: &[u8], text: &mut [u8], text_length: &mut usize) -> u32 {
    let identifier = some(identifier);
    let bytes = some(bytes);
    let text = some_mut(text);
    let mut layout = Layout(STACK_CODEX32_ENCODE as u64);
    let identifier_at = layout.put(identifier.len());
    let bytes_at = layout.put(bytes.len());
    let text_at = layout.put(text.len());
    let text_length_at = layout.put(8);
    with::<{ STACK_CODEX32_ENCODE + 512 }, { STACK_CODEX32_ENCODE + 8192 }, true>(layout.0, &mut |m: &mut [u8]| {
        put(m, identifier_at, identifier);
        put(m, bytes_at, bytes);
        let answer = of_codex32_encode(m, STACK_CODEX32_ENCODE as u64, threshold, identifier_at, identifier.len() as u64, share_index, bytes_at, bytes.len() as u64, text_at, text.len() as u64, text_length_at);
        if answer == 0 {
            *text_length = index(load_64(m, text_length_at));
        }
        if answer == 0 {
            take(m, text_at, &mut text[..*text_length]);
        }
        answer
    })
}

pub fn codex32_encode_payload(threshold: u32, identifier: &[u8], share_index: u32, payload: &[u8], text: &mut [u8], text_length: &mut usize) -> u32 {
    let identifier = some(identifier);
    let text = some_mut(text);
    let mut layout = Layout(STACK_CODEX32_ENCODE_PAYLOAD as u64);
    let identifier_at = layout.put(identifier.len());
    let payload_at = layout.put(payload.len());
    let text_at = layout.put(text.len());
    let text_length_at = layout.put(8);
    with::<{ STACK_CODEX32_ENCODE_PAYLOAD + 512 }, { STACK_CODEX32_ENCODE_PAYLOAD + 8192 }, true>(layout.0, &mut |m: &mut [u8]| {
        put(m, identifier_at, identifier);
        put(m, payload_at, payload);
        let answer = of_codex32_encode_payload(m, STACK_CODEX32_ENCODE_PAYLOAD as u64, threshold, identifier_at, identifier.len() as u64, share_index, payload_at, payload.len() as u64, text_at, text.len() as u64, text_length_at);
        if answer == 0 {
            *text_length = index(load_64(m, text_length_at));
        }
        if answer == 0 {
            take(m, text_at, &mut text[..*text_length]);
        }
        answer
    })
}

pub fn codex32_derive(share_index: u32, texts: &[u8], lengths: &[usize], text: &mut [u8], text_length: &mut usize) -> u32 {
    let text = some_mut(text);
    let mut layout = Layout(STACK_CODEX32_DERIVE as u64);
    let texts_at = layout.put(texts.len());
    let lengths_at = layout.put(lengths.len().saturating_mul(8));
    let text_at = layout.put(text.len());
    let text_length_at = layout.put(8);
    with::<{ STACK_CODEX32_DERIVE + 512 }, { STACK_CODEX32_DERIVE + 8192 }, true>(layout.0, &mut |m: &mut [u8]| {
        put(m, texts_at, texts);
        put_sizes(m, lengths_at, lengths);
        let answer = of_codex32_derive(m, STACK_CODEX32_DERIVE as u64, share_index, texts_at, texts.len() as u64, lengths_at, lengths.len() as u64, text_at, text.len() as u64, text_length_at);
        if answer == 0 {
            *text_length = index(load_64(m, text_length_at));
        }
        if answer == 0 {
            take(m, text_at, &mut text[..*text_length]);
        }
        answer
    })
}

pub fn codex32_split(threshold: u32, identifier: &[u8], secret: &[u8], random: &[u8], count: usize, texts: &mut [u8], text_length: &mut usize) -> u32 {
    let identifier = some(identifier);
    let secret = some(secret);
    let random = some(random);
    let texts = some_mut(texts);
    let mut layout = Layout(STACK_CODEX32_SPLIT as u64);
    let identifier_at = layout.put(identifier.len());
    let secret_at = layout.put(secret.len());
    let random_at = layout.put(random.len());
    let texts_at = layout.put(texts.len());
    let text_length_at = layout.put(8);
    with::<{ STACK_CODEX32_SPLIT + 512 }, { STACK_CODEX32_SPLIT + 8192 }, true>(layout.0, &mut |m: &mut [u8]| {
        put(m, identifier_at, identifier);
        put(m, secret_at, secret);
        put(m, random_at, random);
        put(m, texts_at, texts);
        let answer = of_codex32_split(m, STACK_CODEX32_SPLIT as u64, threshold, identifier_at, identifier.len() as u64, secret_at, secret.len() as u64, random_at, random.len() as u64, count as u64, texts_at, texts.len() as u64, text_length_at);
        if answer == 0 {
            *text_length = index(load_64(m, text_length_at));
        }
        take(m, texts_at, texts);
        answer
    })
}

pub fn codex32_recover(texts: &[u8], lengths: &[usize], bytes: &mut [u8], bytes_length: &mut usize) -> u32 {
    let bytes = some_mut(bytes);
    let mut layout = Layout(STACK_CODEX32_RECOVER as u64);
    let texts_at = layout.put(texts.len());
    let lengths_at = layout.put(lengths.len().saturating_mul(8));
    let bytes_at = layout.put(bytes.len());
    let bytes_length_at = layout.put(8);
    with::<{ STACK_CODEX32_RECOVER + 512 }, { STACK_CODEX32_RECOVER + 8192 }, true>(layout.0, &mut |m: &mut [u8]| {
        put(m, texts_at, texts);
        put_sizes(m, lengths_at, lengths);
        let answer = of_codex32_recover(m, STACK_CODEX32_RECOVER as u64, texts_at, texts.len() as u64, lengths_at, lengths.len() as u64, bytes_at, bytes.len() as u64, bytes_length_at);
        if answer == 0 {
            *bytes_length = index(load_64(m, bytes_length_at));
        }
        if answer == 0 {
            take(m, bytes_at, &mut bytes[..*bytes_length]);
        }
        answer
    })
}

pub fn codex32_propose(text: &[u8], memory: usize, proposed: &mut [u8], proposed_length: &mut usize) -> u32 {
    let proposed = some_mut(proposed);
    let mut layout = Layout(STACK_CODEX32_PROPOSE as u64);
    let text_at = layout.put(text.len());
    let memory_at = layout.put(memory.saturating_add(16));
    let proposed_at = layout.put(proposed.len());
    let proposed_length_at = layout.put(8);
    with::<{ STACK_CODEX32_PROPOSE + 512 }, { STACK_CODEX32_PROPOSE + 8192 }, true>(layout.0, &mut |m: &mut [u8]| {
        put(m, text_at, text);
        store_64(m, memory_at, memory_at + 16);
        store_64(m, memory_at + 8, memory as u64);
        let answer = of_codex32_propose(m, STACK_CODEX32_PROPOSE as u64, text_at, text.len() as u64, memory_at, proposed_at, proposed.len() as u64, proposed_length_at);
        if answer == 0 {
            *proposed_length = index(load_64(m, proposed_length_at));
        }
        if answer == 0 {
            take(m, proposed_at, &mut proposed[..*proposed_length]);
        }
        answer
    })
}

pub fn codex32_propose_long(text: &[u8], memory: usize, proposed: &mut [u8], proposed_length: &mut usize) -> u32 {
    let proposed = some_mut(proposed);
    let mut layout = Layout(STACK_CODEX32_PROPOSE_LONG as u64);
    let text_at = layout.put(text.len());
    let memory_at = layout.put(memory.saturating_add(16));
    let proposed_at = layout.put(proposed.len());
    let proposed_length_at = layout.put(8);
    with::<{ STACK_CODEX32_PROPOSE_LONG + 512 }, { STACK_CODEX32_PROPOSE_LONG + 8192 }, true>(layout.0, &mut |m: &mut [u8]| {
        put(m, text_at, text);
        store_64(m, memory_at, memory_at + 16);
        store_64(m, memory_at + 8, memory as u64);
        let answer = of_codex32_propose_long(m, STACK_CODEX32_PROPOSE_LONG as u64, text_at, text.len() as u64, memory_at, proposed_at, proposed.len() as u64, proposed_length_at);
        if answer == 0 {
            *proposed_length = index(load_64(m, proposed_length_at));
        }
        if answer == 0 {
            take(m, proposed_at, &mut proposed[..*proposed_length]);
        }
        answer
    })
}

// codex32_calls::derive::put_string
fn f5(m: &mut [u8], mut g: u64, mut l0: u64, mut l1: u64, mut l2: u32, mut l3: u64) {
let mut l4: u64 = 0;
let mut l5: u64 = 0;
let mut l6: u64 = 0;
let mut l7: u64 = 0;
let mut l8: u64 = 0;
let mut l9: u32 = 0;
let mut l10: u64 = 0;
let mut l11: u64 = 0;
let mut l12: u32 = 0;
let mut l13: u64 = 0;
let mut l14: u64 = 0;
let mut l15: u64 = 0;
l4 = g.wrapping_sub(1888u64);
g = l4;
'b1: {
'b2: {
'b3: {
'b4: {
'b5: {
'b6: {
'b7: {
{
l5 = load_64(m, l3.wrapping_add(24u64));
l6 = load_64(m, l3.wrapping_add(16u64));
l7 = load_64(m, l3.wrapping_add(8u64));
l8 = load_64(m, l3);
store_16(m, l4.wrapping_add(72u64), 0u32 as u16);
store_64(m, l4.wrapping_add(64u64), 0u64);
store_64(m, l4.wrapping_add(56u64), 0u64);
store_64(m, l4.wrapping_add(48u64), 0u64);
store_64(m, l4.wrapping_add(40u64), 0u64);
store_64(m, l4.wrapping_add(32u64), 0u64);
store_64(m, l4.wrapping_add(24u64), 0u64);
store_64(m, l4.wrapping_add(8u64), 0u64);
store_8(m, l4.wrapping_add(16u64), 0u32 as u8);
'b9: {
if (l5 > 32u64) { break 'b9; }
'b10: {
l9 = ((l5 == 0) as u32);
if (l9 != 0) { break 'b10; }
l3 = l6;
l10 = l5;
'b11: loop {
l11 = load_64(m, l3);
if (l7 < l11) { break 'b9; }
l3 = l3.wrapping_add(8u64);
l7 = l7.wrapping_sub(l11);
l10 = l10.wrapping_add(0xffffffffffffffffu64);
if (l10 != 0u64) { continue 'b11; }
break 'b11;
}
}
if (l7 != 0u64) { break 'b9; }
store_64(m, l4.wrapping_add(1624u64), 0u64);
store_64(m, l4.wrapping_add(1632u64), 0u64);
store_64(m, l4.wrapping_add(1640u64), 0u64);
store_64(m, l4.wrapping_add(1648u64), 0u64);
store_64(m, l4.wrapping_add(1656u64), 0u64);
store_64(m, l4.wrapping_add(1664u64), 0u64);
l12 = 0u32;
store_16(m, l4.wrapping_add(1672u64), 0u32 as u16);
fill(m, l4.wrapping_add(344u64), 0u32 as u8, 1280u64);
store_8(m, l4.wrapping_add(336u64), 0u32 as u8);
store_64(m, l4.wrapping_add(328u64), 0u64);
store_64(m, l4.wrapping_add(312u64), 0u64);
store_8(m, l4.wrapping_add(320u64), 0u32 as u8);
fill(m, l4.wrapping_add(152u64), 0u32 as u8, 80u64);
store_16(m, l4.wrapping_add(144u64), 0u32 as u16);
store_64(m, l4.wrapping_add(136u64), 0u64);
store_64(m, l4.wrapping_add(128u64), 0u64);
store_64(m, l4.wrapping_add(120u64), 0u64);
store_64(m, l4.wrapping_add(112u64), 0u64);
store_64(m, l4.wrapping_add(104u64), 0u64);
store_64(m, l4.wrapping_add(96u64), 0u64);
store_64(m, l4.wrapping_add(80u64), 0u64);
store_64(m, l4.wrapping_add(88u64), 0u64);
if (l2 > 127u32) { break 'b7; }
l2 = (load_8_constant(m, (l2 as u64).wrapping_add(0x100000000u64)) as u32);
if (l2 > 31u32) { break 'b7; }
if (l9 != 0) { break 'b6; }
l11 = load_64(m, l6);
f6(m, g, l4.wrapping_add(152u64), l8, l11);
store_64(m, l4.wrapping_add(1703u64), 0u64);
store_64(m, l4.wrapping_add(1711u64), 0u64);
store_64(m, l4.wrapping_add(1719u64), 0u64);
store_32(m, l4.wrapping_add(1726u64), 0u32);
l10 = l4.wrapping_add(177u64);
l12 = (load_8(m, l4.wrapping_add(176u64)) as u32);
l7 = load_64(m, l4.wrapping_add(168u64));
l3 = load_64(m, l4.wrapping_add(160u64));
if ((load_8(m, l4.wrapping_add(152u64)) as u32) != 0) { break 'b5; }
let t1 = load_64(m, l10.wrapping_add(15u64));
store_64(m, l4.wrapping_add(1695u64), t1);
let t2 = load_64(m, l10.wrapping_add(8u64));
store_64(m, l4.wrapping_add(1688u64), t2);
let t3 = load_64(m, l4.wrapping_add(1704u64));
store_64(m, l4.wrapping_add(256u64), t3);
let t4 = load_64(m, l4.wrapping_add(1712u64));
store_64(m, l4.wrapping_add(264u64), t4);
let t5 = load_64(m, l4.wrapping_add(1720u64));
store_64(m, l4.wrapping_add(272u64), t5);
let t6 = (load_16(m, l4.wrapping_add(1728u64)) as u32);
store_16(m, l4.wrapping_add(280u64), t6 as u16);
let t7 = load_64(m, l10);
store_64(m, l4.wrapping_add(232u64), t7);
let t8 = load_64(m, l4.wrapping_add(1688u64));
store_64(m, l4.wrapping_add(240u64), t8);
let t9 = load_64(m, l4.wrapping_add(1696u64));
store_64(m, l4.wrapping_add(248u64), t9);
let t10 = load_64(m, l4.wrapping_add(247u64));
store_64(m, l4.wrapping_add(303u64), t10);
let t11 = load_64(m, l4.wrapping_add(240u64));
store_64(m, l4.wrapping_add(296u64), t11);
let t12 = load_64(m, l4.wrapping_add(232u64));
store_64(m, l4.wrapping_add(288u64), t12);
store_8(m, l4.wrapping_add(360u64), l12 as u8);
store_64(m, l4.wrapping_add(352u64), l7);
store_64(m, l4.wrapping_add(344u64), l3);
let t13 = load_64(m, l4.wrapping_add(247u64));
store_64(m, l4.wrapping_add(376u64), t13);
let t14 = load_64(m, l4.wrapping_add(240u64));
store_64(m, l4.wrapping_add(369u64), t14);
let t15 = load_64(m, l4.wrapping_add(232u64));
store_64(m, l4.wrapping_add(361u64), t15);
store_8(m, l4.wrapping_add(400u64), l12 as u8);
store_64(m, l4.wrapping_add(392u64), l7);
store_64(m, l4.wrapping_add(384u64), l3);
let t16 = load_64(m, l4.wrapping_add(247u64));
store_64(m, l4.wrapping_add(416u64), t16);
let t17 = load_64(m, l4.wrapping_add(240u64));
store_64(m, l4.wrapping_add(409u64), t17);
let t18 = load_64(m, l4.wrapping_add(232u64));
store_64(m, l4.wrapping_add(401u64), t18);
store_8(m, l4.wrapping_add(440u64), l12 as u8);
store_64(m, l4.wrapping_add(432u64), l7);
store_64(m, l4.wrapping_add(424u64), l3);
let t19 = load_64(m, l4.wrapping_add(247u64));
store_64(m, l4.wrapping_add(456u64), t19);
let t20 = load_64(m, l4.wrapping_add(240u64));
store_64(m, l4.wrapping_add(449u64), t20);
let t21 = load_64(m, l4.wrapping_add(232u64));
store_64(m, l4.wrapping_add(441u64), t21);
store_8(m, l4.wrapping_add(480u64), l12 as u8);
store_64(m, l4.wrapping_add(472u64), l7);
store_64(m, l4.wrapping_add(464u64), l3);
let t22 = load_64(m, l4.wrapping_add(247u64));
store_64(m, l4.wrapping_add(496u64), t22);
let t23 = load_64(m, l4.wrapping_add(240u64));
store_64(m, l4.wrapping_add(489u64), t23);
let t24 = load_64(m, l4.wrapping_add(232u64));
store_64(m, l4.wrapping_add(481u64), t24);
store_8(m, l4.wrapping_add(520u64), l12 as u8);
store_64(m, l4.wrapping_add(512u64), l7);
store_64(m, l4.wrapping_add(504u64), l3);
let t25 = load_64(m, l4.wrapping_add(247u64));
store_64(m, l4.wrapping_add(536u64), t25);
let t26 = load_64(m, l4.wrapping_add(240u64));
store_64(m, l4.wrapping_add(529u64), t26);
let t27 = load_64(m, l4.wrapping_add(232u64));
store_64(m, l4.wrapping_add(521u64), t27);
store_8(m, l4.wrapping_add(560u64), l12 as u8);
store_64(m, l4.wrapping_add(552u64), l7);
store_64(m, l4.wrapping_add(544u64), l3);
let t28 = load_64(m, l4.wrapping_add(247u64));
store_64(m, l4.wrapping_add(576u64), t28);
let t29 = load_64(m, l4.wrapping_add(240u64));
store_64(m, l4.wrapping_add(569u64), t29);
let t30 = load_64(m, l4.wrapping_add(232u64));
store_64(m, l4.wrapping_add(561u64), t30);
store_8(m, l4.wrapping_add(600u64), l12 as u8);
store_64(m, l4.wrapping_add(592u64), l7);
store_64(m, l4.wrapping_add(584u64), l3);
let t31 = load_64(m, l4.wrapping_add(247u64));
store_64(m, l4.wrapping_add(616u64), t31);
let t32 = load_64(m, l4.wrapping_add(240u64));
store_64(m, l4.wrapping_add(609u64), t32);
let t33 = load_64(m, l4.wrapping_add(232u64));
store_64(m, l4.wrapping_add(601u64), t33);
store_8(m, l4.wrapping_add(640u64), l12 as u8);
store_64(m, l4.wrapping_add(632u64), l7);
store_64(m, l4.wrapping_add(624u64), l3);
let t34 = load_64(m, l4.wrapping_add(247u64));
store_64(m, l4.wrapping_add(656u64), t34);
let t35 = load_64(m, l4.wrapping_add(240u64));
store_64(m, l4.wrapping_add(649u64), t35);
let t36 = load_64(m, l4.wrapping_add(232u64));
store_64(m, l4.wrapping_add(641u64), t36);
store_8(m, l4.wrapping_add(680u64), l12 as u8);
store_64(m, l4.wrapping_add(672u64), l7);
store_64(m, l4.wrapping_add(664u64), l3);
let t37 = load_64(m, l4.wrapping_add(247u64));
store_64(m, l4.wrapping_add(696u64), t37);
let t38 = load_64(m, l4.wrapping_add(240u64));
store_64(m, l4.wrapping_add(689u64), t38);
let t39 = load_64(m, l4.wrapping_add(232u64));
store_64(m, l4.wrapping_add(681u64), t39);
store_8(m, l4.wrapping_add(720u64), l12 as u8);
store_64(m, l4.wrapping_add(712u64), l7);
store_64(m, l4.wrapping_add(704u64), l3);
let t40 = load_64(m, l4.wrapping_add(247u64));
store_64(m, l4.wrapping_add(736u64), t40);
let t41 = load_64(m, l4.wrapping_add(240u64));
store_64(m, l4.wrapping_add(729u64), t41);
let t42 = load_64(m, l4.wrapping_add(232u64));
store_64(m, l4.wrapping_add(721u64), t42);
store_8(m, l4.wrapping_add(760u64), l12 as u8);
store_64(m, l4.wrapping_add(752u64), l7);
store_64(m, l4.wrapping_add(744u64), l3);
let t43 = load_64(m, l4.wrapping_add(247u64));
store_64(m, l4.wrapping_add(776u64), t43);
let t44 = load_64(m, l4.wrapping_add(240u64));
store_64(m, l4.wrapping_add(769u64), t44);
let t45 = load_64(m, l4.wrapping_add(232u64));
store_64(m, l4.wrapping_add(761u64), t45);
store_8(m, l4.wrapping_add(800u64), l12 as u8);
store_64(m, l4.wrapping_add(792u64), l7);
store_64(m, l4.wrapping_add(784u64), l3);
let t46 = load_64(m, l4.wrapping_add(247u64));
store_64(m, l4.wrapping_add(816u64), t46);
let t47 = load_64(m, l4.wrapping_add(240u64));
store_64(m, l4.wrapping_add(809u64), t47);
let t48 = load_64(m, l4.wrapping_add(232u64));
store_64(m, l4.wrapping_add(801u64), t48);
store_8(m, l4.wrapping_add(840u64), l12 as u8);
store_64(m, l4.wrapping_add(832u64), l7);
store_64(m, l4.wrapping_add(824u64), l3);
let t49 = load_64(m, l4.wrapping_add(247u64));
store_64(m, l4.wrapping_add(856u64), t49);
let t50 = load_64(m, l4.wrapping_add(240u64));
store_64(m, l4.wrapping_add(849u64), t50);
let t51 = load_64(m, l4.wrapping_add(232u64));
store_64(m, l4.wrapping_add(841u64), t51);
store_8(m, l4.wrapping_add(880u64), l12 as u8);
store_64(m, l4.wrapping_add(872u64), l7);
store_64(m, l4.wrapping_add(864u64), l3);
let t52 = load_64(m, l4.wrapping_add(247u64));
store_64(m, l4.wrapping_add(896u64), t52);
let t53 = load_64(m, l4.wrapping_add(240u64));
store_64(m, l4.wrapping_add(889u64), t53);
let t54 = load_64(m, l4.wrapping_add(232u64));
store_64(m, l4.wrapping_add(881u64), t54);
store_8(m, l4.wrapping_add(920u64), l12 as u8);
store_64(m, l4.wrapping_add(912u64), l7);
store_64(m, l4.wrapping_add(904u64), l3);
let t55 = load_64(m, l4.wrapping_add(247u64));
store_64(m, l4.wrapping_add(936u64), t55);
let t56 = load_64(m, l4.wrapping_add(240u64));
store_64(m, l4.wrapping_add(929u64), t56);
let t57 = load_64(m, l4.wrapping_add(232u64));
store_64(m, l4.wrapping_add(921u64), t57);
store_8(m, l4.wrapping_add(960u64), l12 as u8);
store_64(m, l4.wrapping_add(952u64), l7);
store_64(m, l4.wrapping_add(944u64), l3);
let t58 = load_64(m, l4.wrapping_add(247u64));
store_64(m, l4.wrapping_add(976u64), t58);
let t59 = load_64(m, l4.wrapping_add(240u64));
store_64(m, l4.wrapping_add(969u64), t59);
let t60 = load_64(m, l4.wrapping_add(232u64));
store_64(m, l4.wrapping_add(961u64), t60);
store_8(m, l4.wrapping_add(1000u64), l12 as u8);
store_64(m, l4.wrapping_add(992u64), l7);
store_64(m, l4.wrapping_add(984u64), l3);
let t61 = load_64(m, l4.wrapping_add(247u64));
store_64(m, l4.wrapping_add(1016u64), t61);
let t62 = load_64(m, l4.wrapping_add(240u64));
store_64(m, l4.wrapping_add(1009u64), t62);
let t63 = load_64(m, l4.wrapping_add(232u64));
store_64(m, l4.wrapping_add(1001u64), t63);
store_8(m, l4.wrapping_add(1040u64), l12 as u8);
store_64(m, l4.wrapping_add(1032u64), l7);
store_64(m, l4.wrapping_add(1024u64), l3);
let t64 = load_64(m, l4.wrapping_add(247u64));
store_64(m, l4.wrapping_add(1056u64), t64);
let t65 = load_64(m, l4.wrapping_add(240u64));
store_64(m, l4.wrapping_add(1049u64), t65);
let t66 = load_64(m, l4.wrapping_add(232u64));
store_64(m, l4.wrapping_add(1041u64), t66);
store_8(m, l4.wrapping_add(1080u64), l12 as u8);
store_64(m, l4.wrapping_add(1072u64), l7);
store_64(m, l4.wrapping_add(1064u64), l3);
let t67 = load_64(m, l4.wrapping_add(247u64));
store_64(m, l4.wrapping_add(1096u64), t67);
let t68 = load_64(m, l4.wrapping_add(240u64));
store_64(m, l4.wrapping_add(1089u64), t68);
let t69 = load_64(m, l4.wrapping_add(232u64));
store_64(m, l4.wrapping_add(1081u64), t69);
store_8(m, l4.wrapping_add(1120u64), l12 as u8);
store_64(m, l4.wrapping_add(1112u64), l7);
store_64(m, l4.wrapping_add(1104u64), l3);
let t70 = load_64(m, l4.wrapping_add(247u64));
store_64(m, l4.wrapping_add(1136u64), t70);
let t71 = load_64(m, l4.wrapping_add(240u64));
store_64(m, l4.wrapping_add(1129u64), t71);
let t72 = load_64(m, l4.wrapping_add(232u64));
store_64(m, l4.wrapping_add(1121u64), t72);
store_8(m, l4.wrapping_add(1160u64), l12 as u8);
store_64(m, l4.wrapping_add(1152u64), l7);
store_64(m, l4.wrapping_add(1144u64), l3);
let t73 = load_64(m, l4.wrapping_add(247u64));
store_64(m, l4.wrapping_add(1176u64), t73);
let t74 = load_64(m, l4.wrapping_add(240u64));
store_64(m, l4.wrapping_add(1169u64), t74);
let t75 = load_64(m, l4.wrapping_add(232u64));
store_64(m, l4.wrapping_add(1161u64), t75);
store_8(m, l4.wrapping_add(1200u64), l12 as u8);
store_64(m, l4.wrapping_add(1192u64), l7);
store_64(m, l4.wrapping_add(1184u64), l3);
let t76 = load_64(m, l4.wrapping_add(247u64));
store_64(m, l4.wrapping_add(1216u64), t76);
let t77 = load_64(m, l4.wrapping_add(240u64));
store_64(m, l4.wrapping_add(1209u64), t77);
let t78 = load_64(m, l4.wrapping_add(232u64));
store_64(m, l4.wrapping_add(1201u64), t78);
store_8(m, l4.wrapping_add(1240u64), l12 as u8);
store_64(m, l4.wrapping_add(1232u64), l7);
store_64(m, l4.wrapping_add(1224u64), l3);
let t79 = load_64(m, l4.wrapping_add(247u64));
store_64(m, l4.wrapping_add(1256u64), t79);
let t80 = load_64(m, l4.wrapping_add(240u64));
store_64(m, l4.wrapping_add(1249u64), t80);
let t81 = load_64(m, l4.wrapping_add(232u64));
store_64(m, l4.wrapping_add(1241u64), t81);
store_8(m, l4.wrapping_add(1280u64), l12 as u8);
store_64(m, l4.wrapping_add(1272u64), l7);
store_64(m, l4.wrapping_add(1264u64), l3);
let t82 = load_64(m, l4.wrapping_add(247u64));
store_64(m, l4.wrapping_add(1296u64), t82);
let t83 = load_64(m, l4.wrapping_add(240u64));
store_64(m, l4.wrapping_add(1289u64), t83);
let t84 = load_64(m, l4.wrapping_add(232u64));
store_64(m, l4.wrapping_add(1281u64), t84);
store_8(m, l4.wrapping_add(1320u64), l12 as u8);
store_64(m, l4.wrapping_add(1312u64), l7);
store_64(m, l4.wrapping_add(1304u64), l3);
let t85 = load_64(m, l4.wrapping_add(247u64));
store_64(m, l4.wrapping_add(1336u64), t85);
let t86 = load_64(m, l4.wrapping_add(240u64));
store_64(m, l4.wrapping_add(1329u64), t86);
let t87 = load_64(m, l4.wrapping_add(232u64));
store_64(m, l4.wrapping_add(1321u64), t87);
store_8(m, l4.wrapping_add(1360u64), l12 as u8);
store_64(m, l4.wrapping_add(1352u64), l7);
store_64(m, l4.wrapping_add(1344u64), l3);
let t88 = load_64(m, l4.wrapping_add(303u64));
store_64(m, l4.wrapping_add(1376u64), t88);
let t89 = load_64(m, l4.wrapping_add(296u64));
store_64(m, l4.wrapping_add(1369u64), t89);
let t90 = load_64(m, l4.wrapping_add(288u64));
store_64(m, l4.wrapping_add(1361u64), t90);
store_8(m, l4.wrapping_add(1400u64), l12 as u8);
store_64(m, l4.wrapping_add(1392u64), l7);
store_64(m, l4.wrapping_add(1384u64), l3);
let t91 = load_64(m, l4.wrapping_add(303u64));
store_64(m, l4.wrapping_add(1416u64), t91);
let t92 = load_64(m, l4.wrapping_add(296u64));
store_64(m, l4.wrapping_add(1409u64), t92);
let t93 = load_64(m, l4.wrapping_add(288u64));
store_64(m, l4.wrapping_add(1401u64), t93);
store_8(m, l4.wrapping_add(1440u64), l12 as u8);
store_64(m, l4.wrapping_add(1432u64), l7);
store_64(m, l4.wrapping_add(1424u64), l3);
let t94 = load_64(m, l4.wrapping_add(303u64));
store_64(m, l4.wrapping_add(1456u64), t94);
let t95 = load_64(m, l4.wrapping_add(296u64));
store_64(m, l4.wrapping_add(1449u64), t95);
let t96 = load_64(m, l4.wrapping_add(288u64));
store_64(m, l4.wrapping_add(1441u64), t96);
store_8(m, l4.wrapping_add(1480u64), l12 as u8);
store_64(m, l4.wrapping_add(1472u64), l7);
store_64(m, l4.wrapping_add(1464u64), l3);
let t97 = load_64(m, l4.wrapping_add(303u64));
store_64(m, l4.wrapping_add(1496u64), t97);
let t98 = load_64(m, l4.wrapping_add(296u64));
store_64(m, l4.wrapping_add(1489u64), t98);
let t99 = load_64(m, l4.wrapping_add(288u64));
store_64(m, l4.wrapping_add(1481u64), t99);
store_8(m, l4.wrapping_add(1520u64), l12 as u8);
store_64(m, l4.wrapping_add(1512u64), l7);
store_64(m, l4.wrapping_add(1504u64), l3);
let t100 = load_64(m, l4.wrapping_add(303u64));
store_64(m, l4.wrapping_add(1536u64), t100);
let t101 = load_64(m, l4.wrapping_add(296u64));
store_64(m, l4.wrapping_add(1529u64), t101);
let t102 = load_64(m, l4.wrapping_add(288u64));
store_64(m, l4.wrapping_add(1521u64), t102);
store_8(m, l4.wrapping_add(1560u64), l12 as u8);
store_64(m, l4.wrapping_add(1552u64), l7);
store_64(m, l4.wrapping_add(1544u64), l3);
let t103 = load_64(m, l4.wrapping_add(303u64));
store_64(m, l4.wrapping_add(1576u64), t103);
let t104 = load_64(m, l4.wrapping_add(296u64));
store_64(m, l4.wrapping_add(1569u64), t104);
let t105 = load_64(m, l4.wrapping_add(288u64));
store_64(m, l4.wrapping_add(1561u64), t105);
store_8(m, l4.wrapping_add(1600u64), l12 as u8);
store_64(m, l4.wrapping_add(1592u64), l7);
store_64(m, l4.wrapping_add(1584u64), l3);
let t106 = load_64(m, l4.wrapping_add(303u64));
store_64(m, l4.wrapping_add(1616u64), t106);
let t107 = load_64(m, l4.wrapping_add(296u64));
store_64(m, l4.wrapping_add(1609u64), t107);
let t108 = load_64(m, l4.wrapping_add(288u64));
store_64(m, l4.wrapping_add(1601u64), t108);
fill(m, l4.wrapping_add(1680u64), 0u32 as u8, 80u64);
'b12: {
l13 = l5.wrapping_add(0xffffffffffffffffu64);
if (l13 == 0) { break 'b12; }
l8 = l8.wrapping_add(l11);
l6 = l6.wrapping_add(8u64);
l3 = l4.wrapping_add(401u64);
l10 = l4.wrapping_add(1855u64);
l11 = l4.wrapping_add(1705u64);
'b13: loop {
l14 = load_64(m, l6);
f6(m, g, l4.wrapping_add(1680u64), l8, l14);
store_64(m, l10, 0u64);
store_64(m, l10.wrapping_add(8u64), 0u64);
store_64(m, l10.wrapping_add(16u64), 0u64);
store_32(m, l10.wrapping_add(23u64), 0u32);
l12 = (load_8(m, l4.wrapping_add(1704u64)) as u32);
l7 = load_64(m, l4.wrapping_add(1696u64));
l15 = load_64(m, l4.wrapping_add(1688u64));
if ((load_8(m, l4.wrapping_add(1680u64)) as u32) != 0) { break 'b4; }
let t109 = load_64(m, l11.wrapping_add(15u64));
store_64(m, l4.wrapping_add(1847u64), t109);
let t110 = load_64(m, l11.wrapping_add(8u64));
store_64(m, l4.wrapping_add(1840u64), t110);
let t111 = load_64(m, l4.wrapping_add(1856u64));
store_64(m, l4.wrapping_add(1784u64), t111);
let t112 = load_64(m, l4.wrapping_add(1864u64));
store_64(m, l4.wrapping_add(1792u64), t112);
let t113 = load_64(m, l4.wrapping_add(1872u64));
store_64(m, l4.wrapping_add(1800u64), t113);
let t114 = (load_16(m, l4.wrapping_add(1880u64)) as u32);
store_16(m, l4.wrapping_add(1808u64), t114 as u16);
let t115 = load_64(m, l11);
store_64(m, l4.wrapping_add(1760u64), t115);
let t116 = load_64(m, l4.wrapping_add(1840u64));
store_64(m, l4.wrapping_add(1768u64), t116);
let t117 = load_64(m, l4.wrapping_add(1848u64));
store_64(m, l4.wrapping_add(1776u64), t117);
store_8(m, l3.wrapping_add(0xffffffffffffffffu64), l12 as u8);
store_64(m, l3.wrapping_add(0xfffffffffffffff7u64), l7);
store_64(m, l3.wrapping_add(0xffffffffffffffefu64), l15);
let t118 = load_64(m, l4.wrapping_add(1760u64));
store_64(m, l3, t118);
let t119 = load_64(m, l4.wrapping_add(1768u64));
store_64(m, l3.wrapping_add(8u64), t119);
let t120 = load_64(m, l4.wrapping_add(1775u64));
store_64(m, l3.wrapping_add(15u64), t120);
l6 = l6.wrapping_add(8u64);
l3 = l3.wrapping_add(40u64);
l8 = l8.wrapping_add(l14);
l13 = l13.wrapping_add(0xffffffffffffffffu64);
if (l13 != 0u64) { continue 'b13; }
break 'b13;
}
}
f7(m, g, l4.wrapping_add(80u64), l1, l4.wrapping_add(344u64), l5, (if (l2 < 32u32) { l2 } else { 2u32 }));
'b14: {
if ((load_8(m, l4.wrapping_add(80u64)) as u32) != 0) { break 'b14; }
let t121 = load_64(m, l4.wrapping_add(1624u64));
store_64(m, l4.wrapping_add(24u64), t121);
let t122 = load_64(m, l4.wrapping_add(1632u64));
store_64(m, l4.wrapping_add(32u64), t122);
let t123 = load_64(m, l4.wrapping_add(1640u64));
store_64(m, l4.wrapping_add(40u64), t123);
let t124 = load_64(m, l4.wrapping_add(1648u64));
store_64(m, l4.wrapping_add(48u64), t124);
let t125 = load_64(m, l4.wrapping_add(1656u64));
store_64(m, l4.wrapping_add(56u64), t125);
let t126 = load_64(m, l4.wrapping_add(1664u64));
store_64(m, l4.wrapping_add(64u64), t126);
let t127 = (load_16(m, l4.wrapping_add(1672u64)) as u32);
store_16(m, l4.wrapping_add(72u64), t127 as u16);
l12 = 0u32;
l3 = 0u64;
l10 = load_64(m, l4.wrapping_add(88u64));
l7 = 0u64;
break 'b2;
}
l7 = 0u64;
store_64(m, l4.wrapping_add(24u64), 0u64);
store_64(m, l4.wrapping_add(32u64), 0u64);
store_64(m, l4.wrapping_add(40u64), 0u64);
store_64(m, l4.wrapping_add(48u64), 0u64);
store_64(m, l4.wrapping_add(56u64), 0u64);
store_64(m, l4.wrapping_add(64u64), 0u64);
l12 = 0u32;
store_16(m, l4.wrapping_add(72u64), 0u32 as u16);
l10 = (((load_8(m, l4.wrapping_add(81u64)) as u64) << 8) | 8u64);
break 'b3;
}
store_64(m, l0, 1u64);
store_64(m, l0.wrapping_add(25u64), 0u64);
store_8(m, l0.wrapping_add(24u64), 0u64 as u8);
store_64(m, l0.wrapping_add(16u64), 0u64);
store_64(m, l0.wrapping_add(8u64), 1u64);
store_64(m, l0.wrapping_add(33u64), 0u64);
store_64(m, l0.wrapping_add(41u64), 0u64);
store_64(m, l0.wrapping_add(49u64), 0u64);
store_64(m, l0.wrapping_add(57u64), 0u64);
store_64(m, l0.wrapping_add(65u64), 0u64);
store_16(m, l0.wrapping_add(73u64), 0u32 as u16);
store_8(m, l4.wrapping_add(16u64), 0u32 as u8);
store_64(m, l4.wrapping_add(8u64), 0u64);
break 'b1;
}
}
store_16(m, l4.wrapping_add(72u64), 0u32 as u16);
l7 = 0u64;
store_64(m, l4.wrapping_add(64u64), 0u64);
store_64(m, l4.wrapping_add(56u64), 0u64);
store_64(m, l4.wrapping_add(48u64), 0u64);
store_64(m, l4.wrapping_add(40u64), 0u64);
store_64(m, l4.wrapping_add(32u64), 0u64);
store_64(m, l4.wrapping_add(24u64), 0u64);
l10 = 517u64;
break 'b3;
}
l12 = 0u32;
store_16(m, l4.wrapping_add(72u64), 0u32 as u16);
l7 = 0u64;
store_64(m, l4.wrapping_add(64u64), 0u64);
store_64(m, l4.wrapping_add(56u64), 0u64);
store_64(m, l4.wrapping_add(48u64), 0u64);
store_64(m, l4.wrapping_add(40u64), 0u64);
store_64(m, l4.wrapping_add(32u64), 0u64);
store_64(m, l4.wrapping_add(24u64), 0u64);
l10 = 776u64;
break 'b3;
}
store_8(m, l4.wrapping_add(336u64), l12 as u8);
store_64(m, l4.wrapping_add(328u64), (l7 & 255u64));
let t128 = load_64(m, l10);
store_64(m, l4.wrapping_add(24u64), t128);
let t129 = load_64(m, l10.wrapping_add(8u64));
store_64(m, l4.wrapping_add(32u64), t129);
let t130 = load_64(m, l10.wrapping_add(16u64));
store_64(m, l4.wrapping_add(40u64), t130);
let t131 = load_64(m, l10.wrapping_add(24u64));
store_64(m, l4.wrapping_add(48u64), t131);
let t132 = load_64(m, l10.wrapping_add(32u64));
store_64(m, l4.wrapping_add(56u64), t132);
let t133 = load_64(m, l10.wrapping_add(40u64));
store_64(m, l4.wrapping_add(64u64), t133);
let t134 = (load_16(m, l10.wrapping_add(48u64)) as u32);
store_16(m, l4.wrapping_add(72u64), t134 as u16);
l10 = (l3 & 65535u64);
break 'b3;
}
let t135 = load_64(m, l11);
store_64(m, l4.wrapping_add(96u64), t135);
let t136 = load_64(m, l11.wrapping_add(8u64));
store_64(m, l4.wrapping_add(104u64), t136);
let t137 = load_64(m, l11.wrapping_add(16u64));
store_64(m, l4.wrapping_add(112u64), t137);
let t138 = load_64(m, l11.wrapping_add(24u64));
store_64(m, l4.wrapping_add(120u64), t138);
let t139 = load_64(m, l11.wrapping_add(32u64));
store_64(m, l4.wrapping_add(128u64), t139);
let t140 = load_64(m, l11.wrapping_add(40u64));
store_64(m, l4.wrapping_add(136u64), t140);
let t141 = (load_16(m, l11.wrapping_add(48u64)) as u32);
store_16(m, l4.wrapping_add(144u64), t141 as u16);
store_8(m, l4.wrapping_add(320u64), l12 as u8);
store_64(m, l4.wrapping_add(312u64), (l7 & 255u64));
let t142 = (load_16(m, l4.wrapping_add(144u64)) as u32);
store_16(m, l4.wrapping_add(72u64), t142 as u16);
let t143 = load_64(m, l4.wrapping_add(136u64));
store_64(m, l4.wrapping_add(64u64), t143);
let t144 = load_64(m, l4.wrapping_add(128u64));
store_64(m, l4.wrapping_add(56u64), t144);
let t145 = load_64(m, l4.wrapping_add(120u64));
store_64(m, l4.wrapping_add(48u64), t145);
let t146 = load_64(m, l4.wrapping_add(112u64));
store_64(m, l4.wrapping_add(40u64), t146);
let t147 = load_64(m, l4.wrapping_add(104u64));
store_64(m, l4.wrapping_add(32u64), t147);
let t148 = load_64(m, l4.wrapping_add(96u64));
store_64(m, l4.wrapping_add(24u64), t148);
l10 = (l15 & 65535u64);
}
l3 = 1u64;
}
store_8(m, l0.wrapping_add(24u64), l12 as u8);
store_64(m, l0.wrapping_add(16u64), (l7 & 255u64));
store_64(m, l0.wrapping_add(8u64), l10);
store_64(m, l0, l3);
let t149 = load_64(m, l4.wrapping_add(24u64));
store_64(m, l0.wrapping_add(25u64), t149);
let t150 = load_64(m, l4.wrapping_add(32u64));
store_64(m, l0.wrapping_add(33u64), t150);
let t151 = load_64(m, l4.wrapping_add(40u64));
store_64(m, l0.wrapping_add(41u64), t151);
let t152 = load_64(m, l4.wrapping_add(48u64));
store_64(m, l0.wrapping_add(49u64), t152);
let t153 = load_64(m, l4.wrapping_add(56u64));
store_64(m, l0.wrapping_add(57u64), t153);
let t154 = load_64(m, l4.wrapping_add(64u64));
store_64(m, l0.wrapping_add(65u64), t154);
let t155 = (load_16(m, l4.wrapping_add(72u64)) as u32);
store_16(m, l0.wrapping_add(73u64), t155 as u16);
}
g = l4.wrapping_add(1888u64);
}

// codex32_calls::input::share_of
fn f6(m: &mut [u8], mut g: u64, mut l0: u64, mut l1: u64, mut l2: u64) {
let mut l3: u64 = 0;
let mut l4: u64 = 0;
let mut l5: u64 = 0;
let mut l6: u64 = 0;
let mut l7: u32 = 0;
let mut l8: u32 = 0;
let mut l9: u32 = 0;
let mut l10: u32 = 0;
let mut l11: u64 = 0;
l3 = g.wrapping_sub(176u64);
g = l3;
'b1: {
{
fill(m, l3.wrapping_add(88u64), 0u32 as u8, 72u64);
fill(m, l3.wrapping_add(8u64), 0u32 as u8, 80u64);
f8(m, g, l3.wrapping_add(8u64), l1, l2);
l2 = load_64(m, l3.wrapping_add(24u64));
l1 = load_64(m, l3.wrapping_add(16u64));
'b3: {
'b4: {
if ((load_8(m, l3.wrapping_add(8u64)) as u32) != 0) { break 'b4; }
f9(m, g, l3.wrapping_add(88u64), l1, l2);
l2 = ((load_32(m, l3.wrapping_add(129u64)) as u64) | (((load_8(m, l3.wrapping_add(88u64).wrapping_add(47u64)) as u64) << 48) | ((load_16(m, l3.wrapping_add(88u64).wrapping_add(45u64)) as u64) << 32)));
l1 = ((load_32(m, l3.wrapping_add(121u64)) as u64) | (((load_8(m, l3.wrapping_add(88u64).wrapping_add(39u64)) as u64) << 48) | ((load_16(m, l3.wrapping_add(88u64).wrapping_add(37u64)) as u64) << 32)));
l4 = ((load_32(m, l3.wrapping_add(113u64)) as u64) | (((load_8(m, l3.wrapping_add(88u64).wrapping_add(31u64)) as u64) << 48) | ((load_16(m, l3.wrapping_add(88u64).wrapping_add(29u64)) as u64) << 32)));
l5 = ((load_32(m, l3.wrapping_add(105u64)) as u64) | (((load_8(m, l3.wrapping_add(111u64)) as u64) << 48) | ((load_16(m, l3.wrapping_add(109u64)) as u64) << 32)));
l6 = l0.wrapping_add(48u64);
l7 = (load_8(m, l3.wrapping_add(104u64)) as u32);
l8 = (load_8(m, l3.wrapping_add(128u64)) as u32);
l9 = (load_8(m, l3.wrapping_add(120u64)) as u32);
l10 = (load_8(m, l3.wrapping_add(112u64)) as u32);
l11 = load_64(m, l3.wrapping_add(96u64));
if ((load_8(m, l3.wrapping_add(88u64)) as u32) != 0) { break 'b3; }
store_64(m, l0, 0u64);
store_64(m, l6, 0u64);
store_64(m, l6.wrapping_add(8u64), 0u64);
store_64(m, l6.wrapping_add(16u64), 0u64);
store_32(m, l6.wrapping_add(23u64), 0u32);
store_8(m, l0.wrapping_add(47u64), (l2 >> 48) as u8);
store_16(m, l0.wrapping_add(45u64), (l2 >> 32) as u16);
store_32(m, l0.wrapping_add(41u64), l2 as u32);
store_8(m, l0.wrapping_add(39u64), (l1 >> 48) as u8);
store_16(m, l0.wrapping_add(37u64), (l1 >> 32) as u16);
store_32(m, l0.wrapping_add(33u64), l1 as u32);
store_8(m, l0.wrapping_add(31u64), (l4 >> 48) as u8);
store_16(m, l0.wrapping_add(29u64), (l4 >> 32) as u16);
store_32(m, l0.wrapping_add(25u64), l4 as u32);
store_8(m, l0.wrapping_add(40u64), l8 as u8);
store_8(m, l0.wrapping_add(32u64), l9 as u8);
store_8(m, l0.wrapping_add(24u64), l10 as u8);
store_64(m, l0.wrapping_add(8u64), l11);
store_64(m, l0.wrapping_add(16u64), ((l5 << 8) | ((l7 as u64) & 255u64)));
break 'b1;
}
store_64(m, l0, 1u64);
let t1 = (load_32(m, l3.wrapping_add(57u64)) as u64);
store_32(m, l0.wrapping_add(49u64), t1 as u32);
let t2 = load_64(m, l3.wrapping_add(49u64));
store_64(m, l0.wrapping_add(41u64), t2);
let t3 = load_64(m, l3.wrapping_add(41u64));
store_64(m, l0.wrapping_add(33u64), t3);
let t4 = load_64(m, l3.wrapping_add(33u64));
store_64(m, l0.wrapping_add(25u64), t4);
l7 = (load_8(m, l3.wrapping_add(32u64)) as u32);
store_8(m, l0.wrapping_add(24u64), (l7 as u64) as u8);
l2 = (l2 & 255u64);
store_64(m, l0.wrapping_add(16u64), l2);
store_64(m, l0.wrapping_add(8u64), (l1 & 65535u64));
let t5 = (load_8(m, l3.wrapping_add(8u64).wrapping_add(55u64)) as u64);
store_8(m, l0.wrapping_add(55u64), t5 as u8);
let t6 = (load_16(m, l3.wrapping_add(8u64).wrapping_add(53u64)) as u64);
store_16(m, l0.wrapping_add(53u64), t6 as u16);
store_8(m, l3.wrapping_add(168u64), l7 as u8);
store_64(m, l3.wrapping_add(160u64), l2);
let t7 = load_32(m, l3.wrapping_add(79u64));
store_32(m, l0.wrapping_add(71u64), t7);
let t8 = load_64(m, l3.wrapping_add(72u64));
store_64(m, l0.wrapping_add(64u64), t8);
let t9 = load_64(m, l3.wrapping_add(64u64));
store_64(m, l0.wrapping_add(56u64), t9);
break 'b1;
}
store_64(m, l0, 1u64);
store_8(m, l0.wrapping_add(55u64), (l2 >> 48) as u8);
store_16(m, l0.wrapping_add(53u64), (l2 >> 32) as u16);
store_32(m, l0.wrapping_add(49u64), l2 as u32);
store_8(m, l0.wrapping_add(47u64), (l1 >> 48) as u8);
store_16(m, l0.wrapping_add(45u64), (l1 >> 32) as u16);
store_32(m, l0.wrapping_add(41u64), l1 as u32);
store_8(m, l0.wrapping_add(39u64), (l4 >> 48) as u8);
store_16(m, l0.wrapping_add(37u64), (l4 >> 32) as u16);
store_32(m, l0.wrapping_add(33u64), l4 as u32);
store_8(m, l0.wrapping_add(31u64), (l5 >> 48) as u8);
store_16(m, l0.wrapping_add(29u64), (l5 >> 32) as u16);
store_32(m, l0.wrapping_add(25u64), l5 as u32);
store_8(m, l6, l8 as u8);
store_8(m, l0.wrapping_add(40u64), l9 as u8);
store_8(m, l0.wrapping_add(32u64), l10 as u8);
store_8(m, l0.wrapping_add(24u64), l7 as u8);
store_64(m, l0.wrapping_add(16u64), (l11 & 255u64));
store_64(m, l0.wrapping_add(8u64), 4u64);
let t10 = load_64(m, l3.wrapping_add(136u64));
store_64(m, l0.wrapping_add(56u64), t10);
let t11 = load_64(m, l3.wrapping_add(144u64));
store_64(m, l0.wrapping_add(64u64), t11);
let t12 = load_32(m, l3.wrapping_add(151u64));
store_32(m, l0.wrapping_add(71u64), t12);
break 'b1;
}
}
g = l3.wrapping_add(176u64);
}

// codex32::derivation::derive_into
fn f7(m: &mut [u8], mut g: u64, mut l0: u64, mut l1: u64, mut l2: u64, mut l3: u64, mut l4: u32) {
let mut l5: u64 = 0;
let mut l6: u64 = 0;
let mut l7: u64 = 0;
let mut l8: u32 = 0;
let mut l9: u32 = 0;
let mut l10: u32 = 0;
let mut l11: u64 = 0;
let mut l12: u64 = 0;
let mut l13: u64 = 0;
let mut l14: u64 = 0;
let mut l15: u32 = 0;
let mut l16: u32 = 0;
l5 = g.wrapping_sub(128u64);
g = l5;
{
l6 = l5;
fill(m, l6.wrapping_add(4u64), 0u32 as u8, 124u64);
l7 = 0u64;
l8 = 3u32;
l9 = 1u32;
'b2: {
if (l3 == 0) { break 'b2; }
l10 = (load_8(m, l2) as u32);
l5 = l2;
l11 = l3;
'b3: {
'b4: loop {
if ((l10 & 255u32) != (load_8(m, l5) as u32)) { break 'b3; }
if (load_32(m, l2.wrapping_add(1u64)) != load_32(m, l5.wrapping_add(1u64))) { break 'b3; }
l12 = load_64(m, l2.wrapping_add(32u64));
if (l12 != load_64(m, l5.wrapping_add(32u64))) { break 'b3; }
l5 = l5.wrapping_add(40u64);
l13 = 0xffffffffffffffffu64;
l11 = l11.wrapping_add(0xffffffffffffffffu64);
if (l11 != 0u64) { continue 'b4; }
break 'b4;
}
l14 = l3.wrapping_mul(40u64).wrapping_add(l2).wrapping_add(0xffffffffffffffddu64);
l7 = l3;
'b5: loop {
l5 = l7;
l7 = l5.wrapping_add(0xffffffffffffffffu64);
l15 = (load_8(m, l5.wrapping_mul(40u64).wrapping_add(l2).wrapping_add(0xffffffffffffffddu64)) as u32);
l11 = l13;
l5 = l14;
'b6: {
'b7: loop {
l11 = l11.wrapping_add(1u64);
if (l11 == 0) { break 'b6; }
l16 = (load_8(m, l5) as u32);
l5 = l5.wrapping_add(0xffffffffffffffd8u64);
if (l16 != (l15 & 255u32)) { continue 'b7; }
break 'b7;
}
l7 = 0u64;
l9 = 1u32;
l8 = 1u32;
break 'b2;
}
l13 = l13.wrapping_add(0xffffffffffffffffu64);
if !(l7 == 0) { continue 'b5; }
break 'b5;
}
l7 = 0u64;
'b8: {
if ((l4 & 255u32) == 16u32) { break 'b8; }
if ((l10 & 255u32) != 0) { break 'b8; }
l8 = 2u32;
break 'b2;
}
l9 = 1u32;
l16 = (l10 & 255u32);
l13 = ((if (l16 > 1u32) { l16 } else { 1u32 }) as u64);
if (l3 < l13) { break 'b2; }
'b9: {
if (l3 <= l13) { break 'b9; }
l11 = l3.wrapping_sub(l13);
l5 = l13.wrapping_mul(40u64).wrapping_add(l2).wrapping_add(32u64);
l16 = 1u32;
'b10: loop {
let t1 = (load_8(m, l5.wrapping_add(0xffffffffffffffe5u64)) as u32);
f26(m, g, l6.wrapping_add(4u64), l12, l2, l13, t1);
let t2 = load_64(m, l5.wrapping_add(0xfffffffffffffff8u64));
let t3 = load_64(m, l5);
let t4 = f27(m, g, l6.wrapping_add(4u64), t2, t3);
l16 = (l16 & t4);
l7 = 0u64;
l5 = l5.wrapping_add(40u64);
l11 = l11.wrapping_add(0xffffffffffffffffu64);
if (l11 != 0u64) { continue 'b10; }
break 'b10;
}
if (l16 != 0) { break 'b9; }
l8 = 4u32;
l9 = 1u32;
break 'b2;
}
f26(m, g, l6.wrapping_add(4u64), l12, l2, l13, l4);
store_8(m, l1.wrapping_add(2u64), 49u32 as u8);
store_16(m, l1, 29549u32 as u16);
l7 = 3u64;
l9 = 0u32;
if (l12 == 0) { break 'b3; }
l7 = l12.wrapping_add(3u64);
l5 = l1.wrapping_add(3u64);
l2 = l6.wrapping_add(4u64);
'b11: loop {
let t5 = (load_8(m, l2) as u32);
let t6 = f28(m, g, t5);
store_8(m, l5, t6 as u8);
l2 = l2.wrapping_add(1u64);
l5 = l5.wrapping_add(1u64);
l12 = l12.wrapping_add(0xffffffffffffffffu64);
if (l12 != 0u64) { continue 'b11; }
break 'b11;
}
}
l8 = 0u32;
}
store_8(m, l0, l9 as u8);
store_64(m, l0.wrapping_add(8u64), l7);
store_8(m, l0.wrapping_add(1u64), l8 as u8);
g = l6.wrapping_add(128u64);
return;
}
}

// codex32_calls::input::text_of
fn f8(m: &mut [u8], mut g: u64, mut l0: u64, mut l1: u64, mut l2: u64) {
let mut l3: u64 = 0;
let mut l4: u64 = 0;
let mut l5: u64 = 0;
let mut l6: u64 = 0;
let mut l7: u64 = 0;
let mut l8: u32 = 0;
let mut l9: u64 = 0;
let mut l10: u64 = 0;
let mut l11: u32 = 0;
l3 = g.wrapping_sub(112u64);
g = l3;
'b1: {
'b2: {
{
l4 = l3;
if (l2 == 0) { break 'b2; }
l5 = l2.wrapping_add(0xfffffffffffffff8u64);
l6 = l1.wrapping_add(l5);
l3 = 0u64;
'b4: loop {
l7 = l3;
l3 = l1.wrapping_add(l7);
l8 = (load_8(m, l3) as u32);
'b5: {
'b6: {
'b7: {
'b8: {
'b9: {
l9 = l2.wrapping_sub(l7);
if (l9 < 2u64) { break 'b9; }
if (((l8 as i8 as i32 as u32) as i32) < (0u32 as i32)) { break 'b9; }
l10 = 1u64;
if (((load_8(m, l3.wrapping_add(1u64)) as i8 as i32 as u32) as i32) < (0u32 as i32)) { break 'b8; }
store_64(m, l4.wrapping_add(64u64), l2);
store_64(m, l4.wrapping_add(56u64), l1);
'b10: {
if (l9 > 7u64) { break 'b10; }
'b11: {
if (((load_8(m, l3) as i8 as i32 as u32) as i32) >= (0u32 as i32)) { break 'b11; }
l3 = l7;
break 'b5;
}
l3 = l7.wrapping_add(1u64);
if (l3 == l2) { break 'b2; }
if (((load_8(m, l1.wrapping_add(l3)) as i8 as i32 as u32) as i32) < (0u32 as i32)) { break 'b5; }
l3 = l7.wrapping_add(2u64);
if (l3 == l2) { break 'b2; }
if (((load_8(m, l1.wrapping_add(l3)) as i8 as i32 as u32) as i32) < (0u32 as i32)) { break 'b5; }
l3 = l7.wrapping_add(3u64);
if (l3 == l2) { break 'b2; }
if (((load_8(m, l1.wrapping_add(l3)) as i8 as i32 as u32) as i32) < (0u32 as i32)) { break 'b5; }
l3 = l7.wrapping_add(4u64);
if (l3 == l2) { break 'b2; }
if (((load_8(m, l1.wrapping_add(l3)) as i8 as i32 as u32) as i32) < (0u32 as i32)) { break 'b5; }
l3 = l7.wrapping_add(5u64);
if (l3 == l2) { break 'b2; }
if (((load_8(m, l1.wrapping_add(l3)) as i8 as i32 as u32) as i32) < (0u32 as i32)) { break 'b5; }
l3 = l7.wrapping_add(6u64);
if (l3 == l2) { break 'b2; }
if (((load_8(m, l1.wrapping_add(l3)) as i8 as i32 as u32) as i32) < (0u32 as i32)) { break 'b5; }
break 'b2;
}
l3 = (load_64(m, l3) & 0x8080808080808080u64);
l3 = (if (l3 == 0) { 8u64 } else { ((l3.trailing_zeros() as u64) >> 3) }).wrapping_add(l7);
if (l3 < l7.wrapping_add(8u64)) { break 'b5; }
'b12: {
if (l2.wrapping_sub(l3) < 32u64) { break 'b12; }
'b13: loop {
l7 = l1.wrapping_add(l3);
if (((((load_64(m, l7.wrapping_add(8u64)) | load_64(m, l7)) | load_64(m, l7.wrapping_add(16u64))) | load_64(m, l7.wrapping_add(24u64))) & 0x8080808080808080u64) != 0u64) { break 'b12; }
let t1 = f10(m, g, l4.wrapping_add(56u64), l3.wrapping_add(32u64), l2);
l3 = t1;
if (l2.wrapping_sub(l3) > 31u64) { continue 'b13; }
break 'b13;
}
}
l7 = l2.wrapping_sub(l3);
'b14: loop {
if (l7 < 9u64) { break 'b7; }
l7 = l7.wrapping_add(0xfffffffffffffff8u64);
l10 = (load_64(m, l1.wrapping_add(l3)) & 0x8080808080808080u64);
l10 = (if (l10 == 0) { 8u64 } else { ((l10.trailing_zeros() as u64) >> 3) });
let t2 = l10.wrapping_add(l3);
l3 = l3.wrapping_add(8u64);
if (t2 >= l3) { continue 'b14; }
break 'b14;
}
l3 = l10.wrapping_add(l3).wrapping_add(0xfffffffffffffff8u64);
break 'b5;
}
l10 = 1u64;
if (((l8 as i8 as i32 as u32) as i32) > (0xffffffffu32 as i32)) { break 'b8; }
if (l8 < 194u32) { break 'b6; }
'b15: {
if (l8 > 223u32) { break 'b15; }
l10 = 2u64;
if (l9 < 2u64) { break 'b6; }
if (((load_8(m, l3.wrapping_add(1u64)) as i8 as i32 as u32) as i32) <= (0xffffffbfu32 as i32)) { break 'b8; }
break 'b6;
}
'b16: {
'b17: {
if (l8 > 239u32) { break 'b17; }
if (l9 < 3u64) { break 'b6; }
l11 = (load_8(m, l3.wrapping_add(1u64)) as i8 as i32 as u32);
if ((l11 as i32) > (0xffffffbfu32 as i32)) { break 'b6; }
if (((load_8(m, l3.wrapping_add(2u64)) as i8 as i32 as u32) as i32) > (0xffffffbfu32 as i32)) { break 'b6; }
l8 = (l8 << 6).wrapping_add((l11 & 255u32)).wrapping_add(0xffffc780u32);
if (l8 < 32u32) { break 'b6; }
l10 = 3u64;
if (l8 < 864u32) { break 'b8; }
l10 = (if (l8 < 896u32) { 0u64 } else { 3u64 });
break 'b16;
}
if (l9 < 4u64) { break 'b6; }
l11 = (load_8(m, l3.wrapping_add(1u64)) as i8 as i32 as u32);
if ((l11 as i32) > (0xffffffbfu32 as i32)) { break 'b6; }
if (((load_8(m, l3.wrapping_add(2u64)) as i8 as i32 as u32) as i32) > (0xffffffbfu32 as i32)) { break 'b6; }
if (((load_8(m, l3.wrapping_add(3u64)) as i8 as i32 as u32) as i32) > (0xffffffbfu32 as i32)) { break 'b6; }
l8 = (l8 << 6).wrapping_add((l11 & 255u32)).wrapping_add(0xffffc380u32);
if (l8 < 16u32) { break 'b6; }
l10 = (if (l8 < 272u32) { 4u64 } else { 0u64 });
}
if (l10 == 0) { break 'b6; }
}
l3 = l10.wrapping_add(l7);
break 'b5;
}
l3 = (load_64(m, l6) & 0x8080808080808080u64);
l3 = (if (l3 == 0) { 8u64 } else { ((l3.trailing_zeros() as u64) >> 3) }).wrapping_add(l5);
break 'b5;
}
store_16(m, l4.wrapping_add(104u64), 0u32 as u16);
l1 = 0u64;
store_64(m, l4.wrapping_add(96u64), 0u64);
store_64(m, l4.wrapping_add(88u64), 0u64);
store_64(m, l4.wrapping_add(80u64), 0u64);
store_64(m, l4.wrapping_add(72u64), 0u64);
store_64(m, l4.wrapping_add(64u64), 0u64);
store_64(m, l4.wrapping_add(56u64), 0u64);
l3 = 1u64;
l2 = 0u64;
break 'b1;
}
if (l3 < l2) { continue 'b4; }
break 'b2;
}
}
}
store_16(m, l4.wrapping_add(104u64), 0u32 as u16);
l3 = 0u64;
store_64(m, l4.wrapping_add(96u64), 0u64);
store_64(m, l4.wrapping_add(88u64), 0u64);
store_64(m, l4.wrapping_add(80u64), 0u64);
store_64(m, l4.wrapping_add(72u64), 0u64);
store_64(m, l4.wrapping_add(64u64), 0u64);
store_64(m, l4.wrapping_add(56u64), 0u64);
}
let t3 = (load_16(m, l4.wrapping_add(104u64)) as u32);
store_16(m, l4.wrapping_add(48u64), t3 as u16);
let t4 = load_64(m, l4.wrapping_add(96u64));
store_64(m, l4.wrapping_add(40u64), t4);
let t5 = load_64(m, l4.wrapping_add(88u64));
store_64(m, l4.wrapping_add(32u64), t5);
let t6 = load_64(m, l4.wrapping_add(80u64));
store_64(m, l4.wrapping_add(24u64), t6);
let t7 = load_64(m, l4.wrapping_add(72u64));
store_64(m, l4.wrapping_add(16u64), t7);
let t8 = load_64(m, l4.wrapping_add(64u64));
store_64(m, l4.wrapping_add(8u64), t8);
let t9 = load_64(m, l4.wrapping_add(56u64));
store_64(m, l4, t9);
store_8(m, l0.wrapping_add(24u64), 0u32 as u8);
store_64(m, l0.wrapping_add(16u64), l2);
store_64(m, l0.wrapping_add(8u64), l1);
store_64(m, l0, l3);
let t10 = load_64(m, l4);
store_64(m, l0.wrapping_add(25u64), t10);
let t11 = load_64(m, l4.wrapping_add(8u64));
store_64(m, l0.wrapping_add(33u64), t11);
let t12 = load_64(m, l4.wrapping_add(16u64));
store_64(m, l0.wrapping_add(41u64), t12);
let t13 = load_64(m, l4.wrapping_add(24u64));
store_64(m, l0.wrapping_add(49u64), t13);
let t14 = load_64(m, l4.wrapping_add(32u64));
store_64(m, l0.wrapping_add(57u64), t14);
let t15 = load_64(m, l4.wrapping_add(40u64));
store_64(m, l0.wrapping_add(65u64), t15);
let t16 = (load_16(m, l4.wrapping_add(48u64)) as u32);
store_16(m, l0.wrapping_add(73u64), t16 as u16);
g = l4.wrapping_add(112u64);
}

// codex32::share::Share::parse
fn f9(m: &mut [u8], mut g: u64, mut l0: u64, mut l1: u64, mut l2: u64) {
let mut l3: u64 = 0;
let mut l4: u64 = 0;
let mut l5: u64 = 0;
let mut l6: u64 = 0;
let mut l7: u32 = 0;
let mut l8: u64 = 0;
let mut l9: u64 = 0;
let mut l10: u64 = 0;
let mut l11: u32 = 0;
let mut l12: u64 = 0;
l3 = g.wrapping_sub(208u64);
g = l3;
'b1: {
'b2: {
'b3: {
'b4: {
{
fill(m, l3.wrapping_add(32u64), 0u32 as u8, 72u64);
f11(m, g, l3.wrapping_add(32u64), 2u32, l1, l2);
l4 = load_64(m, l3.wrapping_add(40u64));
if ((load_8(m, l3.wrapping_add(32u64)) as u32) != 0) { break 'b4; }
l5 = load_64(m, l3.wrapping_add(48u64));
'b6: {
'b7: {
if (l2 > 93u64) { break 'b7; }
l6 = 0u64;
store_64(m, l3.wrapping_add(152u64), 0u64);
store_64(m, l3.wrapping_add(160u64), 0u64);
store_64(m, l3.wrapping_add(168u64), 0u64);
store_64(m, l3.wrapping_add(176u64), 0u64);
store_64(m, l3.wrapping_add(184u64), 0u64);
store_64(m, l3.wrapping_add(192u64), 0u64);
store_32(m, l3.wrapping_add(199u64), 0u32);
store_64(m, l3.wrapping_add(128u64), 0u64);
store_64(m, l3.wrapping_add(136u64), 0u64);
store_32(m, l3.wrapping_add(143u64), 0u32);
'b8: {
if (l5 > 12u64) { break 'b8; }
store_32(m, l3.wrapping_add(119u64), 0u32);
break 'b3;
}
f12(m, g, l3.wrapping_add(152u64), l1, 2u64, l4, l5);
'b9: {
'b10: {
l7 = (load_8(m, l3.wrapping_add(152u64)) as u32);
if (l7 != 0) { break 'b10; }
l8 = 0u64;
l9 = 0u64;
l10 = 0u64;
break 'b9;
}
let t1 = load_64(m, l3.wrapping_add(184u64));
store_64(m, l3.wrapping_add(128u64), t1);
let t2 = load_64(m, l3.wrapping_add(192u64));
store_64(m, l3.wrapping_add(136u64), t2);
let t3 = load_32(m, l3.wrapping_add(199u64));
store_32(m, l3.wrapping_add(143u64), t3);
l8 = ((load_32(m, l3.wrapping_add(153u64)) as u64) | (((load_8(m, l3.wrapping_add(159u64)) as u64) << 48) | ((load_16(m, l3.wrapping_add(157u64)) as u64) << 32)));
l6 = load_64(m, l3.wrapping_add(176u64));
l10 = load_64(m, l3.wrapping_add(168u64));
l9 = load_64(m, l3.wrapping_add(160u64));
}
let t4 = load_32(m, l3.wrapping_add(143u64));
store_32(m, l3.wrapping_add(119u64), t4);
let t5 = load_64(m, l3.wrapping_add(136u64));
store_64(m, l3.wrapping_add(112u64), t5);
let t6 = load_64(m, l3.wrapping_add(128u64));
store_64(m, l3.wrapping_add(104u64), t6);
break 'b6;
}
l6 = 0u64;
store_64(m, l3.wrapping_add(152u64), 0u64);
store_64(m, l3.wrapping_add(160u64), 0u64);
store_64(m, l3.wrapping_add(168u64), 0u64);
store_64(m, l3.wrapping_add(176u64), 0u64);
store_64(m, l3.wrapping_add(184u64), 0u64);
store_64(m, l3.wrapping_add(192u64), 0u64);
l11 = 0u32;
store_32(m, l3.wrapping_add(199u64), 0u32);
store_64(m, l3.wrapping_add(128u64), 0u64);
store_64(m, l3.wrapping_add(136u64), 0u64);
store_32(m, l3.wrapping_add(143u64), 0u32);
'b11: {
if (l2 < 1024u64) { break 'b11; }
store_32(m, l3.wrapping_add(119u64), 0u32);
store_64(m, l3.wrapping_add(112u64), 0u64);
store_64(m, l3.wrapping_add(104u64), 0u64);
l10 = 1023u64;
l7 = 1u32;
l8 = 0u64;
l9 = l2;
break 'b2;
}
'b12: {
if (l5 > 14u64) { break 'b12; }
store_32(m, l3.wrapping_add(119u64), 0u32);
break 'b3;
}
f13(m, g, l3.wrapping_add(152u64), l1, 2u64, l4, l5);
'b13: {
'b14: {
l7 = (load_8(m, l3.wrapping_add(152u64)) as u32);
if (l7 != 0) { break 'b14; }
l6 = 0u64;
l8 = 0u64;
l9 = 0u64;
l10 = 0u64;
break 'b13;
}
let t7 = load_64(m, l3.wrapping_add(184u64));
store_64(m, l3.wrapping_add(128u64), t7);
let t8 = load_64(m, l3.wrapping_add(192u64));
store_64(m, l3.wrapping_add(136u64), t8);
let t9 = load_32(m, l3.wrapping_add(199u64));
store_32(m, l3.wrapping_add(143u64), t9);
l8 = ((load_32(m, l3.wrapping_add(153u64)) as u64) | (((load_8(m, l3.wrapping_add(159u64)) as u64) << 48) | ((load_16(m, l3.wrapping_add(157u64)) as u64) << 32)));
l6 = load_64(m, l3.wrapping_add(176u64));
l10 = load_64(m, l3.wrapping_add(168u64));
l9 = load_64(m, l3.wrapping_add(160u64));
}
let t10 = load_32(m, l3.wrapping_add(143u64));
store_32(m, l3.wrapping_add(119u64), t10);
let t11 = load_64(m, l3.wrapping_add(136u64));
store_64(m, l3.wrapping_add(112u64), t11);
let t12 = load_64(m, l3.wrapping_add(128u64));
store_64(m, l3.wrapping_add(104u64), t12);
}
l11 = l7;
break 'b2;
}
}
let t13 = load_64(m, l3.wrapping_add(80u64));
store_64(m, l3.wrapping_add(8u64), t13);
let t14 = load_64(m, l3.wrapping_add(88u64));
store_64(m, l3.wrapping_add(16u64), t14);
let t15 = load_32(m, l3.wrapping_add(95u64));
store_32(m, l3.wrapping_add(23u64), t15);
l8 = (l4 & 255u64);
l12 = 1u64;
l1 = load_64(m, l3.wrapping_add(48u64));
l5 = load_64(m, l3.wrapping_add(72u64));
l4 = load_64(m, l3.wrapping_add(64u64));
l9 = load_64(m, l3.wrapping_add(56u64));
break 'b1;
}
l6 = 0u64;
store_64(m, l3.wrapping_add(112u64), 0u64);
store_64(m, l3.wrapping_add(104u64), 0u64);
l11 = 2u32;
l7 = 1u32;
l8 = 0u64;
l9 = 0u64;
l10 = 0u64;
}
let t16 = load_32(m, l3.wrapping_add(119u64));
store_32(m, l3.wrapping_add(167u64), t16);
let t17 = load_64(m, l3.wrapping_add(112u64));
store_64(m, l3.wrapping_add(160u64), t17);
let t18 = load_64(m, l3.wrapping_add(104u64));
store_64(m, l3.wrapping_add(152u64), t18);
'b15: {
'b16: {
'b17: {
'b18: {
if (l7 != 0) { break 'b18; }
'b19: {
l11 = (load_8(m, l4) as u32);
if (l11 == 48u32) { break 'b19; }
if ((l11.wrapping_add(0xffffffceu32) & 255u32) > 7u32) { break 'b17; }
l7 = (load_8(m, l4.wrapping_add(5u64)) as u32);
break 'b15;
}
l8 = 5u64;
l7 = (load_8(m, l4.wrapping_add(5u64)) as u32);
if (((if ((l7.wrapping_add(0xffffffbfu32) & 255u32) < 26u32) { l7.wrapping_add(32u32) } else { l7 }) & 255u32) == 115u32) { break 'b15; }
store_32(m, l3.wrapping_add(143u64), 0u32);
store_64(m, l3.wrapping_add(136u64), 0u64);
store_64(m, l3.wrapping_add(128u64), 0u64);
break 'b16;
}
let t19 = load_32(m, l3.wrapping_add(167u64));
store_32(m, l3.wrapping_add(23u64), t19);
let t20 = load_64(m, l3.wrapping_add(160u64));
store_64(m, l3.wrapping_add(16u64), t20);
let t21 = load_64(m, l3.wrapping_add(152u64));
store_64(m, l3.wrapping_add(8u64), t21);
l1 = ((l8 << 8) | (l11 as u64));
l8 = 3u64;
l12 = 1u64;
l4 = l10;
l5 = l6;
break 'b1;
}
store_32(m, l3.wrapping_add(143u64), 0u32);
store_64(m, l3.wrapping_add(136u64), 0u64);
store_64(m, l3.wrapping_add(128u64), 0u64);
l8 = 4u64;
}
let t22 = load_32(m, l3.wrapping_add(143u64));
store_32(m, l3.wrapping_add(23u64), t22);
let t23 = load_64(m, l3.wrapping_add(136u64));
store_64(m, l3.wrapping_add(16u64), t23);
let t24 = load_64(m, l3.wrapping_add(128u64));
store_64(m, l3.wrapping_add(8u64), t24);
l1 = 0u64;
l12 = 1u64;
l9 = 0u64;
l4 = 0u64;
l5 = 0u64;
break 'b1;
}
l12 = 0u64;
store_64(m, l3.wrapping_add(8u64), 0u64);
store_64(m, l3.wrapping_add(16u64), 0u64);
store_32(m, l3.wrapping_add(23u64), 0u32);
let t25 = (((load_8_constant(m, (load_8(m, l4.wrapping_add(4u64)) as u64).wrapping_add(0x100000000u64)) as u64) << 32) | (((load_8_constant(m, (load_8(m, l4.wrapping_add(3u64)) as u64).wrapping_add(0x100000000u64)) as u64) << 24) | (((load_8_constant(m, (load_8(m, l4.wrapping_add(2u64)) as u64).wrapping_add(0x100000000u64)) as u64) << 16) | (((load_8_constant(m, (load_8(m, l4.wrapping_add(1u64)) as u64).wrapping_add(0x100000000u64)) as u64) << 8) | ((l11.wrapping_add(0xffffffd0u32) as u64) & 255u64)))));
l8 = (((load_8_constant(m, ((l7 as u64) & 255u64).wrapping_add(0x100000000u64)) as u64) << 40) | t25);
l1 = l1.wrapping_add(9u64);
l9 = l2.wrapping_add((if (l2 < 94u64) { 0xfffffffffffffff3u64 } else { 0xfffffffffffffff1u64 })).wrapping_add(0xfffffffffffffff7u64);
}
store_64(m, l0.wrapping_add(40u64), l5);
store_64(m, l0.wrapping_add(32u64), l4);
store_64(m, l0.wrapping_add(24u64), l9);
store_64(m, l0.wrapping_add(16u64), l1);
store_64(m, l0.wrapping_add(8u64), l8);
store_64(m, l0, l12);
let t26 = load_64(m, l3.wrapping_add(8u64));
store_64(m, l0.wrapping_add(48u64), t26);
let t27 = load_64(m, l3.wrapping_add(16u64));
store_64(m, l0.wrapping_add(56u64), t27);
let t28 = load_32(m, l3.wrapping_add(23u64));
store_32(m, l0.wrapping_add(63u64), t28);
g = l3.wrapping_add(208u64);
}

// core::slice::words::skip_far::<#52f9edcae2f82f51>
fn f10(m: &mut [u8], mut g: u64, mut l0: u64, mut l1: u64, mut l2: u64) -> u64 {
let mut l3: u64 = 0;
{
'b2: {
l3 = l2.wrapping_sub(l1);
if (l3 < 64u64) { break 'b2; }
l0 = load_64(m, l0);
'b3: loop {
l2 = l0.wrapping_add(l1);
let t1 = (((((((load_64(m, l2.wrapping_add(16u64)) | load_64(m, l2)) | load_64(m, l2.wrapping_add(32u64))) | load_64(m, l2.wrapping_add(48u64))) | load_64(m, l2.wrapping_add(8u64))) | load_64(m, l2.wrapping_add(24u64))) | load_64(m, l2.wrapping_add(40u64))) | load_64(m, l2.wrapping_add(56u64)));
if ((t1 & 0x8080808080808080u64) != 0u64) { break 'b2; }
l1 = l1.wrapping_add(64u64);
l3 = l3.wrapping_add(0xffffffffffffffc0u64);
if (l3 > 63u64) { continue 'b3; }
break 'b3;
}
}
return l1;
}
}

// codex32::frame::data_part_of
fn f11(m: &mut [u8], mut g: u64, mut l0: u64, mut l1: u32, mut l2: u64, mut l3: u64) {
let mut l4: u64 = 0;
let mut l5: u32 = 0;
let mut l6: u64 = 0;
let mut l7: u64 = 0;
let mut l8: u64 = 0;
l4 = g.wrapping_sub(80u64);
g = l4;
'b1: {
'b2: {
{
fill(m, l4.wrapping_add(8u64), 0u32 as u8, 72u64);
'b4: {
'b5: {
'b6: {
'b7: {
if (l3 < 3u64) { break 'b7; }
l5 = (load_8(m, l2) as u32);
if (((if ((l5.wrapping_add(0xffffffbfu32) & 255u32) < 26u32) { l5.wrapping_add(32u32) } else { l5 }) & 255u32) != 109u32) { break 'b7; }
l5 = (load_8(m, l2.wrapping_add(1u64)) as u32);
if (((if ((l5.wrapping_add(0xffffffbfu32) & 255u32) < 26u32) { l5.wrapping_add(32u32) } else { l5 }) & 255u32) != 115u32) { break 'b7; }
if ((load_8(m, l2.wrapping_add(2u64)) as u32) != 49u32) { break 'b7; }
l6 = l2.wrapping_add(3u64);
l7 = l3.wrapping_add(0xfffffffffffffffdu64);
let t1 = f14(m, g, l6, l7);
if (t1 == 0) { break 'b7; }
let t2 = f15(m, g, l2, l3);
if (t2 != 0) { break 'b7; }
l8 = l3.wrapping_add(0xffffffffffffff83u64);
l2 = l3.wrapping_add(0xffffffffffffffd0u64);
'b8: {
match (((l1 as u64) & 255u64) as u32) {
1 => { break 'b5; }
2 => { break 'b8; }
_ => { break 'b6; }
}
}
if (l2 < 46u64) { break 'b4; }
if (l8 >= 3u64) { break 'b2; }
break 'b4;
}
f16(m, g, l4.wrapping_add(8u64), l1, l2, l3);
let t3 = (load_8(m, l4.wrapping_add(8u64)) as u64);
store_64(m, l0, t3);
let t4 = load_64(m, l4.wrapping_add(16u64));
store_64(m, l0.wrapping_add(8u64), t4);
let t5 = load_64(m, l4.wrapping_add(24u64));
store_64(m, l0.wrapping_add(16u64), t5);
let t6 = load_64(m, l4.wrapping_add(32u64));
store_64(m, l0.wrapping_add(24u64), t6);
let t7 = load_64(m, l4.wrapping_add(40u64));
store_64(m, l0.wrapping_add(32u64), t7);
let t8 = load_64(m, l4.wrapping_add(48u64));
store_64(m, l0.wrapping_add(40u64), t8);
let t9 = load_64(m, l4.wrapping_add(56u64));
store_64(m, l0.wrapping_add(48u64), t9);
let t10 = load_64(m, l4.wrapping_add(64u64));
store_64(m, l0.wrapping_add(56u64), t10);
let t11 = load_32(m, l4.wrapping_add(71u64));
store_32(m, l0.wrapping_add(63u64), t11);
break 'b1;
}
if (l2 < 46u64) { break 'b4; }
break 'b2;
}
if (l8 >= 3u64) { break 'b2; }
}
store_64(m, l0, 0u64);
store_64(m, l0.wrapping_add(8u64), l6);
store_64(m, l0.wrapping_add(16u64), l7);
let t12 = load_64(m, l4.wrapping_add(32u64));
store_64(m, l0.wrapping_add(24u64), t12);
let t13 = load_64(m, l4.wrapping_add(40u64));
store_64(m, l0.wrapping_add(32u64), t13);
let t14 = load_64(m, l4.wrapping_add(48u64));
store_64(m, l0.wrapping_add(40u64), t14);
let t15 = load_64(m, l4.wrapping_add(56u64));
store_64(m, l0.wrapping_add(48u64), t15);
let t16 = load_64(m, l4.wrapping_add(64u64));
store_64(m, l0.wrapping_add(56u64), t16);
let t17 = load_32(m, l4.wrapping_add(71u64));
store_32(m, l0.wrapping_add(63u64), t17);
store_64(m, l4.wrapping_add(24u64), l7);
store_64(m, l4.wrapping_add(16u64), l6);
break 'b1;
}
}
store_64(m, l0, 1u64);
store_64(m, l0.wrapping_add(8u64), 1u64);
store_64(m, l0.wrapping_add(16u64), 0u64);
store_64(m, l0.wrapping_add(24u64), 0u64);
store_64(m, l0.wrapping_add(32u64), 0u64);
store_64(m, l0.wrapping_add(40u64), 0u64);
store_64(m, l0.wrapping_add(48u64), 0u64);
store_64(m, l4.wrapping_add(64u64), 0u64);
store_32(m, l4.wrapping_add(71u64), 0u32);
let t18 = load_64(m, l4.wrapping_add(64u64));
store_64(m, l0.wrapping_add(56u64), t18);
let t19 = load_32(m, l4.wrapping_add(71u64));
store_32(m, l0.wrapping_add(63u64), t19);
store_64(m, l4.wrapping_add(24u64), 0u64);
store_64(m, l4.wrapping_add(16u64), 1u64);
store_64(m, l4.wrapping_add(32u64), 0u64);
store_64(m, l4.wrapping_add(40u64), 0u64);
store_64(m, l4.wrapping_add(48u64), 0u64);
store_64(m, l4.wrapping_add(56u64), 0u64);
}
g = l4.wrapping_add(80u64);
}

// codex32_steady::texts::residue::residue_error_of::<#771ad920835cb552>
fn f12(m: &mut [u8], mut g: u64, mut l0: u64, mut l1: u64, mut l2: u64, mut l3: u64, mut l4: u64) {
let mut l5: u64 = 0;
let mut l6: u64 = 0;
let mut l7: u32 = 0;
l5 = g.wrapping_sub(304u64);
g = l5;
{
store_64(m, l5.wrapping_add(168u64), 0u64);
store_64(m, l5.wrapping_add(160u64), 1u64);
f20(m, g, l5.wrapping_add(160u64), l1, l2);
l2 = load_64(m, l5.wrapping_add(168u64));
l6 = load_64(m, l5.wrapping_add(160u64));
'b2: {
if (l4 == 0) { break 'b2; }
'b3: loop {
l1 = l6;
l2 = ((((l1 >> 60) | (l2 << 4)) & 31u64).wrapping_mul(0x1020408100u64) & 0x10101010100u64).wrapping_mul(255u64);
multiply_128(m, l5.wrapping_add(48u64), ((l2 >> 8) & 255u64).wrapping_mul(0x101010101010101u64), 0u64, 1u64, 1u64);
multiply_128(m, l5.wrapping_add(32u64), ((l2 >> 16) & 255u64).wrapping_mul(0x101010101010101u64), 0u64, 1u64, 1u64);
multiply_128(m, l5.wrapping_add(16u64), ((l2 >> 24) & 255u64).wrapping_mul(0x101010101010101u64), 0u64, 1u64, 1u64);
multiply_128(m, l5, ((l2 >> 32) & 255u64).wrapping_mul(0x101010101010101u64), 0u64, 1u64, 1u64);
let t1 = (load_8(m, l3) as u32);
let t2 = f21(m, g, t1);
l6 = (((((((l1 << 5) | ((t2 & 255u32) as u64)) ^ ((l2 >> 40).wrapping_mul(0x101010101010101u64) & 0x7729a039cfc75f5au64)) ^ (load_64(m, l5) & 0x739640bdeee3fdadu64)) ^ (load_64(m, l5.wrapping_add(16u64)) & 0xfbd920fffe7bee52u64)) ^ (load_64(m, l5.wrapping_add(32u64)) & 0xbfae00def77fe529u64)) ^ (load_64(m, l5.wrapping_add(48u64)) & 0x9dc500ce73fde210u64));
l3 = l3.wrapping_add(1u64);
l2 = ((((((l1 >> 59) ^ load_64(m, l5.wrapping_add(8u64))) ^ load_64(m, l5.wrapping_add(24u64))) ^ load_64(m, l5.wrapping_add(40u64))) ^ load_64(m, l5.wrapping_add(56u64))) & 1u64);
l4 = l4.wrapping_add(0xffffffffffffffffu64);
if (l4 != 0u64) { continue 'b3; }
break 'b3;
}
}
store_64(m, l5.wrapping_add(144u64), l6);
store_64(m, l5.wrapping_add(152u64), l2);
'b4: {
'b5: {
let t3 = f22(m, g, l6, l2);
if (t3 == 0) { break 'b5; }
l7 = 0u32;
store_16(m, l0.wrapping_add(49u64), 0u32 as u16);
store_64(m, l0.wrapping_add(41u64), 0u64);
store_64(m, l0.wrapping_add(33u64), 0u64);
store_64(m, l0.wrapping_add(25u64), 0u64);
store_64(m, l0.wrapping_add(17u64), 0u64);
store_64(m, l0.wrapping_add(9u64), 0u64);
store_64(m, l0.wrapping_add(1u64), 0u64);
break 'b4;
}
store_64(m, l5.wrapping_add(64u64), 0xce0795c2fd1e62au64);
store_64(m, l5.wrapping_add(72u64), 1u64);
store_64(m, l5.wrapping_add(216u64), 0u64);
store_64(m, l5.wrapping_add(224u64), 0u64);
store_64(m, l5.wrapping_add(232u64), 0u64);
store_8(m, l5.wrapping_add(240u64), 0u32 as u8);
store_64(m, l5.wrapping_add(184u64), 0u64);
store_64(m, l5.wrapping_add(192u64), 0u64);
store_64(m, l5.wrapping_add(200u64), 0u64);
store_8(m, l5.wrapping_add(208u64), 0u32 as u8);
f23(m, g, l5.wrapping_add(216u64), l5.wrapping_add(144u64));
f23(m, g, l5.wrapping_add(184u64), l5.wrapping_add(64u64));
let t4 = load_64(m, l5.wrapping_add(184u64));
store_64(m, l5.wrapping_add(273u64), t4);
let t5 = (load_8(m, l5.wrapping_add(240u64)) as u32);
store_8(m, l5.wrapping_add(272u64), t5 as u8);
let t6 = load_64(m, l5.wrapping_add(192u64));
store_64(m, l5.wrapping_add(281u64), t6);
let t7 = load_64(m, l5.wrapping_add(200u64));
store_64(m, l5.wrapping_add(289u64), t7);
let t8 = (load_8(m, l5.wrapping_add(208u64)) as u32);
store_8(m, l5.wrapping_add(297u64), t8 as u8);
let t9 = load_64(m, l5.wrapping_add(216u64));
store_64(m, l5.wrapping_add(88u64), t9);
let t10 = load_64(m, l5.wrapping_add(224u64));
store_64(m, l5.wrapping_add(96u64), t10);
let t11 = load_64(m, l5.wrapping_add(232u64));
store_64(m, l5.wrapping_add(104u64), t11);
let t12 = load_64(m, l5.wrapping_add(272u64));
store_64(m, l5.wrapping_add(112u64), t12);
let t13 = load_64(m, l5.wrapping_add(280u64));
store_64(m, l5.wrapping_add(120u64), t13);
let t14 = load_64(m, l5.wrapping_add(288u64));
store_64(m, l5.wrapping_add(128u64), t14);
let t15 = (load_16(m, l5.wrapping_add(296u64)) as u32);
store_16(m, l5.wrapping_add(136u64), t15 as u16);
let t16 = (load_16(m, l5.wrapping_add(136u64)) as u32);
store_16(m, l0.wrapping_add(49u64), t16 as u16);
let t17 = load_64(m, l5.wrapping_add(128u64));
store_64(m, l0.wrapping_add(41u64), t17);
let t18 = load_64(m, l5.wrapping_add(120u64));
store_64(m, l0.wrapping_add(33u64), t18);
let t19 = load_64(m, l5.wrapping_add(112u64));
store_64(m, l0.wrapping_add(25u64), t19);
let t20 = load_64(m, l5.wrapping_add(104u64));
store_64(m, l0.wrapping_add(17u64), t20);
let t21 = load_64(m, l5.wrapping_add(96u64));
store_64(m, l0.wrapping_add(9u64), t21);
let t22 = load_64(m, l5.wrapping_add(88u64));
store_64(m, l0.wrapping_add(1u64), t22);
l7 = 1u32;
}
store_8(m, l0, l7 as u8);
g = l5.wrapping_add(304u64);
return;
}
}

// codex32_steady::texts::residue::residue_error_of::<#ff86a0b986cb5a24>
fn f13(m: &mut [u8], mut g: u64, mut l0: u64, mut l1: u64, mut l2: u64, mut l3: u64, mut l4: u64) {
let mut l5: u64 = 0;
let mut l6: u64 = 0;
let mut l7: u32 = 0;
l5 = g.wrapping_sub(320u64);
g = l5;
{
store_64(m, l5.wrapping_add(184u64), 0u64);
store_64(m, l5.wrapping_add(176u64), 1u64);
f24(m, g, l5.wrapping_add(176u64), l1, l2);
l1 = load_64(m, l5.wrapping_add(184u64));
l6 = load_64(m, l5.wrapping_add(176u64));
'b2: {
if (l4 == 0) { break 'b2; }
'b3: loop {
l2 = (((l1 >> 6) & 31u64).wrapping_mul(0x1020408100u64) & 0x10101010100u64).wrapping_mul(255u64);
multiply_128(m, l5.wrapping_add(64u64), ((l2 >> 8) & 255u64).wrapping_mul(0x101010101010101u64), 0u64, 1u64, 1u64);
multiply_128(m, l5.wrapping_add(48u64), ((l2 >> 16) & 255u64).wrapping_mul(0x101010101010101u64), 0u64, 1u64, 1u64);
multiply_128(m, l5.wrapping_add(32u64), ((l2 >> 24) & 255u64).wrapping_mul(0x101010101010101u64), 0u64, 1u64, 1u64);
multiply_128(m, l5.wrapping_add(16u64), ((l2 >> 32) & 255u64).wrapping_mul(0x101010101010101u64), 0u64, 1u64, 1u64);
multiply_128(m, l5, (l2 >> 40).wrapping_mul(0x101010101010101u64), 0u64, 1u64, 1u64);
l1 = ((((((load_64(m, l5.wrapping_add(8u64)) & 392u64) ^ (((l1 << 5) | (l6 >> 59)) & 2047u64)) ^ (load_64(m, l5.wrapping_add(24u64)) & 197u64)) ^ (load_64(m, l5.wrapping_add(40u64)) & 1347u64)) ^ (load_64(m, l5.wrapping_add(56u64)) & 1961u64)) ^ (load_64(m, l5.wrapping_add(72u64)) & 981u64));
let t1 = (load_8(m, l3) as u32);
let t2 = f21(m, g, t1);
l7 = t2;
l6 = ((((((load_64(m, l5) & 0x7f74f8dc71b10651u64) ^ ((l6 << 5) | ((l7 & 255u32) as u64))) ^ (load_64(m, l5.wrapping_add(16u64)) & 0x77eaeccf1990d13cu64)) ^ (load_64(m, l5.wrapping_add(32u64)) & 0xf9b7e6c38d8a2a0eu64)) ^ (load_64(m, l5.wrapping_add(48u64)) & 0xbecb6361c6c51507u64)) ^ (load_64(m, l5.wrapping_add(64u64)) & 0x9d273535ea62d897u64));
l3 = l3.wrapping_add(1u64);
l4 = l4.wrapping_add(0xffffffffffffffffu64);
if (l4 != 0u64) { continue 'b3; }
break 'b3;
}
}
store_64(m, l5.wrapping_add(160u64), l6);
store_64(m, l5.wrapping_add(168u64), l1);
'b4: {
'b5: {
let t3 = f25(m, g, l6, l1);
if (t3 == 0) { break 'b5; }
l7 = 0u32;
store_16(m, l0.wrapping_add(49u64), 0u32 as u16);
store_64(m, l0.wrapping_add(41u64), 0u64);
store_64(m, l0.wrapping_add(33u64), 0u64);
store_64(m, l0.wrapping_add(25u64), 0u64);
store_64(m, l0.wrapping_add(17u64), 0u64);
store_64(m, l0.wrapping_add(9u64), 0u64);
store_64(m, l0.wrapping_add(1u64), 0u64);
break 'b4;
}
store_64(m, l5.wrapping_add(88u64), 1075u64);
store_64(m, l5.wrapping_add(80u64), 0x81e570bf4798ab26u64);
store_64(m, l5.wrapping_add(232u64), 0u64);
store_64(m, l5.wrapping_add(240u64), 0u64);
store_64(m, l5.wrapping_add(248u64), 0u64);
store_8(m, l5.wrapping_add(256u64), 0u32 as u8);
store_64(m, l5.wrapping_add(200u64), 0u64);
store_64(m, l5.wrapping_add(208u64), 0u64);
store_64(m, l5.wrapping_add(216u64), 0u64);
store_8(m, l5.wrapping_add(224u64), 0u32 as u8);
f23(m, g, l5.wrapping_add(232u64), l5.wrapping_add(160u64));
f23(m, g, l5.wrapping_add(200u64), l5.wrapping_add(80u64));
let t4 = load_64(m, l5.wrapping_add(200u64));
store_64(m, l5.wrapping_add(289u64), t4);
let t5 = (load_8(m, l5.wrapping_add(256u64)) as u32);
store_8(m, l5.wrapping_add(288u64), t5 as u8);
let t6 = load_64(m, l5.wrapping_add(208u64));
store_64(m, l5.wrapping_add(297u64), t6);
let t7 = load_64(m, l5.wrapping_add(216u64));
store_64(m, l5.wrapping_add(305u64), t7);
let t8 = (load_8(m, l5.wrapping_add(224u64)) as u32);
store_8(m, l5.wrapping_add(313u64), t8 as u8);
let t9 = load_64(m, l5.wrapping_add(232u64));
store_64(m, l5.wrapping_add(104u64), t9);
let t10 = load_64(m, l5.wrapping_add(240u64));
store_64(m, l5.wrapping_add(112u64), t10);
let t11 = load_64(m, l5.wrapping_add(248u64));
store_64(m, l5.wrapping_add(120u64), t11);
let t12 = load_64(m, l5.wrapping_add(288u64));
store_64(m, l5.wrapping_add(128u64), t12);
let t13 = load_64(m, l5.wrapping_add(296u64));
store_64(m, l5.wrapping_add(136u64), t13);
let t14 = load_64(m, l5.wrapping_add(304u64));
store_64(m, l5.wrapping_add(144u64), t14);
let t15 = (load_16(m, l5.wrapping_add(312u64)) as u32);
store_16(m, l5.wrapping_add(152u64), t15 as u16);
let t16 = (load_16(m, l5.wrapping_add(152u64)) as u32);
store_16(m, l0.wrapping_add(49u64), t16 as u16);
let t17 = load_64(m, l5.wrapping_add(144u64));
store_64(m, l0.wrapping_add(41u64), t17);
let t18 = load_64(m, l5.wrapping_add(136u64));
store_64(m, l0.wrapping_add(33u64), t18);
let t19 = load_64(m, l5.wrapping_add(128u64));
store_64(m, l0.wrapping_add(25u64), t19);
let t20 = load_64(m, l5.wrapping_add(120u64));
store_64(m, l0.wrapping_add(17u64), t20);
let t21 = load_64(m, l5.wrapping_add(112u64));
store_64(m, l0.wrapping_add(9u64), t21);
let t22 = load_64(m, l5.wrapping_add(104u64));
store_64(m, l0.wrapping_add(1u64), t22);
l7 = 1u32;
}
store_8(m, l0, l7 as u8);
g = l5.wrapping_add(320u64);
return;
}
}

// codex32_steady::are_of_alphabet
fn f14(m: &mut [u8], mut g: u64, mut l0: u64, mut l1: u64) -> u32 {
let mut l2: u32 = 0;
let mut l3: u32 = 0;
let mut l4: u32 = 0;
let mut l5: u32 = 0;
let mut l6: u32 = 0;
{
l2 = 1u32;
'b2: {
if (l1 == 0) { break 'b2; }
'b3: loop {
l3 = (load_8(m, l0) as u32);
let t1 = ((((l3.wrapping_add(0xffffffd0u32) & 255u32) < 10u32) as u32) | ((((l3 & 223u32).wrapping_add(0xffffffbfu32) & 255u32) < 26u32) as u32));
l3 = (l3 | 32u32);
l4 = (l3 ^ 111u32);
l5 = (l3 ^ 105u32);
l6 = (l3 ^ 98u32);
l3 = (l3 ^ 49u32);
l3 = (if (l6 < l3) { l6 } else { l3 });
l3 = (if (l5 < l3) { l5 } else { l3 });
l2 = (l2 & (t1 & (((if (l4 < l3) { l4 } else { l3 }) != 0u32) as u32)));
l0 = l0.wrapping_add(1u64);
l1 = l1.wrapping_add(0xffffffffffffffffu64);
if (l1 != 0u64) { continue 'b3; }
break 'b3;
}
}
return l2;
}
}

// codex32_steady::has_both_cases
fn f15(m: &mut [u8], mut g: u64, mut l0: u64, mut l1: u64) -> u32 {
let mut l2: u32 = 0;
let mut l3: u32 = 0;
let mut l4: u64 = 0;
let mut l5: u64 = 0;
let mut l6: u64 = 0;
let mut l7: u32 = 0;
let mut l8: u32 = 0;
{
'b2: {
'b3: {
if !(l1 == 0) { break 'b3; }
l2 = 0u32;
break 'b2;
}
'b4: {
'b5: {
'b6: {
if (l1 != 1u64) { break 'b6; }
l1 = 0u64;
l2 = 0u32;
l3 = 0u32;
break 'b5;
}
l4 = (l1 & 1u64);
l5 = (l1 & 0xfffffffffffffffeu64);
l1 = 0u64;
l2 = 0u32;
l3 = 0u32;
'b7: loop {
l6 = l0.wrapping_add(l1);
l7 = (load_8(m, l6) as u32);
l8 = (load_8(m, l6.wrapping_add(1u64)) as u32);
l3 = ((l3 | (((l7.wrapping_add(0xffffffbfu32) & 255u32) < 26u32) as u32)) | (((l8.wrapping_add(0xffffffbfu32) & 255u32) < 26u32) as u32));
l2 = ((l2 | (((l7.wrapping_add(0xffffff9fu32) & 255u32) < 26u32) as u32)) | (((l8.wrapping_add(0xffffff9fu32) & 255u32) < 26u32) as u32));
l1 = l1.wrapping_add(2u64);
if (l5 != l1) { continue 'b7; }
break 'b7;
}
if (l4 == 0) { break 'b4; }
}
l7 = (load_8(m, l0.wrapping_add(l1)) as u32);
l3 = (l3 | (((l7.wrapping_add(0xffffffbfu32) & 255u32) < 26u32) as u32));
l2 = (l2 | (((l7.wrapping_add(0xffffff9fu32) & 255u32) < 26u32) as u32));
}
l2 = (l3 & l2);
}
return (l2 & 1u32);
}
}

// codex32::frame::outlined
fn f16(m: &mut [u8], mut g: u64, mut l0: u64, mut l1: u32, mut l2: u64, mut l3: u64) {
let mut l4: u64 = 0;
let mut l5: u32 = 0;
let mut l6: u32 = 0;
let mut l7: u32 = 0;
let mut l8: u32 = 0;
let mut l9: u64 = 0;
let mut l10: u32 = 0;
let mut l11: u64 = 0;
let mut l12: u64 = 0;
l4 = g.wrapping_sub(80u64);
g = l4;
'b1: {
'b2: {
'b3: {
{
store_64(m, l4.wrapping_add(72u64), 0u64);
store_64(m, l4.wrapping_add(64u64), 0u64);
store_64(m, l4.wrapping_add(56u64), 0u64);
store_64(m, l4.wrapping_add(48u64), 0u64);
store_64(m, l4.wrapping_add(40u64), 0u64);
f17(m, g, l4.wrapping_add(40u64), l2, l3);
l5 = load_32(m, l4.wrapping_add(52u64));
l6 = (l5 & 255u32);
l7 = load_32(m, l4.wrapping_add(48u64));
l8 = (l7 & 255u32);
l2 = load_64(m, l4.wrapping_add(56u64));
l9 = load_64(m, l4.wrapping_add(64u64));
'b5: {
'b6: {
l10 = (load_8(m, l4.wrapping_add(40u64)) as u32);
if (l10 != 0) { break 'b6; }
l11 = load_64(m, l4.wrapping_add(72u64));
l12 = l3.wrapping_add(0xffffffffffffff83u64);
l3 = l3.wrapping_add(0xffffffffffffffd0u64);
'b7: {
'b8: {
'b9: {
'b10: {
match (((l1 as u64) & 255u64) as u32) {
1 => { break 'b8; }
2 => { break 'b10; }
_ => { break 'b9; }
}
}
if (l3 < 46u64) { break 'b7; }
if (l12 >= 3u64) { break 'b3; }
break 'b7;
}
if (l3 < 46u64) { break 'b7; }
break 'b3;
}
if (l12 >= 3u64) { break 'b3; }
}
l3 = 2u64;
'b11: {
if (l2 != 2u64) { break 'b11; }
l2 = ((((if (l10 != 0) { l6 } else { l5 }) as u64) << 32) | ((if (l10 != 0) { l8 } else { l7 }) as u64));
l6 = (load_8(m, l2) as u32);
if (((if ((l6.wrapping_add(0xffffffbfu32) & 255u32) < 26u32) { l6.wrapping_add(32u32) } else { l6 }) & 255u32) != 109u32) { break 'b11; }
l6 = (load_8(m, l2.wrapping_add(1u64)) as u32);
if (((if ((l6.wrapping_add(0xffffffbfu32) & 255u32) < 26u32) { l6.wrapping_add(32u32) } else { l6 }) & 255u32) == 115u32) { break 'b5; }
}
store_32(m, l4.wrapping_add(31u64), 0u32);
store_64(m, l4.wrapping_add(24u64), 0u64);
store_64(m, l4.wrapping_add(16u64), 0u64);
store_64(m, l4.wrapping_add(8u64), 0u64);
break 'b2;
}
store_64(m, l0, 1u64);
store_64(m, l0.wrapping_add(40u64), 0u64);
store_64(m, l0.wrapping_add(32u64), l9);
store_32(m, l0.wrapping_add(28u64), (l2 >> 32) as u32);
store_32(m, l0.wrapping_add(24u64), l2 as u32);
store_64(m, l0.wrapping_add(8u64), 0u64);
store_64(m, l0.wrapping_add(48u64), 0u64);
store_64(m, l0.wrapping_add(56u64), 0u64);
store_32(m, l0.wrapping_add(63u64), 0u32);
store_64(m, l0.wrapping_add(16u64), (((l6 as u64) << 32) | (l8 as u64)));
break 'b1;
}
store_64(m, l0, 0u64);
store_64(m, l0.wrapping_add(24u64), 0u64);
store_64(m, l0.wrapping_add(16u64), l11);
store_64(m, l0.wrapping_add(8u64), l9);
store_64(m, l0.wrapping_add(32u64), 0u64);
store_64(m, l0.wrapping_add(40u64), 0u64);
store_64(m, l0.wrapping_add(48u64), 0u64);
store_64(m, l0.wrapping_add(56u64), 0u64);
store_32(m, l0.wrapping_add(63u64), 0u32);
break 'b1;
}
}
store_32(m, l4.wrapping_add(31u64), 0u32);
store_64(m, l4.wrapping_add(24u64), 0u64);
store_64(m, l4.wrapping_add(16u64), 0u64);
store_64(m, l4.wrapping_add(8u64), 0u64);
l3 = 1u64;
}
store_64(m, l0, 1u64);
store_64(m, l0.wrapping_add(16u64), 0u64);
store_64(m, l0.wrapping_add(8u64), l3);
store_64(m, l0.wrapping_add(24u64), 0u64);
store_64(m, l0.wrapping_add(32u64), 0u64);
let t1 = load_64(m, l4.wrapping_add(8u64));
store_64(m, l0.wrapping_add(40u64), t1);
let t2 = load_64(m, l4.wrapping_add(16u64));
store_64(m, l0.wrapping_add(48u64), t2);
let t3 = load_64(m, l4.wrapping_add(24u64));
store_64(m, l0.wrapping_add(56u64), t3);
let t4 = load_32(m, l4.wrapping_add(31u64));
store_32(m, l0.wrapping_add(63u64), t4);
}
g = l4.wrapping_add(80u64);
}

// codex32_steady::texts::parts::parts_of
fn f17(m: &mut [u8], mut g: u64, mut l0: u64, mut l1: u64, mut l2: u64) {
let mut l4: u64 = 0;
let mut l5: u64 = 0;
let mut l6: u32 = 0;
let mut l7: u64 = 0;
let mut l8: u64 = 0;
let mut l9: u32 = 0;
let mut l10: u32 = 0;
let mut l11: u32 = 0;
let mut l12: u64 = 0;
'b1: {
'b2: {
{
let t1 = f18(m, g, l1, l2);
l4 = t1;
if (l4 == 0) { break 'b2; }
'b4: {
l5 = l4.wrapping_add(0xffffffffffffffffu64);
l6 = (load_8(m, l1.wrapping_add(l5)) as i8 as i32 as u32);
if ((l6 as i32) >= (0u32 as i32)) { break 'b4; }
l7 = 0xfffffffffffffffeu64;
'b5: {
l8 = l1.wrapping_add(l4);
if ((load_8(m, l8.wrapping_add(0xfffffffffffffffeu64)) as u32) > 191u32) { break 'b5; }
l7 = (if ((load_8(m, l8.wrapping_add(0xfffffffffffffffdu64)) as u32) > 191u32) { 0xfffffffffffffffdu64 } else { 0xfffffffffffffffcu64 });
}
l5 = l7.wrapping_add(l4);
l4 = l1.wrapping_add(l5);
l9 = (load_8(m, l4) as i8 as i32 as u32);
l6 = (l9 & 255u32);
if ((l9 as i32) > (0xffffffffu32 as i32)) { break 'b4; }
l10 = ((load_8(m, l4.wrapping_add(1u64)) as u32) & 63u32);
'b6: {
if (l9 > 0xffffffdfu32) { break 'b6; }
l6 = (((l6 << 6) & 1984u32) | l10);
break 'b4;
}
l11 = ((load_8(m, l4.wrapping_add(2u64)) as u32) & 63u32);
'b7: {
if (l9 > 0xffffffefu32) { break 'b7; }
l6 = (((l10 << 6) | ((l6 << 12) & 61440u32)) | l11);
break 'b4;
}
l6 = (((l11 << 6) | ((l10 << 12) | ((l6 << 18) & 0x1c0000u32))) | ((load_8(m, l4.wrapping_add(3u64)) as u32) & 63u32));
}
'b8: {
'b9: {
if (l6 != 49u32) { break 'b9; }
l7 = 0u64;
let t2 = f15(m, g, l1, l2);
if (t2 == 0) { break 'b8; }
l1 = 0x300000000u64;
l4 = 1u64;
l8 = 0u64;
l12 = 0u64;
break 'b1;
}
l8 = (l6 as u64);
l12 = 0u64;
l1 = 0x200000000u64;
l4 = 1u64;
l7 = 0u64;
break 'b1;
}
'b10: {
if !(l5 == 0) { break 'b10; }
l4 = 1u64;
l1 = 1u64;
l8 = 1u64;
l12 = 0u64;
break 'b1;
}
l4 = 1u64;
'b11: {
if (l5 <= 83u64) { break 'b11; }
l1 = 1u64;
l8 = 0u64;
l12 = l5;
break 'b1;
}
'b12: {
let t3 = f19(m, g, l1, l5);
l4 = t3;
if (l5 == l4) { break 'b12; }
l1 = l1.wrapping_add(l4);
l9 = (load_8(m, l1) as i8 as i32 as u32);
l6 = (l9 & 255u32);
'b13: {
if ((l9 as i32) > (0xffffffffu32 as i32)) { break 'b13; }
l10 = ((load_8(m, l1.wrapping_add(1u64)) as u32) & 63u32);
'b14: {
if (l9 > 0xffffffdfu32) { break 'b14; }
l6 = (((l6 << 6) & 1984u32) | l10);
break 'b13;
}
l11 = ((load_8(m, l1.wrapping_add(2u64)) as u32) & 63u32);
'b15: {
if (l9 > 0xffffffefu32) { break 'b15; }
l6 = (((l10 << 6) | ((l6 << 12) & 61440u32)) | l11);
break 'b13;
}
l6 = (((l11 << 6) | ((l10 << 12) | ((l6 << 18) & 0x1c0000u32))) | ((load_8(m, l1.wrapping_add(3u64)) as u32) & 63u32));
}
l9 = ((l6 < 128u32) as u32);
l8 = ((((if (l9 != 0) { 0u32 } else { l6 }) as u64) << 32) | ((if (l9 != 0) { (((l6 << 8) & 65280u32) | 3u32) } else { 2u32 }) as u64));
l4 = 1u64;
l1 = 1u64;
l12 = 0u64;
break 'b1;
}
l4 = l5.wrapping_add(1u64);
l12 = l1.wrapping_add(l4);
l7 = l2.wrapping_sub(l4);
l4 = 0u64;
l8 = l5;
break 'b1;
}
}
l8 = 0u64;
let t4 = f15(m, g, l1, l2);
l1 = (if (t4 != 0) { 0x300000000u64 } else { 0u64 });
l4 = 1u64;
l12 = 0u64;
l7 = 0u64;
}
store_64(m, l0, l4);
store_64(m, l0.wrapping_add(32u64), l7);
store_64(m, l0.wrapping_add(24u64), l12);
store_64(m, l0.wrapping_add(16u64), l8);
store_64(m, l0.wrapping_add(8u64), l1);
}

// codex32_steady::data_start
fn f18(m: &mut [u8], mut g: u64, mut l0: u64, mut l1: u64) -> u64 {
let mut l2: u64 = 0;
let mut l3: u32 = 0;
let mut l4: u32 = 0;
let mut l5: u32 = 0;
let mut l6: u32 = 0;
let mut l7: u32 = 0;
{
'b2: {
if !(l1 == 0) { break 'b2; }
return 0u64;
}
l2 = l0.wrapping_add(0xffffffffffffffffu64);
l3 = 0u32;
l0 = 0u64;
'b3: loop {
l4 = (load_8(m, l2.wrapping_add(l1)) as u32);
let t1 = ((((l4.wrapping_add(0xffffffc6u32) & 255u32) < 246u32) as u32) & ((((l4 & 223u32).wrapping_add(0xffffffa5u32) & 255u32) < 230u32) as u32));
l4 = (l4 | 32u32);
l5 = (l4 ^ 111u32);
l6 = (l4 ^ 105u32);
l7 = (l4 ^ 98u32);
l4 = (l4 ^ 49u32);
l4 = (if (l7 < l4) { l7 } else { l4 });
l4 = (if (l6 < l4) { l6 } else { l4 });
l3 = (l3 | (t1 | (((if (l5 < l4) { l5 } else { l4 }) == 0) as u32)));
l0 = l0.wrapping_add(((l3 as u64) & 1u64));
l1 = l1.wrapping_add(0xffffffffffffffffu64);
if (l1 != 0u64) { continue 'b3; }
break 'b3;
}
return l0;
}
}

// codex32_steady::graphic_count
fn f19(m: &mut [u8], mut g: u64, mut l0: u64, mut l1: u64) -> u64 {
let mut l2: u64 = 0;
let mut l3: u32 = 0;
let mut l4: u64 = 0;
let mut l5: u64 = 0;
let mut l6: u64 = 0;
{
'b2: {
if !(l1 == 0) { break 'b2; }
return 0u64;
}
'b3: {
'b4: {
'b5: {
if (l1 != 1u64) { break 'b5; }
l2 = 0u64;
l3 = 1u32;
l1 = 0u64;
break 'b4;
}
l4 = (l1 & 1u64);
l5 = (l1 & 0xfffffffffffffffeu64);
l2 = 0u64;
l3 = 1u32;
l1 = 0u64;
'b6: loop {
l6 = l0.wrapping_add(l1);
l3 = (l3 & ((((load_8(m, l6) as u32).wrapping_add(0xffffffdfu32) & 255u32) < 94u32) as u32));
let t1 = l2.wrapping_add((l3 as u64));
l3 = (l3 & ((((load_8(m, l6.wrapping_add(1u64)) as u32).wrapping_add(0xffffffdfu32) & 255u32) < 94u32) as u32));
l2 = t1.wrapping_add((l3 as u64));
l1 = l1.wrapping_add(2u64);
if (l5 != l1) { continue 'b6; }
break 'b6;
}
if (l4 == 0) { break 'b3; }
}
l2 = l2.wrapping_add(((l3 & ((((load_8(m, l0.wrapping_add(l1)) as u32).wrapping_add(0xffffffdfu32) & 255u32) < 94u32) as u32)) as u64));
}
return l2;
}
}

// bech32_checksum::Engine::input_part::<#771ad920835cb552>
fn f20(m: &mut [u8], mut g: u64, mut l0: u64, mut l1: u64, mut l2: u64) {
let mut l3: u64 = 0;
let mut l4: u64 = 0;
let mut l5: u64 = 0;
let mut l6: u32 = 0;
let mut l7: u64 = 0;
let mut l8: u64 = 0;
let mut l9: u64 = 0;
let mut l10: u32 = 0;
l3 = g.wrapping_sub(192u64);
g = l3;
{
l4 = load_64(m, l0.wrapping_add(8u64));
l5 = load_64(m, l0);
'b2: {
l6 = ((l2 == 0) as u32);
if (l6 != 0) { break 'b2; }
l7 = l1;
l8 = l2;
'b3: loop {
l9 = ((((l5 >> 60) | (l4 << 4)) & 31u64).wrapping_mul(0x1020408100u64) & 0x10101010100u64).wrapping_mul(255u64);
multiply_128(m, l3.wrapping_add(176u64), ((l9 >> 8) & 255u64).wrapping_mul(0x101010101010101u64), 0u64, 1u64, 1u64);
multiply_128(m, l3.wrapping_add(160u64), ((l9 >> 16) & 255u64).wrapping_mul(0x101010101010101u64), 0u64, 1u64, 1u64);
multiply_128(m, l3.wrapping_add(144u64), ((l9 >> 24) & 255u64).wrapping_mul(0x101010101010101u64), 0u64, 1u64, 1u64);
multiply_128(m, l3.wrapping_add(128u64), ((l9 >> 32) & 255u64).wrapping_mul(0x101010101010101u64), 0u64, 1u64, 1u64);
l10 = (load_8(m, l7) as u32);
l4 = ((((((l5 >> 59) ^ load_64(m, l3.wrapping_add(136u64))) ^ load_64(m, l3.wrapping_add(152u64))) ^ load_64(m, l3.wrapping_add(168u64))) ^ load_64(m, l3.wrapping_add(184u64))) & 1u64);
store_64(m, l0.wrapping_add(8u64), l4);
let t1 = (((((l5 << 5) | ((((if ((l10.wrapping_add(0xffffffbfu32) & 255u32) < 26u32) { l10.wrapping_add(32u32) } else { l10 }) & 224u32) >> 5) as u64)) ^ ((l9 >> 40).wrapping_mul(0x101010101010101u64) & 0x7729a039cfc75f5au64)) ^ (load_64(m, l3.wrapping_add(128u64)) & 0x739640bdeee3fdadu64)) ^ (load_64(m, l3.wrapping_add(144u64)) & 0xfbd920fffe7bee52u64));
l5 = ((t1 ^ (load_64(m, l3.wrapping_add(160u64)) & 0xbfae00def77fe529u64)) ^ (load_64(m, l3.wrapping_add(176u64)) & 0x9dc500ce73fde210u64));
store_64(m, l0, l5);
l7 = l7.wrapping_add(1u64);
l8 = l8.wrapping_add(0xffffffffffffffffu64);
if (l8 != 0u64) { continue 'b3; }
break 'b3;
}
}
l9 = ((((l5 >> 60) | (l4 << 4)) & 31u64).wrapping_mul(0x1020408100u64) & 0x10101010100u64).wrapping_mul(255u64);
multiply_128(m, l3.wrapping_add(112u64), ((l9 >> 8) & 255u64).wrapping_mul(0x101010101010101u64), 0u64, 1u64, 1u64);
multiply_128(m, l3.wrapping_add(96u64), ((l9 >> 16) & 255u64).wrapping_mul(0x101010101010101u64), 0u64, 1u64, 1u64);
multiply_128(m, l3.wrapping_add(80u64), ((l9 >> 24) & 255u64).wrapping_mul(0x101010101010101u64), 0u64, 1u64, 1u64);
multiply_128(m, l3.wrapping_add(64u64), ((l9 >> 32) & 255u64).wrapping_mul(0x101010101010101u64), 0u64, 1u64, 1u64);
l7 = ((((((l5 >> 59) ^ load_64(m, l3.wrapping_add(72u64))) ^ load_64(m, l3.wrapping_add(88u64))) ^ load_64(m, l3.wrapping_add(104u64))) ^ load_64(m, l3.wrapping_add(120u64))) & 1u64);
store_64(m, l0.wrapping_add(8u64), l7);
l5 = ((((((l5 << 5) ^ ((l9 >> 40).wrapping_mul(0x101010101010101u64) & 0x7729a039cfc75f5au64)) ^ (load_64(m, l3.wrapping_add(64u64)) & 0x739640bdeee3fdadu64)) ^ (load_64(m, l3.wrapping_add(80u64)) & 0xfbd920fffe7bee52u64)) ^ (load_64(m, l3.wrapping_add(96u64)) & 0xbfae00def77fe529u64)) ^ (load_64(m, l3.wrapping_add(112u64)) & 0x9dc500ce73fde210u64));
store_64(m, l0, l5);
'b4: {
if (l6 != 0) { break 'b4; }
'b5: loop {
l9 = (((l5 >> 60) | (l7 << 4)).wrapping_mul(0x1020408100u64) & 0x10101010100u64).wrapping_mul(255u64);
multiply_128(m, l3.wrapping_add(48u64), ((l9 >> 8) & 255u64).wrapping_mul(0x101010101010101u64), 0u64, 1u64, 1u64);
multiply_128(m, l3.wrapping_add(32u64), ((l9 >> 16) & 255u64).wrapping_mul(0x101010101010101u64), 0u64, 1u64, 1u64);
multiply_128(m, l3.wrapping_add(16u64), ((l9 >> 24) & 255u64).wrapping_mul(0x101010101010101u64), 0u64, 1u64, 1u64);
multiply_128(m, l3, ((l9 >> 32) & 255u64).wrapping_mul(0x101010101010101u64), 0u64, 1u64, 1u64);
l4 = (load_8(m, l1) as u64);
l7 = ((((((l5 >> 59) ^ load_64(m, l3.wrapping_add(8u64))) ^ load_64(m, l3.wrapping_add(24u64))) ^ load_64(m, l3.wrapping_add(40u64))) ^ load_64(m, l3.wrapping_add(56u64))) & 1u64);
store_64(m, l0.wrapping_add(8u64), l7);
l5 = (((((((l5 << 5) | (l4 & 31u64)) ^ ((l9 >> 40).wrapping_mul(0x101010101010101u64) & 0x7729a039cfc75f5au64)) ^ (load_64(m, l3) & 0x739640bdeee3fdadu64)) ^ (load_64(m, l3.wrapping_add(16u64)) & 0xfbd920fffe7bee52u64)) ^ (load_64(m, l3.wrapping_add(32u64)) & 0xbfae00def77fe529u64)) ^ (load_64(m, l3.wrapping_add(48u64)) & 0x9dc500ce73fde210u64));
store_64(m, l0, l5);
l1 = l1.wrapping_add(1u64);
l2 = l2.wrapping_add(0xffffffffffffffffu64);
if (l2 != 0u64) { continue 'b5; }
break 'b5;
}
}
g = l3.wrapping_add(192u64);
return;
}
}

// codex32_steady::element_of_character
fn f21(m: &mut [u8], mut g: u64, mut l0: u32) -> u32 {
let mut l1: u64 = 0;
{
l1 = ((((l0 >> 1) & 32u32) | (l0 & 31u32)) as u64);
return (((((0x110549e1755000u64 >> (l1 & 63)) as u32) << 4).wrapping_add((((0x6d2fbc41076000u64 >> (l1 & 63)) as u32) << 3)) | (((0x15717203190000u64 >> (l1 & 63)) as u32) & 3u32)).wrapping_add(((((0x59ec5b900498000u64 >> (l1 & 63)) as u32) << 1) & 6u32)).wrapping_add(((((0x125fb77839d4000u64 >> (l1 & 63)) as u32) << 2) & 12u32)) & 31u32);
}
}

// codex32_steady::texts::residue::is_target::<#771ad920835cb552>
fn f22(m: &mut [u8], mut g: u64, mut l0: u64, mut l1: u64) -> u32 {
{
return ((((l0 ^ 0xce0795c2fd1e62au64) | (l1 ^ 1u64)) == 0) as u32);
}
}

// bech32_refusals::residue::Residue::new::<#ec7dd70f91e8cde7>
fn f23(m: &mut [u8], mut g: u64, mut l0: u64, mut l1: u64) {
let mut l2: u64 = 0;
let mut l3: u32 = 0;
let mut l4: u32 = 0;
{
l2 = load_64(m, l1.wrapping_add(8u64));
l1 = load_64(m, l1);
l3 = (l1 as u32);
store_8(m, l0, (l3 & 31u32) as u8);
store_8(m, l0.wrapping_add(24u64), (((l2 >> 56) as u32) & 31u32) as u8);
store_8(m, l0.wrapping_add(23u64), (((l2 >> 51) as u32) & 31u32) as u8);
store_8(m, l0.wrapping_add(22u64), (((l2 >> 46) as u32) & 31u32) as u8);
store_8(m, l0.wrapping_add(21u64), (((l2 >> 41) as u32) & 31u32) as u8);
store_8(m, l0.wrapping_add(20u64), (((l2 >> 36) as u32) & 31u32) as u8);
store_8(m, l0.wrapping_add(19u64), (((l2 >> 31) as u32) & 31u32) as u8);
l4 = (l2 as u32);
store_8(m, l0.wrapping_add(18u64), ((l4 >> 26) & 31u32) as u8);
store_8(m, l0.wrapping_add(17u64), ((l4 >> 21) & 31u32) as u8);
store_8(m, l0.wrapping_add(16u64), ((l4 >> 16) & 31u32) as u8);
store_8(m, l0.wrapping_add(15u64), ((l4 >> 11) & 31u32) as u8);
store_8(m, l0.wrapping_add(14u64), ((l4 >> 6) & 31u32) as u8);
store_8(m, l0.wrapping_add(13u64), ((l4 >> 1) & 31u32) as u8);
store_8(m, l0.wrapping_add(11u64), (((l1 >> 55) as u32) & 31u32) as u8);
store_8(m, l0.wrapping_add(10u64), (((l1 >> 50) as u32) & 31u32) as u8);
store_8(m, l0.wrapping_add(9u64), (((l1 >> 45) as u32) & 31u32) as u8);
store_8(m, l0.wrapping_add(8u64), (((l1 >> 40) as u32) & 31u32) as u8);
store_8(m, l0.wrapping_add(7u64), (((l1 >> 35) as u32) & 31u32) as u8);
store_8(m, l0.wrapping_add(6u64), (((l1 >> 30) as u32) & 31u32) as u8);
store_8(m, l0.wrapping_add(5u64), ((l3 >> 25) & 31u32) as u8);
store_8(m, l0.wrapping_add(4u64), ((l3 >> 20) & 31u32) as u8);
store_8(m, l0.wrapping_add(3u64), ((l3 >> 15) & 31u32) as u8);
store_8(m, l0.wrapping_add(2u64), ((l3 >> 10) & 31u32) as u8);
store_8(m, l0.wrapping_add(1u64), ((l3 >> 5) & 31u32) as u8);
store_8(m, l0.wrapping_add(12u64), ((((l1 >> 60) | (l2 << 4)) as u32) & 31u32) as u8);
return;
}
}

// bech32_checksum::Engine::input_part::<#ff86a0b986cb5a24>
fn f24(m: &mut [u8], mut g: u64, mut l0: u64, mut l1: u64, mut l2: u64) {
let mut l3: u64 = 0;
let mut l4: u64 = 0;
let mut l5: u64 = 0;
let mut l6: u32 = 0;
let mut l7: u64 = 0;
let mut l8: u64 = 0;
let mut l9: u64 = 0;
let mut l10: u32 = 0;
l3 = g.wrapping_sub(240u64);
g = l3;
{
l4 = load_64(m, l0.wrapping_add(8u64));
l5 = load_64(m, l0);
'b2: {
l6 = ((l2 == 0) as u32);
if (l6 != 0) { break 'b2; }
l7 = l1;
l8 = l2;
'b3: loop {
l9 = (((l4 >> 6) & 31u64).wrapping_mul(0x1020408100u64) & 0x10101010100u64).wrapping_mul(255u64);
multiply_128(m, l3.wrapping_add(224u64), ((l9 >> 8) & 255u64).wrapping_mul(0x101010101010101u64), 0u64, 1u64, 1u64);
multiply_128(m, l3.wrapping_add(208u64), ((l9 >> 16) & 255u64).wrapping_mul(0x101010101010101u64), 0u64, 1u64, 1u64);
multiply_128(m, l3.wrapping_add(192u64), ((l9 >> 24) & 255u64).wrapping_mul(0x101010101010101u64), 0u64, 1u64, 1u64);
multiply_128(m, l3.wrapping_add(176u64), ((l9 >> 32) & 255u64).wrapping_mul(0x101010101010101u64), 0u64, 1u64, 1u64);
multiply_128(m, l3.wrapping_add(160u64), (l9 >> 40).wrapping_mul(0x101010101010101u64), 0u64, 1u64, 1u64);
l10 = (load_8(m, l7) as u32);
l4 = ((((((load_64(m, l3.wrapping_add(168u64)) & 392u64) ^ (((l4 << 5) | (l5 >> 59)) & 2047u64)) ^ (load_64(m, l3.wrapping_add(184u64)) & 197u64)) ^ (load_64(m, l3.wrapping_add(200u64)) & 1347u64)) ^ (load_64(m, l3.wrapping_add(216u64)) & 1961u64)) ^ (load_64(m, l3.wrapping_add(232u64)) & 981u64));
store_64(m, l0.wrapping_add(8u64), l4);
let t1 = (((((load_64(m, l3.wrapping_add(160u64)) & 0x7f74f8dc71b10651u64) ^ ((l5 << 5) | ((((if ((l10.wrapping_add(0xffffffbfu32) & 255u32) < 26u32) { l10.wrapping_add(32u32) } else { l10 }) & 224u32) >> 5) as u64))) ^ (load_64(m, l3.wrapping_add(176u64)) & 0x77eaeccf1990d13cu64)) ^ (load_64(m, l3.wrapping_add(192u64)) & 0xf9b7e6c38d8a2a0eu64)) ^ (load_64(m, l3.wrapping_add(208u64)) & 0xbecb6361c6c51507u64));
l5 = (t1 ^ (load_64(m, l3.wrapping_add(224u64)) & 0x9d273535ea62d897u64));
store_64(m, l0, l5);
l7 = l7.wrapping_add(1u64);
l8 = l8.wrapping_add(0xffffffffffffffffu64);
if (l8 != 0u64) { continue 'b3; }
break 'b3;
}
}
l9 = (((l4 >> 6) & 31u64).wrapping_mul(0x1020408100u64) & 0x10101010100u64).wrapping_mul(255u64);
multiply_128(m, l3.wrapping_add(144u64), ((l9 >> 8) & 255u64).wrapping_mul(0x101010101010101u64), 0u64, 1u64, 1u64);
multiply_128(m, l3.wrapping_add(128u64), ((l9 >> 16) & 255u64).wrapping_mul(0x101010101010101u64), 0u64, 1u64, 1u64);
multiply_128(m, l3.wrapping_add(112u64), ((l9 >> 24) & 255u64).wrapping_mul(0x101010101010101u64), 0u64, 1u64, 1u64);
multiply_128(m, l3.wrapping_add(96u64), ((l9 >> 32) & 255u64).wrapping_mul(0x101010101010101u64), 0u64, 1u64, 1u64);
multiply_128(m, l3.wrapping_add(80u64), (l9 >> 40).wrapping_mul(0x101010101010101u64), 0u64, 1u64, 1u64);
l4 = ((((((load_64(m, l3.wrapping_add(88u64)) & 392u64) ^ (((l4 << 5) | (l5 >> 59)) & 2047u64)) ^ (load_64(m, l3.wrapping_add(104u64)) & 197u64)) ^ (load_64(m, l3.wrapping_add(120u64)) & 1347u64)) ^ (load_64(m, l3.wrapping_add(136u64)) & 1961u64)) ^ (load_64(m, l3.wrapping_add(152u64)) & 981u64));
store_64(m, l0.wrapping_add(8u64), l4);
l5 = ((((((load_64(m, l3.wrapping_add(80u64)) & 0x7f74f8dc71b10651u64) ^ (l5 << 5)) ^ (load_64(m, l3.wrapping_add(96u64)) & 0x77eaeccf1990d13cu64)) ^ (load_64(m, l3.wrapping_add(112u64)) & 0xf9b7e6c38d8a2a0eu64)) ^ (load_64(m, l3.wrapping_add(128u64)) & 0xbecb6361c6c51507u64)) ^ (load_64(m, l3.wrapping_add(144u64)) & 0x9d273535ea62d897u64));
store_64(m, l0, l5);
'b4: {
if (l6 != 0) { break 'b4; }
'b5: loop {
l9 = ((l4 >> 6).wrapping_mul(0x1020408100u64) & 0x10101010100u64).wrapping_mul(255u64);
multiply_128(m, l3.wrapping_add(64u64), ((l9 >> 8) & 255u64).wrapping_mul(0x101010101010101u64), 0u64, 1u64, 1u64);
multiply_128(m, l3.wrapping_add(48u64), ((l9 >> 16) & 255u64).wrapping_mul(0x101010101010101u64), 0u64, 1u64, 1u64);
multiply_128(m, l3.wrapping_add(32u64), ((l9 >> 24) & 255u64).wrapping_mul(0x101010101010101u64), 0u64, 1u64, 1u64);
multiply_128(m, l3.wrapping_add(16u64), ((l9 >> 32) & 255u64).wrapping_mul(0x101010101010101u64), 0u64, 1u64, 1u64);
multiply_128(m, l3, (l9 >> 40).wrapping_mul(0x101010101010101u64), 0u64, 1u64, 1u64);
l9 = (load_8(m, l1) as u64);
l4 = ((((((load_64(m, l3.wrapping_add(8u64)) & 392u64) ^ (((l4 << 5) | (l5 >> 59)) & 2047u64)) ^ (load_64(m, l3.wrapping_add(24u64)) & 197u64)) ^ (load_64(m, l3.wrapping_add(40u64)) & 1347u64)) ^ (load_64(m, l3.wrapping_add(56u64)) & 1961u64)) ^ (load_64(m, l3.wrapping_add(72u64)) & 981u64));
store_64(m, l0.wrapping_add(8u64), l4);
l5 = ((((((load_64(m, l3) & 0x7f74f8dc71b10651u64) ^ ((l5 << 5) | (l9 & 31u64))) ^ (load_64(m, l3.wrapping_add(16u64)) & 0x77eaeccf1990d13cu64)) ^ (load_64(m, l3.wrapping_add(32u64)) & 0xf9b7e6c38d8a2a0eu64)) ^ (load_64(m, l3.wrapping_add(48u64)) & 0xbecb6361c6c51507u64)) ^ (load_64(m, l3.wrapping_add(64u64)) & 0x9d273535ea62d897u64));
store_64(m, l0, l5);
l1 = l1.wrapping_add(1u64);
l2 = l2.wrapping_add(0xffffffffffffffffu64);
if (l2 != 0u64) { continue 'b5; }
break 'b5;
}
}
g = l3.wrapping_add(240u64);
return;
}
}

// codex32_steady::texts::residue::is_target::<#ff86a0b986cb5a24>
fn f25(m: &mut [u8], mut g: u64, mut l0: u64, mut l1: u64) -> u32 {
{
return ((((l0 ^ 0x81e570bf4798ab26u64) | (l1 ^ 1075u64)) == 0) as u32);
}
}

// codex32_steady::shares::share::share_at::<#c80761ccec4e5c91>
fn f26(m: &mut [u8], mut g: u64, mut l0: u64, mut l1: u64, mut l2: u64, mut l3: u64, mut l4: u32) {
let mut l5: u64 = 0;
let mut l6: u64 = 0;
let mut l7: u64 = 0;
let mut l8: u32 = 0;
let mut l9: u64 = 0;
let mut l10: u64 = 0;
let mut l11: u64 = 0;
let mut l12: u64 = 0;
let mut l13: u32 = 0;
let mut l14: u32 = 0;
let mut l15: u32 = 0;
let mut l16: u32 = 0;
let mut l17: u64 = 0;
l5 = g.wrapping_sub(32u64);
g = l5;
{
l6 = l5;
store_8(m, l6.wrapping_add(24u64), 0u32 as u8);
l7 = 0u64;
store_64(m, l6.wrapping_add(16u64), 0u64);
store_64(m, l6, 0u64);
store_8(m, l6.wrapping_add(8u64), 0u32 as u8);
'b2: {
l8 = ((l3 == 0) as u32);
if (l8 != 0) { break 'b2; }
l9 = (l3 & 3u64);
'b3: {
'b4: {
if (l3 < 4u64) { break 'b4; }
l5 = l2.wrapping_add(125u64);
l10 = (l3 & 0xfffffffffffffffcu64);
l7 = 0u64;
'b5: loop {
l11 = l6.wrapping_add(16u64).wrapping_add(l7);
let t1 = (load_8(m, l5.wrapping_add(0xffffffffffffff88u64)) as u32);
store_8(m, l11, t1 as u8);
let t2 = (load_8(m, l5.wrapping_add(0xffffffffffffffb0u64)) as u32);
store_8(m, l11.wrapping_add(1u64), t2 as u8);
let t3 = (load_8(m, l5.wrapping_add(0xffffffffffffffd8u64)) as u32);
store_8(m, l11.wrapping_add(2u64), t3 as u8);
let t4 = (load_8(m, l5) as u32);
store_8(m, l11.wrapping_add(3u64), t4 as u8);
l5 = l5.wrapping_add(160u64);
l7 = l7.wrapping_add(4u64);
if (l10 != l7) { continue 'b5; }
break 'b5;
}
if (l9 == 0) { break 'b3; }
}
l5 = l7.wrapping_mul(40u64).wrapping_add(l2).wrapping_add(5u64);
l11 = l6.wrapping_add(16u64).wrapping_add(l7);
'b6: loop {
let t5 = (load_8(m, l5) as u32);
store_8(m, l11, t5 as u8);
l5 = l5.wrapping_add(40u64);
l11 = l11.wrapping_add(1u64);
l9 = l9.wrapping_add(0xffffffffffffffffu64);
if (l9 != 0u64) { continue 'b6; }
break 'b6;
}
}
l12 = l6.wrapping_add(0xffffffffffffffffu64);
l10 = l6.wrapping_add(0xfffffffffffffffcu64);
l13 = 0u32;
l9 = 0u64;
'b7: loop {
l14 = 1u32;
'b8: {
l15 = ((l9 == 0) as u32);
if (l15 != 0) { break 'b8; }
'b9: {
'b10: {
l16 = (load_8(m, l6.wrapping_add(16u64).wrapping_add(l9)) as u32);
if ((l16 & 255u32) == (l4 & 255u32)) { break 'b10; }
l17 = (((l16 ^ l4) as u64) & 255u64);
l5 = 0u64;
'b11: loop {
'b12: {
'b13: {
l11 = l6.wrapping_add(l5);
l7 = (load_8(m, l11) as u64);
if !(l7 == 0) { break 'b13; }
l14 = 0u32;
break 'b12;
}
let t6 = (load_8_constant(m, (load_8_constant(m, ((((load_8_constant(m, l17.wrapping_add(0x100000082u64)) as u32).wrapping_add((load_8_constant(m, (load_8_constant(m, (((31u32.wrapping_sub((load_8_constant(m, ((((load_8(m, l6.wrapping_add(16u64).wrapping_add(l5)) as u32) ^ l16) as u64) & 255u64).wrapping_add(0x100000082u64)) as u32)) & 255u32) % 31u32) as u64).wrapping_add(0x1000000a2u64)) as u64).wrapping_add(0x100000082u64)) as u32)) & 255u32) % 31u32) as u64).wrapping_add(0x1000000a2u64)) as u64).wrapping_add(0x100000082u64)) as u32).wrapping_add((load_8_constant(m, l7.wrapping_add(0x100000082u64)) as u32));
l14 = (load_8_constant(m, (((t6 & 255u32) % 31u32) as u64).wrapping_add(0x1000000a2u64)) as u32);
}
store_8(m, l11, l14 as u8);
l5 = l5.wrapping_add(1u64);
if (l9 != l5) { continue 'b11; }
break 'b9;
}
}
if (l15 != 0) { break 'b9; }
fill(m, l6, 0u32 as u8, l9);
}
l14 = 0u32;
l5 = l9;
'b14: {
'b15: {
if (l9 < 4u64) { break 'b15; }
l7 = 0u64.wrapping_sub((l9 & 0xfffffffffffffffcu64));
l17 = (l9 & 3u64);
l14 = 0u32;
l11 = 0u64;
'b16: loop {
l5 = l10.wrapping_add(l11);
l14 = ((load_8(m, l5) as u32) ^ ((load_8(m, l5.wrapping_add(1u64)) as u32) ^ ((load_8(m, l5.wrapping_add(2u64)) as u32) ^ ((load_8(m, l5.wrapping_add(3u64)) as u32) ^ l14))));
l11 = l11.wrapping_add(0xfffffffffffffffcu64);
if (l7 != l11) { continue 'b16; }
break 'b16;
}
if (l17 == 0) { break 'b14; }
l5 = l9.wrapping_add(l11);
}
l11 = ((l13 as u64) & 3u64);
l5 = l12.wrapping_add(l5);
'b17: loop {
l14 = ((load_8(m, l5) as u32) ^ l14);
l5 = l5.wrapping_add(0xffffffffffffffffu64);
l11 = l11.wrapping_add(0xffffffffffffffffu64);
if (l11 != 0u64) { continue 'b17; }
break 'b17;
}
}
l14 = (l14 ^ 1u32);
}
store_8(m, l6.wrapping_add(l9), l14 as u8);
l13 = l13.wrapping_add(1u32);
l10 = l10.wrapping_add(1u64);
l9 = l9.wrapping_add(1u64);
if (l9 != l3) { continue 'b7; }
break 'b7;
}
}
'b18: {
l14 = ((l1 == 0) as u32);
if (l14 != 0) { break 'b18; }
if (l14 != 0) { break 'b18; }
fill(m, l0, 0u32 as u8, l1);
}
'b19: {
if (l8 != 0) { break 'b19; }
'b20: loop {
'b21: {
l3 = l3.wrapping_add(0xffffffffffffffffu64);
l5 = l2.wrapping_add(l3.wrapping_mul(40u64));
l9 = load_64(m, l5.wrapping_add(32u64));
if (l9 == 0) { break 'b21; }
l14 = (load_8(m, l6.wrapping_add(l3)) as u32);
l11 = load_64(m, l5.wrapping_add(24u64));
l5 = l0;
'b22: loop {
let t7 = (load_8(m, l5) as u32);
let t8 = (load_8(m, l11) as u32);
let t9 = f29(m, g, l14, t8);
store_8(m, l5, (t7 ^ (t9 & 255u32)) as u8);
l5 = l5.wrapping_add(1u64);
l11 = l11.wrapping_add(1u64);
l9 = l9.wrapping_add(0xffffffffffffffffu64);
if (l9 != 0u64) { continue 'b22; }
break 'b22;
}
}
if (l3 != 0u64) { continue 'b20; }
break 'b20;
}
}
g = l6.wrapping_add(32u64);
return;
}
}

// codex32_steady::shares::agreement::are_elements_of
fn f27(m: &mut [u8], mut g: u64, mut l0: u64, mut l1: u64, mut l2: u64) -> u32 {
let mut l4: u32 = 0;
let mut l5: u32 = 0;
{
l4 = 1u32;
'b2: {
if (l2 == 0) { break 'b2; }
'b3: loop {
let t1 = (load_8(m, l1) as u32);
let t2 = f21(m, g, t1);
l5 = t2;
l4 = (l4 & (((load_8(m, l0) as u32) == (l5 & 255u32)) as u32));
l0 = l0.wrapping_add(1u64);
l1 = l1.wrapping_add(1u64);
l2 = l2.wrapping_add(0xffffffffffffffffu64);
if (l2 != 0u64) { continue 'b3; }
break 'b3;
}
}
return l4;
}
}

// codex32_steady::character_of
fn f28(m: &mut [u8], mut g: u64, mut l0: u32) -> u32 {
let mut l1: u64 = 0;
{
l1 = (((l0 << 1) as u64) & 254u64);
return ((((((0x4545505115451155u64 >> (l1 & 63)) as u32) << 6) | (((0x356731af322b05a1u64 >> (l1 & 63)) as u32) & 3u32)) | ((((0xd1d4a5e01545aa20u64 >> (l1 & 63)) as u32) << 2) & 12u32)) | ((((0xbbbaafaffbfaffffu64 >> (l1 & 63)) as u32) << 4) & 48u32));
}
}

// codex32_steady::multiple_of_character
fn f29(m: &mut [u8], mut g: u64, mut l0: u32, mut l1: u32) -> u32 {
let mut l2: u64 = 0;
let mut l3: u64 = 0;
{
l2 = ((l0 as u64) & 255u64).wrapping_mul(40u64);
l3 = ((((l1 >> 1) & 32u32) | (l1 & 31u32)) as u64);
let t1 = ((((load_64_constant(m, l2.wrapping_add(0x1000000d0u64)) >> (l3 & 63)) as u32) << 1) & 6u32).wrapping_add((((load_64_constant(m, l2.wrapping_add(0x1000000c8u64)) >> (l3 & 63)) as u32) & 3u32)).wrapping_add(((((load_64_constant(m, l2.wrapping_add(0x1000000d8u64)) >> (l3 & 63)) as u32) << 2) & 12u32)).wrapping_add((((load_64_constant(m, l2.wrapping_add(0x1000000e0u64)) >> (l3 & 63)) as u32) << 3)).wrapping_add((((load_64_constant(m, l2.wrapping_add(0x1000000e8u64)) >> (l3 & 63)) as u32) << 4));
return (t1 & 31u32);
}
}

// codex32_calls::refusal::Refusal::number
fn f30(m: &mut [u8], mut g: u64, mut l0: u64) -> u32 {
let mut l1: u32 = 0;
let mut l2: u64 = 0;
let mut l3: u32 = 0;
{
l1 = (load_8(m, l0.wrapping_add(1u64)) as u32);
l2 = ((l1 as u64) & 255u64);
l3 = 2u32;
'b2: {
'b3: {
'b4: {
'b5: {
'b6: {
'b7: {
'b8: {
'b9: {
'b10: {
'b11: {
'b12: {
'b13: {
'b14: {
'b15: {
match ((load_8(m, l0) as u64) as u32) {
1 => { break 'b15; }
2 => { break 'b14; }
3 => { break 'b13; }
4 => { break 'b12; }
5 => { break 'b5; }
6 => { break 'b11; }
7 => { break 'b10; }
8 => { break 'b4; }
9 => { break 'b3; }
10 => { break 'b9; }
11 => { break 'b8; }
_ => { break 'b2; }
}
}
return 4u32;
}
return 21u32;
}
return 22u32;
}
l1 = (load_8(m, l0.wrapping_add(16u64)) as u32);
l3 = 81u32;
'b16: {
'b17: {
'b18: {
'b19: {
'b20: {
match (load_8(m, l0.wrapping_add(8u64)) as u32) {
1 => { break 'b19; }
2 => { break 'b2; }
3 => { break 'b6; }
4 => { break 'b18; }
5 => { break 'b17; }
6 => { break 'b16; }
_ => { break 'b20; }
}
}
if ((l1 & 255u32) == 0) { break 'b7; }
return load_32_constant(m, (((load_8(m, l0.wrapping_add(24u64)) as u32) as u64) << 2).wrapping_add(0x100000b90u64));
}
return 82u32;
}
return 83u32;
}
return 84u32;
}
return 91u32;
}
return 87u32;
}
return (if ((l1 & 255u32) != 0) { 91u32 } else { 56u32 });
}
return 34u32;
}
return 92u32;
}
return load_32_constant(m, ((load_8(m, l0.wrapping_add(20u64)) as u64) << 2).wrapping_add(0x100000b80u64));
}
return load_32_constant(m, (((l1 as u64) & 255u64) << 2).wrapping_add(0x100000ba8u64));
}
return load_32_constant(m, (l2 << 2).wrapping_add(0x100000bb4u64));
}
return load_32_constant(m, (l2 << 2).wrapping_add(0x100000bc4u64));
}
l3 = load_32_constant(m, (l2 << 2).wrapping_add(0x100000bdcu64));
}
return l3;
}
}

// codex32_calls::input::header_of
fn f31(m: &mut [u8], mut g: u64, mut l0: u64, mut l1: u32, mut l2: u64, mut l3: u64, mut l4: u32) {
let mut l5: u64 = 0;
let mut l6: u32 = 0;
let mut l7: u32 = 0;
let mut l8: u32 = 0;
let mut l9: u32 = 0;
let mut l10: u32 = 0;
l5 = g.wrapping_sub(80u64);
g = l5;
'b1: {
{
'b3: {
'b4: {
'b5: {
'b6: {
'b7: {
if (l1 > 9u32) { break 'b7; }
if (l1 == 1u32) { break 'b7; }
fill(m, l5, 0u32 as u8, 80u64);
f8(m, g, l5, l2, l3);
if ((load_8(m, l5) as u32) != 0) { break 'b6; }
if (load_64(m, l5.wrapping_add(16u64)) != 4u64) { break 'b6; }
l3 = load_64(m, l5.wrapping_add(8u64));
let t1 = f14(m, g, l3, 4u64);
if (t1 == 0) { break 'b6; }
let t2 = f15(m, g, l3, 4u64);
if (t2 != 0) { break 'b6; }
if (l4 > 127u32) { break 'b3; }
l6 = (load_8_constant(m, (l4 as u64).wrapping_add(0x100000000u64)) as u32);
if (l6 >= 32u32) { break 'b3; }
l7 = (load_8_constant(m, (load_8(m, l3.wrapping_add(2u64)) as u64).wrapping_add(0x100000000u64)) as u32);
l8 = (load_8_constant(m, (load_8(m, l3.wrapping_add(1u64)) as u64).wrapping_add(0x100000000u64)) as u32);
l9 = (load_8_constant(m, (load_8(m, l3) as u64).wrapping_add(0x100000000u64)) as u32);
l10 = (load_8_constant(m, (load_8(m, l3.wrapping_add(3u64)) as u64).wrapping_add(0x100000000u64)) as u32);
if (l1 != 0) { break 'b5; }
if ((l4 & 95u32) == 83u32) { break 'b5; }
l6 = 0u32;
l1 = 3u32;
l4 = 1u32;
l7 = 0u32;
break 'b4;
}
store_16(m, l0, 1u32 as u16);
store_8(m, l0.wrapping_add(6u64), 0u32 as u8);
store_32(m, l0.wrapping_add(2u64), 0u32);
break 'b1;
}
store_16(m, l0, 257u32 as u16);
store_8(m, l0.wrapping_add(6u64), 0u32 as u8);
store_32(m, l0.wrapping_add(2u64), 0u32);
break 'b1;
}
l7 = ((((l8 << 8) | l9) | (l7 << 16)) | (l10 << 24));
l4 = 0u32;
}
store_8(m, l0, l4 as u8);
store_8(m, l0.wrapping_add(6u64), l6 as u8);
store_32(m, l0.wrapping_add(2u64), l7);
store_8(m, l0.wrapping_add(1u64), l1 as u8);
break 'b1;
}
store_16(m, l0, 513u32 as u16);
store_8(m, l0.wrapping_add(6u64), 0u32 as u8);
store_32(m, l0.wrapping_add(2u64), 0u32);
break 'b1;
}
}
g = l5.wrapping_add(80u64);
}

// codex32::encoding::encode_payload_into
fn f32(m: &mut [u8], mut g: u64, mut l0: u64, mut l1: u64, mut l2: u64, mut l3: u64, mut l4: u64) {
let mut l5: u64 = 0;
let mut l6: u64 = 0;
let mut l7: u64 = 0;
let mut l8: u64 = 0;
let mut l9: u64 = 0;
let mut l10: u64 = 0;
let mut l11: u64 = 0;
let mut l12: u32 = 0;
l5 = g.wrapping_sub(448u64);
g = l5;
{
l6 = (l4.wrapping_mul(5u64) & 7u64);
'b2: {
'b3: {
if (l4.wrapping_add(0xffffffffffffffe6u64) > 45u64) { break 'b3; }
if (l6 >= 5u64) { break 'b3; }
l6 = l5.wrapping_add(323u64).wrapping_add(6u64);
fill(m, l6, 0u32 as u8, 103u64);
let t1 = (load_8(m, l2.wrapping_add(5u64)) as u32);
store_8(m, l5.wrapping_add(328u64), t1 as u8);
let t2 = load_32(m, l2.wrapping_add(1u64));
store_32(m, l5.wrapping_add(324u64), t2);
let t3 = (load_8_constant(m, (((load_8(m, l2) as u32).wrapping_add(48u32) as u64) & 255u64).wrapping_add(0x100000000u64)) as u32);
store_8(m, l5.wrapping_add(323u64), t3 as u8);
'b4: {
if (l4 == 0) { break 'b4; }
copy(m, l6, l3, l4);
}
store_8(m, l1.wrapping_add(2u64), 49u32 as u8);
store_16(m, l1, 29549u32 as u16);
l2 = l1.wrapping_add(3u64);
l6 = l5.wrapping_add(323u64);
l7 = l4.wrapping_add(6u64);
l3 = l7;
'b5: loop {
let t4 = (load_8(m, l6) as u32);
let t5 = f28(m, g, t4);
store_8(m, l2, t5 as u8);
l6 = l6.wrapping_add(1u64);
l2 = l2.wrapping_add(1u64);
l3 = l3.wrapping_add(0xffffffffffffffffu64);
if (l3 != 0u64) { continue 'b5; }
break 'b5;
}
store_64(m, l5.wrapping_add(440u64), 0u64);
store_64(m, l5.wrapping_add(432u64), 1u64);
f20(m, g, l5.wrapping_add(432u64), 0x100000080u64, 2u64);
l8 = l5.wrapping_add(323u64);
l3 = load_64(m, l5.wrapping_add(440u64));
l2 = load_64(m, l5.wrapping_add(432u64));
l9 = l7;
'b6: loop {
l10 = 60u64;
l6 = ((((l2 >> 60) | (l3 << 4)) & 31u64).wrapping_mul(0x1020408100u64) & 0x10101010100u64).wrapping_mul(255u64);
multiply_128(m, l5.wrapping_add(128u64), ((l6 >> 8) & 255u64).wrapping_mul(0x101010101010101u64), 0u64, 1u64, 1u64);
multiply_128(m, l5.wrapping_add(112u64), ((l6 >> 16) & 255u64).wrapping_mul(0x101010101010101u64), 0u64, 1u64, 1u64);
multiply_128(m, l5.wrapping_add(96u64), ((l6 >> 24) & 255u64).wrapping_mul(0x101010101010101u64), 0u64, 1u64, 1u64);
multiply_128(m, l5.wrapping_add(80u64), ((l6 >> 32) & 255u64).wrapping_mul(0x101010101010101u64), 0u64, 1u64, 1u64);
let t6 = ((l2 >> 59) & 1u64);
l2 = (l2 << 5);
l11 = l2.wrapping_add((load_8(m, l8) as u64));
l3 = ((((t6.wrapping_add((((l11 < l2) as u32) as u64)) ^ (load_64(m, l5.wrapping_add(88u64)) & 1u64)) ^ (load_64(m, l5.wrapping_add(104u64)) & 1u64)) ^ (load_64(m, l5.wrapping_add(120u64)) & 1u64)) ^ (load_64(m, l5.wrapping_add(136u64)) & 1u64));
l2 = (((((l11 ^ ((l6 >> 40).wrapping_mul(0x101010101010101u64) & 0x7729a039cfc75f5au64)) ^ (load_64(m, l5.wrapping_add(80u64)) & 0x739640bdeee3fdadu64)) ^ (load_64(m, l5.wrapping_add(96u64)) & 0xfbd920fffe7bee52u64)) ^ (load_64(m, l5.wrapping_add(112u64)) & 0xbfae00def77fe529u64)) ^ (load_64(m, l5.wrapping_add(128u64)) & 0x9dc500ce73fde210u64));
l8 = l8.wrapping_add(1u64);
l9 = l9.wrapping_add(0xffffffffffffffffu64);
if (l9 != 0u64) { continue 'b6; }
break 'b6;
}
'b7: loop {
shift_right_128(m, l5.wrapping_add(64u64), 0xce0795c2fd1e62au64, 1u64, (l10 as u32));
l6 = l2;
l2 = ((((l6 >> 60) | (l3 << 4)) & 31u64).wrapping_mul(0x1020408100u64) & 0x10101010100u64).wrapping_mul(255u64);
multiply_128(m, l5.wrapping_add(48u64), ((l2 >> 8) & 255u64).wrapping_mul(0x101010101010101u64), 0u64, 1u64, 1u64);
multiply_128(m, l5.wrapping_add(32u64), ((l2 >> 16) & 255u64).wrapping_mul(0x101010101010101u64), 0u64, 1u64, 1u64);
multiply_128(m, l5.wrapping_add(16u64), ((l2 >> 24) & 255u64).wrapping_mul(0x101010101010101u64), 0u64, 1u64, 1u64);
multiply_128(m, l5, ((l2 >> 32) & 255u64).wrapping_mul(0x101010101010101u64), 0u64, 1u64, 1u64);
let t7 = (((((((load_64(m, l5.wrapping_add(64u64)) & 31u64) | (l6 << 5)) ^ ((l2 >> 40).wrapping_mul(0x101010101010101u64) & 0x7729a039cfc75f5au64)) ^ (load_64(m, l5.wrapping_add(48u64)) & 0x9dc500ce73fde210u64)) ^ (load_64(m, l5.wrapping_add(32u64)) & 0xbfae00def77fe529u64)) ^ (load_64(m, l5.wrapping_add(16u64)) & 0xfbd920fffe7bee52u64)) ^ (load_64(m, l5) & 0x739640bdeee3fdadu64));
l2 = t7;
l3 = ((((((l6 >> 59) ^ load_64(m, l5.wrapping_add(56u64))) ^ load_64(m, l5.wrapping_add(40u64))) ^ load_64(m, l5.wrapping_add(24u64))) ^ load_64(m, l5.wrapping_add(8u64))) & 1u64);
l10 = l10.wrapping_add(0xfffffffffffffffbu64);
if (l10 != 0xfffffffffffffffbu64) { continue 'b7; }
break 'b7;
}
l10 = l1.wrapping_add(l7);
let t8 = f28(m, g, (((l2 >> 60) | (l3 << 4)) as u32));
store_8(m, l10.wrapping_add(3u64), t8 as u8);
let t9 = f28(m, g, (((l2 >> 55) as u32) & 31u32));
store_8(m, l10.wrapping_add(4u64), t9 as u8);
let t10 = f28(m, g, (((l2 >> 50) as u32) & 31u32));
store_8(m, l10.wrapping_add(5u64), t10 as u8);
let t11 = f28(m, g, (((l2 >> 45) as u32) & 31u32));
store_8(m, l10.wrapping_add(6u64), t11 as u8);
let t12 = f28(m, g, (((l6 >> 35) as u32) & 31u32));
store_8(m, l10.wrapping_add(7u64), t12 as u8);
let t13 = f28(m, g, (((l2 >> 35) as u32) & 31u32));
store_8(m, l10.wrapping_add(8u64), t13 as u8);
let t14 = f28(m, g, (((l2 >> 30) as u32) & 31u32));
store_8(m, l10.wrapping_add(9u64), t14 as u8);
l12 = (l2 as u32);
let t15 = f28(m, g, ((l12 >> 25) & 31u32));
store_8(m, l10.wrapping_add(10u64), t15 as u8);
let t16 = f28(m, g, ((l12 >> 20) & 31u32));
store_8(m, l10.wrapping_add(11u64), t16 as u8);
let t17 = f28(m, g, ((l12 >> 15) & 31u32));
store_8(m, l10.wrapping_add(12u64), t17 as u8);
let t18 = f28(m, g, ((l12 >> 10) & 31u32));
store_8(m, l10.wrapping_add(13u64), t18 as u8);
let t19 = f28(m, g, ((l12 >> 5) & 31u32));
store_8(m, l10.wrapping_add(14u64), t19 as u8);
let t20 = f28(m, g, (l12 & 31u32));
store_8(m, l10.wrapping_add(15u64), t20 as u8);
store_64(m, l0.wrapping_add(8u64), l4.wrapping_add(22u64));
store_16(m, l0, 0u32 as u16);
break 'b2;
}
'b8: {
if (l4.wrapping_add(0xffffffffffffff9bu64) > 2u64) { break 'b8; }
if (l6 > 4u64) { break 'b8; }
l6 = l5.wrapping_add(323u64).wrapping_add(6u64);
fill(m, l6, 0u32 as u8, 103u64);
let t21 = (load_8(m, l2.wrapping_add(5u64)) as u32);
store_8(m, l5.wrapping_add(328u64), t21 as u8);
let t22 = load_32(m, l2.wrapping_add(1u64));
store_32(m, l5.wrapping_add(324u64), t22);
let t23 = (load_8_constant(m, (((load_8(m, l2) as u32).wrapping_add(48u32) as u64) & 255u64).wrapping_add(0x100000000u64)) as u32);
store_8(m, l5.wrapping_add(323u64), t23 as u8);
'b9: {
if (l4 == 0) { break 'b9; }
copy(m, l6, l3, l4);
}
store_8(m, l1.wrapping_add(2u64), 49u32 as u8);
store_16(m, l1, 29549u32 as u16);
l2 = l1.wrapping_add(3u64);
l6 = l5.wrapping_add(323u64);
l9 = l4.wrapping_add(6u64);
l3 = l9;
'b10: loop {
let t24 = (load_8(m, l6) as u32);
let t25 = f28(m, g, t24);
store_8(m, l2, t25 as u8);
l6 = l6.wrapping_add(1u64);
l2 = l2.wrapping_add(1u64);
l3 = l3.wrapping_add(0xffffffffffffffffu64);
if (l3 != 0u64) { continue 'b10; }
break 'b10;
}
store_64(m, l5.wrapping_add(440u64), 0u64);
store_64(m, l5.wrapping_add(432u64), 1u64);
f24(m, g, l5.wrapping_add(432u64), 0x100000080u64, 2u64);
l10 = l5.wrapping_add(323u64);
l6 = load_64(m, l5.wrapping_add(440u64));
l2 = load_64(m, l5.wrapping_add(432u64));
l8 = l9;
'b11: loop {
l3 = (((l6 >> 6) & 31u64).wrapping_mul(0x1020408100u64) & 0x10101010100u64).wrapping_mul(255u64);
multiply_128(m, l5.wrapping_add(304u64), ((l3 >> 8) & 255u64).wrapping_mul(0x101010101010101u64), 0u64, 1u64, 1u64);
multiply_128(m, l5.wrapping_add(288u64), ((l3 >> 16) & 255u64).wrapping_mul(0x101010101010101u64), 0u64, 1u64, 1u64);
multiply_128(m, l5.wrapping_add(272u64), ((l3 >> 24) & 255u64).wrapping_mul(0x101010101010101u64), 0u64, 1u64, 1u64);
multiply_128(m, l5.wrapping_add(256u64), ((l3 >> 32) & 255u64).wrapping_mul(0x101010101010101u64), 0u64, 1u64, 1u64);
multiply_128(m, l5.wrapping_add(240u64), (l3 >> 40).wrapping_mul(0x101010101010101u64), 0u64, 1u64, 1u64);
let t26 = (((l6 << 5) | (l2 >> 59)) & 2047u64);
l2 = (l2 << 5);
l3 = l2.wrapping_add((load_8(m, l10) as u64));
l6 = ((((((load_64(m, l5.wrapping_add(248u64)) & 392u64) ^ t26.wrapping_add((((l3 < l2) as u32) as u64))) ^ (load_64(m, l5.wrapping_add(264u64)) & 197u64)) ^ (load_64(m, l5.wrapping_add(280u64)) & 1347u64)) ^ (load_64(m, l5.wrapping_add(296u64)) & 1961u64)) ^ (load_64(m, l5.wrapping_add(312u64)) & 981u64));
l2 = ((((((load_64(m, l5.wrapping_add(240u64)) & 0x7f74f8dc71b10651u64) ^ l3) ^ (load_64(m, l5.wrapping_add(256u64)) & 0x77eaeccf1990d13cu64)) ^ (load_64(m, l5.wrapping_add(272u64)) & 0xf9b7e6c38d8a2a0eu64)) ^ (load_64(m, l5.wrapping_add(288u64)) & 0xbecb6361c6c51507u64)) ^ (load_64(m, l5.wrapping_add(304u64)) & 0x9d273535ea62d897u64));
l10 = l10.wrapping_add(1u64);
l8 = l8.wrapping_add(0xffffffffffffffffu64);
if (l8 != 0u64) { continue 'b11; }
break 'b11;
}
l10 = 70u64;
'b12: loop {
shift_right_128(m, l5.wrapping_add(224u64), 0x81e570bf4798ab26u64, 1075u64, (l10 as u32));
l3 = (((l6 >> 6) & 31u64).wrapping_mul(0x1020408100u64) & 0x10101010100u64).wrapping_mul(255u64);
multiply_128(m, l5.wrapping_add(208u64), ((l3 >> 8) & 255u64).wrapping_mul(0x101010101010101u64), 0u64, 1u64, 1u64);
multiply_128(m, l5.wrapping_add(192u64), ((l3 >> 16) & 255u64).wrapping_mul(0x101010101010101u64), 0u64, 1u64, 1u64);
multiply_128(m, l5.wrapping_add(176u64), ((l3 >> 24) & 255u64).wrapping_mul(0x101010101010101u64), 0u64, 1u64, 1u64);
multiply_128(m, l5.wrapping_add(160u64), ((l3 >> 32) & 255u64).wrapping_mul(0x101010101010101u64), 0u64, 1u64, 1u64);
multiply_128(m, l5.wrapping_add(144u64), (l3 >> 40).wrapping_mul(0x101010101010101u64), 0u64, 1u64, 1u64);
l6 = ((((((load_64(m, l5.wrapping_add(152u64)) & 392u64) ^ (((l6 << 5) | (l2 >> 59)) & 2047u64)) ^ (load_64(m, l5.wrapping_add(168u64)) & 197u64)) ^ (load_64(m, l5.wrapping_add(184u64)) & 1347u64)) ^ (load_64(m, l5.wrapping_add(200u64)) & 1961u64)) ^ (load_64(m, l5.wrapping_add(216u64)) & 981u64));
l2 = ((((((load_64(m, l5.wrapping_add(144u64)) & 0x7f74f8dc71b10651u64) ^ ((load_64(m, l5.wrapping_add(224u64)) & 31u64) | (l2 << 5))) ^ (load_64(m, l5.wrapping_add(160u64)) & 0x77eaeccf1990d13cu64)) ^ (load_64(m, l5.wrapping_add(176u64)) & 0xf9b7e6c38d8a2a0eu64)) ^ (load_64(m, l5.wrapping_add(192u64)) & 0xbecb6361c6c51507u64)) ^ (load_64(m, l5.wrapping_add(208u64)) & 0x9d273535ea62d897u64));
l10 = l10.wrapping_add(0xfffffffffffffffbu64);
if (l10 != 0xfffffffffffffffbu64) { continue 'b12; }
break 'b12;
}
l3 = l1.wrapping_add(l9);
let t27 = f28(m, g, ((l6 >> 6) as u32));
store_8(m, l3.wrapping_add(3u64), t27 as u8);
let t28 = f28(m, g, (((l6 as u32) >> 1) & 31u32));
store_8(m, l3.wrapping_add(4u64), t28 as u8);
let t29 = f28(m, g, ((((l2 >> 60) | (l6 << 4)) as u32) & 31u32));
store_8(m, l3.wrapping_add(5u64), t29 as u8);
let t30 = f28(m, g, (((l2 >> 55) as u32) & 31u32));
store_8(m, l3.wrapping_add(6u64), t30 as u8);
let t31 = f28(m, g, (((l2 >> 50) as u32) & 31u32));
store_8(m, l3.wrapping_add(7u64), t31 as u8);
let t32 = f28(m, g, (((l2 >> 45) as u32) & 31u32));
store_8(m, l3.wrapping_add(8u64), t32 as u8);
let t33 = f28(m, g, (((l2 >> 40) as u32) & 31u32));
store_8(m, l3.wrapping_add(9u64), t33 as u8);
let t34 = f28(m, g, (((l2 >> 35) as u32) & 31u32));
store_8(m, l3.wrapping_add(10u64), t34 as u8);
let t35 = f28(m, g, (((l2 >> 30) as u32) & 31u32));
store_8(m, l3.wrapping_add(11u64), t35 as u8);
l12 = (l2 as u32);
let t36 = f28(m, g, ((l12 >> 25) & 31u32));
store_8(m, l3.wrapping_add(12u64), t36 as u8);
let t37 = f28(m, g, ((l12 >> 20) & 31u32));
store_8(m, l3.wrapping_add(13u64), t37 as u8);
let t38 = f28(m, g, ((l12 >> 15) & 31u32));
store_8(m, l3.wrapping_add(14u64), t38 as u8);
let t39 = f28(m, g, ((l12 >> 10) & 31u32));
store_8(m, l3.wrapping_add(15u64), t39 as u8);
let t40 = f28(m, g, ((l12 >> 5) & 31u32));
store_8(m, l3.wrapping_add(16u64), t40 as u8);
let t41 = f28(m, g, (l12 & 31u32));
store_8(m, l3.wrapping_add(17u64), t41 as u8);
store_64(m, l0.wrapping_add(8u64), (l4 | 24u64));
store_16(m, l0, 0u32 as u16);
break 'b2;
}
store_16(m, l0, 1u32 as u16);
store_64(m, l0.wrapping_add(8u64), 0u64);
}
g = l5.wrapping_add(448u64);
return;
}
}

// codex32_calls::propose::nearest_of
fn f33(m: &mut [u8], mut g: u64, mut l0: u64, mut l1: u64, mut l2: u32, mut l3: u64, mut l4: u64, mut l5: u64, mut l6: u64) {
let mut l7: u64 = 0;
let mut l8: u32 = 0;
let mut l9: u64 = 0;
let mut l10: u64 = 0;
let mut l11: u64 = 0;
let mut l12: u64 = 0;
let mut l13: u64 = 0;
let mut l14: u32 = 0;
let mut l15: u64 = 0;
let mut l16: u64 = 0;
let mut l17: u64 = 0;
let mut l18: u64 = 0;
let mut l19: u64 = 0;
let mut l20: u32 = 0;
let mut l21: u32 = 0;
let mut l22: u64 = 0;
l7 = g.wrapping_sub(2320u64);
g = l7;
'b1: {
'b2: {
'b3: {
{
store_32(m, l7.wrapping_add(383u64), 0u32);
store_64(m, l7.wrapping_add(376u64), 0u64);
store_64(m, l7.wrapping_add(368u64), 0u64);
store_64(m, l7.wrapping_add(352u64), 0u64);
store_8(m, l7.wrapping_add(360u64), 0u32 as u8);
fill(m, l7.wrapping_add(216u64), 0u32 as u8, 136u64);
store_8(m, l7.wrapping_add(208u64), 0u32 as u8);
store_64(m, l7.wrapping_add(200u64), 0u64);
fill(m, l7.wrapping_add(120u64), 0u32 as u8, 80u64);
store_32(m, l7.wrapping_add(111u64), 0u32);
store_64(m, l7.wrapping_add(104u64), 0u64);
store_64(m, l7.wrapping_add(96u64), 0u64);
store_64(m, l7.wrapping_add(72u64), 0u64);
store_64(m, l7.wrapping_add(80u64), 0u64);
store_32(m, l7.wrapping_add(87u64), 0u32);
fill(m, l7.wrapping_add(3u64), 0u32 as u8, 69u64);
f8(m, g, l7.wrapping_add(120u64), l3, l4);
l4 = load_64(m, l7.wrapping_add(136u64));
l3 = load_64(m, l7.wrapping_add(128u64));
'b5: {
if ((load_8(m, l7.wrapping_add(120u64)) as u32) != 0) { break 'b5; }
'b6: {
'b7: {
if ((l2 & 1u32) != 0) { break 'b7; }
l8 = 0u32;
fill(m, l7.wrapping_add(1400u64), 0u32 as u8, 72u64);
f34(m, g, l7.wrapping_add(1400u64), 0u32, l3, l4);
if ((load_8(m, l7.wrapping_add(1400u64)) as u32) == 0) { break 'b3; }
let t1 = load_64(m, l7.wrapping_add(1448u64));
store_64(m, l7.wrapping_add(1960u64), t1);
let t2 = load_64(m, l7.wrapping_add(1456u64));
store_64(m, l7.wrapping_add(1968u64), t2);
let t3 = load_32(m, l7.wrapping_add(1463u64));
store_32(m, l7.wrapping_add(1975u64), t3);
l9 = ((load_32(m, l7.wrapping_add(1417u64)) as u64) | (((load_8(m, l7.wrapping_add(1423u64)) as u64) << 48) | ((load_16(m, l7.wrapping_add(1421u64)) as u64) << 32)));
break 'b6;
}
l8 = 0u32;
fill(m, l7.wrapping_add(1400u64), 0u32 as u8, 72u64);
f34(m, g, l7.wrapping_add(1400u64), 1u32, l3, l4);
if ((load_8(m, l7.wrapping_add(1400u64)) as u32) == 0) { break 'b3; }
let t4 = load_64(m, l7.wrapping_add(1448u64));
store_64(m, l7.wrapping_add(1960u64), t4);
let t5 = load_64(m, l7.wrapping_add(1456u64));
store_64(m, l7.wrapping_add(1968u64), t5);
let t6 = load_32(m, l7.wrapping_add(1463u64));
store_32(m, l7.wrapping_add(1975u64), t6);
l9 = ((load_32(m, l7.wrapping_add(1417u64)) as u64) | (((load_8(m, l7.wrapping_add(1423u64)) as u64) << 48) | ((load_16(m, l7.wrapping_add(1421u64)) as u64) << 32)));
}
l8 = 1u32;
l10 = load_64(m, l7.wrapping_add(1440u64));
l11 = load_64(m, l7.wrapping_add(1432u64));
l12 = load_64(m, l7.wrapping_add(1424u64));
l13 = (load_8(m, l7.wrapping_add(1408u64)) as u64);
l14 = (load_8(m, l7.wrapping_add(1416u64)) as u32);
break 'b2;
}
store_64(m, l0, 1u64);
let t7 = (load_32(m, l7.wrapping_add(145u64)) as u64);
store_32(m, l0.wrapping_add(25u64), t7 as u32);
let t8 = load_64(m, l7.wrapping_add(168u64));
store_64(m, l0.wrapping_add(48u64), t8);
let t9 = load_64(m, l7.wrapping_add(160u64));
store_64(m, l0.wrapping_add(40u64), t9);
let t10 = load_64(m, l7.wrapping_add(152u64));
store_64(m, l0.wrapping_add(32u64), t10);
l2 = (load_8(m, l7.wrapping_add(144u64)) as u32);
store_8(m, l0.wrapping_add(24u64), (l2 as u64) as u8);
l4 = (l4 & 255u64);
store_64(m, l0.wrapping_add(16u64), l4);
store_64(m, l0.wrapping_add(8u64), (l3 & 65535u64));
let t11 = load_64(m, l7.wrapping_add(176u64));
store_64(m, l0.wrapping_add(56u64), t11);
let t12 = load_64(m, l7.wrapping_add(184u64));
store_64(m, l0.wrapping_add(64u64), t12);
let t13 = load_32(m, l7.wrapping_add(191u64));
store_32(m, l0.wrapping_add(71u64), t13);
let t14 = (load_8(m, l7.wrapping_add(120u64).wrapping_add(31u64)) as u64);
store_8(m, l0.wrapping_add(31u64), t14 as u8);
let t15 = (load_16(m, l7.wrapping_add(120u64).wrapping_add(29u64)) as u64);
store_16(m, l0.wrapping_add(29u64), t15 as u16);
store_8(m, l7.wrapping_add(360u64), l2 as u8);
store_64(m, l7.wrapping_add(352u64), l4);
break 'b1;
}
}
store_32(m, l7.wrapping_add(1975u64), l8);
l9 = 0u64;
store_64(m, l7.wrapping_add(1968u64), 0u64);
store_64(m, l7.wrapping_add(1960u64), 0u64);
l12 = 0u64;
l11 = 0u64;
l10 = 0u64;
l13 = 0u64;
l14 = 0u32;
}
let t16 = load_32(m, l7.wrapping_add(1975u64));
store_32(m, l7.wrapping_add(111u64), t16);
let t17 = load_64(m, l7.wrapping_add(1968u64));
store_64(m, l7.wrapping_add(104u64), t17);
let t18 = load_64(m, l7.wrapping_add(1960u64));
store_64(m, l7.wrapping_add(96u64), t18);
'b8: {
if (l8 == 0) { break 'b8; }
store_64(m, l0, 1u64);
store_8(m, l0.wrapping_add(31u64), (l9 >> 48) as u8);
store_16(m, l0.wrapping_add(29u64), (l9 >> 32) as u16);
store_32(m, l0.wrapping_add(25u64), l9 as u32);
store_64(m, l0.wrapping_add(48u64), l10);
store_64(m, l0.wrapping_add(40u64), l11);
store_64(m, l0.wrapping_add(32u64), l12);
store_8(m, l0.wrapping_add(24u64), l14 as u8);
store_64(m, l0.wrapping_add(16u64), l13);
store_64(m, l0.wrapping_add(8u64), 4u64);
let t19 = load_64(m, l7.wrapping_add(96u64));
store_64(m, l0.wrapping_add(56u64), t19);
let t20 = load_64(m, l7.wrapping_add(104u64));
store_64(m, l0.wrapping_add(64u64), t20);
let t21 = load_32(m, l7.wrapping_add(111u64));
store_32(m, l0.wrapping_add(71u64), t21);
break 'b1;
}
l12 = 0u64;
store_64(m, l7.wrapping_add(536u64), 0u64);
store_64(m, l7.wrapping_add(544u64), 0u64);
l8 = 0u32;
store_32(m, l7.wrapping_add(551u64), 0u32);
fill(m, l7.wrapping_add(467u64), 0u32 as u8, 69u64);
l9 = load_64(m, l1.wrapping_add(8u64));
store_64(m, l1.wrapping_add(8u64), 0u64);
store_32(m, l7.wrapping_add(407u64), 0u32);
store_64(m, l7.wrapping_add(400u64), 0u64);
store_64(m, l7.wrapping_add(392u64), 0u64);
'b9: {
'b10: {
'b11: {
if (l9 != 0u64) { break 'b11; }
store_32(m, l7.wrapping_add(87u64), 0u32);
l15 = 0u64;
store_64(m, l7.wrapping_add(80u64), 0u64);
store_64(m, l7.wrapping_add(72u64), 0u64);
l16 = 6u64;
break 'b10;
}
l10 = load_64(m, l1);
store_64(m, l7.wrapping_add(584u64), l9);
store_64(m, l7.wrapping_add(576u64), l9);
store_64(m, l7.wrapping_add(568u64), l10);
store_64(m, l7.wrapping_add(560u64), 1u64);
'b12: {
'b13: {
l11 = l9.wrapping_add(16u64);
l13 = ((if (l11 < l9) { 0xffffffffffffffffu64 } else { l11 }) & 0xfffffffffffff000u64);
if !(l13 == 0) { break 'b13; }
l11 = 0u64;
break 'b12;
}
l11 = 0u64;
l17 = l13.wrapping_add(0xffffffffffffffc0u64);
l13 = (if (l17 > l13) { 0u64 } else { l17 });
if (l13 > 0x4000000000000000u64) { break 'b12; }
l12 = (if (l13 > 448u64) { l13 } else { 448u64 });
'b14: {
'b15: {
if (l13 > 4095u64) { break 'b15; }
l13 = (1u64 << (0u64.wrapping_sub(((l12 | 63u64).leading_zeros() as u64)) & 63));
break 'b14;
}
l12 = l12.wrapping_add(64u64);
l11 = (l12 & 4032u64);
l13 = (if (l11 == 0) { 0u64 } else { 4096u64.wrapping_sub(l11) }).wrapping_add(l12);
}
l12 = 0u64;
l11 = 0u64;
l17 = l13.wrapping_add(0xfffffffffffffff0u64);
if (l17 > (l9 & 0xfffffffffffffff0u64)) { break 'b12; }
store_64(m, l7.wrapping_add(576u64), 0u64);
store_64(m, l7.wrapping_add(568u64), 0u64);
store_64(m, l7.wrapping_add(560u64), 0u64);
l9 = l13.wrapping_add(0xffffffffffffffc0u64);
l12 = l10.wrapping_add(l9);
store_64(m, l12.wrapping_add(40u64), l9);
store_64(m, l12.wrapping_add(32u64), l9);
store_64(m, l12.wrapping_add(24u64), 0u64);
store_64(m, l12.wrapping_add(16u64), 16u64);
store_64(m, l12.wrapping_add(8u64), l17);
store_64(m, l12, l10);
l11 = 1u64;
}
store_64(m, l7.wrapping_add(440u64), 0u64);
store_64(m, l7.wrapping_add(432u64), l11);
store_64(m, l7.wrapping_add(424u64), l12);
store_64(m, l7.wrapping_add(448u64), 0u64);
store_64(m, l7.wrapping_add(456u64), 0u64);
store_64(m, l7.wrapping_add(416u64), l7.wrapping_add(560u64));
store_64(m, l7.wrapping_add(792u64), 0u64);
store_64(m, l7.wrapping_add(800u64), 0u64);
store_32(m, l7.wrapping_add(807u64), 0u32);
store_64(m, l7.wrapping_add(768u64), 0u64);
store_64(m, l7.wrapping_add(776u64), 0u64);
store_32(m, l7.wrapping_add(783u64), 0u32);
fill(m, l7.wrapping_add(699u64), 0u32 as u8, 69u64);
store_32(m, l7.wrapping_add(695u64), 0u32);
store_64(m, l7.wrapping_add(688u64), 0u64);
store_64(m, l7.wrapping_add(680u64), 0u64);
fill(m, l7.wrapping_add(611u64), 0u32 as u8, 69u64);
store_32(m, l7.wrapping_add(607u64), 0u32);
store_64(m, l7.wrapping_add(600u64), 0u64);
store_64(m, l7.wrapping_add(592u64), 0u64);
store_32(m, l7.wrapping_add(831u64), 0u32);
store_64(m, l7.wrapping_add(824u64), 0u64);
store_64(m, l7.wrapping_add(816u64), 0u64);
'b16: {
'b17: {
'b18: {
'b19: {
'b20: {
'b21: {
'b22: {
'b23: {
'b24: {
'b25: {
'b26: {
'b27: {
'b28: {
'b29: {
'b30: {
'b31: {
'b32: {
'b33: {
'b34: {
'b35: {
'b36: {
'b37: {
'b38: {
'b39: {
'b40: {
'b41: {
'b42: {
'b43: {
if ((l2 & 1u32) != 0) { break 'b43; }
store_64(m, l7.wrapping_add(848u64), 0u64);
store_64(m, l7.wrapping_add(856u64), 0u64);
store_32(m, l7.wrapping_add(863u64), 0u32);
store_64(m, l7.wrapping_add(840u64), l7.wrapping_add(416u64));
store_64(m, l7.wrapping_add(1024u64), 0u64);
store_64(m, l7.wrapping_add(1032u64), 0u64);
store_32(m, l7.wrapping_add(1039u64), 0u32);
fill(m, l7.wrapping_add(952u64), 0u32 as u8, 72u64);
store_64(m, l7.wrapping_add(944u64), 0u64);
store_64(m, l7.wrapping_add(936u64), 0u64);
store_64(m, l7.wrapping_add(928u64), 0u64);
store_64(m, l7.wrapping_add(920u64), 0u64);
store_64(m, l7.wrapping_add(912u64), 0u64);
store_64(m, l7.wrapping_add(872u64), 0u64);
store_64(m, l7.wrapping_add(880u64), 0u64);
store_64(m, l7.wrapping_add(888u64), 0u64);
store_64(m, l7.wrapping_add(896u64), 0u64);
store_64(m, l7.wrapping_add(904u64), 0u64);
f34(m, g, l7.wrapping_add(952u64), 0u32, l3, l4);
l4 = load_64(m, l7.wrapping_add(984u64));
l18 = load_64(m, l7.wrapping_add(976u64));
l9 = load_64(m, l7.wrapping_add(968u64));
l3 = load_64(m, l7.wrapping_add(960u64));
if ((load_8(m, l7.wrapping_add(952u64)) as u32) != 0) { break 'b42; }
f35(m, g, l7.wrapping_add(912u64), l7.wrapping_add(416u64), l18, l4);
if ((load_8(m, l7.wrapping_add(912u64)) as u32) != 0) { break 'b19; }
l12 = load_64(m, l7.wrapping_add(944u64));
l11 = load_64(m, l7.wrapping_add(936u64));
l13 = load_64(m, l7.wrapping_add(928u64));
l10 = load_64(m, l7.wrapping_add(920u64));
let t22 = load_64(m, l7.wrapping_add(840u64));
f36(m, g, l7.wrapping_add(872u64), t22, l18, l4);
'b44: {
if ((load_8(m, l7.wrapping_add(872u64)) as u32) != 0) { break 'b44; }
l15 = load_64(m, l7.wrapping_add(904u64));
l16 = load_64(m, l7.wrapping_add(896u64));
l19 = load_64(m, l7.wrapping_add(880u64));
l4 = load_64(m, l7.wrapping_add(888u64));
l2 = 0u32;
fill(m, l7.wrapping_add(1208u64), 0u32 as u8, 136u64);
l17 = 0u64;
store_64(m, l7.wrapping_add(1080u64), 0u64);
store_64(m, l7.wrapping_add(1072u64), 0u64);
store_64(m, l7.wrapping_add(1064u64), 0u64);
store_64(m, l7.wrapping_add(1056u64), 0u64);
store_64(m, l7.wrapping_add(1048u64), 0u64);
store_32(m, l7.wrapping_add(1391u64), 0u32);
store_64(m, l7.wrapping_add(1384u64), 0u64);
store_64(m, l7.wrapping_add(1376u64), 0u64);
store_64(m, l7.wrapping_add(1368u64), 0u64);
store_64(m, l7.wrapping_add(1360u64), 0u64);
store_64(m, l7.wrapping_add(1352u64), 0u64);
store_64(m, l7.wrapping_add(1344u64), 0u64);
'b45: {
if (l4 < 9u64) { break 'b45; }
fill(m, l7.wrapping_add(1088u64), 0u32 as u8, 120u64);
l8 = 0u32;
break 'b23;
}
f12(m, g, l7.wrapping_add(1344u64), l3, l9, l10, l13);
l8 = 1u32;
if ((load_8(m, l7.wrapping_add(1344u64)) as u32) != 1u32) { break 'b41; }
store_8(m, l7.wrapping_add(1584u64), 0u32 as u8);
store_64(m, l7.wrapping_add(1576u64), 0u64);
store_64(m, l7.wrapping_add(1568u64), 0u64);
store_64(m, l7.wrapping_add(1560u64), 0u64);
f37(m, g, l7.wrapping_add(1560u64), (l7.wrapping_add(1344u64) | 1u64));
fill(m, l7.wrapping_add(1400u64), 0u32 as u8, 72u64);
store_64(m, l7.wrapping_add(1480u64), 0u64);
store_64(m, l7.wrapping_add(1488u64), 0u64);
store_64(m, l7.wrapping_add(1496u64), 0u64);
store_64(m, l7.wrapping_add(1504u64), 0u64);
store_32(m, l7.wrapping_add(1545u64), 0u32);
store_32(m, l7.wrapping_add(1548u64), 0u32);
store_64(m, l7.wrapping_add(1552u64), l13);
let t23 = load_64(m, l7.wrapping_add(1560u64));
store_64(m, l7.wrapping_add(1520u64), t23);
let t24 = load_64(m, l7.wrapping_add(1568u64));
store_64(m, l7.wrapping_add(1528u64), t24);
let t25 = load_64(m, l7.wrapping_add(1576u64));
store_64(m, l7.wrapping_add(1536u64), t25);
let t26 = (load_8(m, l7.wrapping_add(1584u64)) as u32);
store_8(m, l7.wrapping_add(1544u64), t26 as u8);
store_64(m, l7.wrapping_add(1472u64), l7.wrapping_add(840u64));
store_64(m, l7.wrapping_add(1512u64), l7.wrapping_add(840u64));
fill(m, l7.wrapping_add(1624u64), 0u32 as u8, 96u64);
f38(m, g, l7.wrapping_add(1624u64), l7.wrapping_add(840u64), l19, l4, l13);
if ((load_8(m, l7.wrapping_add(1624u64)) as u32) != 0) { break 'b20; }
if ((load_8(m, l7.wrapping_add(1632u64)) as u32) != 1u32) { break 'b22; }
l14 = (load_8(m, l7.wrapping_add(1640u64)) as u32);
store_64(m, l7.wrapping_add(1760u64), ((l14 as u64) & 255u64));
l3 = l7.wrapping_add(1768u64);
copy(m, l3, l7.wrapping_add(1648u64), 72u64);
store_64(m, l7.wrapping_add(2000u64), 0u64);
store_64(m, l7.wrapping_add(1992u64), 0u64);
store_64(m, l7.wrapping_add(1984u64), 0u64);
store_64(m, l7.wrapping_add(1976u64), 0u64);
store_64(m, l7.wrapping_add(1968u64), 0u64);
store_64(m, l7.wrapping_add(1960u64), 0u64);
'b46: {
'b47: {
'b48: {
l2 = (l14 & 255u32);
l4 = load_64(m, l7.wrapping_add(1760u64).wrapping_add((if (l2 != 0) { 16u64 } else { 64u64 })));
if (l4.wrapping_add(0xfffffffffffffff9u64) > 1u64) { break 'b48; }
store_64(m, l7.wrapping_add(1592u64), 0u64);
store_64(m, l7.wrapping_add(1600u64), 0u64);
store_64(m, l7.wrapping_add(1608u64), 0u64);
store_64(m, l7.wrapping_add(1616u64), l7.wrapping_add(840u64));
l20 = 0u32;
break 'b47;
}
l9 = load_64(m, l7.wrapping_add(1768u64));
f39(m, g, l7.wrapping_add(1960u64), l7.wrapping_add(840u64), 1285u32, (if (l2 != 0) { l9 } else { l3 }), l4);
let t27 = load_64(m, l7.wrapping_add(1976u64));
store_64(m, l7.wrapping_add(1592u64), t27);
let t28 = load_64(m, l7.wrapping_add(1984u64));
store_64(m, l7.wrapping_add(1600u64), t28);
let t29 = load_64(m, l7.wrapping_add(1992u64));
store_64(m, l7.wrapping_add(1608u64), t29);
let t30 = load_64(m, l7.wrapping_add(2000u64));
store_64(m, l7.wrapping_add(1616u64), t30);
if ((load_8(m, l7.wrapping_add(1960u64)) as u32) != 0) { break 'b46; }
l20 = (load_8(m, l7.wrapping_add(1968u64)) as u32);
}
let t31 = load_64(m, l7.wrapping_add(1592u64));
store_64(m, l7.wrapping_add(1728u64), t31);
let t32 = load_64(m, l7.wrapping_add(1600u64));
store_64(m, l7.wrapping_add(1736u64), t32);
let t33 = load_64(m, l7.wrapping_add(1608u64));
store_64(m, l7.wrapping_add(1744u64), t33);
let t34 = load_64(m, l7.wrapping_add(1616u64));
store_64(m, l7.wrapping_add(1752u64), t34);
store_64(m, l7.wrapping_add(1720u64), ((l20 as u64) & 255u64));
l21 = 0u32;
fill(m, l7.wrapping_add(1960u64), 0u32 as u8, 152u64);
'b49: {
if (l4 < 9u64) { break 'b49; }
fill(m, l7.wrapping_add(1840u64), 0u32 as u8, 120u64);
l17 = 0u64;
l8 = 0u32;
l2 = 0u32;
break 'b24;
}
l9 = l7.wrapping_add(1520u64);
'b50: {
if (l4 < 7u64) { break 'b50; }
l21 = 0u32;
fill(m, l7.wrapping_add(2112u64), 0u32 as u8, 144u64);
l18 = load_64(m, l7.wrapping_add(1768u64));
store_32(m, l7.wrapping_add(2311u64), 0u32);
l17 = 0u64;
store_64(m, l7.wrapping_add(2304u64), 0u64);
store_64(m, l7.wrapping_add(2296u64), 0u64);
store_64(m, l7.wrapping_add(2288u64), 0u64);
l3 = (if ((l14 & 255u32) != 0) { l18 } else { l3 });
f40(m, g, l7.wrapping_add(2288u64), l9, l3, l4);
let t35 = load_64(m, l7.wrapping_add(2289u64));
store_64(m, l7.wrapping_add(2256u64), t35);
let t36 = load_64(m, l7.wrapping_add(2297u64));
store_64(m, l7.wrapping_add(2264u64), t36);
let t37 = load_64(m, l7.wrapping_add(2305u64));
store_64(m, l7.wrapping_add(2272u64), t37);
let t38 = (load_16(m, l7.wrapping_add(2313u64)) as u32);
store_16(m, l7.wrapping_add(2280u64), t38 as u16);
if ((load_8(m, l7.wrapping_add(2288u64)) as u32) != 1u32) { break 'b40; }
f41(m, g, l7.wrapping_add(2112u64), l7.wrapping_add(840u64), l3, l4, l7.wrapping_add(2256u64));
'b51: {
if ((load_8(m, l7.wrapping_add(2112u64)) as u32) != 0) { break 'b51; }
l2 = (load_8(m, l7.wrapping_add(2120u64)) as u32);
copy(m, l7.wrapping_add(1984u64), l7.wrapping_add(2128u64), 128u64);
l8 = 1u32;
l17 = load_64(m, l7.wrapping_add(2104u64));
break 'b25;
}
l2 = 0u32;
fill(m, l7.wrapping_add(1968u64), 0u32 as u8, 144u64);
l21 = 1u32;
break 'b26;
}
f42(m, g, l7.wrapping_add(1960u64), l7.wrapping_add(840u64), l13, l9, l7.wrapping_add(1760u64), l7.wrapping_add(1720u64));
l2 = (load_8(m, l7.wrapping_add(1976u64)) as u32);
l8 = (load_8(m, l7.wrapping_add(1968u64)) as u32);
l21 = (load_8(m, l7.wrapping_add(1960u64)) as u32);
copy(m, l7.wrapping_add(1840u64), l7.wrapping_add(1984u64), 120u64);
l17 = load_64(m, l7.wrapping_add(2104u64));
break 'b24;
}
if ((l14 & 255u32) != 1u32) { break 'b20; }
l3 = load_64(m, l7.wrapping_add(1784u64));
if (l3 == 0) { break 'b20; }
'b52: {
l4 = load_64(m, load_64(m, l7.wrapping_add(1792u64)));
if (load_64(m, l4.wrapping_add(16u64)) != 1u64) { break 'b52; }
l13 = load_64(m, l4.wrapping_add(8u64));
let t39 = load_64(m, l13);
l13 = l13.wrapping_add(32u64);
l17 = load_64(m, l13);
if (l9 != t39.wrapping_add(l17)) { break 'b52; }
store_64(m, l13, l17.wrapping_add((l3 << 3)));
}
l4 = l4.wrapping_add(24u64);
let t40 = load_64(m, l4).wrapping_add(0xffffffffffffffffu64);
store_64(m, l4, t40);
break 'b20;
}
if (l11 == 0) { break 'b19; }
'b53: {
if (load_64(m, l12.wrapping_add(16u64)) != 1u64) { break 'b53; }
l4 = load_64(m, l12.wrapping_add(8u64));
let t41 = load_64(m, l4);
l4 = l4.wrapping_add(32u64);
l3 = load_64(m, l4);
if (l10 != t41.wrapping_add(l3)) { break 'b53; }
store_64(m, l4, l3.wrapping_add(l11));
}
l4 = l12.wrapping_add(24u64);
let t42 = load_64(m, l4).wrapping_add(0xffffffffffffffffu64);
store_64(m, l4, t42);
break 'b19;
}
store_64(m, l7.wrapping_add(848u64), 0u64);
store_64(m, l7.wrapping_add(856u64), 0u64);
store_32(m, l7.wrapping_add(863u64), 0u32);
store_64(m, l7.wrapping_add(840u64), l7.wrapping_add(416u64));
store_64(m, l7.wrapping_add(1024u64), 0u64);
store_64(m, l7.wrapping_add(1032u64), 0u64);
store_32(m, l7.wrapping_add(1039u64), 0u32);
fill(m, l7.wrapping_add(952u64), 0u32 as u8, 72u64);
store_64(m, l7.wrapping_add(944u64), 0u64);
store_64(m, l7.wrapping_add(936u64), 0u64);
store_64(m, l7.wrapping_add(928u64), 0u64);
store_64(m, l7.wrapping_add(920u64), 0u64);
store_64(m, l7.wrapping_add(912u64), 0u64);
store_64(m, l7.wrapping_add(872u64), 0u64);
store_64(m, l7.wrapping_add(880u64), 0u64);
store_64(m, l7.wrapping_add(888u64), 0u64);
store_64(m, l7.wrapping_add(896u64), 0u64);
store_64(m, l7.wrapping_add(904u64), 0u64);
f34(m, g, l7.wrapping_add(952u64), 1u32, l3, l4);
l4 = load_64(m, l7.wrapping_add(984u64));
l18 = load_64(m, l7.wrapping_add(976u64));
l9 = load_64(m, l7.wrapping_add(968u64));
l3 = load_64(m, l7.wrapping_add(960u64));
if ((load_8(m, l7.wrapping_add(952u64)) as u32) != 0) { break 'b39; }
f35(m, g, l7.wrapping_add(912u64), l7.wrapping_add(416u64), l18, l4);
if ((load_8(m, l7.wrapping_add(912u64)) as u32) != 0) { break 'b29; }
l12 = load_64(m, l7.wrapping_add(944u64));
l11 = load_64(m, l7.wrapping_add(936u64));
l13 = load_64(m, l7.wrapping_add(928u64));
l10 = load_64(m, l7.wrapping_add(920u64));
let t43 = load_64(m, l7.wrapping_add(840u64));
f36(m, g, l7.wrapping_add(872u64), t43, l18, l4);
'b54: {
if ((load_8(m, l7.wrapping_add(872u64)) as u32) != 0) { break 'b54; }
l15 = load_64(m, l7.wrapping_add(904u64));
l16 = load_64(m, l7.wrapping_add(896u64));
l19 = load_64(m, l7.wrapping_add(880u64));
l4 = load_64(m, l7.wrapping_add(888u64));
l2 = 0u32;
fill(m, l7.wrapping_add(1208u64), 0u32 as u8, 136u64);
l17 = 0u64;
store_64(m, l7.wrapping_add(1080u64), 0u64);
store_64(m, l7.wrapping_add(1072u64), 0u64);
store_64(m, l7.wrapping_add(1064u64), 0u64);
store_64(m, l7.wrapping_add(1056u64), 0u64);
store_64(m, l7.wrapping_add(1048u64), 0u64);
store_32(m, l7.wrapping_add(1391u64), 0u32);
store_64(m, l7.wrapping_add(1384u64), 0u64);
store_64(m, l7.wrapping_add(1376u64), 0u64);
store_64(m, l7.wrapping_add(1368u64), 0u64);
store_64(m, l7.wrapping_add(1360u64), 0u64);
store_64(m, l7.wrapping_add(1352u64), 0u64);
store_64(m, l7.wrapping_add(1344u64), 0u64);
'b55: {
if (l4 < 9u64) { break 'b55; }
fill(m, l7.wrapping_add(1088u64), 0u32 as u8, 120u64);
l8 = 0u32;
break 'b33;
}
f13(m, g, l7.wrapping_add(1344u64), l3, l9, l10, l13);
l8 = 1u32;
if ((load_8(m, l7.wrapping_add(1344u64)) as u32) != 1u32) { break 'b38; }
store_8(m, l7.wrapping_add(1584u64), 0u32 as u8);
store_64(m, l7.wrapping_add(1576u64), 0u64);
store_64(m, l7.wrapping_add(1568u64), 0u64);
store_64(m, l7.wrapping_add(1560u64), 0u64);
f37(m, g, l7.wrapping_add(1560u64), (l7.wrapping_add(1344u64) | 1u64));
fill(m, l7.wrapping_add(1400u64), 0u32 as u8, 72u64);
store_64(m, l7.wrapping_add(1480u64), 0u64);
store_64(m, l7.wrapping_add(1488u64), 0u64);
store_64(m, l7.wrapping_add(1496u64), 0u64);
store_64(m, l7.wrapping_add(1504u64), 0u64);
store_32(m, l7.wrapping_add(1545u64), 0u32);
store_32(m, l7.wrapping_add(1548u64), 0u32);
store_64(m, l7.wrapping_add(1552u64), l13);
let t44 = load_64(m, l7.wrapping_add(1560u64));
store_64(m, l7.wrapping_add(1520u64), t44);
let t45 = load_64(m, l7.wrapping_add(1568u64));
store_64(m, l7.wrapping_add(1528u64), t45);
let t46 = load_64(m, l7.wrapping_add(1576u64));
store_64(m, l7.wrapping_add(1536u64), t46);
let t47 = (load_8(m, l7.wrapping_add(1584u64)) as u32);
store_8(m, l7.wrapping_add(1544u64), t47 as u8);
store_64(m, l7.wrapping_add(1472u64), l7.wrapping_add(840u64));
store_64(m, l7.wrapping_add(1512u64), l7.wrapping_add(840u64));
fill(m, l7.wrapping_add(1624u64), 0u32 as u8, 96u64);
f38(m, g, l7.wrapping_add(1624u64), l7.wrapping_add(840u64), l19, l4, l13);
if ((load_8(m, l7.wrapping_add(1624u64)) as u32) != 0) { break 'b30; }
if ((load_8(m, l7.wrapping_add(1632u64)) as u32) != 1u32) { break 'b32; }
l14 = (load_8(m, l7.wrapping_add(1640u64)) as u32);
store_64(m, l7.wrapping_add(1760u64), ((l14 as u64) & 255u64));
l3 = l7.wrapping_add(1768u64);
copy(m, l3, l7.wrapping_add(1648u64), 72u64);
store_64(m, l7.wrapping_add(2000u64), 0u64);
store_64(m, l7.wrapping_add(1992u64), 0u64);
store_64(m, l7.wrapping_add(1984u64), 0u64);
store_64(m, l7.wrapping_add(1976u64), 0u64);
store_64(m, l7.wrapping_add(1968u64), 0u64);
store_64(m, l7.wrapping_add(1960u64), 0u64);
'b56: {
'b57: {
'b58: {
l2 = (l14 & 255u32);
l4 = load_64(m, l7.wrapping_add(1760u64).wrapping_add((if (l2 != 0) { 16u64 } else { 64u64 })));
if (l4.wrapping_add(0xfffffffffffffff9u64) > 1u64) { break 'b58; }
store_64(m, l7.wrapping_add(1592u64), 0u64);
store_64(m, l7.wrapping_add(1600u64), 0u64);
store_64(m, l7.wrapping_add(1608u64), 0u64);
store_64(m, l7.wrapping_add(1616u64), l7.wrapping_add(840u64));
l20 = 0u32;
break 'b57;
}
l9 = load_64(m, l7.wrapping_add(1768u64));
f39(m, g, l7.wrapping_add(1960u64), l7.wrapping_add(840u64), 1561u32, (if (l2 != 0) { l9 } else { l3 }), l4);
let t48 = load_64(m, l7.wrapping_add(1976u64));
store_64(m, l7.wrapping_add(1592u64), t48);
let t49 = load_64(m, l7.wrapping_add(1984u64));
store_64(m, l7.wrapping_add(1600u64), t49);
let t50 = load_64(m, l7.wrapping_add(1992u64));
store_64(m, l7.wrapping_add(1608u64), t50);
let t51 = load_64(m, l7.wrapping_add(2000u64));
store_64(m, l7.wrapping_add(1616u64), t51);
if ((load_8(m, l7.wrapping_add(1960u64)) as u32) != 0) { break 'b56; }
l20 = (load_8(m, l7.wrapping_add(1968u64)) as u32);
}
let t52 = load_64(m, l7.wrapping_add(1592u64));
store_64(m, l7.wrapping_add(1728u64), t52);
let t53 = load_64(m, l7.wrapping_add(1600u64));
store_64(m, l7.wrapping_add(1736u64), t53);
let t54 = load_64(m, l7.wrapping_add(1608u64));
store_64(m, l7.wrapping_add(1744u64), t54);
let t55 = load_64(m, l7.wrapping_add(1616u64));
store_64(m, l7.wrapping_add(1752u64), t55);
store_64(m, l7.wrapping_add(1720u64), ((l20 as u64) & 255u64));
l21 = 0u32;
fill(m, l7.wrapping_add(1960u64), 0u32 as u8, 152u64);
'b59: {
if (l4 < 9u64) { break 'b59; }
fill(m, l7.wrapping_add(1840u64), 0u32 as u8, 120u64);
l17 = 0u64;
l8 = 0u32;
l2 = 0u32;
break 'b34;
}
l9 = l7.wrapping_add(1520u64);
'b60: {
if (l4 < 7u64) { break 'b60; }
l21 = 0u32;
fill(m, l7.wrapping_add(2112u64), 0u32 as u8, 144u64);
l18 = load_64(m, l7.wrapping_add(1768u64));
store_32(m, l7.wrapping_add(2311u64), 0u32);
l17 = 0u64;
store_64(m, l7.wrapping_add(2304u64), 0u64);
store_64(m, l7.wrapping_add(2296u64), 0u64);
store_64(m, l7.wrapping_add(2288u64), 0u64);
l3 = (if ((l14 & 255u32) != 0) { l18 } else { l3 });
f43(m, g, l7.wrapping_add(2288u64), l9, l3, l4);
let t56 = load_64(m, l7.wrapping_add(2289u64));
store_64(m, l7.wrapping_add(2256u64), t56);
let t57 = load_64(m, l7.wrapping_add(2297u64));
store_64(m, l7.wrapping_add(2264u64), t57);
let t58 = load_64(m, l7.wrapping_add(2305u64));
store_64(m, l7.wrapping_add(2272u64), t58);
let t59 = (load_16(m, l7.wrapping_add(2313u64)) as u32);
store_16(m, l7.wrapping_add(2280u64), t59 as u16);
if ((load_8(m, l7.wrapping_add(2288u64)) as u32) != 1u32) { break 'b37; }
f41(m, g, l7.wrapping_add(2112u64), l7.wrapping_add(840u64), l3, l4, l7.wrapping_add(2256u64));
'b61: {
if ((load_8(m, l7.wrapping_add(2112u64)) as u32) != 0) { break 'b61; }
l2 = (load_8(m, l7.wrapping_add(2120u64)) as u32);
copy(m, l7.wrapping_add(1984u64), l7.wrapping_add(2128u64), 128u64);
l8 = 1u32;
l17 = load_64(m, l7.wrapping_add(2104u64));
break 'b35;
}
l2 = 0u32;
fill(m, l7.wrapping_add(1968u64), 0u32 as u8, 144u64);
l21 = 1u32;
break 'b36;
}
f44(m, g, l7.wrapping_add(1960u64), l7.wrapping_add(840u64), l13, l9, l7.wrapping_add(1760u64), l7.wrapping_add(1720u64));
l2 = (load_8(m, l7.wrapping_add(1976u64)) as u32);
l8 = (load_8(m, l7.wrapping_add(1968u64)) as u32);
l21 = (load_8(m, l7.wrapping_add(1960u64)) as u32);
copy(m, l7.wrapping_add(1840u64), l7.wrapping_add(1984u64), 120u64);
l17 = load_64(m, l7.wrapping_add(2104u64));
break 'b34;
}
if ((l14 & 255u32) != 1u32) { break 'b30; }
l3 = load_64(m, l7.wrapping_add(1784u64));
if (l3 == 0) { break 'b30; }
'b62: {
l4 = load_64(m, load_64(m, l7.wrapping_add(1792u64)));
if (load_64(m, l4.wrapping_add(16u64)) != 1u64) { break 'b62; }
l13 = load_64(m, l4.wrapping_add(8u64));
let t60 = load_64(m, l13);
l13 = l13.wrapping_add(32u64);
l17 = load_64(m, l13);
if (l9 != t60.wrapping_add(l17)) { break 'b62; }
store_64(m, l13, l17.wrapping_add((l3 << 3)));
}
l4 = l4.wrapping_add(24u64);
let t61 = load_64(m, l4).wrapping_add(0xffffffffffffffffu64);
store_64(m, l4, t61);
break 'b30;
}
if (l11 == 0) { break 'b29; }
'b63: {
if (load_64(m, l12.wrapping_add(16u64)) != 1u64) { break 'b63; }
l4 = load_64(m, l12.wrapping_add(8u64));
let t62 = load_64(m, l4);
l4 = l4.wrapping_add(32u64);
l3 = load_64(m, l4);
if (l10 != t62.wrapping_add(l3)) { break 'b63; }
store_64(m, l4, l3.wrapping_add(l11));
}
l4 = l12.wrapping_add(24u64);
let t63 = load_64(m, l4).wrapping_add(0xffffffffffffffffu64);
store_64(m, l4, t63);
break 'b29;
}
let t64 = load_64(m, l7.wrapping_add(1000u64));
store_64(m, l7.wrapping_add(848u64), t64);
let t65 = load_64(m, l7.wrapping_add(1008u64));
store_64(m, l7.wrapping_add(856u64), t65);
let t66 = load_32(m, l7.wrapping_add(1015u64));
store_32(m, l7.wrapping_add(863u64), t66);
l17 = (l9 >> 8);
l8 = (l9 as u32);
l2 = 1u32;
l9 = load_64(m, l7.wrapping_add(992u64));
break 'b17;
}
l2 = 0u32;
fill(m, l7.wrapping_add(1088u64), 0u32 as u8, 120u64);
l17 = l7.wrapping_add(840u64);
break 'b23;
}
fill(m, l7.wrapping_add(1968u64), 0u32 as u8, 144u64);
l2 = 0u32;
break 'b26;
}
let t67 = load_64(m, l7.wrapping_add(1000u64));
store_64(m, l7.wrapping_add(848u64), t67);
let t68 = load_64(m, l7.wrapping_add(1008u64));
store_64(m, l7.wrapping_add(856u64), t68);
let t69 = load_32(m, l7.wrapping_add(1015u64));
store_32(m, l7.wrapping_add(863u64), t69);
l17 = (l9 >> 8);
l8 = (l9 as u32);
l2 = 1u32;
l9 = load_64(m, l7.wrapping_add(992u64));
break 'b27;
}
l2 = 0u32;
fill(m, l7.wrapping_add(1088u64), 0u32 as u8, 120u64);
l17 = l7.wrapping_add(840u64);
break 'b33;
}
fill(m, l7.wrapping_add(1968u64), 0u32 as u8, 144u64);
l2 = 0u32;
}
l8 = 0u32;
}
copy(m, l7.wrapping_add(1840u64), l7.wrapping_add(1984u64), 120u64);
}
'b64: {
if ((l20 & 255u32) != 1u32) { break 'b64; }
l3 = load_64(m, l7.wrapping_add(1744u64));
if (l3 == 0) { break 'b64; }
'b65: {
l4 = load_64(m, load_64(m, l7.wrapping_add(1752u64)));
if (load_64(m, l4.wrapping_add(16u64)) != 1u64) { break 'b65; }
l9 = load_64(m, l4.wrapping_add(8u64));
let t70 = load_64(m, l9);
l9 = l9.wrapping_add(32u64);
l18 = load_64(m, l9);
if (load_64(m, l7.wrapping_add(1728u64)) != t70.wrapping_add(l18)) { break 'b65; }
store_64(m, l9, l18.wrapping_add((l3 << 1)));
}
l4 = l4.wrapping_add(24u64);
let t71 = load_64(m, l4).wrapping_add(0xffffffffffffffffu64);
store_64(m, l4, t71);
}
'b66: {
if ((l14 & 255u32) != 1u32) { break 'b66; }
l3 = load_64(m, l7.wrapping_add(1784u64));
if (l3 == 0) { break 'b66; }
'b67: {
l4 = load_64(m, load_64(m, l7.wrapping_add(1792u64)));
if (load_64(m, l4.wrapping_add(16u64)) != 1u64) { break 'b67; }
l9 = load_64(m, l4.wrapping_add(8u64));
let t72 = load_64(m, l9);
l9 = l9.wrapping_add(32u64);
l18 = load_64(m, l9);
if (load_64(m, l7.wrapping_add(1768u64)) != t72.wrapping_add(l18)) { break 'b67; }
store_64(m, l9, l18.wrapping_add((l3 << 3)));
}
l4 = l4.wrapping_add(24u64);
let t73 = load_64(m, l4).wrapping_add(0xffffffffffffffffu64);
store_64(m, l4, t73);
}
copy(m, l7.wrapping_add(1088u64), l7.wrapping_add(1840u64), 120u64);
if ((l21 & 255u32) != 0) { break 'b30; }
}
if ((l8 & 255u32) == 1u32) { break 'b31; }
}
l8 = 0u32;
l9 = 0u64;
l4 = 0u64;
l18 = 0u64;
l17 = 0u64;
l3 = 0u64;
break 'b28;
}
store_64(m, l7.wrapping_add(1208u64), ((l2 as u64) & 255u64));
l4 = l7.wrapping_add(1216u64);
copy(m, l4, l7.wrapping_add(1088u64), 120u64);
store_64(m, l7.wrapping_add(1336u64), l17);
l3 = load_64(m, l7.wrapping_add(1216u64));
l2 = (l2 & 255u32);
let t74 = load_64(m, l7.wrapping_add(840u64));
let t75 = load_64(m, l7.wrapping_add(1208u64).wrapping_add((if (l2 != 0) { 16u64 } else { 120u64 })));
f45(m, g, l7.wrapping_add(1048u64), t74, l10, l13, (if (l2 != 0) { l3 } else { l4 }), t75);
l4 = load_64(m, l7.wrapping_add(1232u64));
l2 = (((l2 != 1u32) as u32) | ((l4 == 0) as u32));
'b68: {
if ((load_8(m, l7.wrapping_add(1048u64)) as u32) != 0) { break 'b68; }
'b69: {
if (l2 != 0) { break 'b69; }
'b70: {
l9 = load_64(m, load_64(m, l7.wrapping_add(1240u64)));
if (load_64(m, l9.wrapping_add(16u64)) != 1u64) { break 'b70; }
l13 = load_64(m, l9.wrapping_add(8u64));
let t76 = load_64(m, l13);
l13 = l13.wrapping_add(32u64);
l17 = load_64(m, l13);
if (l3 != t76.wrapping_add(l17)) { break 'b70; }
store_64(m, l13, l17.wrapping_add((l4 << 4)));
}
l4 = l9.wrapping_add(24u64);
let t77 = load_64(m, l4).wrapping_add(0xffffffffffffffffu64);
store_64(m, l4, t77);
}
l17 = ((load_32(m, l7.wrapping_add(1057u64)) as u64) | (((load_8(m, l7.wrapping_add(1063u64)) as u64) << 48) | ((load_16(m, l7.wrapping_add(1061u64)) as u64) << 32)));
l3 = 1u64;
l9 = load_64(m, l7.wrapping_add(1080u64));
l4 = load_64(m, l7.wrapping_add(1072u64));
l18 = load_64(m, l7.wrapping_add(1064u64));
l8 = (load_8(m, l7.wrapping_add(1056u64)) as u32);
break 'b28;
}
if (l2 != 0) { break 'b30; }
'b71: {
l9 = load_64(m, load_64(m, l7.wrapping_add(1240u64)));
if (load_64(m, l9.wrapping_add(16u64)) != 1u64) { break 'b71; }
l13 = load_64(m, l9.wrapping_add(8u64));
let t78 = load_64(m, l13);
l13 = l13.wrapping_add(32u64);
l17 = load_64(m, l13);
if (l3 != t78.wrapping_add(l17)) { break 'b71; }
store_64(m, l13, l17.wrapping_add((l4 << 4)));
}
l4 = l9.wrapping_add(24u64);
let t79 = load_64(m, l4).wrapping_add(0xffffffffffffffffu64);
store_64(m, l4, t79);
}
'b72: {
if (l16 == 0) { break 'b72; }
'b73: {
if (load_64(m, l15.wrapping_add(16u64)) != 1u64) { break 'b73; }
l4 = load_64(m, l15.wrapping_add(8u64));
let t80 = load_64(m, l4);
l4 = l4.wrapping_add(32u64);
l3 = load_64(m, l4);
if (l19 != t80.wrapping_add(l3)) { break 'b73; }
store_64(m, l4, l3.wrapping_add((l16 << 3)));
}
l4 = l15.wrapping_add(24u64);
let t81 = load_64(m, l4).wrapping_add(0xffffffffffffffffu64);
store_64(m, l4, t81);
}
if (l11 == 0) { break 'b29; }
'b74: {
if (load_64(m, l12.wrapping_add(16u64)) != 1u64) { break 'b74; }
l4 = load_64(m, l12.wrapping_add(8u64));
let t82 = load_64(m, l4);
l4 = l4.wrapping_add(32u64);
l3 = load_64(m, l4);
if (l10 != t82.wrapping_add(l3)) { break 'b74; }
store_64(m, l4, l3.wrapping_add(l11));
}
l4 = l12.wrapping_add(24u64);
let t83 = load_64(m, l4).wrapping_add(0xffffffffffffffffu64);
store_64(m, l4, t83);
}
l8 = 0u32;
store_32(m, l7.wrapping_add(863u64), 0u32);
l17 = 0u64;
store_64(m, l7.wrapping_add(856u64), 0u64);
store_64(m, l7.wrapping_add(848u64), 0u64);
l3 = 6u64;
l2 = 1u32;
l18 = 0u64;
l4 = 0u64;
l9 = 0u64;
break 'b27;
}
'b75: {
if (l16 == 0) { break 'b75; }
'b76: {
if (load_64(m, l15.wrapping_add(16u64)) != 1u64) { break 'b76; }
l13 = load_64(m, l15.wrapping_add(8u64));
let t84 = load_64(m, l13);
l13 = l13.wrapping_add(32u64);
l22 = load_64(m, l13);
if (l19 != t84.wrapping_add(l22)) { break 'b76; }
store_64(m, l13, l22.wrapping_add((l16 << 3)));
}
l13 = l15.wrapping_add(24u64);
let t85 = load_64(m, l13).wrapping_add(0xffffffffffffffffu64);
store_64(m, l13, t85);
}
'b77: {
if (l11 == 0) { break 'b77; }
'b78: {
if (load_64(m, l12.wrapping_add(16u64)) != 1u64) { break 'b78; }
l13 = load_64(m, l12.wrapping_add(8u64));
let t86 = load_64(m, l13);
l13 = l13.wrapping_add(32u64);
l15 = load_64(m, l13);
if (l10 != t86.wrapping_add(l15)) { break 'b78; }
store_64(m, l13, l15.wrapping_add(l11));
}
l12 = l12.wrapping_add(24u64);
let t87 = load_64(m, l12).wrapping_add(0xffffffffffffffffu64);
store_64(m, l12, t87);
}
let t88 = load_32(m, l7.wrapping_add(1039u64));
store_32(m, l7.wrapping_add(863u64), t88);
let t89 = load_64(m, l7.wrapping_add(1032u64));
store_64(m, l7.wrapping_add(856u64), t89);
let t90 = load_64(m, l7.wrapping_add(1024u64));
store_64(m, l7.wrapping_add(848u64), t90);
l2 = 0u32;
}
let t91 = load_64(m, l7.wrapping_add(848u64));
store_64(m, l7.wrapping_add(816u64), t91);
let t92 = load_64(m, l7.wrapping_add(856u64));
store_64(m, l7.wrapping_add(824u64), t92);
let t93 = load_32(m, l7.wrapping_add(863u64));
store_32(m, l7.wrapping_add(831u64), t93);
break 'b16;
}
l8 = 0u32;
}
copy(m, l7.wrapping_add(1840u64), l7.wrapping_add(1984u64), 120u64);
}
'b79: {
if ((l20 & 255u32) != 1u32) { break 'b79; }
l3 = load_64(m, l7.wrapping_add(1744u64));
if (l3 == 0) { break 'b79; }
'b80: {
l4 = load_64(m, load_64(m, l7.wrapping_add(1752u64)));
if (load_64(m, l4.wrapping_add(16u64)) != 1u64) { break 'b80; }
l9 = load_64(m, l4.wrapping_add(8u64));
let t94 = load_64(m, l9);
l9 = l9.wrapping_add(32u64);
l18 = load_64(m, l9);
if (load_64(m, l7.wrapping_add(1728u64)) != t94.wrapping_add(l18)) { break 'b80; }
store_64(m, l9, l18.wrapping_add((l3 << 1)));
}
l4 = l4.wrapping_add(24u64);
let t95 = load_64(m, l4).wrapping_add(0xffffffffffffffffu64);
store_64(m, l4, t95);
}
'b81: {
if ((l14 & 255u32) != 1u32) { break 'b81; }
l3 = load_64(m, l7.wrapping_add(1784u64));
if (l3 == 0) { break 'b81; }
'b82: {
l4 = load_64(m, load_64(m, l7.wrapping_add(1792u64)));
if (load_64(m, l4.wrapping_add(16u64)) != 1u64) { break 'b82; }
l9 = load_64(m, l4.wrapping_add(8u64));
let t96 = load_64(m, l9);
l9 = l9.wrapping_add(32u64);
l18 = load_64(m, l9);
if (load_64(m, l7.wrapping_add(1768u64)) != t96.wrapping_add(l18)) { break 'b82; }
store_64(m, l9, l18.wrapping_add((l3 << 3)));
}
l4 = l4.wrapping_add(24u64);
let t97 = load_64(m, l4).wrapping_add(0xffffffffffffffffu64);
store_64(m, l4, t97);
}
copy(m, l7.wrapping_add(1088u64), l7.wrapping_add(1840u64), 120u64);
if ((l21 & 255u32) != 0) { break 'b20; }
}
if ((l8 & 255u32) == 1u32) { break 'b21; }
}
l8 = 0u32;
l9 = 0u64;
l4 = 0u64;
l18 = 0u64;
l17 = 0u64;
l3 = 0u64;
break 'b18;
}
store_64(m, l7.wrapping_add(1208u64), ((l2 as u64) & 255u64));
l4 = l7.wrapping_add(1216u64);
copy(m, l4, l7.wrapping_add(1088u64), 120u64);
store_64(m, l7.wrapping_add(1336u64), l17);
l3 = load_64(m, l7.wrapping_add(1216u64));
l2 = (l2 & 255u32);
let t98 = load_64(m, l7.wrapping_add(840u64));
let t99 = load_64(m, l7.wrapping_add(1208u64).wrapping_add((if (l2 != 0) { 16u64 } else { 120u64 })));
f45(m, g, l7.wrapping_add(1048u64), t98, l10, l13, (if (l2 != 0) { l3 } else { l4 }), t99);
l4 = load_64(m, l7.wrapping_add(1232u64));
l2 = (((l2 != 1u32) as u32) | ((l4 == 0) as u32));
'b83: {
if ((load_8(m, l7.wrapping_add(1048u64)) as u32) != 0) { break 'b83; }
'b84: {
if (l2 != 0) { break 'b84; }
'b85: {
l9 = load_64(m, load_64(m, l7.wrapping_add(1240u64)));
if (load_64(m, l9.wrapping_add(16u64)) != 1u64) { break 'b85; }
l13 = load_64(m, l9.wrapping_add(8u64));
let t100 = load_64(m, l13);
l13 = l13.wrapping_add(32u64);
l17 = load_64(m, l13);
if (l3 != t100.wrapping_add(l17)) { break 'b85; }
store_64(m, l13, l17.wrapping_add((l4 << 4)));
}
l4 = l9.wrapping_add(24u64);
let t101 = load_64(m, l4).wrapping_add(0xffffffffffffffffu64);
store_64(m, l4, t101);
}
l17 = ((load_32(m, l7.wrapping_add(1057u64)) as u64) | (((load_8(m, l7.wrapping_add(1063u64)) as u64) << 48) | ((load_16(m, l7.wrapping_add(1061u64)) as u64) << 32)));
l3 = 1u64;
l9 = load_64(m, l7.wrapping_add(1080u64));
l4 = load_64(m, l7.wrapping_add(1072u64));
l18 = load_64(m, l7.wrapping_add(1064u64));
l8 = (load_8(m, l7.wrapping_add(1056u64)) as u32);
break 'b18;
}
if (l2 != 0) { break 'b20; }
'b86: {
l9 = load_64(m, load_64(m, l7.wrapping_add(1240u64)));
if (load_64(m, l9.wrapping_add(16u64)) != 1u64) { break 'b86; }
l13 = load_64(m, l9.wrapping_add(8u64));
let t102 = load_64(m, l13);
l13 = l13.wrapping_add(32u64);
l17 = load_64(m, l13);
if (l3 != t102.wrapping_add(l17)) { break 'b86; }
store_64(m, l13, l17.wrapping_add((l4 << 4)));
}
l4 = l9.wrapping_add(24u64);
let t103 = load_64(m, l4).wrapping_add(0xffffffffffffffffu64);
store_64(m, l4, t103);
}
'b87: {
if (l16 == 0) { break 'b87; }
'b88: {
if (load_64(m, l15.wrapping_add(16u64)) != 1u64) { break 'b88; }
l4 = load_64(m, l15.wrapping_add(8u64));
let t104 = load_64(m, l4);
l4 = l4.wrapping_add(32u64);
l3 = load_64(m, l4);
if (l19 != t104.wrapping_add(l3)) { break 'b88; }
store_64(m, l4, l3.wrapping_add((l16 << 3)));
}
l4 = l15.wrapping_add(24u64);
let t105 = load_64(m, l4).wrapping_add(0xffffffffffffffffu64);
store_64(m, l4, t105);
}
if (l11 == 0) { break 'b19; }
'b89: {
if (load_64(m, l12.wrapping_add(16u64)) != 1u64) { break 'b89; }
l4 = load_64(m, l12.wrapping_add(8u64));
let t106 = load_64(m, l4);
l4 = l4.wrapping_add(32u64);
l3 = load_64(m, l4);
if (l10 != t106.wrapping_add(l3)) { break 'b89; }
store_64(m, l4, l3.wrapping_add(l11));
}
l4 = l12.wrapping_add(24u64);
let t107 = load_64(m, l4).wrapping_add(0xffffffffffffffffu64);
store_64(m, l4, t107);
}
l8 = 0u32;
store_32(m, l7.wrapping_add(863u64), 0u32);
l17 = 0u64;
store_64(m, l7.wrapping_add(856u64), 0u64);
store_64(m, l7.wrapping_add(848u64), 0u64);
l3 = 6u64;
l2 = 1u32;
l18 = 0u64;
l4 = 0u64;
l9 = 0u64;
break 'b17;
}
'b90: {
if (l16 == 0) { break 'b90; }
'b91: {
if (load_64(m, l15.wrapping_add(16u64)) != 1u64) { break 'b91; }
l13 = load_64(m, l15.wrapping_add(8u64));
let t108 = load_64(m, l13);
l13 = l13.wrapping_add(32u64);
l22 = load_64(m, l13);
if (l19 != t108.wrapping_add(l22)) { break 'b91; }
store_64(m, l13, l22.wrapping_add((l16 << 3)));
}
l13 = l15.wrapping_add(24u64);
let t109 = load_64(m, l13).wrapping_add(0xffffffffffffffffu64);
store_64(m, l13, t109);
}
'b92: {
if (l11 == 0) { break 'b92; }
'b93: {
if (load_64(m, l12.wrapping_add(16u64)) != 1u64) { break 'b93; }
l13 = load_64(m, l12.wrapping_add(8u64));
let t110 = load_64(m, l13);
l13 = l13.wrapping_add(32u64);
l15 = load_64(m, l13);
if (l10 != t110.wrapping_add(l15)) { break 'b93; }
store_64(m, l13, l15.wrapping_add(l11));
}
l12 = l12.wrapping_add(24u64);
let t111 = load_64(m, l12).wrapping_add(0xffffffffffffffffu64);
store_64(m, l12, t111);
}
let t112 = load_32(m, l7.wrapping_add(1039u64));
store_32(m, l7.wrapping_add(863u64), t112);
let t113 = load_64(m, l7.wrapping_add(1032u64));
store_64(m, l7.wrapping_add(856u64), t113);
let t114 = load_64(m, l7.wrapping_add(1024u64));
store_64(m, l7.wrapping_add(848u64), t114);
l2 = 0u32;
}
let t115 = load_64(m, l7.wrapping_add(848u64));
store_64(m, l7.wrapping_add(816u64), t115);
let t116 = load_64(m, l7.wrapping_add(856u64));
store_64(m, l7.wrapping_add(824u64), t116);
let t117 = load_32(m, l7.wrapping_add(863u64));
store_32(m, l7.wrapping_add(831u64), t117);
}
let t118 = load_32(m, l7.wrapping_add(831u64));
store_32(m, l7.wrapping_add(807u64), t118);
let t119 = load_64(m, l7.wrapping_add(824u64));
store_64(m, l7.wrapping_add(800u64), t119);
let t120 = load_64(m, l7.wrapping_add(816u64));
store_64(m, l7.wrapping_add(792u64), t120);
'b94: {
'b95: {
if (l2 != 0) { break 'b95; }
'b96: {
'b97: {
l2 = (((l3 & 255u64) == 1u64) as u32);
if (l2 == 0) { break 'b97; }
l19 = ((l17 << 8) | ((l8 as u64) & 255u64));
fill(m, l7.wrapping_add(1400u64), 0u32 as u8, 128u64);
'b98: {
if (l18 == 0) { break 'b98; }
copy(m, l7.wrapping_add(1400u64), l19, l18);
}
store_64(m, l7.wrapping_add(1528u64), l18);
let t121 = load_64(m, l7.wrapping_add(1448u64));
store_64(m, l7.wrapping_add(680u64), t121);
let t122 = load_64(m, l7.wrapping_add(1456u64));
store_64(m, l7.wrapping_add(688u64), t122);
let t123 = load_32(m, l7.wrapping_add(1463u64));
store_32(m, l7.wrapping_add(695u64), t123);
l3 = (load_8(m, l7.wrapping_add(1423u64)) as u64);
l12 = (load_16(m, l7.wrapping_add(1421u64)) as u64);
l14 = (load_8(m, l7.wrapping_add(1400u64)) as u32);
l20 = (load_8(m, l7.wrapping_add(1401u64)) as u32);
l16 = load_64(m, l7.wrapping_add(1408u64));
l8 = (load_8(m, l7.wrapping_add(1416u64)) as u32);
l18 = load_64(m, l7.wrapping_add(1424u64));
l22 = load_64(m, l7.wrapping_add(1432u64));
l15 = load_64(m, l7.wrapping_add(1440u64));
l11 = (load_32(m, l7.wrapping_add(1402u64)) as u64);
l10 = (load_16(m, l7.wrapping_add(1406u64)) as u64);
l13 = (load_32(m, l7.wrapping_add(1417u64)) as u64);
copy(m, l7.wrapping_add(611u64), l7.wrapping_add(1467u64), 69u64);
let t124 = load_64(m, l7.wrapping_add(680u64));
store_64(m, l7.wrapping_add(768u64), t124);
let t125 = load_64(m, l7.wrapping_add(688u64));
store_64(m, l7.wrapping_add(776u64), t125);
let t126 = load_32(m, l7.wrapping_add(695u64));
store_32(m, l7.wrapping_add(783u64), t126);
copy(m, l7.wrapping_add(699u64), l7.wrapping_add(611u64), 69u64);
l17 = (l13 | ((l3 << 48) | (l12 << 32)));
l3 = (l11 | (l10 << 32));
if (l4 == 0) { break 'b96; }
'b99: {
if (load_64(m, l9.wrapping_add(16u64)) != 1u64) { break 'b99; }
l12 = load_64(m, l9.wrapping_add(8u64));
let t127 = load_64(m, l12);
l12 = l12.wrapping_add(32u64);
l11 = load_64(m, l12);
if (t127.wrapping_add(l11) != l19) { break 'b99; }
store_64(m, l12, l11.wrapping_add(l4));
}
l4 = l9.wrapping_add(24u64);
let t128 = load_64(m, l4).wrapping_add(0xffffffffffffffffu64);
store_64(m, l4, t128);
break 'b96;
}
let t129 = load_32(m, l7.wrapping_add(607u64));
store_32(m, l7.wrapping_add(783u64), t129);
let t130 = load_64(m, l7.wrapping_add(600u64));
store_64(m, l7.wrapping_add(776u64), t130);
let t131 = load_64(m, l7.wrapping_add(592u64));
store_64(m, l7.wrapping_add(768u64), t131);
l8 = 0u32;
l14 = 10u32;
l17 = 0u64;
l18 = 0u64;
l22 = 0u64;
l15 = 0u64;
l3 = 0u64;
l20 = 0u32;
l16 = 0u64;
}
let t132 = load_32(m, l7.wrapping_add(783u64));
store_32(m, l7.wrapping_add(551u64), t132);
let t133 = load_64(m, l7.wrapping_add(776u64));
store_64(m, l7.wrapping_add(544u64), t133);
let t134 = load_64(m, l7.wrapping_add(768u64));
store_64(m, l7.wrapping_add(536u64), t134);
copy(m, l7.wrapping_add(467u64), l7.wrapping_add(699u64), 69u64);
l19 = (((((l20 as u64) & 255u64) << 8) | (l3 << 16)) | ((l14 as u64) & 255u64));
break 'b94;
}
let t135 = load_32(m, l7.wrapping_add(807u64));
store_32(m, l7.wrapping_add(551u64), t135);
let t136 = load_64(m, l7.wrapping_add(800u64));
store_64(m, l7.wrapping_add(544u64), t136);
let t137 = load_64(m, l7.wrapping_add(792u64));
store_64(m, l7.wrapping_add(536u64), t137);
l2 = 0u32;
fill(m, l7.wrapping_add(467u64), 0u32 as u8, 69u64);
l16 = (l3 & 255u64);
l19 = 4u64;
l22 = l4;
l15 = l9;
}
'b100: {
if (load_64(m, l7.wrapping_add(440u64)) != 0u64) { break 'b100; }
l12 = load_64(m, l7.wrapping_add(432u64));
if (l12 == 0) { break 'b100; }
l13 = l12.wrapping_add(0xffffffffffffffffu64);
l4 = load_64(m, l7.wrapping_add(416u64));
l9 = load_64(m, l4.wrapping_add(24u64));
l3 = load_64(m, l7.wrapping_add(424u64));
'b101: {
l11 = (l12 & 3u64);
if (l11 == 0) { break 'b101; }
'b102: loop {
l10 = l3;
l3 = load_64(m, l10.wrapping_add(24u64));
l10 = load_64(m, l10);
store_64(m, l4.wrapping_add(16u64), l9);
store_64(m, l4.wrapping_add(8u64), l10);
store_64(m, l4, 1u64);
l12 = l12.wrapping_add(0xffffffffffffffffu64);
l11 = l11.wrapping_add(0xffffffffffffffffu64);
if (l11 != 0u64) { continue 'b102; }
break 'b102;
}
}
if (l13 < 3u64) { break 'b100; }
'b103: loop {
l13 = load_64(m, l3.wrapping_add(24u64));
l3 = load_64(m, l3);
l11 = l4.wrapping_add(16u64);
store_64(m, l11, l9);
l10 = l4.wrapping_add(8u64);
store_64(m, l10, l3);
store_64(m, l4, 1u64);
l3 = load_64(m, l13.wrapping_add(24u64));
l13 = load_64(m, l13);
store_64(m, l11, l9);
store_64(m, l10, l13);
store_64(m, l4, 1u64);
l13 = load_64(m, l3.wrapping_add(24u64));
l3 = load_64(m, l3);
store_64(m, l11, l9);
store_64(m, l10, l3);
store_64(m, l4, 1u64);
l3 = load_64(m, l13.wrapping_add(24u64));
l13 = load_64(m, l13);
store_64(m, l11, l9);
store_64(m, l10, l13);
store_64(m, l4, 1u64);
l12 = l12.wrapping_add(0xfffffffffffffffcu64);
if (l12 != 0u64) { continue 'b103; }
break 'b103;
}
}
'b104: {
if ((load_8(m, l7.wrapping_add(560u64)) as u32) == 1u32) { break 'b104; }
let t138 = load_32(m, l7.wrapping_add(407u64));
store_32(m, l7.wrapping_add(87u64), t138);
let t139 = load_64(m, l7.wrapping_add(400u64));
store_64(m, l7.wrapping_add(80u64), t139);
let t140 = load_64(m, l7.wrapping_add(392u64));
store_64(m, l7.wrapping_add(72u64), t140);
l16 = 6u64;
l8 = 0u32;
l15 = 0u64;
break 'b10;
}
l4 = l7.wrapping_add(568u64);
let t141 = load_64(m, l4.wrapping_add(8u64));
store_64(m, l1.wrapping_add(8u64), t141);
let t142 = load_64(m, l4);
store_64(m, l1, t142);
let t143 = load_64(m, l7.wrapping_add(536u64));
store_64(m, l7.wrapping_add(72u64), t143);
let t144 = load_64(m, l7.wrapping_add(544u64));
store_64(m, l7.wrapping_add(80u64), t144);
let t145 = load_32(m, l7.wrapping_add(551u64));
store_32(m, l7.wrapping_add(87u64), t145);
copy(m, l7.wrapping_add(3u64), l7.wrapping_add(467u64), 69u64);
if (l2 == 0) { break 'b9; }
store_32(m, l7.wrapping_add(233u64), l17 as u32);
store_8(m, l7.wrapping_add(239u64), (l17 >> 48) as u8);
store_16(m, l7.wrapping_add(237u64), (l17 >> 32) as u16);
store_64(m, l7.wrapping_add(256u64), l15);
store_64(m, l7.wrapping_add(248u64), l22);
store_64(m, l7.wrapping_add(240u64), l18);
store_8(m, l7.wrapping_add(232u64), l8 as u8);
store_64(m, l7.wrapping_add(224u64), l16);
store_64(m, l7.wrapping_add(216u64), l19);
let t146 = load_64(m, l7.wrapping_add(72u64));
store_64(m, l7.wrapping_add(264u64), t146);
let t147 = load_64(m, l7.wrapping_add(80u64));
store_64(m, l7.wrapping_add(272u64), t147);
let t148 = load_32(m, l7.wrapping_add(87u64));
store_32(m, l7.wrapping_add(279u64), t148);
let t149 = load_32(m, l7.wrapping_add(3u64));
store_32(m, l7.wrapping_add(283u64), t149);
let t150 = (load_8(m, l7.wrapping_add(7u64)) as u32);
store_8(m, l7.wrapping_add(287u64), t150 as u8);
l4 = load_64(m, l7.wrapping_add(64u64));
store_64(m, l7.wrapping_add(344u64), l4);
let t151 = load_64(m, l7.wrapping_add(56u64));
store_64(m, l7.wrapping_add(336u64), t151);
let t152 = load_64(m, l7.wrapping_add(48u64));
store_64(m, l7.wrapping_add(328u64), t152);
let t153 = load_64(m, l7.wrapping_add(40u64));
store_64(m, l7.wrapping_add(320u64), t153);
let t154 = load_64(m, l7.wrapping_add(32u64));
store_64(m, l7.wrapping_add(312u64), t154);
let t155 = load_64(m, l7.wrapping_add(24u64));
store_64(m, l7.wrapping_add(304u64), t155);
let t156 = load_64(m, l7.wrapping_add(16u64));
store_64(m, l7.wrapping_add(296u64), t156);
let t157 = load_64(m, l7.wrapping_add(8u64));
store_64(m, l7.wrapping_add(288u64), t157);
'b105: {
'b106: {
if (l6 >= l4) { break 'b106; }
store_32(m, l7.wrapping_add(383u64), 0u32);
store_64(m, l7.wrapping_add(376u64), 0u64);
store_64(m, l7.wrapping_add(368u64), 0u64);
l4 = 11u64;
l3 = 1u64;
break 'b105;
}
'b107: {
if (l4 == 0) { break 'b107; }
copy(m, l5, l7.wrapping_add(216u64), l4);
}
store_32(m, l7.wrapping_add(383u64), 0u32);
l3 = 0u64;
store_64(m, l7.wrapping_add(376u64), 0u64);
store_64(m, l7.wrapping_add(368u64), 0u64);
}
store_64(m, l0, l3);
store_64(m, l0.wrapping_add(16u64), 0u64);
store_64(m, l0.wrapping_add(8u64), l4);
store_64(m, l0.wrapping_add(24u64), 0u64);
store_64(m, l0.wrapping_add(32u64), 0u64);
store_64(m, l0.wrapping_add(40u64), 0u64);
store_64(m, l0.wrapping_add(48u64), 0u64);
let t158 = load_64(m, l7.wrapping_add(368u64));
store_64(m, l0.wrapping_add(56u64), t158);
let t159 = load_64(m, l7.wrapping_add(376u64));
store_64(m, l0.wrapping_add(64u64), t159);
let t160 = load_32(m, l7.wrapping_add(383u64));
store_32(m, l0.wrapping_add(71u64), t160);
break 'b1;
}
l19 = 4u64;
l22 = 0u64;
l18 = 0u64;
l17 = 0u64;
}
store_64(m, l0, 1u64);
store_8(m, l0.wrapping_add(31u64), (l17 >> 48) as u8);
store_16(m, l0.wrapping_add(29u64), (l17 >> 32) as u16);
store_32(m, l0.wrapping_add(25u64), l17 as u32);
store_64(m, l0.wrapping_add(48u64), l15);
store_64(m, l0.wrapping_add(40u64), l22);
store_64(m, l0.wrapping_add(32u64), l18);
l4 = (l16 & 255u64);
store_64(m, l0.wrapping_add(16u64), l4);
store_64(m, l0.wrapping_add(8u64), (l19 & 65535u64));
let t161 = load_64(m, l7.wrapping_add(72u64));
store_64(m, l0.wrapping_add(56u64), t161);
let t162 = load_64(m, l7.wrapping_add(80u64));
store_64(m, l0.wrapping_add(64u64), t162);
let t163 = load_32(m, l7.wrapping_add(87u64));
store_32(m, l0.wrapping_add(71u64), t163);
store_8(m, l7.wrapping_add(208u64), l8 as u8);
store_8(m, l0.wrapping_add(24u64), (l8 as u64) as u8);
store_64(m, l7.wrapping_add(200u64), l4);
}
g = l7.wrapping_add(2320u64);
}

// codex32::damaged::damaged_parts
fn f34(m: &mut [u8], mut g: u64, mut l0: u64, mut l1: u32, mut l2: u64, mut l3: u64) {
let mut l4: u64 = 0;
let mut l5: u64 = 0;
let mut l6: u64 = 0;
let mut l7: u64 = 0;
let mut l8: u64 = 0;
let mut l9: u64 = 0;
let mut l10: u64 = 0;
let mut l11: u64 = 0;
let mut l12: u64 = 0;
let mut l13: u32 = 0;
let mut l14: u64 = 0;
let mut l15: u32 = 0;
let mut l16: u32 = 0;
let mut l17: u32 = 0;
l4 = g.wrapping_sub(96u64);
g = l4;
'b1: {
'b2: {
'b3: {
'b4: {
{
l5 = l4;
l4 = 0u64;
store_64(m, l5.wrapping_add(88u64), 0u64);
store_64(m, l5.wrapping_add(80u64), 0u64);
store_64(m, l5.wrapping_add(72u64), 0u64);
store_64(m, l5.wrapping_add(64u64), 0u64);
store_64(m, l5.wrapping_add(56u64), 0u64);
store_64(m, l5.wrapping_add(48u64), 0u64);
store_64(m, l5.wrapping_add(40u64), 0u64);
store_64(m, l5.wrapping_add(32u64), 0u64);
l6 = l2;
'b6: {
'b7: {
'b8: loop {
if (l3 == l4) { break 'b7; }
l4 = l4.wrapping_add(1u64);
l6 = l6.wrapping_add(0xffffffffffffffffu64);
l7 = l6.wrapping_add(l3);
let t1 = (load_8(m, l7) as u32);
let t2 = f46(m, g, t1);
if (t2 == 0) { continue 'b8; }
break 'b8;
}
l8 = l3.wrapping_sub(l4);
l9 = l3.wrapping_add(0xfffffffffffffffeu64);
l10 = l7.wrapping_add(1u64);
l11 = l4.wrapping_add(0xffffffffffffffffu64);
l6 = l11;
'b9: {
'b10: {
'b11: loop {
if (l6 == 0) { break 'b10; }
'b12: {
'b13: {
l12 = l7.wrapping_add(l6);
l13 = (load_8(m, l12) as i8 as i32 as u32);
if ((l13 as i32) < (0u32 as i32)) { break 'b13; }
l6 = l6.wrapping_add(0xffffffffffffffffu64);
break 'b12;
}
l14 = 0xfffffffffffffffeu64;
'b14: {
if ((load_8(m, l12.wrapping_add(0xffffffffffffffffu64)) as u32) > 191u32) { break 'b14; }
l14 = (if ((load_8(m, l12.wrapping_add(0xfffffffffffffffeu64)) as u32) > 191u32) { 0xfffffffffffffffdu64 } else { 0xfffffffffffffffcu64 });
}
l6 = l14.wrapping_add(l6);
l12 = l7.wrapping_add(l6);
l15 = (load_8(m, l12.wrapping_add(1u64)) as i8 as i32 as u32);
l13 = (l15 & 255u32);
if ((l15 as i32) > (0xffffffffu32 as i32)) { break 'b12; }
l16 = ((load_8(m, l12.wrapping_add(2u64)) as u32) & 63u32);
'b15: {
if (l15 > 0xffffffdfu32) { break 'b15; }
l13 = (((l13 << 6) & 1984u32) | l16);
break 'b12;
}
l17 = ((load_8(m, l12.wrapping_add(3u64)) as u32) & 63u32);
'b16: {
if (l15 > 0xffffffefu32) { break 'b16; }
l13 = (((l16 << 6) | ((l13 << 12) & 61440u32)) | l17);
break 'b12;
}
l13 = (((l17 << 6) | ((l16 << 12) | ((l13 << 18) & 0x1c0000u32))) | ((load_8(m, l12.wrapping_add(4u64)) as u32) & 63u32));
}
let t3 = f47(m, g, l13);
if (t3 != 0) { continue 'b11; }
break 'b11;
}
l4 = 0u64;
l7 = 0x200000000u64;
l6 = 0u64;
break 'b9;
}
l6 = 0u64;
l13 = 0u32;
'b17: {
let t4 = f15(m, g, l2, l3);
if (t4 == 0) { break 'b17; }
l7 = 0x300000000u64;
l4 = 0u64;
break 'b9;
}
l7 = 1u64;
'b18: {
if (l3 != l4) { break 'b18; }
l13 = 1u32;
l4 = 0u64;
break 'b9;
}
'b19: {
if (l8 <= 83u64) { break 'b19; }
l4 = 0u64;
l6 = l8;
break 'b9;
}
let t5 = f19(m, g, l2, l8);
l12 = t5;
if (l3.wrapping_sub(l12) == l4) { break 'b6; }
l4 = l2.wrapping_add(l12);
l13 = (load_8(m, l4) as i8 as i32 as u32);
l15 = (l13 & 255u32);
'b20: {
if ((l13 as i32) > (0xffffffffu32 as i32)) { break 'b20; }
l16 = ((load_8(m, l4.wrapping_add(1u64)) as u32) & 63u32);
'b21: {
if (l13 > 0xffffffdfu32) { break 'b21; }
l15 = (((l15 << 6) & 1984u32) | l16);
break 'b20;
}
l17 = ((load_8(m, l4.wrapping_add(2u64)) as u32) & 63u32);
'b22: {
if (l13 > 0xffffffefu32) { break 'b22; }
l15 = (((l16 << 6) | ((l15 << 12) & 61440u32)) | l17);
break 'b20;
}
l15 = (((l17 << 6) | ((l16 << 12) | ((l15 << 18) & 0x1c0000u32))) | ((load_8(m, l4.wrapping_add(3u64)) as u32) & 63u32));
}
l16 = ((l15 < 128u32) as u32);
l13 = (if (l16 != 0) { (((l15 << 8) & 65280u32) | 3u32) } else { 2u32 });
l4 = (((if (l16 != 0) { 0u32 } else { l15 }) as u64) << 32);
}
store_64(m, l0, 1u64);
store_64(m, l0.wrapping_add(40u64), 0u64);
store_64(m, l0.wrapping_add(32u64), l6);
store_64(m, l0.wrapping_add(16u64), l7);
store_64(m, l0.wrapping_add(8u64), 0u64);
store_64(m, l0.wrapping_add(48u64), 0u64);
store_64(m, l0.wrapping_add(56u64), 0u64);
store_32(m, l0.wrapping_add(63u64), 0u32);
store_64(m, l0.wrapping_add(24u64), (l4 | (l13 as u64)));
break 'b1;
}
f48(m, g, l5.wrapping_add(32u64), l1, l2, l3);
store_64(m, l0, 1u64);
let t6 = load_64(m, l5.wrapping_add(56u64));
store_64(m, l0.wrapping_add(32u64), t6);
let t7 = load_64(m, l5.wrapping_add(48u64));
store_64(m, l0.wrapping_add(24u64), t7);
let t8 = load_64(m, l5.wrapping_add(40u64));
store_64(m, l0.wrapping_add(16u64), t8);
let t9 = (load_8(m, l5.wrapping_add(32u64)) as u64);
store_64(m, l0.wrapping_add(8u64), t9);
let t10 = load_64(m, l5.wrapping_add(64u64));
store_64(m, l0.wrapping_add(40u64), t10);
let t11 = load_64(m, l5.wrapping_add(72u64));
store_64(m, l0.wrapping_add(48u64), t11);
let t12 = load_64(m, l5.wrapping_add(80u64));
store_64(m, l0.wrapping_add(56u64), t12);
let t13 = load_32(m, l5.wrapping_add(87u64));
store_32(m, l0.wrapping_add(63u64), t13);
break 'b1;
}
'b23: {
'b24: {
if ((l1 & 255u32) == 0) { break 'b24; }
if (l3.wrapping_add(0xffffffffffffff83u64) >= 3u64) { break 'b23; }
break 'b4;
}
if (l3.wrapping_add(0xffffffffffffffd0u64) < 46u64) { break 'b4; }
}
store_32(m, l5.wrapping_add(23u64), 0u32);
store_64(m, l5.wrapping_add(16u64), 0u64);
store_64(m, l5.wrapping_add(8u64), 0u64);
store_64(m, l5, 0u64);
l4 = 1u64;
break 'b3;
}
}
'b25: {
if (l9 != l4) { break 'b25; }
l13 = (load_8(m, l2) as u32);
if (((if ((l13.wrapping_add(0xffffffbfu32) & 255u32) < 26u32) { l13.wrapping_add(32u32) } else { l13 }) & 255u32) != 109u32) { break 'b25; }
l13 = (load_8(m, l2.wrapping_add(1u64)) as u32);
if (((if ((l13.wrapping_add(0xffffffbfu32) & 255u32) < 26u32) { l13.wrapping_add(32u32) } else { l13 }) & 255u32) == 115u32) { break 'b2; }
}
store_32(m, l5.wrapping_add(23u64), 0u32);
store_64(m, l5.wrapping_add(16u64), 0u64);
store_64(m, l5.wrapping_add(8u64), 0u64);
store_64(m, l5, 0u64);
l4 = 2u64;
}
store_64(m, l0, 1u64);
store_64(m, l0.wrapping_add(16u64), 0u64);
store_64(m, l0.wrapping_add(8u64), l4);
store_64(m, l0.wrapping_add(24u64), 0u64);
store_64(m, l0.wrapping_add(32u64), 0u64);
let t14 = load_64(m, l5);
store_64(m, l0.wrapping_add(40u64), t14);
let t15 = load_64(m, l5.wrapping_add(8u64));
store_64(m, l0.wrapping_add(48u64), t15);
let t16 = load_64(m, l5.wrapping_add(16u64));
store_64(m, l0.wrapping_add(56u64), t16);
let t17 = load_32(m, l5.wrapping_add(23u64));
store_32(m, l0.wrapping_add(63u64), t17);
break 'b1;
}
store_64(m, l0, 0u64);
store_64(m, l0.wrapping_add(40u64), 0u64);
store_64(m, l0.wrapping_add(32u64), l11);
store_64(m, l0.wrapping_add(24u64), l10);
store_64(m, l0.wrapping_add(16u64), 2u64);
store_64(m, l0.wrapping_add(8u64), l2);
store_64(m, l0.wrapping_add(48u64), 0u64);
store_64(m, l0.wrapping_add(56u64), 0u64);
store_32(m, l0.wrapping_add(63u64), 0u32);
}
g = l5.wrapping_add(96u64);
}

// codex32::unreadable::read_in::<#5cbb2588ac938988>
fn f35(m: &mut [u8], mut g: u64, mut l0: u64, mut l1: u64, mut l2: u64, mut l3: u64) {
let mut l4: u64 = 0;
let mut l5: u64 = 0;
let mut l6: u64 = 0;
let mut l7: u64 = 0;
let mut l8: u32 = 0;
let mut l9: u32 = 0;
l4 = g.wrapping_sub(112u64);
g = l4;
'b1: {
{
store_64(m, l4.wrapping_add(80u64), 0u64);
store_64(m, l4.wrapping_add(88u64), 0u64);
store_64(m, l4.wrapping_add(96u64), l1);
store_64(m, l4.wrapping_add(72u64), l4.wrapping_add(111u64));
'b3: {
'b4: {
if (l3 == 0) { break 'b4; }
'b5: {
let t1 = f50(m, g, l4.wrapping_add(72u64), l3);
if (t1 != 0) { break 'b5; }
'b6: {
l2 = load_64(m, l4.wrapping_add(88u64));
if (l2 == 0) { break 'b6; }
'b7: {
l1 = load_64(m, l4.wrapping_add(96u64));
if (load_64(m, l1.wrapping_add(16u64)) != 1u64) { break 'b7; }
l3 = load_64(m, l1.wrapping_add(8u64));
let t2 = load_64(m, l3);
l3 = l3.wrapping_add(32u64);
l5 = load_64(m, l3);
if (load_64(m, l4.wrapping_add(72u64)) != t2.wrapping_add(l5)) { break 'b7; }
store_64(m, l3, l5.wrapping_add(l2));
}
l1 = l1.wrapping_add(24u64);
let t3 = load_64(m, l1).wrapping_add(0xffffffffffffffffu64);
store_64(m, l1, t3);
}
store_8(m, l0, 1u32 as u8);
store_64(m, l0.wrapping_add(8u64), 0u64);
store_64(m, l0.wrapping_add(16u64), 0u64);
store_64(m, l0.wrapping_add(24u64), 0u64);
store_64(m, l0.wrapping_add(32u64), 0u64);
break 'b1;
}
l5 = load_64(m, l4.wrapping_add(96u64));
store_64(m, l4.wrapping_add(32u64), l5);
l6 = load_64(m, l4.wrapping_add(88u64));
store_64(m, l4.wrapping_add(24u64), l6);
l1 = load_64(m, l4.wrapping_add(80u64));
store_64(m, l4.wrapping_add(16u64), l1);
l7 = load_64(m, l4.wrapping_add(72u64));
store_64(m, l4.wrapping_add(8u64), l7);
store_64(m, l4.wrapping_add(40u64), l7);
store_64(m, l4.wrapping_add(48u64), l1);
store_64(m, l4.wrapping_add(56u64), l6);
store_64(m, l4.wrapping_add(64u64), l5);
'b8: {
'b9: loop {
l8 = (load_8(m, l2) as u32);
let t4 = f49(m, g, l8);
l9 = t4;
'b10: {
if (load_64(m, l4.wrapping_add(56u64)) != l1) { break 'b10; }
let t5 = f51(m, g, l4.wrapping_add(40u64));
if (t5 == 0) { break 'b8; }
l1 = load_64(m, l4.wrapping_add(48u64));
}
let t6 = load_64(m, l4.wrapping_add(40u64)).wrapping_add(l1);
store_8(m, t6, (if (l9 != 0) { 48u32 } else { l8 }) as u8);
l1 = l1.wrapping_add(1u64);
store_64(m, l4.wrapping_add(48u64), l1);
l2 = l2.wrapping_add(1u64);
l3 = l3.wrapping_add(0xffffffffffffffffu64);
if !(l3 == 0) { continue 'b9; }
break 'b3;
}
}
'b11: {
l2 = load_64(m, l4.wrapping_add(56u64));
if (l2 == 0) { break 'b11; }
'b12: {
l1 = load_64(m, l4.wrapping_add(64u64));
if (load_64(m, l1.wrapping_add(16u64)) != 1u64) { break 'b12; }
l3 = load_64(m, l1.wrapping_add(8u64));
let t7 = load_64(m, l3);
l3 = l3.wrapping_add(32u64);
l5 = load_64(m, l3);
if (load_64(m, l4.wrapping_add(40u64)) != t7.wrapping_add(l5)) { break 'b12; }
store_64(m, l3, l5.wrapping_add(l2));
}
l1 = l1.wrapping_add(24u64);
let t8 = load_64(m, l1).wrapping_add(0xffffffffffffffffu64);
store_64(m, l1, t8);
}
store_8(m, l0, 1u32 as u8);
store_64(m, l0.wrapping_add(8u64), 0u64);
store_64(m, l0.wrapping_add(16u64), 0u64);
store_64(m, l0.wrapping_add(24u64), 0u64);
store_64(m, l0.wrapping_add(32u64), 0u64);
break 'b1;
}
l1 = load_64(m, l4.wrapping_add(96u64));
store_64(m, l4.wrapping_add(32u64), l1);
l2 = load_64(m, l4.wrapping_add(88u64));
store_64(m, l4.wrapping_add(24u64), l2);
l3 = load_64(m, l4.wrapping_add(80u64));
store_64(m, l4.wrapping_add(16u64), l3);
l5 = load_64(m, l4.wrapping_add(72u64));
store_64(m, l4.wrapping_add(8u64), l5);
store_64(m, l4.wrapping_add(40u64), l5);
store_64(m, l4.wrapping_add(48u64), l3);
store_64(m, l4.wrapping_add(56u64), l2);
store_64(m, l4.wrapping_add(64u64), l1);
}
store_8(m, l0, 0u32 as u8);
let t9 = load_64(m, l4.wrapping_add(40u64));
store_64(m, l0.wrapping_add(8u64), t9);
let t10 = load_64(m, l4.wrapping_add(48u64));
store_64(m, l0.wrapping_add(16u64), t10);
let t11 = load_64(m, l4.wrapping_add(56u64));
store_64(m, l0.wrapping_add(24u64), t11);
let t12 = load_64(m, l4.wrapping_add(64u64));
store_64(m, l0.wrapping_add(32u64), t12);
break 'b1;
}
}
g = l4.wrapping_add(112u64);
}

// codex32::unreadable::unreadable_in::<#5cbb2588ac938988>
fn f36(m: &mut [u8], mut g: u64, mut l0: u64, mut l1: u64, mut l2: u64, mut l3: u64) {
let mut l4: u64 = 0;
let mut l5: u64 = 0;
l4 = g.wrapping_sub(48u64);
g = l4;
{
store_64(m, l4.wrapping_add(16u64), 0u64);
store_64(m, l4.wrapping_add(24u64), 0u64);
store_64(m, l4.wrapping_add(32u64), l1);
store_64(m, l4.wrapping_add(8u64), l4.wrapping_add(40u64));
'b2: {
'b3: {
if (l3 == 0) { break 'b3; }
l3 = l3.wrapping_add(0xffffffffffffffffu64);
l5 = l4.wrapping_add(40u64);
'b4: loop {
'b5: {
let t1 = (load_8(m, l2) as u32);
let t2 = f49(m, g, t1);
if (t2 == 0) { break 'b5; }
'b6: {
'b7: {
l1 = load_64(m, l4.wrapping_add(16u64));
if (load_64(m, l4.wrapping_add(24u64)) != l1) { break 'b7; }
let t3 = f53(m, g, l4.wrapping_add(8u64));
if (t3 == 0) { break 'b6; }
l5 = load_64(m, l4.wrapping_add(8u64));
l1 = load_64(m, l4.wrapping_add(16u64));
}
store_64(m, l5.wrapping_add((l1 << 3)), l3);
store_64(m, l4.wrapping_add(16u64), l1.wrapping_add(1u64));
break 'b5;
}
'b8: {
l3 = load_64(m, l4.wrapping_add(24u64));
if (l3 == 0) { break 'b8; }
'b9: {
l2 = load_64(m, l4.wrapping_add(32u64));
if (load_64(m, l2.wrapping_add(16u64)) != 1u64) { break 'b9; }
l1 = load_64(m, l2.wrapping_add(8u64));
let t4 = load_64(m, l1);
l1 = l1.wrapping_add(32u64);
l5 = load_64(m, l1);
if (load_64(m, l4.wrapping_add(8u64)) != t4.wrapping_add(l5)) { break 'b9; }
store_64(m, l1, l5.wrapping_add((l3 << 3)));
}
l2 = l2.wrapping_add(24u64);
let t5 = load_64(m, l2).wrapping_add(0xffffffffffffffffu64);
store_64(m, l2, t5);
}
store_8(m, l0, 1u32 as u8);
store_64(m, l0.wrapping_add(8u64), 0u64);
store_64(m, l0.wrapping_add(16u64), 0u64);
store_64(m, l0.wrapping_add(24u64), 0u64);
store_64(m, l0.wrapping_add(32u64), 0u64);
break 'b2;
}
l2 = l2.wrapping_add(1u64);
l3 = l3.wrapping_add(0xffffffffffffffffu64);
if (l3 != 0xffffffffffffffffu64) { continue 'b4; }
break 'b4;
}
}
store_8(m, l0, 0u32 as u8);
let t6 = load_64(m, l4.wrapping_add(8u64));
store_64(m, l0.wrapping_add(8u64), t6);
let t7 = load_64(m, l4.wrapping_add(16u64));
store_64(m, l0.wrapping_add(16u64), t7);
let t8 = load_64(m, l4.wrapping_add(24u64));
store_64(m, l0.wrapping_add(24u64), t8);
let t9 = load_64(m, l4.wrapping_add(32u64));
store_64(m, l0.wrapping_add(32u64), t9);
}
g = l4.wrapping_add(48u64);
return;
}
}

// codex32_steady::texts::residue::put_error_residue
fn f37(m: &mut [u8], mut g: u64, mut l0: u64, mut l1: u64) {
let mut l2: u32 = 0;
let mut l3: u32 = 0;
let mut l4: u32 = 0;
let mut l5: u32 = 0;
let mut l6: u32 = 0;
let mut l7: u32 = 0;
let mut l8: u32 = 0;
let mut l9: u32 = 0;
let mut l10: u32 = 0;
let mut l11: u32 = 0;
let mut l12: u32 = 0;
let mut l13: u32 = 0;
let mut l14: u32 = 0;
let mut l15: u32 = 0;
let mut l16: u32 = 0;
let mut l17: u32 = 0;
let mut l18: u32 = 0;
let mut l19: u32 = 0;
let mut l20: u32 = 0;
let mut l21: u32 = 0;
let mut l22: u32 = 0;
let mut l23: u32 = 0;
let mut l24: u32 = 0;
let mut l25: u32 = 0;
let mut l26: u32 = 0;
let mut l27: u32 = 0;
let mut l28: u32 = 0;
let mut l29: u32 = 0;
let mut l30: u32 = 0;
let mut l31: u32 = 0;
let mut l32: u32 = 0;
let mut l33: u32 = 0;
let mut l34: u32 = 0;
let mut l35: u32 = 0;
let mut l36: u32 = 0;
let mut l37: u32 = 0;
let mut l38: u32 = 0;
let mut l39: u32 = 0;
let mut l40: u32 = 0;
let mut l41: u32 = 0;
let mut l42: u32 = 0;
let mut l43: u32 = 0;
let mut l44: u32 = 0;
let mut l45: u32 = 0;
let mut l46: u32 = 0;
let mut l47: u32 = 0;
let mut l48: u32 = 0;
let mut l49: u32 = 0;
{
l2 = (load_8(m, l1.wrapping_add(25u64)) as u32);
l3 = (load_8(m, l1.wrapping_add(26u64)) as u32);
l4 = (load_8(m, l1.wrapping_add(27u64)) as u32);
l5 = (load_8(m, l1.wrapping_add(28u64)) as u32);
l6 = (load_8(m, l1.wrapping_add(29u64)) as u32);
l7 = (load_8(m, l1.wrapping_add(30u64)) as u32);
l8 = (load_8(m, l1.wrapping_add(31u64)) as u32);
l9 = (load_8(m, l1.wrapping_add(32u64)) as u32);
l10 = (load_8(m, l1.wrapping_add(33u64)) as u32);
l11 = (load_8(m, l1.wrapping_add(34u64)) as u32);
l12 = (load_8(m, l1.wrapping_add(35u64)) as u32);
l13 = (load_8(m, l1.wrapping_add(36u64)) as u32);
l14 = (load_8(m, l1.wrapping_add(37u64)) as u32);
l15 = (load_8(m, l1.wrapping_add(38u64)) as u32);
l16 = (load_8(m, l1.wrapping_add(39u64)) as u32);
l17 = (load_8(m, l1.wrapping_add(40u64)) as u32);
l18 = (load_8(m, l1.wrapping_add(41u64)) as u32);
l19 = (load_8(m, l1.wrapping_add(42u64)) as u32);
l20 = (load_8(m, l1.wrapping_add(43u64)) as u32);
l21 = (load_8(m, l1.wrapping_add(44u64)) as u32);
l22 = (load_8(m, l1.wrapping_add(45u64)) as u32);
l23 = (load_8(m, l1.wrapping_add(46u64)) as u32);
l24 = (load_8(m, l1.wrapping_add(47u64)) as u32);
l25 = (load_8(m, l1.wrapping_add(48u64)) as u32);
l26 = (load_8(m, l1) as u32);
l27 = (load_8(m, l1.wrapping_add(1u64)) as u32);
l28 = (load_8(m, l1.wrapping_add(2u64)) as u32);
l29 = (load_8(m, l1.wrapping_add(3u64)) as u32);
l30 = (load_8(m, l1.wrapping_add(4u64)) as u32);
l31 = (load_8(m, l1.wrapping_add(5u64)) as u32);
l32 = (load_8(m, l1.wrapping_add(6u64)) as u32);
l33 = (load_8(m, l1.wrapping_add(7u64)) as u32);
l34 = (load_8(m, l1.wrapping_add(8u64)) as u32);
l35 = (load_8(m, l1.wrapping_add(9u64)) as u32);
l36 = (load_8(m, l1.wrapping_add(10u64)) as u32);
l37 = (load_8(m, l1.wrapping_add(11u64)) as u32);
l38 = (load_8(m, l1.wrapping_add(12u64)) as u32);
l39 = (load_8(m, l1.wrapping_add(13u64)) as u32);
l40 = (load_8(m, l1.wrapping_add(14u64)) as u32);
l41 = (load_8(m, l1.wrapping_add(15u64)) as u32);
l42 = (load_8(m, l1.wrapping_add(16u64)) as u32);
l43 = (load_8(m, l1.wrapping_add(17u64)) as u32);
l44 = (load_8(m, l1.wrapping_add(18u64)) as u32);
l45 = (load_8(m, l1.wrapping_add(19u64)) as u32);
l46 = (load_8(m, l1.wrapping_add(20u64)) as u32);
l47 = (load_8(m, l1.wrapping_add(21u64)) as u32);
l48 = (load_8(m, l1.wrapping_add(22u64)) as u32);
l49 = (load_8(m, l1.wrapping_add(23u64)) as u32);
let t1 = ((load_8(m, l1.wrapping_add(49u64)) as u32) ^ (load_8(m, l1.wrapping_add(24u64)) as u32));
store_8(m, l0.wrapping_add(24u64), t1 as u8);
store_8(m, l0.wrapping_add(23u64), (l25 ^ l49) as u8);
store_8(m, l0.wrapping_add(22u64), (l24 ^ l48) as u8);
store_8(m, l0.wrapping_add(21u64), (l23 ^ l47) as u8);
store_8(m, l0.wrapping_add(20u64), (l22 ^ l46) as u8);
store_8(m, l0.wrapping_add(19u64), (l21 ^ l45) as u8);
store_8(m, l0.wrapping_add(18u64), (l20 ^ l44) as u8);
store_8(m, l0.wrapping_add(17u64), (l19 ^ l43) as u8);
store_8(m, l0.wrapping_add(16u64), (l18 ^ l42) as u8);
store_8(m, l0.wrapping_add(15u64), (l17 ^ l41) as u8);
store_8(m, l0.wrapping_add(14u64), (l16 ^ l40) as u8);
store_8(m, l0.wrapping_add(13u64), (l15 ^ l39) as u8);
store_8(m, l0.wrapping_add(12u64), (l14 ^ l38) as u8);
store_8(m, l0.wrapping_add(11u64), (l13 ^ l37) as u8);
store_8(m, l0.wrapping_add(10u64), (l12 ^ l36) as u8);
store_8(m, l0.wrapping_add(9u64), (l11 ^ l35) as u8);
store_8(m, l0.wrapping_add(8u64), (l10 ^ l34) as u8);
store_8(m, l0.wrapping_add(7u64), (l9 ^ l33) as u8);
store_8(m, l0.wrapping_add(6u64), (l8 ^ l32) as u8);
store_8(m, l0.wrapping_add(5u64), (l7 ^ l31) as u8);
store_8(m, l0.wrapping_add(4u64), (l6 ^ l30) as u8);
store_8(m, l0.wrapping_add(3u64), (l5 ^ l29) as u8);
store_8(m, l0.wrapping_add(2u64), (l4 ^ l28) as u8);
store_8(m, l0.wrapping_add(1u64), (l3 ^ l27) as u8);
store_8(m, l0, (l2 ^ l26) as u8);
return;
}
}

// bech32_correction::erasures::distinct_below::<#d5da2a0e529987d8>
fn f38(m: &mut [u8], mut g: u64, mut l0: u64, mut l1: u64, mut l2: u64, mut l3: u64, mut l4: u64) {
let mut l5: u64 = 0;
let mut l6: u64 = 0;
let mut l7: u64 = 0;
let mut l8: u64 = 0;
let mut l9: u64 = 0;
let mut l10: u32 = 0;
let mut l11: u64 = 0;
let mut l12: u64 = 0;
let mut l13: u64 = 0;
let mut l14: u32 = 0;
let mut l15: u64 = 0;
l5 = g.wrapping_sub(144u64);
g = l5;
'b1: {
{
l6 = l5;
l5 = l2;
l7 = l3;
'b3: {
if !(l3 == 0) { break 'b3; }
store_8(m, l0, 0u32 as u8);
store_64(m, l0.wrapping_add(8u64), 1u64);
fill(m, l0.wrapping_add(16u64), 0u32 as u8, 72u64);
store_64(m, l0.wrapping_add(88u64), l1);
break 'b1;
}
'b4: {
'b5: {
'b6: loop {
if (l4 <= load_64(m, l5)) { break 'b5; }
l5 = l5.wrapping_add(8u64);
l7 = l7.wrapping_add(0xffffffffffffffffu64);
if (l7 == 0) { break 'b4; }
continue 'b6;
}
}
store_8(m, l0, 0u32 as u8);
fill(m, l0.wrapping_add(8u64), 0u32 as u8, 88u64);
break 'b1;
}
fill(m, l6.wrapping_add(64u64), 0u32 as u8, 72u64);
store_64(m, l6.wrapping_add(136u64), l1);
l8 = l6.wrapping_add(64u64).wrapping_add(8u64);
l9 = 0u64;
'b7: {
'b8: loop {
l7 = load_64(m, l2.wrapping_add((l9 << 3)));
'b9: {
'b10: {
'b11: {
'b12: {
l10 = (load_8(m, l6.wrapping_add(64u64)) as u32);
l11 = load_64(m, (if (l10 != 0) { l6.wrapping_add(80u64) } else { l6.wrapping_add(128u64) }));
if (l11 == 0) { break 'b12; }
l12 = load_64(m, l6.wrapping_add(72u64));
l13 = (if (l10 != 0) { l12 } else { l8 });
l4 = (l11 & 3u64);
l14 = 0u32;
l1 = l11;
'b13: {
'b14: {
if (l11 < 4u64) { break 'b14; }
l15 = (l11 & 0xfffffffffffffffcu64);
l5 = l13.wrapping_add((l11 << 3)).wrapping_add(0xffffffffffffffe0u64);
l14 = 0u32;
l1 = l11;
'b15: loop {
l14 = ((((l7 == load_64(m, l5)) as u32) | (((l7 == load_64(m, l5.wrapping_add(8u64))) as u32) | (((l7 == load_64(m, l5.wrapping_add(16u64))) as u32) | ((l7 == load_64(m, l5.wrapping_add(24u64))) as u32)))) | l14);
l5 = l5.wrapping_add(0xffffffffffffffe0u64);
l1 = l1.wrapping_add(0xfffffffffffffffcu64);
l15 = l15.wrapping_add(0xfffffffffffffffcu64);
if (l15 != 0u64) { continue 'b15; }
break 'b15;
}
if (l4 == 0) { break 'b13; }
}
l5 = l13.wrapping_add((l1 << 3)).wrapping_add(0xfffffffffffffff8u64);
'b16: loop {
l14 = (((l7 == load_64(m, l5)) as u32) | l14);
l5 = l5.wrapping_add(0xfffffffffffffff8u64);
l4 = l4.wrapping_add(0xffffffffffffffffu64);
if (l4 != 0u64) { continue 'b16; }
break 'b16;
}
}
if ((l14 & 1u32) != 0) { break 'b9; }
l5 = load_64(m, l6.wrapping_add(88u64));
if (l11 != 8u64) { break 'b11; }
'b17: {
if (l10 != 1u32) { break 'b17; }
if (l5 == 0) { break 'b17; }
'b18: {
l7 = load_64(m, load_64(m, l6.wrapping_add(96u64)));
if (load_64(m, l7.wrapping_add(16u64)) != 1u64) { break 'b18; }
l4 = load_64(m, l7.wrapping_add(8u64));
let t1 = load_64(m, l4);
l4 = l4.wrapping_add(32u64);
l1 = load_64(m, l4);
if (l12 != t1.wrapping_add(l1)) { break 'b18; }
store_64(m, l4, l1.wrapping_add((l5 << 3)));
}
l5 = l7.wrapping_add(24u64);
let t2 = load_64(m, l5).wrapping_add(0xffffffffffffffffu64);
store_64(m, l5, t2);
}
l5 = 0u64;
store_64(m, l6.wrapping_add(56u64), 0u64);
store_64(m, l6.wrapping_add(48u64), 0u64);
store_64(m, l6.wrapping_add(40u64), 0u64);
store_64(m, l6.wrapping_add(32u64), 0u64);
store_64(m, l6.wrapping_add(24u64), 0u64);
store_64(m, l6.wrapping_add(16u64), 0u64);
store_64(m, l6.wrapping_add(8u64), 0u64);
store_64(m, l6, 0u64);
l14 = 0u32;
break 'b10;
}
l5 = load_64(m, l6.wrapping_add(88u64));
}
'b19: {
'b20: {
if (l11 != (if (l10 != 0) { l5 } else { 7u64 })) { break 'b20; }
let t3 = f55(m, g, l6.wrapping_add(64u64));
l14 = t3;
l10 = (load_8(m, l6.wrapping_add(64u64)) as u32);
if ((l14 & 255u32) != 0) { break 'b19; }
}
'b21: {
if ((l10 & 255u32) != 0) { break 'b21; }
l5 = load_64(m, l6.wrapping_add(128u64));
store_64(m, l8.wrapping_add((l5 << 3)), l7);
store_64(m, l6.wrapping_add(128u64), l5.wrapping_add(1u64));
break 'b9;
}
l5 = load_64(m, l6.wrapping_add(80u64));
let t4 = load_64(m, l6.wrapping_add(72u64)).wrapping_add((l5 << 3));
store_64(m, t4, l7);
store_64(m, l6.wrapping_add(80u64), l5.wrapping_add(1u64));
break 'b9;
}
l14 = 1u32;
'b22: {
if ((l10 & 255u32) != 1u32) { break 'b22; }
l7 = load_64(m, l6.wrapping_add(88u64));
if (l7 == 0) { break 'b22; }
'b23: {
l5 = load_64(m, load_64(m, l6.wrapping_add(96u64)));
if (load_64(m, l5.wrapping_add(16u64)) != 1u64) { break 'b23; }
l4 = load_64(m, l5.wrapping_add(8u64));
let t5 = load_64(m, l4);
l4 = l4.wrapping_add(32u64);
l1 = load_64(m, l4);
if (load_64(m, l6.wrapping_add(72u64)) != t5.wrapping_add(l1)) { break 'b23; }
store_64(m, l4, l1.wrapping_add((l7 << 3)));
}
l5 = l5.wrapping_add(24u64);
let t6 = load_64(m, l5).wrapping_add(0xffffffffffffffffu64);
store_64(m, l5, t6);
}
l5 = 0u64;
store_64(m, l6.wrapping_add(56u64), 0u64);
store_64(m, l6.wrapping_add(48u64), 0u64);
store_64(m, l6.wrapping_add(40u64), 0u64);
store_64(m, l6.wrapping_add(32u64), 0u64);
store_64(m, l6.wrapping_add(24u64), 0u64);
store_64(m, l6.wrapping_add(16u64), 0u64);
store_64(m, l6.wrapping_add(8u64), 0u64);
store_64(m, l6, 0u64);
}
l7 = 0u64;
l4 = 0u64;
break 'b7;
}
l5 = 1u64;
l9 = l9.wrapping_add(1u64);
if (l9 != l3) { continue 'b8; }
break 'b8;
}
let t7 = load_64(m, l8);
store_64(m, l6, t7);
let t8 = load_64(m, l8.wrapping_add(8u64));
store_64(m, l6.wrapping_add(8u64), t8);
let t9 = load_64(m, l8.wrapping_add(16u64));
store_64(m, l6.wrapping_add(16u64), t9);
let t10 = load_64(m, l8.wrapping_add(24u64));
store_64(m, l6.wrapping_add(24u64), t10);
let t11 = load_64(m, l8.wrapping_add(32u64));
store_64(m, l6.wrapping_add(32u64), t11);
let t12 = load_64(m, l8.wrapping_add(40u64));
store_64(m, l6.wrapping_add(40u64), t12);
let t13 = load_64(m, l8.wrapping_add(48u64));
store_64(m, l6.wrapping_add(48u64), t13);
let t14 = load_64(m, l8.wrapping_add(56u64));
store_64(m, l6.wrapping_add(56u64), t14);
l14 = 0u32;
l7 = (load_8(m, l6.wrapping_add(64u64)) as u64);
l4 = load_64(m, l6.wrapping_add(136u64));
}
store_8(m, l0, l14 as u8);
store_64(m, l0.wrapping_add(16u64), l7);
store_64(m, l0.wrapping_add(8u64), l5);
let t15 = load_64(m, l6);
store_64(m, l0.wrapping_add(24u64), t15);
let t16 = load_64(m, l6.wrapping_add(8u64));
store_64(m, l0.wrapping_add(32u64), t16);
let t17 = load_64(m, l6.wrapping_add(16u64));
store_64(m, l0.wrapping_add(40u64), t17);
let t18 = load_64(m, l6.wrapping_add(24u64));
store_64(m, l0.wrapping_add(48u64), t18);
let t19 = load_64(m, l6.wrapping_add(32u64));
store_64(m, l0.wrapping_add(56u64), t19);
let t20 = load_64(m, l6.wrapping_add(40u64));
store_64(m, l0.wrapping_add(64u64), t20);
let t21 = load_64(m, l6.wrapping_add(48u64));
store_64(m, l0.wrapping_add(72u64), t21);
let t22 = load_64(m, l6.wrapping_add(56u64));
store_64(m, l0.wrapping_add(80u64), t22);
store_64(m, l0.wrapping_add(88u64), l4);
break 'b1;
}
}
g = l6.wrapping_add(144u64);
}

// bech32_bch::terms::locators_of::<#cdbe8c79ff78e559>
fn f39(m: &mut [u8], mut g: u64, mut l0: u64, mut l1: u64, mut l2: u32, mut l3: u64, mut l4: u64) {
let mut l5: u64 = 0;
let mut l6: u64 = 0;
let mut l7: u64 = 0;
let mut l8: u32 = 0;
let mut l9: u32 = 0;
let mut l10: u32 = 0;
let mut l11: u32 = 0;
let mut l12: u32 = 0;
let mut l13: u32 = 0;
let mut l14: u32 = 0;
l5 = g.wrapping_sub(48u64);
g = l5;
{
l6 = l5;
l5 = 0u64;
store_64(m, l6.wrapping_add(32u64), 0u64);
store_64(m, l6.wrapping_add(24u64), 0u64);
store_64(m, l6.wrapping_add(16u64), 0u64);
store_64(m, l6.wrapping_add(8u64), 0u64);
store_64(m, l6.wrapping_add(40u64), l1);
l7 = l6.wrapping_add(8u64).wrapping_add(8u64);
'b2: {
'b3: {
'b4: {
if (l4 == 0) { break 'b4; }
l1 = 0u64;
'b5: loop {
'b6: {
'b7: {
l5 = load_64(m, l3.wrapping_add((l1 << 3)));
if !(l5 == 0) { break 'b7; }
l8 = 1u32;
break 'b6;
}
l9 = l2;
l8 = 1u32;
'b8: loop {
'b9: {
'b10: {
if (((l5 as u32) & 1u32) != 0) { break 'b10; }
l10 = ((l9 & 65280u32) >> 8);
break 'b9;
}
l10 = ((l9 & 65280u32) >> 8);
l11 = (l8 & 65280u32);
l12 = 0u32;
'b11: {
if ((l9 & 255u32) == 0) { break 'b11; }
if ((l8 & 255u32) == 0) { break 'b11; }
l12 = (load_8_constant(m, ((((load_8_constant(m, ((l9 as u64) & 255u64).wrapping_add(0x100000082u64)) as u32).wrapping_add((load_8_constant(m, ((l8 as u64) & 255u64).wrapping_add(0x100000082u64)) as u32)) & 255u32) % 31u32) as u64).wrapping_add(0x1000000a2u64)) as u32);
}
l13 = (l11 >> 8);
l11 = l12;
'b12: {
if (l10 == 0) { break 'b12; }
l11 = l12;
if (l13 == 0) { break 'b12; }
l11 = ((load_8_constant(m, ((((load_8_constant(m, (l10 as u64).wrapping_add(0x100000082u64)) as u32).wrapping_add((load_8_constant(m, (l13 as u64).wrapping_add(0x100000082u64)) as u32)) & 255u32) % 31u32) as u64).wrapping_add(0x1000000a2u64)) as u32) ^ l12);
}
'b13: {
l14 = (l10 ^ l9);
if ((l14 & 255u32) == 0) { break 'b13; }
l8 = (l13 ^ l8);
if ((l8 & 255u32) == 0) { break 'b13; }
l12 = ((load_8_constant(m, ((((load_8_constant(m, ((l14 as u64) & 255u64).wrapping_add(0x100000082u64)) as u32).wrapping_add((load_8_constant(m, ((l8 as u64) & 255u64).wrapping_add(0x100000082u64)) as u32)) & 255u32) % 31u32) as u64).wrapping_add(0x1000000a2u64)) as u32) ^ l12);
}
l8 = ((l12 << 8) | (l11 & 255u32));
}
'b14: {
'b15: {
if ((l9 & 255u32) != 0) { break 'b15; }
l12 = 0u32;
break 'b14;
}
l12 = (load_8_constant(m, (((((load_8_constant(m, ((l9 as u64) & 255u64).wrapping_add(0x100000082u64)) as u32) << 1) & 254u32) % 31u32) as u64).wrapping_add(0x1000000a2u64)) as u32);
}
l11 = l12;
'b16: {
if (l10 == 0) { break 'b16; }
l11 = ((load_8_constant(m, (((((load_8_constant(m, (l10 as u64).wrapping_add(0x100000082u64)) as u32) << 1) & 254u32) % 31u32) as u64).wrapping_add(0x1000000a2u64)) as u32) ^ l12);
}
'b17: {
l9 = (l10 ^ l9);
if ((l9 & 255u32) == 0) { break 'b17; }
l12 = ((load_8_constant(m, (((((load_8_constant(m, ((l9 as u64) & 255u64).wrapping_add(0x100000082u64)) as u32) << 1) & 254u32) % 31u32) as u64).wrapping_add(0x1000000a2u64)) as u32) ^ l12);
}
l9 = ((l12 << 8) | (l11 & 255u32));
l5 = (l5 >> 1);
if (l5 != 0u64) { continue 'b8; }
break 'b8;
}
}
'b18: {
l5 = load_64(m, l6.wrapping_add(32u64));
l9 = (load_8(m, l6.wrapping_add(8u64)) as u32);
if ((if (l9 != 0) { load_64(m, l6.wrapping_add(24u64)) } else { l5 }) != (if (l9 != 0) { l5 } else { 7u64 })) { break 'b18; }
let t1 = f57(m, g, l6.wrapping_add(8u64));
l12 = t1;
l9 = (load_8(m, l6.wrapping_add(8u64)) as u32);
if ((l12 & 255u32) != 0) { break 'b3; }
}
'b19: {
'b20: {
if ((l9 & 255u32) != 0) { break 'b20; }
l5 = load_64(m, l6.wrapping_add(32u64));
store_16(m, l7.wrapping_add((l5 << 1)), l8 as u16);
store_64(m, l6.wrapping_add(32u64), l5.wrapping_add(1u64));
break 'b19;
}
l5 = load_64(m, l6.wrapping_add(24u64));
let t2 = load_64(m, l6.wrapping_add(16u64)).wrapping_add((l5 << 1));
store_16(m, t2, l8 as u16);
store_64(m, l6.wrapping_add(24u64), l5.wrapping_add(1u64));
}
l1 = l1.wrapping_add(1u64);
if (l1 != l4) { continue 'b5; }
break 'b5;
}
l5 = (load_8(m, l6.wrapping_add(8u64)) as u64);
}
store_8(m, l0, 0u32 as u8);
store_64(m, l0.wrapping_add(8u64), l5);
let t3 = load_64(m, l7);
store_64(m, l0.wrapping_add(16u64), t3);
let t4 = load_64(m, l7.wrapping_add(8u64));
store_64(m, l0.wrapping_add(24u64), t4);
let t5 = load_64(m, l7.wrapping_add(16u64));
store_64(m, l0.wrapping_add(32u64), t5);
let t6 = load_64(m, l7.wrapping_add(24u64));
store_64(m, l0.wrapping_add(40u64), t6);
break 'b2;
}
'b21: {
if ((l9 & 255u32) != 1u32) { break 'b21; }
l1 = load_64(m, l6.wrapping_add(32u64));
if (l1 == 0) { break 'b21; }
'b22: {
l5 = load_64(m, load_64(m, l6.wrapping_add(40u64)));
if (load_64(m, l5.wrapping_add(16u64)) != 1u64) { break 'b22; }
l4 = load_64(m, l5.wrapping_add(8u64));
let t7 = load_64(m, l4);
l4 = l4.wrapping_add(32u64);
l3 = load_64(m, l4);
if (load_64(m, l6.wrapping_add(16u64)) != t7.wrapping_add(l3)) { break 'b22; }
store_64(m, l4, l3.wrapping_add((l1 << 1)));
}
l5 = l5.wrapping_add(24u64);
let t8 = load_64(m, l5).wrapping_add(0xffffffffffffffffu64);
store_64(m, l5, t8);
}
store_8(m, l0, 1u32 as u8);
store_64(m, l0.wrapping_add(8u64), 0u64);
store_64(m, l0.wrapping_add(16u64), 0u64);
store_64(m, l0.wrapping_add(24u64), 0u64);
store_64(m, l0.wrapping_add(32u64), 0u64);
store_64(m, l0.wrapping_add(40u64), 0u64);
}
g = l6.wrapping_add(48u64);
return;
}
}

// bech32_lookup::erased::eliminated_values::<#771ad920835cb552>
fn f40(m: &mut [u8], mut g: u64, mut l0: u64, mut l1: u64, mut l2: u64, mut l3: u64) {
let mut l4: u64 = 0;
let mut l5: u64 = 0;
let mut l6: u64 = 0;
let mut l7: u64 = 0;
let mut l8: u64 = 0;
let mut l9: u64 = 0;
let mut l10: u64 = 0;
let mut l11: u64 = 0;
let mut l12: u64 = 0;
let mut l13: u32 = 0;
let mut l14: u32 = 0;
let mut l15: u32 = 0;
let mut l16: u32 = 0;
let mut l17: u32 = 0;
let mut l18: u32 = 0;
let mut l19: u32 = 0;
let mut l20: u32 = 0;
let mut l21: u32 = 0;
let mut l22: u32 = 0;
let mut l23: u32 = 0;
let mut l24: u32 = 0;
let mut l25: u32 = 0;
l4 = g.wrapping_sub(2544u64);
g = l4;
'b1: {
{
store_32(m, l4.wrapping_add(1839u64), 0u32);
store_64(m, l4.wrapping_add(1832u64), 0u64);
store_64(m, l4.wrapping_add(1824u64), 0u64);
store_64(m, l4.wrapping_add(1816u64), 0u64);
'b3: {
let t1 = (((((((load_8(m, l1.wrapping_add(13u64)) as u32) | (load_8(m, l1.wrapping_add(14u64)) as u32)) | (load_8(m, l1.wrapping_add(15u64)) as u32)) | (load_8(m, l1.wrapping_add(16u64)) as u32)) | (load_8(m, l1.wrapping_add(17u64)) as u32)) | (load_8(m, l1.wrapping_add(18u64)) as u32)) | (load_8(m, l1.wrapping_add(19u64)) as u32));
if ((((((t1 | (load_8(m, l1.wrapping_add(20u64)) as u32)) | (load_8(m, l1.wrapping_add(21u64)) as u32)) | (load_8(m, l1.wrapping_add(22u64)) as u32)) | (load_8(m, l1.wrapping_add(23u64)) as u32)) | (load_8(m, l1.wrapping_add(24u64)) as u32)) == 0) { break 'b3; }
store_32(m, l0.wrapping_add(23u64), 0u32);
store_64(m, l0.wrapping_add(16u64), 0u64);
store_64(m, l0.wrapping_add(8u64), 0u64);
store_64(m, l0, 0u64);
break 'b1;
}
fill(m, l4.wrapping_add(1848u64).wrapping_add(25u64), 0u32 as u8, 625u64);
store_32(m, l4.wrapping_add(2525u64), 0u32);
store_64(m, l4.wrapping_add(2517u64), 0u64);
let t2 = load_64(m, l1);
store_64(m, l4.wrapping_add(2504u64), t2);
let t3 = load_64(m, l1.wrapping_add(5u64));
store_64(m, l4.wrapping_add(2509u64), t3);
let t4 = load_64(m, l4.wrapping_add(2520u64));
store_64(m, l4.wrapping_add(1864u64), t4);
let t5 = (load_8(m, l4.wrapping_add(2528u64)) as u32);
store_8(m, l4.wrapping_add(1872u64), t5 as u8);
let t6 = load_64(m, l4.wrapping_add(2504u64));
store_64(m, l4.wrapping_add(1848u64), t6);
let t7 = load_64(m, l4.wrapping_add(2512u64));
store_64(m, l4.wrapping_add(1856u64), t7);
'b4: {
if (l3 == 0) { break 'b4; }
l5 = 0u64;
'b5: loop {
'b6: {
'b7: {
l6 = load_64(m, l2.wrapping_add((l5 << 3)));
l7 = (l6 >> 3);
if !(l7 == 0) { break 'b7; }
l8 = 1u64;
l9 = 0u64;
break 'b6;
}
l8 = 1u64;
l10 = 0u64;
l9 = 0u64;
'b8: loop {
store_64(m, l4.wrapping_add(2536u64), 0u64);
l11 = 0u64;
'b9: loop {
l1 = ((((l8 >> 60) | (l9 << 4)) & 31u64).wrapping_mul(0x1020408100u64) & 0x10101010100u64).wrapping_mul(255u64);
multiply_128(m, l4.wrapping_add(496u64), ((l1 >> 8) & 255u64).wrapping_mul(0x101010101010101u64), 0u64, 1u64, 1u64);
multiply_128(m, l4.wrapping_add(480u64), ((l1 >> 16) & 255u64).wrapping_mul(0x101010101010101u64), 0u64, 1u64, 1u64);
multiply_128(m, l4.wrapping_add(464u64), ((l1 >> 24) & 255u64).wrapping_mul(0x101010101010101u64), 0u64, 1u64, 1u64);
multiply_128(m, l4.wrapping_add(448u64), ((l1 >> 32) & 255u64).wrapping_mul(0x101010101010101u64), 0u64, 1u64, 1u64);
let t8 = ((l8 >> 59) & 1u64);
l8 = (l8 << 5);
l12 = l8.wrapping_add((load_8(m, l4.wrapping_add(2536u64).wrapping_add(l11)) as u64));
l9 = ((((t8.wrapping_add((((l12 < l8) as u32) as u64)) ^ (load_64(m, l4.wrapping_add(456u64)) & 1u64)) ^ (load_64(m, l4.wrapping_add(472u64)) & 1u64)) ^ (load_64(m, l4.wrapping_add(488u64)) & 1u64)) ^ (load_64(m, l4.wrapping_add(504u64)) & 1u64));
l8 = (((((l12 ^ ((l1 >> 40).wrapping_mul(0x101010101010101u64) & 0x7729a039cfc75f5au64)) ^ (load_64(m, l4.wrapping_add(448u64)) & 0x739640bdeee3fdadu64)) ^ (load_64(m, l4.wrapping_add(464u64)) & 0xfbd920fffe7bee52u64)) ^ (load_64(m, l4.wrapping_add(480u64)) & 0xbfae00def77fe529u64)) ^ (load_64(m, l4.wrapping_add(496u64)) & 0x9dc500ce73fde210u64));
l11 = l11.wrapping_add(1u64);
if (l11 != 8u64) { continue 'b9; }
break 'b9;
}
l10 = l10.wrapping_add(1u64);
if (l10 != l7) { continue 'b8; }
break 'b8;
}
}
l1 = ((l8 >> 60) | (l9 << 4));
'b10: {
'b11: {
l11 = (l6 & 7u64);
if !(l11 == 0) { break 'b11; }
l13 = (l1 as u32);
l14 = (((l8 >> 55) | (l9 << 9)) as u32);
l15 = (((l8 >> 50) | (l9 << 14)) as u32);
l16 = (((l8 >> 45) | (l9 << 19)) as u32);
l17 = (((l8 >> 40) | (l9 << 24)) as u32);
l18 = (((l8 >> 35) | (l9 << 29)) as u32);
l19 = ((l8 >> 30) as u32);
l20 = ((l8 >> 25) as u32);
l21 = ((l8 >> 20) as u32);
l22 = ((l8 >> 15) as u32);
l23 = ((l8 >> 10) as u32);
l24 = ((l8 >> 5) as u32);
l25 = (l8 as u32);
break 'b10;
}
l1 = ((l1 & 31u64).wrapping_mul(0x1020408100u64) & 0x10101010100u64).wrapping_mul(255u64);
multiply_128(m, l4.wrapping_add(432u64), ((l1 >> 8) & 255u64).wrapping_mul(0x101010101010101u64), 0u64, 1u64, 1u64);
multiply_128(m, l4.wrapping_add(416u64), ((l1 >> 16) & 255u64).wrapping_mul(0x101010101010101u64), 0u64, 1u64, 1u64);
multiply_128(m, l4.wrapping_add(400u64), ((l1 >> 24) & 255u64).wrapping_mul(0x101010101010101u64), 0u64, 1u64, 1u64);
multiply_128(m, l4.wrapping_add(384u64), ((l1 >> 32) & 255u64).wrapping_mul(0x101010101010101u64), 0u64, 1u64, 1u64);
l9 = ((((l8 << 5) ^ ((l1 >> 40).wrapping_mul(0x101010101010101u64) & 0x7729a039cfc75f5au64)) ^ (load_64(m, l4.wrapping_add(384u64)) & 0x739640bdeee3fdadu64)) ^ (load_64(m, l4.wrapping_add(400u64)) & 0xfbd920fffe7bee52u64));
l1 = (((load_64(m, l4.wrapping_add(416u64)) & 0xbfae00def77fe529u64) ^ (load_64(m, l4.wrapping_add(432u64)) & 0x9dc500ce73fde210u64)) ^ l9);
l12 = ((((l8 >> 59) ^ load_64(m, l4.wrapping_add(392u64))) ^ load_64(m, l4.wrapping_add(408u64))) & 1u64);
l8 = (((load_64(m, l4.wrapping_add(424u64)) ^ load_64(m, l4.wrapping_add(440u64))) & 1u64) ^ l12);
'b12: {
if (l11 != 1u64) { break 'b12; }
l25 = (l1 as u32);
l19 = ((l1 >> 30) as u32);
l20 = ((l1 >> 25) as u32);
l21 = ((l1 >> 20) as u32);
l22 = ((l1 >> 15) as u32);
l23 = ((l1 >> 10) as u32);
l24 = ((l1 >> 5) as u32);
l13 = (((l1 >> 60) | (l8 << 4)) as u32);
l14 = (((l1 >> 55) | (l8 << 9)) as u32);
l15 = (((l1 >> 50) | (l8 << 14)) as u32);
l16 = (((l1 >> 45) | (l8 << 19)) as u32);
l18 = (((l1 >> 35) | (l8 << 29)) as u32);
l17 = (((l9 >> 40) | (l12 << 24)) as u32);
break 'b10;
}
l8 = (((l1 >> 60) | (l8 << 4)).wrapping_mul(0x1020408100u64) & 0x10101010100u64).wrapping_mul(255u64);
multiply_128(m, l4.wrapping_add(368u64), ((l8 >> 8) & 255u64).wrapping_mul(0x101010101010101u64), 0u64, 1u64, 1u64);
multiply_128(m, l4.wrapping_add(352u64), ((l8 >> 16) & 255u64).wrapping_mul(0x101010101010101u64), 0u64, 1u64, 1u64);
multiply_128(m, l4.wrapping_add(336u64), ((l8 >> 24) & 255u64).wrapping_mul(0x101010101010101u64), 0u64, 1u64, 1u64);
multiply_128(m, l4.wrapping_add(320u64), ((l8 >> 32) & 255u64).wrapping_mul(0x101010101010101u64), 0u64, 1u64, 1u64);
l12 = ((((l1 << 5) ^ ((l8 >> 40).wrapping_mul(0x101010101010101u64) & 0x7729a039cfc75f5au64)) ^ (load_64(m, l4.wrapping_add(320u64)) & 0x739640bdeee3fdadu64)) ^ (load_64(m, l4.wrapping_add(336u64)) & 0xfbd920fffe7bee52u64));
l8 = (((load_64(m, l4.wrapping_add(352u64)) & 0xbfae00def77fe529u64) ^ (load_64(m, l4.wrapping_add(368u64)) & 0x9dc500ce73fde210u64)) ^ l12);
l10 = ((((l1 >> 59) ^ load_64(m, l4.wrapping_add(328u64))) ^ load_64(m, l4.wrapping_add(344u64))) & 1u64);
l1 = (((load_64(m, l4.wrapping_add(360u64)) ^ load_64(m, l4.wrapping_add(376u64))) & 1u64) ^ l10);
l9 = ((l8 >> 60) | (l1 << 4));
'b13: {
if (l11 != 2u64) { break 'b13; }
l25 = (l8 as u32);
l19 = ((l8 >> 30) as u32);
l20 = ((l8 >> 25) as u32);
l21 = ((l8 >> 20) as u32);
l22 = ((l8 >> 15) as u32);
l23 = ((l8 >> 10) as u32);
l24 = ((l8 >> 5) as u32);
l13 = (l9 as u32);
l14 = (((l8 >> 55) | (l1 << 9)) as u32);
l15 = (((l8 >> 50) | (l1 << 14)) as u32);
l16 = (((l8 >> 45) | (l1 << 19)) as u32);
l18 = (((l8 >> 35) | (l1 << 29)) as u32);
l17 = (((l12 >> 40) | (l10 << 24)) as u32);
break 'b10;
}
l1 = (l9.wrapping_mul(0x1020408100u64) & 0x10101010100u64).wrapping_mul(255u64);
multiply_128(m, l4.wrapping_add(304u64), ((l1 >> 8) & 255u64).wrapping_mul(0x101010101010101u64), 0u64, 1u64, 1u64);
multiply_128(m, l4.wrapping_add(288u64), ((l1 >> 16) & 255u64).wrapping_mul(0x101010101010101u64), 0u64, 1u64, 1u64);
multiply_128(m, l4.wrapping_add(272u64), ((l1 >> 24) & 255u64).wrapping_mul(0x101010101010101u64), 0u64, 1u64, 1u64);
multiply_128(m, l4.wrapping_add(256u64), ((l1 >> 32) & 255u64).wrapping_mul(0x101010101010101u64), 0u64, 1u64, 1u64);
l9 = ((((l8 << 5) ^ ((l1 >> 40).wrapping_mul(0x101010101010101u64) & 0x7729a039cfc75f5au64)) ^ (load_64(m, l4.wrapping_add(256u64)) & 0x739640bdeee3fdadu64)) ^ (load_64(m, l4.wrapping_add(272u64)) & 0xfbd920fffe7bee52u64));
l1 = (((load_64(m, l4.wrapping_add(288u64)) & 0xbfae00def77fe529u64) ^ (load_64(m, l4.wrapping_add(304u64)) & 0x9dc500ce73fde210u64)) ^ l9);
l12 = ((((l8 >> 59) ^ load_64(m, l4.wrapping_add(264u64))) ^ load_64(m, l4.wrapping_add(280u64))) & 1u64);
l8 = (((load_64(m, l4.wrapping_add(296u64)) ^ load_64(m, l4.wrapping_add(312u64))) & 1u64) ^ l12);
'b14: {
if (l11 != 3u64) { break 'b14; }
l25 = (l1 as u32);
l19 = ((l1 >> 30) as u32);
l20 = ((l1 >> 25) as u32);
l21 = ((l1 >> 20) as u32);
l22 = ((l1 >> 15) as u32);
l23 = ((l1 >> 10) as u32);
l24 = ((l1 >> 5) as u32);
l13 = (((l1 >> 60) | (l8 << 4)) as u32);
l14 = (((l1 >> 55) | (l8 << 9)) as u32);
l15 = (((l1 >> 50) | (l8 << 14)) as u32);
l16 = (((l1 >> 45) | (l8 << 19)) as u32);
l18 = (((l1 >> 35) | (l8 << 29)) as u32);
l17 = (((l9 >> 40) | (l12 << 24)) as u32);
break 'b10;
}
l8 = (((l1 >> 60) | (l8 << 4)).wrapping_mul(0x1020408100u64) & 0x10101010100u64).wrapping_mul(255u64);
multiply_128(m, l4.wrapping_add(240u64), ((l8 >> 8) & 255u64).wrapping_mul(0x101010101010101u64), 0u64, 1u64, 1u64);
multiply_128(m, l4.wrapping_add(224u64), ((l8 >> 16) & 255u64).wrapping_mul(0x101010101010101u64), 0u64, 1u64, 1u64);
multiply_128(m, l4.wrapping_add(208u64), ((l8 >> 24) & 255u64).wrapping_mul(0x101010101010101u64), 0u64, 1u64, 1u64);
multiply_128(m, l4.wrapping_add(192u64), ((l8 >> 32) & 255u64).wrapping_mul(0x101010101010101u64), 0u64, 1u64, 1u64);
l12 = ((((l1 << 5) ^ ((l8 >> 40).wrapping_mul(0x101010101010101u64) & 0x7729a039cfc75f5au64)) ^ (load_64(m, l4.wrapping_add(192u64)) & 0x739640bdeee3fdadu64)) ^ (load_64(m, l4.wrapping_add(208u64)) & 0xfbd920fffe7bee52u64));
l8 = (((load_64(m, l4.wrapping_add(224u64)) & 0xbfae00def77fe529u64) ^ (load_64(m, l4.wrapping_add(240u64)) & 0x9dc500ce73fde210u64)) ^ l12);
l10 = ((((l1 >> 59) ^ load_64(m, l4.wrapping_add(200u64))) ^ load_64(m, l4.wrapping_add(216u64))) & 1u64);
l1 = (((load_64(m, l4.wrapping_add(232u64)) ^ load_64(m, l4.wrapping_add(248u64))) & 1u64) ^ l10);
l9 = ((l8 >> 60) | (l1 << 4));
'b15: {
if (l11 != 4u64) { break 'b15; }
l25 = (l8 as u32);
l19 = ((l8 >> 30) as u32);
l20 = ((l8 >> 25) as u32);
l21 = ((l8 >> 20) as u32);
l22 = ((l8 >> 15) as u32);
l23 = ((l8 >> 10) as u32);
l24 = ((l8 >> 5) as u32);
l13 = (l9 as u32);
l14 = (((l8 >> 55) | (l1 << 9)) as u32);
l15 = (((l8 >> 50) | (l1 << 14)) as u32);
l16 = (((l8 >> 45) | (l1 << 19)) as u32);
l18 = (((l8 >> 35) | (l1 << 29)) as u32);
l17 = (((l12 >> 40) | (l10 << 24)) as u32);
break 'b10;
}
l1 = (l9.wrapping_mul(0x1020408100u64) & 0x10101010100u64).wrapping_mul(255u64);
multiply_128(m, l4.wrapping_add(176u64), ((l1 >> 8) & 255u64).wrapping_mul(0x101010101010101u64), 0u64, 1u64, 1u64);
multiply_128(m, l4.wrapping_add(160u64), ((l1 >> 16) & 255u64).wrapping_mul(0x101010101010101u64), 0u64, 1u64, 1u64);
multiply_128(m, l4.wrapping_add(144u64), ((l1 >> 24) & 255u64).wrapping_mul(0x101010101010101u64), 0u64, 1u64, 1u64);
multiply_128(m, l4.wrapping_add(128u64), ((l1 >> 32) & 255u64).wrapping_mul(0x101010101010101u64), 0u64, 1u64, 1u64);
l9 = ((((l8 << 5) ^ ((l1 >> 40).wrapping_mul(0x101010101010101u64) & 0x7729a039cfc75f5au64)) ^ (load_64(m, l4.wrapping_add(128u64)) & 0x739640bdeee3fdadu64)) ^ (load_64(m, l4.wrapping_add(144u64)) & 0xfbd920fffe7bee52u64));
l1 = (((load_64(m, l4.wrapping_add(160u64)) & 0xbfae00def77fe529u64) ^ (load_64(m, l4.wrapping_add(176u64)) & 0x9dc500ce73fde210u64)) ^ l9);
l12 = ((((l8 >> 59) ^ load_64(m, l4.wrapping_add(136u64))) ^ load_64(m, l4.wrapping_add(152u64))) & 1u64);
l8 = (((load_64(m, l4.wrapping_add(168u64)) ^ load_64(m, l4.wrapping_add(184u64))) & 1u64) ^ l12);
'b16: {
if (l11 != 5u64) { break 'b16; }
l25 = (l1 as u32);
l19 = ((l1 >> 30) as u32);
l20 = ((l1 >> 25) as u32);
l21 = ((l1 >> 20) as u32);
l22 = ((l1 >> 15) as u32);
l23 = ((l1 >> 10) as u32);
l24 = ((l1 >> 5) as u32);
l13 = (((l1 >> 60) | (l8 << 4)) as u32);
l14 = (((l1 >> 55) | (l8 << 9)) as u32);
l15 = (((l1 >> 50) | (l8 << 14)) as u32);
l16 = (((l1 >> 45) | (l8 << 19)) as u32);
l18 = (((l1 >> 35) | (l8 << 29)) as u32);
l17 = (((l9 >> 40) | (l12 << 24)) as u32);
break 'b10;
}
l8 = (((l1 >> 60) | (l8 << 4)).wrapping_mul(0x1020408100u64) & 0x10101010100u64).wrapping_mul(255u64);
multiply_128(m, l4.wrapping_add(112u64), ((l8 >> 8) & 255u64).wrapping_mul(0x101010101010101u64), 0u64, 1u64, 1u64);
multiply_128(m, l4.wrapping_add(96u64), ((l8 >> 16) & 255u64).wrapping_mul(0x101010101010101u64), 0u64, 1u64, 1u64);
multiply_128(m, l4.wrapping_add(80u64), ((l8 >> 24) & 255u64).wrapping_mul(0x101010101010101u64), 0u64, 1u64, 1u64);
multiply_128(m, l4.wrapping_add(64u64), ((l8 >> 32) & 255u64).wrapping_mul(0x101010101010101u64), 0u64, 1u64, 1u64);
l12 = ((((l1 << 5) ^ ((l8 >> 40).wrapping_mul(0x101010101010101u64) & 0x7729a039cfc75f5au64)) ^ (load_64(m, l4.wrapping_add(64u64)) & 0x739640bdeee3fdadu64)) ^ (load_64(m, l4.wrapping_add(80u64)) & 0xfbd920fffe7bee52u64));
l8 = (((load_64(m, l4.wrapping_add(96u64)) & 0xbfae00def77fe529u64) ^ (load_64(m, l4.wrapping_add(112u64)) & 0x9dc500ce73fde210u64)) ^ l12);
l10 = ((((l1 >> 59) ^ load_64(m, l4.wrapping_add(72u64))) ^ load_64(m, l4.wrapping_add(88u64))) & 1u64);
l1 = (((load_64(m, l4.wrapping_add(104u64)) ^ load_64(m, l4.wrapping_add(120u64))) & 1u64) ^ l10);
l9 = ((l8 >> 60) | (l1 << 4));
'b17: {
if (l11 != 6u64) { break 'b17; }
l25 = (l8 as u32);
l19 = ((l8 >> 30) as u32);
l20 = ((l8 >> 25) as u32);
l21 = ((l8 >> 20) as u32);
l22 = ((l8 >> 15) as u32);
l23 = ((l8 >> 10) as u32);
l24 = ((l8 >> 5) as u32);
l13 = (l9 as u32);
l14 = (((l8 >> 55) | (l1 << 9)) as u32);
l15 = (((l8 >> 50) | (l1 << 14)) as u32);
l16 = (((l8 >> 45) | (l1 << 19)) as u32);
l18 = (((l8 >> 35) | (l1 << 29)) as u32);
l17 = (((l12 >> 40) | (l10 << 24)) as u32);
break 'b10;
}
l1 = (l9.wrapping_mul(0x1020408100u64) & 0x10101010100u64).wrapping_mul(255u64);
multiply_128(m, l4.wrapping_add(48u64), ((l1 >> 8) & 255u64).wrapping_mul(0x101010101010101u64), 0u64, 1u64, 1u64);
multiply_128(m, l4.wrapping_add(32u64), ((l1 >> 16) & 255u64).wrapping_mul(0x101010101010101u64), 0u64, 1u64, 1u64);
multiply_128(m, l4.wrapping_add(16u64), ((l1 >> 24) & 255u64).wrapping_mul(0x101010101010101u64), 0u64, 1u64, 1u64);
multiply_128(m, l4, ((l1 >> 32) & 255u64).wrapping_mul(0x101010101010101u64), 0u64, 1u64, 1u64);
l11 = ((((l8 << 5) ^ ((l1 >> 40).wrapping_mul(0x101010101010101u64) & 0x7729a039cfc75f5au64)) ^ (load_64(m, l4) & 0x739640bdeee3fdadu64)) ^ (load_64(m, l4.wrapping_add(16u64)) & 0xfbd920fffe7bee52u64));
l1 = (((load_64(m, l4.wrapping_add(32u64)) & 0xbfae00def77fe529u64) ^ (load_64(m, l4.wrapping_add(48u64)) & 0x9dc500ce73fde210u64)) ^ l11);
l25 = (l1 as u32);
l19 = ((l1 >> 30) as u32);
l20 = ((l1 >> 25) as u32);
l21 = ((l1 >> 20) as u32);
l22 = ((l1 >> 15) as u32);
l23 = ((l1 >> 10) as u32);
l24 = ((l1 >> 5) as u32);
l9 = ((((l8 >> 59) ^ load_64(m, l4.wrapping_add(8u64))) ^ load_64(m, l4.wrapping_add(24u64))) & 1u64);
l8 = (((load_64(m, l4.wrapping_add(40u64)) ^ load_64(m, l4.wrapping_add(56u64))) & 1u64) ^ l9);
l13 = (((l1 >> 60) | (l8 << 4)) as u32);
l14 = (((l1 >> 55) | (l8 << 9)) as u32);
l15 = (((l1 >> 50) | (l8 << 14)) as u32);
l16 = (((l1 >> 45) | (l8 << 19)) as u32);
l18 = (((l1 >> 35) | (l8 << 29)) as u32);
l17 = (((l11 >> 40) | (l9 << 24)) as u32);
}
l5 = l5.wrapping_add(1u64);
l1 = l4.wrapping_add(1848u64).wrapping_add(l5.wrapping_mul(25u64));
store_64(m, l1.wrapping_add(13u64), 0u64);
store_8(m, l1.wrapping_add(12u64), (l13 & 31u32) as u8);
store_8(m, l1.wrapping_add(11u64), (l14 & 31u32) as u8);
store_8(m, l1.wrapping_add(10u64), (l15 & 31u32) as u8);
store_8(m, l1.wrapping_add(9u64), (l16 & 31u32) as u8);
store_8(m, l1.wrapping_add(8u64), (l17 & 31u32) as u8);
store_8(m, l1.wrapping_add(7u64), (l18 & 31u32) as u8);
store_8(m, l1.wrapping_add(6u64), (l19 & 31u32) as u8);
store_8(m, l1.wrapping_add(5u64), (l20 & 31u32) as u8);
store_8(m, l1.wrapping_add(4u64), (l21 & 31u32) as u8);
store_8(m, l1.wrapping_add(3u64), (l22 & 31u32) as u8);
store_8(m, l1.wrapping_add(2u64), (l23 & 31u32) as u8);
store_8(m, l1.wrapping_add(1u64), (l24 & 31u32) as u8);
store_8(m, l1, (l25 & 31u32) as u8);
store_32(m, l1.wrapping_add(21u64), 0u32);
if (l5 != l3) { continue 'b5; }
break 'b5;
}
}
copy(m, l4.wrapping_add(516u64), l4.wrapping_add(1848u64), 650u64);
copy(m, l4.wrapping_add(1166u64), l4.wrapping_add(516u64), 650u64);
f63(m, g, l4.wrapping_add(1816u64), l4.wrapping_add(1166u64), l3, 13u64);
let t9 = (load_8(m, l4.wrapping_add(1816u64)) as u32);
store_8(m, l0, t9 as u8);
let t10 = load_64(m, l4.wrapping_add(1817u64));
store_64(m, l0.wrapping_add(1u64), t10);
let t11 = load_64(m, l4.wrapping_add(1825u64));
store_64(m, l0.wrapping_add(9u64), t11);
let t12 = load_64(m, l4.wrapping_add(1833u64));
store_64(m, l0.wrapping_add(17u64), t12);
let t13 = (load_16(m, l4.wrapping_add(1841u64)) as u32);
store_16(m, l0.wrapping_add(25u64), t13 as u16);
break 'b1;
}
}
g = l4.wrapping_add(2544u64);
}

// bech32_lookup::erased::listing_of::<#d5da2a0e529987d8>
fn f41(m: &mut [u8], mut g: u64, mut l0: u64, mut l1: u64, mut l2: u64, mut l3: u64, mut l4: u64) {
let mut l5: u64 = 0;
let mut l6: u64 = 0;
let mut l7: u32 = 0;
let mut l8: u64 = 0;
let mut l9: u32 = 0;
let mut l10: u32 = 0;
let mut l11: u64 = 0;
l5 = g.wrapping_sub(144u64);
g = l5;
{
fill(m, l5.wrapping_add(8u64), 0u32 as u8, 128u64);
store_64(m, l5.wrapping_add(136u64), l1);
l6 = l5.wrapping_add(8u64).wrapping_add(8u64);
'b2: {
'b3: {
'b4: {
'b5: {
if !(l3 == 0) { break 'b5; }
l2 = 0u64;
break 'b4;
}
l1 = l4.wrapping_add(1u64);
'b6: loop {
l7 = (load_8(m, l1) as u32);
l8 = load_64(m, l2);
'b7: {
l9 = (load_8(m, l5.wrapping_add(8u64)) as u32);
if (load_64(m, (if (l9 != 0) { l5.wrapping_add(24u64) } else { l5.wrapping_add(128u64) })) != (if (l9 != 0) { load_64(m, l5.wrapping_add(32u64)) } else { 7u64 })) { break 'b7; }
let t1 = f61(m, g, l5.wrapping_add(8u64));
l10 = t1;
l9 = (load_8(m, l5.wrapping_add(8u64)) as u32);
if ((l10 & 255u32) != 0) { break 'b3; }
}
'b8: {
'b9: {
if ((l9 & 255u32) != 0) { break 'b9; }
l11 = load_64(m, l5.wrapping_add(128u64));
l4 = l6.wrapping_add((l11 << 4));
store_64(m, l4, l8);
store_32(m, l4.wrapping_add(9u64), 0u32);
store_8(m, l4.wrapping_add(8u64), l7 as u8);
store_32(m, l4.wrapping_add(12u64), 0u32);
store_64(m, l5.wrapping_add(128u64), l11.wrapping_add(1u64));
break 'b8;
}
l11 = load_64(m, l5.wrapping_add(24u64));
l4 = load_64(m, l5.wrapping_add(16u64)).wrapping_add((l11 << 4));
store_32(m, l4.wrapping_add(9u64), 0u32);
store_8(m, l4.wrapping_add(8u64), l7 as u8);
store_64(m, l4, l8);
store_32(m, l4.wrapping_add(12u64), 0u32);
store_64(m, l5.wrapping_add(24u64), l11.wrapping_add(1u64));
}
l2 = l2.wrapping_add(8u64);
l1 = l1.wrapping_add(1u64);
l3 = l3.wrapping_add(0xffffffffffffffffu64);
if !(l3 == 0) { continue 'b6; }
break 'b6;
}
l2 = (load_8(m, l5.wrapping_add(8u64)) as u64);
}
store_8(m, l0, 0u32 as u8);
store_64(m, l0.wrapping_add(8u64), l2);
copy(m, l0.wrapping_add(16u64), l6, 128u64);
break 'b2;
}
'b10: {
if ((l9 & 255u32) != 1u32) { break 'b10; }
l1 = load_64(m, l5.wrapping_add(32u64));
if (l1 == 0) { break 'b10; }
'b11: {
l2 = load_64(m, load_64(m, l5.wrapping_add(40u64)));
if (load_64(m, l2.wrapping_add(16u64)) != 1u64) { break 'b11; }
l4 = load_64(m, l2.wrapping_add(8u64));
let t2 = load_64(m, l4);
l4 = l4.wrapping_add(32u64);
l3 = load_64(m, l4);
if (load_64(m, l5.wrapping_add(16u64)) != t2.wrapping_add(l3)) { break 'b11; }
store_64(m, l4, l3.wrapping_add((l1 << 4)));
}
l2 = l2.wrapping_add(24u64);
let t3 = load_64(m, l2).wrapping_add(0xffffffffffffffffu64);
store_64(m, l2, t3);
}
store_8(m, l0, 1u32 as u8);
fill(m, l0.wrapping_add(8u64), 0u32 as u8, 136u64);
}
g = l5.wrapping_add(144u64);
return;
}
}

// bech32_lookup::correction::correct_by_roots::<#a4f5505ff1a120c3>
fn f42(m: &mut [u8], mut g: u64, mut l0: u64, mut l1: u64, mut l2: u64, mut l3: u64, mut l4: u64, mut l5: u64) {
let mut l6: u64 = 0;
let mut l7: u64 = 0;
let mut l8: u32 = 0;
let mut l9: u64 = 0;
let mut l10: u64 = 0;
let mut l11: u64 = 0;
let mut l12: u32 = 0;
let mut l13: u64 = 0;
let mut l14: u64 = 0;
let mut l15: u64 = 0;
let mut l16: u64 = 0;
let mut l17: u32 = 0;
let mut l18: u64 = 0;
let mut l19: u64 = 0;
l6 = g.wrapping_sub(512u64);
g = l6;
'b1: {
'b2: {
{
l7 = l6;
fill(m, l7.wrapping_add(376u64), 0u32 as u8, 136u64);
fill(m, l7.wrapping_add(224u64), 0u32 as u8, 152u64);
fill(m, l7.wrapping_add(72u64), 0u32 as u8, 128u64);
store_64(m, l7.wrapping_add(216u64), 8u64);
store_64(m, l7.wrapping_add(208u64), 9u64);
store_64(m, l7.wrapping_add(200u64), 1285u64);
f64(m, g, l7.wrapping_add(224u64), l1, l7.wrapping_add(200u64), l2, l3, l4, l5);
'b4: {
'b5: {
'b6: {
if ((load_8(m, l7.wrapping_add(224u64)) as u32) != 0) { break 'b6; }
if ((load_8(m, l7.wrapping_add(232u64)) as u32) != 1u32) { break 'b2; }
l8 = (load_8(m, l7.wrapping_add(240u64)) as u32);
l9 = ((l8 as u64) & 255u64);
store_64(m, l7.wrapping_add(376u64), l9);
l6 = l7.wrapping_add(384u64);
l10 = l7.wrapping_add(248u64);
copy(m, l6, l10, 128u64);
l11 = load_64(m, l7.wrapping_add(384u64));
l12 = (l8 & 255u32);
l13 = load_64(m, l7.wrapping_add(376u64).wrapping_add((if (l12 != 0) { 16u64 } else { 120u64 })));
if !(l13 == 0) { break 'b5; }
l6 = 0u64;
l14 = 0u64;
break 'b4;
}
store_8(m, l0, 1u32 as u8);
fill(m, l0.wrapping_add(8u64), 0u32 as u8, 144u64);
break 'b1;
}
l15 = (if (l12 != 0) { l11 } else { l6 });
l4 = (l13 & 3u64);
l16 = l13.wrapping_add(0xffffffffffffffffu64);
l5 = 0u64;
l2 = 0u64;
'b7: {
'b8: {
if (l13 < 4u64) { break 'b8; }
l14 = (l13 & 0xfffffffffffffffcu64);
l5 = 0u64;
l6 = l15;
l2 = 0u64;
'b9: loop {
l1 = load_64(m, l6);
l5 = (if (l5 > l1) { l5 } else { l1 });
l1 = load_64(m, l6.wrapping_add(16u64));
l5 = (if (l5 > l1) { l5 } else { l1 });
l1 = load_64(m, l6.wrapping_add(32u64));
l5 = (if (l5 > l1) { l5 } else { l1 });
l1 = load_64(m, l6.wrapping_add(48u64));
l5 = (if (l5 > l1) { l5 } else { l1 });
l6 = l6.wrapping_add(64u64);
l2 = l2.wrapping_add(4u64);
if (l14 != l2) { continue 'b9; }
break 'b9;
}
if (l4 == 0) { break 'b7; }
}
l6 = l15.wrapping_add((l2 << 4));
'b10: loop {
l2 = load_64(m, l6);
l5 = (if (l5 > l2) { l5 } else { l2 });
l6 = l6.wrapping_add(16u64);
l4 = l4.wrapping_add(0xffffffffffffffffu64);
if (l4 != 0u64) { continue 'b10; }
break 'b10;
}
}
'b11: {
'b12: {
'b13: {
l17 = ((l16 == 0) as u32);
if (l17 == 0) { break 'b13; }
l12 = 0u32;
l4 = l13;
break 'b12;
}
l1 = (l13 & 1u64);
l2 = (l13 & 0xfffffffffffffffeu64);
l6 = (l13 << 4).wrapping_add(l15).wrapping_add(0xffffffffffffffe0u64);
l12 = 0u32;
l4 = l13;
'b14: loop {
'b15: {
if (load_64(m, l6.wrapping_add(16u64)) != l5) { break 'b15; }
l12 = ((load_8(m, l6.wrapping_add(24u64)) as u32) ^ l12);
}
'b16: {
if (load_64(m, l6) != l5) { break 'b16; }
l12 = ((load_8(m, l6.wrapping_add(8u64)) as u32) ^ l12);
}
l4 = l4.wrapping_add(0xfffffffffffffffeu64);
l6 = l6.wrapping_add(0xffffffffffffffe0u64);
l2 = l2.wrapping_add(0xfffffffffffffffeu64);
if (l2 != 0u64) { continue 'b14; }
break 'b14;
}
if (l1 == 0) { break 'b11; }
}
l6 = l15.wrapping_add((l4 << 4));
if (load_64(m, l6.wrapping_add(0xfffffffffffffff0u64)) != l5) { break 'b11; }
l12 = ((load_8(m, l6.wrapping_add(0xfffffffffffffff8u64)) as u32) ^ l12);
}
l6 = (l12 as u64);
'b17: {
if !(l5 == 0) { break 'b17; }
l6 = (l6 & 255u64);
l14 = 0u64;
break 'b4;
}
l16 = (l13 & 0xfffffffffffffffeu64);
l18 = (l13 & 1u64);
l6 = (l6 & 255u64);
l19 = (l13 << 4).wrapping_add(l15).wrapping_add(0xffffffffffffffe0u64);
l14 = 0u64;
'b18: loop {
l1 = l6;
l5 = l5.wrapping_add(0xffffffffffffffffu64);
l12 = 0u32;
'b19: {
'b20: {
'b21: {
if (l17 == 0) { break 'b21; }
l4 = l13;
break 'b20;
}
l2 = l16;
l6 = l19;
l4 = l13;
'b22: loop {
'b23: {
if (load_64(m, l6.wrapping_add(16u64)) != l5) { break 'b23; }
l12 = ((load_8(m, l6.wrapping_add(24u64)) as u32) ^ l12);
}
'b24: {
if (load_64(m, l6) != l5) { break 'b24; }
l12 = ((load_8(m, l6.wrapping_add(8u64)) as u32) ^ l12);
}
l4 = l4.wrapping_add(0xfffffffffffffffeu64);
l6 = l6.wrapping_add(0xffffffffffffffe0u64);
l2 = l2.wrapping_add(0xfffffffffffffffeu64);
if (l2 != 0u64) { continue 'b22; }
break 'b22;
}
if (l18 == 0) { break 'b19; }
}
l6 = l15.wrapping_add((l4 << 4));
if (load_64(m, l6.wrapping_add(0xfffffffffffffff0u64)) != l5) { break 'b19; }
l12 = ((load_8(m, l6.wrapping_add(0xfffffffffffffff8u64)) as u32) ^ l12);
}
l6 = ((((l1 >> 60) | (l14 << 4)) & 31u64).wrapping_mul(0x1020408100u64) & 0x10101010100u64).wrapping_mul(255u64);
multiply_128(m, l7.wrapping_add(48u64), ((l6 >> 8) & 255u64).wrapping_mul(0x101010101010101u64), 0u64, 1u64, 1u64);
multiply_128(m, l7.wrapping_add(32u64), ((l6 >> 16) & 255u64).wrapping_mul(0x101010101010101u64), 0u64, 1u64, 1u64);
multiply_128(m, l7.wrapping_add(16u64), ((l6 >> 24) & 255u64).wrapping_mul(0x101010101010101u64), 0u64, 1u64, 1u64);
multiply_128(m, l7, ((l6 >> 32) & 255u64).wrapping_mul(0x101010101010101u64), 0u64, 1u64, 1u64);
l4 = (l1 << 5);
l2 = l4.wrapping_add(((l12 as u64) & 255u64));
l6 = ((((((load_64(m, l7) & 0x739640bdeee3fdadu64) ^ ((l6 >> 40).wrapping_mul(0x101010101010101u64) & 0x7729a039cfc75f5au64)) ^ (load_64(m, l7.wrapping_add(16u64)) & 0xfbd920fffe7bee52u64)) ^ (load_64(m, l7.wrapping_add(32u64)) & 0xbfae00def77fe529u64)) ^ (load_64(m, l7.wrapping_add(48u64)) & 0x9dc500ce73fde210u64)) ^ l2);
l14 = (((((load_64(m, l7.wrapping_add(8u64)) ^ load_64(m, l7.wrapping_add(24u64))) ^ load_64(m, l7.wrapping_add(40u64))) ^ load_64(m, l7.wrapping_add(56u64))) & 1u64) ^ ((l1 >> 59) & 1u64).wrapping_add((((l2 < l4) as u32) as u64)));
if (l5 != 0u64) { continue 'b18; }
break 'b18;
}
}
'b25: {
'b26: {
let t1 = f65(m, g, l6, l14, l3);
if (t1 == 0) { break 'b26; }
copy(m, l7.wrapping_add(72u64), l10, 128u64);
l6 = 1u64;
break 'b25;
}
fill(m, l7.wrapping_add(72u64), 0u32 as u8, 128u64);
l6 = 0u64;
'b27: {
if ((l8 & 255u32) != 1u32) { break 'b27; }
l4 = load_64(m, l7.wrapping_add(400u64));
if (l4 == 0) { break 'b27; }
'b28: {
l5 = load_64(m, load_64(m, l7.wrapping_add(408u64)));
if (load_64(m, l5.wrapping_add(16u64)) != 1u64) { break 'b28; }
l2 = load_64(m, l5.wrapping_add(8u64));
let t2 = load_64(m, l2);
l2 = l2.wrapping_add(32u64);
l1 = load_64(m, l2);
if (l11 != t2.wrapping_add(l1)) { break 'b28; }
store_64(m, l2, l1.wrapping_add((l4 << 4)));
}
l5 = l5.wrapping_add(24u64);
let t3 = load_64(m, l5).wrapping_add(0xffffffffffffffffu64);
store_64(m, l5, t3);
}
l9 = 0u64;
}
store_8(m, l0, 0u32 as u8);
store_64(m, l0.wrapping_add(16u64), l9);
store_64(m, l0.wrapping_add(8u64), l6);
copy(m, l0.wrapping_add(24u64), l7.wrapping_add(72u64), 128u64);
break 'b1;
}
}
store_8(m, l0, 0u32 as u8);
fill(m, l0.wrapping_add(8u64), 0u32 as u8, 144u64);
}
g = l7.wrapping_add(512u64);
}

// bech32_lookup::erased::eliminated_values::<#ff86a0b986cb5a24>
fn f43(m: &mut [u8], mut g: u64, mut l0: u64, mut l1: u64, mut l2: u64, mut l3: u64) {
let mut l4: u64 = 0;
let mut l5: u64 = 0;
let mut l6: u64 = 0;
let mut l7: u64 = 0;
let mut l8: u64 = 0;
let mut l9: u64 = 0;
let mut l10: u64 = 0;
let mut l11: u64 = 0;
let mut l12: u32 = 0;
let mut l13: u32 = 0;
let mut l14: u32 = 0;
let mut l15: u32 = 0;
let mut l16: u32 = 0;
let mut l17: u32 = 0;
let mut l18: u32 = 0;
let mut l19: u32 = 0;
let mut l20: u32 = 0;
let mut l21: u32 = 0;
let mut l22: u32 = 0;
let mut l23: u32 = 0;
let mut l24: u32 = 0;
let mut l25: u32 = 0;
let mut l26: u32 = 0;
l4 = g.wrapping_sub(2672u64);
g = l4;
'b1: {
{
store_32(m, l4.wrapping_add(1967u64), 0u32);
store_64(m, l4.wrapping_add(1960u64), 0u64);
store_64(m, l4.wrapping_add(1952u64), 0u64);
store_64(m, l4.wrapping_add(1944u64), 0u64);
'b3: {
let t1 = (((((((load_8(m, l1.wrapping_add(15u64)) as u32) | (load_8(m, l1.wrapping_add(16u64)) as u32)) | (load_8(m, l1.wrapping_add(17u64)) as u32)) | (load_8(m, l1.wrapping_add(18u64)) as u32)) | (load_8(m, l1.wrapping_add(19u64)) as u32)) | (load_8(m, l1.wrapping_add(20u64)) as u32)) | (load_8(m, l1.wrapping_add(21u64)) as u32));
if ((((t1 | (load_8(m, l1.wrapping_add(22u64)) as u32)) | (load_8(m, l1.wrapping_add(23u64)) as u32)) | (load_8(m, l1.wrapping_add(24u64)) as u32)) == 0) { break 'b3; }
store_32(m, l0.wrapping_add(23u64), 0u32);
store_64(m, l0.wrapping_add(16u64), 0u64);
store_64(m, l0.wrapping_add(8u64), 0u64);
store_64(m, l0, 0u64);
break 'b1;
}
fill(m, l4.wrapping_add(1976u64).wrapping_add(25u64), 0u32 as u8, 625u64);
store_16(m, l4.wrapping_add(2655u64), 0u32 as u16);
store_64(m, l4.wrapping_add(2647u64), 0u64);
let t2 = load_64(m, l1);
store_64(m, l4.wrapping_add(2632u64), t2);
let t3 = load_64(m, l1.wrapping_add(7u64));
store_64(m, l4.wrapping_add(2639u64), t3);
let t4 = load_64(m, l4.wrapping_add(2648u64));
store_64(m, l4.wrapping_add(1992u64), t4);
let t5 = (load_8(m, l4.wrapping_add(2656u64)) as u32);
store_8(m, l4.wrapping_add(2000u64), t5 as u8);
let t6 = load_64(m, l4.wrapping_add(2632u64));
store_64(m, l4.wrapping_add(1976u64), t6);
let t7 = load_64(m, l4.wrapping_add(2640u64));
store_64(m, l4.wrapping_add(1984u64), t7);
'b4: {
if (l3 == 0) { break 'b4; }
l5 = 0u64;
'b5: loop {
l6 = 1u64;
l7 = 0u64;
'b6: {
l8 = load_64(m, l2.wrapping_add((l5 << 3)));
l9 = (l8 >> 3);
if (l9 == 0) { break 'b6; }
l6 = 1u64;
l10 = 0u64;
l7 = 0u64;
'b7: loop {
store_64(m, l4.wrapping_add(2664u64), 0u64);
l11 = 0u64;
'b8: loop {
l1 = (((l7 >> 6) & 31u64).wrapping_mul(0x1020408100u64) & 0x10101010100u64).wrapping_mul(255u64);
multiply_128(m, l4.wrapping_add(624u64), ((l1 >> 8) & 255u64).wrapping_mul(0x101010101010101u64), 0u64, 1u64, 1u64);
multiply_128(m, l4.wrapping_add(608u64), ((l1 >> 16) & 255u64).wrapping_mul(0x101010101010101u64), 0u64, 1u64, 1u64);
multiply_128(m, l4.wrapping_add(592u64), ((l1 >> 24) & 255u64).wrapping_mul(0x101010101010101u64), 0u64, 1u64, 1u64);
multiply_128(m, l4.wrapping_add(576u64), ((l1 >> 32) & 255u64).wrapping_mul(0x101010101010101u64), 0u64, 1u64, 1u64);
multiply_128(m, l4.wrapping_add(560u64), (l1 >> 40).wrapping_mul(0x101010101010101u64), 0u64, 1u64, 1u64);
l1 = (l6 << 5);
let t8 = (((l7 << 5) | (l6 >> 59)) & 2047u64);
l6 = l1.wrapping_add((load_8(m, l4.wrapping_add(2664u64).wrapping_add(l11)) as u64));
l7 = ((((((load_64(m, l4.wrapping_add(568u64)) & 392u64) ^ t8.wrapping_add((((l6 < l1) as u32) as u64))) ^ (load_64(m, l4.wrapping_add(584u64)) & 197u64)) ^ (load_64(m, l4.wrapping_add(600u64)) & 1347u64)) ^ (load_64(m, l4.wrapping_add(616u64)) & 1961u64)) ^ (load_64(m, l4.wrapping_add(632u64)) & 981u64));
l6 = ((((((load_64(m, l4.wrapping_add(560u64)) & 0x7f74f8dc71b10651u64) ^ l6) ^ (load_64(m, l4.wrapping_add(576u64)) & 0x77eaeccf1990d13cu64)) ^ (load_64(m, l4.wrapping_add(592u64)) & 0xf9b7e6c38d8a2a0eu64)) ^ (load_64(m, l4.wrapping_add(608u64)) & 0xbecb6361c6c51507u64)) ^ (load_64(m, l4.wrapping_add(624u64)) & 0x9d273535ea62d897u64));
l11 = l11.wrapping_add(1u64);
if (l11 != 8u64) { continue 'b8; }
break 'b8;
}
l10 = l10.wrapping_add(1u64);
if (l10 != l9) { continue 'b7; }
break 'b7;
}
}
l1 = (l7 >> 6);
'b9: {
'b10: {
l10 = (l8 & 7u64);
if !(l10 == 0) { break 'b10; }
l12 = (((l6 >> 60) | (l7 << 4)) as u32);
l13 = (((l6 >> 55) | (l7 << 9)) as u32);
l14 = (((l6 >> 50) | (l7 << 14)) as u32);
l15 = (((l6 >> 45) | (l7 << 19)) as u32);
l16 = (((l6 >> 40) | (l7 << 24)) as u32);
l17 = (((l6 >> 35) | (l7 << 29)) as u32);
l18 = ((l6 >> 30) as u32);
l19 = ((l6 >> 25) as u32);
l20 = ((l6 >> 20) as u32);
l21 = ((l6 >> 15) as u32);
l22 = ((l6 >> 10) as u32);
l23 = ((l6 >> 5) as u32);
l24 = (l1 as u32);
l25 = ((l7 >> 1) as u32);
l26 = (l6 as u32);
break 'b9;
}
l1 = ((l1 & 31u64).wrapping_mul(0x1020408100u64) & 0x10101010100u64).wrapping_mul(255u64);
multiply_128(m, l4.wrapping_add(544u64), ((l1 >> 8) & 255u64).wrapping_mul(0x101010101010101u64), 0u64, 1u64, 1u64);
multiply_128(m, l4.wrapping_add(528u64), ((l1 >> 16) & 255u64).wrapping_mul(0x101010101010101u64), 0u64, 1u64, 1u64);
multiply_128(m, l4.wrapping_add(512u64), ((l1 >> 24) & 255u64).wrapping_mul(0x101010101010101u64), 0u64, 1u64, 1u64);
multiply_128(m, l4.wrapping_add(496u64), ((l1 >> 32) & 255u64).wrapping_mul(0x101010101010101u64), 0u64, 1u64, 1u64);
multiply_128(m, l4.wrapping_add(480u64), (l1 >> 40).wrapping_mul(0x101010101010101u64), 0u64, 1u64, 1u64);
l11 = ((((((load_64(m, l4.wrapping_add(488u64)) & 392u64) ^ (((l7 << 5) | (l6 >> 59)) & 2047u64)) ^ (load_64(m, l4.wrapping_add(504u64)) & 197u64)) ^ (load_64(m, l4.wrapping_add(520u64)) & 1347u64)) ^ (load_64(m, l4.wrapping_add(536u64)) & 1961u64)) ^ (load_64(m, l4.wrapping_add(552u64)) & 981u64));
l1 = ((((((load_64(m, l4.wrapping_add(480u64)) & 0x7f74f8dc71b10651u64) ^ (l6 << 5)) ^ (load_64(m, l4.wrapping_add(496u64)) & 0x77eaeccf1990d13cu64)) ^ (load_64(m, l4.wrapping_add(512u64)) & 0xf9b7e6c38d8a2a0eu64)) ^ (load_64(m, l4.wrapping_add(528u64)) & 0xbecb6361c6c51507u64)) ^ (load_64(m, l4.wrapping_add(544u64)) & 0x9d273535ea62d897u64));
'b11: {
if (l10 != 1u64) { break 'b11; }
l12 = (((l1 >> 60) | (l11 << 4)) as u32);
l13 = (((l1 >> 55) | (l11 << 9)) as u32);
l14 = (((l1 >> 50) | (l11 << 14)) as u32);
l15 = (((l1 >> 45) | (l11 << 19)) as u32);
l16 = (((l1 >> 40) | (l11 << 24)) as u32);
l17 = (((l1 >> 35) | (l11 << 29)) as u32);
l26 = (l1 as u32);
l24 = ((l11 >> 6) as u32);
l25 = ((l11 >> 1) as u32);
l18 = ((l1 >> 30) as u32);
l19 = ((l1 >> 25) as u32);
l20 = ((l1 >> 20) as u32);
l21 = ((l1 >> 15) as u32);
l22 = ((l1 >> 10) as u32);
l23 = ((l1 >> 5) as u32);
break 'b9;
}
l6 = ((l11 >> 6).wrapping_mul(0x1020408100u64) & 0x10101010100u64).wrapping_mul(255u64);
multiply_128(m, l4.wrapping_add(464u64), ((l6 >> 8) & 255u64).wrapping_mul(0x101010101010101u64), 0u64, 1u64, 1u64);
multiply_128(m, l4.wrapping_add(448u64), ((l6 >> 16) & 255u64).wrapping_mul(0x101010101010101u64), 0u64, 1u64, 1u64);
multiply_128(m, l4.wrapping_add(432u64), ((l6 >> 24) & 255u64).wrapping_mul(0x101010101010101u64), 0u64, 1u64, 1u64);
multiply_128(m, l4.wrapping_add(416u64), ((l6 >> 32) & 255u64).wrapping_mul(0x101010101010101u64), 0u64, 1u64, 1u64);
multiply_128(m, l4.wrapping_add(400u64), (l6 >> 40).wrapping_mul(0x101010101010101u64), 0u64, 1u64, 1u64);
l6 = ((((((load_64(m, l4.wrapping_add(400u64)) & 0x7f74f8dc71b10651u64) ^ (l1 << 5)) ^ (load_64(m, l4.wrapping_add(416u64)) & 0x77eaeccf1990d13cu64)) ^ (load_64(m, l4.wrapping_add(432u64)) & 0xf9b7e6c38d8a2a0eu64)) ^ (load_64(m, l4.wrapping_add(448u64)) & 0xbecb6361c6c51507u64)) ^ (load_64(m, l4.wrapping_add(464u64)) & 0x9d273535ea62d897u64));
l1 = ((((((load_64(m, l4.wrapping_add(408u64)) & 392u64) ^ (((l11 << 5) | (l1 >> 59)) & 2047u64)) ^ (load_64(m, l4.wrapping_add(424u64)) & 197u64)) ^ (load_64(m, l4.wrapping_add(440u64)) & 1347u64)) ^ (load_64(m, l4.wrapping_add(456u64)) & 1961u64)) ^ (load_64(m, l4.wrapping_add(472u64)) & 981u64));
l11 = (l1 >> 6);
'b12: {
if (l10 != 2u64) { break 'b12; }
l12 = (((l6 >> 60) | (l1 << 4)) as u32);
l13 = (((l6 >> 55) | (l1 << 9)) as u32);
l14 = (((l6 >> 50) | (l1 << 14)) as u32);
l15 = (((l6 >> 45) | (l1 << 19)) as u32);
l16 = (((l6 >> 40) | (l1 << 24)) as u32);
l17 = (((l6 >> 35) | (l1 << 29)) as u32);
l26 = (l6 as u32);
l24 = (l11 as u32);
l25 = ((l1 >> 1) as u32);
l18 = ((l6 >> 30) as u32);
l19 = ((l6 >> 25) as u32);
l20 = ((l6 >> 20) as u32);
l21 = ((l6 >> 15) as u32);
l22 = ((l6 >> 10) as u32);
l23 = ((l6 >> 5) as u32);
break 'b9;
}
l11 = (l11.wrapping_mul(0x1020408100u64) & 0x10101010100u64).wrapping_mul(255u64);
multiply_128(m, l4.wrapping_add(384u64), ((l11 >> 8) & 255u64).wrapping_mul(0x101010101010101u64), 0u64, 1u64, 1u64);
multiply_128(m, l4.wrapping_add(368u64), ((l11 >> 16) & 255u64).wrapping_mul(0x101010101010101u64), 0u64, 1u64, 1u64);
multiply_128(m, l4.wrapping_add(352u64), ((l11 >> 24) & 255u64).wrapping_mul(0x101010101010101u64), 0u64, 1u64, 1u64);
multiply_128(m, l4.wrapping_add(336u64), ((l11 >> 32) & 255u64).wrapping_mul(0x101010101010101u64), 0u64, 1u64, 1u64);
multiply_128(m, l4.wrapping_add(320u64), (l11 >> 40).wrapping_mul(0x101010101010101u64), 0u64, 1u64, 1u64);
l11 = ((((((load_64(m, l4.wrapping_add(328u64)) & 392u64) ^ (((l1 << 5) | (l6 >> 59)) & 2047u64)) ^ (load_64(m, l4.wrapping_add(344u64)) & 197u64)) ^ (load_64(m, l4.wrapping_add(360u64)) & 1347u64)) ^ (load_64(m, l4.wrapping_add(376u64)) & 1961u64)) ^ (load_64(m, l4.wrapping_add(392u64)) & 981u64));
l1 = ((((((load_64(m, l4.wrapping_add(320u64)) & 0x7f74f8dc71b10651u64) ^ (l6 << 5)) ^ (load_64(m, l4.wrapping_add(336u64)) & 0x77eaeccf1990d13cu64)) ^ (load_64(m, l4.wrapping_add(352u64)) & 0xf9b7e6c38d8a2a0eu64)) ^ (load_64(m, l4.wrapping_add(368u64)) & 0xbecb6361c6c51507u64)) ^ (load_64(m, l4.wrapping_add(384u64)) & 0x9d273535ea62d897u64));
'b13: {
if (l10 != 3u64) { break 'b13; }
l12 = (((l1 >> 60) | (l11 << 4)) as u32);
l13 = (((l1 >> 55) | (l11 << 9)) as u32);
l14 = (((l1 >> 50) | (l11 << 14)) as u32);
l15 = (((l1 >> 45) | (l11 << 19)) as u32);
l16 = (((l1 >> 40) | (l11 << 24)) as u32);
l17 = (((l1 >> 35) | (l11 << 29)) as u32);
l26 = (l1 as u32);
l24 = ((l11 >> 6) as u32);
l25 = ((l11 >> 1) as u32);
l18 = ((l1 >> 30) as u32);
l19 = ((l1 >> 25) as u32);
l20 = ((l1 >> 20) as u32);
l21 = ((l1 >> 15) as u32);
l22 = ((l1 >> 10) as u32);
l23 = ((l1 >> 5) as u32);
break 'b9;
}
l6 = ((l11 >> 6).wrapping_mul(0x1020408100u64) & 0x10101010100u64).wrapping_mul(255u64);
multiply_128(m, l4.wrapping_add(304u64), ((l6 >> 8) & 255u64).wrapping_mul(0x101010101010101u64), 0u64, 1u64, 1u64);
multiply_128(m, l4.wrapping_add(288u64), ((l6 >> 16) & 255u64).wrapping_mul(0x101010101010101u64), 0u64, 1u64, 1u64);
multiply_128(m, l4.wrapping_add(272u64), ((l6 >> 24) & 255u64).wrapping_mul(0x101010101010101u64), 0u64, 1u64, 1u64);
multiply_128(m, l4.wrapping_add(256u64), ((l6 >> 32) & 255u64).wrapping_mul(0x101010101010101u64), 0u64, 1u64, 1u64);
multiply_128(m, l4.wrapping_add(240u64), (l6 >> 40).wrapping_mul(0x101010101010101u64), 0u64, 1u64, 1u64);
l6 = ((((((load_64(m, l4.wrapping_add(240u64)) & 0x7f74f8dc71b10651u64) ^ (l1 << 5)) ^ (load_64(m, l4.wrapping_add(256u64)) & 0x77eaeccf1990d13cu64)) ^ (load_64(m, l4.wrapping_add(272u64)) & 0xf9b7e6c38d8a2a0eu64)) ^ (load_64(m, l4.wrapping_add(288u64)) & 0xbecb6361c6c51507u64)) ^ (load_64(m, l4.wrapping_add(304u64)) & 0x9d273535ea62d897u64));
l1 = ((((((load_64(m, l4.wrapping_add(248u64)) & 392u64) ^ (((l11 << 5) | (l1 >> 59)) & 2047u64)) ^ (load_64(m, l4.wrapping_add(264u64)) & 197u64)) ^ (load_64(m, l4.wrapping_add(280u64)) & 1347u64)) ^ (load_64(m, l4.wrapping_add(296u64)) & 1961u64)) ^ (load_64(m, l4.wrapping_add(312u64)) & 981u64));
l11 = (l1 >> 6);
'b14: {
if (l10 != 4u64) { break 'b14; }
l12 = (((l6 >> 60) | (l1 << 4)) as u32);
l13 = (((l6 >> 55) | (l1 << 9)) as u32);
l14 = (((l6 >> 50) | (l1 << 14)) as u32);
l15 = (((l6 >> 45) | (l1 << 19)) as u32);
l16 = (((l6 >> 40) | (l1 << 24)) as u32);
l17 = (((l6 >> 35) | (l1 << 29)) as u32);
l26 = (l6 as u32);
l24 = (l11 as u32);
l25 = ((l1 >> 1) as u32);
l18 = ((l6 >> 30) as u32);
l19 = ((l6 >> 25) as u32);
l20 = ((l6 >> 20) as u32);
l21 = ((l6 >> 15) as u32);
l22 = ((l6 >> 10) as u32);
l23 = ((l6 >> 5) as u32);
break 'b9;
}
l11 = (l11.wrapping_mul(0x1020408100u64) & 0x10101010100u64).wrapping_mul(255u64);
multiply_128(m, l4.wrapping_add(224u64), ((l11 >> 8) & 255u64).wrapping_mul(0x101010101010101u64), 0u64, 1u64, 1u64);
multiply_128(m, l4.wrapping_add(208u64), ((l11 >> 16) & 255u64).wrapping_mul(0x101010101010101u64), 0u64, 1u64, 1u64);
multiply_128(m, l4.wrapping_add(192u64), ((l11 >> 24) & 255u64).wrapping_mul(0x101010101010101u64), 0u64, 1u64, 1u64);
multiply_128(m, l4.wrapping_add(176u64), ((l11 >> 32) & 255u64).wrapping_mul(0x101010101010101u64), 0u64, 1u64, 1u64);
multiply_128(m, l4.wrapping_add(160u64), (l11 >> 40).wrapping_mul(0x101010101010101u64), 0u64, 1u64, 1u64);
l11 = ((((((load_64(m, l4.wrapping_add(168u64)) & 392u64) ^ (((l1 << 5) | (l6 >> 59)) & 2047u64)) ^ (load_64(m, l4.wrapping_add(184u64)) & 197u64)) ^ (load_64(m, l4.wrapping_add(200u64)) & 1347u64)) ^ (load_64(m, l4.wrapping_add(216u64)) & 1961u64)) ^ (load_64(m, l4.wrapping_add(232u64)) & 981u64));
l1 = ((((((load_64(m, l4.wrapping_add(160u64)) & 0x7f74f8dc71b10651u64) ^ (l6 << 5)) ^ (load_64(m, l4.wrapping_add(176u64)) & 0x77eaeccf1990d13cu64)) ^ (load_64(m, l4.wrapping_add(192u64)) & 0xf9b7e6c38d8a2a0eu64)) ^ (load_64(m, l4.wrapping_add(208u64)) & 0xbecb6361c6c51507u64)) ^ (load_64(m, l4.wrapping_add(224u64)) & 0x9d273535ea62d897u64));
'b15: {
if (l10 != 5u64) { break 'b15; }
l12 = (((l1 >> 60) | (l11 << 4)) as u32);
l13 = (((l1 >> 55) | (l11 << 9)) as u32);
l14 = (((l1 >> 50) | (l11 << 14)) as u32);
l15 = (((l1 >> 45) | (l11 << 19)) as u32);
l16 = (((l1 >> 40) | (l11 << 24)) as u32);
l17 = (((l1 >> 35) | (l11 << 29)) as u32);
l26 = (l1 as u32);
l24 = ((l11 >> 6) as u32);
l25 = ((l11 >> 1) as u32);
l18 = ((l1 >> 30) as u32);
l19 = ((l1 >> 25) as u32);
l20 = ((l1 >> 20) as u32);
l21 = ((l1 >> 15) as u32);
l22 = ((l1 >> 10) as u32);
l23 = ((l1 >> 5) as u32);
break 'b9;
}
l6 = ((l11 >> 6).wrapping_mul(0x1020408100u64) & 0x10101010100u64).wrapping_mul(255u64);
multiply_128(m, l4.wrapping_add(144u64), ((l6 >> 8) & 255u64).wrapping_mul(0x101010101010101u64), 0u64, 1u64, 1u64);
multiply_128(m, l4.wrapping_add(128u64), ((l6 >> 16) & 255u64).wrapping_mul(0x101010101010101u64), 0u64, 1u64, 1u64);
multiply_128(m, l4.wrapping_add(112u64), ((l6 >> 24) & 255u64).wrapping_mul(0x101010101010101u64), 0u64, 1u64, 1u64);
multiply_128(m, l4.wrapping_add(96u64), ((l6 >> 32) & 255u64).wrapping_mul(0x101010101010101u64), 0u64, 1u64, 1u64);
multiply_128(m, l4.wrapping_add(80u64), (l6 >> 40).wrapping_mul(0x101010101010101u64), 0u64, 1u64, 1u64);
l6 = ((((((load_64(m, l4.wrapping_add(80u64)) & 0x7f74f8dc71b10651u64) ^ (l1 << 5)) ^ (load_64(m, l4.wrapping_add(96u64)) & 0x77eaeccf1990d13cu64)) ^ (load_64(m, l4.wrapping_add(112u64)) & 0xf9b7e6c38d8a2a0eu64)) ^ (load_64(m, l4.wrapping_add(128u64)) & 0xbecb6361c6c51507u64)) ^ (load_64(m, l4.wrapping_add(144u64)) & 0x9d273535ea62d897u64));
l11 = ((((((load_64(m, l4.wrapping_add(88u64)) & 392u64) ^ (((l11 << 5) | (l1 >> 59)) & 2047u64)) ^ (load_64(m, l4.wrapping_add(104u64)) & 197u64)) ^ (load_64(m, l4.wrapping_add(120u64)) & 1347u64)) ^ (load_64(m, l4.wrapping_add(136u64)) & 1961u64)) ^ (load_64(m, l4.wrapping_add(152u64)) & 981u64));
l1 = (l11 >> 6);
'b16: {
if (l10 != 6u64) { break 'b16; }
l12 = (((l6 >> 60) | (l11 << 4)) as u32);
l13 = (((l6 >> 55) | (l11 << 9)) as u32);
l14 = (((l6 >> 50) | (l11 << 14)) as u32);
l15 = (((l6 >> 45) | (l11 << 19)) as u32);
l16 = (((l6 >> 40) | (l11 << 24)) as u32);
l17 = (((l6 >> 35) | (l11 << 29)) as u32);
l26 = (l6 as u32);
l24 = (l1 as u32);
l25 = ((l11 >> 1) as u32);
l18 = ((l6 >> 30) as u32);
l19 = ((l6 >> 25) as u32);
l20 = ((l6 >> 20) as u32);
l21 = ((l6 >> 15) as u32);
l22 = ((l6 >> 10) as u32);
l23 = ((l6 >> 5) as u32);
break 'b9;
}
l1 = (l1.wrapping_mul(0x1020408100u64) & 0x10101010100u64).wrapping_mul(255u64);
multiply_128(m, l4.wrapping_add(64u64), ((l1 >> 8) & 255u64).wrapping_mul(0x101010101010101u64), 0u64, 1u64, 1u64);
multiply_128(m, l4.wrapping_add(48u64), ((l1 >> 16) & 255u64).wrapping_mul(0x101010101010101u64), 0u64, 1u64, 1u64);
multiply_128(m, l4.wrapping_add(32u64), ((l1 >> 24) & 255u64).wrapping_mul(0x101010101010101u64), 0u64, 1u64, 1u64);
multiply_128(m, l4.wrapping_add(16u64), ((l1 >> 32) & 255u64).wrapping_mul(0x101010101010101u64), 0u64, 1u64, 1u64);
multiply_128(m, l4, (l1 >> 40).wrapping_mul(0x101010101010101u64), 0u64, 1u64, 1u64);
l1 = ((((((load_64(m, l4) & 0x7f74f8dc71b10651u64) ^ (l6 << 5)) ^ (load_64(m, l4.wrapping_add(16u64)) & 0x77eaeccf1990d13cu64)) ^ (load_64(m, l4.wrapping_add(32u64)) & 0xf9b7e6c38d8a2a0eu64)) ^ (load_64(m, l4.wrapping_add(48u64)) & 0xbecb6361c6c51507u64)) ^ (load_64(m, l4.wrapping_add(64u64)) & 0x9d273535ea62d897u64));
l11 = ((((((load_64(m, l4.wrapping_add(8u64)) & 392u64) ^ (((l11 << 5) | (l6 >> 59)) & 2047u64)) ^ (load_64(m, l4.wrapping_add(24u64)) & 197u64)) ^ (load_64(m, l4.wrapping_add(40u64)) & 1347u64)) ^ (load_64(m, l4.wrapping_add(56u64)) & 1961u64)) ^ (load_64(m, l4.wrapping_add(72u64)) & 981u64));
l12 = (((l1 >> 60) | (l11 << 4)) as u32);
l13 = (((l1 >> 55) | (l11 << 9)) as u32);
l14 = (((l1 >> 50) | (l11 << 14)) as u32);
l15 = (((l1 >> 45) | (l11 << 19)) as u32);
l16 = (((l1 >> 40) | (l11 << 24)) as u32);
l17 = (((l1 >> 35) | (l11 << 29)) as u32);
l26 = (l1 as u32);
l24 = ((l11 >> 6) as u32);
l25 = ((l11 >> 1) as u32);
l18 = ((l1 >> 30) as u32);
l19 = ((l1 >> 25) as u32);
l20 = ((l1 >> 20) as u32);
l21 = ((l1 >> 15) as u32);
l22 = ((l1 >> 10) as u32);
l23 = ((l1 >> 5) as u32);
}
l5 = l5.wrapping_add(1u64);
l1 = l4.wrapping_add(1976u64).wrapping_add(l5.wrapping_mul(25u64));
store_64(m, l1.wrapping_add(15u64), 0u64);
store_8(m, l1.wrapping_add(14u64), (l24 & 31u32) as u8);
store_8(m, l1.wrapping_add(13u64), (l25 & 31u32) as u8);
store_8(m, l1.wrapping_add(12u64), (l12 & 31u32) as u8);
store_8(m, l1.wrapping_add(11u64), (l13 & 31u32) as u8);
store_8(m, l1.wrapping_add(10u64), (l14 & 31u32) as u8);
store_8(m, l1.wrapping_add(9u64), (l15 & 31u32) as u8);
store_8(m, l1.wrapping_add(8u64), (l16 & 31u32) as u8);
store_8(m, l1.wrapping_add(7u64), (l17 & 31u32) as u8);
store_8(m, l1.wrapping_add(6u64), (l18 & 31u32) as u8);
store_8(m, l1.wrapping_add(5u64), (l19 & 31u32) as u8);
store_8(m, l1.wrapping_add(4u64), (l20 & 31u32) as u8);
store_8(m, l1.wrapping_add(3u64), (l21 & 31u32) as u8);
store_8(m, l1.wrapping_add(2u64), (l22 & 31u32) as u8);
store_8(m, l1.wrapping_add(1u64), (l23 & 31u32) as u8);
store_8(m, l1, (l26 & 31u32) as u8);
store_16(m, l1.wrapping_add(23u64), 0u32 as u16);
if (l5 != l3) { continue 'b5; }
break 'b5;
}
}
copy(m, l4.wrapping_add(644u64), l4.wrapping_add(1976u64), 650u64);
copy(m, l4.wrapping_add(1294u64), l4.wrapping_add(644u64), 650u64);
f63(m, g, l4.wrapping_add(1944u64), l4.wrapping_add(1294u64), l3, 15u64);
let t9 = (load_8(m, l4.wrapping_add(1944u64)) as u32);
store_8(m, l0, t9 as u8);
let t10 = load_64(m, l4.wrapping_add(1945u64));
store_64(m, l0.wrapping_add(1u64), t10);
let t11 = load_64(m, l4.wrapping_add(1953u64));
store_64(m, l0.wrapping_add(9u64), t11);
let t12 = load_64(m, l4.wrapping_add(1961u64));
store_64(m, l0.wrapping_add(17u64), t12);
let t13 = (load_16(m, l4.wrapping_add(1969u64)) as u32);
store_16(m, l0.wrapping_add(25u64), t13 as u16);
break 'b1;
}
}
g = l4.wrapping_add(2672u64);
}

// bech32_lookup::correction::correct_by_roots::<#caf49f828756fa55>
fn f44(m: &mut [u8], mut g: u64, mut l0: u64, mut l1: u64, mut l2: u64, mut l3: u64, mut l4: u64, mut l5: u64) {
let mut l6: u64 = 0;
let mut l7: u64 = 0;
let mut l8: u32 = 0;
let mut l9: u64 = 0;
let mut l10: u64 = 0;
let mut l11: u64 = 0;
let mut l12: u32 = 0;
let mut l13: u64 = 0;
let mut l14: u64 = 0;
let mut l15: u64 = 0;
let mut l16: u64 = 0;
let mut l17: u32 = 0;
let mut l18: u64 = 0;
let mut l19: u64 = 0;
l6 = g.wrapping_sub(528u64);
g = l6;
'b1: {
'b2: {
{
l7 = l6;
fill(m, l7.wrapping_add(392u64), 0u32 as u8, 136u64);
fill(m, l7.wrapping_add(240u64), 0u32 as u8, 152u64);
fill(m, l7.wrapping_add(88u64), 0u32 as u8, 128u64);
store_64(m, l7.wrapping_add(232u64), 8u64);
store_64(m, l7.wrapping_add(224u64), 1019u64);
store_64(m, l7.wrapping_add(216u64), 1561u64);
f64(m, g, l7.wrapping_add(240u64), l1, l7.wrapping_add(216u64), l2, l3, l4, l5);
'b4: {
'b5: {
'b6: {
if ((load_8(m, l7.wrapping_add(240u64)) as u32) != 0) { break 'b6; }
if ((load_8(m, l7.wrapping_add(248u64)) as u32) != 1u32) { break 'b2; }
l8 = (load_8(m, l7.wrapping_add(256u64)) as u32);
l9 = ((l8 as u64) & 255u64);
store_64(m, l7.wrapping_add(392u64), l9);
l6 = l7.wrapping_add(400u64);
l10 = l7.wrapping_add(264u64);
copy(m, l6, l10, 128u64);
l11 = load_64(m, l7.wrapping_add(400u64));
l12 = (l8 & 255u32);
l13 = load_64(m, l7.wrapping_add(392u64).wrapping_add((if (l12 != 0) { 16u64 } else { 120u64 })));
if !(l13 == 0) { break 'b5; }
l1 = 0u64;
l14 = 0u64;
break 'b4;
}
store_8(m, l0, 1u32 as u8);
fill(m, l0.wrapping_add(8u64), 0u32 as u8, 144u64);
break 'b1;
}
l15 = (if (l12 != 0) { l11 } else { l6 });
l4 = (l13 & 3u64);
l16 = l13.wrapping_add(0xffffffffffffffffu64);
l5 = 0u64;
l2 = 0u64;
'b7: {
'b8: {
if (l13 < 4u64) { break 'b8; }
l14 = (l13 & 0xfffffffffffffffcu64);
l5 = 0u64;
l6 = l15;
l2 = 0u64;
'b9: loop {
l1 = load_64(m, l6);
l5 = (if (l5 > l1) { l5 } else { l1 });
l1 = load_64(m, l6.wrapping_add(16u64));
l5 = (if (l5 > l1) { l5 } else { l1 });
l1 = load_64(m, l6.wrapping_add(32u64));
l5 = (if (l5 > l1) { l5 } else { l1 });
l1 = load_64(m, l6.wrapping_add(48u64));
l5 = (if (l5 > l1) { l5 } else { l1 });
l6 = l6.wrapping_add(64u64);
l2 = l2.wrapping_add(4u64);
if (l14 != l2) { continue 'b9; }
break 'b9;
}
if (l4 == 0) { break 'b7; }
}
l6 = l15.wrapping_add((l2 << 4));
'b10: loop {
l2 = load_64(m, l6);
l5 = (if (l5 > l2) { l5 } else { l2 });
l6 = l6.wrapping_add(16u64);
l4 = l4.wrapping_add(0xffffffffffffffffu64);
if (l4 != 0u64) { continue 'b10; }
break 'b10;
}
}
'b11: {
'b12: {
'b13: {
l17 = ((l16 == 0) as u32);
if (l17 == 0) { break 'b13; }
l12 = 0u32;
l4 = l13;
break 'b12;
}
l1 = (l13 & 1u64);
l2 = (l13 & 0xfffffffffffffffeu64);
l6 = (l13 << 4).wrapping_add(l15).wrapping_add(0xffffffffffffffe0u64);
l12 = 0u32;
l4 = l13;
'b14: loop {
'b15: {
if (load_64(m, l6.wrapping_add(16u64)) != l5) { break 'b15; }
l12 = ((load_8(m, l6.wrapping_add(24u64)) as u32) ^ l12);
}
'b16: {
if (load_64(m, l6) != l5) { break 'b16; }
l12 = ((load_8(m, l6.wrapping_add(8u64)) as u32) ^ l12);
}
l4 = l4.wrapping_add(0xfffffffffffffffeu64);
l6 = l6.wrapping_add(0xffffffffffffffe0u64);
l2 = l2.wrapping_add(0xfffffffffffffffeu64);
if (l2 != 0u64) { continue 'b14; }
break 'b14;
}
if (l1 == 0) { break 'b11; }
}
l6 = l15.wrapping_add((l4 << 4));
if (load_64(m, l6.wrapping_add(0xfffffffffffffff0u64)) != l5) { break 'b11; }
l12 = ((load_8(m, l6.wrapping_add(0xfffffffffffffff8u64)) as u32) ^ l12);
}
l6 = (l12 as u64);
'b17: {
if !(l5 == 0) { break 'b17; }
l1 = (l6 & 255u64);
l14 = 0u64;
break 'b4;
}
l16 = (l13 & 0xfffffffffffffffeu64);
l18 = (l13 & 1u64);
l1 = (l6 & 255u64);
l19 = (l13 << 4).wrapping_add(l15).wrapping_add(0xffffffffffffffe0u64);
l14 = 0u64;
'b18: loop {
l5 = l5.wrapping_add(0xffffffffffffffffu64);
l12 = 0u32;
'b19: {
'b20: {
'b21: {
if (l17 == 0) { break 'b21; }
l4 = l13;
break 'b20;
}
l2 = l16;
l6 = l19;
l4 = l13;
'b22: loop {
'b23: {
if (load_64(m, l6.wrapping_add(16u64)) != l5) { break 'b23; }
l12 = ((load_8(m, l6.wrapping_add(24u64)) as u32) ^ l12);
}
'b24: {
if (load_64(m, l6) != l5) { break 'b24; }
l12 = ((load_8(m, l6.wrapping_add(8u64)) as u32) ^ l12);
}
l4 = l4.wrapping_add(0xfffffffffffffffeu64);
l6 = l6.wrapping_add(0xffffffffffffffe0u64);
l2 = l2.wrapping_add(0xfffffffffffffffeu64);
if (l2 != 0u64) { continue 'b22; }
break 'b22;
}
if (l18 == 0) { break 'b19; }
}
l6 = l15.wrapping_add((l4 << 4));
if (load_64(m, l6.wrapping_add(0xfffffffffffffff0u64)) != l5) { break 'b19; }
l12 = ((load_8(m, l6.wrapping_add(0xfffffffffffffff8u64)) as u32) ^ l12);
}
l6 = (((l14 >> 6) & 31u64).wrapping_mul(0x1020408100u64) & 0x10101010100u64).wrapping_mul(255u64);
multiply_128(m, l7.wrapping_add(64u64), ((l6 >> 8) & 255u64).wrapping_mul(0x101010101010101u64), 0u64, 1u64, 1u64);
multiply_128(m, l7.wrapping_add(48u64), ((l6 >> 16) & 255u64).wrapping_mul(0x101010101010101u64), 0u64, 1u64, 1u64);
multiply_128(m, l7.wrapping_add(32u64), ((l6 >> 24) & 255u64).wrapping_mul(0x101010101010101u64), 0u64, 1u64, 1u64);
multiply_128(m, l7.wrapping_add(16u64), ((l6 >> 32) & 255u64).wrapping_mul(0x101010101010101u64), 0u64, 1u64, 1u64);
multiply_128(m, l7, (l6 >> 40).wrapping_mul(0x101010101010101u64), 0u64, 1u64, 1u64);
l6 = (l1 << 5);
l4 = l6.wrapping_add(((l12 as u64) & 255u64));
let t1 = ((((((load_64(m, l7.wrapping_add(24u64)) & 197u64) ^ (load_64(m, l7.wrapping_add(8u64)) & 392u64)) ^ (load_64(m, l7.wrapping_add(40u64)) & 1347u64)) ^ (load_64(m, l7.wrapping_add(56u64)) & 1961u64)) ^ (load_64(m, l7.wrapping_add(72u64)) & 981u64)) ^ (((l14 << 5) | (l1 >> 59)) & 2047u64).wrapping_add((((l4 < l6) as u32) as u64)));
l14 = t1;
l1 = ((((((load_64(m, l7.wrapping_add(16u64)) & 0x77eaeccf1990d13cu64) ^ (load_64(m, l7) & 0x7f74f8dc71b10651u64)) ^ (load_64(m, l7.wrapping_add(32u64)) & 0xf9b7e6c38d8a2a0eu64)) ^ (load_64(m, l7.wrapping_add(48u64)) & 0xbecb6361c6c51507u64)) ^ (load_64(m, l7.wrapping_add(64u64)) & 0x9d273535ea62d897u64)) ^ l4);
if (l5 != 0u64) { continue 'b18; }
break 'b18;
}
}
'b25: {
'b26: {
let t2 = f65(m, g, l1, l14, l3);
if (t2 == 0) { break 'b26; }
copy(m, l7.wrapping_add(88u64), l10, 128u64);
l6 = 1u64;
break 'b25;
}
fill(m, l7.wrapping_add(88u64), 0u32 as u8, 128u64);
l6 = 0u64;
'b27: {
if ((l8 & 255u32) != 1u32) { break 'b27; }
l4 = load_64(m, l7.wrapping_add(416u64));
if (l4 == 0) { break 'b27; }
'b28: {
l5 = load_64(m, load_64(m, l7.wrapping_add(424u64)));
if (load_64(m, l5.wrapping_add(16u64)) != 1u64) { break 'b28; }
l2 = load_64(m, l5.wrapping_add(8u64));
let t3 = load_64(m, l2);
l2 = l2.wrapping_add(32u64);
l1 = load_64(m, l2);
if (l11 != t3.wrapping_add(l1)) { break 'b28; }
store_64(m, l2, l1.wrapping_add((l4 << 4)));
}
l5 = l5.wrapping_add(24u64);
let t4 = load_64(m, l5).wrapping_add(0xffffffffffffffffu64);
store_64(m, l5, t4);
}
l9 = 0u64;
}
store_8(m, l0, 0u32 as u8);
store_64(m, l0.wrapping_add(16u64), l9);
store_64(m, l0.wrapping_add(8u64), l6);
copy(m, l0.wrapping_add(24u64), l7.wrapping_add(88u64), 128u64);
break 'b1;
}
}
store_8(m, l0, 0u32 as u8);
fill(m, l0.wrapping_add(8u64), 0u32 as u8, 144u64);
}
g = l7.wrapping_add(528u64);
}

// codex32::mending::mended_in::<#5cbb2588ac938988>
fn f45(m: &mut [u8], mut g: u64, mut l0: u64, mut l1: u64, mut l2: u64, mut l3: u64, mut l4: u64, mut l5: u64) {
let mut l6: u64 = 0;
let mut l7: u64 = 0;
let mut l8: u32 = 0;
let mut l9: u64 = 0;
let mut l10: u64 = 0;
let mut l11: u64 = 0;
let mut l12: u32 = 0;
l6 = g.wrapping_sub(224u64);
g = l6;
'b1: {
'b2: {
'b3: {
'b4: {
{
l7 = l6;
store_64(m, l7.wrapping_add(144u64), 0u64);
store_64(m, l7.wrapping_add(136u64), 0u64);
fill(m, l7.wrapping_add(12u64), 0u32 as u8, 124u64);
'b6: {
l8 = ((l3 == 0) as u32);
if (l8 != 0) { break 'b6; }
l6 = l7.wrapping_add(12u64);
l9 = l3;
'b7: loop {
let t1 = (load_8(m, l2) as u32);
let t2 = f21(m, g, t1);
store_8(m, l6, (t2 & 255u32) as u8);
l2 = l2.wrapping_add(1u64);
l6 = l6.wrapping_add(1u64);
l9 = l9.wrapping_add(0xffffffffffffffffu64);
if (l9 != 0u64) { continue 'b7; }
break 'b7;
}
}
'b8: {
if (l5 == 0) { break 'b8; }
l9 = l7.wrapping_add(12u64).wrapping_add(l3);
l6 = 0u64;
'b9: {
if (l5 == 1u64) { break 'b9; }
l10 = (l5 & 1u64);
l11 = (l5 & 0xfffffffffffffffeu64);
l6 = 0u64;
l2 = l4;
'b10: loop {
l5 = l9.wrapping_add((load_64(m, l2) ^ 0xffffffffffffffffu64));
let t3 = ((load_8(m, l5) as u32) ^ (load_8(m, l2.wrapping_add(8u64)) as u32));
store_8(m, l5, t3 as u8);
l5 = l9.wrapping_add((load_64(m, l2.wrapping_add(16u64)) ^ 0xffffffffffffffffu64));
let t4 = ((load_8(m, l5) as u32) ^ (load_8(m, l2.wrapping_add(24u64)) as u32));
store_8(m, l5, t4 as u8);
l2 = l2.wrapping_add(32u64);
l6 = l6.wrapping_add(2u64);
if (l11 != l6) { continue 'b10; }
break 'b10;
}
if (l10 == 0) { break 'b8; }
}
l2 = l4.wrapping_add((l6 << 4));
l6 = l9.wrapping_add((load_64(m, l2) ^ 0xffffffffffffffffu64));
let t5 = ((load_8(m, l6) as u32) ^ (load_8(m, l2.wrapping_add(8u64)) as u32));
store_8(m, l6, t5 as u8);
}
l9 = 0u64;
store_64(m, l7.wrapping_add(192u64), 0u64);
store_64(m, l7.wrapping_add(200u64), 0u64);
store_64(m, l7.wrapping_add(208u64), l1);
store_64(m, l7.wrapping_add(184u64), l7.wrapping_add(223u64));
l2 = l3.wrapping_add(3u64);
if (l2 == 0) { break 'b4; }
let t6 = f50(m, g, l7.wrapping_add(184u64), l2);
l12 = t6;
l6 = load_64(m, l7.wrapping_add(184u64));
'b11: {
if (l12 != 0) { break 'b11; }
'b12: {
l9 = load_64(m, l7.wrapping_add(200u64));
if (l9 == 0) { break 'b12; }
'b13: {
l2 = load_64(m, l7.wrapping_add(208u64));
if (load_64(m, l2.wrapping_add(16u64)) != 1u64) { break 'b13; }
l3 = load_64(m, l2.wrapping_add(8u64));
let t7 = load_64(m, l3);
l3 = l3.wrapping_add(32u64);
l5 = load_64(m, l3);
if (l6 != t7.wrapping_add(l5)) { break 'b13; }
store_64(m, l3, l5.wrapping_add(l9));
}
l2 = l2.wrapping_add(24u64);
let t8 = load_64(m, l2).wrapping_add(0xffffffffffffffffu64);
store_64(m, l2, t8);
}
l6 = 0u64;
store_64(m, l7.wrapping_add(136u64), 0u64);
store_64(m, l7.wrapping_add(144u64), 0u64);
l8 = 1u32;
l9 = 0u64;
break 'b1;
}
let t9 = load_64(m, l7.wrapping_add(200u64));
store_64(m, l7.wrapping_add(168u64), t9);
let t10 = load_64(m, l7.wrapping_add(208u64));
store_64(m, l7.wrapping_add(176u64), t10);
l9 = load_64(m, l7.wrapping_add(192u64));
'b14: {
if (l2 == 1u64) { break 'b14; }
'b15: {
l2 = l3.wrapping_add(2u64);
if (l2 == 0) { break 'b15; }
fill(m, l6.wrapping_add(l9), 0u32 as u8, l2);
}
l9 = l9.wrapping_add(l2);
}
store_8(m, l6.wrapping_add(l9), 0u32 as u8);
let t11 = load_64(m, l7.wrapping_add(168u64));
store_64(m, l7.wrapping_add(152u64), t11);
let t12 = load_64(m, l7.wrapping_add(176u64));
store_64(m, l7.wrapping_add(160u64), t12);
store_8(m, l6.wrapping_add(2u64), 49u32 as u8);
store_16(m, l6, 29549u32 as u16);
l9 = l9.wrapping_add(1u64);
if (l8 != 0) { break 'b2; }
break 'b3;
}
}
let t13 = load_64(m, l7.wrapping_add(200u64));
store_64(m, l7.wrapping_add(152u64), t13);
let t14 = load_64(m, l7.wrapping_add(208u64));
store_64(m, l7.wrapping_add(160u64), t14);
l6 = l7.wrapping_add(223u64);
}
l2 = 0u64;
'b16: loop {
let t15 = (load_8(m, l7.wrapping_add(12u64).wrapping_add(l2)) as u32);
let t16 = f28(m, g, t15);
store_8(m, l6.wrapping_add(l2).wrapping_add(3u64), t16 as u8);
l2 = l2.wrapping_add(1u64);
if (l3 != l2) { continue 'b16; }
break 'b16;
}
}
let t17 = load_64(m, l7.wrapping_add(160u64));
store_64(m, l7.wrapping_add(144u64), t17);
let t18 = load_64(m, l7.wrapping_add(152u64));
store_64(m, l7.wrapping_add(136u64), t18);
l8 = 0u32;
}
store_8(m, l0, l8 as u8);
store_64(m, l0.wrapping_add(16u64), l9);
store_64(m, l0.wrapping_add(8u64), l6);
let t19 = load_64(m, l7.wrapping_add(136u64));
store_64(m, l0.wrapping_add(24u64), t19);
let t20 = load_64(m, l7.wrapping_add(144u64));
store_64(m, l0.wrapping_add(32u64), t20);
g = l7.wrapping_add(224u64);
}

// codex32::damaged::is_separator
fn f46(m: &mut [u8], mut g: u64, mut l0: u32) -> u32 {
{
return (((l0 & 255u32) == 49u32) as u32);
}
}

// codex32::damaged::is_data_character
fn f47(m: &mut [u8], mut g: u64, mut l0: u32) -> u32 {
let mut l2: u32 = 0;
let mut l3: u32 = 0;
let mut l4: u32 = 0;
{
'b2: {
if (l0 < 128u32) { break 'b2; }
return 0u32;
}
'b3: {
let t1 = f49(m, g, l0);
if (t1 == 0) { break 'b3; }
return 1u32;
}
l2 = ((l0 ^ 79u32) & 223u32);
l3 = ((l0 ^ 73u32) & 223u32);
l4 = ((l0 ^ 66u32) & 223u32);
let t2 = ((((l0.wrapping_add(0xffffffd0u32) & 255u32) < 10u32) as u32) | ((((l0 & 95u32).wrapping_add(0xffffffbfu32) & 255u32) < 26u32) as u32));
l0 = ((l0 ^ 17u32) & 223u32);
l0 = (if (l4 < l0) { l4 } else { l0 });
l0 = (if (l3 < l0) { l3 } else { l0 });
return (t2 & (((if (l2 < l0) { l2 } else { l0 }) != 0u32) as u32));
}
}

// codex32::damaged::unseparated
fn f48(m: &mut [u8], mut g: u64, mut l0: u64, mut l1: u32, mut l2: u64, mut l3: u64) {
let mut l4: u64 = 0;
l4 = g.wrapping_sub(80u64);
g = l4;
'b1: {
fill(m, l4.wrapping_add(8u64), 0u32 as u8, 72u64);
f16(m, g, l4.wrapping_add(8u64), l1, l2, l3);
if ((load_8(m, l4.wrapping_add(8u64)) as u32) == 0) { break 'b1; }
let t1 = (load_8(m, l4.wrapping_add(16u64)) as u64);
store_64(m, l0, t1);
let t2 = (load_8(m, l4.wrapping_add(24u64)) as u32);
store_8(m, l0.wrapping_add(8u64), t2 as u8);
let t3 = load_64(m, l4.wrapping_add(25u64));
store_64(m, l0.wrapping_add(9u64), t3);
let t4 = load_64(m, l4.wrapping_add(33u64));
store_64(m, l0.wrapping_add(17u64), t4);
let t5 = load_64(m, l4.wrapping_add(41u64));
store_64(m, l0.wrapping_add(25u64), t5);
let t6 = load_64(m, l4.wrapping_add(49u64));
store_64(m, l0.wrapping_add(33u64), t6);
let t7 = load_64(m, l4.wrapping_add(57u64));
store_64(m, l0.wrapping_add(41u64), t7);
let t8 = load_64(m, l4.wrapping_add(65u64));
store_64(m, l0.wrapping_add(49u64), t8);
let t9 = (load_16(m, l4.wrapping_add(73u64)) as u32);
store_16(m, l0.wrapping_add(57u64), t9 as u16);
g = l4.wrapping_add(80u64);
return;
}
trap();
}

// codex32::unreadable::is_unreadable
fn f49(m: &mut [u8], mut g: u64, mut l0: u32) -> u32 {
{
return (((l0 & 255u32) == 63u32) as u32);
}
}

// std_alloc::vec::Vec::move_to::<#e370cc7bdd107069>
fn f50(m: &mut [u8], mut g: u64, mut l0: u64, mut l1: u64) -> u32 {
let mut l2: u64 = 0;
let mut l3: u64 = 0;
let mut l4: u32 = 0;
let mut l5: u64 = 0;
let mut l6: u64 = 0;
let mut l7: u64 = 0;
let mut l8: u64 = 0;
let mut l9: u64 = 0;
let mut l10: u64 = 0;
let mut l11: u64 = 0;
let mut l12: u64 = 0;
let mut l13: u64 = 0;
let mut l14: u64 = 0;
let mut l15: u32 = 0;
l2 = g.wrapping_sub(32u64);
g = l2;
{
l3 = l2;
l4 = 0u32;
'b2: {
if ((l1 as i64) <= (0xffffffffffffffffu64 as i64)) { break 'b2; }
l5 = load_64(m, l0.wrapping_add(24u64));
'b3: {
'b4: {
l6 = load_64(m, l0.wrapping_add(16u64));
if (l6 == 0) { break 'b4; }
l7 = load_64(m, l0);
l2 = load_64(m, l5.wrapping_add(16u64));
'b5: {
'b6: {
'b7: {
'b8: {
l8 = load_64(m, l0.wrapping_add(8u64));
l9 = l1.wrapping_sub(l6);
if (l8 > l9) { break 'b8; }
if (l2 != 1u64) { break 'b8; }
l2 = load_64(m, l5.wrapping_add(8u64));
l10 = load_64(m, l2.wrapping_add(32u64));
if (l10 < l9) { break 'b7; }
l11 = load_64(m, l2);
if (l7 != l11.wrapping_add(l10)) { break 'b7; }
let t1 = l2.wrapping_add(32u64);
l2 = l10.wrapping_sub(l9);
store_64(m, t1, l2);
'b9: {
l12 = l11.wrapping_add(l2);
if (l12.wrapping_sub(l7) >= l8) { break 'b9; }
l13 = (l8 & 3u64);
l9 = 0u64;
'b10: {
if (l8 < 4u64) { break 'b10; }
l5 = l11.wrapping_add(l2);
l14 = (l8 & 0xfffffffffffffffcu64);
l9 = 0u64;
'b11: loop {
l2 = l5.wrapping_add(l9);
l8 = l7.wrapping_add(l9);
let t2 = (load_8(m, l8) as u32);
store_8(m, l2, t2 as u8);
let t3 = (load_8(m, l8.wrapping_add(1u64)) as u32);
store_8(m, l2.wrapping_add(1u64), t3 as u8);
let t4 = (load_8(m, l8.wrapping_add(2u64)) as u32);
store_8(m, l2.wrapping_add(2u64), t4 as u8);
let t5 = (load_8(m, l8.wrapping_add(3u64)) as u32);
store_8(m, l2.wrapping_add(3u64), t5 as u8);
l9 = l9.wrapping_add(4u64);
if (l14 != l9) { continue 'b11; }
break 'b11;
}
if (l13 == 0) { break 'b3; }
}
l2 = l7.wrapping_add(l9);
l9 = l11.wrapping_add(l9.wrapping_add(l10).wrapping_add(l6).wrapping_sub(l1));
'b12: loop {
let t6 = (load_8(m, l2) as u32);
store_8(m, l9, t6 as u8);
l9 = l9.wrapping_add(1u64);
l2 = l2.wrapping_add(1u64);
l13 = l13.wrapping_add(0xffffffffffffffffu64);
if (l13 != 0u64) { continue 'b12; }
break 'b3;
}
}
if (l8 == 0) { break 'b3; }
copy(m, l12, l7, l8);
break 'b3;
}
if (l2 == 0) { break 'b6; }
l2 = load_64(m, l5.wrapping_add(8u64));
l10 = load_64(m, l2.wrapping_add(32u64));
}
if (l10 < l1) { break 'b6; }
l9 = l10.wrapping_sub(l1);
store_64(m, l2.wrapping_add(32u64), l9);
l12 = load_64(m, l2).wrapping_add(l9);
l15 = 1u32;
break 'b5;
}
f52(m, g, l3.wrapping_add(16u64), l5, l1, 1u64);
l12 = load_64(m, l3.wrapping_add(24u64));
l15 = (load_8(m, l3.wrapping_add(16u64)) as u32);
}
if ((l15 & 1u32) == 0) { break 'b2; }
l2 = l5.wrapping_add(24u64);
l9 = load_64(m, l2);
if (l9 == 0xffffffffffffffffu64) { break 'b2; }
store_64(m, l2, l9.wrapping_add(1u64));
'b13: {
'b14: {
if (l12.wrapping_sub(l7) >= l8) { break 'b14; }
l13 = (l8 & 3u64);
l9 = 0u64;
'b15: {
if (l8 < 4u64) { break 'b15; }
l10 = (l8 & 0xfffffffffffffffcu64);
l9 = 0u64;
'b16: loop {
l2 = l12.wrapping_add(l9);
l8 = l7.wrapping_add(l9);
let t7 = (load_8(m, l8) as u32);
store_8(m, l2, t7 as u8);
let t8 = (load_8(m, l8.wrapping_add(1u64)) as u32);
store_8(m, l2.wrapping_add(1u64), t8 as u8);
let t9 = (load_8(m, l8.wrapping_add(2u64)) as u32);
store_8(m, l2.wrapping_add(2u64), t9 as u8);
let t10 = (load_8(m, l8.wrapping_add(3u64)) as u32);
store_8(m, l2.wrapping_add(3u64), t10 as u8);
l9 = l9.wrapping_add(4u64);
if (l10 != l9) { continue 'b16; }
break 'b16;
}
if (l13 == 0) { break 'b13; }
}
l2 = l12.wrapping_add(l9);
l9 = l7.wrapping_add(l9);
'b17: loop {
let t11 = (load_8(m, l9) as u32);
store_8(m, l2, t11 as u8);
l2 = l2.wrapping_add(1u64);
l9 = l9.wrapping_add(1u64);
l13 = l13.wrapping_add(0xffffffffffffffffu64);
if (l13 != 0u64) { continue 'b17; }
break 'b13;
}
}
if (l8 == 0) { break 'b13; }
copy(m, l12, l7, l8);
}
'b18: {
if (load_64(m, l5.wrapping_add(16u64)) != 1u64) { break 'b18; }
l2 = load_64(m, l5.wrapping_add(8u64));
let t12 = load_64(m, l2);
l2 = l2.wrapping_add(32u64);
l9 = load_64(m, l2);
if (l7 != t12.wrapping_add(l9)) { break 'b18; }
store_64(m, l2, l9.wrapping_add(l6));
}
l2 = l5.wrapping_add(24u64);
let t13 = load_64(m, l2).wrapping_add(0xffffffffffffffffu64);
store_64(m, l2, t13);
break 'b3;
}
'b19: {
'b20: {
if (load_64(m, l5.wrapping_add(16u64)) == 0) { break 'b20; }
l2 = load_64(m, l5.wrapping_add(8u64));
l9 = l2.wrapping_add(32u64);
l8 = load_64(m, l9);
if (l8 < l1) { break 'b20; }
l8 = l8.wrapping_sub(l1);
store_64(m, l9, l8);
l12 = load_64(m, l2).wrapping_add(l8);
l15 = 1u32;
break 'b19;
}
f52(m, g, l3, l5, l1, 1u64);
l12 = load_64(m, l3.wrapping_add(8u64));
l15 = (load_8(m, l3) as u32);
}
if ((l15 & 1u32) == 0) { break 'b2; }
l2 = l5.wrapping_add(24u64);
l9 = load_64(m, l2);
if (l9 == 0xffffffffffffffffu64) { break 'b2; }
store_64(m, l2, l9.wrapping_add(1u64));
}
store_64(m, l0, l12);
store_64(m, l0.wrapping_add(16u64), l1);
l4 = 1u32;
}
g = l3.wrapping_add(32u64);
return l4;
}
}

// std_alloc::vec::Vec::grow_amortized::<#e370cc7bdd107069>
fn f51(m: &mut [u8], mut g: u64, mut l0: u64) -> u32 {
let mut l2: u64 = 0;
let mut l3: u64 = 0;
let mut l4: u64 = 0;
let mut l5: u32 = 0;
{
'b2: {
l2 = load_64(m, l0.wrapping_add(8u64));
if (l2 != 0xffffffffffffffffu64) { break 'b2; }
return 0u32;
}
l2 = (if (l2 > 7u64) { l2 } else { 7u64 }).wrapping_add(1u64);
l3 = load_64(m, l0.wrapping_add(16u64));
l4 = (l3 << 1);
let t1 = f50(m, g, l0, (if (l3 < 0x4000000000000000u64) { (if (l2 > l4) { l2 } else { l4 }) } else { l2 }));
l5 = t1;
return l5;
}
}

// bumpalo::bump::Bump::alloc_layout_slow::<#76ce7701d75dc99b>
fn f52(m: &mut [u8], mut g: u64, mut l0: u64, mut l1: u64, mut l2: u64, mut l3: u64) {
let mut l4: u64 = 0;
let mut l5: u64 = 0;
let mut l6: u64 = 0;
let mut l7: u32 = 0;
let mut l8: u32 = 0;
let mut l9: u32 = 0;
let mut l10: u64 = 0;
let mut l11: u64 = 0;
let mut l12: u64 = 0;
let mut l13: u64 = 0;
let mut l14: u64 = 0;
let mut l15: u64 = 0;
let mut l16: u64 = 0;
let mut l17: u32 = 0;
let mut l18: u64 = 0;
let mut l19: u64 = 0;
let mut l20: u64 = 0;
{
l4 = 0u64;
l5 = 0u64;
l6 = 0u64;
'b2: {
if (load_64(m, l1.wrapping_add(16u64)) == 0) { break 'b2; }
l6 = load_64(m, l1.wrapping_add(8u64));
l5 = load_64(m, l6.wrapping_add(8u64)).wrapping_add(0xffffffffffffffd0u64);
l6 = load_64(m, l6.wrapping_add(40u64));
}
l7 = 0u32;
l8 = 0u32;
'b3: {
l9 = (load_8(m, l1.wrapping_add(32u64)) as u32);
if (l9 != 1u32) { break 'b3; }
l10 = load_64(m, l1.wrapping_add(40u64));
l11 = l10.wrapping_sub(l6);
l4 = (if (l11 > l10) { 0u64 } else { l11 });
l8 = (((l6 == 0) as u32) & (((l2 < l10) as u32) & ((l10 < 448u64) as u32)));
}
l12 = 0u64;
'b4: {
if ((l5 as i64) < (0u64 as i64)) { break 'b4; }
l12 = 0u64;
if (l2 > 0x4000000000000000u64) { break 'b4; }
l6 = (l2 & 15u64);
l11 = (if (l6 == 0) { 0u64 } else { 16u64.wrapping_sub(l6) }).wrapping_add(l2);
l10 = (if (l2 > 448u64) { l2 } else { 448u64 });
l5 = (l5 << 1);
l5 = (if (l10 > l5) { l10 } else { l5 });
'b5: {
'b6: {
'b7: loop {
'b8: {
if (l5 > 0x4000000000000000u64) { break 'b8; }
l6 = (if (l11 > l5) { l11 } else { l5 });
l13 = (if (l6 > 16u64) { l6 } else { 16u64 });
'b9: {
'b10: {
if (l6 > 4095u64) { break 'b10; }
l6 = (1u64 << (0u64.wrapping_sub((l13.wrapping_add(63u64).leading_zeros() as u64)) & 63));
break 'b9;
}
l6 = l13.wrapping_add(64u64);
l13 = (l6 & 4095u64);
l6 = (if (l13 == 0) { 0u64 } else { 4096u64.wrapping_sub(l13) }).wrapping_add(l6);
}
l13 = l6.wrapping_add(0xffffffffffffffc0u64);
'b11: {
'b12: {
if ((l9 & 1u32) == 0) { break 'b12; }
if (l4 < l13) { break 'b11; }
}
if (l6 < 16u64) { break 'b11; }
l14 = l6.wrapping_add(0xfffffffffffffff0u64);
l15 = load_64(m, l1);
if (l14 > (load_64(m, l15.wrapping_add(24u64)) & 0xfffffffffffffff0u64)) { break 'b11; }
l16 = 0u64;
store_64(m, l15.wrapping_add(16u64), 0u64);
l17 = (load_8(m, l15) as u32);
store_64(m, l15, 0u64);
l15 = l15.wrapping_add(8u64);
l18 = load_64(m, l15);
store_64(m, l15, 0u64);
if (l17 != 1u32) { break 'b11; }
l15 = load_64(m, l1.wrapping_add(8u64));
l19 = l1.wrapping_add(16u64);
l20 = load_64(m, l19);
if (l20 == 0) { break 'b5; }
l16 = load_64(m, l15.wrapping_add(40u64));
if (l16 <= 63u64.wrapping_sub(l6)) { break 'b5; }
l6 = load_64(m, l1);
store_64(m, l6, 1u64);
store_64(m, l6.wrapping_add(8u64), l18);
let t1 = load_64(m, l6.wrapping_add(24u64));
store_64(m, l6.wrapping_add(16u64), t1);
}
if (l5 == 0u64) { break 'b6; }
}
l5 = (l5 >> 1);
if (l10 <= l5) { continue 'b7; }
if ((l8 & ((l2 <= l5) as u32)) == 0) { break 'b4; }
continue 'b7;
}
}
l12 = 0u64;
break 'b4;
}
l5 = l18.wrapping_add(l13);
store_64(m, l5.wrapping_add(40u64), l16.wrapping_add(l13));
store_64(m, l5.wrapping_add(24u64), l15);
store_64(m, l5.wrapping_add(16u64), 16u64);
store_64(m, l5.wrapping_add(8u64), l14);
store_64(m, l5, l18);
l10 = l5.wrapping_add(32u64);
store_64(m, l10, l13);
l6 = l20.wrapping_add(1u64);
store_64(m, l19, l6);
store_64(m, l1.wrapping_add(8u64), l5);
l12 = 0u64;
if (l6 == 0) { break 'b4; }
l12 = 0u64;
l6 = (load_64(m, l10) & 0u64.wrapping_sub(l3));
if (l6 < l2) { break 'b4; }
l6 = l6.wrapping_sub(l2);
store_64(m, l5.wrapping_add(32u64), l6);
l12 = load_64(m, l5).wrapping_add(l6);
l7 = 1u32;
}
store_64(m, l0.wrapping_add(8u64), l12);
store_8(m, l0, l7 as u8);
return;
}
}

// std_alloc::vec::Vec::grow_amortized::<#294c06f162e3ba33>
fn f53(m: &mut [u8], mut g: u64, mut l0: u64) -> u32 {
let mut l1: u64 = 0;
let mut l2: u32 = 0;
let mut l3: u64 = 0;
let mut l4: u64 = 0;
let mut l5: u64 = 0;
let mut l6: u64 = 0;
let mut l7: u64 = 0;
let mut l8: u32 = 0;
let mut l9: u64 = 0;
let mut l10: u32 = 0;
l1 = g.wrapping_sub(32u64);
g = l1;
{
l2 = 0u32;
'b2: {
l3 = load_64(m, l0.wrapping_add(8u64));
if (l3 == 0xffffffffffffffffu64) { break 'b2; }
l4 = (if (l3 > 3u64) { l3 } else { 3u64 }).wrapping_add(1u64);
l5 = load_64(m, l0.wrapping_add(16u64));
l6 = (l5 << 1);
l6 = (if (l4 > l6) { l4 } else { l6 });
l4 = (if (l5 < 0x4000000000000000u64) { l6 } else { l4 });
if (l4 > 0xfffffffffffffffu64) { break 'b2; }
l7 = l0.wrapping_add(24u64);
'b3: {
'b4: {
if (l5 == 0) { break 'b4; }
let t1 = load_64(m, l0);
f54(m, g, l1.wrapping_add(16u64), l7, t1, l3, l5, l4);
l3 = load_64(m, l1.wrapping_add(24u64));
l8 = (load_8(m, l1.wrapping_add(16u64)) as u32);
break 'b3;
}
l3 = (l6 << 3);
'b5: {
'b6: {
l5 = load_64(m, l7);
if (load_64(m, l5.wrapping_add(16u64)) == 0) { break 'b6; }
l6 = load_64(m, l5.wrapping_add(8u64));
l7 = l6.wrapping_add(32u64);
l9 = (load_64(m, l7) & 0xfffffffffffffff8u64);
if (l9 < l3) { break 'b6; }
l3 = l9.wrapping_sub(l3);
store_64(m, l7, l3);
l3 = load_64(m, l6).wrapping_add(l3);
l10 = 1u32;
break 'b5;
}
f52(m, g, l1, l5, l3, 8u64);
l3 = load_64(m, l1.wrapping_add(8u64));
l10 = (load_8(m, l1) as u32);
}
l8 = 1u32;
'b7: {
if ((l10 & 1u32) != 0) { break 'b7; }
l3 = 0u64;
break 'b3;
}
'b8: {
l5 = l5.wrapping_add(24u64);
l6 = load_64(m, l5);
if (l6 != 0xffffffffffffffffu64) { break 'b8; }
l3 = 0u64;
break 'b3;
}
store_64(m, l5, l6.wrapping_add(1u64));
l8 = 0u32;
}
if ((l8 & 255u32) != 0) { break 'b2; }
store_64(m, l0.wrapping_add(16u64), l4);
store_64(m, l0, l3);
l2 = 1u32;
}
g = l1.wrapping_add(32u64);
return l2;
}
}

// core::alloc::RefAllocator::grow::<#1a1cd8ab3b16cf3c>
fn f54(m: &mut [u8], mut g: u64, mut l0: u64, mut l1: u64, mut l2: u64, mut l3: u64, mut l4: u64, mut l5: u64) {
let mut l6: u64 = 0;
let mut l7: u64 = 0;
let mut l8: u64 = 0;
let mut l9: u64 = 0;
let mut l10: u64 = 0;
let mut l11: u64 = 0;
let mut l12: u32 = 0;
let mut l13: u64 = 0;
let mut l14: u32 = 0;
l6 = g.wrapping_sub(16u64);
g = l6;
{
l7 = l6;
l8 = load_64(m, l1);
l6 = load_64(m, l8.wrapping_add(16u64));
'b2: {
'b3: {
'b4: {
'b5: {
'b6: {
'b7: {
l1 = l5.wrapping_sub(l4);
if (l3 > l1) { break 'b7; }
if (l6 != 1u64) { break 'b7; }
'b8: {
'b9: {
l6 = load_64(m, l8.wrapping_add(8u64));
l9 = load_64(m, l6.wrapping_add(32u64));
l1 = (l1 << 3);
if (l9 < l1) { break 'b9; }
l10 = load_64(m, l6);
if (l2 == l10.wrapping_add(l9)) { break 'b8; }
}
l1 = (l5 << 3);
break 'b6;
}
let t1 = l6.wrapping_add(32u64);
l6 = l9.wrapping_sub(l1);
store_64(m, t1, l6);
'b10: {
l11 = l10.wrapping_add(l6);
l6 = (l3 << 3);
if (l11.wrapping_sub(l2) >= l6) { break 'b10; }
l12 = 0u32;
if (l3 == 0) { break 'b2; }
l1 = (l3 & 3u64);
l6 = 0u64;
'b11: {
if (l3 < 4u64) { break 'b11; }
l8 = 0u64;
l13 = 0u64.wrapping_sub((l3 & 0xfffffffffffffffcu64));
l3 = l11;
l6 = l2;
'b12: loop {
let t2 = load_64(m, l6);
store_64(m, l3, t2);
let t3 = load_64(m, l6.wrapping_add(8u64));
store_64(m, l3.wrapping_add(8u64), t3);
let t4 = load_64(m, l6.wrapping_add(16u64));
store_64(m, l3.wrapping_add(16u64), t4);
let t5 = load_64(m, l6.wrapping_add(24u64));
store_64(m, l3.wrapping_add(24u64), t5);
l3 = l3.wrapping_add(32u64);
l6 = l6.wrapping_add(32u64);
l8 = l8.wrapping_add(0xfffffffffffffffcu64);
if (l13 != l8) { continue 'b12; }
break 'b12;
}
if (l1 == 0) { break 'b2; }
l6 = 0u64.wrapping_sub(l8);
}
l6 = (l6 << 3);
l3 = l10.wrapping_add(l9.wrapping_add(l6).wrapping_add((l4 << 3)).wrapping_sub((l5 << 3)));
l6 = l2.wrapping_add(l6);
'b13: loop {
let t6 = load_64(m, l6);
store_64(m, l3, t6);
l3 = l3.wrapping_add(8u64);
l6 = l6.wrapping_add(8u64);
l1 = l1.wrapping_add(0xffffffffffffffffu64);
if (l1 != 0u64) { continue 'b13; }
break 'b2;
}
}
if (l6 == 0) { break 'b3; }
copy(m, l11, l2, l6);
break 'b3;
}
l1 = (l5 << 3);
if (l6 == 0) { break 'b5; }
l6 = load_64(m, l8.wrapping_add(8u64));
l9 = load_64(m, l6.wrapping_add(32u64));
}
l5 = (l9 & 0xfffffffffffffff8u64);
if (l5 < l1) { break 'b5; }
l1 = l5.wrapping_sub(l1);
store_64(m, l6.wrapping_add(32u64), l1);
l13 = load_64(m, l6).wrapping_add(l1);
l14 = 1u32;
break 'b4;
}
f52(m, g, l7, l8, l1, 8u64);
l13 = load_64(m, l7.wrapping_add(8u64));
l14 = (load_8(m, l7) as u32);
}
l12 = 1u32;
l11 = 0u64;
if ((l14 & 1u32) == 0) { break 'b2; }
l6 = l8.wrapping_add(24u64);
l1 = load_64(m, l6);
if (l1 == 0xffffffffffffffffu64) { break 'b2; }
l11 = l13;
store_64(m, l6, l1.wrapping_add(1u64));
'b14: {
'b15: {
l6 = (l3 << 3);
if (l13.wrapping_sub(l2) >= l6) { break 'b15; }
if (l3 == 0) { break 'b14; }
l5 = (l3 & 3u64);
l9 = 0u64;
'b16: {
if (l3 < 4u64) { break 'b16; }
l10 = (l3 & 0xfffffffffffffffcu64);
l3 = 0u64;
l9 = 0u64;
'b17: loop {
l6 = l13.wrapping_add(l3);
l1 = l2.wrapping_add(l3);
let t7 = load_64(m, l1);
store_64(m, l6, t7);
let t8 = load_64(m, l1.wrapping_add(8u64));
store_64(m, l6.wrapping_add(8u64), t8);
let t9 = load_64(m, l1.wrapping_add(16u64));
store_64(m, l6.wrapping_add(16u64), t9);
let t10 = load_64(m, l1.wrapping_add(24u64));
store_64(m, l6.wrapping_add(24u64), t10);
l3 = l3.wrapping_add(32u64);
l9 = l9.wrapping_add(4u64);
if (l10 != l9) { continue 'b17; }
break 'b17;
}
if (l5 == 0) { break 'b14; }
}
l6 = (l9 << 3);
l3 = l13.wrapping_add(l6);
l6 = l2.wrapping_add(l6);
'b18: loop {
let t11 = load_64(m, l6);
store_64(m, l3, t11);
l3 = l3.wrapping_add(8u64);
l6 = l6.wrapping_add(8u64);
l5 = l5.wrapping_add(0xffffffffffffffffu64);
if (l5 != 0u64) { continue 'b18; }
break 'b14;
}
}
if (l6 == 0) { break 'b14; }
copy(m, l11, l2, l6);
}
'b19: {
if (load_64(m, l8.wrapping_add(16u64)) != 1u64) { break 'b19; }
l3 = load_64(m, l8.wrapping_add(8u64));
let t12 = load_64(m, l3);
l3 = l3.wrapping_add(32u64);
l6 = load_64(m, l3);
if (l2 != t12.wrapping_add(l6)) { break 'b19; }
store_64(m, l3, l6.wrapping_add((l4 << 3)));
}
l3 = l8.wrapping_add(24u64);
let t13 = load_64(m, l3).wrapping_add(0xffffffffffffffffu64);
store_64(m, l3, t13);
}
l12 = 0u32;
}
store_64(m, l0.wrapping_add(8u64), l11);
store_8(m, l0, l12 as u8);
g = l7.wrapping_add(16u64);
return;
}
}

// smallvec::small_vec::SmallVec::reserve_one::<#8f284c9c7421dfec>
fn f55(m: &mut [u8], mut g: u64, mut l0: u64) -> u32 {
let mut l1: u64 = 0;
let mut l2: u32 = 0;
let mut l3: u64 = 0;
let mut l4: u64 = 0;
let mut l5: u32 = 0;
let mut l6: u64 = 0;
let mut l7: u64 = 0;
let mut l8: u64 = 0;
let mut l9: u64 = 0;
let mut l10: u64 = 0;
let mut l11: u64 = 0;
let mut l12: u64 = 0;
let mut l13: u64 = 0;
l1 = g.wrapping_sub(192u64);
g = l1;
{
l2 = (load_8(m, l0) as u32);
l3 = load_64(m, l0.wrapping_add((if (l2 != 0) { 16u64 } else { 64u64 })));
'b2: {
'b3: {
if (l2 != 0) { break 'b3; }
l4 = 7u64;
break 'b2;
}
l4 = load_64(m, l0.wrapping_add(24u64));
}
l5 = 0u32;
'b4: {
if (l4 != l3) { break 'b4; }
l5 = 1u32;
if (l3 == 0xffffffffffffffffu64) { break 'b4; }
if ((l3 as i64) < (0xffffffffffffffffu64 as i64)) { break 'b4; }
store_64(m, l1.wrapping_add(72u64), 0u64);
store_64(m, l1.wrapping_add(64u64), 0u64);
store_64(m, l1.wrapping_add(56u64), 0u64);
store_64(m, l1.wrapping_add(48u64), 0u64);
store_64(m, l1.wrapping_add(40u64), 0u64);
l5 = 0u32;
l4 = 0u64.wrapping_sub((l3.leading_zeros() as u64));
l6 = (1u64 << (l4 & 63));
if (l6 < l3) { break 'b4; }
'b5: {
if ((l4 & 63u64) > 2u64) { break 'b5; }
if (l2 != 1u32) { break 'b4; }
l6 = l0.wrapping_add(16u64);
l4 = load_64(m, l6);
l3 = 0u64;
store_64(m, l6, 0u64);
l6 = l0.wrapping_add(24u64);
l7 = load_64(m, l6);
store_64(m, l6, 0u64);
store_64(m, l1.wrapping_add(80u64), 0u64);
store_64(m, l1.wrapping_add(88u64), 0u64);
store_64(m, l1.wrapping_add(96u64), 0u64);
store_64(m, l1.wrapping_add(104u64), 0u64);
store_64(m, l1.wrapping_add(112u64), 0u64);
store_64(m, l1.wrapping_add(120u64), 0u64);
store_64(m, l1.wrapping_add(128u64), 0u64);
store_64(m, l1.wrapping_add(136u64), 0u64);
l8 = l0.wrapping_add(8u64);
l9 = load_64(m, l8);
store_64(m, l8, l1.wrapping_add(184u64));
l10 = load_64(m, l0.wrapping_add(32u64));
store_64(m, l1.wrapping_add(144u64), l10);
'b6: {
if (l4 == 0) { break 'b6; }
'b7: {
if (l4 == 1u64) { break 'b7; }
l11 = (l4 & 1u64);
l12 = (l4 & 0xfffffffffffffffeu64);
l3 = 0u64;
l4 = l1.wrapping_add(80u64);
l6 = l9;
'b8: loop {
let t1 = load_64(m, l6);
store_64(m, l4, t1);
store_64(m, l1.wrapping_add(136u64), l3.wrapping_add(1u64));
let t2 = load_64(m, l6.wrapping_add(8u64));
store_64(m, l4.wrapping_add(8u64), t2);
l3 = l3.wrapping_add(2u64);
store_64(m, l1.wrapping_add(136u64), l3);
l6 = l6.wrapping_add(16u64);
l4 = l4.wrapping_add(16u64);
if (l12 != l3) { continue 'b8; }
break 'b8;
}
if (l11 == 0) { break 'b6; }
}
l4 = (l3 << 3);
let t3 = load_64(m, l9.wrapping_add(l4));
store_64(m, l1.wrapping_add(80u64).wrapping_add(l4), t3);
store_64(m, l1.wrapping_add(136u64), l3.wrapping_add(1u64));
}
'b9: {
if (l7 != 0u64) { break 'b9; }
store_64(m, l0, 0u64);
copy(m, l8, l1.wrapping_add(80u64), 72u64);
break 'b4;
}
'b10: {
l3 = load_64(m, l10);
if (load_64(m, l3.wrapping_add(16u64)) != 1u64) { break 'b10; }
l4 = load_64(m, l3.wrapping_add(8u64));
let t4 = load_64(m, l4);
l4 = l4.wrapping_add(32u64);
l6 = load_64(m, l4);
if (l9 != t4.wrapping_add(l6)) { break 'b10; }
store_64(m, l4, l6.wrapping_add((l7 << 3)));
}
l3 = l3.wrapping_add(24u64);
let t5 = load_64(m, l3).wrapping_add(0xffffffffffffffffu64);
store_64(m, l3, t5);
l2 = (load_8(m, l0) as u32);
store_64(m, l0, 0u64);
l3 = load_64(m, l0.wrapping_add(24u64));
l4 = load_64(m, l0.wrapping_add(32u64));
l0 = load_64(m, l0.wrapping_add(8u64));
copy(m, l8, l1.wrapping_add(80u64), 72u64);
if (l2 == 0) { break 'b4; }
if (l3 == 0) { break 'b4; }
'b11: {
l4 = load_64(m, l4);
if (load_64(m, l4.wrapping_add(16u64)) != 1u64) { break 'b11; }
l6 = load_64(m, l4.wrapping_add(8u64));
let t6 = load_64(m, l6);
l6 = l6.wrapping_add(32u64);
l12 = load_64(m, l6);
if (l0 != t6.wrapping_add(l12)) { break 'b11; }
store_64(m, l6, l12.wrapping_add((l3 << 3)));
}
l0 = l4.wrapping_add(24u64);
let t7 = load_64(m, l0).wrapping_add(0xffffffffffffffffu64);
store_64(m, l0, t7);
break 'b4;
}
'b12: {
if (l2 != 0) { break 'b12; }
store_64(m, l1.wrapping_add(160u64), 0u64);
store_64(m, l1.wrapping_add(168u64), 0u64);
let t8 = load_64(m, l0.wrapping_add(72u64));
store_64(m, l1.wrapping_add(176u64), t8);
store_64(m, l1.wrapping_add(152u64), l1.wrapping_add(184u64));
'b13: {
'b14: {
'b15: {
'b16: {
'b17: {
let t9 = f56(m, g, l1.wrapping_add(152u64), l6);
if ((t9 & 255u32) != 0) { break 'b17; }
l10 = l0.wrapping_add(8u64);
l4 = load_64(m, l0.wrapping_add(64u64));
if (l4 == 0) { break 'b13; }
l11 = load_64(m, l1.wrapping_add(152u64));
l9 = load_64(m, l1.wrapping_add(160u64));
if (l4 != 1u64) { break 'b16; }
l3 = 0u64;
break 'b15;
}
'b18: {
l3 = load_64(m, l1.wrapping_add(168u64));
if (l3 == 0) { break 'b18; }
'b19: {
l0 = load_64(m, load_64(m, l1.wrapping_add(176u64)));
if (load_64(m, l0.wrapping_add(16u64)) != 1u64) { break 'b19; }
l4 = load_64(m, l0.wrapping_add(8u64));
let t10 = load_64(m, l4);
l4 = l4.wrapping_add(32u64);
l6 = load_64(m, l4);
if (load_64(m, l1.wrapping_add(152u64)) != t10.wrapping_add(l6)) { break 'b19; }
store_64(m, l4, l6.wrapping_add((l3 << 3)));
}
l0 = l0.wrapping_add(24u64);
let t11 = load_64(m, l0).wrapping_add(0xffffffffffffffffu64);
store_64(m, l0, t11);
}
l5 = 1u32;
break 'b4;
}
l13 = (l4 & 1u64);
l3 = l0.wrapping_add(16u64);
l7 = 0u64.wrapping_sub((l4 & 0xfffffffffffffffeu64));
l4 = l11.wrapping_add((l9 << 3));
l6 = 0u64;
'b20: loop {
l12 = l3.wrapping_add(0xfffffffffffffff8u64);
l8 = load_64(m, l12);
store_64(m, l12, 0u64);
store_64(m, l4, l8);
l12 = load_64(m, l3);
store_64(m, l3, 0u64);
store_64(m, l4.wrapping_add(8u64), l12);
l4 = l4.wrapping_add(16u64);
l3 = l3.wrapping_add(16u64);
l6 = l6.wrapping_add(0xfffffffffffffffeu64);
if (l7 != l6) { continue 'b20; }
break 'b20;
}
l9 = l9.wrapping_sub(l6);
if (l13 == 0) { break 'b14; }
l3 = 0u64.wrapping_sub(l6);
}
l3 = l10.wrapping_add((l3 << 3));
l4 = load_64(m, l3);
store_64(m, l3, 0u64);
store_64(m, l11.wrapping_add((l9 << 3)), l4);
l9 = l9.wrapping_add(1u64);
}
store_64(m, l1.wrapping_add(160u64), l9);
l3 = load_64(m, l0.wrapping_add(64u64));
if (l3 == 0) { break 'b13; }
'b21: {
l3 = (l3 << 3);
if (l3 == 0) { break 'b21; }
fill(m, l10, 0u32 as u8, l3);
}
store_64(m, l0.wrapping_add(64u64), 0u64);
}
l3 = load_64(m, l1.wrapping_add(176u64));
store_64(m, l1.wrapping_add(111u64), l3);
l4 = load_64(m, l1.wrapping_add(168u64));
store_64(m, l1.wrapping_add(103u64), l4);
l6 = load_64(m, l1.wrapping_add(160u64));
store_64(m, l1.wrapping_add(95u64), l6);
l12 = load_64(m, l1.wrapping_add(152u64));
store_64(m, l1.wrapping_add(87u64), l12);
l2 = (load_8(m, l0) as u32);
store_64(m, l0, 1u64);
store_64(m, l1.wrapping_add(8u64), l12);
store_64(m, l1.wrapping_add(16u64), l6);
store_64(m, l1.wrapping_add(24u64), l4);
store_64(m, l1.wrapping_add(32u64), l3);
l4 = load_64(m, l0.wrapping_add(8u64));
l3 = load_64(m, l0.wrapping_add(24u64));
l0 = load_64(m, l0.wrapping_add(32u64));
copy(m, l10, l1.wrapping_add(8u64), 72u64);
if (l2 == 0) { break 'b4; }
if (l3 == 0) { break 'b4; }
'b22: {
l0 = load_64(m, l0);
if (load_64(m, l0.wrapping_add(16u64)) != 1u64) { break 'b22; }
l6 = load_64(m, l0.wrapping_add(8u64));
let t12 = load_64(m, l6);
l6 = l6.wrapping_add(32u64);
l12 = load_64(m, l6);
if (l4 != t12.wrapping_add(l12)) { break 'b22; }
store_64(m, l6, l12.wrapping_add((l3 << 3)));
}
l0 = l0.wrapping_add(24u64);
let t13 = load_64(m, l0).wrapping_add(0xffffffffffffffffu64);
store_64(m, l0, t13);
break 'b4;
}
'b23: {
l4 = load_64(m, l0.wrapping_add(24u64));
if (l6 >= l4) { break 'b23; }
l3 = load_64(m, l0.wrapping_add(16u64));
if (l3 >= l4) { break 'b4; }
store_64(m, l0.wrapping_add(24u64), (if (l3 > l6) { l3 } else { l6 }));
break 'b4;
}
let t14 = f56(m, g, l0.wrapping_add(8u64), l6.wrapping_sub(l3));
l5 = (t14 & 255u32);
}
g = l1.wrapping_add(192u64);
return l5;
}
}

// std_alloc::vec::Vec::reserve_exact::<#575e5fa75ed1daa9>
fn f56(m: &mut [u8], mut g: u64, mut l0: u64, mut l1: u64) -> u32 {
let mut l2: u64 = 0;
let mut l3: u32 = 0;
let mut l4: u64 = 0;
let mut l5: u64 = 0;
let mut l6: u64 = 0;
let mut l7: u32 = 0;
let mut l8: u64 = 0;
let mut l9: u64 = 0;
let mut l10: u32 = 0;
l2 = g.wrapping_sub(32u64);
g = l2;
{
l3 = 0u32;
'b2: {
l4 = load_64(m, l0.wrapping_add(16u64));
l5 = load_64(m, l0.wrapping_add(8u64));
if (l1 <= l4.wrapping_sub(l5)) { break 'b2; }
l3 = 1u32;
if (l1 > (l5 ^ 0xffffffffffffffffu64)) { break 'b2; }
l1 = l5.wrapping_add(l1);
if (l1 > 0xfffffffffffffffu64) { break 'b2; }
l6 = load_64(m, l0.wrapping_add(24u64));
'b3: {
'b4: {
if (l4 == 0) { break 'b4; }
let t1 = load_64(m, l0);
f54(m, g, l2.wrapping_add(16u64), l6, t1, l5, l4, l1);
l5 = load_64(m, l2.wrapping_add(24u64));
l7 = (load_8(m, l2.wrapping_add(16u64)) as u32);
break 'b3;
}
l5 = (l1 << 3);
'b5: {
'b6: {
l4 = load_64(m, l6);
if (load_64(m, l4.wrapping_add(16u64)) == 0) { break 'b6; }
l6 = load_64(m, l4.wrapping_add(8u64));
l8 = l6.wrapping_add(32u64);
l9 = (load_64(m, l8) & 0xfffffffffffffff8u64);
if (l9 < l5) { break 'b6; }
l5 = l9.wrapping_sub(l5);
store_64(m, l8, l5);
l5 = load_64(m, l6).wrapping_add(l5);
l10 = 1u32;
break 'b5;
}
f52(m, g, l2, l4, l5, 8u64);
l5 = load_64(m, l2.wrapping_add(8u64));
l10 = (load_8(m, l2) as u32);
}
l7 = 1u32;
'b7: {
if ((l10 & 1u32) != 0) { break 'b7; }
l5 = 0u64;
break 'b3;
}
'b8: {
l4 = l4.wrapping_add(24u64);
l6 = load_64(m, l4);
if (l6 != 0xffffffffffffffffu64) { break 'b8; }
l5 = 0u64;
break 'b3;
}
store_64(m, l4, l6.wrapping_add(1u64));
l7 = 0u32;
}
if ((l7 & 255u32) != 0) { break 'b2; }
store_64(m, l0.wrapping_add(16u64), l1);
store_64(m, l0, l5);
l3 = 0u32;
}
g = l2.wrapping_add(32u64);
return l3;
}
}

// smallvec::small_vec::SmallVec::reserve_one::<#724e270f0347bf80>
fn f57(m: &mut [u8], mut g: u64, mut l0: u64) -> u32 {
let mut l1: u64 = 0;
let mut l2: u64 = 0;
let mut l3: u32 = 0;
let mut l4: u64 = 0;
let mut l5: u32 = 0;
let mut l6: u64 = 0;
let mut l7: u64 = 0;
let mut l8: u64 = 0;
let mut l9: u64 = 0;
let mut l10: u64 = 0;
let mut l11: u64 = 0;
let mut l12: u64 = 0;
l1 = g.wrapping_sub(80u64);
g = l1;
{
l2 = l1;
l3 = (load_8(m, l0) as u32);
l1 = load_64(m, l0.wrapping_add((if (l3 != 0) { 16u64 } else { 24u64 })));
'b2: {
'b3: {
if (l3 != 0) { break 'b3; }
l4 = 7u64;
break 'b2;
}
l4 = load_64(m, l0.wrapping_add(24u64));
}
l5 = 0u32;
'b4: {
if (l4 != l1) { break 'b4; }
l5 = 1u32;
if (l1 == 0xffffffffffffffffu64) { break 'b4; }
if ((l1 as i64) < (0xffffffffffffffffu64 as i64)) { break 'b4; }
l5 = 0u32;
l4 = 0u64.wrapping_sub((l1.leading_zeros() as u64));
l6 = (1u64 << (l4 & 63));
if (l6 < l1) { break 'b4; }
'b5: {
if ((l4 & 63u64) > 2u64) { break 'b5; }
if (l3 != 1u32) { break 'b4; }
l6 = l0.wrapping_add(16u64);
l4 = load_64(m, l6);
l1 = 0u64;
store_64(m, l6, 0u64);
l6 = l0.wrapping_add(24u64);
l7 = load_64(m, l6);
store_64(m, l6, 0u64);
store_64(m, l2, 0u64);
store_64(m, l2.wrapping_add(8u64), 0u64);
store_64(m, l2.wrapping_add(16u64), 0u64);
l8 = l0.wrapping_add(8u64);
l9 = load_64(m, l8);
store_64(m, l8, l2.wrapping_add(79u64));
l10 = load_64(m, l0.wrapping_add(32u64));
store_64(m, l2.wrapping_add(24u64), l10);
'b6: {
if (l4 == 0) { break 'b6; }
'b7: {
if (l4 == 1u64) { break 'b7; }
l11 = (l4 & 1u64);
l12 = (l4 & 0xfffffffffffffffeu64);
l1 = 0u64;
l4 = l2;
l6 = l9;
'b8: loop {
let t1 = (load_16(m, l6) as u32);
store_16(m, l4, t1 as u16);
store_64(m, l2.wrapping_add(16u64), l1.wrapping_add(1u64));
let t2 = (load_16(m, l6.wrapping_add(2u64)) as u32);
store_16(m, l4.wrapping_add(2u64), t2 as u16);
l1 = l1.wrapping_add(2u64);
store_64(m, l2.wrapping_add(16u64), l1);
l6 = l6.wrapping_add(4u64);
l4 = l4.wrapping_add(4u64);
if (l12 != l1) { continue 'b8; }
break 'b8;
}
if (l11 == 0) { break 'b6; }
}
l4 = (l1 << 1);
let t3 = (load_16(m, l9.wrapping_add(l4)) as u32);
store_16(m, l2.wrapping_add(l4), t3 as u16);
store_64(m, l2.wrapping_add(16u64), l1.wrapping_add(1u64));
}
'b9: {
if (l7 != 0u64) { break 'b9; }
store_64(m, l0, 0u64);
let t4 = load_64(m, l2);
store_64(m, l8, t4);
let t5 = load_64(m, l2.wrapping_add(8u64));
store_64(m, l8.wrapping_add(8u64), t5);
let t6 = load_64(m, l2.wrapping_add(16u64));
store_64(m, l8.wrapping_add(16u64), t6);
let t7 = load_64(m, l2.wrapping_add(24u64));
store_64(m, l8.wrapping_add(24u64), t7);
break 'b4;
}
'b10: {
l1 = load_64(m, l10);
if (load_64(m, l1.wrapping_add(16u64)) != 1u64) { break 'b10; }
l4 = load_64(m, l1.wrapping_add(8u64));
let t8 = load_64(m, l4);
l4 = l4.wrapping_add(32u64);
l6 = load_64(m, l4);
if (l9 != t8.wrapping_add(l6)) { break 'b10; }
store_64(m, l4, l6.wrapping_add((l7 << 1)));
}
l1 = l1.wrapping_add(24u64);
let t9 = load_64(m, l1).wrapping_add(0xffffffffffffffffu64);
store_64(m, l1, t9);
l3 = (load_8(m, l0) as u32);
store_64(m, l0, 0u64);
l4 = load_64(m, l0.wrapping_add(8u64));
let t10 = load_64(m, l2);
store_64(m, l8, t10);
let t11 = load_64(m, l2.wrapping_add(8u64));
store_64(m, l8.wrapping_add(8u64), t11);
l1 = load_64(m, l0.wrapping_add(24u64));
let t12 = load_64(m, l2.wrapping_add(16u64));
store_64(m, l8.wrapping_add(16u64), t12);
l0 = load_64(m, l0.wrapping_add(32u64));
let t13 = load_64(m, l2.wrapping_add(24u64));
store_64(m, l8.wrapping_add(24u64), t13);
if (l3 == 0) { break 'b4; }
if (l1 == 0) { break 'b4; }
'b11: {
l0 = load_64(m, l0);
if (load_64(m, l0.wrapping_add(16u64)) != 1u64) { break 'b11; }
l6 = load_64(m, l0.wrapping_add(8u64));
let t14 = load_64(m, l6);
l6 = l6.wrapping_add(32u64);
l12 = load_64(m, l6);
if (l4 != t14.wrapping_add(l12)) { break 'b11; }
store_64(m, l6, l12.wrapping_add((l1 << 1)));
}
l0 = l0.wrapping_add(24u64);
let t15 = load_64(m, l0).wrapping_add(0xffffffffffffffffu64);
store_64(m, l0, t15);
break 'b4;
}
'b12: {
if (l3 != 0) { break 'b12; }
store_64(m, l2.wrapping_add(48u64), 0u64);
store_64(m, l2.wrapping_add(56u64), 0u64);
let t16 = load_64(m, l0.wrapping_add(32u64));
store_64(m, l2.wrapping_add(64u64), t16);
store_64(m, l2.wrapping_add(40u64), l2.wrapping_add(79u64));
'b13: {
let t17 = f59(m, g, l2.wrapping_add(40u64), l6);
if ((t17 & 255u32) != 0) { break 'b13; }
l7 = l0.wrapping_add(8u64);
'b14: {
l4 = load_64(m, l0.wrapping_add(24u64));
if (l4 == 0) { break 'b14; }
l1 = 0u64;
l10 = load_64(m, l2.wrapping_add(40u64));
l9 = load_64(m, l2.wrapping_add(48u64));
'b15: {
'b16: {
if (l4 == 1u64) { break 'b16; }
l11 = (l4 & 1u64);
l1 = l0.wrapping_add(10u64);
l6 = 0u64;
l8 = 0u64.wrapping_sub((l4 & 0xfffffffffffffffeu64));
l4 = l10.wrapping_add((l9 << 1));
'b17: loop {
l12 = l1.wrapping_add(0xfffffffffffffffeu64);
l3 = (load_16(m, l12) as u32);
store_16(m, l12, 0u32 as u16);
store_16(m, l4, l3 as u16);
l3 = (load_16(m, l1) as u32);
store_16(m, l1, 0u32 as u16);
store_16(m, l4.wrapping_add(2u64), l3 as u16);
l4 = l4.wrapping_add(4u64);
l1 = l1.wrapping_add(4u64);
l6 = l6.wrapping_add(0xfffffffffffffffeu64);
if (l8 != l6) { continue 'b17; }
break 'b17;
}
l9 = l9.wrapping_sub(l6);
if (l11 == 0) { break 'b15; }
l1 = 0u64.wrapping_sub(l6);
}
l1 = l7.wrapping_add((l1 << 1));
l3 = (load_16(m, l1) as u32);
store_16(m, l1, 0u32 as u16);
store_16(m, l10.wrapping_add((l9 << 1)), l3 as u16);
l9 = l9.wrapping_add(1u64);
}
store_64(m, l2.wrapping_add(48u64), l9);
l1 = load_64(m, l0.wrapping_add(24u64));
if (l1 == 0) { break 'b14; }
l1 = (l1 << 1);
if (l1 == 0) { break 'b14; }
fill(m, l7, 0u32 as u8, l1);
}
l1 = load_64(m, l2.wrapping_add(64u64));
store_64(m, l2.wrapping_add(31u64), l1);
l4 = load_64(m, l2.wrapping_add(56u64));
store_64(m, l2.wrapping_add(23u64), l4);
l6 = load_64(m, l2.wrapping_add(48u64));
store_64(m, l2.wrapping_add(15u64), l6);
l12 = load_64(m, l2.wrapping_add(40u64));
store_64(m, l2.wrapping_add(7u64), l12);
store_64(m, l0, 1u64);
store_64(m, l7, l12);
store_64(m, l7.wrapping_add(8u64), l6);
store_64(m, l7.wrapping_add(16u64), l4);
store_64(m, l7.wrapping_add(24u64), l1);
break 'b4;
}
'b18: {
l1 = load_64(m, l2.wrapping_add(56u64));
if (l1 == 0) { break 'b18; }
'b19: {
l0 = load_64(m, load_64(m, l2.wrapping_add(64u64)));
if (load_64(m, l0.wrapping_add(16u64)) != 1u64) { break 'b19; }
l4 = load_64(m, l0.wrapping_add(8u64));
let t18 = load_64(m, l4);
l4 = l4.wrapping_add(32u64);
l6 = load_64(m, l4);
if (load_64(m, l2.wrapping_add(40u64)) != t18.wrapping_add(l6)) { break 'b19; }
store_64(m, l4, l6.wrapping_add((l1 << 1)));
}
l0 = l0.wrapping_add(24u64);
let t19 = load_64(m, l0).wrapping_add(0xffffffffffffffffu64);
store_64(m, l0, t19);
}
l5 = 1u32;
break 'b4;
}
'b20: {
l4 = load_64(m, l0.wrapping_add(24u64));
if (l6 >= l4) { break 'b20; }
l1 = load_64(m, l0.wrapping_add(16u64));
if (l1 >= l4) { break 'b4; }
store_64(m, l0.wrapping_add(24u64), (if (l1 > l6) { l1 } else { l6 }));
break 'b4;
}
let t20 = f59(m, g, l0.wrapping_add(8u64), l6.wrapping_sub(l1));
l5 = (t20 & 255u32);
}
g = l2.wrapping_add(80u64);
return l5;
}
}

// bech32_gf_ext::fe1024::Fe1024OperationsArithmetic::times
fn f58(m: &mut [u8], mut g: u64, mut l0: u64, mut l1: u32, mut l2: u32) {
let mut l3: u32 = 0;
let mut l4: u32 = 0;
let mut l5: u32 = 0;
let mut l6: u32 = 0;
{
l3 = (l2 & 65280u32);
l4 = ((l1 & 65280u32) >> 8);
l5 = 0u32;
'b2: {
if ((l1 & 255u32) == 0) { break 'b2; }
if ((l2 & 255u32) == 0) { break 'b2; }
l5 = (load_8_constant(m, ((((load_8_constant(m, ((l2 as u64) & 255u64).wrapping_add(0x100000082u64)) as u32).wrapping_add((load_8_constant(m, ((l1 as u64) & 255u64).wrapping_add(0x100000082u64)) as u32)) & 255u32) % 31u32) as u64).wrapping_add(0x1000000a2u64)) as u32);
}
l6 = (l3 >> 8);
l3 = l5;
'b3: {
if (l4 == 0) { break 'b3; }
l3 = l5;
if (l6 == 0) { break 'b3; }
l3 = ((load_8_constant(m, ((((load_8_constant(m, (l6 as u64).wrapping_add(0x100000082u64)) as u32).wrapping_add((load_8_constant(m, (l4 as u64).wrapping_add(0x100000082u64)) as u32)) & 255u32) % 31u32) as u64).wrapping_add(0x1000000a2u64)) as u32) ^ l5);
}
'b4: {
l1 = (l4 ^ l1);
if ((l1 & 255u32) == 0) { break 'b4; }
l2 = (l6 ^ l2);
if ((l2 & 255u32) == 0) { break 'b4; }
l5 = ((load_8_constant(m, ((((load_8_constant(m, ((l2 as u64) & 255u64).wrapping_add(0x100000082u64)) as u32).wrapping_add((load_8_constant(m, ((l1 as u64) & 255u64).wrapping_add(0x100000082u64)) as u32)) & 255u32) % 31u32) as u64).wrapping_add(0x1000000a2u64)) as u32) ^ l5);
}
store_16(m, l0, ((l5 << 8) | (l3 & 255u32)) as u16);
return;
}
}

// std_alloc::vec::Vec::reserve_exact::<#50e99c357dea2e90>
fn f59(m: &mut [u8], mut g: u64, mut l0: u64, mut l1: u64) -> u32 {
let mut l2: u64 = 0;
let mut l3: u32 = 0;
let mut l4: u64 = 0;
let mut l5: u64 = 0;
let mut l6: u64 = 0;
let mut l7: u64 = 0;
let mut l8: u64 = 0;
let mut l9: u64 = 0;
let mut l10: u64 = 0;
let mut l11: u64 = 0;
let mut l12: u64 = 0;
let mut l13: u64 = 0;
let mut l14: u32 = 0;
l2 = g.wrapping_sub(32u64);
g = l2;
{
l3 = 0u32;
'b2: {
l4 = load_64(m, l0.wrapping_add(16u64));
l5 = load_64(m, l0.wrapping_add(8u64));
if (l1 <= l4.wrapping_sub(l5)) { break 'b2; }
l3 = 1u32;
if (l1 > (l5 ^ 0xffffffffffffffffu64)) { break 'b2; }
l6 = l5.wrapping_add(l1);
if (l6 > 0x3fffffffffffffffu64) { break 'b2; }
'b3: {
'b4: {
if (l4 == 0) { break 'b4; }
l7 = load_64(m, l0);
l8 = load_64(m, load_64(m, l0.wrapping_add(24u64)));
l1 = load_64(m, l8.wrapping_add(16u64));
'b5: {
'b6: {
'b7: {
'b8: {
l9 = l6.wrapping_sub(l4);
if (l5 > l9) { break 'b8; }
if (l1 != 1u64) { break 'b8; }
'b9: {
'b10: {
l1 = load_64(m, l8.wrapping_add(8u64));
l10 = load_64(m, l1.wrapping_add(32u64));
l11 = (l9 << 1);
if (l10 < l11) { break 'b10; }
l12 = load_64(m, l1);
if (l7 == l12.wrapping_add(l10)) { break 'b9; }
}
l9 = (l6 << 1);
break 'b7;
}
let t1 = l1.wrapping_add(32u64);
l1 = l10.wrapping_sub(l11);
store_64(m, t1, l1);
'b11: {
l13 = l12.wrapping_add(l1);
l1 = (l5 << 1);
if (l13.wrapping_sub(l7) >= l1) { break 'b11; }
if (l5 == 0) { break 'b3; }
l4 = (l5 & 3u64);
l1 = 0u64;
'b12: {
if (l5 < 4u64) { break 'b12; }
l9 = 0u64;
l8 = 0u64.wrapping_sub((l5 & 0xfffffffffffffffcu64));
l1 = l13;
l5 = l7;
'b13: loop {
let t2 = (load_16(m, l5) as u32);
store_16(m, l1, t2 as u16);
let t3 = (load_16(m, l5.wrapping_add(2u64)) as u32);
store_16(m, l1.wrapping_add(2u64), t3 as u16);
let t4 = (load_16(m, l5.wrapping_add(4u64)) as u32);
store_16(m, l1.wrapping_add(4u64), t4 as u16);
let t5 = (load_16(m, l5.wrapping_add(6u64)) as u32);
store_16(m, l1.wrapping_add(6u64), t5 as u16);
l1 = l1.wrapping_add(8u64);
l5 = l5.wrapping_add(8u64);
l9 = l9.wrapping_add(0xfffffffffffffffcu64);
if (l8 != l9) { continue 'b13; }
break 'b13;
}
if (l4 == 0) { break 'b3; }
l1 = 0u64.wrapping_sub(l9);
}
l5 = (l1 << 1);
l1 = l7.wrapping_add(l5);
l5 = l12.wrapping_add(l10.wrapping_add(l5).wrapping_sub(l11));
'b14: loop {
let t6 = (load_16(m, l1) as u32);
store_16(m, l5, t6 as u16);
l5 = l5.wrapping_add(2u64);
l1 = l1.wrapping_add(2u64);
l4 = l4.wrapping_add(0xffffffffffffffffu64);
if (l4 != 0u64) { continue 'b14; }
break 'b3;
}
}
if (l1 == 0) { break 'b3; }
copy(m, l13, l7, l1);
break 'b3;
}
l9 = (l6 << 1);
if (l1 == 0) { break 'b6; }
l1 = load_64(m, l8.wrapping_add(8u64));
l10 = load_64(m, l1.wrapping_add(32u64));
}
if (l10 < l9) { break 'b6; }
l10 = l10.wrapping_sub(l9);
store_64(m, l1.wrapping_add(32u64), l10);
l13 = load_64(m, l1).wrapping_add(l10);
l14 = 1u32;
break 'b5;
}
f52(m, g, l2.wrapping_add(16u64), l8, l9, 1u64);
l13 = load_64(m, l2.wrapping_add(24u64));
l14 = (load_8(m, l2.wrapping_add(16u64)) as u32);
}
l3 = 1u32;
if ((l14 & 1u32) == 0) { break 'b2; }
l1 = l8.wrapping_add(24u64);
l10 = load_64(m, l1);
if (l10 == 0xffffffffffffffffu64) { break 'b2; }
store_64(m, l1, l10.wrapping_add(1u64));
'b15: {
'b16: {
l1 = (l5 << 1);
if (l13.wrapping_sub(l7) >= l1) { break 'b16; }
if (l5 == 0) { break 'b15; }
l9 = (l5 & 3u64);
l11 = 0u64;
'b17: {
if (l5 < 4u64) { break 'b17; }
l12 = (l5 & 0xfffffffffffffffcu64);
l1 = 0u64;
l11 = 0u64;
'b18: loop {
l5 = l13.wrapping_add(l1);
l10 = l7.wrapping_add(l1);
let t7 = (load_16(m, l10) as u32);
store_16(m, l5, t7 as u16);
let t8 = (load_16(m, l10.wrapping_add(2u64)) as u32);
store_16(m, l5.wrapping_add(2u64), t8 as u16);
let t9 = (load_16(m, l10.wrapping_add(4u64)) as u32);
store_16(m, l5.wrapping_add(4u64), t9 as u16);
let t10 = (load_16(m, l10.wrapping_add(6u64)) as u32);
store_16(m, l5.wrapping_add(6u64), t10 as u16);
l1 = l1.wrapping_add(8u64);
l11 = l11.wrapping_add(4u64);
if (l12 != l11) { continue 'b18; }
break 'b18;
}
if (l9 == 0) { break 'b15; }
}
l5 = (l11 << 1);
l1 = l13.wrapping_add(l5);
l5 = l7.wrapping_add(l5);
'b19: loop {
let t11 = (load_16(m, l5) as u32);
store_16(m, l1, t11 as u16);
l1 = l1.wrapping_add(2u64);
l5 = l5.wrapping_add(2u64);
l9 = l9.wrapping_add(0xffffffffffffffffu64);
if (l9 != 0u64) { continue 'b19; }
break 'b15;
}
}
if (l1 == 0) { break 'b15; }
copy(m, l13, l7, l1);
}
'b20: {
if (load_64(m, l8.wrapping_add(16u64)) != 1u64) { break 'b20; }
l1 = load_64(m, l8.wrapping_add(8u64));
let t12 = load_64(m, l1);
l1 = l1.wrapping_add(32u64);
l5 = load_64(m, l1);
if (l7 != t12.wrapping_add(l5)) { break 'b20; }
store_64(m, l1, l5.wrapping_add((l4 << 1)));
}
l1 = l8.wrapping_add(24u64);
let t13 = load_64(m, l1).wrapping_add(0xffffffffffffffffu64);
store_64(m, l1, t13);
break 'b3;
}
l1 = (l6 << 1);
'b21: {
'b22: {
l5 = load_64(m, load_64(m, l0.wrapping_add(24u64)));
if (load_64(m, l5.wrapping_add(16u64)) == 0) { break 'b22; }
l4 = load_64(m, l5.wrapping_add(8u64));
l10 = l4.wrapping_add(32u64);
l9 = load_64(m, l10);
if (l9 < l1) { break 'b22; }
l1 = l9.wrapping_sub(l1);
store_64(m, l10, l1);
l13 = load_64(m, l4).wrapping_add(l1);
l14 = 1u32;
break 'b21;
}
f52(m, g, l2, l5, l1, 1u64);
l13 = load_64(m, l2.wrapping_add(8u64));
l14 = (load_8(m, l2) as u32);
}
l3 = 1u32;
if ((l14 & 1u32) == 0) { break 'b2; }
l1 = l5.wrapping_add(24u64);
l5 = load_64(m, l1);
if (l5 == 0xffffffffffffffffu64) { break 'b2; }
store_64(m, l1, l5.wrapping_add(1u64));
}
store_64(m, l0, l13);
store_64(m, l0.wrapping_add(16u64), l6);
l3 = 0u32;
}
g = l2.wrapping_add(32u64);
return l3;
}
}

// std_alloc::vec::Vec::drop::<#956a71552efe874e>
fn f60(m: &mut [u8], mut g: u64, mut l0: u64) {
let mut l1: u64 = 0;
let mut l2: u64 = 0;
let mut l3: u64 = 0;
{
'b2: {
l1 = load_64(m, l0.wrapping_add(16u64));
if (l1 == 0) { break 'b2; }
'b3: {
l2 = load_64(m, load_64(m, l0.wrapping_add(24u64)));
if (load_64(m, l2.wrapping_add(16u64)) != 1u64) { break 'b3; }
let t1 = load_64(m, l0);
l0 = load_64(m, l2.wrapping_add(8u64));
let t2 = load_64(m, l0);
l0 = l0.wrapping_add(32u64);
l3 = load_64(m, l0);
if (t1 != t2.wrapping_add(l3)) { break 'b3; }
store_64(m, l0, l3.wrapping_add((l1 << 1)));
}
l0 = l2.wrapping_add(24u64);
let t3 = load_64(m, l0).wrapping_add(0xffffffffffffffffu64);
store_64(m, l0, t3);
}
return;
}
}

// smallvec::small_vec::SmallVec::reserve_one::<#dc62b9374da428b4>
fn f61(m: &mut [u8], mut g: u64, mut l0: u64) -> u32 {
let mut l1: u64 = 0;
let mut l2: u64 = 0;
let mut l3: u32 = 0;
let mut l4: u64 = 0;
let mut l5: u32 = 0;
let mut l6: u64 = 0;
let mut l7: u64 = 0;
let mut l8: u64 = 0;
let mut l9: u64 = 0;
let mut l10: u64 = 0;
let mut l11: u64 = 0;
let mut l12: u64 = 0;
let mut l13: u64 = 0;
let mut l14: u64 = 0;
let mut l15: u64 = 0;
l1 = g.wrapping_sub(304u64);
g = l1;
{
l2 = l1;
l3 = (load_8(m, l0) as u32);
l1 = load_64(m, l0.wrapping_add((if (l3 != 0) { 16u64 } else { 120u64 })));
'b2: {
'b3: {
if (l3 != 0) { break 'b3; }
l4 = 7u64;
break 'b2;
}
l4 = load_64(m, l0.wrapping_add(24u64));
}
l5 = 0u32;
'b4: {
if (l4 != l1) { break 'b4; }
l5 = 1u32;
if (l1 == 0xffffffffffffffffu64) { break 'b4; }
if ((l1 as i64) < (0xffffffffffffffffu64 as i64)) { break 'b4; }
l5 = 0u32;
fill(m, l2.wrapping_add(40u64), 0u32 as u8, 96u64);
l4 = 0u64.wrapping_sub((l1.leading_zeros() as u64));
l6 = (1u64 << (l4 & 63));
if (l6 < l1) { break 'b4; }
'b5: {
if ((l4 & 63u64) > 2u64) { break 'b5; }
if (l3 != 1u32) { break 'b4; }
l6 = l0.wrapping_add(16u64);
l1 = load_64(m, l6);
l4 = 0u64;
store_64(m, l6, 0u64);
l6 = l0.wrapping_add(24u64);
l7 = load_64(m, l6);
store_64(m, l6, 0u64);
l8 = l0.wrapping_add(8u64);
l9 = load_64(m, l8);
store_64(m, l8, l2.wrapping_add(296u64));
l10 = load_64(m, l0.wrapping_add(32u64));
fill(m, l2.wrapping_add(136u64), 0u32 as u8, 120u64);
store_64(m, l2.wrapping_add(256u64), l10);
'b6: {
if (l1 == 0) { break 'b6; }
'b7: {
if (l1 == 1u64) { break 'b7; }
l11 = (l1 & 1u64);
l12 = (l1 & 0xfffffffffffffffeu64);
l6 = 0u64;
l4 = 0u64;
'b8: loop {
l1 = l2.wrapping_add(136u64).wrapping_add(l6);
store_32(m, l1.wrapping_add(9u64), 0u32);
l13 = l9.wrapping_add(l6);
let t1 = load_64(m, l13);
store_64(m, l1, t1);
store_32(m, l1.wrapping_add(12u64), 0u32);
let t2 = (load_8(m, l13.wrapping_add(8u64)) as u32);
store_8(m, l1.wrapping_add(8u64), t2 as u8);
store_64(m, l2.wrapping_add(248u64), l4.wrapping_add(1u64));
store_32(m, l1.wrapping_add(25u64), 0u32);
let t3 = (load_8(m, l13.wrapping_add(24u64)) as u32);
store_8(m, l1.wrapping_add(24u64), t3 as u8);
let t4 = load_64(m, l13.wrapping_add(16u64));
store_64(m, l1.wrapping_add(16u64), t4);
store_32(m, l1.wrapping_add(28u64), 0u32);
l4 = l4.wrapping_add(2u64);
store_64(m, l2.wrapping_add(248u64), l4);
l6 = l6.wrapping_add(32u64);
if (l12 != l4) { continue 'b8; }
break 'b8;
}
if (l11 == 0) { break 'b6; }
}
l6 = (l4 << 4);
l1 = l2.wrapping_add(136u64).wrapping_add(l6);
l6 = l9.wrapping_add(l6);
let t5 = load_64(m, l6);
store_64(m, l1, t5);
store_32(m, l1.wrapping_add(9u64), 0u32);
store_32(m, l1.wrapping_add(12u64), 0u32);
let t6 = (load_8(m, l6.wrapping_add(8u64)) as u32);
store_8(m, l1.wrapping_add(8u64), t6 as u8);
store_64(m, l2.wrapping_add(248u64), l4.wrapping_add(1u64));
}
'b9: {
if (l7 != 0u64) { break 'b9; }
store_64(m, l0, 0u64);
copy(m, l8, l2.wrapping_add(136u64), 128u64);
l5 = 0u32;
break 'b4;
}
'b10: {
l1 = load_64(m, l10);
if (load_64(m, l1.wrapping_add(16u64)) != 1u64) { break 'b10; }
l4 = load_64(m, l1.wrapping_add(8u64));
let t7 = load_64(m, l4);
l4 = l4.wrapping_add(32u64);
l6 = load_64(m, l4);
if (l9 != t7.wrapping_add(l6)) { break 'b10; }
store_64(m, l4, l6.wrapping_add((l7 << 4)));
}
l1 = l1.wrapping_add(24u64);
let t8 = load_64(m, l1).wrapping_add(0xffffffffffffffffu64);
store_64(m, l1, t8);
l3 = (load_8(m, l0) as u32);
store_64(m, l0, 0u64);
l1 = load_64(m, l0.wrapping_add(24u64));
l4 = load_64(m, l0.wrapping_add(32u64));
l0 = load_64(m, l0.wrapping_add(8u64));
copy(m, l8, l2.wrapping_add(136u64), 128u64);
l5 = 0u32;
if (l3 == 0) { break 'b4; }
if (l1 == 0) { break 'b4; }
'b11: {
l4 = load_64(m, l4);
if (load_64(m, l4.wrapping_add(16u64)) != 1u64) { break 'b11; }
l6 = load_64(m, l4.wrapping_add(8u64));
let t9 = load_64(m, l6);
l6 = l6.wrapping_add(32u64);
l13 = load_64(m, l6);
if (l0 != t9.wrapping_add(l13)) { break 'b11; }
store_64(m, l6, l13.wrapping_add((l1 << 4)));
}
l0 = l4.wrapping_add(24u64);
let t10 = load_64(m, l0).wrapping_add(0xffffffffffffffffu64);
store_64(m, l0, t10);
break 'b4;
}
'b12: {
if (l3 != 0) { break 'b12; }
store_64(m, l2.wrapping_add(272u64), 0u64);
store_64(m, l2.wrapping_add(280u64), 0u64);
let t11 = load_64(m, l0.wrapping_add(128u64));
store_64(m, l2.wrapping_add(288u64), t11);
store_64(m, l2.wrapping_add(264u64), l2.wrapping_add(296u64));
'b13: {
'b14: {
'b15: {
'b16: {
'b17: {
let t12 = f62(m, g, l2.wrapping_add(264u64), l6);
if ((t12 & 255u32) != 0) { break 'b17; }
l11 = l0.wrapping_add(8u64);
l1 = load_64(m, l0.wrapping_add(120u64));
if (l1 == 0) { break 'b13; }
l14 = load_64(m, l2.wrapping_add(264u64));
l7 = load_64(m, l2.wrapping_add(272u64));
if (l1 != 1u64) { break 'b16; }
l1 = 0u64;
break 'b15;
}
'b18: {
l1 = load_64(m, l2.wrapping_add(280u64));
if (l1 == 0) { break 'b18; }
'b19: {
l0 = load_64(m, load_64(m, l2.wrapping_add(288u64)));
if (load_64(m, l0.wrapping_add(16u64)) != 1u64) { break 'b19; }
l4 = load_64(m, l0.wrapping_add(8u64));
let t13 = load_64(m, l4);
l4 = l4.wrapping_add(32u64);
l6 = load_64(m, l4);
if (load_64(m, l2.wrapping_add(264u64)) != t13.wrapping_add(l6)) { break 'b19; }
store_64(m, l4, l6.wrapping_add((l1 << 4)));
}
l0 = l0.wrapping_add(24u64);
let t14 = load_64(m, l0).wrapping_add(0xffffffffffffffffu64);
store_64(m, l0, t14);
}
l5 = 1u32;
break 'b4;
}
l15 = (l1 & 1u64);
l8 = 0u64.wrapping_sub((l1 & 0xfffffffffffffffeu64));
l10 = l14.wrapping_add((l7 << 4));
l13 = 0u64;
l4 = 0u64;
'b20: loop {
l6 = l0.wrapping_add(l4);
l1 = l6.wrapping_add(8u64);
l9 = load_64(m, l1);
store_64(m, l1, 0u64);
l1 = l6.wrapping_add(16u64);
l3 = (load_8(m, l1) as u32);
store_64(m, l1, 0u64);
l1 = l10.wrapping_add(l4);
store_32(m, l1.wrapping_add(9u64), 0u32);
store_8(m, l1.wrapping_add(8u64), l3 as u8);
store_64(m, l1, l9);
store_32(m, l1.wrapping_add(12u64), 0u32);
l9 = l6.wrapping_add(24u64);
l12 = load_64(m, l9);
store_64(m, l9, 0u64);
l6 = l6.wrapping_add(32u64);
l3 = (load_8(m, l6) as u32);
store_64(m, l6, 0u64);
store_32(m, l1.wrapping_add(25u64), 0u32);
store_8(m, l1.wrapping_add(24u64), l3 as u8);
store_64(m, l1.wrapping_add(16u64), l12);
store_32(m, l1.wrapping_add(28u64), 0u32);
l4 = l4.wrapping_add(32u64);
l13 = l13.wrapping_add(0xfffffffffffffffeu64);
if (l8 != l13) { continue 'b20; }
break 'b20;
}
l7 = l7.wrapping_sub(l13);
if (l15 == 0) { break 'b14; }
l1 = 0u64.wrapping_sub(l13);
}
l1 = l11.wrapping_add((l1 << 4));
l4 = load_64(m, l1);
store_64(m, l1, 0u64);
l3 = (load_8(m, l1.wrapping_add(8u64)) as u32);
store_64(m, l1.wrapping_add(8u64), 0u64);
l1 = l14.wrapping_add((l7 << 4));
store_32(m, l1.wrapping_add(9u64), 0u32);
store_8(m, l1.wrapping_add(8u64), l3 as u8);
store_64(m, l1, l4);
store_32(m, l1.wrapping_add(12u64), 0u32);
l7 = l7.wrapping_add(1u64);
}
store_64(m, l2.wrapping_add(272u64), l7);
l1 = load_64(m, l0.wrapping_add(120u64));
if (l1 == 0) { break 'b13; }
'b21: {
l1 = (l1 << 4);
if (l1 == 0) { break 'b21; }
fill(m, l11, 0u32 as u8, l1);
}
store_64(m, l0.wrapping_add(120u64), 0u64);
}
l1 = load_64(m, l2.wrapping_add(288u64));
store_64(m, l2.wrapping_add(167u64), l1);
l4 = load_64(m, l2.wrapping_add(280u64));
store_64(m, l2.wrapping_add(159u64), l4);
l6 = load_64(m, l2.wrapping_add(272u64));
store_64(m, l2.wrapping_add(151u64), l6);
l13 = load_64(m, l2.wrapping_add(264u64));
store_64(m, l2.wrapping_add(143u64), l13);
l3 = (load_8(m, l0) as u32);
store_64(m, l0, 1u64);
store_64(m, l2.wrapping_add(8u64), l13);
store_64(m, l2.wrapping_add(16u64), l6);
store_64(m, l2.wrapping_add(24u64), l4);
store_64(m, l2.wrapping_add(32u64), l1);
l4 = load_64(m, l0.wrapping_add(8u64));
l1 = load_64(m, l0.wrapping_add(24u64));
l0 = load_64(m, l0.wrapping_add(32u64));
copy(m, l11, l2.wrapping_add(8u64), 128u64);
if (l3 == 0) { break 'b4; }
if (l1 == 0) { break 'b4; }
'b22: {
l0 = load_64(m, l0);
if (load_64(m, l0.wrapping_add(16u64)) != 1u64) { break 'b22; }
l6 = load_64(m, l0.wrapping_add(8u64));
let t15 = load_64(m, l6);
l6 = l6.wrapping_add(32u64);
l13 = load_64(m, l6);
if (l4 != t15.wrapping_add(l13)) { break 'b22; }
store_64(m, l6, l13.wrapping_add((l1 << 4)));
}
l0 = l0.wrapping_add(24u64);
let t16 = load_64(m, l0).wrapping_add(0xffffffffffffffffu64);
store_64(m, l0, t16);
break 'b4;
}
'b23: {
l4 = load_64(m, l0.wrapping_add(24u64));
if (l6 >= l4) { break 'b23; }
l1 = load_64(m, l0.wrapping_add(16u64));
if (l1 >= l4) { break 'b4; }
store_64(m, l0.wrapping_add(24u64), (if (l1 > l6) { l1 } else { l6 }));
break 'b4;
}
let t17 = f62(m, g, l0.wrapping_add(8u64), l6.wrapping_sub(l1));
l5 = (t17 & 255u32);
}
g = l2.wrapping_add(304u64);
return l5;
}
}

// std_alloc::vec::Vec::reserve_exact::<#c2d7bb32c85867fc>
fn f62(m: &mut [u8], mut g: u64, mut l0: u64, mut l1: u64) -> u32 {
let mut l2: u64 = 0;
let mut l3: u32 = 0;
let mut l4: u64 = 0;
let mut l5: u64 = 0;
let mut l6: u64 = 0;
let mut l7: u64 = 0;
let mut l8: u64 = 0;
let mut l9: u64 = 0;
let mut l10: u64 = 0;
let mut l11: u64 = 0;
let mut l12: u64 = 0;
let mut l13: u64 = 0;
let mut l14: u64 = 0;
let mut l15: u32 = 0;
l2 = g.wrapping_sub(32u64);
g = l2;
{
l3 = 0u32;
'b2: {
l4 = load_64(m, l0.wrapping_add(16u64));
l5 = load_64(m, l0.wrapping_add(8u64));
if (l1 <= l4.wrapping_sub(l5)) { break 'b2; }
l3 = 1u32;
if (l1 > (l5 ^ 0xffffffffffffffffu64)) { break 'b2; }
l6 = l5.wrapping_add(l1);
if (l6 > 0x7ffffffffffffffu64) { break 'b2; }
'b3: {
'b4: {
if (l4 == 0) { break 'b4; }
l7 = load_64(m, l0);
l8 = load_64(m, load_64(m, l0.wrapping_add(24u64)));
l1 = load_64(m, l8.wrapping_add(16u64));
'b5: {
'b6: {
'b7: {
'b8: {
l9 = l6.wrapping_sub(l4);
if (l5 > l9) { break 'b8; }
if (l1 != 1u64) { break 'b8; }
'b9: {
'b10: {
l1 = load_64(m, l8.wrapping_add(8u64));
l10 = load_64(m, l1.wrapping_add(32u64));
l11 = (l9 << 4);
if (l10 < l11) { break 'b10; }
l12 = load_64(m, l1);
if (l7 == l12.wrapping_add(l10)) { break 'b9; }
}
l9 = (l6 << 4);
break 'b7;
}
let t1 = l1.wrapping_add(32u64);
l1 = l10.wrapping_sub(l11);
store_64(m, t1, l1);
'b11: {
l13 = l12.wrapping_add(l1);
l1 = (l5 << 4);
if (l13.wrapping_sub(l7) >= l1) { break 'b11; }
if (l5 == 0) { break 'b3; }
l4 = (l5 & 3u64);
l1 = 0u64;
'b12: {
if (l5 < 4u64) { break 'b12; }
l9 = 0u64;
l8 = 0u64.wrapping_sub((l5 & 0xfffffffffffffffcu64));
l1 = l13;
l5 = l7;
'b13: loop {
l14 = load_64(m, l5);
let t2 = load_64(m, l5.wrapping_add(8u64));
store_64(m, l1.wrapping_add(8u64), t2);
store_64(m, l1, l14);
l14 = load_64(m, l5.wrapping_add(16u64));
let t3 = load_64(m, l5.wrapping_add(24u64));
store_64(m, l1.wrapping_add(24u64), t3);
store_64(m, l1.wrapping_add(16u64), l14);
l14 = load_64(m, l5.wrapping_add(32u64));
let t4 = load_64(m, l5.wrapping_add(40u64));
store_64(m, l1.wrapping_add(40u64), t4);
store_64(m, l1.wrapping_add(32u64), l14);
l14 = load_64(m, l5.wrapping_add(48u64));
let t5 = load_64(m, l5.wrapping_add(56u64));
store_64(m, l1.wrapping_add(56u64), t5);
store_64(m, l1.wrapping_add(48u64), l14);
l1 = l1.wrapping_add(64u64);
l5 = l5.wrapping_add(64u64);
l9 = l9.wrapping_add(0xfffffffffffffffcu64);
if (l8 != l9) { continue 'b13; }
break 'b13;
}
if (l4 == 0) { break 'b3; }
l1 = 0u64.wrapping_sub(l9);
}
l5 = (l1 << 4);
l1 = l7.wrapping_add(l5);
l5 = l12.wrapping_add(l10.wrapping_add(l5).wrapping_sub(l11));
'b14: loop {
l9 = load_64(m, l1);
let t6 = load_64(m, l1.wrapping_add(8u64));
store_64(m, l5.wrapping_add(8u64), t6);
store_64(m, l5, l9);
l5 = l5.wrapping_add(16u64);
l1 = l1.wrapping_add(16u64);
l4 = l4.wrapping_add(0xffffffffffffffffu64);
if (l4 != 0u64) { continue 'b14; }
break 'b3;
}
}
if (l1 == 0) { break 'b3; }
copy(m, l13, l7, l1);
break 'b3;
}
l9 = (l6 << 4);
if (l1 == 0) { break 'b6; }
l1 = load_64(m, l8.wrapping_add(8u64));
l10 = load_64(m, l1.wrapping_add(32u64));
}
l14 = (l10 & 0xfffffffffffffff8u64);
if (l14 < l9) { break 'b6; }
l9 = l14.wrapping_sub(l9);
store_64(m, l1.wrapping_add(32u64), l9);
l13 = load_64(m, l1).wrapping_add(l9);
l15 = 1u32;
break 'b5;
}
f52(m, g, l2.wrapping_add(16u64), l8, l9, 8u64);
l13 = load_64(m, l2.wrapping_add(24u64));
l15 = (load_8(m, l2.wrapping_add(16u64)) as u32);
}
l3 = 1u32;
if ((l15 & 1u32) == 0) { break 'b2; }
l1 = l8.wrapping_add(24u64);
l9 = load_64(m, l1);
if (l9 == 0xffffffffffffffffu64) { break 'b2; }
store_64(m, l1, l9.wrapping_add(1u64));
'b15: {
'b16: {
l1 = (l5 << 4);
if (l13.wrapping_sub(l7) >= l1) { break 'b16; }
if (l5 == 0) { break 'b15; }
l14 = (l5 & 3u64);
l10 = 0u64;
'b17: {
if (l5 < 4u64) { break 'b17; }
l12 = (l5 & 0xfffffffffffffffcu64);
l9 = 0u64;
l10 = 0u64;
'b18: loop {
l1 = l7.wrapping_add(l9);
l11 = load_64(m, l1);
l5 = l13.wrapping_add(l9);
let t7 = load_64(m, l1.wrapping_add(8u64));
store_64(m, l5.wrapping_add(8u64), t7);
store_64(m, l5, l11);
l11 = load_64(m, l1.wrapping_add(16u64));
let t8 = load_64(m, l1.wrapping_add(24u64));
store_64(m, l5.wrapping_add(24u64), t8);
store_64(m, l5.wrapping_add(16u64), l11);
l11 = load_64(m, l1.wrapping_add(32u64));
let t9 = load_64(m, l1.wrapping_add(40u64));
store_64(m, l5.wrapping_add(40u64), t9);
store_64(m, l5.wrapping_add(32u64), l11);
l11 = load_64(m, l1.wrapping_add(48u64));
let t10 = load_64(m, l1.wrapping_add(56u64));
store_64(m, l5.wrapping_add(56u64), t10);
store_64(m, l5.wrapping_add(48u64), l11);
l9 = l9.wrapping_add(64u64);
l10 = l10.wrapping_add(4u64);
if (l12 != l10) { continue 'b18; }
break 'b18;
}
if (l14 == 0) { break 'b15; }
}
l5 = (l10 << 4);
l1 = l13.wrapping_add(l5);
l5 = l7.wrapping_add(l5);
'b19: loop {
l9 = load_64(m, l5);
let t11 = load_64(m, l5.wrapping_add(8u64));
store_64(m, l1.wrapping_add(8u64), t11);
store_64(m, l1, l9);
l1 = l1.wrapping_add(16u64);
l5 = l5.wrapping_add(16u64);
l14 = l14.wrapping_add(0xffffffffffffffffu64);
if (l14 != 0u64) { continue 'b19; }
break 'b15;
}
}
if (l1 == 0) { break 'b15; }
copy(m, l13, l7, l1);
}
'b20: {
if (load_64(m, l8.wrapping_add(16u64)) != 1u64) { break 'b20; }
l1 = load_64(m, l8.wrapping_add(8u64));
let t12 = load_64(m, l1);
l1 = l1.wrapping_add(32u64);
l5 = load_64(m, l1);
if (l7 != t12.wrapping_add(l5)) { break 'b20; }
store_64(m, l1, l5.wrapping_add((l4 << 4)));
}
l1 = l8.wrapping_add(24u64);
let t13 = load_64(m, l1).wrapping_add(0xffffffffffffffffu64);
store_64(m, l1, t13);
break 'b3;
}
l1 = (l6 << 4);
'b21: {
'b22: {
l5 = load_64(m, load_64(m, l0.wrapping_add(24u64)));
if (load_64(m, l5.wrapping_add(16u64)) == 0) { break 'b22; }
l4 = load_64(m, l5.wrapping_add(8u64));
l9 = l4.wrapping_add(32u64);
l14 = (load_64(m, l9) & 0xfffffffffffffff8u64);
if (l14 < l1) { break 'b22; }
l1 = l14.wrapping_sub(l1);
store_64(m, l9, l1);
l13 = load_64(m, l4).wrapping_add(l1);
l15 = 1u32;
break 'b21;
}
f52(m, g, l2, l5, l1, 8u64);
l13 = load_64(m, l2.wrapping_add(8u64));
l15 = (load_8(m, l2) as u32);
}
l3 = 1u32;
if ((l15 & 1u32) == 0) { break 'b2; }
l1 = l5.wrapping_add(24u64);
l5 = load_64(m, l1);
if (l5 == 0xffffffffffffffffu64) { break 'b2; }
store_64(m, l1, l5.wrapping_add(1u64));
}
store_64(m, l0, l13);
store_64(m, l0.wrapping_add(16u64), l6);
l3 = 0u32;
}
g = l2.wrapping_add(32u64);
return l3;
}
}

// bech32_lookup::erased::values_of
fn f63(m: &mut [u8], mut g: u64, mut l0: u64, mut l1: u64, mut l2: u64, mut l3: u64) {
let mut l4: u64 = 0;
let mut l5: u64 = 0;
let mut l6: u64 = 0;
let mut l7: u32 = 0;
let mut l8: u64 = 0;
let mut l9: u64 = 0;
let mut l10: u64 = 0;
let mut l11: u64 = 0;
let mut l12: u64 = 0;
let mut l13: u64 = 0;
let mut l14: u64 = 0;
let mut l15: u64 = 0;
let mut l16: u64 = 0;
let mut l17: u64 = 0;
let mut l18: u64 = 0;
let mut l19: u64 = 0;
let mut l20: u64 = 0;
let mut l21: u64 = 0;
let mut l22: u64 = 0;
let mut l23: u64 = 0;
let mut l24: u32 = 0;
l4 = g.wrapping_sub(288u64);
g = l4;
'b1: {
'b2: {
'b3: {
{
l5 = l4;
store_32(m, l5.wrapping_add(23u64), 0u32);
l6 = 0u64;
store_64(m, l5.wrapping_add(16u64), 0u64);
store_64(m, l5.wrapping_add(8u64), 0u64);
store_64(m, l5, 0u64);
'b5: {
if (l2 != 0u64) { break 'b5; }
l4 = 0u64;
'b6: {
'b7: {
'b8: {
'b9: {
'b10: loop {
if ((load_8(m, l1.wrapping_add(l4)) as u32) != 0) { break 'b9; }
l4 = l4.wrapping_add(1u64);
if (l3 != l4) { continue 'b10; }
break 'b8;
}
}
if (l4 < l3) { break 'b7; }
}
store_8(m, l5.wrapping_add(152u64), 0u32 as u8);
store_64(m, l5.wrapping_add(144u64), 0u64);
store_64(m, l5.wrapping_add(136u64), 0u64);
store_64(m, l5.wrapping_add(128u64), 0u64);
l7 = 1u32;
break 'b6;
}
l7 = 0u32;
store_8(m, l5.wrapping_add(152u64), 0u32 as u8);
store_64(m, l5.wrapping_add(144u64), 0u64);
store_64(m, l5.wrapping_add(136u64), 0u64);
store_64(m, l5.wrapping_add(128u64), 0u64);
}
store_8(m, l0, l7 as u8);
store_8(m, l0.wrapping_add(1u64), l7 as u8);
let t1 = load_64(m, l5.wrapping_add(128u64));
store_64(m, l0.wrapping_add(2u64), t1);
let t2 = load_64(m, l5.wrapping_add(136u64));
store_64(m, l0.wrapping_add(10u64), t2);
let t3 = load_64(m, l5.wrapping_add(144u64));
store_64(m, l0.wrapping_add(18u64), t3);
let t4 = (load_8(m, l5.wrapping_add(152u64)) as u32);
store_8(m, l0.wrapping_add(26u64), t4 as u8);
break 'b1;
}
store_64(m, l5.wrapping_add(192u64), 0u64);
store_64(m, l5.wrapping_add(200u64), 0u64);
store_64(m, l5.wrapping_add(208u64), 0u64);
store_8(m, l5.wrapping_add(216u64), 0u32 as u8);
l4 = l1.wrapping_add(l2.wrapping_mul(25u64));
let t5 = load_64(m, l4);
store_64(m, l5.wrapping_add(224u64), t5);
let t6 = load_64(m, l4.wrapping_add(8u64));
store_64(m, l5.wrapping_add(232u64), t6);
let t7 = load_64(m, l4.wrapping_add(16u64));
store_64(m, l5.wrapping_add(240u64), t7);
let t8 = (load_8(m, l4.wrapping_add(24u64)) as u32);
store_8(m, l5.wrapping_add(248u64), t8 as u8);
l8 = l1.wrapping_add(1u64);
l9 = l3.wrapping_add(0xffffffffffffffffu64);
l10 = (l5.wrapping_add(224u64) | 1u64);
l11 = l5.wrapping_add(256u64).wrapping_add(1u64);
'b11: {
'b12: loop {
l12 = (load_8(m, l5.wrapping_add(224u64).wrapping_add(l6)) as u64);
if (l12 != 0u64) { break 'b11; }
l8 = l8.wrapping_add(1u64);
l10 = l10.wrapping_add(1u64);
l11 = l11.wrapping_add(1u64);
l9 = l9.wrapping_add(0xffffffffffffffffu64);
l6 = l6.wrapping_add(1u64);
if (l6 != l3) { continue 'b12; }
break 'b3;
}
}
if (l6 == l3) { break 'b3; }
l13 = l5.wrapping_add(256u64).wrapping_add(l6);
'b13: {
'b14: {
l14 = l6.wrapping_add(1u64);
if (l14 < l3) { break 'b14; }
l15 = l5.wrapping_add(192u64);
l4 = l1;
l16 = l2;
'b15: loop {
l7 = 0u32;
'b16: {
l17 = (load_8(m, l4.wrapping_add(l6)) as u64);
if (l17 == 0) { break 'b16; }
l7 = (load_8_constant(m, ((((load_8_constant(m, l17.wrapping_add(0x100000082u64)) as u32).wrapping_sub((load_8_constant(m, l12.wrapping_add(0x100000082u64)) as u32)).wrapping_add(31u32) & 255u32) % 31u32) as u64).wrapping_add(0x1000000a2u64)) as u32);
}
store_8(m, l15, l7 as u8);
let t9 = (load_8(m, l4.wrapping_add(24u64)) as u32);
store_8(m, l5.wrapping_add(280u64), t9 as u8);
let t10 = load_64(m, l4.wrapping_add(16u64));
store_64(m, l5.wrapping_add(272u64), t10);
let t11 = load_64(m, l4.wrapping_add(8u64));
store_64(m, l5.wrapping_add(264u64), t11);
let t12 = load_64(m, l4);
store_64(m, l5.wrapping_add(256u64), t12);
store_8(m, l13, 0u32 as u8);
let t13 = load_64(m, l5.wrapping_add(256u64));
store_64(m, l5.wrapping_add(160u64), t13);
let t14 = load_64(m, l5.wrapping_add(264u64));
store_64(m, l5.wrapping_add(168u64), t14);
let t15 = load_64(m, l5.wrapping_add(272u64));
store_64(m, l5.wrapping_add(176u64), t15);
let t16 = (load_8(m, l5.wrapping_add(280u64)) as u32);
store_8(m, l5.wrapping_add(184u64), t16 as u8);
let t17 = (load_8(m, l5.wrapping_add(184u64)) as u32);
store_8(m, l4.wrapping_add(24u64), t17 as u8);
let t18 = load_64(m, l5.wrapping_add(176u64));
store_64(m, l4.wrapping_add(16u64), t18);
let t19 = load_64(m, l5.wrapping_add(168u64));
store_64(m, l4.wrapping_add(8u64), t19);
let t20 = load_64(m, l5.wrapping_add(160u64));
store_64(m, l4, t20);
l4 = l4.wrapping_add(25u64);
l15 = l15.wrapping_add(1u64);
l16 = l16.wrapping_add(0xffffffffffffffffu64);
if (l16 != 0u64) { continue 'b15; }
break 'b13;
}
}
l18 = l3.wrapping_add((l6 ^ 0xffffffffffffffffu64));
l19 = l5.wrapping_add(256u64).wrapping_add(l14);
l20 = 0u64;
'b17: loop {
l7 = 0u32;
'b18: {
l21 = l1.wrapping_add(l20.wrapping_mul(25u64));
l4 = (load_8(m, l21.wrapping_add(l6)) as u64);
if (l4 == 0) { break 'b18; }
l7 = (load_8_constant(m, ((((load_8_constant(m, l4.wrapping_add(0x100000082u64)) as u32).wrapping_sub((load_8_constant(m, l12.wrapping_add(0x100000082u64)) as u32)).wrapping_add(31u32) & 255u32) % 31u32) as u64).wrapping_add(0x1000000a2u64)) as u32);
}
store_8(m, l5.wrapping_add(192u64).wrapping_add(l20), l7 as u8);
let t21 = (load_8(m, l21.wrapping_add(24u64)) as u32);
store_8(m, l5.wrapping_add(280u64), t21 as u8);
let t22 = load_64(m, l21.wrapping_add(16u64));
store_64(m, l5.wrapping_add(272u64), t22);
let t23 = load_64(m, l21.wrapping_add(8u64));
store_64(m, l5.wrapping_add(264u64), t23);
let t24 = load_64(m, l21);
store_64(m, l5.wrapping_add(256u64), t24);
store_8(m, l13, 0u32 as u8);
'b19: {
'b20: {
if ((l7 & 255u32) == 0) { break 'b20; }
l22 = ((l7 as u64) & 255u64);
l4 = l8;
l15 = l10;
l16 = l11;
l17 = l9;
'b21: loop {
l7 = (load_8(m, l4) as u32);
'b22: {
l23 = (load_8(m, l15) as u64);
if (l23 == 0) { break 'b22; }
l7 = ((load_8_constant(m, ((((load_8_constant(m, l23.wrapping_add(0x100000082u64)) as u32).wrapping_add((load_8_constant(m, l22.wrapping_add(0x100000082u64)) as u32)) & 255u32) % 31u32) as u64).wrapping_add(0x1000000a2u64)) as u32) ^ l7);
}
store_8(m, l16, l7 as u8);
l4 = l4.wrapping_add(1u64);
l15 = l15.wrapping_add(1u64);
l16 = l16.wrapping_add(1u64);
l17 = l17.wrapping_add(0xffffffffffffffffu64);
if !(l17 == 0) { continue 'b21; }
break 'b19;
}
}
if (l18 == 0) { break 'b19; }
copy(m, l19, l21.wrapping_add(l14), l18);
}
l7 = (load_8(m, l5.wrapping_add(280u64)) as u32);
store_8(m, l5.wrapping_add(184u64), l7 as u8);
l4 = load_64(m, l5.wrapping_add(272u64));
store_64(m, l5.wrapping_add(176u64), l4);
l15 = load_64(m, l5.wrapping_add(264u64));
store_64(m, l5.wrapping_add(168u64), l15);
l16 = load_64(m, l5.wrapping_add(256u64));
store_64(m, l5.wrapping_add(160u64), l16);
store_8(m, l21.wrapping_add(24u64), l7 as u8);
store_64(m, l21.wrapping_add(16u64), l4);
store_64(m, l21.wrapping_add(8u64), l15);
store_64(m, l21, l16);
l8 = l8.wrapping_add(25u64);
l20 = l20.wrapping_add(1u64);
if (l20 != l2) { continue 'b17; }
break 'b17;
}
}
let t25 = (load_8(m, l5.wrapping_add(216u64)) as u32);
store_8(m, l5.wrapping_add(56u64), t25 as u8);
let t26 = load_64(m, l5.wrapping_add(208u64));
store_64(m, l5.wrapping_add(48u64), t26);
let t27 = load_64(m, l5.wrapping_add(200u64));
store_64(m, l5.wrapping_add(40u64), t27);
let t28 = load_64(m, l5.wrapping_add(192u64));
store_64(m, l5.wrapping_add(32u64), t28);
break 'b2;
}
}
store_8(m, l5.wrapping_add(56u64), 0u32 as u8);
store_64(m, l5.wrapping_add(48u64), 0u64);
store_64(m, l5.wrapping_add(40u64), 0u64);
store_64(m, l5.wrapping_add(32u64), 0u64);
}
let t29 = load_64(m, l5.wrapping_add(32u64));
store_64(m, l5.wrapping_add(96u64), t29);
let t30 = load_64(m, l5.wrapping_add(40u64));
store_64(m, l5.wrapping_add(104u64), t30);
let t31 = load_64(m, l5.wrapping_add(48u64));
store_64(m, l5.wrapping_add(112u64), t31);
let t32 = (load_8(m, l5.wrapping_add(56u64)) as u32);
store_8(m, l5.wrapping_add(120u64), t32 as u8);
f63(m, g, l5, l1, l2.wrapping_add(0xffffffffffffffffu64), l3);
'b23: {
if ((load_8(m, l5) as u32) != 1u32) { break 'b23; }
let t33 = (load_16(m, l5.wrapping_add(25u64)) as u32);
store_16(m, l5.wrapping_add(88u64), t33 as u16);
let t34 = load_64(m, l5.wrapping_add(17u64));
store_64(m, l5.wrapping_add(80u64), t34);
let t35 = load_64(m, l5.wrapping_add(9u64));
store_64(m, l5.wrapping_add(72u64), t35);
let t36 = load_64(m, l5.wrapping_add(1u64));
store_64(m, l5.wrapping_add(64u64), t36);
l24 = (load_8(m, l5.wrapping_add(96u64)) as u32);
'b24: {
if (l2 == 1u64) { break 'b24; }
l16 = l2.wrapping_add(0xffffffffffffffffu64);
l4 = (l5.wrapping_add(64u64) | 1u64);
l15 = (l5.wrapping_add(96u64) | 1u64);
'b25: loop {
'b26: {
l17 = (load_8(m, l4) as u64);
if (l17 == 0) { break 'b26; }
l7 = (load_8(m, l15) as u32);
if ((l7 & 255u32) == 0) { break 'b26; }
l24 = ((load_8_constant(m, ((((load_8_constant(m, ((l7 as u64) & 255u64).wrapping_add(0x100000082u64)) as u32).wrapping_add((load_8_constant(m, l17.wrapping_add(0x100000082u64)) as u32)) & 255u32) % 31u32) as u64).wrapping_add(0x1000000a2u64)) as u32) ^ l24);
}
l4 = l4.wrapping_add(1u64);
l15 = l15.wrapping_add(1u64);
l16 = l16.wrapping_add(0xffffffffffffffffu64);
if (l16 != 0u64) { continue 'b25; }
break 'b25;
}
}
store_8(m, l5.wrapping_add(64u64).wrapping_add(l2), l24 as u8);
store_8(m, l0, 1u32 as u8);
let t37 = (load_8(m, l5.wrapping_add(64u64)) as u32);
store_8(m, l0.wrapping_add(1u64), t37 as u8);
let t38 = load_64(m, l5.wrapping_add(65u64));
store_64(m, l0.wrapping_add(2u64), t38);
let t39 = load_64(m, l5.wrapping_add(73u64));
store_64(m, l0.wrapping_add(10u64), t39);
let t40 = load_64(m, l5.wrapping_add(81u64));
store_64(m, l0.wrapping_add(18u64), t40);
let t41 = (load_8(m, l5.wrapping_add(89u64)) as u32);
store_8(m, l0.wrapping_add(26u64), t41 as u8);
break 'b1;
}
store_32(m, l0.wrapping_add(23u64), 0u32);
store_64(m, l0.wrapping_add(16u64), 0u64);
store_64(m, l0.wrapping_add(8u64), 0u64);
store_64(m, l0, 0u64);
}
g = l5.wrapping_add(288u64);
}

// bech32_bch::decoder::decode_errors::<#a5ecb4d5f49d4d25>
fn f64(m: &mut [u8], mut g: u64, mut l0: u64, mut l1: u64, mut l2: u64, mut l3: u64, mut l4: u64, mut l5: u64, mut l6: u64) {
let mut l7: u64 = 0;
let mut l8: u64 = 0;
let mut l9: u64 = 0;
let mut l10: u32 = 0;
let mut l11: u32 = 0;
let mut l12: u32 = 0;
let mut l13: u32 = 0;
let mut l14: u64 = 0;
let mut l15: u64 = 0;
let mut l16: u32 = 0;
let mut l17: u64 = 0;
let mut l18: u32 = 0;
let mut l19: u64 = 0;
let mut l20: u64 = 0;
let mut l21: u32 = 0;
let mut l22: u32 = 0;
let mut l23: u32 = 0;
let mut l24: u32 = 0;
let mut l25: u64 = 0;
let mut l26: u64 = 0;
let mut l27: u64 = 0;
let mut l28: u32 = 0;
let mut l29: u64 = 0;
let mut l30: u32 = 0;
let mut l31: u64 = 0;
let mut l32: u64 = 0;
let mut l33: u64 = 0;
let mut l34: u32 = 0;
let mut l35: u64 = 0;
let mut l36: u32 = 0;
let mut l37: u64 = 0;
let mut l38: u32 = 0;
let mut l39: u64 = 0;
let mut l40: u32 = 0;
let mut l41: u64 = 0;
l7 = g.wrapping_sub(1392u64);
g = l7;
'b1: {
'b2: {
'b3: {
'b4: {
'b5: {
'b6: {
{
l8 = load_64(m, l2.wrapping_add(16u64));
l9 = load_64(m, l2.wrapping_add(8u64));
l2 = load_64(m, l2);
fill(m, l7.wrapping_add(424u64), 0u32 as u8, 128u64);
store_64(m, l7.wrapping_add(416u64), 0u64);
store_64(m, l7.wrapping_add(408u64), 0u64);
store_64(m, l7.wrapping_add(400u64), 0u64);
store_64(m, l7.wrapping_add(392u64), 0u64);
store_64(m, l7.wrapping_add(384u64), 0u64);
fill(m, l7.wrapping_add(304u64), 0u32 as u8, 80u64);
store_64(m, l7.wrapping_add(296u64), 0u64);
store_64(m, l7.wrapping_add(288u64), 0u64);
store_64(m, l7.wrapping_add(280u64), 0u64);
store_64(m, l7.wrapping_add(272u64), 0u64);
fill(m, l7.wrapping_add(200u64), 0u32 as u8, 72u64);
fill(m, l7.wrapping_add(65u64), 0u32 as u8, 135u64);
store_64(m, l7.wrapping_add(56u64), 0u64);
store_64(m, l7.wrapping_add(48u64), 0u64);
store_64(m, l7.wrapping_add(40u64), 0u64);
store_64(m, l7.wrapping_add(32u64), 0u64);
store_64(m, l7, 0u64);
store_64(m, l7.wrapping_add(8u64), 0u64);
store_64(m, l7.wrapping_add(16u64), 0u64);
store_64(m, l7.wrapping_add(24u64), 0u64);
'b8: {
l10 = (load_8(m, l5) as u32);
if (l8 >= load_64(m, l5.wrapping_add((if (l10 != 0) { 16u64 } else { 64u64 })))) { break 'b8; }
store_8(m, l0, 0u32 as u8);
fill(m, l0.wrapping_add(8u64), 0u32 as u8, 144u64);
break 'b1;
}
store_64(m, l7.wrapping_add(1256u64), 0u64);
store_64(m, l7.wrapping_add(1264u64), 0u64);
store_64(m, l7.wrapping_add(1272u64), 0u64);
store_64(m, l7.wrapping_add(1280u64), 0u64);
store_64(m, l7.wrapping_add(1288u64), l1);
l11 = (l2 as u32);
store_16(m, l7.wrapping_add(1048u64), l11 as u16);
l12 = 1u32;
store_16(m, l7.wrapping_add(1176u64), 1u32 as u16);
'b9: {
l13 = ((l9 == 0) as u32);
if (l13 != 0) { break 'b9; }
l2 = l9;
'b10: loop {
l12 = (load_16(m, l7.wrapping_add(1048u64)) as u32);
'b11: {
if ((l2 & 1u64) == 0) { break 'b11; }
let t1 = (load_16(m, l7.wrapping_add(1176u64)) as u32);
f58(m, g, l7.wrapping_add(1176u64), t1, l12);
}
f58(m, g, l7.wrapping_add(1048u64), l12, l12);
l2 = (l2 >> 1);
if (l2 != 0u64) { continue 'b10; }
break 'b10;
}
l12 = (load_16(m, l7.wrapping_add(1176u64)) as u32);
}
l14 = l7.wrapping_add(1264u64);
store_16(m, l7.wrapping_add(968u64), l12 as u16);
l2 = 0u64;
'b12: {
'b13: {
'b14: {
'b15: {
if (l8 == 0) { break 'b15; }
l15 = 0u64;
'b16: loop {
l16 = (load_16(m, l7.wrapping_add(968u64)) as u32);
l17 = ((l16 as u64) & 255u64);
l18 = (l16 >> 8);
l19 = (l18 as u64);
'b17: {
'b18: {
l12 = (l18 ^ l16);
if ((l12 & 255u32) == 0) { break 'b18; }
l20 = ((l12 as u64) & 255u64);
l21 = 0u32;
l2 = 24u64;
l12 = 0u32;
'b19: loop {
l22 = (l21 & 255u32);
l23 = (l12 << 8);
l24 = (load_8(m, l4.wrapping_add(l2)) as u32);
l10 = 0u32;
'b20: {
if ((l16 & 255u32) == 0) { break 'b20; }
l10 = 0u32;
if (l22 == 0) { break 'b20; }
l10 = (load_8_constant(m, ((((load_8_constant(m, ((l21 as u64) & 255u64).wrapping_add(0x100000082u64)) as u32).wrapping_add((load_8_constant(m, l17.wrapping_add(0x100000082u64)) as u32)) & 255u32) % 31u32) as u64).wrapping_add(0x1000000a2u64)) as u32);
}
l22 = (l23 | l22);
l23 = (l12 & 255u32);
l21 = l10;
'b21: {
if (l18 == 0) { break 'b21; }
l21 = l10;
if ((l12 & 255u32) == 0) { break 'b21; }
l21 = ((load_8_constant(m, ((((load_8_constant(m, ((l12 as u64) & 255u64).wrapping_add(0x100000082u64)) as u32).wrapping_add((load_8_constant(m, l19.wrapping_add(0x100000082u64)) as u32)) & 255u32) % 31u32) as u64).wrapping_add(0x1000000a2u64)) as u32) ^ l10);
}
'b22: {
'b23: {
l12 = (l22 ^ l23);
if ((l12 & 255u32) != 0) { break 'b23; }
l12 = l10;
break 'b22;
}
l12 = ((load_8_constant(m, ((((load_8_constant(m, ((l12 as u64) & 255u64).wrapping_add(0x100000082u64)) as u32).wrapping_add((load_8_constant(m, l20.wrapping_add(0x100000082u64)) as u32)) & 255u32) % 31u32) as u64).wrapping_add(0x1000000a2u64)) as u32) ^ l10);
}
l21 = (l21 ^ l24);
l2 = l2.wrapping_add(0xffffffffffffffffu64);
if (l2 != 0xffffffffffffffffu64) { continue 'b19; }
break 'b17;
}
}
l12 = 0u32;
l2 = 24u64;
l21 = 0u32;
'b24: loop {
l22 = l12;
l23 = (load_8(m, l4.wrapping_add(l2)) as u32);
l12 = 0u32;
'b25: {
if ((l16 & 255u32) == 0) { break 'b25; }
l12 = 0u32;
if ((l21 & 255u32) == 0) { break 'b25; }
l12 = (load_8_constant(m, ((((load_8_constant(m, ((l21 as u64) & 255u64).wrapping_add(0x100000082u64)) as u32).wrapping_add((load_8_constant(m, l17.wrapping_add(0x100000082u64)) as u32)) & 255u32) % 31u32) as u64).wrapping_add(0x1000000a2u64)) as u32);
}
l10 = l12;
'b26: {
if (l18 == 0) { break 'b26; }
l10 = l12;
if ((l22 & 255u32) == 0) { break 'b26; }
l10 = ((load_8_constant(m, ((((load_8_constant(m, ((l22 as u64) & 255u64).wrapping_add(0x100000082u64)) as u32).wrapping_add((load_8_constant(m, l19.wrapping_add(0x100000082u64)) as u32)) & 255u32) % 31u32) as u64).wrapping_add(0x1000000a2u64)) as u32) ^ l12);
}
l21 = (l10 ^ l23);
l2 = l2.wrapping_add(0xffffffffffffffffu64);
if (l2 != 0xffffffffffffffffu64) { continue 'b24; }
break 'b24;
}
}
'b27: {
l2 = load_64(m, l7.wrapping_add(1280u64));
l10 = (load_8(m, l7.wrapping_add(1256u64)) as u32);
if ((if (l10 != 0) { load_64(m, l7.wrapping_add(1272u64)) } else { l2 }) != (if (l10 != 0) { l2 } else { 7u64 })) { break 'b27; }
let t2 = f57(m, g, l7.wrapping_add(1256u64));
l22 = t2;
l10 = (load_8(m, l7.wrapping_add(1256u64)) as u32);
if ((l22 & 255u32) != 0) { break 'b14; }
}
l12 = ((l12 << 8) | (l21 & 255u32));
'b28: {
'b29: {
if ((l10 & 255u32) != 0) { break 'b29; }
l2 = load_64(m, l7.wrapping_add(1280u64));
store_16(m, l14.wrapping_add((l2 << 1)), l12 as u16);
store_64(m, l7.wrapping_add(1280u64), l2.wrapping_add(1u64));
break 'b28;
}
l2 = load_64(m, l7.wrapping_add(1272u64));
let t3 = load_64(m, l7.wrapping_add(1264u64)).wrapping_add((l2 << 1));
store_16(m, t3, l12 as u16);
store_64(m, l7.wrapping_add(1272u64), l2.wrapping_add(1u64));
}
f58(m, g, l7.wrapping_add(968u64), l11, l16);
l15 = l15.wrapping_add(1u64);
if (l15 != l8) { continue 'b16; }
break 'b16;
}
l10 = (load_8(m, l5) as u32);
l2 = (load_8(m, l7.wrapping_add(1256u64)) as u64);
}
l4 = load_64(m, l14.wrapping_add(24u64));
store_64(m, l7.wrapping_add(296u64), l4);
l17 = load_64(m, l14.wrapping_add(16u64));
store_64(m, l7.wrapping_add(288u64), l17);
l19 = load_64(m, l14.wrapping_add(8u64));
store_64(m, l7.wrapping_add(280u64), l19);
l20 = load_64(m, l14);
store_64(m, l7.wrapping_add(272u64), l20);
store_64(m, l7.wrapping_add(392u64), l20);
store_64(m, l7.wrapping_add(400u64), l19);
store_64(m, l7.wrapping_add(408u64), l17);
store_64(m, l7.wrapping_add(416u64), l4);
store_64(m, l7.wrapping_add(384u64), l2);
fill(m, l7.wrapping_add(624u64), 0u32 as u8, 72u64);
store_64(m, l7.wrapping_add(616u64), 0u64);
store_64(m, l7.wrapping_add(608u64), 0u64);
store_64(m, l7.wrapping_add(600u64), 0u64);
store_64(m, l7.wrapping_add(592u64), 0u64);
store_64(m, l7.wrapping_add(584u64), 0u64);
store_64(m, l7.wrapping_add(552u64), 0u64);
store_64(m, l7.wrapping_add(560u64), 0u64);
store_64(m, l7.wrapping_add(568u64), 0u64);
store_64(m, l7.wrapping_add(576u64), 0u64);
fill(m, l7.wrapping_add(1176u64), 0u32 as u8, 79u64);
l25 = l7.wrapping_add(384u64).wrapping_add(8u64);
l12 = ((l2 == 0) as u32);
l4 = (if (l12 != 0) { l25 } else { load_64(m, l7.wrapping_add(392u64)) });
l26 = load_64(m, l7.wrapping_add(408u64));
l2 = (if (l12 != 0) { l26 } else { load_64(m, l7.wrapping_add(400u64)) });
l17 = l5.wrapping_add((if ((l10 & 255u32) != 0) { 16u64 } else { 64u64 }));
if ((load_8(m, l6) as u32) != 0) { break 'b13; }
l19 = l6.wrapping_add(8u64);
l20 = l6.wrapping_add(24u64);
break 'b12;
}
'b30: {
if ((l10 & 255u32) != 1u32) { break 'b30; }
l4 = load_64(m, l7.wrapping_add(1280u64));
if (l4 == 0) { break 'b30; }
'b31: {
l2 = load_64(m, load_64(m, l7.wrapping_add(1288u64)));
if (load_64(m, l2.wrapping_add(16u64)) != 1u64) { break 'b31; }
l17 = load_64(m, l2.wrapping_add(8u64));
let t4 = load_64(m, l17);
l17 = l17.wrapping_add(32u64);
l19 = load_64(m, l17);
if (load_64(m, l7.wrapping_add(1264u64)) != t4.wrapping_add(l19)) { break 'b31; }
store_64(m, l17, l19.wrapping_add((l4 << 1)));
}
l2 = l2.wrapping_add(24u64);
let t5 = load_64(m, l2).wrapping_add(0xffffffffffffffffu64);
store_64(m, l2, t5);
}
store_8(m, l0, 1u32 as u8);
fill(m, l0.wrapping_add(8u64), 0u32 as u8, 144u64);
break 'b1;
}
l20 = l6.wrapping_add(16u64);
l19 = load_64(m, l6.wrapping_add(8u64));
}
l15 = load_64(m, l17);
l17 = load_64(m, l20);
store_64(m, l7.wrapping_add(880u64), 0u64);
store_64(m, l7.wrapping_add(888u64), 0u64);
store_64(m, l7.wrapping_add(896u64), 0u64);
store_64(m, l7.wrapping_add(904u64), 0u64);
store_64(m, l7.wrapping_add(1256u64), 0u64);
store_64(m, l7.wrapping_add(1264u64), 0u64);
store_64(m, l7.wrapping_add(1272u64), 0u64);
store_64(m, l7.wrapping_add(1280u64), 0u64);
store_64(m, l7.wrapping_add(1288u64), 0u64);
store_64(m, l7.wrapping_add(1296u64), 0u64);
f66(m, g, l7.wrapping_add(1256u64), l1, l4, l2, l19, l17);
if ((load_8(m, l7.wrapping_add(1256u64)) as u32) != 0) { break 'b3; }
l27 = l2.wrapping_sub(l15);
l28 = (load_8(m, l7.wrapping_add(1264u64)) as u32);
store_64(m, l7.wrapping_add(928u64), ((l28 as u64) & 255u64));
l29 = load_64(m, l7.wrapping_add(1272u64));
store_64(m, l7.wrapping_add(936u64), l29);
let t6 = load_64(m, l7.wrapping_add(1280u64));
store_64(m, l7.wrapping_add(944u64), t6);
let t7 = load_64(m, l7.wrapping_add(1288u64));
store_64(m, l7.wrapping_add(952u64), t7);
let t8 = load_64(m, l7.wrapping_add(1296u64));
store_64(m, l7.wrapping_add(960u64), t8);
store_64(m, l7.wrapping_add(978u64), 0u64);
store_64(m, l7.wrapping_add(984u64), 0u64);
store_64(m, l7.wrapping_add(1000u64), l1);
store_64(m, l7.wrapping_add(992u64), 1u64);
l30 = 1u32;
store_16(m, l7.wrapping_add(976u64), 1u32 as u16);
store_64(m, l7.wrapping_add(968u64), 0u64);
store_64(m, l7.wrapping_add(778u64), 0u64);
store_64(m, l7.wrapping_add(784u64), 0u64);
store_64(m, l7.wrapping_add(696u64), 0u64);
store_64(m, l7.wrapping_add(704u64), 0u64);
store_64(m, l7.wrapping_add(712u64), 0u64);
store_64(m, l7.wrapping_add(720u64), 0u64);
store_64(m, l7.wrapping_add(728u64), 0u64);
l12 = 0u32;
store_16(m, l7.wrapping_add(840u64), 0u32 as u16);
store_16(m, l7.wrapping_add(926u64), 0u32 as u16);
store_64(m, l7.wrapping_add(800u64), l1);
store_64(m, l7.wrapping_add(792u64), 1u64);
store_16(m, l7.wrapping_add(776u64), 1u32 as u16);
store_64(m, l7.wrapping_add(768u64), 0u64);
l8 = l7.wrapping_add(968u64).wrapping_add(8u64);
'b32: {
if (l2 == l15) { break 'b32; }
l31 = l7.wrapping_add(768u64).wrapping_add(8u64);
l32 = (if ((l28 & 255u32) != 0) { l29 } else { l7.wrapping_add(928u64).wrapping_add(8u64) }).wrapping_add(0xfffffffffffffffeu64);
l6 = l7.wrapping_add(696u64).wrapping_add(8u64);
l15 = l7.wrapping_add(1048u64).wrapping_add(8u64);
l33 = 0u64;
l34 = 0u32;
l14 = 0u64;
l35 = 0u64;
l36 = 0u32;
'b33: loop {
l37 = load_64(m, l7.wrapping_add(976u64));
l38 = (load_8(m, l7.wrapping_add(968u64)) as u32);
l19 = (if (l38 != 0) { l37 } else { l8 });
l16 = 0u32;
l18 = 0u32;
'b34: {
l39 = load_64(m, l7.wrapping_add(992u64));
l20 = (if (l38 != 0) { load_64(m, l7.wrapping_add(984u64)) } else { l39 });
l40 = ((l20 == 0) as u32);
if (l40 != 0) { break 'b34; }
l2 = l19.wrapping_add((l20 << 1)).wrapping_add(0xfffffffffffffffeu64);
l4 = l32.wrapping_add((l20.wrapping_add(l14) << 1));
l18 = 0u32;
l17 = l20;
l16 = 0u32;
'b35: loop {
l10 = (load_16(m, l4) as u32);
l21 = (load_16(m, l2) as u32);
l22 = (l21 >> 8);
l12 = 0u32;
'b36: {
if ((l21 & 255u32) == 0) { break 'b36; }
l12 = 0u32;
if ((l10 & 255u32) == 0) { break 'b36; }
l12 = (load_8_constant(m, ((((load_8_constant(m, ((l10 as u64) & 255u64).wrapping_add(0x100000082u64)) as u32).wrapping_add((load_8_constant(m, ((l21 as u64) & 255u64).wrapping_add(0x100000082u64)) as u32)) & 255u32) % 31u32) as u64).wrapping_add(0x1000000a2u64)) as u32);
}
l24 = (l10 >> 8);
l23 = l12;
'b37: {
if (l22 == 0) { break 'b37; }
l23 = l12;
if (l24 == 0) { break 'b37; }
l23 = ((load_8_constant(m, ((((load_8_constant(m, (l24 as u64).wrapping_add(0x100000082u64)) as u32).wrapping_add((load_8_constant(m, (l22 as u64).wrapping_add(0x100000082u64)) as u32)) & 255u32) % 31u32) as u64).wrapping_add(0x1000000a2u64)) as u32) ^ l12);
}
l17 = l17.wrapping_add(0xffffffffffffffffu64);
'b38: {
l21 = (l22 ^ l21);
if ((l21 & 255u32) == 0) { break 'b38; }
l10 = (l24 ^ l10);
if ((l10 & 255u32) == 0) { break 'b38; }
l12 = ((load_8_constant(m, ((((load_8_constant(m, ((l10 as u64) & 255u64).wrapping_add(0x100000082u64)) as u32).wrapping_add((load_8_constant(m, ((l21 as u64) & 255u64).wrapping_add(0x100000082u64)) as u32)) & 255u32) % 31u32) as u64).wrapping_add(0x1000000a2u64)) as u32) ^ l12);
}
l18 = (((l12 << 8) | (l23 & 255u32)) ^ ((l16 << 8) | (l18 & 255u32)));
l16 = ((l18 & 65280u32) >> 8);
l2 = l2.wrapping_add(0xfffffffffffffffeu64);
l4 = l4.wrapping_add(0xfffffffffffffffeu64);
if (l17 != 0u64) { continue 'b35; }
break 'b35;
}
}
'b39: {
'b40: {
l12 = ((l16 << 8) | (l18 & 255u32));
if (l12 != 0) { break 'b40; }
l14 = l14.wrapping_add(1u64);
break 'b39;
}
f67(m, g, l7.wrapping_add(926u64), ((l36 << 8) | (l30 & 255u32)));
let t9 = (load_16(m, l7.wrapping_add(926u64)) as u32);
f58(m, g, l7.wrapping_add(840u64), l12, t9);
l10 = (load_16(m, l7.wrapping_add(840u64)) as u32);
'b41: {
if (l14 >= l33) { break 'b41; }
l12 = (l34 & 255u32);
l17 = load_64(m, (if (l12 != 0) { l7.wrapping_add(784u64) } else { l7.wrapping_add(792u64) }));
l2 = load_64(m, l7.wrapping_add(776u64));
store_16(m, l7.wrapping_add(1048u64), 0u32 as u16);
'b42: {
if (l17 == 0) { break 'b42; }
l4 = (if (l12 != 0) { l2 } else { l31 });
l2 = l19.wrapping_add((l33 << 1).wrapping_sub((l14 << 1))).wrapping_add(0xfffffffffffffffeu64);
'b43: loop {
l12 = (load_16(m, l2) as u32);
let t10 = (load_16(m, l4) as u32);
f58(m, g, l7.wrapping_add(1048u64), l10, t10);
let t11 = (l12 ^ (load_16(m, l7.wrapping_add(1048u64)) as u32));
store_16(m, l2, t11 as u16);
l2 = l2.wrapping_add(2u64);
l4 = l4.wrapping_add(2u64);
l17 = l17.wrapping_add(0xffffffffffffffffu64);
if (l17 != 0u64) { continue 'b43; }
break 'b43;
}
}
l14 = l14.wrapping_add(1u64);
break 'b39;
}
store_64(m, l7.wrapping_add(1072u64), 0u64);
store_64(m, l7.wrapping_add(1064u64), 0u64);
store_64(m, l7.wrapping_add(1056u64), 0u64);
store_64(m, l7.wrapping_add(1048u64), 0u64);
store_64(m, l7.wrapping_add(1080u64), l1);
'b44: {
l41 = l14.wrapping_add(1u64);
if (l41 == l33) { break 'b44; }
l2 = l41.wrapping_sub(l33);
'b45: loop {
'b46: {
l4 = load_64(m, l7.wrapping_add(1072u64));
l12 = (load_8(m, l7.wrapping_add(1048u64)) as u32);
if ((if (l12 != 0) { load_64(m, l7.wrapping_add(1064u64)) } else { l4 }) != (if (l12 != 0) { l4 } else { 7u64 })) { break 'b46; }
let t12 = f57(m, g, l7.wrapping_add(1048u64));
l21 = t12;
l12 = (load_8(m, l7.wrapping_add(1048u64)) as u32);
if ((l21 & 255u32) != 0) { break 'b6; }
}
'b47: {
'b48: {
if ((l12 & 255u32) != 0) { break 'b48; }
l4 = load_64(m, l7.wrapping_add(1072u64));
store_16(m, l15.wrapping_add((l4 << 1)), 0u32 as u16);
store_64(m, l7.wrapping_add(1072u64), l4.wrapping_add(1u64));
break 'b47;
}
l4 = load_64(m, l7.wrapping_add(1064u64));
let t13 = load_64(m, l7.wrapping_add(1056u64)).wrapping_add((l4 << 1));
store_16(m, t13, 0u32 as u16);
store_64(m, l7.wrapping_add(1064u64), l4.wrapping_add(1u64));
}
l2 = l2.wrapping_add(0xffffffffffffffffu64);
if !(l2 == 0) { continue 'b45; }
break 'b45;
}
}
'b49: {
if (l40 != 0) { break 'b49; }
'b50: loop {
l21 = (load_16(m, l19) as u32);
'b51: {
l2 = load_64(m, l7.wrapping_add(1072u64));
l12 = (load_8(m, l7.wrapping_add(1048u64)) as u32);
if ((if (l12 != 0) { load_64(m, l7.wrapping_add(1064u64)) } else { l2 }) != (if (l12 != 0) { l2 } else { 7u64 })) { break 'b51; }
let t14 = f57(m, g, l7.wrapping_add(1048u64));
l22 = t14;
l12 = (load_8(m, l7.wrapping_add(1048u64)) as u32);
if ((l22 & 255u32) == 0) { break 'b51; }
if ((l12 & 255u32) != 1u32) { break 'b5; }
l4 = load_64(m, l7.wrapping_add(1072u64));
if (l4 == 0) { break 'b5; }
'b52: {
l2 = load_64(m, load_64(m, l7.wrapping_add(1080u64)));
if (load_64(m, l2.wrapping_add(16u64)) != 1u64) { break 'b52; }
l17 = load_64(m, l2.wrapping_add(8u64));
let t15 = load_64(m, l17);
l17 = l17.wrapping_add(32u64);
l19 = load_64(m, l17);
if (load_64(m, l7.wrapping_add(1056u64)) != t15.wrapping_add(l19)) { break 'b52; }
store_64(m, l17, l19.wrapping_add((l4 << 1)));
}
l2 = l2.wrapping_add(24u64);
let t16 = load_64(m, l2).wrapping_add(0xffffffffffffffffu64);
store_64(m, l2, t16);
break 'b5;
}
'b53: {
'b54: {
if ((l12 & 255u32) != 0) { break 'b54; }
l2 = load_64(m, l7.wrapping_add(1072u64));
store_16(m, l15.wrapping_add((l2 << 1)), l21 as u16);
store_64(m, l7.wrapping_add(1072u64), l2.wrapping_add(1u64));
break 'b53;
}
l2 = load_64(m, l7.wrapping_add(1064u64));
let t17 = load_64(m, l7.wrapping_add(1056u64)).wrapping_add((l2 << 1));
store_16(m, t17, l21 as u16);
store_64(m, l7.wrapping_add(1064u64), l2.wrapping_add(1u64));
}
l19 = l19.wrapping_add(2u64);
l20 = l20.wrapping_add(0xffffffffffffffffu64);
if !(l20 == 0) { continue 'b50; }
break 'b50;
}
}
let t18 = load_64(m, l15.wrapping_add(24u64));
store_64(m, l6.wrapping_add(24u64), t18);
let t19 = load_64(m, l15.wrapping_add(16u64));
store_64(m, l6.wrapping_add(16u64), t19);
let t20 = load_64(m, l15.wrapping_add(8u64));
store_64(m, l6.wrapping_add(8u64), t20);
let t21 = load_64(m, l15);
store_64(m, l6, t21);
l4 = (load_8(m, l7.wrapping_add(1048u64)) as u64);
store_64(m, l7.wrapping_add(696u64), l4);
l19 = load_64(m, l7.wrapping_add(792u64));
l2 = load_64(m, l7.wrapping_add(784u64));
l20 = load_64(m, l7.wrapping_add(776u64));
l14 = load_64(m, l7.wrapping_add(704u64));
store_16(m, l7.wrapping_add(1048u64), 0u32 as u16);
'b55: {
l12 = (l34 & 255u32);
l17 = (if (l12 != 0) { l2 } else { l19 });
if (l17 == 0) { break 'b55; }
l2 = (if (l4 == 0) { l6 } else { l14 });
l4 = (if (l12 != 0) { l20 } else { l31 });
'b56: loop {
l12 = (load_16(m, l2) as u32);
let t22 = (load_16(m, l4) as u32);
f58(m, g, l7.wrapping_add(1048u64), l10, t22);
let t23 = (l12 ^ (load_16(m, l7.wrapping_add(1048u64)) as u32));
store_16(m, l2, t23 as u16);
l2 = l2.wrapping_add(2u64);
l4 = l4.wrapping_add(2u64);
l17 = l17.wrapping_add(0xffffffffffffffffu64);
if (l17 != 0u64) { continue 'b56; }
break 'b56;
}
}
l2 = (l38 as u64);
'b57: {
if ((l34 & 255u32) != 1u32) { break 'b57; }
if (l19 == 0) { break 'b57; }
'b58: {
l4 = load_64(m, load_64(m, l7.wrapping_add(800u64)));
if (load_64(m, l4.wrapping_add(16u64)) != 1u64) { break 'b58; }
l17 = load_64(m, l4.wrapping_add(8u64));
let t24 = load_64(m, l17);
l17 = l17.wrapping_add(32u64);
l14 = load_64(m, l17);
if (l20 != t24.wrapping_add(l14)) { break 'b58; }
store_64(m, l17, l14.wrapping_add((l19 << 1)));
}
l4 = l4.wrapping_add(24u64);
let t25 = load_64(m, l4).wrapping_add(0xffffffffffffffffu64);
store_64(m, l4, t25);
}
l4 = load_64(m, l8);
let t26 = load_64(m, l6);
store_64(m, l8, t26);
store_64(m, l31, l4);
l4 = load_64(m, l8.wrapping_add(8u64));
let t27 = load_64(m, l6.wrapping_add(8u64));
store_64(m, l8.wrapping_add(8u64), t27);
store_64(m, l31.wrapping_add(8u64), l4);
l4 = load_64(m, l8.wrapping_add(16u64));
let t28 = load_64(m, l6.wrapping_add(16u64));
store_64(m, l8.wrapping_add(16u64), t28);
store_64(m, l31.wrapping_add(16u64), l4);
l4 = load_64(m, l8.wrapping_add(24u64));
let t29 = load_64(m, l6.wrapping_add(24u64));
store_64(m, l8.wrapping_add(24u64), t29);
store_64(m, l31.wrapping_add(24u64), l4);
store_64(m, l7.wrapping_add(768u64), l2);
let t30 = (load_8(m, l7.wrapping_add(696u64)) as u64);
store_64(m, l7.wrapping_add(968u64), t30);
l34 = l38;
l36 = l16;
l30 = l18;
l14 = l33;
l33 = l41;
}
l35 = l35.wrapping_add(1u64);
if (l35 != l27) { continue 'b33; }
break 'b33;
}
l12 = (load_8(m, l7.wrapping_add(968u64)) as u32);
if ((l34 & 255u32) != 1u32) { break 'b32; }
l4 = load_64(m, l7.wrapping_add(792u64));
if (l4 == 0) { break 'b32; }
'b59: {
l2 = load_64(m, load_64(m, l7.wrapping_add(800u64)));
if (load_64(m, l2.wrapping_add(16u64)) != 1u64) { break 'b59; }
l17 = load_64(m, l2.wrapping_add(8u64));
let t31 = load_64(m, l17);
l17 = l17.wrapping_add(32u64);
l19 = load_64(m, l17);
if (load_64(m, l7.wrapping_add(776u64)) != t31.wrapping_add(l19)) { break 'b59; }
store_64(m, l17, l19.wrapping_add((l4 << 1)));
}
l2 = l2.wrapping_add(24u64);
let t32 = load_64(m, l2).wrapping_add(0xffffffffffffffffu64);
store_64(m, l2, t32);
}
let t33 = load_64(m, l8.wrapping_add(24u64));
store_64(m, l7.wrapping_add(904u64), t33);
let t34 = load_64(m, l8.wrapping_add(16u64));
store_64(m, l7.wrapping_add(896u64), t34);
let t35 = load_64(m, l8.wrapping_add(8u64));
store_64(m, l7.wrapping_add(888u64), t35);
let t36 = load_64(m, l8);
store_64(m, l7.wrapping_add(880u64), t36);
l20 = ((l12 as u64) & 255u64);
l12 = 1u32;
break 'b4;
}
}
if ((l12 & 255u32) != 1u32) { break 'b5; }
l4 = load_64(m, l7.wrapping_add(1072u64));
if (l4 == 0) { break 'b5; }
'b60: {
l2 = load_64(m, load_64(m, l7.wrapping_add(1080u64)));
if (load_64(m, l2.wrapping_add(16u64)) != 1u64) { break 'b60; }
l17 = load_64(m, l2.wrapping_add(8u64));
let t37 = load_64(m, l17);
l17 = l17.wrapping_add(32u64);
l19 = load_64(m, l17);
if (load_64(m, l7.wrapping_add(1056u64)) != t37.wrapping_add(l19)) { break 'b60; }
store_64(m, l17, l19.wrapping_add((l4 << 1)));
}
l2 = l2.wrapping_add(24u64);
let t38 = load_64(m, l2).wrapping_add(0xffffffffffffffffu64);
store_64(m, l2, t38);
}
'b61: {
if ((l34 & 255u32) != 1u32) { break 'b61; }
l4 = load_64(m, l7.wrapping_add(792u64));
if (l4 == 0) { break 'b61; }
'b62: {
l2 = load_64(m, load_64(m, l7.wrapping_add(800u64)));
if (load_64(m, l2.wrapping_add(16u64)) != 1u64) { break 'b62; }
l17 = load_64(m, l2.wrapping_add(8u64));
let t39 = load_64(m, l17);
l17 = l17.wrapping_add(32u64);
l19 = load_64(m, l17);
if (load_64(m, l7.wrapping_add(776u64)) != t39.wrapping_add(l19)) { break 'b62; }
store_64(m, l17, l19.wrapping_add((l4 << 1)));
}
l2 = l2.wrapping_add(24u64);
let t40 = load_64(m, l2).wrapping_add(0xffffffffffffffffu64);
store_64(m, l2, t40);
}
'b63: {
if (l38 != 1u32) { break 'b63; }
if (l39 == 0) { break 'b63; }
'b64: {
l2 = load_64(m, load_64(m, l7.wrapping_add(1000u64)));
if (load_64(m, l2.wrapping_add(16u64)) != 1u64) { break 'b64; }
l4 = load_64(m, l2.wrapping_add(8u64));
let t41 = load_64(m, l4);
l4 = l4.wrapping_add(32u64);
l17 = load_64(m, l4);
if (l37 != t41.wrapping_add(l17)) { break 'b64; }
store_64(m, l4, l17.wrapping_add((l39 << 1)));
}
l2 = l2.wrapping_add(24u64);
let t42 = load_64(m, l2).wrapping_add(0xffffffffffffffffu64);
store_64(m, l2, t42);
}
l20 = 0u64;
store_64(m, l7.wrapping_add(904u64), 0u64);
store_64(m, l7.wrapping_add(896u64), 0u64);
store_64(m, l7.wrapping_add(888u64), 0u64);
store_64(m, l7.wrapping_add(880u64), 0u64);
l12 = 0u32;
}
'b65: {
if ((l28 & 255u32) != 1u32) { break 'b65; }
l4 = load_64(m, l7.wrapping_add(952u64));
if (l4 == 0) { break 'b65; }
'b66: {
l2 = load_64(m, load_64(m, l7.wrapping_add(960u64)));
if (load_64(m, l2.wrapping_add(16u64)) != 1u64) { break 'b66; }
l17 = load_64(m, l2.wrapping_add(8u64));
let t43 = load_64(m, l17);
l17 = l17.wrapping_add(32u64);
l19 = load_64(m, l17);
if (l29 != t43.wrapping_add(l19)) { break 'b66; }
store_64(m, l17, l19.wrapping_add((l4 << 1)));
}
l2 = l2.wrapping_add(24u64);
let t44 = load_64(m, l2).wrapping_add(0xffffffffffffffffu64);
store_64(m, l2, t44);
}
let t45 = load_64(m, l7.wrapping_add(904u64));
store_64(m, l7.wrapping_add(576u64), t45);
let t46 = load_64(m, l7.wrapping_add(896u64));
store_64(m, l7.wrapping_add(568u64), t46);
let t47 = load_64(m, l7.wrapping_add(888u64));
store_64(m, l7.wrapping_add(560u64), t47);
let t48 = load_64(m, l7.wrapping_add(880u64));
store_64(m, l7.wrapping_add(552u64), t48);
if (l12 == 0) { break 'b3; }
let t49 = load_64(m, l7.wrapping_add(576u64));
store_64(m, l7.wrapping_add(616u64), t49);
let t50 = load_64(m, l7.wrapping_add(568u64));
store_64(m, l7.wrapping_add(608u64), t50);
let t51 = load_64(m, l7.wrapping_add(560u64));
store_64(m, l7.wrapping_add(600u64), t51);
let t52 = load_64(m, l7.wrapping_add(552u64));
store_64(m, l7.wrapping_add(592u64), t52);
store_64(m, l7.wrapping_add(584u64), l20);
'b67: {
l12 = ((l20 == 0) as u32);
l2 = l7.wrapping_add(584u64).wrapping_add((if (l12 != 0) { 24u64 } else { 16u64 }));
l14 = load_64(m, l2).wrapping_add(0xffffffffffffffffu64);
if ((l27 >> 1) >= l14) { break 'b67; }
l2 = l7.wrapping_add(1183u64);
'b68: {
if (l20 != 1u64) { break 'b68; }
l17 = load_64(m, l7.wrapping_add(608u64));
if (l17 == 0) { break 'b68; }
'b69: {
l4 = load_64(m, load_64(m, l7.wrapping_add(616u64)));
if (load_64(m, l4.wrapping_add(16u64)) != 1u64) { break 'b69; }
l19 = load_64(m, l4.wrapping_add(8u64));
let t53 = load_64(m, l19);
l19 = l19.wrapping_add(32u64);
l20 = load_64(m, l19);
if (load_64(m, l7.wrapping_add(592u64)) != t53.wrapping_add(l20)) { break 'b69; }
store_64(m, l19, l20.wrapping_add((l17 << 1)));
}
l4 = l4.wrapping_add(24u64);
let t54 = load_64(m, l4).wrapping_add(0xffffffffffffffffu64);
store_64(m, l4, t54);
}
copy(m, l7.wrapping_add(200u64), l2, 72u64);
l38 = 0u32;
l12 = 0u32;
break 'b2;
}
fill(m, l7.wrapping_add(768u64), 0u32 as u8, 72u64);
fill(m, l7.wrapping_add(1048u64), 0u32 as u8, 80u64);
fill(m, l7.wrapping_add(696u64), 0u32 as u8, 72u64);
fill(m, l7.wrapping_add(1256u64), 0u32 as u8, 72u64);
store_64(m, l7.wrapping_add(1328u64), l1);
l27 = 0u64;
store_64(m, l7.wrapping_add(1008u64), 0u64);
store_64(m, l7.wrapping_add(1000u64), 0u64);
store_64(m, l7.wrapping_add(992u64), 0u64);
store_64(m, l7.wrapping_add(984u64), 0u64);
store_64(m, l7.wrapping_add(976u64), 0u64);
store_64(m, l7.wrapping_add(968u64), 0u64);
l41 = load_64(m, l7.wrapping_add(592u64));
l39 = load_64(m, l7.wrapping_add(608u64));
let t55 = (if (l12 != 0) { l39 } else { load_64(m, l7.wrapping_add(600u64)) });
f68(m, g, l7.wrapping_add(968u64), l1, (if (l12 != 0) { l7.wrapping_add(584u64).wrapping_add(8u64) } else { l41 }), t55);
'b70: {
'b71: {
if ((load_8(m, l7.wrapping_add(968u64)) as u32) != 0) { break 'b71; }
l22 = (load_8(m, l7.wrapping_add(976u64)) as u32);
store_64(m, l7.wrapping_add(880u64), ((l22 as u64) & 255u64));
let t56 = load_64(m, l7.wrapping_add(984u64));
store_64(m, l7.wrapping_add(888u64), t56);
let t57 = load_64(m, l7.wrapping_add(992u64));
store_64(m, l7.wrapping_add(896u64), t57);
let t58 = load_64(m, l7.wrapping_add(1000u64));
store_64(m, l7.wrapping_add(904u64), t58);
let t59 = load_64(m, l7.wrapping_add(1008u64));
store_64(m, l7.wrapping_add(912u64), t59);
l2 = load_64(m, l2);
store_64(m, l7.wrapping_add(928u64), 0u64);
store_64(m, l7.wrapping_add(936u64), 0u64);
store_64(m, l7.wrapping_add(944u64), 0u64);
store_64(m, l7.wrapping_add(952u64), 0u64);
store_64(m, l7.wrapping_add(960u64), l1);
l16 = 1u32;
store_16(m, l7.wrapping_add(926u64), 1u32 as u16);
l17 = l7.wrapping_add(928u64).wrapping_add(8u64);
'b72: {
'b73: {
if (l2 == 0) { break 'b73; }
'b74: loop {
l10 = (load_16(m, l7.wrapping_add(926u64)) as u32);
'b75: {
l4 = load_64(m, l7.wrapping_add(952u64));
l12 = (load_8(m, l7.wrapping_add(928u64)) as u32);
if ((if (l12 != 0) { load_64(m, l7.wrapping_add(944u64)) } else { l4 }) != (if (l12 != 0) { l4 } else { 7u64 })) { break 'b75; }
let t60 = f57(m, g, l7.wrapping_add(928u64));
l21 = t60;
l12 = (load_8(m, l7.wrapping_add(928u64)) as u32);
if ((l21 & 255u32) != 0) { break 'b72; }
}
'b76: {
'b77: {
if ((l12 & 255u32) != 0) { break 'b77; }
l4 = load_64(m, l7.wrapping_add(952u64));
store_16(m, l17.wrapping_add((l4 << 1)), l10 as u16);
store_64(m, l7.wrapping_add(952u64), l4.wrapping_add(1u64));
break 'b76;
}
l4 = load_64(m, l7.wrapping_add(944u64));
let t61 = load_64(m, l7.wrapping_add(936u64)).wrapping_add((l4 << 1));
store_16(m, t61, l10 as u16);
store_64(m, l7.wrapping_add(944u64), l4.wrapping_add(1u64));
}
f58(m, g, l7.wrapping_add(926u64), l10, l11);
l2 = l2.wrapping_add(0xffffffffffffffffu64);
if !(l2 == 0) { continue 'b74; }
break 'b74;
}
l27 = (load_8(m, l7.wrapping_add(928u64)) as u64);
}
l37 = l7.wrapping_add(1256u64).wrapping_add(8u64);
let t62 = load_64(m, l17.wrapping_add(24u64));
store_64(m, l7.wrapping_add(872u64), t62);
l32 = load_64(m, l17.wrapping_add(16u64));
store_64(m, l7.wrapping_add(864u64), l32);
l2 = load_64(m, l17.wrapping_add(8u64));
store_64(m, l7.wrapping_add(856u64), l2);
l26 = load_64(m, l17);
store_64(m, l7.wrapping_add(848u64), l26);
store_64(m, l7.wrapping_add(840u64), l27);
'b78: {
if (l3 == 0) { break 'b78; }
l35 = l7.wrapping_add(880u64).wrapping_add(8u64);
l12 = ((l27 == 0) as u32);
l8 = (if (l12 != 0) { l32 } else { l2 });
l33 = (if (l12 != 0) { l7.wrapping_add(840u64).wrapping_add(8u64) } else { l26 });
l15 = 0u64;
'b79: loop {
l21 = (load_8(m, l7.wrapping_add(1256u64)) as u32);
l6 = load_64(m, l7.wrapping_add(1256u64).wrapping_add((if (l21 != 0) { 16u64 } else { 64u64 })));
if (l6 >= l14) { break 'b78; }
l12 = (load_8(m, l7.wrapping_add(880u64)) as u32);
l2 = (if (l12 != 0) { load_64(m, l7.wrapping_add(888u64)) } else { l35 });
'b80: {
'b81: {
l17 = load_64(m, l7.wrapping_add(880u64).wrapping_add((if (l12 != 0) { 16u64 } else { 24u64 })));
if (l17 == 0) { break 'b81; }
l12 = 0u32;
'b82: {
'b83: {
'b84: {
if (l17 != 1u64) { break 'b84; }
l10 = 0u32;
break 'b83;
}
l31 = (l17 & 1u64);
l19 = (l17 & 0xfffffffffffffffeu64);
l4 = l2.wrapping_add((l17 << 1)).wrapping_add(0xfffffffffffffffcu64);
l12 = 0u32;
l10 = 0u32;
'b85: loop {
l12 = ((((l10 << 8) | (l12 & 255u32)) ^ (load_16(m, l4.wrapping_add(2u64)) as u32)) ^ (load_16(m, l4) as u32));
l10 = ((l12 & 65280u32) >> 8);
l4 = l4.wrapping_add(0xfffffffffffffffcu64);
l17 = l17.wrapping_add(0xfffffffffffffffeu64);
l19 = l19.wrapping_add(0xfffffffffffffffeu64);
if (l19 != 0u64) { continue 'b85; }
break 'b85;
}
if (l31 == 0) { break 'b82; }
}
l12 = (((l10 << 8) | (l12 & 255u32)) ^ (load_16(m, l2.wrapping_add((l17 << 1)).wrapping_add(0xfffffffffffffffeu64)) as u32));
l10 = ((l12 & 65280u32) >> 8);
}
if (((l10 | l12) & 255u32) != 0) { break 'b80; }
}
'b86: {
if (l6 != (if (l21 != 0) { load_64(m, l7.wrapping_add(1280u64)) } else { 7u64 })) { break 'b86; }
'b87: {
let t63 = f55(m, g, l7.wrapping_add(1256u64));
if ((t63 & 255u32) == 0) { break 'b87; }
l16 = 0u32;
break 'b78;
}
l21 = (load_8(m, l7.wrapping_add(1256u64)) as u32);
}
'b88: {
if ((l21 & 255u32) != 0) { break 'b88; }
l4 = load_64(m, l7.wrapping_add(1320u64));
store_64(m, l37.wrapping_add((l4 << 3)), l15);
store_64(m, l7.wrapping_add(1320u64), l4.wrapping_add(1u64));
break 'b80;
}
l4 = load_64(m, l7.wrapping_add(1272u64));
let t64 = load_64(m, l7.wrapping_add(1264u64)).wrapping_add((l4 << 3));
store_64(m, t64, l15);
store_64(m, l7.wrapping_add(1272u64), l4.wrapping_add(1u64));
}
'b89: {
if (l8 == 0) { break 'b89; }
l4 = l33;
l17 = l8;
'b90: loop {
l10 = (load_16(m, l4) as u32);
l21 = (load_16(m, l2) as u32);
l22 = (l21 >> 8);
l12 = 0u32;
'b91: {
if ((l21 & 255u32) == 0) { break 'b91; }
if ((l10 & 255u32) == 0) { break 'b91; }
l12 = (load_8_constant(m, ((((load_8_constant(m, ((l10 as u64) & 255u64).wrapping_add(0x100000082u64)) as u32).wrapping_add((load_8_constant(m, ((l21 as u64) & 255u64).wrapping_add(0x100000082u64)) as u32)) & 255u32) % 31u32) as u64).wrapping_add(0x1000000a2u64)) as u32);
}
l24 = (l10 >> 8);
l23 = l12;
'b92: {
if (l22 == 0) { break 'b92; }
l23 = l12;
if (l24 == 0) { break 'b92; }
l23 = ((load_8_constant(m, ((((load_8_constant(m, (l24 as u64).wrapping_add(0x100000082u64)) as u32).wrapping_add((load_8_constant(m, (l22 as u64).wrapping_add(0x100000082u64)) as u32)) & 255u32) % 31u32) as u64).wrapping_add(0x1000000a2u64)) as u32) ^ l12);
}
'b93: {
l21 = (l22 ^ l21);
if ((l21 & 255u32) == 0) { break 'b93; }
l10 = (l24 ^ l10);
if ((l10 & 255u32) == 0) { break 'b93; }
l12 = ((load_8_constant(m, ((((load_8_constant(m, ((l10 as u64) & 255u64).wrapping_add(0x100000082u64)) as u32).wrapping_add((load_8_constant(m, ((l21 as u64) & 255u64).wrapping_add(0x100000082u64)) as u32)) & 255u32) % 31u32) as u64).wrapping_add(0x1000000a2u64)) as u32) ^ l12);
}
store_16(m, l2, ((l12 << 8) | (l23 & 255u32)) as u16);
l2 = l2.wrapping_add(2u64);
l4 = l4.wrapping_add(2u64);
l17 = l17.wrapping_add(0xffffffffffffffffu64);
if (l17 != 0u64) { continue 'b90; }
break 'b90;
}
}
l15 = l15.wrapping_add(1u64);
if (l15 != l3) { continue 'b79; }
break 'b79;
}
}
'b94: {
if (l27 != 1u64) { break 'b94; }
if (l32 == 0) { break 'b94; }
'b95: {
l2 = load_64(m, load_64(m, l7.wrapping_add(872u64)));
if (load_64(m, l2.wrapping_add(16u64)) != 1u64) { break 'b95; }
l4 = load_64(m, l2.wrapping_add(8u64));
let t65 = load_64(m, l4);
l4 = l4.wrapping_add(32u64);
l17 = load_64(m, l4);
if (l26 != t65.wrapping_add(l17)) { break 'b95; }
store_64(m, l4, l17.wrapping_add((l32 << 1)));
}
l2 = l2.wrapping_add(24u64);
let t66 = load_64(m, l2).wrapping_add(0xffffffffffffffffu64);
store_64(m, l2, t66);
}
'b96: {
if ((load_8(m, l7.wrapping_add(880u64)) as u32) != 1u32) { break 'b96; }
l4 = load_64(m, l7.wrapping_add(904u64));
if (l4 == 0) { break 'b96; }
'b97: {
l2 = load_64(m, load_64(m, l7.wrapping_add(912u64)));
if (load_64(m, l2.wrapping_add(16u64)) != 1u64) { break 'b97; }
l17 = load_64(m, l2.wrapping_add(8u64));
let t67 = load_64(m, l17);
l17 = l17.wrapping_add(32u64);
l19 = load_64(m, l17);
if (load_64(m, l7.wrapping_add(888u64)) != t67.wrapping_add(l19)) { break 'b97; }
store_64(m, l17, l19.wrapping_add((l4 << 1)));
}
l2 = l2.wrapping_add(24u64);
let t68 = load_64(m, l2).wrapping_add(0xffffffffffffffffu64);
store_64(m, l2, t68);
}
l21 = (load_8(m, l7.wrapping_add(1256u64)) as u32);
'b98: {
'b99: {
if (l16 == 0) { break 'b99; }
l12 = (l21 & 255u32);
if (load_64(m, l7.wrapping_add(1256u64).wrapping_add((if (l12 != 0) { 16u64 } else { 64u64 }))) >= l14) { break 'b98; }
l10 = 1u32;
'b100: {
if (l12 != 1u32) { break 'b100; }
l4 = load_64(m, l7.wrapping_add(1280u64));
if (l4 == 0) { break 'b100; }
'b101: {
l2 = load_64(m, load_64(m, l7.wrapping_add(1288u64)));
if (load_64(m, l2.wrapping_add(16u64)) != 1u64) { break 'b101; }
l17 = load_64(m, l2.wrapping_add(8u64));
let t69 = load_64(m, l17);
l17 = l17.wrapping_add(32u64);
l19 = load_64(m, l17);
if (load_64(m, l7.wrapping_add(1264u64)) != t69.wrapping_add(l19)) { break 'b101; }
store_64(m, l17, l19.wrapping_add((l4 << 3)));
}
l2 = l2.wrapping_add(24u64);
let t70 = load_64(m, l2).wrapping_add(0xffffffffffffffffu64);
store_64(m, l2, t70);
}
l12 = 0u32;
fill(m, l7.wrapping_add(624u64), 0u32 as u8, 72u64);
l38 = 0u32;
break 'b70;
}
if ((l21 & 255u32) != 1u32) { break 'b71; }
l4 = load_64(m, l7.wrapping_add(1280u64));
if (l4 == 0) { break 'b71; }
'b102: {
l2 = load_64(m, load_64(m, l7.wrapping_add(1288u64)));
if (load_64(m, l2.wrapping_add(16u64)) != 1u64) { break 'b102; }
l17 = load_64(m, l2.wrapping_add(8u64));
let t71 = load_64(m, l17);
l17 = l17.wrapping_add(32u64);
l19 = load_64(m, l17);
if (load_64(m, l7.wrapping_add(1264u64)) != t71.wrapping_add(l19)) { break 'b102; }
store_64(m, l17, l19.wrapping_add((l4 << 3)));
}
l2 = l2.wrapping_add(24u64);
let t72 = load_64(m, l2).wrapping_add(0xffffffffffffffffu64);
store_64(m, l2, t72);
break 'b71;
}
copy(m, l7.wrapping_add(696u64), l37, 72u64);
store_64(m, l7.wrapping_add(1048u64), ((l21 as u64) & 255u64));
l4 = l7.wrapping_add(1048u64).wrapping_add(8u64);
copy(m, l4, l7.wrapping_add(696u64), 72u64);
l32 = load_64(m, l7.wrapping_add(1056u64));
l3 = l7.wrapping_add(1048u64).wrapping_add(16u64);
l15 = load_64(m, (if (l12 != 0) { l3 } else { l7.wrapping_add(1048u64).wrapping_add(64u64) }));
'b103: {
'b104: {
if ((load_8(m, l5) as u32) != 0) { break 'b104; }
l17 = l5.wrapping_add(8u64);
l2 = l5.wrapping_add(64u64);
break 'b103;
}
l2 = l5.wrapping_add(16u64);
l17 = load_64(m, l5.wrapping_add(8u64));
}
l35 = (if (l12 != 0) { l32 } else { l4 });
l14 = load_64(m, l2);
fill(m, l7.wrapping_add(1256u64), 0u32 as u8, 80u64);
fill(m, l7.wrapping_add(968u64), 0u32 as u8, 72u64);
'b105: {
'b106: {
'b107: {
'b108: {
'b109: {
'b110: {
l12 = ((l15 == 0) as u32);
if (l12 != 0) { break 'b110; }
if (l14 == 0) { break 'b110; }
l31 = l17.wrapping_add(0xfffffffffffffff8u64);
l27 = (l14 & 0xfffffffffffffffcu64);
l6 = (l14 & 3u64);
l33 = l14.wrapping_add(0xffffffffffffffffu64);
l37 = (l14 << 3).wrapping_add(l17).wrapping_add(0xffffffffffffffe0u64);
l8 = 0u64;
'b111: {
'b112: loop {
l4 = load_64(m, l35.wrapping_add((l8 << 3)));
l12 = 0u32;
l17 = l14;
'b113: {
'b114: {
if (l33 < 3u64) { break 'b114; }
l12 = 0u32;
l2 = l37;
l19 = l27;
l17 = l14;
'b115: loop {
l12 = ((((l4 == load_64(m, l2)) as u32) | (((l4 == load_64(m, l2.wrapping_add(8u64))) as u32) | (((l4 == load_64(m, l2.wrapping_add(16u64))) as u32) | ((l4 == load_64(m, l2.wrapping_add(24u64))) as u32)))) | l12);
l2 = l2.wrapping_add(0xffffffffffffffe0u64);
l17 = l17.wrapping_add(0xfffffffffffffffcu64);
l19 = l19.wrapping_add(0xfffffffffffffffcu64);
if (l19 != 0u64) { continue 'b115; }
break 'b115;
}
if (l6 == 0) { break 'b113; }
}
l2 = l31.wrapping_add((l17 << 3));
l17 = l6;
'b116: loop {
l12 = (((l4 == load_64(m, l2)) as u32) | l12);
l2 = l2.wrapping_add(0xfffffffffffffff8u64);
l17 = l17.wrapping_add(0xffffffffffffffffu64);
if (l17 != 0u64) { continue 'b116; }
break 'b116;
}
}
l10 = 1u32;
if ((l12 & 1u32) != 0) { break 'b111; }
l8 = l8.wrapping_add(1u64);
if (l8 != l15) { continue 'b112; }
break 'b112;
}
fill(m, l7.wrapping_add(1256u64), 0u32 as u8, 72u64);
store_64(m, l7.wrapping_add(1328u64), l1);
l8 = l7.wrapping_add(1264u64);
break 'b109;
}
l12 = 0u32;
fill(m, l7.wrapping_add(768u64), 0u32 as u8, 72u64);
break 'b106;
}
fill(m, l7.wrapping_add(1256u64), 0u32 as u8, 72u64);
store_64(m, l7.wrapping_add(1328u64), l1);
l8 = l7.wrapping_add(1264u64);
if (l12 != 0) { break 'b108; }
}
l19 = l7.wrapping_add(1256u64).wrapping_add(8u64);
'b117: {
if (load_64(m, l35) != 0u64) { break 'b117; }
store_64(m, l7.wrapping_add(1320u64), 1u64);
store_64(m, l7.wrapping_add(1264u64), 0u64);
l2 = l15.wrapping_add(0xffffffffffffffffu64);
if (l2 == 0) { break 'b108; }
l4 = (l15 << 3).wrapping_add((if ((l21 & 255u32) != 0) { l32.wrapping_add(8u64) } else { l3 })).wrapping_add(0xfffffffffffffff0u64);
'b118: loop {
l17 = load_64(m, l4);
'b119: {
l12 = (load_8(m, l7.wrapping_add(1256u64)) as u32);
if (load_64(m, (if (l12 != 0) { l7.wrapping_add(1272u64) } else { l7.wrapping_add(1320u64) })) != (if (l12 != 0) { load_64(m, l7.wrapping_add(1280u64)) } else { 7u64 })) { break 'b119; }
let t73 = f55(m, g, l7.wrapping_add(1256u64));
if ((t73 & 255u32) != 0) { break 'b107; }
l12 = (load_8(m, l7.wrapping_add(1256u64)) as u32);
}
l2 = l2.wrapping_add(0xffffffffffffffffu64);
'b120: {
'b121: {
if ((l12 & 255u32) != 0) { break 'b121; }
l15 = load_64(m, l7.wrapping_add(1320u64));
store_64(m, l19.wrapping_add((l15 << 3)), l17);
store_64(m, l7.wrapping_add(1320u64), l15.wrapping_add(1u64));
break 'b120;
}
l15 = load_64(m, l7.wrapping_add(1272u64));
let t74 = load_64(m, l7.wrapping_add(1264u64)).wrapping_add((l15 << 3));
store_64(m, t74, l17);
store_64(m, l7.wrapping_add(1272u64), l15.wrapping_add(1u64));
}
l4 = l4.wrapping_add(0xfffffffffffffff8u64);
if !(l2 == 0) { continue 'b118; }
break 'b108;
}
}
l2 = (l15 << 3).wrapping_add(l35).wrapping_add(0xfffffffffffffff8u64);
'b122: loop {
l4 = load_64(m, l2);
'b123: {
l12 = (load_8(m, l7.wrapping_add(1256u64)) as u32);
if (load_64(m, (if (l12 != 0) { l7.wrapping_add(1272u64) } else { l7.wrapping_add(1320u64) })) != (if (l12 != 0) { load_64(m, l7.wrapping_add(1280u64)) } else { 7u64 })) { break 'b123; }
let t75 = f55(m, g, l7.wrapping_add(1256u64));
if ((t75 & 255u32) != 0) { break 'b107; }
l12 = (load_8(m, l7.wrapping_add(1256u64)) as u32);
}
l15 = l15.wrapping_add(0xffffffffffffffffu64);
'b124: {
'b125: {
if ((l12 & 255u32) != 0) { break 'b125; }
l17 = load_64(m, l7.wrapping_add(1320u64));
store_64(m, l19.wrapping_add((l17 << 3)), l4);
store_64(m, l7.wrapping_add(1320u64), l17.wrapping_add(1u64));
break 'b124;
}
l17 = load_64(m, l7.wrapping_add(1272u64));
let t76 = load_64(m, l7.wrapping_add(1264u64)).wrapping_add((l17 << 3));
store_64(m, t76, l4);
store_64(m, l7.wrapping_add(1272u64), l17.wrapping_add(1u64));
}
l2 = l2.wrapping_add(0xfffffffffffffff8u64);
if (l15 != 0u64) { continue 'b122; }
break 'b122;
}
}
l38 = (load_8(m, l7.wrapping_add(1256u64)) as u32);
copy(m, l7.wrapping_add(968u64), l8, 72u64);
copy(m, l7.wrapping_add(768u64), l7.wrapping_add(968u64), 72u64);
l10 = 1u32;
l12 = 1u32;
break 'b105;
}
'b126: {
if ((load_8(m, l7.wrapping_add(1256u64)) as u32) != 1u32) { break 'b126; }
l4 = load_64(m, l7.wrapping_add(1280u64));
if (l4 == 0) { break 'b126; }
'b127: {
l2 = load_64(m, load_64(m, l7.wrapping_add(1288u64)));
if (load_64(m, l2.wrapping_add(16u64)) != 1u64) { break 'b127; }
l17 = load_64(m, l2.wrapping_add(8u64));
let t77 = load_64(m, l17);
l17 = l17.wrapping_add(32u64);
l19 = load_64(m, l17);
if (load_64(m, l7.wrapping_add(1264u64)) != t77.wrapping_add(l19)) { break 'b127; }
store_64(m, l17, l19.wrapping_add((l4 << 3)));
}
l2 = l2.wrapping_add(24u64);
let t78 = load_64(m, l2).wrapping_add(0xffffffffffffffffu64);
store_64(m, l2, t78);
}
l10 = 0u32;
fill(m, l7.wrapping_add(768u64), 0u32 as u8, 72u64);
l12 = 0u32;
}
l38 = 0u32;
}
'b128: {
if ((l21 & 255u32) != 1u32) { break 'b128; }
l4 = load_64(m, l7.wrapping_add(1072u64));
if (l4 == 0) { break 'b128; }
'b129: {
l2 = load_64(m, load_64(m, l7.wrapping_add(1080u64)));
if (load_64(m, l2.wrapping_add(16u64)) != 1u64) { break 'b129; }
l17 = load_64(m, l2.wrapping_add(8u64));
let t79 = load_64(m, l17);
l17 = l17.wrapping_add(32u64);
l19 = load_64(m, l17);
if (l32 != t79.wrapping_add(l19)) { break 'b129; }
store_64(m, l17, l19.wrapping_add((l4 << 3)));
}
l2 = l2.wrapping_add(24u64);
let t80 = load_64(m, l2).wrapping_add(0xffffffffffffffffu64);
store_64(m, l2, t80);
}
copy(m, l7.wrapping_add(624u64), l7.wrapping_add(768u64), 72u64);
break 'b70;
}
'b130: {
if ((l12 & 255u32) != 1u32) { break 'b130; }
l4 = load_64(m, l7.wrapping_add(952u64));
if (l4 == 0) { break 'b130; }
'b131: {
l2 = load_64(m, load_64(m, l7.wrapping_add(960u64)));
if (load_64(m, l2.wrapping_add(16u64)) != 1u64) { break 'b131; }
l17 = load_64(m, l2.wrapping_add(8u64));
let t81 = load_64(m, l17);
l17 = l17.wrapping_add(32u64);
l19 = load_64(m, l17);
if (load_64(m, l7.wrapping_add(936u64)) != t81.wrapping_add(l19)) { break 'b131; }
store_64(m, l17, l19.wrapping_add((l4 << 1)));
}
l2 = l2.wrapping_add(24u64);
let t82 = load_64(m, l2).wrapping_add(0xffffffffffffffffu64);
store_64(m, l2, t82);
}
if ((l22 & 255u32) != 1u32) { break 'b71; }
l4 = load_64(m, l7.wrapping_add(904u64));
if (l4 == 0) { break 'b71; }
'b132: {
l2 = load_64(m, load_64(m, l7.wrapping_add(912u64)));
if (load_64(m, l2.wrapping_add(16u64)) != 1u64) { break 'b132; }
l17 = load_64(m, l2.wrapping_add(8u64));
let t83 = load_64(m, l17);
l17 = l17.wrapping_add(32u64);
l19 = load_64(m, l17);
if (load_64(m, l7.wrapping_add(888u64)) != t83.wrapping_add(l19)) { break 'b132; }
store_64(m, l17, l19.wrapping_add((l4 << 1)));
}
l2 = l2.wrapping_add(24u64);
let t84 = load_64(m, l2).wrapping_add(0xffffffffffffffffu64);
store_64(m, l2, t84);
}
l10 = 0u32;
fill(m, l7.wrapping_add(624u64), 0u32 as u8, 72u64);
l12 = 0u32;
l38 = 0u32;
}
'b133: {
if (l20 != 1u64) { break 'b133; }
if (l39 == 0) { break 'b133; }
'b134: {
l2 = load_64(m, load_64(m, l7.wrapping_add(616u64)));
if (load_64(m, l2.wrapping_add(16u64)) != 1u64) { break 'b134; }
l4 = load_64(m, l2.wrapping_add(8u64));
let t85 = load_64(m, l4);
l4 = l4.wrapping_add(32u64);
l17 = load_64(m, l4);
if (l41 != t85.wrapping_add(l17)) { break 'b134; }
store_64(m, l4, l17.wrapping_add((l39 << 1)));
}
l2 = l2.wrapping_add(24u64);
let t86 = load_64(m, l2).wrapping_add(0xffffffffffffffffu64);
store_64(m, l2, t86);
}
copy(m, l7.wrapping_add(200u64), l7.wrapping_add(624u64), 72u64);
if (l10 != 0) { break 'b2; }
l26 = load_64(m, l7.wrapping_add(408u64));
}
'b135: {
if ((load_8(m, l7.wrapping_add(384u64)) as u32) != 1u32) { break 'b135; }
if (l26 == 0) { break 'b135; }
'b136: {
l2 = load_64(m, load_64(m, l7.wrapping_add(416u64)));
if (load_64(m, l2.wrapping_add(16u64)) != 1u64) { break 'b136; }
l4 = load_64(m, l2.wrapping_add(8u64));
let t87 = load_64(m, l4);
l4 = l4.wrapping_add(32u64);
l17 = load_64(m, l4);
if (load_64(m, l7.wrapping_add(392u64)) != t87.wrapping_add(l17)) { break 'b136; }
store_64(m, l4, l17.wrapping_add((l26 << 1)));
}
l2 = l2.wrapping_add(24u64);
let t88 = load_64(m, l2).wrapping_add(0xffffffffffffffffu64);
store_64(m, l2, t88);
}
store_8(m, l0, 1u32 as u8);
fill(m, l0.wrapping_add(8u64), 0u32 as u8, 144u64);
break 'b1;
}
'b137: {
if (l12 != 0) { break 'b137; }
l2 = l7.wrapping_add(72u64);
'b138: {
if ((load_8(m, l7.wrapping_add(384u64)) as u32) != 1u32) { break 'b138; }
let t89 = load_64(m, l7.wrapping_add(416u64));
store_64(m, l7.wrapping_add(56u64), t89);
let t90 = load_64(m, l7.wrapping_add(408u64));
store_64(m, l7.wrapping_add(48u64), t90);
let t91 = load_64(m, l7.wrapping_add(400u64));
store_64(m, l7.wrapping_add(40u64), t91);
let t92 = load_64(m, l7.wrapping_add(392u64));
store_64(m, l7.wrapping_add(32u64), t92);
f60(m, g, l7.wrapping_add(32u64));
}
store_8(m, l0, 0u32 as u8);
store_64(m, l0.wrapping_add(8u64), 0u64);
store_64(m, l0.wrapping_add(16u64), 0u64);
copy(m, l0.wrapping_add(24u64), l2, 128u64);
break 'b1;
}
store_64(m, l7.wrapping_add(304u64), ((l38 as u64) & 255u64));
l27 = l7.wrapping_add(304u64).wrapping_add(8u64);
copy(m, l27, l7.wrapping_add(200u64), 72u64);
fill(m, l7.wrapping_add(1048u64), 0u32 as u8, 128u64);
'b139: {
'b140: {
if ((load_8(m, l5) as u32) != 0) { break 'b140; }
l2 = l5.wrapping_add(8u64);
l4 = l5.wrapping_add(64u64);
break 'b139;
}
l4 = l5.wrapping_add(16u64);
l2 = load_64(m, l5.wrapping_add(8u64));
}
l21 = (l38 & 255u32);
l17 = load_64(m, l7.wrapping_add(304u64).wrapping_add((if (l21 != 0) { 16u64 } else { 64u64 })));
l4 = load_64(m, l4);
l8 = load_64(m, l7.wrapping_add(312u64));
fill(m, l7.wrapping_add(1256u64), 0u32 as u8, 72u64);
store_64(m, l7.wrapping_add(1328u64), l1);
l15 = l7.wrapping_add(1256u64).wrapping_add(8u64);
'b141: {
'b142: {
'b143: {
'b144: {
'b145: {
'b146: {
'b147: {
'b148: {
'b149: {
'b150: {
'b151: {
'b152: {
'b153: {
'b154: {
if !(l4 == 0) { break 'b154; }
l2 = 0u64;
break 'b153;
}
'b155: loop {
l19 = load_64(m, l2);
'b156: {
l12 = (load_8(m, l7.wrapping_add(1256u64)) as u32);
if (load_64(m, (if (l12 != 0) { l7.wrapping_add(1272u64) } else { l7.wrapping_add(1320u64) })) != (if (l12 != 0) { load_64(m, l7.wrapping_add(1280u64)) } else { 7u64 })) { break 'b156; }
let t93 = f55(m, g, l7.wrapping_add(1256u64));
l10 = t93;
l12 = (load_8(m, l7.wrapping_add(1256u64)) as u32);
if ((l10 & 255u32) != 0) { break 'b152; }
}
'b157: {
'b158: {
if ((l12 & 255u32) != 0) { break 'b158; }
l20 = load_64(m, l7.wrapping_add(1320u64));
store_64(m, l15.wrapping_add((l20 << 3)), l19);
store_64(m, l7.wrapping_add(1320u64), l20.wrapping_add(1u64));
break 'b157;
}
l20 = load_64(m, l7.wrapping_add(1272u64));
let t94 = load_64(m, l7.wrapping_add(1264u64)).wrapping_add((l20 << 3));
store_64(m, t94, l19);
store_64(m, l7.wrapping_add(1272u64), l20.wrapping_add(1u64));
}
l2 = l2.wrapping_add(8u64);
l4 = l4.wrapping_add(0xffffffffffffffffu64);
if (l4 != 0u64) { continue 'b155; }
break 'b155;
}
l2 = (load_8(m, l7.wrapping_add(1256u64)) as u64);
}
l20 = l7.wrapping_add(1176u64).wrapping_add(8u64);
copy(m, l20, l15, 72u64);
store_64(m, l7.wrapping_add(1176u64), l2);
if !(l17 == 0) { break 'b151; }
l40 = (l2 as u32);
break 'b150;
}
if ((l12 & 255u32) != 1u32) { break 'b148; }
l4 = load_64(m, l7.wrapping_add(1280u64));
if (l4 == 0) { break 'b148; }
'b159: {
l2 = load_64(m, load_64(m, l7.wrapping_add(1288u64)));
if (load_64(m, l2.wrapping_add(16u64)) != 1u64) { break 'b159; }
l17 = load_64(m, l2.wrapping_add(8u64));
let t95 = load_64(m, l17);
l17 = l17.wrapping_add(32u64);
l19 = load_64(m, l17);
if (load_64(m, l7.wrapping_add(1264u64)) != t95.wrapping_add(l19)) { break 'b159; }
store_64(m, l17, l19.wrapping_add((l4 << 3)));
}
l2 = l2.wrapping_add(24u64);
let t96 = load_64(m, l2).wrapping_add(0xffffffffffffffffu64);
store_64(m, l2, t96);
break 'b148;
}
l2 = (if (l21 != 0) { l8 } else { l27 });
'b160: loop {
l4 = load_64(m, l2);
'b161: {
l12 = (load_8(m, l7.wrapping_add(1176u64)) as u32);
if (load_64(m, (if (l12 != 0) { l7.wrapping_add(1192u64) } else { l7.wrapping_add(1240u64) })) != (if (l12 != 0) { load_64(m, l7.wrapping_add(1200u64)) } else { 7u64 })) { break 'b161; }
let t97 = f55(m, g, l7.wrapping_add(1176u64));
l10 = t97;
l12 = (load_8(m, l7.wrapping_add(1176u64)) as u32);
if ((l10 & 255u32) != 0) { break 'b149; }
}
'b162: {
'b163: {
if ((l12 & 255u32) != 0) { break 'b163; }
l19 = load_64(m, l7.wrapping_add(1240u64));
store_64(m, l20.wrapping_add((l19 << 3)), l4);
store_64(m, l7.wrapping_add(1240u64), l19.wrapping_add(1u64));
break 'b162;
}
l19 = load_64(m, l7.wrapping_add(1192u64));
let t98 = load_64(m, l7.wrapping_add(1184u64)).wrapping_add((l19 << 3));
store_64(m, t98, l4);
store_64(m, l7.wrapping_add(1192u64), l19.wrapping_add(1u64));
}
l2 = l2.wrapping_add(8u64);
l17 = l17.wrapping_add(0xffffffffffffffffu64);
if !(l17 == 0) { continue 'b160; }
break 'b160;
}
l40 = (load_8(m, l7.wrapping_add(1176u64)) as u32);
}
l4 = l7.wrapping_add(968u64).wrapping_add(8u64);
copy(m, l4, l20, 72u64);
store_64(m, l7.wrapping_add(968u64), ((l40 as u64) & 255u64));
l31 = load_64(m, l5.wrapping_add((if ((load_8(m, l5) as u32) != 0) { 16u64 } else { 64u64 })));
l12 = (l40 & 255u32);
l6 = load_64(m, l7.wrapping_add(968u64).wrapping_add((if (l12 != 0) { 16u64 } else { 64u64 })));
l39 = load_64(m, l7.wrapping_add(976u64));
l2 = 0u64;
store_64(m, l7.wrapping_add(808u64), 0u64);
store_64(m, l7.wrapping_add(800u64), 0u64);
store_64(m, l7.wrapping_add(792u64), 0u64);
store_64(m, l7.wrapping_add(784u64), 0u64);
store_64(m, l7.wrapping_add(776u64), 0u64);
store_64(m, l7.wrapping_add(768u64), 0u64);
l5 = (if (l12 != 0) { l39 } else { l4 });
f39(m, g, l7.wrapping_add(768u64), l1, l11, l5, l6);
if ((load_8(m, l7.wrapping_add(768u64)) as u32) != 0) { break 'b145; }
l30 = (load_8(m, l7.wrapping_add(776u64)) as u32);
store_64(m, l7.wrapping_add(624u64), ((l30 as u64) & 255u64));
let t99 = load_64(m, l7.wrapping_add(784u64));
store_64(m, l7.wrapping_add(632u64), t99);
let t100 = load_64(m, l7.wrapping_add(792u64));
store_64(m, l7.wrapping_add(640u64), t100);
let t101 = load_64(m, l7.wrapping_add(800u64));
store_64(m, l7.wrapping_add(648u64), t101);
let t102 = load_64(m, l7.wrapping_add(808u64));
store_64(m, l7.wrapping_add(656u64), t102);
fill(m, l7.wrapping_add(1256u64), 0u32 as u8, 128u64);
store_64(m, l7.wrapping_add(1384u64), l1);
l3 = l7.wrapping_add(1256u64).wrapping_add(8u64);
l29 = load_64(m, l7.wrapping_add(632u64));
if !(l6 == 0) { break 'b147; }
l2 = 0u64;
break 'b146;
}
if ((l12 & 255u32) != 1u32) { break 'b148; }
l4 = load_64(m, l7.wrapping_add(1200u64));
if (l4 == 0) { break 'b148; }
'b164: {
l2 = load_64(m, load_64(m, l7.wrapping_add(1208u64)));
if (load_64(m, l2.wrapping_add(16u64)) != 1u64) { break 'b164; }
l17 = load_64(m, l2.wrapping_add(8u64));
let t103 = load_64(m, l17);
l17 = l17.wrapping_add(32u64);
l19 = load_64(m, l17);
if (load_64(m, l7.wrapping_add(1184u64)) != t103.wrapping_add(l19)) { break 'b164; }
store_64(m, l17, l19.wrapping_add((l4 << 3)));
}
l2 = l2.wrapping_add(24u64);
let t104 = load_64(m, l2).wrapping_add(0xffffffffffffffffu64);
store_64(m, l2, t104);
}
fill(m, l7.wrapping_add(424u64), 0u32 as u8, 128u64);
l4 = 0u64;
l12 = 1u32;
l2 = 0u64;
break 'b141;
}
l12 = (load_8(m, l7.wrapping_add(384u64)) as u32);
l41 = (if (l12 != 0) { load_64(m, l7.wrapping_add(392u64)) } else { l25 });
l32 = load_64(m, (if (l12 != 0) { l7.wrapping_add(400u64) } else { l7.wrapping_add(408u64) }));
l37 = (if ((l30 & 255u32) != 0) { l29 } else { l7.wrapping_add(624u64).wrapping_add(8u64) });
l8 = l7.wrapping_add(696u64).wrapping_add(8u64);
l15 = l7.wrapping_add(1176u64).wrapping_add(8u64);
l14 = 0u64;
'b165: loop {
l35 = load_64(m, l7.wrapping_add(1288u64));
l2 = load_64(m, l7.wrapping_add(1384u64));
l18 = (load_8(m, l7.wrapping_add(1256u64)) as u32);
l1 = l5.wrapping_add((l14 << 3));
l4 = load_64(m, l1);
store_64(m, l7.wrapping_add(1200u64), 0u64);
store_64(m, l7.wrapping_add(1192u64), 0u64);
store_64(m, l7.wrapping_add(1184u64), 0u64);
store_64(m, l7.wrapping_add(1176u64), 0u64);
l33 = (if (l18 != 0) { l35 } else { l2 });
store_64(m, l7.wrapping_add(1208u64), l33);
l2 = l5;
l17 = l37;
l19 = l6;
'b166: loop {
'b167: {
if (load_64(m, l2) == l4) { break 'b167; }
l10 = (load_16(m, l17) as u32);
'b168: {
'b169: {
'b170: {
l20 = load_64(m, l7.wrapping_add(1200u64));
l12 = (load_8(m, l7.wrapping_add(1176u64)) as u32);
if ((if (l12 != 0) { load_64(m, l7.wrapping_add(1192u64)) } else { l20 }) != (if (l12 != 0) { l20 } else { 7u64 })) { break 'b170; }
let t105 = f57(m, g, l7.wrapping_add(1176u64));
l21 = t105;
l12 = (load_8(m, l7.wrapping_add(1176u64)) as u32);
if ((l21 & 255u32) != 0) { break 'b169; }
}
if ((l12 & 255u32) != 0) { break 'b168; }
l20 = load_64(m, l7.wrapping_add(1200u64));
store_16(m, l15.wrapping_add((l20 << 1)), l10 as u16);
store_64(m, l7.wrapping_add(1200u64), l20.wrapping_add(1u64));
break 'b167;
}
if ((l12 & 255u32) != 1u32) { break 'b143; }
l4 = load_64(m, l7.wrapping_add(1200u64));
if (l4 == 0) { break 'b143; }
'b171: {
l2 = load_64(m, load_64(m, l7.wrapping_add(1208u64)));
if (load_64(m, l2.wrapping_add(16u64)) != 1u64) { break 'b171; }
l17 = load_64(m, l2.wrapping_add(8u64));
let t106 = load_64(m, l17);
l17 = l17.wrapping_add(32u64);
l19 = load_64(m, l17);
if (load_64(m, l7.wrapping_add(1184u64)) != t106.wrapping_add(l19)) { break 'b171; }
store_64(m, l17, l19.wrapping_add((l4 << 1)));
}
l2 = l2.wrapping_add(24u64);
let t107 = load_64(m, l2).wrapping_add(0xffffffffffffffffu64);
store_64(m, l2, t107);
break 'b143;
}
l20 = load_64(m, l7.wrapping_add(1192u64));
let t108 = load_64(m, l7.wrapping_add(1184u64)).wrapping_add((l20 << 1));
store_16(m, t108, l10 as u16);
store_64(m, l7.wrapping_add(1192u64), l20.wrapping_add(1u64));
}
l2 = l2.wrapping_add(8u64);
l17 = l17.wrapping_add(2u64);
l19 = l19.wrapping_add(0xffffffffffffffffu64);
if (l19 != 0u64) { continue 'b166; }
break 'b166;
}
let t109 = load_64(m, l15);
store_64(m, l8, t109);
let t110 = load_64(m, l15.wrapping_add(8u64));
store_64(m, l8.wrapping_add(8u64), t110);
let t111 = load_64(m, l15.wrapping_add(16u64));
store_64(m, l8.wrapping_add(16u64), t111);
let t112 = load_64(m, l15.wrapping_add(24u64));
store_64(m, l8.wrapping_add(24u64), t112);
l34 = (load_8(m, l7.wrapping_add(1176u64)) as u32);
store_64(m, l7.wrapping_add(696u64), ((l34 as u64) & 255u64));
'b172: {
'b173: {
if !(l4 == 0) { break 'b173; }
l23 = 1u32;
break 'b172;
}
l12 = l11;
l23 = 1u32;
'b174: loop {
'b175: {
'b176: {
if (((l4 as u32) & 1u32) != 0) { break 'b176; }
l10 = ((l12 & 65280u32) >> 8);
break 'b175;
}
l10 = ((l12 & 65280u32) >> 8);
l22 = (l23 & 65280u32);
l21 = 0u32;
'b177: {
if ((l12 & 255u32) == 0) { break 'b177; }
if ((l23 & 255u32) == 0) { break 'b177; }
l21 = (load_8_constant(m, ((((load_8_constant(m, ((l12 as u64) & 255u64).wrapping_add(0x100000082u64)) as u32).wrapping_add((load_8_constant(m, ((l23 as u64) & 255u64).wrapping_add(0x100000082u64)) as u32)) & 255u32) % 31u32) as u64).wrapping_add(0x1000000a2u64)) as u32);
}
l24 = (l22 >> 8);
l22 = l21;
'b178: {
if (l10 == 0) { break 'b178; }
l22 = l21;
if (l24 == 0) { break 'b178; }
l22 = ((load_8_constant(m, ((((load_8_constant(m, (l10 as u64).wrapping_add(0x100000082u64)) as u32).wrapping_add((load_8_constant(m, (l24 as u64).wrapping_add(0x100000082u64)) as u32)) & 255u32) % 31u32) as u64).wrapping_add(0x1000000a2u64)) as u32) ^ l21);
}
'b179: {
l16 = (l10 ^ l12);
if ((l16 & 255u32) == 0) { break 'b179; }
l23 = (l24 ^ l23);
if ((l23 & 255u32) == 0) { break 'b179; }
l21 = ((load_8_constant(m, ((((load_8_constant(m, ((l16 as u64) & 255u64).wrapping_add(0x100000082u64)) as u32).wrapping_add((load_8_constant(m, ((l23 as u64) & 255u64).wrapping_add(0x100000082u64)) as u32)) & 255u32) % 31u32) as u64).wrapping_add(0x1000000a2u64)) as u32) ^ l21);
}
l23 = ((l21 << 8) | (l22 & 255u32));
}
'b180: {
'b181: {
if ((l12 & 255u32) != 0) { break 'b181; }
l21 = 0u32;
break 'b180;
}
l21 = (load_8_constant(m, (((((load_8_constant(m, ((l12 as u64) & 255u64).wrapping_add(0x100000082u64)) as u32) << 1) & 254u32) % 31u32) as u64).wrapping_add(0x1000000a2u64)) as u32);
}
l22 = l21;
'b182: {
if (l10 == 0) { break 'b182; }
l22 = ((load_8_constant(m, (((((load_8_constant(m, (l10 as u64).wrapping_add(0x100000082u64)) as u32) << 1) & 254u32) % 31u32) as u64).wrapping_add(0x1000000a2u64)) as u32) ^ l21);
}
'b183: {
l12 = (l10 ^ l12);
if ((l12 & 255u32) == 0) { break 'b183; }
l21 = ((load_8_constant(m, (((((load_8_constant(m, ((l12 as u64) & 255u64).wrapping_add(0x100000082u64)) as u32) << 1) & 254u32) % 31u32) as u64).wrapping_add(0x1000000a2u64)) as u32) ^ l21);
}
l12 = ((l21 << 8) | (l22 & 255u32));
l4 = (l4 >> 1);
if (l4 != 0u64) { continue 'b174; }
break 'b174;
}
}
l19 = load_64(m, l7.wrapping_add(704u64));
l2 = load_64(m, l7.wrapping_add(712u64));
l17 = load_64(m, l7.wrapping_add(720u64));
store_64(m, l7.wrapping_add(1216u64), 0u64);
store_64(m, l7.wrapping_add(1208u64), 0u64);
store_64(m, l7.wrapping_add(1200u64), 0u64);
store_64(m, l7.wrapping_add(1192u64), 0u64);
store_64(m, l7.wrapping_add(1184u64), 0u64);
store_64(m, l7.wrapping_add(1176u64), 0u64);
l10 = (l34 & 255u32);
l20 = (if (l10 != 0) { l19 } else { l8 });
l4 = (if (l10 != 0) { l2 } else { l17 });
f66(m, g, l7.wrapping_add(1176u64), l33, l41, l32, l20, l4);
l21 = 0u32;
l12 = 0u32;
'b184: {
l22 = (load_8(m, l7.wrapping_add(1176u64)) as u32);
if (l22 != 0) { break 'b184; }
l24 = (load_8(m, l7.wrapping_add(1184u64)) as u32);
l25 = load_64(m, l7.wrapping_add(1216u64));
l26 = load_64(m, l7.wrapping_add(1208u64));
l33 = load_64(m, l7.wrapping_add(1192u64));
store_16(m, l7.wrapping_add(840u64), 0u32 as u16);
store_16(m, l7.wrapping_add(552u64), 0u32 as u16);
store_16(m, l7.wrapping_add(928u64), l23 as u16);
l21 = 1u32;
store_16(m, l7.wrapping_add(880u64), 1u32 as u16);
l12 = 1u32;
'b185: {
if (l13 != 0) { break 'b185; }
l2 = l9;
'b186: loop {
l12 = (load_16(m, l7.wrapping_add(928u64)) as u32);
'b187: {
if ((l2 & 1u64) == 0) { break 'b187; }
let t113 = (load_16(m, l7.wrapping_add(880u64)) as u32);
f58(m, g, l7.wrapping_add(880u64), t113, l12);
}
f58(m, g, l7.wrapping_add(928u64), l12, l12);
l2 = (l2 >> 1);
if (l2 != 0u64) { continue 'b186; }
break 'b186;
}
l12 = (load_16(m, l7.wrapping_add(880u64)) as u32);
}
store_16(m, l7.wrapping_add(584u64), l12 as u16);
store_16(m, l7.wrapping_add(928u64), 1u32 as u16);
'b188: {
if (l4 == 0) { break 'b188; }
l2 = l20.wrapping_add((l4 << 1)).wrapping_add(0xfffffffffffffffeu64);
'b189: loop {
let t114 = ((load_16(m, l2) as u32) ^ l23);
let t115 = (load_16(m, l7.wrapping_add(928u64)) as u32);
f58(m, g, l7.wrapping_add(928u64), t114, t115);
l2 = l2.wrapping_add(0xfffffffffffffffeu64);
l4 = l4.wrapping_add(0xffffffffffffffffu64);
if (l4 != 0u64) { continue 'b189; }
break 'b189;
}
l21 = (load_16(m, l7.wrapping_add(928u64)) as u32);
}
f58(m, g, l7.wrapping_add(840u64), l12, l21);
'b190: {
'b191: {
l12 = (load_16(m, l7.wrapping_add(840u64)) as u32);
if (l12 != 0) { break 'b191; }
l12 = 0u32;
l21 = 0u32;
break 'b190;
}
'b192: {
'b193: {
if ((l24 & 255u32) != 0) { break 'b193; }
l21 = (l33 as u32);
break 'b192;
}
l21 = (load_16(m, l33) as u32);
}
f67(m, g, l7.wrapping_add(552u64), l12);
let t116 = (load_16(m, l7.wrapping_add(552u64)) as u32);
f58(m, g, l7.wrapping_add(584u64), l21, t116);
l12 = (load_16(m, l7.wrapping_add(584u64)) as u32);
l21 = ((l12 < 256u32) as u32);
l12 = (if (l21 != 0) { (if (l21 != 0) { l12 } else { 256u32 }) } else { 0u32 });
}
if ((l24 & 255u32) != 1u32) { break 'b184; }
if (l26 == 0) { break 'b184; }
'b194: {
l2 = load_64(m, l25);
if (load_64(m, l2.wrapping_add(16u64)) != 1u64) { break 'b194; }
l4 = load_64(m, l2.wrapping_add(8u64));
let t117 = load_64(m, l4);
l4 = l4.wrapping_add(32u64);
l20 = load_64(m, l4);
if (l33 != t117.wrapping_add(l20)) { break 'b194; }
store_64(m, l4, l20.wrapping_add((l26 << 1)));
}
l2 = l2.wrapping_add(24u64);
let t118 = load_64(m, l2).wrapping_add(0xffffffffffffffffu64);
store_64(m, l2, t118);
}
'b195: {
if (l10 != 1u32) { break 'b195; }
if (l17 == 0) { break 'b195; }
'b196: {
l2 = load_64(m, load_64(m, l7.wrapping_add(728u64)));
if (load_64(m, l2.wrapping_add(16u64)) != 1u64) { break 'b196; }
l4 = load_64(m, l2.wrapping_add(8u64));
let t119 = load_64(m, l4);
l4 = l4.wrapping_add(32u64);
l20 = load_64(m, l4);
if (l19 != t119.wrapping_add(l20)) { break 'b196; }
store_64(m, l4, l20.wrapping_add((l17 << 1)));
}
l2 = l2.wrapping_add(24u64);
let t120 = load_64(m, l2).wrapping_add(0xffffffffffffffffu64);
store_64(m, l2, t120);
}
if (l22 != 0) { break 'b143; }
'b197: {
if (l21 != 0) { break 'b197; }
l2 = load_64(m, l7.wrapping_add(1280u64));
break 'b144;
}
l2 = load_64(m, l7.wrapping_add(1280u64));
'b198: {
if (l31 > l14) { break 'b198; }
if ((l12 & 255u32) == 0) { break 'b144; }
}
l4 = load_64(m, l1);
'b199: {
if (load_64(m, (if (l18 != 0) { l7.wrapping_add(1272u64) } else { l7.wrapping_add(1376u64) })) != (if (l18 != 0) { l2 } else { 7u64 })) { break 'b199; }
let t121 = f61(m, g, l7.wrapping_add(1256u64));
l10 = t121;
l18 = (load_8(m, l7.wrapping_add(1256u64)) as u32);
if ((l10 & 255u32) != 0) { break 'b143; }
}
'b200: {
'b201: {
if ((l18 & 255u32) != 0) { break 'b201; }
l17 = load_64(m, l7.wrapping_add(1376u64));
l2 = l3.wrapping_add((l17 << 4));
store_64(m, l2, l4);
store_32(m, l2.wrapping_add(9u64), 0u32);
store_8(m, l2.wrapping_add(8u64), l12 as u8);
store_32(m, l2.wrapping_add(12u64), 0u32);
store_64(m, l7.wrapping_add(1376u64), l17.wrapping_add(1u64));
break 'b200;
}
l17 = load_64(m, l7.wrapping_add(1272u64));
l2 = load_64(m, l7.wrapping_add(1264u64)).wrapping_add((l17 << 4));
store_32(m, l2.wrapping_add(9u64), 0u32);
store_8(m, l2.wrapping_add(8u64), l12 as u8);
store_64(m, l2, l4);
store_32(m, l2.wrapping_add(12u64), 0u32);
store_64(m, l7.wrapping_add(1272u64), l17.wrapping_add(1u64));
}
l14 = l14.wrapping_add(1u64);
if (l14 != l6) { continue 'b165; }
break 'b165;
}
l2 = (load_8(m, l7.wrapping_add(1256u64)) as u64);
}
'b202: {
if ((l30 & 255u32) != 1u32) { break 'b202; }
l17 = load_64(m, l7.wrapping_add(648u64));
if (l17 == 0) { break 'b202; }
'b203: {
l4 = load_64(m, load_64(m, l7.wrapping_add(656u64)));
if (load_64(m, l4.wrapping_add(16u64)) != 1u64) { break 'b203; }
l19 = load_64(m, l4.wrapping_add(8u64));
let t122 = load_64(m, l19);
l19 = l19.wrapping_add(32u64);
l20 = load_64(m, l19);
if (l29 != t122.wrapping_add(l20)) { break 'b203; }
store_64(m, l19, l20.wrapping_add((l17 << 1)));
}
l4 = l4.wrapping_add(24u64);
let t123 = load_64(m, l4).wrapping_add(0xffffffffffffffffu64);
store_64(m, l4, t123);
}
copy(m, l7.wrapping_add(1048u64), l3, 128u64);
l4 = 1u64;
l12 = 0u32;
break 'b142;
}
fill(m, l7.wrapping_add(1048u64), 0u32 as u8, 128u64);
l12 = 1u32;
l4 = 0u64;
break 'b142;
}
'b204: {
if (l18 != 1u32) { break 'b204; }
if (l2 == 0) { break 'b204; }
'b205: {
l4 = load_64(m, l35);
if (load_64(m, l4.wrapping_add(16u64)) != 1u64) { break 'b205; }
l17 = load_64(m, l4.wrapping_add(8u64));
let t124 = load_64(m, l17);
l17 = l17.wrapping_add(32u64);
l19 = load_64(m, l17);
if (load_64(m, l7.wrapping_add(1264u64)) != t124.wrapping_add(l19)) { break 'b205; }
store_64(m, l17, l19.wrapping_add((l2 << 4)));
}
l2 = l4.wrapping_add(24u64);
let t125 = load_64(m, l2).wrapping_add(0xffffffffffffffffu64);
store_64(m, l2, t125);
}
'b206: {
if ((l30 & 255u32) != 1u32) { break 'b206; }
l4 = load_64(m, l7.wrapping_add(648u64));
if (l4 == 0) { break 'b206; }
'b207: {
l2 = load_64(m, load_64(m, l7.wrapping_add(656u64)));
if (load_64(m, l2.wrapping_add(16u64)) != 1u64) { break 'b207; }
l17 = load_64(m, l2.wrapping_add(8u64));
let t126 = load_64(m, l17);
l17 = l17.wrapping_add(32u64);
l19 = load_64(m, l17);
if (l29 != t126.wrapping_add(l19)) { break 'b207; }
store_64(m, l17, l19.wrapping_add((l4 << 1)));
}
l2 = l2.wrapping_add(24u64);
let t127 = load_64(m, l2).wrapping_add(0xffffffffffffffffu64);
store_64(m, l2, t127);
}
l12 = 0u32;
fill(m, l7.wrapping_add(1048u64), 0u32 as u8, 128u64);
l4 = 0u64;
l2 = 0u64;
break 'b142;
}
'b208: {
if ((l18 & 255u32) != 1u32) { break 'b208; }
l4 = load_64(m, l7.wrapping_add(1280u64));
if (l4 == 0) { break 'b208; }
'b209: {
l2 = load_64(m, load_64(m, l7.wrapping_add(1288u64)));
if (load_64(m, l2.wrapping_add(16u64)) != 1u64) { break 'b209; }
l17 = load_64(m, l2.wrapping_add(8u64));
let t128 = load_64(m, l17);
l17 = l17.wrapping_add(32u64);
l19 = load_64(m, l17);
if (load_64(m, l7.wrapping_add(1264u64)) != t128.wrapping_add(l19)) { break 'b209; }
store_64(m, l17, l19.wrapping_add((l4 << 4)));
}
l2 = l2.wrapping_add(24u64);
let t129 = load_64(m, l2).wrapping_add(0xffffffffffffffffu64);
store_64(m, l2, t129);
}
'b210: {
if ((l30 & 255u32) != 1u32) { break 'b210; }
l4 = load_64(m, l7.wrapping_add(648u64));
if (l4 == 0) { break 'b210; }
'b211: {
l2 = load_64(m, load_64(m, l7.wrapping_add(656u64)));
if (load_64(m, l2.wrapping_add(16u64)) != 1u64) { break 'b211; }
l17 = load_64(m, l2.wrapping_add(8u64));
let t130 = load_64(m, l17);
l17 = l17.wrapping_add(32u64);
l19 = load_64(m, l17);
if (l29 != t130.wrapping_add(l19)) { break 'b211; }
store_64(m, l17, l19.wrapping_add((l4 << 1)));
}
l2 = l2.wrapping_add(24u64);
let t131 = load_64(m, l2).wrapping_add(0xffffffffffffffffu64);
store_64(m, l2, t131);
}
fill(m, l7.wrapping_add(1048u64), 0u32 as u8, 128u64);
l4 = 0u64;
l12 = 1u32;
l2 = 0u64;
}
'b212: {
if ((l40 & 255u32) != 1u32) { break 'b212; }
l19 = load_64(m, l7.wrapping_add(992u64));
if (l19 == 0) { break 'b212; }
'b213: {
l17 = load_64(m, load_64(m, l7.wrapping_add(1000u64)));
if (load_64(m, l17.wrapping_add(16u64)) != 1u64) { break 'b213; }
l20 = load_64(m, l17.wrapping_add(8u64));
let t132 = load_64(m, l20);
l20 = l20.wrapping_add(32u64);
l15 = load_64(m, l20);
if (l39 != t132.wrapping_add(l15)) { break 'b213; }
store_64(m, l20, l15.wrapping_add((l19 << 3)));
}
l17 = l17.wrapping_add(24u64);
let t133 = load_64(m, l17).wrapping_add(0xffffffffffffffffu64);
store_64(m, l17, t133);
}
copy(m, l7.wrapping_add(424u64), l7.wrapping_add(1048u64), 128u64);
}
'b214: {
if ((l38 & 255u32) != 1u32) { break 'b214; }
f69(m, g, l27);
}
'b215: {
if ((load_8(m, l7.wrapping_add(384u64)) as u32) != 1u32) { break 'b215; }
let t134 = load_64(m, l7.wrapping_add(416u64));
store_64(m, l7.wrapping_add(24u64), t134);
let t135 = load_64(m, l7.wrapping_add(408u64));
store_64(m, l7.wrapping_add(16u64), t135);
let t136 = load_64(m, l7.wrapping_add(400u64));
store_64(m, l7.wrapping_add(8u64), t136);
let t137 = load_64(m, l7.wrapping_add(392u64));
store_64(m, l7, t137);
f60(m, g, l7);
}
store_8(m, l0, l12 as u8);
store_64(m, l0.wrapping_add(16u64), l2);
store_64(m, l0.wrapping_add(8u64), l4);
copy(m, l0.wrapping_add(24u64), l7.wrapping_add(424u64), 128u64);
}
g = l7.wrapping_add(1392u64);
}

// bech32_lookup::division::row_equals::<#ec7dd70f91e8cde7>
fn f65(m: &mut [u8], mut g: u64, mut l0: u64, mut l1: u64, mut l2: u64) -> u32 {
let mut l3: u32 = 0;
let mut l4: u32 = 0;
{
l3 = 0u32;
'b2: {
l4 = (l0 as u32);
if ((l4 & 31u32) != (load_8(m, l2) as u32)) { break 'b2; }
if (((l4 >> 5) & 31u32) != (load_8(m, l2.wrapping_add(1u64)) as u32)) { break 'b2; }
if (((l4 >> 10) & 31u32) != (load_8(m, l2.wrapping_add(2u64)) as u32)) { break 'b2; }
if (((l4 >> 15) & 31u32) != (load_8(m, l2.wrapping_add(3u64)) as u32)) { break 'b2; }
if (((l4 >> 20) & 31u32) != (load_8(m, l2.wrapping_add(4u64)) as u32)) { break 'b2; }
if (((l4 >> 25) & 31u32) != (load_8(m, l2.wrapping_add(5u64)) as u32)) { break 'b2; }
if ((((l0 >> 30) as u32) & 31u32) != (load_8(m, l2.wrapping_add(6u64)) as u32)) { break 'b2; }
if ((((l0 >> 35) as u32) & 31u32) != (load_8(m, l2.wrapping_add(7u64)) as u32)) { break 'b2; }
if ((((l0 >> 40) as u32) & 31u32) != (load_8(m, l2.wrapping_add(8u64)) as u32)) { break 'b2; }
if ((((l0 >> 45) as u32) & 31u32) != (load_8(m, l2.wrapping_add(9u64)) as u32)) { break 'b2; }
if ((((l0 >> 50) as u32) & 31u32) != (load_8(m, l2.wrapping_add(10u64)) as u32)) { break 'b2; }
if ((((l0 >> 55) as u32) & 31u32) != (load_8(m, l2.wrapping_add(11u64)) as u32)) { break 'b2; }
if (((((l0 >> 60) | (l1 << 4)) as u32) & 31u32) != (load_8(m, l2.wrapping_add(12u64)) as u32)) { break 'b2; }
l4 = (l1 as u32);
if (((l4 >> 1) & 31u32) != (load_8(m, l2.wrapping_add(13u64)) as u32)) { break 'b2; }
if (((l4 >> 6) & 31u32) != (load_8(m, l2.wrapping_add(14u64)) as u32)) { break 'b2; }
if (((l4 >> 11) & 31u32) != (load_8(m, l2.wrapping_add(15u64)) as u32)) { break 'b2; }
if (((l4 >> 16) & 31u32) != (load_8(m, l2.wrapping_add(16u64)) as u32)) { break 'b2; }
if (((l4 >> 21) & 31u32) != (load_8(m, l2.wrapping_add(17u64)) as u32)) { break 'b2; }
if (((l4 >> 26) & 31u32) != (load_8(m, l2.wrapping_add(18u64)) as u32)) { break 'b2; }
if ((((l1 >> 31) as u32) & 31u32) != (load_8(m, l2.wrapping_add(19u64)) as u32)) { break 'b2; }
if ((((l1 >> 36) as u32) & 31u32) != (load_8(m, l2.wrapping_add(20u64)) as u32)) { break 'b2; }
if ((((l1 >> 41) as u32) & 31u32) != (load_8(m, l2.wrapping_add(21u64)) as u32)) { break 'b2; }
if ((((l1 >> 46) as u32) & 31u32) != (load_8(m, l2.wrapping_add(22u64)) as u32)) { break 'b2; }
if ((((l1 >> 51) as u32) & 31u32) != (load_8(m, l2.wrapping_add(23u64)) as u32)) { break 'b2; }
l3 = (((((l1 >> 56) as u32) & 31u32) == (load_8(m, l2.wrapping_add(24u64)) as u32)) as u32);
}
return l3;
}
}

// bech32_bch::terms::without_terms::<#cdbe8c79ff78e559>
fn f66(m: &mut [u8], mut g: u64, mut l0: u64, mut l1: u64, mut l2: u64, mut l3: u64, mut l4: u64, mut l5: u64) {
let mut l6: u64 = 0;
let mut l7: u64 = 0;
let mut l8: u64 = 0;
let mut l9: u32 = 0;
let mut l10: u32 = 0;
let mut l11: u32 = 0;
let mut l12: u64 = 0;
let mut l13: u64 = 0;
let mut l14: u64 = 0;
let mut l15: u32 = 0;
let mut l16: u64 = 0;
let mut l17: u64 = 0;
let mut l18: u32 = 0;
let mut l19: u32 = 0;
let mut l20: u32 = 0;
let mut l21: u32 = 0;
let mut l22: u32 = 0;
l6 = g.wrapping_sub(96u64);
g = l6;
'b1: {
{
l7 = l6;
store_64(m, l7.wrapping_add(48u64), 0u64);
store_64(m, l7.wrapping_add(40u64), 0u64);
store_64(m, l7.wrapping_add(32u64), 0u64);
store_64(m, l7.wrapping_add(24u64), 0u64);
store_64(m, l7.wrapping_add(16u64), 0u64);
store_64(m, l7.wrapping_add(8u64), 0u64);
f68(m, g, l7.wrapping_add(8u64), l1, l2, l3);
'b3: {
if ((load_8(m, l7.wrapping_add(8u64)) as u32) != 0) { break 'b3; }
l6 = (load_8(m, l7.wrapping_add(16u64)) as u64);
store_64(m, l7.wrapping_add(56u64), l6);
let t1 = load_64(m, l7.wrapping_add(24u64));
store_64(m, l7.wrapping_add(64u64), t1);
let t2 = load_64(m, l7.wrapping_add(32u64));
store_64(m, l7.wrapping_add(72u64), t2);
let t3 = load_64(m, l7.wrapping_add(40u64));
store_64(m, l7.wrapping_add(80u64), t3);
let t4 = load_64(m, l7.wrapping_add(48u64));
store_64(m, l7.wrapping_add(88u64), t4);
l8 = l7.wrapping_add(56u64).wrapping_add(8u64);
'b4: {
if (l5 == 0) { break 'b4; }
'b5: loop {
l5 = l5.wrapping_add(0xffffffffffffffffu64);
'b6: {
l6 = load_64(m, l7.wrapping_add(56u64).wrapping_add((if ((load_8(m, l7.wrapping_add(56u64)) as u32) != 0) { 16u64 } else { 24u64 })));
if (l6 < 2u64) { break 'b6; }
l3 = 1u64;
l9 = (load_16(m, l4.wrapping_add((l5 << 1))) as u32);
l10 = (l9 >> 8);
l11 = (l10 ^ l9);
l12 = ((l11 as u64) & 255u64);
l2 = l6.wrapping_add(0xffffffffffffffffu64);
l13 = ((l9 as u64) & 255u64);
l14 = (l10 as u64);
l6 = 0u64;
'b7: loop {
'b8: {
'b9: {
l15 = (load_8(m, l7.wrapping_add(56u64)) as u32);
if (l15 != 0) { break 'b9; }
l1 = l7.wrapping_add(56u64).wrapping_add(l6).wrapping_add(8u64);
l16 = l6;
l17 = l8;
break 'b8;
}
l17 = load_64(m, l7.wrapping_add(64u64));
l16 = (l3 << 1).wrapping_add(0xfffffffffffffffeu64);
l1 = l17.wrapping_add(l16);
}
l18 = (load_16(m, l1) as u32);
l19 = (load_16(m, l17.wrapping_add(l6).wrapping_add(2u64)) as u32);
l20 = 0u32;
'b10: {
if ((l9 & 255u32) == 0) { break 'b10; }
if ((l18 & 255u32) == 0) { break 'b10; }
l20 = (load_8_constant(m, ((((load_8_constant(m, ((l18 as u64) & 255u64).wrapping_add(0x100000082u64)) as u32).wrapping_add((load_8_constant(m, l13.wrapping_add(0x100000082u64)) as u32)) & 255u32) % 31u32) as u64).wrapping_add(0x1000000a2u64)) as u32);
}
l21 = (l18 >> 8);
l22 = l20;
'b11: {
if (l10 == 0) { break 'b11; }
l22 = l20;
if (l21 == 0) { break 'b11; }
l22 = ((load_8_constant(m, ((((load_8_constant(m, (l21 as u64).wrapping_add(0x100000082u64)) as u32).wrapping_add((load_8_constant(m, l14.wrapping_add(0x100000082u64)) as u32)) & 255u32) % 31u32) as u64).wrapping_add(0x1000000a2u64)) as u32) ^ l20);
}
'b12: {
if ((l11 & 255u32) == 0) { break 'b12; }
l18 = (l21 ^ l18);
if ((l18 & 255u32) == 0) { break 'b12; }
l20 = ((load_8_constant(m, ((((load_8_constant(m, ((l18 as u64) & 255u64).wrapping_add(0x100000082u64)) as u32).wrapping_add((load_8_constant(m, l12.wrapping_add(0x100000082u64)) as u32)) & 255u32) % 31u32) as u64).wrapping_add(0x1000000a2u64)) as u32) ^ l20);
}
let t5 = (if (l15 != 0) { load_64(m, l7.wrapping_add(64u64)) } else { l8 }).wrapping_add(l16);
store_16(m, t5, (((l20 << 8) | (l22 & 255u32)) ^ l19) as u16);
l6 = l6.wrapping_add(2u64);
l3 = l3.wrapping_add(1u64);
l2 = l2.wrapping_add(0xffffffffffffffffu64);
if (l2 != 0u64) { continue 'b7; }
break 'b7;
}
}
if (l5 != 0u64) { continue 'b5; }
break 'b5;
}
l6 = (load_8(m, l7.wrapping_add(56u64)) as u64);
}
store_8(m, l0, 0u32 as u8);
store_64(m, l0.wrapping_add(8u64), l6);
let t6 = load_64(m, l8);
store_64(m, l0.wrapping_add(16u64), t6);
let t7 = load_64(m, l8.wrapping_add(8u64));
store_64(m, l0.wrapping_add(24u64), t7);
let t8 = load_64(m, l8.wrapping_add(16u64));
store_64(m, l0.wrapping_add(32u64), t8);
let t9 = load_64(m, l8.wrapping_add(24u64));
store_64(m, l0.wrapping_add(40u64), t9);
break 'b1;
}
store_8(m, l0, 1u32 as u8);
store_64(m, l0.wrapping_add(8u64), 0u64);
store_64(m, l0.wrapping_add(16u64), 0u64);
store_64(m, l0.wrapping_add(24u64), 0u64);
store_64(m, l0.wrapping_add(32u64), 0u64);
store_64(m, l0.wrapping_add(40u64), 0u64);
break 'b1;
}
}
g = l7.wrapping_add(96u64);
}

// bech32_gf_ext::fe1024::Fe1024OperationsArithmetic::inverse
fn f67(m: &mut [u8], mut g: u64, mut l0: u64, mut l1: u32) {
let mut l2: u32 = 0;
let mut l3: u64 = 0;
let mut l4: u32 = 0;
let mut l5: u32 = 0;
let mut l6: u32 = 0;
{
l2 = ((l1 >> 8) & 255u32);
l3 = (l2 as u64);
'b2: {
'b3: {
'b4: {
if ((l1 & 255u32) != 0) { break 'b4; }
'b5: {
if (l2 != 0) { break 'b5; }
l4 = 0u32;
break 'b2;
}
l5 = (load_8_constant(m, l3.wrapping_add(0x100000082u64)) as u32);
l4 = 0u32;
break 'b3;
}
l6 = (load_8_constant(m, ((l1 as u64) & 255u64).wrapping_add(0x100000082u64)) as u32);
l4 = (load_8_constant(m, ((((l6 << 1) & 254u32) % 31u32) as u64).wrapping_add(0x1000000a2u64)) as u32);
if (l2 == 0) { break 'b2; }
l5 = (load_8_constant(m, l3.wrapping_add(0x100000082u64)) as u32);
l4 = ((load_8_constant(m, (((l5.wrapping_add(l6) & 255u32) % 31u32) as u64).wrapping_add(0x1000000a2u64)) as u32) ^ l4);
}
l4 = ((load_8_constant(m, ((((l5 << 1) & 254u32) % 31u32) as u64).wrapping_add(0x1000000a2u64)) as u32) ^ l4);
}
l5 = 0u32;
l6 = 0u32;
'b6: {
l1 = (l2 ^ l1);
if ((l1 & 255u32) == 0) { break 'b6; }
l6 = (load_8_constant(m, ((((load_8_constant(m, ((l1 as u64) & 255u64).wrapping_add(0x100000082u64)) as u32).wrapping_sub((load_8_constant(m, ((l4 as u64) & 255u64).wrapping_add(0x100000082u64)) as u32)).wrapping_add(31u32) & 255u32) % 31u32) as u64).wrapping_add(0x1000000a2u64)) as u32);
}
'b7: {
if (l2 == 0) { break 'b7; }
l5 = (load_8_constant(m, ((((load_8_constant(m, l3.wrapping_add(0x100000082u64)) as u32).wrapping_sub((load_8_constant(m, ((l4 as u64) & 255u64).wrapping_add(0x100000082u64)) as u32)).wrapping_add(31u32) & 255u32) % 31u32) as u64).wrapping_add(0x1000000a2u64)) as u32);
}
store_16(m, l0, ((l5 << 8) | (l6 & 255u32)) as u16);
return;
}
}

// bech32_poly::fieldvec::FieldVec::from_slice::<#02192599d267ef98>
fn f68(m: &mut [u8], mut g: u64, mut l0: u64, mut l1: u64, mut l2: u64, mut l3: u64) {
let mut l4: u64 = 0;
let mut l5: u64 = 0;
let mut l6: u32 = 0;
let mut l7: u32 = 0;
let mut l8: u32 = 0;
l4 = g.wrapping_sub(48u64);
g = l4;
{
l5 = 0u64;
store_64(m, l4.wrapping_add(32u64), 0u64);
store_64(m, l4.wrapping_add(24u64), 0u64);
store_64(m, l4.wrapping_add(16u64), 0u64);
store_64(m, l4.wrapping_add(8u64), 0u64);
store_64(m, l4.wrapping_add(40u64), l1);
l1 = l4.wrapping_add(8u64).wrapping_add(8u64);
'b2: {
'b3: {
'b4: {
if (l3 == 0) { break 'b4; }
'b5: loop {
l6 = (load_16(m, l2) as u32);
'b6: {
l5 = load_64(m, l4.wrapping_add(32u64));
l7 = (load_8(m, l4.wrapping_add(8u64)) as u32);
if ((if (l7 != 0) { load_64(m, l4.wrapping_add(24u64)) } else { l5 }) != (if (l7 != 0) { l5 } else { 7u64 })) { break 'b6; }
let t1 = f57(m, g, l4.wrapping_add(8u64));
l8 = t1;
l7 = (load_8(m, l4.wrapping_add(8u64)) as u32);
if ((l8 & 255u32) != 0) { break 'b3; }
}
'b7: {
'b8: {
if ((l7 & 255u32) != 0) { break 'b8; }
l5 = load_64(m, l4.wrapping_add(32u64));
store_16(m, l1.wrapping_add((l5 << 1)), l6 as u16);
store_64(m, l4.wrapping_add(32u64), l5.wrapping_add(1u64));
break 'b7;
}
l5 = load_64(m, l4.wrapping_add(24u64));
let t2 = load_64(m, l4.wrapping_add(16u64)).wrapping_add((l5 << 1));
store_16(m, t2, l6 as u16);
store_64(m, l4.wrapping_add(24u64), l5.wrapping_add(1u64));
}
l2 = l2.wrapping_add(2u64);
l3 = l3.wrapping_add(0xffffffffffffffffu64);
if !(l3 == 0) { continue 'b5; }
break 'b5;
}
l5 = (load_8(m, l4.wrapping_add(8u64)) as u64);
}
store_8(m, l0, 0u32 as u8);
store_64(m, l0.wrapping_add(8u64), l5);
let t3 = load_64(m, l1);
store_64(m, l0.wrapping_add(16u64), t3);
let t4 = load_64(m, l1.wrapping_add(8u64));
store_64(m, l0.wrapping_add(24u64), t4);
let t5 = load_64(m, l1.wrapping_add(16u64));
store_64(m, l0.wrapping_add(32u64), t5);
let t6 = load_64(m, l1.wrapping_add(24u64));
store_64(m, l0.wrapping_add(40u64), t6);
break 'b2;
}
'b9: {
if ((l7 & 255u32) != 1u32) { break 'b9; }
l3 = load_64(m, l4.wrapping_add(32u64));
if (l3 == 0) { break 'b9; }
'b10: {
l2 = load_64(m, load_64(m, l4.wrapping_add(40u64)));
if (load_64(m, l2.wrapping_add(16u64)) != 1u64) { break 'b10; }
l5 = load_64(m, l2.wrapping_add(8u64));
let t7 = load_64(m, l5);
l5 = l5.wrapping_add(32u64);
l1 = load_64(m, l5);
if (load_64(m, l4.wrapping_add(16u64)) != t7.wrapping_add(l1)) { break 'b10; }
store_64(m, l5, l1.wrapping_add((l3 << 1)));
}
l2 = l2.wrapping_add(24u64);
let t8 = load_64(m, l2).wrapping_add(0xffffffffffffffffu64);
store_64(m, l2, t8);
}
store_8(m, l0, 1u32 as u8);
store_64(m, l0.wrapping_add(8u64), 0u64);
store_64(m, l0.wrapping_add(16u64), 0u64);
store_64(m, l0.wrapping_add(24u64), 0u64);
store_64(m, l0.wrapping_add(32u64), 0u64);
store_64(m, l0.wrapping_add(40u64), 0u64);
}
g = l4.wrapping_add(48u64);
return;
}
}

// std_alloc::vec::Vec::drop::<#04234d016ef95f59>
fn f69(m: &mut [u8], mut g: u64, mut l0: u64) {
let mut l1: u64 = 0;
let mut l2: u64 = 0;
let mut l3: u64 = 0;
{
'b2: {
l1 = load_64(m, l0.wrapping_add(16u64));
if (l1 == 0) { break 'b2; }
'b3: {
l2 = load_64(m, load_64(m, l0.wrapping_add(24u64)));
if (load_64(m, l2.wrapping_add(16u64)) != 1u64) { break 'b3; }
let t1 = load_64(m, l0);
l0 = load_64(m, l2.wrapping_add(8u64));
let t2 = load_64(m, l0);
l0 = l0.wrapping_add(32u64);
l3 = load_64(m, l0);
if (t1 != t2.wrapping_add(l3)) { break 'b3; }
store_64(m, l0, l3.wrapping_add((l1 << 3)));
}
l0 = l2.wrapping_add(24u64);
let t3 = load_64(m, l0).wrapping_add(0xffffffffffffffffu64);
store_64(m, l0, t3);
}
return;
}
}

// codex32::splitting::are_equal
fn f70(m: &mut [u8], mut g: u64, mut l0: u64, mut l1: u64) -> u32 {
let mut l2: u32 = 0;
let mut l3: u64 = 0;
let mut l4: u32 = 0;
let mut l5: u64 = 0;
let mut l6: u64 = 0;
let mut l7: u32 = 0;
'b1: {
'b2: {
'b3: {
{
l2 = 0u32;
if (l1 < 2u64) { break 'b1; }
l3 = (l1 & 3u64);
l4 = (load_8(m, l0) as u32);
'b5: {
if (l1 >= 4u64) { break 'b5; }
l5 = 0u64;
l2 = 1u32;
break 'b2;
}
l6 = (l1 & 0xfffffffffffffffcu64);
l5 = 0u64;
l2 = 1u32;
'b6: loop {
l1 = l0.wrapping_add(l5);
l7 = (l4 & 255u32);
l2 = ((((l2 & (((load_8(m, l1) as u32) == l7) as u32)) & (((load_8(m, l1.wrapping_add(1u64)) as u32) == l7) as u32)) & (((load_8(m, l1.wrapping_add(2u64)) as u32) == l7) as u32)) & (((load_8(m, l1.wrapping_add(3u64)) as u32) == l7) as u32));
l5 = l5.wrapping_add(4u64);
if (l6 != l5) { continue 'b6; }
break 'b3;
}
}
}
if (l3 == 0) { break 'b1; }
}
l1 = l0.wrapping_add(l5);
'b7: loop {
l2 = (l2 & (((load_8(m, l1) as u32) == (l4 & 255u32)) as u32));
l1 = l1.wrapping_add(1u64);
l3 = l3.wrapping_add(0xffffffffffffffffu64);
if (l3 != 0u64) { continue 'b7; }
break 'b7;
}
}
return l2;
}

// codex32_derive
fn of_codex32_derive(m: &mut [u8], mut g: u64, mut l0: u32, mut l1: u64, mut l2: u64, mut l3: u64, mut l4: u64, mut l5: u64, mut l6: u64, mut l7: u64) -> u32 {
'b1: {
if (0u32 == 0) { break 'b1; }
trap();
trap();
}
let t1 = f72(m, g, l0, l1, l2, l3, l4, l5, l6, l7);
l0 = t1;
return l0;
}

// rattle::export codex32_derive
fn f72(m: &mut [u8], mut g: u64, mut l0: u32, mut l1: u64, mut l2: u64, mut l3: u64, mut l4: u64, mut l5: u64, mut l6: u64, mut l7: u64) -> u32 {
let mut l8: u64 = 0;
l8 = g.wrapping_sub(384u64);
g = l8;
{
fill(m, l8.wrapping_add(64u64), 0u32 as u8, 72u64);
fill(m, l8.wrapping_add(168u64), 0u32 as u8, 80u64);
fill(m, l8.wrapping_add(257u64), 0u32 as u8, 127u64);
store_64(m, l8.wrapping_add(160u64), l4);
store_64(m, l8.wrapping_add(152u64), l3.wrapping_add((if (l3 == 0) { 4096u64 } else { 0u64 })));
store_64(m, l8.wrapping_add(144u64), l2);
store_64(m, l8.wrapping_add(136u64), l1.wrapping_add((if (l1 == 0) { 4096u64 } else { 0u64 })));
f5(m, g, l8.wrapping_add(168u64), l8.wrapping_add(257u64), l0, l8.wrapping_add(136u64));
l3 = load_64(m, l8.wrapping_add(176u64));
'b2: {
'b3: {
'b4: {
if ((load_8(m, l8.wrapping_add(168u64)) as u32) != 0) { break 'b4; }
'b5: {
if (l6 >= l3) { break 'b5; }
l0 = 0u32;
store_16(m, l8.wrapping_add(56u64), 0u32 as u16);
l1 = 0u64;
store_64(m, l8.wrapping_add(48u64), 0u64);
store_64(m, l8.wrapping_add(40u64), 0u64);
store_64(m, l8.wrapping_add(32u64), 0u64);
store_64(m, l8.wrapping_add(24u64), 0u64);
store_64(m, l8.wrapping_add(16u64), 0u64);
store_64(m, l8.wrapping_add(8u64), 0u64);
l3 = 11u64;
break 'b3;
}
'b6: {
if (l3 == 0) { break 'b6; }
copy(m, l5.wrapping_add((if (l5 == 0) { 4096u64 } else { 0u64 })), l8.wrapping_add(257u64), l3);
}
store_64(m, l7, l3);
l0 = 0u32;
break 'b2;
}
let t1 = load_64(m, l8.wrapping_add(193u64));
store_64(m, l8.wrapping_add(8u64), t1);
let t2 = load_64(m, l8.wrapping_add(201u64));
store_64(m, l8.wrapping_add(16u64), t2);
let t3 = load_64(m, l8.wrapping_add(209u64));
store_64(m, l8.wrapping_add(24u64), t3);
let t4 = load_64(m, l8.wrapping_add(217u64));
store_64(m, l8.wrapping_add(32u64), t4);
let t5 = load_64(m, l8.wrapping_add(225u64));
store_64(m, l8.wrapping_add(40u64), t5);
let t6 = load_64(m, l8.wrapping_add(233u64));
store_64(m, l8.wrapping_add(48u64), t6);
let t7 = (load_16(m, l8.wrapping_add(241u64)) as u32);
store_16(m, l8.wrapping_add(56u64), t7 as u16);
l1 = (load_8(m, l8.wrapping_add(184u64)) as u64);
l0 = (load_8(m, l8.wrapping_add(192u64)) as u32);
}
store_8(m, l8.wrapping_add(80u64), l0 as u8);
store_64(m, l8.wrapping_add(72u64), l1);
let t8 = load_64(m, l8.wrapping_add(8u64));
store_64(m, l8.wrapping_add(81u64), t8);
let t9 = load_64(m, l8.wrapping_add(16u64));
store_64(m, l8.wrapping_add(89u64), t9);
let t10 = load_64(m, l8.wrapping_add(24u64));
store_64(m, l8.wrapping_add(97u64), t10);
let t11 = load_64(m, l8.wrapping_add(32u64));
store_64(m, l8.wrapping_add(105u64), t11);
let t12 = load_64(m, l8.wrapping_add(40u64));
store_64(m, l8.wrapping_add(113u64), t12);
let t13 = load_64(m, l8.wrapping_add(48u64));
store_64(m, l8.wrapping_add(121u64), t13);
let t14 = (load_16(m, l8.wrapping_add(56u64)) as u32);
store_16(m, l8.wrapping_add(129u64), t14 as u16);
store_8(m, l8.wrapping_add(64u64), l3 as u8);
store_8(m, l8.wrapping_add(65u64), (l3 >> 8) as u8);
let t15 = f30(m, g, l8.wrapping_add(64u64));
l0 = t15;
}
g = l8.wrapping_add(384u64);
return l0;
}
}

// codex32_encode
fn of_codex32_encode(m: &mut [u8], mut g: u64, mut l0: u32, mut l1: u64, mut l2: u64, mut l3: u32, mut l4: u64, mut l5: u64, mut l6: u64, mut l7: u64, mut l8: u64) -> u32 {
'b1: {
if (0u32 == 0) { break 'b1; }
trap();
trap();
}
let t1 = f74(m, g, l0, l1, l2, l3, l4, l5, l6, l7, l8);
l3 = t1;
return l3;
}

// rattle::export codex32_encode
fn f74(m: &mut [u8], mut g: u64, mut l0: u32, mut l1: u64, mut l2: u64, mut l3: u32, mut l4: u64, mut l5: u64, mut l6: u64, mut l7: u64, mut l8: u64) -> u32 {
let mut l9: u64 = 0;
let mut l10: u64 = 0;
let mut l11: u32 = 0;
let mut l12: u32 = 0;
l9 = g.wrapping_sub(400u64);
g = l9;
'b1: {
'b2: {
'b3: {
{
fill(m, l9.wrapping_add(64u64), 0u32 as u8, 72u64);
store_16(m, l9.wrapping_add(56u64), 0u32 as u16);
store_64(m, l9.wrapping_add(48u64), 0u64);
store_64(m, l9.wrapping_add(40u64), 0u64);
store_64(m, l9.wrapping_add(32u64), 0u64);
store_64(m, l9.wrapping_add(24u64), 0u64);
store_64(m, l9.wrapping_add(16u64), 0u64);
store_64(m, l9.wrapping_add(8u64), 0u64);
store_32(m, l9.wrapping_add(143u64), 0u32);
store_32(m, l9.wrapping_add(140u64), 0u32);
f31(m, g, l9.wrapping_add(140u64), l0, l1.wrapping_add((if (l1 == 0) { 4096u64 } else { 0u64 })), l2, l3);
l3 = (load_8(m, l9.wrapping_add(141u64)) as u32);
'b5: {
if ((load_8(m, l9.wrapping_add(140u64)) as u32) != 0) { break 'b5; }
store_8(m, l9.wrapping_add(275u64), l3 as u8);
let t1 = load_32(m, l9.wrapping_add(142u64));
store_32(m, l9.wrapping_add(276u64), t1);
let t2 = (load_8(m, l9.wrapping_add(146u64)) as u32);
store_8(m, l9.wrapping_add(280u64), t2 as u8);
fill(m, l9.wrapping_add(148u64), 0u32 as u8, 127u64);
store_64(m, l9.wrapping_add(384u64), 0u64);
store_64(m, l9.wrapping_add(392u64), 0u64);
'b6: {
if (l5 < 65u64) { break 'b6; }
l3 = 0u32;
break 'b3;
}
l10 = l6.wrapping_add((if (l6 == 0) { 4096u64 } else { 0u64 }));
l6 = l4.wrapping_add((if (l4 == 0) { 4096u64 } else { 0u64 }));
l11 = 0u32;
fill(m, l9.wrapping_add(281u64), 0u32 as u8, 103u64);
l1 = l9.wrapping_add(281u64);
l2 = l5;
l12 = 0u32;
l3 = 0u32;
'b7: {
'b8: loop {
'b9: {
'b10: {
if ((l3 & 255u32) < 5u32) { break 'b10; }
l3 = l3.wrapping_add(0xfffffffbu32);
l0 = (((l11 & 255u32) >> ((l3 & 255u32) & 31)) & 31u32);
break 'b9;
}
'b11: {
if (((l12 | ((l2 == 0) as u32)) & 1u32) != 0) { break 'b11; }
let t3 = (l11 << 8);
l11 = (load_8(m, l6) as u32);
l3 = l3.wrapping_add(3u32);
l0 = ((((t3 | l11) & 65535u32) >> ((l3 & 255u32) & 31)) & 31u32);
l2 = l2.wrapping_add(0xffffffffffffffffu64);
l6 = l6.wrapping_add(1u64);
l12 = 0u32;
break 'b9;
}
if ((l3 & 255u32) == 0) { break 'b7; }
l0 = ((l11 << ((5u32.wrapping_sub(l3) & 255u32) & 31)) & 30u32);
l3 = 0u32;
l12 = 1u32;
}
store_8(m, l1, l0 as u8);
l1 = l1.wrapping_add(1u64);
continue 'b8;
}
}
f32(m, g, l9.wrapping_add(384u64), l9.wrapping_add(148u64), l9.wrapping_add(275u64), l9.wrapping_add(281u64), ((((((l5 as u32) << 3) | 4u32) & 65532u32) / 5u32) as u64));
'b12: {
if ((load_8(m, l9.wrapping_add(384u64)) as u32) == 0) { break 'b12; }
l3 = (load_8(m, l9.wrapping_add(385u64)) as u32);
break 'b3;
}
'b13: {
l1 = load_64(m, l9.wrapping_add(392u64));
if (l7 >= l1) { break 'b13; }
l3 = 0u32;
store_16(m, l9.wrapping_add(56u64), 0u32 as u16);
store_64(m, l9.wrapping_add(48u64), 0u64);
store_64(m, l9.wrapping_add(40u64), 0u64);
store_64(m, l9.wrapping_add(32u64), 0u64);
store_64(m, l9.wrapping_add(24u64), 0u64);
store_64(m, l9.wrapping_add(16u64), 0u64);
store_64(m, l9.wrapping_add(8u64), 0u64);
l0 = 11u32;
break 'b2;
}
'b14: {
if (l1 == 0) { break 'b14; }
copy(m, l10, l9.wrapping_add(148u64), l1);
}
store_64(m, l8, l1);
l3 = 0u32;
break 'b1;
}
store_16(m, l9.wrapping_add(56u64), 0u32 as u16);
store_64(m, l9.wrapping_add(48u64), 0u64);
store_64(m, l9.wrapping_add(40u64), 0u64);
store_64(m, l9.wrapping_add(32u64), 0u64);
store_64(m, l9.wrapping_add(24u64), 0u64);
store_64(m, l9.wrapping_add(16u64), 0u64);
store_64(m, l9.wrapping_add(8u64), 0u64);
l0 = 5u32;
break 'b2;
}
}
store_16(m, l9.wrapping_add(56u64), 0u32 as u16);
store_64(m, l9.wrapping_add(48u64), 0u64);
store_64(m, l9.wrapping_add(40u64), 0u64);
store_64(m, l9.wrapping_add(32u64), 0u64);
store_64(m, l9.wrapping_add(24u64), 0u64);
store_64(m, l9.wrapping_add(16u64), 0u64);
store_64(m, l9.wrapping_add(8u64), 0u64);
l0 = 7u32;
}
store_8(m, l9.wrapping_add(80u64), 0u32 as u8);
store_64(m, l9.wrapping_add(72u64), 0u64);
store_8(m, l9.wrapping_add(65u64), l3 as u8);
store_8(m, l9.wrapping_add(64u64), l0 as u8);
let t4 = load_64(m, l9.wrapping_add(8u64));
store_64(m, l9.wrapping_add(81u64), t4);
let t5 = load_64(m, l9.wrapping_add(16u64));
store_64(m, l9.wrapping_add(89u64), t5);
let t6 = load_64(m, l9.wrapping_add(24u64));
store_64(m, l9.wrapping_add(97u64), t6);
let t7 = load_64(m, l9.wrapping_add(32u64));
store_64(m, l9.wrapping_add(105u64), t7);
let t8 = load_64(m, l9.wrapping_add(40u64));
store_64(m, l9.wrapping_add(113u64), t8);
let t9 = load_64(m, l9.wrapping_add(48u64));
store_64(m, l9.wrapping_add(121u64), t9);
let t10 = (load_16(m, l9.wrapping_add(56u64)) as u32);
store_16(m, l9.wrapping_add(129u64), t10 as u16);
let t11 = f30(m, g, l9.wrapping_add(64u64));
l3 = t11;
}
g = l9.wrapping_add(400u64);
return l3;
}

// codex32_encode_payload
fn of_codex32_encode_payload(m: &mut [u8], mut g: u64, mut l0: u32, mut l1: u64, mut l2: u64, mut l3: u32, mut l4: u64, mut l5: u64, mut l6: u64, mut l7: u64, mut l8: u64) -> u32 {
'b1: {
if (0u32 == 0) { break 'b1; }
trap();
trap();
}
let t1 = f76(m, g, l0, l1, l2, l3, l4, l5, l6, l7, l8);
l3 = t1;
return l3;
}

// rattle::export codex32_encode_payload
fn f76(m: &mut [u8], mut g: u64, mut l0: u32, mut l1: u64, mut l2: u64, mut l3: u32, mut l4: u64, mut l5: u64, mut l6: u64, mut l7: u64, mut l8: u64) -> u32 {
let mut l9: u64 = 0;
l9 = g.wrapping_sub(400u64);
g = l9;
'b1: {
'b2: {
'b3: {
{
fill(m, l9, 0u32 as u8, 72u64);
store_32(m, l9.wrapping_add(131u64), 0u32);
store_32(m, l9.wrapping_add(128u64), 0u32);
f31(m, g, l9.wrapping_add(128u64), l0, l1.wrapping_add((if (l1 == 0) { 4096u64 } else { 0u64 })), l2, l3);
l3 = (load_8(m, l9.wrapping_add(129u64)) as u32);
'b5: {
if ((load_8(m, l9.wrapping_add(128u64)) as u32) != 0) { break 'b5; }
store_8(m, l9.wrapping_add(275u64), l3 as u8);
let t1 = load_32(m, l9.wrapping_add(130u64));
store_32(m, l9.wrapping_add(276u64), t1);
let t2 = (load_8(m, l9.wrapping_add(134u64)) as u32);
store_8(m, l9.wrapping_add(280u64), t2 as u8);
'b6: {
l1 = l4.wrapping_add((if (l4 == 0) { 4096u64 } else { 0u64 }));
let t3 = f14(m, g, l1, l5);
if (t3 != 0) { break 'b6; }
store_16(m, l9.wrapping_add(120u64), 0u32 as u16);
store_64(m, l9.wrapping_add(112u64), 0u64);
store_64(m, l9.wrapping_add(104u64), 0u64);
store_64(m, l9.wrapping_add(96u64), 0u64);
store_64(m, l9.wrapping_add(88u64), 0u64);
store_64(m, l9.wrapping_add(80u64), 0u64);
store_64(m, l9.wrapping_add(72u64), 0u64);
l0 = 2u32;
break 'b3;
}
'b7: {
let t4 = f15(m, g, l1, l5);
if (t4 == 0) { break 'b7; }
store_16(m, l9.wrapping_add(120u64), 0u32 as u16);
store_64(m, l9.wrapping_add(112u64), 0u64);
store_64(m, l9.wrapping_add(104u64), 0u64);
store_64(m, l9.wrapping_add(96u64), 0u64);
store_64(m, l9.wrapping_add(88u64), 0u64);
store_64(m, l9.wrapping_add(80u64), 0u64);
store_64(m, l9.wrapping_add(72u64), 0u64);
l0 = 3u32;
break 'b3;
}
l3 = 0u32;
fill(m, l9.wrapping_add(137u64), 0u32 as u8, 127u64);
store_64(m, l9.wrapping_add(384u64), 0u64);
store_64(m, l9.wrapping_add(392u64), 0u64);
'b8: {
'b9: {
if (l5 >= 104u64) { break 'b9; }
fill(m, l9.wrapping_add(281u64), 0u32 as u8, 103u64);
'b10: {
if (l5 == 0) { break 'b10; }
l2 = l9.wrapping_add(281u64);
l4 = l5;
'b11: loop {
let t5 = (load_8(m, l1) as u32);
let t6 = f21(m, g, t5);
store_8(m, l2, (t6 & 255u32) as u8);
l1 = l1.wrapping_add(1u64);
l2 = l2.wrapping_add(1u64);
l4 = l4.wrapping_add(0xffffffffffffffffu64);
if (l4 != 0u64) { continue 'b11; }
break 'b11;
}
}
f32(m, g, l9.wrapping_add(384u64), l9.wrapping_add(137u64), l9.wrapping_add(275u64), l9.wrapping_add(281u64), l5);
if ((load_8(m, l9.wrapping_add(384u64)) as u32) == 0) { break 'b8; }
l3 = (load_8(m, l9.wrapping_add(385u64)) as u32);
}
store_16(m, l9.wrapping_add(120u64), 0u32 as u16);
store_64(m, l9.wrapping_add(112u64), 0u64);
store_64(m, l9.wrapping_add(104u64), 0u64);
store_64(m, l9.wrapping_add(96u64), 0u64);
store_64(m, l9.wrapping_add(88u64), 0u64);
store_64(m, l9.wrapping_add(80u64), 0u64);
store_64(m, l9.wrapping_add(72u64), 0u64);
l0 = 7u32;
break 'b2;
}
'b12: {
l1 = load_64(m, l9.wrapping_add(392u64));
if (l7 >= l1) { break 'b12; }
l3 = 0u32;
store_16(m, l9.wrapping_add(120u64), 0u32 as u16);
store_64(m, l9.wrapping_add(112u64), 0u64);
store_64(m, l9.wrapping_add(104u64), 0u64);
store_64(m, l9.wrapping_add(96u64), 0u64);
store_64(m, l9.wrapping_add(88u64), 0u64);
store_64(m, l9.wrapping_add(80u64), 0u64);
store_64(m, l9.wrapping_add(72u64), 0u64);
l0 = 11u32;
break 'b2;
}
'b13: {
if (l1 == 0) { break 'b13; }
copy(m, l6.wrapping_add((if (l6 == 0) { 4096u64 } else { 0u64 })), l9.wrapping_add(137u64), l1);
}
store_64(m, l8, l1);
l3 = 0u32;
break 'b1;
}
store_16(m, l9.wrapping_add(120u64), 0u32 as u16);
store_64(m, l9.wrapping_add(112u64), 0u64);
store_64(m, l9.wrapping_add(104u64), 0u64);
store_64(m, l9.wrapping_add(96u64), 0u64);
store_64(m, l9.wrapping_add(88u64), 0u64);
store_64(m, l9.wrapping_add(80u64), 0u64);
store_64(m, l9.wrapping_add(72u64), 0u64);
l0 = 5u32;
break 'b2;
}
}
l3 = 0u32;
store_8(m, l9.wrapping_add(272u64), 0u32 as u8);
store_64(m, l9.wrapping_add(264u64), 0u64);
}
store_8(m, l9.wrapping_add(16u64), 0u32 as u8);
store_64(m, l9.wrapping_add(8u64), 0u64);
store_8(m, l9.wrapping_add(1u64), l3 as u8);
store_8(m, l9, l0 as u8);
let t7 = load_64(m, l9.wrapping_add(72u64));
store_64(m, l9.wrapping_add(17u64), t7);
let t8 = load_64(m, l9.wrapping_add(80u64));
store_64(m, l9.wrapping_add(25u64), t8);
let t9 = load_64(m, l9.wrapping_add(88u64));
store_64(m, l9.wrapping_add(33u64), t9);
let t10 = load_64(m, l9.wrapping_add(96u64));
store_64(m, l9.wrapping_add(41u64), t10);
let t11 = load_64(m, l9.wrapping_add(104u64));
store_64(m, l9.wrapping_add(49u64), t11);
let t12 = load_64(m, l9.wrapping_add(112u64));
store_64(m, l9.wrapping_add(57u64), t12);
let t13 = (load_16(m, l9.wrapping_add(120u64)) as u32);
store_16(m, l9.wrapping_add(65u64), t13 as u16);
let t14 = f30(m, g, l9);
l3 = t14;
}
g = l9.wrapping_add(400u64);
return l3;
}

// codex32_message
fn of_codex32_message(m: &mut [u8], mut g: u64, mut l0: u32, mut l1: u64, mut l2: u64, mut l3: u64) -> u32 {
'b1: {
if (0u32 == 0) { break 'b1; }
trap();
trap();
}
let t1 = f78(m, g, l0, l1, l2, l3);
l0 = t1;
return l0;
}

// rattle::export codex32_message
fn f78(m: &mut [u8], mut g: u64, mut l0: u32, mut l1: u64, mut l2: u64, mut l3: u64) -> u32 {
let mut l4: u64 = 0;
let mut l5: u64 = 0;
let mut l6: u64 = 0;
let mut l7: u64 = 0;
let mut l8: u64 = 0;
let mut l9: u64 = 0;
{
l4 = 0u64;
l5 = l1.wrapping_add((if (l1 == 0) { 4096u64 } else { 0u64 }));
l6 = 0x1000005c8u64;
l7 = 75u64;
l1 = 0x100000ae0u64;
'b2: {
'b3: {
'b4: {
'b5: {
'b6: {
'b7: {
'b8: {
'b9: {
'b10: {
'b11: {
'b12: {
'b13: {
'b14: {
'b15: {
'b16: {
'b17: {
'b18: {
'b19: {
'b20: {
'b21: {
'b22: {
'b23: {
'b24: {
'b25: {
'b26: {
'b27: {
'b28: {
'b29: {
'b30: {
'b31: {
'b32: {
'b33: {
'b34: {
match l0.wrapping_add(0xfffffffeu32) {
0 => { break 'b7; }
2 => { break 'b6; }
9 => { break 'b18; }
10 => { break 'b17; }
11 => { break 'b16; }
12 => { break 'b15; }
13 => { break 'b14; }
19 => { break 'b13; }
20 => { break 'b12; }
21 => { break 'b11; }
31 => { break 'b10; }
32 => { break 'b34; }
54 => { break 'b33; }
64 => { break 'b32; }
66 => { break 'b31; }
72 => { break 'b30; }
73 => { break 'b29; }
74 => { break 'b28; }
75 => { break 'b27; }
76 => { break 'b26; }
79 => { break 'b25; }
80 => { break 'b24; }
81 => { break 'b23; }
82 => { break 'b22; }
83 => { break 'b21; }
84 => { break 'b20; }
85 => { break 'b19; }
89 => { break 'b9; }
90 => { break 'b8; }
_ => { break 'b5; }
}
}
l6 = 0x100000613u64;
l7 = 24u64;
break 'b6;
}
l6 = 0x10000062bu64;
l7 = 45u64;
break 'b6;
}
l6 = 0x100000658u64;
l7 = 58u64;
break 'b6;
}
l6 = 0x100000692u64;
l7 = 30u64;
break 'b6;
}
l6 = 0x1000006b0u64;
l7 = 41u64;
break 'b6;
}
l6 = 0x1000006d9u64;
l7 = 66u64;
break 'b6;
}
l6 = 0x10000071bu64;
l7 = 25u64;
break 'b6;
}
l6 = 0x100000734u64;
l7 = 32u64;
break 'b6;
}
l6 = 0x100000754u64;
l7 = 58u64;
break 'b6;
}
l6 = 0x10000078eu64;
l7 = 35u64;
break 'b6;
}
l6 = 0x1000007b1u64;
l7 = 63u64;
break 'b6;
}
l6 = 0x1000007f0u64;
l7 = 50u64;
break 'b6;
}
l6 = 0x100000822u64;
l7 = 50u64;
break 'b6;
}
l6 = 0x100000854u64;
l7 = 65u64;
break 'b6;
}
l6 = 0x100000895u64;
l7 = 52u64;
break 'b6;
}
l6 = 0x1000008c9u64;
l7 = 57u64;
break 'b6;
}
l6 = 0x10000092eu64;
l7 = 32u64;
break 'b6;
}
l6 = 0x10000094eu64;
l7 = 46u64;
break 'b6;
}
l6 = 0x10000097cu64;
l7 = 57u64;
break 'b6;
}
l6 = 0x1000009b5u64;
l7 = 61u64;
break 'b6;
}
l6 = 0x1000009f2u64;
l7 = 49u64;
break 'b6;
}
l6 = 0x100000a23u64;
l7 = 52u64;
break 'b6;
}
l6 = 0x100000a57u64;
l7 = 34u64;
break 'b6;
}
l6 = 0x100000a79u64;
l7 = 30u64;
break 'b6;
}
l6 = 0x100000a97u64;
l7 = 21u64;
break 'b6;
}
l6 = 0x100000aacu64;
l7 = 31u64;
break 'b6;
}
l6 = 0x100000acbu64;
l7 = 21u64;
break 'b6;
}
l6 = 0x100000902u64;
l7 = 44u64;
}
l0 = 92u32;
if (l2 < l7) { break 'b2; }
if (l5.wrapping_sub(l6) < l7) { break 'b4; }
l4 = l7;
l1 = l6;
}
if (l4 == 0) { break 'b3; }
copy(m, l5, l1, l4);
break 'b3;
}
l8 = (l7 & 124u64);
l9 = (l7 & 3u64);
l1 = 0u64;
'b35: loop {
l4 = l5.wrapping_add(l1);
l2 = l6.wrapping_add(l1);
let t1 = (load_8(m, l2) as u32);
store_8(m, l4, t1 as u8);
let t2 = (load_8(m, l2.wrapping_add(1u64)) as u32);
store_8(m, l4.wrapping_add(1u64), t2 as u8);
let t3 = (load_8(m, l2.wrapping_add(2u64)) as u32);
store_8(m, l4.wrapping_add(2u64), t3 as u8);
let t4 = (load_8(m, l2.wrapping_add(3u64)) as u32);
store_8(m, l4.wrapping_add(3u64), t4 as u8);
l1 = l1.wrapping_add(4u64);
if (l8 != l1) { continue 'b35; }
break 'b35;
}
'b36: {
if (l9 == 0) { break 'b36; }
l4 = l6.wrapping_add(l1);
l1 = l5.wrapping_add(l1);
'b37: loop {
let t5 = (load_8(m, l4) as u32);
store_8(m, l1, t5 as u8);
l1 = l1.wrapping_add(1u64);
l4 = l4.wrapping_add(1u64);
l9 = l9.wrapping_add(0xffffffffffffffffu64);
if (l9 != 0u64) { continue 'b37; }
break 'b37;
}
}
l4 = l7;
}
store_64(m, l3, l4);
l0 = 0u32;
}
return l0;
}
}

// codex32_parse
fn of_codex32_parse(m: &mut [u8], mut g: u64, mut l0: u64, mut l1: u64, mut l2: u64, mut l3: u64, mut l4: u64) -> u32 {
let mut l5: u32 = 0;
'b1: {
if (0u32 == 0) { break 'b1; }
trap();
trap();
}
let t1 = f80(m, g, l0, l1, l2, l3, l4);
l5 = t1;
return l5;
}

// rattle::export codex32_parse
fn f80(m: &mut [u8], mut g: u64, mut l0: u64, mut l1: u64, mut l2: u64, mut l3: u64, mut l4: u64) -> u32 {
let mut l5: u64 = 0;
let mut l6: u64 = 0;
let mut l7: u64 = 0;
let mut l8: u32 = 0;
let mut l9: u32 = 0;
let mut l10: u32 = 0;
let mut l11: u32 = 0;
l5 = g.wrapping_sub(320u64);
g = l5;
'b1: {
'b2: {
{
fill(m, l5.wrapping_add(8u64), 0u32 as u8, 72u64);
fill(m, l5.wrapping_add(80u64), 0u32 as u8, 80u64);
f8(m, g, l5.wrapping_add(80u64), l0.wrapping_add((if (l0 == 0) { 4096u64 } else { 0u64 })), l1);
l0 = load_64(m, l5.wrapping_add(96u64));
l6 = load_64(m, l5.wrapping_add(88u64));
'b4: {
'b5: {
if ((load_8(m, l5.wrapping_add(80u64)) as u32) != 0) { break 'b5; }
fill(m, l5.wrapping_add(192u64), 0u32 as u8, 72u64);
f11(m, g, l5.wrapping_add(192u64), 0u32, l6, l0);
l1 = load_64(m, l5.wrapping_add(200u64));
'b6: {
'b7: {
if ((load_8(m, l5.wrapping_add(192u64)) as u32) != 0) { break 'b7; }
l7 = load_64(m, l5.wrapping_add(208u64));
l8 = 0u32;
store_32(m, l5.wrapping_add(311u64), 0u32);
store_64(m, l5.wrapping_add(304u64), 0u64);
store_64(m, l5.wrapping_add(296u64), 0u64);
store_64(m, l5.wrapping_add(288u64), 0u64);
store_64(m, l5.wrapping_add(280u64), 0u64);
store_64(m, l5.wrapping_add(272u64), 0u64);
store_64(m, l5.wrapping_add(264u64), 0u64);
'b8: {
'b9: {
'b10: {
'b11: {
'b12: {
if (l0 < 94u64) { break 'b12; }
store_32(m, l5.wrapping_add(183u64), 0u32);
store_64(m, l5.wrapping_add(176u64), 0u64);
l1 = 93u64;
break 'b11;
}
if (l7 > 12u64) { break 'b10; }
store_32(m, l5.wrapping_add(183u64), 0u32);
l0 = 0u64;
store_64(m, l5.wrapping_add(176u64), 0u64);
l8 = 2u32;
l1 = 0u64;
}
l4 = 0u64;
l6 = 0u64;
l3 = 0u64;
break 'b9;
}
f12(m, g, l5.wrapping_add(264u64), l6, 2u64, l1, l7);
l8 = (load_8(m, l5.wrapping_add(264u64)) as u32);
if (l8 == 0) { break 'b8; }
let t1 = load_64(m, l5.wrapping_add(304u64));
store_64(m, l5.wrapping_add(176u64), t1);
let t2 = load_32(m, l5.wrapping_add(311u64));
store_32(m, l5.wrapping_add(183u64), t2);
l4 = (((load_32(m, l5.wrapping_add(265u64)) as u64) | (((load_8(m, l5.wrapping_add(271u64)) as u64) << 48) | ((load_16(m, l5.wrapping_add(269u64)) as u64) << 32))) << 8);
l6 = load_64(m, l5.wrapping_add(296u64));
l3 = load_64(m, l5.wrapping_add(288u64));
l1 = load_64(m, l5.wrapping_add(280u64));
l0 = load_64(m, l5.wrapping_add(272u64));
}
l4 = (l4 | (l8 as u64));
l8 = ((l1 >> 32) as u32);
l9 = (l1 as u32);
l7 = 3u64;
break 'b6;
}
'b13: {
'b14: {
l8 = (load_8(m, l1) as u32);
if (l8 == 48u32) { break 'b14; }
if ((l8.wrapping_add(0xffffffceu32) & 255u32) < 8u32) { break 'b2; }
l9 = 0u32;
store_32(m, l5.wrapping_add(183u64), 0u32);
l4 = 0u64;
store_64(m, l5.wrapping_add(176u64), 0u64);
l7 = 4u64;
break 'b13;
}
l7 = 5u64;
l8 = (load_8(m, l1.wrapping_add(5u64)) as u32);
if (((if ((l8.wrapping_add(0xffffffbfu32) & 255u32) < 26u32) { l8.wrapping_add(32u32) } else { l8 }) & 255u32) == 115u32) { break 'b2; }
l9 = 0u32;
store_32(m, l5.wrapping_add(183u64), 0u32);
l4 = 0u64;
store_64(m, l5.wrapping_add(176u64), 0u64);
}
l0 = 0u64;
l8 = 0u32;
l3 = 0u64;
l6 = 0u64;
break 'b6;
}
let t3 = load_64(m, l5.wrapping_add(248u64));
store_64(m, l5.wrapping_add(176u64), t3);
let t4 = load_32(m, l5.wrapping_add(255u64));
store_32(m, l5.wrapping_add(183u64), t4);
l7 = (l1 & 255u64);
l6 = load_64(m, l5.wrapping_add(240u64));
l3 = load_64(m, l5.wrapping_add(232u64));
l8 = load_32(m, l5.wrapping_add(228u64));
l9 = load_32(m, l5.wrapping_add(224u64));
l0 = load_64(m, l5.wrapping_add(216u64));
l4 = load_64(m, l5.wrapping_add(208u64));
}
l1 = (l4 >> 8);
l10 = 0u32;
l11 = 4u32;
break 'b4;
}
l8 = (load_8(m, l5.wrapping_add(104u64)) as u32);
store_8(m, l5.wrapping_add(168u64), l8 as u8);
let t5 = load_64(m, l5.wrapping_add(144u64));
store_64(m, l5.wrapping_add(176u64), t5);
let t6 = load_32(m, l5.wrapping_add(151u64));
store_32(m, l5.wrapping_add(183u64), t6);
l7 = (l0 & 255u64);
store_64(m, l5.wrapping_add(160u64), l7);
l1 = ((load_32(m, l5.wrapping_add(105u64)) as u64) | (((load_8(m, l5.wrapping_add(111u64)) as u64) << 48) | ((load_16(m, l5.wrapping_add(109u64)) as u64) << 32)));
l4 = ((l8 as u64) & 255u64);
l10 = ((l6 >> 8) as u32);
l11 = (l6 as u32);
l6 = load_64(m, l5.wrapping_add(136u64));
l3 = load_64(m, l5.wrapping_add(128u64));
l8 = load_32(m, l5.wrapping_add(124u64));
l9 = load_32(m, l5.wrapping_add(120u64));
l0 = load_64(m, l5.wrapping_add(112u64));
}
store_32(m, l5.wrapping_add(25u64), l1 as u32);
store_8(m, l5.wrapping_add(31u64), (l1 >> 48) as u8);
store_16(m, l5.wrapping_add(29u64), (l1 >> 32) as u16);
store_64(m, l5.wrapping_add(56u64), l6);
store_64(m, l5.wrapping_add(48u64), l3);
store_64(m, l5.wrapping_add(32u64), l0);
store_8(m, l5.wrapping_add(24u64), l4 as u8);
store_64(m, l5.wrapping_add(16u64), l7);
store_8(m, l5.wrapping_add(9u64), l10 as u8);
store_8(m, l5.wrapping_add(8u64), l11 as u8);
let t7 = load_64(m, l5.wrapping_add(176u64));
store_64(m, l5.wrapping_add(64u64), t7);
let t8 = load_32(m, l5.wrapping_add(183u64));
store_32(m, l5.wrapping_add(71u64), t8);
store_64(m, l5.wrapping_add(40u64), (((l8 as u64) << 32) | (l9 as u64)));
let t9 = f30(m, g, l5.wrapping_add(8u64));
l8 = t9;
break 'b1;
}
}
l8 = (load_8(m, l6.wrapping_add(8u64)) as u32);
let t10 = (load_8(m, l6.wrapping_add(3u64)) as u32).wrapping_add(0xffffffd0u32);
store_32(m, l2, t10);
store_32(m, l3, l8);
store_64(m, l4, l0.wrapping_add(0xffffffffffffffeau64));
l8 = 0u32;
}
g = l5.wrapping_add(320u64);
return l8;
}

// codex32_propose
fn of_codex32_propose(m: &mut [u8], mut g: u64, mut l0: u64, mut l1: u64, mut l2: u64, mut l3: u64, mut l4: u64, mut l5: u64) -> u32 {
let mut l6: u32 = 0;
'b1: {
if (0u32 == 0) { break 'b1; }
trap();
trap();
}
let t1 = f82(m, g, l0, l1, l2, l3, l4, l5);
l6 = t1;
return l6;
}

// rattle::export codex32_propose
fn f82(m: &mut [u8], mut g: u64, mut l0: u64, mut l1: u64, mut l2: u64, mut l3: u64, mut l4: u64, mut l5: u64) -> u32 {
let mut l6: u64 = 0;
let mut l7: u32 = 0;
l6 = g.wrapping_sub(160u64);
g = l6;
'b1: {
'b2: {
{
l7 = 0u32;
fill(m, l6.wrapping_add(88u64), 0u32 as u8, 72u64);
fill(m, l6.wrapping_add(8u64), 0u32 as u8, 80u64);
f33(m, g, l6.wrapping_add(8u64), l2, 0u32, l0.wrapping_add((if (l0 == 0) { 4096u64 } else { 0u64 })), l1, l3.wrapping_add((if (l3 == 0) { 4096u64 } else { 0u64 })), l4);
if ((load_8(m, l6.wrapping_add(8u64)) as u32) != 0) { break 'b2; }
let t1 = load_64(m, l6.wrapping_add(16u64));
store_64(m, l5, t1);
break 'b1;
}
}
let t2 = (load_16(m, l6.wrapping_add(16u64)) as u32);
store_16(m, l6.wrapping_add(88u64), t2 as u16);
let t3 = (load_8(m, l6.wrapping_add(24u64)) as u64);
store_64(m, l6.wrapping_add(96u64), t3);
let t4 = (load_8(m, l6.wrapping_add(32u64)) as u32);
store_8(m, l6.wrapping_add(104u64), t4 as u8);
let t5 = load_64(m, l6.wrapping_add(33u64));
store_64(m, l6.wrapping_add(105u64), t5);
let t6 = load_64(m, l6.wrapping_add(41u64));
store_64(m, l6.wrapping_add(113u64), t6);
let t7 = load_64(m, l6.wrapping_add(49u64));
store_64(m, l6.wrapping_add(121u64), t7);
let t8 = load_64(m, l6.wrapping_add(57u64));
store_64(m, l6.wrapping_add(129u64), t8);
let t9 = load_64(m, l6.wrapping_add(65u64));
store_64(m, l6.wrapping_add(137u64), t9);
let t10 = load_64(m, l6.wrapping_add(73u64));
store_64(m, l6.wrapping_add(145u64), t10);
let t11 = (load_16(m, l6.wrapping_add(81u64)) as u32);
store_16(m, l6.wrapping_add(153u64), t11 as u16);
let t12 = f30(m, g, l6.wrapping_add(88u64));
l7 = t12;
}
g = l6.wrapping_add(160u64);
return l7;
}

// codex32_propose_long
fn of_codex32_propose_long(m: &mut [u8], mut g: u64, mut l0: u64, mut l1: u64, mut l2: u64, mut l3: u64, mut l4: u64, mut l5: u64) -> u32 {
let mut l6: u32 = 0;
'b1: {
if (0u32 == 0) { break 'b1; }
trap();
trap();
}
let t1 = f84(m, g, l0, l1, l2, l3, l4, l5);
l6 = t1;
return l6;
}

// rattle::export codex32_propose_long
fn f84(m: &mut [u8], mut g: u64, mut l0: u64, mut l1: u64, mut l2: u64, mut l3: u64, mut l4: u64, mut l5: u64) -> u32 {
let mut l6: u64 = 0;
let mut l7: u32 = 0;
l6 = g.wrapping_sub(160u64);
g = l6;
'b1: {
'b2: {
{
l7 = 0u32;
fill(m, l6.wrapping_add(88u64), 0u32 as u8, 72u64);
fill(m, l6.wrapping_add(8u64), 0u32 as u8, 80u64);
f33(m, g, l6.wrapping_add(8u64), l2, 1u32, l0.wrapping_add((if (l0 == 0) { 4096u64 } else { 0u64 })), l1, l3.wrapping_add((if (l3 == 0) { 4096u64 } else { 0u64 })), l4);
if ((load_8(m, l6.wrapping_add(8u64)) as u32) != 0) { break 'b2; }
let t1 = load_64(m, l6.wrapping_add(16u64));
store_64(m, l5, t1);
break 'b1;
}
}
let t2 = (load_16(m, l6.wrapping_add(16u64)) as u32);
store_16(m, l6.wrapping_add(88u64), t2 as u16);
let t3 = (load_8(m, l6.wrapping_add(24u64)) as u64);
store_64(m, l6.wrapping_add(96u64), t3);
let t4 = (load_8(m, l6.wrapping_add(32u64)) as u32);
store_8(m, l6.wrapping_add(104u64), t4 as u8);
let t5 = load_64(m, l6.wrapping_add(33u64));
store_64(m, l6.wrapping_add(105u64), t5);
let t6 = load_64(m, l6.wrapping_add(41u64));
store_64(m, l6.wrapping_add(113u64), t6);
let t7 = load_64(m, l6.wrapping_add(49u64));
store_64(m, l6.wrapping_add(121u64), t7);
let t8 = load_64(m, l6.wrapping_add(57u64));
store_64(m, l6.wrapping_add(129u64), t8);
let t9 = load_64(m, l6.wrapping_add(65u64));
store_64(m, l6.wrapping_add(137u64), t9);
let t10 = load_64(m, l6.wrapping_add(73u64));
store_64(m, l6.wrapping_add(145u64), t10);
let t11 = (load_16(m, l6.wrapping_add(81u64)) as u32);
store_16(m, l6.wrapping_add(153u64), t11 as u16);
let t12 = f30(m, g, l6.wrapping_add(88u64));
l7 = t12;
}
g = l6.wrapping_add(160u64);
return l7;
}

// codex32_recover
fn of_codex32_recover(m: &mut [u8], mut g: u64, mut l0: u64, mut l1: u64, mut l2: u64, mut l3: u64, mut l4: u64, mut l5: u64, mut l6: u64) -> u32 {
let mut l7: u32 = 0;
'b1: {
if (0u32 == 0) { break 'b1; }
trap();
trap();
}
let t1 = f86(m, g, l0, l1, l2, l3, l4, l5, l6);
l7 = t1;
return l7;
}

// rattle::export codex32_recover
fn f86(m: &mut [u8], mut g: u64, mut l0: u64, mut l1: u64, mut l2: u64, mut l3: u64, mut l4: u64, mut l5: u64, mut l6: u64) -> u32 {
let mut l7: u64 = 0;
let mut l8: u64 = 0;
let mut l9: u32 = 0;
let mut l10: u32 = 0;
let mut l11: u32 = 0;
let mut l12: u32 = 0;
l7 = g.wrapping_sub(608u64);
g = l7;
'b1: {
fill(m, l7.wrapping_add(56u64), 0u32 as u8, 72u64);
store_16(m, l7.wrapping_add(48u64), 0u32 as u16);
store_64(m, l7.wrapping_add(40u64), 0u64);
store_64(m, l7.wrapping_add(32u64), 0u64);
store_64(m, l7.wrapping_add(24u64), 0u64);
store_64(m, l7.wrapping_add(16u64), 0u64);
store_64(m, l7.wrapping_add(8u64), 0u64);
store_64(m, l7, 0u64);
store_64(m, l7.wrapping_add(376u64), 0u64);
store_64(m, l7.wrapping_add(384u64), 0u64);
store_64(m, l7.wrapping_add(392u64), 0u64);
store_64(m, l7.wrapping_add(400u64), 0u64);
store_64(m, l7.wrapping_add(408u64), 0u64);
store_64(m, l7.wrapping_add(416u64), 0u64);
store_16(m, l7.wrapping_add(424u64), 0u32 as u16);
store_64(m, l7.wrapping_add(240u64), 0u64);
store_8(m, l7.wrapping_add(248u64), 0u32 as u8);
fill(m, l7.wrapping_add(160u64), 0u32 as u8, 80u64);
fill(m, l7.wrapping_add(249u64), 0u32 as u8, 127u64);
store_64(m, l7.wrapping_add(152u64), l3);
store_64(m, l7.wrapping_add(144u64), l2.wrapping_add((if (l2 == 0) { 4096u64 } else { 0u64 })));
store_64(m, l7.wrapping_add(136u64), l1);
store_64(m, l7.wrapping_add(128u64), l0.wrapping_add((if (l0 == 0) { 4096u64 } else { 0u64 })));
f5(m, g, l7.wrapping_add(160u64), l7.wrapping_add(249u64), 115u32, l7.wrapping_add(128u64));
l2 = load_64(m, l7.wrapping_add(168u64));
'b2: {
'b3: {
'b4: {
if ((load_8(m, l7.wrapping_add(160u64)) as u32) != 0) { break 'b4; }
fill(m, l7.wrapping_add(432u64), 0u32 as u8, 72u64);
f9(m, g, l7.wrapping_add(432u64), l7.wrapping_add(249u64), l2);
if ((load_8(m, l7.wrapping_add(432u64)) as u32) != 0) { break 'b1; }
'b5: {
'b6: {
l0 = load_64(m, l7.wrapping_add(456u64));
if ((l0.wrapping_mul(5u64) & 7u64) > 4u64) { break 'b6; }
'b7: {
l8 = ((l0 & 7u64).wrapping_mul(5u64) >> 3).wrapping_add((l0 >> 3).wrapping_mul(5u64));
if (l5 >= l8) { break 'b7; }
store_16(m, l7.wrapping_add(424u64), 0u32 as u16);
store_64(m, l7.wrapping_add(416u64), 0u64);
store_64(m, l7.wrapping_add(408u64), 0u64);
store_64(m, l7.wrapping_add(400u64), 0u64);
store_64(m, l7.wrapping_add(392u64), 0u64);
store_64(m, l7.wrapping_add(384u64), 0u64);
store_64(m, l7.wrapping_add(376u64), 0u64);
l2 = 11u64;
break 'b5;
}
l1 = load_64(m, l7.wrapping_add(448u64));
l9 = 0u32;
fill(m, l7.wrapping_add(505u64), 0u32 as u8, 103u64);
'b8: {
if (l0 == 0) { break 'b8; }
l3 = l4.wrapping_add((if (l4 == 0) { 4096u64 } else { 0u64 }));
l2 = 0u64;
'b9: loop {
let t1 = (load_8(m, l1.wrapping_add(l2)) as u32);
let t2 = f21(m, g, t1);
store_8(m, l7.wrapping_add(505u64).wrapping_add(l2), (t2 & 255u32) as u8);
l2 = l2.wrapping_add(1u64);
if (l0 != l2) { continue 'b9; }
break 'b9;
}
l2 = l7.wrapping_add(505u64);
l10 = 0u32;
l11 = 0u32;
'b10: loop {
l1 = l0.wrapping_add(0xffffffffffffffffu64);
let t3 = ((l11 & 255u32) << 5);
l11 = (load_8(m, l2) as u32);
l12 = t3.wrapping_add(l11);
'b11: {
'b12: {
if ((l10 & 255u32) < 3u32) { break 'b12; }
l2 = l2.wrapping_add(1u64);
l10 = l10.wrapping_add(0xfffffffdu32);
l12 = (l12 >> ((l10 & 255u32) & 31));
l0 = l1;
break 'b11;
}
if (l1 == 0) { break 'b8; }
l11 = (load_8(m, l2.wrapping_add(1u64)) as u32);
l10 = l10.wrapping_add(2u32);
l12 = (((l12 << 5).wrapping_add(l11) & 65535u32) >> ((l10 & 255u32) & 31));
l0 = l0.wrapping_add(0xfffffffffffffffeu64);
l2 = l2.wrapping_add(2u64);
}
store_8(m, l3, l12 as u8);
l3 = l3.wrapping_add(1u64);
if !(l0 == 0) { continue 'b10; }
break 'b10;
}
}
store_64(m, l6, l8);
break 'b2;
}
store_16(m, l7.wrapping_add(424u64), 0u32 as u16);
store_64(m, l7.wrapping_add(416u64), 0u64);
store_64(m, l7.wrapping_add(408u64), 0u64);
store_64(m, l7.wrapping_add(400u64), 0u64);
store_64(m, l7.wrapping_add(392u64), 0u64);
store_64(m, l7.wrapping_add(384u64), 0u64);
store_64(m, l7.wrapping_add(376u64), 0u64);
l2 = 6u64;
}
let t4 = load_64(m, l7.wrapping_add(376u64));
store_64(m, l7, t4);
let t5 = load_64(m, l7.wrapping_add(384u64));
store_64(m, l7.wrapping_add(8u64), t5);
let t6 = load_64(m, l7.wrapping_add(392u64));
store_64(m, l7.wrapping_add(16u64), t6);
let t7 = load_64(m, l7.wrapping_add(400u64));
store_64(m, l7.wrapping_add(24u64), t7);
let t8 = load_64(m, l7.wrapping_add(408u64));
store_64(m, l7.wrapping_add(32u64), t8);
let t9 = load_64(m, l7.wrapping_add(416u64));
store_64(m, l7.wrapping_add(40u64), t9);
let t10 = (load_16(m, l7.wrapping_add(424u64)) as u32);
store_16(m, l7.wrapping_add(48u64), t10 as u16);
l0 = 0u64;
l10 = 0u32;
break 'b3;
}
let t11 = load_64(m, l7.wrapping_add(185u64));
store_64(m, l7, t11);
let t12 = load_64(m, l7.wrapping_add(193u64));
store_64(m, l7.wrapping_add(8u64), t12);
let t13 = load_64(m, l7.wrapping_add(201u64));
store_64(m, l7.wrapping_add(16u64), t13);
let t14 = load_64(m, l7.wrapping_add(209u64));
store_64(m, l7.wrapping_add(24u64), t14);
let t15 = load_64(m, l7.wrapping_add(217u64));
store_64(m, l7.wrapping_add(32u64), t15);
let t16 = load_64(m, l7.wrapping_add(225u64));
store_64(m, l7.wrapping_add(40u64), t16);
let t17 = (load_16(m, l7.wrapping_add(233u64)) as u32);
store_16(m, l7.wrapping_add(48u64), t17 as u16);
l0 = (load_8(m, l7.wrapping_add(176u64)) as u64);
l10 = (load_8(m, l7.wrapping_add(184u64)) as u32);
}
store_8(m, l7.wrapping_add(72u64), l10 as u8);
store_64(m, l7.wrapping_add(64u64), l0);
let t18 = load_64(m, l7);
store_64(m, l7.wrapping_add(73u64), t18);
let t19 = load_64(m, l7.wrapping_add(8u64));
store_64(m, l7.wrapping_add(81u64), t19);
let t20 = load_64(m, l7.wrapping_add(16u64));
store_64(m, l7.wrapping_add(89u64), t20);
let t21 = load_64(m, l7.wrapping_add(24u64));
store_64(m, l7.wrapping_add(97u64), t21);
let t22 = load_64(m, l7.wrapping_add(32u64));
store_64(m, l7.wrapping_add(105u64), t22);
let t23 = load_64(m, l7.wrapping_add(40u64));
store_64(m, l7.wrapping_add(113u64), t23);
let t24 = (load_16(m, l7.wrapping_add(48u64)) as u32);
store_16(m, l7.wrapping_add(121u64), t24 as u16);
store_8(m, l7.wrapping_add(56u64), l2 as u8);
store_8(m, l7.wrapping_add(57u64), (l2 >> 8) as u8);
let t25 = f30(m, g, l7.wrapping_add(56u64));
l9 = t25;
}
g = l7.wrapping_add(608u64);
return l9;
}
trap();
}

// codex32_share
fn of_codex32_share(m: &mut [u8], mut g: u64, mut l0: u64, mut l1: u64, mut l2: u64, mut l3: u64, mut l4: u64, mut l5: u64, mut l6: u64, mut l7: u64) -> u32 {
let mut l8: u32 = 0;
'b1: {
if (0u32 == 0) { break 'b1; }
trap();
trap();
}
let t1 = f88(m, g, l0, l1, l2, l3, l4, l5, l6, l7);
l8 = t1;
return l8;
}

// rattle::export codex32_share
fn f88(m: &mut [u8], mut g: u64, mut l0: u64, mut l1: u64, mut l2: u64, mut l3: u64, mut l4: u64, mut l5: u64, mut l6: u64, mut l7: u64) -> u32 {
let mut l8: u64 = 0;
let mut l9: u32 = 0;
let mut l10: u64 = 0;
let mut l11: u64 = 0;
let mut l12: u64 = 0;
let mut l13: u64 = 0;
let mut l14: u32 = 0;
let mut l15: u32 = 0;
let mut l16: u32 = 0;
l8 = g.wrapping_sub(320u64);
g = l8;
'b1: {
'b2: {
{
store_8(m, l8.wrapping_add(124u64), 0u32 as u8);
store_32(m, l8.wrapping_add(120u64), 0u32);
fill(m, l8.wrapping_add(48u64), 0u32 as u8, 72u64);
store_64(m, l8.wrapping_add(40u64), 0u64);
store_64(m, l8.wrapping_add(32u64), 0u64);
store_64(m, l8, 0u64);
store_64(m, l8.wrapping_add(8u64), 0u64);
store_64(m, l8.wrapping_add(16u64), 0u64);
store_32(m, l8.wrapping_add(23u64), 0u32);
store_64(m, l8.wrapping_add(208u64), 0u64);
store_8(m, l8.wrapping_add(216u64), 0u32 as u8);
fill(m, l8.wrapping_add(128u64), 0u32 as u8, 80u64);
f6(m, g, l8.wrapping_add(128u64), l0.wrapping_add((if (l0 == 0) { 4096u64 } else { 0u64 })), l1);
l9 = (load_8(m, l8.wrapping_add(152u64)) as u32);
l10 = load_64(m, l8.wrapping_add(144u64));
l11 = load_64(m, l8.wrapping_add(136u64));
'b4: {
'b5: {
if ((load_8(m, l8.wrapping_add(128u64)) as u32) != 0) { break 'b5; }
l0 = ((l9 as u64) & 255u64);
if ((l0.wrapping_mul(5u64) & 7u64) > 4u64) { break 'b4; }
'b6: {
l12 = (((load_32(m, l8.wrapping_add(153u64)) as u64) | (((load_8(m, l8.wrapping_add(159u64)) as u64) << 48) | ((load_16(m, l8.wrapping_add(157u64)) as u64) << 32))) << 8);
l1 = (l12 | l0);
l13 = (l1 >> 3).wrapping_mul(5u64).wrapping_add(((l0 & 7u64).wrapping_mul(5u64) >> 3));
if (l6 >= l13) { break 'b6; }
l0 = 0u64;
store_64(m, l8.wrapping_add(40u64), 0u64);
store_64(m, l8.wrapping_add(32u64), 0u64);
store_64(m, l8, 0u64);
store_64(m, l8.wrapping_add(8u64), 0u64);
store_64(m, l8.wrapping_add(16u64), 0u64);
l14 = 0u32;
store_32(m, l8.wrapping_add(23u64), 0u32);
l15 = 11u32;
l1 = 0u64;
l9 = 0u32;
break 'b2;
}
l16 = 0u32;
fill(m, l8.wrapping_add(217u64), 0u32 as u8, 103u64);
'b7: {
if (l1 == 0) { break 'b7; }
l6 = l5.wrapping_add((if (l5 == 0) { 4096u64 } else { 0u64 }));
l5 = l12.wrapping_add(l0);
l0 = 0u64;
'b8: loop {
let t1 = (load_8(m, l10.wrapping_add(l0)) as u32);
let t2 = f21(m, g, t1);
store_8(m, l8.wrapping_add(217u64).wrapping_add(l0), (t2 & 255u32) as u8);
l0 = l0.wrapping_add(1u64);
if (l5 != l0) { continue 'b8; }
break 'b8;
}
l0 = l8.wrapping_add(217u64);
l9 = 0u32;
l14 = 0u32;
'b9: loop {
l10 = l1.wrapping_add(0xffffffffffffffffu64);
let t3 = ((l14 & 255u32) << 5);
l14 = (load_8(m, l0) as u32);
l15 = t3.wrapping_add(l14);
'b10: {
'b11: {
if ((l9 & 255u32) < 3u32) { break 'b11; }
l0 = l0.wrapping_add(1u64);
l9 = l9.wrapping_add(0xfffffffdu32);
l15 = (l15 >> ((l9 & 255u32) & 31));
l1 = l10;
break 'b10;
}
if (l10 == 0) { break 'b7; }
l14 = (load_8(m, l0.wrapping_add(1u64)) as u32);
l9 = l9.wrapping_add(2u32);
l15 = (((l15 << 5).wrapping_add(l14) & 65535u32) >> ((l9 & 255u32) & 31));
l1 = l1.wrapping_add(0xfffffffffffffffeu64);
l0 = l0.wrapping_add(2u64);
}
store_8(m, l6, l15 as u8);
l6 = l6.wrapping_add(1u64);
if (l1 != 0u64) { continue 'b9; }
break 'b9;
}
}
store_32(m, l2, ((l11 as u32) & 255u32));
store_32(m, l8.wrapping_add(121u64), (l11 >> 16) as u32);
store_8(m, l8.wrapping_add(120u64), (l11 >> 8) as u8);
l9 = load_32(m, l8.wrapping_add(120u64));
let t4 = (((load_32_constant(m, (((l9 >> 22) as u64) & 1020u64).wrapping_add(0x100000ae0u64)) << 24) | ((load_32_constant(m, (((l9 >> 14) as u64) & 1020u64).wrapping_add(0x100000ae0u64)) << 16) & 0xff0000u32)) | ((load_32_constant(m, (((l9 >> 6) as u64) & 1020u64).wrapping_add(0x100000ae0u64)) << 8) & 65280u32));
let t5 = (t4 | (load_8_constant(m, (((l9 << 2) as u64) & 1020u64).wrapping_add(0x100000ae0u64)) as u32));
store_32(m, l3, t5);
let t6 = load_32_constant(m, ((l11 >> 38) & 1020u64).wrapping_add(0x100000ae0u64));
store_32(m, l4, t6);
store_64(m, l7, l13);
break 'b1;
}
store_8(m, l8.wrapping_add(216u64), l9 as u8);
let t7 = load_64(m, l8.wrapping_add(160u64));
store_64(m, l8.wrapping_add(32u64), t7);
let t8 = load_64(m, l8.wrapping_add(168u64));
store_64(m, l8.wrapping_add(40u64), t8);
let t9 = load_64(m, l8.wrapping_add(176u64));
store_64(m, l8, t9);
let t10 = load_64(m, l8.wrapping_add(184u64));
store_64(m, l8.wrapping_add(8u64), t10);
let t11 = load_64(m, l8.wrapping_add(192u64));
store_64(m, l8.wrapping_add(16u64), t11);
let t12 = load_32(m, l8.wrapping_add(199u64));
store_32(m, l8.wrapping_add(23u64), t12);
l1 = (l10 & 255u64);
store_64(m, l8.wrapping_add(208u64), l1);
l0 = ((load_32(m, l8.wrapping_add(153u64)) as u64) | (((load_8(m, l8.wrapping_add(159u64)) as u64) << 48) | ((load_16(m, l8.wrapping_add(157u64)) as u64) << 32)));
l14 = ((l11 >> 8) as u32);
l15 = (l11 as u32);
break 'b2;
}
l1 = 0u64;
store_64(m, l8.wrapping_add(40u64), 0u64);
store_64(m, l8.wrapping_add(32u64), 0u64);
store_64(m, l8, 0u64);
store_64(m, l8.wrapping_add(8u64), 0u64);
store_64(m, l8.wrapping_add(16u64), 0u64);
l14 = 0u32;
store_32(m, l8.wrapping_add(23u64), 0u32);
l15 = 6u32;
l9 = 0u32;
l0 = 0u64;
break 'b2;
}
}
store_32(m, l8.wrapping_add(65u64), l0 as u32);
store_8(m, l8.wrapping_add(71u64), (l0 >> 48) as u8);
store_16(m, l8.wrapping_add(69u64), (l0 >> 32) as u16);
store_8(m, l8.wrapping_add(64u64), l9 as u8);
store_64(m, l8.wrapping_add(56u64), l1);
store_8(m, l8.wrapping_add(49u64), l14 as u8);
store_8(m, l8.wrapping_add(48u64), l15 as u8);
let t13 = load_64(m, l8.wrapping_add(32u64));
store_64(m, l8.wrapping_add(72u64), t13);
let t14 = load_64(m, l8.wrapping_add(40u64));
store_64(m, l8.wrapping_add(80u64), t14);
let t15 = load_64(m, l8);
store_64(m, l8.wrapping_add(88u64), t15);
let t16 = load_64(m, l8.wrapping_add(8u64));
store_64(m, l8.wrapping_add(96u64), t16);
let t17 = load_64(m, l8.wrapping_add(16u64));
store_64(m, l8.wrapping_add(104u64), t17);
let t18 = load_32(m, l8.wrapping_add(23u64));
store_32(m, l8.wrapping_add(111u64), t18);
let t19 = f30(m, g, l8.wrapping_add(48u64));
l16 = t19;
}
g = l8.wrapping_add(320u64);
return l16;
}

// codex32_split
fn of_codex32_split(m: &mut [u8], mut g: u64, mut l0: u32, mut l1: u64, mut l2: u64, mut l3: u64, mut l4: u64, mut l5: u64, mut l6: u64, mut l7: u64, mut l8: u64, mut l9: u64, mut l10: u64) -> u32 {
'b1: {
if (0u32 == 0) { break 'b1; }
trap();
trap();
}
let t1 = f90(m, g, l0, l1, l2, l3, l4, l5, l6, l7, l8, l9, l10);
l0 = t1;
return l0;
}

// rattle::export codex32_split
fn f90(m: &mut [u8], mut g: u64, mut l0: u32, mut l1: u64, mut l2: u64, mut l3: u64, mut l4: u64, mut l5: u64, mut l6: u64, mut l7: u64, mut l8: u64, mut l9: u64, mut l10: u64) -> u32 {
let mut l11: u64 = 0;
let mut l12: u32 = 0;
let mut l13: u32 = 0;
let mut l14: u32 = 0;
let mut l15: u32 = 0;
let mut l16: u32 = 0;
let mut l17: u32 = 0;
let mut l18: u64 = 0;
let mut l19: u64 = 0;
let mut l20: u64 = 0;
let mut l21: u64 = 0;
let mut l22: u32 = 0;
let mut l23: u64 = 0;
let mut l24: u64 = 0;
let mut l25: u64 = 0;
l11 = g.wrapping_sub(832u64);
g = l11;
'b1: {
fill(m, l11.wrapping_add(64u64), 0u32 as u8, 72u64);
store_16(m, l11.wrapping_add(56u64), 0u32 as u16);
store_64(m, l11.wrapping_add(48u64), 0u64);
store_64(m, l11.wrapping_add(40u64), 0u64);
store_64(m, l11.wrapping_add(32u64), 0u64);
store_64(m, l11.wrapping_add(24u64), 0u64);
store_64(m, l11.wrapping_add(16u64), 0u64);
store_64(m, l11.wrapping_add(8u64), 0u64);
l12 = 5u32;
'b2: {
'b3: {
'b4: {
l13 = (((l0 < 10u32) as u32) & ((l0 != 1u32) as u32));
if (l13 != 0) { break 'b4; }
l14 = 0u32;
break 'b3;
}
fill(m, l11.wrapping_add(304u64), 0u32 as u8, 80u64);
f8(m, g, l11.wrapping_add(304u64), l1.wrapping_add((if (l1 == 0) { 4096u64 } else { 0u64 })), l2);
'b5: {
if ((load_8(m, l11.wrapping_add(304u64)) as u32) != 0) { break 'b5; }
if (load_64(m, l11.wrapping_add(320u64)) != 4u64) { break 'b5; }
l1 = load_64(m, l11.wrapping_add(312u64));
let t1 = f14(m, g, l1, 4u64);
if (t1 == 0) { break 'b5; }
let t2 = f15(m, g, l1, 4u64);
if (t2 != 0) { break 'b5; }
l14 = 0u32;
'b6: {
'b7: {
if (l0 == 0) { break 'b7; }
l12 = (load_8_constant(m, (load_8(m, l1.wrapping_add(2u64)) as u64).wrapping_add(0x100000000u64)) as u32);
l15 = (load_8_constant(m, (load_8(m, l1.wrapping_add(1u64)) as u64).wrapping_add(0x100000000u64)) as u32);
l16 = (load_8_constant(m, (load_8(m, l1) as u64).wrapping_add(0x100000000u64)) as u32);
l17 = (load_8_constant(m, (load_8(m, l1.wrapping_add(3u64)) as u64).wrapping_add(0x100000000u64)) as u32);
'b8: {
if (l4.wrapping_add(0xfffffffffffffff0u64) < 29u64) { break 'b8; }
if (l4.wrapping_add(0xffffffffffffffc1u64) <= 1u64) { break 'b8; }
l14 = 1u32;
break 'b7;
}
l14 = 2u32;
l18 = (l0 as u64);
if (l7 < l18) { break 'b7; }
if (l7 > 31u64) { break 'b7; }
l14 = 3u32;
l19 = ((((((l4 as u32) << 3) | 4u32) & 65532u32) / 5u32) as u64);
if (l6 != l18.wrapping_add(0xffffffffffffffffu64).wrapping_mul(l19)) { break 'b7; }
l14 = 4u32;
l5 = l5.wrapping_add((if (l5 == 0) { 4096u64 } else { 0u64 }));
let t3 = f70(m, g, l5, l6);
if (t3 != 0) { break 'b7; }
l20 = (if (l4 < 45u64) { 22u64 } else { 24u64 }).wrapping_add(l19);
if (l9 >= l20.wrapping_mul(l7)) { break 'b6; }
l14 = 5u32;
}
store_16(m, l11.wrapping_add(56u64), 0u32 as u16);
store_64(m, l11.wrapping_add(48u64), 0u64);
store_64(m, l11.wrapping_add(40u64), 0u64);
store_64(m, l11.wrapping_add(32u64), 0u64);
store_64(m, l11.wrapping_add(24u64), 0u64);
store_64(m, l11.wrapping_add(16u64), 0u64);
store_64(m, l11.wrapping_add(8u64), 0u64);
l12 = 9u32;
break 'b3;
}
l21 = l8.wrapping_add((if (l8 == 0) { 4096u64 } else { 0u64 }));
l6 = l3.wrapping_add((if (l3 == 0) { 4096u64 } else { 0u64 }));
l22 = (if (l13 != 0) { l0 } else { 0u32 });
l14 = 0u32;
fill(m, l11.wrapping_add(137u64), 0u32 as u8, 127u64);
store_8(m, l11.wrapping_add(669u64), 16u32 as u8);
l15 = ((((l15 << 8) | l16) | (l12 << 16)) | (l17 << 24));
store_32(m, l11.wrapping_add(665u64), l15);
store_8(m, l11.wrapping_add(664u64), l0 as u8);
store_64(m, l11.wrapping_add(704u64), 0u64);
store_64(m, l11.wrapping_add(712u64), 0u64);
fill(m, l11.wrapping_add(304u64), 0u32 as u8, 103u64);
l1 = l11.wrapping_add(304u64);
l2 = l4;
l13 = 0u32;
l0 = 0u32;
'b9: {
'b10: loop {
'b11: {
'b12: {
if ((l0 & 255u32) < 5u32) { break 'b12; }
l0 = l0.wrapping_add(0xfffffffbu32);
l12 = (((l14 & 255u32) >> ((l0 & 255u32) & 31)) & 31u32);
break 'b11;
}
'b13: {
if (((l13 | ((l2 == 0) as u32)) & 1u32) != 0) { break 'b13; }
let t4 = (l14 << 8);
l14 = (load_8(m, l6) as u32);
l0 = l0.wrapping_add(3u32);
l12 = ((((t4 | l14) & 65535u32) >> ((l0 & 255u32) & 31)) & 31u32);
l2 = l2.wrapping_add(0xffffffffffffffffu64);
l6 = l6.wrapping_add(1u64);
l13 = 0u32;
break 'b11;
}
if ((l0 & 255u32) == 0) { break 'b9; }
l12 = ((l14 << ((5u32.wrapping_sub(l0) & 255u32) & 31)) & 30u32);
l0 = 0u32;
l13 = 1u32;
}
store_8(m, l1, l12 as u8);
l1 = l1.wrapping_add(1u64);
continue 'b10;
}
}
f32(m, g, l11.wrapping_add(704u64), l11.wrapping_add(137u64), l11.wrapping_add(664u64), l11.wrapping_add(304u64), l19);
if ((load_8(m, l11.wrapping_add(704u64)) as u32) != 0) { break 'b1; }
l3 = load_64(m, l11.wrapping_add(712u64));
l1 = (l4 << 3);
l19 = ((l1 | 4u64) / 5u64);
l23 = l18.wrapping_sub((((l18 != 0u64) as u32) as u64));
'b14: {
if ((l22 & 255u32) == 1u32) { break 'b14; }
if (l4 == 0) { break 'b1; }
l24 = (if (l23 > 1u64) { l23 } else { 1u64 });
l18 = ((l1 | 4u64) / 5u64);
l6 = (l18 & 252u64);
l9 = (l18 & 3u64);
l25 = l18.wrapping_add(0xffffffffffffffffu64);
l8 = 0u64;
'b15: loop {
store_64(m, l11.wrapping_add(672u64), 0u64);
store_64(m, l11.wrapping_add(664u64), 0u64);
fill(m, l11.wrapping_add(704u64), 0u32 as u8, 103u64);
l1 = 0u64;
'b16: {
'b17: {
if (l25 < 3u64) { break 'b17; }
l1 = 0u64;
'b18: loop {
l2 = l11.wrapping_add(704u64).wrapping_add(l1);
l4 = l5.wrapping_add(l1);
let t5 = ((load_8(m, l4) as u32) & 31u32);
store_8(m, l2, t5 as u8);
let t6 = ((load_8(m, l4.wrapping_add(1u64)) as u32) & 31u32);
store_8(m, l2.wrapping_add(1u64), t6 as u8);
let t7 = ((load_8(m, l4.wrapping_add(2u64)) as u32) & 31u32);
store_8(m, l2.wrapping_add(2u64), t7 as u8);
let t8 = ((load_8(m, l4.wrapping_add(3u64)) as u32) & 31u32);
store_8(m, l2.wrapping_add(3u64), t8 as u8);
l1 = l1.wrapping_add(4u64);
if (l6 != l1) { continue 'b18; }
break 'b18;
}
if (l9 == 0) { break 'b16; }
}
l2 = l9;
'b19: loop {
let t9 = ((load_8(m, l5.wrapping_add(l1)) as u32) & 31u32);
store_8(m, l11.wrapping_add(704u64).wrapping_add(l1), t9 as u8);
l1 = l1.wrapping_add(1u64);
l2 = l2.wrapping_add(0xffffffffffffffffu64);
if (l2 != 0u64) { continue 'b19; }
break 'b19;
}
}
store_32(m, l11.wrapping_add(265u64), l15);
store_8(m, l11.wrapping_add(264u64), l22 as u8);
let t10 = (load_8_constant(m, (load_8_constant(m, l8.wrapping_add(0x100000b60u64)) as u64).wrapping_add(0x100000000u64)) as u32);
store_8(m, l11.wrapping_add(269u64), t10 as u8);
fill(m, l11.wrapping_add(304u64), 0u32 as u8, 127u64);
f32(m, g, l11.wrapping_add(664u64), l11.wrapping_add(304u64), l11.wrapping_add(264u64), l11.wrapping_add(704u64), l19);
if ((load_8(m, l11.wrapping_add(664u64)) as u32) != 0) { break 'b1; }
'b20: {
l1 = load_64(m, l11.wrapping_add(672u64));
if (l1 == 0) { break 'b20; }
copy(m, l21.wrapping_add(l1.wrapping_mul(l8)), l11.wrapping_add(304u64), l1);
}
l5 = l5.wrapping_add(l18);
l8 = l8.wrapping_add(1u64);
if (l8 != l24) { continue 'b15; }
break 'b15;
}
}
fill(m, l11.wrapping_add(704u64), 0u32 as u8, 72u64);
f9(m, g, l11.wrapping_add(704u64), l11.wrapping_add(137u64), l3);
if ((load_8(m, l11.wrapping_add(704u64)) as u32) != 0) { break 'b1; }
l1 = load_64(m, l11.wrapping_add(744u64));
store_64(m, l11.wrapping_add(296u64), l1);
l2 = load_64(m, l11.wrapping_add(736u64));
store_64(m, l11.wrapping_add(288u64), l2);
l4 = load_64(m, l11.wrapping_add(728u64));
store_64(m, l11.wrapping_add(280u64), l4);
l6 = load_64(m, l11.wrapping_add(720u64));
store_64(m, l11.wrapping_add(272u64), l6);
l5 = load_64(m, l11.wrapping_add(712u64));
store_64(m, l11.wrapping_add(264u64), l5);
store_64(m, l11.wrapping_add(304u64), l5);
store_64(m, l11.wrapping_add(312u64), l6);
store_64(m, l11.wrapping_add(320u64), l4);
store_64(m, l11.wrapping_add(328u64), l2);
store_64(m, l11.wrapping_add(336u64), l1);
store_64(m, l11.wrapping_add(344u64), l5);
store_64(m, l11.wrapping_add(352u64), l6);
store_64(m, l11.wrapping_add(360u64), l4);
store_64(m, l11.wrapping_add(368u64), l2);
store_64(m, l11.wrapping_add(376u64), l1);
let t11 = load_64(m, l11.wrapping_add(296u64));
store_64(m, l11.wrapping_add(416u64), t11);
let t12 = load_64(m, l11.wrapping_add(288u64));
store_64(m, l11.wrapping_add(408u64), t12);
let t13 = load_64(m, l11.wrapping_add(280u64));
store_64(m, l11.wrapping_add(400u64), t13);
let t14 = load_64(m, l11.wrapping_add(272u64));
store_64(m, l11.wrapping_add(392u64), t14);
let t15 = load_64(m, l11.wrapping_add(264u64));
store_64(m, l11.wrapping_add(384u64), t15);
let t16 = load_64(m, l11.wrapping_add(296u64));
store_64(m, l11.wrapping_add(456u64), t16);
let t17 = load_64(m, l11.wrapping_add(288u64));
store_64(m, l11.wrapping_add(448u64), t17);
let t18 = load_64(m, l11.wrapping_add(280u64));
store_64(m, l11.wrapping_add(440u64), t18);
let t19 = load_64(m, l11.wrapping_add(272u64));
store_64(m, l11.wrapping_add(432u64), t19);
let t20 = load_64(m, l11.wrapping_add(264u64));
store_64(m, l11.wrapping_add(424u64), t20);
let t21 = load_64(m, l11.wrapping_add(296u64));
store_64(m, l11.wrapping_add(496u64), t21);
let t22 = load_64(m, l11.wrapping_add(288u64));
store_64(m, l11.wrapping_add(488u64), t22);
let t23 = load_64(m, l11.wrapping_add(280u64));
store_64(m, l11.wrapping_add(480u64), t23);
let t24 = load_64(m, l11.wrapping_add(272u64));
store_64(m, l11.wrapping_add(472u64), t24);
let t25 = load_64(m, l11.wrapping_add(264u64));
store_64(m, l11.wrapping_add(464u64), t25);
let t26 = load_64(m, l11.wrapping_add(296u64));
store_64(m, l11.wrapping_add(536u64), t26);
let t27 = load_64(m, l11.wrapping_add(288u64));
store_64(m, l11.wrapping_add(528u64), t27);
let t28 = load_64(m, l11.wrapping_add(280u64));
store_64(m, l11.wrapping_add(520u64), t28);
let t29 = load_64(m, l11.wrapping_add(272u64));
store_64(m, l11.wrapping_add(512u64), t29);
let t30 = load_64(m, l11.wrapping_add(264u64));
store_64(m, l11.wrapping_add(504u64), t30);
let t31 = load_64(m, l11.wrapping_add(296u64));
store_64(m, l11.wrapping_add(576u64), t31);
let t32 = load_64(m, l11.wrapping_add(288u64));
store_64(m, l11.wrapping_add(568u64), t32);
let t33 = load_64(m, l11.wrapping_add(280u64));
store_64(m, l11.wrapping_add(560u64), t33);
let t34 = load_64(m, l11.wrapping_add(272u64));
store_64(m, l11.wrapping_add(552u64), t34);
let t35 = load_64(m, l11.wrapping_add(264u64));
store_64(m, l11.wrapping_add(544u64), t35);
let t36 = load_64(m, l11.wrapping_add(296u64));
store_64(m, l11.wrapping_add(616u64), t36);
let t37 = load_64(m, l11.wrapping_add(288u64));
store_64(m, l11.wrapping_add(608u64), t37);
let t38 = load_64(m, l11.wrapping_add(280u64));
store_64(m, l11.wrapping_add(600u64), t38);
let t39 = load_64(m, l11.wrapping_add(272u64));
store_64(m, l11.wrapping_add(592u64), t39);
let t40 = load_64(m, l11.wrapping_add(264u64));
store_64(m, l11.wrapping_add(584u64), t40);
let t41 = load_64(m, l11.wrapping_add(296u64));
store_64(m, l11.wrapping_add(656u64), t41);
let t42 = load_64(m, l11.wrapping_add(288u64));
store_64(m, l11.wrapping_add(648u64), t42);
let t43 = load_64(m, l11.wrapping_add(280u64));
store_64(m, l11.wrapping_add(640u64), t43);
let t44 = load_64(m, l11.wrapping_add(272u64));
store_64(m, l11.wrapping_add(632u64), t44);
let t45 = load_64(m, l11.wrapping_add(264u64));
store_64(m, l11.wrapping_add(624u64), t45);
'b21: {
if ((l22 & 255u32) == 1u32) { break 'b21; }
l1 = l11.wrapping_add(344u64);
l2 = l11.wrapping_add(712u64);
l4 = l21;
l6 = l23;
'b22: loop {
fill(m, l11.wrapping_add(704u64), 0u32 as u8, 72u64);
f9(m, g, l11.wrapping_add(704u64), l4, l3);
if ((load_8(m, l11.wrapping_add(704u64)) as u32) != 0) { break 'b1; }
l5 = load_64(m, l2.wrapping_add(32u64));
store_64(m, l11.wrapping_add(696u64), l5);
l8 = load_64(m, l2.wrapping_add(24u64));
store_64(m, l11.wrapping_add(688u64), l8);
l9 = load_64(m, l2.wrapping_add(16u64));
store_64(m, l11.wrapping_add(680u64), l9);
l18 = load_64(m, l2.wrapping_add(8u64));
store_64(m, l11.wrapping_add(672u64), l18);
l19 = load_64(m, l2);
store_64(m, l11.wrapping_add(664u64), l19);
store_64(m, l1.wrapping_add(32u64), l5);
store_64(m, l1.wrapping_add(24u64), l8);
store_64(m, l1.wrapping_add(16u64), l9);
store_64(m, l1.wrapping_add(8u64), l18);
store_64(m, l1, l19);
l4 = l4.wrapping_add(l3);
l1 = l1.wrapping_add(40u64);
l6 = l6.wrapping_add(0xffffffffffffffffu64);
if (l6 != 0u64) { continue 'b22; }
break 'b22;
}
}
'b23: {
if (l7 == l23) { break 'b23; }
l6 = l7.wrapping_sub(l23);
l5 = l21.wrapping_add(l3.wrapping_mul(l23));
l4 = l23.wrapping_add(1u64);
l7 = l23.wrapping_add(0x100000b60u64);
l1 = 0u64;
'b24: loop {
store_64(m, l11.wrapping_add(672u64), 0u64);
store_64(m, l11.wrapping_add(664u64), 0u64);
fill(m, l11.wrapping_add(704u64), 0u32 as u8, 127u64);
let t46 = (load_8_constant(m, (load_8(m, l7.wrapping_add(l1)) as u64).wrapping_add(0x100000000u64)) as u32);
f7(m, g, l11.wrapping_add(664u64), l11.wrapping_add(704u64), l11.wrapping_add(304u64), l4, t46);
if ((load_8(m, l11.wrapping_add(664u64)) as u32) != 0) { break 'b1; }
'b25: {
l2 = load_64(m, l11.wrapping_add(672u64));
if (l2 == 0) { break 'b25; }
copy(m, l5.wrapping_add(l2.wrapping_mul(l1)), l11.wrapping_add(704u64), l2);
}
l1 = l1.wrapping_add(1u64);
if (l6 != l1) { continue 'b24; }
break 'b24;
}
}
store_64(m, l10, l20);
l0 = 0u32;
break 'b2;
}
store_64(m, l11.wrapping_add(8u64), 0u64);
store_64(m, l11.wrapping_add(16u64), 0u64);
store_64(m, l11.wrapping_add(24u64), 0u64);
store_64(m, l11.wrapping_add(32u64), 0u64);
store_64(m, l11.wrapping_add(40u64), 0u64);
store_64(m, l11.wrapping_add(48u64), 0u64);
store_16(m, l11.wrapping_add(56u64), 0u32 as u16);
l14 = 1u32;
}
store_8(m, l11.wrapping_add(80u64), 0u32 as u8);
store_64(m, l11.wrapping_add(72u64), 0u64);
store_8(m, l11.wrapping_add(65u64), l14 as u8);
store_8(m, l11.wrapping_add(64u64), l12 as u8);
let t47 = load_64(m, l11.wrapping_add(8u64));
store_64(m, l11.wrapping_add(81u64), t47);
let t48 = load_64(m, l11.wrapping_add(16u64));
store_64(m, l11.wrapping_add(89u64), t48);
let t49 = load_64(m, l11.wrapping_add(24u64));
store_64(m, l11.wrapping_add(97u64), t49);
let t50 = load_64(m, l11.wrapping_add(32u64));
store_64(m, l11.wrapping_add(105u64), t50);
let t51 = load_64(m, l11.wrapping_add(40u64));
store_64(m, l11.wrapping_add(113u64), t51);
let t52 = load_64(m, l11.wrapping_add(48u64));
store_64(m, l11.wrapping_add(121u64), t52);
let t53 = (load_16(m, l11.wrapping_add(56u64)) as u32);
store_16(m, l11.wrapping_add(129u64), t53 as u16);
let t54 = f30(m, g, l11.wrapping_add(64u64));
l0 = t54;
}
g = l11.wrapping_add(832u64);
return l0;
}
trap();
}

// codex32_version
fn of_codex32_version(m: &mut [u8], mut g: u64) -> u32 {
'b1: {
if (0u32 == 0) { break 'b1; }
trap();
trap();
}
f92(m, g);
return 100u32;
}

// rattle::export codex32_version
fn f92(m: &mut [u8], mut g: u64) {

}
