// The machine on which the functions of a library for wasm64 run, without unsafe code. A call makes its memory, one slice: the
// library's stack, and then copies of what the call is given and room for what it writes. An address below 2^32 is a place in
// that slice; from 2^32 on it is one of the constants, which nothing writes to. Each access is tested to be within the slice or
// within the constants: a wrong translation may give a wrong answer or a panic, and no fault of memory.

/// The address of the first constant.
const FIRST: u64 = 1 << 32;

/// The first of some bytes.
const fn first_of<const N: usize>(bytes: &[u8]) -> [u8; N] {
    let mut first = [0; N];
    let mut i = 0;
    while i < N {
        first[i] = bytes[i];
        i += 1;
    }
    first
}

/// What the library does where it does what it is proved never to do.
#[cold]
#[inline(never)]
fn trap() -> ! {
    panic!("the library did what it is proved never to do")
}

/// An address as an index: too large a one stays too large where an index has 32 bits.
#[inline(always)]
fn index(a: u64) -> usize {
    if usize::BITS < 64 && a > u32::MAX as u64 {
        usize::MAX
    } else {
        a as usize
    }
}

macro_rules! numbers {
    ($($t:ty, $size:literal, $load:ident, $constant:ident, $other:ident, $store:ident;)*) => {$(
        #[inline(always)]
        fn $load(m: &[u8], a: u64) -> $t {
            let i = index(a);
            match m.get(i..i.wrapping_add($size)).map(<[u8; $size]>::try_from) {
                Some(Ok(bytes)) => <$t>::from_le_bytes(bytes),
                _ => $other(&CONSTANTS, a.wrapping_sub(FIRST)),
            }
        }
        /// Of an address that is made of one among the constants.
        #[inline(always)]
        fn $constant(m: &[u8], a: u64) -> $t {
            let i = index(a.wrapping_sub(FIRST));
            match CONSTANTS.get(i..i.wrapping_add($size)).map(<[u8; $size]>::try_from) {
                Some(Ok(bytes)) => <$t>::from_le_bytes(bytes),
                _ => $other(m, a),
            }
        }
        /// Where the bytes are not in the place that was looked at first.
        #[cold]
        #[inline(never)]
        fn $other(part: &[u8], a: u64) -> $t {
            let i = index(a);
            match part.get(i..i.wrapping_add($size)).map(<[u8; $size]>::try_from) {
                Some(Ok(bytes)) => <$t>::from_le_bytes(bytes),
                _ => trap(),
            }
        }
        #[inline(always)]
        fn $store(m: &mut [u8], a: u64, x: $t) {
            let i = index(a);
            match m.get_mut(i..i.wrapping_add($size)) {
                Some(bytes) => bytes.copy_from_slice(&x.to_le_bytes()),
                None => trap(),
            }
        }
    )*};
}

numbers! {
    u8, 1, load_8, load_8_constant, load_8_other, store_8;
    u16, 2, load_16, load_16_constant, load_16_other, store_16;
    u32, 4, load_32, load_32_constant, load_32_other, store_32;
    u64, 8, load_64, load_64_constant, load_64_other, store_64;
}

/// `size` bytes from an address on, as a range.
#[inline(always)]
fn range(a: u64, size: u64) -> core::ops::Range<usize> {
    index(a)..index(a.saturating_add(size))
}

#[inline(always)]
fn fill(m: &mut [u8], to: u64, byte: u8, size: u64) {
    if size == 0 {
        return;
    }
    match m.get_mut(range(to, size)) {
        Some(bytes) => bytes.fill(byte),
        None => trap(),
    }
}

#[inline(always)]
fn copy(m: &mut [u8], to: u64, from: u64, size: u64) {
    if size == 0 {
        return;
    }
    let (source, target) = (range(from, size), range(to, size));
    if source.end <= m.len() && target.end <= m.len() {
        m.copy_within(source, target.start);
    } else {
        copy_constants(m, target, from, size);
    }
}

#[inline(never)]
fn copy_constants(m: &mut [u8], target: core::ops::Range<usize>, from: u64, size: u64) {
    match (m.get_mut(target), CONSTANTS.get(range(from.wrapping_sub(FIRST), size))) {
        (Some(bytes), Some(constants)) => bytes.copy_from_slice(constants),
        _ => trap(),
    }
}

/// The product of two numbers of 128 bits, each as its low and its high half, is put at an address.
fn multiply_128(m: &mut [u8], to: u64, a: u64, a_high: u64, b: u64, b_high: u64) {
    let whole = (a as u128 | (a_high as u128) << 64).wrapping_mul(b as u128 | (b_high as u128) << 64);
    store_64(m, to, whole as u64);
    store_64(m, to.wrapping_add(8), (whole >> 64) as u64);
}

/// A number of 128 bits, shifted to the right by fewer bits than 128, is put at an address.
fn shift_right_128(m: &mut [u8], to: u64, low: u64, high: u64, by: u32) {
    let whole = (low as u128 | (high as u128) << 64) >> (by & 127);
    store_64(m, to, whole as u64);
    store_64(m, to.wrapping_add(8), (whole >> 64) as u64);
}

// What the calls make a machine of.

/// The refusal of a call for which there is not enough memory.
const NO_MEMORY: u32 = 91;

/// Where what a call is given lies in its memory, after the stack, at multiples of 16. How much that is in all.
struct Layout(u64);

impl Layout {
    #[inline(always)]
    fn put(&mut self, size: usize) -> u64 {
        let at = self.0;
        self.0 = at.saturating_add(size as u64).saturating_add(15) & !15;
        at
    }
}

/// Runs a call in memory on the stack, if `N` or `M` bytes are enough, or on the heap. Secrets are filled with zeros.
#[inline(always)]
fn with<const N: usize, const M: usize, const SECRET: bool>(need: u64, call: &mut dyn FnMut(&mut [u8]) -> u32) -> u32 {
    if need <= N as u64 {
        in_place::<N, SECRET>(need as usize, call)
    } else if need <= M as u64 {
        in_place::<M, SECRET>(need as usize, call)
    } else if need < FIRST && need <= isize::MAX as u64 {
        on_heap::<SECRET>(need as usize, call)
    } else {
        NO_MEMORY
    }
}

#[inline(never)]
fn in_place<const N: usize, const SECRET: bool>(need: usize, call: &mut dyn FnMut(&mut [u8]) -> u32) -> u32 {
    let mut memory = [0u8; N];
    let number = call(&mut memory[..need]);
    if SECRET {
        wipe(&mut memory);
    }
    number
}

#[cfg(feature = "alloc")]
#[inline(never)]
fn on_heap<const SECRET: bool>(need: usize, call: &mut dyn FnMut(&mut [u8]) -> u32) -> u32 {
    let mut memory = alloc::vec::Vec::new();
    if memory.try_reserve_exact(need).is_err() {
        return NO_MEMORY;
    }
    memory.resize(need, 0u8);
    let number = call(&mut memory);
    if SECRET {
        wipe(&mut memory);
    }
    number
}

/// Where there is no heap, 32 KB of the stack are the most that a call has.
#[cfg(not(feature = "alloc"))]
fn on_heap<const SECRET: bool>(need: usize, call: &mut dyn FnMut(&mut [u8]) -> u32) -> u32 {
    if need > 32768 {
        return NO_MEMORY;
    }
    in_place::<32768, SECRET>(need, call)
}

/// Zeros, which a compiler does not leave out, since it is told that they are read.
#[inline(never)]
fn wipe(memory: &mut [u8]) {
    memory.fill(0);
    core::hint::black_box(memory);
}

/// As many bytes of what is not read to its end as any answer depends on.
#[inline(always)]
fn some(bytes: &[u8]) -> &[u8] {
    &bytes[..bytes.len().min(1 << 28)]
}

#[inline(always)]
fn some_mut(bytes: &mut [u8]) -> &mut [u8] {
    let most = bytes.len().min(1 << 28);
    &mut bytes[..most]
}

#[inline(always)]
fn put(m: &mut [u8], at: u64, bytes: &[u8]) {
    m[at as usize..at as usize + bytes.len()].copy_from_slice(bytes);
}

#[inline(always)]
fn take(m: &[u8], at: u64, bytes: &mut [u8]) {
    bytes.copy_from_slice(&m[at as usize..at as usize + bytes.len()]);
}

fn put_sizes(m: &mut [u8], at: u64, sizes: &[usize]) {
    for (i, size) in sizes.iter().enumerate() {
        store_64(m, at + 8 * i as u64, *size as u64);
    }
}

fn take_sizes(m: &[u8], at: u64, sizes: &mut [usize]) {
    for (i, size) in sizes.iter_mut().enumerate() {
        *size = index(load_64(m, at + 8 * i as u64));
    }
}
