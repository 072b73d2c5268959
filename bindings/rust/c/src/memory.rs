//! Memory that a call is lent, and how what it leaves is wiped.

use crate::declared::{Memory, CODEX32_STACK_SIZE};
use std::mem::MaybeUninit;
use std::sync::atomic::{compiler_fence, Ordering};

// Sixteen bytes, aligned to as many.
#[derive(Clone, Copy)]
#[repr(C, align(16))]
struct Block([u8; 16]);

/// Memory for a call.
pub struct Lent {
    blocks: Vec<Block>,
    size: usize,
}

impl Lent {
    /// `size` bytes.
    pub fn new(size: usize) -> Lent {
        let blocks = vec![Block([0; 16]); size.div_ceil(16)];
        Lent { blocks, size }
    }

    /// As a function takes it.
    pub fn memory(&mut self) -> Memory {
        Memory {
            start: self.blocks.as_mut_ptr().cast(),
            size: self.size,
        }
    }

    /// Puts zeros over it.
    pub fn wipe(&mut self) {
        wipe(&mut self.blocks, Block([0; 16]));
    }
}

// Puts zeros over items, which no compiler leaves out.
fn wipe<T: Copy>(items: &mut [T], zero: T) {
    for item in items {
        // SAFETY: what is borrowed may be written to.
        unsafe { std::ptr::write_volatile(item, zero) };
    }
    compiler_fence(Ordering::SeqCst);
}

// More of the stack than any function of the library takes, in items of eight bytes.
const STACK: usize = CODEX32_STACK_SIZE / 8;

/// Puts zeros over the stack below the function that calls it, where a call of the library left copies of a secret.
#[inline(never)]
pub fn wipe_stack() {
    wipe(
        &mut [MaybeUninit::<u64>::uninit(); STACK],
        MaybeUninit::new(0),
    );
}
