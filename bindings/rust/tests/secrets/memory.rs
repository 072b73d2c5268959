//! An allocator that searches what is freed.

use std::alloc::{GlobalAlloc, Layout, System};
use std::cell::Cell;
use std::ptr;

// The pieces that a thread searches for, and the number of blocks that had one.
thread_local! {
    static PIECES: Cell<(*const u64, usize)> = const { Cell::new((ptr::null(), 0)) };
    static FOUND: Cell<usize> = const { Cell::new(0) };
}

/// All eight bytes in a row.
pub fn eights(bytes: &[u8]) -> Vec<u64> {
    let eight = |it: &[u8]| u64::from_ne_bytes(it.try_into().unwrap());
    bytes.windows(8).map(eight).collect()
}

/// How many places of a memory have one of these pieces, which are in order.
pub fn count(pieces: &[u64], memory: &[u8]) -> usize {
    let has_one = |at: usize| {
        // SAFETY: the eight bytes lie in the memory.
        let eight = unsafe { ptr::read_unaligned(memory.as_ptr().add(at).cast()) };
        pieces.binary_search(&eight).is_ok()
    };
    (0..memory.len().saturating_sub(7))
        .filter(|at| has_one(*at))
        .count()
}

struct Searching;

#[global_allocator]
static SEARCHING: Searching = Searching;

// SAFETY: all is asked of the system's allocator.
unsafe impl GlobalAlloc for Searching {
    unsafe fn alloc(&self, layout: Layout) -> *mut u8 {
        // Of zeros, so that each byte has a value when it is searched.
        System.alloc_zeroed(layout)
    }

    unsafe fn dealloc(&self, start: *mut u8, layout: Layout) {
        let (pieces, length) = PIECES.get();
        if length > 0 {
            let memory = std::slice::from_raw_parts(start, layout.size());
            let pieces = std::slice::from_raw_parts(pieces, length);
            FOUND.set(FOUND.get() + usize::from(count(pieces, memory) > 0));
        }
        System.dealloc(start, layout);
    }
}

/// How many blocks that this thread frees meanwhile have one of these pieces.
pub fn freed_with(pieces: &[u64], run: impl FnOnce()) -> usize {
    FOUND.set(0);
    PIECES.set((pieces.as_ptr(), pieces.len()));
    run();
    PIECES.set((ptr::null(), 0));
    FOUND.get()
}
