//! A thread whose stack is looked at when it has ended.

use std::ffi::c_void;

const SIZE: usize = 1 << 20;

#[repr(C, align(4096))]
struct Stack([u8; SIZE]);

// More than any C library takes for it.
#[repr(C, align(16))]
struct Attributes([u8; 256]);

type Start = extern "C" fn(*mut c_void) -> *mut c_void;

extern "C" {
    fn pthread_attr_init(attributes: *mut Attributes) -> i32;
    fn pthread_attr_setstack(attributes: *mut Attributes, start: *mut c_void, size: usize) -> i32;
    fn pthread_create(
        thread: *mut usize,
        attributes: *const Attributes,
        start: Start,
        given: *mut c_void,
    ) -> i32;
    fn pthread_join(thread: usize, returned: *mut *mut c_void) -> i32;
}

extern "C" fn start(given: *mut c_void) -> *mut c_void {
    // SAFETY: what `after` gives, which waits for the end of the thread.
    let run = unsafe { &*given.cast::<&dyn Fn()>() };
    run();
    std::ptr::null_mut()
}

/// The stack of a thread that has run this.
pub fn after(run: impl Fn()) -> Vec<u8> {
    let mut stack: Box<Stack> = zeros();
    let mut attributes = Attributes([0; 256]);
    let (mut thread, run) = (0, &run as &dyn Fn());
    // SAFETY: the stack lives until the thread has ended, and nothing else uses it; the thread's function gets what it
    // takes.
    unsafe {
        assert_eq!(pthread_attr_init(&mut attributes), 0);
        let memory = stack.0.as_mut_ptr().cast();
        assert_eq!(pthread_attr_setstack(&mut attributes, memory, SIZE), 0);
        let given = &run as *const &dyn Fn() as *mut c_void;
        assert_eq!(pthread_create(&mut thread, &attributes, start, given), 0);
        assert_eq!(pthread_join(thread, std::ptr::null_mut()), 0);
    }
    std::hint::black_box(&mut stack).0.to_vec()
}

// A stack of zeros, which is never on this thread's.
fn zeros() -> Box<Stack> {
    let layout = std::alloc::Layout::new::<Stack>();
    // SAFETY: a box of that layout, and zeros are a stack.
    unsafe { Box::from_raw(std::alloc::alloc_zeroed(layout).cast()) }
}
