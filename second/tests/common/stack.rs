//! Threads with little stack. Those of Rust's library have some 24 KiB at the
//! least, so these are made by the C library, which takes 16 KiB.

use std::ffi::{c_int, c_ulong, c_void};
use std::ptr;

/// The attributes of a thread, as large as they are on Linux (x86-64).
#[repr(C, align(8))]
struct Attributes([u8; 56]);

extern "C" {
    fn pthread_attr_init(attributes: *mut Attributes) -> c_int;
    fn pthread_attr_setstacksize(attributes: *mut Attributes, size: usize) -> c_int;
    fn pthread_create(
        thread: *mut c_ulong,
        attributes: *const Attributes,
        start: extern "C" fn(*mut c_void) -> *mut c_void,
        handed: *mut c_void,
    ) -> c_int;
    fn pthread_join(thread: c_ulong, result: *mut *mut c_void) -> c_int;
}

/// What a thread is to do, and what came of it.
struct Task<W, T> {
    work: Option<W>,
    told: Option<T>,
}

/// Where a thread starts.
extern "C" fn start<W: FnOnce() -> T, T>(handed: *mut c_void) -> *mut c_void {
    // SAFETY: on_a_stack hands in a task of its own and waits for the thread.
    let task = unsafe { &mut *handed.cast::<Task<W, T>>() };
    task.told = task.work.take().map(|work| work());
    ptr::null_mut()
}

/// Runs `work` on a thread of its own with a stack of this size, in which the
/// C library keeps some 4 KiB for itself.
pub fn on_a_stack<T: Send, W: FnOnce() -> T + Send>(size: usize, work: W) -> T {
    let mut task = Task {
        work: Some(work),
        told: None,
    };
    let handed = ptr::from_mut(&mut task).cast();
    let (mut attributes, mut thread) = (Attributes([0; 56]), 0);
    // SAFETY: the pointers are to locals, which outlive the thread, since it
    // is waited for; work and result may change threads.
    let results = unsafe {
        [
            pthread_attr_init(&mut attributes),
            pthread_attr_setstacksize(&mut attributes, size),
            pthread_create(&mut thread, &attributes, start::<W, T>, handed),
            pthread_join(thread, ptr::null_mut()),
        ]
    };
    assert_eq!(results, [0; 4], "a thread with a stack of {size} octets");
    task.told.expect("the work is done")
}
