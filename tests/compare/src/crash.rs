//! Where a call ends the whole process, its origin is still told, with the seed in it.

use std::ffi::c_int;
use std::ptr::null_mut;
use std::sync::atomic::{AtomicPtr, AtomicUsize, Ordering};

/// The signals of a bad access, a bad instruction, a bad division and an abort on Linux.
const SIGNALS: [c_int; 5] = [4, 6, 7, 8, 11];

static ORIGIN: AtomicPtr<u8> = AtomicPtr::new(null_mut());
static LENGTH: AtomicUsize = AtomicUsize::new(0);

extern "C" {
    fn signal(number: c_int, handler: extern "C" fn(c_int)) -> usize;
    fn write(file: c_int, bytes: *const u8, count: usize) -> isize;
    fn _exit(status: c_int) -> !;
}

extern "C" fn tell(_: c_int) {
    let tell = |bytes: *const u8, count: usize| {
        // SAFETY: the bytes are those of a string that lives as long as its case is tried.
        unsafe { write(1, bytes, count) }
    };
    let what = "DIFFERENCE: a call ends the process (";
    tell(what.as_ptr(), what.len());
    tell(ORIGIN.load(Ordering::SeqCst), LENGTH.load(Ordering::SeqCst));
    tell(")\n".as_ptr(), 2);
    // SAFETY: ending the process is all that is left to do.
    unsafe { _exit(1) }
}

/// From now on a call that ends the process is told.
pub fn watch() {
    for number in SIGNALS {
        // SAFETY: the handler calls only `write` and `_exit`, which a handler may call.
        unsafe { signal(number, tell) };
    }
}

/// Runs something of this origin.
pub fn during<T>(origin: &str, run: impl FnOnce() -> T) -> T {
    LENGTH.store(0, Ordering::SeqCst);
    ORIGIN.store(origin.as_ptr().cast_mut(), Ordering::SeqCst);
    LENGTH.store(origin.len(), Ordering::SeqCst);
    let result = run();
    LENGTH.store(0, Ordering::SeqCst);
    result
}
