//! The processor time of this thread: while other work has the processor, it stands still.

use std::ffi::c_int;

/// `struct timespec` of 64-bit Linux.
#[repr(C)]
struct Moment {
    seconds: i64,
    nanoseconds: i64,
}

/// `CLOCK_THREAD_CPUTIME_ID` of Linux.
const THREAD: c_int = 3;

extern "C" {
    fn clock_gettime(clock: c_int, moment: *mut Moment) -> c_int;
}

/// Nanoseconds that this thread has had the processor.
pub fn now() -> f64 {
    let mut moment = Moment {
        seconds: 0,
        nanoseconds: 0,
    };
    // SAFETY: the call writes one moment, which is lent to it.
    let status = unsafe { clock_gettime(THREAD, &mut moment) };
    assert_eq!(status, 0, "the thread has a clock");
    moment.seconds as f64 * 1e9 + moment.nanoseconds as f64
}
