//! The processor time of this thread, on Linux. Other work on the machine does not count but for what it takes of
//! the caches.

use std::ffi::{c_int, c_long};
use std::io;
use std::time::Duration;

#[repr(C)]
struct Timespec {
    seconds: i64,
    nanos: c_long,
}

const CLOCK_THREAD_CPUTIME_ID: c_int = 3;

extern "C" {
    fn clock_gettime(clock: c_int, time: *mut Timespec) -> c_int;
}

/// What this thread has used so far.
pub fn used() -> Duration {
    let mut time = Timespec { seconds: 0, nanos: 0 };
    // SAFETY: the call writes one Timespec.
    let failed = unsafe { clock_gettime(CLOCK_THREAD_CPUTIME_ID, &mut time) };
    assert_eq!(failed, 0, "the processor time: {}", io::Error::last_os_error());
    Duration::new(time.seconds as u64, time.nanos as u32)
}
