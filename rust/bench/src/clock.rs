//! The CPU time of this process, which stands still while other processes run.

use std::ffi::{c_int, c_long};
use std::time::Duration;

#[repr(C)]
struct Timespec {
    seconds: c_long,
    nanoseconds: c_long,
}

extern "C" {
    fn clock_gettime(clock: c_int, time: *mut Timespec) -> c_int;
}

/// Linux's number of the clock.
const CLOCK_PROCESS_CPUTIME_ID: c_int = 2;

/// The CPU time that this process has used so far.
pub fn cpu_time() -> Duration {
    let mut time = Timespec { seconds: 0, nanoseconds: 0 };
    // SAFETY: `time` is a variable of this function, laid out as 64-bit Linux lays out its `struct timespec`.
    let status = unsafe { clock_gettime(CLOCK_PROCESS_CPUTIME_ID, &mut time) };
    assert_eq!(status, 0, "there is no clock of CPU time");
    Duration::new(time.seconds as u64, time.nanoseconds as u32)
}
