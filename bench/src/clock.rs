//! This clock has the processor time of this thread, by the C library that `std` links.

use std::time::Duration;

#[repr(C)]
struct Timespec {
    seconds: i64,
    nanoseconds: i64,
}

extern "C" {
    fn clock_gettime(clock: i32, time: *mut Timespec) -> i32;
}

const THREAD_CPUTIME: i32 = 3;

pub fn now() -> Duration {
    let mut time = Timespec { seconds: 0, nanoseconds: 0 };
    let status = unsafe { clock_gettime(THREAD_CPUTIME, &mut time) };
    assert!(status == 0, "there is no clock of processor time");
    Duration::new(time.seconds as u64, time.nanoseconds as u32)
}
