//! The processor time of this thread: what other programs take of the machine is not counted.

#[repr(C)]
#[derive(Default)]
struct Timespec {
    seconds: i64,
    nanoseconds: i64,
}

extern "C" {
    fn clock_gettime(clock: i32, out: *mut Timespec) -> i32;
}

/// CLOCK_THREAD_CPUTIME_ID of Linux
const THREAD: i32 = 3;

pub fn nanoseconds() -> i64 {
    let mut now = Timespec::default();
    let failed = unsafe { clock_gettime(THREAD, &mut now) };
    assert_eq!(failed, 0, "Linux has this clock");
    now.seconds * 1_000_000_000 + now.nanoseconds
}
