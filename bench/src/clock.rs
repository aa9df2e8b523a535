//! Processor time. Another job on the machine disturbs it less than a clock on the wall, and Lua's `os.clock` is the same.

use std::time::Duration;

/// What `clock_gettime` writes on 64-bit Linux.
#[repr(C)]
struct Time {
    seconds: i64,
    nanoseconds: i64,
}

/// A time inside of [`Usage`].
#[repr(C)]
struct UsageTime {
    seconds: i64,
    microseconds: i64,
}

/// What `getrusage` writes on 64-bit Linux: two times, and fourteen numbers that are not looked at.
#[repr(C)]
struct Usage {
    user: UsageTime,
    system: UsageTime,
    rest: [i64; 14],
}

unsafe extern "C" {
    fn clock_gettime(clock: i32, time: *mut Time) -> i32;
    fn getrusage(whose: i32, usage: *mut Usage) -> i32;
}

/// What this process took until now.
pub fn own() -> Duration {
    const PROCESS: i32 = 2;
    let mut time = Time { seconds: 0, nanoseconds: 0 };
    // SAFETY: the clock is one that Linux has, and it writes one `Time` by the pointer.
    let failed = unsafe { clock_gettime(PROCESS, &raw mut time) };
    assert_eq!(failed, 0, "the system does not say the processor time");
    Duration::from_secs(time.seconds.unsigned_abs()) + Duration::from_nanos(time.nanoseconds.unsigned_abs())
}

/// What all children that have ended took, in the program and in the system for it.
pub fn children() -> Duration {
    const CHILDREN: i32 = -1;
    const ZERO: UsageTime = UsageTime { seconds: 0, microseconds: 0 };
    let mut usage = Usage { user: ZERO, system: ZERO, rest: [0; 14] };
    // SAFETY: it writes one `Usage` by the pointer.
    let failed = unsafe { getrusage(CHILDREN, &raw mut usage) };
    assert_eq!(failed, 0, "the system does not say the children's processor time");
    duration(&usage.user) + duration(&usage.system)
}

fn duration(time: &UsageTime) -> Duration {
    Duration::from_secs(time.seconds.unsigned_abs()) + Duration::from_micros(time.microseconds.unsigned_abs())
}
