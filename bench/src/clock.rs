//! CPU time, in nanoseconds: other work on the machine is not counted.

#[repr(C)]
#[derive(Default)]
struct Time {
    seconds: i64,
    /// Nanoseconds, or microseconds where `Usage` has it.
    rest: i64,
}

/// Linux's `struct rusage`.
#[repr(C)]
#[derive(Default)]
struct Usage {
    user: Time,
    system: Time,
    other: [i64; 14],
}

unsafe extern "C" {
    fn clock_gettime(clock: i32, time: *mut Time) -> i32;
    fn getrusage(who: i32, usage: *mut Usage) -> i32;
}

const CLOCK_THREAD_CPUTIME_ID: i32 = 3;
const RUSAGE_CHILDREN: i32 = -1;

/// The clock of both sides: this thread's time.
#[unsafe(no_mangle)]
pub extern "C" fn bench_now() -> u64 {
    let mut time = Time::default();
    let status = unsafe { clock_gettime(CLOCK_THREAD_CPUTIME_ID, &mut time) };
    assert_eq!(status, 0);
    time.seconds as u64 * 1_000_000_000 + time.rest as u64
}

/// The time of the programs that were run and have ended.
pub fn programs_now() -> u64 {
    let mut usage = Usage::default();
    let status = unsafe { getrusage(RUSAGE_CHILDREN, &mut usage) };
    assert_eq!(status, 0);
    let nanos = |time: Time| time.seconds as u64 * 1_000_000_000 + time.rest as u64 * 1_000;
    nanos(usage.user) + nanos(usage.system)
}
