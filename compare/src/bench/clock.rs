//! The processor time of this thread, which other programs on a busy machine don't lengthen.

#[repr(C)]
struct Time {
    seconds: i64,
    nanoseconds: i64,
}

/// Linux's CLOCK_THREAD_CPUTIME_ID.
const OF_THIS_THREAD: i32 = 3;

unsafe extern "C" {
    fn clock_gettime(clock: i32, time: *mut Time) -> i32;
}

fn now() -> u64 {
    let mut time = Time { seconds: 0, nanoseconds: 0 };
    // SAFETY: the struct is laid out as the C library's and is writable for the call.
    let failed = unsafe { clock_gettime(OF_THIS_THREAD, &mut time) };
    assert!(failed == 0, "the thread's clock is not at hand");
    (time.seconds * 1_000_000_000 + time.nanoseconds) as u64
}

/// The nanoseconds that the work takes, and what it gives.
pub fn timed<T>(work: impl FnOnce() -> T) -> (u64, T) {
    let begun = now();
    let result = work();
    (now() - begun, result)
}
