//! Processor time of this thread, so that others on the machine do not count.

/// Nanoseconds since some point that stays the same.
#[cfg(all(target_os = "linux", target_pointer_width = "64"))]
pub fn nanoseconds() -> u64 {
    /// `struct timespec` and a clock of <time.h>.
    #[repr(C)]
    struct Time {
        seconds: i64,
        nanoseconds: i64,
    }
    const THREAD_CPUTIME: i32 = 3;
    extern "C" {
        fn clock_gettime(clock: i32, time: *mut Time) -> i32;
    }
    let mut time = Time {
        seconds: 0,
        nanoseconds: 0,
    };
    // SAFETY: the call writes a `struct timespec`, which `Time` is here.
    let failed = unsafe { clock_gettime(THREAD_CPUTIME, &mut time) };
    assert_eq!(failed, 0, "there is no clock of this thread");
    time.seconds.unsigned_abs() * 1_000_000_000 + time.nanoseconds.unsigned_abs()
}

/// Nanoseconds since the first call: elsewhere, time on the wall.
#[cfg(not(all(target_os = "linux", target_pointer_width = "64")))]
pub fn nanoseconds() -> u64 {
    use std::sync::OnceLock;
    use std::time::Instant;
    static START: OnceLock<Instant> = OnceLock::new();
    START.get_or_init(Instant::now).elapsed().as_nanos() as u64
}
