//! Nanoseconds that this thread has run: what other programs take of the machine meanwhile is not counted.
#[cfg(target_os = "linux")]
pub fn ran() -> u64 {
    #[repr(C)]
    struct Time {
        seconds: i64,
        nanoseconds: i64,
    }
    extern "C" {
        fn clock_gettime(clock: i32, time: *mut Time) -> i32;
    }
    const THREAD: i32 = 3;
    let mut t = Time { seconds: 0, nanoseconds: 0 };
    // The time's place is lent for the call.
    unsafe { clock_gettime(THREAD, &mut t) };
    t.seconds as u64 * 1_000_000_000 + t.nanoseconds as u64
}

#[cfg(not(target_os = "linux"))]
pub fn ran() -> u64 {
    use std::sync::OnceLock;
    use std::time::Instant;
    static START: OnceLock<Instant> = OnceLock::new();
    START.get_or_init(Instant::now).elapsed().as_nanos() as u64
}
