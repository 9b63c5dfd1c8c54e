// The clock of the drivers that other jobs on the machine may not disturb.

// The processor time of this thread, in milliseconds: other work on the machine does not count in it, but for what it does
// to the caches.
pub fn now() -> f64 {
    #[repr(C)]
    struct Time {
        seconds: i64,
        nanoseconds: i64,
    }
    extern "C" {
        fn clock_gettime(clock: i32, time: *mut Time) -> i32;
    }
    let mut time = Time { seconds: 0, nanoseconds: 0 };
    unsafe { clock_gettime(3, &mut time) };
    time.seconds as f64 * 1e3 + time.nanoseconds as f64 / 1e6
}
