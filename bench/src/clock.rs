//! The processor's time: what else runs on the machine does not count, unless it is in the way.

/// A time as the C library gives it on Linux with 64 bits.
#[repr(C)]
struct Timespec {
    seconds: i64,
    nanoseconds: i64,
}

unsafe extern "C" {
    fn clock_gettime(clock: i32, time: *mut Timespec) -> i32;
}

/// The time that this thread has had, for itself and in the system for it.
const CLOCK_THREAD_CPUTIME_ID: i32 = 3;

/// The seconds of the processor's time that `run` takes. What it answers is let go after.
pub fn seconds<T>(run: impl FnOnce() -> T) -> f64 {
    let start = now();
    let result = std::hint::black_box(run());
    let seconds = now() - start;
    drop(result);
    seconds
}

/// The seconds of one call, out of as many that the clock can tell.
pub fn seconds_of_one<T>(calls: u32, mut run: impl FnMut() -> T) -> f64 {
    let all = seconds(|| {
        for _ in 0..calls {
            std::hint::black_box(run());
        }
    });
    all / f64::from(calls)
}

fn now() -> f64 {
    let mut time = Timespec {
        seconds: 0,
        nanoseconds: 0,
    };
    // It writes one time to where it is told.
    let failed = unsafe { clock_gettime(CLOCK_THREAD_CPUTIME_ID, &mut time) };
    assert_eq!(failed, 0, "the system has no clock for a thread");
    time.seconds as f64 + 1e-9 * time.nanoseconds as f64
}
