// What the twins measure by: processor time, and numbers that no processor could guess.

#[repr(C)]
struct Time {
    seconds: i64,
    nanos: i64,
}

unsafe extern "C" {
    fn clock_gettime(clock: i32, time: *mut Time) -> i32;
}

const THREAD_CPU_TIME: i32 = 3;

// The processor time of this thread, in nanoseconds, by Linux's clock of it.
pub fn now() -> u128 {
    let mut time = Time { seconds: 0, nanos: 0 };
    // SAFETY: `time` is a timespec of this platform, and is written before the call returns.
    unsafe { clock_gettime(THREAD_CPU_TIME, &mut time) };
    time.seconds as u128 * 1_000_000_000 + time.nanos as u128
}

pub fn next(word: u64) -> u64 {
    word.wrapping_mul(6364136223846793005).wrapping_add(1442695040888963407)
}
