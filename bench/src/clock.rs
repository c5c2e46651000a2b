//! The clock by which answers are timed.

use std::env;
use std::ffi::c_int;
use std::sync::OnceLock;
use std::time::{Duration, Instant};

#[repr(C)]
struct Time {
    seconds: i64,
    nanoseconds: i64,
}

/// The processor time of the calling thread, as Linux numbers clocks.
const THREAD_CLOCK: c_int = 3;

extern "C" {
    fn clock_gettime(clock: c_int, time: *mut Time) -> c_int;
}

/// The time since some moment; with CPUTIME in the environment the processor time of this thread, for a machine that is busy.
pub fn now() -> Duration {
    static START: OnceLock<Option<Instant>> = OnceLock::new();
    match START.get_or_init(|| env::var_os("CPUTIME").is_none().then(Instant::now)) {
        Some(start) => start.elapsed(),
        None => thread_time(),
    }
}

fn thread_time() -> Duration {
    let mut time = Time { seconds: 0, nanoseconds: 0 };
    // SAFETY: the call writes one `timespec`, which on 64-bit Linux is two 64-bit numbers.
    let failed = unsafe { clock_gettime(THREAD_CLOCK, &mut time) };
    assert_eq!(failed, 0);
    Duration::new(time.seconds as u64, time.nanoseconds as u32)
}

#[cfg(test)]
mod tests {
    use super::*;

    #[test]
    fn sleeping_takes_no_processor_time() {
        let start = (thread_time(), now());
        std::thread::sleep(Duration::from_millis(30));
        assert!(thread_time() - start.0 < Duration::from_millis(20));
        assert!(now() - start.1 >= Duration::from_millis(30));
    }
}
