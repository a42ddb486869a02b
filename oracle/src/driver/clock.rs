//! The clock that `Instant::now()` reads in this program.

use std::cell::Cell;
use std::time::Instant;

thread_local! {
    // One for each thread, for tests run side by side.
    static NOW: Cell<u64> = const { Cell::new(0) };
}

#[repr(C)]
pub struct Timespec {
    seconds: i64,
    nanoseconds: i64,
}

// Clock 2^64 - 1 is laid on the last moment an Instant can hold, so that adding
// to an Instant overflows exactly where a time of 64 bits does.
const SECOND: u64 = 1_000_000_000;
const BASE_SECONDS: i64 = i64::MAX - (u64::MAX / SECOND) as i64;
const BASE_NANOSECONDS: u64 = (SECOND - 1) - u64::MAX % SECOND;

/// Takes the place of the system's function for the whole program.
#[unsafe(no_mangle)]
pub extern "C" fn clock_gettime(_clock: i32, out: *mut Timespec) -> i32 {
    let now = NOW.get();
    let nanoseconds = now % SECOND + BASE_NANOSECONDS;
    let time = Timespec {
        seconds: BASE_SECONDS + (now / SECOND) as i64 + (nanoseconds / SECOND) as i64,
        nanoseconds: (nanoseconds % SECOND) as i64,
    };
    // SAFETY: the caller hands a place for the answer, as the system asks.
    unsafe { out.write(time) };
    0
}

pub fn set(now: u64) {
    NOW.set(now);
}

/// The Instant at which the clock shows this time.
pub fn instant(time: u64) -> Instant {
    let now = NOW.replace(time);
    let instant = Instant::now();
    set(now);
    instant
}
