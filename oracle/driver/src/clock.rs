//! A clock that the commands set: the standard library's `Instant` links to this `clock_gettime`, so the original sees
//! exactly these milliseconds.

use std::sync::atomic::{AtomicU64, Ordering};
use std::time::Instant;

static NOW: AtomicU64 = AtomicU64::new(0);
static READINGS: AtomicU64 = AtomicU64::new(0);

#[repr(C)]
pub struct TimeSpec {
    seconds: i64,
    nanoseconds: i64,
}

/// # Safety
/// As the C function: `at` points to a time that may be written.
#[unsafe(no_mangle)]
pub unsafe extern "C" fn clock_gettime(_clock: i32, at: *mut TimeSpec) -> i32 {
    READINGS.fetch_add(1, Ordering::Relaxed);
    let now = NOW.load(Ordering::Relaxed);
    let time = TimeSpec { seconds: (now / 1000) as i64, nanoseconds: (now % 1000 * 1_000_000) as i64 };
    unsafe { at.write(time) };
    0
}

pub fn set(milliseconds: u64) {
    NOW.store(milliseconds, Ordering::Relaxed);
}

/// How often the clock was read. Tokio's own clock is paused and doesn't read it, so a rise shows that the worker went
/// round.
pub fn readings() -> u64 {
    READINGS.load(Ordering::Relaxed)
}

/// The milliseconds that the clock showed at `instant`.
pub fn shown_at(instant: Instant) -> u128 {
    let kept = NOW.swap(0, Ordering::Relaxed);
    let zero = Instant::now();
    NOW.store(kept, Ordering::Relaxed);
    instant.duration_since(zero).as_millis()
}
