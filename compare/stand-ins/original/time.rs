//! Stands for the clock: it says what it was set to.

use std::cell::Cell;
use std::time::Duration;

thread_local! {
    static NANOSECONDS: Cell<u64> = const { Cell::new(0) };
}

/// Sets the clock of this thread.
pub fn set_clock(nanoseconds: u64) {
    NANOSECONDS.set(nanoseconds);
}

/// The time since 1970.
pub fn unix_timestamp() -> Duration {
    Duration::from_nanos(NANOSECONDS.get())
}
