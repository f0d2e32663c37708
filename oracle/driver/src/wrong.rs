//! The switch of the wrong hosts. At most one is on, and none while the right
//! host runs.

use std::cell::Cell;
use std::panic::{catch_unwind, resume_unwind, AssertUnwindSafe};

use crate::bench;

// One constant for each wrong host, and ALL: number, name, what is wrong.
include!(concat!(env!("OUT_DIR"), "/wrongs.rs"));

thread_local! {
    static ON: Cell<u16> = const { Cell::new(0) };
}

#[inline]
pub fn is(which: u16) -> bool {
    ON.get() == which
}

/// Whether some wrong host is on.
#[inline]
pub fn on() -> bool {
    ON.get() != 0
}

/// Runs with one wrong host switched on (0: none), and off again whatever
/// happens.
pub fn with<R>(which: u16, act: impl FnOnce() -> R) -> R {
    struct Off;
    impl Drop for Off {
        fn drop(&mut self) {
            ON.set(0);
        }
    }
    let _off = Off;
    ON.set(which);
    act()
}

/// Does something, and takes a script's end within it for no end of the call:
/// then there is no result.
pub fn rescued<R>(act: impl FnOnce() -> R) -> Option<R> {
    match catch_unwind(AssertUnwindSafe(act)) {
        Ok(result) => Some(result),
        Err(_) if bench::ended() => {
            bench::go_on();
            None
        }
        Err(payload) => resume_unwind(payload),
    }
}
