//! How the block length of a CSD is judged: as the documents have it, or, while a
//! switch is on, wrongly. Nothing else of a model changes with it.

use std::cell::Cell;

use crate::switch;
use crate::tape::{beyond_the_rust, Beyond, Step};

#[derive(Clone, Copy)]
pub struct Judging {
    /// Whether a CSD of this version, 0 or 1, may have this block length.
    pub allows: fn(version: u64, length: u64) -> bool,
    /// What goes wrong where a CSD of version 1 is refused for its length.
    pub slip: Option<Slip>,
}

#[derive(Clone, Copy, Eq, PartialEq)]
pub enum Slip {
    /// CMD7 is sent and answered first.
    AfterCmd7,
    /// The answer is 12.
    AnotherNumber,
    /// No reset rows close the call.
    NoReset,
    /// The record of the card before stays.
    OldRecord,
}

/// Request P6 for version 1, document 01 for version 0.
pub const RIGHTLY: Judging = Judging {
    allows: |version, length| match version {
        0 => (9..=11).contains(&length),
        _ => length == 9,
    },
    slip: None,
};

thread_local! {
    static JUDGING: Cell<Judging> = const { Cell::new(RIGHTLY) };
}

/// Whether this model allows it.
pub(crate) fn allows(version: u64, length: u64) -> bool {
    (JUDGING.get().allows)(version, length)
}

/// Whether this model slips like that where a step came to this.
pub(crate) fn slips<T>(slip: Slip, step: &Step<T>) -> bool {
    JUDGING.get().slip == Some(slip) && beyond_the_rust(step) == Some(Beyond::BlockLength)
}

/// Acts with another way of judging, and goes back whatever happens.
pub fn with<R>(judging: Judging, act: impl FnOnce() -> R) -> R {
    switch::with(&JUDGING, judging, act)
}
