//! How a cause is told: as the documents have it, or, while a switch is on, not at
//! all (as the Rust, which has no field) or wrongly. Nothing else of a model changes
//! with it: number, words, rows and host stay right.

use std::cell::Cell;

use crate::switch;
use crate::unsupported::{Cause, Field};

/// The field of a cause, if one is told.
pub type Tell = fn(Cause) -> Option<Field>;

thread_local! {
    static TELL: Cell<Tell> = const { Cell::new(rightly) };
}

pub(crate) fn rightly(cause: Cause) -> Option<Field> {
    Some(cause.field())
}

/// What this model tells.
pub(crate) fn told(cause: Cause) -> Option<Field> {
    (TELL.get())(cause)
}

/// Acts with another way of telling, and goes back whatever happens.
pub fn with<R>(tell: Tell, act: impl FnOnce() -> R) -> R {
    switch::with(&TELL, tell, act)
}

/// Acts without fields, so that the rest can be held to the Rust.
pub fn without_fields<R>(act: impl FnOnce() -> R) -> R {
    with(|_| None, act)
}
