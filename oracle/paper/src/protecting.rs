//! What write protection does to a host: as request P8 has it, or, while a switch is on,
//! wrongly. Nothing else of a model changes with it.

use std::cell::Cell;

use oracle_driver::host::{Call, Protection, WRITE_PROTECTED};

use crate::leaf::protection;
use crate::switch;
use crate::tape::{refuse, Step, Tape};
use crate::Host;

#[derive(Clone, Copy)]
pub struct Protecting {
    /// The flags of a card that is taken, by its CSD and the flags of the last card that
    /// was taken before, if one was.
    pub flags: fn(csd: u128, before: Option<Protection>) -> Protection,
    /// What is refused before the checks that a call had without write protection.
    pub admits: fn(&mut Host, &mut Tape<'_>, Call<'_>) -> Step<()>,
    /// What ends the line of a call with this answer.
    pub line: fn(&mut Host, Call<'_>, answer: u8) -> Option<Protection>,
    /// What the state says of the flags of a record.
    pub state: fn(Protection) -> Protection,
}

pub const RIGHTLY: Protecting = Protecting {
    flags: |csd, _| protection(csd),
    admits: |host, _, call| match call {
        Call::Write { .. } => stops(host, Protection::any),
        _ => Ok(()),
    },
    line,
    state: |flags| flags,
};

/// 26 where the flags of the record are such; 16 where there is none.
pub fn stops(host: &Host, such: fn(Protection) -> bool) -> Step<()> {
    match such(host.record()?.protection) {
        true => refuse(WRITE_PROTECTED),
        false => Ok(()),
    }
}

/// Only the line of an accepted initialisation has it.
pub fn line(host: &mut Host, call: Call<'_>, answer: u8) -> Option<Protection> {
    match (call, answer) {
        (Call::Initialise { .. }, 0) => host.flags(),
        _ => None,
    }
}

thread_local! {
    static PROTECTING: Cell<Protecting> = const { Cell::new(RIGHTLY) };
}

/// How this model does it.
pub fn now() -> Protecting {
    PROTECTING.get()
}

/// Acts with another way of protecting, and goes back whatever happens.
pub fn with<R>(protecting: Protecting, act: impl FnOnce() -> R) -> R {
    switch::with(&PROTECTING, protecting, act)
}
