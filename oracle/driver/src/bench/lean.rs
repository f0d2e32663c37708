//! The bench with nothing on it, for measuring: a script where it lies, a row list that is there already. Nobody watches, and
//! no card plays along. Only accepted calls are measured: a word that is not there and a row without room end the run, and
//! nothing here knows of closing.

use std::cell::Cell;

use super::{Stop, CLKCR};

struct Lean {
    on: Cell<bool>,
    words: Cell<*const u32>,
    length: Cell<usize>,
    used: Cell<usize>,
    list: Cell<*mut u64>,
    room: Cell<usize>,
    rows: Cell<usize>,
    clkcr: Cell<u32>,
}

thread_local! {
    static LEAN: Lean = const {
        Lean {
            on: Cell::new(false),
            words: Cell::new(std::ptr::null()),
            length: Cell::new(0),
            used: Cell::new(0),
            list: Cell::new(std::ptr::null_mut()),
            room: Cell::new(0),
            rows: Cell::new(0),
            clkcr: Cell::new(0),
        }
    };
}

/// Does something with this script and row list (a row in each word, its register above its value) in place of the full bench.
pub fn during<R>(script: &[u32], list: &mut [u64], act: impl FnOnce() -> R) -> R {
    LEAN.with(|lean| {
        lean.words.set(script.as_ptr());
        lean.length.set(script.len());
        lean.list.set(list.as_mut_ptr());
        lean.room.set(list.len());
        lean.on.set(true);
    });
    let result = act();
    LEAN.with(|lean| lean.on.set(false));
    result
}

/// The script from its start once more, no row written yet, and CLKCR as it was last written.
pub fn rewind(clkcr: u32) {
    LEAN.with(|lean| {
        lean.used.set(0);
        lean.rows.set(0);
        lean.clkcr.set(clkcr);
    });
}

pub fn counts() -> (usize, usize) {
    LEAN.with(|lean| (lean.used.get(), lean.rows.get()))
}

#[inline(always)]
pub(super) fn on() -> bool {
    LEAN.with(|lean| lean.on.get())
}

#[inline(always)]
pub(super) fn clkcr() -> u32 {
    LEAN.with(|lean| lean.clkcr.get())
}

#[inline(always)]
pub(super) fn take() -> Result<u32, Stop> {
    LEAN.with(|lean| {
        let used = lean.used.get();
        if used >= lean.length.get() {
            return Err(Stop::ScriptEnded);
        }
        lean.used.set(used + 1);
        // SAFETY: the script is lent for as long as the bench is on, and the place lies in it.
        Ok(unsafe { *lean.words.get().add(used) })
    })
}

#[inline(always)]
pub(super) fn put(register: u32, value: u32) -> Result<(), Stop> {
    LEAN.with(|lean| {
        let rows = lean.rows.get();
        if rows >= lean.room.get() {
            return Err(Stop::TraceFull);
        }
        let row = u64::from(register) << 32 | u64::from(value);
        // SAFETY: the list is lent for as long as the bench is on, and has a word for each row of its room.
        unsafe { *lean.list.get().add(rows) = row };
        lean.rows.set(rows + 1);
        if register as usize == CLKCR {
            lean.clkcr.set(value);
        }
        Ok(())
    })
}
