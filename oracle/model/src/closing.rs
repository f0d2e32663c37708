//! Names what closes a call whose script ended, and which row of it found no
//! room. Written from document 01, apart from the driver.

use oracle_driver::bench::Event;
use oracle_driver::script::RESET;
use oracle_driver::Outcome;

/// What can close: CLKCR off or not, and so many guards.
#[derive(Debug)]
pub struct Shape {
    pub name: &'static str,
    clkcr: bool,
    guards: usize,
}

const fn shape(name: &'static str, clkcr: bool, guards: usize) -> Shape {
    Shape { name, clkcr, guards }
}

pub const SHAPES: [Shape; 5] = [
    shape("CLKCR off", true, 0),
    shape("reset", false, 1),
    shape("CLKCR off, reset", true, 1),
    shape("reset twice", false, 2),
    shape("CLKCR off, reset twice", true, 2),
];

const ROWS: [[&str; 3]; 2] = [
    ["1: first", "1: middle", "1: last"],
    ["2: first", "2: middle", "2: last"],
];

impl Shape {
    /// The names that its rows have.
    pub fn rows(&self) -> Vec<&'static str> {
        let clkcr = self.clkcr.then_some("CLKCR off");
        let resets = ROWS[..self.guards].iter().flatten().copied();
        clkcr.into_iter().chain(resets).collect()
    }

    /// The name of the k-th row.
    pub fn row(&self, k: usize) -> &'static str {
        let Some(k) = k.checked_sub(usize::from(self.clkcr)) else {
            return "CLKCR off";
        };
        let which = match k % RESET.len() {
            0 => 0,
            9 => 2,
            _ => 1,
        };
        ROWS[k / RESET.len()][which]
    }

    fn fits(&self, rows: &[(u32, u32)]) -> bool {
        let resets = match (self.clkcr, rows) {
            (true, [(2, value), rest @ ..]) if value & 256 == 0 => rest,
            (true, _) => return false,
            (false, _) => rows,
        };
        resets.iter().eq([RESET; 2].iter().take(self.guards).flatten())
    }
}

/// The shape of a call's closing, and how many rows came before it; none unless
/// its script ended, and none of no known shape.
pub fn of(outcome: &Outcome) -> Option<(&'static Shape, usize)> {
    let end = |event: &Event| matches!(event, Event::Ended(_));
    let row = |event: &&Event| matches!(event, Event::Row(..));
    let events = &outcome.events[..outcome.events.iter().position(end)?];
    let before = events.iter().filter(row).count();
    let shape = SHAPES.iter().find(|shape| shape.fits(&outcome.rows[before..]))?;
    Some((shape, before))
}
