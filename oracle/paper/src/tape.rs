//! The script and the row list ("Script and rows").

use oracle_driver::bench::{Event, Reading};
use oracle_driver::host::{SCRIPT_ENDED, UNSUPPORTED, WRITE_PROTECTED};

use crate::telling::told;
use crate::unsupported::{Cause, Field};

/// Why a call stops.
#[derive(Clone, Copy, Debug, Eq, PartialEq)]
pub enum Stop {
    /// Any number but 22. A script that ends is a refusal at its place like the
    /// others.
    Refused(Refusal),
    /// Final: nothing more is written, and the host is as before.
    TraceFull,
}

/// Why a call stops where the Rust goes on.
#[derive(Clone, Copy, Debug, Eq, PartialEq)]
pub enum Beyond {
    /// Request P6: a CSD of version 1 with a strange block length.
    BlockLength,
    /// Request P8: a write to a protected card.
    WriteProtected,
}

/// None: the Rust stops there too, or the step was taken.
pub fn beyond_the_rust<T>(step: &Step<T>) -> Option<Beyond> {
    match step {
        Err(Stop::Refused(Refusal::Unsupported(cause))) if cause.beyond_the_rust() => Some(Beyond::BlockLength),
        Err(Stop::Refused(Refusal::Plain(WRITE_PROTECTED))) => Some(Beyond::WriteProtected),
        _ => None,
    }
}

/// A refusal with what it says besides its number.
#[derive(Clone, Copy, Debug, Eq, PartialEq)]
pub enum Refusal {
    /// Nothing: any but the two below.
    Plain(u8),
    /// 10, with the card's word.
    CardStatus(u32),
    /// 13.
    Unsupported(Cause),
}

impl Refusal {
    pub fn number(self) -> u8 {
        match self {
            Refusal::Plain(number) => number,
            Refusal::CardStatus(_) => 10,
            Refusal::Unsupported(_) => UNSUPPORTED,
        }
    }

    /// The word that 10 carries, else 0.
    pub fn carried(self) -> u32 {
        match self {
            Refusal::CardStatus(word) => word,
            _ => 0,
        }
    }

    /// The number of the field at 13, else none.
    pub fn field(self) -> Option<u8> {
        match self {
            Refusal::Unsupported(cause) => told(cause).map(Field::number),
            _ => None,
        }
    }
}

pub type Step<T> = Result<T, Stop>;

pub fn refuse<T>(number: u8) -> Step<T> {
    Err(Stop::Refused(Refusal::Plain(number)))
}

pub fn unsupported<T>(cause: Cause) -> Step<T> {
    Err(Stop::Refused(Refusal::Unsupported(cause)))
}

pub const POWER: u32 = 1;
pub const CLKCR: u32 = 2;
pub const ARG: u32 = 3;
pub const CMD: u32 = 4;
pub const DTIMER: u32 = 5;
pub const DLEN: u32 = 6;
pub const DCTRL: u32 = 7;
pub const ICR: u32 = 8;
pub const MASK: u32 = 9;
pub const DCTRL2: u32 = 10;
pub const DELAY: u32 = 11;
/// Request P5: each word that a write sends.
pub const FIFO: u32 = 12;

pub struct Tape<'a> {
    script: &'a [u32],
    pub used: usize,
    pub rows: Vec<(u32, u32)>,
    room: usize,
    /// CLKCR reads back what was last written.
    pub clkcr: u32,
    watched: bool,
    pub events: Vec<Event>,
}

impl<'a> Tape<'a> {
    pub fn new(script: &'a [u32], room: usize, clkcr: u32, watched: bool) -> Self {
        Self {
            script,
            used: 0,
            rows: Vec::new(),
            room,
            clkcr,
            watched,
            events: Vec::new(),
        }
    }

    fn watch(&mut self, event: Event) {
        if self.watched {
            self.events.push(event);
        }
    }

    pub fn take(&mut self, reading: Reading) -> Step<u32> {
        let Some(&word) = self.script.get(self.used) else {
            self.watch(Event::Ended(reading));
            return refuse(SCRIPT_ENDED);
        };
        self.used += 1;
        self.watch(Event::Word(reading, word));
        Ok(word)
    }

    pub fn row(&mut self, register: u32, value: u32) -> Step<()> {
        if self.rows.len() == self.room {
            self.watch(Event::Full(register));
            return Err(Stop::TraceFull);
        }
        self.rows.push((register, value));
        self.watch(Event::Row(register, value));
        if register == CLKCR {
            self.clkcr = value;
        }
        Ok(())
    }

    /// "CLKCR on and off change bit 256 of the last value alone."
    pub fn open_clock(&mut self, on: bool) -> Step<()> {
        let rest = self.clkcr - self.clkcr / 256 % 2 * 256;
        self.row(CLKCR, rest + 256 * u32::from(on))
    }

    pub fn reset(&mut self) -> Step<()> {
        for register in [MASK, DCTRL2, DCTRL, CMD, POWER, CLKCR, ARG, DTIMER, DLEN] {
            self.row(register, 0)?;
        }
        self.row(ICR, 0x00c0_07ff)
    }

    pub fn stop_rows(&mut self) -> Step<()> {
        self.row(MASK, 0)?;
        self.row(DCTRL, 0)?;
        self.row(ICR, 0x73a)
    }

    /// An `OnDrop` guard: what is refused within gets the reset rows, if there
    /// is room for them.
    pub fn guarded<T>(&mut self, within: Step<T>) -> Step<T> {
        if let Err(Stop::Refused(_)) = within {
            self.reset()?;
        }
        within
    }
}
