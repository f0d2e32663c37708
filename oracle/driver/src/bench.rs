//! The bench on which a host stands: it answers readings from a script (or from
//! a live card) and keeps what the host writes as rows.
//!
//! Upstream's registers are places that exist once, so this is one bench a
//! thread; a host puts its own registers on it for the time of a call.

pub mod fifo;
pub mod lean;

use std::cell::RefCell;
use std::panic::resume_unwind;
use std::thread::panicking;

use crate::wrong;

/// What reads back: rows are numbered from 1, so 0 is unused. Delays and the FIFO, 11 and 12, do not.
pub type Registers = [u32; 11];

pub const CLKCR: usize = 2;
const DCTRL: u32 = 7;
const DELAY: u32 = 11;
pub const FIFO: u32 = 12;

/// What a host asks the bench for.
#[derive(Clone, Copy, Debug, Eq, Hash, Ord, PartialEq, PartialOrd)]
pub enum Reading {
    Status,
    Respcmd,
    Response(u8),
    Dma,
    Dcount,
    Data(u16),
}

/// Where the words of a call come from.
pub enum Feed<'a> {
    Script(&'a [u32]),
    Live(Box<dyn Live>),
}

/// A card and its controller, answering while a script is made.
pub trait Live {
    /// The next word, or none when the script is to end here.
    fn answer(&mut self, reading: Reading) -> Option<u32>;
    fn wrote(&mut self, register: u32, value: u32);
}

/// What happened, in order.
#[derive(Clone, Copy, Debug, Eq, PartialEq)]
pub enum Event {
    Row(u32, u32),
    Word(Reading, u32),
    /// The script had no word for this reading; rows that close the call follow.
    Ended(Reading),
    /// The row list had no room for a row of this register.
    Full(u32),
}

/// Why a call stopped outside the driver. Carried by the unwinding.
#[derive(Clone, Copy, Debug, Eq, PartialEq)]
pub enum Stop {
    /// A reading found no word: the driver closes while it unwinds.
    ScriptEnded,
    /// A row found no room: nothing more is written.
    TraceFull,
}

/// What is left on the bench when a call is over.
pub struct Kept {
    pub words: Vec<u32>,
    pub used: usize,
    pub rows: Vec<(u32, u32)>,
    pub events: Vec<Event>,
    pub registers: Registers,
    /// How a call that unwound came to its end: a script that ended, and then a
    /// closing row without room, is the latter.
    pub stopped: Option<Stop>,
}

/// Off: no call runs (a host is made or dropped), rows are not kept.
/// Stopped: the driver unwinds, and its guards run.
#[derive(Clone, Copy, Eq, PartialEq)]
enum Mode {
    Off,
    Running,
    Stopped(Stop),
}

struct Bench {
    mode: Mode,
    source: u32,
    registers: Registers,
    room: usize,
    /// The script, or in a live call the words given so far.
    words: Vec<u32>,
    used: usize,
    live: Option<Box<dyn Live>>,
    rows: Vec<(u32, u32)>,
    watched: bool,
    events: Vec<Event>,
    /// Something was read while the driver unwound.
    read_late: bool,
    /// A wrong host goes on without room.
    roomless: bool,
}

thread_local! {
    static BENCH: RefCell<Bench> = const {
        RefCell::new(Bench {
            mode: Mode::Off,
            source: 0,
            registers: [0; 11],
            room: 0,
            words: Vec::new(),
            used: 0,
            live: None,
            rows: Vec::new(),
            watched: false,
            events: Vec::new(),
            read_late: false,
            roomless: false,
        })
    };
}

fn with<R>(act: impl FnOnce(&mut Bench) -> R) -> R {
    BENCH.with(|bench| act(&mut bench.borrow_mut()))
}

/// The clock source of the host in hand.
pub fn source() -> u32 {
    with(|bench| bench.source)
}

/// For the time in which a host is made: its source, and nothing kept.
pub fn set_source(source: u32) {
    with(|bench| bench.source = source);
}

pub fn begin(source: u32, registers: Registers, feed: Feed<'_>, room: usize, watched: bool) {
    with(|bench| {
        bench.mode = Mode::Running;
        bench.source = source;
        bench.registers = registers;
        bench.room = room;
        bench.words.clear();
        bench.live = None;
        match feed {
            Feed::Script(words) => bench.words.extend_from_slice(words),
            Feed::Live(card) => bench.live = Some(card),
        }
        bench.used = 0;
        bench.watched = watched;
        bench.read_late = false;
        bench.roomless = false;
    });
}

pub fn finish() -> Kept {
    let (kept, read_late) = with(|bench| {
        let stopped = match std::mem::replace(&mut bench.mode, Mode::Off) {
            Mode::Stopped(why) => Some(why),
            _ => None,
        };
        bench.live = None;
        let kept = Kept {
            words: std::mem::take(&mut bench.words),
            used: bench.used,
            rows: std::mem::take(&mut bench.rows),
            events: std::mem::take(&mut bench.events),
            registers: bench.registers,
            stopped,
        };
        (kept, bench.read_late)
    });
    assert!(!read_late, "nothing is read while the driver closes");
    kept
}

/// Whether the driver unwinds from a script's end. Only wrong hosts ask.
pub fn ended() -> bool {
    with(|bench| bench.mode == Mode::Stopped(Stop::ScriptEnded))
}

/// Takes a script's end back, once its unwinding was caught. Only a wrong host
/// does.
pub fn go_on() {
    with(|bench| bench.mode = Mode::Running);
}

impl Bench {
    fn watch(&mut self, event: Event) {
        if self.watched {
            self.events.push(event);
        }
    }

    fn take(&mut self, reading: Reading) -> Result<u32, Stop> {
        match self.mode {
            Mode::Off => panic!("readings belong to a call"),
            Mode::Running => {}
            // A second unwinding would end the process, so this is told when the
            // first one is over.
            Mode::Stopped(_) => {
                self.read_late = true;
                return Ok(0);
            }
        }
        if let Some(card) = &mut self.live {
            if let Some(word) = card.answer(reading) {
                self.words.push(word);
            }
        }
        let Some(&word) = self.words.get(self.used) else {
            self.mode = Mode::Stopped(Stop::ScriptEnded);
            self.watch(Event::Ended(reading));
            return Err(Stop::ScriptEnded);
        };
        self.used += 1;
        self.watch(Event::Word(reading, word));
        Ok(word)
    }

    fn put(&mut self, register: u32, value: u32) -> Result<(), Stop> {
        match self.mode {
            Mode::Stopped(Stop::TraceFull) => return Ok(()),
            Mode::Stopped(Stop::ScriptEnded) if wrong::is(wrong::ENDED_CLOSES_NOTHING) => return Ok(()),
            _ => {}
        }
        if self.mode != Mode::Off {
            if self.rows.len() == self.room {
                return self.full(register, value);
            }
            self.rows.push((register, value));
            self.watch(Event::Row(register, value));
            if let Some(card) = &mut self.live {
                card.wrote(register, value);
            }
        }
        if let Some(last) = self.registers.get_mut(register as usize) {
            *last = value;
        }
        Ok(())
    }

    /// A row without room. A guard writes its rows while the driver unwinds
    /// already: then it is noted here, and that unwinding goes on.
    #[cold]
    fn full(&mut self, register: u32, value: u32) -> Result<(), Stop> {
        if self.goes_on_wrongly(register) {
            if let Some(last) = self.registers.get_mut(register as usize) {
                *last = value;
            }
            return Ok(());
        }
        self.mode = Mode::Stopped(Stop::TraceFull);
        self.watch(Event::Full(register));
        match panicking() {
            true => Ok(()),
            false => Err(Stop::TraceFull),
        }
    }

    /// Whether a wrong host makes nothing of a row without room.
    fn goes_on_wrongly(&mut self, register: u32) -> bool {
        self.roomless |= register == FIFO && wrong::is(wrong::FIFO_FULL_ACCEPTED);
        self.roomless || register == FIFO && wrong::is(wrong::FIFO_WITHOUT_ROOM)
    }
}

/// Leaves the driver from where it stands; no hook is called. The guards that
/// this unwinds write their rows on the bench like any other.
fn stop<R>(result: Result<R, Stop>) -> R {
    result.unwrap_or_else(|why| resume_unwind(Box::new(why)))
}

pub fn read(reading: Reading) -> u32 {
    if lean::on() {
        return stop(lean::take());
    }
    let taken = with(|bench| bench.take(reading));
    stop(taken)
}

pub fn write(register: u32, value: u32) {
    match register == DCTRL && fifo::asks(value) {
        true => fifo::armed(value),
        false => put(register, value),
    }
}

/// A row, and nothing that it makes the controller do.
fn put(register: u32, value: u32) {
    if lean::on() {
        return stop(lean::put(register, value));
    }
    let put = with(|bench| bench.put(register, value));
    stop(put)
}

pub fn last_written(register: u32) -> u32 {
    if lean::on() {
        return lean::clkcr();
    }
    with(|bench| bench.registers[register as usize])
}

/// One of the two named delays; all other spins write no row.
pub fn delay(spins: u64) {
    write(DELAY, u32::try_from(spins).expect("a delay fits its row"));
}
