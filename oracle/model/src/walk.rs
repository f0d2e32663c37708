//! Follows the events of a call: which command a word belongs to, and which
//! reading of it that word is. Written from document 01, apart from the driver.

use oracle_driver::bench::{Event, Reading};
use oracle_driver::Call;

/// What a word of the script is.
#[derive(Clone, Copy, Debug, Eq, Hash, Ord, PartialEq, PartialOrd)]
pub enum Place {
    Idle,
    Sent,
    Echo,
    Words,
    FirstStatus,
    FirstDma,
    SecondStatus,
    SecondDma,
    Dcount,
    Data,
}

#[derive(Clone, Copy, Eq, PartialEq)]
enum Stage {
    Idle,
    Sent { completion: u32 },
    Answered,
    First,
    Second,
    Last,
}

pub struct Walk {
    initialising: bool,
    writing: bool,
    stage: Stage,
    armed: bool,
    argument: u32,
    after_55: bool,
    /// Words of the data phase at hand.
    words: u32,
    /// The last command but CMD13 as a question and CMD55.
    passed: &'static str,
    /// The last command written, by the name of its place in the call.
    pub site: &'static str,
}

impl Walk {
    pub fn new(call: Call<'_>) -> Self {
        Self {
            initialising: matches!(call, Call::Initialise { .. }),
            writing: matches!(call, Call::Write { .. }),
            stage: Stage::Idle,
            armed: false,
            argument: 0,
            after_55: false,
            words: 0,
            passed: "nothing",
            site: "nothing",
        }
    }

    pub fn row(&mut self, register: u32, value: u32) {
        match (register, value) {
            (3, _) => self.argument = value,
            (4, 0) => self.stage = Stage::Idle,
            (4, _) => self.command(value),
            (6, _) => self.words = value / 4,
            (7, 0) => (self.armed, self.stage) = (false, Stage::Idle),
            // A write's comes after its command, and the polls follow.
            (7, _) if self.writing => self.stage = Stage::First,
            (7, _) => self.armed = true,
            _ => {}
        }
    }

    fn command(&mut self, value: u32) {
        let index = value & 0x3f;
        let app = std::mem::replace(&mut self.after_55, index == 55);
        let waits = index == 13 && !self.armed;
        self.site = match index {
            13 if waits => self.waiting(),
            55 => self.announcing(),
            12 if self.writing => "CMD12 of a write",
            _ => named(index, app, self.argument),
        };
        if !waits && index != 55 {
            self.passed = self.site;
        }
        let completion = if value >> 6 & 3 == 0 { 0x80 } else { 0x41 };
        self.stage = Stage::Sent { completion };
    }

    fn waiting(&self) -> &'static str {
        match self.passed {
            "nothing" if self.writing => "CMD13 before a write",
            "nothing" => "CMD13 first",
            "CMD7" => "CMD13 after CMD7",
            "ACMD51" => "CMD13 after ACMD51",
            "CMD6 check" => "CMD13 after check",
            "CMD6 switch" => "CMD13 after switch",
            "CMD17" => "CMD13 after CMD17",
            "CMD12" => "CMD13 after CMD12",
            "CMD24" => "CMD13 after CMD24",
            "CMD12 of a write" => "CMD13 after a write's CMD12",
            "ACMD13" => "CMD13 after ACMD13",
            _ => "CMD13 elsewhere",
        }
    }

    fn announcing(&self) -> &'static str {
        match self.passed {
            _ if !self.initialising => "CMD55 for ACMD13",
            "CMD7" | "CMD16" => "CMD55 for ACMD51",
            "ACMD51" => "CMD55 for ACMD6",
            _ => "CMD55 for ACMD41",
        }
    }

    /// What this reading is; the walk does not move.
    pub fn place(&self, reading: Reading) -> Place {
        match (reading, self.stage) {
            (Reading::Status, Stage::Sent { .. }) => Place::Sent,
            (Reading::Status, Stage::First) => Place::FirstStatus,
            (Reading::Status, Stage::Second) => Place::SecondStatus,
            (Reading::Status, _) => Place::Idle,
            (Reading::Respcmd, _) => Place::Echo,
            (Reading::Response(_), _) => Place::Words,
            (Reading::Dma, Stage::First) => Place::FirstDma,
            (Reading::Dma, _) => Place::SecondDma,
            (Reading::Dcount, _) => Place::Dcount,
            (Reading::Data(_), _) => Place::Data,
        }
    }

    pub fn word(&mut self, reading: Reading, word: u32) -> Place {
        let place = self.place(reading);
        match (place, reading, self.stage) {
            (Place::Sent, _, Stage::Sent { completion }) if word & (completion | 4) != 0 => {
                self.stage = match completion {
                    0x41 if word & 4 == 0 => Stage::Answered,
                    _ => Stage::Idle,
                };
            }
            (Place::Words, Reading::Response(3), _) => {
                self.stage = if self.armed { Stage::First } else { Stage::Idle };
            }
            (Place::FirstDma, ..) if word >> 30 == 0 => self.stage = Stage::Second,
            (Place::SecondStatus, ..) => {
                let ended = word & 0x100 != 0 && word & 0x3000 == 0;
                // Either way a second DMA word follows.
                self.stage = if ended { Stage::Last } else { Stage::Idle };
            }
            (Place::SecondDma, ..) if self.stage == Stage::Idle => self.stage = Stage::First,
            _ => {}
        }
        place
    }

    /// Follows all events up to the end of the script; gives place and command
    /// of the last word.
    pub fn through(&mut self, events: &[Event]) -> Option<(Place, &'static str)> {
        let mut last = None;
        for event in events {
            match *event {
                Event::Row(register, value) => self.row(register, value),
                Event::Word(reading, word) => {
                    let place = self.word(reading, word);
                    last = Some((place, self.site));
                }
                Event::Ended(_) => break,
                Event::Full(_) => {}
            }
        }
        last
    }

    /// The step at which this reading finds no word; an idle wait does not say
    /// which.
    pub fn step(&self, reading: Reading) -> Option<&'static str> {
        let step = match (self.place(reading), reading) {
            (Place::Idle, _) => return None,
            (Place::Sent, _) => "poll",
            (Place::Echo, _) => "echo",
            (_, Reading::Response(0)) => "word 0",
            (_, Reading::Response(1)) => "word 1",
            (_, Reading::Response(2)) => "word 2",
            (Place::Words, _) => "word 3",
            (Place::FirstStatus, _) => "1: status",
            (Place::FirstDma, _) => "1: DMA word",
            (Place::SecondStatus, _) => "2: status",
            (Place::SecondDma, _) => "2: DMA word",
            (Place::Dcount, _) => "DCOUNT",
            (_, Reading::Data(0)) => "data, first",
            (_, Reading::Data(place)) if u32::from(place) + 1 == self.words => "data, last",
            (Place::Data, _) => "data, between",
        };
        Some(step)
    }
}

fn named(index: u32, app: bool, argument: u32) -> &'static str {
    match (index, app) {
        (0, _) => "CMD0",
        (2, _) => "CMD2",
        (3, _) => "CMD3",
        (6, true) => "ACMD6",
        (6, false) if argument >> 31 == 0 => "CMD6 check",
        (6, false) => "CMD6 switch",
        (7, _) => "CMD7",
        (8, _) => "CMD8",
        (9, _) => "CMD9",
        (12, _) => "CMD12",
        (13, _) => "ACMD13",
        (16, _) => "CMD16",
        (17, _) => "CMD17",
        (18, _) => "CMD18",
        (24, _) => "CMD24",
        (25, _) => "CMD25",
        (41, _) => "ACMD41",
        (51, _) => "ACMD51",
        _ => "another command",
    }
}
