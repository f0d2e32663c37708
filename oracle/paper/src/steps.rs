//! "The steps": idle wait, command, ready wait, data phase.

use oracle_driver::bench::Reading;
use oracle_driver::Settings;

use crate::leaf::{clock, data_status};
use crate::tape::{refuse, unsupported, Refusal, Step, Stop, Tape};
use crate::tape::{ARG, CLKCR, CMD, DCTRL, DCTRL2, DELAY, DLEN, DTIMER, FIFO, ICR};
use crate::unsupported::Cause;

#[derive(Clone, Copy, Eq, PartialEq)]
pub enum Kind {
    None,
    R1,
    R2,
    R3,
    R6,
    R7,
}

/// What is particular to a data phase.
pub struct Phase<'d> {
    /// The command.
    pub index: u32,
    pub argument: u32,
    /// Two to this power is the size of a block in bytes.
    pub size: u32,
    pub way: Way<'d>,
}

/// Which way the data goes.
pub enum Way<'d> {
    /// So many words from the card.
    In(usize),
    /// These words to the card.
    Out(&'d [u32]),
}

impl Way<'_> {
    fn words(&self) -> usize {
        match self {
            Way::In(words) => *words,
            Way::Out(words) => words.len(),
        }
    }
}

/// The gate and the limits, with the tape they work on.
pub struct Bench<'t, 'a> {
    pub tape: &'t mut Tape<'a>,
    pub set: Settings,
    pub gated: bool,
}

impl Bench<'_, '_> {
    pub fn idle(&mut self, busy: u32) -> Step<()> {
        for _ in 0..self.set.poll_limit {
            if self.tape.take(Reading::Status)? & busy == 0 {
                return Ok(());
            }
        }
        refuse(2)
    }

    /// A clock change; its frequency once CLKCR is written.
    pub fn change_clock(&mut self, request: u32, bypass: bool, wide: bool) -> Step<u32> {
        let chosen = clock(self.set.source, request, bypass)?;
        self.idle(0x3800)?;
        let extra = if chosen.bypass { 1024 + 16384 } else { 0 };
        self.tape.row(CLKCR, chosen.field + 2048 * u32::from(wide) + extra)?;
        Ok(chosen.frequency)
    }

    /// "When the host is gated, CLKCR on precedes and CLKCR off follows, also on
    /// refusal."
    pub fn command(&mut self, index: u32, argument: u32, kind: Kind) -> Step<[u32; 4]> {
        if !self.gated {
            return self.bare(index, argument, kind);
        }
        self.tape.open_clock(true)?;
        let result = self.bare(index, argument, kind);
        if let Ok(_) | Err(Stop::Refused(_)) = result {
            self.tape.open_clock(false)?;
        }
        result
    }

    fn bare(&mut self, index: u32, argument: u32, kind: Kind) -> Step<[u32; 4]> {
        self.idle(0x800)?;
        self.tape.row(ICR, 0xc5)?;
        self.tape.row(ARG, argument)?;
        let wait = match kind {
            Kind::None => 0,
            Kind::R2 => 3,
            _ => 1,
        };
        self.tape.row(CMD, index + 64 * wait + 1024)?;
        for _ in 0..self.set.poll_limit {
            let status = self.tape.take(Reading::Status)?;
            if status & 0x4 != 0 {
                return refuse(1);
            }
            let completion = if kind == Kind::None { 0x80 } else { 0x41 };
            if status & completion != 0 {
                return self.answer(index, kind, status);
            }
        }
        refuse(2)
    }

    fn answer(&mut self, index: u32, kind: Kind, status: u32) -> Step<[u32; 4]> {
        if kind == Kind::None {
            return Ok([0; 4]);
        }
        if status & 0x1 != 0 && kind != Kind::R3 {
            return refuse(3);
        }
        if kind != Kind::R2 && kind != Kind::R3 && self.tape.take(Reading::Respcmd)? % 64 != index {
            return refuse(9);
        }
        let words = [
            self.tape.take(Reading::Response(0))?,
            self.tape.take(Reading::Response(1))?,
            self.tape.take(Reading::Response(2))?,
            self.tape.take(Reading::Response(3))?,
        ];
        let errors = match kind {
            Kind::R1 => 0xfdff_e008,
            Kind::R6 => 0xe000,
            _ => 0,
        };
        if words[0] & errors != 0 {
            return Err(Stop::Refused(Refusal::CardStatus(words[0])));
        }
        if kind == Kind::R1 && words[0] & 0x0200_0000 != 0 {
            return refuse(11);
        }
        Ok(words)
    }

    /// CMD55, whose answer says that an application command is taken; which one it
    /// is to be, the card is not told.
    pub fn announce(&mut self, command: u32, rca: u16) -> Step<()> {
        match self.command(55, u32::from(rca) << 16, Kind::R1)?[0] & 0x20 {
            0 => unsupported(Cause::NotTaken { command }),
            _ => Ok(()),
        }
    }

    pub fn retry_delay(&mut self) -> Step<()> {
        self.tape.row(DELAY, self.set.source.div_ceil(1_000))
    }

    pub fn ready(&mut self, rca: u16) -> Step<()> {
        for _ in 0..self.set.ready_attempts {
            let status = self.command(13, u32::from(rca) << 16, Kind::R1)?[0];
            if status >> 8 & 1 == 1 && status >> 9 & 15 == 4 {
                return Ok(());
            }
            self.retry_delay()?;
        }
        refuse(2)
    }

    /// The data phase, up to and with the closing ready wait; gives the words that came.
    pub fn data(&mut self, phase: &Phase<'_>, rca: u16) -> Step<Vec<u32>> {
        let within = self.data_within(phase, rca);
        self.tape.guarded(within)
    }

    /// A read and a write differ in `before_command`, `after_command` and `completed`.
    fn data_within(&mut self, phase: &Phase<'_>, rca: u16) -> Step<Vec<u32>> {
        self.idle(0x3800)?;
        self.tape.row(DCTRL2, 0)?;
        self.tape.stop_rows()?;
        self.tape.row(DTIMER, self.set.data_timeout)?;
        self.tape.row(DLEN, 4 * phase.way.words() as u32)?;
        self.before_command(phase)?;
        self.tape.open_clock(true)?;
        self.bare(phase.index, phase.argument, Kind::R1)?;
        self.after_command(phase)?;
        let mut polls = 0;
        while !self.poll()? {
            polls += 1;
            if polls == self.set.poll_limit {
                return refuse(2);
            }
        }
        let taken = self.completed(phase)?;
        self.tape.stop_rows()?;
        if self.gated {
            self.tape.open_clock(false)?;
        }
        if phase.index == 18 || phase.index == 25 {
            self.command(12, 0, Kind::R1)?;
        }
        self.ready(rca)?;
        Ok(taken)
    }

    fn before_command(&mut self, phase: &Phase<'_>) -> Step<()> {
        match phase.way {
            Way::In(_) => self.tape.row(DCTRL, 9 + 2 + 16 * phase.size),
            Way::Out(_) => Ok(()),
        }
    }

    /// Request P5: a write comes to DCTRL here, without the bit for reading, and then its words go out, all of them.
    fn after_command(&mut self, phase: &Phase<'_>) -> Step<()> {
        let Way::Out(words) = phase.way else {
            return Ok(());
        };
        self.tape.row(DCTRL, 9 + 16 * phase.size)?;
        words.iter().try_for_each(|word| self.tape.row(FIFO, *word))
    }

    fn completed(&mut self, phase: &Phase<'_>) -> Step<Vec<u32>> {
        match phase.way {
            Way::In(words) => (0..words)
                .map(|place| self.tape.take(Reading::Data(place as u16)))
                .collect(),
            Way::Out(_) => Ok(Vec::new()),
        }
    }

    /// One poll: true if it completes.
    fn poll(&mut self) -> Step<bool> {
        data_status(self.tape.take(Reading::Status)?)?;
        let dma = self.tape.take(Reading::Dma)?;
        if dma >> 31 != 0 {
            return refuse(7);
        }
        if dma >> 30 != 0 {
            return Ok(false);
        }
        let status = self.tape.take(Reading::Status)?;
        data_status(status)?;
        let dma = self.tape.take(Reading::Dma)?;
        if dma >> 31 != 0 {
            return refuse(7);
        }
        if status & 0x100 == 0 || status & 0x3000 != 0 {
            return Ok(false);
        }
        if dma % 65_536 != 0 || self.tape.take(Reading::Dcount)? != 0 {
            return refuse(8);
        }
        Ok(true)
    }
}
