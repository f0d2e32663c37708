//! Plays the card and the controller while a call runs: it sees each row, is
//! asked for each reading, and answers so that the call gets far. At one chosen
//! reading it may answer something wrong (`spoil`).

use std::cell::RefCell;
use std::rc::Rc;

use oracle_driver::bench::{Live, Reading};

use crate::card::{writes, Card, Command, Reply, Response};
use crate::rng::Rng;
use crate::spoil::{self, Stuck};

/// No live call gives more words than a book can hold.
const MOST_WORDS: usize = 4_096;

/// Status bits that a command or a data phase must not show while it goes well.
const TIMED_OUT: u32 = 0x4;
const CRC_FAILED: u32 = 0x1;
const DATA_ERRORS: u32 = 0x23a;
const DATA_END: u32 = 0x100;
const DATA_ACTIVE: u32 = 0x3000;
const BUSY: u32 = 0x3800;

/// Where the controller stands.
#[derive(Clone, Copy, Debug)]
pub enum Stage {
    /// Nothing runs: a status reading belongs to an idle wait.
    Idle,
    /// A command is on its way.
    Sent(Command),
    /// It came back; echo and words are read.
    Answered(Command, [u32; 4]),
    /// The data phase: before the first and before the second status of a poll.
    First(Command),
    Second(Command),
    /// Past the second status of a poll that goes on, and of the one that
    /// completes.
    Open(Command),
    Last(Command),
}

/// The status bits that end a command.
pub fn completion(command: Command) -> u32 {
    match command.response {
        Response::None => 0x80,
        _ => 0x41,
    }
}

#[derive(Clone)]
pub struct Player {
    pub card: Card,
    pub rng: Rng,
    poll_limit: u32,
    attempts: u16,
    stage: Stage,
    argument: u32,
    /// DCTRL holds something, so the next command has a data phase. A write's comes to DCTRL after its command.
    armed: bool,
    /// Words that the FIFO took since the last command.
    fetched: usize,
    after_55: bool,
    /// Polls that still fail in the wait at hand; none: not chosen yet.
    busy: Option<u32>,
    /// How often the card is not ready in each wait; none: as it comes.
    pub waits: Option<u32>,
    given: usize,
    /// The reading at which the answer is spoilt, and what stays so after it.
    pub spoil_at: Option<usize>,
    pub stuck: Option<Stuck>,
}

impl Player {
    pub fn new(card: Card, rng: Rng, poll_limit: u32, attempts: u16) -> Self {
        Self {
            card,
            rng,
            poll_limit,
            attempts,
            stage: Stage::Idle,
            argument: 0,
            armed: false,
            fetched: 0,
            after_55: false,
            busy: None,
            waits: None,
            given: 0,
            spoil_at: None,
            stuck: None,
        }
    }

    /// Ready for the next call.
    pub fn begin(&mut self) {
        self.stage = Stage::Idle;
        self.armed = false;
        self.after_55 = false;
        self.busy = None;
        self.given = 0;
        self.spoil_at = None;
        self.stuck = None;
    }

    /// How many polls fail before one succeeds: mostly none, sometimes all but
    /// the last that is allowed.
    fn failures(rng: &mut Rng, limit: u32) -> u32 {
        let most = limit - 1;
        match rng.below(8) {
            0..=4 => 0,
            5 | 6 => rng.below(u64::from(most.min(3)) + 1) as u32,
            _ if most <= 8 => most,
            _ => rng.below(9) as u32,
        }
    }

    /// How often the card is to answer that it is not ready.
    fn unready(&mut self) -> u32 {
        match self.waits {
            Some(waits) => waits,
            None => Self::failures(&mut self.rng, self.attempts.into()),
        }
    }

    /// True while a poll of the wait at hand is still to fail.
    fn fails(&mut self) -> bool {
        let left = match self.busy {
            Some(left) => left,
            None => Self::failures(&mut self.rng, self.poll_limit),
        };
        self.busy = Some(left.saturating_sub(1));
        left > 0
    }

    fn status(&mut self) -> u32 {
        let noise = self.rng.noise();
        match self.stage {
            Stage::Idle | Stage::Answered(..) | Stage::Open(_) | Stage::Last(_) => {
                self.stage = Stage::Idle;
                if self.fails() {
                    return noise & !BUSY | self.rng.bit_of(BUSY) | 0x800;
                }
                // Only a data phase and a clock change wait for these two bits.
                let active = if self.rng.one_in(12) { noise & DATA_ACTIVE } else { 0 };
                noise & !BUSY | active
            }
            Stage::Sent(command) => self.command_status(command, noise),
            Stage::First(_) => noise & !DATA_ERRORS,
            Stage::Second(command) => {
                if self.fails() {
                    self.stage = Stage::Open(command);
                    let open = noise & !DATA_ERRORS;
                    return match self.rng.below(3) {
                        0 => open & !DATA_END,
                        1 => open | self.rng.bit_of(DATA_ACTIVE),
                        _ => open & !DATA_END | DATA_ACTIVE,
                    };
                }
                self.stage = Stage::Last(command);
                noise & !DATA_ERRORS & !DATA_ACTIVE | DATA_END
            }
        }
    }

    fn command_status(&mut self, command: Command, noise: u32) -> u32 {
        if self.fails() {
            return noise & !TIMED_OUT & !completion(command);
        }
        self.busy = None;
        self.stage = Stage::Idle;
        let reply = self.card.reply(command, &mut self.rng);
        match (command.response, reply) {
            (Response::None, _) => noise & !TIMED_OUT | 0x80,
            (_, Reply::Silent) => noise | TIMED_OUT,
            (response, Reply::Words(words)) => {
                self.stage = Stage::Answered(command, words);
                let clean = noise & !TIMED_OUT;
                match response {
                    // R3 has no CRC, so the controller may say that it failed.
                    Response::R3 => clean & !0x41 | self.rng.pick(&[0x01, 0x40, 0x41]),
                    _ => clean & !CRC_FAILED | 0x40,
                }
            }
        }
    }

    fn response(&mut self, place: u8) -> u32 {
        let Stage::Answered(command, words) = self.stage else {
            return self.rng.noise();
        };
        if place == 3 {
            self.busy = None;
            self.stage = match command.data {
                true => Stage::First(command),
                false => Stage::Idle,
            };
        }
        words[usize::from(place)]
    }

    fn dma(&mut self) -> u32 {
        let noise = self.rng.noise() & 0x3fff_ffff;
        match self.stage {
            Stage::First(command) => {
                // A poll may fail here already, with the channel running.
                if self.busy != Some(0) && self.rng.one_in(2) && self.fails() {
                    return noise | 1 << 30;
                }
                self.stage = Stage::Second(command);
                noise
            }
            // At the second taking the running bit is not looked at; the count
            // is, if the poll completes.
            Stage::Open(command) => {
                self.stage = Stage::First(command);
                noise | self.rng.word() & 1 << 30
            }
            _ => noise & !0xffff | self.rng.word() & 1 << 30,
        }
    }

    fn natural(&mut self, reading: Reading) -> u32 {
        match reading {
            Reading::Status => self.status(),
            Reading::Respcmd => match self.stage {
                Stage::Answered(command, _) => u32::from(command.index) | self.rng.noise() & !0x3f,
                _ => self.rng.noise(),
            },
            Reading::Response(place) => self.response(place),
            Reading::Dma => self.dma(),
            Reading::Dcount => 0,
            Reading::Data(place) => match self.stage {
                Stage::Last(command) => self.card.data_word(command, usize::from(place)),
                _ => self.rng.noise(),
            },
        }
    }

    fn sent(&mut self, value: u32) {
        let index = (value & 0x3f) as u8;
        let app = std::mem::replace(&mut self.after_55, index == 55);
        let response = match (value >> 6 & 3, index) {
            (0, _) => Response::None,
            (3, _) => Response::R2,
            (_, 41) => Response::R3,
            (_, 3) => Response::R6,
            (_, 8) => Response::R7,
            _ => Response::R1,
        };
        if index == 0 {
            self.card.power_up_left = self.unready();
        }
        if index != 13 || self.armed {
            self.card.not_ready_left = self.unready();
        }
        if writes(index) {
            // It is seldom ready at once.
            self.card.not_ready_left = self.card.not_ready_left.max(self.unready());
        }
        self.fetched = 0;
        self.busy = None;
        self.stage = Stage::Sent(Command {
            index,
            argument: self.argument,
            app,
            data: self.armed || writes(index),
            response,
        });
    }
}

impl Live for Player {
    fn answer(&mut self, reading: Reading) -> Option<u32> {
        if self.given == MOST_WORDS {
            return None;
        }
        let stage = self.stage;
        let natural = self.natural(reading);
        let word = match self.stuck {
            Some(stuck) => stuck.hold(stage, reading, natural, &mut self.rng),
            None if self.spoil_at == Some(self.given) => spoil::word(self, stage, reading, natural),
            None => natural,
        };
        self.follow(stage, reading, word);
        self.given += 1;
        Some(word)
    }

    fn wrote(&mut self, register: u32, value: u32) {
        // No wait goes on across a row.
        self.busy = None;
        match register {
            3 => self.argument = value,
            4 if value != 0 => self.sent(value),
            4 => self.stage = Stage::Idle,
            7 => {
                self.armed = value != 0;
                if value == 0 {
                    self.stage = Stage::Idle;
                }
            }
            12 => self.fetch(value),
            _ => {}
        }
    }
}

impl Player {
    /// The controller sends a word on.
    fn fetch(&mut self, word: u32) {
        if let Stage::First(command) = self.stage {
            self.card.receive(command, self.fetched, word);
            self.fetched += 1;
        }
    }

    /// A word that was spoilt may have moved the host elsewhere than the
    /// natural one would have.
    fn follow(&mut self, before: Stage, reading: Reading, word: u32) {
        match (before, reading) {
            (Stage::First(command), Reading::Dma) => {
                self.stage = match word >> 30 {
                    0 => Stage::Second(command),
                    _ => Stage::First(command),
                };
            }
            (Stage::Second(command), Reading::Status) => {
                self.stage = match word & DATA_END != 0 && word & DATA_ACTIVE == 0 {
                    true => Stage::Last(command),
                    false => Stage::Open(command),
                };
            }
            (Stage::Sent(command), Reading::Status) => {
                let complete = word & completion(command) != 0;
                if word & TIMED_OUT == 0 && !complete {
                    self.stage = before;
                } else if let (true, Stage::Sent(_)) = (complete, self.stage) {
                    self.stage = match self.card.reply(command, &mut self.rng) {
                        Reply::Words(words) => Stage::Answered(command, words),
                        Reply::Silent => Stage::Idle,
                    };
                }
            }
            _ => {}
        }
    }
}

/// The bench takes the card for the time of a call; this handle keeps it.
#[derive(Clone)]
pub struct Seat(pub Rc<RefCell<Player>>);

impl Live for Seat {
    fn answer(&mut self, reading: Reading) -> Option<u32> {
        self.0.borrow_mut().answer(reading)
    }

    fn wrote(&mut self, register: u32, value: u32) {
        self.0.borrow_mut().wrote(register, value);
    }
}
