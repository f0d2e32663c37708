//! One answer of a live card made wrong, in a way that fits the place: so every
//! arm of the refusals is reached without losing step with the host.

use oracle_driver::bench::Reading;

use crate::card::{other_length, Command, Response};
use crate::player::{completion, Player, Stage};
use crate::rng::Rng;

const R1_ERRORS: u32 = 0xfdff_e008;
const LOCKED: u32 = 0x0200_0000;

/// What stays wrong from one reading on, until a limit is spent.
#[derive(Clone, Copy, Debug)]
pub enum Stuck {
    Busy(u32),
    NoCompletion,
    NotReady(u32),
    NotPowered,
    Running,
    NeverEnds,
}

impl Stuck {
    pub fn hold(self, stage: Stage, reading: Reading, natural: u32, rng: &mut Rng) -> u32 {
        match (self, stage, reading) {
            (Stuck::Busy(bits), Stage::Idle, Reading::Status) => natural | bits,
            (Stuck::NoCompletion, Stage::Sent(command), Reading::Status) => natural & !4 & !completion(command),
            (Stuck::NotReady(bits), Stage::Answered(command, _), Reading::Response(0)) if waits(command) => {
                natural & !0x1f00 | bits
            }
            (Stuck::NotPowered, Stage::Answered(command, _), Reading::Response(0)) if command.index == 41 => {
                natural & !(1 << 31)
            }
            (Stuck::Running, Stage::First(_), Reading::Dma) => natural & !(1 << 31) | 1 << 30,
            (Stuck::NeverEnds, Stage::Second(_), Reading::Status) => match rng.below(3) {
                0 => natural & !0x100,
                1 => natural | 0x1000,
                _ => natural | 0x2000,
            },
            _ => natural,
        }
    }
}

/// CMD13 as a question, not as the data command of the SD status.
fn waits(command: Command) -> bool {
    command.index == 13 && !command.data
}

/// A wrong word for this reading.
pub fn word(player: &mut Player, stage: Stage, reading: Reading, natural: u32) -> u32 {
    let rng = &mut player.rng;
    let (word, stuck) = match (stage, reading) {
        (Stage::Sent(command), Reading::Status) => sent(command, natural, rng),
        (Stage::Answered(command, _), Reading::Respcmd) => (echo(command, rng), None),
        (Stage::Answered(command, _), Reading::Response(place)) => response(command, place, natural, rng),
        (Stage::First(_), Reading::Status) => (natural | data_error(rng), None),
        (Stage::Second(_), Reading::Status) => match rng.below(3) {
            0 => (natural & !0x100, Some(Stuck::NeverEnds)),
            _ => (natural | data_error(rng), None),
        },
        (Stage::First(_), Reading::Dma) => match rng.below(3) {
            0 => (natural & !(1 << 31) | 1 << 30, Some(Stuck::Running)),
            1 => (natural | 3 << 30, None),
            _ => (natural & !(1 << 30) | 1 << 31, None),
        },
        (_, Reading::Dma) => match rng.below(2) {
            0 => (natural | 1 << 31, None),
            _ => (natural & !0xffff | remaining(rng), None),
        },
        (_, Reading::Dcount) => (rng.bit_of(!0) | rng.noise(), None),
        (Stage::Last(command), Reading::Data(_)) => (data(command, natural, rng), None),
        (_, Reading::Status) => {
            let bits = rng.pick(&[0x800, 0x800, 0x1000, 0x2000, 0x3000]);
            (natural | bits, Some(Stuck::Busy(bits)))
        }
        _ => (rng.word(), None),
    };
    player.stuck = stuck;
    word
}

fn sent(command: Command, natural: u32, rng: &mut Rng) -> (u32, Option<Stuck>) {
    let bits = completion(command);
    match rng.below(6) {
        0 => (natural & !bits | 4, None),
        1 => (natural | bits | 4, None),
        2 => (natural & !4 & !bits | 1, None),
        3 => (natural & !4 | 0x41, None),
        // The completion of the other kind of command, for good.
        4 => (natural & !4 & !bits | 0xc1 & !bits, Some(Stuck::NoCompletion)),
        _ => (natural & !4 & !bits, Some(Stuck::NoCompletion)),
    }
}

fn echo(command: Command, rng: &mut Rng) -> u32 {
    let index = u32::from(command.index);
    let wrong = match rng.below(3) {
        0 => index ^ rng.bit_of(0x3f),
        1 => (index + 1) & 0x3f,
        _ => rng.word() & 0x3f,
    };
    wrong | rng.noise() & !0x3f
}

fn response(command: Command, place: u8, natural: u32, rng: &mut Rng) -> (u32, Option<Stuck>) {
    if place != 0 && command.response != Response::R2 {
        return (rng.word(), None);
    }
    let word = match command.response {
        Response::R2 if place == 0 => first_of_long(natural, rng),
        Response::R2 if place == 1 && rng.one_in(2) => another_length(natural, rng),
        Response::R2 => match rng.below(2) {
            0 => natural ^ rng.bit_of(!0),
            _ => rng.word(),
        },
        Response::R3 => match rng.below(5) {
            0 => natural & !0x0030_0000,
            1 => natural & !0x8030_0000,
            2 => natural ^ 1 << 30,
            3 => natural & !0x0030_0000 | rng.bit_of(0x0030_0000),
            _ => return (natural & !(1 << 31), Some(Stuck::NotPowered)),
        },
        Response::R6 => match rng.below(3) {
            0 => natural & 0xffff,
            1 => natural | rng.bit_of(0xe000),
            _ => natural & 0xffff | rng.bit_of(0xffff_0000),
        },
        Response::R7 => version(natural, rng),
        _ => return status(command, natural, rng),
    };
    (word, None)
}

/// The top word of a CSD: version and rate.
fn first_of_long(natural: u32, rng: &mut Rng) -> u32 {
    match rng.below(4) {
        0 => natural ^ rng.bit_of(3 << 30),
        1 => natural & !0xff | rng.word() & 0xff,
        2 => natural & !0xff | rng.pick(&[0x02, 0xb2, 0x34, 0x08, 0x09, 0x7b, 0x0b, 0x80]),
        _ => natural ^ rng.bit_of(!0),
    }
}

/// The second word of a CSD with another block length than 9.
fn another_length(natural: u32, rng: &mut Rng) -> u32 {
    natural & !(15 << 16) | (other_length(rng) as u32) << 16
}

/// Answers to CMD8 on each side of "version 1".
fn version(natural: u32, rng: &mut Rng) -> u32 {
    match rng.below(7) {
        0 => natural ^ rng.bit_of(!0),
        1 => 0x0040_0000,
        2 => 0x0040_0000 | rng.word() & 0x0200_1ff7,
        3 => 0x0040_0000 | rng.bit_of(R1_ERRORS),
        4 => 0x0040_01aa,
        5 => rng.bit_of(R1_ERRORS) | rng.word() & 0x0200_1ff7,
        _ => rng.word(),
    }
}

fn status(command: Command, natural: u32, rng: &mut Rng) -> (u32, Option<Stuck>) {
    if waits(command) && rng.one_in(3) {
        // Ready is bit 8 with state 4: here one of the two is missing, or both.
        let bits = rng.pick(&[0x000, 0x800, 0x100, 0x300, 0x700, 0xb00, 0xf00, 0x1100, 0x1900]);
        return (natural & !0x1f00 | bits, Some(Stuck::NotReady(bits)));
    }
    if command.index == 55 && rng.one_in(4) {
        // Taken as no application command; nothing else looks at this bit.
        return (natural & !0x20, None);
    }
    let word = match rng.below(7) {
        0..=2 => natural | rng.bit_of(R1_ERRORS),
        3..=5 => natural | LOCKED,
        _ => natural | LOCKED | rng.bit_of(R1_ERRORS),
    };
    (word, None)
}

fn data_error(rng: &mut Rng) -> u32 {
    match rng.below(3) {
        0 | 1 => rng.bit_of(0x23a),
        _ => rng.bit_of(0x23a) | rng.word() & 0x23a,
    }
}

fn remaining(rng: &mut Rng) -> u32 {
    match rng.below(4) {
        0 => rng.between(1, 0xffff) as u32,
        1 => 1,
        2 => 0x100,
        _ => rng.bit_of(0xffff),
    }
}

fn data(command: Command, natural: u32, rng: &mut Rng) -> u32 {
    match command.index {
        // The bits of version and widths lie in the first two bytes sent.
        51 => natural ^ rng.bit_of(0x0000_0f0f),
        _ => natural ^ rng.bit_of(!0),
    }
}
