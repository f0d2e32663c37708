//! Settings and calls, at their limits often enough.

use oracle_driver::{Block, KeptCall, Settings, State};

use crate::rng::Rng;

const MOST_SOURCE: u32 = 102_800_000;

const SOURCES: [u32; 26] = [
    2,
    3,
    4,
    5,
    100,
    257,
    999,
    1_000,
    1_001,
    399_999,
    400_000,
    400_001,
    800_001,
    8_000_000,
    16_000_000,
    24_999_999,
    25_000_000,
    25_000_001,
    48_000_000,
    49_999_999,
    50_000_000,
    50_000_001,
    72_000_000,
    100_000_000,
    102_799_999,
    MOST_SOURCE,
];

const FREQUENCIES: [u32; 14] = [
    1, 2, 99_999, 100_000, 399_999, 400_000, 1_000_000, 24_999_999, 25_000_000, 25_000_001, 26_000_000, 49_999_999,
    50_000_000, 50_000_000,
];

/// Settings that make a host.
pub fn good(rng: &mut Rng) -> Settings {
    let source = match rng.below(4) {
        0 => rng.pick(&SOURCES),
        1 => rng.spread() % (MOST_SOURCE - 1) + 2,
        _ => rng.between(1_000_000, MOST_SOURCE.into()) as u32,
    };
    Settings {
        source,
        poll_limit: match rng.below(20) {
            0..=2 => 1,
            3..=13 => rng.between(2, 4) as u32,
            14..=17 => rng.between(5, 12) as u32,
            18 => rng.pick(&[100, 1_000_000, 0x8000_0000, u32::MAX]),
            _ => rng.spread().max(1),
        },
        ready_attempts: match rng.below(20) {
            0..=2 => 1,
            3..=13 => rng.between(2, 4) as u16,
            14..=17 => rng.between(5, 12) as u16,
            18 => rng.pick(&[100, 1_000, u16::MAX]),
            _ => (rng.spread() as u16).max(1),
        },
        data_timeout: limit(rng),
        software_timeout: limit(rng),
        bypass: rng.one_in(2),
        wide: rng.one_in(2),
    }
}

/// Rows of room that some calls of a book, or all, need more of: an initialisation has 68 or more, a write of one block over
/// 150 and one of two over 280.
pub fn little_room(rng: &mut Rng) -> usize {
    match rng.below(3) {
        0 => rng.index(320),
        _ => rng.index(120),
    }
}

/// A 32-bit setting that is not 0.
fn limit(rng: &mut Rng) -> u32 {
    match rng.below(4) {
        0 => rng.pick(&[1, 5_000_000, u32::MAX]),
        _ => rng.spread().max(1),
    }
}

/// Settings that make no host: a source out of range, a 0, or both.
pub fn refused(rng: &mut Rng) -> Settings {
    let mut settings = good(rng);
    let which = rng.below(6);
    if which < 4 {
        match which {
            0 => settings.poll_limit = 0,
            1 => settings.ready_attempts = 0,
            2 => settings.data_timeout = 0,
            _ => settings.software_timeout = 0,
        }
    }
    if which >= 4 || rng.one_in(3) {
        settings.source = match rng.below(4) {
            0 => 0,
            1 => 1,
            2 => MOST_SOURCE + 1,
            _ => rng.between(u64::from(MOST_SOURCE) + 1, u64::from(u32::MAX)) as u32,
        };
    }
    settings
}

pub fn frequency(rng: &mut Rng) -> u32 {
    match rng.below(24) {
        0 => rng.pick(&[0, 50_000_001, 80_000_000, 80_000_001, u32::MAX]),
        1..=9 => rng.pick(&FREQUENCIES),
        10..=15 => rng.between(25_000_001, 50_000_000) as u32,
        16..=21 => rng.between(400_000, 25_000_000) as u32,
        _ => rng.spread() % 50_000_000 + 1,
    }
}

/// A call that fits what the host holds, mostly.
pub fn call(state: &State, rng: &mut Rng) -> KeptCall {
    let Some(record) = &state.record else {
        return match rng.below(12) {
            0 => read(1 << 20, rng),
            1 => KeptCall::Status,
            2 => write(1 << 20, rng),
            _ => KeptCall::Initialise {
                frequency: frequency(rng),
            },
        };
    };
    match rng.below(24) {
        0..=3 => KeptCall::Initialise {
            frequency: frequency(rng),
        },
        4..=7 => KeptCall::Status,
        8..=15 => read(record.blocks, rng),
        _ => write(record.blocks, rng),
    }
}

fn read(total: u64, rng: &mut Rng) -> KeptCall {
    let blocks = match rng.below(40) {
        0 | 1 => 0,
        2..=25 => 1,
        26..=36 => rng.between(2, 4),
        37 | 38 => rng.between(5, 16),
        _ => 16,
    };
    KeptCall::Read {
        index: index(total, blocks, rng),
        blocks: blocks as usize,
    }
}

fn write(total: u64, rng: &mut Rng) -> KeptCall {
    let blocks = match rng.below(40) {
        0 | 1 => 0,
        2..=25 => 1,
        26..=34 => 2,
        35..=37 => rng.between(3, 4),
        38 => rng.between(5, 16),
        _ => 16,
    };
    KeptCall::Write {
        index: index(total, blocks, rng),
        data: data(blocks as usize, rng),
    }
}

/// Where so many blocks of a card are asked for: also at both its ends, and past it.
fn index(total: u64, blocks: u64, rng: &mut Rng) -> u32 {
    let last = total.saturating_sub(blocks);
    let index = match rng.below(12) {
        0 => 0,
        1 => last,
        2 => last + 1,
        3 => rng.pick(&[total, total.saturating_sub(1), u64::from(u32::MAX)]),
        4 => rng.spread().into(),
        _ => rng.below(last + 1),
    };
    index as u32
}

/// Data to write: any words, many that are 0, or numbers that go up.
pub fn data(blocks: usize, rng: &mut Rng) -> Vec<Block> {
    let block = |rng: &mut Rng| -> Block {
        match rng.below(4) {
            0 => std::array::from_fn(|_| rng.noise()),
            1 => {
                let first = rng.below(800) as u32;
                std::array::from_fn(|place| first + place as u32)
            }
            _ => std::array::from_fn(|_| rng.word()),
        }
    };
    (0..blocks).map(|_| block(rng)).collect()
}
