//! Scripts of a good card, written out: so many readings fail in each wait as asked for.

use oracle_driver::script::{self, data, short};
use oracle_driver::{Block, Call, Settings};

pub const SETTINGS: Settings = Settings {
    source: 48_000_000,
    poll_limit: 1_000_000,
    ready_attempts: 65_535,
    data_timeout: 7,
    software_timeout: 9,
    bypass: false,
    wide: true,
};

/// The status while the controller is busy with a command.
const BUSY: u32 = 0x800;

pub const INITIALISE: Call = Call::Initialise { frequency: 24_000_000 };

/// CMD13 answered: not ready so many times, then ready.
fn ready(unready: usize) -> Vec<u32> {
    [short(13, 0).repeat(unready), short(13, 0x900)].concat()
}

/// A card of 1,024 blocks.
pub fn initialisation() -> Vec<u32> {
    script::initialisation(0)
}

/// What so many blocks hold.
pub fn stored(blocks: usize) -> Vec<Block> {
    let word = |block: usize, place: usize| ((128 * block + place) as u32).wrapping_mul(0x9e37_79b9);
    (0..blocks)
        .map(|block| std::array::from_fn(|place| word(block, place)))
        .collect()
}

/// A read: so many times busy before its first command, so many times not ready.
pub fn read(blocks: usize, busy: usize, unready: usize) -> (Call<'static>, Vec<u32>) {
    let words = stored(blocks);
    let words = words.as_flattened();
    let script = match blocks {
        1 => [vec![BUSY; busy], ready(unready), data(17, words), ready(0)].concat(),
        _ => [
            vec![BUSY; busy],
            ready(unready),
            data(18, words),
            short(12, 0),
            ready(0),
        ]
        .concat(),
    };
    (Call::Read { index: 3, blocks }, script)
}

/// A write of these blocks.
pub fn write(blocks: &[Block]) -> (Call<'_>, Vec<u32>) {
    let script = match blocks.len() {
        1 => [ready(0), data(24, &[]), ready(0)].concat(),
        _ => [ready(0), data(25, &[]), short(12, 0), ready(0)].concat(),
    };
    (Call::Write { index: 3, data: blocks }, script)
}

pub fn status() -> (Call<'static>, Vec<u32>) {
    let words: Vec<u32> = (0..16).collect();
    (Call::Status, [short(55, 0x20), data(13, &words), ready(0)].concat())
}
