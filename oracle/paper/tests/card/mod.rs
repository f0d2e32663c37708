//! A card as it answers where an answer 13 can be its fault, protected or not, and the call that takes it.

use oracle_driver::bench::Feed;
use oracle_driver::script::{data, long, short};
use oracle_driver::{Call, Host, Outcome, Settings};

pub const SETTINGS: Settings = Settings {
    source: 48_000_000,
    poll_limit: 2,
    ready_attempts: 3,
    data_timeout: 7,
    software_timeout: 9,
    bypass: false,
    wide: true,
};
pub const CALL: Call = Call::Initialise { frequency: 24_000_000 };
pub const ROOM: usize = 4_096;

/// What it answers to CMD55 before each application command, to ACMD41 and to CMD9; all else is well.
#[derive(Clone, Copy)]
pub struct Card {
    pub taken: [u32; 3],
    pub ocr: u32,
    pub csd: [u32; 2],
    /// 2 if permanent plus 1 if temporary.
    pub protect: u32,
}

pub const GOOD: Card = Card {
    taken: [0x20; 3],
    ocr: 0xc030_0000,
    csd: [0x4000_0032, 0x0009_0000],
    protect: 0,
};

impl Card {
    /// What OCR and CSD say of it.
    pub fn of(high: bool, version: u32, length: u32) -> Self {
        Self {
            ocr: 0x8030_0000 | u32::from(high) << 30,
            csd: [version << 30 | 0x32, length << 16],
            ..GOOD
        }
    }

    /// A card of standard capacity is asked for its block length besides.
    pub fn script(self) -> Vec<u32> {
        let blocks = if self.ocr >> 30 & 1 == 0 {
            short(16, 0)
        } else {
            Vec::new()
        };
        [
            vec![0, 0, 0x80],
            short(8, 0x1aa),
            short(55, self.taken[0]),
            long([self.ocr, 0, 0, 0]),
            long([1, 2, 3, 4]),
            short(3, 0x1234_0000),
            long([self.csd[0], self.csd[1], 0, self.protect << 12]),
            short(7, 0),
            short(13, 0x900),
            blocks,
            short(55, self.taken[1]),
            data(51, &[0x0000_0500, 0]),
            short(13, 0x900),
            short(55, self.taken[2]),
            short(6, 0),
            vec![0],
        ]
        .concat()
    }
}

/// The call on a new host.
pub fn run<H: Host>(script: &[u32]) -> Outcome {
    let mut host = H::make(&SETTINGS).ok().unwrap();
    host.call(CALL, Feed::Script(script), ROOM, true)
}
