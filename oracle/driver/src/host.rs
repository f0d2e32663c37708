//! What a caller of the oracle sees: settings, calls, outcomes and the state of
//! a host, in document 01's words.

use crate::bench::{Event, Feed};

#[derive(Clone, Copy, Debug, Eq, PartialEq)]
pub struct Settings {
    pub source: u32,
    pub poll_limit: u32,
    pub ready_attempts: u16,
    pub data_timeout: u32,
    pub software_timeout: u32,
    pub bypass: bool,
    pub wide: bool,
}

/// A block's words, in the order sent; its bytes are theirs, the low one first.
pub type Block = [u32; 128];

/// A call, whose data, if it is a write, is kept or lent.
#[derive(Clone, Copy, Debug, Eq, Hash, PartialEq)]
pub enum CallOf<D> {
    Initialise { frequency: u32 },
    Read { index: u32, blocks: usize },
    Status,
    Write { index: u32, data: D },
}

/// As a host gets it: the data is lent.
pub type Call<'a> = CallOf<&'a [Block]>;

/// As a book has it.
pub type KeptCall = CallOf<Vec<Block>>;

impl<D: AsRef<[Block]>> CallOf<D> {
    pub fn lent(&self) -> Call<'_> {
        match self {
            CallOf::Initialise { frequency } => Call::Initialise { frequency: *frequency },
            CallOf::Read { index, blocks } => Call::Read {
                index: *index,
                blocks: *blocks,
            },
            CallOf::Status => Call::Status,
            CallOf::Write { index, data } => Call::Write {
                index: *index,
                data: data.as_ref(),
            },
        }
    }

    pub fn kept(&self) -> KeptCall {
        match self.lent() {
            Call::Initialise { frequency } => KeptCall::Initialise { frequency },
            Call::Read { index, blocks } => KeptCall::Read { index, blocks },
            Call::Status => KeptCall::Status,
            Call::Write { index, data } => KeptCall::Write {
                index,
                data: data.to_vec(),
            },
        }
    }

    /// The words of a write's data, else none.
    pub fn data(&self) -> &[u32] {
        match self {
            CallOf::Write { data, .. } => data.as_ref().as_flattened(),
            _ => &[],
        }
    }
}

/// UnsupportedCardType, the one answer with a field.
pub const UNSUPPORTED: u8 = 13;

/// Request P8's answer, which the driver does not have.
pub const WRITE_PROTECTED: u8 = 26;

/// The numbers of answers that lie outside the driver.
pub const SCRIPT_ENDED: u8 = 21;
pub const TRACE_FULL: u8 = 22;
pub const BAD_BOOK: u8 = 23;

#[derive(Clone, Debug, Eq, PartialEq)]
pub struct Outcome {
    /// 0 accepted, else the number of the refusal.
    pub answer: u8,
    /// The card status word of answer 10, else 0.
    pub carried: u32,
    /// At answer 13 the number of the field that made the card unsupported, of a
    /// host that tells it. The Rust does not.
    pub field: Option<u8>,
    pub words_used: usize,
    pub rows: Vec<(u32, u32)>,
    /// Of an accepted status call.
    pub status: Option<[u32; 16]>,
    /// The bytes of an accepted read, else none.
    pub blocks: Vec<u8>,
    /// Of an accepted initialisation.
    pub protection: Option<Protection>,
    /// The script, or what a live card gave.
    pub script: Vec<u32>,
    /// Only of a watched call.
    pub events: Vec<Event>,
}

/// What a card's CSD says about writing to it.
#[derive(Clone, Copy, Debug, Default, Eq, PartialEq)]
pub struct Protection {
    pub permanent: bool,
    pub temporary: bool,
}

impl Protection {
    pub fn any(self) -> bool {
        self.permanent || self.temporary
    }

    /// As lines and states have it.
    pub fn number(self) -> u8 {
        2 * u8::from(self.permanent) + u8::from(self.temporary)
    }
}

#[derive(Clone, Copy, Debug, Eq, PartialEq)]
pub struct Record {
    pub high_capacity: bool,
    pub ocr: u32,
    pub rca: u16,
    pub cid: u128,
    pub csd: u128,
    pub scr: u64,
    pub status: [u32; 16],
    pub blocks: u64,
    pub protection: Protection,
}

#[derive(Clone, Copy, Debug, Eq, PartialEq)]
pub struct State {
    pub clock: u32,
    pub sdr25: bool,
    pub gated: bool,
    pub clkcr: u32,
    pub record: Option<Record>,
}

/// A host: the right one, or one with a wrong switch on.
pub trait Host: Sized {
    type Snapshot: Clone;

    /// The host, or the number with which it is refused.
    fn make(settings: &Settings) -> Result<Self, u8>;
    fn call(&mut self, call: Call<'_>, feed: Feed<'_>, room: usize, watched: bool) -> Outcome;
    fn state(&self) -> State;
    fn snapshot(&self) -> Self::Snapshot;
    fn restore(&mut self, before: &Self::Snapshot);
}

/// The plain functions of the types, as number of the answer times 2^56 plus
/// the value (where refused 0, or at 13 the field's number, if it is told).
pub trait Leaves {
    /// Value: bypass times 2^40, divisor field times 2^32, frequency.
    fn clock(source: u32, requested: u32, bypass: bool) -> u64;
    fn count(high: u64, low: u64) -> u64;
    fn rate(byte: u8) -> u64;
    fn address(high_capacity: bool, blocks: u64, index: u32, count: usize) -> u64;
    /// The number alone.
    fn data_error(status: u32) -> u8;
    fn size(blocks: u64) -> u64;
}
