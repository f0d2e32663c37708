//! Reading and judging a book. Everything here is judged before a host is made.

use oracle_driver::{Block, Call, KeptCall, Settings};

use crate::wrongly;

pub const MOST_WORDS: usize = 4_096;
pub const MOST_CALLS: usize = 64;
pub const MOST_BLOCKS: u32 = 16;

/// Data words of a write, for each block.
pub const BLOCK: usize = 128;

/// Words before the first call, and words of a call's entry.
pub const HEAD: usize = 7;
pub const ENTRY: usize = 4;

#[derive(Clone, Debug, Eq, PartialEq)]
pub struct Book {
    pub settings: Settings,
    pub entries: Vec<Entry>,
}

#[derive(Clone, Debug, Eq, PartialEq)]
pub struct Entry {
    pub call: KeptCall,
    pub script: Vec<u32>,
}

/// Why a book gets 23: document 01's causes, and request P5's.
#[derive(Clone, Copy, Debug, Eq, Ord, PartialEq, PartialOrd)]
pub enum Fault {
    NoWholeWords,
    TooManyWords,
    CutShort,
    Flags,
    Attempts,
    NumberOfCalls,
    Kind,
    NotZero,
    TooManyBlocks,
    TooManyToWrite,
    ScriptLengths,
    DataCutShort,
}

impl Entry {
    /// Data words and script.
    pub fn body(&self) -> usize {
        self.call.data().len() + self.script.len()
    }
}

impl Book {
    /// The book, or the first cause of 23 that is met.
    pub fn read(bytes: &[u8]) -> Result<Self, Fault> {
        if !bytes.len().is_multiple_of(4) {
            return Err(Fault::NoWholeWords);
        }
        if bytes.len() / 4 > MOST_WORDS {
            return Err(Fault::TooManyWords);
        }
        let words: Vec<u32> = bytes
            .chunks_exact(4)
            .map(|word| u32::from_le_bytes([word[0], word[1], word[2], word[3]]))
            .collect();
        let Some(&[source, poll_limit, attempts, data_timeout, software_timeout, flags, calls]) = words.first_chunk()
        else {
            return Err(Fault::CutShort);
        };
        if flags > 3 {
            return Err(Fault::Flags);
        }
        let ready_attempts = u16::try_from(attempts).map_err(|_| Fault::Attempts)?;
        if !(1..=MOST_CALLS as u32).contains(&calls) {
            return Err(Fault::NumberOfCalls);
        }
        let contents = words[HEAD..].split_at_checked(ENTRY * calls as usize);
        let (contents, mut bodies) = contents.ok_or(Fault::CutShort)?;
        let mut entries = Vec::new();
        for row in contents.chunks_exact(ENTRY) {
            let kind = kind(row[0], row[1], row[2])?;
            let uncounted = match kind {
                Kind::Write { blocks, .. } => wrongly::uncounted(blocks),
                Kind::Whole(_) => 0,
            };
            let length = row[3] as usize + uncounted;
            let (body, rest) = bodies.split_at_checked(length).ok_or(Fault::ScriptLengths)?;
            entries.push(entry(kind, body)?);
            bodies = rest;
        }
        if !bodies.is_empty() {
            return Err(Fault::ScriptLengths);
        }
        let settings = Settings {
            source,
            poll_limit,
            ready_attempts,
            data_timeout,
            software_timeout,
            bypass: flags & 1 != 0,
            wide: flags & 2 != 0,
        };
        Ok(Self { settings, entries })
    }

    /// The words of a book with these settings, calls and bodies.
    pub fn words(&self) -> Vec<u32> {
        let set = &self.settings;
        let mut words = vec![
            set.source,
            set.poll_limit,
            set.ready_attempts.into(),
            set.data_timeout,
            set.software_timeout,
            u32::from(set.bypass) + 2 * u32::from(set.wide),
            self.entries.len() as u32,
        ];
        for entry in &self.entries {
            words.extend(numbers(entry.call.lent()));
            words.push(entry.body() as u32);
        }
        for entry in &self.entries {
            words.extend(entry.call.data());
            words.extend(&entry.script);
        }
        words
    }

    pub fn bytes(&self) -> Vec<u8> {
        bytes(&self.words())
    }
}

pub fn bytes(words: &[u32]) -> Vec<u8> {
    words.iter().flat_map(|word| word.to_le_bytes()).collect()
}

/// Kind, a and b of a call, as a book has them.
pub fn numbers(call: Call<'_>) -> [u32; 3] {
    match call {
        Call::Initialise { frequency } => [1, frequency, 0],
        Call::Read { index, blocks } => [2, index, blocks as u32],
        Call::Status => [3, 0, 0],
        Call::Write { index, data } => [4, index, data.len() as u32],
    }
}

/// What a row of the contents asks for; of a write's data it says how many blocks.
enum Kind {
    Whole(KeptCall),
    Write { index: u32, blocks: usize },
}

fn kind(kind: u32, a: u32, b: u32) -> Result<Kind, Fault> {
    let blocks = b as usize;
    match (kind, a, b) {
        (1, frequency, 0) => Ok(Kind::Whole(KeptCall::Initialise { frequency })),
        (2, index, 0..=MOST_BLOCKS) => Ok(Kind::Whole(KeptCall::Read { index, blocks })),
        (3, 0, 0) => Ok(Kind::Whole(KeptCall::Status)),
        (4, index, 0..=MOST_BLOCKS) if !wrongly::refuses(b) => Ok(Kind::Write { index, blocks }),
        (4, index, _) if wrongly::takes(b) => Ok(Kind::Write { index, blocks }),
        (1 | 3, ..) => Err(Fault::NotZero),
        (2, ..) => Err(Fault::TooManyBlocks),
        (4, ..) => Err(Fault::TooManyToWrite),
        _ => Err(Fault::Kind),
    }
}

/// A call and its script: a write's body starts with its data.
fn entry(kind: Kind, body: &[u32]) -> Result<Entry, Fault> {
    let (index, blocks) = match kind {
        Kind::Whole(call) => {
            let script = body.to_vec();
            return Ok(Entry { call, script });
        }
        Kind::Write { index, blocks } => (index, blocks),
    };
    let (words, script) = match wrongly::split(body, blocks) {
        Some(split) => split,
        None => {
            let (words, script) = body.split_at_checked(BLOCK * blocks).ok_or(Fault::DataCutShort)?;
            (words.to_vec(), script)
        }
    };
    let block = |words: &[u32]| -> Block { words.try_into().expect("a block's words") };
    let data = words.chunks_exact(BLOCK).map(block).collect();
    Ok(Entry {
        call: KeptCall::Write { index, data },
        script: script.to_vec(),
    })
}
