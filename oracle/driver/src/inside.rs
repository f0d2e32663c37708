//! Compiled as a child of the driver's module (of each of its two copies), so
//! that it sees the fields and functions that the driver keeps to itself. The
//! driver's own text stays as it is for that.

use std::panic::{catch_unwind, resume_unwind, AssertUnwindSafe};

use sdio_host::{CardCapacity, SDStatus, CID, CSD, OCR, SCR};

use super::{types, Card, Config, DataBlock, Error, Sdmmc, Signalling};
use crate::bench::{self, Feed, Registers, Stop, FIFO};
use crate::dma::AnyChannel;
use crate::gpio::AnyPin;
use crate::host::{self, Block, Call, Outcome, Protection, Record, Settings, State};
use crate::interrupt::Nobody;
use crate::time::Hertz;
use crate::{peripherals, wrong, Peri};

type Driver = Sdmmc<'static, peripherals::SDIO, AnyChannel>;

pub struct Host {
    driver: Driver,
    source: u32,
    registers: Registers,
}

/// All that a host holds between calls. Registers count as part of it.
#[derive(Clone)]
pub struct Snapshot {
    clock: Hertz,
    signalling: Signalling,
    card: Option<Card>,
    gated: bool,
    registers: Registers,
}

impl host::Host for Host {
    type Snapshot = Snapshot;

    fn make(settings: &Settings) -> Result<Self, u8> {
        bench::set_source(settings.source);
        let config = Config {
            data_transfer_timeout: settings.data_timeout,
            software_timeout_ms: settings.software_timeout,
            poll_limit: settings.poll_limit,
            card_ready_attempts: settings.ready_attempts,
            allow_clock_bypass: settings.bypass,
        };
        let driver = drive(config, settings.wide).map_err(|error| number(error).0)?;
        // The driver makes a host at 1 Hz, whose clock is 0 Hz; its first delay
        // divides by that. Document 01 refuses it here.
        if settings.source == 1 {
            return Err(number(Error::BadClock).0);
        }
        Ok(Self {
            driver,
            source: settings.source,
            registers: Registers::default(),
        })
    }

    fn call(&mut self, call: Call<'_>, feed: Feed<'_>, room: usize, watched: bool) -> Outcome {
        let before = self.snapshot();
        bench::begin(self.source, self.registers, feed, room, watched);
        let ended = catch_unwind(AssertUnwindSafe(|| self.run(call)));
        let kept = bench::finish();
        self.registers = kept.registers;
        let mut outcome = Outcome {
            answer: 0,
            carried: 0,
            field: None,
            words_used: kept.used + counted_wrongly(call),
            rows: kept.rows,
            status: None,
            blocks: Vec::new(),
            protection: None,
            script: kept.words,
            events: kept.events,
        };
        match ended {
            Ok(Ok((status, blocks))) => {
                outcome.status = status;
                outcome.blocks = blocks;
                outcome.protection = self.taken(call);
            }
            Ok(Err(error)) => (outcome.answer, outcome.carried) = number(error),
            Err(payload) => {
                let (Some(first), Some(why)) = (payload.downcast_ref::<Stop>(), kept.stopped) else {
                    resume_unwind(payload);
                };
                self.stopped(why, &before, &mut outcome);
                if *first == Stop::ScriptEnded {
                    self.ended_wrongly(why, &before, room, &mut outcome);
                }
            }
        }
        outcome
    }

    fn state(&self) -> State {
        let record = self.driver.card().ok().map(|card| Record {
            high_capacity: card.card_type == CardCapacity::SDHC,
            ocr: card.ocr.0,
            rca: card.rca,
            cid: card.cid.0,
            csd: card.csd.0,
            scr: card.scr.0,
            status: card.status.inner,
            blocks: card.block_count,
            protection: protection(card.csd),
        });
        State {
            clock: self.driver.clock().0,
            sdr25: self.driver.signalling() == Signalling::SDR25,
            gated: self.driver.gated,
            clkcr: self.registers[bench::CLKCR],
            record,
        }
    }

    fn snapshot(&self) -> Snapshot {
        Snapshot {
            clock: self.driver.clock,
            signalling: self.driver.signalling,
            card: self.driver.card,
            gated: self.driver.gated,
            registers: self.registers,
        }
    }

    fn restore(&mut self, before: &Snapshot) {
        self.driver.clock = before.clock;
        self.driver.signalling = before.signalling;
        self.driver.card = before.card;
        self.driver.gated = before.gated;
        self.registers = before.registers;
    }
}

type Given = (Option<[u32; 16]>, Vec<u8>);

/// Blocks for a bare read to fill.
pub fn blocks(count: usize) -> Vec<DataBlock> {
    vec![DataBlock([0; 512]); count]
}

/// Blocks for a bare write to send.
pub fn filled(data: &[Block]) -> Vec<DataBlock> {
    let mut blocks = blocks(data.len());
    for (block, words) in blocks.iter_mut().zip(data) {
        for (bytes, word) in block.chunks_exact_mut(4).zip(words) {
            bytes.copy_from_slice(&word.to_le_bytes());
        }
    }
    blocks
}

impl Host {
    /// For measuring: the driver's own call and nothing around it, on whichever bench is on. A read fills the blocks, a write
    /// sends them: they stand for its data. True where it is accepted.
    pub fn bare(&mut self, call: Call<'_>, blocks: &mut [DataBlock]) -> bool {
        match call {
            Call::Initialise { frequency } => self.driver.blocking_init_card(Hertz(frequency)).is_ok(),
            Call::Read { index, .. } => self.driver.blocking_read_blocks(index, blocks).is_ok(),
            Call::Status => self.driver.blocking_read_sd_status().is_ok(),
            Call::Write { index, .. } => self.driver.blocking_write_blocks(index, blocks).is_ok(),
        }
    }

    /// What an accepted call says of the card, if it took one.
    fn taken(&self, call: Call<'_>) -> Option<Protection> {
        match call {
            Call::Initialise { .. } => self.driver.card().ok().map(|card| protection(card.csd)),
            _ => None,
        }
    }

    /// The driver unwound, and its guards have run: the host stands as they left
    /// it, unless a row, which may have been one of theirs, found no room.
    fn stopped(&mut self, why: Stop, before: &Snapshot, outcome: &mut Outcome) {
        match why {
            Stop::ScriptEnded => outcome.answer = host::SCRIPT_ENDED,
            Stop::TraceFull => {
                outcome.answer = host::TRACE_FULL;
                self.as_before(before);
                if let Some((FIFO, _)) = outcome.rows.last() {
                    self.full_wrongly();
                }
            }
        }
    }

    fn as_before(&mut self, before: &Snapshot) {
        if wrong::is(wrong::FULL_HOST_NOT_RESTORED) {
            return;
        }
        let registers = self.registers;
        host::Host::restore(self, before);
        if wrong::is(wrong::FULL_CLKCR_NOT_RESTORED) {
            self.registers = registers;
        }
    }

    /// What the wrong hosts make of a 22 behind a row of the FIFO.
    fn full_wrongly(&mut self) {
        if wrong::is(wrong::FIFO_FULL_DROPS_RECORD) {
            self.driver.card = None;
        }
        if wrong::is(wrong::FIFO_FULL_RESETS) {
            self.registers[bench::CLKCR] = 0;
        }
    }

    /// What the wrong hosts make of a script's end.
    fn ended_wrongly(&mut self, why: Stop, before: &Snapshot, room: usize, outcome: &mut Outcome) {
        match why {
            Stop::ScriptEnded if wrong::is(wrong::ENDED_AS_TIMEOUT) => outcome.answer = 1,
            Stop::ScriptEnded if wrong::is(wrong::ENDED_HOST_AS_BEFORE) => self.as_before(before),
            Stop::ScriptEnded if wrong::is(wrong::CLOSING_FULL_IF_FILLED) && outcome.rows.len() == room => {
                self.stopped(Stop::TraceFull, before, outcome);
            }
            Stop::TraceFull if wrong::is(wrong::CLOSING_FULL_AS_ENDED) => outcome.answer = host::SCRIPT_ENDED,
            Stop::TraceFull if wrong::is(wrong::CLOSING_FULL_DROPS_RECORD) => self.driver.card = None,
            _ => {}
        }
    }

    fn run(&mut self, call: Call<'_>) -> Result<Given, Error> {
        match call {
            Call::Initialise { frequency } => {
                self.driver.blocking_init_card(Hertz(frequency))?;
                Ok((None, Vec::new()))
            }
            Call::Read { index, blocks } => {
                // A pattern that no script is likely to hold, so that a byte
                // left unwritten would show.
                let mut buffer = vec![DataBlock([0xa5; 512]); blocks];
                self.driver.blocking_read_blocks(index, &mut buffer)?;
                Ok((None, buffer.iter().flat_map(|block| block.0).collect()))
            }
            Call::Status => {
                let status = self.driver.blocking_read_sd_status()?;
                Ok((Some(status.inner), Vec::new()))
            }
            Call::Write { index, data } => {
                let blocks = filled(data);
                self.driver.blocking_write_blocks(index, &blocks)?;
                Ok((None, given_wrongly(&blocks)))
            }
        }
    }
}

/// The bytes of an accepted write that a wrong host gives; the right one gives none.
fn given_wrongly(blocks: &[DataBlock]) -> Vec<u8> {
    match wrong::is(wrong::WRITE_GIVES_BLOCKS) {
        true => blocks.iter().flat_map(|block| block.0).collect(),
        false => Vec::new(),
    }
}

/// Words that a wrong host counts besides those it took.
fn counted_wrongly(call: Call<'_>) -> usize {
    match wrong::is(wrong::WRITE_COUNTS_DATA) {
        true => call.data().len(),
        false => 0,
    }
}

/// The driver does not look at these two bits; they are told from the CSD that its record holds.
fn protection(csd: CSD) -> Protection {
    Protection {
        permanent: csd.0 >> 13 & 1 == 1,
        temporary: csd.0 >> 12 & 1 == 1,
    }
}

fn drive(config: Config, wide: bool) -> Result<Driver, Error> {
    let pin = || Peri::make(AnyPin);
    let peri = Peri::make(peripherals::SDIO);
    let dma = Peri::make(AnyChannel);
    if wide {
        Driver::new_4bit::<0>(peri, Nobody, dma, pin(), pin(), pin(), pin(), pin(), pin(), config)
    } else {
        Driver::new_1bit::<0>(peri, Nobody, dma, pin(), pin(), pin(), config)
    }
}

/// Document 01's number of an answer, and the word that number 10 carries.
fn number(error: Error) -> (u8, u32) {
    let number = match error {
        Error::Timeout => 1,
        Error::SoftwareTimeout => 2,
        Error::Crc => 3,
        Error::StBitErr => 4,
        Error::Overrun => 5,
        Error::Underrun => 6,
        Error::Dma => 7,
        Error::IncompleteTransfer => 8,
        Error::ResponseMismatch => 9,
        Error::CardStatus(word) => return (10, word),
        Error::CardLocked => 11,
        Error::UnsupportedCardVersion => 12,
        Error::UnsupportedCardType => 13,
        Error::UnsupportedBusWidth => 14,
        Error::SignalingSwitchFailed => 15,
        Error::NoCard => 16,
        Error::BadClock => 17,
        Error::InvalidConfig => 18,
        Error::InvalidBufferLength => 19,
        Error::AddressOutOfRange => 20,
    };
    (number, 0)
}

/// The plain functions of the types.
pub struct Leaves;

fn packed<T: Into<u64>>(result: Result<T, Error>) -> u64 {
    match result {
        Ok(value) => value.into(),
        Err(error) => u64::from(number(error).0) << 56,
    }
}

fn card(high_capacity: bool, block_count: u64) -> Card {
    Card {
        card_type: if high_capacity {
            CardCapacity::SDHC
        } else {
            CardCapacity::SDSC
        },
        ocr: OCR(0),
        rca: 0,
        cid: CID(0),
        csd: CSD(0),
        scr: SCR(0),
        status: SDStatus::default(),
        block_count,
    }
}

impl host::Leaves for Leaves {
    fn clock(source: u32, requested: u32, bypass: bool) -> u64 {
        packed(types::clock_setting(Hertz(source), requested, bypass).map(|clock| {
            u64::from(clock.bypass) << 40 | u64::from(clock.divisor) << 32 | u64::from(clock.frequency.0)
        }))
    }

    fn count(high: u64, low: u64) -> u64 {
        packed(types::block_count(u128::from(high) << 64 | u128::from(low)))
    }

    fn rate(byte: u8) -> u64 {
        packed(types::transfer_rate(byte))
    }

    fn address(high_capacity: bool, blocks: u64, index: u32, count: usize) -> u64 {
        packed(types::block_address(&card(high_capacity, blocks), index, count))
    }

    fn data_error(status: u32) -> u8 {
        types::data_error(status).map_or_else(|error| number(error).0, |()| 0)
    }

    fn size(blocks: u64) -> u64 {
        card(false, blocks).size()
    }
}
