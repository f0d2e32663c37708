//! The calls, and what a host holds.

use oracle_driver::bench::Feed;
use oracle_driver::host::{self, Block, Call, Outcome, Protection, Record, Settings, State};

use crate::judging::{slips, Slip};
use crate::leaf::{address, bits, block_length, capacity, clock, rate, version};
use crate::protecting;
use crate::steps::{Bench, Kind, Phase, Way};
use crate::tape::{beyond_the_rust, refuse, unsupported, Beyond, Refusal, Step, Stop, Tape, DELAY, POWER};
use crate::unsupported::Cause;

pub struct Host {
    settings: Settings,
    pub(crate) state: State,
    beyond_the_rust: Option<Beyond>,
    pub(crate) stale: Stale,
}

/// Flags that a host need not keep, and that only wrong models go by.
#[derive(Default)]
pub(crate) struct Stale {
    /// Of the last card that was taken; its record may be lost.
    pub taken: Option<Protection>,
    /// Of the last card, if it was refused after it had been selected.
    pub refused: Protection,
}

/// What an accepted call gives.
#[derive(Default)]
struct Given {
    status: Option<[u32; 16]>,
    blocks: Vec<u8>,
}

impl host::Host for Host {
    type Snapshot = State;

    fn make(settings: &Settings) -> Result<Self, u8> {
        let limits = [
            settings.poll_limit,
            settings.ready_attempts.into(),
            settings.data_timeout,
            settings.software_timeout,
        ];
        if limits.contains(&0) {
            return Err(18);
        }
        if settings.source < 2 || settings.source > 102_800_000 {
            return Err(17);
        }
        let Ok(first) = clock(settings.source, 400_000, false) else {
            return Err(17);
        };
        Ok(Self {
            settings: *settings,
            state: State {
                clock: first.frequency,
                sdr25: false,
                gated: false,
                clkcr: 0,
                record: None,
            },
            beyond_the_rust: None,
            stale: Stale::default(),
        })
    }

    fn call(&mut self, call: Call<'_>, feed: Feed<'_>, room: usize, watched: bool) -> Outcome {
        let Feed::Script(script) = feed else {
            unimplemented!("this host only follows scripts");
        };
        let before = self.state;
        let mut tape = Tape::new(script, room, self.state.clkcr, watched);
        let ended = self.serve(&mut tape, call);
        self.state.clkcr = tape.clkcr;
        let (answer, carried, field) = match ended {
            Ok(_) => (0, 0, None),
            Err(Stop::Refused(refusal)) => (refusal.number(), refusal.carried(), refusal.field()),
            Err(Stop::TraceFull) => (host::TRACE_FULL, 0, None),
        };
        if answer == host::TRACE_FULL {
            self.state = before;
        }
        let given = ended.unwrap_or_default();
        let protection = (protecting::now().line)(self, call, answer);
        Outcome {
            answer,
            carried,
            field,
            words_used: tape.used,
            rows: tape.rows,
            status: given.status,
            blocks: given.blocks,
            protection,
            script: script.to_vec(),
            events: tape.events,
        }
    }

    fn state(&self) -> State {
        let mut state = self.state;
        if let Some(record) = &mut state.record {
            record.protection = (protecting::now().state)(record.protection);
        }
        state
    }

    fn snapshot(&self) -> State {
        self.state
    }

    fn restore(&mut self, before: &State) {
        self.state = *before;
    }
}

impl Host {
    /// Why the last call was refused where the Rust goes on, if it was. It need not have
    /// been answered so: it is answered 22 if its reset rows found no room.
    pub fn beyond_the_rust(&self) -> Option<Beyond> {
        self.beyond_the_rust
    }

    fn serve(&mut self, tape: &mut Tape<'_>, call: Call<'_>) -> Step<Given> {
        let admitted = (protecting::now().admits)(self, tape, call);
        self.beyond_the_rust = beyond_the_rust(&admitted);
        admitted?;
        match call {
            Call::Initialise { frequency } => self.initialise(tape, frequency),
            Call::Read { index, blocks } => self.read(tape, index, blocks),
            Call::Status => self.status(tape),
            Call::Write { index, data } => self.write(tape, index, data),
        }
    }

    pub(crate) fn bench<'t, 'a>(&self, tape: &'t mut Tape<'a>) -> Bench<'t, 'a> {
        Bench {
            tape,
            set: self.settings,
            gated: self.state.gated,
        }
    }

    fn initialise(&mut self, tape: &mut Tape<'_>, frequency: u32) -> Step<Given> {
        if frequency == 0 || frequency > 50_000_000 {
            return refuse(17);
        }
        let old = self.state.record;
        let within = self.initialise_within(tape, frequency);
        self.beyond_the_rust = beyond_the_rust(&within);
        // Only wrong models slip.
        if slips(Slip::OldRecord, &within) {
            self.state.record = old;
        }
        if !slips(Slip::NoReset, &within) {
            tape.guarded(within)?;
        }
        within.map(|()| Given::default())
    }

    fn initialise_within(&mut self, tape: &mut Tape<'_>, frequency: u32) -> Step<()> {
        let source = self.settings.source;
        self.state.record = None;
        self.stale.refused = Protection::default();
        self.state.gated = false;
        self.state.sdr25 = false;
        self.state.clock = clock(source, 400_000, false)?.frequency;
        tape.reset()?;
        let mut bench = self.bench(tape);
        bench.change_clock(400_000, false, false)?;
        bench.tape.row(POWER, 3)?;
        bench.tape.open_clock(true)?;
        bench.tape.row(DELAY, source.div_ceil(self.state.clock) * 80)?;
        bench.command(0, 0, Kind::None)?;
        let version2 = card_version(&mut bench)?;
        let ocr = power_up(&mut bench, version2)?;
        let mut record = identify(&mut bench, ocr)?;
        record.protection = (protecting::now().flags)(record.csd, self.stale.taken);
        self.stale.refused = record.protection;
        bench.ready(record.rca)?;
        if !record.high_capacity {
            bench.command(16, 512, Kind::R1)?;
        }
        bench.announce(51, record.rca)?;
        let scr = bench.data(&about_the_card(51, 0, 2, 3), record.rca)?;
        record.scr = u64::from(scr[0].swap_bytes()) << 32 | u64::from(scr[1].swap_bytes());
        let wide = self.settings.wide;
        if record.scr >> 48 & 1 == 0 || wide && record.scr >> 50 & 1 == 0 {
            return refuse(14);
        }
        bench.announce(6, record.rca)?;
        bench.command(6, if wide { 2 } else { 0 }, Kind::R1)?;
        let most = frequency.min(25_000_000).min(rate(bits(record.csd, 103, 96) as u8)?);
        self.state.clock = bench.change_clock(most, self.settings.bypass, wide)?;
        self.state.gated = true;
        if frequency > 25_000_000 && record.scr >> 56 & 15 != 0 {
            self.high_speed(tape, frequency, record.rca)?;
        }
        self.state.record = Some(record);
        self.stale = Stale {
            taken: Some(record.protection),
            refused: Protection::default(),
        };
        Ok(())
    }

    /// The switch to 50 MHz signalling, if the card has it to give.
    fn high_speed(&mut self, tape: &mut Tape<'_>, frequency: u32, rca: u16) -> Step<()> {
        let mut bench = self.bench(tape);
        let byte = |words: &[u32], place: usize| words[place / 4] >> (8 * (place % 4)) & 255;
        let check = bench.data(&about_the_card(6, 0x00ff_fff1, 16, 6), rca)?;
        if byte(&check, 13) & 2 == 0 || byte(&check, 29) & 2 != 0 {
            return Ok(());
        }
        let switch = bench.data(&about_the_card(6, 0x80ff_fff1, 16, 6), rca)?;
        if byte(&switch, 16) % 16 != 1 {
            return refuse(15);
        }
        let delay = self.settings.source.div_ceil(self.state.clock) * 8;
        bench.tape.row(DELAY, delay)?;
        self.state.clock = bench.change_clock(frequency, self.settings.bypass, self.settings.wide)?;
        self.state.sdr25 = true;
        Ok(())
    }

    pub(crate) fn record(&self) -> Step<Record> {
        self.state.record.map_or(refuse(16), Ok)
    }

    /// Those of the record.
    pub(crate) fn flags(&self) -> Option<Protection> {
        self.state.record.map(|record| record.protection)
    }

    /// A data phase that is refused takes the record with it; at 22 the caller
    /// puts the host back.
    fn data(&mut self, tape: &mut Tape<'_>, phase: &Phase<'_>) -> Step<Vec<u32>> {
        let rca = self.record()?.rca;
        let result = self.bench(tape).data(phase, rca);
        if result.is_err() {
            self.state.record = None;
        }
        result
    }

    /// A read or a write, by its commands for one block and for many.
    fn blocks(
        &mut self,
        tape: &mut Tape<'_>,
        index: u32,
        blocks: usize,
        commands: [u32; 2],
        way: Way<'_>,
    ) -> Step<Vec<u32>> {
        let record = self.record()?;
        let argument = address(record.high_capacity, record.blocks, index, blocks)?;
        self.bench(tape).ready(record.rca)?;
        let phase = Phase {
            index: commands[usize::from(blocks != 1)],
            argument,
            size: 9,
            way,
        };
        self.data(tape, &phase)
    }

    fn read(&mut self, tape: &mut Tape<'_>, index: u32, blocks: usize) -> Step<Given> {
        let words = self.blocks(tape, index, blocks, [17, 18], Way::In(128 * blocks))?;
        Ok(Given {
            status: None,
            blocks: words.iter().flat_map(|word| word.to_le_bytes()).collect(),
        })
    }

    fn write(&mut self, tape: &mut Tape<'_>, index: u32, data: &[Block]) -> Step<Given> {
        self.blocks(tape, index, data.len(), [24, 25], Way::Out(data.as_flattened()))?;
        Ok(Given::default())
    }

    fn status(&mut self, tape: &mut Tape<'_>) -> Step<Given> {
        let rca = self.record()?.rca;
        self.bench(tape).announce(13, rca)?;
        let words = self.data(tape, &about_the_card(13, 0, 16, 6))?;
        let status = std::array::from_fn(|place| words[15 - place].swap_bytes());
        if let Some(record) = &mut self.state.record {
            record.status = status;
        }
        Ok(Given {
            status: Some(status),
            blocks: Vec::new(),
        })
    }
}

/// The data phase of a command that asks the card for so many words about itself.
fn about_the_card(index: u32, argument: u32, words: usize, size: u32) -> Phase<'static> {
    Phase {
        index,
        argument,
        size,
        way: Way::In(words),
    }
}

/// "Only Timeout, or an answer whose 0xfdffe008 bits equal 0x00400000, means a
/// version 1 card at CMD8."
fn card_version(bench: &mut Bench<'_, '_>) -> Step<bool> {
    match bench.command(8, 0x1aa, Kind::R7) {
        Ok([0x1aa, ..]) => Ok(true),
        Ok([word, ..]) if word & 0xfdff_e008 == 0x0040_0000 => Ok(false),
        Ok(_) => refuse(12),
        Err(Stop::Refused(Refusal::Plain(1))) => Ok(false),
        Err(other) => Err(other),
    }
}

fn power_up(bench: &mut Bench<'_, '_>, version2: bool) -> Step<u32> {
    for _ in 0..bench.set.ready_attempts {
        bench.announce(41, 0)?;
        let ocr = bench.command(41, if version2 { 0x4030_0000 } else { 0x0030_0000 }, Kind::R3)?[0];
        if ocr & 0x0030_0000 == 0 {
            return unsupported(Cause::Voltage);
        }
        if ocr >> 31 == 1 {
            return Ok(ocr);
        }
        bench.retry_delay()?;
    }
    refuse(2)
}

fn identify(bench: &mut Bench<'_, '_>, ocr: u32) -> Step<Record> {
    let long = |words: [u32; 4]| {
        words
            .iter()
            .fold(0, |number: u128, word| number << 32 | u128::from(*word))
    };
    let cid = long(bench.command(2, 0, Kind::R2)?);
    let rca = (bench.command(3, 0, Kind::R6)?[0] >> 16) as u16;
    if rca == 0 {
        return refuse(9);
    }
    let csd = long(bench.command(9, u32::from(rca) << 16, Kind::R2)?);
    let high_capacity = ocr >> 30 & 1 == 1;
    let (version, length) = (version(csd), block_length(csd));
    // Before the capacity, which has something to say of both too.
    if high_capacity != (version == 1) {
        return unsupported(Cause::Disagreement { version, length });
    }
    let blocks = capacity(csd);
    if !slips(Slip::AfterCmd7, &blocks) {
        blocks?;
    }
    bench.command(7, u32::from(rca) << 16, Kind::R1)?;
    Ok(Record {
        high_capacity,
        ocr,
        rca,
        cid,
        csd,
        scr: 0,
        status: [0; 16],
        blocks: blocks?,
        protection: Protection::default(),
    })
}
