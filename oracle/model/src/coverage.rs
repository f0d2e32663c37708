//! Counts what a pile of books reaches.

use std::collections::BTreeMap;

use oracle_bench_book::book::{BLOCK, ENTRY, HEAD, MOST_BLOCKS};
use oracle_bench_book::{Book, Entry, Fault, MOST_ROOM};
use oracle_driver::bench::{Event, Feed};
use oracle_driver::host::{SCRIPT_ENDED, TRACE_FULL, UNSUPPORTED, WRITE_PROTECTED};
use oracle_driver::{Block, Call, Host as _, Outcome, Record, Settings, State};
use oracle_paper as paper;
use oracle_paper::asked::Host;

use crate::arms::{self, Arm};
use crate::closing;
use crate::expected;
use crate::protection::{Cards, Met};
use crate::rng::Rng;

/// Above 32 GiB a card of high capacity is called SDXC.
const MOST_SDHC: u64 = 67_108_864;

/// The register of the words that a write sends.
const FIFO: u32 = 12;

/// Kind of call, what closes it, and a row of that.
pub type Closing = (&'static str, &'static str, &'static str);

/// Class, signalling, lines, bypass.
pub type Accepted = (&'static str, &'static str, &'static str, &'static str);

#[derive(Default)]
pub struct Coverage {
    pub books: u64,
    pub bytes: u64,
    /// Books with an accepted initialisation.
    pub far: u64,
    /// Calls by kind and answer.
    pub calls: BTreeMap<(&'static str, u8), u64>,
    pub bad_books: BTreeMap<Fault, u64>,
    pub hosts_refused: BTreeMap<&'static str, u64>,
    pub accepted: BTreeMap<Accepted, u64>,
    /// Accepted reads and writes, by their blocks and the card's; reads of what was written before; and reads and writes of
    /// no blocks past the card, which are refused for having none.
    pub blocks: BTreeMap<(&'static str, &'static str), u64>,
    /// What the bodies of writes are made up of.
    pub bodies: BTreeMap<&'static str, u64>,
    /// How much is missing of the data that made a book refused.
    pub shortages: BTreeMap<&'static str, u64>,
    /// Whether the data of over 16 blocks is there.
    pub too_many: BTreeMap<&'static str, u64>,
    /// What calls meet on protected cards, and around them.
    pub protection: BTreeMap<Met, u64>,
    pub arms: BTreeMap<Arm, u64>,
    /// The steps in which scripts ended.
    pub ended: BTreeMap<Arm, u64>,
    /// Which row found no room, in runs with little room.
    pub full: BTreeMap<(&'static str, u32), u64>,
    /// Which of a write's rows from DCTRL to its last word found none, by its blocks.
    pub sending: BTreeMap<(&'static str, &'static str), u64>,
    /// Which closing row found none, in runs with too little for them.
    pub closings: BTreeMap<Closing, u64>,
}

pub fn kind(call: Call<'_>) -> &'static str {
    match call {
        Call::Initialise { .. } => "initialise",
        Call::Read { .. } => "read",
        Call::Status => "status",
        Call::Write { .. } => "write",
    }
}

fn how_many(blocks: usize) -> &'static str {
    match blocks {
        1 => "one block",
        16 => "16 blocks",
        _ => "many blocks",
    }
}

fn count<K: Ord>(table: &mut BTreeMap<K, u64>, key: K) {
    *table.entry(key).or_default() += 1;
}

impl Coverage {
    pub fn add(&mut self, bytes: &[u8], rng: &mut Rng) {
        self.books += 1;
        self.bytes += bytes.len() as u64;
        let book = match Book::read(bytes) {
            Ok(book) => book,
            Err(fault) => {
                match fault {
                    Fault::DataCutShort => count(&mut self.shortages, shortage(bytes)),
                    Fault::TooManyToWrite => count(&mut self.too_many, too_many(bytes)),
                    _ => {}
                }
                return count(&mut self.bad_books, fault);
            }
        };
        match Host::make(&book.settings) {
            Ok(host) => self.far += u64::from(self.serve(&book, host, rng)),
            Err(_) => count(&mut self.hosts_refused, no_host(&book.settings)),
        }
    }

    /// Counts what the calls of a book reach; true if an initialisation is accepted.
    fn serve(&mut self, book: &Book, mut host: Host, rng: &mut Rng) -> bool {
        // It tells the fields, which the Rust does not have.
        let mut document = paper::Host::make(&book.settings).expect("the documents have this host too");
        let mut far = false;
        let mut written = BTreeMap::new();
        let mut cards = Cards::default();
        for entry in &book.entries {
            let call = entry.call.lent();
            let (before, stood) = (host.snapshot(), host.state());
            let outcome = host.call(call, Feed::Script(&entry.script), MOST_ROOM, true);
            let told = document.call(call, Feed::Script(&entry.script), MOST_ROOM, false);
            assert!(told.answer == outcome.answer, "the documents have this answer too");
            let state = host.state();
            assert!(sends_its_data(call, &outcome), "a write sends its data behind DCTRL");
            let wrote = outcome.answer == 0 && matches!(call, Call::Write { .. });
            assert!(!wrote || state == stood, "an accepted write leaves the host as it was");
            assert!(flags_are_the_csds(&state), "the flags of a record are those of its CSD");
            let stopped = outcome.answer == WRITE_PROTECTED;
            assert!(
                stopped == may_not(call, &stood),
                "26 comes at a write to a protected card, and nowhere else"
            );
            let untouched = outcome.rows.is_empty() && outcome.words_used == 0 && state == stood;
            let initialised = outcome.answer == 0 && matches!(call, Call::Initialise { .. });
            far |= initialised;
            if initialised {
                count(&mut self.accepted, accepted(&outcome, &state));
            }
            let mut again = |script: &[u32], room: usize| {
                let after = host.snapshot();
                host.restore(&before);
                let stood = host.state();
                let outcome = host.call(call, Feed::Script(script), room, true);
                let as_before = outcome.answer != TRACE_FULL || host.state() == stood;
                assert!(as_before, "22 leaves the host as before");
                host.restore(&after);
                outcome
            };
            self.little_room(call, &outcome, &mut again, rng);
            self.closing_rows(call, &outcome, &mut again, rng);
            let again = std::cell::RefCell::new(again);
            self.call(call, &outcome, told.field, untouched, |script| {
                (again.borrow_mut())(script, MOST_ROOM).events
            });
            self.blocks(call, &outcome, &state, &mut written);
            for met in cards.meet(call, &outcome, &stood, &state) {
                count(&mut self.protection, met);
            }
            self.body(entry);
        }
        far
    }

    /// Counts an accepted read or write, and what is read as it was written.
    fn blocks(&mut self, call: Call<'_>, outcome: &Outcome, state: &State, written: &mut BTreeMap<u64, Block>) {
        let (index, blocks) = match call {
            Call::Read { index, blocks } => (u64::from(index), blocks),
            Call::Write { index, data } => (u64::from(index), data.len()),
            _ => return,
        };
        let Some(record) = &state.record else {
            return;
        };
        let mut met = |what| count(&mut self.blocks, (kind(call), what));
        match outcome.answer {
            0 => met(how_many(blocks)),
            19 if index > record.blocks => return met("none, past the card"),
            _ => return,
        }
        met(match record.high_capacity {
            true => "high capacity",
            false => "standard capacity",
        });
        if index + blocks as u64 == record.blocks {
            met("up to the last block");
        }
        if let Call::Write { data, .. } = call {
            written.extend((index..).zip(data.iter().copied()));
            return;
        }
        let as_written = |(index, bytes): (u64, &[u8])| {
            let words = written.get(&index).into_iter().flatten();
            words.flat_map(|word| word.to_le_bytes()).eq(bytes.iter().copied())
        };
        if (index..).zip(outcome.blocks.chunks(512)).all(as_written) {
            met("as written before");
        }
    }

    fn body(&mut self, entry: &Entry) {
        let Call::Write { data, .. } = entry.call.lent() else {
            return;
        };
        let [neither, script, data_alone, both] = expected::BODIES;
        let body = match (data.is_empty(), entry.script.is_empty()) {
            (true, true) => neither,
            (true, false) => script,
            (false, true) => data_alone,
            (false, false) => both,
        };
        count(&mut self.bodies, body);
    }

    fn call(
        &mut self,
        call: Call<'_>,
        outcome: &Outcome,
        field: Option<u8>,
        untouched: bool,
        again: impl Fn(&[u32]) -> Vec<Event>,
    ) {
        count(&mut self.calls, (kind(call), outcome.answer));
        let unsupported = outcome.answer == UNSUPPORTED;
        assert!(
            field.is_some() == unsupported,
            "13 has a field, and no other answer has"
        );
        match outcome.answer {
            0 => {}
            SCRIPT_ENDED => {
                let (site, step) = arms::ended(call, outcome, again);
                let closed = closing::of(outcome).map(|(shape, _)| shape.name);
                let rightly = closed == Some(expected::closed_by(site));
                count(&mut self.ended, (site, if rightly { step } else { "closed otherwise" }));
            }
            _ => {
                let (site, cause) = arms::refused(call, outcome, again);
                let cause = match cause {
                    _ if field != expected::field((site, cause)) => "another field",
                    _ if expected::untouched(site) && !untouched => "not as before",
                    _ => cause,
                };
                count(&mut self.arms, (site, cause));
            }
        }
    }

    /// The same call with less room than it needs.
    fn little_room(
        &mut self,
        call: Call<'_>,
        outcome: &Outcome,
        again: &mut impl FnMut(&[u32], usize) -> Outcome,
        rng: &mut Rng,
    ) {
        if outcome.rows.is_empty() {
            return;
        }
        let room = too_small(&outcome.rows, rng);
        let less = again(&outcome.script, room);
        assert!(less.answer == TRACE_FULL, "a room that is too small gives 22");
        assert!(less.rows[..] == outcome.rows[..room], "rows so far stay");
        if let Some(Event::Full(register)) = less.events.last() {
            count(&mut self.full, (kind(call), *register));
        }
        if let (Call::Write { data, .. }, Some(row)) = (call, sending(&outcome.rows, room)) {
            count(&mut self.sending, (how_many(data.len()), row));
        }
    }

    /// A call whose script ended, with room for all its rows and then with less:
    /// for those before its end, and some of the closing ones.
    fn closing_rows(
        &mut self,
        call: Call<'_>,
        outcome: &Outcome,
        again: &mut impl FnMut(&[u32], usize) -> Outcome,
        rng: &mut Rng,
    ) {
        let Some((shape, before)) = closing::of(outcome) else {
            return;
        };
        let all = outcome.rows.len();
        assert!(again(&outcome.script, all) == *outcome, "just enough room is enough");
        let room = rng.between(before as u64, all as u64 - 1) as usize;
        let less = again(&outcome.script, room);
        assert!(less.answer == TRACE_FULL, "a closing row without room gives 22");
        assert!(less.words_used == outcome.script.len(), "all words were used by then");
        count(&mut self.closings, (kind(call), shape.name, shape.row(room - before)));
    }
}

/// A room that is too small for these rows. Of the many that a write sends only the first, the last and one between count
/// as much as any other row.
fn too_small(rows: &[(u32, u32)], rng: &mut Rng) -> usize {
    let sent: Vec<usize> = (0..rows.len()).filter(|place| rows[*place].0 == FIFO).collect();
    let (Some(first), Some(last)) = (sent.first(), sent.last()) else {
        return rng.index(rows.len());
    };
    let others = (0..rows.len()).filter(|place| rows[*place].0 != FIFO);
    let places: Vec<usize> = others.chain([*first, *last, rng.pick(&sent)]).collect();
    rng.pick(&places)
}

/// What the row at this place is to a write's data.
fn sending(rows: &[(u32, u32)], place: usize) -> Option<&'static str> {
    let [dctrl, first, between, last] = expected::SENDING;
    let of = |place: Option<usize>| place.and_then(|place| rows.get(place)).map(|row| row.0);
    match (of(place.checked_sub(1)), rows[place], of(Some(place + 1))) {
        (_, (7, 1..), _) => Some(dctrl),
        (Some(7), (FIFO, _), _) => Some(first),
        (_, (FIFO, _), Some(FIFO)) => Some(between),
        (_, (FIFO, _), _) => Some(last),
        _ => None,
    }
}

/// Whether the words of a write stand behind the row of DCTRL that has its direction off, all of them, before anything else;
/// and none where there is no such row, or no write.
fn sends_its_data(call: Call<'_>, outcome: &Outcome) -> bool {
    let sent = outcome.rows.iter().filter(|row| row.0 == FIFO).count();
    let armed = |event: &Event| *event == Event::Row(7, 9 + 16 * 9);
    match outcome.events.iter().position(armed) {
        Some(place) => {
            let data = call.data();
            let behind = outcome.events[place + 1..].iter().take(data.len());
            sent == data.len() && behind.copied().eq(data.iter().map(|word| Event::Row(FIFO, *word)))
        }
        None => sent == 0,
    }
}

/// Whether this call is a write to a card that its record says is protected.
fn may_not(call: Call<'_>, stood: &State) -> bool {
    let protected = stood.record.is_some_and(|record| record.protection.any());
    protected && matches!(call, Call::Write { .. })
}

/// 2 is bit 13 and 1 is bit 12, so the number of the flags is these bits of the CSD.
fn flags_are_the_csds(state: &State) -> bool {
    let agree = |record: &Record| u128::from(record.protection.number()) == record.csd >> 12 & 3;
    state.record.as_ref().is_none_or(agree)
}

/// Blocks and words of body of each write in the contents of a book.
fn writes(bytes: &[u8]) -> impl Iterator<Item = (u64, u64)> {
    let words: Vec<u64> = bytes
        .chunks_exact(4)
        .map(|word| u32::from_le_bytes([word[0], word[1], word[2], word[3]]).into())
        .collect();
    let rows = words[HEAD..].chunks_exact(ENTRY).take(words[6] as usize);
    let writes = rows.filter(|row| row[0] == 4).map(|row| (row[2], row[3]));
    writes.collect::<Vec<_>>().into_iter()
}

/// How much is missing in the first body that is shorter than its data.
fn shortage(bytes: &[u8]) -> &'static str {
    let [none, one, more] = expected::SHORTAGES;
    let mut missing = writes(bytes).map(|(blocks, body)| (body, (BLOCK as u64 * blocks).saturating_sub(body)));
    match missing.find(|(_, less)| *less > 0) {
        Some((0, _)) => none,
        Some((_, 1)) => one,
        _ => more,
    }
}

/// Whether the first write of over 16 blocks has a body for them.
fn too_many(bytes: &[u8]) -> &'static str {
    let [all, less] = expected::TOO_MANY;
    match writes(bytes).find(|(blocks, _)| *blocks > MOST_BLOCKS.into()) {
        Some((blocks, body)) if body >= BLOCK as u64 * blocks => all,
        _ => less,
    }
}

/// Why no host is made with these settings.
fn no_host(settings: &Settings) -> &'static str {
    let zero = settings.poll_limit == 0
        || settings.ready_attempts == 0
        || settings.data_timeout == 0
        || settings.software_timeout == 0;
    match (zero, settings.source) {
        (true, 2..=102_800_000) => "18 a setting is 0",
        (true, _) => "18 a setting is 0, source refused too",
        (_, 0) => "17 source 0",
        (_, 1) => "17 source 1",
        _ => "17 source over 102,800,000",
    }
}

/// The closing rows that find no room where every call of a book has this much.
pub fn closings(bytes: &[u8], room: usize) -> Vec<Closing> {
    let mut met = Vec::new();
    without_room(bytes, room, |call, whole| match closing::of(whole) {
        Some((shape, first)) if first <= room => met.push((kind(call), shape.name, shape.row(room - first))),
        _ => {}
    });
    met
}

/// The rows of writes, from DCTRL to the last word, that find no room there, with the blocks.
pub fn sendings(bytes: &[u8], room: usize) -> Vec<(&'static str, &'static str)> {
    let mut met = Vec::new();
    without_room(bytes, room, |call, whole| {
        if let (Call::Write { data, .. }, Some(row)) = (call, sending(&whole.rows, room)) {
            met.push((how_many(data.len()), row));
        }
    });
    met
}

/// The calls of a book that are answered 22 where each has this room, and what they come to with all room.
fn without_room(bytes: &[u8], room: usize, mut each: impl FnMut(Call<'_>, &Outcome)) {
    let Ok(book) = Book::read(bytes) else {
        return;
    };
    let Ok(mut host) = Host::make(&book.settings) else {
        return;
    };
    for entry in &book.entries {
        let call = entry.call.lent();
        let before = host.snapshot();
        let run = |host: &mut Host, room| host.call(call, Feed::Script(&entry.script), room, true);
        if run(&mut host, room).answer == TRACE_FULL {
            each(call, &run(&mut host, MOST_ROOM));
            host.restore(&before);
        }
    }
}

/// What kind of card was taken, and how it is driven.
fn accepted(outcome: &Outcome, state: &State) -> Accepted {
    let record = state.record.expect("an accepted initialisation leaves a record");
    // ACMD41 asks for high capacity only of a version 2 card.
    let mut argument = 0;
    let mut version2 = false;
    for (register, value) in &outcome.rows {
        match register {
            3 => argument = *value,
            4 if value & 0x3f == 41 => version2 = argument >> 30 & 1 == 1,
            _ => {}
        }
    }
    let class = match (record.high_capacity, version2) {
        (false, false) => "SDSC version 1",
        (false, true) => "SDSC version 2",
        (true, false) => "high capacity, version 1",
        (true, true) if record.blocks <= MOST_SDHC => "SDHC",
        (true, true) => "SDXC",
    };
    (
        class,
        if state.sdr25 { "SDR25" } else { "SDR12" },
        if state.clkcr & 0x800 != 0 { "wide" } else { "narrow" },
        if state.clkcr & 0x400 != 0 { "bypass" } else { "divided" },
    )
}
