//! Makes books: the k-th of a seed is always the same.

use std::cell::RefCell;
use std::rc::Rc;

use oracle_bench_book::book::{self, Book, Entry};
use oracle_driver::bench::{Event, Feed, Reading};
use oracle_driver::host::WRITE_PROTECTED;
use oracle_driver::right::Snapshot;
use oracle_driver::{Call, Host as _, KeptCall, Outcome, Settings};
use oracle_paper::asked;

use crate::card::{self, Card};
use crate::damage;
use crate::player::{Player, Seat};
use crate::rng::Rng;
use crate::settings;

/// Places at which one book cuts its call.
const MOST_CUTS: usize = 24;

/// How often a ready wait of a call that is drawn out fails.
const MOST_WAITS: u64 = 18;

/// While a book is made, no row list is too short.
const ENDLESS: usize = usize::MAX;

/// The k-th book of a seed.
pub fn book(seed: u64, k: u64) -> Vec<u8> {
    let mut rng = Rng::nth(seed, k);
    match rng.below(50) {
        0 => {
            let words = Maker::new(settings::good(&mut rng), rng.clone()).calls(3).words();
            damage::bad_book(&words, &mut rng)
        }
        1 => {
            let made = Maker::new(settings::good(&mut rng), rng.clone()).calls(1);
            let settings = settings::refused(&mut rng);
            Book { settings, ..made }.bytes()
        }
        2 | 3 => Maker::new(settings::good(&mut rng), rng).cuts().bytes(),
        4 => Maker::new(settings::good(&mut rng), rng)
            .calls(book::MOST_CALLS)
            .bytes(),
        5 | 6 => {
            let settings = Settings {
                ready_attempts: rng.between(MOST_WAITS + 1, 60) as u16,
                ..settings::good(&mut rng)
            };
            Maker::new(settings, rng).drawn_out().bytes()
        }
        _ => {
            let most = rng.between(1, 8) as usize;
            Maker::new(settings::good(&mut rng), rng).calls(most).bytes()
        }
    }
}

/// The Rust's host, kept in step with the documents, the card before it and the book so
/// far.
struct Maker {
    rng: Rng,
    host: asked::Host,
    player: Rc<RefCell<Player>>,
    book: Book,
    /// Words that the book takes so far.
    length: usize,
    /// Index and blocks of the last call, if it was a write that the card took.
    written: Option<(u32, usize)>,
}

impl Maker {
    fn new(settings: Settings, mut rng: Rng) -> Self {
        let card = Card::any(&mut rng);
        let inner = Rng::new(rng.draw());
        let player = Player::new(card, inner, settings.poll_limit, settings.ready_attempts);
        Self {
            rng,
            host: asked::Host::make(&settings).expect("good settings make a host"),
            player: Rc::new(RefCell::new(player)),
            book: Book {
                settings,
                entries: Vec::new(),
            },
            length: book::HEAD,
            written: None,
        }
    }

    /// A book of up to so many calls, at least one.
    fn calls(mut self, most: usize) -> Book {
        for _ in 0..most {
            self.change_card();
            let call = self.call();
            let call = call.lent();
            let before = self.host.snapshot();
            let mut script = self.script(call);
            let room = self.room() - call.data().len();
            if script.len() > room {
                // The last call takes what room is left, and may end there.
                script.truncate(room);
                self.host.restore(&before);
                self.host.call(call, Feed::Script(&script), ENDLESS, false);
            }
            self.keep(call, script);
            if book::MOST_WORDS - self.length < book::ENTRY {
                break;
            }
        }
        self.book
    }

    /// Words that the body of one more call can have.
    fn room(&self) -> usize {
        book::MOST_WORDS - self.length - book::ENTRY
    }

    /// Any call whose data finds room; behind a write often the read of what was written.
    fn call(&mut self) -> KeptCall {
        match self.written.take() {
            Some((index, blocks)) if self.rng.one_in(2) => KeptCall::Read { index, blocks },
            _ => {
                let call = settings::call(&self.host.state(), &mut self.rng);
                at_most(self.room() / book::BLOCK, call)
            }
        }
    }

    /// A book in which one call is cut at place after place, and whole at last.
    fn cuts(mut self) -> Book {
        let made = self.host.snapshot();
        // Half of them ask for the switch, whose steps are else met seldom.
        let frequency = match self.rng.one_in(2) {
            true => self.rng.between(25_000_001, 50_000_000) as u32,
            false => settings::frequency(&mut self.rng),
        };
        let first = Call::Initialise { frequency };
        let fresh = self.live(first, None);
        let (mut chosen, mut whole) = (first.kept(), fresh.clone());
        if self.host.state().record.is_some() && !self.rng.one_in(3) {
            let call = settings::call(&self.host.state(), &mut self.rng);
            // The data comes with each cut.
            chosen = at_most(2, call);
            whole = self.live(chosen.lent(), None);
        }
        let call = chosen.lent();
        let places = self.places(&whole.events);
        let from = self.rng.index(places.len() + 1);
        let cuts = places[from..].iter().take(MOST_CUTS).copied();
        self.host.restore(&made);
        for length in cuts.chain([whole.script.len()]) {
            // What lost its record gets it again.
            let lost = call != first && self.host.state().record.is_none();
            if lost && !self.serve(first, &fresh.script) || !self.serve(call, &whole.script[..length]) {
                break;
            }
        }
        if self.book.entries.is_empty() {
            self.keep(call, Vec::new());
        }
        self.book
    }

    /// A book whose reads, writes and status calls write more rows than its
    /// initialisations: so a list that is long enough for these may be too short
    /// for the closing rows of those.
    fn drawn_out(mut self) -> Book {
        let made = self.host.snapshot();
        let first = Call::Initialise {
            frequency: self.rng.between(1_000_000, 50_000_000) as u32,
        };
        self.player.borrow_mut().waits = Some(0);
        let fresh = self.live(first, None).script;
        self.host.restore(&made);
        while self.host.state().record.is_some() || self.serve(first, &fresh) {
            let Some(record) = self.host.state().record else {
                break;
            };
            let index = self.rng.below(record.blocks - 1) as u32;
            let call = match self.rng.below(5) {
                0 => KeptCall::Status,
                which @ (1 | 2) => KeptCall::Read {
                    index,
                    blocks: which as usize,
                },
                which => KeptCall::Write {
                    index,
                    data: settings::data(which as usize - 2, &mut self.rng),
                },
            };
            let call = call.lent();
            let waits = self.rng.between(2, MOST_WAITS) as u32;
            self.player.borrow_mut().waits = Some(waits);
            self.player.borrow_mut().card.not_ready_left = waits;
            let before = self.host.snapshot();
            let whole = self.live(call, None);
            self.host.restore(&before);
            // A write that is stopped reads nothing, wherever its script ends.
            let length = self.place(&whole.events).unwrap_or(whole.script.len());
            if !self.serve(call, &whole.script[..length]) {
                break;
            }
        }
        if self.book.entries.is_empty() {
            self.keep(first, Vec::new());
        }
        self.book
    }

    /// Keeps a call with this script and runs it; false if the book is full.
    fn serve(&mut self, call: Call<'_>, script: &[u32]) -> bool {
        let kept = self.keep(call, script.to_vec());
        if kept {
            self.host.call(call, Feed::Script(script), ENDLESS, false);
        }
        kept
    }

    /// The lengths at which a script is worth cutting: before each reading, but
    /// of many data words only before the first, the last and a few.
    fn places(&mut self, events: &[Event]) -> Vec<usize> {
        let readings: Vec<Reading> = events.iter().filter_map(taken).collect();
        let mut places = Vec::new();
        for (at, reading) in readings.iter().enumerate() {
            let last = !matches!(readings.get(at + 1), Some(Reading::Data(_)));
            if last || !matches!(reading, Reading::Data(1..)) || self.rng.one_in(64) {
                places.push(at);
            }
        }
        places
    }

    /// One of these lengths, if there is any.
    fn place(&mut self, events: &[Event]) -> Option<usize> {
        let places = self.places(events);
        match places.is_empty() {
            true => None,
            false => Some(self.rng.pick(&places)),
        }
    }

    /// False if the call finds no place in the book any more.
    fn keep(&mut self, call: Call<'_>, script: Vec<u32>) -> bool {
        let call = call.kept();
        let entry = Entry { call, script };
        let length = self.length + book::ENTRY + entry.body();
        if length > book::MOST_WORDS || self.book.entries.len() == book::MOST_CALLS {
            return false;
        }
        self.length = length;
        self.book.entries.push(entry);
        true
    }

    fn change_card(&mut self) {
        let mut player = self.player.borrow_mut();
        // A card that was turned away is mostly taken out.
        let cases = if self.host.state().record.is_some() { 8 } else { 2 };
        match self.rng.below(cases) {
            0 => player.card = Card::any(&mut self.rng),
            1 => player.card.change_scr(card::scr(&mut self.rng)),
            2 => player.card.change_protection(&mut self.rng),
            _ => {}
        }
        player.card.contents = self.rng.draw();
    }

    /// Runs a call against the card that plays along.
    fn live(&mut self, call: Call<'_>, spoil_at: Option<usize>) -> Outcome {
        self.player.borrow_mut().begin();
        self.player.borrow_mut().spoil_at = spoil_at;
        let card = self.player.borrow().card.clone();
        let seat = Seat(Rc::clone(&self.player));
        let outcome = self.host.call(call, Feed::Live(Box::new(seat)), ENDLESS, true);
        if outcome.answer == WRITE_PROTECTED {
            // The words for the script came from the Rust's writing; nothing was written.
            self.player.borrow_mut().card = card;
        }
        self.written = match call {
            Call::Write { index, data } if outcome.answer == 0 => Some((index, data.len())),
            _ => None,
        };
        outcome
    }

    /// A script for the call, on which the host has run.
    fn script(&mut self, call: Call<'_>) -> Vec<u32> {
        let before = self.host.snapshot();
        let card = self.player.borrow().clone();
        let natural = self.live(call, None);
        match self.rng.below(21) {
            0..=8 => natural.script,
            9 | 10 => {
                let mut words = natural.script;
                damage::tail(&mut words, &mut self.rng);
                words
            }
            11..=16 => {
                let Some(at) = self.reading(&natural.events) else {
                    return natural.script;
                };
                self.host.restore(&before);
                *self.player.borrow_mut() = card;
                self.live(call, Some(at)).script
            }
            17..=19 => {
                let mut words = natural.script;
                damage::script(&mut words, &mut self.rng);
                self.again(call, &before, words)
            }
            _ => {
                let length = self.place(&natural.events).unwrap_or(0);
                self.again(call, &before, natural.script[..length].to_vec())
            }
        }
    }

    /// Runs the call on another script than the card gave.
    fn again(&mut self, call: Call<'_>, before: &Snapshot, script: Vec<u32>) -> Vec<u32> {
        self.host.restore(before);
        self.host.call(call, Feed::Script(&script), ENDLESS, false);
        script
    }

    /// The number of one reading of a call; seldom one of the many words that
    /// decide nothing (short answers after their first word, data of blocks), and
    /// more often a status of a data poll, or the first word of an answer, which can
    /// be wrong in many ways.
    fn reading(&mut self, events: &[Event]) -> Option<usize> {
        let mut worth = Vec::new();
        let mut previous = None;
        for (at, reading) in events.iter().filter_map(taken).enumerate() {
            let times = match (previous.replace(reading), reading) {
                (Some(Reading::Dma | Reading::Response(3)), Reading::Status) => 4,
                (_, Reading::Response(0)) => 2,
                (_, Reading::Response(1..)) => usize::from(self.rng.one_in(8)),
                (_, Reading::Data(8..)) => usize::from(self.rng.one_in(256)),
                _ => 1,
            };
            worth.extend(std::iter::repeat_n(at, times));
        }
        match worth.is_empty() {
            true => None,
            false => Some(self.rng.pick(&worth)),
        }
    }
}

/// The call; a write with so many blocks at most.
fn at_most(blocks: usize, call: KeptCall) -> KeptCall {
    match call {
        KeptCall::Write { index, mut data } => {
            data.truncate(blocks);
            KeptCall::Write { index, data }
        }
        other => other,
    }
}

/// The reading of an event that has a word.
fn taken(event: &Event) -> Option<Reading> {
    match event {
        Event::Word(reading, _) => Some(*reading),
        _ => None,
    }
}
