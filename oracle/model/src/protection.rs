//! Counts what the calls of a book meet on protected cards, and around them.

use oracle_driver::host::{Protection, WRITE_PROTECTED};
use oracle_driver::{Call, Outcome, Record, State};

use crate::arms::{sent, word_of};

/// What is met, and the number of the protection that it is about.
pub type Met = (&'static str, u8);

/// By the card that is taken, protected or not.
const TAKEN: [&str; 2] = ["standard capacity, taken", "high capacity, taken"];

/// What would come of a write that is stopped, if the card were not protected.
const STOPPED: [&str; 3] = ["26 in place of a write", "26 in place of 19", "26 in place of 20"];

const BARRED: &str = "26 after a card that was not protected";
const FREED: &str = "accepted write to the next card taken, which is not protected";
const READ: &str = "accepted read";
const BEHIND: &str = "accepted read at once behind 26";
const STATUS: &str = "accepted status call";
const LOST: &str = "16 at a write, its record lost";
const TURNED_AWAY: &str = "16 at a write, it was selected and then refused";

/// All that can be met.
pub fn all() -> Vec<Met> {
    let of = |what: &'static str, numbers: std::ops::RangeInclusive<u8>| numbers.map(move |number| (what, number));
    let taken = TAKEN.into_iter().flat_map(|what| of(what, 0..=3));
    let others = [BARRED, FREED, READ, BEHIND, STATUS, LOST, TURNED_AWAY];
    let others = STOPPED.into_iter().chain(others);
    taken.chain(others.flat_map(|what| of(what, 1..=3))).collect()
}

/// The cards that a host has met so far.
#[derive(Default)]
pub struct Cards {
    /// The last that was taken, and the one taken before it.
    last: Option<Protection>,
    before: Option<Protection>,
    /// One that was selected and then refused, if none was initialised behind it.
    turned_away: Option<Protection>,
    /// The last call was a write that was stopped.
    stopped: bool,
}

impl Cards {
    /// What a call meets, by the host before and after it.
    pub fn meet(&mut self, call: Call<'_>, outcome: &Outcome, stood: &State, state: &State) -> Vec<Met> {
        let behind = std::mem::replace(&mut self.stopped, outcome.answer == WRITE_PROTECTED);
        match (call, outcome.answer, &stood.record) {
            (Call::Initialise { .. }, 0, _) => {
                let record = state.record.expect("an accepted initialisation leaves a record");
                self.before = self.last.replace(record.protection);
                self.turned_away = None;
                vec![(TAKEN[usize::from(record.high_capacity)], record.protection.number())]
            }
            (Call::Initialise { .. }, ..) => {
                if !outcome.rows.is_empty() {
                    self.turned_away = selected(outcome);
                }
                Vec::new()
            }
            (Call::Write { .. }, 16, _) => [about(self.last, LOST), about(self.turned_away, TURNED_AWAY)].concat(),
            (Call::Write { index, data }, WRITE_PROTECTED, Some(record)) => {
                let free = self.before.is_some_and(|before| !before.any());
                let barred = self.last.filter(|_| free);
                let place = in_place_of(record, index, data.len());
                [about(self.last, place), about(barred, BARRED)].concat()
            }
            (Call::Write { .. }, 0, _) => about(self.before, FREED),
            (Call::Read { .. }, 0, _) => {
                let served = self.last.filter(|_| behind);
                [about(self.last, READ), about(served, BEHIND)].concat()
            }
            (Call::Status, 0, _) => about(self.last, STATUS),
            _ => Vec::new(),
        }
    }
}

/// This, if the card is a protected one.
fn about(card: Option<Protection>, what: &'static str) -> Vec<Met> {
    let protected = card.filter(|card| card.any());
    protected.map(|card| (what, card.number())).into_iter().collect()
}

/// The protection of a card that an initialisation came past CMD7 with, by the CSD that it told.
fn selected(outcome: &Outcome) -> Option<Protection> {
    let csd = word_of(outcome, 9, 3);
    (sent(outcome, 13) > 0).then_some(Protection {
        permanent: csd >> 13 & 1 == 1,
        temporary: csd >> 12 & 1 == 1,
    })
}

fn in_place_of(record: &Record, index: u32, blocks: usize) -> &'static str {
    let [write, none, past] = STOPPED;
    match u64::from(index) + blocks as u64 > record.blocks {
        _ if blocks == 0 => none,
        true => past,
        false => write,
    }
}
