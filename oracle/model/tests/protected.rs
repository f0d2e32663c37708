//! Some cards are protected, each way about as often, books meet all that can be met around them, and the count sees a 26
//! that leaves something behind.

use std::collections::BTreeMap;

use oracle_bench_book::{Book, Entry};
use oracle_driver::script::{initialisation, short};
use oracle_driver::{Call, Settings};
use oracle_model::arms::Arm;
use oracle_model::card::{Card, Command, Reply, Response};
use oracle_model::coverage::Coverage;
use oracle_model::rng::Rng;
use oracle_model::{generate, protection};
use oracle_paper::wrong;

/// Bits 13 and 12 of the CSD that a card tells.
fn protect(card: &mut Card, rng: &mut Rng) -> u32 {
    let command = Command {
        index: 9,
        argument: 0,
        app: false,
        data: false,
        response: Response::R2,
    };
    match card.reply(command, rng) {
        Reply::Words(words) => words[3] >> 12 & 3,
        Reply::Silent => panic!("a card tells its CSD"),
    }
}

#[test]
fn three_cards_of_sixteen_are_protected() {
    let mut rng = Rng::new(13);
    let mut cards: BTreeMap<_, u32> = BTreeMap::new();
    for _ in 0..16_000 {
        let mut card = Card::any(&mut rng);
        let key = (card.high(), protect(&mut card, &mut rng));
        *cards.entry(key).or_default() += 1;
    }
    // Three cards of five are of high capacity.
    for (high, due) in [(false, 400), (true, 600)] {
        for number in 1..=3 {
            let found = cards[&(high, number)];
            assert!(found.abs_diff(due) < 80, "{high}, {number}: {cards:?}");
        }
    }
}

#[test]
fn a_card_can_be_protected_otherwise_later() {
    let mut rng = Rng::new(14);
    let mut card = Card::any(&mut rng);
    let mut seen = [false; 4];
    for _ in 0..100 {
        card.change_protection(&mut rng);
        seen[protect(&mut card, &mut rng) as usize] = true;
    }
    assert_eq!(seen, [true; 4]);
}

#[test]
fn books_meet_all_that_can_be_met() {
    let mut coverage = Coverage::default();
    for k in 1..=4_000 {
        coverage.add(&generate::book(1, k), &mut Rng::nth(1, k));
    }
    let met: Vec<_> = coverage.protection.into_keys().collect();
    let mut all = protection::all();
    all.sort();
    assert_eq!(met, all);
}

/// The arms that refuse a call in a book of a protected card and a write to it.
fn arms() -> Vec<Arm> {
    let mut script = initialisation(0);
    let csd = script.windows(2).position(|words| words == [0x4000_0032, 0x0009_0000]);
    script[csd.expect("the card tells its CSD") + 3] |= 1 << 12;
    let take = Call::Initialise { frequency: 24_000_000 };
    let data = &[[7; 128]];
    let write = Call::Write { index: 0, data };
    let entry = |call: Call<'_>, script| Entry {
        call: call.kept(),
        script,
    };
    let settings = Settings {
        source: 48_000_000,
        poll_limit: 2,
        ready_attempts: 3,
        data_timeout: 7,
        software_timeout: 9,
        bypass: false,
        wide: true,
    };
    let entries = vec![entry(take, script), entry(write, short(13, 0x900))];
    let mut coverage = Coverage::default();
    coverage.add(&Book { settings, entries }.bytes(), &mut Rng::new(1));
    coverage.arms.into_keys().collect()
}

#[test]
fn a_26_that_leaves_something_behind_shows() {
    assert_eq!(arms(), [("write", "write protected")]);
    let model = wrong::all().find(|wrong| wrong.name == "protect-closes-clock");
    let found = model.expect("there is such a model").with(arms);
    assert_eq!(found, [("write", "not as before")]);
}
