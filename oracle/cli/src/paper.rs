//! Compares the Rust, where it is asked, with the host made from the documents, in all
//! but the fields, which the Rust does not have.

use oracle_bench_book::{events, trace, MOST_ROOM};
use oracle_driver::Host;
use oracle_model::aside::{self, Aside};
use oracle_model::{generate, leaves, rng::Rng, settings};
use oracle_paper as paper;
use oracle_paper::asked;
use oracle_paper::telling::without_fields;

/// What a call gives, and the order in which it went.
fn text<H: Host>(book: &[u8], room: usize) -> Vec<u8> {
    let mut text = Vec::new();
    trace::<H>(book, room, &mut text);
    events::<H>(book, room, &mut text);
    text
}

pub fn paper(seed: u64, count: u64) -> Result<(), String> {
    let calls = on_books(seed, count)?;
    let (inputs, aside) = on_leaves(seed, count)?;
    println!(
        "the Rust and the documents agree on {count} books, each with two rooms, and on {inputs} leaf inputs; \
         the Rust was not asked in {calls} and about {aside} inputs"
    );
    Ok(())
}

/// The calls in which the Rust was not asked.
fn on_books(seed: u64, count: u64) -> Result<Aside, String> {
    let mut aside = Aside::default();
    for k in 1..=count {
        let book = generate::book(seed, k);
        let little = settings::little_room(&mut Rng::nth(!seed, k));
        for room in [MOST_ROOM, little] {
            if text::<asked::Host>(&book, room) != without_fields(|| text::<paper::Host>(&book, room)) {
                return Err(format!(
                    "oracle: they differ on book {k} of seed {seed} with room {room}"
                ));
            }
            aside += aside::of_book(&book, room);
        }
    }
    Ok(aside)
}

/// The number of inputs, and of those about which the Rust was not asked.
fn on_leaves(seed: u64, count: u64) -> Result<(u64, u64), String> {
    let (mut inputs, mut aside) = (0, 0);
    let mut different = None;
    leaves::each(seed, count, |leaf| {
        inputs += 1;
        aside += u64::from(leaf.beyond_the_rust());
        if leaf.answer::<asked::Leaves>() != without_fields(|| leaf.answer::<paper::Leaves>()) {
            different = different.or(Some(leaf));
        }
    });
    match different {
        Some(leaf) => Err(format!("oracle: they differ on {leaf:?}")),
        None => Ok((inputs, aside)),
    }
}
