//! The documents and the Rust, where it is asked, say the same, but for the fields, which the Rust does not have.

use oracle_bench_book::{events, trace, MOST_ROOM};
use oracle_model::{generate, leaves, rng::Rng, settings};
use oracle_paper as paper;
use oracle_paper::asked;
use oracle_paper::telling::without_fields;

#[test]
fn on_books_with_much_and_with_little_room() {
    for k in 1..=1_500 {
        let book = generate::book(99, k);
        let little = settings::little_room(&mut Rng::nth(98, k));
        for room in [MOST_ROOM, little] {
            let (mut rust, mut document) = (Vec::new(), Vec::new());
            trace::<asked::Host>(&book, room, &mut rust);
            events::<asked::Host>(&book, room, &mut rust);
            without_fields(|| {
                trace::<paper::Host>(&book, room, &mut document);
                events::<paper::Host>(&book, room, &mut document);
            });
            assert!(rust == document, "book {k} of seed 99 with room {room}");
        }
    }
}

#[test]
fn on_the_plain_functions() {
    leaves::each(99, 20_000, |leaf| {
        let document = without_fields(|| leaf.line::<paper::Leaves>());
        assert_eq!(leaf.line::<asked::Leaves>(), document);
    });
}
