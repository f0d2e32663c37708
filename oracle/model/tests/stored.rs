//! What is written to the card that plays along is read from it again, and books do so.

use std::collections::BTreeMap;

use oracle_bench_book::Book;
use oracle_driver::bench::Feed;
use oracle_driver::{Block, Call, Host as _};
use oracle_model::card::{Card, Command, Response};
use oracle_model::generate;
use oracle_model::rng::Rng;
use oracle_paper::asked::Host;

fn command(index: u8, argument: u32) -> Command {
    Command {
        index,
        argument,
        app: false,
        data: true,
        response: Response::R1,
    }
}

/// Two blocks are written at block 6, and four read from block 5; then one.
#[test]
fn by_the_card() {
    let mut rng = Rng::new(8);
    for _ in 0..20 {
        let mut card = Card::any(&mut rng);
        let unit = if card.high() { 1 } else { 512 };
        let four = |card: &Card| -> Vec<u32> {
            let word = |place| card.data_word(command(18, 5 * unit), place);
            (0..512).map(word).collect()
        };
        let old = four(&card);
        for place in 0..256 {
            card.receive(command(25, 6 * unit), place, place as u32);
        }
        assert_eq!(
            four(&card),
            [&old[..128], &Vec::from_iter(0..256), &old[384..]].concat()
        );
        assert_eq!(card.data_word(command(17, 7 * unit), 1), 129);
    }
}

/// In the first books of seed 1, many reads give what an accepted write of the same book had sent.
#[test]
fn by_the_books() {
    let mut again = 0;
    for k in 1..=2_000 {
        let Ok(book) = Book::read(&generate::book(1, k)) else {
            continue;
        };
        let Ok(mut host) = <Host>::make(&book.settings) else {
            continue;
        };
        let mut written: BTreeMap<u32, Block> = BTreeMap::new();
        for entry in &book.entries {
            let outcome = host.call(entry.call.lent(), Feed::Script(&entry.script), 4_096, false);
            match entry.call.lent() {
                Call::Write { index, data } if outcome.answer == 0 => {
                    written.extend(data.iter().enumerate().map(|(at, block)| (index + at as u32, *block)));
                }
                Call::Read { index, .. } if outcome.answer == 0 => {
                    let bytes = written
                        .get(&index)
                        .into_iter()
                        .flatten()
                        .flat_map(|word| word.to_le_bytes());
                    again += u32::from(bytes.eq(outcome.blocks[..512].iter().copied()));
                }
                _ => {}
            }
        }
    }
    assert!(again > 40, "{again}");
}
