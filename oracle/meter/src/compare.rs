//! Books of the oracle, and lists of calls larger than a book's, served by both hosts.

use oracle_bench_book::{lines, MOST_ROOM};
use oracle_driver::Host;
use oracle_model::aside::{self, Aside};
use oracle_model::generate;
use oracle_paper as paper;
use oracle_paper::asked;
use oracle_paper::telling::without_fields;

use crate::proved;

/// True where the proved host prints, for each of so many books of a seed, the lines of the documents' host, and these are
/// the Rust's, where it is asked, but for the fields, which the Rust does not have.
pub fn compare(seed: u64, count: u64) -> bool {
    let mut out = vec![0; 4_096];
    let (mut printed, mut aside) = (0, Aside::default());
    for k in 0..count {
        let book = generate::book(seed, k);
        let (rust, due) = (text::<asked::Host>(&book), text::<paper::Host>(&book));
        if rust != due && rust != without_fields(|| text::<paper::Host>(&book)) {
            eprintln!("meter: book {k} of seed {seed}: the documents' host and the Rust DIFFER");
            return false;
        }
        if proved::book(&book, &mut out) != due {
            eprintln!("meter: book {k} of seed {seed}: the proved host and the documents' host DIFFER");
            return false;
        }
        printed += due.iter().filter(|byte| **byte == b'\n').count();
        aside += aside::of_book(&book, MOST_ROOM);
    }
    println!("seed {seed}: {count} books, {printed} lines equal; the Rust was not asked in {aside}");
    true
}

fn text<H: Host>(book: &[u8]) -> Vec<u8> {
    let mut text = Vec::new();
    lines::<H>(book, &mut text);
    text
}
