//! A small pile that reaches what a large one does.

use std::fs::File;
use std::io::{self, BufReader, BufWriter, Write};

use oracle_bench_book::pile;
use oracle_model::generate;
use oracle_model::rng::Rng;
use oracle_model::sample::Sample;

use crate::written;

/// The books of the pile `kept` come first, needed or not: what names a book of a
/// sample by its number still finds it when the sample is made again.
pub fn sample(seed: u64, count: u64, kept: Option<&str>) -> Result<(), String> {
    let kept = kept.map_or(Ok(Vec::new()), books)?;
    let mut out = BufWriter::new(io::stdout().lock());
    let mut sample = Sample::default();
    for (k, book) in (1..).zip(&kept) {
        sample.has(book, &mut Rng::nth(seed, k));
        written(pile::write_book(&mut out, book))?;
    }
    for k in 1..=count {
        sample.may_have(generate::book(seed, k), &mut Rng::nth(seed, k));
    }
    for book in sample.chosen() {
        written(pile::write_book(&mut out, &book))?;
    }
    written(out.flush())
}

fn books(path: &str) -> Result<Vec<Vec<u8>>, String> {
    let fault = |error: io::Error| format!("oracle: {path}: {error}");
    let input = BufReader::new(File::open(path).map_err(fault)?);
    pile::books(input).collect::<io::Result<_>>().map_err(fault)
}
