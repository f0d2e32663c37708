//! Leaf vectors: one call a line, with the answer of the Rust or of the documents.

use std::io::{self, BufWriter, Write};

use oracle_driver::host::Leaves;
use oracle_model::leaves::{each, each_wide_rate};

use crate::written;

pub fn leaves<L: Leaves>(seed: u64, count: u64) -> Result<(), String> {
    print(|line| each(seed, count, |leaf| line(leaf.line::<L>())))
}

/// Rates over 255, which are no input of the Rust's function.
pub fn wide_rates(seed: u64, count: u64) -> Result<(), String> {
    let answer = oracle_paper::Leaves::wide_rate;
    print(|line| each_wide_rate(seed, count, |rate| line(format!("rate {rate} {}", answer(rate)))))
}

/// How many inputs the Rust is not asked about.
pub fn aside(seed: u64, count: u64) -> Result<(), String> {
    let mut inputs = 0u64;
    each(seed, count, |leaf| inputs += u64::from(leaf.beyond_the_rust()));
    written(writeln!(io::stdout(), "{inputs}"))
}

fn print(all: impl FnOnce(&mut dyn FnMut(String))) -> Result<(), String> {
    let mut out = BufWriter::with_capacity(1 << 16, io::stdout().lock());
    let mut result = Ok(());
    all(&mut |line| {
        if result.is_ok() {
            result = writeln!(out, "{line}");
        }
    });
    written(result.and_then(|()| out.flush()))
}
