//! The oracle's program: the original Rust's answers and the documents', for comparison.

mod books;
mod leaves;
mod paper;
mod sample;
mod table;
mod wrong;

use std::process::ExitCode;

use oracle_bench_book::{events, lines, trace};
use oracle_paper::asked;

const USAGE: &str = "\
oracle pile SEED COUNT        write COUNT books as a pile
oracle trace [ROOM] < PILE    what the Rust does with each book of a pile
oracle events [ROOM] < PILE   the Rust's readings and rows of each book, in their order
oracle book < BOOK            the lines of one book
oracle leaves SEED COUNT      inputs of the plain functions with the Rust's answers
                              of these four, what the Rust is not asked (about a CSD of version 1 with another block
                              length than 9, and about a write to a protected card, which the documents refuse) is
                              the documents', without the field
oracle aside [ROOM] < PILE    in how many calls of a pile the Rust is not asked, and why
oracle leaves-aside SEED COUNT
                              about how many inputs of the plain functions it is not
oracle paper-trace [ROOM] < PILE
oracle paper-events [ROOM] < PILE
oracle paper-book < BOOK
oracle paper-leaves SEED COUNT
                              the same of the host made from the documents, which tells fields
oracle paper-rates SEED COUNT rates over 255, which only the C function takes, with the documents' answers
oracle coverage SEED COUNT    what such a pile reaches
oracle sample SEED COUNT [KEPT]
                              the books of the pile KEPT, and of such a pile those that reach something new
oracle wrong [SEED COUNT]     which wrong hosts such a pile catches
oracle paper SEED COUNT       does the Rust, where it is asked, do what the documents say, on such a pile";

fn main() -> ExitCode {
    let words: Vec<String> = std::env::args().skip(1).collect();
    let words: Vec<&str> = words.iter().map(String::as_str).collect();
    match run(&words) {
        Ok(()) => ExitCode::SUCCESS,
        Err(message) => {
            eprintln!("{message}");
            ExitCode::FAILURE
        }
    }
}

fn run(words: &[&str]) -> Result<(), String> {
    let room = words.get(1).copied();
    match *words {
        ["pile", seed, count] => seeded(seed, count, books::pile),
        ["trace"] | ["trace", _] => books::each(room, trace::<asked::Host>),
        ["events"] | ["events", _] => books::each(room, events::<asked::Host>),
        ["book"] => books::book(lines::<asked::Host>),
        ["leaves", seed, count] => seeded(seed, count, leaves::leaves::<asked::Leaves>),
        ["aside"] | ["aside", _] => books::aside(room),
        ["leaves-aside", seed, count] => seeded(seed, count, leaves::aside),
        ["paper-trace"] | ["paper-trace", _] => books::each(room, trace::<oracle_paper::Host>),
        ["paper-events"] | ["paper-events", _] => books::each(room, events::<oracle_paper::Host>),
        ["paper-book"] => books::book(lines::<oracle_paper::Host>),
        ["paper-leaves", seed, count] => seeded(seed, count, leaves::leaves::<oracle_paper::Leaves>),
        ["paper-rates", seed, count] => seeded(seed, count, leaves::wide_rates),
        ["coverage", seed, count] => seeded(seed, count, table::coverage),
        ["sample", seed, count] => seeded(seed, count, |seed, count| sample::sample(seed, count, None)),
        ["sample", seed, count, kept] => seeded(seed, count, |seed, count| sample::sample(seed, count, Some(kept))),
        ["wrong"] => wrong::wrong(wrong::SEED, wrong::COUNT),
        ["wrong", seed, count] => seeded(seed, count, wrong::wrong),
        ["paper", seed, count] => seeded(seed, count, paper::paper),
        _ => Err(USAGE.to_owned()),
    }
}

fn seeded(seed: &str, count: &str, act: impl FnOnce(u64, u64) -> Result<(), String>) -> Result<(), String> {
    let number = |word: &str| word.parse().map_err(|_| format!("oracle: {word} is not a number"));
    act(number(seed)?, number(count)?)
}

/// A reader that goes away early (head, cmp) is no fault of ours.
fn written(result: std::io::Result<()>) -> Result<(), String> {
    match result {
        Err(error) if error.kind() != std::io::ErrorKind::BrokenPipe => Err(format!("oracle: {error}")),
        _ => Ok(()),
    }
}
