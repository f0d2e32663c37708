//! Piles, their traces and their events, and in how many of their calls the Rust is not asked.

use std::io::{self, BufReader, BufWriter, Read, Write};

use oracle_bench_book::{pile, MOST_ROOM};
use oracle_model::aside::{self, Aside};
use oracle_model::generate;

use crate::written;

pub fn pile(seed: u64, count: u64) -> Result<(), String> {
    let mut out = BufWriter::new(io::stdout().lock());
    let result = (1..=count).try_for_each(|k| pile::write_book(&mut out, &generate::book(seed, k)));
    written(result.and_then(|()| out.flush()))
}

/// Prints each book of a pile with this room: `print` is `trace` or `events` of some host.
pub fn each(room: Option<&str>, print: fn(&[u8], usize, &mut Vec<u8>)) -> Result<(), String> {
    let room = room_of(room)?;
    let mut out = BufWriter::with_capacity(1 << 16, io::stdout().lock());
    let mut text = Vec::new();
    for (k, book) in (1..).zip(pile::books(input())) {
        let book = match book {
            Ok(book) => book,
            Err(error) => {
                written(out.flush())?;
                return Err(format!("oracle: {error}"));
            }
        };
        text.clear();
        text.extend(format!("book {k}\n").bytes());
        print(&book, room, &mut text);
        if out.write_all(&text).is_err() {
            break;
        }
    }
    written(out.flush())
}

/// Prints in how many calls of a pile, each with this room, the Rust is not asked.
pub fn aside(room: Option<&str>) -> Result<(), String> {
    let room = room_of(room)?;
    let mut aside = Aside::default();
    for book in pile::books(input()) {
        aside += aside::of_book(&book.map_err(|error| format!("oracle: {error}"))?, room);
    }
    written(writeln!(io::stdout(), "{aside}"))
}

fn input() -> impl Read {
    BufReader::with_capacity(1 << 16, io::stdin().lock())
}

fn room_of(word: Option<&str>) -> Result<usize, String> {
    let Some(word) = word else {
        return Ok(MOST_ROOM);
    };
    let digits = word.bytes().all(|byte| byte.is_ascii_digit());
    let room = word.parse().ok().filter(|room| digits && *room <= MOST_ROOM);
    room.ok_or(format!("oracle: {word} is no number of rows up to {MOST_ROOM}"))
}

/// Prints one book.
pub fn book(print: fn(&[u8], &mut Vec<u8>)) -> Result<(), String> {
    let mut bytes = Vec::new();
    io::stdin()
        .lock()
        .read_to_end(&mut bytes)
        .map_err(|error| format!("oracle: {error}"))?;
    let mut text = Vec::new();
    print(&bytes, &mut text);
    written(io::stdout().lock().write_all(&text))
}
