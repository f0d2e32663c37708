//! The lines of `cardbook`, `cardtrace` and `cardsteps`, to the letter.

use oracle_driver::bench::{Event, Feed, Reading};
use oracle_driver::host::{Host, Outcome, Record, State, BAD_BOOK};

use crate::book::{numbers, Book, Entry};

/// Rows of room a call, unless told otherwise.
pub const MOST_ROOM: usize = 4_096;

/// Which program's text.
#[derive(Clone, Copy, Eq, PartialEq)]
enum Text {
    Lines,
    Trace,
    Events,
}

/// What `cardbook` prints for a book.
pub fn lines<H: Host>(book: &[u8], out: &mut Vec<u8>) {
    run::<H>(book, MOST_ROOM, Text::Lines, out);
}

/// What `cardtrace` prints for a book with this room.
pub fn trace<H: Host>(book: &[u8], room: usize, out: &mut Vec<u8>) {
    run::<H>(book, room, Text::Trace, out);
}

/// What `cardsteps` prints for a book with this room, without its texts for people: readings and rows in their order.
pub fn events<H: Host>(book: &[u8], room: usize, out: &mut Vec<u8>) {
    run::<H>(book, room, Text::Events, out);
}

fn run<H: Host>(book: &[u8], room: usize, text: Text, out: &mut Vec<u8>) {
    let made = Book::read(book)
        .map_err(|_| BAD_BOOK)
        .and_then(|book| Ok((H::make(&book.settings)?, book.entries)));
    out.extend(b"host answer ");
    decimal(out, made.as_ref().err().copied().unwrap_or(0));
    out.push(b'\n');
    let Ok((mut host, entries)) = made else {
        return;
    };
    if text != Text::Lines {
        print_state(out, &host.state());
    }
    for (number, entry) in (1..).zip(&entries) {
        // Only events need a watched call: the other texts are printed as fast as ever.
        let outcome = host.call(
            entry.call.lent(),
            Feed::Script(&entry.script),
            room,
            text == Text::Events,
        );
        if text == Text::Events {
            before_line(out, number, entry, &outcome);
        }
        print_line(out, number, &outcome);
        match text {
            Text::Lines => {}
            Text::Trace => after_line(out, &outcome, &host.state()),
            Text::Events => print_state(out, &host.state()),
        }
    }
}

fn print_line(out: &mut Vec<u8>, number: u64, outcome: &Outcome) {
    decimal(out, number);
    out.extend(b" answer ");
    decimal(out, outcome.answer);
    if let Some(field) = outcome.field {
        out.extend(b" field ");
        decimal(out, field);
    }
    out.extend(b" words ");
    decimal(out, outcome.words_used as u64);
    out.extend(b" rows ");
    decimal(out, outcome.rows.len() as u64);
    if let Some(protection) = outcome.protection {
        out.extend(b" protect ");
        decimal(out, protection.number());
    }
    out.push(b'\n');
}

/// The call as the book has it, and its events.
fn before_line(out: &mut Vec<u8>, number: u64, entry: &Entry, outcome: &Outcome) {
    decimal(out, number);
    for field in numbers(entry.call.lent()) {
        out.push(b' ');
        decimal(out, field);
    }
    out.push(b'\n');
    for event in &outcome.events {
        match *event {
            Event::Row(register, value) => print_row(out, register, value),
            Event::Word(reading, word) => print_reading(out, reading, Some(word)),
            Event::Ended(reading) => print_reading(out, reading, None),
            // The row was not written; the answer says so.
            Event::Full(_) => {}
        }
    }
}

fn print_row(out: &mut Vec<u8>, register: u32, value: u32) {
    out.extend(b"row ");
    decimal(out, register);
    out.push(b' ');
    decimal(out, value);
    out.push(b'\n');
}

/// A reading with its word, or with none where the script had ended.
fn print_reading(out: &mut Vec<u8>, reading: Reading, word: Option<u32>) {
    let (kind, place): (&[u8], Option<u16>) = match reading {
        Reading::Status => (b"status", None),
        Reading::Respcmd => (b"respcmd", None),
        Reading::Response(place) => (b"response", Some(place.into())),
        Reading::Dma => (b"dma", None),
        Reading::Dcount => (b"dcount", None),
        Reading::Data(place) => (b"data", Some(place)),
    };
    out.extend(b"read ");
    out.extend(kind);
    if let Some(place) = place {
        out.push(b' ');
        decimal(out, place);
    }
    match word {
        Some(word) => {
            out.extend(b" 0x");
            hexadecimal(out, word, 8);
        }
        None => out.extend(b" none"),
    }
    out.push(b'\n');
}

fn after_line(out: &mut Vec<u8>, outcome: &Outcome, state: &State) {
    for (register, value) in &outcome.rows {
        print_row(out, *register, *value);
    }
    if outcome.answer == 10 {
        out.extend(b"carried ");
        hexadecimal(out, outcome.carried, 8);
        out.push(b'\n');
    }
    print_state(out, state);
    if let Some(status) = &outcome.status {
        out.extend(b"status ");
        print_status(out, status);
        out.push(b'\n');
    }
    for block in outcome.blocks.chunks(512) {
        out.extend(b"block ");
        for byte in block {
            hexadecimal(out, *byte, 2);
        }
        out.push(b'\n');
    }
}

fn print_state(out: &mut Vec<u8>, state: &State) {
    out.extend(b"state clock=");
    decimal(out, state.clock);
    out.extend(b" signalling=");
    out.extend(if state.sdr25 { b"SDR25" } else { b"SDR12" });
    out.extend(b" gated=");
    decimal(out, u8::from(state.gated));
    out.extend(b" clkcr=");
    decimal(out, state.clkcr);
    out.extend(b" record=");
    match &state.record {
        None => out.extend(b"none"),
        Some(record) => print_record(out, record),
    }
    out.push(b'\n');
}

/// Class, OCR, RCA, CID, CSD, SCR, status, blocks, write protection.
fn print_record(out: &mut Vec<u8>, record: &Record) {
    out.extend(if record.high_capacity { b"SDHC," } else { b"SDSC," });
    hexadecimal(out, record.ocr, 8);
    out.push(b',');
    hexadecimal(out, record.rca, 4);
    out.push(b',');
    hexadecimal(out, record.cid, 32);
    out.push(b',');
    hexadecimal(out, record.csd, 32);
    out.push(b',');
    hexadecimal(out, record.scr, 16);
    out.push(b',');
    print_status(out, &record.status);
    out.push(b',');
    decimal(out, record.blocks);
    out.extend(b",protect=");
    decimal(out, record.protection.number());
}

fn print_status(out: &mut Vec<u8>, words: &[u32; 16]) {
    for (place, word) in words.iter().enumerate() {
        if place != 0 {
            out.push(b':');
        }
        hexadecimal(out, *word, 8);
    }
}

// Written out because the formatter of the standard library took half the time
// of a trace.

fn decimal(out: &mut Vec<u8>, number: impl Into<u64>) {
    let mut rest: u64 = number.into();
    let mut digits = [0; 20];
    let mut first = digits.len();
    loop {
        first -= 1;
        digits[first] = b'0' + (rest % 10) as u8;
        rest /= 10;
        if rest == 0 {
            break;
        }
    }
    out.extend(&digits[first..]);
}

fn hexadecimal(out: &mut Vec<u8>, number: impl Into<u128>, digits: u32) {
    let number: u128 = number.into();
    for place in (0..digits).rev() {
        out.push(b"0123456789abcdef"[(number >> (4 * place)) as usize & 15]);
    }
}
