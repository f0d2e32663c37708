//! Which books get 23, and piles.

use oracle_bench_book::{book, pile, Book, Entry, Fault};
use oracle_driver::KeptCall;

/// Two calls with scripts of two and three words.
fn sound() -> Vec<u32> {
    vec![
        8_000_000, 1, 65_535, 1, 1, 3, 2, 1, 25_000_000, 0, 2, 2, 7, 16, 3, 10, 11, 20, 21, 22,
    ]
}

fn judged(change: impl FnOnce(&mut Vec<u32>)) -> Option<Fault> {
    let mut words = sound();
    change(&mut words);
    Book::read(&book::bytes(&words)).err()
}

#[test]
fn a_sound_book_is_read_and_written_again() {
    let read = Book::read(&book::bytes(&sound())).unwrap();
    assert_eq!(read.entries[0].script, [10, 11]);
    assert_eq!(read.entries[1].script, [20, 21, 22]);
    assert_eq!(read.words(), sound());
}

#[test]
fn each_cause_is_told() {
    assert_eq!(judged(|_| {}), None);
    assert_eq!(judged(|words| words[5] = 4), Some(Fault::Flags));
    assert_eq!(judged(|words| words[2] = 65_536), Some(Fault::Attempts));
    assert_eq!(judged(|words| words[6] = 0), Some(Fault::NumberOfCalls));
    assert_eq!(judged(|words| words[6] = 65), Some(Fault::NumberOfCalls));
    assert_eq!(judged(|words| words[7] = 0), Some(Fault::Kind));
    assert_eq!(judged(|words| words[7] = 5), Some(Fault::Kind));
    assert_eq!(judged(|words| words[9] = 1), Some(Fault::NotZero));
    assert_eq!(judged(|words| words[7] = 3), Some(Fault::NotZero));
    assert_eq!(judged(|words| (words[11], words[12]) = (3, 0)), Some(Fault::NotZero));
    assert_eq!(judged(|words| words[13] = 17), Some(Fault::TooManyBlocks));
    assert_eq!(judged(|words| words[13] = 0), None);
    assert_eq!(judged(|words| words[14] = 2), Some(Fault::ScriptLengths));
    assert_eq!(judged(|words| words[14] = 4), Some(Fault::ScriptLengths));
    assert_eq!(
        judged(|words| (words[10], words[14]) = (u32::MAX, 6)),
        Some(Fault::ScriptLengths)
    );
    for length in 0..15 {
        assert_eq!(judged(|words| words.truncate(length)), Some(Fault::CutShort));
    }
}

/// A write of so many blocks whose row counts this many words, which are there.
fn write(index: u32, blocks: u32, body: usize) -> Result<Book, Fault> {
    let mut words = vec![8_000_000, 1, 1, 1, 1, 0, 1, 4, index, blocks, body as u32];
    words.extend(0..body as u32);
    Book::read(&book::bytes(&words))
}

#[test]
fn the_body_of_a_write_starts_with_its_data() {
    for (index, blocks, script) in [(0, 1, 0), (7, 2, 3), (u32::MAX, 16, 100), (9, 0, 0), (9, 0, 5)] {
        let data = 128 * blocks as usize;
        let read = write(index, blocks, data + script).unwrap();
        let Entry { call, script: rest } = &read.entries[0];
        let words: Vec<u32> = (0..(data + script) as u32).collect();
        assert_eq!((call.data(), &rest[..]), words.split_at(data));
        let KeptCall::Write { index: at, data } = call else {
            panic!("kind 4 is a write");
        };
        assert_eq!((*at, data.len()), (index, blocks as usize));
        // And written again, the row counts all.
        assert_eq!(
            read.words()[7..],
            [vec![4, index, blocks, words.len() as u32], words].concat()
        );
    }
}

#[test]
fn a_body_shorter_than_its_data_is_told() {
    for blocks in 1..=16 {
        let data = 128 * blocks as usize;
        for body in [0, 1, data - 128, data - 1] {
            assert_eq!(
                write(0, blocks, body).err(),
                Some(Fault::DataCutShort),
                "{blocks}, {body}"
            );
        }
        assert!(write(0, blocks, data).is_ok());
    }
}

#[test]
fn a_write_of_over_16_blocks_is_told_whatever_its_body() {
    for blocks in [17, 18, 256, u32::MAX] {
        for body in [0, 128 * 17, 128 * 18] {
            assert_eq!(write(0, blocks, body).err(), Some(Fault::TooManyToWrite));
        }
    }
}

#[test]
fn the_data_of_one_call_is_not_the_next_ones() {
    // A write of one block without a script, then a status call with two words.
    let mut words = vec![8_000_000, 1, 1, 1, 1, 0, 2, 4, 1, 1, 128, 3, 0, 0, 2];
    words.extend(1..=130);
    let read = Book::read(&book::bytes(&words)).unwrap();
    assert_eq!(read.entries[0].call.data(), Vec::from_iter(1..=128));
    assert!(read.entries[0].script.is_empty());
    assert_eq!(read.entries[1].script, [129, 130]);
    // The same words, counted to the wrong call.
    (words[10], words[14]) = (127, 3);
    assert_eq!(Book::read(&book::bytes(&words)).err(), Some(Fault::DataCutShort));
    (words[10], words[14]) = (128, 3);
    assert_eq!(Book::read(&book::bytes(&words)).err(), Some(Fault::ScriptLengths));
}

#[test]
fn lengths_in_bytes() {
    let bytes = book::bytes(&sound());
    for less in 1..4 {
        assert_eq!(Book::read(&bytes[less..]).err(), Some(Fault::NoWholeWords));
    }
    let long = |extra: usize| {
        judged(|words| {
            words[14] += (4_096 - 20 + extra) as u32;
            words.resize(4_096 + extra, 0);
        })
    };
    assert_eq!(long(0), None);
    assert_eq!(long(1), Some(Fault::TooManyWords));
}

#[test]
fn a_pile_gives_its_books_and_tells_where_it_is_cut() {
    let mut bytes = Vec::new();
    for book in [&b"one"[..], b"", b"three"] {
        pile::write_book(&mut bytes, book).unwrap();
    }
    let mut whole = &bytes[..];
    assert_eq!(pile::read_book(&mut whole).unwrap().unwrap(), b"one");
    assert_eq!(pile::read_book(&mut whole).unwrap().unwrap(), b"");
    assert_eq!(pile::read_book(&mut whole).unwrap().unwrap(), b"three");
    assert!(pile::read_book(&mut whole).unwrap().is_none());
    for length in 12..bytes.len() {
        let mut cut = &bytes[11..length];
        assert!(pile::read_book(&mut cut).is_err(), "{length}");
    }
}
