//! A pile: books, each with its length in bytes as a 32-bit little-endian word
//! in front, until the input ends.

use std::io::{self, ErrorKind, Read, Write};

pub fn write_book(pile: &mut impl Write, book: &[u8]) -> io::Result<()> {
    pile.write_all(&(book.len() as u32).to_le_bytes())?;
    pile.write_all(book)
}

/// The next book, none where the pile ends; an error if it ends within a book.
pub fn read_book(pile: &mut impl Read) -> io::Result<Option<Vec<u8>>> {
    let mut length = Vec::new();
    pile.by_ref().take(4).read_to_end(&mut length)?;
    if length.is_empty() {
        return Ok(None);
    }
    let length: [u8; 4] = length.try_into().map_err(|_| cut_short())?;
    let length = u64::from(u32::from_le_bytes(length));
    let mut book = Vec::new();
    pile.by_ref().take(length).read_to_end(&mut book)?;
    if (book.len() as u64) < length {
        return Err(cut_short());
    }
    Ok(Some(book))
}

/// The books of a pile in their order.
pub fn books(mut pile: impl Read) -> impl Iterator<Item = io::Result<Vec<u8>>> {
    std::iter::from_fn(move || read_book(&mut pile).transpose())
}

fn cut_short() -> io::Error {
    io::Error::new(ErrorKind::UnexpectedEof, "the pile is cut short")
}
