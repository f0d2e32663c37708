//! The bench book: read from bytes, judged, its calls run on a host, and the
//! lines printed that `cardbook`, `cardtrace` and `cardsteps` print.

pub mod book;
pub mod pile;
pub mod print;
mod wrongly;

pub use book::{Book, Entry, Fault};
pub use print::{events, lines, trace, MOST_ROOM};
