//! How often the Rust is not asked.

use std::fmt;
use std::ops::AddAssign;

use oracle_bench_book::Book;
use oracle_driver::bench::Feed;
use oracle_driver::Host as _;
use oracle_paper as paper;
use oracle_paper::Beyond;

/// Calls in which it is not, by the cause.
#[derive(Clone, Copy, Debug, Default, Eq, PartialEq)]
pub struct Aside {
    pub block_length: u64,
    pub write_protected: u64,
}

impl Aside {
    pub fn calls(self) -> u64 {
        self.block_length + self.write_protected
    }

    fn add(&mut self, why: Beyond) {
        match why {
            Beyond::BlockLength => self.block_length += 1,
            Beyond::WriteProtected => self.write_protected += 1,
        }
    }
}

impl AddAssign for Aside {
    fn add_assign(&mut self, other: Self) {
        self.block_length += other.block_length;
        self.write_protected += other.write_protected;
    }
}

impl fmt::Display for Aside {
    fn fmt(&self, out: &mut fmt::Formatter<'_>) -> fmt::Result {
        write!(
            out,
            "{} calls ({} for a block length, {} for write protection)",
            self.calls(),
            self.block_length,
            self.write_protected
        )
    }
}

/// Those of a book whose calls have this room each.
pub fn of_book(bytes: &[u8], room: usize) -> Aside {
    let mut aside = Aside::default();
    let Ok(book) = Book::read(bytes) else {
        return aside;
    };
    let Ok(mut host) = paper::Host::make(&book.settings) else {
        return aside;
    };
    for entry in &book.entries {
        host.call(entry.call.lent(), Feed::Script(&entry.script), room, false);
        if let Some(why) = host.beyond_the_rust() {
            aside.add(why);
        }
    }
    aside
}
