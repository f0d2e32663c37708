//! The Rust where it is asked. Request P6 refuses CSDs that the Rust takes, and request
//! P8 writes that it makes, so about these it is not asked: such a call gives what the
//! documents' host gives, without the field, and leaves the Rust where the documents have
//! it, as a host made anew or as it was. All other calls are the Rust's own, those behind
//! such a one too.

use std::marker::PhantomData;

use oracle_driver::bench::Feed;
use oracle_driver::host::{self, Call, Host as _, Outcome, Settings, State, TRACE_FULL};
use oracle_driver::right;

use crate::tape::Beyond;
use crate::telling::without_fields;

/// Over the right Rust, or over one with a wrong switch on.
pub struct Host<R = right::Host> {
    settings: Settings,
    rust: R,
}

impl<R: host::Host> host::Host for Host<R> {
    type Snapshot = R::Snapshot;

    fn make(settings: &Settings) -> Result<Self, u8> {
        Ok(Self {
            settings: *settings,
            rust: R::make(settings)?,
        })
    }

    fn call(&mut self, call: Call<'_>, feed: Feed<'_>, room: usize, watched: bool) -> Outcome {
        let Feed::Script(script) = feed else {
            return self.live(call, feed, room, watched);
        };
        match self.not_asked(&self.rust.state(), call, script, room, watched) {
            Some((why, outcome)) => self.left_by(why, outcome),
            None => self.rust.call(call, feed, room, watched),
        }
    }

    fn state(&self) -> State {
        self.rust.state()
    }

    fn snapshot(&self) -> R::Snapshot {
        self.rust.snapshot()
    }

    fn restore(&mut self, before: &R::Snapshot) {
        self.rust.restore(before);
    }
}

impl<R: host::Host> Host<R> {
    /// What the documents' host gives where the Rust stood before the call, if the Rust
    /// is not asked, and why it is not.
    fn not_asked(
        &self,
        stood: &State,
        call: Call<'_>,
        script: &[u32],
        room: usize,
        watched: bool,
    ) -> Option<(Beyond, Outcome)> {
        // No other call is told a CSD or writes.
        let (Call::Initialise { .. } | Call::Write { .. }) = call else {
            return None;
        };
        // Settings that the documents refuse are the business of a wrong Rust alone.
        let mut document = crate::Host::make(&self.settings).ok()?;
        document.restore(stood);
        let outcome = document.call(call, Feed::Script(script), room, watched);
        let why = document.beyond_the_rust()?;
        Some((why, Outcome { field: None, ..outcome }))
    }

    /// A refused initialisation leaves what making a host leaves; 22 and a refused write
    /// leave the host as it was.
    fn left_by(&mut self, why: Beyond, outcome: Outcome) -> Outcome {
        if why == Beyond::BlockLength && outcome.answer != TRACE_FULL {
            self.rust = R::make(&self.settings).expect("these settings made a host before");
        }
        outcome
    }

    /// A live card gives its words to a host that is run, so the Rust is run first, and
    /// put back if it was not to be asked. The script then goes on behind the CSD, and is
    /// that of a whole write: a host that wrongly goes on finds words there.
    fn live(&mut self, call: Call<'_>, feed: Feed<'_>, room: usize, watched: bool) -> Outcome {
        let (before, stood) = (self.rust.snapshot(), self.rust.state());
        let outcome = self.rust.call(call, feed, room, watched);
        match self.not_asked(&stood, call, &outcome.script, room, watched) {
            Some((why, outcome)) => {
                self.rust.restore(&before);
                self.left_by(why, outcome)
            }
            None => outcome,
        }
    }
}

pub struct Leaves<L = right::Leaves>(PhantomData<L>);

impl<L: host::Leaves> host::Leaves for Leaves<L> {
    fn clock(source: u32, requested: u32, bypass: bool) -> u64 {
        L::clock(source, requested, bypass)
    }

    fn count(high: u64, low: u64) -> u64 {
        match crate::Leaves::beyond_the_rust(high, low) {
            true => without_fields(|| crate::Leaves::count(high, low)),
            false => L::count(high, low),
        }
    }

    fn rate(byte: u8) -> u64 {
        L::rate(byte)
    }

    fn address(high_capacity: bool, blocks: u64, index: u32, count: usize) -> u64 {
        L::address(high_capacity, blocks, index, count)
    }

    fn data_error(status: u32) -> u8 {
        L::data_error(status)
    }

    fn size(blocks: u64) -> u64 {
        L::size(blocks)
    }
}
