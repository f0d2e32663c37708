//! Models that are wrong in one thing that the Rust does not have, to show what tells
//! them from the right one.

mod fields;
mod lengths;
mod protection;

use crate::judging::{self, Judging};
use crate::protecting::{self, Protecting};
use crate::telling::{self, Tell};

pub struct Wrong {
    pub name: &'static str,
    pub what: &'static str,
    how: How,
}

enum How {
    Tells(Tell),
    Judges(Judging),
    Protects(Protecting),
}

const fn tells(name: &'static str, what: &'static str, tell: Tell) -> Wrong {
    let how = How::Tells(tell);
    Wrong { name, what, how }
}

const fn judges(name: &'static str, what: &'static str, judging: Judging) -> Wrong {
    let how = How::Judges(judging);
    Wrong { name, what, how }
}

const fn protects(name: &'static str, what: &'static str, protecting: Protecting) -> Wrong {
    let how = How::Protects(protecting);
    Wrong { name, what, how }
}

pub fn all() -> impl Iterator<Item = &'static Wrong> {
    fields::ALL.iter().chain(lengths::ALL).chain(protection::ALL)
}

impl Wrong {
    /// Acts with this model in place of the right one.
    pub fn with<R>(&self, act: impl FnOnce() -> R) -> R {
        match self.how {
            How::Tells(tell) => telling::with(tell, act),
            How::Judges(judging) => judging::with(judging, act),
            How::Protects(protecting) => protecting::with(protecting, act),
        }
    }
}
