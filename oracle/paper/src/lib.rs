//! The host written a second time, from document 01 and its readings, with no
//! line of the driver. Where it differs from the Rust, one of the papers is
//! wrong, or a stub is. Writes, and what the Rust does not have, the field of an
//! answer 13, the block length of a CSD of version 1 and write protection, are from
//! document 02.

pub mod asked;
mod host;
pub mod judging;
mod leaf;
mod protecting;
mod steps;
mod switch;
mod tape;
pub mod telling;
pub mod unsupported;
pub mod wrong;

pub use host::Host;
pub use leaf::Leaves;
pub use tape::Beyond;
