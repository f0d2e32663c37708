//! Request P6: the block length of a CSD of version 1, looked at too early, too late,
//! otherwise or not at all, and refused in another way.

use super::{judges, tells, Wrong};
use crate::judging::{Judging, Slip, RIGHTLY};
use crate::telling::rightly;
use crate::unsupported::{Cause, Field};

/// Other lengths than the right ones, refused rightly.
const fn lengths(name: &'static str, what: &'static str, allows: fn(u64, u64) -> bool) -> Wrong {
    judges(name, what, Judging { allows, ..RIGHTLY })
}

/// The right lengths, refused otherwise.
const fn slip(name: &'static str, what: &'static str, slip: Slip) -> Wrong {
    let slip = Some(slip);
    judges(name, what, Judging { slip, ..RIGHTLY })
}

/// What version 0 may have; nothing for version 1.
fn standard(version: u64, length: u64) -> bool {
    version == 0 && (RIGHTLY.allows)(version, length)
}

pub const ALL: &[Wrong] = &[
    tells(
        "high-length-before-comparison",
        "the block length is looked at before the OCR",
        |cause| match cause {
            Cause::Disagreement { version: 1, length } if length != 9 => Some(Field::BlockLength),
            _ => rightly(cause),
        },
    ),
    tells(
        "high-length-as-version",
        "a block length of version 1 is told as 1",
        |cause| match cause {
            Cause::BlockLength { version: 1, .. } => Some(Field::CsdVersion),
            _ => rightly(cause),
        },
    ),
    tells(
        "high-length-as-comparison",
        "a block length of version 1 is told as 6",
        |cause| match cause {
            Cause::BlockLength { version: 1, .. } => Some(Field::CsdAgainstOcr),
            _ => rightly(cause),
        },
    ),
    tells(
        "high-length-untold",
        "a block length of version 1 has no field",
        |cause| match cause {
            Cause::BlockLength { version: 1, .. } => None,
            _ => rightly(cause),
        },
    ),
    lengths(
        "high-length-unseen",
        "version 1 may have any block length, as in the Rust",
        |version, length| version == 1 || standard(version, length),
    ),
    lengths(
        "high-length-8-accepted",
        "version 1 may have block length 8",
        |version, length| (version, length) == (1, 8) || (RIGHTLY.allows)(version, length),
    ),
    lengths(
        "high-length-10-accepted",
        "version 1 may have block length 10",
        |version, length| (version, length) == (1, 10) || (RIGHTLY.allows)(version, length),
    ),
    lengths(
        "high-length-as-standard",
        "version 1 may have 10 and 11, as version 0",
        |_, length| (9..=11).contains(&length),
    ),
    lengths(
        "high-length-less-accepted",
        "version 1 may have less than 9",
        |version, length| version == 1 && length <= 9 || standard(version, length),
    ),
    lengths(
        "high-length-more-accepted",
        "version 1 may have more than 9",
        |version, length| version == 1 && length >= 9 || standard(version, length),
    ),
    lengths(
        "high-length-three-bits",
        "of version 1 only bits 82:80 are looked at",
        |version, length| version == 1 && length % 8 == 1 || standard(version, length),
    ),
    lengths("high-length-9-refused", "version 1 may not have 9 either", standard),
    lengths(
        "high-length-for-standard",
        "version 0 may not have 10 and 11 either",
        |_, length| length == 9,
    ),
    slip(
        "high-length-after-cmd7",
        "CMD7 goes out before version 1 is refused for its block length",
        Slip::AfterCmd7,
    ),
    slip(
        "high-length-as-12",
        "a block length of version 1 is answered 12",
        Slip::AnotherNumber,
    ),
    slip(
        "high-length-without-reset",
        "no reset rows after a block length of version 1",
        Slip::NoReset,
    ),
    slip(
        "high-length-old-record",
        "the card before stays after a block length of version 1",
        Slip::OldRecord,
    ),
];
