//! Request P4: every cause of an answer 13, told as another field or not at all.

use super::{tells, Wrong};
use crate::telling::rightly;
use crate::unsupported::{Cause, Field};

/// Each is the right rule but for the causes that it names.
pub const ALL: &[Wrong] = &[
    tells(
        "field-unit-and-value-exchanged",
        "a rate's unit is told as 4, its value as 3",
        |cause| match cause.field() {
            Field::RateUnit => Some(Field::RateValue),
            Field::RateValue => Some(Field::RateUnit),
            field => Some(field),
        },
    ),
    tells(
        "field-value-before-unit",
        "a rate's value is looked at before its unit",
        |cause| match cause {
            Cause::Rate {
                reserved: false,
                value: true,
                ..
            } => Some(Field::RateValue),
            _ => rightly(cause),
        },
    ),
    tells(
        "field-value-before-reserved",
        "a rate's value is looked at first",
        |cause| match cause {
            Cause::Rate { value: true, .. } => Some(Field::RateValue),
            _ => rightly(cause),
        },
    ),
    tells(
        "field-reserved-last",
        "a rate's reserved bit is looked at last",
        |cause| match cause {
            Cause::Rate { unit: true, .. } => Some(Field::RateUnit),
            Cause::Rate { value: true, .. } => Some(Field::RateValue),
            _ => rightly(cause),
        },
    ),
    tells("field-always-1", "every 13 has field 1", |_| Some(Field::CsdVersion)),
    tells("field-lost", "no 13 has a field", |_| None),
    tells(
        "field-lost-on-the-way",
        "CMD55's 13 has no field",
        |cause| match cause {
            Cause::NotTaken { .. } => None,
            _ => rightly(cause),
        },
    ),
    tells(
        "field-disagreement-as-version",
        "CSD against OCR is told as 1",
        |cause| match cause {
            Cause::Disagreement { .. } => Some(Field::CsdVersion),
            _ => rightly(cause),
        },
    ),
    tells(
        "field-version-before-comparison",
        "the CSD's version is looked at before the OCR",
        |cause| match cause {
            Cause::Disagreement { version: 2.., .. } => Some(Field::CsdVersion),
            _ => rightly(cause),
        },
    ),
    tells(
        "field-comparison-for-version",
        "a CSD's version is told as 6",
        |cause| match cause {
            Cause::Version => Some(Field::CsdAgainstOcr),
            _ => rightly(cause),
        },
    ),
    tells(
        "field-block-length-as-version",
        "a block length of version 0 is told as 1",
        |cause| match cause {
            Cause::BlockLength { version: 0, .. } => Some(Field::CsdVersion),
            _ => rightly(cause),
        },
    ),
    tells(
        "field-voltage-as-not-taken",
        "a voltage is told as 8",
        |cause| match cause {
            Cause::Voltage => Some(Field::ApplicationCommand),
            _ => rightly(cause),
        },
    ),
    tells(
        "field-acmd41-as-voltage",
        "CMD55's 13 before ACMD41 has field 7",
        |cause| match cause {
            Cause::NotTaken { command: 41 } => Some(Field::Voltage),
            _ => rightly(cause),
        },
    ),
    tells(
        "field-acmd51-as-version",
        "CMD55's 13 before ACMD51 has field 1",
        |cause| match cause {
            Cause::NotTaken { command: 51 } => Some(Field::CsdVersion),
            _ => rightly(cause),
        },
    ),
    tells(
        "field-acmd6-as-voltage",
        "CMD55's 13 before ACMD6 has field 7",
        |cause| match cause {
            Cause::NotTaken { command: 6 } => Some(Field::Voltage),
            _ => rightly(cause),
        },
    ),
    tells(
        "field-status-as-version",
        "CMD55's 13 of a status call has field 1",
        |cause| match cause {
            Cause::NotTaken { command: 13 } => Some(Field::CsdVersion),
            _ => rightly(cause),
        },
    ),
];
