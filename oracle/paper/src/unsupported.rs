//! Which field made a card unsupported: document 02's request P4, for answer 13, and
//! P6, which refuses a block length that the Rust takes.

/// What the step that answers 13 has seen. This is more than the field, so that
/// one function holds the whole rule, and a wrong one can stand in for it.
#[derive(Clone, Copy, Debug, Eq, PartialEq)]
pub enum Cause {
    /// OCR and CSD do not agree on high capacity; version and block length in the CSD.
    Disagreement {
        version: u64,
        length: u64,
    },
    /// They agree, and the CSD's version is one that has no capacity.
    Version,
    /// A block length that the CSD's version does not have.
    BlockLength {
        version: u64,
        length: u64,
    },
    /// Which of its three rules a rate breaks.
    Rate {
        reserved: bool,
        unit: bool,
        value: bool,
    },
    Voltage,
    /// CMD55's answer has no APP_CMD bit; the application command after it.
    NotTaken {
        command: u32,
    },
}

#[derive(Clone, Copy, Debug, Eq, PartialEq)]
pub enum Field {
    CsdVersion,
    BlockLength,
    RateUnit,
    RateValue,
    RateReservedBit,
    CsdAgainstOcr,
    Voltage,
    ApplicationCommand,
}

impl Field {
    /// The request counts its fields in the order in which it lists them.
    pub fn number(self) -> u8 {
        match self {
            Field::CsdVersion => 1,
            Field::BlockLength => 2,
            Field::RateUnit => 3,
            Field::RateValue => 4,
            Field::RateReservedBit => 5,
            Field::CsdAgainstOcr => 6,
            Field::Voltage => 7,
            Field::ApplicationCommand => 8,
        }
    }
}

impl Cause {
    pub fn field(self) -> Field {
        match self {
            Cause::Disagreement { .. } => Field::CsdAgainstOcr,
            Cause::Version => Field::CsdVersion,
            Cause::BlockLength { .. } => Field::BlockLength,
            // Of several broken rules the first of this order is told.
            Cause::Rate { reserved: true, .. } => Field::RateReservedBit,
            Cause::Rate { unit: true, .. } => Field::RateUnit,
            Cause::Rate { .. } => Field::RateValue,
            Cause::Voltage => Field::Voltage,
            Cause::NotTaken { .. } => Field::ApplicationCommand,
        }
    }

    /// Request P6: the Rust does not look at the block length of a CSD of version 1,
    /// and goes on.
    pub fn beyond_the_rust(self) -> bool {
        matches!(self, Cause::BlockLength { version: 1, .. })
    }
}
