//! The plain numbers of an SD card host, for firmware: clock setting, capacity, transfer rate and block address.
//!
//! Each function calls one of the four C functions of `include/boresacu.h`, whose bodies are proved, and takes its
//! packed result apart into the types that the driver had before. Every input has an answer; nothing here panics.
#![no_std]

extern "C" {
    fn boresacu_clock_setting(source: u32, requested: u32, allow_bypass: u32) -> u64;
    fn boresacu_block_count(csd_high: u64, csd_low: u64) -> u64;
    fn boresacu_transfer_rate(encoded: u32) -> u64;
    fn boresacu_block_address(high_capacity: u32, block_count: u64, index: u32, count: u64) -> u64;
}

/// A frequency in hertz.
#[derive(Clone, Copy, Debug, PartialEq, Eq, PartialOrd, Ord)]
pub struct Hertz(pub u32);

/// What made a card unsupported, with the number that stands for it. The functions of this crate give the first five; the
/// others come up in the driver, while a card is initialised or its status read.
#[derive(Clone, Copy, Debug, PartialEq, Eq)]
#[repr(u8)]
pub enum Field {
    /// The CSD's structure, its bits 127 to 126.
    CsdVersion = 1,
    /// READ_BL_LEN, bits 83 to 80 of the CSD.
    BlockLength = 2,
    /// TRAN_SPEED, its bits 2 to 0.
    RateUnit = 3,
    /// TRAN_SPEED, its bits 6 to 3.
    RateValue = 4,
    /// TRAN_SPEED, its bit 7.
    RateReservedBit = 5,
    /// CSD and OCR disagree about the card's capacity class.
    CsdAndOcr = 6,
    /// Card and host have no voltage in common.
    Voltage = 7,
    /// The card did not take an application command.
    AppCommand = 8,
}

impl Field {
    /// 1 to 8, the F of a line `answer 13 field F`.
    pub const fn number(self) -> u8 {
        self as u8
    }
}

/// Why the card host refuses. The functions of this crate give `UnsupportedCardType`, `BadClock`, `InvalidBufferLength`
/// and `AddressOutOfRange`; the others are the host's.
#[derive(Clone, Copy, Debug, PartialEq, Eq)]
pub enum Error {
    Timeout,
    SoftwareTimeout,
    Crc,
    StBitErr,
    Overrun,
    Underrun,
    Dma,
    IncompleteTransfer,
    ResponseMismatch,
    CardStatus(u32),
    CardLocked,
    UnsupportedCardVersion,
    UnsupportedCardType(Field),
    UnsupportedBusWidth,
    SignalingSwitchFailed,
    NoCard,
    BadClock,
    InvalidConfig,
    InvalidBufferLength,
    AddressOutOfRange,
    /// A write to a card that is protected against writing, by bit 13 or bit 12 of its CSD. The driver did not have it.
    WriteProtected,
}

/// How a card is addressed: SDSC by byte, SDHC and SDXC by block.
#[allow(clippy::upper_case_acronyms)]
#[derive(Clone, Copy, Debug, PartialEq, Eq)]
pub enum CardCapacity {
    SDSC,
    SDHC,
}

/// A setting of the clock register, and the frequency that comes of it.
#[derive(Clone, Copy, Debug, PartialEq, Eq)]
pub struct Clock {
    /// The register's divisor field: two less than the divisor.
    pub divisor: u8,
    /// Whether the source is handed through undivided.
    pub bypass: bool,
    pub frequency: Hertz,
}

/// The setting that comes nearest to the requested hertz without passing it.
pub fn clock_setting(source: Hertz, requested: u32, allow_bypass: bool) -> Result<Clock, Error> {
    // SAFETY: the function is defined for every value of its arguments and touches no memory of ours.
    let result = unsafe { boresacu_clock_setting(source.0, requested, u32::from(allow_bypass)) };
    let value = accepted(result)?;
    Ok(Clock {
        divisor: (value >> 32) as u8,
        bypass: value >> 40 & 1 == 1,
        frequency: Hertz(value as u32),
    })
}

/// The blocks of 512 bytes of a card with this CSD register. The version is at fault where it is neither 0 nor 1, and the
/// block length where it is not 9, 10 or 11 in version 0, or not 9 in version 1.
pub fn block_count(csd: u128) -> Result<u64, Error> {
    // SAFETY: the function is defined for every value of its arguments and touches no memory of ours.
    let result = unsafe { boresacu_block_count((csd >> 64) as u64, csd as u64) };
    accepted(result)
}

/// The bits a second that a card names in TRAN_SPEED, bits 103 to 96 of its CSD. Where several of its fields are at fault
/// one is told: the reserved bit before the unit, the unit before the value.
pub fn transfer_rate(encoded: u8) -> Result<u32, Error> {
    // SAFETY: the function is defined for every value of its argument and touches no memory of ours.
    let result = unsafe { boresacu_transfer_rate(u32::from(encoded)) };
    // at most 800,000,000
    accepted(result).map(|rate| rate as u32)
}

/// The argument of a read of `count` blocks from `index` on, of a card with `block_count` blocks.
pub fn block_address(
    card_type: CardCapacity,
    block_count: u64,
    index: u32,
    count: usize,
) -> Result<u32, Error> {
    let high_capacity = u32::from(card_type == CardCapacity::SDHC);
    // SAFETY: the function is defined for every value of its arguments and touches no memory of ours.
    let result = unsafe { boresacu_block_address(high_capacity, block_count, index, count as u64) };
    // the address of a block is below 2^32
    accepted(result).map(|address| address as u32)
}

/// A result's value, or why there is none. The top byte has the number of the answer, and the rest its value, or the field
/// that made a card unsupported.
fn accepted(result: u64) -> Result<u64, Error> {
    match result >> 56 {
        0 => Ok(result),
        17 => Err(Error::BadClock),
        19 => Err(Error::InvalidBufferLength),
        20 => Err(Error::AddressOutOfRange),
        // 13: the four functions give no other number
        _ => Err(Error::UnsupportedCardType(field(result))),
    }
}

/// The field in the low seven bytes of a result.
fn field(result: u64) -> Field {
    match result & 0xff_ffff_ffff_ffff {
        1 => Field::CsdVersion,
        2 => Field::BlockLength,
        3 => Field::RateUnit,
        4 => Field::RateValue,
        5 => Field::RateReservedBit,
        6 => Field::CsdAndOcr,
        7 => Field::Voltage,
        // 8: the four functions give no number over 5, and a wrong one is not to look like one of those
        _ => Field::AppCommand,
    }
}
