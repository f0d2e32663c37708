//! How the wrapper takes results apart, also those that the archive never gives. The four C functions are stand-ins here,
//! which make their result of their arguments, so nothing of the archive is linked.

use boresacu::Error::{AddressOutOfRange, BadClock, InvalidBufferLength, UnsupportedCardType};
use boresacu::Field::{self, *};
use boresacu::{block_address, block_count, clock_setting, transfer_rate};
use boresacu::{CardCapacity, Error, Hertz};

#[no_mangle]
extern "C" fn boresacu_block_count(csd_high: u64, _: u64) -> u64 {
    csd_high
}

#[no_mangle]
extern "C" fn boresacu_clock_setting(source: u32, _: u32, _: u32) -> u64 {
    u64::from(source) << 32
}

#[no_mangle]
extern "C" fn boresacu_transfer_rate(encoded: u32) -> u64 {
    13 << 56 | u64::from(encoded)
}

#[no_mangle]
extern "C" fn boresacu_block_address(_: u32, block_count: u64, _: u32, _: u64) -> u64 {
    block_count
}

const FIELDS: [Field; 8] = [
    CsdVersion,
    BlockLength,
    RateUnit,
    RateValue,
    RateReservedBit,
    CsdAndOcr,
    Voltage,
    AppCommand,
];

/// What the wrapper makes of this result.
fn of(result: u64) -> Result<u64, Error> {
    block_count(u128::from(result) << 64)
}

#[test]
fn fields_have_their_numbers() {
    for (number, field) in (1..).zip(FIELDS) {
        assert_eq!(field.number(), number);
        let due = Err(UnsupportedCardType(field));
        assert_eq!(of(13 << 56 | u64::from(number)), due);
        assert_eq!(transfer_rate(number).map(u64::from), due);
    }
}

/// A number that is no field is told as the last, and not as one of those that the four functions give; the lowest byte
/// alone is not enough to be a field.
#[test]
fn other_numbers_are_no_other_field() {
    for number in [0, 9, 255, 256, 0x103, 1 << 32 | 5, 5 << 48, (1 << 56) - 1] {
        let due = Err(UnsupportedCardType(AppCommand));
        assert_eq!(of(13 << 56 | number), due, "{number:#x}");
    }
}

#[test]
fn other_answers_have_no_field() {
    for low in 0..=9 {
        assert_eq!(of(low), Ok(low));
        assert_eq!(of(17 << 56 | low), Err(BadClock));
        assert_eq!(of(19 << 56 | low), Err(InvalidBufferLength));
        assert_eq!(of(20 << 56 | low), Err(AddressOutOfRange));
    }
}

#[test]
fn each_function_takes_its_own_result_apart() {
    let clock = clock_setting(Hertz(0x107), 0, false).unwrap();
    assert_eq!((clock.divisor, clock.bypass), (7, true));
    let refused = clock_setting(Hertz(17 << 24), 0, false);
    assert_eq!(refused, Err(BadClock));
    let address = |result| block_address(CardCapacity::SDSC, result, 0, 0);
    assert_eq!(address(512), Ok(512));
    assert_eq!(address(20 << 56), Err(AddressOutOfRange));
}
