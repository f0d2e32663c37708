//! Document 01's cases K1 to K10 and document 02's fields at answer 13 (P4), through the wrapper and the linked archive.

use boresacu::CardCapacity::{SDHC, SDSC};
use boresacu::Error::{AddressOutOfRange, BadClock, InvalidBufferLength, UnsupportedCardType};
use boresacu::Field::{BlockLength, CsdVersion, RateReservedBit, RateUnit, RateValue};
use boresacu::{block_address, block_count, clock_setting, transfer_rate, Error, Hertz};

extern "C" {
    fn boresacu_transfer_rate(encoded: u32) -> u64;
}

/// Divisor field, bypass, and frequency.
fn clock(source: u32, requested: u32, allow_bypass: bool) -> Result<(u8, bool, u32), Error> {
    let clock = clock_setting(Hertz(source), requested, allow_bypass)?;
    Ok((clock.divisor, clock.bypass, clock.frequency.0))
}

/// A CSD of version 0.
fn csd_0(block_length: u128, size: u128, multiplier: u128) -> u128 {
    block_length << 80 | size << 62 | multiplier << 47
}

/// A CSD of version 1.
fn csd_1(block_length: u128, size: u128) -> u128 {
    1 << 126 | block_length << 80 | size << 48
}

#[test]
fn k1_slowest_clock() {
    assert_eq!(
        clock(102_800_000, 400_000, false),
        Ok((255, false, 400_000))
    );
    assert_eq!(clock(102_800_001, 400_000, false), Err(BadClock));
}

#[test]
fn k2_clock_rounded_down() {
    assert_eq!(
        clock(144_000_000, 25_000_000, false),
        Ok((4, false, 24_000_000))
    );
}

#[test]
fn k3_source_of_one_hertz() {
    assert_eq!(clock(1, 400_000, false), Ok((0, false, 0)));
}

#[test]
fn k4_bypass() {
    assert_eq!(
        clock(25_000_000, 25_000_000, false),
        Ok((0, false, 12_500_000))
    );
    assert_eq!(
        clock(25_000_000, 25_000_000, true),
        Ok((0, true, 25_000_000))
    );
}

#[test]
fn k5_capacity_version_0() {
    assert_eq!(block_count(csd_0(9, 0, 0)), Ok(4));
    assert_eq!(block_count(csd_0(11, 4095, 7)), Ok(8_388_608));
    for length in [8, 12] {
        let refused = Err(UnsupportedCardType(BlockLength));
        assert_eq!(block_count(csd_0(length, 0, 0)), refused);
    }
}

#[test]
fn k6_capacity_version_1() {
    assert_eq!(block_count(csd_1(9, 0)), Ok(1_024));
    assert_eq!(block_count(csd_1(9, 0x3f_ffff)), Ok(4_294_967_296));
}

/// SD has no other block length there (document 02, P6).
#[test]
fn bargain_cards_of_version_1() {
    for length in [8, 10, 11] {
        let refused = Err(UnsupportedCardType(BlockLength));
        assert_eq!(block_count(csd_1(length, 0)), refused);
    }
}

#[test]
fn k7_transfer_rate() {
    assert_eq!(transfer_rate(0x32), Ok(25_000_000));
    assert_eq!(transfer_rate(0x5a), Ok(50_000_000));
    for (encoded, field) in [(0x02, RateValue), (0xb2, RateReservedBit), (0x34, RateUnit)] {
        assert_eq!(transfer_rate(encoded), Err(UnsupportedCardType(field)));
    }
}

#[test]
fn k8_last_block_of_sdsc() {
    assert_eq!(
        block_address(SDSC, 8_388_608, 8_388_607, 1),
        Ok(4_294_966_784)
    );
    assert_eq!(
        block_address(SDSC, 8_388_608, 8_388_607, 2),
        Err(AddressOutOfRange)
    );
}

#[test]
fn k9_last_block_of_sdhc() {
    let last = u32::MAX;
    assert_eq!(block_address(SDHC, 4_294_967_296, last, 1), Ok(last));
}

#[test]
fn k10_blocks_of_one_read() {
    for card_type in [SDSC, SDHC] {
        assert_eq!(block_address(card_type, 1_024, 0, 511), Ok(0));
        assert_eq!(
            block_address(card_type, 1_024, 0, 512),
            Err(InvalidBufferLength)
        );
        assert_eq!(
            block_address(card_type, 1_024, 0, 0),
            Err(InvalidBufferLength)
        );
    }
}

/// For each unit, from 0 to 7, of a byte with these upper five bits: a rate ('.'), or which field is told: the unit ('u'),
/// the value ('v') or the reserved bit ('b').
fn told(upper: u8) -> &'static [u8; 8] {
    match upper {
        0 => b"vvvvuuuu",
        1..=15 => b"....uuuu",
        _ => b"bbbbbbbb",
    }
}

#[test]
fn every_rate_byte() {
    let units = [10_000, 100_000, 1_000_000, 10_000_000];
    let tenths = [
        0, 10, 12, 13, 15, 20, 25, 30, 35, 40, 45, 50, 55, 60, 70, 80,
    ];
    for encoded in 0..=255 {
        let (upper, unit) = (encoded / 8, usize::from(encoded % 8));
        let due = match told(upper)[unit] {
            b'u' => Err(UnsupportedCardType(RateUnit)),
            b'v' => Err(UnsupportedCardType(RateValue)),
            b'b' => Err(UnsupportedCardType(RateReservedBit)),
            _ => Ok(units[unit] * tenths[usize::from(upper)]),
        };
        assert_eq!(transfer_rate(encoded), due, "byte {encoded:#x}");
    }
}

/// The wrapper takes a byte and cannot hand over more, so this is the C function itself.
#[test]
fn rates_over_255() {
    for bit in 8..32 {
        for byte in 0..=255 {
            // SAFETY: the function is defined for every value of its argument and touches no memory of ours.
            let result = unsafe { boresacu_transfer_rate(1 << bit | byte) };
            assert_eq!(result, 13 << 56 | 5, "byte {byte:#x} below bit {bit}");
        }
    }
    // SAFETY: as above.
    assert_eq!(unsafe { boresacu_transfer_rate(u32::MAX) }, 13 << 56 | 5);
}

#[test]
fn every_csd_version_and_block_length() {
    for (version, length) in (0..64).map(|n| (n / 16, n % 16)) {
        let due = match (version, length) {
            (0, 9..=11) | (1, 9) => None,
            (0 | 1, _) => Some(UnsupportedCardType(BlockLength)),
            _ => Some(UnsupportedCardType(CsdVersion)),
        };
        for rest in [0, u128::MAX] {
            let csd = version << 126 | length << 80 | rest & !(3 << 126 | 15 << 80);
            assert_eq!(block_count(csd).err(), due, "CSD {csd:#034x}");
        }
    }
}
