//! Document 01's K cases through the Rust's own functions.

use oracle_driver::host::Leaves as _;
use oracle_driver::right::Leaves;

fn refused(number: u64) -> u64 {
    number << 56
}

fn clock(field: u64, frequency: u64) -> u64 {
    field << 32 | frequency
}

fn count(bits: u128) -> u64 {
    Leaves::count((bits >> 64) as u64, bits as u64)
}

#[test]
fn clocks() {
    // K1
    assert_eq!(Leaves::clock(102_800_000, 400_000, false), clock(255, 400_000));
    assert_eq!(Leaves::clock(102_800_001, 400_000, false), refused(17));
    // K2
    assert_eq!(Leaves::clock(144_000_000, 25_000_000, false), clock(4, 24_000_000));
    // K3
    assert_eq!(Leaves::clock(1, 400_000, false), clock(0, 0));
    // K4
    assert_eq!(Leaves::clock(25_000_000, 25_000_000, false), clock(0, 12_500_000));
    assert_eq!(Leaves::clock(25_000_000, 25_000_000, true), 1 << 40 | 25_000_000);
}

#[test]
fn capacities() {
    let standard = |length: u128, size: u128, multiplier: u128| count(length << 80 | size << 62 | multiplier << 47);
    // K5
    assert_eq!(standard(9, 0, 0), 4);
    assert_eq!(standard(11, 4_095, 7), 8_388_608);
    assert_eq!(standard(8, 0, 0), refused(13));
    assert_eq!(standard(12, 0, 0), refused(13));
    // K6
    assert_eq!(count(1 << 126 | 9 << 80), 1_024);
    assert_eq!(count(1 << 126 | 9 << 80 | 0x3f_ffff << 48), 4_294_967_296);
}

#[test]
fn a_capacity_that_request_p6_refuses() {
    // Version 1 with any block length but 9. The Rust does not look at it: a difference that is wanted.
    for length in 0..16 {
        assert_eq!(count(1 << 126 | length << 80), 1_024, "{length}");
    }
    assert_eq!(count(1 << 126 | 10 << 80 | 0x3f_ffff << 48), 4_294_967_296);
}

#[test]
fn rates() {
    // K7
    assert_eq!(Leaves::rate(0x32), 25_000_000);
    assert_eq!(Leaves::rate(0x5a), 50_000_000);
    for byte in [0x02, 0xb2, 0x34] {
        assert_eq!(Leaves::rate(byte), refused(13));
    }
}

#[test]
fn addresses() {
    // K8
    assert_eq!(Leaves::address(false, 8_388_608, 8_388_607, 1), 4_294_966_784);
    assert_eq!(Leaves::address(false, 8_388_608, 8_388_607, 2), refused(20));
    // K9
    assert_eq!(Leaves::address(true, 4_294_967_296, 4_294_967_295, 1), 4_294_967_295);
    // K10
    for high_capacity in [false, true] {
        assert_eq!(Leaves::address(high_capacity, 1_024, 0, 511), 0);
        assert_eq!(Leaves::address(high_capacity, 1_024, 0, 512), refused(19));
        assert_eq!(Leaves::address(high_capacity, 1_024, 0, 0), refused(19));
    }
}

#[test]
fn data_status() {
    // K11
    for (status, number) in [(0x23a, 1), (0x232, 3), (0x230, 5), (0x210, 6), (0x200, 4), (0, 0)] {
        assert_eq!(Leaves::data_error(status), number);
    }
}

#[test]
fn sizes() {
    assert_eq!(Leaves::size(4), 2_048);
    assert_eq!(Leaves::size(4_294_967_296), 2_199_023_255_552);
}
