//! "Leaf rules", by bit positions and plain arithmetic.

use oracle_driver::host::{self, Protection};

use crate::judging::{allows, slips, Slip};
use crate::tape::{beyond_the_rust, refuse, unsupported, Step, Stop};
use crate::unsupported::Cause;

pub struct Clock {
    pub field: u32,
    pub bypass: bool,
    pub frequency: u32,
}

pub fn clock(source: u32, request: u32, bypass: bool) -> Step<Clock> {
    if source == 0 || request == 0 || request > 80_000_000 {
        return refuse(17);
    }
    if bypass && source <= request {
        return Ok(Clock {
            field: 0,
            bypass: true,
            frequency: source,
        });
    }
    // The least divisor from 2 to 257 with source at most divisor times request.
    let fits = |divisor: &u64| u64::from(source) <= divisor * u64::from(request);
    let Some(divisor) = (2..=257u64).find(fits) else {
        return refuse(17);
    };
    Ok(Clock {
        field: divisor as u32 - 2,
        bypass: false,
        frequency: (u64::from(source) / divisor) as u32,
    })
}

pub fn data_status(status: u32) -> Step<()> {
    let table = [(0x8, 1), (0x2, 3), (0x20, 5), (0x10, 6), (0x200, 4)];
    match table.iter().find(|(bit, _)| status & bit != 0) {
        Some((_, number)) => refuse(*number),
        None => Ok(()),
    }
}

/// The bits of a number from high to low, both included.
pub fn bits(number: u128, high: u32, low: u32) -> u64 {
    (number >> low) as u64 & ((1 << (high - low + 1)) - 1)
}

/// Version, block length, count, in this order.
pub fn capacity(csd: u128) -> Step<u64> {
    let (version, length) = (version(csd), block_length(csd));
    if version > 1 {
        return unsupported(Cause::Version);
    }
    if !allows(version, length) {
        let refused = unsupported(Cause::BlockLength { version, length });
        return match slips(Slip::AnotherNumber, &refused) {
            true => refuse(12),
            false => refused,
        };
    }
    Ok(match version {
        0 => (bits(csd, 73, 62) + 1) * (1 << (bits(csd, 49, 47) + 2 + length - 9)),
        _ => (bits(csd, 69, 48) + 1) * 1024,
    })
}

pub fn version(csd: u128) -> u64 {
    bits(csd, 127, 126)
}

pub fn block_length(csd: u128) -> u64 {
    bits(csd, 83, 80)
}

/// Request P8.
pub fn protection(csd: u128) -> Protection {
    Protection {
        permanent: bits(csd, 13, 13) == 1,
        temporary: bits(csd, 12, 12) == 1,
    }
}

pub fn rate(byte: u8) -> Step<u32> {
    let (unit, value) = (byte % 8, byte / 8 % 16);
    if byte >= 128 || unit > 3 || value == 0 {
        return unsupported(Cause::Rate {
            reserved: byte >= 128,
            unit: unit > 3,
            value: value == 0,
        });
    }
    let times = [0, 10, 12, 13, 15, 20, 25, 30, 35, 40, 45, 50, 55, 60, 70, 80];
    Ok(10_000 * 10u32.pow(unit.into()) * times[usize::from(value)])
}

/// The C function takes 32 bits. A number over 255 counts as one with its reserved
/// bit set, whatever its low byte says.
fn wide_rate(number: u32) -> Step<u32> {
    match u8::try_from(number) {
        Ok(byte) => rate(byte),
        Err(_) => unsupported(Cause::Rate {
            reserved: true,
            unit: false,
            value: false,
        }),
    }
}

pub fn address(high_capacity: bool, blocks: u64, index: u32, count: usize) -> Step<u32> {
    if count == 0 || count > 511 {
        return refuse(19);
    }
    if u128::from(index) + count as u128 > u128::from(blocks) {
        return refuse(20);
    }
    let address = if high_capacity {
        u64::from(index)
    } else {
        512 * u64::from(index)
    };
    u32::try_from(address).or(refuse(20))
}

/// As the oracle packs them.
pub struct Leaves;

impl Leaves {
    /// The rate as the C function has it, packed likewise.
    pub fn wide_rate(number: u32) -> u64 {
        packed(wide_rate(number).map(u64::from))
    }

    /// Whether the Rust counts blocks where the documents refuse.
    pub fn beyond_the_rust(high: u64, low: u64) -> bool {
        beyond_the_rust(&capacity(joined(high, low))).is_some()
    }
}

fn joined(high: u64, low: u64) -> u128 {
    u128::from(high) << 64 | u128::from(low)
}

fn packed(result: Step<u64>) -> u64 {
    match result {
        Ok(value) => value,
        Err(Stop::Refused(refusal)) => u64::from(refusal.number()) << 56 | refusal.field().map_or(0, u64::from),
        Err(Stop::TraceFull) => unreachable!("a leaf writes no row"),
    }
}

impl host::Leaves for Leaves {
    fn clock(source: u32, requested: u32, bypass: bool) -> u64 {
        packed(
            clock(source, requested, bypass)
                .map(|clock| u64::from(clock.bypass) << 40 | u64::from(clock.field) << 32 | u64::from(clock.frequency)),
        )
    }

    fn count(high: u64, low: u64) -> u64 {
        packed(capacity(joined(high, low)))
    }

    fn rate(byte: u8) -> u64 {
        packed(rate(byte).map(u64::from))
    }

    fn address(high_capacity: bool, blocks: u64, index: u32, count: usize) -> u64 {
        packed(address(high_capacity, blocks, index, count).map(u64::from))
    }

    fn data_error(status: u32) -> u8 {
        match data_status(status) {
            Err(Stop::Refused(refusal)) => refusal.number(),
            _ => 0,
        }
    }

    fn size(blocks: u64) -> u64 {
        512 * blocks
    }
}
