//! Inputs for the plain functions: every rate byte, every pattern of the tested
//! status bits, boundaries, and random ones such that every class of answer
//! comes often.

use oracle_driver::host::Leaves;
use oracle_paper as paper;

use crate::rng::Rng;

#[derive(Clone, Copy, Debug)]
pub enum Leaf {
    Clock {
        source: u32,
        requested: u32,
        bypass: bool,
    },
    Count {
        high: u64,
        low: u64,
    },
    Rate {
        byte: u8,
    },
    Address {
        high_capacity: bool,
        blocks: u64,
        index: u32,
        count: u32,
    },
    Data {
        status: u32,
    },
}

impl Leaf {
    pub fn answer<L: Leaves>(self) -> u64 {
        match self {
            Leaf::Clock {
                source,
                requested,
                bypass,
            } => L::clock(source, requested, bypass),
            Leaf::Count { high, low } => L::count(high, low),
            Leaf::Rate { byte } => L::rate(byte),
            Leaf::Address {
                high_capacity,
                blocks,
                index,
                count,
            } => L::address(high_capacity, blocks, index, count as usize),
            Leaf::Data { status } => L::data_error(status).into(),
        }
    }

    /// Whether the Rust is not asked about this input.
    pub fn beyond_the_rust(self) -> bool {
        matches!(self, Leaf::Count { high, low } if paper::Leaves::beyond_the_rust(high, low))
    }

    /// The line of a call and its result.
    pub fn line<L: Leaves>(self) -> String {
        let result = self.answer::<L>();
        match self {
            Leaf::Clock {
                source,
                requested,
                bypass,
            } => format!("clock {source} {requested} {} {result}", u8::from(bypass)),
            Leaf::Count { high, low } => format!("count {high} {low} {result}"),
            Leaf::Rate { byte } => format!("rate {byte} {result}"),
            Leaf::Address {
                high_capacity,
                blocks,
                index,
                count,
            } => format!("address {} {blocks} {index} {count} {result}", u8::from(high_capacity)),
            Leaf::Data { status } => format!("data {status} {result}"),
        }
    }
}

/// All inputs: the fixed ones, then so many random ones of each kind but rate.
pub fn each(seed: u64, count: u64, mut emit: impl FnMut(Leaf)) {
    fixed(&mut emit);
    let mut rng = Rng::nth(seed, 0);
    for _ in 0..count {
        emit(clock(&mut rng));
        emit(block_count(&mut rng));
        emit(address(&mut rng));
        emit(data(&mut rng));
    }
}

/// Rates of more than a byte: every byte below each single bit that a byte has not,
/// the numbers at both ends, then so many random ones.
pub fn each_wide_rate(seed: u64, count: u64, mut emit: impl FnMut(u32)) {
    for bit in 8..32 {
        (0..=255).for_each(|byte| emit(1 << bit | byte));
    }
    emit(u32::MAX - 1);
    emit(u32::MAX);
    let mut rng = Rng::nth(seed, 0);
    for _ in 0..count {
        emit(rng.spread() | 1 << rng.between(8, 31));
    }
}

const FREQUENCIES: [u32; 30] = [
    0,
    1,
    2,
    3,
    256,
    257,
    258,
    514,
    399_999,
    400_000,
    400_001,
    8_000_000,
    12_500_000,
    24_999_999,
    25_000_000,
    25_000_001,
    50_000_000,
    50_000_001,
    79_999_999,
    80_000_000,
    80_000_001,
    102_799_999,
    102_800_000,
    102_800_001,
    144_000_000,
    160_000_000,
    160_000_001,
    u32::MAX / 2,
    u32::MAX - 1,
    u32::MAX,
];

fn fixed(emit: &mut impl FnMut(Leaf)) {
    for byte in 0..=255 {
        emit(Leaf::Rate { byte });
    }
    for source in FREQUENCIES {
        for requested in FREQUENCIES {
            for bypass in [false, true] {
                emit(Leaf::Clock {
                    source,
                    requested,
                    bypass,
                });
            }
        }
    }
    for version in 0..4 {
        for length in 0..16 {
            for multiplier in 0..8 {
                for size in [0, 1, 2, 3, 4, 0x3ff, 0x400, 0xffe, 0xfff] {
                    emit(csd(version << 126 | length << 80 | size << 62 | multiplier << 47));
                }
            }
        }
    }
    for version in 0..4 {
        for length in 0..16 {
            emit(csd(version << 126 | length << 80));
            emit(csd(version << 126 | length << 80 | 0x3f_ffff << 48));
        }
    }
    for size in (0..22)
        .flat_map(|bit| [1 << bit, (1 << bit) - 1])
        .chain([0x3f_ffff, 0x3f_fffe])
    {
        emit(csd(1 << 126 | 9 << 80 | size << 48));
    }
    for status in 0..1024 {
        emit(Leaf::Data { status });
    }
    for pattern in 0..32 {
        let tested = [0x8, 0x2, 0x20, 0x10, 0x200];
        let set = (0..5).filter(|bit| pattern >> bit & 1 == 1).map(|bit| tested[bit]);
        let status = set.fold(!0x23au32, |status, bit| status | bit);
        emit(Leaf::Data { status });
    }
    addresses(emit);
}

fn addresses(emit: &mut impl FnMut(Leaf)) {
    let totals = [
        0,
        1,
        2,
        4,
        510,
        511,
        512,
        1_024,
        8_388_607,
        8_388_608,
        8_388_609,
        1 << 32,
        (1 << 32) + 1,
        1 << 33,
        u64::MAX,
    ];
    for blocks in totals {
        for count in [0, 1, 2, 16, 510, 511, 512, 513, 65_536, u32::MAX] {
            let last = blocks.saturating_sub(u64::from(count));
            let indices = [
                0,
                1,
                last.saturating_sub(1),
                last,
                last.saturating_add(1),
                8_388_607,
                8_388_608,
                u64::from(u32::MAX) - 1,
                u64::from(u32::MAX),
            ];
            for index in indices {
                for high_capacity in [false, true] {
                    emit(Leaf::Address {
                        high_capacity,
                        blocks,
                        index: index as u32,
                        count,
                    });
                }
            }
        }
    }
}

fn csd(bits: u128) -> Leaf {
    Leaf::Count {
        high: (bits >> 64) as u64,
        low: bits as u64,
    }
}

fn clock(rng: &mut Rng) -> Leaf {
    let near = |rng: &mut Rng, value: u64| (value + rng.below(3)).saturating_sub(1).min(u32::MAX.into()) as u32;
    let (source, requested) = match rng.below(8) {
        0 => (rng.word(), rng.word()),
        1 => (rng.spread(), rng.spread()),
        2 => (rng.pick(&FREQUENCIES), rng.word() % 81_000_000),
        3 => (rng.spread(), rng.pick(&FREQUENCIES)),
        // Around a multiple of the request, above all the 257-fold.
        4 | 5 => {
            let requested = rng.between(1, 16_000_000);
            let times = rng.pick(&[1, 2, 3, 256, 257, 258]);
            (near(rng, requested * times), requested as u32)
        }
        6 => {
            let requested = rng.between(1, 80_000_000);
            let times = rng.between(1, 300);
            (near(rng, requested * times), requested as u32)
        }
        _ => {
            let source = rng.between(1, 102_800_000);
            let parts = rng.between(1, 300);
            (source as u32, near(rng, source / parts))
        }
    };
    Leaf::Clock {
        source,
        requested,
        bypass: rng.one_in(2),
    }
}

fn block_count(rng: &mut Rng) -> Leaf {
    let bits = rng.wide() & !(3 << 126 | 15 << 80);
    let version: u128 = rng.pick(&[0, 0, 0, 1, 1, 2, 3]);
    let length: u128 = match rng.below(3) {
        0 => rng.below(16).into(),
        // The one length with which version 1 has a count.
        1 if version == 1 => 9,
        _ => rng.between(8, 12).into(),
    };
    csd(bits | version << 126 | length << 80)
}

fn address(rng: &mut Rng) -> Leaf {
    let blocks = match rng.below(6) {
        0 => rng.draw() >> rng.below(64),
        1 | 2 => rng.between(1, 8_388_608),
        3 => rng.between(8_388_609, 1 << 25),
        _ => rng.between(1, 1 << 22) << 10,
    };
    let count = match rng.below(10) {
        0 => rng.pick(&[0, 512, 513, 65_536, u32::MAX]),
        1 | 2 => rng.between(1, 511) as u32,
        3 => rng.pick(&[510, 511]),
        _ => rng.between(1, 16) as u32,
    };
    let last = blocks.saturating_sub(u64::from(count));
    let index = match rng.below(4) {
        0 => rng.word(),
        1 => last.saturating_add(rng.below(4)).saturating_sub(2) as u32,
        _ => rng.below(last.min(u32::MAX.into()) + 1) as u32,
    };
    Leaf::Address {
        high_capacity: rng.one_in(2),
        blocks,
        index,
        count,
    }
}

fn data(rng: &mut Rng) -> Leaf {
    Leaf::Data {
        status: match rng.below(3) {
            0 => rng.word(),
            1 => rng.word() & !0x23a | rng.bit_of(0x23a),
            _ => rng.word() & !0x23a | rng.word() & rng.word() & 0x23a,
        },
    }
}
