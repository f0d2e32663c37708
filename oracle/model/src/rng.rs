//! A small generator (splitmix64): the same numbers everywhere for a seed.

#[derive(Clone, Debug)]
pub struct Rng(u64);

impl Rng {
    pub fn new(seed: u64) -> Self {
        Self(seed)
    }

    /// A generator of its own for the k-th of many things, so that each can be
    /// made again without the others.
    pub fn nth(seed: u64, k: u64) -> Self {
        let mut one = Self(seed);
        let mut two = Self(one.draw() ^ k.wrapping_mul(0xd134_2543_de82_ef95));
        Self(two.draw())
    }

    pub fn draw(&mut self) -> u64 {
        self.0 = self.0.wrapping_add(0x9e37_79b9_7f4a_7c15);
        let mut mixed = self.0;
        mixed = (mixed ^ mixed >> 30).wrapping_mul(0xbf58_476d_1ce4_e5b9);
        mixed = (mixed ^ mixed >> 27).wrapping_mul(0x94d0_49bb_1331_11eb);
        mixed ^ mixed >> 31
    }

    pub fn word(&mut self) -> u32 {
        (self.draw() >> 32) as u32
    }

    pub fn wide(&mut self) -> u128 {
        u128::from(self.draw()) << 64 | u128::from(self.draw())
    }

    /// A number below the bound, which is above 0.
    pub fn below(&mut self, bound: u64) -> u64 {
        self.draw() % bound
    }

    pub fn index(&mut self, length: usize) -> usize {
        self.below(length as u64) as usize
    }

    /// A number from low to high, both included.
    pub fn between(&mut self, low: u64, high: u64) -> u64 {
        low + self.below(high - low + 1)
    }

    /// True in one of so many cases.
    pub fn one_in(&mut self, cases: u64) -> bool {
        self.below(cases) == 0
    }

    pub fn pick<T: Copy>(&mut self, choices: &[T]) -> T {
        choices[self.index(choices.len())]
    }

    /// Bits of a word: none, few or many, so that both sides of every mask are
    /// met.
    pub fn noise(&mut self) -> u32 {
        match self.below(4) {
            0 | 1 => 0,
            2 => self.word() & self.word() & self.word(),
            _ => self.word(),
        }
    }

    /// One of the bits of a mask.
    pub fn bit_of(&mut self, mask: u32) -> u32 {
        let nth = self.below(mask.count_ones().into());
        let mut rest = mask;
        for _ in 0..nth {
            rest &= rest - 1;
        }
        rest & rest.wrapping_neg()
    }

    /// A number whose length in bits is evenly spread.
    pub fn spread(&mut self) -> u32 {
        let shift = self.below(32);
        self.word() >> shift
    }
}
