//! A card as it would answer by the SD specification, with noise wherever a
//! host must not look.

use std::collections::BTreeMap;

use crate::rng::Rng;

/// Bits of an R1 answer that are neither errors nor the lock.
const R1_FREE: u32 = 0x0000_1ff7;
const APP_TAKEN: u32 = 0x20;
const READY: u32 = 0x100;
const TRANSFER: u32 = 4 << 9;
const STATE: u32 = 15 << 9;
const RECEIVING: u32 = 6 << 9;
const PROGRAMMING: u32 = 7 << 9;

#[derive(Clone, Copy, Debug, Eq, PartialEq)]
pub enum Response {
    None,
    R1,
    R2,
    R3,
    R6,
    R7,
}

/// CMD24 and CMD25, which write blocks.
pub fn writes(index: u8) -> bool {
    matches!(index, 24 | 25)
}

/// The command that stands in CMD, with what went before it.
#[derive(Clone, Copy, Debug)]
pub struct Command {
    pub index: u8,
    pub argument: u32,
    /// Right after CMD55.
    pub app: bool,
    /// With a data phase.
    pub data: bool,
    pub response: Response,
}

/// What the controller gets from the card.
#[derive(Clone, Copy, Debug)]
pub enum Reply {
    Silent,
    Words([u32; 4]),
}

#[derive(Clone, Debug)]
pub struct Card {
    version2: bool,
    /// A version 1 card may call CMD8 illegal instead of being silent.
    illegal_cmd8: bool,
    ocr: u32,
    cid: u128,
    csd: u128,
    rca: u16,
    scr: u64,
    /// Switch status bytes, before and after the switch.
    check: [u8; 64],
    switch: [u8; 64],
    /// How often ACMD41 and CMD13 still answer busy.
    pub power_up_left: u32,
    pub not_ready_left: u32,
    /// Chooses the data words of a read, where none were written.
    pub contents: u64,
    /// The words that were written, by their place on the card.
    written: BTreeMap<u64, u32>,
    /// The last data came to the card, so it programs while it is not ready.
    programs: bool,
}

impl Card {
    pub fn any(rng: &mut Rng) -> Self {
        let high = rng.below(5) < 3;
        // A version 1 card of high capacity is no card that exists, but a host
        // can meet its answers.
        let version2 = if high { !rng.one_in(16) } else { rng.one_in(2) };
        let (check, switch) = switch_status(rng);
        Self {
            version2,
            illegal_cmd8: rng.one_in(3),
            ocr: voltage(rng) | rng.word() & 0x3fcf_ffff | u32::from(high) << 30,
            cid: rng.wide(),
            csd: if high { csd_high(rng) } else { csd_standard(rng) },
            rca: rng.between(1, 0xffff) as u16,
            scr: scr(rng),
            check,
            switch,
            power_up_left: 0,
            not_ready_left: 0,
            contents: rng.draw(),
            written: BTreeMap::new(),
            programs: false,
        }
    }

    pub fn reply(&mut self, command: Command, rng: &mut Rng) -> Reply {
        let free = rng.noise() & R1_FREE;
        self.programs = match command.index {
            12 | 13 => self.programs,
            index => writes(index),
        };
        let first = match (command.index, command.app) {
            (0, _) => return Reply::Silent,
            (8, _) if self.version2 => 0x1aa,
            // Illegal command; only the error bits of the answer count.
            (8, _) if self.illegal_cmd8 => 0x0040_0000 | rng.noise() & 0x0200_1ff7,
            (8, _) => return Reply::Silent,
            (41, true) => self.conditions(),
            (2, _) => return words(self.cid),
            (9, _) => return words(self.csd),
            (3, _) => u32::from(self.rca) << 16 | rng.noise() & 0x1fff,
            (55, _) => free | APP_TAKEN,
            (13, false) => self.status(free, rng),
            _ => free,
        };
        Reply::Words([first, rng.noise(), rng.noise(), rng.noise()])
    }

    fn conditions(&mut self) -> u32 {
        if self.power_up_left > 0 {
            self.power_up_left -= 1;
            return self.ocr & 0x7fff_ffff;
        }
        self.ocr | 1 << 31
    }

    fn status(&mut self, free: u32, rng: &mut Rng) -> u32 {
        let ready = free & !STATE | READY | TRANSFER;
        if self.not_ready_left == 0 {
            return ready;
        }
        self.not_ready_left -= 1;
        if self.programs && !rng.one_in(3) {
            return ready & !READY & !STATE | rng.pick(&[PROGRAMMING, PROGRAMMING, RECEIVING]);
        }
        let other = |rng: &mut Rng| ready & !STATE | rng.pick(&[0, 1, 2, 3, 5, 6, 7, 8, 12, 15]) << 9;
        match rng.below(3) {
            0 => ready & !READY,
            1 => other(rng),
            _ => other(rng) & !READY,
        }
    }

    /// The data words of a command, in the order sent.
    pub fn data_word(&self, command: Command, place: usize) -> u32 {
        let four = |bytes: &[u8; 64]| {
            let at = place % 16 * 4;
            u32::from_le_bytes([bytes[at], bytes[at + 1], bytes[at + 2], bytes[at + 3]])
        };
        match command.index {
            51 => ((self.scr >> (32 - 32 * (place % 2))) as u32).swap_bytes(),
            6 if command.argument >> 31 == 0 => four(&self.check),
            6 => four(&self.switch),
            _ => {
                let written = self.written.get(&self.word_at(command, place)).copied();
                let any = || Rng::nth(self.contents, (u64::from(command.argument) << 16) + place as u64).word();
                written.filter(|_| matches!(command.index, 17 | 18)).unwrap_or_else(any)
            }
        }
    }

    /// Of high capacity, so that its addresses count blocks and not bytes.
    pub fn high(&self) -> bool {
        self.ocr >> 30 & 1 == 1
    }

    /// Where on the card the word of a block command is.
    fn word_at(&self, command: Command, place: usize) -> u64 {
        let address = u64::from(command.argument);
        let block = if self.high() { address } else { address / 512 };
        128 * block + place as u64
    }

    /// A word of a write arrives, and is found there by later reads.
    pub fn receive(&mut self, command: Command, place: usize, word: u32) {
        self.written.insert(self.word_at(command, place), word);
    }

    /// Another card in the slot, or the same one in another mood.
    pub fn change_scr(&mut self, scr: u64) {
        self.scr = scr;
    }

    /// The same card, which may be protected otherwise. A host that has taken it is not
    /// told before it takes it again.
    pub fn change_protection(&mut self, rng: &mut Rng) {
        self.csd = self.csd & !PROTECTION | protection(rng);
    }
}

fn words(bits: u128) -> Reply {
    Reply::Words([96, 64, 32, 0].map(|shift| (bits >> shift) as u32))
}

/// One of the two voltage bits, or both.
fn voltage(rng: &mut Rng) -> u32 {
    rng.pick(&[0x0010_0000, 0x0020_0000, 0x0030_0000, 0x0030_0000])
}

fn rate(rng: &mut Rng) -> u128 {
    let byte = match rng.below(12) {
        0..=4 => 0x32,
        5..=7 => 0x5a,
        8..=10 => (rng.between(1, 15) << 3 | rng.below(4)) as u8,
        _ => rng.word() as u8,
    };
    u128::from(byte) << 96
}

/// Write protection, and noise outside the fields that count: it, version, rate, block
/// length and those of the size.
fn csd_noise(rng: &mut Rng, size: u128) -> u128 {
    rng.wide() & !(3 << 126 | 0xff << 96 | 15 << 80 | PROTECTION | size) | protection(rng)
}

/// Permanent and temporary write protection in a CSD.
const PROTECTION: u128 = 3 << 12;

/// Most cards can be written to; the others have one flag, the other, or both.
fn protection(rng: &mut Rng) -> u128 {
    match rng.below(16) {
        flags @ 1..=3 => u128::from(flags) << 12,
        _ => 0,
    }
}

fn csd_standard(rng: &mut Rng) -> u128 {
    let length = match rng.below(24) {
        0 => rng.below(16),
        _ => rng.between(9, 11),
    };
    let size = match rng.below(4) {
        0 => rng.pick(&[0, 1, 3, 4, 0x7ff, 0x800, 0xffe, 0xfff]),
        _ => rng.below(0x1000),
    };
    let version = match rng.below(48) {
        0 => rng.below(4),
        _ => 0,
    };
    csd_noise(rng, 0xfff << 62 | 7 << 47)
        | u128::from(version) << 126
        | rate(rng)
        | u128::from(length) << 80
        | u128::from(size) << 62
        | u128::from(rng.below(8)) << 47
}

fn csd_high(rng: &mut Rng) -> u128 {
    // Up to 0xffff the card counts as SDHC, above as SDXC.
    let size = match rng.below(8) {
        0 => rng.pick(&[0, 1, 0xffff, 0x1_0000, 0x3f_fffe, 0x3f_ffff]),
        1..=4 => rng.below(0x1_0000),
        _ => rng.below(0x40_0000),
    };
    let version = match rng.below(48) {
        0 => rng.below(4),
        _ => 1,
    };
    csd_noise(rng, 0x3f_ffff << 48)
        | u128::from(version) << 126
        | rate(rng)
        | u128::from(length_high(rng)) << 80
        | u128::from(size) << 48
}

/// SD has 9. Of the others those beside it are met most, and those that a card of
/// standard capacity may have.
fn length_high(rng: &mut Rng) -> u64 {
    match rng.below(40) {
        0 | 1 => rng.pick(&[10, 11]),
        2 => rng.pick(&[8, 12]),
        3 => other_length(rng),
        _ => 9,
    }
}

/// Any of the fifteen that are not 9.
pub fn other_length(rng: &mut Rng) -> u64 {
    rng.between(10, 24) % 16
}

pub fn scr(rng: &mut Rng) -> u64 {
    let version = match rng.below(8) {
        0 | 1 => 0,
        2..=5 => rng.between(1, 2),
        _ => rng.below(16),
    };
    let widths = match rng.below(24) {
        0 | 1 => 1,
        2 => 4,
        3 => rng.below(16),
        _ => 5,
    };
    rng.draw() & !(15 << 56 | 15 << 48) | version << 56 | widths << 48
}

/// Function group 1: byte 13 says which functions there are, byte 29 which are
/// busy, byte 16 which was chosen.
fn switch_status(rng: &mut Rng) -> ([u8; 64], [u8; 64]) {
    let mut check = std::array::from_fn(|_| rng.noise() as u8);
    let mut switch = std::array::from_fn(|_| rng.noise() as u8);
    check[13] = check[13] & !2 | if rng.one_in(8) { 0 } else { 2 };
    check[29] = check[29] & !2 | if rng.one_in(12) { 2 } else { 0 };
    if !rng.one_in(12) {
        switch[16] = switch[16] & 0xf0 | 1;
    }
    (check, switch)
}
