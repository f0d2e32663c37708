//! Damage to a finished script and to a finished book.

use oracle_bench_book::book;

use crate::rng::Rng;

/// Words that mean something at most places.
const TELLING: [u32; 22] = [
    0,
    1,
    2,
    4,
    8,
    0x10,
    0x20,
    0x40,
    0x41,
    0x80,
    0x100,
    0x200,
    0x800,
    0x900,
    0x1000,
    0x2000,
    0x3800,
    0x1aa,
    0x0040_0000,
    0x4000_0000,
    0x8000_0000,
    u32::MAX,
];

/// One to three faults: bits turned, words dropped, inserted, doubled,
/// exchanged or replaced, the end cut off.
pub fn script(words: &mut Vec<u32>, rng: &mut Rng) {
    for _ in 0..rng.pick(&[1, 1, 1, 2, 3]) {
        if words.is_empty() {
            words.push(rng.pick(&TELLING));
            continue;
        }
        let (at, other) = (rng.index(words.len()), rng.index(words.len()));
        match rng.below(9) {
            0 | 1 => words[at] ^= rng.bit_of(!0),
            2 => {
                words.remove(at);
            }
            3 => words.insert(at, rng.word()),
            4 => words.insert(at, words[at]),
            5 => words.swap(at, other),
            6 => words[at] = rng.pick(&TELLING),
            7 => words[at] = rng.word(),
            _ => words.truncate(at),
        }
    }
}

/// Unused words after the script, which are allowed.
pub fn tail(words: &mut Vec<u32>, rng: &mut Rng) {
    for _ in 0..rng.between(1, 12) {
        words.push(rng.pick(&TELLING) ^ rng.noise());
    }
}

/// A book that gets 23, from one that does not. Some changes can miss; the
/// oracle then judges the book like any other.
pub fn bad_book(words: &[u32], rng: &mut Rng) -> Vec<u8> {
    let mut words = words.to_vec();
    let calls = words[6] as usize;
    let entry = book::HEAD + book::ENTRY * rng.index(calls);
    match rng.below(20) {
        0 => return rough(&words, rng),
        1 => words.truncate(rng.index(book::HEAD + book::ENTRY * calls)),
        2 => words[5] = rng.pick(&[4, 5, 8, 256, 1 << 31, u32::MAX]),
        3 => words[2] = rng.pick(&[65_536, 65_537, 1 << 31, u32::MAX]),
        4 => words[6] = rng.pick(&[0, 65, 66, 1 << 30, u32::MAX]),
        5 => words[6] = (calls as u32).wrapping_add(rng.pick(&[1, u32::MAX])),
        6 => words[entry] = rng.pick(&[0, 5, 6, 257, 260, u32::MAX]),
        7 => (words[entry], words[entry + 2]) = (1, rng.spread().max(1)),
        8 => (words[entry], words[entry + 1], words[entry + 2]) = (3, rng.spread().max(1), 0),
        9 => (words[entry], words[entry + 1], words[entry + 2]) = (3, 0, rng.spread().max(1)),
        10 => (words[entry], words[entry + 2]) = (2, rng.pick(&[17, 18, 256, 272, u32::MAX])),
        11 => words[entry + 3] = words[entry + 3].wrapping_add(rng.pick(&[1, 2, u32::MAX, 1 << 31])),
        12 => words.push(rng.word()),
        13 => {
            words.pop();
        }
        14 => two_lengths_that_wrap(&mut words, rng),
        15 => too_many_to_write(&mut words, entry, rng),
        // A write with one block more than its body, which may be another call's, has words for.
        16 => (words[entry], words[entry + 2]) = (4, words[entry + 3] / 128 + 1),
        17 | 18 => short_of_data(&mut words, rng),
        _ => too_long(&mut words, rng),
    }
    book::bytes(&words)
}

/// Bytes that are no whole words.
fn rough(words: &[u32], rng: &mut Rng) -> Vec<u8> {
    let mut bytes = book::bytes(words);
    match rng.below(3) {
        0 => bytes.push(0),
        1 => {
            bytes.pop();
        }
        _ => bytes.truncate(rng.index(30)),
    }
    bytes
}

/// Script lengths whose sum is right in 32 bits only.
fn two_lengths_that_wrap(words: &mut [u32], rng: &mut Rng) {
    let calls = words[6] as usize;
    let shift = rng.pick(&[1 << 31, 5, u32::MAX]);
    let (one, two) = (rng.index(calls), rng.index(calls));
    let place = |call: usize| book::HEAD + book::ENTRY * call + 3;
    words[place(one)] = words[place(one)].wrapping_add(shift);
    words[place(two)] = words[place(two)].wrapping_sub(shift);
    if one == two {
        words[place(one)] = words[place(one)].wrapping_add(1 << 31);
    }
}

/// A write of over 16 blocks, mostly with all its data: then the last call.
fn too_many_to_write(words: &mut Vec<u32>, entry: usize, rng: &mut Rng) {
    if rng.one_in(4) {
        (words[entry], words[entry + 2]) = (4, rng.pick(&[17, 18, 256, 272, u32::MAX]));
        return;
    }
    let last = book::HEAD + book::ENTRY * (words[6] as usize - 1);
    let start = words.len() - words[last + 3] as usize;
    let blocks = rng.pick(&[17, 17, 18]);
    let length = 128 * blocks + rng.pick(&[0, 0, 1, 9]);
    words.resize_with(start + length, || rng.word());
    (words[last], words[last + 2], words[last + 3]) = (4, blocks as u32, length as u32);
}

/// The last call is a write whose body ends within its data, or before it.
fn short_of_data(words: &mut Vec<u32>, rng: &mut Rng) {
    let calls = words[6] as usize;
    let entry = book::HEAD + book::ENTRY * (calls - 1);
    let body = words[entry + 3] as usize;
    let start = words.len() - body;
    let most = ((book::MOST_WORDS - start) / 128).min(4);
    let blocks = rng.between(1, most.max(1) as u64) as usize;
    let length = match rng.below(4) {
        0 | 1 => 128 * blocks - 1,
        2 => rng.index(128 * blocks),
        _ => 0,
    };
    words.resize_with(start + length, || rng.word());
    (words[entry], words[entry + 2], words[entry + 3]) = (4, blocks as u32, length as u32);
}

/// Over 4,096 words, and sound but for that.
fn too_long(words: &mut Vec<u32>, rng: &mut Rng) {
    let last = book::HEAD + book::ENTRY * (words[6] as usize - 1) + 3;
    let more = book::MOST_WORDS + rng.pick(&[1, 1, 2, 100]) - words.len();
    words[last] += more as u32;
    words.resize(words.len() + more, 0);
}
