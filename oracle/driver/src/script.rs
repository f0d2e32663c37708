//! Scripts of a good card, written out: every wait but those that are asked for ends at its first reading. And the rows that
//! more than one place looks for.

/// The rows that reset the controller, in their order.
pub const RESET: [(u32, u32); 10] = [
    (9, 0),
    (10, 0),
    (7, 0),
    (4, 0),
    (1, 0),
    (2, 0),
    (3, 0),
    (5, 0),
    (6, 0),
    (8, 0x00c0_07ff),
];

/// A command that is idle and complete at once, with its echo and first word.
pub fn short(index: u32, word: u32) -> Vec<u32> {
    vec![0, 0x40, index, word, 0, 0, 0]
}

/// The same without an echo: R2 and R3.
pub fn long(words: [u32; 4]) -> Vec<u32> {
    [vec![0, 0x40], words.to_vec()].concat()
}

/// The idle wait of a data phase, its command, the poll that completes and the words.
pub fn data(index: u32, words: &[u32]) -> Vec<u32> {
    [vec![0], short(index, 0), vec![0, 0, 0x100, 0, 0], words.to_vec()].concat()
}

/// The initialisation of a card of high capacity, version 0, which has both bus widths and no switch: its CSD's size field
/// says how many times 1,024 blocks there are, less one.
pub fn initialisation(size: u32) -> Vec<u32> {
    identified(size, 0x0000_0500)
}

/// The same of version 1, asked for over 25 MHz: the switch is there to give, and it is given.
pub fn switching(size: u32) -> Vec<u32> {
    let (mut check, mut switch) = ([0; 16], [0; 16]);
    check[3] = 0x0000_0200;
    switch[4] = 0x0000_0001;
    [
        identified(size, 0x0000_0501),
        data(6, &check),
        short(13, 0x900),
        data(6, &switch),
        short(13, 0x900),
        vec![0],
    ]
    .concat()
}

/// Up to the second clock, with the SCR's first word as it is sent.
fn identified(size: u32, scr: u32) -> Vec<u32> {
    [
        vec![0, 0, 0x80],
        short(8, 0x1aa),
        short(55, 0x20),
        long([0xc030_0000, 0, 0, 0]),
        long([1, 2, 3, 4]),
        short(3, 0x1234_0000),
        long([0x4000_0032, 0x0009_0000, size << 16, 0]),
        short(7, 0),
        short(13, 0x900),
        short(55, 0x20),
        data(51, &[scr, 0]),
        short(13, 0x900),
        short(55, 0x20),
        short(6, 0),
        vec![0],
    ]
    .concat()
}
