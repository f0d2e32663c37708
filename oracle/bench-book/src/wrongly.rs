//! What the wrong judges of a book make of its writes. With no switch on, none of this changes anything.

use oracle_driver::wrong;

use crate::book::BLOCK;

/// Whether a write of so few blocks is none.
pub fn refuses(blocks: u32) -> bool {
    blocks == 0 && wrong::is(wrong::BOOK_WITHOUT_BLOCKS_REFUSED)
}

/// Whether a write of so many blocks is one.
pub fn takes(blocks: u32) -> bool {
    blocks == 17 && wrong::is(wrong::BOOK_OF_17_BLOCKS)
}

/// Words of a write's body that its row is not to count.
pub fn uncounted(blocks: usize) -> usize {
    match wrong::is(wrong::BOOK_COUNTS_SCRIPT) {
        true => BLOCK * blocks,
        false => 0,
    }
}

/// The data and the script of a write's body, if they are not to be found in the right way.
pub fn split(body: &[u32], blocks: usize) -> Option<(Vec<u32>, &[u32])> {
    let length = BLOCK * blocks;
    if wrong::is(wrong::BOOK_DATA_BEHIND) {
        let (script, data) = body.split_at(body.len().checked_sub(length)?);
        return Some((data.to_vec(), script));
    }
    if wrong::is(wrong::BOOK_DATA_FILLED_UP) && body.len() < length {
        let mut data = body.to_vec();
        data.resize(length, 0);
        return Some((data, &[]));
    }
    None
}
