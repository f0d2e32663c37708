//! What a write sends. Its DMA channel is set to the words before the command goes out; the controller asks for them once DCTRL
//! has data path and DMA on and the direction off. So the rows of the FIFO stand behind that row, and a command that is refused
//! leaves none.

use std::cell::Cell;

use super::{put, DCTRL, DELAY, FIFO};
use crate::wrong;

thread_local! {
    /// The words that the channel is set to, where they lie.
    static SET: Cell<Option<*const [u32]>> = const { Cell::new(None) };
}

/// Sets the channel to these words.
///
/// # Safety
/// They stay where they are until the channel is let go.
pub unsafe fn set(words: *const [u32]) {
    SET.set(Some(words));
    if wrong::is(wrong::FIFO_BEFORE_COMMAND) {
        send();
    }
}

/// The transfer is over, or was never begun.
pub fn let_go() {
    if wrong::is(wrong::FIFO_AFTER_REFUSAL) {
        send();
    }
    SET.set(None);
}

/// Whether this value of DCTRL makes the controller ask the channel for words.
pub(super) fn asks(dctrl: u32) -> bool {
    dctrl & 0xb == 0x9
}

pub(super) fn armed(dctrl: u32) {
    if wrong::is(wrong::FIFO_BEFORE_DCTRL) {
        send();
    }
    put(DCTRL, dctrl);
    if !wrong::is(wrong::FIFO_AFTER_POLLS) && !wrong::is(wrong::FIFO_AS_DMA_SAYS) {
        send();
    }
}

/// Each word is a row; a channel sends what it is set to once.
fn send() {
    let Some(words) = SET.take() else {
        return;
    };
    // SAFETY: the words are where they were set until the channel is let go, which sets it to none.
    let words = unsafe { &*words };
    match wrong::on() {
        true => wrongly(words),
        false => words.iter().for_each(|word| put(FIFO, *word)),
    }
}

/// What the wrong hosts send at a poll that completes.
pub fn completed() {
    if wrong::is(wrong::FIFO_AFTER_POLLS) {
        send();
    }
}

/// What the wrong hosts send when they see a DMA word.
pub fn remaining(dma: u32) {
    if !wrong::is(wrong::FIFO_AS_DMA_SAYS) {
        return;
    }
    if let Some(words) = SET.get() {
        let left = (dma as usize & 0xffff).min(words.len());
        SET.set(Some(std::ptr::slice_from_raw_parts(words.cast(), words.len() - left)));
        send();
    }
}

/// What the wrong hosts make of the words.
#[cold]
fn wrongly(words: &[u32]) {
    let all = words.len();
    let blocks = || words.chunks(128);
    let one_missing = |place: usize| [&words[..place], &words[place + 1..]].concat();
    let is = wrong::is;
    let sent: Vec<u32> = match () {
        () if is(wrong::FIFO_BIG_ENDIAN) => words.iter().map(|word| word.swap_bytes()).collect(),
        () if is(wrong::FIFO_HALVES_EXCHANGED) => words.iter().map(|word| word.rotate_left(16)).collect(),
        () if is(wrong::FIFO_BYTES) => words
            .iter()
            .flat_map(|word| word.to_le_bytes().map(u32::from))
            .collect(),
        () if is(wrong::FIFO_FIRST_MISSING) => one_missing(0),
        () if is(wrong::FIFO_LAST_MISSING) => one_missing(all - 1),
        () if is(wrong::FIFO_LAST_OF_FIRST_BLOCK_MISSING) => one_missing(127),
        () if is(wrong::FIFO_ONE_MORE) => [words, &[0]].concat(),
        () if is(wrong::FIFO_FIRST_TWICE) => [&words[..1], words].concat(),
        () if is(wrong::FIFO_FIRST_BLOCK_ALONE) => words[..128].to_vec(),
        () if is(wrong::FIFO_FIRST_BLOCK_AGAIN) => words[..128].repeat(all / 128),
        () if is(wrong::FIFO_BLOCKS_BACKWARDS) => blocks().rev().flatten().copied().collect(),
        () if is(wrong::FIFO_WORDS_BACKWARDS) => blocks().flat_map(|block| block.iter().rev()).copied().collect(),
        () if is(wrong::FIFO_WITHOUT_ZEROS) => words.iter().copied().filter(|word| *word != 0).collect(),
        () if is(wrong::FIFO_NO_ROWS) => Vec::new(),
        () => words.to_vec(),
    };
    let register = if is(wrong::FIFO_AS_DELAY) { DELAY } else { FIFO };
    sent.iter().for_each(|word| put(register, *word));
}
