//! A DMA channel answered from the script.
//!
//! One word serves both the error and the running bit (bit 31, bit 30); its low
//! 16 bits are the remaining count. `has_error`, which the driver always asks
//! first, takes the word; the other two look at the word last taken.

use embassy_hal_internal::{Peri, PeripheralType};

use crate::bench::{self, fifo, Reading};
use crate::wrong;

pub type Request = ();

#[allow(dead_code)]
pub enum Priority {
    VeryHigh,
}

#[allow(dead_code)]
pub struct TransferOptions {
    pub priority: Priority,
    pub circular: bool,
    pub half_transfer_ir: bool,
    pub complete_transfer_ir: bool,
    pub peripheral_increment: bool,
    pub memory_to_memory: bool,
}

pub trait Channel: PeripheralType + 'static {}

#[derive(Clone, Copy)]
pub struct AnyChannel;

impl PeripheralType for AnyChannel {}
impl Channel for AnyChannel {}

pub struct Transfer<'a> {
    word: u32,
    way: Way<'a>,
}

/// What a read fills, and what a write sends.
enum Way<'a> {
    In(&'a mut [u32]),
    Out(&'a [u32]),
}

impl<'a> Transfer<'a> {
    /// # Safety
    /// None is needed here; upstream asks for it.
    pub unsafe fn new_read_checked<C: Channel>(
        _channel: Peri<'a, C>,
        _request: Request,
        _from: *mut u32,
        buffer: &'a mut [u32],
        _options: TransferOptions,
    ) -> Self {
        let way = Way::In(buffer);
        Self { word: 0, way }
    }

    /// # Safety
    /// None is needed here; upstream asks for it.
    pub unsafe fn new_write_checked<C: Channel>(
        _channel: Peri<'a, C>,
        _request: Request,
        buffer: &'a [u32],
        _to: *mut u32,
        _options: TransferOptions,
    ) -> Self {
        // SAFETY: the buffer is lent for as long as the transfer lives, whose end lets the channel go.
        unsafe { fifo::set(buffer) };
        let way = Way::Out(buffer);
        Self { word: 0, way }
    }

    pub fn has_error(&mut self) -> bool {
        let reading = if wrong::is(wrong::DMA_BY_STATUS) {
            Reading::Status
        } else {
            Reading::Dma
        };
        self.word = bench::read(reading);
        fifo::remaining(self.word);
        self.word >> 31 != 0
    }

    /// Only wrong hosts ask.
    #[allow(dead_code)]
    pub fn sends(&self) -> bool {
        matches!(self.way, Way::Out(_))
    }

    pub fn is_running(&mut self) -> bool {
        self.word >> 30 & 1 != 0
    }

    pub fn get_remaining_transfers(&self) -> u16 {
        if wrong::is(wrong::REMAINING_IN_EIGHT_BITS) {
            return self.word as u8 as u16;
        }
        self.word as u16
    }

    /// The data words arrive, straight after the poll that completes. Those of a write have gone out before.
    pub fn land(&mut self) {
        let words = match &mut self.way {
            Way::In(words) => words,
            Way::Out(words) => return landed_wrongly(words.len()),
        };
        let counted = u16::from(!wrong::is(wrong::DATA_PLACE_STAYS));
        for (place, slot) in words.iter_mut().enumerate() {
            let word = bench::read(Reading::Data(place as u16 * counted));
            *slot = if wrong::is(wrong::DATA_BIG_ENDIAN) {
                word.swap_bytes()
            } else {
                word
            };
        }
    }
}

impl Drop for Transfer<'_> {
    fn drop(&mut self) {
        if let Way::Out(_) = self.way {
            fifo::let_go();
        }
    }
}

/// What the wrong hosts do where a write of so many words completes; the right one does nothing.
fn landed_wrongly(words: usize) {
    fifo::completed();
    if wrong::is(wrong::WRITE_TAKES_DATA) {
        for place in 0..words {
            bench::read(Reading::Data(place as u16));
        }
    }
}
