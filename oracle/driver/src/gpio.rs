//! Pins. A setting says whether four data lines are there; nothing else of a
//! pin is seen.

use embassy_hal_internal::{Peri, PeripheralType};

pub enum Speed {
    High,
}

pub enum OutputType {
    PushPull,
}

pub struct AfType;

impl AfType {
    pub const fn output(_kind: OutputType, _speed: Speed) -> Self {
        Self
    }
}

pub(crate) trait SealedPin {
    fn set_as_disconnected(&self) {}
}

#[allow(private_bounds)]
pub trait Pin: SealedPin + PeripheralType + 'static {}

#[derive(Clone, Copy)]
pub struct AnyPin;

impl PeripheralType for AnyPin {}
impl SealedPin for AnyPin {}
impl Pin for AnyPin {}

pub fn degrade<'d, P: Pin>(_pin: Peri<'d, P>, _kind: AfType) -> Peri<'d, AnyPin> {
    Peri::make(AnyPin)
}
