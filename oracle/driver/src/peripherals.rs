//! The one peripheral, whose frequency is the source of the host in hand.

use critical_section::CriticalSection;
use embassy_hal_internal::PeripheralType;

use crate::peripheral::{SealedRccPeripheral, SealedRemapPeripheral};
use crate::time::Hertz;
use crate::{bench, RccPeripheral, RemapPeripheral};

#[allow(clippy::upper_case_acronyms)]
#[derive(Clone, Copy)]
pub struct SDIO;

impl PeripheralType for SDIO {}

impl SealedRccPeripheral for SDIO {
    fn frequency() -> Hertz {
        Hertz(bench::source())
    }
    fn enable_and_reset_with_cs(_section: CriticalSection) {}
    fn disable_with_cs(_section: CriticalSection) {}
}

impl SealedRemapPeripheral for SDIO {
    fn set_remap(_remap: u8) {}
}

impl RccPeripheral for SDIO {}
impl RemapPeripheral for SDIO {}
