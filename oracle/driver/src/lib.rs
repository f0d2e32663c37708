//! The SD card host of ch32-hal, run on a desk computer.
//!
//! The two modules come from the upstream source when this crate is built (see
//! `build/`); what they lean on stands here. Registers and DMA are answered
//! from a script, what is written is kept as rows (`bench`). The modules are
//! compiled twice: `sdio` has only the edits of `build/edits.rs`, `switched`
//! has the wrong hosts of `build/wrongs/` besides, each behind a switch.

// The driver turns SCR and status words round where they lie in memory, and a
// block's bytes are its words in memory: both little-endian on the chip.
#[cfg(target_endian = "big")]
compile_error!("the oracle needs a little-endian computer, as the CH32 is one");

#[macro_use]
mod macros;

pub mod bench;
pub mod host;
pub mod script;
pub mod wrong;

mod dma;
mod gpio;
mod interrupt;
mod pac;
mod peripherals;

pub(crate) use embassy_hal_internal::Peri;
pub(crate) use peripheral::{RccPeripheral, RemapPeripheral};

/// The name under which the driver looks for its interrupt.
mod _generated {
    #[allow(non_snake_case)]
    pub mod peripheral_interrupts {
        pub mod SDIO {
            pub use crate::interrupt::Nobody as GLOBAL;
        }
    }
}

// `time`, `internal::drop` and `peripheral` as upstream has them, then `sdio`
// and `switched`.
include!(concat!(env!("OUT_DIR"), "/modules.rs"));

pub use host::{Block, Call, Host, KeptCall, Outcome, Record, Settings, State};
pub use sdio::inside as right;
pub use switched::inside as switchable;
