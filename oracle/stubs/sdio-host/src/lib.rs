//! Stands in for the crate of this name: only what the driver uses, written
//! from the SD Physical Layer Simplified Specification.

/// Capacity classes. Open, because the driver has an arm for any other class;
/// nothing makes one.
#[derive(Clone, Copy, Debug, Eq, PartialEq)]
#[non_exhaustive]
pub enum CardCapacity {
    SDSC,
    SDHC,
}

/// The state of the card, status bits 12 to 9 (SD, table "Card Status").
#[derive(Clone, Copy, Debug, Eq, PartialEq)]
pub enum CurrentState {
    Idle,
    Ready,
    Identification,
    Standby,
    Transfer,
    Sending,
    Receiving,
    Programming,
    Disconnected,
    Reserved,
}

/// The 32-bit card status of an R1 answer.
#[derive(Clone, Copy, Debug, Eq, PartialEq)]
pub struct CardStatus(u32);

impl From<u32> for CardStatus {
    fn from(word: u32) -> Self {
        Self(word)
    }
}

impl CardStatus {
    /// READY_FOR_DATA, bit 8.
    pub fn ready_for_data(&self) -> bool {
        self.0 >> 8 & 1 == 1
    }

    /// CURRENT_STATE, bits 12 to 9.
    pub fn state(&self) -> CurrentState {
        match self.0 >> 9 & 15 {
            0 => CurrentState::Idle,
            1 => CurrentState::Ready,
            2 => CurrentState::Identification,
            3 => CurrentState::Standby,
            4 => CurrentState::Transfer,
            5 => CurrentState::Sending,
            6 => CurrentState::Receiving,
            7 => CurrentState::Programming,
            8 => CurrentState::Disconnected,
            _ => CurrentState::Reserved,
        }
    }
}

/// Operation conditions.
#[derive(Clone, Copy, Debug, Eq, PartialEq)]
pub struct OCR(pub u32);

impl From<u32> for OCR {
    fn from(word: u32) -> Self {
        Self(word)
    }
}

/// Card identification.
#[derive(Clone, Copy, Debug, Eq, PartialEq)]
pub struct CID(pub u128);

impl From<u128> for CID {
    fn from(bits: u128) -> Self {
        Self(bits)
    }
}

/// Card specific data.
#[derive(Clone, Copy, Debug, Eq, PartialEq)]
pub struct CSD(pub u128);

impl From<u128> for CSD {
    fn from(bits: u128) -> Self {
        Self(bits)
    }
}

impl CSD {
    /// TRAN_SPEED, bits 103 to 96.
    pub fn transfer_rate(&self) -> u8 {
        (self.0 >> 96) as u8
    }
}

/// Card configuration.
#[derive(Clone, Copy, Debug, Eq, PartialEq)]
pub struct SCR(pub u64);

impl SCR {
    /// SD_BUS_WIDTHS is bits 51 to 48: bit 48 one line.
    pub fn bus_width_one(&self) -> bool {
        self.0 >> 48 & 1 == 1
    }

    /// Bit 50, four lines.
    pub fn bus_width_four(&self) -> bool {
        self.0 >> 50 & 1 == 1
    }
}

/// The 512-bit SD status: word 0 holds bits 31 to 0.
#[derive(Clone, Copy, Debug, Default, Eq, PartialEq)]
pub struct SDStatus {
    pub inner: [u32; 16],
}

impl From<[u32; 16]> for SDStatus {
    fn from(inner: [u32; 16]) -> Self {
        Self { inner }
    }
}
