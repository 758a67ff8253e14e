//! The documents' numbers, by name.

/// Transfer state of a port.
pub mod transfer {
    pub const OUT_OF_SERVICE: u8 = 0;
    pub const READY_TO_LOAD: u8 = 1;
    pub const READY_TO_UNLOAD: u8 = 2;
    pub const BLOCKED: u8 = 3;
}

/// Access mode of a port.
pub mod access {
    pub const MANUAL: u8 = 0;
}

/// Who starts to load or unload.
pub mod start {
    pub const AUTOMATIC: u32 = 1;
}

/// Movement at a port.
pub mod movement {
    pub const NONE: u8 = 0;
    pub const LOADING: u8 = 1;
    pub const UNLOADING: u8 = 2;
}

/// Tag at a port.
pub mod tag {
    pub const UNREAD: u8 = 0;
    pub const FAILED: u8 = 2;
}

/// Place of a carrier.
pub mod place {
    pub const EXPECTED: u8 = 0;
    pub const PORT: u8 = 1;
    pub const BUFFER: u8 = 2;
}

/// ID and slot map status of a carrier.
pub mod status {
    pub const NOT_READ: u8 = 1;
    pub const WAITING: u8 = 2;
    pub const OK: u8 = 3;
    pub const FAILED: u8 = 4;
}

/// Accessing status of a carrier.
pub mod accessing {
    pub const NOT_ACCESSED: u8 = 1;
    pub const IN_ACCESS: u8 = 2;
}

/// State of a prediction.
pub mod prediction {
    pub const DISABLED: u8 = 1;
    pub const WAITING_FOR_CARRIER: u8 = 2;
    pub const WAITING_FOR_PREDICTION: u8 = 3;
    pub const PREDICTED: u8 = 4;
    pub const ABORTED: u8 = 5;
}

/// State of a request of CarrierOut.
pub mod request {
    pub const STARTED: u8 = 1;
}

/// Rows that are told apart.
pub mod row {
    pub const CANCEL_CARRIER: u32 = 6;
    pub const CARRIER_OUT: u32 = 7;
    pub const LOAD_START: u32 = 13;
    pub const LOAD_DONE: u32 = 14;
    pub const LOAD_FAIL: u32 = 15;
    pub const UNLOAD_START: u32 = 24;
    pub const OUT_START: u32 = 27;
    pub const OUT_DONE: u32 = 28;
    pub const CANCEL_ALL_CARRIER_OUT: u32 = 30;
    pub const CLOCK: u32 = 31;
    pub const PREDICTED_TIME: u32 = 32;
    pub const ESTIMATE: u32 = 33;
    pub const NO_PREDICTION: u32 = 34;
    pub const WAFERS: u32 = 35;
    pub const CONTINUE: u32 = 36;
    /// The last row of document 01.
    pub const LAST_OF_01: u32 = 26;
}

/// The most carriers that are expected.
pub const MOST_EXPECTED: usize = 16;
