//! P2: is anyone waiting?

use crate::state::{status, Carrier};

/// Whether a carrier waits for the host, by ID or by slot map. Nothing else of its record decides.
#[inline]
fn waits(c: &Carrier) -> bool {
    c.id == status::WAITING || c.slot == status::WAITING
}

/// The position of the first record, from 0, whose carrier waits for the host, and how many records
/// were read: the position plus one, or all. The table may have any length and any bytes.
#[inline]
pub fn waiting(records: &[Carrier]) -> (Option<usize>, usize) {
    let mut read = 0;
    for c in records {
        read += 1;
        if waits(c) {
            return (Some(read - 1), read);
        }
    }
    (None, read)
}
