//! Is anyone waiting for the host?
use crate::machine;
use crate::raw::CARRIER_BYTES;

/// What a look for a carrier that waits for the host found.
#[derive(Clone, Copy, Debug, PartialEq, Eq, Hash)]
pub struct Waiting {
    /// The position of the first that waits, from 0.
    pub first: Option<usize>,
    /// How many records were read to know: the position plus one, or all of them.
    pub read: usize,
}

/// The first record of a table that waits for the host, by ID or by slot map. The table may have any length, also none,
/// and its records any bytes; nothing after the first that waits is read. [`Tool::waiting`](crate::Tool::waiting) asks
/// it of a tool's records.
///
/// ```
/// use hawsermole::{waiting, Waiting, CARRIER_BYTES};
///
/// let mut table = vec![[0; CARRIER_BYTES]; 100];
/// assert_eq!(waiting(&table), Waiting { first: None, read: 100 });
/// table[98][48] = 2;
/// table[99][47] = 2;
/// assert_eq!(waiting(&table), Waiting { first: Some(98), read: 99 });
/// assert_eq!(waiting(&[]), Waiting { first: None, read: 0 });
/// ```
pub fn waiting(records: &[[u8; CARRIER_BYTES]]) -> Waiting {
    // Neither number is above the table's length.
    let (waits, [position, read]) = machine::waiting(records);
    Waiting { first: waits.then_some(position as usize), read: read as usize }
}

#[cfg(test)]
mod tests {
    use super::*;
    use crate::{Tool, RECORDS, TOOL_BYTES};
    use std::vec::Vec;

    const ID: usize = 47;
    const SLOT: usize = 48;

    /// The records of a table: each with an ID status, a slot status, and this byte everywhere else.
    fn table(statuses: &[(u8, u8)], byte: u8) -> Vec<[u8; CARRIER_BYTES]> {
        let record = |&(id, slot): &(u8, u8)| {
            let mut record = [byte; CARRIER_BYTES];
            (record[ID], record[SLOT]) = (id, slot);
            record
        };
        statuses.iter().map(record).collect()
    }

    fn found(statuses: &[(u8, u8)]) -> (Option<usize>, usize) {
        let given = waiting(&table(statuses, 0));
        assert_eq!(waiting(&table(statuses, 2)), given);
        assert_eq!(waiting(&table(statuses, 255)), given);
        (given.first, given.read)
    }

    #[test]
    fn the_first_that_waits_by_either_status() {
        assert_eq!(found(&[]), (None, 0));
        assert_eq!(found(&[(1, 1), (3, 3), (4, 4), (0, 0), (255, 130)]), (None, 5));
        assert_eq!(found(&[(2, 1)]), (Some(0), 1));
        assert_eq!(found(&[(3, 1), (3, 2), (2, 1)]), (Some(1), 2));
        assert_eq!(found(&[(3, 1), (2, 2), (3, 2)]), (Some(1), 2));
        assert_eq!(found(&[(3, 1), (1, 1), (2, 1)]), (Some(2), 3));
    }

    #[test]
    fn every_status() {
        for status in 0..=255 {
            let waits = if status == 2 { (Some(1), 2) } else { (None, 3) };
            assert_eq!(found(&[(1, 1), (status, 1), (1, 1)]), waits);
            assert_eq!(found(&[(1, 1), (1, status), (1, 1)]), waits);
        }
    }

    /// A tool of any bytes can be asked, however many records it claims; a tool without records is asked too.
    #[test]
    fn tools_of_any_bytes() {
        assert_eq!(Tool::none().waiting(), Waiting { first: None, read: 0 });
        let all = |byte| Tool::from_bytes(&[byte; TOOL_BYTES]).waiting();
        assert_eq!(all(255), Waiting { first: None, read: RECORDS });
        assert_eq!(all(2), Waiting { first: Some(0), read: 1 });
        assert_eq!(all(1), Waiting { first: None, read: 1 });
    }
}
