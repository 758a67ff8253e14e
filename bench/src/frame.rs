//! A frame of an operator panel: is anyone waiting? Asked of 36 records, of which none waits, or the first does.

use std::hint::black_box;
use std::time::Instant;

use hawsermole::raw::{self, CARRIER_BYTES};
use independent::requests::waiting;
use independent::{status, Carrier, Plain, MAX_CARRIERS};

/// Where the first that waits stands; past the end, none does.
const FIRSTS: [usize; 2] = [MAX_CARRIERS, 0];

type Record = [u8; CARRIER_BYTES];

/// Position and records read: of the proved function, and of the independent program.
const LOOKS: [(&str, fn(&Table) -> [u64; 2]); 2] =
    [("proved", |table| caller_of_hm_waiting(&table.bytes)), ("independent", independent)];

/// The same records for both programs.
struct Table {
    bytes: Vec<Record>,
    records: Vec<Carrier>,
}

fn table(first: usize) -> Table {
    let record = |at| Carrier {
        id: if at == first { status::WAITING } else { status::OK },
        slot: status::NOT_READ,
        ..Carrier::UNUSED
    };
    let records: Vec<Carrier> = (0..MAX_CARRIERS).map(record).collect();
    let bytes = records.iter().map(|c| c.bytes().try_into().expect("a record")).collect();
    Table { bytes, records }
}

/// The proved function. What counts instructions knows the caller of `hm_waiting` by this name.
#[no_mangle]
#[inline(never)]
pub fn caller_of_hm_waiting(records: &[Record]) -> [u64; 2] {
    let mut found = [0; 2];
    // SAFETY: `main` has seen that the sizes agree.
    let waits = unsafe { raw::waiting(records, &mut found) };
    // Not a tail call: `hm_waiting` comes back here.
    black_box(waits);
    found
}

fn independent(table: &Table) -> [u64; 2] {
    let (first, read) = waiting(&table.records);
    [first.unwrap_or(table.records.len()) as u64, read as u64]
}

/// A call for each table, for what counts instructions; prints `RECORDS READ` for each.
pub fn play() {
    for first in FIRSTS {
        let table = table(first);
        let [_, read] = caller_of_hm_waiting(&table.bytes);
        println!("{} {read}", table.bytes.len());
    }
}

/// Times `count` frames in some rounds and prints the least of each; fails where the programs differ.
pub fn time(count: usize, rounds: usize) -> Result<(), String> {
    for first in FIRSTS {
        let table = table(first);
        let [proved, independent] = LOOKS.map(|(_, look)| look(&table));
        if proved != independent {
            return Err(format!("a frame differs: {proved:?} and {independent:?}; run the comparison"));
        }
        let (records, read) = (table.bytes.len(), proved[1]);
        for (name, look) in LOOKS {
            let least = (0..rounds).map(|_| one_round(&table, count, look)).fold(f64::INFINITY, f64::min);
            println!("a frame of {records} records, {read:>2} read, {name:<14}{least:>9.1} ns");
        }
    }
    Ok(())
}

fn one_round(table: &Table, count: usize, look: fn(&Table) -> [u64; 2]) -> f64 {
    let look = black_box(look);
    let begun = Instant::now();
    for _ in 0..count {
        black_box(look(black_box(table)));
    }
    begun.elapsed().as_nanos() as f64 / count as f64
}

#[cfg(test)]
mod tests {
    use super::*;

    #[test]
    fn what_each_frame_reads() {
        assert_eq!(FIRSTS.map(|first| independent(&table(first))), [[36, 36], [0, 1]]);
        assert!(time(3, 1).is_ok());
    }
}
