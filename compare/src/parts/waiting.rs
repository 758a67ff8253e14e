//! P2: is anyone waiting? Asked of tables of records, and not of tools.

use hawsermole::raw::{self, CARRIER_BYTES};
use independent::gen::requests::random_table;
use independent::gen::Rng;
use independent::requests;
use independent::{Carrier, Plain};

use crate::machine::Proved;
use crate::play::Finding;
use crate::script::hex;

/// Of records with these statuses all small tables are made.
const FEW: [u8; 4] = [1, 2, 3, 0x82];

/// What a program says of a table: whether some carrier waits, the position of the first or the length, and how many
/// records were read.
#[derive(Clone, Copy, Debug, PartialEq, Eq)]
pub struct Found {
    pub waits: u32,
    pub position: u64,
    pub read: u64,
}

/// How many tables were compared, and in how many of them some carrier waits.
#[derive(Clone, Copy, Default)]
pub struct Tables {
    pub compared: u64,
    pub waiting: u64,
}

/// The two programs, as they look for a carrier that waits.
pub struct Looks<'a> {
    pub proved: &'a dyn Fn(&[Carrier]) -> Found,
    pub independent: &'a dyn Fn(&[Carrier]) -> Found,
}

/// The proved function. What stood in the answer before must be gone, and the records are as they were.
pub fn proved(_: &Proved, records: &[Carrier]) -> Found {
    let lent: Vec<[u8; CARRIER_BYTES]> =
        records.iter().map(|c| c.bytes().try_into().expect("a record")).collect();
    let before = lent.clone();
    let mut found = [u64::from_ne_bytes([0xA5; 8]); 2];
    // SAFETY: a `Proved` is there only where the sizes agree.
    let waits = unsafe { raw::waiting(&lent, &mut found) };
    assert!(lent == before, "the table was written to");
    let [position, read] = found;
    Found { waits, position, read }
}

pub fn independent(records: &[Carrier]) -> Found {
    let (first, read) = requests::waiting(records);
    let position = first.unwrap_or(records.len()) as u64;
    Found { waits: first.is_some() as u32, position, read: read as u64 }
}

/// All tables of 0 to 3 records of a few statuses, and `total` random ones of 0 to 40 records of any bytes.
pub fn compare(looks: &Looks, total: u64, rng: &mut Rng) -> Result<Tables, Finding> {
    let mut tables = Tables::default();
    for table in small_tables() {
        one(looks, &mut tables, &table)?;
    }
    for _ in 0..total {
        one(looks, &mut tables, &random_table(rng))?;
    }
    Ok(tables)
}

fn small_tables() -> Vec<Vec<Carrier>> {
    let records = FEW.iter().flat_map(|&id| FEW.map(|slot| Carrier { id, slot, ..Carrier::UNUSED }));
    let records: Vec<Carrier> = records.collect();
    let (mut all, mut from) = (vec![Vec::new()], 0);
    for _ in 0..3 {
        let to = all.len();
        for k in from..to {
            let longer = |record: &Carrier| [&all[k][..], &[*record]].concat();
            let longer: Vec<Vec<Carrier>> = records.iter().map(longer).collect();
            all.extend(longer);
        }
        from = to;
    }
    all
}

fn one(looks: &Looks, tables: &mut Tables, table: &[Carrier]) -> Result<(), Finding> {
    let found = (looks.proved)(table);
    if found != (looks.independent)(table) {
        return Err(Finding::Told(differ(looks, table)));
    }
    if !lawful(table, found) {
        return Err(Finding::Told(against(table, found)));
    }
    tables.compared += 1;
    tables.waiting += found.waits as u64;
    Ok(())
}

/// P2's words: the position's carrier waits and none before it does, or none does; the position plus one, or the whole
/// length, was read.
fn lawful(table: &[Carrier], Found { waits, position, read }: Found) -> bool {
    let waiting = |c: &Carrier| c.id == 2 || c.slot == 2;
    let (first, length) = (position as usize, table.len() as u64);
    match waits {
        0 => (position, read) == (length, length) && !table.iter().any(waiting),
        1 => {
            position < length
                && read == position + 1
                && waiting(&table[first])
                && !table[..first].iter().any(waiting)
        }
        _ => false,
    }
}

fn differ(looks: &Looks, table: &[Carrier]) -> String {
    let differs = |table: &[Carrier]| (looks.proved)(table) != (looks.independent)(table);
    let table = smallest(table, differs);
    let (one, other) = (told((looks.proved)(&table)), told((looks.independent)(&table)));
    format!("DIFFERENT. The table of {}proved       {one}\nindependent  {other}\n", lines(&table))
}

fn against(table: &[Carrier], found: Found) -> String {
    let found = told(found);
    format!("BOTH ARE AGAINST THE DOCUMENTS: {found}. The table of {}", lines(table))
}

fn told(Found { waits, position, read }: Found) -> String {
    format!("answer {waits}, position {position}, {read} read")
}

fn lines(table: &[Carrier]) -> String {
    let records: String = table.iter().map(|c| hex(c.bytes()) + "\n").collect();
    format!("{} records:\n{records}", table.len())
}

/// A table without the records that can be left out, and with zeros for each that can be unused.
fn smallest(table: &[Carrier], differs: impl Fn(&[Carrier]) -> bool) -> Vec<Carrier> {
    let mut best = table.to_vec();
    for at in (0..best.len()).rev() {
        let mut shorter = best.clone();
        shorter.remove(at);
        if differs(&shorter) {
            best = shorter;
        }
    }
    for at in 0..best.len() {
        let was = std::mem::replace(&mut best[at], Carrier::UNUSED);
        if !differs(&best) {
            best[at] = was;
        }
    }
    best
}

#[cfg(test)]
mod tests {
    use super::*;

    type Look = fn(&[Carrier]) -> Found;

    /// What is told where one program looks so.
    fn found(wrong: Look) -> String {
        let looks = Looks { proved: &wrong, independent: &independent };
        let Err(Finding::Told(told)) = compare(&looks, 2_000, &mut Rng::new(5)) else { panic!("not found") };
        assert!(told.starts_with("DIFFERENT. The table of "), "{told}");
        told
    }

    fn without(table: &[Carrier], dropped: fn(&mut Carrier)) -> Vec<Carrier> {
        let mut table = table.to_vec();
        table.iter_mut().for_each(dropped);
        table
    }

    #[test]
    fn every_small_table_once() {
        let all = small_tables();
        let set: std::collections::BTreeSet<Vec<u8>> =
            all.iter().map(|t| t.iter().flat_map(|c| [c.id, c.slot]).collect()).collect();
        assert_eq!((all.len(), set.len()), (1 + 16 + 256 + 4096, all.len()));
    }

    #[test]
    fn programs_that_look_wrongly_are_found() {
        let last: Look = |table| match table.iter().rposition(|c| c.id == 2 || c.slot == 2) {
            Some(at) => Found { waits: 1, position: at as u64, read: at as u64 + 1 },
            None => independent(table),
        };
        assert!(found(last).contains("proved       answer 1, position 1, 2 read\n"));
        let id_alone: Look = |table| independent(&without(table, |c| c.slot = 0));
        assert!(found(id_alone).starts_with("DIFFERENT. The table of 1 records:\n"));
        let slot_alone: Look = |table| independent(&without(table, |c| c.id = 0));
        assert!(found(slot_alone).starts_with("DIFFERENT. The table of 1 records:\n"));
        let one_too_many: Look = |table| Found { read: independent(table).read + 1, ..independent(table) };
        assert!(
            found(one_too_many).ends_with("position 0, 1 read\nindependent  answer 0, position 0, 0 read\n")
        );
        let reads_on: Look = |table| Found { read: table.len() as u64, ..independent(table) };
        assert!(found(reads_on).starts_with("DIFFERENT. The table of 2 records:\n"));
        let records_alone: Look = |table| independent(&table[..table.len().min(36)]);
        assert!(found(records_alone).starts_with("DIFFERENT. The table of 37 records:\n"));
        let low_bits: Look =
            |table| independent(&without(table, |c| (c.id, c.slot) = (c.id & 7, c.slot & 7)));
        assert!(found(low_bits).starts_with("DIFFERENT. The table of 1 records:\n"));
        let cancelled: Look = |table| independent(&without(table, |c| c.id *= (c.cancelled == 0) as u8));
        assert!(found(cancelled).starts_with("DIFFERENT. The table of 1 records:\n"));
    }

    #[test]
    fn both_wrong_alike_is_against_the_documents() {
        let none: Look = |table| Found { waits: 0, position: table.len() as u64, read: table.len() as u64 };
        let looks = Looks { proved: &none, independent: &none };
        let Err(Finding::Told(told)) = compare(&looks, 0, &mut Rng::new(5)) else { panic!("not found") };
        let begins =
            "BOTH ARE AGAINST THE DOCUMENTS: answer 0, position 1, 1 read. The table of 1 records:\n";
        assert!(told.starts_with(begins), "{told}");
    }

    #[test]
    fn tables_of_both_kinds_are_counted() {
        let looks = Looks { proved: &independent, independent: &independent };
        let tables = compare(&looks, 20_000, &mut Rng::new(5)).unwrap();
        assert!(tables.compared == 20_000 + 4369 && tables.waiting > 5_000, "{}", tables.waiting);
        assert!(tables.compared - tables.waiting > 5_000, "{}", tables.waiting);
    }
}
