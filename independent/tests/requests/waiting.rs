//! P2: the first carrier that waits for the host, and how many records were read.

use super::*;
use independent::gen::requests::{random_run_input, random_table};
use independent::gen::Rng;
use independent::requests::waiting;

/// The positions of all that wait.
fn plainly(table: &[Carrier]) -> Vec<usize> {
    (0..table.len()).filter(|&k| table[k].id == 2 || table[k].slot == 2).collect()
}

/// A record in which every other byte is `byte`.
fn record_of(byte: u8, id: u8, slot: u8) -> Carrier {
    let mut c = Carrier::from_bytes(&[byte; 50]).unwrap();
    (c.id, c.slot) = (id, slot);
    c
}

#[test]
fn nobody_waits() {
    for length in 0..=40 {
        assert_eq!(waiting(&vec![Carrier::UNUSED; length]), (None, length));
        for byte in [0, 1, 2, 3, 0xFF] {
            assert_eq!(waiting(&vec![record_of(byte, 1, 1); length]), (None, length));
        }
    }
}

/// The one that waits, and those behind it, at every position of every length.
#[test]
fn the_first_that_waits() {
    for length in 0..=40 {
        for at in 0..length {
            for (id, slot) in [(2, 1), (1, 2), (2, 2), (0, 2), (2, 0), (2, 0xFF)] {
                let mut table = vec![record_of(1, 3, 4); length];
                table[at] = record_of(0, id, slot);
                assert_eq!(waiting(&table), (Some(at), at + 1));
                table[at..].fill(record_of(0, id, slot));
                assert_eq!(waiting(&table), (Some(at), at + 1));
            }
        }
    }
}

/// Every pair of statuses: 2 alone decides.
#[test]
fn every_status() {
    for id in 0..=255 {
        for slot in 0..=255 {
            let yes = id == 2 || slot == 2;
            for byte in [0, 2] {
                let expected = if yes { (Some(0), 1) } else { (None, 1) };
                assert_eq!(waiting(&[record_of(byte, id, slot)]), expected);
            }
        }
    }
}

/// No other byte of a record plays a part: neither cancelled nor expected nor a name.
#[test]
fn nothing_else_decides() {
    for at in 0..47 {
        for value in 0..=255 {
            for (id, slot) in [(1, 1), (2, 1), (3, 2), (0, 0)] {
                let mut bytes = [0; 50];
                (bytes[at], bytes[47], bytes[48]) = (value, id, slot);
                let yes = id == 2 || slot == 2;
                assert_eq!(waiting(&[Carrier::from_bytes(&bytes).unwrap()]).0.is_some(), yes);
            }
        }
    }
}

#[test]
fn tables_of_any_bytes() {
    let mut rng = Rng::new(21);
    let mut met = [0; 10];
    for _ in 0..100_000 {
        let table = random_table(&mut rng);
        let all = plainly(&table);
        let (first, read) = waiting(&table);
        assert_eq!(first, all.first().copied());
        assert_eq!(read, first.map_or(table.len(), |at| at + 1));
        // What was not read could be anything.
        assert_eq!(waiting(&table[..read]), (first, read));
        let by =
            |id, slot| first.is_some_and(|at| (table[at].id == 2) == id && (table[at].slot == 2) == slot);
        let seen = [
            table.is_empty(),
            first.is_none() && !table.is_empty(),
            first.is_none() && table.len() > 36,
            first == Some(0),
            first.is_some() && read == table.len() && read > 1,
            all.len() == 1 && table.len() > 1,
            all.len() > 1,
            by(true, false),
            by(false, true),
            by(true, true),
        ];
        for (met, seen) in met.iter_mut().zip(seen) {
            *met += seen as u32;
        }
    }
    println!("{met:?}");
    assert!(met.iter().all(|&met| met > 500), "{met:?}");
}

/// Along a run: the carrier that waits is the one that the host is asked about.
#[test]
fn the_records_of_a_tool() {
    let mut t = tool(2, 0);
    let asked = |t: &Tool| waiting(t.base.carriers());
    assert_eq!(asked(&t), (None, 0));
    accept(&mut t, 3, 0, 0, "A");
    assert_eq!(asked(&t), (None, 1));
    bring(&mut t, 1, "B");
    assert_eq!(asked(&t), (Some(1), 2));
    bring(&mut t, 2, "A");
    assert_eq!(asked(&t), (Some(1), 2));
    accept(&mut t, 5, 0, 0, "B");
    assert_eq!(asked(&t), (None, 2));
    accept(&mut t, 19, 0, 0, "A");
    accept_codes(&mut t, 20, 0, "A", &THREES);
    assert_eq!(asked(&t), (Some(0), 1));
    accept(&mut t, 5, 0, 0, "A");
    assert_eq!(asked(&t), (None, 2));
    // The records behind those in use wait for nobody, and are read where they are lent.
    assert_eq!(waiting(&t.base.carrier), (None, 36));
}

/// Where a ProceedWithCarrier or CancelCarrier is answered by a status, somebody waited.
#[test]
fn a_run_agrees() {
    let mut rng = Rng::new(22);
    let mut t = tool(4, 16);
    let (mut none, mut some) = (0, 0);
    for _ in 0..20_000 {
        let i = random_run_input(&t, &mut rng);
        let (before, mut out) = (t, Reports::NONE);
        step_input(&mut t, &i, &mut out);
        let judged = out.as_slice().iter().any(|r| r.old == 2 && matches!(r.model, 5 | 6));
        let first = waiting(before.base.carriers()).0;
        assert!(!judged || first.is_some(), "{i:?}");
        assert_eq!(waiting(&before.base.carrier).0, first);
        *(if first.is_some() { &mut some } else { &mut none }) += 1;
    }
    assert!(none > 100 && some > 100, "{none} {some}");
}
