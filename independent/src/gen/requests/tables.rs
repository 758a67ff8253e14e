//! P2: tables of carrier records that an equipment might lend.

use std::vec::Vec;

use crate::gen::Rng;
use crate::state::{status, Carrier, Plain};

/// The most records of a random table: some more than a tool has.
pub const LONGEST_TABLE: u32 = 40;

/// A table of 0 to 40 records: of any bytes, of small ones, of zeros, or a sound tool's; in many of
/// them few wait, or none.
pub fn random_table(rng: &mut Rng) -> Vec<Carrier> {
    let length = rng.below(LONGEST_TABLE + 1) as usize;
    let mut table: Vec<Carrier> = match rng.below(5) {
        0 => (0..length).map(|_| random_record(256, rng)).collect(),
        1 => (0..length).map(|_| random_record(5, rng)).collect(),
        // Twos everywhere; most of these tables lose them where they count.
        2 => std::vec![filled(status::WAITING); length],
        3 => std::vec![Carrier::UNUSED; length],
        _ => crate::gen::random_sound_tool(rng).carriers().to_vec(),
    };
    if rng.chance(80) {
        table.iter_mut().for_each(|c| nobody_waits(c, rng));
        for _ in 0..rng.below(3).min(table.len() as u32) {
            let at = rng.below(table.len() as u32) as usize;
            let which = rng.below(3);
            table[at].id = if which != 1 { status::WAITING } else { table[at].id };
            table[at].slot = if which != 0 { status::WAITING } else { table[at].slot };
        }
    }
    table
}

/// A record of bytes below `most`.
fn random_record(most: u32, rng: &mut Rng) -> Carrier {
    let mut c = Carrier::UNUSED;
    c.bytes_mut().fill_with(|| rng.below(most) as u8);
    c
}

fn filled(byte: u8) -> Carrier {
    let mut c = Carrier::UNUSED;
    c.bytes_mut().fill(byte);
    c
}

/// Status 2 becomes another, good or not.
fn nobody_waits(c: &mut Carrier, rng: &mut Rng) {
    for status in [&mut c.id, &mut c.slot] {
        if *status == status::WAITING {
            *status = rng.pick(&[0, 1, 3, 4, 0x82, 0xFF]);
        }
    }
}
