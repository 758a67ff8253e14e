//! P1: expected maps, good and bad, and slot maps that equal them or nearly do.

use std::fmt::Write;
use std::string::String;
use std::vec::Vec;

use crate::gen::parts::{padded, unpadded};
use crate::gen::{Input, Rng};
use crate::requests::Tool;
use crate::state::*;

/// Gives rows 1 and 3 a map, and row 20 one that has to do with what its carrier expects; often
/// enough the codes stay as they were drawn.
pub(super) fn complete(t: &Tool, input: &mut Input, rng: &mut Rng) {
    match input.number {
        1 | 3 => match rng.below(100) {
            0..=69 => input.codes = expected_map(rng),
            70..=75 => input.codes = bad_map(rng),
            _ => {}
        },
        20 => match (kept_map(t, &input.name), rng.below(100)) {
            (Some(map), 0..=59) => input.codes = map.to_vec(),
            (Some(map), 60..=84) => input.codes = near_miss(&map, rng),
            // A map that could have been expected, or the zeros that stand for none.
            (None, 0..=14) => input.codes = expected_map(rng),
            (None, 15..=24) => input.codes = std::vec![0; MAP_LEN],
            _ => {}
        },
        // The other rows that make a record look at no map, nor does any other.
        5 | 6 | 16 if rng.chance(25) => input.codes = expected_map(rng),
        _ if rng.chance(3) => input.codes = expected_map(rng),
        _ => {}
    }
}

/// The map that a name's record keeps.
fn kept_map(t: &Tool, name: &[u8]) -> Option<[u8; MAP_LEN]> {
    let good = (1..=NAME_LEN).contains(&name.len());
    let i = t.base.carrier.iter().position(|c| good && c.name == padded(name))?;
    t.expected_map(i).copied()
}

/// A map of 1 and 3. Many tools send the same few, so these come often.
pub(super) fn expected_map(rng: &mut Rng) -> Vec<u8> {
    let mut map = match rng.below(6) {
        0 => std::vec![1; MAP_LEN],
        1 | 2 => std::vec![3; MAP_LEN],
        _ => {
            let bits = rng.draw();
            (0..MAP_LEN).map(|k| if bits >> k & 1 == 0 { 1 } else { 3 }).collect()
        }
    };
    if rng.chance(20) {
        let at = rng.below(MAP_LEN as u32) as usize;
        map[at] = other(map[at]);
    }
    map
}

/// The other of the two codes that can be expected.
fn other(code: u8) -> u8 {
    if code == 1 {
        3
    } else {
        1
    }
}

/// A map of another length, or with a code that can't be expected.
fn bad_map(rng: &mut Rng) -> Vec<u8> {
    let mut map = expected_map(rng);
    match rng.below(10) {
        0 => map.truncate(1),
        1 => map.truncate(MAP_LEN - 1),
        2 => map.push(3),
        3 => map.resize(MAP_LEN + 256, 3),
        4 => map.fill(rng.pick(&[0, 2, 4, 5])),
        5 => map[MAP_LEN - 1] = 0,
        6 => map[0] = 0,
        _ => map[rng.below(MAP_LEN as u32) as usize] = rng.pick(&[0, 2, 4, 5, 6, 0x81, 0xFF]),
    }
    map
}

/// The map with one slot that differs: by a code that could be expected, or by another.
fn near_miss(map: &[u8; MAP_LEN], rng: &mut Rng) -> Vec<u8> {
    let mut map = map.to_vec();
    let at = match rng.below(4) {
        0 => 0,
        1 => MAP_LEN - 1,
        _ => rng.below(MAP_LEN as u32) as usize,
    };
    map[at] = if rng.chance(60) { other(map[at]) } else { rng.pick(&[0, 2, 4, 5]) };
    map
}

/// Maps for some of the records, however these came to be. Many carriers that are open have no slot
/// map yet, so that there is often one to be judged.
pub(super) fn draw(t: &mut Tool, rng: &mut Rng) {
    let having = rng.pick(&[0, 30, 70, 100]);
    for i in 0..t.base.count as usize {
        if t.base.carrier[i].open == 1 && rng.chance(60) {
            t.base.carrier[i].slot = status::NOT_READ;
        }
        if rng.chance(having) {
            t.maps[i].copy_from_slice(&expected_map(rng));
        }
    }
}

/// One map is spoilt, lost, moved, or stands where there is no record.
pub(super) fn damage(t: &mut Tool, rng: &mut Rng) {
    let count = (t.base.count as usize).min(MAX_CARRIERS);
    let any = rng.below(MAX_CARRIERS as u32) as usize;
    let live = rng.below(count.max(1) as u32) as usize;
    let at = rng.below(MAP_LEN as u32) as usize;
    match rng.below(9) {
        0 => t.maps[live][at] = rng.pick(&[0, 2, 4, 5, 6, 7, 0x81, 0x83, 0xFF]),
        1 => t.maps[live][at] = rng.pick(&[1, 3]),
        2 => t.maps[live][at..].fill(0),
        3 => t.maps[live][..at].fill(0),
        4 => t.maps[live] = [0; MAP_LEN],
        5 => t.maps[count.min(MAX_CARRIERS - 1)].copy_from_slice(&expected_map(rng)),
        6 => t.maps[any].copy_from_slice(&expected_map(rng)),
        7 => t.maps[any][at] = rng.pick(&[1, 3, 0xFF]),
        _ => t.maps.swap(live, any),
    }
}

/// A line for each map.
pub(super) fn describe(t: &Tool, out: &mut String) {
    for (i, map) in t.maps.iter().enumerate().filter(|(_, map)| **map != [0; MAP_LEN]) {
        let name = unpadded(&t.base.carrier[i].name);
        let _ = writeln!(out, "  record {} '{}' expects {map:?}", i + 1, String::from_utf8_lossy(&name));
    }
}
