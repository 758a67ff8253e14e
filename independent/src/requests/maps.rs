//! P1: slot maps the tool can judge.
//!
//! Rows 1 and 3 may carry the map that is expected, and the record that they make keeps it. A
//! SlotMap that equals it at all slots makes the slot status OK at once.

use super::{Given, Tool};
use crate::report::Touched;
use crate::rows::{unless, Refusal, Result};
use crate::sound::all_zero;
use crate::state::{status, MAP_LEN, MAX_CARRIERS};

const BIND: u32 = 1;
const CARRIER_NOTIFICATION: u32 = 3;
const SLOT_MAP: u32 = 20;

/// What stands where a record has no map.
const NO_MAP: [u8; MAP_LEN] = [0; MAP_LEN];

/// All codes are 1 (empty) or 3 (correctly occupied).
#[inline]
fn can_be_expected(map: &[u8; MAP_LEN]) -> bool {
    map.iter().fold(true, |good, &code| good & (code == 1 || code == 3))
}

/// Each record has a map of codes that can be expected, or none; past the records there is none.
pub(super) fn sound(t: &Tool) -> bool {
    let (live, past) = t.maps.split_at(t.base.count as usize);
    live.iter().all(|map| *map == NO_MAP || can_be_expected(map)) && all_zero(past.as_flattened())
}

/// The expected map that an input carries: none in the rows that don't name one.
#[inline]
pub(super) fn given(given: &Given) -> Result<[u8; MAP_LEN]> {
    let named = matches!(given.number, BIND | CARRIER_NOTIFICATION);
    if !named || given.codes.is_empty() {
        return Ok(NO_MAP);
    }
    let map = given.codes.try_into().map_err(|_| Refusal::Range)?;
    unless(can_be_expected(&map), Refusal::Range)?;
    Ok(map)
}

/// Record `i` has gone: its map goes, and the maps behind it move up.
#[inline]
pub(super) fn remove(t: &mut Tool, i: usize) {
    t.maps.copy_within(i + 1.., i);
    t.maps[MAX_CARRIERS - 1] = NO_MAP;
}

/// A new record keeps the map that it was made with.
#[inline]
pub(super) fn keep(t: &mut Tool, touched: &Touched, map: [u8; MAP_LEN]) {
    if let Some(i) = touched.came() {
        t.maps[i] = map;
    }
}

/// A SlotMap that equals the expected map makes the slot status OK, whatever the ID; with any
/// other, and where no map is expected, the host is asked.
#[inline]
pub(super) fn judge(t: &mut Tool, touched: &Touched, given: &Given) {
    if given.number != SLOT_MAP {
        return;
    }
    if let Some(i) = touched.stands() {
        if t.expected_map(i).is_some_and(|map| map == given.codes) {
            t.base.carrier[i].slot = status::OK;
        }
    }
}
