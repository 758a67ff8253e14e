//! Parts of inputs: numbers, names and codes, good and odd.

use std::vec::Vec;

use super::Rng;
use crate::state::*;

pub(super) const ODD_NUMBERS: [u32; 14] =
    [0, 5, 17, 26, 27, 255, 256, 257, 258, 260, 1 << 16, (1 << 16) + 1, 1 << 31, u32::MAX];

/// How many names are in the pool: some more than a tool can hold.
pub const POOL: u32 = 44;

/// Name `k` of the pool. They are of all lengths from 1 to 16, and many are the beginning of
/// another or differ in one byte.
pub fn pool_name(k: u32) -> Vec<u8> {
    let mut name = match k {
        0 => b"!".to_vec(),
        1 => b"~".to_vec(),
        2 => b"A".to_vec(),
        3 => b"AB".to_vec(),
        4 => b"AC".to_vec(),
        5 => b"ABCDEFGH".to_vec(),
        6 => b"ABCDEFGHI".to_vec(),
        7 => b"ABCDEFGHIJKLMNOP".to_vec(),
        8 => b"ABCDEFGHIJKLMNOQ".to_vec(),
        9 => b"ABCDEFGHIJKLMNO".to_vec(),
        10 => b"~~~~~~~~~~~~~~~~".to_vec(),
        11 => b"!!!!!!!!!!!!!!!!".to_vec(),
        _ => std::format!("CARRIER-{k:02}-LONGER").into_bytes(),
    };
    if k >= 12 {
        // From 10, where the number ends, to 16 bytes.
        name.truncate(10 + k as usize % 7);
    }
    name
}

pub(super) fn odd_name(rng: &mut Rng) -> Vec<u8> {
    match rng.below(11) {
        0 => Vec::new(),
        1 => b"ABCDEFGHIJKLMNOPQ".to_vec(),
        2 => std::vec![b'A'; 300],
        3 => std::vec![b'A'; 256],
        4 => b"A B".to_vec(),
        5 => b"AB\0".to_vec(),
        6 => b"\0".to_vec(),
        7 => b"AB\x7F".to_vec(),
        8 => b"\x20".to_vec(),
        9 => std::vec![0xFF; 16],
        _ => {
            // A good name with one byte out of range.
            let mut name = pool_name(rng.below(POOL));
            let at = rng.below(name.len() as u32) as usize;
            name[at] = rng.pick(&[0, 1, 0x1F, 0x20, 0x7F, 0x80, 0xA1, 0xFF]);
            name
        }
    }
}

pub(super) fn good_codes(rng: &mut Rng) -> Vec<u8> {
    let bits = rng.draw();
    (0..MAP_LEN as u64).map(|k| (((bits.rotate_left(k as u32 * 7) & 0xFFFF) * 6) >> 16) as u8).collect()
}

pub(super) fn odd_codes(rng: &mut Rng) -> Vec<u8> {
    match rng.below(7) {
        0 => Vec::new(),
        1 => std::vec![3; 24],
        2 => std::vec![3; 26],
        3 => std::vec![3; 300],
        4 => std::vec![3; 281], // 25 + 256
        5 => std::vec![6; MAP_LEN],
        _ => {
            let mut codes = good_codes(rng);
            codes[rng.below(MAP_LEN as u32) as usize] = rng.pick(&[6, 7, 128, 255]);
            codes
        }
    }
}

/// The name itself, without the padding.
pub fn unpadded(name: &[u8; NAME_LEN]) -> Vec<u8> {
    name.iter().copied().take_while(|&byte| byte != 0).collect()
}

/// The name with zeros after it.
pub fn padded(name: &[u8]) -> [u8; NAME_LEN] {
    let mut to = [0; NAME_LEN];
    to[..name.len()].copy_from_slice(name);
    to
}

/// A name from the pool that has no record, or perhaps one that has, when the pool is nearly used.
pub(super) fn fresh_name(t: &Tool, rng: &mut Rng) -> Vec<u8> {
    for _ in 0..12 {
        let name = pool_name(rng.below(POOL));
        if t.carriers().iter().all(|c| c.name != padded(&name)) {
            return name;
        }
    }
    pool_name(rng.below(POOL))
}

/// The name of a live record for which `wanted` holds; or else a name from the pool.
pub(super) fn live_name(t: &Tool, rng: &mut Rng, wanted: impl Fn(&Carrier) -> bool) -> Vec<u8> {
    let names: Vec<_> = t.carriers().iter().filter(|c| wanted(c)).map(|c| c.name).collect();
    if names.is_empty() {
        pool_name(rng.below(POOL))
    } else {
        unpadded(&rng.pick(&names))
    }
}
