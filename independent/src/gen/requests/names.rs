//! P4: names padded with blanks, and texts that nearly are such names.

use std::vec::Vec;

use crate::gen::parts::{pool_name, POOL};
use crate::gen::{Input, Rng};
use crate::requests::names::{name_of, takes_name, PADDED_LEN};
use crate::state::NAME_LEN;

/// Pads many names and spoils some. A row that takes no name gets a text now and then all the same.
pub(super) fn complete(input: &mut Input, rng: &mut Rng) {
    let takes = takes_name(input.number);
    match rng.below(100) {
        // A missing name of row 2 that isn't missing any more.
        0..=24 if takes && input.name.is_empty() => input.name = std::vec![b' '; 1 + rng.below(33) as usize],
        0..=34 if takes && name_of(&input.name).is_some() => pad(&mut input.name, rng),
        35..=37 if takes => input.name = near_name(&input.name, rng),
        38..=39 if takes => input.name = random_text(rng),
        0..=9 if !takes => input.name = random_text(rng),
        _ => {}
    }
}

/// Blanks at the end of a name, up to 32 bytes.
pub(super) fn pad(name: &mut Vec<u8>, rng: &mut Rng) {
    let longer = name.len() as u32 + 1;
    let any = longer + rng.below(PADDED_LEN as u32 + 1 - longer);
    let length = rng.pick(&[longer, any, any, NAME_LEN as u32, 17, 31, PADDED_LEN as u32]);
    let length = name.len().max(length as usize);
    name.resize(length, b' ');
}

/// A text that is like this name, and is mostly no name.
fn near_name(name: &[u8], rng: &mut Rng) -> Vec<u8> {
    let mut text = name.to_vec();
    text.truncate(NAME_LEN);
    match rng.below(10) {
        0 => text.insert(0, b' '),
        1 => text.insert(rng.below(text.len() as u32 + 1) as usize, b' '),
        2 => text.extend(b" A"),
        // Seventeen left, and sixteen.
        3 => text.resize(17, b'Q'),
        4 => text.resize(16, b'Q'),
        // What else might be dropped from an end.
        5 => text.push(rng.pick(&[0, 0, 9, 10, 13, 0x7F, 0xA0])),
        6 => text.resize(NAME_LEN, 0),
        // Too long, and just not so.
        7 => text.resize(33, b' '),
        8 => text.resize(rng.pick(&[31, 32, 33, 34]), b' '),
        _ => {
            let length = rng.pick(&[0, 1, 2, 15, 16, 17, 31, 32, 33, 34]);
            text = std::vec![b' '; length];
        }
    }
    if rng.chance(40) {
        let any = text.len() as u32 + rng.below(8);
        text.resize(any as usize, b' ');
    }
    text
}

/// Any text of 0 to 40 bytes: of any bytes, of a few, or good ones with blanks at the end.
pub fn random_text(rng: &mut Rng) -> Vec<u8> {
    const FEW: [u8; 8] = [b' ', b' ', b' ', b'A', b'~', b'!', 0, 0x7F];
    let length = rng.below(41);
    match rng.below(4) {
        0 => (0..length).map(|_| rng.draw() as u8).collect(),
        1 => (0..length).map(|_| rng.pick(&FEW)).collect(),
        2 => {
            let left = rng.below(length.min(18) + 1) as usize;
            let mut text: Vec<u8> = (0..left).map(|_| 0x20 + rng.below(0x60) as u8).collect();
            text.resize(length as usize, b' ');
            text
        }
        _ => near_name(&pool_name(rng.below(POOL)), rng),
    }
}
