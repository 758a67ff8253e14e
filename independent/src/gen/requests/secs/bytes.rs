//! Texts that are damaged, and texts that are none.

use std::vec::Vec;

use super::Tree;
use crate::gen::Rng;
use crate::requests::secs::{read, FORMATS};

/// A text that is cut, has bytes left over, or one byte changed; or an item of it has no length
/// byte, another length, or another code.
pub fn damaged(message: &[u8], rng: &mut Rng) -> Vec<u8> {
    let mut text = message.to_vec();
    let any = rng.below(text.len().max(1) as u32) as usize;
    let items = read(message);
    let at = match items.items() {
        [] => 0,
        items => rng.pick(items).at as usize,
    };
    match rng.below(10) {
        0..=2 => text.truncate(any),
        3 => text.extend((0..1 + rng.below(4)).map(|_| rng.pick(&[0, 1, 0xA5, 0xFF]))),
        4 if !text.is_empty() => text[any] = rng.draw() as u8,
        5 if !text.is_empty() => drop(text.remove(any)),
        6 => text.insert(any, rng.draw() as u8),
        7 if !text.is_empty() => text[at] &= 0xFC,
        8 if at + 1 < text.len() => {
            text[at + 1] = text[at + 1].wrapping_add(rng.pick(&[1, 1, 0xFF, 0x80, 0x7F, 2, 3]))
        }
        _ if !text.is_empty() => text[at] = text[at] & 3 | (rng.draw() as u8 & 0xFC),
        _ => {}
    }
    text
}

/// Bytes that nobody would send: as few as none, as many as some ten thousand.
pub fn hostile(rng: &mut Rng) -> Vec<u8> {
    let length = rng.pick(&[0, 1, 2, 3, 4, 5, 8, 20, 60, 300]);
    let formats = |rng: &mut Rng| rng.pick(&FORMATS).0 << 2 | rng.below(4) as u8;
    match rng.below(14) {
        0 => std::vec![rng.pick(&[0xFF, 0, 1, 2, 3, 4, 0x41, 0xA5, 0xFC]); length],
        1 => (0..length).map(|_| rng.draw() as u8).collect(),
        2 => (0..length).map(|_| formats(rng)).collect(),
        3 => (0..length).map(|_| rng.pick(&[0, 1, 1, 1, 2, 0x41, 0xA5])).collect(),
        4 => nested(rng.pick(&[5, 6, 7, 8, 40, 1000]), rng),
        5 => flat(rng.pick(&[126, 127, 128, 129, 255, 256, 1000]), rng),
        6 => announced(rng),
        7 => long(rng),
        // Lists of one or two within each other, and other items here and there.
        8 => (0..length / 2).flat_map(|_| [rng.pick(&[1, 1, 1, 0xA5]), rng.pick(&[1, 1, 2, 0])]).collect(),
        9 => [std::vec![1, 5], (0..length).map(|_| formats(rng)).collect()].concat(),
        _ => last_item(rng),
    }
}

/// An item that is refused for more than one reason, or for none: within few lists or many, after few
/// items or as many as there may be.
fn last_item(rng: &mut Rng) -> Vec<u8> {
    const ITEMS: [&[u8]; 16] = [
        &[],
        &[1],
        &[3, 0, 0],
        &[0xA9, 2, 0],
        &[0xA9, 3, 0],
        &[0xA9, 3, 0, 0, 0],
        &[0xA8],
        &[0],
        &[0xFC],
        &[0xFD],
        &[0xFD, 1],
        &[0xFD, 1, 0],
        &[0x45, 1, 0x41],
        &[1, 0],
        &[1, 1],
        &[0xA5, 1, 0],
    ];
    let lists = rng.pick(&[1, 5, 6, 6, 6]);
    let before = rng.pick(&[lists, 40, 127, 128, 128, 128]);
    let mut text = std::vec![1, 0xFF];
    text.extend([0xA5, 1, 0].repeat(before - lists));
    text.extend([1, 1].repeat(lists - 1));
    text.extend(rng.pick(&ITEMS));
    text
}

/// Lists within lists.
fn nested(depth: u32, rng: &mut Rng) -> Vec<u8> {
    let innermost = rng.pick(&[&[1, 0][..], &[0xA5, 1, 7], &[0], &[]]);
    [[1, 1].repeat(depth as usize), innermost.to_vec()].concat()
}

/// One list of so many small items.
fn flat(elements: usize, rng: &mut Rng) -> Vec<u8> {
    let small = rng.pick(&[0, 1, 2]);
    let element = || match small {
        0 => Tree::List(Vec::new()),
        1 => Tree::u1(1),
        _ => Tree::ascii(b""),
    };
    Tree::List((0..elements).map(|_| element()).collect()).encode_any(rng)
}

/// A length of two or three bytes that promises more than there is.
fn announced(rng: &mut Rng) -> Vec<u8> {
    let code = rng.pick(&FORMATS).0;
    let mut text = std::vec![code << 2 | rng.pick(&[2, 3]), rng.draw() as u8, rng.draw() as u8];
    text.extend((0..rng.below(40)).map(|_| rng.pick(&[0, 1, 0xFF, 0xA5])));
    text
}

/// One text or list of bytes that needs two or three length bytes.
fn long(rng: &mut Rng) -> Vec<u8> {
    let length = rng.pick(&[255, 256, 257, 4096, 65_535, 65_536, 70_001]);
    let mut text = Tree::ascii(&std::vec![b'A'; length]).encode_any(rng);
    if rng.chance(30) {
        text.pop();
    }
    text
}
