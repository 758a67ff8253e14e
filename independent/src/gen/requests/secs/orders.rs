//! Messages of the right shape.

use std::vec::Vec;

use super::Tree;
use crate::gen::requests::maps::expected_map;
use crate::gen::{Input, Rng};
use crate::requests::secs::{code, element_size, FORMATS};

/// How many lists within each other an attribute's value may be: the message, its attributes and the
/// attribute are three already.
const VALUE_DEPTH: u32 = 3;

/// The tree of a message that asks for this input, which is of row 1, 3, 5 or 6, if its port is one
/// byte and its codes are 25 or none. What the message has besides, as the data id or more
/// attributes, is drawn.
pub fn order_tree(input: &Input, rng: &mut Rng) -> Tree {
    let action: &[u8] = match input.number {
        1 => b"Bind",
        3 => b"CarrierNotification",
        5 => b"ProceedWithCarrier",
        _ => b"CancelCarrier",
    };
    let port = if input.number == 3 && rng.chance(70) { rng.draw() as u8 } else { input.port as u8 };
    let mut attributes = Vec::new();
    if input.codes.len() == 25 {
        attributes.push(slot_map(&input.codes));
    } else if !matches!(input.number, 1 | 3) && rng.chance(20) {
        attributes.push(slot_map(&expected_map(rng)));
    }
    for _ in 0..rng.pick(&[0, 0, 0, 1, 1, 2, 4]) {
        attributes.push(random_attribute(attributes.is_empty(), rng));
    }
    let name = Tree::ascii(&input.name);
    Tree::List(std::vec![data_id(rng), Tree::ascii(action), name, Tree::u1(port), Tree::List(attributes)])
}

/// One message that many hosts send: a Bind that carries a map.
pub fn slot_map_message() -> Vec<u8> {
    let data_id = Tree::Data(code::U4, std::vec![0, 0, 0, 1]);
    let (action, name) = (Tree::ascii(b"Bind"), Tree::ascii(b"CARRIER-01"));
    let attributes = Tree::List(std::vec![slot_map(&[3; 25])]);
    Tree::List(std::vec![data_id, action, name, Tree::u1(1), attributes]).encode_shortest()
}

/// Any unsigned format.
fn data_id(rng: &mut Rng) -> Tree {
    random_data(rng.pick(&[code::U1, code::U2, code::U4, code::U8]), rng)
}

pub(super) fn slot_map(codes: &[u8]) -> Tree {
    let slots = codes.iter().map(|&code| Tree::u1(code)).collect();
    Tree::List(std::vec![Tree::ascii(b"SlotMap"), Tree::List(slots)])
}

/// A pair of a name and any value. Some names are nearly SlotMap, and SlotMap itself is one that may
/// have any value where it doesn't stand first.
pub(super) fn random_attribute(first: bool, rng: &mut Rng) -> Tree {
    const NAMES: [&[u8]; 8] =
        [b"Capacity", b"SubstrateCount", b"Usage", b"", b"slotmap", b"SlotMa", b"SlotMap ", b"SlotMap"];
    let name = rng.pick(&NAMES[..NAMES.len() - first as usize]);
    Tree::List(std::vec![Tree::ascii(name), random_value(VALUE_DEPTH, rng)])
}

/// An item of any format, that has lists to this depth.
pub(super) fn random_value(depth: u32, rng: &mut Rng) -> Tree {
    if depth > 0 && rng.chance(25) {
        let elements = rng.pick(&[0, 1, 1, 2, 3]);
        return Tree::List((0..elements).map(|_| random_value(depth - 1, rng)).collect());
    }
    let formats = &FORMATS[1..];
    random_data(rng.pick(formats).0, rng)
}

/// One number or boolean of any bits, or a text or bytes of any length.
pub(super) fn random_data(code: u8, rng: &mut Rng) -> Tree {
    let length = match code {
        code::ASCII | code::BINARY => rng.pick(&[0, 1, 2, 7, 16, 40, 255, 256, 300]),
        _ => element_size(code).unwrap_or(1),
    };
    Tree::Data(code, (0..length).map(|_| random_byte(code, rng)).collect())
}

/// Letters in a text; elsewhere any byte, and often those of zeros, ones and infinities.
fn random_byte(code: u8, rng: &mut Rng) -> u8 {
    match code {
        code::ASCII if rng.chance(95) => 0x20 + rng.below(0x5F) as u8,
        _ if rng.chance(40) => rng.pick(&[0, 0, 1, 0x7F, 0x80, 0xF0, 0xFF]),
        _ => rng.draw() as u8,
    }
}
