//! Trees that are nearly those of a message.

use std::vec::Vec;

use super::orders::{random_attribute, random_data, random_value, slot_map};
use super::Tree;
use crate::gen::Rng;
use crate::requests::secs::{code, FORMATS, MAX_ITEMS};

/// The tree of a message with one thing changed. Some changes make no difference.
pub fn near_miss(message: Tree, rng: &mut Rng) -> Tree {
    let Tree::List(mut five) = message else { return message };
    match rng.below(10) {
        0 => other_format(&mut five, rng),
        1 => other_length(&mut five, rng),
        2 => five[1] = other_action(rng),
        3 => other_count(&mut five, rng),
        4 => attributes(&mut five, |list| list.insert(0, other_slot_map(rng))),
        5 => attributes(&mut five, |list| list.push(no_attribute(rng))),
        // The second of two; then only the first is judged.
        6 => attributes(&mut five, |list| {
            list.splice(..0, [random_attribute(true, rng), other_slot_map(rng)]).for_each(drop)
        }),
        7 => attributes(&mut five, |list| list.push(deep(rng))),
        8 => fill(&mut five, rng.pick(&[127, 128, 128, 129, 129, 130, 140])),
        _ => attributes(&mut five, |list| list.push(odd_value(rng))),
    }
    Tree::List(five)
}

fn attributes(five: &mut [Tree], change: impl FnOnce(&mut Vec<Tree>)) {
    if let Some(Tree::List(list)) = five.last_mut() {
        change(list);
    }
}

/// One of the five has another format.
fn other_format(five: &mut [Tree], rng: &mut Rng) {
    let at = rng.below(five.len() as u32) as usize;
    five[at] = match rng.below(4) {
        0 => Tree::List(Vec::new()),
        1 => Tree::List(std::vec![five[at].clone()]),
        2 => Tree::Data(rng.pick(&[code::ASCII, code::BINARY, code::U1]), Vec::new()),
        _ => random_data(rng.pick(&FORMATS[1..]).0, rng),
    };
}

/// Data id or port holds no value, two, or a part of one.
fn other_length(five: &mut [Tree], rng: &mut Rng) {
    let at = rng.pick(&[0, 3]);
    if let Tree::Data(_, data) = &mut five[at] {
        match rng.below(4) {
            0 => data.clear(),
            1 => data.extend(data.clone()),
            2 => data.push(0),
            _ => data.truncate(data.len() / 2),
        }
    }
}

fn other_action(rng: &mut Rng) -> Tree {
    Tree::ascii(rng.pick(&[
        &b""[..],
        b"bind",
        b"Bind ",
        b" Bind",
        b"Bin",
        b"Bind\0",
        b"BindX",
        b"CancelBind",
        b"CarrierNotificatio",
        b"CancelCarrierNotification",
        b"CancelCarrie",
        b"CancelCarrierOut",
        b"ProceedWithCarriers",
        b"CarrierOut",
        b"Open",
    ]))
}

/// Four or six instead of five.
fn other_count(five: &mut Vec<Tree>, rng: &mut Rng) {
    let at = rng.below(five.len() as u32) as usize;
    match rng.below(3) {
        0 => drop(five.remove(at)),
        1 => five.insert(at, five[at].clone()),
        _ => five.push(random_value(2, rng)),
    }
}

/// A SlotMap of another shape: more or fewer slots, other slots, or no list.
fn other_slot_map(rng: &mut Rng) -> Tree {
    let mut slots: Vec<Tree> = (0..25).map(|_| Tree::u1(rng.pick(&[1, 3]))).collect();
    let at = rng.below(25) as usize;
    match rng.below(9) {
        0 => slots.truncate(24),
        1 => slots.push(Tree::u1(3)),
        2 => slots.clear(),
        3 => slots[at] = Tree::Data(code::U2, std::vec![0, 3]),
        4 => slots[at] = Tree::Data(rng.pick(&[code::I1, code::BINARY, code::BOOLEAN]), std::vec![3]),
        5 => slots[at] = Tree::Data(code::U1, rng.pick(&[&[][..], &[3, 3]]).to_vec()),
        6 => slots[at] = Tree::List(std::vec![Tree::u1(3)]),
        // One item instead of 25; any codes, which the reader doesn't judge.
        7 => {
            let code = rng.pick(&[code::BINARY, code::U1, code::ASCII]);
            return Tree::List(std::vec![Tree::ascii(b"SlotMap"), Tree::Data(code, std::vec![3; 25])]);
        }
        _ => return slot_map(&[(); 25].map(|_| rng.draw() as u8)),
    }
    Tree::List(std::vec![Tree::ascii(b"SlotMap"), Tree::List(slots)])
}

/// What stands where an attribute should, and is none.
fn no_attribute(rng: &mut Rng) -> Tree {
    let name = || Tree::ascii(b"Capacity");
    match rng.below(6) {
        0 => Tree::List(Vec::new()),
        1 => Tree::List(std::vec![name()]),
        2 => Tree::List(std::vec![name(), Tree::u1(1), Tree::u1(2)]),
        3 => Tree::List(std::vec![Tree::u1(1), name()]),
        4 => Tree::List(std::vec![Tree::List(std::vec![name()]), Tree::u1(1)]),
        _ => name(),
    }
}

/// An attribute with lists within lists, to depth six or seven or more.
fn deep(rng: &mut Rng) -> Tree {
    let mut value = if rng.chance(50) { Tree::u1(1) } else { Tree::List(Vec::new()) };
    for _ in 0..rng.pick(&[1, 2, 2, 3, 3, 4, 6]) {
        value = Tree::List(std::vec![value]);
    }
    Tree::List(std::vec![Tree::ascii(b"Usage"), value])
}

/// Attributes of one item more, until there are so many items; lists have room for any.
fn fill(five: &mut [Tree], items: usize) {
    let begun = 1 + five.iter().map(Tree::items).sum::<usize>();
    // An attribute has a list, a name and a list.
    let missing = items.saturating_sub(begun + 3).min(MAX_ITEMS + 12);
    let value = Tree::List(std::vec![Tree::u1(0); missing]);
    attributes(five, |list| list.push(Tree::List(std::vec![Tree::ascii(b"Usage"), value])));
}

/// An attribute whose value holds none or two, or a part of one, or has a code that is unknown.
fn odd_value(rng: &mut Rng) -> Tree {
    let mut code = rng.pick(&FORMATS[1..]).0;
    if rng.chance(25) {
        code = rng.pick(&[0o21, 0o22, 0o01, 0o07, 0o33, 0o77, 0o55]);
    }
    let length = rng.pick(&[0, 2, 3, 4, 8, 16]);
    let mut value = Tree::Data(code, std::vec![1; length]);
    if rng.chance(30) {
        value = Tree::List(std::vec![Tree::u1(0), value]);
    }
    Tree::List(std::vec![Tree::ascii(b"Usage"), value])
}
