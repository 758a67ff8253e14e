//! Items as a tree, its text, and the tree of a text.

use std::vec::Vec;

use crate::gen::Rng;
use crate::requests::secs::{code, read, Item};

/// An item with all the items within it. How many length bytes each has is not part of it.
#[derive(Clone, PartialEq, Eq, Debug)]
pub enum Tree {
    List(Vec<Tree>),
    /// A code other than a list's, and the data.
    Data(u8, Vec<u8>),
}

impl Tree {
    pub fn ascii(text: &[u8]) -> Tree {
        Tree::Data(code::ASCII, text.to_vec())
    }

    pub fn u1(n: u8) -> Tree {
        Tree::Data(code::U1, std::vec![n])
    }

    /// The tree itself and all the trees within it.
    pub fn items(&self) -> usize {
        match self {
            Tree::List(elements) => 1 + elements.iter().map(Tree::items).sum::<usize>(),
            Tree::Data(..) => 1,
        }
    }

    /// The text with the shortest length bytes.
    pub fn encode_shortest(&self) -> Vec<u8> {
        self.encode(&mut || 1)
    }

    /// The text with any length bytes: often the shortest, or all three.
    pub fn encode_any(&self, rng: &mut Rng) -> Vec<u8> {
        match rng.below(4) {
            0 | 1 => self.encode_shortest(),
            2 => self.encode(&mut || 3),
            _ => self.encode(&mut || 1 + rng.below(3) as usize),
        }
    }

    /// The text. Each item has as many length bytes as `least` says, or more where its length needs
    /// them.
    pub fn encode(&self, least: &mut dyn FnMut() -> usize) -> Vec<u8> {
        let mut text = Vec::new();
        self.write(least, &mut text);
        text
    }

    fn write(&self, least: &mut dyn FnMut() -> usize, text: &mut Vec<u8>) {
        let (code, length) = match self {
            Tree::List(elements) => (code::LIST, elements.len()),
            Tree::Data(code, data) => (*code, data.len()),
        };
        let high_first = (length as u32).to_be_bytes();
        assert!(length < 1 << 24, "three bytes hold the length");
        let needed = match length {
            0..=0xFF => 1,
            0x100..=0xFFFF => 2,
            _ => 3,
        };
        let length_bytes = least().clamp(needed, 3);
        text.push(code << 2 | length_bytes as u8);
        text.extend(&high_first[4 - length_bytes..]);
        match self {
            Tree::List(elements) => elements.iter().for_each(|element| element.write(least, text)),
            Tree::Data(_, data) => text.extend(data),
        }
    }
}

/// The tree of a text that is one item and nothing else; of another, nothing.
pub fn tree_of(message: &[u8]) -> Option<Tree> {
    let reading = read(message);
    if !matches!(reading.refusal(), 0 | 26) {
        return None;
    }
    let mut items = reading.items().iter();
    taken(message, &mut items)
}

/// The tree of the item that comes next.
fn taken(message: &[u8], items: &mut core::slice::Iter<Item>) -> Option<Tree> {
    let item = items.next()?;
    if item.is_list() {
        return (0..item.length).map(|_| taken(message, items)).collect::<Option<_>>().map(Tree::List);
    }
    Some(Tree::Data(item.code, message[item.data()].to_vec()))
}
