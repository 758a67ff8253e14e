//! P3: SECS-II from the host bridge.

mod attributes;
mod generator;
mod items;
mod plain;
mod shape;
mod texts;
mod tool;

use independent::gen::requests::secs::Tree;
use independent::requests::secs::{code, read};

use plain::{plain_order, plain_walk};

/// The refusal and the count of a text. The plain words say the same, of the input too.
fn given(text: &[u8]) -> (u32, usize) {
    let reading = read(text);
    let walk = plain_walk(text);
    let plainly = match &walk.refused {
        Some(all) => Err(all[0]),
        None if !walk.rest.is_empty() => Err(25),
        None => plain_order(walk.tree.as_ref().unwrap()).map_err(|_| 26),
    };
    assert_eq!(reading.refusal(), plainly.as_ref().err().copied().unwrap_or(0), "{text:02x?}");
    assert_eq!(reading.items().len(), walk.begun, "{text:02x?}");
    if let (Ok(order), Ok(plainly)) = (&reading.order, plainly) {
        let read = (order.number, order.port, order.name.to_vec(), order.codes().to_vec());
        assert_eq!(read, plainly, "{text:02x?}");
    }
    (reading.refusal(), reading.items().len())
}

/// The refusal and the count of a tree's text, which are the same with any length bytes.
fn given_tree(tree: &Tree) -> (u32, usize) {
    let shortest = given(&tree.encode_shortest());
    for length_bytes in [2, 3] {
        assert_eq!(given(&tree.encode(&mut || length_bytes)), shortest);
    }
    shortest
}

fn list(elements: &[Tree]) -> Tree {
    Tree::List(elements.to_vec())
}

fn ascii(text: &str) -> Tree {
    Tree::ascii(text.as_bytes())
}

fn u1(n: u8) -> Tree {
    Tree::u1(n)
}

fn data(code: u8, data: &[u8]) -> Tree {
    Tree::Data(code, data.to_vec())
}

fn pair(name: &str, value: Tree) -> Tree {
    list(&[ascii(name), value])
}

fn slots(codes: &[u8]) -> Tree {
    Tree::List(codes.iter().map(|&code| u1(code)).collect())
}

/// A message of an action with these attributes, for carrier AB and port 2.
fn message(action: &str, attributes: &[Tree]) -> Tree {
    list(&[data(code::U4, &[0, 0, 0, 1]), ascii(action), ascii("AB"), u1(2), list(attributes)])
}

/// The items of a message without attributes.
const BARE: usize = 6;

/// The four actions, by their rows.
const ACTIONS: [(&str, u32); 4] =
    [("Bind", 1), ("CarrierNotification", 3), ("ProceedWithCarrier", 5), ("CancelCarrier", 6)];
