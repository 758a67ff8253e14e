//! P3: messages of the host bridge, good, nearly good, damaged and hostile.

mod bytes;
mod faults;
mod orders;
mod tree;

use std::vec::Vec;

use super::random_run_input;
use crate::gen::{Input, Rng};
use crate::requests::Tool;

pub use bytes::{damaged, hostile};
pub use faults::near_miss;
pub use orders::{order_tree, slot_map_message};
pub use tree::{tree_of, Tree};

/// A message for this state, as a bridge might send it: most ask for an input that a run might meet,
/// the others have another shape, or bytes that are no items at all.
pub fn random_message(t: &Tool, rng: &mut Rng) -> Vec<u8> {
    let tree = order_tree(&random_order(t, rng), rng);
    match rng.below(100) {
        0..=44 => tree.encode_any(rng),
        45..=69 => near_miss(tree, rng).encode_any(rng),
        70..=86 => damaged(&tree.encode_any(rng), rng),
        _ => hostile(rng),
    }
}

/// The rows that a message can ask for.
const ROWS: [u32; 4] = [1, 3, 5, 6];

/// An input of such a row: of the one that comes first in a run, or of one that is chosen before.
fn random_order(t: &Tool, rng: &mut Rng) -> Input {
    let number = rng.pick(&ROWS);
    let any = rng.chance(60);
    for _ in 0..12 {
        let input = random_run_input(t, rng);
        if input.number == number || any && ROWS.contains(&input.number) {
            return input;
        }
    }
    Input { number, ..random_run_input(t, rng) }
}
