//! P10: two inputs of which the second is to undo the first, with anything in the parts that their rows don't
//! name.

use std::vec::Vec;

use super::maps::expected_map;
use super::names::{pad, random_text};
use super::step;
use crate::gen::parts::{fresh_name, odd_codes, unpadded, ODD_NUMBERS};
use crate::gen::{shuffle, Input, Rng};
use crate::requests::names::takes_name;
use crate::requests::undo::{Named, Pair};
use crate::requests::Tool;
use crate::Reports;

/// Of the rows that stand in a pair: those that have a port, a value, and codes.
const WITH_PORT: [u32; 11] = [1, 2, 7, 9, 10, 11, 12, 13, 15, 24, 26];
const WITH_VALUE: [u32; 4] = [9, 10, 13, 24];
const WITH_CODES: [u32; 2] = [1, 3];

/// Both inputs of a pair for a sound state that accepts the first; nothing where it accepts none. Every
/// second time one of the two names has blanks at its end.
pub fn random_pair(t: &Tool, pair: &Pair, rng: &mut Rng) -> Option<[Input; 2]> {
    let mut first = accepted(t, pair, rng)?;
    let (port, name) = match pair.named {
        Named::PortAndName => (first.port, first.name.clone()),
        Named::Name => (0, first.name.clone()),
        Named::Port => (first.port, Vec::new()),
    };
    let value = pair.value_back(first.value);
    let mut undo = Input { number: pair.undo, port, value, name, ..Input::default() };
    if takes_name(first.number) && rng.chance(50) {
        pad(if rng.chance(50) { &mut first.name } else { &mut undo.name }, rng);
    }
    fill(&mut first, rng);
    fill(&mut undo, rng);
    Some([first, undo])
}

/// A first input of a pair that the state accepts; mostly one that changes it, if there is one.
fn accepted(t: &Tool, pair: &Pair, rng: &mut Rng) -> Option<Input> {
    let mut all = firsts(t, pair, rng);
    shuffle(&mut all, rng);
    let after = |i: &Input| {
        let mut next = *t;
        (step(&mut next, i, &mut { Reports::NONE }) == 0).then_some(next)
    };
    all.retain(|i| after(i).is_some());
    let changes = all.iter().position(|i| after(i).is_some_and(|next| next != *t));
    let k = changes.filter(|_| rng.chance(80)).unwrap_or(0);
    all.into_iter().nth(k)
}

/// Everything that the first of a pair may name in this state.
fn firsts(t: &Tool, pair: &Pair, rng: &mut Rng) -> Vec<Input> {
    let number = pair.first;
    let ports = if WITH_PORT.contains(&number) { 1..=t.base.ports as u32 } else { 0..=0 };
    let values = if WITH_VALUE.contains(&number) { 0..=1 } else { 0..=0 };
    let names = match number {
        1 | 3 => std::vec![fresh_name(&t.base, rng)],
        7 | 19 => t.base.carriers().iter().map(|c| unpadded(&c.name)).collect(),
        _ => std::vec![Vec::new()],
    };
    let codes = if WITH_CODES.contains(&number) && rng.chance(60) { expected_map(rng) } else { Vec::new() };
    let mut all = Vec::new();
    for port in ports {
        for value in values.clone() {
            for name in names.iter().cloned() {
                all.push(Input { number, port, value, name, codes: codes.clone(), ..Input::default() });
            }
        }
    }
    all
}

/// Anything in the parts that the row of an input doesn't name.
fn fill(i: &mut Input, rng: &mut Rng) {
    let any = |rng: &mut Rng| if rng.chance(50) { rng.pick(&ODD_NUMBERS) } else { rng.draw() as u32 };
    if !WITH_PORT.contains(&i.number) {
        i.port = any(rng);
    }
    if !WITH_VALUE.contains(&i.number) {
        i.value = any(rng);
    }
    if !takes_name(i.number) {
        i.name = random_text(rng);
    }
    if !WITH_CODES.contains(&i.number) {
        i.codes = if rng.chance(50) { expected_map(rng) } else { odd_codes(rng) };
    }
}
