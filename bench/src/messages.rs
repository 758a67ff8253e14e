//! Messages from the host bridge: the time of one with SlotMap in both programs, and messages of some kinds whose
//! instructions are counted.

use std::hint::black_box;
use std::time::Instant;

use independent::gen::requests::secs::{slot_map_message, Tree};
use independent::gen::Rng;
use independent::requests::Tool;
use independent::{Plain, Reports};

use crate::machine::{caller_of_hm_secs_step, independent_secs, Secs};
use crate::states::prepared;

const BOTH: [(&str, Secs); 2] = [("proved", caller_of_hm_secs_step), ("independent", independent_secs)];

/// A state with so many live carriers, port 1 of which takes a Bind.
fn ready(carriers: usize) -> Tool {
    let mut rng = Rng::new(17);
    let message = slot_map_message();
    loop {
        let (tool, _) = prepared(carriers, 0, 1, true, &mut rng);
        let (mut next, mut reports) = (tool, Reports::NONE);
        if independent_secs(&mut next, &message, &mut reports).0 == 0 {
            return tool;
        }
    }
}

/// Times a message with SlotMap: to no tool, which is the reading and a look at the tool, and to one that accepts it.
/// Fails where the programs differ.
pub fn time(count: usize, rounds: usize) -> Result<(), String> {
    let message = slot_map_message();
    println!("{count} times a message with SlotMap, {} bytes", message.len());
    for (kind, tool) in [("to no tool", Tool::NONE), ("27 live carriers", ready(27))] {
        let given = BOTH.map(|(_, secs)| {
            let (mut tool, mut reports) = (tool, Reports::NONE);
            (secs(&mut tool, &message, &mut reports), tool.bytes().to_vec(), reports.bytes().to_vec())
        });
        if given[0] != given[1] {
            return Err(format!("a message differs: {:?}, {:?}; run the comparison", given[0].0, given[1].0));
        }
        let mut least = [f64::INFINITY; BOTH.len()];
        for _ in 0..rounds {
            for (least, (_, secs)) in least.iter_mut().zip(BOTH) {
                *least = least.min(one_round(count, &tool, &message, secs));
            }
        }
        for (least, (name, _)) in least.iter().zip(BOTH) {
            println!("{:<32}{least:>9.1} ns per message", format!("{name}, {kind}"));
        }
        println!("ratio of a message, {kind}: {:.2}", least[0] / least[1]);
    }
    Ok(())
}

fn one_round(count: usize, tool: &Tool, message: &[u8], secs: Secs) -> f64 {
    let (secs, mut reports, mut sum) = (black_box(secs), Reports::NONE, 0u32);
    let begun = Instant::now();
    for _ in 0..count {
        let mut tool = *black_box(tool);
        sum = sum.wrapping_add(secs(&mut tool, black_box(message), &mut reports).0);
        black_box(&tool);
    }
    let took = begun.elapsed();
    black_box((sum, &reports));
    took.as_nanos() as f64 / count as f64
}

/// Each call prints `BYTES ITEMS ANSWER CARRIERS KIND`.
pub fn play() {
    let with_map = slot_map_message();
    for (tool, message) in [(&Tool::NONE, &with_map), (&ready(0), &with_map), (&ready(32), &with_map)] {
        call(tool, message, "a message with SlotMap");
    }
    let full = ready(32);
    for (message, kind) in kinds() {
        call(&Tool::NONE, &message, kind);
        call(&full, &message, kind);
    }
}

fn call(tool: &Tool, message: &[u8], kind: &str) {
    let (mut next, mut reports) = (*tool, Reports::NONE);
    let (answer, items) = caller_of_hm_secs_step(&mut next, message, &mut reports);
    println!("{} {items} {answer} {} {kind}", message.len(), tool.base.count);
}

/// A Bind with these attributes.
fn bind(name: &[u8], attributes: Vec<Tree>) -> Vec<u8> {
    let parts =
        vec![Tree::u1(1), Tree::ascii(b"Bind"), Tree::ascii(name), Tree::u1(1), Tree::List(attributes)];
    Tree::List(parts).encode(&mut || 3)
}

fn pair(name: &[u8], value: Tree) -> Tree {
    Tree::List(vec![Tree::ascii(name), value])
}

/// Messages that cost much: as many items as may be, flat and deep, and long texts.
fn kinds() -> Vec<(Vec<u8>, &'static str)> {
    let map = || pair(b"SlotMap", Tree::List(vec![Tree::u1(3); 25]));
    let pairs = |count| (0..count).map(|_| pair(b"Usage", Tree::u1(1)));
    let deep = Tree::List(vec![Tree::List(vec![Tree::List(vec![Tree::u1(1); 117])])]);
    let name = b"CARRIER-01";
    vec![
        (bind(name, Vec::new()), "no attributes"),
        (bind(name, [map()].into_iter().chain(pairs(31)).collect()), "SlotMap and 31 attributes"),
        (bind(name, pairs(40).collect()), "40 attributes"),
        (
            bind(name, vec![map(), pair(b"Usage", Tree::List(vec![Tree::u1(1); 90]))]),
            "SlotMap and 90 in a list",
        ),
        (bind(name, vec![pair(b"Usage", deep)]), "117 numbers in a list at depth six"),
        (bind(&[b'A'; 60_000], vec![map()]), "a name of 60,000 bytes"),
        (Tree::List(vec![Tree::u1(1); 127]).encode(&mut || 3), "a list of 127"),
        (Tree::List(vec![Tree::u1(1); 200]).encode(&mut || 3), "a list of 200"),
        ([1; 400].to_vec(), "lists in lists"),
        (vec![0xFF; 4000], "all ones"),
    ]
}
