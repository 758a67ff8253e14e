//! The tool with document 02's requests.

mod alarms;
#[path = "../common/mod.rs"]
mod common;
mod generator;
mod judged_maps;
mod kept_maps;
mod names;
mod plain;
mod plain_alarms;
mod plain_predict;
mod plain_queue;
mod plain_wafers;
mod pods;
mod predict;
mod queue;
mod runs;
mod soundness;
mod undo;
mod wafers;
mod waiting;

use independent::gen::padded;
use independent::gen::requests::step as step_input;
use independent::requests::{setup, sound, step, Tool};
use independent::{Carrier, Plain, Report, Reports};

const ONES: [u8; 25] = [1; 25];
const THREES: [u8; 25] = [3; 25];
const NO_MAP: [u8; 25] = [0; 25];

/// A map that is neither all ones nor all threes, another for each `k`.
fn mixed(k: usize) -> [u8; 25] {
    core::array::from_fn(|slot| if (slot + k).is_multiple_of(2 + k) { 1 } else { 3 })
}

fn tool(p: u32, b: u32) -> Tool {
    let mut t = Tool::from_bytes(&[0xAB; 3782]).unwrap();
    assert_eq!(setup(p, b, 0, 0, &mut t), 0);
    assert!(sound(&t));
    t
}

/// What an input gives: the answer, and the reports as document 01 writes them. A refusal changes
/// nothing.
fn give(t: &mut Tool, number: u32, port: u32, value: u32, name: &str, codes: &[u8]) -> (u32, String) {
    let dirty = Report { model: 9, port: 9, name: [9; 16], old: 9, new: 9 };
    let mut out = Reports { count: 200, items: [dirty; 10] };
    let before = *t;
    let answer = step(t, number, port, value, name.as_bytes(), codes, &mut out);
    assert!(sound(t));
    assert!(answer == 0 || t.bytes() == before.bytes() && out == Reports::NONE);
    (answer, written(&out))
}

fn written(reports: &Reports) -> String {
    let subject = |r: &Report| match r.port {
        0 => String::from_utf8(r.name.iter().copied().filter(|&b| b != 0).collect()).unwrap(),
        port => port.to_string(),
    };
    let all: Vec<_> = reports
        .as_slice()
        .iter()
        .map(|r| format!("{} {} {}>{}", r.model, subject(r), r.old, r.new))
        .collect();
    all.join("; ")
}

/// An input without codes that must be accepted; its reports.
fn accept(t: &mut Tool, number: u32, port: u32, value: u32, name: &str) -> String {
    let (answer, reports) = give(t, number, port, value, name, &[]);
    assert_eq!(answer, 0, "row {number}");
    reports
}

/// An input with codes that must be accepted; its reports.
fn accept_codes(t: &mut Tool, number: u32, port: u32, name: &str, codes: &[u8]) -> String {
    let (answer, reports) = give(t, number, port, 0, name, codes);
    assert_eq!(answer, 0, "row {number}");
    reports
}

/// The answer to an input, without going on.
fn answer(t: &Tool, number: u32, port: u32, name: &str, codes: &[u8]) -> u32 {
    give(&mut t.clone(), number, port, 0, name, codes).0
}

/// Where the record of a name stands.
fn position(t: &Tool, name: &str) -> usize {
    t.base.carriers().iter().position(|c| c.name == padded(name.as_bytes())).expect("a record")
}

fn record(t: &Tool, name: &str) -> Carrier {
    t.base.carrier[position(t, name)]
}

fn map_of(t: &Tool, name: &str) -> [u8; 25] {
    t.maps[position(t, name)]
}

/// A pod comes to a port, and its tag isn't read yet.
fn load(t: &mut Tool, port: u32) {
    accept(t, 13, port, 0, "");
    accept(t, 14, port, 0, "");
}

/// A pod of this name comes to a port.
fn bring(t: &mut Tool, port: u32, name: &str) -> String {
    load(t, port);
    accept(t, 16, port, 0, name)
}

/// A pod leaves a port: the carrier is cancelled first.
fn take_away(t: &mut Tool, port: u32, name: &str) {
    accept(t, 6, 0, 0, name);
    accept(t, 24, port, 0, "");
    accept(t, 25, port, 0, "");
}
