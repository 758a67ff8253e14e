//! States that no run reaches, and places where document 01 can be read in two ways: one case for
//! each reading that this program takes.

mod equipment;
mod host;

use independent::gen::padded;
use independent::{setup, sound, step, Carrier, Report, Reports, Tool};

/// A tool made by hand; ties are filled in from the carriers.
fn tool(p: u32, b: u32, make: impl FnOnce(&mut Tool)) -> Tool {
    let mut t = Tool::NONE;
    assert_eq!(setup(p, b, &mut t), 0);
    make(&mut t);
    for c in t.carriers().to_vec() {
        if c.port != 0 {
            t.port[c.port as usize - 1].tie = c.name;
        }
    }
    assert!(sound(&t));
    t
}

fn add(t: &mut Tool, name: &str, change: impl FnOnce(&mut Carrier)) {
    let mut c = Carrier::new(padded(name.as_bytes()));
    change(&mut c);
    t.carrier[t.count as usize] = c;
    t.count += 1;
}

fn at_port(c: &mut Carrier, port: u8) {
    (c.place, c.port) = (1, port);
}

fn in_buffer(c: &mut Carrier, spot: u8) {
    (c.place, c.spot) = (2, spot);
}

/// A port that is idle and BLOCKED, with a pod.
fn pod(t: &mut Tool, port: usize, tag: u8) {
    let port = &mut t.port[port - 1];
    (port.transfer, port.pod, port.tag) = (3, 1, tag);
}

fn give(t: &mut Tool, number: u32, port: u32, value: u32, name: &str) -> (u32, Vec<(u8, u8, u8)>) {
    let mut out = Reports::NONE;
    let before = *t;
    let answer = step(t, number, port, value, name.as_bytes(), &[], &mut out);
    assert!(sound(t));
    assert!(answer == 0 || *t == before && out == Reports::NONE);
    (answer, out.as_slice().iter().map(|r: &Report| (r.model, r.old, r.new)).collect())
}

fn accepted(t: &mut Tool, number: u32, port: u32, value: u32, name: &str) -> Vec<(u8, u8, u8)> {
    let (answer, reports) = give(t, number, port, value, name);
    assert_eq!(answer, 0);
    reports
}

fn refused(t: &Tool, number: u32, port: u32, value: u32, name: &str) -> u32 {
    let answer = give(&mut t.clone(), number, port, value, name).0;
    assert_ne!(answer, 0);
    answer
}
