//! P5: a queue for CarrierOut, sentence by sentence.

mod asked;
mod drawn;
mod dropped;
mod sound;
mod taken;
mod until;

use super::*;

/// A verified carrier comes to the last port and goes to a place of the buffer. The port is as it was.
fn stock(t: &mut Tool, place: u32, name: &str) {
    let port = t.base.ports as u32;
    accept(t, 1, port, 0, name);
    bring(t, port, name);
    accept(t, 18, port, place, "");
}

/// A tool whose places have carriers of these names, from place 1 on.
fn stocked(p: u32, b: u32, names: &[&str]) -> Tool {
    let mut t = tool(p, b);
    for (place, name) in (1..).zip(names) {
        stock(&mut t, place, name);
    }
    t
}

/// The requests as the command line writes them, a name as it is: NAME PORT STARTED, the oldest first.
fn queue(t: &Tool) -> String {
    let one = |r: &independent::requests::queue::Request| {
        let name = String::from_utf8(independent::gen::unpadded(&r.name)).unwrap();
        format!("{name} {} {}", r.port, r.started)
    };
    let all: Vec<_> = t.queue.requests().iter().map(one).collect();
    all.join("; ")
}

/// CarrierOut for each of these: accepted, and no report.
fn ask(t: &mut Tool, requests: &[(&str, u32)]) {
    for &(name, port) in requests {
        assert_eq!(accept(t, 7, port, 0, name), "");
    }
}

/// OutStart and OutDone, both accepted.
fn fetch(t: &mut Tool, port: u32) {
    accept(t, 27, port, 0, "");
    accept(t, 28, port, 0, "");
}

/// The carrier in the buffer is opened, its slot map judged, and access begins.
fn begin_access(t: &mut Tool, name: &str) {
    accept(t, 19, 0, 0, name);
    accept_codes(t, 20, 0, name, &THREES);
    accept(t, 5, 0, 0, name);
    accept(t, 21, 0, 0, name);
}

/// C1 to C16 in sixteen places.
fn sixteen(p: u32) -> (Tool, Vec<String>) {
    let names: Vec<String> = (1..=16).map(|k| format!("C{k}")).collect();
    let given: Vec<&str> = names.iter().map(String::as_str).collect();
    (stocked(p, 16, &given), names)
}

/// The request's own story, from the host's wish to the pod at the port.
#[test]
fn a_carrier_comes_out() {
    let mut t = stocked(2, 3, &["A", "B"]);
    assert_eq!(accept(&mut t, 7, 2, 0, "B"), "");
    assert_eq!(accept(&mut t, 27, 2, 0, ""), "3 2 0>1");
    assert_eq!(queue(&t), "B 2 1");
    assert_eq!(accept(&mut t, 28, 2, 0, ""), "1 2 1>2; 3 2 1>0; 4 2 0>1");
    assert_eq!(queue(&t), "");
    // And in again.
    assert_eq!(accept(&mut t, 8, 0, 0, "B"), "1 2 2>3");
    assert_eq!(accept(&mut t, 18, 2, 3, ""), "1 2 3>1; 4 2 1>0");
    ask(&mut t, &[("B", 1)]);
    fetch(&mut t, 1);
    assert_eq!(record(&t, "B").port, 1);
}

/// Where the requests stand: the count behind the maps, then 16 times name, port and started.
#[test]
fn layout() {
    let mut t = stocked(3, 2, &["A", "ABCDEFGHIJKLMNOP"]);
    assert_eq!(t.bytes()[1891 + 900..], [0; 991]);
    ask(&mut t, &[("ABCDEFGHIJKLMNOP", 3), ("A", 2)]);
    accept(&mut t, 27, 2, 0, "");
    let bytes = t.bytes();
    assert_eq!(bytes[2791], 2);
    assert_eq!(bytes[2792..][..18], *b"ABCDEFGHIJKLMNOP\x03\x00");
    assert_eq!(bytes[2810..][..18], *b"A\0\0\0\0\0\0\0\0\0\0\0\0\0\0\0\x02\x01");
    assert!(bytes[2828..].iter().all(|&byte| byte == 0));
}

/// Numbers from 37 on are none. Document 01's own tool has neither the inputs nor the queue.
#[test]
fn numbers_past_the_last() {
    let t = stocked(1, 1, &["A"]);
    for number in (37..=300).chain([0, 27 + 256, 30 + (1 << 16), 28 + (1 << 31), u32::MAX]) {
        assert_eq!(answer(&t, number, 1, "A", &[]), 1, "{number}");
    }
    let mut base = t.base;
    let mut out = Reports::NONE;
    for number in 27..=36 {
        assert_eq!(independent::step(&mut base, number, 1, 0, b"A", &[], &mut out), 1);
    }
    assert_eq!(independent::step(&mut base, 7, 1, 0, b"A", &[], &mut out), 0);
    assert_eq!(written(&out), "1 1 1>2; 4 1 0>1");
}
