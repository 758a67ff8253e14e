//! P7: prediction of ready to unload, sentence by sentence.

mod cancelled;
mod drawn;
mod judged;
mod ready;
mod records;
mod refused;
mod scenarios;
mod sound;

use independent::requests::predict::Prediction;
use independent::requests::time_step;

use super::*;

const CLOCK: u32 = 31;
const TP: u32 = 32;
const TE: u32 = 33;
const NONE: u32 = 34;

/// A tool without a buffer, with these times.
pub fn fixed(p: u32, setting: u32, timeout: u32) -> Tool {
    let mut t = Tool::NONE;
    assert_eq!(setup(p, 0, setting, timeout, &mut t), 0);
    assert!(sound(&t));
    t
}

/// An input that brings the clock: the answer, and the reports. A refusal changes nothing.
fn at(t: &mut Tool, number: u32, clock: u32, name: &str, time: u32) -> (u32, String) {
    let dirty = Report { model: 9, port: 9, name: [9; 16], old: 9, new: 9 };
    let mut out = Reports { count: 200, items: [dirty; 10] };
    let before = *t;
    let answer = time_step(t, number, clock, name.as_bytes(), time, &mut out);
    assert!(sound(t));
    assert!(answer == 0 || t.bytes() == before.bytes() && out == Reports::NONE);
    (answer, written(&out))
}

/// As `at`, and it must be accepted.
pub fn tell(t: &mut Tool, number: u32, clock: u32, name: &str, time: u32) -> String {
    let (answer, reports) = at(t, number, clock, name, time);
    assert_eq!(answer, 0, "row {number} at {clock}");
    reports
}

pub fn refusal(t: &Tool, number: u32, clock: u32, name: &str, time: u32) -> u32 {
    at(&mut t.clone(), number, clock, name, time).0
}

fn foretold(t: &Tool, name: &str) -> Prediction {
    t.predictions.of[position(t, name)]
}

/// The prediction as the command line writes it: STATE TP TE.
pub fn shown(t: &Tool, name: &str) -> String {
    let p = foretold(t, name);
    let time = |time: Option<u32>| time.map_or("-".to_string(), |time| time.to_string());
    format!("{} {} {}", p.state, time(p.tp()), time(p.te()))
}

/// A verified carrier comes to a port, and its access begins.
pub fn access(t: &mut Tool, port: u32, name: &str) -> String {
    accept(t, 1, port, 0, name);
    bring(t, port, name);
    accept(t, 19, 0, 0, name);
    accept_codes(t, 20, 0, name, &THREES);
    accept(t, 5, 0, 0, name);
    accept(t, 21, 0, 0, name)
}

/// One carrier A in access, with these times.
pub fn accessed(setting: u32, timeout: u32) -> Tool {
    let mut t = fixed(1, setting, timeout);
    access(&mut t, 1, "A");
    t
}

/// The access ends and the carrier is closed; the reports of the latter.
pub fn finish(t: &mut Tool, name: &str) -> String {
    accept(t, 22, 0, 0, name);
    accept(t, 23, 0, 0, name)
}

/// Set-up takes both times; now is 0 at first.
#[test]
fn set_up_takes_two_times() {
    let good = [0, 1, 60, 86_399, 86_400];
    let bad = [86_401, 86_400 + (1 << 8), 1 << 17, (1 << 24) + 5, 1 << 31, u32::MAX];
    for (setting, timeout) in good.into_iter().flat_map(|s| good.map(|t| (s, t))) {
        for (p, b) in [(1, 0), (4, 16)] {
            let mut t = Tool::from_bytes(&[0xAB; 3782]).unwrap();
            assert_eq!(setup(p, b, setting, timeout, &mut t), 0);
            assert!(sound(&t));
            let times = &t.predictions;
            assert_eq!((times.clock(), times.setting(), times.timeout()), (0, setting, timeout));
            assert_eq!(t.bytes()[1891..][..1193], [0; 1193]);
            assert_eq!(t.bytes()[1891 + 1201..], [0; 690]);
        }
        for (p, b) in [(0, 0), (5, 0), (1, 17)] {
            refused_set_up(p, b, setting, timeout);
        }
    }
    for wrong in bad {
        for right in good {
            refused_set_up(1, 0, wrong, right);
            refused_set_up(2, 3, right, wrong);
        }
    }
}

fn refused_set_up(p: u32, b: u32, setting: u32, timeout: u32) {
    let mut t = Tool::from_bytes(&[0xAB; 3782]).unwrap();
    assert_eq!(setup(p, b, setting, timeout, &mut t), 1, "{setting} {timeout}");
    assert_eq!(t.bytes(), [0; 3782]);
    assert!(!sound(&t));
    for number in 30..=36 {
        assert_eq!(time_step(&mut t, number, 5, b"A", 5, &mut Reports::NONE.clone()), 1);
        assert_eq!(t.bytes(), [0; 3782]);
    }
}

/// Where the bytes stand: clock, setting and timeout, the low byte first; then 36 entries of 11 bytes.
#[test]
fn layout() {
    let mut t = fixed(2, 0x0001_0203, 0x0001_5180);
    accept(&mut t, 3, 0, 0, "E");
    access(&mut t, 2, "A");
    tell(&mut t, TP, 0x0102_0304, "A", 0xFFFE_FDFC);
    tell(&mut t, TE, 0x0102_0304, "A", 0x0A0B_0C0D);
    let block = &t.bytes()[1891..];
    assert_eq!(block[1189..1193], [4, 3, 2, 1]);
    assert_eq!(block[1193..1197], [3, 2, 1, 0]);
    assert_eq!(block[1197..1201], [0x80, 0x51, 1, 0]);
    assert_eq!(block[1201..1212], [2, 0, 0, 0, 0, 0, 0, 0, 0, 0, 0]);
    assert_eq!(block[1212..1223], [3, 1, 1, 0xFC, 0xFD, 0xFE, 0xFF, 0x0D, 0x0C, 0x0B, 0x0A]);
    assert!(block[1223..].iter().all(|&byte| byte == 0));
    assert_eq!((shown(&t, "E"), shown(&t, "A")), ("2 - -".into(), "3 4294901244 168496141".into()));
}

/// Numbers from 37 on are none, by either way; 35, 36 and those below 31 are not `time_step`'s. Through `step` an
/// input that brings the clock brings 0.
#[test]
fn numbers() {
    let t = accessed(60, 120);
    for number in (0..=30).chain(35..=300).chain([31 + 256, 34 + (1 << 16), 32 + (1 << 31), u32::MAX]) {
        assert_eq!(refusal(&t, number, 5, "A", 5), 1, "{number}");
    }
    for number in (37..=40).chain([31 + 256, 33 + (1 << 31)]) {
        assert_eq!(answer(&t, number, 1, "A", &[]), 1, "{number}");
    }
    let mut u = t;
    assert_eq!(accept(&mut u, CLOCK, 9, 9, "not looked at"), "");
    assert_eq!(u, t);
    assert_eq!(accept_codes(&mut u, TP, 9, "A", &[9; 30]), "8 A 3>4");
    assert_eq!(shown(&u, "A"), "4 0 -");
    tell(&mut u, CLOCK, 1, "", 0);
    assert_eq!((answer(&u, CLOCK, 1, "", &[]), answer(&u, TE, 1, "A", &[])), (11, 11));
}

/// Document 01's own tool has neither the inputs nor the model.
#[test]
fn document_01_has_none_of_it() {
    let mut base = accessed(60, 120).base;
    let mut out = Reports::NONE;
    for number in 31..=35 {
        assert_eq!(independent::step(&mut base, number, 1, 0, b"A", &[], &mut out), 1);
    }
    assert_eq!(independent::step(&mut base, 3, 0, 0, b"N", &[], &mut out), 0);
    assert_eq!(written(&out), "5 N 0>1; 6 N 0>1; 7 N 0>1");
}
