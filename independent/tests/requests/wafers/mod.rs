//! P8: where Tp comes from, sentence by sentence.

mod as_tp;
mod drawn;
mod refused;
mod times;
mod totals;

use independent::gen::requests::whole;
use independent::requests::wafers_step;

use super::*;
use crate::predict::{access, accessed, fixed, refusal as timed_refusal, shown, tell};

const CLOCK: u32 = 31;
const TP: u32 = 32;
const NONE: u32 = 34;
const WAFERS: u32 = 35;

/// The longest good time, and the first that is too long.
const LONGEST: f64 = 1_048_576.0 - 1.0 / 1024.0;
const TOO_LONG: f64 = 1_048_576.0;
const PART: f64 = 1.0 / 1024.0;

/// Wafers at a clock: the answer, and the reports. A refusal changes nothing.
fn bring(t: &mut Tool, clock: u32, name: &str, times: &[f64]) -> (u32, String) {
    let dirty = Report { model: 9, port: 9, name: [9; 16], old: 9, new: 9 };
    let mut out = Reports { count: 200, items: [dirty; 10] };
    let before = *t;
    let answer = wafers_step(t, clock, name.as_bytes(), times, &mut out);
    assert!(sound(t));
    assert!(answer == 0 || t.bytes() == before.bytes() && out == Reports::NONE);
    (answer, written(&out))
}

fn refusal(t: &Tool, clock: u32, name: &str, times: &[f64]) -> u32 {
    bring(&mut t.clone(), clock, name, times).0
}

/// The Tp that A has after wafers at a clock, which are accepted.
fn tp(clock: u32, times: &[f64]) -> u32 {
    let mut t = accessed(60, 120);
    assert_eq!(bring(&mut t, clock, "A", times).0, 0, "{times:?}");
    t.predictions.of[0].tp().expect("a Tp")
}

/// So many 1/1024ths of a second.
fn parts(parts: u32) -> f64 {
    f64::from_bits(whole(parts))
}
