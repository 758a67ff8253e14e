//! Accepted wafers are as PredictedTime with the Tp that they come to.

use independent::gen::requests::{random_run_input, random_sound_tool, random_times};
use independent::gen::{Input, Rng};
use independent::requests::time_step;

use super::*;
use crate::plain_wafers::{counted, plain_tp};

/// What an input gives: answer, state and reports.
fn outcome(t: &Tool, i: &Input) -> (u32, Tool, Reports) {
    let (mut after, mut out) = (*t, Reports { count: 7, ..Reports::NONE });
    let answer = step_input(&mut after, i, &mut out);
    (answer, after, out)
}

/// The same as the input for Tp, but for what its own words refuse. Whether it was accepted.
fn compared(t: &Tool, i: &Input) -> bool {
    let given = outcome(t, i);
    let tp = plain_tp(i.clock, &i.times());
    let plainly = outcome(t, &Input { number: TP, time: tp.unwrap_or(0) as u32, ..i.clone() });
    match (counted(i.wafers.len()), plainly.0, tp) {
        (false, ..) => assert_eq!(given, (1, *t, Reports::NONE)),
        (true, 0, None) => assert_eq!(given, (12, *t, Reports::NONE)),
        _ => assert_eq!(given, plainly),
    }
    given.0 == 0
}

#[test]
fn as_the_input_for_tp() {
    let mut rng = Rng::new(83);
    let mut accepted = 0;
    for k in 0..120 {
        let (setting, timeout) = random_times(&mut rng);
        let mut t = fixed(1 + k % 4, setting, timeout);
        for _ in 0..1500 {
            let i = random_run_input(&t, &mut rng);
            accepted += (i.number == WAFERS && compared(&t, &i)) as u32;
            step_input(&mut t, &i, &mut Reports::NONE.clone());
        }
    }
    for _ in 0..60_000 {
        let t = random_sound_tool(&mut rng);
        let i = random_run_input(&t, &mut rng);
        accepted += (i.number == WAFERS && compared(&t, &i)) as u32;
    }
    assert!(accepted > 500, "{accepted}");
}

/// PREDICTED when the total is at most the setting, by the second; judged in record order, with all others.
#[test]
fn judged_at_once() {
    let t = accessed(60, 120);
    for (times, reports) in [
        (&[59.0, 0.0][..], "8 A 3>4"),
        (&[60.0, 0.0], "8 A 3>4"),
        (&[60.0, PART], ""),
        (&[59.0, 1.0 + PART], ""),
        (&[61.0, 0.0], ""),
        (&[], "8 A 3>4"),
    ] {
        assert_eq!(bring(&mut t.clone(), 1000, "A", times), (0, reports.into()), "{times:?}");
    }
    let mut t = fixed(2, 60, 120);
    access(&mut t, 2, "B");
    access(&mut t, 1, "A");
    tell(&mut t, TP, 100, "B", 1000);
    assert_eq!(bring(&mut t.clone(), 940, "A", &[30.0, 30.0]).1, "8 B 3>4; 8 A 3>4");
    assert_eq!(bring(&mut t, 1120, "A", &[30.0, 30.5]).1, "8 B 3>5");
    assert_eq!((shown(&t, "A"), shown(&t, "B")), ("3 1181 -".into(), "5 1000 -".into()));
}

/// Names may be padded; through `step` there are no wafers and the clock is 0; `time_step` doesn't take the number.
#[test]
fn other_ways() {
    let t = accessed(60, 120);
    for name in ["A ", "A                               "] {
        assert_eq!(refusal(&t, 5, name, &[1.0, 1.0]), 0);
    }
    assert_eq!(refusal(&t, 5, "A                                ", &[1.0, 1.0]), 1);
    let mut u = t;
    assert_eq!(accept_codes(&mut u, WAFERS, 9, "A", &[9; 30]), "8 A 3>4");
    assert_eq!((shown(&u, "A"), answer(&u, WAFERS, 9, "N", &[])), ("4 0 -".into(), 2));
    let mut u = t;
    tell(&mut u, CLOCK, 1, "", 0);
    assert_eq!(answer(&u, WAFERS, 1, "A", &[]), 11);
    for time in [0, 5, u32::MAX] {
        assert_eq!(timed_refusal(&t, WAFERS, 5, "A", time), 1);
    }
    assert_eq!(time_step(&mut Tool::NONE.clone(), WAFERS, 5, b"A", 5, &mut Reports::NONE.clone()), 1);
}

/// Only where Tp is awaited: not before the access, not a second time, not after it is aborted.
#[test]
fn where_tp_is_awaited() {
    let mut t = fixed(1, 60, 120);
    accept(&mut t, 3, 0, 0, "A");
    assert_eq!(refusal(&t, 5, "A", &[1.0, 1.0]), 5);
    let mut t = accessed(60, 120);
    assert_eq!(bring(&mut t, 5, "A", &[100.0, 0.0]), (0, "".into()));
    assert_eq!((refusal(&t, 5, "A", &[100.0, 0.0]), timed_refusal(&t, TP, 5, "A", 9)), (5, 5));
    let mut t = accessed(60, 120);
    tell(&mut t, TP, 5, "A", 500);
    assert_eq!(refusal(&t, 5, "A", &[]), 5);
    let mut t = accessed(60, 120);
    tell(&mut t, NONE, 5, "A", 0);
    assert_eq!(refusal(&t, 5, "A", &[]), 5);
    assert_eq!(refusal(&accessed(0, 120), 5, "A", &[]), 5);
}
