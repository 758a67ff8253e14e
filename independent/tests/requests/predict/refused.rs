//! What the inputs that bring the clock are refused for: 1, 2, 5 and 11, the lowest first.

use super::*;

/// A tool at clock 100: A waits for its prediction, B has a Tp, E is expected.
fn waiting() -> Tool {
    let mut t = fixed(2, 60, 120);
    access(&mut t, 1, "A");
    access(&mut t, 2, "B");
    accept(&mut t, 3, 0, 0, "E");
    tell(&mut t, TP, 100, "B", 1000);
    t
}

/// The tool with A in this state, with a Tp or without.
fn in_state(state: u8, tp: bool) -> Tool {
    let mut t = waiting();
    t.predictions.of[0].state = state;
    if tp {
        t.predictions.of[0].set_tp(5000);
    }
    assert!(sound(&t));
    t
}

/// Tp only in WAITING FOR PREDICTION, and only one.
#[test]
fn tp_outside_of_waiting_and_a_second_one() {
    for state in 1..=6 {
        assert_eq!(refusal(&in_state(state, false), TP, 100, "A", 9000), if state == 3 { 0 } else { 5 });
        assert_eq!(refusal(&in_state(state, true), TP, 100, "A", 9000), 5, "state {state}");
    }
    let mut t = waiting();
    for tp in [0, 999, 1000, 1001, u32::MAX] {
        assert_eq!(refusal(&t, TP, 100, "B", tp), 5);
    }
    tell(&mut t, CLOCK, 940, "", 0);
    assert_eq!((shown(&t, "B"), refusal(&t, TP, 940, "B", 2000)), ("4 1000 -".into(), 5));
}

/// Te in every state once there is a Tp; without one in none, not even one that has a Te.
#[test]
fn te_without_tp() {
    for state in 1..=6 {
        assert_eq!(refusal(&in_state(state, true), TE, 100, "A", 9), 0, "state {state}");
        let mut t = in_state(state, false);
        assert_eq!(refusal(&t, TE, 100, "A", 9), 5, "state {state}");
        t.predictions.of[0].set_te(7);
        assert_eq!(refusal(&t, TE, 100, "A", 9), 5, "state {state}");
    }
    assert_eq!(refusal(&waiting(), TE, 100, "E", 9), 5);
}

/// "No prediction" in WAITING FOR PREDICTION alone, with a Tp too.
#[test]
fn no_prediction_outside_of_waiting() {
    for state in 1..=6 {
        for tp in [false, true] {
            let mut t = in_state(state, tp);
            assert_eq!(refusal(&t, NONE, 100, "A", 0), if state == 3 { 0 } else { 5 });
            if state == 3 {
                assert_eq!(tell(&mut t, NONE, 100, "A", 0), "8 A 3>5");
                assert_eq!(shown(&t, "A"), if tp { "5 5000 -" } else { "5 - -" });
                assert_eq!(refusal(&t, NONE, 100, "A", 0), 5);
            }
        }
    }
    assert_eq!(refusal(&waiting(), NONE, 100, "E", 0), 5);
}

/// A clock earlier than the last accepted is 11; the same clock is not.
#[test]
fn a_clock_that_runs_back() {
    let t = waiting();
    for (number, name) in [(CLOCK, ""), (TP, "A"), (TE, "B"), (NONE, "A")] {
        for clock in [0, 1, 99] {
            assert_eq!(refusal(&t, number, clock, name, 2000), 11);
        }
        for clock in [100, 101, u32::MAX] {
            assert_eq!(refusal(&t, number, clock, name, 2000), 0);
        }
    }
    let mut t = waiting();
    tell(&mut t, CLOCK, u32::MAX, "", 0);
    assert_eq!(refusal(&t, CLOCK, u32::MAX - 1, "", 0), 11);
    assert_eq!((refusal(&t, CLOCK, 0, "", 0), refusal(&t, CLOCK, u32::MAX, "", 0)), (11, 0));
}

/// The lowest number that applies: 1, 2, 5, 11.
#[test]
fn the_lowest_number() {
    let t = waiting();
    for number in [TP, TE, NONE] {
        for clock in [0, 99, 100, 5000] {
            for bad in ["", " ", " A", "A B", "ABCDEFGHIJKLMNOPQ", "A\u{7F}"] {
                assert_eq!(refusal(&t, number, clock, bad, 9), 1, "{bad:?}");
            }
            assert_eq!(refusal(&t, number, clock, "N", 9), 2);
            assert_eq!(refusal(&t, number, clock, "E", 9), 5);
        }
    }
    // A second Tp, Te without Tp, and the clock runs back: 5.
    assert_eq!((refusal(&t, TP, 99, "B", 9), refusal(&t, TE, 99, "A", 9)), (5, 5));
    // Where nothing but the clock is wrong.
    assert_eq!((refusal(&t, TP, 99, "A", 9), refusal(&t, TE, 99, "B", 9)), (11, 11));
    assert_eq!((refusal(&t, NONE, 99, "A", 9), refusal(&t, NONE, 99, "B", 9)), (11, 11));
}

/// A refused input leaves the clock alone, and judges nobody; an accepted one of each row sets it.
#[test]
fn the_clock_of_a_refused_input() {
    let mut t = waiting();
    for (number, name) in [(TP, "B"), (TE, "A"), (NONE, "E"), (TP, "N"), (TE, " ")] {
        assert_ne!(at(&mut t, number, 990, name, 5).0, 0);
        assert_eq!((t.predictions.clock(), shown(&t, "B")), (100, "3 1000 -".into()));
    }
    for (k, (number, name)) in [(CLOCK, ""), (TP, "A"), (TE, "A"), (NONE, "A")].into_iter().enumerate() {
        let clock = 101 + k as u32;
        tell(&mut t, number, clock, name, 3000);
        assert_eq!((t.predictions.clock(), refusal(&t, CLOCK, clock - 1, "", 0)), (clock, 11));
    }
}

/// The row of the clock alone doesn't look at its name, and "no prediction" not at a time; names may be
/// padded.
#[test]
fn parts_that_are_not_named() {
    let mut t = waiting();
    for name in ["", " ", "N", "A B", "this is no name, and far too long for one"] {
        assert_eq!(tell(&mut t, CLOCK, 100, name, u32::MAX), "");
    }
    assert_eq!(tell(&mut t.clone(), NONE, 100, "A  ", u32::MAX), "8 A 3>5");
    assert_eq!(tell(&mut t, TP, 100, "A                               ", 160), "8 A 3>4");
    assert_eq!(refusal(&t, TE, 100, "A                                ", 160), 1);
    assert_eq!(tell(&mut t, TE, 100, "A ", 280), "8 A 4>5");
}

/// A state that isn't sound is answered 1, with nothing changed.
#[test]
fn a_state_that_is_not_sound() {
    let mut t = waiting();
    t.predictions.of[0].state = 7;
    let mut out = Reports { count: 3, ..Reports::NONE };
    for number in 31..=34 {
        let before = t;
        assert_eq!(time_step(&mut t, number, 100, b"A", 5, &mut out), 1);
        assert_eq!((t, out), (before, Reports::NONE));
    }
}
