//! Judging: when a carrier is PREDICTED and when ABORTED, by the second.

use super::*;

const LAST: u32 = u32::MAX;

/// A carrier in access with a Tp told at this clock; what that reports.
fn told(setting: u32, timeout: u32, clock: u32, tp: u32) -> (Tool, String) {
    let mut t = accessed(setting, timeout);
    let reports = tell(&mut t, TP, clock, "A", tp);
    (t, reports)
}

/// PREDICTED when Tp minus now is at most the setting: by the input for Tp, and by the clock later.
#[test]
fn at_most_the_setting() {
    for setting in [1, 60, 86_400] {
        for (tp, reports) in [(setting - 1, "8 A 3>4"), (setting, "8 A 3>4"), (setting + 1, "")] {
            assert_eq!(told(setting, 120, 1000, 1000 + tp).1, reports);
        }
        let (mut t, reports) = told(setting, 120, 5, 500_000);
        assert_eq!(reports, "");
        assert_eq!(tell(&mut t, CLOCK, 500_000 - setting - 1, "", 0), "");
        assert_eq!(shown(&t, "A"), "3 500000 -");
        assert_eq!(tell(&mut t, CLOCK, 500_000 - setting, "", 0), "8 A 3>4");
        // And no second time.
        assert_eq!(tell(&mut t, CLOCK, 500_000 - setting + 1, "", 0), "");
        assert_eq!(shown(&t, "A"), "4 500000 -");
    }
}

/// A Tp before now is fine: PREDICTED at once, or ABORTED where the timeout is over as well.
#[test]
fn tp_in_the_past() {
    for (ago, state) in [(0, 4), (1, 4), (119, 4), (120, 5), (121, 5), (1000, 5)] {
        let (t, reports) = told(60, 120, 1000, 1000 - ago);
        assert_eq!(reports, format!("8 A 3>{state}"), "{ago} ago");
        assert_eq!(shown(&t, "A"), format!("{state} {} -", 1000 - ago));
        // Without a timeout only the setting counts.
        assert_eq!(told(60, 0, 1000, 1000 - ago).1, "8 A 3>4");
    }
}

/// ABORTED when Te is at least Tp plus timeout; without an estimate Te is now, once Tp has passed.
#[test]
fn at_least_tp_plus_timeout() {
    for timeout in [1, 2, 120, 86_400] {
        let (mut t, reports) = told(60, timeout, 1000, 1000);
        assert_eq!(reports, "8 A 3>4");
        assert_eq!(tell(&mut t, CLOCK, 1000 + timeout - 1, "", 0), "");
        assert_eq!(shown(&t, "A"), "4 1000 -");
        assert_eq!(tell(&mut t, CLOCK, 1000 + timeout, "", 0), "8 A 4>5");
        assert_eq!(tell(&mut t, CLOCK, 1000 + timeout + 5, "", 0), "");
    }
}

/// A timeout of 0 never aborts.
#[test]
fn no_timeout() {
    let (mut t, _) = told(60, 0, 1000, 1000);
    for clock in [1000, 1001, 90_000, LAST] {
        assert_eq!(tell(&mut t, CLOCK, clock, "", 0), "");
    }
    assert_eq!(tell(&mut t, TE, LAST, "A", LAST), "");
    assert_eq!(shown(&t, "A"), format!("4 1000 {LAST}"));
    let mut t = accessed(60, 0);
    tell(&mut t, TP, 0, "A", 500);
    assert_eq!(tell(&mut t, TE, 0, "A", LAST), "");
    assert_eq!(tell(&mut t, CLOCK, 440, "", 0), "8 A 3>4");
}

/// An estimate aborts long before its time, from PREDICTED and from WAITING FOR PREDICTION.
#[test]
fn an_estimate_aborts() {
    for (clock, state) in [(100, 3), (439, 3), (440, 4), (500, 4), (619, 4)] {
        let (mut t, _) = told(60, 120, 0, 500);
        tell(&mut t, CLOCK, clock, "", 0);
        for te in [0, 1, 499, 500, 501, 619] {
            assert_eq!(tell(&mut t.clone(), TE, clock, "A", te), "", "{te}");
        }
        for te in [620, 621, LAST] {
            assert_eq!(tell(&mut t.clone(), TE, clock, "A", te), format!("8 A {state}>5"), "{te}");
        }
    }
}

/// The estimate given stays, and now no longer counts: an early one keeps the abort off for good, and the
/// next one may bring it.
#[test]
fn an_estimate_stays() {
    let (mut t, _) = told(60, 120, 0, 500);
    assert_eq!(tell(&mut t, TE, 1, "A", 619), "");
    assert_eq!(tell(&mut t, CLOCK, 440, "", 0), "8 A 3>4");
    for clock in [620, 100_000, LAST] {
        assert_eq!(tell(&mut t, CLOCK, clock, "", 0), "");
    }
    assert_eq!(tell(&mut t.clone(), TE, LAST, "A", 0), "");
    assert_eq!(tell(&mut t, TE, LAST, "A", 620), "8 A 4>5");
    assert_eq!(shown(&t, "A"), "5 500 620");
}

/// Abort is looked at first: with an estimate that is too late, one that waits never is PREDICTED.
#[test]
fn abort_is_looked_at_first() {
    let (t, _) = told(60, 120, 0, 500);
    assert_eq!(tell(&mut t.clone(), TE, 440, "A", 620), "8 A 3>5");
    assert_eq!(tell(&mut t.clone(), CLOCK, 620, "", 0), "8 A 3>5");
    assert_eq!(tell(&mut t.clone(), CLOCK, 619, "", 0), "8 A 3>4");
    // A setting as long as any: the same clock would do for both.
    let (t, _) = told(1, 1, 0, 5);
    assert_eq!(tell(&mut t.clone(), CLOCK, 6, "", 0), "8 A 3>5");
}

/// Sums don't wrap: near the last clock of all.
#[test]
fn sums_do_not_wrap() {
    // Tp plus timeout is past every clock, and so past every Te.
    for (tp, timeout) in [(LAST, 1), (LAST - 1, 2), (LAST - 86_399, 86_400)] {
        let (mut t, reports) = told(60, timeout, LAST - 100_000, tp);
        assert_eq!(reports, "");
        assert_ne!(tell(&mut t, CLOCK, LAST, "", 0), "8 A 3>5");
        for te in [0, 1, tp, LAST] {
            assert_eq!(tell(&mut t, TE, LAST, "A", te), "", "{te}");
        }
        assert_eq!(foretold(&t, "A").state, 4);
    }
    // One second less, and the last clock aborts.
    let (mut t, _) = told(60, 1, LAST - 62, LAST - 1);
    assert_eq!(tell(&mut t, CLOCK, LAST, "", 0), "8 A 3>5");
    // Now plus setting is past every clock.
    for tp in [LAST - 1, LAST] {
        assert_eq!(told(86_400, 0, LAST - 86_400, tp).1, "8 A 3>4");
        assert_eq!(told(86_400, 0, LAST, tp).1, "8 A 3>4");
        assert_eq!(told(86_400, 0, LAST - 86_401, tp).1, if tp == LAST { "" } else { "8 A 3>4" });
    }
    assert_eq!(told(60, 120, 0, LAST).1, "");
    assert_eq!(told(60, 120, 1 << 31, 0).1, "8 A 3>5");
    assert_eq!(told(60, 120, LAST, 0).1, "8 A 3>5");
}

/// Every carrier with a Tp is judged, in record order, whatever ports they are at and whichever is named.
#[test]
fn all_are_judged_in_record_order() {
    let mut t = fixed(4, 60, 120);
    for (port, name) in [(3, "D"), (1, "B"), (4, "A"), (2, "C")] {
        access(&mut t, port, name);
    }
    for (name, tp) in [("C", 1000), ("A", 900), ("B", 1000), ("D", 1000)] {
        assert_eq!(tell(&mut t, TP, 0, name, tp), "");
    }
    assert_eq!(tell(&mut t.clone(), CLOCK, 940, "", 0), "8 D 3>4; 8 B 3>4; 8 A 3>4; 8 C 3>4");
    assert_eq!(tell(&mut t.clone(), TE, 940, "C", 1120), "8 D 3>4; 8 B 3>4; 8 A 3>4; 8 C 3>5");
    assert_eq!(tell(&mut t.clone(), CLOCK, 1019, "", 0), "8 D 3>4; 8 B 3>4; 8 A 3>4; 8 C 3>4");
    assert_eq!(tell(&mut t.clone(), CLOCK, 1020, "", 0), "8 D 3>4; 8 B 3>4; 8 A 3>5; 8 C 3>4");
    // The named carrier's own comes first, and it is not judged after that.
    assert_eq!(tell(&mut t, NONE, 1020, "C", 0), "8 C 3>5; 8 D 3>4; 8 B 3>4; 8 A 3>5");
    assert_eq!(tell(&mut t, CLOCK, 1120, "", 0), "8 D 4>5; 8 B 4>5");
}

/// A Tp told for one judges the others, too; one without a Tp is not judged.
#[test]
fn each_of_the_four_inputs_judges() {
    let mut t = fixed(2, 60, 120);
    access(&mut t, 1, "A");
    access(&mut t, 2, "B");
    tell(&mut t, TP, 0, "A", 500);
    assert_eq!(tell(&mut t.clone(), CLOCK, 440, "", 0), "8 A 3>4");
    assert_eq!(tell(&mut t.clone(), TP, 440, "B", 501), "8 A 3>4");
    assert_eq!(tell(&mut t.clone(), TE, 440, "A", 0), "8 A 3>4");
    assert_eq!(tell(&mut t.clone(), NONE, 440, "B", 0), "8 B 3>5; 8 A 3>4");
    assert_eq!(tell(&mut t, CLOCK, 86_400, "", 0), "8 A 3>5");
    assert_eq!(shown(&t, "B"), "3 - -");
}

/// Rows that bring no clock judge nobody, however late it is.
#[test]
fn other_rows_do_not_judge() {
    let mut t = fixed(2, 60, 120);
    access(&mut t, 1, "A");
    tell(&mut t, TP, 0, "A", 500);
    tell(&mut t, TE, 0, "A", 0);
    t.predictions.clock = 10_000u32.to_le_bytes();
    t.predictions.of[0].has_te = 0;
    assert!(sound(&t));
    for (number, port, name) in [(1, 2, "B"), (13, 2, ""), (14, 2, ""), (22, 0, "A")] {
        assert!(!accept(&mut t, number, port, 0, name).contains("8 A"), "row {number}");
    }
    assert_eq!(shown(&t, "A"), "3 500 -");
    assert_eq!(tell(&mut t, CLOCK, 10_000, "", 0), "8 A 3>5");
}

/// The states that are not judged: with a Tp and the latest of all clocks they stay.
#[test]
fn states_that_are_not_judged() {
    let (t, _) = told(60, 120, 0, 500);
    for state in [1, 2, 5, 6] {
        let mut u = t;
        u.predictions.of[0].state = state;
        assert_eq!(tell(&mut u, CLOCK, LAST, "", 0), "");
        assert_eq!(tell(&mut u, TE, LAST, "A", LAST), "");
        assert_eq!(shown(&u, "A"), format!("{state} 500 {LAST}"));
    }
    // PREDICTED without a Tp stays, too, and a Te alone changes nothing.
    let mut u = t;
    u.predictions.of[0] = Prediction { state: 4, has_te: 1, te: LAST.to_le_bytes(), ..Prediction::NONE };
    assert_eq!(tell(&mut u, CLOCK, LAST, "", 0), "");
}

/// A setting of 0 with one that waits for its prediction is sound: Tp itself is the time.
#[test]
fn a_setting_of_0_that_waits() {
    let (t, _) = told(60, 120, 0, 500);
    let mut u = t;
    u.predictions.setting = [0; 4];
    assert!(sound(&u));
    assert_eq!(tell(&mut u, CLOCK, 499, "", 0), "");
    assert_eq!(tell(&mut u, CLOCK, 500, "", 0), "8 A 3>4");
}
