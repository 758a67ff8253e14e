//! CancelCarrier and AccessStart: how a carrier leaves WAITING FOR CARRIER, and what a cancel is to the
//! other states.

use super::*;

/// A at port 1, read and verified, at clock 50.
fn placed(setting: u32, timeout: u32) -> Tool {
    let mut t = fixed(1, setting, timeout);
    accept(&mut t, 1, 1, 0, "A");
    bring(&mut t, 1, "A");
    tell(&mut t, CLOCK, 50, "", 0);
    t
}

/// AccessStart: 23, or 26 when the setting is 0. No Tp comes of it.
#[test]
fn access_starts() {
    let mut t = fixed(1, 1, 0);
    assert_eq!(access(&mut t, 1, "A"), "7 A 1>2; 8 A 2>3");
    assert_eq!(shown(&t, "A"), "3 - -");
    let mut t = fixed(1, 0, 120);
    assert_eq!(access(&mut t, 1, "A"), "7 A 1>2; 8 A 2>1");
    assert_eq!(shown(&t, "A"), "1 - -");
    // DISABLED is for good: no Tp, and ready is no news.
    assert_eq!((refusal(&t, TP, 5, "A", 5), refusal(&t, NONE, 5, "A", 5)), (5, 5));
    assert_eq!(finish(&mut t, "A"), "1 1 3>2");
    assert_eq!(shown(&t, "A"), "1 - -");
}

/// From WAITING FOR CARRIER through 23, 24, 25 at once, Tp being now.
#[test]
fn cancelled_while_it_waits_for_its_carrier() {
    let mut t = placed(60, 120);
    assert_eq!(accept(&mut t, 6, 0, 0, "A"), "1 1 3>2; 8 A 2>3; 8 A 3>4; 8 A 4>6");
    assert_eq!(shown(&t, "A"), "6 50 -");
    // A second cancel, and COMPLETED stays.
    assert_eq!(accept(&mut t, 6, 0, 0, "A"), "");
    assert_eq!(tell(&mut t, CLOCK, 5000, "", 0), "");
    assert_eq!(shown(&t, "A"), "6 50 -");
    let mut t = fixed(1, 1, 1);
    bring(&mut t, 1, "A");
    assert_eq!(accept(&mut t, 6, 0, 0, "A"), "1 1 3>2; 5 A 2>4; 8 A 2>3; 8 A 3>4; 8 A 4>6");
    assert_eq!(shown(&t, "A"), "6 0 -");
}

/// To DISABLED when the setting is 0, and no Tp is set.
#[test]
fn cancelled_with_a_setting_of_0() {
    let mut t = placed(0, 120);
    assert_eq!(accept(&mut t, 6, 0, 0, "A"), "1 1 3>2; 8 A 2>1");
    assert_eq!(shown(&t, "A"), "1 - -");
    assert_eq!(accept(&mut t, 6, 0, 0, "A"), "");
}

/// A cancel that makes the record, with and without a setting; and one that finds it expected.
#[test]
fn cancelled_at_an_unknown_pod() {
    for (setting, turns) in [(60, "8 A 2>3; 8 A 3>4; 8 A 4>6"), (0, "8 A 2>1")] {
        let mut t = fixed(1, setting, 120);
        load(&mut t, 1);
        accept(&mut t, 17, 1, 0, "");
        tell(&mut t, CLOCK, 9, "", 0);
        let made = "1 1 3>2; 4 1 0>1; 5 A 0>4; 6 A 0>1; 7 A 0>1; 8 A 0>2";
        assert_eq!(accept(&mut t.clone(), 6, 1, 0, "A"), format!("{made}; {turns}"));
        accept(&mut t, 3, 0, 0, "A");
        assert_eq!(accept(&mut t, 6, 1, 0, "A"), format!("1 1 3>2; 4 1 0>1; 5 A 1>4; {turns}"));
        assert_eq!(shown(&t, "A"), if setting == 0 { "1 - -" } else { "6 9 -" });
    }
}

/// A refused cancel changes no prediction: IN ACCESS, while it moves, and without a pod.
#[test]
fn a_refused_cancel() {
    let t = accessed(60, 120);
    assert_eq!(answer(&t, 6, 0, "A", &[]), 5);
    let mut t = fixed(1, 60, 120);
    accept(&mut t, 1, 1, 0, "A");
    assert_eq!((answer(&t, 6, 0, "A", &[]), answer(&t, 6, 1, "N", &[])), (5, 2));
}

/// The access has ended, and the carrier is cancelled before it is closed: from 3 it stays 3, from 4 and
/// 5 it is ready, 1 and 6 stay.
#[test]
fn cancelled_in_every_other_state() {
    let mut waits = accessed(60, 120);
    accept(&mut waits, 22, 0, 0, "A");
    let mut told = waits;
    tell(&mut told, TP, 0, "A", 500);
    let mut predicted = waits;
    tell(&mut predicted, TP, 0, "A", 60);
    let mut aborted = waits;
    tell(&mut aborted, NONE, 0, "A", 0);
    let mut disabled = accessed(0, 120);
    accept(&mut disabled, 22, 0, 0, "A");
    let cases = [
        (waits, "1 1 3>2", "3 - -"),
        (told, "1 1 3>2", "3 500 -"),
        (predicted, "1 1 3>2; 8 A 4>6", "6 60 -"),
        (aborted, "1 1 3>2; 8 A 5>6", "6 - -"),
        (disabled, "1 1 3>2", "1 - -"),
    ];
    for (mut t, reports, after) in cases {
        assert_eq!(accept(&mut t, 6, 0, 0, "A"), reports);
        assert_eq!(shown(&t, "A"), after);
        assert_eq!(accept(&mut t, 6, 0, 0, "A"), "");
        assert_eq!(shown(&t, "A"), after);
    }
}

/// In sound states that no run reaches a Tp stands in WAITING FOR CARRIER, or a Te: the cancel writes Tp
/// over it and leaves the Te, which doesn't abort; with a setting of 0 it leaves both.
#[test]
fn a_tp_that_stands_there() {
    for (setting, reports, after) in [
        (60, "1 1 3>2; 8 A 2>3; 8 A 3>4; 8 A 4>6", "6 50 4294967295"),
        (0, "1 1 3>2; 8 A 2>1", "1 7 4294967295"),
    ] {
        let mut t = placed(setting, 120);
        t.predictions.of[0].set_tp(7);
        t.predictions.of[0].set_te(u32::MAX);
        assert!(sound(&t));
        assert_eq!(accept(&mut t, 6, 0, 0, "A"), reports);
        assert_eq!(shown(&t, "A"), after);
    }
}

/// AccessStart outside WAITING FOR CARRIER leaves model 8 alone, and judges nobody.
#[test]
fn access_starts_in_another_state() {
    for state in [1, 3, 4, 5, 6] {
        for setting in [0, 60] {
            let mut t = placed(setting, 120);
            accept(&mut t, 19, 0, 0, "A");
            accept_codes(&mut t, 20, 0, "A", &THREES);
            accept(&mut t, 5, 0, 0, "A");
            t.predictions.of[0].state = state;
            t.predictions.of[0].set_tp(50);
            assert_eq!(accept(&mut t, 21, 0, 0, "A"), "7 A 1>2");
            assert_eq!(shown(&t, "A"), format!("{state} 50 -"));
        }
    }
}

/// With a Tp that stands there AccessStart is 23 alone; the next clock judges it.
#[test]
fn access_starts_with_a_tp() {
    let mut t = placed(60, 120);
    accept(&mut t, 19, 0, 0, "A");
    accept_codes(&mut t, 20, 0, "A", &THREES);
    accept(&mut t, 5, 0, 0, "A");
    t.predictions.of[0].set_tp(50);
    assert_eq!(tell(&mut t, CLOCK, 50, "", 0), "");
    assert_eq!(accept(&mut t, 21, 0, 0, "A"), "7 A 1>2; 8 A 2>3");
    assert_eq!((refusal(&t, TP, 50, "A", 9), shown(&t, "A")), (5, "3 50 -".into()));
    assert_eq!(tell(&mut t, CLOCK, 50, "", 0), "8 A 3>4");
}
