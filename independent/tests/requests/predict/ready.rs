//! Ready: the port is READY TO UNLOAD, and 25 and 29 come at once.

use super::*;

/// PREDICTED or ABORTED, and then closed: 25 and 29.
#[test]
fn closed_when_it_is_done() {
    for (number, time, state) in [(TP, 60, 4), (NONE, 0, 5)] {
        let mut t = accessed(60, 120);
        assert_eq!(tell(&mut t, number, 0, "A", time), format!("8 A 3>{state}"));
        accept(&mut t, 22, 0, 1, "A");
        assert_eq!(foretold(&t, "A").state, state);
        assert_eq!(accept(&mut t, 23, 0, 0, "A"), format!("1 1 3>2; 8 A {state}>6"));
        // COMPLETED stays.
        assert_eq!(tell(&mut t, CLOCK, 90_000, "", 0), "");
        accept(&mut t, 24, 1, 0, "");
        assert_eq!(accept(&mut t, 26, 1, 0, ""), "1 1 3>2");
        assert_eq!(foretold(&t, "A").state, 6);
        assert_eq!((refusal(&t, TP, 90_000, "A", 5), refusal(&t, NONE, 90_000, "A", 5)), (5, 5));
    }
}

/// Closed without the port being ready: no turn. The carrier was never accessed.
#[test]
fn closed_before_access() {
    let mut t = fixed(1, 60, 120);
    accept(&mut t, 1, 1, 0, "A");
    bring(&mut t, 1, "A");
    accept(&mut t, 19, 0, 0, "A");
    for state in [4, 5] {
        let mut u = t;
        u.predictions.of[0].state = state;
        assert_eq!(accept(&mut u, 23, 0, 0, "A"), "");
        assert_eq!(foretold(&u, "A").state, state);
    }
}

/// Ready while it waits for its prediction: nothing yet. When it is judged it goes through both at once.
#[test]
fn ready_while_it_waits() {
    let mut t = accessed(60, 120);
    assert_eq!(finish(&mut t, "A"), "1 1 3>2");
    assert_eq!(shown(&t, "A"), "3 - -");
    assert_eq!(tell(&mut t, CLOCK, 10, "", 0), "");
    assert_eq!(tell(&mut t.clone(), TP, 10, "A", 70), "8 A 3>4; 8 A 4>6");
    assert_eq!(tell(&mut t.clone(), NONE, 10, "A", 0), "8 A 3>5; 8 A 5>6");
    let mut u = t;
    assert_eq!(tell(&mut u, TP, 200, "A", 80), "8 A 3>5; 8 A 5>6");
    assert_eq!(shown(&u, "A"), "6 80 -");
    // Told, and judged later: by the clock, or by an estimate.
    assert_eq!(tell(&mut t, TP, 10, "A", 500), "");
    assert_eq!(tell(&mut t.clone(), CLOCK, 440, "", 0), "8 A 3>4; 8 A 4>6");
    assert_eq!(tell(&mut t.clone(), CLOCK, 620, "", 0), "8 A 3>5; 8 A 5>6");
    assert_eq!(tell(&mut t, TE, 11, "A", 620), "8 A 3>5; 8 A 5>6");
}

/// While it is unloaded the port isn't ready: Tp makes it PREDICTED, and UnloadFail ready.
#[test]
fn told_while_it_is_unloaded() {
    for (number, time, state) in [(TP, 60, 4), (NONE, 0, 5)] {
        let mut t = accessed(60, 120);
        finish(&mut t, "A");
        accept(&mut t, 24, 1, 0, "");
        assert_eq!(tell(&mut t, number, 0, "A", time), format!("8 A 3>{state}"));
        assert_eq!(accept(&mut t, 26, 1, 0, ""), format!("1 1 3>2; 8 A {state}>6"));
        assert_eq!(foretold(&t, "A").state, 6);
    }
    // One that still waits goes on waiting.
    let mut t = accessed(60, 120);
    finish(&mut t, "A");
    accept(&mut t, 24, 1, 0, "");
    assert_eq!(accept(&mut t, 26, 1, 0, ""), "1 1 3>2");
    assert_eq!(shown(&t, "A"), "3 - -");
}

/// Only the carrier of that port is ready, whichever record stands first.
#[test]
fn the_others_stay() {
    for first in ["A", "B"] {
        let mut t = fixed(2, 60, 120);
        let second = if first == "A" { "B" } else { "A" };
        access(&mut t, 1, first);
        access(&mut t, 2, second);
        for name in ["A", "B"] {
            tell(&mut t, TP, 0, name, 60);
        }
        assert_eq!(finish(&mut t, "A"), format!("1 {} 3>2; 8 A 4>6", if first == "A" { 1 } else { 2 }));
        assert_eq!(shown(&t, "B"), "4 60 -");
    }
}

/// 25 and 29 stand behind their own 24 or abort, before the next record's.
#[test]
fn each_with_its_own_at_once() {
    let mut t = fixed(4, 60, 120);
    for (port, name) in [(1, "A"), (2, "B"), (3, "C"), (4, "D")] {
        access(&mut t, port, name);
        tell(&mut t, TP, 0, name, 500);
        finish(&mut t, name);
    }
    let all = ["A", "B", "C", "D"].map(|name| format!("8 {name} 3>4; 8 {name} 4>6")).join("; ");
    assert_eq!(tell(&mut t.clone(), CLOCK, 440, "", 0), all);
    let mixed = "8 C 3>5; 8 C 5>6; 8 A 3>4; 8 A 4>6; 8 B 3>4; 8 B 4>6; 8 D 3>4; 8 D 4>6";
    assert_eq!(tell(&mut t.clone(), NONE, 440, "C", 0), mixed);
    // One that isn't ready among them.
    accept(&mut t, 24, 2, 0, "");
    assert_eq!(
        tell(&mut t, CLOCK, 620, "", 0),
        "8 A 3>5; 8 A 5>6; 8 B 3>5; 8 C 3>5; 8 C 5>6; 8 D 3>5; 8 D 5>6"
    );
    assert_eq!(accept(&mut t, 26, 2, 0, ""), "1 2 3>2; 8 B 5>6");
}

/// UnloadFail at a port without a carrier, and with one that is only expected there: no turn.
#[test]
fn ready_without_a_carrier() {
    let mut t = fixed(1, 60, 120);
    t.base.port[0].transfer = 3;
    t.base.port[0].movement = 2;
    assert_eq!(accept(&mut t.clone(), 26, 1, 0, ""), "1 1 3>2");
    accept(&mut t, 3, 0, 0, "A");
    t.base.carrier[0].port = 1;
    t.base.port[0].tie = padded(b"A");
    assert!(sound(&t));
    assert_eq!(accept(&mut t, 26, 1, 0, ""), "1 1 3>2");
    assert_eq!(shown(&t, "A"), "2 - -");
}

/// CarrierIn takes a port out of READY TO UNLOAD, and a prediction stays as it is.
#[test]
fn a_port_that_is_no_longer_ready() {
    let mut t = accessed(60, 120);
    finish(&mut t, "A");
    t.base.carrier[0].came_out = 1;
    assert_eq!(accept(&mut t, 8, 0, 0, "A"), "1 1 2>3");
    assert_eq!(tell(&mut t, TP, 0, "A", 60), "8 A 3>4");
    assert_eq!(accept(&mut t, 6, 0, 0, "A"), "1 1 3>2; 8 A 4>6");
}
