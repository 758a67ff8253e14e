//! The alarm clears at READY TO LOAD, whichever row makes the port so; and nothing else clears it.

use super::*;

/// Row 25, with the record and its prediction told before.
#[test]
fn unload_done_clears_it() {
    let mut t = in_auto(1, 0);
    to_unload(&mut t, 1, "A");
    accept(&mut t, 24, 1, MANUAL, "");
    assert_eq!(accept(&mut t, 25, 1, 0, ""), "1 1 3>1; 4 1 1>0; 5 A 4>0; 6 A 1>0; 7 A 1>0; 8 A 1>0; 9 1 1>0");
    assert_eq!(alarms(&t), "0 0");
    // With a buffer there is no model 8, and 9 is the last all the same.
    let mut t = in_auto(1, 1);
    to_unload(&mut t, 1, "A");
    accept(&mut t, 24, 1, MANUAL, "");
    assert_eq!(accept(&mut t, 25, 1, 0, ""), "1 1 3>1; 4 1 1>0; 5 A 4>0; 6 A 1>0; 7 A 1>0; 9 1 1>0");
}

/// UnloadFail keeps it: the port is READY TO UNLOAD.
#[test]
fn unload_fail_keeps_it() {
    let mut t = in_auto(1, 0);
    to_unload(&mut t, 1, "A");
    accept(&mut t, 24, 1, MANUAL, "");
    assert_eq!(accept(&mut t, 26, 1, 0, ""), "1 1 3>2");
    assert_eq!(alarms(&t), "1 0");
    // Until the pod goes at last, by a vehicle.
    accept(&mut t, 24, 1, AUTOMATIC, "");
    assert_eq!(alarms(&t), "1 0");
    assert!(accept(&mut t, 25, 1, 0, "").ends_with("; 9 1 1>0"));
    assert_eq!(alarms(&t), "0 0");
}

/// Row 18, after an unload that failed and a CarrierIn, which leaves it on.
#[test]
fn move_in_clears_it() {
    let mut t = in_auto(1, 1);
    accept(&mut t, 1, 1, 0, "A");
    accept(&mut t, 13, 1, AUTOMATIC, "");
    accept(&mut t, 14, 1, 0, "");
    accept(&mut t, 16, 1, 0, "A");
    accept(&mut t, 18, 1, 1, "");
    accept(&mut t, 7, 1, 0, "A");
    accept(&mut t, 27, 1, 0, "");
    accept(&mut t, 28, 1, 0, "");
    assert_eq!(accept(&mut t, 24, 1, MANUAL, ""), "1 1 2>3; 9 1 0>1");
    accept(&mut t, 26, 1, 0, "");
    assert_eq!(accept(&mut t, 8, 0, 0, "A"), "1 1 2>3");
    assert_eq!(alarms(&t), "1 0");
    assert_eq!(accept(&mut t, 18, 1, 1, ""), "1 1 3>1; 4 1 1>0; 9 1 1>0");
    assert_eq!(alarms(&t), "0 0");
}

/// Row 10 in, of a port that went out with its alarm on, as no run has it. In the other direction, or where the port is
/// in already, nothing clears.
#[test]
fn service_in_clears_it() {
    let mut t = in_auto(1, 0);
    accept(&mut t, 10, 1, 0, "");
    t.alarms[0].on = 1;
    assert_eq!(accept(&mut t, 10, 1, 0, ""), "");
    assert_eq!(alarms(&t), "1 0");
    assert_eq!(accept(&mut t, 10, 1, 1, ""), "1 1 0>1; 9 1 1>0");
    assert_eq!(alarms(&t), "0 0");
    let mut t = in_auto(2, 0);
    failed_unload(&mut t, 1, "A");
    held(&mut t, 2);
    for port in [1, 2] {
        assert_eq!(accept(&mut t, 10, port, 1, ""), "");
    }
    assert_eq!(alarms(&t), "1 0; 1 1");
}

/// A change of the mode, a cancel of the carrier and a refused start leave it on.
#[test]
fn what_leaves_it_on() {
    let mut t = in_auto(1, 0);
    failed_unload(&mut t, 1, "A");
    assert_eq!(accept(&mut t, 9, 1, 0, ""), "2 1 1>0");
    assert_eq!(accept(&mut t, 9, 1, 1, ""), "2 1 0>1");
    assert_eq!(accept(&mut t, 6, 0, 0, "A"), "");
    assert_eq!(refusal(&t, 13, 1, MANUAL), 5);
    assert_eq!(refusal(&t, CONTINUE, 1, 0), 5);
    assert_eq!(alarms(&t), "1 0");
    // At a BLOCKED port, to which a CarrierIn brings it: CancelCarrier makes it READY TO UNLOAD again.
    let mut t = in_auto(1, 1);
    failed_unload(&mut t, 1, "A");
    let carrier = t.base.carrier.iter_mut().find(|c| c.port == 1).unwrap();
    carrier.came_out = 1;
    accept(&mut t, 8, 0, 0, "A");
    assert_eq!(accept(&mut t, 6, 0, 0, "A"), "1 1 3>2");
    assert_eq!(alarms(&t), "1 0");
}

/// Of several alarms only that of the port which becomes READY TO LOAD clears, wherever it stands.
#[test]
fn only_its_own() {
    for port in 1..=4 {
        let mut t = in_auto(4, 0);
        for (p, name) in (1..).zip(["A", "B", "C", "D"]) {
            failed_unload(&mut t, p, name);
        }
        accept(&mut t, 24, port, MANUAL, "");
        assert!(accept(&mut t, 25, port, 0, "").ends_with(&format!("; 9 {port} 1>0")));
        let on: Vec<u8> = t.alarms.iter().map(|alarm| alarm.on).collect();
        assert_eq!(on.iter().sum::<u8>(), 3);
        assert_eq!(on[port as usize - 1], 0);
    }
}
