//! Rows 13 and 24 say manual or automatic.

use super::*;

/// A manual start in AUTO is accepted and raises the alarm of its own port, and of no other. It is reported last.
#[test]
fn a_manual_start_in_auto_raises_the_alarm() {
    for port in 1..=4 {
        let mut t = in_auto(4, 0);
        assert_eq!(accept(&mut t, 13, port, MANUAL, ""), format!("1 {port} 1>3; 9 {port} 0>1"));
        for p in 1..=4 {
            assert_eq!(t.alarms[p as usize - 1], Alarm { on: (p == port) as u8, held: 0 });
        }
        let mut t = in_auto(4, 0);
        to_unload(&mut t, port, "A");
        assert_eq!(accept(&mut t, 24, port, MANUAL, ""), format!("1 {port} 2>3; 9 {port} 0>1"));
        for p in 1..=4 {
            assert_eq!(t.alarms[p as usize - 1], Alarm { on: (p == port) as u8, held: 0 });
        }
    }
}

/// Behind models 1 and 3, the only others that a start changes.
#[test]
fn a_reservation_ends_before_the_alarm_is_told() {
    let mut t = in_auto(2, 1);
    accept(&mut t, 11, 2, 0, "");
    assert_eq!(accept(&mut t, 13, 2, MANUAL, ""), "1 2 1>3; 3 2 1>0; 9 2 0>1");
}

/// Every other start that is accepted raises none: automatic in AUTO, manual in MANUAL.
#[test]
fn a_start_as_the_mode_has_it_raises_none() {
    let mut t = in_auto(1, 0);
    assert_eq!(accept(&mut t, 13, 1, AUTOMATIC, ""), "1 1 1>3");
    assert_eq!(alarms(&t), "0 0");
    let mut t = in_auto(1, 0);
    to_unload(&mut t, 1, "A");
    assert_eq!(accept(&mut t, 24, 1, AUTOMATIC, ""), "1 1 2>3");
    assert_eq!(alarms(&t), "0 0");
    let mut t = tool(1, 0);
    assert_eq!(accept(&mut t, 13, 1, MANUAL, ""), "1 1 1>3");
    assert_eq!(accept(&mut t, 14, 1, 0, ""), "");
    accept(&mut t, 16, 1, 0, "A");
    accept(&mut t, 6, 0, 0, "A");
    assert_eq!(accept(&mut t, 24, 1, MANUAL, ""), "1 1 2>3");
    assert_eq!(alarms(&t), "0 0");
}

/// What document 01 does at a start stays: BLOCKED, the movement, the end of a reservation, the tie.
#[test]
fn a_start_does_what_it_did() {
    for value in [MANUAL, AUTOMATIC] {
        let mut t = in_auto(1, 0);
        accept(&mut t, 1, 1, 0, "A");
        let mut base = t.base;
        accept(&mut t, 13, 1, value, "");
        assert_eq!(independent::step(&mut base, 13, 1, 0, b"", &[], &mut Reports::NONE.clone()), 0);
        assert_eq!(t.base, base);
        let mut t = in_auto(1, 0);
        to_unload(&mut t, 1, "A");
        let mut base = t.base;
        accept(&mut t, 24, 1, value, "");
        assert_eq!(independent::step(&mut base, 24, 1, 0, b"", &[], &mut Reports::NONE.clone()), 0);
        assert_eq!(t.base, base);
    }
}

/// With the alarm on already a second manual start tells nothing of it, and an automatic one leaves it on.
#[test]
fn a_start_with_the_alarm_on() {
    for value in [MANUAL, AUTOMATIC] {
        let mut t = in_auto(1, 0);
        failed_unload(&mut t, 1, "A");
        assert_eq!(accept(&mut t, 24, 1, value, ""), "1 1 2>3");
        assert_eq!(alarms(&t), "1 0");
    }
    // And in MANUAL, to which the mode may be changed meanwhile.
    let mut t = in_auto(1, 0);
    failed_unload(&mut t, 1, "A");
    assert_eq!(accept(&mut t, 9, 1, 0, ""), "2 1 1>0");
    assert_eq!(alarms(&t), "1 0");
    assert_eq!(refusal(&t, 24, 1, AUTOMATIC), 13);
    assert_eq!(accept(&mut t, 24, 1, MANUAL, ""), "1 1 2>3");
    assert_eq!(alarms(&t), "1 0");
}

/// The mode of one port says nothing of another's.
#[test]
fn each_port_has_its_own_mode() {
    let mut t = tool(2, 0);
    accept(&mut t, 9, 2, 1, "");
    assert_eq!((refusal(&t, 13, 1, AUTOMATIC), refusal(&t, 13, 2, AUTOMATIC)), (13, 0));
    accept(&mut t, 13, 1, MANUAL, "");
    accept(&mut t, 13, 2, MANUAL, "");
    assert_eq!(alarms(&t), "0 0; 1 0");
}
