//! A load by hand in AUTO: LoadDone holds the pod until Continue or LoadFail.

use super::*;

/// Accepted without a report: the port is loading still, has no pod, and its tag is as it was.
#[test]
fn load_done_holds_the_pod() {
    let mut t = in_auto(2, 0);
    accept(&mut t, 13, 2, MANUAL, "");
    let before = t;
    assert_eq!(accept(&mut t, 14, 2, 0, ""), "");
    assert_eq!(t.base, before.base);
    assert_eq!((port(&t, 2), alarms(&t)), ((3, 1, 0, 0), "0 0; 1 1".into()));
    assert_eq!(Tool { alarms: before.alarms, ..t }, before);
}

/// A tag that was read or failed stays so, too: LoadDone itself makes it unread. No run has such a tag there.
#[test]
fn the_tag_stays_while_the_pod_is_held() {
    for tag in 0..=2 {
        let mut t = in_auto(1, 0);
        accept(&mut t, 13, 1, MANUAL, "");
        t.base.port[0].tag = tag;
        accept(&mut t, 14, 1, 0, "");
        assert_eq!(port(&t, 1), (3, 1, 0, tag));
        accept(&mut t, CONTINUE, 1, 0, "");
        assert_eq!(port(&t, 1), (3, 0, 1, 0));
    }
}

/// Where the alarm isn't on, LoadDone does what it did.
#[test]
fn load_done_without_an_alarm() {
    for (mut t, value) in [(in_auto(1, 0), AUTOMATIC), (tool(1, 0), MANUAL)] {
        accept(&mut t, 13, 1, value, "");
        assert_eq!(accept(&mut t, 14, 1, 0, ""), "");
        assert_eq!((port(&t, 1), alarms(&t)), ((3, 0, 1, 0), "0 0".into()));
    }
}

/// It holds wherever the port is loading with its alarm on, in MANUAL too, to which no run comes.
#[test]
fn load_done_holds_in_manual_too() {
    let mut t = tool(1, 0);
    accept(&mut t, 13, 1, MANUAL, "");
    t.alarms[0].on = 1;
    assert_eq!(accept(&mut t, 14, 1, 0, ""), "");
    assert_eq!((port(&t, 1), alarms(&t)), ((3, 1, 0, 0), "1 1".into()));
    assert_eq!(accept(&mut t, CONTINUE, 1, 0, ""), "9 1 1>0");
}

/// Continue does what LoadDone did, and clears the alarm.
#[test]
fn continue_does_what_load_done_did() {
    let mut by_hand = in_auto(2, 0);
    accept(&mut by_hand, 1, 2, 0, "A");
    let mut by_vehicle = by_hand;
    held(&mut by_hand, 2);
    assert_eq!(accept(&mut by_hand, CONTINUE, 2, 0, ""), "9 2 1>0");
    accept(&mut by_vehicle, 13, 2, AUTOMATIC, "");
    accept(&mut by_vehicle, 14, 2, 0, "");
    assert_eq!(by_hand, by_vehicle);
    assert_eq!((port(&by_hand, 2), alarms(&by_hand)), ((3, 0, 1, 0), "0 0; 0 0".into()));
    // The mode stays AUTO.
    assert_eq!(by_hand.base.port[1].access, 1);
    assert_eq!(accept(&mut by_hand, 16, 2, 0, "A"), "5 A 1>3");
}

/// LoadFail clears the alarm, before LoadDone and after it, and lets go of the pod.
#[test]
fn load_fail_clears_the_alarm() {
    for done in [false, true] {
        let mut t = in_auto(2, 0);
        accept(&mut t, 1, 1, 0, "A");
        accept(&mut t, 13, 1, MANUAL, "");
        if done {
            accept(&mut t, 14, 1, 0, "");
        }
        assert_eq!(accept(&mut t, 15, 1, 0, ""), "1 1 3>1; 9 1 1>0");
        assert_eq!((port(&t, 1), alarms(&t)), ((1, 0, 0, 0), "0 0; 0 0".into()));
        assert_eq!(refusal(&t, CONTINUE, 1, 0), 5);
        // The next load begins without it.
        assert_eq!(accept(&mut t, 13, 1, AUTOMATIC, ""), "1 1 1>3");
        assert_eq!(accept(&mut t, 14, 1, 0, ""), "");
        assert_eq!(port(&t, 1), (3, 0, 1, 0));
    }
}

/// A held port counts as still loading: what asks for an idle port, a pod or READY TO LOAD is refused.
#[test]
fn a_held_port_is_still_loading() {
    let mut t = in_auto(2, 1);
    accept(&mut t, 1, 1, 0, "A");
    held(&mut t, 1);
    for (number, value, name, answer) in [
        (2, 0, "A", 5),
        (9, 0, "", 5),
        (9, 1, "", 0),
        (10, 0, "", 4),
        (10, 1, "", 0),
        (11, 0, "", 4),
        (12, 0, "", 4),
        (13, MANUAL, "", 5),
        (13, AUTOMATIC, "", 5),
        (14, 0, "", 5),
        (16, 0, "A", 5),
        (17, 0, "", 5),
        (18, 1, "", 5),
        (24, MANUAL, "", 5),
        (25, 0, "", 5),
        (26, 0, "", 5),
        (27, 0, "", 4),
        (28, 0, "", 5),
    ] {
        assert_eq!(give(&mut t.clone(), number, 1, value, name, &[]).0, answer, "row {number}");
    }
    // No tie: 4 doesn't apply.
    let mut t = in_auto(1, 1);
    held(&mut t, 1);
    for (number, answer) in [(10, 5), (11, 5), (12, 5), (27, 5)] {
        assert_eq!(refusal(&t, number, 1, 0), answer, "row {number}");
    }
    assert_eq!(give(&mut t.clone(), 5, 1, 0, "N", &[]).0, 2);
}

/// Nothing else ends what is held: other ports and the host go on.
#[test]
fn others_leave_it_held() {
    let mut t = in_auto(2, 1);
    held(&mut t, 1);
    accept(&mut t, 3, 0, 0, "E");
    to_unload(&mut t, 2, "B");
    accept(&mut t, 24, 2, MANUAL, "");
    assert_eq!(alarms(&t), "1 1; 1 0");
    accept(&mut t, 25, 2, 0, "");
    assert_eq!(alarms(&t), "1 1; 0 0");
    held(&mut t, 2);
    accept(&mut t, CONTINUE, 1, 0, "");
    assert_eq!((alarms(&t), port(&t, 2)), ("0 0; 1 1".into(), (3, 1, 0, 0)));
}

/// Parts that Continue doesn't name are not looked at.
#[test]
fn other_parts_of_continue() {
    let mut t = in_auto(1, 0);
    held(&mut t, 1);
    for value in [0, 1, 2, u32::MAX] {
        for name in ["", "A", " bad name", "ABCDEFGHIJKLMNOPQ"] {
            assert_eq!(give(&mut t.clone(), CONTINUE, 1, value, name, &[9; 30]), (0, "9 1 1>0".into()));
        }
    }
}
