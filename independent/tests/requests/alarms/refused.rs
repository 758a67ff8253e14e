//! What P9 refuses: 1, 5 and 13, the lowest first.

use super::*;

/// A start is 0 or 1, and every other number is 1, wherever the port stands.
#[test]
fn a_start_that_is_neither() {
    let mut unloads = in_auto(1, 0);
    to_unload(&mut unloads, 1, "A");
    for value in
        (2..=300).chain([1 << 8, (1 << 8) + 1, 1 << 16, (1 << 16) + 1, 1 << 31, (1 << 31) + 1, u32::MAX])
    {
        for t in [in_auto(1, 0), tool(1, 0), unloads] {
            assert_eq!((refusal(&t, 13, 1, value), refusal(&t, 24, 1, value)), (1, 1), "{value}");
        }
    }
    assert_eq!((refusal(&unloads, 24, 1, MANUAL), refusal(&unloads, 24, 1, AUTOMATIC)), (0, 0));
}

/// Other rows of a port don't look at the number, but for those that name one.
#[test]
fn other_rows_have_no_such_number() {
    let mut t = in_auto(1, 1);
    held(&mut t, 1);
    for value in [0, 1, 2, 255, u32::MAX] {
        assert_eq!((refusal(&t, 15, 1, value), refusal(&t, CONTINUE, 1, value)), (0, 0));
        assert_eq!((refusal(&t, 14, 1, value), refusal(&t, 25, 1, value)), (5, 5));
    }
}

/// 13 for an automatic start in MANUAL: at a load and at an unload.
#[test]
fn an_automatic_start_in_manual() {
    let mut t = tool(1, 0);
    assert_eq!(refusal(&t, 13, 1, AUTOMATIC), 13);
    bring(&mut t, 1, "A");
    accept(&mut t, 6, 0, 0, "A");
    assert_eq!(refusal(&t, 24, 1, AUTOMATIC), 13);
    // The mode alone decides.
    accept(&mut t, 9, 1, 1, "");
    assert_eq!(refusal(&t, 24, 1, AUTOMATIC), 0);
}

/// 5 comes before 13: in every state that isn't READY TO LOAD, or READY TO UNLOAD.
#[test]
fn five_before_thirteen() {
    let mut t = tool(1, 0);
    let both = |t: &Tool| (refusal(t, 13, 1, AUTOMATIC), refusal(t, 24, 1, AUTOMATIC));
    assert_eq!(both(&t), (13, 5));
    accept(&mut t, 10, 1, 0, "");
    assert_eq!(both(&t), (5, 5));
    accept(&mut t, 10, 1, 1, "");
    accept(&mut t, 13, 1, MANUAL, "");
    assert_eq!(both(&t), (5, 5));
    accept(&mut t, 14, 1, 0, "");
    assert_eq!(both(&t), (5, 5));
    accept(&mut t, 16, 1, 0, "A");
    accept(&mut t, 6, 0, 0, "A");
    assert_eq!(both(&t), (5, 13));
    accept(&mut t, 24, 1, MANUAL, "");
    assert_eq!(both(&t), (5, 5));
}

/// 4 comes before 13, and 1 before 4: a port at which a request is started.
#[test]
fn four_before_thirteen() {
    let mut t = tool(1, 1);
    accept(&mut t, 1, 1, 0, "A");
    bring(&mut t, 1, "A");
    accept(&mut t, 18, 1, 1, "");
    accept(&mut t, 7, 1, 0, "A");
    assert_eq!(refusal(&t, 13, 1, AUTOMATIC), 13);
    accept(&mut t, 27, 1, 0, "");
    for (value, answer) in [(MANUAL, 4), (AUTOMATIC, 4), (2, 1), (u32::MAX, 1)] {
        assert_eq!(refusal(&t, 13, 1, value), answer);
    }
    // A reservation of the host's doesn't refuse a load.
    let mut t = tool(1, 1);
    accept(&mut t, 11, 1, 0, "");
    assert_eq!((refusal(&t, 13, 1, AUTOMATIC), refusal(&t, 13, 1, MANUAL)), (13, 0));
}

/// Ports out of range are 1, before all others.
#[test]
fn ports_out_of_range() {
    for ports in 1..=4 {
        let mut t = in_auto(ports, 0);
        held(&mut t, ports);
        for port in [0, ports + 1, 255, 256 + ports, (1 << 16) + ports, (1 << 31) + ports, u32::MAX] {
            for number in [13, 14, 15, 24, 25, 26, CONTINUE] {
                for value in [MANUAL, AUTOMATIC, 2] {
                    assert_eq!(refusal(&t, number, port, value), 1, "row {number} port {port}");
                }
            }
        }
        assert_eq!(refusal(&t, CONTINUE, ports, 0), 0);
    }
}

/// Continue with nothing held is 5, whatever the port does.
#[test]
fn continue_with_nothing_held() {
    let mut t = in_auto(1, 0);
    let refused = |t: &Tool| assert_eq!(refusal(t, CONTINUE, 1, 0), 5);
    refused(&t);
    accept(&mut t, 13, 1, AUTOMATIC, "");
    refused(&t);
    accept(&mut t, 15, 1, 0, "");
    accept(&mut t, 13, 1, MANUAL, "");
    refused(&t);
    accept(&mut t, 14, 1, 0, "");
    accept(&mut t, CONTINUE, 1, 0, "");
    refused(&t);
    accept(&mut t, 16, 1, 0, "A");
    accept(&mut t, 6, 0, 0, "A");
    refused(&t);
    accept(&mut t, 24, 1, MANUAL, "");
    refused(&t);
    accept(&mut t, 26, 1, 0, "");
    refused(&t);
    accept(&mut t, 24, 1, MANUAL, "");
    accept(&mut t, 25, 1, 0, "");
    refused(&t);
    accept(&mut t, 10, 1, 0, "");
    refused(&t);
}

/// The alarm alone holds nothing: LoadDone and LoadFail are 5 unless the port is loading.
#[test]
fn load_done_where_nothing_loads() {
    let mut t = in_auto(1, 1);
    let refused =
        |t: &Tool| assert_eq!((alarms(t), refusal(t, 14, 1, 0), refusal(t, 15, 1, 0)), ("1 0".into(), 5, 5));
    failed_unload(&mut t, 1, "A");
    refused(&t);
    accept(&mut t, 24, 1, MANUAL, "");
    refused(&t);
    accept(&mut t, 26, 1, 0, "");
    t.base.carrier[0].came_out = 1;
    accept(&mut t, 8, 0, 0, "A");
    refused(&t);
}

/// LoadDone on a held pod is 5, however often.
#[test]
fn load_done_on_a_held_pod() {
    let mut t = in_auto(1, 0);
    held(&mut t, 1);
    for _ in 0..3 {
        assert_eq!(give(&mut t, 14, 1, 0, "", &[]), (5, "".into()));
    }
    accept(&mut t, CONTINUE, 1, 0, "");
    assert_eq!((refusal(&t, 14, 1, 0), refusal(&t, CONTINUE, 1, 0)), (5, 5));
}

/// Without a tool all of it is 1.
#[test]
fn no_tool() {
    for number in [13, 14, 15, 24, CONTINUE] {
        let (mut t, mut out) = (Tool::NONE, Reports { count: 9, ..Reports::NONE });
        assert_eq!(step(&mut t, number, 1, 0, b"", &[], &mut out), 1);
        assert!(t == Tool::NONE && out == Reports::NONE);
    }
}
