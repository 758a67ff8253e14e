//! CancelCarrierOut, CancelAllCarrierOut and CancelCarrier drop what is not yet started.

use super::*;

/// A to D are asked for, and B is started.
fn asked() -> Tool {
    let mut t = stocked(2, 4, &["A", "B", "C", "D"]);
    ask(&mut t, &[("A", 1), ("B", 2), ("C", 2), ("D", 1)]);
    accept(&mut t, 27, 2, 0, "");
    assert_eq!(queue(&t), "A 1 0; B 2 1; C 2 0; D 1 0");
    t
}

#[test]
fn cancel_carrier_out_drops_one() {
    let t = asked();
    for (name, left) in [
        ("A", "B 2 1; C 2 0; D 1 0"),
        ("C", "A 1 0; B 2 1; D 1 0"),
        ("D", "A 1 0; B 2 1; C 2 0"),
        ("D    ", "A 1 0; B 2 1; C 2 0"),
    ] {
        let mut u = t;
        assert_eq!(accept(&mut u, 29, 0, 0, name), "");
        assert_eq!(queue(&u), left);
        assert_eq!((u.base, u.maps), (t.base, t.maps));
        // Absent now; and at the end of the queue if it is asked for again.
        assert_eq!(answer(&u, 29, 0, name, &[]), 5);
        ask(&mut u, &[(name.trim_end(), 2)]);
        assert_eq!(queue(&u), format!("{left}; {} 2 0", name.trim_end()));
    }
}

/// 5 for one that is started, not queued, or has no record; 1 for no name. Nothing else is looked at.
#[test]
fn cancel_carrier_out_refused() {
    let mut t = asked();
    accept(&mut t, 3, 0, 0, "EXPECTED");
    for name in ["B", "EXPECTED", "NONE", "AA"] {
        assert_eq!(answer(&t, 29, 0, name, &[]), 5, "{name}");
    }
    for name in ["", " ", " A", "A A", "ABCDEFGHIJKLMNOPQ", "A                                "] {
        assert_eq!(answer(&t, 29, 0, name, &[]), 1, "{name:?}");
    }
    for (port, value, codes) in [(1, 1, &[][..]), (9, 9, &[9; 9]), (u32::MAX, u32::MAX, &[0; 25])] {
        assert_eq!(give(&mut t.clone(), 29, port, value, "A", codes).0, 0);
    }
    accept(&mut t, 28, 2, 0, "");
    assert_eq!(answer(&t, 29, 0, "B", &[]), 5);
}

#[test]
fn cancel_all_drops_all_that_wait() {
    let mut t = asked();
    accept(&mut t, 27, 1, 0, "");
    let mut two = t;
    assert_eq!(accept(&mut two, 30, 0, 0, ""), "");
    assert_eq!(queue(&two), "A 1 1; B 2 1");
    assert_eq!((two.base, two.maps), (t.base, t.maps));
    accept(&mut t, 28, 1, 0, "");
    accept(&mut t, 30, 0, 0, "");
    assert_eq!(queue(&t), "B 2 1");
    accept(&mut t, 28, 2, 0, "");
    assert_eq!(queue(&t), "");
}

/// Accepted with none, with none that waits, and whatever stands beside the number.
#[test]
fn cancel_all_is_always_accepted() {
    let mut t = tool(1, 0);
    assert_eq!(give(&mut t, 30, 0, 0, "", &[]), (0, String::new()));
    assert_eq!(t, tool(1, 0));
    let mut t = asked();
    accept(&mut t, 30, 0, 0, "");
    let before = t;
    for (port, value, name, codes) in
        [(0, 0, "", &[][..]), (9, 2, " ", &[9]), (u32::MAX, u32::MAX, "NONE", &[0; 300]), (2, 0, "B", &[])]
    {
        assert_eq!(give(&mut t, 30, port, value, name, codes), (0, String::new()));
        assert_eq!(t, before);
    }
}

/// CancelCarrier drops its own carrier's request and no other.
#[test]
fn cancel_carrier_drops_its_own() {
    let t = asked();
    for (name, left) in
        [("A", "B 2 1; C 2 0; D 1 0"), ("C ", "A 1 0; B 2 1; D 1 0"), ("D", "A 1 0; B 2 1; C 2 0")]
    {
        let mut u = t;
        assert_eq!(accept(&mut u, 6, 0, 0, name), "");
        assert_eq!(queue(&u), left);
        assert_eq!(record(&u, name.trim_end()).cancelled, 1);
        // A cancelled carrier may be asked for, and comes out.
        ask(&mut u, &[(name, 1)]);
    }
}

/// With its reports, where the host was asked: those of the carrier alone.
#[test]
fn cancel_carrier_reports_what_it_did() {
    let mut t = asked();
    accept(&mut t, 19, 0, 0, "A");
    accept_codes(&mut t, 20, 0, "A", &ONES);
    assert_eq!(accept(&mut t, 6, 0, 0, "A"), "6 A 2>4");
    assert_eq!((queue(&t).as_str(), record(&t, "A").open), ("B 2 1; C 2 0; D 1 0", 0));
}

/// Refused, it drops nothing: IN ACCESS, and a port given to a carrier in the buffer.
#[test]
fn a_refused_cancel_carrier_drops_nothing() {
    let mut t = asked();
    assert_eq!(answer(&t, 6, 1, "A", &[]), 5);
    begin_access(&mut t, "A");
    let before = t;
    assert_eq!(give(&mut t, 6, 0, 0, "A", &[]), (5, String::new()));
    assert_eq!(t, before);
}

/// On a started one it is accepted, and the request runs on: a cancelled carrier is handed out.
#[test]
fn a_started_one_runs_on() {
    let mut t = asked();
    assert_eq!(accept(&mut t, 6, 0, 0, "B"), "");
    assert_eq!(queue(&t), "A 1 0; B 2 1; C 2 0; D 1 0");
    accept(&mut t, 30, 0, 0, "");
    assert_eq!(answer(&t, 29, 0, "B", &[]), 5);
    assert_eq!(queue(&t), "B 2 1");
    assert_eq!(accept(&mut t, 28, 2, 0, ""), "1 2 1>2; 3 2 1>0; 4 2 0>1");
    let b = record(&t, "B");
    assert_eq!((b.cancelled, b.came_out, b.place, b.port), (1, 1, 1, 2));
}

/// A carrier cancelled at a port, or one that is made by the cancel, leaves the queue alone.
#[test]
fn cancel_carrier_elsewhere() {
    let mut t = asked();
    load(&mut t, 1);
    let mut read = t;
    accept(&mut read, 16, 1, 0, "NEW");
    accept(&mut read, 6, 1, 0, "NEW");
    accept(&mut t, 17, 1, 0, "");
    accept(&mut t, 6, 1, 0, "NEW");
    for t in [t, read] {
        assert_eq!(queue(&t), "A 1 0; B 2 1; C 2 0; D 1 0");
    }
}

/// Records that go in front of others leave the requests as they are: they go by name.
#[test]
fn records_that_move_up() {
    let mut t = stocked(2, 2, &["FIRST"]);
    accept(&mut t, 3, 0, 0, "EXPECTED");
    stock(&mut t, 2, "LAST");
    ask(&mut t, &[("FIRST", 1), ("LAST", 2)]);
    accept(&mut t, 27, 2, 0, "");
    accept(&mut t, 4, 0, 0, "EXPECTED");
    assert_eq!(queue(&t), "FIRST 1 0; LAST 2 1");
    fetch(&mut t, 1);
    accept(&mut t, 24, 1, 0, "");
    accept(&mut t, 25, 1, 0, "");
    assert_eq!(queue(&t), "LAST 2 1");
    accept(&mut t, 28, 2, 0, "");
    assert_eq!((t.base.count, record(&t, "LAST").port), (1, 2));
}
