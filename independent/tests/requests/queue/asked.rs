//! Row 7 only asks: what it needs, what it is refused for, and that nothing else changes.

use super::*;

/// The port may be anything, and so may the carrier in the buffer.
#[test]
fn neither_port_nor_opener_is_asked() {
    let mut t = stocked(4, 4, &["A", "B", "C"]);
    accept(&mut t, 10, 1, 0, "");
    accept(&mut t, 13, 2, 0, "");
    accept(&mut t, 1, 3, 0, "BOUND");
    begin_access(&mut t, "A");
    for (name, port) in [("A", 1), ("A", 2), ("A", 3), ("A", 4), ("B", 1), ("B", 2), ("B", 3)] {
        let mut u = t;
        assert_eq!(accept(&mut u, 7, port, 0, name), "");
        assert_eq!(queue(&u), format!("{name} {port} 0"));
        assert_eq!(u.base, t.base);
    }
    // Reserved by the host, loaded, READY TO UNLOAD, unloading.
    accept(&mut t, 11, 4, 0, "");
    assert_eq!(answer(&t, 7, 4, "B", &[]), 0);
    accept(&mut t, 14, 2, 0, "");
    assert_eq!(answer(&t, 7, 2, "B", &[]), 0);
    accept(&mut t, 16, 2, 0, "D");
    accept(&mut t, 6, 0, 0, "D");
    assert_eq!(answer(&t, 7, 2, "B", &[]), 0);
    accept(&mut t, 24, 2, 0, "");
    assert_eq!(answer(&t, 7, 2, "B", &[]), 0);
}

/// A carrier that is open, cancelled, or done is queued too.
#[test]
fn any_carrier_in_the_buffer() {
    let mut t = stocked(1, 3, &["OPEN", "CANCELLED", "DONE"]);
    accept(&mut t, 6, 0, 0, "CANCELLED");
    begin_access(&mut t, "DONE");
    accept(&mut t, 22, 0, 0, "DONE");
    accept(&mut t, 23, 0, 0, "DONE");
    accept(&mut t, 19, 0, 0, "OPEN");
    ask(&mut t, &[("OPEN", 1), ("CANCELLED", 1), ("DONE", 1)]);
    assert_eq!(queue(&t), "OPEN 1 0; CANCELLED 1 0; DONE 1 0");
}

#[test]
fn refused_with_1() {
    for p in 1..=4 {
        let t = stocked(p, 1, &["A"]);
        for port in [0, p + 1, 255, 256, 257, 1 << 16 | 1, 1 << 31 | 1, u32::MAX] {
            assert_eq!(answer(&t, 7, port, "A", &[]), 1, "port {port}");
            assert_eq!(answer(&t, 7, port, "NONE", &[]), 1, "port {port}");
        }
        for name in ["", " ", " A", "A B", "ABCDEFGHIJKLMNOPQ"] {
            assert_eq!(answer(&t, 7, 1, name, &[]), 1, "{name:?}");
        }
        assert_eq!(answer(&t, 7, p, "A", &[]), 0);
    }
}

/// No record is 2, elsewhere is 5: expected, expected and tied, and at a port.
#[test]
fn refused_with_2_and_5() {
    let mut t = stocked(3, 2, &["A"]);
    accept(&mut t, 3, 0, 0, "EXPECTED");
    accept(&mut t, 1, 1, 0, "BOUND");
    accept(&mut t, 13, 2, 0, "");
    accept(&mut t, 14, 2, 0, "");
    accept(&mut t, 16, 2, 0, "LOADED");
    for port in 1..=3 {
        assert_eq!(answer(&t, 7, port, "NONE", &[]), 2);
        for name in ["EXPECTED", "BOUND", "LOADED"] {
            assert_eq!(answer(&t, 7, port, name, &[]), 5, "{name}");
        }
    }
    // Without a buffer nothing is in it.
    let mut t = tool(1, 0);
    bring(&mut t, 1, "A");
    assert_eq!((answer(&t, 7, 1, "A", &[]), answer(&t, 7, 1, "B", &[])), (5, 2));
}

/// Sixteen requests, and one more. With sixteen places all that are in the buffer are queued then, so that 9
/// is answered to one that is queued already.
#[test]
fn sixteen_requests_and_one_more() {
    let (mut t, names) = sixteen(2);
    for (k, name) in names.iter().enumerate() {
        assert_eq!(t.queue.count as usize, k);
        ask(&mut t, &[(name, 1 + k as u32 % 2)]);
        // Queued already: 10 up to fifteen, and 9 from sixteen on, which is the lower.
        let full = k == 15;
        for already in &names[..=k] {
            for port in 1..=2 {
                assert_eq!(answer(&t, 7, port, already, &[]), if full { 9 } else { 10 });
            }
        }
    }
    accept(&mut t, 3, 0, 0, "EXPECTED");
    for (name, number) in [("NONE", 2), ("EXPECTED", 5), ("C1", 9), ("C16", 9)] {
        assert_eq!(answer(&t, 7, 1, name, &[]), number, "{name}");
    }
    assert_eq!((answer(&t, 7, 3, "C1", &[]), answer(&t, 7, 0, "NONE", &[])), (1, 1));
    // One less, and the others are queued already.
    accept(&mut t, 29, 0, 0, "C7");
    assert_eq!((answer(&t, 7, 1, "C8", &[]), answer(&t, 7, 1, "C7", &[])), (10, 0));
    ask(&mut t, &[("C7", 2)]);
    assert_eq!(t.queue.count, 16);
    assert!(queue(&t).ends_with("C16 2 0; C7 2 0"), "{}", queue(&t));
}

/// By name: to the same port and to another, started or not, and until it is out.
#[test]
fn already_queued() {
    let mut t = stocked(2, 2, &["A", "AB"]);
    ask(&mut t, &[("A", 1)]);
    for port in 1..=2 {
        assert_eq!((answer(&t, 7, port, "A", &[]), answer(&t, 7, port, "AB", &[])), (10, 0));
    }
    accept(&mut t, 27, 1, 0, "");
    for port in 1..=2 {
        assert_eq!((answer(&t, 7, port, "A", &[]), answer(&t, 7, port, "AB", &[])), (10, 0));
    }
    accept(&mut t, 28, 1, 0, "");
    assert_eq!(answer(&t, 7, 2, "A", &[]), 5);
}

#[test]
fn blanks_are_dropped() {
    let mut t = stocked(1, 1, &["A"]);
    ask(&mut t, &[("A                               ", 1)]);
    assert_eq!(queue(&t), "A 1 0");
    assert_eq!((answer(&t, 7, 1, "A", &[]), answer(&t, 7, 1, "A ", &[])), (10, 10));
}

/// What the row doesn't name is not looked at.
#[test]
fn value_and_codes_are_ignored() {
    let t = stocked(1, 1, &["A"]);
    for (value, codes) in [(7, &[][..]), (u32::MAX, &[9; 300]), (0, &[3; 24])] {
        let mut u = t;
        assert_eq!(give(&mut u, 7, 1, value, "A", codes), (0, String::new()));
        assert_eq!((queue(&u).as_str(), u.maps), ("A 1 0", t.maps));
    }
}
