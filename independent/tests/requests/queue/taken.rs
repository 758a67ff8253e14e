//! OutStart takes the oldest request for its port that is ready, and OutDone brings it out.

use super::*;

#[test]
fn the_oldest_for_the_port_is_taken() {
    let mut t = stocked(2, 4, &["A", "B", "C", "D"]);
    ask(&mut t, &[("D", 2), ("C", 1), ("A", 1), ("B", 2)]);
    let mut one = t;
    assert_eq!(accept(&mut one, 27, 1, 0, ""), "3 1 0>1");
    assert_eq!(queue(&one), "D 2 0; C 1 1; A 1 0; B 2 0");
    let mut both = one;
    assert_eq!(accept(&mut both, 27, 2, 0, ""), "3 2 0>1");
    assert_eq!(queue(&both), "D 2 1; C 1 1; A 1 0; B 2 0");
    // Neither has to do with the other.
    accept(&mut both, 28, 2, 0, "");
    assert_eq!(queue(&both), "C 1 1; A 1 0; B 2 0");
    accept(&mut both, 28, 1, 0, "");
    assert_eq!(queue(&both), "A 1 0; B 2 0");
}

/// OutStart changes the reservation and the entry, and nothing else: the carrier keeps its place.
#[test]
fn the_carrier_keeps_its_place_until_it_is_out() {
    let mut t = stocked(2, 2, &["A", "B"]);
    ask(&mut t, &[("A", 1)]);
    let mut u = t;
    accept(&mut u, 27, 1, 0, "");
    let mut expected = t;
    expected.base.port[0].reserved = 1;
    expected.queue.request[0].started = 1;
    assert_eq!(u.bytes(), expected.bytes());
    // Its place is taken until OutDone, and free then.
    accept(&mut u, 1, 2, 0, "NEW");
    bring(&mut u, 2, "NEW");
    let place = |t: &Tool, place| give(&mut t.clone(), 18, 2, place, "", &[]).0;
    assert_eq!((place(&u, 1), place(&u, 2)), (8, 8));
    accept(&mut u, 28, 1, 0, "");
    assert_eq!((place(&u, 1), place(&u, 2)), (0, 8));
}

/// Older ones that aren't ready are passed over, keep their place, and are taken when they are.
#[test]
fn what_is_not_ready_is_passed_over() {
    let mut t = stocked(1, 3, &["A", "B", "C"]);
    ask(&mut t, &[("A", 1), ("B", 1), ("C", 1)]);
    accept(&mut t, 19, 0, 0, "A");
    let mut open = t;
    accept(&mut open, 27, 1, 0, "");
    assert_eq!(queue(&open), "A 1 0; B 1 1; C 1 0");
    // In access, and done but not closed.
    accept_codes(&mut t, 20, 0, "A", &THREES);
    accept(&mut t, 5, 0, 0, "A");
    accept(&mut t, 21, 0, 0, "A");
    let mut in_access = t;
    accept(&mut in_access, 27, 1, 0, "");
    assert_eq!(queue(&in_access), "A 1 0; B 1 1; C 1 0");
    accept(&mut t, 22, 0, 0, "A");
    let mut done = t;
    accept(&mut done, 27, 1, 0, "");
    assert_eq!(queue(&done), "A 1 0; B 1 1; C 1 0");
    accept(&mut t, 23, 0, 0, "A");
    accept(&mut t, 27, 1, 0, "");
    assert_eq!(queue(&t), "A 1 1; B 1 0; C 1 0");
    accept(&mut open, 28, 1, 0, "");
    assert_eq!(queue(&open), "A 1 0; C 1 0");
}

/// Closed and IN ACCESS: no run comes to it, and it is not ready all the same.
#[test]
fn closed_and_in_access_is_not_ready() {
    let mut t = stocked(1, 2, &["A", "B"]);
    ask(&mut t, &[("A", 1)]);
    let a = position(&t, "A");
    for (open, accessing) in [(0, 1), (0, 2), (0, 3), (0, 4), (1, 1), (1, 2), (1, 3), (1, 4)] {
        let mut u = t;
        (u.base.carrier[a].open, u.base.carrier[a].accessing) = (open, accessing);
        assert!(sound(&u));
        let ready = open == 0 && accessing != 2;
        assert_eq!(answer(&u, 27, 1, "", &[]), if ready { 0 } else { 5 });
        // The next one is taken then.
        ask(&mut u, &[("B", 1)]);
        accept(&mut u, 27, 1, 0, "");
        assert_eq!(queue(&u), if ready { "A 1 1; B 1 0" } else { "A 1 0; B 1 1" });
    }
}

/// ID, slot status, cancelled and came-out play no part.
#[test]
fn nothing_else_of_the_carrier_is_asked() {
    let mut t = stocked(1, 1, &["A"]);
    ask(&mut t, &[("A", 1)]);
    for (id, slot) in (1..=4).flat_map(|id| (1..=4).map(move |slot| (id, slot))) {
        for flags in 0..4 {
            let mut u = t;
            let c = &mut u.base.carrier[0];
            (c.id, c.slot, c.cancelled, c.came_out) = (id, slot, flags & 1, flags >> 1);
            accept(&mut u, 27, 1, 0, "");
            assert_eq!(queue(&u), "A 1 1");
        }
    }
}

/// 1 for the port, 4 where row 7 had it, 5 unless READY TO LOAD or with nothing to take; 4 is the lower.
#[test]
fn out_start_refused() {
    let mut t = stocked(4, 2, &["A", "B"]);
    assert_eq!(answer(&t, 27, 1, "A", &[]), 5);
    for port in [0, 5, 255, 256, 257, 1 << 16 | 1, 1 << 31 | 1, u32::MAX] {
        assert_eq!(answer(&t, 27, port, "A", &[]), 1, "{port}");
        assert_eq!(answer(&t, 28, port, "A", &[]), 1, "{port}");
    }
    ask(&mut t, &[("A", 1)]);
    // For another port.
    assert_eq!(answer(&t, 27, 2, "A", &[]), 5);
    // The host's own reservation, with something to take and without.
    accept(&mut t, 11, 1, 0, "");
    accept(&mut t, 11, 2, 0, "");
    assert_eq!((answer(&t, 27, 1, "", &[]), answer(&t, 27, 2, "", &[])), (4, 4));
    accept(&mut t, 12, 1, 0, "");
    accept(&mut t, 12, 2, 0, "");
    // Bound: tied and reserved; while it loads: tied alone, and BLOCKED.
    let mut bound = t;
    accept(&mut bound, 1, 1, 0, "NEW");
    assert_eq!(answer(&bound, 27, 1, "", &[]), 4);
    accept(&mut bound, 13, 1, 0, "");
    assert_eq!(answer(&bound, 27, 1, "", &[]), 4);
    // Untied, and not READY TO LOAD.
    let mut loading = t;
    accept(&mut loading, 13, 1, 0, "");
    assert_eq!(answer(&loading, 27, 1, "", &[]), 5);
    let mut out = t;
    accept(&mut out, 10, 1, 0, "");
    assert_eq!(answer(&out, 27, 1, "", &[]), 5);
    // Started already, with another request behind it.
    ask(&mut t, &[("B", 1)]);
    accept(&mut t, 27, 1, 0, "");
    assert_eq!(answer(&t, 27, 1, "", &[]), 4);
    accept(&mut t, 28, 1, 0, "");
    assert_eq!(answer(&t, 27, 1, "", &[]), 4);
    accept(&mut t, 24, 1, 0, "");
    accept(&mut t, 25, 1, 0, "");
    assert_eq!(answer(&t, 27, 1, "", &[]), 0);
}

/// 4 before 5 where no run comes to: reserved, and not READY TO LOAD.
#[test]
fn a_reservation_is_looked_at_first() {
    let mut t = stocked(1, 1, &["A"]);
    for request in [false, true] {
        for transfer in [0, 1, 2, 3] {
            let mut u = t;
            (u.base.port[0].transfer, u.base.port[0].reserved) = (transfer, 1);
            assert_eq!(answer(&u, 27, 1, "", &[]), 4);
            u.base.port[0].reserved = 0;
            let good = transfer == 1 && request;
            assert_eq!(answer(&u, 27, 1, "", &[]), if good { 0 } else { 5 });
        }
        if !request {
            ask(&mut t, &[("A", 1)]);
        }
    }
}

/// Row 7's effect in full, the end of the reservation, and the entry that goes.
#[test]
fn out_done_in_full() {
    let mut t = stocked(2, 3, &["A", "B", "C"]);
    accept(&mut t, 9, 1, 1, "");
    ask(&mut t, &[("C", 1), ("B", 1), ("A", 2)]);
    accept(&mut t, 19, 0, 0, "C");
    accept(&mut t, 27, 1, 0, "");
    let mut expected = t;
    let b = position(&t, "B");
    let c = &mut expected.base.carrier[b];
    (c.place, c.spot, c.port, c.came_out) = (1, 0, 1, 1);
    let port = &mut expected.base.port[0];
    (port.transfer, port.reserved, port.pod, port.tag, port.tie) = (2, 0, 1, 1, padded(b"B"));
    expected.queue = crate::plain_queue::queue(&[t.queue.request[0], t.queue.request[2]]);
    assert_eq!(accept(&mut t, 28, 1, 0, ""), "1 1 1>2; 3 1 1>0; 4 1 0>1");
    assert_eq!(t.bytes(), expected.bytes());
    assert_eq!(queue(&t), "C 1 0; A 2 0");
}

/// 5 unless started there: not for a reservation of the host's, a request that waits, or one started elsewhere.
#[test]
fn out_done_refused() {
    let mut t = stocked(2, 2, &["A", "B"]);
    assert_eq!(answer(&t, 28, 1, "A", &[]), 5);
    ask(&mut t, &[("A", 1), ("B", 2)]);
    assert_eq!(answer(&t, 28, 1, "A", &[]), 5);
    accept(&mut t, 11, 1, 0, "");
    assert_eq!(answer(&t, 28, 1, "A", &[]), 5);
    accept(&mut t, 27, 2, 0, "");
    assert_eq!((answer(&t, 28, 1, "A", &[]), answer(&t, 28, 2, "A", &[])), (5, 0));
    accept(&mut t, 28, 2, 0, "");
    assert_eq!(answer(&t, 28, 2, "B", &[]), 5);
}

/// Rows 27 and 28 take a port alone.
#[test]
fn name_value_and_codes_are_ignored() {
    let mut t = stocked(1, 2, &["A", "B"]);
    ask(&mut t, &[("A", 1), ("B", 1)]);
    for number in [27, 28] {
        for (value, name, codes) in [(9, "B", &[9; 3][..]), (u32::MAX, " ", &[]), (0, "A B", &THREES)] {
            let (mut one, mut other) = (t, t);
            let given = give(&mut one, number, 1, value, name, codes);
            assert_eq!(given, give(&mut other, number, 1, 0, "", &[]));
            assert_eq!((given.0, one), (0, other));
        }
        accept(&mut t, number, 1, 0, "");
    }
    assert_eq!((queue(&t).as_str(), record(&t, "A").port), ("B 1 0", 1));
}

/// All sixteen come out in the order they were asked for, whatever the order of their records.
#[test]
fn sixteen_come_out_in_order() {
    let (mut t, names) = sixteen(1);
    let order: Vec<&str> = (0..16).map(|k| names[k * 7 % 16].as_str()).collect();
    for name in &order {
        ask(&mut t, &[(name, 1)]);
    }
    for (k, name) in order.iter().enumerate() {
        assert_eq!(t.queue.count as usize, 16 - k);
        fetch(&mut t, 1);
        assert_eq!((record(&t, name).place, t.base.port[0].tie), (1, padded(name.as_bytes())));
        accept(&mut t, 24, 1, 0, "");
        accept(&mut t, 25, 1, 0, "");
    }
    assert_eq!((t.queue.count, t.base.count), (0, 0));
    assert_eq!(t.bytes()[2791..], [0; 991]);
}
