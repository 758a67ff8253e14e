//! From OutStart to OutDone: Open on the carrier, LoadStart and CancelReservationAtPort at the port are
//! refused, and nothing else is.

use super::*;

/// A and B in the buffer, A started at port 1 and B asked for at port 2.
fn started() -> Tool {
    let mut t = stocked(3, 3, &["A", "B", "C"]);
    ask(&mut t, &[("A", 1), ("B", 2)]);
    accept(&mut t, 27, 1, 0, "");
    t
}

#[test]
fn the_three_that_are_refused() {
    let mut t = started();
    assert_eq!(answer(&t, 19, 0, "A", &[]), 5);
    assert_eq!((answer(&t, 13, 1, "", &[]), answer(&t, 12, 1, "", &[])), (4, 4));
    // Not at other ports, nor for other carriers.
    assert_eq!((answer(&t, 13, 2, "", &[]), answer(&t, 13, 3, "", &[])), (0, 0));
    assert_eq!((answer(&t, 12, 2, "", &[]), answer(&t, 12, 4, "", &[])), (5, 1));
    assert_eq!((answer(&t, 19, 0, "B", &[]), answer(&t, 19, 0, "C", &[])), (0, 0));
    // And as ever when it is out.
    accept(&mut t, 28, 1, 0, "");
    assert_eq!((answer(&t, 13, 1, "", &[]), answer(&t, 12, 1, "", &[])), (5, 4));
    assert_eq!(answer(&t, 19, 0, "A", &[]), 5);
    accept(&mut t, 8, 0, 0, "A");
    accept(&mut t, 18, 1, 1, "");
    assert_eq!((answer(&t, 13, 1, "", &[]), answer(&t, 12, 1, "", &[])), (0, 5));
    assert_eq!(answer(&t, 19, 0, "A", &[]), 0);
}

/// Open's 5 comes before 7 and 8: not verified, cancelled, and another that is open.
#[test]
fn open_on_a_started_one_is_5_first() {
    let t = started();
    let a = position(&t, "A");
    for (id, slot, cancelled) in [(3, 1, 0), (2, 1, 0), (3, 4, 0), (3, 1, 1), (1, 4, 1)] {
        for another in [0, 1] {
            let mut u = t;
            let c = &mut u.base.carrier[a];
            (c.id, c.slot, c.cancelled) = (id, slot, cancelled);
            let b = position(&t, "B");
            u.base.carrier[b].open = another;
            assert_eq!(answer(&u, 19, 0, "A", &[]), 5);
            // One that only waits has the other answers.
            u.queue.request[0].started = 0;
            let judged = if (id, slot == 4, cancelled) == (3, false, 0) { 8 * another as u32 } else { 7 };
            assert_eq!(answer(&u, 19, 0, "A", &[]), judged);
        }
    }
}

/// A request that waits holds nothing: neither port nor carrier.
#[test]
fn one_that_waits_holds_nothing() {
    let mut t = stocked(1, 1, &["A"]);
    ask(&mut t, &[("A", 1)]);
    assert_eq!(answer(&t, 13, 1, "", &[]), 0);
    assert_eq!(answer(&t, 12, 1, "", &[]), 5);
    accept(&mut t, 11, 1, 0, "");
    assert_eq!((answer(&t, 12, 1, "", &[]), answer(&t, 13, 1, "", &[])), (0, 0));
    accept(&mut t, 12, 1, 0, "");
    // It may open, and keeps its entry to the end of its stay.
    begin_access(&mut t, "A");
    assert_eq!(queue(&t), "A 1 0");
    accept(&mut t, 22, 0, 0, "A");
    accept(&mut t, 23, 0, 0, "A");
    assert_eq!(queue(&t), "A 1 0");
    fetch(&mut t, 1);
    assert_eq!((record(&t, "A").port, record(&t, "A").accessing), (1, 3));
}

/// The port's reservation refuses what it always did, and what a port is asked besides goes on.
#[test]
fn what_else_is_given_to_a_started_port() {
    let t = started();
    for (number, name, refusal) in [(1, "NEW", 4), (11, "", 4), (27, "", 4), (10, "", 4)] {
        assert_eq!(answer(&t, number, 1, name, &[]), refusal, "row {number}");
    }
    for number in [14, 15, 16, 17, 24, 25, 26] {
        assert_eq!(answer(&t, number, 1, "NEW", &[]), 5, "row {number}");
    }
    // The access that it has, and the other.
    assert_eq!((answer(&t, 9, 1, "", &[]), give(&mut t.clone(), 9, 1, 1, "", &[]).0), (0, 4));
    // In service it is.
    assert_eq!(give(&mut t.clone(), 10, 1, 1, "", &[]), (0, String::new()));
    for (number, name, refusal) in [(2, "", 5), (5, "A", 5), (6, "A", 5), (5, "NEW", 2)] {
        assert_eq!(answer(&t, number, 1, name, &[]), refusal, "row {number}");
    }
}

/// The opener is free for others while one is on its way out.
#[test]
fn another_may_be_opened_and_accessed() {
    let mut t = started();
    begin_access(&mut t, "B");
    accept(&mut t, 28, 1, 0, "");
    assert_eq!(queue(&t), "B 2 0");
    assert_eq!(answer(&t, 27, 2, "", &[]), 5);
}
