//! Rows 1 to 12.

use super::*;

#[test]
fn cancel_bind() {
    let t = tool(2, 0, |t| {
        add(t, "A", |c| c.port = 1);
        add(t, "B", |_| {});
        add(t, "C", |c| at_port(c, 2));
        t.port[0].reserved = 1;
    });
    assert_eq!(refused(&t, 2, 0, 0, ""), 1);
    assert_eq!(refused(&t, 2, 3, 0, "A"), 1);
    assert_eq!(refused(&t, 2, 1, 0, " "), 1);
    assert_eq!(refused(&t, 2, 1, 0, "X"), 2);
    assert_eq!(refused(&t, 2, 2, 0, "A"), 5); // not tied to each other
    assert_eq!(refused(&t, 2, 1, 0, "C"), 5);
    assert_eq!(refused(&t, 2, 0, 0, "B"), 5); // not tied
    assert_eq!(refused(&t, 2, 2, 0, ""), 5); // placed
    assert_eq!(refused(&t, 2, 0, 0, "C"), 5);
    for (port, name) in [(1, ""), (0, "A"), (1, "A")] {
        let mut t = t;
        assert_eq!(
            accepted(&mut t, 2, port, 0, name),
            [(3, 1, 0), (4, 1, 0), (5, 1, 0), (6, 1, 0), (7, 1, 0)]
        );
        assert_eq!(t.carriers().iter().map(|c| c.name[0]).collect::<Vec<_>>(), b"BC");
        assert_eq!((t.port[0].reserved, t.port[0].tied()), (0, false));
    }
    // A port that moves is not idle; one with a pod on it is.
    let mut u = t;
    (u.port[0].transfer, u.port[0].movement) = (3, 1);
    assert_eq!(refused(&u, 2, 1, 0, ""), 5);
    let mut u = t;
    pod(&mut u, 1, 0);
    u.port[0].reserved = 0;
    assert_eq!(accepted(&mut u, 2, 1, 0, ""), [(4, 1, 0), (5, 1, 0), (6, 1, 0), (7, 1, 0)]);
    assert_eq!((u.port[0].pod, u.port[0].transfer), (1, 3));
    // An untied port means no pair.
    assert_eq!(refused(&tool(1, 0, |_| {}), 2, 1, 0, ""), 5);
}

/// An unknown pod at port 1, a pod with a good tag at port 2, a carrier bound to port 3.
fn unknown_pod() -> Tool {
    tool(3, 1, |t| {
        pod(t, 1, 2);
        pod(t, 2, 1);
        add(t, "E", |c| (c.id, c.slot, c.accessing, c.came_out, c.map[3]) = (4, 2, 2, 1, 5));
        add(t, "T", |c| c.port = 3);
    })
}

#[test]
fn no_unknown_pod() {
    let t = unknown_pod();
    for number in [5, 6] {
        assert_eq!(refused(&t, number, 0, 0, "N"), 2);
        assert_eq!(refused(&t, number, 2, 0, "N"), 2); // the tag isn't failed
        assert_eq!(refused(&t, number, 3, 0, "N"), 2); // no pod, and tied
        assert_eq!(refused(&t, number, 0, 0, "E"), 5);
        assert_eq!(refused(&t, number, 2, 0, "E"), 5);
        assert_eq!(refused(&t, number, 3, 0, "T"), 5);
        assert_eq!(refused(&t, number, 1, 0, "T"), 5); // tied elsewhere
    }
}

#[test]
fn an_unknown_pod_without_a_record() {
    let t = unknown_pod();
    let mut u = t;
    assert_eq!(accepted(&mut u, 5, 1, 0, "N"), [(4, 0, 1), (5, 0, 3), (6, 0, 1), (7, 0, 1)]);
    assert_eq!(u.carrier[2], {
        let mut c = Carrier::new(padded(b"N"));
        at_port(&mut c, 1);
        c.id = 3;
        c
    });
    assert_eq!(u.port[0].transfer, 3);
    let mut u = t;
    assert_eq!(accepted(&mut u, 6, 1, 0, "N"), [(1, 3, 2), (4, 0, 1), (5, 0, 4), (6, 0, 1), (7, 0, 1)]);
    assert_eq!((u.carrier[2].cancelled, u.carrier[2].came_out), (1, 0));
}

/// What the row doesn't name stays, IN ACCESS or not, and the record keeps its position.
#[test]
fn an_unknown_pod_that_was_expected() {
    let t = unknown_pod();
    let mut u = t;
    assert_eq!(accepted(&mut u, 5, 1, 0, "E"), [(4, 0, 1), (5, 4, 3)]);
    let c = u.carrier[0];
    assert_eq!((c.place, c.port, c.id, c.slot, c.accessing, c.came_out, c.map[3]), (1, 1, 3, 2, 2, 1, 5));
    let mut u = t;
    assert_eq!(accepted(&mut u, 6, 1, 0, "E"), [(1, 3, 2), (4, 0, 1)]); // its ID was FAILED already
    let c = u.carrier[0];
    assert_eq!((c.id, c.slot, c.accessing, c.cancelled, c.came_out), (4, 2, 2, 1, 0));
    // Came-out stays if the port was READY TO UNLOAD already.
    let mut u = t;
    u.port[0].transfer = 2;
    assert_eq!(accepted(&mut u, 6, 1, 0, "E"), [(4, 0, 1)]);
    assert_eq!((u.carrier[0].cancelled, u.carrier[0].came_out), (1, 1));
}

#[test]
fn proceed_with_a_placed_carrier() {
    let t = tool(2, 2, |t| {
        pod(t, 1, 1);
        t.port[0].movement = 2;
        add(t, "A", |c| {
            at_port(c, 1);
            (c.id, c.slot, c.cancelled) = (3, 2, 1);
        });
        add(t, "B", |c| {
            in_buffer(c, 2);
            c.id = 2;
        });
        add(t, "C", |c| {
            in_buffer(c, 1);
            (c.id, c.slot) = (4, 2);
        });
    });
    assert_eq!(refused(&t, 5, 2, 0, "A"), 5);
    assert_eq!(refused(&t, 5, 1, 0, "B"), 5); // it has no port
    assert_eq!(refused(&t, 5, 0, 0, "C"), 5); // slot status only if the ID is OK
    assert_eq!(accepted(&mut t.clone(), 5, 1, 0, "A"), [(6, 2, 3)]); // though unloading
    assert_eq!(accepted(&mut t.clone(), 5, 0, 0, "A"), [(6, 2, 3)]);
    assert_eq!(accepted(&mut t.clone(), 5, 0, 0, "B"), [(5, 2, 3)]);
}

#[test]
fn cancel_a_placed_carrier() {
    let t = tool(3, 4, |t| {
        pod(t, 1, 1);
        t.port[1].transfer = 0;
        t.port[2] = t.port[0];
        t.port[2].movement = 2;
        add(t, "A", |c| {
            at_port(c, 1);
            (c.id, c.slot, c.open, c.came_out) = (4, 2, 1, 1);
        });
        add(t, "B", |c| at_port(c, 2));
        add(t, "C", |c| at_port(c, 3));
        add(t, "D", |c| {
            in_buffer(c, 1);
            (c.id, c.slot, c.open, c.came_out) = (2, 2, 1, 1);
        });
        add(t, "E", |c| {
            in_buffer(c, 2);
            c.accessing = 2;
        });
    });
    assert_eq!(refused(&t, 6, 0, 0, "C"), 5); // not idle
    assert_eq!(refused(&t, 6, 0, 0, "E"), 5); // IN ACCESS
    assert_eq!(refused(&t, 6, 1, 0, "D"), 5); // it has no port
    assert_eq!(refused(&t, 6, 2, 0, "A"), 5);
    let mut u = t;
    assert_eq!(accepted(&mut u, 6, 1, 0, "A"), [(1, 3, 2), (6, 2, 4)]); // whatever the ID
    assert_eq!((u.carrier[0].open, u.carrier[0].came_out, u.carrier[0].cancelled), (0, 0, 1));
    assert_eq!(accepted(&mut u, 6, 0, 0, "A"), []); // again
    let mut u = t;
    assert_eq!(accepted(&mut u, 6, 0, 0, "B"), [(1, 0, 2)]); // from OUT OF SERVICE too
    let mut u = t;
    assert_eq!(accepted(&mut u, 6, 0, 0, "D"), [(5, 2, 4)]); // ID first, slot status stays
    assert_eq!((u.carrier[3].open, u.carrier[3].came_out, u.carrier[3].slot), (0, 0, 2));
    // Came-out and READY TO UNLOAD already: it stays.
    let mut u = t;
    (u.port[0].transfer, u.carrier[0].open) = (2, 0);
    accepted(&mut u, 6, 0, 0, "A");
    assert_eq!((u.carrier[0].came_out, u.carrier[0].cancelled), (1, 1));
}

#[test]
fn out_and_in() {
    let t = tool(2, 3, |t| {
        add(t, "A", |c| {
            in_buffer(c, 3);
            c.cancelled = 1;
        });
        add(t, "B", |c| {
            in_buffer(c, 1);
            c.open = 1;
        });
        add(t, "C", |c| {
            in_buffer(c, 2);
            c.accessing = 2;
        });
        add(t, "D", |_| {});
        t.port[1].reserved = 1;
    });
    assert_eq!(refused(&t, 7, 2, 0, "X"), 2);
    assert_eq!(refused(&t, 7, 2, 0, "B"), 4);
    for name in ["B", "C", "D"] {
        assert_eq!(refused(&t, 7, 1, 0, name), 5);
    }
    let mut u = t;
    u.port[0].transfer = 0;
    assert_eq!(refused(&u, 7, 1, 0, "A"), 5);
    let mut u = t;
    u.port[0].tag = 2;
    assert_eq!(accepted(&mut u, 7, 1, 0, "A"), [(1, 1, 2), (4, 0, 1)]);
    let (c, p) = (u.carrier[0], u.port[0]);
    assert_eq!((c.place, c.spot, c.port, c.came_out, c.cancelled), (1, 0, 1, 1, 1));
    assert_eq!((p.transfer, p.pod, p.tag, p.tie), (2, 1, 1, c.name));
    assert_eq!(refused(&u, 8, 0, 0, "X"), 2);
    assert_eq!(refused(&u, 8, 0, 0, "B"), 5);
    assert_eq!(refused(&u, 8, 0, 0, "D"), 5);
    assert_eq!(accepted(&mut u, 8, 0, 0, "A"), [(1, 2, 3)]);
    assert_eq!((u.carrier[0].came_out, u.carrier[0].cancelled), (0, 1));
    assert_eq!(refused(&u, 8, 0, 0, "A"), 5);
}

/// Tied to a READY TO UNLOAD port with came-out on, but only expected.
#[test]
fn in_that_was_never_out() {
    let u = tool(1, 1, |t| {
        t.port[0].transfer = 2;
        add(t, "A", |c| (c.port, c.came_out) = (1, 1));
    });
    assert_eq!(refused(&u, 8, 0, 0, "A"), 5);
}

#[test]
fn access_and_service() {
    let mut t = tool(2, 0, |t| {
        t.port[0].transfer = 0;
        t.port[0].reserved = 1;
        add(t, "A", |c| c.port = 1);
        (t.port[1].transfer, t.port[1].movement) = (3, 1);
    });
    assert_eq!(accepted(&mut t, 9, 1, 0, ""), []);
    assert_eq!(refused(&t, 9, 1, 1, ""), 4);
    assert_eq!(accepted(&mut t, 9, 2, 0, ""), []);
    assert_eq!(refused(&t, 9, 2, 1, ""), 5);
    assert_eq!(refused(&t, 9, 2, 2, ""), 1);
    assert_eq!(refused(&t, 9, 2, 256, ""), 1);
    assert_eq!(refused(&t, 9, 0, 1, ""), 1);
    // Out already, whatever is tied; in keeps tie and reservation.
    assert_eq!(accepted(&mut t, 10, 1, 0, ""), []);
    assert_eq!(accepted(&mut t, 10, 1, 1, ""), [(1, 0, 1)]);
    assert_eq!((t.port[0].reserved, t.port[0].tied()), (1, true));
    assert_eq!(refused(&t, 10, 1, 0, ""), 4);
    assert_eq!(accepted(&mut t, 10, 2, 1, ""), []);
    assert_eq!(refused(&t, 10, 2, 0, ""), 5);
    assert_eq!(refused(&t, 10, 2, 2, ""), 1);
    // A tie alone doesn't stop ChangeAccess, and it alone stops CancelReservation with 4.
    t.port[0].reserved = 0;
    assert_eq!(accepted(&mut t, 9, 1, 1, ""), [(2, 0, 1)]);
    assert_eq!(refused(&t, 12, 1, 0, ""), 4);
    assert_eq!(refused(&t, 11, 1, 0, ""), 4);
    assert_eq!(refused(&t, 12, 2, 0, ""), 5);
    assert_eq!(refused(&t, 11, 2, 0, ""), 5);
}
