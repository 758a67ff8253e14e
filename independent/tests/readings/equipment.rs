//! Rows 13 to 26.

use super::*;

/// Pods to be read at port 1, bound to A, and at port 3; C is bound to port 2, D is in the buffer.
fn unread_pods() -> Tool {
    tool(3, 1, |t| {
        pod(t, 1, 0);
        add(t, "A", |c| c.port = 1);
        add(t, "B", |c| (c.id, c.map[0]) = (3, 4));
        add(t, "C", |c| c.port = 2);
        add(t, "D", |c| in_buffer(c, 1));
        pod(t, 3, 0);
        t.port[2].transfer = 2; // no row looks at it
    })
}

fn names(t: &Tool) -> String {
    t.carriers().iter().map(|c| c.name[0] as char).collect()
}

#[test]
fn reading_a_tied_name() {
    let t = unread_pods();
    assert_eq!(refused(&t, 16, 1, 0, "C"), 3); // tied to another port
    assert_eq!(refused(&t, 16, 1, 0, "D"), 3); // placed
    assert_eq!(refused(&t, 16, 2, 0, "D"), 3); // before 5
    assert_eq!(refused(&t, 16, 2, 0, "X"), 5);
    assert_eq!(refused(&t, 17, 2, 0, ""), 5);
    let mut u = t;
    assert_eq!(accepted(&mut u, 16, 1, 0, "A"), [(5, 1, 3)]);
    assert_eq!((u.carrier[0].place, u.port[0].tag), (1, 1));
    assert_eq!(refused(&u, 16, 1, 0, "A"), 3); // placed, here too
    assert_eq!(refused(&u, 16, 1, 0, "X"), 5); // read already
}

#[test]
fn reading_another_name() {
    let t = unread_pods();
    // Expected: it keeps its position, its ID is 2 though it was OK.
    let mut u = t;
    assert_eq!(accepted(&mut u, 16, 1, 0, "B"), [(4, 1, 1), (5, 1, 0), (5, 3, 2), (6, 1, 0), (7, 1, 0)]);
    assert_eq!(names(&u), "BCD");
    assert_eq!((u.carrier[0].id, u.carrier[0].map[0], u.carrier[0].port, u.carrier[0].place), (2, 4, 1, 1));
    // New: it stands last.
    let mut u = t;
    let all = [(4, 1, 1), (5, 1, 0), (5, 0, 2), (6, 1, 0), (6, 0, 1), (7, 1, 0), (7, 0, 1)];
    assert_eq!(accepted(&mut u, 16, 1, 0, "N"), all);
    assert_eq!(names(&u), "BCDN");
    // The record that goes may be placed, and open.
    let mut u = t;
    at_port(&mut u.carrier[0], 1);
    u.carrier[0].open = 1;
    assert_eq!(accepted(&mut u, 16, 1, 0, "N").len(), 7);
    assert_eq!(names(&u), "BCDN");
}

/// An expected name is a match, and one with no record waits.
#[test]
fn reading_without_a_tie() {
    let t = unread_pods();
    let mut u = t;
    assert_eq!(accepted(&mut u, 16, 3, 0, "B"), [(4, 0, 1)]); // its ID was OK already
    assert_eq!(u.carrier[1].id, 3);
    let mut u = t;
    assert_eq!(accepted(&mut u, 16, 3, 0, "N"), [(4, 0, 1), (5, 0, 2), (6, 0, 1), (7, 0, 1)]);
    assert_eq!(u.port[2].transfer, 2);
}

/// A tied carrier is placed with ID 2, whatever it was.
#[test]
fn a_read_that_fails() {
    let t = unread_pods();
    let mut u = t;
    assert_eq!(accepted(&mut u, 17, 1, 0, ""), [(5, 1, 2)]);
    assert_eq!((u.carrier[0].place, u.port[0].tag), (1, 2));
    let mut u = t;
    at_port(&mut u.carrier[0], 1);
    u.carrier[0].id = 4;
    assert_eq!(accepted(&mut u, 17, 1, 0, ""), [(5, 4, 2)]);
    let mut u = t;
    assert_eq!(accepted(&mut u, 17, 3, 0, ""), []);
    assert_eq!(u.port[2].tag, 2);
}

#[test]
fn moving_in() {
    let t = tool(3, 2, |t| {
        pod(t, 1, 1);
        t.port[0].reserved = 1;
        pod(t, 2, 1);
        pod(t, 3, 1);
        add(t, "A", |c| {
            at_port(c, 1);
            (c.id, c.open, c.came_out, c.cancelled) = (3, 1, 1, 1);
        });
        add(t, "B", |c| (c.port, c.id) = (2, 3)); // expected only
        add(t, "C", |c| in_buffer(c, 2));
    });
    assert_eq!(refused(&t, 18, 2, 1, ""), 7);
    assert_eq!(refused(&t, 18, 2, 2, ""), 7); // before 8
    assert_eq!(refused(&t, 18, 3, 1, ""), 7); // no tie
    assert_eq!(refused(&t, 18, 1, 2, ""), 8);
    let mut u = t;
    u.carrier[0].id = 2;
    assert_eq!(refused(&u, 18, 1, 1, ""), 7);
    let mut u = t;
    u.port[0].pod = 0;
    assert_eq!(refused(&u, 18, 1, 2, ""), 5);
    let mut u = t;
    assert_eq!(accepted(&mut u, 18, 1, 1, ""), [(1, 3, 1), (4, 1, 0)]);
    let (c, p) = (u.carrier[0], u.port[0]);
    assert_eq!((c.place, c.spot, c.port, c.open, c.came_out, c.cancelled), (2, 1, 0, 1, 1, 1));
    assert_eq!((p.transfer, p.pod, p.tag, p.tied(), p.reserved), (1, 0, 0, false, 1));
}

#[test]
fn opening_in_the_buffer() {
    let t = tool(2, 2, |t| {
        pod(t, 1, 1);
        add(t, "A", |c| {
            at_port(c, 1);
            c.id = 3;
        });
        add(t, "B", |c| {
            in_buffer(c, 2);
            c.id = 3;
        });
        add(t, "E", |c| c.id = 3);
    });
    assert_eq!(refused(&t, 19, 0, 0, "X"), 2);
    assert_eq!(refused(&t, 19, 0, 0, "A"), 5); // B > 0
    assert_eq!(refused(&t, 19, 0, 0, "E"), 5);
    let changes: [fn(&mut Carrier); 3] = [|c| c.id = 2, |c| c.slot = 4, |c| c.cancelled = 1];
    for change in changes {
        let mut u = t;
        change(&mut u.carrier[1]);
        assert_eq!(refused(&u, 19, 0, 0, "B"), 7);
    }
    let mut u = t;
    u.carrier[1].accessing = 3;
    assert_eq!(refused(&u, 19, 0, 0, "B"), 5);
    let mut u = t;
    u.carrier[0].open = 1; // another, at a port
    assert_eq!(refused(&u, 19, 0, 0, "B"), 8);
    let mut u = t;
    assert_eq!(accepted(&mut u, 19, 0, 0, "B"), []);
    assert_eq!(refused(&u, 19, 0, 0, "B"), 5); // open already
}

/// B = 0: at an idle BLOCKED port, whatever else is open.
#[test]
fn opening_at_a_port() {
    let t = tool(2, 0, |t| {
        pod(t, 1, 1);
        pod(t, 2, 1);
        add(t, "A", |c| {
            at_port(c, 1);
            (c.id, c.open) = (3, 1);
        });
        add(t, "B", |c| {
            at_port(c, 2);
            c.id = 3;
        });
    });
    accepted(&mut t.clone(), 19, 0, 0, "B");
    let mut u = t;
    u.port[1].movement = 2;
    assert_eq!(refused(&u, 19, 0, 0, "B"), 5);
    let mut u = t;
    u.port[1].transfer = 2;
    assert_eq!(refused(&u, 19, 0, 0, "B"), 5);
    let mut u = t;
    u.carrier[1].place = 0; // tied, but only expected
    assert_eq!(refused(&u, 19, 0, 0, "B"), 5);
}

#[test]
fn accessing_and_closing() {
    let t = tool(1, 2, |t| {
        pod(t, 1, 1);
        add(t, "A", |c| {
            at_port(c, 1);
            (c.open, c.accessing, c.slot) = (1, 3, 3);
        });
        add(t, "B", |c| {
            in_buffer(c, 1);
            (c.slot, c.cancelled, c.id, c.open) = (3, 1, 4, 1);
        });
        add(t, "C", |c| {
            in_buffer(c, 2);
            c.accessing = 2; // closed
        });
        add(t, "E", |c| c.accessing = 2);
    });
    assert_eq!(refused(&t, 21, 0, 0, "A"), 5);
    assert_eq!(refused(&t, 21, 0, 0, "C"), 5);
    assert_eq!(accepted(&mut t.clone(), 21, 0, 0, "B"), [(7, 1, 2)]); // the slot status alone counts
    let mut u = t;
    u.carrier[1].slot = 2;
    assert_eq!(refused(&u, 21, 0, 0, "B"), 7);
    assert_eq!(accepted(&mut t.clone(), 22, 0, 0, "C"), [(7, 2, 3)]); // IN ACCESS alone counts
    assert_eq!(accepted(&mut t.clone(), 22, 0, 1, "E"), [(7, 2, 4)]);
    assert_eq!(refused(&t, 22, 0, 0, "B"), 5);
    assert_eq!(refused(&t, 22, 0, 2, "X"), 1);
    assert_eq!(refused(&t, 22, 0, 1, "X"), 2);
    assert_eq!(refused(&t, 23, 0, 0, "C"), 5);
    assert_eq!(accepted(&mut t.clone(), 23, 0, 0, "A"), [(1, 3, 2)]); // with B > 0 too
    assert_eq!(accepted(&mut t.clone(), 23, 0, 0, "B"), []);
    let mut u = t;
    u.carrier[0].accessing = 1;
    assert_eq!(accepted(&mut u, 23, 0, 0, "A"), []);
    assert_eq!(u.port[0].transfer, 3);
    u = t;
    u.carrier[1].accessing = 2;
    assert_eq!(refused(&u, 23, 0, 0, "B"), 5);
}

#[test]
fn loading_and_unloading() {
    // READY TO UNLOAD alone counts: no pod, no tie.
    let mut t = tool(1, 0, |t| {
        t.port[0].transfer = 2;
        t.port[0].reserved = 1;
        t.port[0].tag = 2;
    });
    assert_eq!(accepted(&mut t, 24, 1, 0, ""), [(1, 2, 3)]);
    assert_eq!(accepted(&mut t, 26, 1, 0, ""), [(1, 3, 2)]);
    assert_eq!(accepted(&mut t, 24, 1, 0, ""), [(1, 2, 3)]);
    assert_eq!(refused(&t, 14, 1, 0, ""), 5);
    assert_eq!(refused(&t, 15, 1, 0, ""), 5);
    assert_eq!(accepted(&mut t, 25, 1, 0, ""), [(1, 3, 1)]);
    assert_eq!((t.port[0].reserved, t.port[0].tag), (1, 0));
    // A tied record goes though it is only expected.
    let mut t = tool(1, 0, |t| {
        t.port[0].transfer = 2;
        add(t, "A", |c| c.port = 1);
        add(t, "B", |_| {});
    });
    accepted(&mut t, 24, 1, 0, "");
    assert_eq!(accepted(&mut t, 25, 1, 0, ""), [(1, 3, 1), (4, 1, 0), (5, 1, 0), (6, 1, 0), (7, 1, 0)]);
    assert_eq!((t.count, t.carrier[0].name[0]), (1, b'B'));
    // READY TO LOAD alone counts, with a carrier placed there too; the tie stays.
    let mut t = tool(1, 0, |t| {
        add(t, "A", |c| at_port(c, 1));
        t.port[0].reserved = 1;
        t.port[0].tag = 1;
    });
    assert_eq!(accepted(&mut t, 13, 1, 0, ""), [(1, 1, 3), (3, 1, 0)]);
    assert_eq!(refused(&t, 25, 1, 0, ""), 5);
    assert_eq!(accepted(&mut t, 15, 1, 0, ""), [(1, 3, 1)]);
    assert_eq!(t.port[0].tag, 1);
    assert_eq!(accepted(&mut t, 13, 1, 0, ""), [(1, 1, 3)]);
    assert_eq!(accepted(&mut t, 14, 1, 0, ""), []);
    assert_eq!((t.port[0].tag, t.port[0].pod, t.port[0].tied()), (0, 1, true));
}
