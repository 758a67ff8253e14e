//! The request's sentences, one by one, and the pairs that look like undoing and aren't.

use super::*;

/// A tool with something of everything: B expected and tied, a pod that is held, a carrier that foretells.
fn busy() -> Tool {
    let mut t = tool(4, 0);
    accept(&mut t, 9, 4, 1, "");
    accept(&mut t, 13, 4, 0, "");
    accept(&mut t, 14, 4, 0, "");
    accept_codes(&mut t, 1, 2, "B", &mixed(2));
    bring(&mut t, 3, "C");
    accept(&mut t, 6, 0, 0, "C");
    t
}

/// Both inputs are accepted. What state they leave; nothing where it is the one before, all of it.
fn leaves(t: &Tool, first: (u32, u32, u32, &str), undo: (u32, u32, u32, &str)) -> Option<Tool> {
    let mut now = *t;
    accept(&mut now, first.0, first.1, first.2, first.3);
    assert!(!same(t, &now), "row {} changes something", first.0);
    accept(&mut now, undo.0, undo.1, undo.2, undo.3);
    (!same(t, &now)).then_some(now)
}

#[test]
fn the_four_pairs() {
    let t = busy();
    assert_eq!(leaves(&t, (1, 1, 0, "A"), (2, 1, 0, "A")), None);
    assert_eq!(leaves(&t, (3, 0, 0, "A"), (4, 0, 0, "A")), None);
    assert_eq!(leaves(&t, (11, 1, 0, ""), (12, 1, 0, "")), None);
    assert_eq!(leaves(&t, (24, 3, 0, ""), (26, 3, 0, "")), None);
}

#[test]
fn padded_names_are_the_same_pair() {
    let t = busy();
    assert_eq!(leaves(&t, (1, 1, 0, "A"), (2, 1, 0, "A   ")), None);
    assert_eq!(leaves(&t, (1, 1, 0, "A "), (2, 1, 0, "A")), None);
    assert_eq!(leaves(&t, (3, 0, 0, "ABCDEFGHIJKLMNOP "), (4, 0, 0, "ABCDEFGHIJKLMNOP")), None);
}

/// CancelBind means the pair by its port or by its name, too.
#[test]
fn one_of_port_and_name_is_enough() {
    let t = busy();
    assert_eq!(leaves(&t, (1, 1, 0, "A"), (2, 1, 0, "")), None);
    assert_eq!(leaves(&t, (1, 1, 0, "A"), (2, 0, 0, "A")), None);
}

/// The expected map goes with the record, and the last one that may be expected is no other.
#[test]
fn maps_and_the_sixteenth() {
    let mut t = busy();
    for k in 0..14 {
        accept_codes(&mut t, 3, 0, &format!("N{k}"), &mixed(k));
    }
    let before = t;
    for (first, undo) in [(1, 2), (3, 4)] {
        accept_codes(&mut t, first, 1, "A", &THREES);
        assert_eq!(answer(&t, 3, 0, "Z", &[]), 6);
        accept(&mut t, undo, 1, 0, "A");
        assert!(same(&before, &t), "{}", describe(&t));
    }
}

/// LoadStart ends a reservation, the host's own or Bind's, and LoadFail doesn't bring it back.
#[test]
fn load_start_and_load_fail_are_no_pair() {
    let mut t = busy();
    accept(&mut t, 11, 1, 0, "");
    for port in [1, 2] {
        let left = leaves(&t, (13, port, 0, ""), (15, port, 0, "")).unwrap();
        let mut expected = t;
        expected.base.port[port as usize - 1].reserved = 0;
        assert!(same(&left, &expected), "{}", describe(&left));
    }
    accept(&mut t, 12, 1, 0, "");
    assert_eq!(leaves(&t, (13, 1, 0, ""), (15, 1, 0, "")), None);
}

/// The alarm of a hand in AUTO stays after UnloadFail, and goes with LoadFail.
#[test]
fn a_hand_in_auto() {
    let mut t = busy();
    accept(&mut t, 9, 3, 1, "");
    accept(&mut t, 9, 1, 1, "");
    let left = leaves(&t, (24, 3, 0, ""), (26, 3, 0, "")).unwrap();
    let mut expected = t;
    expected.alarms[2].on = 1;
    assert!(same(&left, &expected), "{}", describe(&left));
    assert_eq!(leaves(&t, (24, 3, 1, ""), (26, 3, 0, "")), None);
    // With the alarm on already a second hand adds nothing.
    assert_eq!(leaves(&left, (24, 3, 0, ""), (26, 3, 0, "")), None);
    assert_eq!(leaves(&t, (13, 1, 0, ""), (15, 1, 0, "")), None);
}

/// The record comes back, behind the others.
#[test]
fn cancel_bind_and_bind_change_the_order() {
    let mut t = busy();
    accept(&mut t, 2, 2, 0, "B");
    accept(&mut t, 1, 2, 0, "B");
    assert_eq!((position(&t, "C"), position(&t, "B")), (0, 1));
    accept(&mut t, 3, 0, 0, "A");
    let left = leaves(&t, (2, 2, 0, "B"), (1, 2, 0, "B")).unwrap();
    let order = |t: &Tool| ["C", "B", "A"].map(|name| position(t, name));
    assert_eq!((order(&t), order(&left)), ([0, 1, 2], [0, 2, 1]));
    assert_eq!(record(&left, "B"), record(&t, "B"));
    accept(&mut t, 4, 0, 0, "A");
    assert_eq!(leaves(&t, (2, 2, 0, "B"), (1, 2, 0, "B")), None);
}

/// UnloadFail ends a prediction that was made while the pod was unloading.
#[test]
fn unload_fail_and_unload_start() {
    let mut t = Tool::NONE;
    assert_eq!(setup(1, 0, 60, 120, &mut t), 0);
    bring(&mut t, 1, "C");
    accept(&mut t, 5, 0, 0, "C");
    accept(&mut t, 19, 0, 0, "C");
    accept_codes(&mut t, 20, 0, "C", &THREES);
    accept(&mut t, 5, 0, 0, "C");
    accept(&mut t, 21, 0, 0, "C");
    accept(&mut t, 22, 0, 0, "C");
    accept(&mut t, 23, 0, 0, "C");
    accept(&mut t, 24, 1, 0, "");
    assert_eq!(leaves(&t, (26, 1, 0, ""), (24, 1, 0, "")), None);
    let tp = Input { number: 32, name: b"C".to_vec(), time: 30, ..Input::default() };
    assert_eq!(step_input(&mut t, &tp, &mut { Reports::NONE }), 0);
    let left = leaves(&t, (26, 1, 0, ""), (24, 1, 0, "")).unwrap();
    assert_eq!((t.predictions.of[0].state, left.predictions.of[0].state), (4, 6));
}
