//! Predictions come, go and move with the records; with a buffer there are none.

use super::*;

/// Rows 1, 3, 5, 6 and 16 make a record, which waits for its carrier.
#[test]
fn a_new_record_waits_for_its_carrier() {
    let new = "5 A 0>1; 6 A 0>1; 7 A 0>1; 8 A 0>2";
    let mut t = fixed(1, 60, 120);
    assert_eq!(accept(&mut t, 1, 1, 0, "A"), format!("3 1 0>1; 4 1 0>1; {new}"));
    assert_eq!(shown(&t, "A"), "2 - -");
    assert_eq!(accept(&mut fixed(1, 60, 120), 3, 0, 0, "A"), new);
    let mut t = fixed(1, 60, 120);
    assert_eq!(bring(&mut t, 1, "A"), "4 1 0>1; 5 A 0>2; 6 A 0>1; 7 A 0>1; 8 A 0>2");
    assert_eq!(shown(&t, "A"), "2 - -");
    let mut t = fixed(1, 60, 120);
    load(&mut t, 1);
    accept(&mut t, 17, 1, 0, "");
    assert_eq!(accept(&mut t.clone(), 5, 1, 0, "A"), "4 1 0>1; 5 A 0>3; 6 A 0>1; 7 A 0>1; 8 A 0>2");
    // It waits until row 6, which here is the same input.
    let cancelled = "1 1 3>2; 4 1 0>1; 5 A 0>4; 6 A 0>1; 7 A 0>1; 8 A 0>2; 8 A 2>3; 8 A 3>4; 8 A 4>6";
    assert_eq!(accept(&mut t, 6, 1, 0, "A"), cancelled);
    assert_eq!(shown(&t, "A"), "6 0 -");
}

/// Until row 6 or 21: nothing else that befalls a carrier on its way changes its prediction.
#[test]
fn it_waits_until_access() {
    let mut t = fixed(1, 60, 120);
    let story = [(1, 1, "A"), (13, 1, ""), (14, 1, ""), (17, 1, ""), (5, 0, "A"), (19, 0, "A")];
    for (number, port, name) in story {
        accept(&mut t, number, port, 0, name);
        assert_eq!(shown(&t, "A"), "2 - -", "row {number}");
    }
    accept_codes(&mut t, 20, 0, "A", &THREES);
    accept(&mut t, 5, 0, 0, "A");
    // Closed and opened once more.
    accept(&mut t, 23, 0, 0, "A");
    accept(&mut t, 19, 0, 0, "A");
    assert_eq!(shown(&t, "A"), "2 - -");
    assert_eq!(accept(&mut t, 21, 0, 0, "A"), "7 A 1>2; 8 A 2>3");
}

/// Rows 2, 4, 16 and 25 take a record away, in whatever state.
#[test]
fn a_record_that_goes() {
    let mut t = fixed(2, 60, 120);
    accept(&mut t, 1, 1, 0, "A");
    accept(&mut t, 3, 0, 0, "B");
    assert_eq!(accept(&mut t.clone(), 2, 1, 0, ""), "3 1 1>0; 4 1 1>0; 5 A 1>0; 6 A 1>0; 7 A 1>0; 8 A 2>0");
    assert_eq!(accept(&mut t.clone(), 4, 0, 0, "B"), "5 B 1>0; 6 B 1>0; 7 B 1>0; 8 B 2>0");
    // Nine reports: those that go come before those that are made.
    load(&mut t, 1);
    let nine = "4 1 1>1; 5 A 1>0; 5 C 0>2; 6 A 1>0; 6 C 0>1; 7 A 1>0; 7 C 0>1; 8 A 2>0; 8 C 0>2";
    assert_eq!(accept(&mut t.clone(), 16, 1, 0, "C"), nine);
    // The expected record takes the tie and keeps its prediction.
    assert_eq!(accept(&mut t, 16, 1, 0, "B"), "4 1 1>1; 5 A 1>0; 5 B 1>2; 6 A 1>0; 7 A 1>0; 8 A 2>0");
    assert_eq!((shown(&t, "B"), t.base.count), ("2 - -".into(), 1));
}

#[test]
fn a_record_that_goes_with_its_pod() {
    for (state, times) in [(1, (0, 9)), (3, (9, 9)), (6, (9, 9))] {
        let mut t = accessed(times.0, times.1);
        if state == 6 {
            tell(&mut t, TP, 1, "A", 5);
        }
        finish(&mut t, "A");
        accept(&mut t, 24, 1, 0, "");
        let gone = format!("1 1 3>1; 4 1 1>0; 5 A 3>0; 6 A 3>0; 7 A 3>0; 8 A {state}>0");
        assert_eq!(accept(&mut t, 25, 1, 0, ""), gone);
        assert_eq!(t.predictions.of, [Prediction::NONE; 36]);
    }
    // In PREDICTED and ABORTED: Tp comes while it is unloaded.
    for (state, number) in [(4, TP), (5, NONE)] {
        let mut t = accessed(9, 9);
        finish(&mut t, "A");
        accept(&mut t, 24, 1, 0, "");
        assert_eq!(tell(&mut t, number, 1, "A", 2), format!("8 A 3>{state}"));
        assert!(accept(&mut t, 25, 1, 0, "").ends_with(&format!("8 A {state}>0")));
    }
}

/// Where a record goes, those behind it move up with their predictions, and a new one has none of the
/// old times.
#[test]
fn predictions_move_with_their_records() {
    let mut t = fixed(3, 60, 120);
    for (port, name) in [(1, "A"), (2, "B"), (3, "C")] {
        access(&mut t, port, name);
        tell(&mut t, TP, 10 * port, name, 1000 * port);
        tell(&mut t, TE, 10 * port, name, 1000 * port + 7);
    }
    accept(&mut t, 3, 0, 0, "E");
    let all = |t: &Tool| {
        t.base
            .carriers()
            .iter()
            .map(|c| {
                let name = String::from_utf8(independent::gen::unpadded(&c.name)).unwrap();
                format!("{name} {}", shown(t, &name))
            })
            .collect::<Vec<_>>()
            .join("; ")
    };
    assert_eq!(all(&t), "A 3 1000 1007; B 3 2000 2007; C 3 3000 3007; E 2 - -");
    finish(&mut t, "B");
    accept(&mut t, 24, 2, 0, "");
    accept(&mut t, 25, 2, 0, "");
    assert_eq!(all(&t), "A 3 1000 1007; C 3 3000 3007; E 2 - -");
    accept(&mut t, 3, 0, 0, "B");
    assert_eq!(all(&t), "A 3 1000 1007; C 3 3000 3007; E 2 - -; B 2 - -");
    accept(&mut t, 4, 0, 0, "E");
    assert_eq!(all(&t), "A 3 1000 1007; C 3 3000 3007; B 2 - -");
    assert_eq!(tell(&mut t, CLOCK, 940, "", 0), "8 A 3>4");
}

/// B above 0: no state, no report; names are 5, and the clock runs all the same.
#[test]
fn a_buffer_has_no_model_8() {
    let mut t = Tool::NONE;
    assert_eq!(setup(2, 1, 60, 120, &mut t), 0);
    let new = "5 A 0>1; 6 A 0>1; 7 A 0>1";
    assert_eq!(accept(&mut t, 1, 1, 0, "A"), format!("3 1 0>1; 4 1 0>1; {new}"));
    bring(&mut t, 1, "A");
    accept(&mut t, 18, 1, 1, "");
    accept(&mut t, 19, 0, 0, "A");
    accept_codes(&mut t, 20, 0, "A", &THREES);
    accept(&mut t, 5, 0, 0, "A");
    assert_eq!(accept(&mut t, 21, 0, 0, "A"), "7 A 1>2");
    for number in [TP, TE, NONE] {
        for clock in [0, 5] {
            assert_eq!((refusal(&t, number, clock, "A", 5), refusal(&t, number, clock, "N", 5)), (5, 2));
        }
        assert_eq!(refusal(&t, number, 5, "", 5), 1);
    }
    assert_eq!(tell(&mut t, CLOCK, 7, "", 0), "");
    assert_eq!((t.predictions.clock(), refusal(&t, CLOCK, 6, "", 0)), (7, 11));
    for number in [TP, TE, NONE] {
        assert_eq!((refusal(&t, number, 6, "A", 5), refusal(&t, number, 6, "N", 5)), (5, 2));
    }
    accept(&mut t, 22, 0, 0, "A");
    accept(&mut t, 23, 0, 0, "A");
    assert_eq!(accept(&mut t, 6, 0, 0, "A"), "");
    bring(&mut t, 2, "B");
    assert_eq!(accept(&mut t, 6, 0, 0, "B"), "1 2 3>2; 5 B 2>4");
    accept(&mut t, 24, 2, 0, "");
    assert_eq!(accept(&mut t, 25, 2, 0, ""), "1 2 3>1; 4 2 1>0; 5 B 4>0; 6 B 1>0; 7 B 1>0");
    assert_eq!(t.predictions.of, [Prediction::NONE; 36]);
}
