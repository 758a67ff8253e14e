//! What wafers are refused for: 1, 2, 5, 11 and 12, the lowest first.

use super::*;

const LAST: u32 = u32::MAX;

/// A tool at clock 100: A waits for its prediction, B has a Tp, E is expected.
fn waiting() -> Tool {
    let mut t = fixed(2, 60, 120);
    access(&mut t, 1, "A");
    access(&mut t, 2, "B");
    accept(&mut t, 3, 0, 0, "E");
    tell(&mut t, TP, 100, "B", 1000);
    t
}

/// 25 wafers are fine; 26 and more are not, nor is half a wafer.
#[test]
fn more_than_25_wafers() {
    let t = waiting();
    for count in 0..=120 {
        let good = count <= 50 && count % 2 == 0;
        for time in [0.0, PART, LONGEST] {
            assert_eq!(refusal(&t, 100, "A", &vec![time; count]), !good as u32, "{count}");
        }
        assert_eq!(
            refusal(&t, 100, "A", &vec![f64::NAN; count]),
            if !good { 1 } else { 12 * (count > 0) as u32 }
        );
    }
    for count in [256, 306, 1 << 16, (1 << 16) + 2, 1 << 20] {
        assert_eq!(refusal(&t, 100, "A", &vec![0.0; count]), 1);
    }
}

/// 1 comes before all others, whichever it is for.
#[test]
fn one_first() {
    let t = waiting();
    for clock in [0, 99, 100, LAST] {
        for times in [&[][..], &[1.0, 1.0], &[f64::NAN, 1.0], &[LONGEST; 50]] {
            for bad in ["", " ", " A", "A B", "ABCDEFGHIJKLMNOPQ", "A\u{7F}"] {
                assert_eq!(refusal(&t, clock, bad, times), 1, "{bad:?}");
            }
        }
        for times in [&[1.0; 52][..], &[1.0; 51], &[1.0], &[f64::NAN; 52], &[f64::NAN; 3]] {
            for name in ["A", "B", "E", "N", ""] {
                assert_eq!(refusal(&t, clock, name, times), 1, "{name:?}");
            }
        }
    }
}

/// Then 2, 5 and 11, as the input for Tp has them; 12 is last.
#[test]
fn the_lowest_number() {
    let t = waiting();
    let bad: [&[f64]; 4] = [&[f64::NAN, 1.0], &[1.0, TOO_LONG], &[0.0, PART / 2.0], &[-1.0; 50]];
    for clock in [0, 99, 100, 5000, LAST] {
        for (name, refused) in [("N", 2), ("B", 5), ("E", 5)] {
            for times in bad.into_iter().chain([&[1.0, 1.0][..], &[LONGEST; 50]]) {
                assert_eq!(refusal(&t, clock, name, times), refused);
            }
        }
        for times in bad {
            assert_eq!(refusal(&t, clock, "A", times), if clock < 100 { 11 } else { 12 });
        }
        assert_eq!(refusal(&t, clock, "A", &[]), if clock < 100 { 11 } else { 0 });
    }
    // With a buffer a name is 5.
    let mut t = tool(1, 1);
    super::super::bring(&mut t, 1, "A");
    for times in bad.into_iter().chain([&[][..], &[1.0, 1.0]]) {
        assert_eq!((refusal(&t, 0, "A", times), refusal(&t, 0, "N", times)), (5, 2));
    }
}

/// Tp of 4,294,967,295 is fine, and one second more is 12.
#[test]
fn a_tp_past_the_clocks_range() {
    let t = waiting();
    for (clock, times, answer) in [
        (LAST, &[][..], 0),
        (LAST, &[0.0, -0.0], 0),
        (LAST, &[PART, 0.0], 12),
        (LAST, &[0.0, 1.0], 12),
        (LAST, &[LONGEST; 50], 12),
        (LAST - 1, &[1.0, 0.0], 0),
        (LAST - 1, &[PART; 50], 0),
        (LAST - 1, &[1.0, PART], 12),
        (LAST - 1, &[1.0 - PART, PART], 0),
        (LAST - 1, &[1.0 - PART, 2.0 * PART], 12),
        (LAST - 25, &[0.5; 50], 0),
        (LAST - 24, &[0.5; 50], 12),
        (LAST - (50 << 20), &[LONGEST; 50], 0),
        (LAST - (50 << 20) + 1, &[LONGEST; 50], 12),
        (0, &[LONGEST; 50], 11),
        (100, &[LONGEST; 50], 0),
    ] {
        assert_eq!(refusal(&t, clock, "A", times), answer, "{clock} {times:?}");
    }
    let mut t = t;
    assert_eq!(bring(&mut t, LAST - 1, "A", &[1.0, -0.0]).0, 0);
    assert_eq!(shown(&t, "A"), "4 4294967295 -");
}

/// A refused input leaves the clock alone, judges nobody and gives no Tp.
#[test]
fn nothing_of_a_refused_input_stays() {
    let mut t = waiting();
    let bad: [(&str, &[f64], u32); 7] = [
        ("A", &[f64::NAN, 0.0], 12),
        ("A", &[TOO_LONG, 0.0], 12),
        ("A", &[0.0; 52], 1),
        ("A", &[0.0], 1),
        ("B", &[0.0, 0.0], 5),
        ("N", &[0.0, 0.0], 2),
        ("", &[0.0, 0.0], 1),
    ];
    for (name, times, answer) in bad {
        assert_eq!(bring(&mut t, 990, name, times).0, answer);
        assert_eq!((t.predictions.clock(), timed_refusal(&t, CLOCK, 100, "", 0)), (100, 0));
        assert_eq!((shown(&t, "A"), shown(&t, "B")), ("3 - -".into(), "3 1000 -".into()));
    }
    // And one that is good does all of it.
    assert_eq!(bring(&mut t, 990, "A", &[0.5, 0.0]), (0, "8 A 3>4; 8 B 3>4".into()));
    assert_eq!((shown(&t, "A"), t.predictions.clock()), ("4 991 -".into(), 990));
    assert_eq!(refusal(&t, 990, "A", &[0.5, 0.0]), 5);
}

/// No tool, whatever it is given.
#[test]
fn no_tool() {
    for times in [&[][..], &[1.0, 1.0], &[f64::NAN; 2], &[1.0; 52]] {
        let (mut t, mut out) = (Tool::NONE, Reports { count: 9, ..Reports::NONE });
        assert_eq!(wafers_step(&mut t, 5, b"A", times, &mut out), 1);
        assert!(t == Tool::NONE && out == Reports::NONE);
    }
}
