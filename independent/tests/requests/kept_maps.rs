//! P1: rows 1 and 3 may carry an expected map, and the record keeps it.

use super::*;

/// The two rows that may carry a map, with their reports.
const ROWS: [(u32, &str); 2] = [
    (1, "3 1 0>1; 4 1 0>1; 5 AB 0>1; 6 AB 0>1; 7 AB 0>1; 8 AB 0>2"),
    (3, "5 AB 0>1; 6 AB 0>1; 7 AB 0>1; 8 AB 0>2"),
];

#[test]
fn set_up_is_as_it_was_with_zeros_after_it() {
    for (p, b) in [(0, 0), (1, 0), (4, 16), (5, 0), (1, 17), (257, 0), (1, 256), (u32::MAX, u32::MAX)] {
        let mut t = Tool::from_bytes(&[0xAB; 3782]).unwrap();
        let mut base = independent::Tool::NONE;
        assert_eq!(setup(p, b, 0, 0, &mut t), independent::setup(p, b, &mut base));
        assert_eq!(t.bytes()[..1891], *base.bytes());
        assert_eq!(t.bytes()[1891..], [0; 1891]);
        let good = (1..=4).contains(&p) && b <= 16;
        assert_eq!(sound(&t), good);
        if !good {
            let mut out = Reports::NONE;
            for number in 0..=35 {
                assert_eq!(step(&mut t, number, 1, 1, b"A", &THREES, &mut out), 1);
                assert_eq!((t.bytes(), out), (&[0; 3782][..], Reports::NONE));
            }
        }
    }
}

#[test]
fn layout() {
    let mut t = tool(1, 0);
    for k in 0..3 {
        accept_codes(&mut t, 3, 0, &format!("C{k}"), &mixed(k));
    }
    let bytes = t.bytes();
    assert_eq!(bytes.len(), 3782);
    assert_eq!(bytes[..1891], *t.base.bytes());
    for k in 0..3 {
        assert_eq!(bytes[1891 + 25 * k..][..25], mixed(k));
    }
    assert!(bytes[1891 + 75..1891 + 900].iter().all(|&byte| byte == 0));
}

#[test]
fn the_record_keeps_the_map() {
    for (row, reports) in ROWS {
        for map in [ONES, THREES, mixed(0), mixed(1)] {
            let mut t = tool(2, 0);
            assert_eq!(accept_codes(&mut t, row, 1, "AB", &map), reports);
            assert_eq!((t.maps[0], t.expected_map(0)), (map, Some(&map)));
            // The map of the record itself is what SlotMap will give, and all zero so far.
            assert_eq!(record(&t, "AB").map, NO_MAP);
            assert_eq!(without_a_map(row, reports), t.base);
        }
    }
}

/// The same input without a map: a record that has none.
fn without_a_map(row: u32, reports: &str) -> independent::Tool {
    let mut t = tool(2, 0);
    assert_eq!(accept_codes(&mut t, row, 1, "AB", &[]), reports);
    assert_eq!((t.maps[0], t.expected_map(0)), (NO_MAP, None));
    t.base
}

#[test]
fn every_code_at_every_slot() {
    let t = tool(1, 0);
    for (row, _) in ROWS {
        for slot in 0..25 {
            for code in 0..=255 {
                for mut map in [ONES, THREES] {
                    map[slot] = code;
                    assert_eq!(answer(&t, row, 1, "A", &map), !(code == 1 || code == 3) as u32);
                }
            }
        }
        for code in [0, 2, 4, 5, 6, 255] {
            assert_eq!(answer(&t, row, 1, "A", &[code; 25]), 1);
        }
    }
}

#[test]
fn every_length() {
    let t = tool(1, 0);
    for (row, _) in ROWS {
        for length in (0..=60).chain([255, 256, 257, 280, 281, 300, 65_561]) {
            for code in [1, 3] {
                let good = length == 0 || length == 25;
                assert_eq!(answer(&t, row, 1, "A", &vec![code; length]), !good as u32, "{length}");
            }
        }
    }
}

/// A bad map is answered 1 where a good one, or none, is answered 3, 4, 5 or 6.
#[test]
fn a_bad_map_comes_before_every_other_refusal() {
    let mut t = tool(4, 0);
    accept(&mut t, 1, 1, 0, "TIED");
    accept(&mut t, 11, 2, 0, "");
    accept(&mut t, 13, 3, 0, "");
    let mut full = t;
    for k in 0..15 {
        accept(&mut full, 3, 0, 0, &format!("C{k}"));
    }
    let refused = [
        (&t, 1, 4, "TIED", 3),
        (&t, 3, 0, "TIED", 3),
        (&t, 1, 1, "NEW", 4),
        (&t, 1, 2, "NEW", 4),
        (&t, 1, 3, "NEW", 5),
        (&full, 1, 4, "NEW", 6),
        (&full, 3, 0, "NEW", 6),
    ];
    let mut spoilt = THREES;
    spoilt[24] = 2;
    for (t, row, port, name, number) in refused {
        for codes in [&[][..], &ONES, &THREES, &mixed(3)] {
            assert_eq!(answer(t, row, port, name, codes), number);
        }
        for codes in [&[3][..], &[3; 24], &[3; 26], &[0; 25], &[2; 25], &[4; 25], &[5; 25], &spoilt] {
            assert_eq!(answer(t, row, port, name, codes), 1);
        }
    }
    // And a good map mends nothing.
    assert_eq!(answer(&t, 1, 0, "NEW", &THREES), 1);
    assert_eq!(answer(&t, 1, 5, "NEW", &THREES), 1);
    assert_eq!(answer(&t, 3, 0, "", &THREES), 1);
}

#[test]
fn other_rows_do_not_look_at_the_codes() {
    for number in (2..=30).filter(|number| ![3, 20].contains(number)) {
        for codes in [&[9; 300][..], &THREES, &[3; 24]] {
            let mut t = tool(1, 2);
            accept_codes(&mut t, 3, 0, "A", &mixed(1));
            bring(&mut t, 1, "A");
            let mut u = t;
            assert_eq!(give(&mut t, number, 1, 1, "A", &[]), give(&mut u, number, 1, 1, "A", codes));
            assert_eq!(t, u);
        }
    }
    // Also where they make a record.
    for (number, tag_read) in [(16, true), (5, false), (6, false)] {
        let mut t = tool(1, 0);
        load(&mut t, 1);
        if !tag_read {
            accept(&mut t, 17, 1, 0, "");
        }
        for codes in [&THREES[..], &[9; 3]] {
            let mut t = t;
            accept_codes(&mut t, number, 1, "A", codes);
            assert_eq!(map_of(&t, "A"), NO_MAP);
        }
    }
}

/// Each of four records goes in turn, by each row that lets one go; the others keep their maps.
#[test]
fn maps_follow_their_records() {
    let names = ["A", "B", "C", "D"];
    for gone in 0..4 {
        let mut t = tool(4, 0);
        for (k, name) in names.iter().enumerate() {
            // B has none.
            let map = mixed(k);
            accept_codes(&mut t, 1, k as u32 + 1, name, if k == 1 { &[] } else { &map });
        }
        let port = gone as u32 + 1;
        let mut cancelled = t;
        accept(&mut cancelled, 2, port, 0, "");
        let mut displaced = t;
        bring(&mut displaced, port, "NEW");
        let mut unloaded = t;
        bring(&mut unloaded, port, names[gone]);
        take_away(&mut unloaded, port, names[gone]);
        for t in [&cancelled, &displaced, &unloaded] {
            for (k, name) in names.iter().enumerate().filter(|(k, _)| *k != gone) {
                assert_eq!(map_of(t, name), if k == 1 { NO_MAP } else { mixed(k) });
            }
            let new = t.base.count == 4;
            assert!(!new || t.maps[3] == NO_MAP);
            assert!(t.maps[3 + new as usize..].iter().all(|map| *map == NO_MAP));
        }
    }
    for gone in 0..4 {
        let mut t = tool(1, 0);
        for (k, name) in names.iter().enumerate() {
            accept_codes(&mut t, 3, 0, name, &mixed(k));
        }
        accept(&mut t, 4, 0, 0, names[gone]);
        let left: Vec<_> = (0..4).filter(|k| *k != gone).map(mixed).collect();
        assert_eq!(t.maps[..3], left);
        assert_eq!(t.maps[3], NO_MAP);
        // A new record's map stands at its position, the last.
        accept_codes(&mut t, 3, 0, names[gone], &ONES);
        assert_eq!((&t.maps[..3], t.maps[3]), (&left[..], ONES));
    }
}

/// Sixteen expected, all with maps: the last is a record too.
#[test]
fn sixteen_maps() {
    let mut t = tool(1, 0);
    for k in 0..16 {
        accept_codes(&mut t, 3, 0, &format!("C{k}"), &mixed(k));
    }
    assert_eq!(answer(&t, 3, 0, "C16", &THREES), 6);
    accept(&mut t, 4, 0, 0, "C0");
    for k in 1..16 {
        assert_eq!(t.maps[k - 1], mixed(k));
    }
    assert_eq!(t.maps[15], NO_MAP);
    accept_codes(&mut t, 3, 0, "C16", &THREES);
    assert_eq!(t.maps[15], THREES);
}

/// A name that had a map comes back without one, however its record is made, but by rows 1 and 3.
#[test]
fn a_name_that_comes_back_has_no_map() {
    let mut before = tool(1, 0);
    accept_codes(&mut before, 3, 0, "A", &THREES);
    accept(&mut before, 4, 0, 0, "A");
    assert_eq!(before.maps[0], NO_MAP);

    let mut read = before;
    bring(&mut read, 1, "A");
    let mut unread = before;
    load(&mut unread, 1);
    accept(&mut unread, 17, 1, 0, "");
    let mut proceeded = unread;
    accept(&mut proceeded, 5, 1, 0, "A");
    let mut cancelled = unread;
    accept(&mut cancelled, 6, 1, 0, "A");
    let mut bound = before;
    accept(&mut bound, 1, 1, 0, "A");
    for t in [&read, &proceeded, &cancelled, &bound] {
        assert_eq!((t.base.count, map_of(t, "A")), (1, NO_MAP));
    }

    // After its pod was taken away, too.
    let mut t = tool(1, 0);
    accept_codes(&mut t, 1, 1, "A", &THREES);
    bring(&mut t, 1, "A");
    assert_eq!(map_of(&t, "A"), THREES);
    take_away(&mut t, 1, "A");
    bring(&mut t, 1, "A");
    assert_eq!(map_of(&t, "A"), NO_MAP);
}

/// An expected record that is placed is the same record, and keeps its map.
#[test]
fn an_expected_record_keeps_its_map() {
    let mut t = tool(2, 2);
    accept_codes(&mut t, 3, 0, "A", &mixed(1));
    accept_codes(&mut t, 1, 2, "BOUND", &mixed(2));

    // Read at a port that is tied to none, or to another.
    let mut read = t;
    bring(&mut read, 1, "A");
    assert_eq!((record(&read, "A").id, map_of(&read, "A")), (3, mixed(1)));
    let mut elsewhere = t;
    let reports = bring(&mut elsewhere, 2, "A");
    assert!(reports.starts_with("4 2 1>1; 5 BOUND 1>0; 5 A 1>2"), "{reports}");
    assert_eq!((elsewhere.base.count, map_of(&elsewhere, "A")), (1, mixed(1)));
    // Taken for the pod that could not be read.
    load(&mut t, 1);
    accept(&mut t, 17, 1, 0, "");
    let mut cancelled = t;
    accept(&mut cancelled, 6, 1, 0, "A");
    accept(&mut t, 5, 1, 0, "A");
    for t in [&t, &cancelled] {
        assert_eq!((map_of(t, "A"), map_of(t, "BOUND")), (mixed(1), mixed(2)));
    }

    // Into the buffer, out and in again, opened and closed, and cancelled.
    let out = [(18, 1, 2, ""), (7, 1, 0, "A"), (27, 1, 0, ""), (28, 1, 0, "")];
    let rows = [(8, 0, 0, "A"), (18, 1, 1, ""), (19, 0, 0, "A"), (23, 0, 0, "A"), (6, 0, 0, "A")];
    for (number, port, value, name) in out.into_iter().chain(rows) {
        accept(&mut t, number, port, value, name);
        assert_eq!((map_of(&t, "A"), map_of(&t, "BOUND")), (mixed(1), mixed(2)));
    }
}

/// The records of others on both sides of one that goes while another takes the tie.
#[test]
fn a_displaced_record_between_others() {
    let mut t = tool(1, 0);
    accept_codes(&mut t, 3, 0, "A", &mixed(1));
    accept_codes(&mut t, 1, 1, "GOES", &mixed(2));
    accept_codes(&mut t, 3, 0, "C", &mixed(3));
    load(&mut t, 1);
    for (name, maps) in [
        ("A", [mixed(1), mixed(3), NO_MAP]),
        ("C", [mixed(1), mixed(3), NO_MAP]),
        ("NEW", [mixed(1), mixed(3), NO_MAP]),
    ] {
        let mut t = t;
        accept(&mut t, 16, 1, 0, name);
        assert_eq!(t.maps[..3], maps);
        assert_eq!(t.base.count, if name == "NEW" { 3 } else { 2 });
    }
}
