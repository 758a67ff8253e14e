//! P1: a SlotMap that equals the expected map makes the slot status OK at once; with any other the
//! host is asked as before.

use super::*;
use independent::gen::padded;

/// Carrier A, open at port 1, which expects this map.
fn opened(map: &[u8]) -> Tool {
    let mut t = tool(1, 0);
    accept_codes(&mut t, 1, 1, "A", map);
    bring(&mut t, 1, "A");
    accept(&mut t, 19, 0, 0, "A");
    t
}

#[test]
fn equal_is_ok_at_once() {
    for map in [ONES, THREES, mixed(0), mixed(1), mixed(2)] {
        let mut t = opened(&map);
        let before = t;
        // One difference, so one report.
        assert_eq!(accept_codes(&mut t, 20, 0, "A", &map), "6 A 1>3");
        let mut expected = before;
        (expected.base.carrier[0].map, expected.base.carrier[0].slot) = (map, 3);
        assert_eq!(t, expected);
        // The host has nothing to judge, and the carrier can be accessed.
        assert_eq!(answer(&t, 5, 0, "A", &[]), 5);
        assert_eq!(accept(&mut t, 21, 0, 0, "A"), "7 A 1>2; 8 A 2>1");
    }
}

#[test]
fn another_at_one_slot_asks_the_host() {
    for map in [ONES, THREES, mixed(1)] {
        let t = opened(&map);
        for slot in 0..25 {
            for code in (0..=5).filter(|&code| code != map[slot]) {
                let mut codes = map;
                codes[slot] = code;
                let mut t = t;
                assert_eq!(accept_codes(&mut t, 20, 0, "A", &codes), "6 A 1>2");
                assert_eq!((record(&t, "A").map, map_of(&t, "A")), (codes, map));
                assert_eq!(answer(&t, 21, 0, "A", &[]), 7);
                // As before: the host judges, and its yes is enough.
                assert_eq!(accept(&mut t, 5, 0, 0, "A"), "6 A 2>3");
                assert_eq!(accept(&mut t, 21, 0, 0, "A"), "7 A 1>2; 8 A 2>1");
            }
        }
    }
    let other: Vec<u8> = THREES.to_vec();
    assert_eq!(accept_codes(&mut opened(&ONES), 20, 0, "A", &other), "6 A 1>2");
}

/// The host may also say no, and a map that equals doesn't come into it then.
#[test]
fn the_host_may_refuse_as_before() {
    let mut t = opened(&THREES);
    accept_codes(&mut t, 20, 0, "A", &ONES);
    assert_eq!(accept(&mut t, 6, 0, 0, "A"), "1 1 3>2; 6 A 2>4; 8 A 2>1");
    assert_eq!(answer(&t, 20, 0, "A", &THREES), 5);
}

/// A carrier that is OK at once may be cancelled before it is accessed: its slot status stays.
#[test]
fn ok_at_once_may_be_cancelled() {
    let mut t = opened(&THREES);
    accept_codes(&mut t, 20, 0, "A", &THREES);
    assert_eq!(accept(&mut t, 6, 0, 0, "A"), "1 1 3>2; 8 A 2>1");
    assert_eq!((record(&t, "A").slot, map_of(&t, "A")), (3, THREES));
}

#[test]
fn no_map_never_equals() {
    // 25 zeros are what stands where there is no map.
    for codes in [NO_MAP, ONES, THREES, [5; 25]] {
        let mut t = opened(&[]);
        assert_eq!(accept_codes(&mut t, 20, 0, "A", &codes), "6 A 1>2");
        assert_eq!(map_of(&t, "A"), NO_MAP);
        let mut t = tool(1, 0);
        bring(&mut t, 1, "A");
        accept(&mut t, 5, 0, 0, "A");
        accept(&mut t, 19, 0, 0, "A");
        assert_eq!(accept_codes(&mut t, 20, 0, "A", &codes), "6 A 1>2");
    }
}

/// Row 20 takes codes 0 to 5 still, and its refusals are what they were.
#[test]
fn the_refusals_of_a_slot_map_are_as_before() {
    let t = opened(&THREES);
    for slot in 0..25 {
        for code in 0..=255 {
            let mut codes = THREES;
            codes[slot] = code;
            assert_eq!(answer(&t, 20, 0, "A", &codes), (code > 5) as u32);
            assert_eq!(answer(&t, 20, 0, "B", &codes), if code > 5 { 1 } else { 2 });
        }
    }
    for length in (0..=60).chain([256, 281, 300]).filter(|&length| length != 25) {
        assert_eq!(answer(&t, 20, 0, "A", &vec![3; length]), 1);
    }
    // A second map, equal or not, closed or open.
    let mut judged = t;
    accept_codes(&mut judged, 20, 0, "A", &THREES);
    let mut asked = t;
    accept_codes(&mut asked, 20, 0, "A", &ONES);
    let mut closed = t;
    accept(&mut closed, 23, 0, 0, "A");
    for t in [&judged, &asked, &closed] {
        assert_eq!(answer(t, 20, 0, "A", &THREES), 5);
        assert_eq!(answer(t, 20, 0, "A", &ONES), 5);
    }
}

/// An open carrier at port 1, or in the buffer, that no run need reach.
fn odd(places: u32, id: u8, slot: u8, accessing: u8, cancelled: u8) -> Tool {
    let mut t = tool(1, places);
    let mut c = Carrier::new(padded(b"A"));
    (c.open, c.id, c.slot, c.accessing, c.cancelled) = (1, id, slot, accessing, cancelled);
    if places > 0 {
        (c.place, c.spot) = (2, 1);
    } else {
        (c.place, c.port) = (1, 1);
        t.base.port[0].transfer = 3;
        t.base.port[0].tie = c.name;
        t.predictions.of[0].state = 2;
    }
    (t.base.carrier[0], t.base.count, t.maps[0]) = (c, 1, mixed(1));
    assert!(sound(&t));
    t
}

/// "At once": no more is asked than row 20 asks, and the ID plays no part.
#[test]
fn equal_is_ok_whatever_the_id() {
    for places in [0, 1] {
        for id in 1..=4 {
            for accessing in 1..=4 {
                for cancelled in [0, 1] {
                    let mut t = odd(places, id, 1, accessing, cancelled);
                    assert_eq!(accept_codes(&mut t, 20, 0, "A", &mixed(1)), "6 A 1>3");
                    assert_eq!(record(&t, "A").id, id);
                    let mut t = odd(places, id, 1, accessing, cancelled);
                    assert_eq!(accept_codes(&mut t, 20, 0, "A", &mixed(2)), "6 A 1>2");
                    for slot in 2..=4 {
                        let t = odd(places, id, slot, accessing, cancelled);
                        assert_eq!(answer(&t, 20, 0, "A", &mixed(1)), 5);
                    }
                }
            }
        }
    }
}

/// Each carrier is judged by its own record's map.
#[test]
fn each_by_its_own_map() {
    let mut t = tool(3, 0);
    for (port, name) in [(1, "A"), (2, "B"), (3, "C")] {
        accept_codes(&mut t, 1, port, name, &mixed(port as usize));
    }
    for (port, name) in [(1, "A"), (2, "B"), (3, "C")] {
        bring(&mut t, port, name);
        accept(&mut t, 19, 0, 0, name);
    }
    for (k, name) in [(1, "A"), (2, "B"), (3, "C")] {
        for other in 1..=3 {
            let status = if k == other { 3 } else { 2 };
            let mut t = t;
            assert_eq!(accept_codes(&mut t, 20, 0, name, &mixed(other)), format!("6 {name} 1>{status}"));
        }
    }
    // Also when the records before it have gone.
    take_away(&mut t, 1, "A");
    assert_eq!(accept_codes(&mut t, 20, 0, "C", &mixed(3)), "6 C 1>3");
    assert_eq!(accept_codes(&mut t, 20, 0, "B", &mixed(3)), "6 B 1>2");
}

/// The displaced record's map says nothing about the carrier that was read in its place.
#[test]
fn the_displaced_records_map_is_gone() {
    let mut t = tool(1, 0);
    accept_codes(&mut t, 1, 1, "A", &THREES);
    bring(&mut t, 1, "B");
    accept(&mut t, 5, 0, 0, "B");
    accept(&mut t, 19, 0, 0, "B");
    assert_eq!(accept_codes(&mut t, 20, 0, "B", &THREES), "6 B 1>2");
}

/// An expected record read at another's port is judged by its own map, once its ID is accepted.
#[test]
fn read_at_anothers_port_it_keeps_its_own() {
    let mut t = tool(1, 0);
    accept_codes(&mut t, 1, 1, "A", &ONES);
    accept_codes(&mut t, 3, 0, "B", &THREES);
    bring(&mut t, 1, "B");
    assert_eq!(answer(&t, 19, 0, "B", &[]), 7);
    accept(&mut t, 5, 0, 0, "B");
    accept(&mut t, 19, 0, 0, "B");
    let mut with_as = t;
    assert_eq!(accept_codes(&mut with_as, 20, 0, "B", &ONES), "6 B 1>2");
    assert_eq!(accept_codes(&mut t, 20, 0, "B", &THREES), "6 B 1>3");
}

/// Opened in the buffer: the same.
#[test]
fn judged_in_the_buffer() {
    let mut t = tool(1, 3);
    accept_codes(&mut t, 3, 0, "A", &mixed(2));
    bring(&mut t, 1, "A");
    accept(&mut t, 18, 1, 3, "");
    accept(&mut t, 19, 0, 0, "A");
    assert_eq!(accept_codes(&mut t, 20, 0, "A", &mixed(2)), "6 A 1>3");
    accept(&mut t, 23, 0, 0, "A");
    accept(&mut t, 19, 0, 0, "A");
    assert_eq!(accept(&mut t, 21, 0, 0, "A"), "7 A 1>2");
}

/// Document 01 as it stood before any request is still there, and knows nothing of maps.
#[test]
fn document_01_is_untouched() {
    let mut t = independent::Tool::NONE;
    independent::setup(1, 0, &mut t);
    let mut out = Reports::NONE;
    let mut give = |number, port, name: &[u8], codes: &[u8]| {
        let answer = independent::step(&mut t, number, port, 0, name, codes, &mut out);
        (answer, written(&out))
    };
    assert_eq!(give(1, 1, b"A", &[9; 3]).0, 0);
    assert_eq!(give(3, 0, b"B", &THREES).0, 0);
    for (number, port, name) in [(13, 1, &b""[..]), (14, 1, b""), (16, 1, b"B"), (5, 0, b"B"), (19, 0, b"B")]
    {
        assert_eq!(give(number, port, name, &[]).0, 0);
    }
    assert_eq!(give(20, 0, b"B", &THREES), (0, "6 B 1>2".into()));
}
