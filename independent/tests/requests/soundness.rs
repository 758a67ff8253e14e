//! `sound` against the plain words, where a map, a request or an unused byte is not as it should be.

use independent::gen::requests::{damage, describe, random_sound_tool};
use independent::gen::Rng;
use independent::requests::{sound, step, Tool};
use independent::{Plain, Reports};

use crate::plain::plainly_sound;
use crate::{accept_codes, tool, ONES, THREES};

/// Whether the state is sound; one that isn't is answered 1 with nothing changed.
pub fn compare(t: &Tool) -> bool {
    let is = sound(t);
    assert_eq!(is, plainly_sound(t), "{}", describe(t));
    let mut u = *t;
    let mut out = Reports { count: 3, ..Reports::NONE };
    // Accepted by every sound state.
    let answer = step(&mut u, 10, 1, 1, b"", &[], &mut out);
    assert_eq!(answer, !is as u32);
    if !is {
        assert_eq!(u.bytes(), t.bytes());
        assert_eq!(out, Reports::NONE);
    }
    is
}

#[test]
fn every_byte_behind_document_01s_tool() {
    let mut rng = Rng::new(4);
    for _ in 0..12 {
        let t = random_sound_tool(&mut rng);
        let mut bytes = t.bytes().to_vec();
        for at in 1891..3782 {
            let was = bytes[at];
            for value in [0, 1, 2, 3, 4, 5, 6, 7, 9, 0x41, 0x7F, 0x80, 0x81, 0x83, 0xFF] {
                bytes[at] = value;
                compare(&Tool::from_bytes(&bytes).unwrap());
            }
            bytes[at] = was;
        }
    }
}

#[test]
fn every_code_of_a_map() {
    for map in [ONES, THREES] {
        let mut t = tool(1, 0);
        accept_codes(&mut t, 3, 0, "A", &map);
        for slot in 0..25 {
            for code in 0..=255 {
                let mut u = t;
                u.maps[0][slot] = code;
                assert_eq!(compare(&u), code == 1 || code == 3);
            }
        }
        for length in 0..=25 {
            let mut u = t;
            u.maps[0][length..].fill(0);
            assert_eq!(compare(&u), length == 0 || length == 25);
            let mut u = t;
            u.maps[0][..length].fill(0);
            assert_eq!(compare(&u), length == 0 || length == 25);
        }
    }
}

/// A map is sound at a record's position, whatever the record, and nowhere else.
#[test]
fn a_map_without_a_record() {
    let mut rng = Rng::new(5);
    for _ in 0..300 {
        let t = random_sound_tool(&mut rng);
        for k in 0..36 {
            let mut u = t;
            u.maps[k] = THREES;
            assert_eq!(compare(&u), k < t.base.count as usize);
        }
    }
}

#[test]
fn unused_bytes_are_zero() {
    let t = tool(2, 3);
    for at in 0..286 {
        for value in [1, 3, 0x80, 0xFF] {
            let mut u = t;
            u.unused[at] = value;
            assert!(!compare(&u));
        }
    }
}

/// Where document 01's part isn't sound, a good map doesn't help, and a large count does no harm.
#[test]
fn document_01s_part_is_looked_at_first() {
    let mut t = tool(1, 0);
    accept_codes(&mut t, 3, 0, "A", &THREES);
    for count in (0..=255).filter(|&count| count != 1) {
        let mut u = t;
        u.base.count = count;
        assert!(!compare(&u));
    }
    let mut u = t;
    u.base.carrier[0].came_out = 2;
    assert!(!compare(&u));
}

#[test]
fn damaged_states() {
    let mut rng = Rng::new(6);
    let (mut held, mut broken) = (0, 0);
    for _ in 0..10_000 {
        let t = random_sound_tool(&mut rng);
        assert!(compare(&t));
        for _ in 0..6 {
            let mut u = t;
            for _ in 0..1 + rng.below(2) {
                damage(&mut u, &mut rng);
            }
            match compare(&u) {
                true => held += 1,
                false => broken += 1,
            }
        }
    }
    println!("{held} damaged states still sound, {broken} not");
    assert!(held > 5_000 && broken > 20_000);
}
