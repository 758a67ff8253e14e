//! `sound` against the plain words, in states that are sound and in states that nearly are.

mod common;

use common::plainly_sound;
use independent::gen::{describe, pool_name, random_sound_tool, Rng, POOL};
use independent::{setup, sound, step, Carrier, Plain, Reports, Tool};

fn compare(t: &Tool) -> bool {
    let is = sound(t);
    assert_eq!(is, plainly_sound(t), "{}", describe(t));
    if !is {
        let mut u = *t;
        let mut out = Reports { count: 3, ..Reports::NONE };
        assert_eq!(step(&mut u, 13, 1, 0, b"A", &[], &mut out), 1);
        assert_eq!(u.bytes(), t.bytes());
        assert_eq!(out, Reports::NONE);
    }
    is
}

/// One or two bytes changed: mostly one in use, mostly to a small value.
fn with_odd_bytes(t: &Tool, rng: &mut Rng) -> Tool {
    let mut bytes = t.bytes().to_vec();
    let used = 91 + 50 * t.count as u32;
    for _ in 0..1 + rng.below(2) {
        let at = match rng.below(10) {
            0 => rng.below(1891),
            1..=3 => rng.below(91),
            _ => rng.below(used),
        } as usize;
        bytes[at] = match rng.below(4) {
            0 => rng.below(256) as u8,
            1 => bytes[at] ^ 1 << rng.below(8),
            _ => rng.below(6) as u8,
        };
    }
    Tool::from_bytes(&bytes).unwrap()
}

/// A name, a place, a tie or a number from elsewhere.
fn with_an_odd_field(t: &Tool, rng: &mut Rng) -> Tool {
    let mut u = *t;
    let i = rng.below(36) as usize;
    let j = rng.below(t.count.max(1) as u32) as usize;
    let p = rng.below(4) as usize;
    match rng.below(13) {
        0 => u.carrier[i].name = t.carrier[j].name,
        1 => (u.carrier[i].place, u.carrier[i].spot) = (t.carrier[j].place, t.carrier[j].spot),
        2 => u.carrier[i].port = t.carrier[j].port,
        3 => u.port[p].tie = t.carrier[j].name,
        4 => u.port[p].tie = [0; 16],
        5 => u.count = rng.below(38) as u8,
        6 => u.ports = rng.below(6) as u8,
        7 => u.places = rng.below(18) as u8,
        8 => u.carrier[i].open = 1,
        9 => u.port[p].pod = 1,
        10 => u.port[p].movement = rng.below(3) as u8,
        11 => u.port[p].transfer = rng.below(4) as u8,
        _ => u.carrier.swap(i, j),
    }
    u
}

#[test]
fn nearly_sound_states() {
    let mut rng = Rng::new(1);
    let (mut held, mut tried) = (0, 0);
    for _ in 0..60_000 {
        let t = random_sound_tool(&mut rng);
        assert!(compare(&t));
        for _ in 0..12 {
            held += compare(&with_odd_bytes(&t, &mut rng)) as u32;
        }
        for _ in 0..6 {
            held += compare(&with_an_odd_field(&t, &mut rng)) as u32;
        }
        tried += 18;
    }
    let broken = tried - held;
    println!("{held} changed states still sound, {broken} not");
    assert!(held > 50_000 && broken > 50_000);
}

#[test]
fn equal_names_at_any_two_positions() {
    for count in 2..=36 {
        let mut t = Tool::NONE;
        setup(4, 16, &mut t);
        for i in 0..count as usize {
            let name = pool_name(i as u32 % POOL);
            let mut c = Carrier::new([0; 16]);
            c.name[..name.len()].copy_from_slice(&name);
            match i {
                0..=15 => (c.place, c.spot) = (2, i as u8 + 1),
                16..=19 => {
                    (c.place, c.port) = (1, i as u8 - 15);
                    t.port[i - 16].tie = c.name;
                }
                _ => {}
            }
            t.carrier[i] = c;
        }
        t.count = count;
        assert!(compare(&t));
        for i in 0..count as usize {
            for j in 0..i {
                let mut u = t;
                u.carrier[i].name = t.carrier[j].name;
                assert!(!compare(&u));
                u.carrier[i].name = t.carrier[i].name;
                u.carrier[j].name = t.carrier[i].name;
                assert!(!compare(&u));
            }
        }
    }
}

#[test]
fn every_name_byte() {
    for length in 0..=16 {
        for at in 0..16 {
            for byte in 0..=255 {
                let mut t = Tool::NONE;
                setup(1, 0, &mut t);
                t.count = 1;
                t.carrier[0] = Carrier::new([0; 16]);
                t.carrier[0].name[..length].fill(b'~');
                t.carrier[0].name[at] = byte;
                compare(&t);
            }
        }
    }
}

#[test]
fn every_other_byte() {
    let mut rng = Rng::new(3);
    for _ in 0..40 {
        let t = random_sound_tool(&mut rng);
        let mut bytes = [0; 1891];
        bytes.copy_from_slice(t.bytes());
        for at in 0..1891 {
            let was = bytes[at];
            for value in [0, 1, 2, 3, 4, 5, 6, 7, 16, 17, 31, 32, 33, 36, 37, 127, 128, 129, 255] {
                bytes[at] = value;
                compare(&Tool::from_bytes(&bytes).unwrap());
            }
            bytes[at] = was;
        }
    }
}

/// The odd states that no run reaches do come out of the generator.
#[test]
fn odd_states_are_drawn() {
    let mut met = [0; 12];
    let mut rng = Rng::new(9);
    for _ in 0..20_000 {
        let t = random_sound_tool(&mut rng);
        let port = |c: &Carrier| &t.port[c.port as usize - 1];
        let new = |c: &Carrier| Carrier { port: c.port, ..Carrier::new(c.name) } == *c;
        let c = t.carriers();
        let seen = [
            c.iter().any(|c| c.at_port() && port(c).pod == 0),
            t.ports().iter().any(|p| p.transfer == 2 && p.pod == 0),
            t.ports().iter().any(|p| p.transfer != 1 && p.reserved == 1),
            c.iter().any(|c| c.at_port() && c.open == 1 && t.places > 0),
            c.iter().filter(|c| c.open == 1).count() > 1,
            c.iter().any(|c| c.expected() && !new(c)),
            c.iter().any(|c| c.in_buffer() && c.came_out == 1),
            c.iter().any(|c| c.accessing == 2 && c.open == 0),
            c.iter().any(|c| c.expected() && c.port != 0 && port(c).movement == 1),
            t.ports().iter().any(|p| p.transfer == 0 && p.tied()),
            c.iter().any(|c| c.expected() && c.port != 0 && port(c).movement == 2),
            t.count == 36,
        ];
        for (met, seen) in met.iter_mut().zip(seen) {
            *met += seen as u32;
        }
    }
    println!("{met:?}");
    assert!(met.iter().all(|&met| met > 20), "{met:?}");
}
