//! The words on soundness, each broken alone.

use independent::gen::requests::{damage, random_sound_tool};
use independent::gen::Rng;

use super::*;
use crate::soundness::compare;

/// A at port 1 and B at port 2 in access, C at port 3 with its port READY TO UNLOAD, D bound to port 4, E
/// expected.
fn foretelling() -> Tool {
    let mut t = fixed(4, 60, 120);
    access(&mut t, 1, "A");
    access(&mut t, 2, "B");
    access(&mut t, 3, "C");
    finish(&mut t, "C");
    accept(&mut t, 1, 4, 0, "D");
    accept(&mut t, 3, 0, 0, "E");
    tell(&mut t, TP, 7, "A", 1000);
    tell(&mut t, TE, 7, "A", 1001);
    assert!(compare(&t));
    t
}

/// Whether the tool is sound with a change to it.
fn with(change: impl FnOnce(&mut Tool)) -> bool {
    let mut t = foretelling();
    change(&mut t);
    compare(&t)
}

#[test]
fn times_of_the_set_up() {
    for time in [0, 1, 86_399, 86_400, 86_401, 86_400 + 256, 1 << 17, 1 << 24, 1 << 31, u32::MAX] {
        let good = time <= 86_400;
        assert_eq!(with(|t| t.predictions.setting = time.to_le_bytes()), good, "{time}");
        assert_eq!(with(|t| t.predictions.timeout = time.to_le_bytes()), good, "{time}");
        assert!(with(|t| t.predictions.clock = time.to_le_bytes()));
        for b in [0, 3] {
            let mut t = tool(1, b);
            t.predictions.timeout = time.to_le_bytes();
            assert_eq!(compare(&t), good);
        }
    }
}

/// Which states each carrier may have.
#[test]
fn states() {
    for state in 0..=255 {
        let known = (1..=6).contains(&state);
        for name in ["A", "B", "C", "D", "E"] {
            let good = match name {
                "A" | "B" => known,
                "C" => [1, 2, 3, 6].contains(&state),
                // Not at a port: bound to one is not enough.
                _ => state == 2,
            };
            let change = |t: &mut Tool| {
                let k = position(t, name);
                t.predictions.of[k].state = state;
            };
            assert_eq!(with(change), good, "{name} {state}");
        }
    }
}

/// PREDICTED and ABORTED are sound at a port of every other state.
#[test]
fn a_port_that_is_ready() {
    for transfer in 0..=3 {
        for state in 1..=6 {
            let change = |t: &mut Tool| {
                t.base.port[0].transfer = transfer;
                (t.base.carrier[0].open, t.base.port[0].pod) = (0, 0);
                t.predictions.of[0].state = state;
            };
            assert_eq!(with(change), transfer != 2 || ![4, 5].contains(&state), "{transfer} {state}");
        }
    }
}

/// A Tp and a Te are there or not, in every state; one that isn't there is 0.
#[test]
fn times_of_a_prediction() {
    for there in 0..=255 {
        assert_eq!(with(|t| t.predictions.of[0].has_tp = there), there == 1, "{there}");
        assert_eq!(with(|t| t.predictions.of[0].has_te = there), there == 1, "{there}");
        assert_eq!(with(|t| t.predictions.of[1].has_tp = there), there <= 1, "{there}");
        assert_eq!(with(|t| t.predictions.of[1].has_te = there), there <= 1, "{there}");
    }
    for k in 0..4 {
        for byte in [1, 2, 0x80, 0xFF] {
            assert!(with(|t| (t.predictions.of[0].tp[k], t.predictions.of[0].te[k]) = (byte, byte)));
            assert!(!with(|t| t.predictions.of[1].tp[k] = byte));
            assert!(!with(|t| t.predictions.of[1].te[k] = byte));
        }
    }
    // Not forbidden by the words: a Tp in WAITING FOR CARRIER, a Te without Tp, no Tp in any state.
    assert!(with(|t| t.predictions.of[4].set_tp(5)));
    assert!(with(|t| t.predictions.of[1].set_te(5)));
    for state in 1..=6 {
        assert!(with(|t| t.predictions.of[1].state = state));
    }
    assert!(with(|t| t.predictions.setting = [0; 4]));
}

/// Past the records there is nothing, and with a buffer there is nothing at all.
#[test]
fn entries_that_are_zero() {
    for k in 5..36 {
        for at in 0..11 {
            for value in [1, 2, 0xFF] {
                assert!(!with(|t| t.predictions.of[k].bytes_mut()[at] = value), "entry {k} byte {at}");
            }
        }
        assert!(!with(|t| t.predictions.of[k].state = 2));
    }
    assert!(!with(|t| t.base.places = 1));
    let nothing = |t: &mut Tool| {
        t.base.places = 1;
        t.predictions.of = [Prediction::NONE; 36];
    };
    assert!(with(nothing));
    assert!(!with(|t| t.predictions.of = [Prediction::NONE; 36]));
    for k in 0..36 {
        assert!(!with(|t| {
            nothing(t);
            t.predictions.of[k].state = 2;
        }));
    }
}

/// A prediction belongs to the record of its position.
#[test]
fn predictions_that_are_swapped() {
    for k in 0..5 {
        for other in 0..5 {
            let same = (k < 3) == (other < 3);
            assert_eq!(with(|t| t.predictions.of.swap(k, other)), same, "{k} {other}");
        }
    }
}

/// What a damaged tool breaks of P7's words, if it breaks one alone.
fn broken(t: &Tool) -> Option<&'static str> {
    let count = if t.base.places == 0 { t.base.count as usize } else { 0 };
    let (live, past) = t.predictions.of.split_at(count);
    let any = |wrong: &dyn Fn(&Prediction, &Carrier) -> bool| {
        live.iter().zip(&t.base.carrier).any(|(p, c)| wrong(p, c))
    };
    let ready = |c: &Carrier| c.port > 0 && t.base.port[c.port as usize - 1].transfer == 2;
    let words = [
        ("setting", t.predictions.setting() > 86_400),
        ("timeout", t.predictions.timeout() > 86_400),
        ("past the records", t.base.places == 0 && past.iter().any(|p| *p != Prediction::NONE)),
        ("with a buffer", t.base.places > 0 && past.iter().any(|p| *p != Prediction::NONE)),
        ("state", any(&|p, _| !(1..=6).contains(&p.state))),
        ("has Tp", any(&|p, _| p.has_tp > 1)),
        ("has Te", any(&|p, _| p.has_te > 1)),
        ("Tp isn't 0", any(&|p, _| p.has_tp == 0 && p.tp != [0; 4])),
        ("Te isn't 0", any(&|p, _| p.has_te == 0 && p.te != [0; 4])),
        ("not at a port", any(&|p, c| (1..=6).contains(&p.state) && p.state != 2 && c.place != 1)),
        ("PREDICTED and ready", any(&|p, c| p.state == 4 && c.place == 1 && ready(c))),
        ("ABORTED and ready", any(&|p, c| p.state == 5 && c.place == 1 && ready(c))),
    ];
    let mut broken = words.into_iter().filter(|(_, broken)| *broken).map(|(word, _)| word);
    broken.next().filter(|_| broken.next().is_none())
}

/// Each word is broken alone, in a tool that is sound otherwise, by what the generator damages.
#[test]
fn every_word_is_broken_alone() {
    let mut rng = Rng::new(24);
    let mut met = std::collections::BTreeMap::new();
    for _ in 0..60_000 {
        let mut t = random_sound_tool(&mut rng);
        damage(&mut t, &mut rng);
        let is = compare(&t);
        if independent::sound(&t.base) {
            if let Some(word) = broken(&t) {
                assert!(!is, "{word}");
                *met.entry(word).or_insert(0) += 1;
            }
        }
    }
    println!("{met:?}");
    assert!(met.len() == 12 && met.values().all(|&n| n > 20), "{met:?}");
}
