//! Tp is the clock plus the total, rounded up to a second.

use independent::gen::requests::totalling;
use independent::gen::Rng;
use independent::requests::wafers;

use super::*;
use crate::plain_wafers::plain_tp;

/// No wafers: Tp is the clock that this input brings, not the one before it.
#[test]
fn no_wafers() {
    let mut t = accessed(60, 120);
    tell(&mut t, CLOCK, 100, "", 0);
    for clock in [100, 101, 5000, u32::MAX] {
        let mut u = t;
        assert_eq!(bring(&mut u, clock, "A", &[]), (0, "8 A 3>4".into()));
        assert_eq!((shown(&u, "A"), u.predictions.clock()), (format!("4 {clock} -"), clock));
    }
    assert_eq!((tp(7, &[0.0, 0.0]), tp(7, &[-0.0, 0.0]), tp(7, &[-0.0; 50])), (7, 7, 7));
}

/// Up, by less than a second, and not at all where the total is whole.
#[test]
fn rounded_up() {
    for (time, seconds) in [
        (PART, 1),
        (0.5, 1),
        (1.0 - PART, 1),
        (1.0, 1),
        (1.0 + PART, 2),
        (1.5, 2),
        (2.0 - PART, 2),
        (2.0, 2),
        (59.25, 60),
        (1_048_575.0, 1_048_575),
        (1_048_575.0 + PART, 1_048_576),
        (LONGEST, 1_048_576),
    ] {
        assert_eq!(tp(1000, &[time, 0.0]), 1000 + seconds);
        assert_eq!(tp(1000, &[0.0, time]), 1000 + seconds);
    }
}

/// Once, of the total of both times of all wafers: not each time, and not each wafer.
#[test]
fn rounded_once() {
    assert_eq!((tp(0, &[0.5, 0.5]), tp(0, &[0.25, 0.25, 0.25, 0.25])), (1, 1));
    assert_eq!((tp(0, &[PART; 50]), tp(0, &[0.5; 50]), tp(0, &[0.75; 4])), (1, 25, 3));
    assert_eq!((tp(0, &[1.0 - PART; 50]), tp(0, &[1.0 + PART; 50])), (50, 51));
    assert_eq!(tp(0, &[LONGEST; 50]), 50 * 1_048_576);
    // 1/50 of a second is no part, but 20/1024 and 21/1024 are: 50 of the one are less than a second, 49 of the other
    // are more.
    assert_eq!((tp(0, &[parts(20); 50]), tp(0, &[parts(21); 48]), tp(0, &[parts(21); 50])), (1, 1, 2));
}

/// Process and handling alike, in whatever order.
#[test]
fn both_times() {
    let times = [10.0, 0.25, 20.0, 0.5, 30.0, 0.25];
    assert_eq!(tp(100, &times), 161);
    for at in 0..times.len() {
        let mut turned = times;
        turned.rotate_left(at);
        assert_eq!(tp(100, &turned), 161);
    }
    assert_eq!((tp(100, &[10.0, 3.0]), tp(100, &[3.0, 10.0])), (113, 113));
}

/// Totals by chance, against fractions; and the f64 total is the whole-number total of 1/1024ths.
#[test]
fn totals_by_chance() {
    let mut rng = Rng::new(82);
    let mut many = 0;
    for k in 0..200_000u64 {
        let total = rng.draw() % [3000, 1 << 20, 1 << 30, 1 << 34, 50 << 30][k as usize % 5];
        let Some(bits) = totalling(total, &mut rng) else { continue };
        let times: Vec<f64> = bits.into_iter().map(f64::from_bits).collect();
        let sum: f64 = times.iter().sum();
        assert_eq!((sum * 1024.0) as u64, total);
        let clock = rng.draw() as u32;
        let expected = clock as u64 + total.div_ceil(1024);
        let tp = wafers::tp(clock, &times);
        assert_eq!(tp, u32::try_from(expected).ok());
        assert_eq!(tp.map(u64::from), plain_tp(clock, &times));
        many += (times.len() > 40) as u32;
    }
    assert!(many > 10_000, "{many}");
}
