//! Which floats are good: whole multiples of 1/1024 from 0 up to but not including 1,048,576.

use independent::gen::requests::{random_time, LIMITS};
use independent::gen::Rng;
use independent::requests::wafers::parts as read;

use super::*;
use crate::plain_wafers::fraction;

const SIGN: u64 = 1 << 63;

/// What the program says of a time, which is what the plain words say of it.
fn looked(bits: u64) -> Option<u32> {
    let time = f64::from_bits(bits);
    let plainly = fraction(time).map(|over| u32::try_from(over >> 42).unwrap());
    assert_eq!(read(time), plainly, "{bits:016x}");
    plainly
}

fn one(time: f64) -> Option<u32> {
    looked(time.to_bits())
}

/// The limits, each with what it is.
#[test]
fn limits() {
    for (time, parts) in [
        (0.0, Some(0)),
        (-0.0, Some(0)),
        (PART, Some(1)),
        (1.0, Some(1024)),
        (1.5, Some(1536)),
        (LONGEST, Some((1 << 30) - 1)),
        (TOO_LONG, None),
        (TOO_LONG + PART, None),
        (2.0 * TOO_LONG, None),
        (-PART, None),
        (-1.0, None),
        (-LONGEST, None),
        (PART / 2.0, None),
        (PART * 1.5, None),
        (LONGEST + PART / 2.0, None),
        (0.1, None),
        (f64::MIN_POSITIVE, None),
        (f64::from_bits(1), None),
        (-f64::from_bits(1), None),
        (f64::MAX, None),
        (f64::MIN, None),
        (f64::INFINITY, None),
        (f64::NEG_INFINITY, None),
        (f64::NAN, None),
        (-f64::NAN, None),
    ] {
        assert_eq!(one(time), parts, "{time:e}");
        let answer = refusal(&accessed(60, 120), 5, "A", &[time, 0.0]);
        assert_eq!(answer, if parts.is_some() { 0 } else { 12 }, "{time:e}");
        assert_eq!(refusal(&accessed(60, 120), 5, "A", &[0.0, time]), answer);
    }
    let good: Vec<u64> = LIMITS.into_iter().filter(|&bits| looked(bits).is_some()).collect();
    assert_eq!(good, [0, SIGN, whole(1), whole(1024), whole((1 << 30) - 1)]);
}

/// Multiples are themselves, their neighbours are none, and of their negatives only that of zero is.
#[test]
fn multiples_and_their_neighbours() {
    let all = (0..1 << 18).chain((1 << 18..1 << 30).step_by(1021)).chain((1 << 30) - 5000..1 << 30);
    for k in all {
        let bits = whole(k);
        assert_eq!(looked(bits), Some(k));
        assert_eq!(looked(bits + 1), None);
        if k > 0 {
            assert_eq!(looked(bits - 1), None);
        }
        assert_eq!(looked(bits | SIGN), (k == 0).then_some(0));
        // Half a part more.
        assert_eq!(one((2 * k as u64 + 1) as f64 / 2048.0), None);
    }
}

/// Every exponent with either sign, and mantissas of few bits and of many.
#[test]
fn every_exponent() {
    for exponent in 0..=0x7FF {
        for bit in 0..52 {
            let high = exponent << 52;
            for mantissa in [0, 1 << bit, (1 << bit) - 1, !0 >> 12 << bit & !0 >> 12, !0 >> 12] {
                let good = looked(high | mantissa).is_some();
                let is_zero = high | mantissa == 0;
                assert!(!good || is_zero || (1013..1043).contains(&exponent));
                assert_eq!(looked(SIGN | high | mantissa).is_some(), is_zero);
                // From 1/1024 on the exponent tells how many bits of the mantissa may be set.
                let last = 52 - (mantissa.trailing_zeros() as u64).min(52);
                let whole = (1013..1043).contains(&exponent) && last <= exponent - 1013;
                assert_eq!(good, is_zero || whole);
            }
        }
    }
}

/// Any bits, and those that are nearly good.
#[test]
fn any_bits() {
    let mut rng = Rng::new(81);
    let mut good = 0;
    for _ in 0..2_000_000 {
        looked(rng.draw());
        good += looked(random_time(&mut rng)).is_some() as u32;
    }
    assert!((400_000..1_000_000).contains(&good), "{good}");
}

/// Each time of each wafer is looked at.
#[test]
fn every_place() {
    let t = accessed(60, 120);
    for count in [1, 2, 13, 25] {
        for at in 0..2 * count {
            let mut times = vec![PART; 2 * count];
            assert_eq!(refusal(&t, 5, "A", &times), 0);
            for bad in [PART / 2.0, TOO_LONG, -PART, f64::NAN, f64::INFINITY, f64::from_bits(1)] {
                times[at] = bad;
                assert_eq!(refusal(&t, 5, "A", &times), 12);
            }
            for good in [-0.0, LONGEST] {
                times[at] = good;
                assert_eq!(refusal(&t, 5, "A", &times), 0);
            }
        }
    }
}
