//! Times that are taken for good or bad wrongly.

use super::*;

/// Tp where some times count for others.
fn taken(clock: u32, times: &[f64], time: fn(f64) -> f64) -> Option<u64> {
    let times: Vec<f64> = times.iter().map(|&one| time(one)).collect();
    right(clock, &times)
}

/// Refused: minus zero, zero, the longest, and odd numbers of parts.
#[test]
fn good_times_that_are_refused_are_found() {
    let minus_zero: Tp = |clock, times| {
        taken(clock, times, |time| if time == 0.0 && time.is_sign_negative() { f64::NAN } else { time })
    };
    let zero: Tp = |clock, times| taken(clock, times, |time| if time == 0.0 { f64::NAN } else { time });
    let longest: Tp = |clock, times| {
        taken(clock, times, |time| if time == 1_048_576.0 - 1.0 / 1024.0 { f64::NAN } else { time })
    };
    let odd: Tp = |clock, times| {
        taken(clock, times, |time| if (time * 512.0).fract() != 0.0 { f64::NAN } else { time })
    };
    let no_wafers: Tp = |clock, times| right(clock, times).filter(|_| !times.is_empty());
    for (tp, least) in [(minus_zero, 2), (zero, 2), (longest, 2), (odd, 2), (no_wafers, 0)] {
        let (_, times) = last(tp);
        assert_eq!(times.len(), least, "{times:?}");
    }
}

/// Accepted: 1,048,576, half a part, and an ulp to either side of a good time.
#[test]
fn times_just_beside_good_ones_are_found() {
    let too_long: Tp =
        |clock, times| taken(clock, times, |time| if time == 1_048_576.0 { 1_048_575.0 } else { time });
    let half: Tp = |clock, times| {
        let halves = |time: &f64| (0.0..1_048_576.0).contains(time) && (time * 2048.0).fract() == 0.0;
        after(clock, sum(times).ceil()).filter(|_| times.iter().all(halves))
    };
    let past: Tp = |clock, times| {
        taken(clock, times, |time| {
            let short = f64::from_bits(time.to_bits().saturating_sub(1));
            if !good(time) && good(short) {
                short
            } else {
                time
            }
        })
    };
    let short: Tp = |clock, times| {
        taken(clock, times, |time| {
            let past = f64::from_bits(time.to_bits().saturating_add(1));
            if !good(time) && good(past) {
                past
            } else {
                time
            }
        })
    };
    let rounds: Tp = |clock, times| taken(clock, times, |time| (time * 1024.0).round() / 1024.0);
    for tp in [too_long, half, past, short, rounds] {
        let (_, times) = last(tp);
        assert!(times.len() == 2 && !all_good(&times), "{times:?}");
    }
}

/// Accepted: NaN, of some kinds or of all, infinities, subnormals, and negative times.
#[test]
fn floats_that_are_no_times_are_found() {
    let nan: Tp = |clock, times| taken(clock, times, |time| if time.is_nan() { 0.0 } else { time });
    // What a comparison with an upper limit alone lets through.
    let not_too_long: Tp = |clock, times| {
        let refused = times.iter().any(|&time| time >= 1_048_576.0 || (time * 1024.0).fract().abs() > 0.0);
        after(clock, sum(times).ceil()).filter(|_| !refused)
    };
    let signalling: Tp = |clock, times| {
        taken(clock, times, |time| if time.is_nan() && time.to_bits() >> 51 & 1 == 0 { 0.0 } else { time })
    };
    let infinity: Tp = |clock, times| taken(clock, times, |time| if time.is_infinite() { 0.0 } else { time });
    let subnormal: Tp =
        |clock, times| taken(clock, times, |time| if time.is_subnormal() { 0.0 } else { time });
    let negative: Tp = |clock, times| taken(clock, times, |time| if good(-time) { 0.0 } else { time });
    let absolute: Tp = |clock, times| taken(clock, times, f64::abs);
    for tp in [nan, not_too_long, signalling, infinity, subnormal, negative, absolute] {
        let (_, times) = last(tp);
        assert!(times.len() == 2 && !all_good(&times), "{times:?}");
    }
}

/// Only the process times looked at, only the first wafer, or only the total.
#[test]
fn times_that_are_not_looked_at_are_found() {
    let process: Tp = |clock, times| {
        let looked = times.iter().step_by(2).all(|&time| good(time));
        after(clock, sum(times).ceil()).filter(|_| looked)
    };
    let first: Tp = |clock, times| {
        let looked = all_good(&times[..times.len().min(2)]);
        after(clock, sum(times).ceil()).filter(|_| looked)
    };
    let total: Tp = |clock, times| {
        let sum = sum(times);
        let looked =
            sum >= 0.0 && (sum * 1024.0).fract() == 0.0 && !times.iter().any(|&time| time >= 1_048_576.0);
        after(clock, sum.ceil()).filter(|_| looked)
    };
    for tp in [process, first, total] {
        last(tp);
    }
}
