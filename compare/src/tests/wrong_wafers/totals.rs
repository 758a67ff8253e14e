//! Wrong totals: rounded otherwise, of fewer times, past the clock's range.

use super::*;

/// Rounded down, to the nearest, and to the second after a whole one.
#[test]
fn another_rounding_is_found() {
    let down: Tp = |clock, times| after(clock, sum(times).floor()).filter(|_| all_good(times));
    let nearest: Tp = |clock, times| after(clock, sum(times).round()).filter(|_| all_good(times));
    let after_it: Tp = |clock, times| after(clock, sum(times).floor() + 1.0).filter(|_| all_good(times));
    for tp in [down, nearest] {
        let (_, times) = last(tp);
        assert_eq!(times.len(), 2, "{times:?}");
    }
    assert_eq!(last(after_it).1, []);
}

/// Each wafer rounded up, each time, and both kinds of times.
#[test]
fn rounding_more_than_once_is_found() {
    let each_wafer: Tp = |clock, times| {
        let seconds = times.chunks(2).map(|wafer| sum(wafer).ceil()).sum();
        after(clock, seconds).filter(|_| all_good(times))
    };
    let each_time: Tp = |clock, times| {
        let seconds = times.iter().map(|time| time.ceil()).sum();
        after(clock, seconds).filter(|_| all_good(times))
    };
    let each_kind: Tp = |clock, times| {
        let of = |kind: usize| times.iter().skip(kind).step_by(2).sum::<f64>().ceil();
        after(clock, of(0) + of(1)).filter(|_| all_good(times))
    };
    for (tp, least) in [(each_wafer, 4), (each_time, 2), (each_kind, 2)] {
        let (_, times) = last(tp);
        assert_eq!(times.len(), least, "{times:?}");
    }
}

/// Handling left out, process left out, the last wafer left out; and the first twice.
#[test]
fn times_that_are_left_out_are_found() {
    let no_handling: Tp = |clock, times| {
        let process = times.iter().step_by(2).sum::<f64>();
        after(clock, process.ceil()).filter(|_| all_good(times))
    };
    let no_process: Tp = |clock, times| {
        let handling = times.iter().skip(1).step_by(2).sum::<f64>();
        after(clock, handling.ceil()).filter(|_| all_good(times))
    };
    let not_the_last: Tp =
        |clock, times| after(clock, sum(&times[..times.len().min(48)]).ceil()).filter(|_| all_good(times));
    let twice: Tp = |clock, times| {
        let first = times.first().map_or(0.0, |&time| time);
        after(clock, (sum(times) + first).ceil()).filter(|_| all_good(times))
    };
    for (tp, least) in [(no_handling, 2), (no_process, 2), (not_the_last, 50), (twice, 2)] {
        assert_eq!(last(tp).1.len(), least);
    }
}

/// Floats of less precision, and times that are cut to whole seconds.
#[test]
fn sums_that_lose_something_are_found() {
    let single: Tp = |clock, times| {
        let total: f32 = times.iter().map(|&time| time as f32).sum();
        after(clock, total.ceil() as f64).filter(|_| all_good(times))
    };
    let thousandths: Tp = |clock, times| {
        let total = times.iter().fold(0u64, |sum, &time| sum.saturating_add((time * 1000.0) as u64));
        after(clock, total.div_ceil(1000) as f64).filter(|_| all_good(times))
    };
    let whole_seconds: Tp =
        |clock, times| after(clock, times.iter().map(|time| time.floor()).sum()).filter(|_| all_good(times));
    let words: Tp = |clock, times| {
        let total = times.iter().fold(0u32, |sum, &time| sum.wrapping_add((time * 1024.0) as u32));
        after(clock, total.div_ceil(1024) as f64).filter(|_| all_good(times))
    };
    for tp in [single, thousandths, whole_seconds, words] {
        last(tp);
    }
}

/// Tp of 2^32 accepted, as 0 or as the last clock; 2^32 - 1 refused; the range judged before rounding.
#[test]
fn another_range_is_found() {
    let wraps: Tp = |clock, times| {
        let tp = clock.wrapping_add(sum(times).ceil() as u32) as u64;
        Some(tp).filter(|_| all_good(times))
    };
    let saturates: Tp = |clock, times| {
        let tp = clock.saturating_add(sum(times).ceil() as u32) as u64;
        Some(tp).filter(|_| all_good(times))
    };
    let just_past: Tp = |clock, times| {
        let tp = later(clock, sum(times).ceil());
        Some(tp.min(PAST - 1)).filter(|_| all_good(times) && tp <= PAST)
    };
    let too_strict: Tp = |clock, times| right(clock, times).filter(|&tp| tp + 1 < PAST);
    let before_rounding: Tp = |clock, times| {
        let tp = clock as f64 + sum(times);
        Some(tp.ceil().min((PAST - 1) as f64) as u64).filter(|_| all_good(times) && tp < PAST as f64)
    };
    for tp in [wraps, saturates, just_past, too_strict, before_rounding] {
        last(tp);
    }
}

/// Tp counted from the clock before, or from 0.
#[test]
fn another_clock_is_found() {
    let from_the_last = |before: &Tool, input: &Input, o: &mut Outcome| {
        if (input.number, o.answer) == (35, 0) {
            told(right(before.predictions.clock(), &input.times()), before, input, o);
        }
    };
    let from_0: Tp = |_, times| right(0, times);
    seen(&Faulty(from_the_last));
    caught(from_0);
}
