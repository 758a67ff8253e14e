//! P8: what wafers may be to a tool, so that a comparison can tell whether it has met all of it.

use std::vec::Vec;

use super::wafers::{whole, PAST};
use crate::gen::Input;
use crate::requests::wafers::{parts, MOST, WAFERS};
use crate::requests::Tool;

/// What the wafers of an input may be to a sound tool.
pub const TOTALS: [&str; 29] = [
    "no wafers",
    "one wafer",
    "25 wafers",
    "a total of whole seconds",
    "a total one part past a second",
    "a total one part short of a second",
    "a total of less seconds than its wafers rounded singly",
    "minus zero",
    "the longest time",
    "PREDICTED at once",
    "Tp is the last clock",
    "26 wafers",
    "more than 26 wafers",
    "an odd number of times",
    "an odd number of times past 50",
    "12 for Tp one past the last clock",
    "12 for Tp further past the last clock",
    "12 for NaN",
    "12 for an infinity",
    "12 for a subnormal",
    "12 for a negative time",
    "12 for 1,048,576 seconds",
    "12 for a time one ulp past a good one",
    "12 for a time one ulp short of a good one",
    "12 for half a part",
    "12 for another time",
    "a bad time, and 2",
    "a bad time, and 5",
    "a bad time, and 11",
];

/// What an input with this answer is, as places in [`TOTALS`]; nothing for inputs without wafers.
pub fn totals(before: &Tool, i: &Input, answer: u32) -> Vec<usize> {
    if i.number != WAFERS {
        return Vec::new();
    }
    let good: Option<Vec<u64>> = i.times().into_iter().map(|time| parts(time).map(u64::from)).collect();
    let mut all = Vec::new();
    match (answer, good) {
        (0, Some(parts)) => accepted(before, i, &parts, &mut all),
        (1, _) => all.extend(miscounted(i.wafers.len())),
        (2, None) => all.push("a bad time, and 2"),
        (5, None) => all.push("a bad time, and 5"),
        (11, None) => all.push("a bad time, and 11"),
        (12, Some(parts)) => {
            let just = tp(i.clock, &parts) == PAST;
            all.push(if just {
                "12 for Tp one past the last clock"
            } else {
                "12 for Tp further past the last clock"
            });
        }
        (12, None) => all.extend(i.wafers.iter().filter_map(|&bits| fault(bits))),
        _ => {}
    }
    let place = |what| TOTALS.iter().position(|&one| one == what);
    all.into_iter().map(|what| place(what).expect("one of them")).collect()
}

fn tp(clock: u32, parts: &[u64]) -> u64 {
    clock as u64 + parts.iter().sum::<u64>().div_ceil(1024)
}

fn accepted(before: &Tool, i: &Input, parts: &[u64], all: &mut Vec<&'static str>) {
    let total: u64 = parts.iter().sum();
    let tp = tp(i.clock, parts);
    let singly: u64 = parts.chunks(2).map(|wafer| wafer.iter().sum::<u64>().div_ceil(1024)).sum();
    let met = [
        (parts.is_empty(), "no wafers"),
        (parts.len() == 2, "one wafer"),
        (parts.len() == 2 * MOST, "25 wafers"),
        (total > 0 && total.is_multiple_of(1024), "a total of whole seconds"),
        (total % 1024 == 1, "a total one part past a second"),
        (total % 1024 == 1023, "a total one part short of a second"),
        (total.div_ceil(1024) < singly, "a total of less seconds than its wafers rounded singly"),
        (i.wafers.contains(&(1 << 63)), "minus zero"),
        (i.wafers.contains(&whole((1 << 30) - 1)), "the longest time"),
        (tp - i.clock as u64 <= before.predictions.setting() as u64, "PREDICTED at once"),
        (tp + 1 == PAST, "Tp is the last clock"),
    ];
    all.extend(met.into_iter().filter(|(is, _)| *is).map(|(_, what)| what));
}

/// A number of times that no wafers have.
fn miscounted(times: usize) -> Option<&'static str> {
    Some(match (times % 2, times / 2) {
        (0, 0..=MOST) => return None,
        (0, 26) => "26 wafers",
        (0, _) => "more than 26 wafers",
        (_, 0..MOST) => "an odd number of times",
        _ => "an odd number of times past 50",
    })
}

/// Why a time isn't good.
fn fault(bits: u64) -> Option<&'static str> {
    let time = f64::from_bits(bits);
    let good = |time: f64| parts(time).is_some();
    Some(match time {
        _ if good(time) => return None,
        _ if time.is_nan() => "12 for NaN",
        _ if time.is_infinite() => "12 for an infinity",
        _ if time.is_subnormal() => "12 for a subnormal",
        _ if time < 0.0 => "12 for a negative time",
        1_048_576.0 => "12 for 1,048,576 seconds",
        _ if good(f64::from_bits(bits - 1)) => "12 for a time one ulp past a good one",
        _ if good(f64::from_bits(bits + 1)) => "12 for a time one ulp short of a good one",
        _ if good(2.0 * time) => "12 for half a part",
        _ => "12 for another time",
    })
}
