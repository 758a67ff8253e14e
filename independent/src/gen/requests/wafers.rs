//! P8: times of wafers that are good, that only look so, and that are none; and totals that come to a given Tp.

use std::vec::Vec;

use crate::gen::{shuffle, Rng};
use crate::requests::wafers::MOST;

/// The first clock that is none.
pub(super) const PAST: u64 = 1 << 32;

/// 1,048,576 seconds in 1/1024ths, the first that are too many.
const TOO_MANY: u32 = 1 << 30;

/// The most seconds that the wafers of an input come to, and a little more.
pub(super) const MOST_SECONDS: u32 = 2 * MOST as u32 * (1 << 20);

const SIGN: u64 = 1 << 63;

/// The bits of so many 1/1024ths of a second.
pub fn whole(parts: u32) -> u64 {
    (parts as f64 / 1024.0).to_bits()
}

/// Times at a limit and beside one: zeros, ones, the shortest and the longest, what is too short or too long, and what is
/// no number of seconds at all.
pub const LIMITS: [u64; 34] = [
    0,
    SIGN,
    1,
    SIGN | 1,
    0x000F_FFFF_FFFF_FFFF,
    0x0010_0000_0000_0000,
    // 1/1024, its neighbours, half of it, three halves and minus it.
    0x3F50_0000_0000_0000,
    0x3F50_0000_0000_0001,
    0x3F4F_FFFF_FFFF_FFFF,
    0x3F40_0000_0000_0000,
    0x3F58_0000_0000_0000,
    0xBF50_0000_0000_0000,
    // One second, its neighbours and minus it.
    0x3FF0_0000_0000_0000,
    0x3FF0_0000_0000_0001,
    0x3FEF_FFFF_FFFF_FFFF,
    0xBFF0_0000_0000_0000,
    // 1,048,576 less 1/1024, its neighbours, half of 1/1024 more, and minus it.
    0x412F_FFFF_FF80_0000,
    0x412F_FFFF_FF80_0001,
    0x412F_FFFF_FF7F_FFFF,
    0x412F_FFFF_FFC0_0000,
    0xC12F_FFFF_FF80_0000,
    // 1,048,576 and its neighbours.
    0x4130_0000_0000_0000,
    0x4130_0000_0000_0001,
    0x412F_FFFF_FFFF_FFFF,
    // 2^32, 2^53, 2^64 and the largest of all.
    0x41F0_0000_0000_0000,
    0x4340_0000_0000_0000,
    0x43F0_0000_0000_0000,
    0x7FEF_FFFF_FFFF_FFFF,
    // Infinities, and NaN of some payloads.
    0x7FF0_0000_0000_0000,
    0xFFF0_0000_0000_0000,
    0x7FF8_0000_0000_0000,
    0x7FF0_0000_0000_0001,
    0xFFFF_FFFF_FFFF_FFFF,
    0x7FF8_3F50_0000_0000,
];

/// 1/1024ths of a good time: none, few, whole seconds, any, the most.
fn good_parts(rng: &mut Rng) -> u32 {
    match rng.below(8) {
        0 => 0,
        1 => rng.below(1024),
        2 | 3 => 1024 * rng.below(200),
        4 | 5 => rng.below(200 * 1024),
        6 => TOO_MANY - 1 - rng.below(3),
        _ => rng.below(TOO_MANY),
    }
}

/// The bits of a time that is mostly not good, each kind as often as the others.
fn bad_time(rng: &mut Rng) -> u64 {
    let good = whole(good_parts(rng).max(1));
    let (sign, payload) = (rng.draw() & SIGN, rng.draw() >> 12);
    match rng.below(10) {
        0 => sign | 0x7FF << 52 | payload,
        1 => sign | 0x7FF << 52,
        2 => sign | payload >> rng.below(52),
        3 => good | SIGN,
        4 => whole(TOO_MANY),
        5 => good + 1,
        6 => good - 1,
        // Half of an odd number of parts.
        7 => whole(rng.below(TOO_MANY) | 1) - (1 << 52),
        // An exponent that a good time may have, and any mantissa.
        8 => (1013 + rng.below(30) as u64) << 52 | payload,
        _ => rng.draw(),
    }
}

/// The bits of a time that is good, nearly good, or anything.
pub fn random_time(rng: &mut Rng) -> u64 {
    match rng.below(8) {
        0 | 1 => whole(good_parts(rng)),
        2 => whole(good_parts(rng)) ^ 1 << rng.below(64),
        3 => rng.pick(&LIMITS),
        _ => bad_time(rng),
    }
}

/// The bits of some wafers whose total is so many 1/1024ths; nothing where 25 wafers don't come to it. Zeros may have a
/// sign.
pub fn totalling(total: u64, rng: &mut Rng) -> Option<Vec<u64>> {
    let most = TOO_MANY as u64 - 1;
    let least = total.div_ceil(2 * most) as u32;
    let wafers = rng.pick(&[0, 1, 1, 1, 2, 3, 24, 25, 25]).max(least);
    if least as usize > MOST || wafers == 0 && total > 0 {
        return None;
    }
    let mut left = total;
    let mut times = Vec::new();
    for after in (0..2 * wafers as u64).rev() {
        let (from, to) = (left.saturating_sub(after * most), left.min(most));
        let any = from + rng.draw() % (to - from + 1);
        let parts = rng.pick(&[any, any, to, from, (left / (after + 1)).clamp(from, to)]);
        left -= parts;
        times.push(whole(parts as u32) | if parts == 0 && rng.chance(20) { SIGN } else { 0 });
    }
    shuffle(&mut times, rng);
    Some(times)
}

/// A total that takes this clock to a Tp, or just past it or short of it, in 1/1024ths.
fn aimed(clock: u32, tp: u64, rng: &mut Rng) -> u64 {
    let seconds = tp.saturating_sub(clock as u64);
    (1024 * seconds).saturating_sub(rng.pick(&[0, 0, 0, 1, 1, 512, 1023, 1023, 1024]))
        + rng.below(20) as u64 / 19
}

fn any_good(rng: &mut Rng) -> Vec<u64> {
    let wafers = rng.pick(&[0, 1, 1, 2, 24, 25]);
    (0..2 * wafers).map(|_| whole(good_parts(rng))).collect()
}

/// Times that mostly bring this clock to this Tp; now and then with one that isn't good, or of a number that can't be.
pub(super) fn draw(clock: u32, tp: u64, rng: &mut Rng) -> Vec<u64> {
    let aimed = totalling(aimed(clock, tp, rng), rng).filter(|_| rng.chance(85));
    let mut times = aimed.unwrap_or_else(|| any_good(rng));
    if rng.chance(35) && !times.is_empty() {
        let at = rng.below(times.len() as u32) as usize;
        times[at] = random_time(rng);
    }
    match rng.below(60) {
        0 => times.resize(2 * MOST + rng.pick(&[1, 2, 2, 2, 4, 206]), 0),
        1 => times.push(0),
        2 => times.truncate(rng.pick(&[1, 3, 49])),
        3 => times.clear(),
        _ => {}
    }
    times
}
