//! P8: where Tp comes from.
//!
//! The process module sends the times of up to 25 wafers as f64. Each is taken apart into mantissa and exponent
//! and read as whole 1/1024ths; from then on everything is whole numbers, and no float is ever added.

use super::Given;
use crate::rows::{unless, Refusal, Result};

pub const WAFERS: u32 = 35;

/// The most wafers of an input; each has two times.
pub const MOST: usize = 25;

/// How many parts a second has.
const PARTS: u64 = 1024;

const MANTISSA_BITS: u32 = 52;
const SIGN: u64 = 1 << 63;
const MANTISSA: u64 = (1 << MANTISSA_BITS) - 1;

/// What an f64 has for an exponent of 0.
const BIAS: u32 = 1023;
/// The exponents, as an f64 has them, of 1/1024 and of the first time that is too long, 2^20.
const OF_ONE_PART: u32 = BIAS - 10;
const OF_TOO_LONG: u32 = BIAS + 20;

/// A time in 1/1024ths of a second, if it is a whole number of them from 0 up to but not including 1,048,576
/// seconds. Minus zero is zero.
#[inline]
pub fn parts(time: f64) -> Option<u32> {
    let bits = time.to_bits();
    if bits & !SIGN == 0 {
        return Some(0);
    }
    // With a sign this is more than any exponent. Subnormals have 0, NaN and infinities the largest.
    let exponent = (bits >> MANTISSA_BITS) as u32;
    if !(OF_ONE_PART..OF_TOO_LONG).contains(&exponent) {
        return None;
    }
    // So many bits of the mantissa stand behind the last whole part: 52 at 1/1024, 23 below 2^20.
    let behind = MANTISSA_BITS - (exponent - OF_ONE_PART);
    let mantissa = bits & MANTISSA | 1 << MANTISSA_BITS;
    (mantissa.trailing_zeros() >= behind).then_some((mantissa >> behind) as u32)
}

/// At most 25 wafers, and two times of each. An input of another row has no wafers.
#[inline]
pub(super) fn given(given: &Given) -> Result<()> {
    let times = given.wafers.len();
    let whole = times.is_multiple_of(2) && times / 2 <= MOST;
    unless(given.number != WAFERS || whole, Refusal::Range)
}

/// The clock and the total of all times, rounded up to a second; nothing if a time isn't good, or if this is past
/// the clock's range.
#[inline]
pub fn tp(clock: u32, times: &[f64]) -> Option<u32> {
    let total = times.iter().try_fold(0, |sum, &time| Some(sum + parts(time)? as u64))?;
    u32::try_from(clock as u64 + total.div_ceil(PARTS)).ok()
}
