//! Which floats are good.

use super::*;

const SIGN: u64 = 1 << 63;

/// The floats that the request names, and those beside them.
pub fn known(both: &Both, tally: &mut Tally) -> Result<(), Finding> {
    let good = [0.0, -0.0, PART, 0.5, 1.0, 1.0 + PART, 1_048_575.0, LONGEST];
    let bad = [
        PART / 2.0,
        1.5 * PART,
        LONGEST + PART / 2.0,
        TOO_LONG,
        TOO_LONG + PART,
        2.0 * TOO_LONG,
        4_294_967_296.0,
        1e300,
        0.1,
        -PART,
        -1.0,
        -LONGEST,
        f64::from_bits(1),
        -f64::from_bits(1),
        f64::MIN_POSITIVE,
        f64::INFINITY,
        f64::NEG_INFINITY,
        f64::NAN,
    ];
    let mut player = waiting(both, tally)?;
    for (times, answer) in [(&good[..], 0), (&bad, 12)] {
        for &time in times {
            for of in [of(&[time, 0.0]), of(&[0.0, time]), of(&[time; 50])] {
                player.expect_look(&of, answer)?;
            }
        }
    }
    Ok(())
}

/// Every exponent, with either sign and mantissas of few bits and of many.
pub fn every_exponent(both: &Both, tally: &mut Tally) -> Result<(), Finding> {
    let mut player = waiting(both, tally)?;
    let all = (1 << 52) - 1;
    for exponent in 0..0x800 {
        let near = (1010..1046).contains(&exponent);
        for bit in (0..52).step_by(if near { 1 } else { 17 }) {
            for mantissa in [0, 1 << bit, all >> bit, all << bit & all] {
                let bits = exponent << 52 | mantissa;
                for bits in [bits, bits | SIGN] {
                    let time = f64::from_bits(bits);
                    let good = (0.0..TOO_LONG).contains(&time) && (time * 1024.0).fract() == 0.0;
                    player.expect_look(&of_bits(&[bits, 0]), if good { 0 } else { 12 })?;
                }
            }
        }
    }
    Ok(())
}

/// Multiples of 1/1024 are good, and one ulp to either side is not.
pub fn neighbours(both: &Both, tally: &mut Tally) -> Result<(), Finding> {
    let mut player = waiting(both, tally)?;
    let powers = (0..30).flat_map(|power| [(1 << power) - 1, 1 << power, (1 << power) + 1, 3 << power >> 1]);
    for k in powers.chain((1 << 30) - 3..1 << 30).chain((1..1 << 30).step_by(1_234_567)).filter(|&k| k > 0) {
        let bits = whole(k);
        player.expect_look(&of_bits(&[bits, 0]), 0)?;
        for wrong in [bits + 1, bits - 1, bits | SIGN] {
            player.expect_look(&of_bits(&[wrong, 0]), 12)?;
            player.expect_look(&of_bits(&[0, wrong]), 12)?;
        }
    }
    Ok(())
}

/// Each time of each wafer is looked at.
pub fn every_place(both: &Both, tally: &mut Tally) -> Result<(), Finding> {
    let mut player = waiting(both, tally)?;
    for wafers in [1, 2, 3, 24, 25] {
        for place in 0..2 * wafers {
            for (time, answer) in
                [(-0.0, 0), (LONGEST, 0), (TOO_LONG, 12), (PART / 2.0, 12), (-PART, 12), (f64::NAN, 12)]
            {
                let mut times = vec![PART; 2 * wafers];
                times[place] = time;
                player.expect_look(&of(&times), answer)?;
            }
        }
    }
    Ok(())
}

/// NaN of every bit of a payload, with either sign; subnormals of every bit.
pub fn payloads(both: &Both, tally: &mut Tally) -> Result<(), Finding> {
    let mut player = waiting(both, tally)?;
    for bit in 0..52 {
        for high in [0, SIGN, 0x7FF << 52, SIGN | 0x7FF << 52] {
            for low in [1 << bit, (1 << bit) | 1, !0 >> 12 >> bit] {
                player.expect_look(&of_bits(&[high | low, 0]), 12)?;
            }
        }
    }
    Ok(())
}
