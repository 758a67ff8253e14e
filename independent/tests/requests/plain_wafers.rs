//! P8's words in the plainest form: a time is a fraction over 2^52, and floats are compared as floats.

/// Seconds are counted in so many parts.
const UNDER: u128 = 1 << 52;

/// Whole wafers, and at most 25.
pub fn counted(times: usize) -> bool {
    (0..=25).any(|wafers| times == wafers + wafers)
}

/// A time as a fraction: how many 2^52ths of a second, if it is a whole multiple of 1/1024 from 0 up to but not
/// including 1,048,576.
pub fn fraction(time: f64) -> Option<u128> {
    let in_range = (0.0..1_048_576.0).contains(&time);
    let over = time * UNDER as f64;
    // What is lost by this isn't a multiple of 1/2^52.
    let cut = over as u128;
    (in_range && cut as f64 == over && cut.is_multiple_of(UNDER / 1024)).then_some(cut)
}

/// The clock plus the total, rounded up to a second, if all times are good and it is below 4,294,967,296.
pub fn plain_tp(clock: u32, times: &[f64]) -> Option<u64> {
    let mut total = 0;
    for &time in times {
        total += fraction(time)?;
    }
    let mut seconds = total / UNDER;
    if seconds * UNDER < total {
        seconds += 1;
    }
    let tp = clock as u128 + seconds;
    (tp < 4_294_967_296).then_some(tp as u64)
}
