//! The times of wafers, in words: what they come to, and what is the matter with one that isn't good. The answer is the
//! machine's; here is said why.
use hawsermole::Wafer;

/// How many parts a second has: a good time is a whole number of them.
const PARTS: f64 = 1024.0;
/// The first time that is too long.
const TOO_LONG: f64 = 1_048_576.0;
/// The longest good time.
const LONGEST: f64 = TOO_LONG - 1.0 / PARTS;
/// The last second that a clock has.
pub const LAST: u64 = u32::MAX as u64;

/// Whether a time is a whole number of parts from 0 on, and not too long. Minus zero is zero.
fn is_good(time: f64) -> bool {
    (0.0..TOO_LONG).contains(&time) && (time * PARTS).fract() == 0.0
}

/// Both times of all wafers, in order, each with what it is called: `process time of wafer 1`.
fn times(wafers: &[Wafer]) -> impl Iterator<Item = (String, f64)> + '_ {
    (1..).zip(wafers).flat_map(|(place, wafer): (u32, _)| {
        let named = |what, time| (format!("{what} time of wafer {place}"), time);
        [named("process", wafer.process), named("handling", wafer.handling)]
    })
}

/// The total, which is exact where every time is good, and 0 where all are minus zero.
fn total(wafers: &[Wafer]) -> f64 {
    times(wafers).fold(0.0, |sum, (_, time)| sum + time)
}

/// The predicted time, which may be past the last second; none where some time isn't good.
pub fn predicted(clock: u32, wafers: &[Wafer]) -> Option<u64> {
    let good = times(wafers).all(|(_, time)| is_good(time));
    good.then(|| u64::from(clock) + total(wafers).ceil() as u64)
}

/// The first time that isn't good, what is the matter with it, and how many more there are.
pub fn odd_time(wafers: &[Wafer]) -> Option<String> {
    let mut odd = times(wafers).filter(|(_, time)| !is_good(*time));
    let (what, time) = odd.next()?;
    let more = match odd.count() {
        0 => String::new(),
        1 => "; and 1 more".into(),
        more => format!("; and {more} more"),
    };
    Some(format!("{what} is {}{more}", matter(time)))
}

/// `0.1, between the good ones 0.099609375 and 0.1005859375`
fn matter(time: f64) -> String {
    let text = text(time);
    if time.is_nan() {
        return format!("{text}, no number");
    }
    if time < 0.0 {
        return format!("{text}, less than 0");
    }
    if time > LONGEST {
        return format!("{text}, more than the longest good one, {LONGEST}");
    }
    let below = (time * PARTS).floor() / PARTS;
    format!("{text}, between the good ones {below} and {}", below + 1.0 / PARTS)
}

/// A time in decimal digits; very long and very short ones with an exponent.
fn text(time: f64) -> String {
    const MOST: usize = 24;
    let digits = time.to_string();
    if digits.len() > MOST {
        return format!("{time:e}");
    }
    digits
}

/// `2 wafers take 205.5 seconds, rounded up 206`, `no wafers: ready to unload now`
pub fn totalled(wafers: &[Wafer]) -> String {
    let total = total(wafers);
    let (whole, seconds) = (total.ceil(), if total == 1.0 { "second" } else { "seconds" });
    let rounded = if whole == total { String::new() } else { format!(", rounded up {whole}") };
    match wafers.len() {
        0 => "no wafers: ready to unload now".into(),
        1 => format!("1 wafer takes {total} {seconds}{rounded}"),
        count => format!("{count} wafers take {total} {seconds}{rounded}"),
    }
}

#[cfg(test)]
mod tests {
    use super::*;

    const fn wafer(process: f64, handling: f64) -> Wafer {
        Wafer { process, handling }
    }

    #[test]
    fn totals() {
        assert_eq!(totalled(&[]), "no wafers: ready to unload now");
        assert_eq!(totalled(&[wafer(0.5, 0.5)]), "1 wafer takes 1 second");
        assert_eq!(totalled(&[wafer(-0.0, -0.0)]), "1 wafer takes 0 seconds");
        assert_eq!(totalled(&[wafer(90.5, 12.25); 2]), "2 wafers take 205.5 seconds, rounded up 206");
        assert_eq!(totalled(&[wafer(LONGEST, LONGEST); 25]).split(' ').nth(3), Some("52428799.951171875"));
        assert_eq!((predicted(9, &[wafer(0.5, 1.0 / PARTS)]), predicted(9, &[])), (Some(10), Some(9)));
        assert_eq!(predicted(u32::MAX, &[wafer(1.0, 0.0)]), Some(LAST + 1));
        assert_eq!(predicted(9, &[wafer(0.1, 0.0)]), None);
    }

    #[test]
    fn times_that_are_not_good() {
        let of = |process, handling| odd_time(&[wafer(1.0, 0.0), wafer(process, handling)]);
        assert_eq!(of(LONGEST, -0.0), None);
        let process = |text: &str| Some(format!("process time of wafer 2 is {text}"));
        assert_eq!(of(0.1, 1.0), process("0.1, between the good ones 0.099609375 and 0.1005859375"));
        assert_eq!(of(1e-9, 1.0), process("0.000000001, between the good ones 0 and 0.0009765625"));
        assert_eq!(of(5e-324, 1.0), process("5e-324, between the good ones 0 and 0.0009765625"));
        assert_eq!(of(-1.5, 1.0), process("-1.5, less than 0"));
        assert_eq!(of(f64::NEG_INFINITY, 1.0), process("-inf, less than 0"));
        assert_eq!(of(TOO_LONG, 1.0), process("1048576, more than the longest good one, 1048575.9990234375"));
        assert_eq!(of(f64::MAX, 1.0).unwrap().split([' ', ',']).nth(6), Some("1.7976931348623157e308"));
        assert_eq!(of(f64::NAN, 0.1), process("NaN, no number; and 1 more"));
        assert!(of(1.0, f64::INFINITY).unwrap().starts_with("handling time of wafer 2 is inf, more"));
        assert!(odd_time(&[wafer(0.1, 0.1); 25]).unwrap().ends_with("; and 49 more"));
    }
}
