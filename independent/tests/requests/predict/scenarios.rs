//! The scenarios of document 000, R3-4.1: setting 60 seconds, timeout 120, a carrier that is IN ACCESS and
//! WAITING FOR PREDICTION. Where R3-4.1.2 differs, paragraph 10.7.8.4 decides.

use super::*;

/// Seconds since midnight.
const fn time(hours: u32, minutes: u32, seconds: u32) -> u32 {
    3600 * hours + 60 * minutes + seconds
}

const NINE: u32 = time(9, 0, 0);
const FIVE_PAST: u32 = time(9, 5, 0);

/// At 9:00:00 Tp is told to be 9:05:00.
fn calculated() -> Tool {
    let mut t = accessed(60, 120);
    assert_eq!(tell(&mut t, TP, NINE, "A", FIVE_PAST), "");
    t
}

/// Tables R3-1 and R3-2: ready before Tp. PREDICTED comes at 9:04:00, and not a second earlier.
#[test]
fn ready_before_the_predicted_time() {
    for clock in [time(9, 4, 30), time(9, 4, 45)] {
        let mut t = calculated();
        assert_eq!(tell(&mut t, CLOCK, time(9, 3, 59), "", 0), "");
        assert_eq!(tell(&mut t, CLOCK, time(9, 4, 0), "", 0), "8 A 3>4");
        assert_eq!(tell(&mut t, CLOCK, clock, "", 0), "");
        assert_eq!(finish(&mut t, "A"), "1 1 3>2; 8 A 4>6");
    }
}

/// R3-4.1.2 by its title: after Tp, and before the timeout.
#[test]
fn ready_after_the_predicted_time() {
    let mut t = calculated();
    tell(&mut t, CLOCK, time(9, 4, 0), "", 0);
    assert_eq!(tell(&mut t, CLOCK, time(9, 5, 45), "", 0), "");
    assert_eq!(finish(&mut t, "A"), "1 1 3>2; 8 A 4>6");
}

/// Table R3-3: not ready when the timeout is over, which is at 9:07:00.
#[test]
fn not_ready_after_the_timeout() {
    let mut t = calculated();
    assert_eq!(tell(&mut t, CLOCK, time(9, 4, 0), "", 0), "8 A 3>4");
    assert_eq!(tell(&mut t, CLOCK, FIVE_PAST, "", 0), "");
    assert_eq!(tell(&mut t, CLOCK, time(9, 6, 59), "", 0), "");
    assert_eq!(tell(&mut t, CLOCK, time(9, 7, 0), "", 0), "8 A 4>5");
    assert_eq!(finish(&mut t, "A"), "1 1 3>2; 8 A 5>6");
}

/// Tables R3-4 and R3-5: an estimate past the timeout, before PREDICTED and after Tp.
#[test]
fn an_estimate_past_the_timeout() {
    let mut t = calculated();
    assert_eq!(tell(&mut t, TE, time(9, 1, 0), "A", time(9, 10, 0)), "8 A 3>5");
    let mut t = calculated();
    tell(&mut t, CLOCK, time(9, 4, 0), "", 0);
    tell(&mut t, CLOCK, FIVE_PAST, "", 0);
    assert_eq!(tell(&mut t, TE, time(9, 5, 15), "A", time(9, 10, 0)), "8 A 4>5");
}

/// Tables R3-6 and R3-7: a Tp in the past.
#[test]
fn a_predicted_time_in_the_past() {
    let mut t = accessed(60, 120);
    assert_eq!(tell(&mut t, TP, NINE, "A", time(8, 59, 0)), "8 A 3>4");
    let mut t = accessed(60, 120);
    assert_eq!(tell(&mut t, TP, NINE, "A", time(8, 57, 30)), "8 A 3>5");
}
