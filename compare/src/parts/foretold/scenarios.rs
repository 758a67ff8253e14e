//! The scenarios of document 000, R3-4.1: setting 60 seconds, timeout 120.

use super::*;

/// Seconds since midnight.
const fn time(hours: u32, minutes: u32, seconds: u32) -> u32 {
    3600 * hours + 60 * minutes + seconds
}

const NINE: u32 = time(9, 0, 0);
const FIVE_PAST: u32 = time(9, 5, 0);

pub fn all(both: &Both, tally: &mut Tally) -> Result<(), Finding> {
    let predicted = [
        (tp(NINE, b"A", FIVE_PAST), "none", "A 3 32700 -"),
        (clock(time(9, 3, 59)), "none", "A 3 32700 -"),
        (clock(time(9, 4, 0)), "8 A 3>4", "A 4 32700 -"),
    ];
    // An estimate past the timeout before PREDICTED, and a Tp in the past.
    let soon_over: [&[Told]; 3] = [
        &[predicted[0].clone(), (te(time(9, 1, 0), b"A", time(9, 10, 0)), "8 A 3>5", "A 5 32700 33000")],
        &[(tp(NINE, b"A", time(8, 59, 0)), "8 A 3>4", "A 4 32340 -")],
        &[(tp(NINE, b"A", time(8, 57, 30)), "8 A 3>5", "A 5 32250 -")],
    ];
    for story in soon_over {
        tell(&mut accessed(both, tally, (60, 120), &[b"A"])?, story)?;
    }
    for story in after_predicted() {
        let mut player = accessed(both, tally, (60, 120), &[b"A"])?;
        tell(&mut player, &predicted)?;
        tell(&mut player, &story)?;
    }
    Ok(())
}

/// How it goes on once it is PREDICTED.
fn after_predicted() -> [Vec<Told<'static>>; 4] {
    let ended = (named(22, b"A"), "7 A 2>3", "A 4 32700 -");
    let ready = (named(23, b"A"), "1 1 3>2; 8 A 4>6", "A 6 32700 -");
    let at = |now| (clock(now), "none", "A 4 32700 -");
    let too_late = (te(time(9, 5, 15), b"A", time(9, 10, 0)), "8 A 4>5", "A 5 32700 33000");
    let timed_out = (clock(time(9, 7, 0)), "8 A 4>5", "A 5 32700 -");
    [
        // Ready before Tp, and after Tp.
        vec![at(time(9, 4, 30)), ended.clone(), ready.clone()],
        vec![at(FIVE_PAST), at(time(9, 5, 45)), ended, ready],
        // Not ready when the timeout is over.
        vec![at(FIVE_PAST), at(time(9, 6, 59)), timed_out],
        // An estimate past the timeout.
        vec![at(FIVE_PAST), too_late],
    ]
}
