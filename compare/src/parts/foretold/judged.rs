//! Judging, by the second: one less, equal, one more.

use super::*;

/// PREDICTED when Tp minus now is at most the setting.
pub fn at_the_setting(both: &Both, tally: &mut Tally) -> Result<(), Finding> {
    for setting in [1, 2, 60, 86_400] {
        let mut player = accessed(both, tally, (setting, 120), &[b"A"])?;
        for (ahead, reports) in [(setting - 1, "8 A 3>4"), (setting, "8 A 3>4"), (setting + 1, "none")] {
            player.expect_reports(&tp(500, b"A", 500 + ahead), reports)?;
        }
        player.expect(tp(500, b"A", 500_000), 0)?;
        let at = 500_000 - setting;
        for (now, reports) in [(at - 1, "none"), (at, "8 A 3>4"), (at + 1, "8 A 3>4")] {
            player.expect_reports(&clock(now), reports)?;
            player.expect_reports(&te(now, b"A", 0), reports)?;
        }
        player.expect(clock(at), 0)?;
        player.expect_reports(&clock(at + 1), "none")?;
    }
    Ok(())
}

/// ABORTED when Te is at least Tp plus timeout, unless the timeout is 0. Te is now where none is given.
pub fn at_the_timeout(both: &Both, tally: &mut Tally) -> Result<(), Finding> {
    for timeout in [0, 1, 2, 120, 86_400] {
        let mut player = accessed(both, tally, (60, timeout), &[b"A"])?;
        player.expect(tp(1000, b"A", 1000), 0)?;
        for after in [0, timeout.max(1) - 1, timeout, timeout + 1, LAST - 1000] {
            let aborts = timeout != 0 && after >= timeout;
            let reports = if aborts { "8 A 4>5" } else { "none" };
            player.expect_reports(&clock(1000 + after), reports)?;
            player.expect_reports(&te(1000, b"A", 1000 + after), reports)?;
        }
    }
    Ok(())
}

/// A Tp before now is fine; abort is looked at first.
pub fn in_the_past(both: &Both, tally: &mut Tally) -> Result<(), Finding> {
    for (timeout, ago, state) in
        [(120, 0, 4), (120, 1, 4), (120, 119, 4), (120, 120, 5), (120, 121, 5), (0, 1000, 4), (1, 1, 5)]
    {
        let mut player = accessed(both, tally, (60, timeout), &[b"A"])?;
        player.expect_reports(&tp(1000, b"A", 1000 - ago), &format!("8 A 3>{state}"))?;
    }
    // Never PREDICTED on the way: the clock jumps over the setting.
    let mut player = accessed(both, tally, (60, 120), &[b"A"])?;
    player.expect(tp(0, b"A", 500), 0)?;
    for (now, reports) in [(439, "none"), (440, "8 A 3>4"), (619, "8 A 3>4"), (620, "8 A 3>5")] {
        player.expect_reports(&clock(now), reports)?;
    }
    Ok(())
}

/// The estimate given stays and counts instead of now; Te before Tp is no abort.
pub fn estimates(both: &Both, tally: &mut Tally) -> Result<(), Finding> {
    let mut player = accessed(both, tally, (60, 120), &[b"A"])?;
    player.expect_look(&te(0, b"A", 5), 5)?;
    player.expect(tp(0, b"A", 500), 0)?;
    for (time, reports) in
        [(0, "none"), (499, "none"), (500, "none"), (619, "none"), (620, "8 A 3>5"), (LAST, "8 A 3>5")]
    {
        player.expect_reports(&te(1, b"A", time), reports)?;
    }
    tell(
        &mut player,
        &[
            (te(1, b"A", 619), "none", "A 3 500 619"),
            (clock(440), "8 A 3>4", "A 4 500 619"),
            (clock(90_000), "none", "A 4 500 619"),
            (te(90_000, b"A", 0), "none", "A 4 500 0"),
            (te(90_000, b"A", 620), "8 A 4>5", "A 5 500 620"),
            (te(90_000, b"A", 1), "none", "A 5 500 1"),
            (clock(LAST), "none", "A 5 500 1"),
        ],
    )
}

/// In record order, whatever the ports and the names; the named carrier's own first.
pub fn in_record_order(both: &Both, tally: &mut Tally) -> Result<(), Finding> {
    let mut player = Player::set_up(both, tally, SetUp::fixed(4, 60, 120))?;
    for (port, name) in [(3, b"D"), (1, b"B"), (4, b"A"), (2, b"C")] {
        access(&mut player, port, name)?;
    }
    for name in [b"C", b"A", b"B", b"D"] {
        player.expect(tp(0, name, 1000), 0)?;
    }
    player.expect_reports(&clock(940), "8 D 3>4; 8 B 3>4; 8 A 3>4; 8 C 3>4")?;
    player.expect_reports(&clock(1120), "8 D 3>5; 8 B 3>5; 8 A 3>5; 8 C 3>5")?;
    player.expect_reports(&te(940, b"B", 1120), "8 D 3>4; 8 B 3>5; 8 A 3>4; 8 C 3>4")?;
    player.expect_reports(&none(940, b"A"), "8 A 3>5; 8 D 3>4; 8 B 3>4; 8 C 3>4")?;
    // All at once, with 25 and 29.
    for name in [b"A", b"B", b"C", b"D"] {
        finish(&mut player, name)?;
    }
    let all = "8 D 3>4; 8 D 4>6; 8 B 3>4; 8 B 4>6; 8 A 3>4; 8 A 4>6; 8 C 3>4; 8 C 4>6";
    player.expect_reports(&clock(940), all)?;
    let own_first = "8 C 3>5; 8 C 5>6; 8 D 3>5; 8 D 5>6; 8 B 3>5; 8 B 5>6; 8 A 3>5; 8 A 5>6";
    player.expect_reports(&none(1120, b"C"), own_first)
}

/// Sums don't wrap, and no clock comes after the last.
pub fn near_the_last_clock(both: &Both, tally: &mut Tally) -> Result<(), Finding> {
    for (time, timeout) in [(LAST, 1), (LAST - 1, 2), (LAST - 86_399, 86_400), (LAST, 86_400)] {
        let mut player = accessed(both, tally, (60, timeout), &[b"A"])?;
        player.expect(tp(LAST - 100_000, b"A", time), 0)?;
        player.expect_reports(&clock(LAST), "8 A 3>4")?;
        for other in [0, 1, timeout, 86_400, time, LAST] {
            player.expect_reports(&te(LAST, b"A", other), "8 A 3>4")?;
            player.expect_reports(&te(LAST - 100_000, b"A", other), "none")?;
        }
    }
    let mut player = accessed(both, tally, (86_400, 1), &[b"A"])?;
    for (now, time, reports) in [
        (LAST - 86_401, LAST, "none"),
        (LAST - 86_400, LAST, "8 A 3>4"),
        (LAST, LAST, "8 A 3>4"),
        (LAST, LAST - 1, "8 A 3>5"),
        (LAST, 0, "8 A 3>5"),
        (1 << 31, (1 << 31) - 1, "8 A 3>5"),
        (0, LAST, "none"),
        (0, 1 << 31, "none"),
    ] {
        player.expect_reports(&tp(now, b"A", time), reports)?;
    }
    player.expect(clock(LAST), 0)?;
    player.expect(clock(LAST), 0)?;
    for earlier in [0, 1, 1 << 31, LAST - 1] {
        player.expect_look(&clock(earlier), 11)?;
    }
    Ok(())
}
