//! 1, 2, 5 and 11, the lowest first.

use super::super::{LONGEST, TOO_LONG};
use super::*;

/// A waits, B has a Tp, E is expected; the clock is 100.
fn waiting<'a>(both: &'a Both, tally: &'a mut Tally) -> Result<Player<'a>, Finding> {
    let mut player = accessed(both, tally, (60, 120), &[b"A", b"B"])?;
    player.expect(named(3, b"E"), 0)?;
    player.expect(tp(100, b"B", 1000), 0)?;
    Ok(player)
}

pub fn lowest_first(both: &Both, tally: &mut Tally) -> Result<(), Finding> {
    let mut player = waiting(both, tally)?;
    for now in [0, 99, 100, LAST] {
        for (row, name, answer) in [
            (TP, &b""[..], 1),
            (TE, b" ", 1),
            (NONE, TOO_LONG, 1),
            (TP, b"N", 2),
            (TE, b"N", 2),
            (NONE, LONGEST, 2),
            (TP, b"B", 5),
            (TP, b"E", 5),
            (TE, b"A", 5),
            (TE, b"E", 5),
            (NONE, b"E", 5),
        ] {
            player.expect_look(&timed(row, now, name, 5000), answer)?;
        }
        let answer = if now < 100 { 11 } else { 0 };
        for (row, name) in [(CLOCK, &b""[..]), (TP, b"A"), (TE, b"B"), (NONE, b"A"), (NONE, b"B")] {
            player.expect_look(&timed(row, now, name, 5000), answer)?;
        }
    }
    Ok(())
}

/// A refused input leaves the clock alone; an equal one is accepted.
pub fn clocks(both: &Both, tally: &mut Tally) -> Result<(), Finding> {
    let mut player = waiting(both, tally)?;
    for (refused, answer) in [
        (tp(990, b"B", 5), 5),
        (te(990, b"A", 5), 5),
        (none(990, b"E"), 5),
        (tp(990, b"N", 5), 2),
        (te(990, b"", 5), 1),
    ] {
        player.expect(refused, answer)?;
        player.expect_look(&clock(99), 11)?;
        player.expect_look(&clock(100), 0)?;
    }
    for (now, told) in (101..).zip([clock(101), tp(102, b"A", 5000), te(103, b"A", 5000), none(104, b"A")]) {
        player.expect(told, 0)?;
        player.expect_look(&clock(now - 1), 11)?;
        player.expect_look(&clock(now), 0)?;
    }
    Ok(())
}

/// A second Tp in every state that a run can give it.
pub fn second_tp(both: &Both, tally: &mut Tally) -> Result<(), Finding> {
    let mut player = waiting(both, tally)?;
    for (told, waits) in [(clock(100), true), (clock(940), false), (te(940, b"B", 1120), false)] {
        player.expect(told, 0)?;
        player.expect_look(&none(940, b"B"), if waits { 0 } else { 5 })?;
        for time in [0, 1000, 1001, LAST] {
            player.expect_look(&tp(940, b"B", time), 5)?;
        }
        player.expect_look(&te(940, b"B", 1001), 0)?;
    }
    player.expect(named(22, b"B"), 0)?;
    player.expect(named(23, b"B"), 0)?;
    player.expect_look(&tp(940, b"B", 5), 5)?;
    player.expect_look(&none(940, b"B"), 5)?;
    player.expect_look(&te(940, b"B", 5), 0)
}

/// With a buffer names are 5, and the clock runs all the same.
pub fn with_a_buffer(both: &Both, tally: &mut Tally) -> Result<(), Finding> {
    for places in [1, 16] {
        let setup = SetUp { places, ..SetUp::fixed(2, 60, 120) };
        let mut player = Player::set_up(both, tally, setup)?;
        let bound = "3 1 0>1; 4 1 0>1; 5 A 0>1; 6 A 0>1; 7 A 0>1";
        player.expect_reports(&input(1, 1, 0, b"A", b""), bound)?;
        let carried = [
            input(1, 1, 0, b"A", b""),
            at(13, 1),
            at(14, 1),
            input(16, 1, 0, b"A", b""),
            input(18, 1, 1, b"", b""),
            named(19, b"A"),
            input(20, 0, 0, b"A", &[3; 25]),
            named(5, b"A"),
        ];
        for input in carried {
            player.expect(input, 0)?;
            for row in [TP, TE, NONE] {
                player.expect_look(&timed(row, 0, b"A", 5), 5)?;
                player.expect_look(&timed(row, 0, b"N", 5), 2)?;
            }
        }
        player.expect_reports(&named(21, b"A"), "7 A 1>2")?;
        player.expect_reports(&clock(7), "none")?;
        player.expect(clock(7), 0)?;
        for row in [TP, TE, NONE] {
            player.expect_look(&timed(row, 6, b"A", 5), 5)?;
        }
        player.expect_look(&clock(6), 11)?;
        player.expect_reports(&named(6, b"A"), "none")?;
    }
    Ok(())
}

/// Names with blanks, and names that are the beginning of another.
pub fn names(both: &Both, tally: &mut Tally) -> Result<(), Finding> {
    let mut player = accessed(both, tally, (60, 120), &[LONGEST, &LONGEST[..15]])?;
    let padded = |name: &[u8]| [name, b"  "].concat();
    let left = "ABCDEFGHIJKLMNOP 3 900 -; ABCDEFGHIJKLMNO 3 - -";
    let both_told = "ABCDEFGHIJKLMNOP 3 900 -; ABCDEFGHIJKLMNO 3 800 -";
    tell(
        &mut player,
        &[
            (tp(1, &padded(LONGEST), 900), "none", left),
            (tp(1, &padded(&LONGEST[..15]), 800), "none", both_told),
        ],
    )?;
    for text in [&b""[..], b" ", b" A", b"A A", b"A\0", TOO_LONG, &[b' '; 33]] {
        for row in [TP, TE, NONE] {
            player.expect_look(&timed(row, 1, text, 5), 1)?;
        }
        player.expect_look(&timed(CLOCK, 1, text, 5), 0)?;
    }
    Ok(())
}
