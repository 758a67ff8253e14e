//! The Tp that wafers come to.

use super::*;

/// Wafers at clock 1000 give A this Tp.
fn comes_to(both: &Both, tally: &mut Tally, times: &[f64], seconds: u32) -> Result<(), Finding> {
    let mut player = waiting(both, tally)?;
    player.expect(wafers(1000, b"A", times), 0)?;
    let is = player.tool.predictions.of[0].tp();
    let tp = 1000 + seconds;
    player.demand(is == Some(tp), || format!("after the last input Tp is {tp}, not {is:?}"))
}

/// Rounded up once, of both times of all wafers.
pub fn rounded(both: &Both, tally: &mut Tally) -> Result<(), Finding> {
    let sums: [(&[f64], u32); 20] = [
        (&[PART, 0.0], 1),
        (&[0.0, PART], 1),
        (&[1.0 - PART, 0.0], 1),
        (&[1.0, 0.0], 1),
        (&[0.0, 1.0 + PART], 2),
        (&[0.5, 0.5], 1),
        (&[0.5, 0.5, 0.5, 0.5], 2),
        (&[0.25, 0.0, 0.0, 0.25], 1),
        (&[0.75; 4], 3),
        (&[PART; 50], 1),
        (&[0.5; 50], 25),
        (&[1.0 - PART; 50], 50),
        (&[1.0 + PART; 50], 51),
        (&[10.0, 0.25, 20.0, 0.5, 30.0, 0.25], 61),
        (&[10.0, 3.0], 13),
        (&[3.0, 10.0], 13),
        (&[LONGEST, 0.0], 1 << 20),
        (&[LONGEST, PART], 1 << 20),
        (&[LONGEST, 2.0 * PART], (1 << 20) + 1),
        (&[LONGEST; 50], 50 << 20),
    ];
    for (times, seconds) in sums {
        comes_to(both, tally, times, seconds)?;
    }
    Ok(())
}

/// Tp is the clock that the input brings.
pub fn no_wafers(both: &Both, tally: &mut Tally) -> Result<(), Finding> {
    comes_to(both, tally, &[], 0)?;
    comes_to(both, tally, &[-0.0, 0.0], 0)?;
    comes_to(both, tally, &[-0.0; 50], 0)?;
    for (now, left) in [(0, "A 4 0 -"), (77, "A 4 77 -"), (LAST, "A 4 4294967295 -")] {
        tell(&mut waiting(both, tally)?, &[(wafers(now, b"A", &[]), "8 A 3>4", left)])?;
    }
    Ok(())
}

/// Tp of 2^32 - 1 is fine, and 2^32 is 12.
pub fn at_the_last_clock(both: &Both, tally: &mut Tally) -> Result<(), Finding> {
    let mut player = waiting(both, tally)?;
    let ends: [(u32, &[f64], u32); 16] = [
        (LAST, &[], 0),
        (LAST, &[0.0, -0.0], 0),
        (LAST, &[PART, 0.0], 12),
        (LAST, &[0.0, 1.0], 12),
        (LAST, &[LONGEST; 50], 12),
        (LAST - 1, &[1.0, 0.0], 0),
        (LAST - 1, &[PART; 50], 0),
        (LAST - 1, &[1.0 - PART, PART], 0),
        (LAST - 1, &[1.0, PART], 12),
        (LAST - 25, &[0.5; 50], 0),
        (LAST - 24, &[0.5; 50], 12),
        (LAST - (1 << 20), &[LONGEST, 0.0], 0),
        (LAST - (1 << 20), &[LONGEST, 2.0 * PART], 12),
        (LAST - (50 << 20), &[LONGEST; 50], 0),
        (LAST - (50 << 20) + 1, &[LONGEST; 50], 12),
        (0, &[LONGEST; 50], 0),
    ];
    for (now, times, answer) in ends {
        player.expect_look(&wafers(now, b"A", times), answer)?;
    }
    tell(&mut player, &[(wafers(LAST - 1, b"A", &[1.0, -0.0]), "8 A 3>4", "A 4 4294967295 -")])
}

/// As the input for Tp: PREDICTED by the second, and all others are judged with it, in record order.
pub fn judged(both: &Both, tally: &mut Tally) -> Result<(), Finding> {
    let mut player = waiting(both, tally)?;
    for (times, reports) in [
        (&[59.0, 0.0][..], "8 A 3>4"),
        (&[59.0, 1.0], "8 A 3>4"),
        (&[60.0, PART], "none"),
        (&[61.0, 0.0], "none"),
        (&[], "8 A 3>4"),
    ] {
        player.expect_reports(&wafers(1000, b"A", times), reports)?;
    }
    let mut player = accessed(both, tally, (60, 120), &[b"B", b"A"])?;
    player.expect(tp(100, b"B", 1000), 0)?;
    player.expect_reports(&wafers(940, b"A", &[30.0, 30.0]), "8 B 3>4; 8 A 3>4")?;
    tell(
        &mut player,
        &[
            (wafers(1120, b"A", &[30.0, 30.5]), "8 B 3>5", "B 5 1000 -; A 3 1181 -"),
            (clock(1121), "8 A 3>4", "B 5 1000 -; A 4 1181 -"),
        ],
    )
}
