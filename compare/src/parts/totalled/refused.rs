//! 1, 2, 5, 11 and 12, the lowest first.

use super::super::{LOST, TOO_LONG as TOO_LONG_A_NAME};
use super::*;

const BAD: [&[f64]; 4] = [&[f64::NAN, 1.0], &[1.0, TOO_LONG], &[0.0, PART / 2.0], &[-1.0; 50]];

/// A waits, B has a Tp, E is expected; the clock is 100.
fn hundred<'a>(both: &'a Both, tally: &'a mut Tally) -> Result<Player<'a>, Finding> {
    let mut player = accessed(both, tally, (60, 120), &[b"A", b"B"])?;
    player.expect(named(3, b"E"), 0)?;
    player.expect(tp(100, b"B", 1000), 0)?;
    Ok(player)
}

/// Up to 25 whole wafers; 1 for others, whatever the times are and whoever is named.
pub fn counts(both: &Both, tally: &mut Tally) -> Result<(), Finding> {
    let mut player = hundred(both, tally)?;
    for count in (0..=120).chain([255, 256, 257, 258, 306, 512, 65_536, 65_538]) {
        let good = count <= 50 && count % 2 == 0;
        for time in [0.0, PART, LONGEST] {
            player.expect_look(&wafers(100, b"A", &vec![time; count]), !good as u32)?;
        }
        let bad = if count == 0 { 0 } else { 12 };
        player.expect_look(&wafers(100, b"A", &vec![f64::NAN; count]), if good { bad } else { 1 })?;
        if !good {
            for (now, name) in [(99, &b"A"[..]), (0, b"N"), (100, b"B"), (LAST, b"E"), (100, b"")] {
                player.expect_look(&wafers(now, name, &vec![1.0; count]), 1)?;
            }
        }
    }
    // The 26th is looked at by nobody, but it is one too many.
    let mut times = vec![1.0; 50];
    times.extend([f64::NAN, f64::NAN]);
    player.expect_look(&wafers(100, b"A", &times), 1)
}

pub fn lowest_first(both: &Both, tally: &mut Tally) -> Result<(), Finding> {
    let mut player = hundred(both, tally)?;
    let good: [&[f64]; 3] = [&[], &[1.0, 1.0], &[LONGEST; 50]];
    for now in [0, 99, 100, 5000, LAST] {
        for times in BAD.into_iter().chain(good) {
            for (name, answer) in
                [(&b""[..], 1), (b" ", 1), (TOO_LONG_A_NAME, 1), (b"N", 2), (b"B", 5), (b"E", 5)]
            {
                player.expect_look(&wafers(now, name, times), answer)?;
            }
        }
        for times in BAD {
            player.expect_look(&wafers(now, b"A", times), if now < 100 { 11 } else { 12 })?;
        }
        player.expect_look(&wafers(now, b"A", &[]), if now < 100 { 11 } else { 0 })?;
    }
    with_a_buffer(both, tally)
}

/// With a buffer a name is 5, whatever the times.
fn with_a_buffer(both: &Both, tally: &mut Tally) -> Result<(), Finding> {
    let setup = SetUp { places: 3, ..SetUp::fixed(1, 60, 120) };
    let mut player = Player::set_up(both, tally, setup)?;
    for input in [at(13, 1), at(14, 1), input(16, 1, 0, b"A", b""), clock(50)] {
        player.expect(input, 0)?;
    }
    for times in BAD.into_iter().chain([&[][..], &[1.0, 1.0]]) {
        for now in [49, 50, LAST] {
            player.expect_look(&wafers(now, b"A", times), 5)?;
            player.expect_look(&wafers(now, b"N", times), 2)?;
        }
    }
    Ok(())
}

/// A refused input leaves the clock, Tp and all states as they were; and Tp comes once.
pub fn nothing_stays(both: &Both, tally: &mut Tally) -> Result<(), Finding> {
    let mut player = hundred(both, tally)?;
    let refused: [(&[u8], &[f64], u32); 6] = [
        (b"A", &[f64::NAN, 0.0], 12),
        (b"A", &[TOO_LONG, 0.0], 12),
        (b"A", &[0.0; 52], 1),
        (b"A", &[0.0; 3], 1),
        (b"B", &[0.0, 0.0], 5),
        (b"N", &[0.0, 0.0], 2),
    ];
    for (name, times, answer) in refused {
        player.expect(wafers(990, name, times), answer)?;
        player.expect_look(&clock(100), 0)?;
        let left = predictions(&player);
        player.demand(left == "A 3 - -; B 3 1000 -; E 2 - -", || format!("a refusal leaves {left}"))?;
    }
    let told = [(wafers(990, b"A", &[0.5, 0.0]), "8 A 3>4; 8 B 3>4", "A 4 991 -; B 4 1000 -; E 2 - -")];
    tell(&mut player, &told)?;
    player.expect_look(&wafers(990, b"A", &[0.5, 0.0]), 5)?;
    player.expect_look(&clock(989), 11)?;
    for told in [tp(5, b"A", 5000), wafers(5, b"A", &[5000.0, 0.0]), none(5, b"A")] {
        let mut player = waiting(both, tally)?;
        player.expect(told, 0)?;
        player.expect_look(&wafers(5, b"A", &[1.0, 1.0]), 5)?;
        player.expect_look(&tp(5, b"A", 9), 5)?;
    }
    Ok(())
}

/// Names may be padded; other parts are not looked at; the number with high bits is none.
pub fn names_and_numbers(both: &Both, tally: &mut Tally) -> Result<(), Finding> {
    let mut player = waiting(both, tally)?;
    for (name, answer) in
        [(&b"A "[..], 0), (&[b"A", &[b' '; 31][..]].concat(), 0), (&[b' '; 33], 1), (b"A A", 1)]
    {
        player.expect_look(&wafers(5, name, &[1.0, 1.0]), answer)?;
    }
    let odd = Input { port: 9, value: LAST, time: LAST, codes: vec![9; 30], ..of(&[60.0, 0.0]) };
    player.expect_reports(&odd, "8 A 3>4")?;
    for high in LOST {
        player.expect_look(&Input { number: 35 + high, ..of(&[1.0, 1.0]) }, 1)?;
    }
    player.expect_look(&timed(36, 5, b"A", 5), 1)
}
