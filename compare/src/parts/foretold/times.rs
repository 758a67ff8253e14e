//! The times of a set-up, and numbers past the last input.

use super::super::LOST;
use super::*;

const LONGEST: u32 = 86_400;

/// 0 to 86,400 seconds each: one less, equal, one more, and what a cut would bring into range.
pub fn setups(both: &Both, tally: &mut Tally) -> Result<(), Finding> {
    let good = [0, 1, 60, LONGEST - 1, LONGEST];
    let bad = [LONGEST + 1, LONGEST + 2, 1 << 17, LONGEST + (1 << 17), LONGEST + (1 << 24), 1 << 31, LAST];
    for setting in good.into_iter().chain(bad) {
        for timeout in good.into_iter().chain(bad) {
            for (ports, places) in [(1, 0), (4, 16), (0, 0), (5, 0), (1, 17)] {
                let setup = SetUp { ports, places, setting, timeout };
                one(
                    both,
                    tally,
                    setup,
                    setting.max(timeout) <= LONGEST && [1, 4].contains(&ports) && places < 17,
                )?;
            }
        }
    }
    Ok(())
}

fn one(both: &Both, tally: &mut Tally, setup: SetUp, good: bool) -> Result<(), Finding> {
    let mut player = Player::set_up(both, tally, setup)?;
    let answer = player.answer;
    player.demand(answer == !good as u32, || format!("this set-up is not answered {answer}"))?;
    let sound = player.sound()?;
    player.demand(sound == good, || "a tool is sound after set-up, and no tool is not".into())?;
    let zero = player.tool == independent::requests::Tool::NONE;
    player.demand(zero != good, || "a refused set-up gives a state of all zeros".into())?;
    player.expect(clock(5), !good as u32)?;
    player.expect(clock(4), if good { 11 } else { 1 })?;
    Ok(())
}

/// Numbers from 36 on are none; parts that a row doesn't name are not looked at.
pub fn numbers(both: &Both, tally: &mut Tally) -> Result<(), Finding> {
    let mut player = accessed(both, tally, (60, 120), &[b"A"])?;
    for number in (36..=300).chain(LOST.iter().flat_map(|high| [31, 32, 33, 34, 35].map(|row| row + high))) {
        player.expect_look(&timed(number, 9, b"A", 9), 1)?;
    }
    let odd = |told: Input| Input { port: 9, value: LAST, codes: vec![9; 30], ..told };
    player.expect_look(&odd(timed(CLOCK, 9, TOO_LONG_FOR_A_NAME, LAST)), 0)?;
    player.expect_reports(&odd(tp(9, b"A", 69)), "8 A 3>4")?;
    player.expect_reports(&odd(timed(NONE, 9, b"A", LAST)), "8 A 3>5")?;
    // The other rows look at no clock: it runs back there, and nobody minds.
    player.expect(clock(1000), 0)?;
    player.expect(Input { clock: 7, time: 7, ..named(22, b"A") }, 0)?;
    player.expect(Input { clock: LAST, time: LAST, ..named(3, b"E") }, 0)?;
    player.expect_look(&clock(999), 11)?;
    player.expect_look(&clock(1000), 0)
}

const TOO_LONG_FOR_A_NAME: &[u8] = &[b'x'; 40];
