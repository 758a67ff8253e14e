//! Set-ups of every P and B in and out of range, and of odd numbers.

use independent::gen::requests::random_run_input;
use independent::gen::Rng;
use independent::Plain;

use super::{named, LOST, ODD};
use crate::machine::Both;
use crate::play::{Finding, Player, Tally};

/// 0 to one past the limit, and numbers that a cut would bring into range.
fn numbers(limit: u32) -> Vec<u32> {
    let mut all: Vec<u32> = (0..=limit + 2).chain(ODD).collect();
    all.extend(LOST.iter().flat_map(|high| [0, 1, limit].map(|low| high + low)));
    all.sort_unstable();
    all.dedup();
    all
}

pub fn compare(both: &Both, rng: &mut Rng) -> Result<Tally, Finding> {
    let mut tally = Tally::default();
    for ports in numbers(4) {
        for places in numbers(16) {
            one(both, &mut tally, ports, places, rng)?;
        }
    }
    Ok(tally)
}

/// A set-up, and some inputs after it: a refused one leaves no tool, and every input is answered 1.
fn one(both: &Both, tally: &mut Tally, ports: u32, places: u32, rng: &mut Rng) -> Result<(), Finding> {
    let mut player = Player::begin(both, tally, ports, places)?;
    let good = (1..=4).contains(&ports) && places <= 16;
    let answer = player.answer;
    player.demand(answer == !good as u32, || format!("this set-up is not answered {answer}"))?;
    let sound = player.sound()?;
    player.demand(sound == good, || "a tool is sound after set-up, and no tool is not".into())?;
    if good {
        player.expect(named(3, b"A"), 0)?;
        return Ok(());
    }
    let zero = player.tool.bytes().iter().all(|&byte| byte == 0);
    player.demand(zero, || "a refused set-up gives a state of all zeros".into())?;
    for _ in 0..4 {
        let input = random_run_input(&player.tool, rng);
        player.expect(input, 1)?;
    }
    Ok(())
}
