//! Long random runs for every P and B.

use independent::gen::requests::{random_run_input, random_times};
use independent::gen::Rng;

use crate::machine::{Both, SetUp};
use crate::play::{Finding, Player, Tally};
use crate::undo::Moments;

/// Long enough to fill the tool and drain it several times, short enough that a difference is soon shrunk.
const LONGEST: u64 = 5000;

/// Inputs of a run without a buffer, and how many such runs there are at least.
const SHORT: u64 = 1000;
const TOOLS: u64 = 60;

/// What a tool of sixteen places is given at least: enough to fill the buffer, and then the queue.
const FILLING: u64 = 1500;

pub fn compare(both: &Both, total: u64, rng: &mut Rng) -> Result<Tally, Finding> {
    let mut tally = Tally::default();
    let mut moments = Moments::new(rng);
    let each = total.div_ceil(4 * 17);
    for ports in 1..=4 {
        for places in 0..=16 {
            let mut left = if places == 16 { each.max(FILLING) } else { each };
            while left > 0 {
                let length = left.min(LONGEST);
                let (setting, timeout) = random_times(rng);
                let setup = SetUp { ports, places, setting, timeout };
                one(both, &mut tally, setup, length, rng, &mut moments)?;
                left -= length;
            }
        }
    }
    tally.undone = moments.undo(both)?;
    Ok(tally)
}

/// Runs of tools without a buffer, each with other times. They are short: a clock that has come to its end stays there.
pub fn without_buffer(both: &Both, total: u64, rng: &mut Rng) -> Result<Tally, Finding> {
    let mut tally = Tally::default();
    let mut moments = Moments::new(rng);
    for k in 0..total.div_ceil(SHORT).max(TOOLS) {
        let (setting, timeout) = random_times(rng);
        let setup = SetUp::fixed(1 + k as u32 % 4, setting, timeout);
        one(both, &mut tally, setup, SHORT, rng, &mut moments)?;
    }
    tally.undone = moments.undo(both)?;
    Ok(tally)
}

fn one(
    both: &Both,
    tally: &mut Tally,
    setup: SetUp,
    length: u64,
    rng: &mut Rng,
    moments: &mut Moments,
) -> Result<(), Finding> {
    let mut player = Player::set_up(both, tally, setup)?;
    for _ in 0..length {
        moments.pass(&player.tool, length);
        let input = random_run_input(&player.tool, rng);
        player.give(input)?;
    }
    let sound = player.sound()?;
    player.demand(sound, || "every state that a run reaches is sound".into())
}
