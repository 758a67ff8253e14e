//! Single inputs from random sound states, odd ones among them that no run reaches.

use independent::gen::requests::{random_run_input, random_sound_tool};
use independent::gen::{Input, Rng};
use independent::requests::Tool;

use crate::machine::Both;
use crate::play::{from_state, Finding, Tally};
use crate::undo::Undone;

/// Inputs from each state.
const EACH: u64 = 4;

pub fn compare(both: &Both, total: u64, rng: &mut Rng) -> Result<Tally, Finding> {
    let mut tally = Tally::default();
    for _ in 0..total.div_ceil(EACH) {
        let tool = random_sound_tool(rng);
        for k in 0..EACH {
            let input = random_run_input(&tool, rng);
            let after = from_state(both, &mut tally, &tool, &input)?.tool;
            if k == 0 {
                stays_sound(both, &tool, &input, &after)?;
            }
        }
    }
    Ok(tally)
}

/// What can be undone in as many states, drawn apart.
pub fn undone(both: &Both, total: u64, rng: &Rng) -> Result<Undone, Finding> {
    let mut undone = Undone::default();
    let mut rng = rng.clone();
    for _ in 0..total.div_ceil(EACH) {
        let tool = random_sound_tool(&mut rng);
        undone.try_all(both, &tool, &mut rng)?;
    }
    Ok(undone)
}

fn stays_sound(both: &Both, tool: &Tool, input: &Input, after: &Tool) -> Result<(), Finding> {
    match both.sound(after) {
        Some(true) => Ok(()),
        Some(false) => {
            let why = "a sound state is followed by a sound one".into();
            Err(Finding::Law(Box::new(*tool), Box::new(input.clone()), why))
        }
        None => Err(Finding::Sound(Box::new(*after))),
    }
}
