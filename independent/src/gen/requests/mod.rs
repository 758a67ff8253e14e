//! Inputs and states for the tool with requests: document 01's, and what each request adds.

mod alarms;
mod befalls;
mod counted;
mod foretells;
mod maps;
mod names;
mod predict;
mod queue;
pub mod secs;
mod tables;
mod totals;
mod undoes;
mod violates;
mod wafers;

use std::string::String;

use super::{Input, Rng};
use crate::requests::predict::is_timed;
use crate::requests::wafers::WAFERS;
use crate::requests::{self, Tool, UNUSED};
use crate::Reports;

pub use befalls::{befalls, BEFALLS};
pub use counted::{counted, COUNTED};
pub use foretells::{foretells, FORETELLS};
pub use names::random_text;
pub use predict::random_times;
pub use tables::{random_table, LONGEST_TABLE};
pub use totals::{totals, TOTALS};
pub use undoes::random_pair;
pub use violates::{violates, ALONG_RUNS, VIOLATES};
pub use wafers::{random_time, totalling, whole, LIMITS};

/// Gives the tool an input, whatever its parts.
pub fn step(t: &mut Tool, i: &Input, out: &mut Reports) -> u32 {
    if is_timed(i.number) {
        return requests::time_step(t, i.number, i.clock, &i.name, i.time, out);
    }
    if i.number == WAFERS {
        return requests::wafers_step(t, i.clock, &i.name, &i.times(), out);
    }
    requests::step(t, i.number, i.port, i.value, &i.name, &i.codes, out)
}

/// An input for this state, as a run might meet it.
pub fn random_run_input(t: &Tool, rng: &mut Rng) -> Input {
    let mut input = predict::draw_input(t, rng)
        .or_else(|| alarms::draw_input(t, rng))
        .or_else(|| queue::draw_input(t, rng))
        .unwrap_or_else(|| super::random_run_input(&t.base, rng));
    queue::complete(t, &mut input, rng);
    alarms::complete(t, &mut input, rng);
    predict::complete(t, &mut input, rng);
    maps::complete(t, &mut input, rng);
    names::complete(&mut input, rng);
    input
}

/// A sound state drawn widely: anything that the words on soundness allow may come out, whether or
/// not a run reaches it.
pub fn random_sound_tool(rng: &mut Rng) -> Tool {
    let mut t = Tool { base: super::random_sound_tool(rng), ..Tool::NONE };
    maps::draw(&mut t, rng);
    queue::draw(&mut t, rng);
    predict::draw(&mut t, rng);
    alarms::draw(&mut t, rng);
    assert!(crate::requests::sound(&t), "not sound: {}", describe(&t));
    t
}

/// Damages what the requests hold for a tool. What comes out may still be sound.
pub fn damage(t: &mut Tool, rng: &mut Rng) {
    match rng.below(100) {
        0..=9 => {
            let at = match rng.below(3) {
                0 => 0,
                1 => UNUSED as u32 - 1,
                _ => rng.below(UNUSED as u32),
            };
            t.unused[at as usize] = rng.pick(&[1, 1, 3, 0x80, 0xFF]);
        }
        10..=29 => maps::damage(t, rng),
        30..=54 => queue::damage(t, rng),
        55..=79 => predict::damage(t, rng),
        _ => alarms::damage(t, rng),
    }
}

/// A state in a few lines, for a failing test.
pub fn describe(t: &Tool) -> String {
    let mut out = super::describe(&t.base);
    maps::describe(t, &mut out);
    queue::describe(t, &mut out);
    predict::describe(t, &mut out);
    alarms::describe(t, &mut out);
    if t.unused.iter().any(|&byte| byte != 0) {
        out.push_str("  unused bytes aren't zero\n");
    }
    out
}
