//! P10: undoing pairs, by hand, by chance, and by a search over all pairs of rows.

mod by_hand;
mod exactly;
mod pairs;
mod searched;
mod trips;

use independent::gen::requests::{describe, random_run_input, random_sound_tool, random_times};
use independent::gen::{unpadded, Input, Rng};
use independent::requests::alarms::Alarm;
use independent::requests::predict::Prediction;

use super::*;

/// The answer to an input, and the state after it.
fn after(t: &Tool, i: &Input) -> (u32, Tool) {
    let mut next = *t;
    let answer = step_input(&mut next, i, &mut { Reports::NONE });
    (answer, next)
}

fn same(one: &Tool, other: &Tool) -> bool {
    one.bytes() == other.bytes()
}

/// Random sound states.
fn states(seed: u64, count: u32, mut look: impl FnMut(&Tool, &mut Rng)) {
    let mut rng = Rng::new(seed);
    for _ in 0..count {
        look(&random_sound_tool(&mut rng), &mut rng);
    }
}

/// Every state of long random runs, of eight tools in turn.
fn along_runs(seed: u64, length: u32, mut look: impl FnMut(&Tool, &mut Rng)) {
    let mut rng = Rng::new(seed);
    let mut tools = [(1, 0), (4, 0), (1, 1), (2, 3), (4, 0), (4, 16), (3, 16), (4, 5)].map(|(p, b)| {
        let (setting, timeout) = random_times(&mut rng);
        let mut t = Tool::NONE;
        assert_eq!(setup(p, b, setting, timeout, &mut t), 0);
        t
    });
    for _ in 0..length {
        for t in &mut tools {
            look(t, &mut rng);
            *t = after(t, &random_run_input(t, &mut rng)).1;
        }
    }
}

/// The record of a name without blanks, with its prediction.
fn found<'a>(t: &'a Tool, name: &[u8]) -> Option<(usize, &'a Carrier, &'a Prediction)> {
    let i = t.base.carriers().iter().position(|c| unpadded(&c.name) == name)?;
    Some((i, &t.base.carrier[i], &t.predictions.of[i]))
}
