//! What the generator draws for wafers: all that they may be is met along runs and from states.

use independent::gen::requests::{random_run_input, random_sound_tool, random_times, totals, TOTALS};
use independent::gen::{Input, Rng};

use super::*;

type Met = [u32; TOTALS.len()];

/// Gives an input and takes note of what its wafers were.
fn note(met: &mut Met, t: &mut Tool, i: &Input) {
    let before = *t;
    let answer = step_input(t, i, &mut Reports::NONE.clone());
    for k in totals(&before, i, answer) {
        met[k] += 1;
    }
}

fn often_enough(from: &str, met: &Met) {
    for (what, n) in TOTALS.iter().zip(met) {
        println!("{from}: {what}: {n}");
    }
    for (what, &n) in TOTALS.iter().zip(met) {
        assert!(n > 10, "{from}: {what}: {n}");
    }
}

#[test]
fn everything_is_met_along_runs() {
    let mut met = [0; TOTALS.len()];
    let mut rng = Rng::new(35);
    for k in 0..120 {
        let (setting, timeout) = random_times(&mut rng);
        let mut t = fixed(1 + k % 4, setting, timeout);
        for _ in 0..3_000 {
            let i = random_run_input(&t, &mut rng);
            note(&mut met, &mut t, &i);
        }
    }
    often_enough("runs", &met);
}

#[test]
fn everything_is_met_from_states() {
    let mut met = [0; TOTALS.len()];
    let mut rng = Rng::new(36);
    for _ in 0..800_000 {
        let mut t = random_sound_tool(&mut rng);
        let i = random_run_input(&t, &mut rng);
        note(&mut met, &mut t, &i);
    }
    often_enough("states", &met);
}
