//! What the generator draws for predictions: all that may befall one happens along runs and from states.

use independent::gen::requests::{foretells, random_run_input, random_sound_tool, random_times, FORETELLS};
use independent::gen::{Input, Rng};

use super::*;

/// How often each thing befell a prediction, and how often each number of reports came of each row.
struct Met {
    foretold: [u32; FORETELLS.len()],
    reports: std::collections::BTreeMap<(u8, u32), u32>,
}

impl Met {
    fn new() -> Met {
        Met { foretold: [0; FORETELLS.len()], reports: Default::default() }
    }

    /// Gives an input and takes note of what it was to the predictions.
    fn note(&mut self, t: &mut Tool, i: &Input) {
        let (before, mut out) = (*t, Reports::NONE);
        let answer = step_input(t, i, &mut out);
        for k in foretells(&before, i, answer, &out) {
            self.foretold[k] += 1;
        }
        *self.reports.entry((out.count, i.number)).or_default() += 1;
    }

    /// Nine reports are the most, and two rows give them.
    fn often_enough(&self, from: &str) {
        for (what, n) in FORETELLS.iter().zip(self.foretold) {
            println!("{from}: {what}: {n}");
        }
        let (most, _) = *self.reports.keys().last().unwrap();
        let rows: Vec<u32> = self.reports.keys().filter(|(n, _)| *n == most).map(|(_, row)| *row).collect();
        assert_eq!((most, rows), (9, vec![6, 16]), "{from}");
        for (what, n) in FORETELLS.iter().zip(self.foretold) {
            assert!(n > 10, "{from}: {what}: {n}");
        }
    }
}

#[test]
fn everything_befalls_predictions_along_runs() {
    let mut met = Met::new();
    let mut rng = Rng::new(31);
    for k in 0..120 {
        let (setting, timeout) = random_times(&mut rng);
        let mut t = fixed(1 + k % 4, setting, timeout);
        for _ in 0..3_000 {
            let i = random_run_input(&t, &mut rng);
            met.note(&mut t, &i);
        }
    }
    met.often_enough("runs");
}

#[test]
fn everything_befalls_the_predictions_of_a_state() {
    let mut met = Met::new();
    let mut rng = Rng::new(32);
    for _ in 0..200_000 {
        let mut t = random_sound_tool(&mut rng);
        let i = random_run_input(&t, &mut rng);
        met.note(&mut t, &i);
    }
    met.often_enough("states");
}
