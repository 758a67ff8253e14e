//! Many inputs along runs and from random sound states, each against the plain words.

use std::collections::HashMap;

use independent::gen::requests::step;
use independent::gen::requests::{describe, random_run_input, random_sound_tool, random_times};
use independent::gen::{Input, Rng};
use independent::requests::wafers_step_known_sound;
use independent::requests::{setup, sound, step_known_sound, time_step_known_sound, Tool};
use independent::{Report, Reports};

use crate::common::ALLOWED;
use crate::plain::{plain_name, plain_step, plainly_sound, same};

/// The rows that P5, P7, P8 and P9 change or add, as [`ALLOWED`] has the others. Row 30 is never refused in a sound
/// state, and row 31 has no part that could be out of range.
const ADDED: [(u32, &[u32]); 13] = [
    (7, &[0, 1, 2, 5, 9, 10]),
    (13, &[0, 1, 4, 5, 13]),
    (24, &[0, 1, 5, 13]),
    (27, &[0, 1, 4, 5]),
    (28, &[0, 1, 5]),
    (29, &[0, 1, 5]),
    (30, &[0]),
    (31, &[0, 11]),
    (32, &[0, 1, 2, 5, 11]),
    (33, &[0, 1, 2, 5, 11]),
    (34, &[0, 1, 2, 5, 11]),
    (35, &[0, 1, 2, 5, 11, 12]),
    (36, &[0, 1, 5]),
];

/// How often each answer to each row was met, and how often a slot map was OK at once or was asked
/// about although a map was expected.
#[derive(Clone, Default)]
struct Met {
    answers: HashMap<(u32, u32), u64>,
    at_once: u64,
    asked: u64,
    inputs: u64,
}

/// Gives an input and looks at everything that holds of all inputs.
fn checked(t: &mut Tool, i: &Input, met: &mut Met) -> u32 {
    let dirty = Report { model: 9, port: 9, name: [9; 16], old: 9, new: 9 };
    let mut out = Reports { count: 200, items: [dirty; 10] };
    let before = *t;
    let answer = step(t, i, &mut out);
    let story = || format!("{i:?} answers {answer}\nbefore {}after {}", describe(&before), describe(t));

    let (plainly, after, reports) = plain_step(&before, i);
    assert!(answer == plainly && same(t, &after) && out == reports, "{}", story());
    assert!(sound(t) && plainly_sound(t), "{}", story());

    let (mut again, mut out_again) = (before, Reports { count: 200, items: [dirty; 10] });
    let known = match i.number {
        31..=34 => time_step_known_sound(&mut again, i.number, i.clock, &i.name, i.time, &mut out_again),
        35 => wafers_step_known_sound(&mut again, i.clock, &i.name, &i.times(), &mut out_again),
        _ => step_known_sound(&mut again, i.number, i.port, i.value, &i.name, &i.codes, &mut out_again),
    };
    assert!(known == answer && same(&again, t) && out_again == out);

    met.inputs += 1;
    *met.answers.entry((i.number, answer)).or_default() += 1;
    if i.number == 20 && answer == 0 {
        let [report] = out.as_slice() else { panic!("{}", story()) };
        assert!(report.model == 6 && report.old == 1);
        let k = t.base.carriers().iter().position(|c| c.name == report.name).unwrap();
        met.at_once += (report.new == 3) as u64;
        met.asked += (report.new == 2 && t.expected_map(k).is_some()) as u64;
    }
    answer
}

/// What a run has shown of a record since it was made.
#[derive(Default)]
struct Shown {
    map: Vec<u8>,
    equal: bool,
    proceeded: bool,
}

/// Demand 3's last sentence: access starts only after a slot map equal to the one that the record
/// was made with, or a ProceedWithCarrier after the slot map. All of it is told from the inputs.
#[derive(Default)]
struct History(HashMap<[u8; 16], Shown>);

impl History {
    fn note(&mut self, i: &Input, after: &Tool) {
        let live = |name: &[u8; 16]| after.base.carriers().iter().any(|c| c.name == *name);
        self.0.retain(|name, _| live(name));
        for c in after.base.carriers() {
            self.0.entry(c.name).or_insert_with(|| Shown {
                map: if [1, 3].contains(&i.number) { i.codes.clone() } else { Vec::new() },
                ..Shown::default()
            });
        }
        let named = plain_name(&i.name).map(|name| independent::gen::padded(&name));
        let Some(shown) = named.and_then(|name| self.0.get_mut(&name)) else { return };
        match i.number {
            20 => (shown.equal, shown.proceeded) = (shown.map == i.codes, false),
            5 => shown.proceeded = true,
            21 => assert!(shown.equal || shown.proceeded, "{i:?}\n{}", describe(after)),
            _ => {}
        }
    }
}

fn along_runs(met: &mut Met) {
    for p in 1..=4 {
        for b in 0..=16 {
            let mut rng = Rng::new(2000 * p as u64 + b as u64);
            let mut most = 0;
            let mut t = Tool::NONE;
            let (setting, timeout) = random_times(&mut rng);
            assert_eq!(setup(p, b, setting, timeout, &mut t), 0);
            let mut history = History::default();
            for _ in 0..5_000 {
                let i = random_run_input(&t, &mut rng);
                if checked(&mut t, &i, met) == 0 {
                    history.note(&i, &t);
                }
                most = most.max(t.base.count as u32);
            }
            assert!(most > b + 16, "P {p} B {b} never nearly full: {most}");
        }
    }
}

fn from_states(met: &mut Met) {
    let mut rng = Rng::new(43);
    for _ in 0..40_000 {
        let mut t = random_sound_tool(&mut rng);
        for _ in 0..4 {
            let i = random_run_input(&t, &mut rng);
            checked(&mut t, &i, met);
        }
    }
}

#[test]
fn every_pair_is_met_and_slot_maps_are_judged() {
    for (kind, inputs) in [("along runs", along_runs as fn(&mut Met)), ("from states", from_states)] {
        let mut met = Met::default();
        inputs(&mut met);
        let accepted: u64 = met.answers.iter().filter(|((_, answer), _)| *answer == 0).map(|(_, n)| n).sum();
        let percent = 100 * accepted / met.inputs;
        println!(
            "{kind}: {} inputs, {percent} % accepted, {} OK at once, {} asked with a map expected",
            met.inputs, met.at_once, met.asked
        );
        assert!(met.at_once > 200 && met.asked > 200);
        for (row, answers) in ALLOWED.into_iter().filter(|(row, _)| ![7, 13, 24].contains(row)).chain(ADDED) {
            for &answer in answers {
                assert!(met.answers.contains_key(&(row, answer)), "{kind}: row {row} never answers {answer}");
            }
        }
        if kind == "along runs" {
            assert!(percent >= 60);
        }
    }
}
