//! Programs that are wrong on purpose about the predictions of P7.

mod alike;
mod judged;
mod rows;
mod sound;
mod told;

use independent::requests::predict::{Prediction, Predictions};

use super::*;
use crate::laws::shortened;

type Fault = fn(&Tool, &Input, &mut Outcome);

/// Whether the input is of this row and has this answer.
fn is(input: &Input, o: &Outcome, row: u32, answer: u32) -> bool {
    (input.number, o.answer) == (row, answer)
}

fn brings_clock(input: &Input) -> bool {
    (31..=35).contains(&input.number)
}

/// The Tp of wafers that are accepted.
fn by_wafers(input: &Input) -> u32 {
    crate::wafers::tp(input.clock, &input.times()).expect("a Tp")
}

/// Where the record stands that an input names.
fn named(tool: &Tool, input: &Input) -> Option<usize> {
    let name = shortened(&input.name);
    tool.base.carriers().iter().position(|c| independent::gen::unpadded(&c.name) == name)
}

fn ready(tool: &Tool, i: usize) -> bool {
    let c = &tool.base.carrier[i];
    c.at_port() && tool.base.port[c.port as usize - 1].transfer == 2
}

/// The input done anew from a state that is changed before it, and changed back after it.
fn redone(
    before: &Tool,
    input: &Input,
    o: &mut Outcome,
    change: impl Fn(&mut Predictions),
    back: impl Fn(&mut Predictions),
) {
    let mut tool = *before;
    change(&mut tool.predictions);
    o.answer = Independent.step(&mut tool, input, &mut o.reports);
    if o.answer == 0 {
        back(&mut tool.predictions);
        o.tool = tool;
    }
}

/// A prediction and all that it is judged by.
#[derive(Clone, Copy)]
struct Case {
    state: u8,
    now: u32,
    setting: u32,
    timeout: u32,
    tp: u32,
    te: Option<u32>,
}

impl Case {
    fn aborts(&self) -> bool {
        let te = self.te.unwrap_or(self.now) as u64;
        self.timeout != 0 && te >= self.tp as u64 + self.timeout as u64
    }

    fn near(&self) -> bool {
        self.tp as u64 <= self.now as u64 + self.setting as u64
    }

    /// Abort is looked at first.
    fn judged(&self, aborts: bool, near: bool) -> Option<u8> {
        if aborts {
            Some(5)
        } else {
            (self.state == 3 && near).then_some(4)
        }
    }

    fn verdict(&self) -> Option<u8> {
        self.judged(self.aborts(), self.near())
    }
}

/// How a program judges: in which order, to which states, and who is ready then.
struct Judging {
    order: fn(&Tool, &mut Vec<usize>),
    verdict: fn(&Case) -> Option<u8>,
    ready: fn(&Tool, usize) -> bool,
}

const RIGHT: Judging = Judging { order: |_, _| {}, verdict: Case::verdict, ready };

impl Judging {
    /// An accepted input that brings the clock, judged anew by hand.
    fn again(&self, before: &Tool, input: &Input, o: &mut Outcome) {
        if !brings_clock(input) || !o.accepted() || before.base.places > 0 {
            return;
        }
        (o.tool, o.reports) = (*before, Reports::NONE);
        o.tool.predictions.clock = input.clock.to_le_bytes();
        match (input.number, named(before, input)) {
            (32, Some(i)) => o.tool.predictions.of[i].set_tp(input.time),
            (33, Some(i)) => o.tool.predictions.of[i].set_te(input.time),
            (35, Some(i)) => o.tool.predictions.of[i].set_tp(by_wafers(input)),
            (34, Some(i)) => self.turn(o, i, 5),
            _ => {}
        }
        let mut order: Vec<usize> = (0..before.base.count as usize).collect();
        (self.order)(before, &mut order);
        for i in order {
            let times = &o.tool.predictions;
            let Prediction { state, .. } = times.of[i];
            let (now, setting, timeout) = (times.clock(), times.setting(), times.timeout());
            let tp = times.of[i].tp().filter(|_| [3, 4].contains(&state));
            let Some(tp) = tp else { continue };
            let case = Case { state, now, setting, timeout, tp, te: times.of[i].te() };
            if let Some(new) = (self.verdict)(&case) {
                self.turn(o, i, new);
            }
        }
    }

    fn turn(&self, o: &mut Outcome, i: usize, new: u8) {
        tell(o, i, new);
        if (self.ready)(&o.tool, i) {
            tell(o, i, 6);
        }
    }
}

/// Record `i` goes to another state, and this is told last.
fn tell(o: &mut Outcome, i: usize, new: u8) {
    let name = o.tool.base.carrier[i].name;
    let old = std::mem::replace(&mut o.tool.predictions.of[i].state, new);
    o.reports.items[o.reports.count as usize] = Report { model: 8, port: 0, name, old, new };
    o.reports.count += 1;
}

/// The shortest script for a fault that runs without a buffer find.
fn along_runs(faulty: &dyn Machine) -> Run {
    let both = Both { proved: faulty, independent: &Independent };
    let Err(Finding::Run(run)) = runs::without_buffer(&both, 200_000, &mut Rng::new(5)) else {
        panic!("not found along runs")
    };
    let short = shortest(&both, &run);
    assert_eq!(differs_after(&both, &short), Some(short.inputs.len()));
    short
}

/// The program is found among P7's edges and along runs. The shortest script for it, and its last input's row.
fn seen(faulty: &dyn Machine) -> (Run, u32) {
    let both = Both { proved: faulty, independent: &Independent };
    let Err(Finding::Run(edge)) = foretold::compare(&both) else { panic!("not found among the edges") };
    assert_eq!(differs_after(&both, &edge), Some(edge.inputs.len()));
    let run = along_runs(faulty);
    let row = run.inputs.last().map_or(0, |input| input.number);
    (run, row)
}

fn caught(fault: Fault) -> (Run, u32) {
    seen(&Faulty(fault))
}

/// As `caught`, and in small tools too.
fn caught_small(fault: Fault) -> (Run, u32) {
    let faulty = Faulty(fault);
    let both = Both { proved: &faulty, independent: &Independent };
    assert!(matches!(small::predictions(&both), Err(Finding::State(..))), "not found in small tools");
    caught(fault)
}

/// What is judged anew by hand, and rightly, is what the independent program gives: so a wrong judging differs by its
/// fault alone.
#[test]
fn judging_by_hand_is_the_same() {
    let right = Faulty(|before, input, o| RIGHT.again(before, input, o));
    let both = Both { proved: &right, independent: &Independent };
    assert!(foretold::compare(&both).is_ok());
    assert!(runs::without_buffer(&both, 60_000, &mut Rng::new(5)).is_ok());
    assert!(states::compare(&both, 20_000, &mut Rng::new(5)).is_ok());
}
