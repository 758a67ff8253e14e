//! Programs that are wrong on purpose about the alarms of P9.

mod alike;
mod cleared;
mod held;
mod sound;
mod started;

use independent::requests::alarms::Alarm;

use super::*;

type Fault = fn(&Tool, &Input, &mut Outcome);

/// Whether the input is of this row and has this answer.
fn is(input: &Input, o: &Outcome, row: u32, answer: u32) -> bool {
    (input.number, o.answer) == (row, answer)
}

fn starts(input: &Input, o: &Outcome, answer: u32) -> bool {
    is(input, o, 13, answer) || is(input, o, 24, answer)
}

/// Where the port that an input names stands, if there is such a port.
fn at(tool: &Tool, input: &Input) -> Option<usize> {
    (1..=tool.base.ports as u32).contains(&input.port).then(|| input.port as usize - 1)
}

/// The alarm of that port.
fn alarm(tool: &Tool, input: &Input) -> Alarm {
    at(tool, input).map_or(Alarm::NONE, |p| tool.alarms[p])
}

fn refuse(before: &Tool, o: &mut Outcome, answer: u32) {
    *o = Outcome { answer, tool: *before, reports: Reports::NONE };
}

/// The input as another one: from the state before it.
fn instead(before: &Tool, o: &mut Outcome, input: &Input) {
    *o = Outcome { answer: 0, tool: *before, reports: Reports::NONE };
    o.answer = Independent.step(&mut o.tool, input, &mut o.reports);
}

/// The alarm of a port as it should not be; told as it then is.
fn wrongly(before: &Tool, o: &mut Outcome, p: usize, on: u8) {
    o.tool.alarms[p].on = on;
    let count = o.reports.as_slice().iter().filter(|r| r.model != 9).count();
    o.reports.items[count..].fill(Report::UNUSED);
    o.reports.count = count as u8;
    let old = before.alarms[p].on;
    if old != on {
        o.reports.items[count] = Report { model: 9, port: p as u8 + 1, old, new: on, ..Report::UNUSED };
        o.reports.count += 1;
    }
}

/// The fault is found among P9's edges and along runs. The shortest script for it, and its last input's row.
fn caught(fault: Fault) -> (Run, u32) {
    let faulty = Faulty(fault);
    let both = Both { proved: &faulty, independent: &Independent };
    let Err(Finding::Run(edge)) = alarmed::compare(&both) else { panic!("not found among the edges") };
    assert_eq!(differs_after(&both, &edge), Some(edge.inputs.len()));
    let run = found(4, 16, fault);
    let row = run.inputs.last().expect("an input").number;
    (run, row)
}

/// As `caught`, and in small tools too.
fn caught_small(fault: Fault) -> (Run, u32) {
    let faulty = Faulty(fault);
    let both = Both { proved: &faulty, independent: &Independent };
    assert!(matches!(small::alarms(&both), Err(Finding::State(..))), "not found in small tools");
    caught(fault)
}
