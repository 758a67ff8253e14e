//! Programs that are wrong on purpose about the queue of P5.

mod alike;
mod asked;
mod dropped;
mod sound;
mod taken;
mod until;

use independent::requests::queue::{Queue, Request};

use super::*;
use crate::laws::shortened;

fn ready(tool: &Tool, r: &Request) -> bool {
    tool.base.carriers().iter().any(|c| c.name == r.name && c.open == 0 && c.accessing != 2)
}

fn own(r: &Request, input: &Input) -> bool {
    independent::gen::unpadded(&r.name) == shortened(&input.name)
}

fn there(r: &Request, input: &Input) -> bool {
    r.port as u32 == input.port
}

/// The port that an input names, where there is such a port.
fn port<'a>(tool: &'a Tool, input: &Input) -> Option<&'a independent::Port> {
    tool.base.ports().get((input.port as usize).wrapping_sub(1))
}

/// Whether the input is of this row and has this answer.
fn is(input: &Input, o: &Outcome, row: u32, answer: u32) -> bool {
    (input.number, o.answer) == (row, answer)
}

/// A queue of these requests.
fn queue(requests: impl IntoIterator<Item = Request>) -> Queue {
    let mut queue = Queue::EMPTY;
    for (to, r) in queue.request.iter_mut().zip(requests) {
        *to = r;
        queue.count += 1;
    }
    queue
}

/// The requests of a tool for which `stays` holds.
fn those(tool: &Tool, stays: impl Fn(&Request) -> bool) -> Queue {
    queue(tool.queue.requests().iter().copied().filter(stays))
}

fn refuse(before: &Tool, o: &mut Outcome, answer: u32) {
    *o = Outcome { answer, tool: *before, reports: Reports::NONE };
}

/// The input as a tool without requests takes it; the requests stay as they were.
fn let_in(before: &Tool, input: &Input, o: &mut Outcome) {
    let mut tool = Tool { queue: Queue::EMPTY, ..*before };
    o.answer = Independent.step(&mut tool, input, &mut o.reports);
    o.tool = Tool { queue: before.queue, ..tool };
}

/// An OutStart that is accepted takes another request: the one at the place that is given.
fn take(before: &Tool, o: &mut Outcome, k: Option<usize>) {
    if let Some(k) = k {
        o.tool.queue = before.queue;
        o.tool.queue.request[k].started = 1;
    }
}

type Fault = fn(&Tool, &Input, &mut Outcome);

/// The fault is found among P5's edges and along runs. The shortest script for it, and its last input's row.
fn caught(fault: Fault) -> (Run, u32) {
    let faulty = Faulty(fault);
    let both = Both { proved: &faulty, independent: &Independent };
    let Err(Finding::Run(edge)) = out::compare(&both) else { panic!("not found among the edges") };
    assert_eq!(differs_after(&both, &edge), Some(edge.inputs.len()));
    let run = found(4, 16, fault);
    let row = run.inputs.last().expect("an input").number;
    (run, row)
}

/// As `caught`, and in small tools too.
fn caught_small(fault: Fault) -> (Run, u32) {
    let faulty = Faulty(fault);
    let both = Both { proved: &faulty, independent: &Independent };
    assert!(matches!(small::queues(&both), Err(Finding::State(..))), "not found in small tools");
    caught(fault)
}
