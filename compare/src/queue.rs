//! P5: what the document says of the queue after every outcome, whatever the state; and what befell the queues.

use independent::gen::requests::{befalls, BEFALLS};
use independent::gen::{unpadded, Input};
use independent::requests::queue::Request;
use independent::requests::{sound, Tool};

use crate::laws::{has_name, shortened};
use crate::machine::Outcome;
use crate::script::tabled;

/// Why an outcome on which the programs agree is against P5.
pub fn unlawful(before: &Tool, input: &Input, o: &Outcome) -> Option<String> {
    if o.accepted() {
        badly_kept(before, input, o).or_else(|| badly_reported(input, o))
    } else {
        badly_refused(before, input, o)
    }
    .or_else(|| held(before, input, o))
}

/// The requests, the oldest first.
fn list(tool: &Tool) -> Vec<Request> {
    tool.queue.requests().to_vec()
}

/// The request is that of the input's carrier.
fn own(r: &Request, input: &Input) -> bool {
    unpadded(&r.name) == shortened(&input.name)
}

fn begun_at(r: &Request, port: u32) -> bool {
    r.started == 1 && r.port as u32 == port
}

/// Whether the request can be taken: its carrier is closed and not in access.
fn ready(tool: &Tool, r: &Request) -> bool {
    tool.base.carriers().iter().any(|c| c.name == r.name && c.open == 0 && c.accessing != 2)
}

/// The requests after an input that is accepted, from the input and the state before it.
fn after(before: &Tool, input: &Input) -> Vec<Request> {
    let mut all = list(before);
    match input.number {
        6 => all.retain(|r| r.started == 1 || !own(r, input)),
        7 => {
            let mut name = [0; 16];
            name.iter_mut().zip(shortened(&input.name)).for_each(|(to, from)| *to = *from);
            all.push(Request { name, port: input.port as u8, started: 0 });
        }
        27 => {
            let taken = all.iter_mut().find(|r| r.port as u32 == input.port && ready(before, r));
            taken.into_iter().for_each(|r| r.started = 1);
        }
        28 => all.retain(|r| !begun_at(r, input.port)),
        29 => all.retain(|r| !own(r, input)),
        30 => all.retain(|r| r.started == 1),
        _ => {}
    }
    all
}

fn badly_kept(before: &Tool, input: &Input, o: &Outcome) -> Option<String> {
    let all = after(before, input);
    (list(&o.tool) != all).then(|| format!("after row {} the queue is {all:?}", input.number))
}

/// The differences that the queue's own rows report: of a port, and none of the queue itself.
fn badly_reported(input: &Input, o: &Outcome) -> Option<String> {
    let p = input.port;
    let reports = match input.number {
        7 | 29 | 30 => "none".into(),
        27 => format!("3 {p} 0>1"),
        28 => format!("1 {p} 1>2; 3 {p} 1>0; 4 {p} 0>1"),
        _ => return None,
    };
    (tabled(&o.reports) != reports).then(|| format!("row {} reports {reports}", input.number))
}

/// 9 and 10 are given exactly when they are the lowest that applies, and CancelAllCarrierOut is never refused.
fn badly_refused(before: &Tool, input: &Input, o: &Outcome) -> Option<String> {
    let all = list(before);
    let why = match (input.number, o.answer) {
        (7, 9) if all.len() < 16 => "9 is given where 16 requests are queued",
        (7, 10) if all.len() == 16 => "9 comes before 10",
        (7, 10) if !all.iter().any(|r| own(r, input)) => "10 is given where the carrier is queued already",
        (30, _) if sound(before) => "CancelAllCarrierOut is accepted by every sound tool",
        _ => return None,
    };
    Some(why.into())
}

/// Until OutDone: Open on a started carrier is 5, LoadStart and CancelReservationAtPort at its port are 4. A LoadStart
/// that is neither manual nor automatic is 1, which is lower.
fn held(before: &Tool, input: &Input, o: &Outcome) -> Option<String> {
    let mut begun = before.queue.requests().iter().filter(|r| r.started == 1);
    let (holds, answer) = match input.number {
        13 if input.value > 1 => return None,
        12 | 13 => (begun.any(|r| begun_at(r, input.port)), 4),
        19 => (has_name(&input.name) && begun.any(|r| own(r, input)), 5),
        _ => return None,
    };
    let why = || format!("row {} is answered {answer} until OutDone", input.number);
    (holds && o.answer != answer && sound(before)).then(why)
}

/// How often each thing befell a queue.
#[derive(Clone, Copy, Default)]
pub struct Befallen([u64; BEFALLS.len()]);

impl Befallen {
    pub fn note(&mut self, before: &Tool, input: &Input, o: &Outcome) {
        if let Some(k) = befalls(before, input, o.answer) {
            self.0[k] += 1;
        }
    }

    pub fn met(&self) -> usize {
        self.0.iter().filter(|&&times| times > 0).count()
    }

    pub fn unmet(&self) -> Vec<String> {
        let all = BEFALLS.iter().zip(self.0).filter(|(_, times)| *times == 0);
        all.map(|(what, _)| what.to_string()).collect()
    }
}
