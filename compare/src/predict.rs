//! P7: what the documents say of predictions after every outcome, whatever the state; and what befell them.

use independent::gen::requests::{foretells, FORETELLS};
use independent::gen::{unpadded, Input};
use independent::requests::predict::Prediction;
use independent::requests::Tool;
use independent::{Carrier, Report};

use crate::laws::shortened;
use crate::machine::Outcome;
use crate::wafers;

/// Why an outcome on which the programs agree is against P7.
pub fn unlawful(before: &Tool, input: &Input, o: &Outcome) -> Option<String> {
    if !o.accepted() {
        return badly_refused(before, input, o);
    }
    bad_time(before, input, o)
        .or_else(|| bad_turn(before, input, o))
        .or_else(|| badly_told(before, o))
        .or_else(|| badly_kept(before, input, o))
        .or_else(|| badly_judged(input, o))
}

fn brings_clock(input: &Input) -> bool {
    (31..=35).contains(&input.number)
}

/// Each record with its prediction.
fn all(tool: &Tool) -> impl Iterator<Item = (&Carrier, &Prediction)> {
    tool.base.carrier.iter().zip(&tool.predictions.of).take(tool.base.count as usize)
}

fn find(tool: &Tool, name: [u8; 16]) -> Option<&Prediction> {
    all(tool).find(|(c, _)| c.name == name).map(|(_, p)| p)
}

fn ready(tool: &Tool, c: &Carrier) -> bool {
    let port = tool.base.port.get((c.port as usize).wrapping_sub(1));
    c.at_port() && port.is_some_and(|port| port.transfer == 2)
}

/// 11 is given only to a clock that runs back, and only where 5 doesn't apply, which is lower.
fn badly_refused(before: &Tool, input: &Input, o: &Outcome) -> Option<String> {
    if o.answer != 11 {
        return None;
    }
    let named = all(before).find(|(c, _)| unpadded(&c.name) == shortened(&input.name)).map(|(_, p)| p);
    let holds = match (input.number, named) {
        (32 | 35, Some(p)) => p.state == 3 && p.tp().is_none(),
        (33, Some(p)) => p.tp().is_some(),
        (34, Some(p)) => p.state == 3,
        (number, _) => number == 31,
    };
    if !holds {
        return Some("2 and 5 come before 11".into());
    }
    (input.clock >= before.predictions.clock())
        .then(|| "11 is given to a clock earlier than the last accepted".into())
}

/// The clock is the last one accepted and never runs back; the times of the set-up stay.
fn bad_time(before: &Tool, input: &Input, o: &Outcome) -> Option<String> {
    let (was, is) = (&before.predictions, &o.tool.predictions);
    let clock = if brings_clock(input) { input.clock } else { was.clock() };
    if is.clock() < was.clock() {
        return Some("the clock never runs back".into());
    }
    if is.clock() != clock {
        return Some(format!("after row {} the clock is {clock}", input.number));
    }
    ((is.setting, is.timeout) != (was.setting, was.timeout))
        .then(|| "setting and timeout stay as set up".into())
}

fn turns(o: &Outcome) -> impl Iterator<Item = &Report> {
    o.reports.as_slice().iter().filter(|r| r.model == 8)
}

/// The rows that may make a turn: of a record made or gone, and of transitions 23 to 29. An abort from WAITING FOR
/// PREDICTION has the states of 27.
fn rows_of(old: u8, new: u8) -> &'static [u32] {
    match (old, new) {
        (0, 2) => &[1, 3, 5, 6, 16],
        (1..=6, 0) => &[2, 4, 16, 25],
        (2, 3) | (2, 1) => &[6, 21],
        (3, 4) => &[6, 31, 32, 33, 34, 35],
        (4, 6) | (5, 6) => &[6, 23, 26, 31, 32, 33, 34, 35],
        (3, 5) | (4, 5) => &[31, 32, 33, 34, 35],
        _ => &[],
    }
}

/// Each report of model 8 stands where its model comes, and is a turn that its row may make.
fn bad_turn(before: &Tool, input: &Input, o: &Outcome) -> Option<String> {
    if before.base.places > 0 && turns(o).next().is_some() {
        return Some("with a buffer there is no model 8".into());
    }
    let models = o.reports.as_slice().iter().map(|r| r.model);
    if !models.is_sorted() {
        return Some("reports stand in the order of their models".into());
    }
    let strange = |r: &&Report| !rows_of(r.old, r.new).contains(&input.number);
    turns(o)
        .find(strange)
        .map(|r| format!("row {} makes no turn of model 8 from {} to {}", input.number, r.old, r.new))
}

/// The turns of each carrier lead from its state before to its state after, one behind the other.
fn badly_told(before: &Tool, o: &Outcome) -> Option<String> {
    let state = |tool: &Tool, name| find(tool, name).map_or(0, |p| p.state);
    for name in all(before).chain(all(&o.tool)).map(|(c, _)| c.name) {
        let own: Vec<&Report> = turns(o).filter(|r| r.name == name).collect();
        let mut is = state(before, name);
        for r in own {
            if r.old != is {
                return Some("each turn begins where the one before it ended".into());
            }
            is = r.new;
        }
        if is != state(&o.tool, name) {
            return Some("each change of model 8 is told".into());
        }
    }
    None
}

/// A Tp stays, but for a CancelCarrier in WAITING FOR CARRIER; a Te is changed by row 33 alone. Both go with their
/// record, and a new record has neither.
fn badly_kept(before: &Tool, input: &Input, o: &Outcome) -> Option<String> {
    for (c, p) in all(&o.tool) {
        let Some(was) = find(before, c.name) else {
            if p.tp().is_some() && input.number != 6 || p.te().is_some() {
                return Some("a new record has no Tp and no Te".into());
            }
            continue;
        };
        let own = unpadded(&c.name) == shortened(&input.name);
        let told = own && [32, 35].contains(&input.number) && was.tp().is_none();
        let cancelled = own && input.number == 6 && was.state == 2 && before.predictions.setting() != 0;
        let tp = match (told, cancelled) {
            (true, _) => told_tp(input),
            (_, true) => Some(before.predictions.clock()),
            _ => was.tp(),
        };
        if p.tp() != tp {
            return Some(format!("after row {} this Tp is {tp:?}", input.number));
        }
        let te = if own && input.number == 33 { Some(input.time) } else { was.te() };
        if p.te() != te {
            return Some(format!("after row {} this Te is {te:?}", input.number));
        }
    }
    None
}

/// The Tp that an input tells.
fn told_tp(input: &Input) -> Option<u32> {
    match input.number {
        32 => Some(input.time),
        _ => wafers::tp(input.clock, &input.times()),
    }
}

/// What no carrier is left in: PREDICTED or ABORTED at a port that is READY TO UNLOAD; and after an input that brings the
/// clock, in a state that its Tp takes it out of.
fn badly_judged(input: &Input, o: &Outcome) -> Option<String> {
    let times = &o.tool.predictions;
    let (now, setting, timeout) = (times.clock() as i64, times.setting() as i64, times.timeout() as i64);
    for (c, p) in all(&o.tool) {
        if matches!(p.state, 4 | 5) && ready(&o.tool, c) {
            return Some("none is PREDICTED or ABORTED with its port READY TO UNLOAD".into());
        }
        let Some(tp) = p.tp().filter(|_| brings_clock(input)) else { continue };
        let tp = tp as i64;
        let te = p.te().map_or(now, i64::from);
        if p.state == 3 && tp - now <= setting {
            return Some("none waits with Tp minus now at most the setting".into());
        }
        if matches!(p.state, 3 | 4) && timeout != 0 && te - tp >= timeout {
            return Some("none waits or is PREDICTED with Te at least Tp plus timeout".into());
        }
    }
    None
}

/// How often each thing befell a prediction, and the most reports of an input.
#[derive(Clone, Copy)]
pub struct Foretold {
    times: [u64; FORETELLS.len()],
    pub most: u8,
}

impl Default for Foretold {
    fn default() -> Foretold {
        Foretold { times: [0; FORETELLS.len()], most: 0 }
    }
}

impl Foretold {
    pub fn note(&mut self, before: &Tool, input: &Input, o: &Outcome) {
        for k in foretells(before, input, o.answer, &o.reports) {
            self.times[k] += 1;
        }
        self.most = self.most.max(o.reports.count);
    }

    pub fn met(&self) -> usize {
        self.times.iter().filter(|&&times| times > 0).count()
    }

    pub fn unmet(&self) -> Vec<String> {
        let all = FORETELLS.iter().zip(self.times).filter(|(_, times)| *times == 0);
        all.map(|(what, _)| what.to_string()).collect()
    }
}
