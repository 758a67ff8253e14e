//! P9: what the documents say of alarms after every outcome, whatever the state; and what befell them.

use independent::gen::requests::{violates, ALONG_RUNS, VIOLATES};
use independent::gen::Input;
use independent::requests::alarms::{Alarm, Alarms};
use independent::requests::{sound, Tool};
use independent::Port;

use crate::machine::Outcome;

/// Why an outcome on which the programs agree is against P9.
pub fn unlawful(before: &Tool, input: &Input, o: &Outcome) -> Option<String> {
    if !o.accepted() {
        return badly_refused(before, input, o);
    }
    badly_let_in(before, input)
        .or_else(|| badly_kept(before, input, o))
        .or_else(|| badly_told(before, o))
        .or_else(|| badly_done(before, input, o))
}

/// The port that an input names, with its alarm.
fn port<'a>(tool: &'a Tool, input: &Input) -> Option<(&'a Port, &'a Alarm)> {
    let p = (input.port as usize).checked_sub(1)?;
    tool.base.port.get(..tool.base.ports as usize)?.get(p).zip(tool.alarms.get(p))
}

fn starts(input: &Input) -> bool {
    [13, 24].contains(&input.number)
}

/// READY TO LOAD for a load, READY TO UNLOAD for an unload.
fn ready(input: &Input, port: &Port) -> bool {
    port.transfer == if input.number == 13 { 1 } else { 2 }
}

/// 13 is given only to an automatic start in MANUAL, and only where no other applies; what P9 accepts isn't refused.
fn badly_refused(before: &Tool, input: &Input, o: &Outcome) -> Option<String> {
    let named = port(before, input);
    if o.answer == 13 {
        let Some((port, _)) = named else { return Some("1 comes before 13".into()) };
        let given = starts(input) && input.value == 1 && port.access == 0;
        let why = if !given { "13 is given to an automatic start in MANUAL" } else { "5 comes before 13" };
        return (!given || !ready(input, port)).then(|| why.into());
    }
    let (port, alarm) = named.filter(|_| sound(before))?;
    let why = match (input.number, o.answer) {
        (13 | 24, 5) if ready(input, port) => "a start at a port that is ready isn't answered 5",
        (14, 5) if port.movement == 1 && alarm.held == 0 => "LoadDone is accepted unless a pod is held",
        (36, 5) if alarm.held == 1 => "Continue is accepted where a pod is held",
        _ => return None,
    };
    Some(why.into())
}

/// What is never accepted.
fn badly_let_in(before: &Tool, input: &Input) -> Option<String> {
    let (port, alarm) = port(before, input)?;
    let why = match input.number {
        13 | 24 if input.value > 1 => "a start that is neither manual nor automatic is answered 1",
        13 | 24 if input.value == 1 && port.access == 0 => "an automatic start in MANUAL is answered 13",
        14 if alarm.held == 1 => "LoadDone on a held pod is answered 5",
        36 if alarm.held == 0 => "Continue with nothing held is answered 5",
        _ => return None,
    };
    Some(why.into())
}

/// The alarms after an input that is accepted: from the input, the alarms and modes before it, and where ports are
/// READY TO LOAD after it.
fn after(before: &Tool, input: &Input, o: &Outcome) -> Alarms {
    let mut all = before.alarms;
    for (p, alarm) in all.iter_mut().enumerate() {
        let named = input.port as usize == p + 1;
        let by_hand = starts(input) && input.value == 0 && before.base.port[p].access == 1;
        match input.number {
            13 | 24 if named && by_hand => alarm.on = 1,
            14 if named && alarm.on == 1 => alarm.held = 1,
            36 if named => *alarm = Alarm::NONE,
            _ if o.tool.base.port[p].transfer == 1 => *alarm = Alarm::NONE,
            _ => {}
        }
    }
    all
}

fn badly_kept(before: &Tool, input: &Input, o: &Outcome) -> Option<String> {
    let all = after(before, input, o);
    (o.tool.alarms != all).then(|| {
        let shown: Vec<String> = all.iter().map(|alarm| format!("{} {}", alarm.on, alarm.held)).collect();
        format!("after row {} the alarms are [{}]", input.number, shown.join("; "))
    })
}

/// Each change of an alarm is told, behind all other reports, and nothing else is told of model 9.
fn badly_told(before: &Tool, o: &Outcome) -> Option<String> {
    let changed = before.alarms.iter().zip(&o.tool.alarms).zip(1..).filter(|((was, is), _)| was.on != is.on);
    let changed: Vec<(u8, u8, u8)> = changed.map(|((was, is), port)| (port, was.on, is.on)).collect();
    let reports = o.reports.as_slice();
    let told: Vec<(u8, u8, u8)> =
        reports.iter().filter(|r| r.model == 9).map(|r| (r.port, r.old, r.new)).collect();
    if told != changed {
        return Some("each change of an alarm is told as model 9, and nothing else is".into());
    }
    let last = reports.iter().rev().take(told.len()).all(|r| r.model == 9);
    (!last).then(|| "alarms are told last".into())
}

/// A LoadDone that holds changes nothing else and tells nothing; Continue does what LoadDone did.
fn badly_done(before: &Tool, input: &Input, o: &Outcome) -> Option<String> {
    let (_, alarm) = port(before, input)?;
    let mut base = before.base;
    match input.number {
        14 if alarm.on == 1 => {
            let held = o.tool.base == base && o.reports.count == 0;
            (!held).then(|| "LoadDone with the alarm on only holds the pod".into())
        }
        36 => {
            let port = &mut base.port[input.port as usize - 1];
            (port.movement, port.pod, port.tag) = (0, 1, 0);
            (o.tool.base != base).then(|| "Continue does what LoadDone did".into())
        }
        _ => None,
    }
}

/// How often each thing befell an alarm.
#[derive(Clone, Copy)]
pub struct Violated([u64; VIOLATES.len()]);

impl Default for Violated {
    fn default() -> Violated {
        Violated([0; VIOLATES.len()])
    }
}

impl Violated {
    pub fn note(&mut self, before: &Tool, input: &Input, o: &Outcome) {
        if let Some(k) = violates(before, &o.tool, input, o.answer) {
            self.0[k] += 1;
        }
    }

    pub fn met(&self) -> usize {
        self.0.iter().filter(|&&times| times > 0).count()
    }

    /// Of all, and of those that a run may come to.
    pub fn unmet(&self) -> Vec<String> {
        self.unmet_of(VIOLATES.len())
    }

    pub fn unmet_along_runs(&self) -> Vec<String> {
        self.unmet_of(ALONG_RUNS)
    }

    fn unmet_of(&self, first: usize) -> Vec<String> {
        let all = VIOLATES.iter().zip(self.0).take(first).filter(|(_, times)| *times == 0);
        all.map(|(what, _)| what.to_string()).collect()
    }
}
