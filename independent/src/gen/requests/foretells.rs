//! P7: what may befall a prediction, so that a comparison can tell whether it has met all of it.

use std::vec::Vec;

use crate::gen::parts::padded;
use crate::gen::Input;
use crate::requests::names::name_of;
use crate::requests::predict::Prediction;
use crate::requests::{wafers, Tool};
use crate::state::{Report, Reports, MAX_CARRIERS};

/// What may befall the predictions of a sound tool without a buffer.
pub const FORETELLS: [&str; 58] = [
    "Tp at the setting",
    "Tp one past the setting",
    "Tp far ahead",
    "Tp before now, and PREDICTED",
    "Tp before now, and ABORTED",
    "Tp and timeout past the last clock",
    "a second Tp",
    "Tp to one that waits for its carrier",
    "Tp to one that is past waiting",
    "Te just aborts one that waits",
    "Te just aborts one PREDICTED",
    "Te one less than aborts",
    "Te before Tp",
    "Te with no timeout",
    "Te a second time",
    "Te to one that isn't judged",
    "Te where a sum could wrap",
    "Te without Tp",
    "no prediction without Tp",
    "no prediction with Tp",
    "no prediction at a ready port",
    "no prediction outside of waiting",
    "a clock that stands",
    "a clock that goes on",
    "a clock that runs back",
    "a clock that runs back, and 5",
    "the last clock of all",
    "a clock just at the setting",
    "a clock one before the setting",
    "a clock just at the timeout",
    "a clock one before the timeout",
    "a clock past Tp with no timeout",
    "an abort kept off by an estimate",
    "two judged at once",
    "two judged, not in the order of their ports",
    "judged at a ready port, 24 and 25",
    "judged at a ready port, abort and 29",
    "cancelled in DISABLED",
    "cancelled in WAITING FOR CARRIER",
    "cancelled in WAITING FOR CARRIER, setting 0",
    "cancelled in WAITING FOR PREDICTION",
    "cancelled in PREDICTED",
    "cancelled in ABORTED",
    "cancelled in COMPLETED",
    "made by a cancel",
    "made by a cancel, setting 0",
    "access begins",
    "access begins, setting 0",
    "ready by Close in PREDICTED",
    "ready by Close in ABORTED",
    "ready by UnloadFail in PREDICTED",
    "ready by UnloadFail in ABORTED",
    "gone in DISABLED",
    "gone in WAITING FOR CARRIER",
    "gone in WAITING FOR PREDICTION",
    "gone in PREDICTED",
    "gone in ABORTED",
    "gone in COMPLETED",
];

/// What an input with this answer and these reports was to the predictions, as places in [`FORETELLS`];
/// nothing for most, and nothing with a buffer.
pub fn foretells(before: &Tool, i: &Input, answer: u32, out: &Reports) -> Vec<usize> {
    if before.base.places > 0 || before.base.count as usize > MAX_CARRIERS {
        return Vec::new();
    }
    let mut all = Vec::new();
    let name = name_of(&i.name).map(padded);
    let at = before.base.carriers().iter().position(|c| Some(c.name) == name);
    let p = at.map(|at| &before.predictions.of[at]);
    match (i.number, answer) {
        (31..=35, 0) => clocks(before, i, out, &mut all),
        (31..=35, 11) => all.push("a clock that runs back"),
        (32..=35, 5) if i.clock < before.predictions.clock() => all.push("a clock that runs back, and 5"),
        _ => {}
    }
    all.extend(said(before, i, answer, p, out));
    all.extend(of_rows(before, i.number, answer, p, out));
    all.extend(gone(out));
    let place = |what| FORETELLS.iter().position(|&one| one == what);
    all.into_iter().map(|what| place(what).expect("one of them")).collect()
}

/// The turns of model 8.
fn turns(out: &Reports) -> impl Iterator<Item = &Report> + Clone {
    out.as_slice().iter().filter(|r| r.model == 8)
}

/// What an input says of the carrier that it names.
fn said(
    before: &Tool,
    i: &Input,
    answer: u32,
    p: Option<&Prediction>,
    out: &Reports,
) -> Option<&'static str> {
    let p = p?;
    let waits = p.state == 3;
    Some(match (i.number, answer) {
        (32, 0) => return tp(before, i, i.time as u64, out),
        (35, 0) => return tp(before, i, wafers::tp(i.clock, &i.times())? as u64, out),
        (32 | 35, 5) if waits => "a second Tp",
        (32 | 35, 5) if p.state == 2 => "Tp to one that waits for its carrier",
        (32 | 35, 5) => "Tp to one that is past waiting",
        (33, 0) => return te(before, i, p),
        (33, 5) => "Te without Tp",
        (34, 0) if turns(out).nth(1).is_some_and(|r| r.old == 5) => "no prediction at a ready port",
        (34, 0) if p.has_tp == 0 => "no prediction without Tp",
        (34, 0) => "no prediction with Tp",
        (34, 5) => "no prediction outside of waiting",
        _ => return None,
    })
}

fn tp(before: &Tool, i: &Input, tp: u64, out: &Reports) -> Option<&'static str> {
    let (setting, timeout) = (before.predictions.setting() as u64, before.predictions.timeout() as u64);
    let now = i.clock as u64;
    let name = name_of(&i.name).map(padded);
    let own = turns(out).find(|r| Some(r.name) == name).map(|r| r.new);
    Some(match own {
        _ if tp == now + setting => "Tp at the setting",
        _ if tp == now + setting + 1 => "Tp one past the setting",
        _ if timeout > 0 && tp + timeout > u32::MAX as u64 => "Tp and timeout past the last clock",
        Some(4) if tp < now => "Tp before now, and PREDICTED",
        Some(5) => "Tp before now, and ABORTED",
        None => "Tp far ahead",
        _ => return None,
    })
}

fn te(before: &Tool, i: &Input, p: &Prediction) -> Option<&'static str> {
    let (timeout, te) = (before.predictions.timeout() as u64, i.time as u64);
    let tp = p.tp()? as u64;
    Some(match p.state {
        1 | 2 | 5 | 6 => "Te to one that isn't judged",
        _ if te < tp => "Te before Tp",
        _ if timeout == 0 => "Te with no timeout",
        _ if tp + timeout > u32::MAX as u64 => "Te where a sum could wrap",
        3 if te == tp + timeout => "Te just aborts one that waits",
        _ if te == tp + timeout => "Te just aborts one PREDICTED",
        _ if te + 1 == tp + timeout => "Te one less than aborts",
        _ if p.has_te != 0 => "Te a second time",
        _ => return None,
    })
}

/// What an accepted clock is to those that are judged.
fn clocks(before: &Tool, i: &Input, out: &Reports, all: &mut Vec<&'static str>) {
    let goes_on = i.clock > before.predictions.clock();
    all.push(if goes_on { "a clock that goes on" } else { "a clock that stands" });
    if i.clock == u32::MAX {
        all.push("the last clock of all");
    }
    for p in &before.predictions.of[..before.base.count as usize] {
        all.extend(judged(before, i.clock as u64, p));
    }
    // Those that were told before this input.
    let mut names: Vec<_> = turns(out).filter(|r| r.old < 5).map(|r| r.name).collect();
    names.dedup();
    if let [one, .., other] = names[..] {
        let port = |name| before.base.carriers().iter().find(|c| c.name == name).map_or(0, |c| c.port);
        let by_port = port(one) < port(other);
        all.push(if by_port { "two judged at once" } else { "two judged, not in the order of their ports" });
    }
    if i.number != 34 {
        all.extend(turns(out).zip(turns(out).skip(1)).filter_map(completed));
    }
}

/// Two turns of a carrier that was ready when it was judged.
fn completed((one, other): (&Report, &Report)) -> Option<&'static str> {
    match (one.name == other.name && one.old == 3, other.old) {
        (true, 4) => Some("judged at a ready port, 24 and 25"),
        (true, 5) => Some("judged at a ready port, abort and 29"),
        _ => None,
    }
}

/// What a clock is to a prediction that has its Tp already.
fn judged(before: &Tool, now: u64, p: &Prediction) -> Option<&'static str> {
    let (setting, timeout) = (before.predictions.setting() as u64, before.predictions.timeout() as u64);
    let tp = p.tp().filter(|_| matches!(p.state, 3 | 4))? as u64;
    let abort = tp + timeout;
    Some(match (p.state, p.te()) {
        (3, None) if now + setting == tp => "a clock just at the setting",
        (3, None) if now + setting + 1 == tp => "a clock one before the setting",
        (_, None) if timeout > 0 && now == abort => "a clock just at the timeout",
        (_, None) if timeout > 0 && now + 1 == abort => "a clock one before the timeout",
        (_, None) if timeout == 0 && now > tp => "a clock past Tp with no timeout",
        (_, Some(te)) if timeout > 0 && now >= abort && (te as u64) < abort => {
            "an abort kept off by an estimate"
        }
        _ => return None,
    })
}

/// What a row of document 01 is to the prediction of its carrier.
fn of_rows(
    before: &Tool,
    number: u32,
    answer: u32,
    p: Option<&Prediction>,
    out: &Reports,
) -> Option<&'static str> {
    if answer != 0 {
        return None;
    }
    let disabled = before.predictions.setting() == 0;
    let ready = turns(out).next().map_or(0, |r| r.old);
    Some(match (number, p.map(|p| p.state), disabled) {
        (6, None, false) => "made by a cancel",
        (6, None, true) => "made by a cancel, setting 0",
        (6, Some(1), _) => "cancelled in DISABLED",
        (6, Some(2), false) => "cancelled in WAITING FOR CARRIER",
        (6, Some(2), true) => "cancelled in WAITING FOR CARRIER, setting 0",
        (6, Some(3), _) => "cancelled in WAITING FOR PREDICTION",
        (6, Some(4), _) => "cancelled in PREDICTED",
        (6, Some(5), _) => "cancelled in ABORTED",
        (6, Some(_), _) => "cancelled in COMPLETED",
        (21, Some(2), false) => "access begins",
        (21, Some(2), true) => "access begins, setting 0",
        (23, ..) if ready == 4 => "ready by Close in PREDICTED",
        (23, ..) if ready == 5 => "ready by Close in ABORTED",
        (26, ..) if ready == 4 => "ready by UnloadFail in PREDICTED",
        (26, ..) if ready == 5 => "ready by UnloadFail in ABORTED",
        _ => return None,
    })
}

fn gone(out: &Reports) -> Option<&'static str> {
    Some(match turns(out).find(|r| r.new == 0)?.old {
        1 => "gone in DISABLED",
        2 => "gone in WAITING FOR CARRIER",
        3 => "gone in WAITING FOR PREDICTION",
        4 => "gone in PREDICTED",
        5 => "gone in ABORTED",
        _ => "gone in COMPLETED",
    })
}
