//! P7: clocks that mostly go on, times near those that decide, cancels in every state; and predictions
//! of any kind, sound and not.

use std::fmt::Write;
use std::string::{String, ToString};
use std::vec::Vec;

use super::wafers::{self, MOST_SECONDS, PAST};
use crate::gen::parts::{pool_name, unpadded, POOL};
use crate::gen::{Input, Rng};
use crate::requests::predict::{brings_clock, state, Prediction, CLOCK, ESTIMATE, LONGEST};
use crate::requests::predict::{NO_PREDICTION, PREDICTED_TIME};
use crate::requests::wafers::WAFERS;
use crate::requests::Tool;
use crate::state::*;

/// A setting time and a timeout: none, short ones, the longest, and any.
pub fn random_times(rng: &mut Rng) -> (u32, u32) {
    let one = |rng: &mut Rng| {
        let any = rng.below(LONGEST + 1);
        rng.pick(&[0, 1, 2, 5, 60, 60, 120, 120, LONGEST - 1, LONGEST, any])
    };
    let setting = match rng.below(20) {
        0..=2 => 0,
        3..=9 => 60,
        _ => one(rng),
    };
    (setting, one(rng))
}

/// One less, the time itself, one more; seldom further away.
fn near(time: u64, rng: &mut Rng) -> u32 {
    let by = rng.pick(&[-1, 0, 0, 1, 1, 2, -2]);
    (time as i64 + by).clamp(0, u32::MAX as i64) as u32
}

/// When something happens to a prediction: at the setting before Tp, at Tp, at Te, and at the timeout
/// after Tp.
fn decisive(t: &Tool, p: &Prediction, rng: &mut Rng) -> u64 {
    let (setting, timeout) = (t.predictions.setting() as u64, t.predictions.timeout() as u64);
    let tp = p.tp().unwrap_or(t.predictions.clock()) as u64;
    let te = p.te().map_or(tp, u64::from);
    rng.pick(&[tp.saturating_sub(setting), tp.saturating_sub(setting), tp, tp + timeout, tp + timeout, te])
}

/// The predictions of a state that may have any bytes.
fn live(t: &Tool) -> &[Prediction] {
    &t.predictions.of[..(t.base.count as usize).min(MAX_CARRIERS)]
}

/// A clock for the next input. It mostly goes on: by a little, or to a time that decides. Now and then
/// it runs back, or jumps to the end of all clocks, where a run then stays.
fn clock(t: &Tool, rng: &mut Rng) -> u32 {
    let now = t.predictions.clock();
    let judged: Vec<&Prediction> =
        live(t).iter().filter(|p| p.has_tp != 0 && matches!(p.state, 3 | 4)).collect();
    match rng.below(4000) {
        0..=249 => return now.saturating_sub(rng.pick(&[1, 1, 2, 60, u32::MAX])),
        250 => return u32::MAX - rng.below(300),
        251 | 252 => return u32::MAX - rng.below(300_000),
        253..=1199 => return now,
        1200..=2999 if !judged.is_empty() => {
            let p = rng.pick(&judged);
            let time = near(decisive(t, p, rng), rng);
            // Times that are far away are seldom waited for.
            if time >= now && (time - now < 3 * LONGEST || rng.chance(2)) {
                return time;
            }
        }
        _ => {}
    }
    let step = rng.pick(&[1, 1, 2, 7, 30, 60, 61]);
    now.saturating_add(step)
}

/// A Tp at this clock: mostly ahead, near the setting or another's; in the past, near the timeout; or any.
fn tp(t: &Tool, clock: u32, rng: &mut Rng) -> u32 {
    let (setting, timeout) = (t.predictions.setting() as u64, t.predictions.timeout() as u64);
    let now = clock as u64;
    let others: Vec<u32> = live(t).iter().filter(|p| p.state == 3).filter_map(|p| p.tp()).collect();
    if !others.is_empty() && rng.chance(35) {
        return near(rng.pick(&others) as u64, rng);
    }
    match rng.below(20) {
        0..=5 => near(now + setting, rng),
        6..=12 => near(now + setting + 1 + rng.below(200) as u64, rng),
        13 | 14 => near(now.saturating_sub(timeout), rng),
        15 => near(now, rng),
        16 => near(now.saturating_sub(1), rng),
        17 => rng.pick(&[0, 1, 1 << 31, u32::MAX - 1, u32::MAX, u32::MAX]),
        18 => near(u32::MAX as u64 - timeout, rng),
        _ => rng.draw() as u32,
    }
}

/// A Te for a prediction: near its Tp and timeout, before Tp, or any.
fn te(t: &Tool, p: &Prediction, rng: &mut Rng) -> u32 {
    let timeout = t.predictions.timeout() as u64;
    let tp = p.tp().unwrap_or(t.predictions.clock()) as u64;
    match rng.below(20) {
        0..=8 => near(tp + timeout, rng),
        9..=13 => near(tp, rng),
        14 | 15 => near(tp.saturating_sub(rng.below(100) as u64), rng),
        16 => rng.pick(&[0, 1, u32::MAX - 1, u32::MAX, u32::MAX]),
        // What a sum that wraps would come to.
        17 => near((tp + timeout) & u32::MAX as u64, rng),
        18 => near(tp + timeout / 2, rng),
        _ => rng.draw() as u32,
    }
}

/// A clock, and a Tp for wafers to come to: mostly as another input would bring them. Now and then it is at the end of all
/// clocks or past it, which is mostly refused and so leaves the clock where it is.
fn wafers_of(t: &Tool, rng: &mut Rng) -> (u32, u64) {
    let now = t.predictions.clock();
    let ends = now > u32::MAX - MOST_SECONDS;
    if !rng.chance(if ends { 40 } else { 8 }) {
        let clock = clock(t, rng);
        return (clock, tp(t, clock, rng) as u64);
    }
    let clock = now.max(u32::MAX - rng.pick(&[0, 1, 2, 60, 100_000, 1 << 20, 1 << 25]));
    let accepted = rng.chance(if ends { 40 } else { 4 });
    let past = rng.pick(&[0, 0, 0, 1, 60, 1 << 20]);
    (clock, if accepted { PAST - 1 } else { PAST + past })
}

fn timed(t: &Tool, number: u32, name: Vec<u8>, p: &Prediction, rng: &mut Rng) -> Input {
    if number == WAFERS {
        let (clock, tp) = wafers_of(t, rng);
        return Input { number, name, clock, wafers: wafers::draw(clock, tp, rng), ..Input::default() };
    }
    let clock = clock(t, rng);
    let time = match number {
        PREDICTED_TIME => tp(t, clock, rng),
        ESTIMATE => te(t, p, rng),
        _ => rng.pick(&[0, 0, 7, u32::MAX]),
    };
    Input { number, name, clock, time, ..Input::default() }
}

/// The name and prediction of a record for which `wanted` holds.
fn pick(
    t: &Tool,
    rng: &mut Rng,
    wanted: impl Fn(&Carrier, &Prediction) -> bool,
) -> Option<(Vec<u8>, Prediction)> {
    let all: Vec<_> = t.base.carrier.iter().zip(live(t)).filter(|(c, p)| wanted(c, p)).collect();
    (!all.is_empty()).then(|| rng.pick(&all)).map(|(c, p)| (unpadded(&c.name), *p))
}

/// An input that has to do with a prediction, or nothing: then the run goes on as it would.
pub(super) fn draw_input(t: &Tool, rng: &mut Rng) -> Option<Input> {
    let ports = t.base.ports as usize;
    if ports == 0 || ports > MAX_PORTS || t.base.count as usize > MAX_CARRIERS {
        return None;
    }
    if t.base.places > 0 {
        return if rng.chance(4) { Some(any_timed(t, rng)) } else { None };
    }
    let waits = |_: &Carrier, p: &Prediction| p.state == 3 && p.has_tp == 0;
    let told = |_: &Carrier, p: &Prediction| p.has_tp != 0 && matches!(p.state, 3 | 4);
    let begun = |c: &Carrier, p: &Prediction| c.accessing != 2 && matches!(p.state, 3..=5);
    match rng.below(100) {
        0..=8 => Some(timed(t, CLOCK, Vec::new(), &Prediction::NONE, rng)),
        9..=14 => pick(t, rng, waits).map(|(name, p)| timed(t, PREDICTED_TIME, name, &p, rng)),
        15..=20 => pick(t, rng, waits).map(|(name, p)| timed(t, WAFERS, name, &p, rng)),
        21..=26 => pick(t, rng, told).map(|(name, p)| timed(t, ESTIMATE, name, &p, rng)),
        27 | 28 => pick(t, rng, |_, p| p.state == 3).map(|(name, p)| timed(t, NO_PREDICTION, name, &p, rng)),
        29 | 30 => pick(t, rng, begun).map(|(name, _)| of(6, name)),
        31 => pick(t, rng, |c, _| c.open != 0 && c.accessing > 2).map(|(name, _)| of(23, name)),
        32 => cancel_unknown(t, rng),
        33..=35 => Some(any_timed(t, rng)),
        _ => None,
    }
}

fn of(number: u32, name: Vec<u8>) -> Input {
    Input { number, name, ..Input::default() }
}

/// CancelCarrier for an unknown pod, which mostly makes the record.
fn cancel_unknown(t: &Tool, rng: &mut Rng) -> Option<Input> {
    let unknown = |port: &Port| port.pod != 0 && port.idle() && port.tag == tag::FAILED && !port.tied();
    let p = t.base.port[..t.base.ports as usize].iter().position(unknown)?;
    Some(Input { port: p as u32 + 1, ..of(6, pool_name(rng.below(POOL))) })
}

/// An input that brings the clock, for any carrier.
fn any_timed(t: &Tool, rng: &mut Rng) -> Input {
    let number = CLOCK + rng.below(5);
    let (name, p) = pick(t, rng, |_, _| true)
        .filter(|_| number != CLOCK && rng.chance(85))
        .unwrap_or_else(|| (pool_name(rng.below(POOL)), Prediction::NONE));
    timed(t, number, name, &p, rng)
}

/// Now and then the parts of any row come with a number that brings the clock, and the other way round:
/// parts that a row doesn't name are not looked at.
pub(super) fn complete(t: &Tool, input: &mut Input, rng: &mut Rng) {
    if rng.chance(2) {
        input.number = CLOCK + rng.below(5);
        (input.clock, input.time) = (clock(t, rng), rng.draw() as u32);
    }
    if brings_clock(input.number) && rng.chance(5) {
        (input.port, input.value) = (rng.below(6), rng.draw() as u32);
        input.codes = std::vec![3; rng.pick(&[0, 1, 25])];
    } else if !brings_clock(input.number) && rng.chance(3) {
        (input.clock, input.time) = (clock(t, rng), rng.draw() as u32);
    }
}

/// A clock and times for any tool; without a buffer a prediction for each record, of any state that its
/// carrier allows, with a Tp and a Te or without.
pub(super) fn draw(t: &mut Tool, rng: &mut Rng) {
    let (setting, timeout) = random_times(rng);
    (t.predictions.setting, t.predictions.timeout) = (setting.to_le_bytes(), timeout.to_le_bytes());
    let any = rng.draw() as u32;
    let clock = rng.pick(&[0, 1, 1000, 100_000, any, any, u32::MAX - 1, u32::MAX]);
    t.predictions.clock = clock.to_le_bytes();
    if t.base.places > 0 {
        return;
    }
    draw_unknown_pods(t, rng);
    let having = rng.pick(&[0, 30, 70, 100, 100]);
    let strange = rng.pick(&[0, 10, 60]);
    for i in 0..t.base.count as usize {
        let c = &mut t.base.carrier[i];
        let may_begin = c.open != 0 && rng.chance(35);
        if may_begin {
            (c.accessing, c.slot) = (accessing::NOT_ACCESSED, status::OK);
        }
        let c = *c;
        let mut p = Prediction { state: state(t, &c, rng), ..Prediction::NONE };
        if rng.chance(if c.at_port() { having } else { strange.min(having) }) {
            p.set_tp(tp(t, clock, rng));
        }
        if rng.chance(if p.has_tp != 0 { having / 2 } else { strange / 3 }) {
            p.set_te(te(t, &p, rng));
        }
        if may_begin {
            p.state = state::WAITING_FOR_CARRIER;
        }
        t.predictions.of[i] = p;
    }
}

/// Pods that a cancel may make records of.
fn draw_unknown_pods(t: &mut Tool, rng: &mut Rng) {
    for port in t.base.port[..t.base.ports as usize].iter_mut().filter(|port| !port.tied()) {
        if rng.chance(15) {
            (port.transfer, port.movement) = (transfer::BLOCKED, movement::NONE);
            (port.pod, port.tag) = (1, tag::FAILED);
        }
    }
}

/// A state that a sound tool may have for a carrier.
fn state(t: &Tool, c: &Carrier, rng: &mut Rng) -> u8 {
    if !c.at_port() || rng.chance(20) {
        return state::WAITING_FOR_CARRIER;
    }
    if t.base.port[c.port as usize - 1].transfer == transfer::READY_TO_UNLOAD {
        return rng.pick(&[1, 3, 3, 3, 6]);
    }
    rng.pick(&[1, 3, 3, 3, 4, 4, 4, 5, 5, 6])
}

/// One thing about the predictions is changed: a time of the set-up, an entry, or what an entry needs of
/// its carrier and its port. Not all changes break a word on soundness.
pub(super) fn damage(t: &mut Tool, rng: &mut Rng) {
    let count = (t.base.count as usize).min(MAX_CARRIERS);
    let any = rng.below(MAX_CARRIERS as u32) as usize;
    let live = rng.below(count.max(1) as u32) as usize;
    // Every second time one whose carrier is at a port, if there is one.
    let live = match t.base.carrier[..count].iter().rposition(|c| c.at_port()) {
        Some(at_port) if rng.chance(50) => at_port,
        _ => live,
    };
    let past = count.min(MAX_CARRIERS - 1);
    match rng.below(12) {
        0 => t.predictions.setting = too_long(rng).to_le_bytes(),
        1 => t.predictions.timeout = too_long(rng).to_le_bytes(),
        2 => t.predictions.clock = (rng.draw() as u32).to_le_bytes(),
        3 => t.predictions.of[past].bytes_mut()[rng.below(11) as usize] = rng.pick(&[1, 2, 0xFF]),
        4 => t.predictions.of[any].bytes_mut()[rng.below(11) as usize] = rng.pick(&[1, 2, 0x80, 0xFF]),
        5 => t.predictions.of.swap(live, any),
        6 => t.base.places = rng.pick(&[0, 1, 16]),
        7 | 8 => damage_carrier(t, live, rng),
        _ => damage_entry(&mut t.predictions.of[live], rng),
    }
}

fn too_long(rng: &mut Rng) -> u32 {
    rng.pick(&[LONGEST, LONGEST + 1, 1 << 17, 1 << 24, 1 << 31, u32::MAX])
}

/// A prediction whose carrier is elsewhere, or has another port than its state allows.
fn damage_carrier(t: &mut Tool, i: usize, rng: &mut Rng) {
    let c = &mut t.base.carrier[i];
    let Some(port) = t.base.port.get_mut((c.port as usize).wrapping_sub(1)) else {
        t.predictions.of[i].state = rng.pick(&[1, 3, 4, 5, 6]);
        return;
    };
    match rng.below(3) {
        // READY TO UNLOAD, and sound but for the prediction.
        0 | 1 => {
            (port.transfer, port.movement) = (transfer::READY_TO_UNLOAD, movement::NONE);
            c.open = 0;
            if rng.chance(60) {
                t.predictions.of[i].state = rng.pick(&[4, 5]);
            }
        }
        // Tied and expected.
        _ => (c.place, c.open) = (place::EXPECTED, 0),
    }
}

fn damage_entry(p: &mut Prediction, rng: &mut Rng) {
    let k = rng.below(4) as usize;
    match rng.below(9) {
        0 => p.state = rng.pick(&[0, 7, 8, 0x80, 0x82, 0xFF]),
        1 => p.state = 1 + rng.below(6) as u8,
        2 => p.has_tp = rng.pick(&[2, 3, 0x80, 0xFF]),
        3 => p.has_te = rng.pick(&[2, 3, 0x80, 0xFF]),
        // A time that isn't there, and one that is.
        4 => (p.has_tp, p.tp[k]) = (0, 1 << rng.below(8)),
        5 => (p.has_te, p.te[k]) = (0, 1 << rng.below(8)),
        6 => p.set_tp(rng.draw() as u32),
        7 => p.set_te(rng.draw() as u32),
        _ => *p = Prediction::NONE,
    }
}

/// The lines of the command line: `time`, and `predict` for each record, with entries past them.
pub(super) fn describe(t: &Tool, out: &mut String) {
    let p = &t.predictions;
    let _ = writeln!(out, "  time {} {} {}", p.clock(), p.setting(), p.timeout());
    let count = if t.base.places == 0 { t.base.count as usize } else { 0 };
    let shown = p.of.iter().zip(&t.base.carrier).enumerate();
    for (i, (p, c)) in shown.filter(|(i, (p, _))| *i < count || **p != Prediction::NONE) {
        let name = unpadded(&c.name);
        let time = |time: Option<u32>| time.map_or("-".into(), |time| time.to_string());
        let (name, tp, te) = (String::from_utf8_lossy(&name), time(p.tp()), time(p.te()));
        let past = if i < count { "" } else { " past the records" };
        let _ = writeln!(out, "  predict '{name}' {} {tp} {te}{past}", p.state);
    }
}
