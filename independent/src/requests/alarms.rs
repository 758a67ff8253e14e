//! P9: hands on an AUTO port.
//!
//! Rows 13 and 24 say whether a transfer is manual or automatic. A manual one in AUTO is let in and raises the port's
//! AccessModeViolation alarm. With the alarm on a LoadDone only holds the pod: the port goes on loading until Continue
//! or LoadFail. Wherever a port becomes READY TO LOAD, its alarm is over.

use super::{Given, Tool};
use crate::report::Touched;
use crate::rows::{row as row_of_01, unless, Outcome, Refusal, Result};
use crate::sound::all_zero;
use crate::state::{movement, transfer, Plain, Port, Report, Reports, MAX_PORTS};

/// The second number of rows 13 and 24.
pub const MANUAL: u32 = 0;
pub const AUTOMATIC: u32 = 1;

pub const LOAD_START: u32 = 13;
pub const LOAD_DONE: u32 = 14;
pub const UNLOAD_START: u32 = 24;
pub const CONTINUE: u32 = 36;

/// The value of [`Port::access`] that is AUTO.
const IN_AUTO: u8 = 1;

pub const MODEL: u8 = 9;

#[derive(Clone, Copy, PartialEq, Eq, Debug)]
#[repr(C)]
pub struct Alarm {
    /// AccessModeViolation.
    pub on: u8,
    /// A pod stands at the port, and its load isn't taken for done.
    pub held: u8,
}

// SAFETY: both fields are a `u8`.
unsafe impl Plain for Alarm {}

impl Alarm {
    pub const NONE: Alarm = Alarm { on: 0, held: 0 };
}

/// That of each port, at the port's position.
pub type Alarms = [Alarm; MAX_PORTS];

/// Rows 13 and 24: whether the number is one of them.
#[inline]
pub const fn starts(number: u32) -> bool {
    matches!(number, LOAD_START | UNLOAD_START)
}

// ---- Rows -----------------------------------------------------------------------------------

/// A start is manual or automatic. Other rows don't look at the number, or have it for something else.
#[inline]
pub(super) fn given(given: &Given) -> Result<()> {
    unless(!starts(given.number) || given.value <= AUTOMATIC, Refusal::Range)
}

/// What an automatic start in MANUAL is refused for. It is the last that a row looks for, so that what the row itself
/// asks of the port comes first.
#[inline]
pub(super) fn admit(t: &Tool, given: &Given) -> Result<()> {
    let ready = match given.number {
        LOAD_START => transfer::READY_TO_LOAD,
        UNLOAD_START => transfer::READY_TO_UNLOAD,
        _ => return Ok(()),
    };
    let port = &t.base.port[t.base.index(given.port)?];
    unless(port.transfer == ready, Refusal::Conditions)?;
    unless(given.value == MANUAL || port.access == IN_AUTO, Refusal::AutomaticInManual)
}

/// Continue, and a LoadDone that meets the alarm; `None` for every other input.
#[inline]
pub(super) fn row(t: &mut Tool, given: &Given) -> Option<Outcome> {
    match given.number {
        LOAD_DONE => hold(t, given.port),
        CONTINUE => Some(go_on(t, given.port)),
        _ => None,
    }
}

#[inline]
fn loading(port: &Port) -> bool {
    port.movement == movement::LOADING
}

/// LoadDone where the port is loading with its alarm on: the pod is held, once, and nothing else changes.
#[inline]
fn hold(t: &mut Tool, port: u32) -> Option<Outcome> {
    let p = t.base.index(port).ok()?;
    if !loading(&t.base.port[p]) || t.alarms[p].on == 0 {
        return None;
    }
    let held = core::mem::replace(&mut t.alarms[p].held, 1) != 0;
    Some(if held { Err(Refusal::Conditions) } else { Ok(Touched::NOTHING) })
}

/// Continue does what LoadDone would have done. A held port is loading, so that document 01's row takes it.
fn go_on(t: &mut Tool, port: u32) -> Outcome {
    let p = t.base.index(port)?;
    unless(t.alarms[p].held != 0, Refusal::Conditions)?;

    t.alarms[p] = Alarm::NONE;
    row_of_01(&mut t.base, LOAD_DONE, port, 0, &[], &[])
}

/// The alarms follow what a row did: a manual start in AUTO raises the port's, and at READY TO LOAD there is none.
#[inline]
pub(super) fn follow(t: &mut Tool, given: &Given, touched: &Touched) {
    let Some(p) = touched.port_index() else { return };
    let port = &t.base.port[p];
    if starts(given.number) {
        if given.value == MANUAL && port.access == IN_AUTO {
            t.alarms[p].on = 1;
        }
    } else if port.transfer == transfer::READY_TO_LOAD {
        t.alarms[p] = Alarm::NONE;
    }
}

/// One report for each alarm that changed, behind all others.
#[inline]
pub(super) fn report(before: &Alarms, after: &Alarms, out: &mut Reports) {
    for (p, (was, is)) in before.iter().zip(after).enumerate().filter(|(_, (was, is))| was.on != is.on) {
        out.push(Report { model: MODEL, port: p as u8 + 1, old: was.on, new: is.on, ..Report::UNUSED });
    }
}

// ---- Soundness --------------------------------------------------------------------------------

/// The words on alarms, where document 01's tool is sound: a held port is loading with its alarm on, and none is on at
/// READY TO LOAD.
pub(super) fn sound(t: &Tool) -> bool {
    let (live, past) = t.alarms.split_at(t.base.ports as usize);
    let agrees = |(alarm, port): (&Alarm, &Port)| {
        let Alarm { on, held } = *alarm;
        ((on | held) <= 1)
            & (on == 0 || port.transfer != transfer::READY_TO_LOAD)
            & (held == 0 || on == 1 && loading(port))
    };
    all_zero(Alarm::bytes_of(past)) && live.iter().zip(&t.base.port).all(agrees)
}
