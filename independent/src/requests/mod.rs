//! The tool with document 02's requests: document 01's tool, and what each request adds to it.
//!
//! An input goes through the requests first, which may refuse it or have a row of their own for it, then
//! to document 01's row, then through the requests again, which may change what the row did. The reports are the differences
//! between the state before all of this and the state after it, but for those of model 8, which are told in turn. Those of
//! model 9 stand last. So far these have come:
//!
//! - P1, slot maps the tool can judge: `maps`.
//! - P4, names padded with blanks: [`names`].
//! - P2, is anyone waiting: [`waiting`], which is asked of a table of records and not of a tool.
//! - P3, SECS-II from the host bridge: [`secs`], which gives the tool an input.
//! - P13, answers to the bridge: [`reply`], with the words of [`texts`].
//! - P5, a queue for CarrierOut: [`queue`], which has rows of its own and takes row 7 over.
//! - P7, prediction of ready to unload: [`predict`], which has rows that bring the clock.
//! - P8, where Tp comes from: [`wafers`], which gives Tp as a total of times.
//! - P9, hands on an AUTO port: [`alarms`], which has a row of its own, and LoadDone where the alarm is on.
//! - P10, undoing pairs: [`undo`], which is a table and changes nothing.
//! - P11, pods in, pods out: [`pods`], which counts a run and changes nothing.

pub mod alarms;
mod maps;
pub mod names;
pub mod pods;
pub mod predict;
pub mod queue;
pub mod reply;
pub mod secs;
pub mod texts;
pub mod undo;
pub mod wafers;
mod waiting;

use crate::rows::{row, Outcome, Refusal, Result};
use crate::sound::all_zero;
use crate::state::{Plain, Reports, MAP_LEN, MAX_CARRIERS, MAX_PORTS};

use alarms::{Alarm, Alarms};
use predict::Predictions;
use queue::Queue;

pub use waiting::waiting;

/// How many inputs there are, numbered from 1.
pub const INPUTS: u32 = 36;

/// The bytes of a tool that no request has taken yet.
pub const UNUSED: usize = 286;

#[derive(Clone, Copy, PartialEq, Eq, Debug)]
#[repr(C)]
pub struct Tool {
    /// Document 01's tool.
    pub base: crate::Tool,
    /// The expected map of each record, at the record's position: 25 codes of 1 and 3, or zeros
    /// where the record has none.
    pub maps: [[u8; MAP_LEN]; MAX_CARRIERS],
    /// What is asked to come out of the buffer.
    pub queue: Queue,
    /// The clock, setting time and timeout, and the prediction of each record.
    pub predictions: Predictions,
    /// The alarm of each port, and whether it holds a pod.
    pub alarms: Alarms,
    pub unused: [u8; UNUSED],
}

// SAFETY: every field is a `u8`, an array of them, or a type for which this holds.
unsafe impl Plain for Tool {}

const _: () = {
    use core::mem::{align_of, size_of};
    assert!(size_of::<Tool>() == 2 * size_of::<crate::Tool>() && align_of::<Tool>() == 1);
};

impl Tool {
    pub const NONE: Tool = Tool {
        base: crate::Tool::NONE,
        maps: [[0; MAP_LEN]; MAX_CARRIERS],
        queue: Queue::EMPTY,
        predictions: Predictions::NONE,
        alarms: [Alarm::NONE; MAX_PORTS],
        unused: [0; UNUSED],
    };

    /// The expected map of record `i`, if it has one.
    #[inline]
    pub fn expected_map(&self, i: usize) -> Option<&[u8; MAP_LEN]> {
        Some(&self.maps[i]).filter(|map| map[0] != 0)
    }
}

/// Makes the tool of `p` ports and `b` buffer places, with these seconds of setting time and timeout.
/// Answers 0, or 1 with a tool of all zeros.
pub fn setup(p: u32, b: u32, setting: u32, timeout: u32, t: &mut Tool) -> u32 {
    *t = Tool::NONE;
    if crate::setup(p, b, &mut t.base) == 0 && predict::setup(&mut t.predictions, setting, timeout) {
        return 0;
    }
    *t = Tool::NONE;
    Refusal::Range as u32
}

/// Whether the state is sound: to document 01, and to each request.
pub fn sound(t: &Tool) -> bool {
    crate::sound(&t.base)
        && maps::sound(t)
        && queue::sound(t)
        && predict::sound(t)
        && alarms::sound(t)
        && all_zero(&t.unused)
}

/// Gives the tool an input: 0 if accepted, with the reports in `out`; otherwise the number of the
/// refusal, with the tool as it was and no report. A state that isn't sound is refused with 1. An input
/// that brings the clock brings 0, and 0 for its time or no wafers.
pub fn step(
    t: &mut Tool,
    number: u32,
    port: u32,
    value: u32,
    name: &[u8],
    codes: &[u8],
    out: &mut Reports,
) -> u32 {
    if !sound(t) {
        *out = Reports::NONE;
        return Refusal::Range as u32;
    }
    step_known_sound(t, number, port, value, name, codes, out)
}

/// As [`step`], for a state that is known to be sound. (For another it may panic, or answer
/// anything.)
pub fn step_known_sound(
    t: &mut Tool,
    number: u32,
    port: u32,
    value: u32,
    name: &[u8],
    codes: &[u8],
    out: &mut Reports,
) -> u32 {
    answered(t, &Given { number, port, value, name, codes, clock: 0, time: 0, wafers: &[] }, out)
}

/// As [`step`] for an input that brings the clock: with a name and Tp or Te as its time, where it has
/// them. Every other number is refused with 1.
pub fn time_step(t: &mut Tool, number: u32, clock: u32, name: &[u8], time: u32, out: &mut Reports) -> u32 {
    if !sound(t) {
        *out = Reports::NONE;
        return Refusal::Range as u32;
    }
    time_step_known_sound(t, number, clock, name, time, out)
}

/// As [`time_step`], for a state that is known to be sound.
pub fn time_step_known_sound(
    t: &mut Tool,
    number: u32,
    clock: u32,
    name: &[u8],
    time: u32,
    out: &mut Reports,
) -> u32 {
    let number = if predict::is_timed(number) { number } else { 0 };
    answered(t, &Given { number, port: 0, value: 0, name, codes: &[], clock, time, wafers: &[] }, out)
}

/// As [`step`] for the input that brings the clock and the times of wafers: process, handling, process, handling
/// and so on. An odd number of times, or more than 25 wafers, is refused with 1.
pub fn wafers_step(t: &mut Tool, clock: u32, name: &[u8], wafers: &[f64], out: &mut Reports) -> u32 {
    if !sound(t) {
        *out = Reports::NONE;
        return Refusal::Range as u32;
    }
    wafers_step_known_sound(t, clock, name, wafers, out)
}

/// As [`wafers_step`], for a state that is known to be sound.
pub fn wafers_step_known_sound(
    t: &mut Tool,
    clock: u32,
    name: &[u8],
    wafers: &[f64],
    out: &mut Reports,
) -> u32 {
    let number = wafers::WAFERS;
    answered(t, &Given { number, port: 0, value: 0, name, codes: &[], clock, time: 0, wafers }, out)
}

/// The answer, and the reports where the input is accepted.
#[inline]
fn answered(t: &mut Tool, given: &Given, out: &mut Reports) -> u32 {
    *out = Reports::NONE;
    amended(t, given, out).map_or_else(|refusal| refusal as u32, |()| 0)
}

/// An input with all its parts.
struct Given<'a> {
    number: u32,
    port: u32,
    value: u32,
    name: &'a [u8],
    codes: &'a [u8],
    clock: u32,
    time: u32,
    wafers: &'a [f64],
}

/// The input with what the requests make of it. No report comes before the last refusal.
#[inline]
fn amended(t: &mut Tool, given: &Given, out: &mut Reports) -> Result<()> {
    let map = maps::given(given)?;
    let name = names::given(given)?;
    wafers::given(given)?;
    alarms::given(given)?;
    if predict::brings_clock(given.number) {
        return predict::row(t, given, name, out);
    }
    let before = t.alarms;
    let touched = match queue::row(t, given, name).or_else(|| alarms::row(t, given)) {
        Some(outcome) => outcome?,
        None => amended_row(t, given, name, map)?,
    };
    touched.report(&t.base, out);
    predict::follow(t, given.number, &touched, out);
    alarms::follow(t, given, &touched);
    alarms::report(&before, &t.alarms, out);
    Ok(())
}

/// Document 01's row, with the words on maps, on the queue and on how a transfer starts.
#[inline]
fn amended_row(t: &mut Tool, given: &Given, name: &[u8], map: [u8; MAP_LEN]) -> Outcome {
    queue::admit(t, given, name)?;
    alarms::admit(t, given)?;

    let touched = row(&mut t.base, given.number, given.port, given.value, name, given.codes)?;
    if let Some((i, _)) = touched.went() {
        maps::remove(t, i);
    }
    maps::keep(t, &touched, map);
    maps::judge(t, &touched, given);
    queue::drop_cancelled(t, given, name);
    Ok(touched)
}
