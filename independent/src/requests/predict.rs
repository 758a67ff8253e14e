//! P7: prediction of ready to unload.
//!
//! Each record of a fixed buffer tool has a prediction, at the record's position: model 8. The inputs
//! that bring the clock judge all of them, and some rows of document 01 change that of their carrier.
//! Several turns may come of one input, so that they are told as they happen.

use super::wafers::{self, WAFERS};
use super::{Given, Tool};
use crate::report::Touched;
use crate::rows::{read_name, unless, Refusal, Result};
use crate::sound::all_zero;
use crate::state::{transfer, Carrier, Plain, Report, Reports, MAX_CARRIERS};

/// Values of [`Prediction::state`]; 0 where there is none.
pub mod state {
    pub const DISABLED: u8 = 1;
    pub const WAITING_FOR_CARRIER: u8 = 2;
    pub const WAITING_FOR_PREDICTION: u8 = 3;
    pub const PREDICTED: u8 = 4;
    pub const ABORTED: u8 = 5;
    pub const COMPLETED: u8 = 6;
}

use state::*;

/// The most seconds of setting time and timeout.
pub const LONGEST: u32 = 86_400;

pub const CLOCK: u32 = 31;
pub const PREDICTED_TIME: u32 = 32;
pub const ESTIMATE: u32 = 33;
pub const NO_PREDICTION: u32 = 34;

const CANCEL_CARRIER: u32 = 6;
const ACCESS_START: u32 = 21;
const CLOSE: u32 = 23;
const UNLOAD_FAIL: u32 = 26;

const MODEL: u8 = 8;

/// Seconds, the low byte first.
type Seconds = [u8; 4];

#[derive(Clone, Copy, PartialEq, Eq, Debug)]
#[repr(C)]
pub struct Prediction {
    pub state: u8,
    pub has_tp: u8,
    pub has_te: u8,
    /// The predicted time and the estimate; 0 where there is none.
    pub tp: Seconds,
    pub te: Seconds,
}

#[derive(Clone, Copy, PartialEq, Eq, Debug)]
#[repr(C)]
pub struct Predictions {
    /// The last clock accepted.
    pub clock: Seconds,
    pub setting: Seconds,
    pub timeout: Seconds,
    /// That of each record, at the record's position.
    pub of: [Prediction; MAX_CARRIERS],
}

// SAFETY: every field is a `u8`, an array of them, or a type for which this holds.
unsafe impl Plain for Prediction {}
unsafe impl Plain for Predictions {}

const _: () = {
    use core::mem::size_of;
    assert!(size_of::<Prediction>() == 11 && size_of::<Predictions>() == 3 * 4 + 36 * 11);
};

impl Prediction {
    pub const NONE: Prediction = Prediction { state: 0, has_tp: 0, has_te: 0, tp: [0; 4], te: [0; 4] };

    #[inline]
    pub fn tp(&self) -> Option<u32> {
        (self.has_tp != 0).then(|| u32::from_le_bytes(self.tp))
    }

    #[inline]
    pub fn te(&self) -> Option<u32> {
        (self.has_te != 0).then(|| u32::from_le_bytes(self.te))
    }

    #[inline]
    pub fn set_tp(&mut self, tp: u32) {
        (self.has_tp, self.tp) = (1, tp.to_le_bytes());
    }

    #[inline]
    pub fn set_te(&mut self, te: u32) {
        (self.has_te, self.te) = (1, te.to_le_bytes());
    }
}

impl Predictions {
    pub const NONE: Predictions =
        Predictions { clock: [0; 4], setting: [0; 4], timeout: [0; 4], of: [Prediction::NONE; MAX_CARRIERS] };

    #[inline]
    pub fn clock(&self) -> u32 {
        u32::from_le_bytes(self.clock)
    }

    #[inline]
    pub fn setting(&self) -> u32 {
        u32::from_le_bytes(self.setting)
    }

    #[inline]
    pub fn timeout(&self) -> u32 {
        u32::from_le_bytes(self.timeout)
    }

    /// The state that a prediction is judged to go to, if any. Only one with a Tp that waits or is
    /// PREDICTED is judged, and abort is looked at first. Without an estimate Te is now once Tp has
    /// passed; before that now is less than Tp and a timeout, so that now will do always.
    #[inline]
    fn verdict(&self, p: &Prediction) -> Option<u8> {
        if p.has_tp == 0 || !matches!(p.state, WAITING_FOR_PREDICTION | PREDICTED) {
            return None;
        }
        let tp = u32::from_le_bytes(p.tp) as u64;
        let (now, timeout) = (self.clock(), self.timeout());
        let te = p.te().unwrap_or(now);
        if timeout != 0 && te as u64 >= tp + timeout as u64 {
            return Some(ABORTED);
        }
        let near = tp <= now as u64 + self.setting() as u64;
        (near && p.state == WAITING_FOR_PREDICTION).then_some(PREDICTED)
    }
}

/// Sets the two times of a tool, which has no record yet. Whether they are in range.
#[inline]
pub(super) fn setup(p: &mut Predictions, setting: u32, timeout: u32) -> bool {
    (p.setting, p.timeout) = (setting.to_le_bytes(), timeout.to_le_bytes());
    setting.max(timeout) <= LONGEST
}

// ---- Turns ------------------------------------------------------------------------------------

/// Record `i` goes to another state, which is told.
#[inline]
fn turn(t: &mut Tool, i: usize, new: u8, out: &mut Reports) {
    let name = t.base.carrier[i].name;
    let old = core::mem::replace(&mut t.predictions.of[i].state, new);
    out.push(Report { model: MODEL, port: 0, name, old, new });
}

/// From PREDICTED or ABORTED to COMPLETED, if its port is READY TO UNLOAD (25, 29).
#[inline]
fn complete_if_ready(t: &mut Tool, i: usize, out: &mut Reports) {
    // Only a carrier at a port is in these states.
    if matches!(t.predictions.of[i].state, PREDICTED | ABORTED) {
        let port = t.base.carrier[i].port as usize;
        if t.base.port[port - 1].transfer == transfer::READY_TO_UNLOAD {
            turn(t, i, COMPLETED, out);
        }
    }
}

/// From WAITING FOR CARRIER to WAITING FOR PREDICTION (23), or to DISABLED when the setting is 0 (26).
#[inline]
fn begin(t: &mut Tool, i: usize, out: &mut Reports) {
    let enabled = t.predictions.setting() != 0;
    turn(t, i, if enabled { WAITING_FOR_PREDICTION } else { DISABLED }, out);
}

/// An accepted CancelCarrier, after which the carrier's port is READY TO UNLOAD.
#[inline]
fn cancelled(t: &mut Tool, i: usize, out: &mut Reports) {
    if t.predictions.of[i].state != WAITING_FOR_CARRIER {
        return complete_if_ready(t, i, out);
    }
    begin(t, i, out);
    if t.predictions.of[i].state == WAITING_FOR_PREDICTION {
        let now = t.predictions.clock();
        t.predictions.of[i].set_tp(now);
        turn(t, i, PREDICTED, out);
        turn(t, i, COMPLETED, out);
    }
}

/// The predictions follow what a row of document 01 did: first the record that went, then the one that
/// came, then what the row is to its carrier.
#[inline]
pub(super) fn follow(t: &mut Tool, number: u32, touched: &Touched, out: &mut Reports) {
    if t.base.places != 0 {
        return;
    }
    if let Some((i, name)) = touched.went() {
        let old = t.predictions.of[i].state;
        t.predictions.of.copy_within(i + 1.., i);
        t.predictions.of[MAX_CARRIERS - 1] = Prediction::NONE;
        out.push(Report { model: MODEL, port: 0, name, old, new: 0 });
    }
    if let Some(i) = touched.came() {
        turn(t, i, WAITING_FOR_CARRIER, out);
    }
    match (number, touched.stands(), touched.port_index()) {
        (CANCEL_CARRIER, Some(i), _) => cancelled(t, i, out),
        (ACCESS_START, Some(i), _) if t.predictions.of[i].state == WAITING_FOR_CARRIER => begin(t, i, out),
        (CLOSE | UNLOAD_FAIL, _, Some(p)) => {
            if let Some(i) = t.base.tied_to(p) {
                complete_if_ready(t, i, out);
            }
        }
        _ => {}
    }
}

// ---- The inputs that bring the clock ------------------------------------------------------------

/// Whether this is an input that brings the clock, and a time at most.
#[inline]
pub const fn is_timed(number: u32) -> bool {
    matches!(number, CLOCK..=NO_PREDICTION)
}

/// Whether this is an input that brings the clock, with wafers too.
#[inline]
pub const fn brings_clock(number: u32) -> bool {
    is_timed(number) || number == WAFERS
}

/// The inputs that bring the clock: what they say of a carrier first, then all are judged.
#[inline]
pub(super) fn row(t: &mut Tool, given: &Given, name: &[u8], out: &mut Reports) -> Result<()> {
    let named = if given.number == CLOCK { None } else { Some(admitted(t, given.number, name)?) };
    unless(given.clock >= t.predictions.clock(), Refusal::ClockEarlier)?;
    let time = match given.number {
        WAFERS => wafers::tp(given.clock, given.wafers).ok_or(Refusal::NoTp)?,
        _ => given.time,
    };

    t.predictions.clock = given.clock.to_le_bytes();
    match (given.number, named) {
        (PREDICTED_TIME | WAFERS, Some(i)) => t.predictions.of[i].set_tp(time),
        (ESTIMATE, Some(i)) => t.predictions.of[i].set_te(time),
        (NO_PREDICTION, Some(i)) => {
            turn(t, i, ABORTED, out);
            complete_if_ready(t, i, out);
        }
        _ => {}
    }
    judge(t, out);
    Ok(())
}

/// The record that an input names, if its prediction may have what the input says.
#[inline]
fn admitted(t: &Tool, number: u32, name: &[u8]) -> Result<usize> {
    let i = t.base.find(read_name(name)?).ok_or(Refusal::NoRecord)?;
    let p = &t.predictions.of[i];
    let may = match number {
        PREDICTED_TIME | WAFERS => p.state == WAITING_FOR_PREDICTION && p.has_tp == 0,
        ESTIMATE => p.has_tp != 0,
        _ => p.state == WAITING_FOR_PREDICTION,
    };
    // With a buffer every prediction is zero, so that none may.
    unless(may, Refusal::Conditions)?;
    Ok(i)
}

/// Judges every carrier that has a Tp, in record order.
#[inline]
fn judge(t: &mut Tool, out: &mut Reports) {
    for i in 0..t.base.count as usize {
        if let Some(new) = t.predictions.verdict(&t.predictions.of[i]) {
            turn(t, i, new, out);
            complete_if_ready(t, i, out);
        }
    }
}

// ---- Soundness ----------------------------------------------------------------------------------

/// The words on predictions, where document 01's tool is sound. With a buffer there are none.
pub(super) fn sound(t: &Tool) -> bool {
    let p = &t.predictions;
    let live = if t.base.places == 0 { t.base.count as usize } else { 0 };
    let (live, past) = p.of.split_at(live);
    p.setting().max(p.timeout()) <= LONGEST
        && all_zero(Prediction::bytes_of(past))
        && predictions_agree(t, live)
}

/// Which states a carrier may have that isn't at a port (bit 0), that is at one (bit 1), and at one that is
/// READY TO UNLOAD (bit 2): only a carrier at a port has left WAITING FOR CARRIER, and none is PREDICTED or
/// ABORTED with its port READY TO UNLOAD.
const MAY_BE: [u8; 8] = [0, 0b110, 0b111, 0b110, 0b010, 0b010, 0b110, 0];

/// The bits of Tp, and of Te behind it, that are 0 where neither is there, Tp alone, Te alone, and both.
const MUST_BE_0: [u64; 4] = [u64::MAX, u64::MAX << 32, u64::MAX >> 32, 0];

/// Each is in its range, and in a state that its carrier may have. What is wrong is gathered without a branch.
#[inline]
fn predictions_agree(t: &Tool, live: &[Prediction]) -> bool {
    // Where a carrier is, as a bit of `MAY_BE`: by its port, if it is at one.
    let mut at = [0b010; 8];
    for (p, port) in t.base.ports().iter().enumerate() {
        at[p + 1] <<= (port.transfer == transfer::READY_TO_UNLOAD) as u8;
    }
    let wrong = |p: &Prediction, c: &Carrier| {
        let seat = if c.at_port() { at[c.port as usize & 7] } else { 0b001 };
        let strange = (MAY_BE[p.state as usize & 7] & seat == 0) as u8;
        let beyond = (p.state & !7) | ((p.has_tp | p.has_te) & !1);
        let [a, b, c, d] = p.tp;
        let [e, f, g, h] = p.te;
        let times = u64::from_le_bytes([a, b, c, d, e, f, g, h]);
        let there = (p.has_tp | p.has_te << 1) as usize & 3;
        times & MUST_BE_0[there] | (strange | beyond) as u64
    };
    live.iter().zip(&t.base.carrier).fold(0, |sum, (p, c)| sum | wrong(p, c)) == 0
}
