//! A step of either program, as one kind of function.

use hawsermole::raw;
use independent::requests::predict::is_timed;
use independent::requests::secs::{secs_step, SecsAnswer};
use independent::requests::wafers::WAFERS;
use independent::requests::{self, Tool};
use independent::{Plain, Reports};

/// A message to a tool: the answer and the count of items.
pub type Secs = fn(&mut Tool, &[u8], &mut Reports) -> (u32, u32);

/// An input with all its parts.
pub struct Given<'a> {
    pub number: u32,
    pub port: u32,
    pub value: u32,
    pub name: &'a [u8],
    pub codes: &'a [u8],
    pub clock: u32,
    pub time: u32,
    /// The times of wafers, process, handling and so on.
    pub wafers: &'a [f64],
}

pub type Step = fn(&mut Tool, &Given, &mut Reports) -> u32;

/// The proved machine.
pub fn proved(tool: &mut Tool, i: &Given, reports: &mut Reports) -> u32 {
    if is_timed(i.number) {
        return caller_of_hm_time_step(tool, i.number, i.clock, i.name, i.time, reports);
    }
    if i.number == WAFERS {
        return caller_of_hm_wafers_step(tool, i.clock, i.name, i.wafers, reports);
    }
    caller_of_hm_step(tool, i.number, i.port, i.value, i.name, i.codes, reports)
}

/// The independent program.
pub fn independent(tool: &mut Tool, i: &Given, reports: &mut Reports) -> u32 {
    if is_timed(i.number) {
        return requests::time_step(tool, i.number, i.clock, i.name, i.time, reports);
    }
    if i.number == WAFERS {
        return requests::wafers_step(tool, i.clock, i.name, i.wafers, reports);
    }
    requests::step(tool, i.number, i.port, i.value, i.name, i.codes, reports)
}

/// The same without a look at whether the tool is sound.
pub fn independent_known_sound(tool: &mut Tool, i: &Given, reports: &mut Reports) -> u32 {
    if is_timed(i.number) {
        return requests::time_step_known_sound(tool, i.number, i.clock, i.name, i.time, reports);
    }
    if i.number == WAFERS {
        return requests::wafers_step_known_sound(tool, i.clock, i.name, i.wafers, reports);
    }
    requests::step_known_sound(tool, i.number, i.port, i.value, i.name, i.codes, reports)
}

/// The proved machine. What counts instructions knows the caller of `hm_step` by this name.
#[no_mangle]
#[inline(never)]
pub fn caller_of_hm_step(
    tool: &mut Tool,
    number: u32,
    port: u32,
    value: u32,
    name: &[u8],
    codes: &[u8],
    reports: &mut Reports,
) -> u32 {
    let (tool, reports) = (tool.bytes_mut().try_into().unwrap(), reports.bytes_mut().try_into().unwrap());
    // SAFETY: `main` has seen that the sizes agree.
    let answer = unsafe { raw::step(tool, reports, number, port, value, name, codes) };
    // Not a tail call: `hm_step` comes back here.
    std::hint::black_box(answer)
}

/// An input that brings the clock, known in the same way.
#[no_mangle]
#[inline(never)]
pub fn caller_of_hm_time_step(
    tool: &mut Tool,
    number: u32,
    clock: u32,
    name: &[u8],
    time: u32,
    reports: &mut Reports,
) -> u32 {
    let (tool, reports) = (tool.bytes_mut().try_into().unwrap(), reports.bytes_mut().try_into().unwrap());
    // SAFETY: `main` has seen that the sizes agree.
    let answer = unsafe { raw::time_step(tool, reports, number, clock, name, time) };
    std::hint::black_box(answer)
}

/// An input that brings the clock and wafers, known in the same way.
#[no_mangle]
#[inline(never)]
pub fn caller_of_hm_wafers_step(
    tool: &mut Tool,
    clock: u32,
    name: &[u8],
    times: &[f64],
    reports: &mut Reports,
) -> u32 {
    let (tool, reports) = (tool.bytes_mut().try_into().unwrap(), reports.bytes_mut().try_into().unwrap());
    // SAFETY: `main` has seen that the sizes agree.
    let answer = unsafe { raw::wafers_step(tool, reports, clock, name, times) };
    std::hint::black_box(answer)
}

/// The name check, known in the same way.
#[no_mangle]
#[inline(never)]
pub fn caller_of_hm_name(text: &[u8]) -> usize {
    std::hint::black_box(raw::name_length(text))
}

/// The proved reader with the step after it, known in the same way.
#[no_mangle]
#[inline(never)]
pub fn caller_of_hm_secs_step(tool: &mut Tool, message: &[u8], reports: &mut Reports) -> (u32, u32) {
    let (tool, reports) = (tool.bytes_mut().try_into().unwrap(), reports.bytes_mut().try_into().unwrap());
    let mut items = 0;
    // SAFETY: `main` has seen that the sizes agree.
    let answer = unsafe { raw::secs_step(tool, reports, message, &mut items) };
    std::hint::black_box((answer, items))
}

/// The independent program's.
pub fn independent_secs(tool: &mut Tool, message: &[u8], reports: &mut Reports) -> (u32, u32) {
    let SecsAnswer { refusal, items, answer } = secs_step(tool, message, reports);
    (answer.unwrap_or(refusal), items)
}

/// Nothing but reading the input, so that its price is known.
pub fn reading_alone(_: &mut Tool, i: &Given, _: &mut Reports) -> u32 {
    let first = |bytes: &[u8]| bytes.first().map_or(0, |&byte| byte as u32);
    let wafer = i.wafers.first().map_or(0, |time| time.to_bits() as u32);
    i.number ^ i.port ^ i.value ^ i.clock ^ i.time ^ wafer ^ first(i.name) ^ first(i.codes)
}
