//! The archive's functions behind safe ones, which call no archive of another version.
use crate::input::Parts;
use crate::raw::{self, CARRIER_BYTES, REPORTS_BYTES, TOOL_01_BYTES, TOOL_BYTES};
use crate::row::Taker;
use crate::wafer::Wafer;

/// Sets a tool up; a refused set-up leaves all zeros.
pub fn setup(tool: &mut [u8; TOOL_BYTES], ports: u32, places: u32, setting: u32, timeout: u32) -> u32 {
    check_sizes();
    // SAFETY: the archive writes to the tool alone, which is lent to it, and the sizes agree.
    unsafe { raw::hm_setup(tool, ports, places, setting, timeout) }
}

/// Whether a tool, whatever its bytes, is sound.
pub fn sound(tool: &[u8; TOOL_BYTES]) -> bool {
    check_sizes();
    // SAFETY: the archive reads the tool alone, takes any bytes in it, and the sizes agree.
    unsafe { raw::hm_sound(tool) == 1 }
}

/// One input: the answer; tool and reports are written.
pub fn step(tool: &mut [u8; TOOL_BYTES], reports: &mut [u8; REPORTS_BYTES], parts: &Parts<'_>) -> u32 {
    check_sizes();
    let Parts { number, port, value, name, codes, clock, time, wafers } = *parts;
    // SAFETY: the sizes agree.
    unsafe {
        match Taker::of(number) {
            Taker::Step => raw::step(tool, reports, number, port, value, name, codes),
            Taker::TimeStep => raw::time_step(tool, reports, number, clock, name, time),
            Taker::WafersStep => raw::wafers_step(tool, reports, clock, name, Wafer::times(wafers)),
        }
    }
}

/// Whether a record of a table waits for the host; its position, or the length, and how many records were read.
pub fn waiting(records: &[[u8; CARRIER_BYTES]]) -> (bool, [u64; 2]) {
    check_sizes();
    let mut found = [0; 2];
    // SAFETY: the sizes agree, and with that of a tool that of a record.
    let waits = unsafe { raw::waiting(records, &mut found) == 1 };
    (waits, found)
}

/// A message: the answer and the count of items; tool and reports are written.
pub fn secs_step(
    tool: &mut [u8; TOOL_BYTES],
    reports: &mut [u8; REPORTS_BYTES],
    message: &[u8],
) -> (u32, u32) {
    check_sizes();
    let mut items = 0;
    // SAFETY: the sizes agree.
    let answer = unsafe { raw::secs_step(tool, reports, message, &mut items) };
    (answer, items)
}

/// A message and its reply: the answer, the count of items and the reply's length; tool, reports and room are written.
pub fn secs_exchange(
    tool: &mut [u8; TOOL_BYTES],
    reports: &mut [u8; REPORTS_BYTES],
    message: &[u8],
    room: &mut [u8],
) -> (u32, u32, u32) {
    check_sizes();
    let (mut items, mut length) = (0, 0);
    // SAFETY: the sizes agree.
    let answer = unsafe { raw::secs_exchange(tool, reports, message, &mut items, room, &mut length) };
    (answer, items, length)
}

/// A log: what is said of it, and how many entries agree, where the judging ended, the answer that was given last; tool
/// and reports are written.
pub fn judge(
    log: &[u8],
    tool: &mut [u8; TOOL_01_BYTES],
    reports: &mut [u8; REPORTS_BYTES],
) -> (u32, [u64; 3]) {
    check_sizes();
    let mut judged = [0; 3];
    // SAFETY: the sizes agree, and with that of a tool that of document 01's.
    let says = unsafe { raw::judge(log, tool, reports, &mut judged) };
    (says, judged)
}

fn check_sizes() {
    assert!(raw::sizes_agree(), "libhawsermole.a and this crate are of different versions");
}
