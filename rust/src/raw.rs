//! The archive's functions as they are, for programs that keep a tool in bytes of their own and measure or compare
//! the archive itself. Everybody else is better off with [`Tool`](crate::Tool), which needs no `unsafe`.
//!
//! ```
//! use hawsermole::raw::{self, REPORTS_BYTES, TOOL_BYTES};
//!
//! assert!(raw::sizes_agree());
//! let (mut tool, mut reports) = ([0; TOOL_BYTES], [0; REPORTS_BYTES]);
//! // SAFETY: the sizes agree.
//! let answer = unsafe {
//!     raw::hm_setup(&mut tool, 2, 0, 60, 120);
//!     raw::step(&mut tool, &mut reports, 13, 1, 0, b"", b"")
//! };
//! assert_eq!((answer, reports[0]), (0, 1));
//! ```

/// The version of this crate as a number, 0x00MMmmpp; `HM_VERSION` of the header.
pub const VERSION: u32 = 0x000E00;
/// How many bytes a tool has.
pub const TOOL_BYTES: usize = 3782;
/// How many bytes document 01's tool has, with which a tool begins.
pub const TOOL_01_BYTES: usize = 1891;
/// How many bytes the reports of an input have.
pub const REPORTS_BYTES: usize = 201;
/// How many bytes a carrier's record has.
pub const CARRIER_BYTES: usize = 50;

// `include/hawsermole.h` says what each gives.
unsafe extern "C" {
    /// The archive's version; [`VERSION`] is this crate's.
    pub safe fn hm_version() -> u32;
    /// The bytes of a tool, as the archive has them.
    pub safe fn hm_tool_size() -> u32;
    /// The bytes of the reports, as the archive has them.
    pub safe fn hm_reports_size() -> u32;
    /// The first record of a table that waits for the host; [`waiting`] is the same with a slice.
    pub fn hm_waiting(carriers: *const [u8; CARRIER_BYTES], count: u64, found: &mut [u64; 2]) -> u32;
    /// Sets a tool up, with the setting time and the timeout of predictions; a refused set-up leaves all zeros.
    pub fn hm_setup(tool: &mut [u8; TOOL_BYTES], ports: u32, places: u32, setting: u32, timeout: u32) -> u32;
    /// 1 if a tool, whatever its bytes, is sound, else 0.
    pub fn hm_sound(tool: &[u8; TOOL_BYTES]) -> u32;
    /// How many bytes of a text are its name, 0 where it is refused; [`name_length`] is the same with a slice.
    pub fn hm_name(text: *const u8, length: u64) -> u32;
    /// A message, read and then stepped; [`secs_step`] is the same with a slice.
    pub fn hm_secs_step(
        tool: &mut [u8; TOOL_BYTES],
        reports: &mut [u8; REPORTS_BYTES],
        message: *const u8,
        length: u64,
        items: &mut u32,
    ) -> u32;
    /// A message, read and then stepped, and its reply; [`secs_exchange`] is the same with slices.
    pub fn hm_secs_exchange(
        tool: &mut [u8; TOOL_BYTES],
        reports: &mut [u8; REPORTS_BYTES],
        message: *const u8,
        message_length: u64,
        items: &mut u32,
        room: *mut u8,
        room_length: u64,
        length: &mut u32,
    ) -> u32;
    /// The reply to an answer; [`reply`] is the same with a slice.
    pub fn hm_reply(number: u32, room: *mut u8, room_length: u64, length: &mut u32) -> u32;
    /// Where the reading of a message stopped; [`secs_at`] is the same with a slice.
    pub fn hm_secs_at(message: *const u8, length: u64) -> u64;
    /// A log, judged by document 01; [`judge`] is the same with a slice.
    pub fn hm_judge(
        log: *const u8,
        length: u64,
        tool: &mut [u8; TOOL_01_BYTES],
        reports: &mut [u8; REPORTS_BYTES],
        judged: &mut [u64; 3],
    ) -> u32;
    /// One input; [`step`] is the same with slices.
    pub fn hm_step(
        tool: &mut [u8; TOOL_BYTES],
        reports: &mut [u8; REPORTS_BYTES],
        number: u32,
        port: u32,
        value: u32,
        name: *const u8,
        name_length: u64,
        codes: *const u8,
        codes_length: u64,
    ) -> u32;
    /// One of the inputs 31 to 34, which bring the clock; [`time_step`] is the same with a slice.
    pub fn hm_time_step(
        tool: &mut [u8; TOOL_BYTES],
        reports: &mut [u8; REPORTS_BYTES],
        number: u32,
        clock: u32,
        name: *const u8,
        name_length: u64,
        time: u32,
    ) -> u32;
    /// Input 35, which brings the clock and the times of wafers; [`wafers_step`] is the same with slices.
    pub fn hm_wafers_step(
        tool: &mut [u8; TOOL_BYTES],
        reports: &mut [u8; REPORTS_BYTES],
        clock: u32,
        name: *const u8,
        name_length: u64,
        times: *const f64,
        times_count: u64,
    ) -> u32;
}

/// Whether the archive has the version of this crate, and so its sizes, which are compared all the same. One of another
/// version could write past the bytes that it is lent.
pub fn sizes_agree() -> bool {
    (hm_version(), hm_tool_size(), hm_reports_size()) == (VERSION, TOOL_BYTES as u32, REPORTS_BYTES as u32)
}

/// How many bytes of a text, from its first, are its name, 1 to 16; 0 where the text is refused.
///
/// ```
/// use hawsermole::raw::name_length;
///
/// assert_eq!((name_length(b"AB  "), name_length(b"A B"), name_length(b"  ")), (2, 0, 0));
/// ```
pub fn name_length(text: &[u8]) -> usize {
    // SAFETY: a slice's pointer is never null, and the archive reads no further than its length.
    unsafe { hm_name(text.as_ptr(), text.len() as u64) as usize }
}

/// Is anyone waiting? 1 when a record of the table waits for the host, else 0. What is found is its position, or the
/// length, and how many records were read.
///
/// # Safety
/// [`sizes_agree`].
#[inline(always)]
pub unsafe fn waiting(records: &[[u8; CARRIER_BYTES]], found: &mut [u64; 2]) -> u32 {
    // SAFETY: the caller answers for the size of a record. A slice's pointer is never null, also when it is empty, the
    // archive reads no further than its length and writes to what is found alone, which is lent to it.
    unsafe { hm_waiting(records.as_ptr(), records.len() as u64, found) }
}

/// One input: the answer; tool and reports are written in place.
///
/// # Safety
/// [`sizes_agree`].
#[inline(always)]
pub unsafe fn step(
    tool: &mut [u8; TOOL_BYTES],
    reports: &mut [u8; REPORTS_BYTES],
    number: u32,
    port: u32,
    value: u32,
    name: &[u8],
    codes: &[u8],
) -> u32 {
    let (name_length, codes_length) = (name.len() as u64, codes.len() as u64);
    // SAFETY: tool and reports are lent to the archive, apart from each other, and the caller answers for their sizes.
    // A slice's pointer is never null, also when it is empty, and the archive reads no further than its length.
    unsafe {
        hm_step(tool, reports, number, port, value, name.as_ptr(), name_length, codes.as_ptr(), codes_length)
    }
}

/// One of the inputs 31 to 34, which bring the clock: the answer; tool and reports are written in place.
///
/// # Safety
/// [`sizes_agree`].
#[inline(always)]
pub unsafe fn time_step(
    tool: &mut [u8; TOOL_BYTES],
    reports: &mut [u8; REPORTS_BYTES],
    number: u32,
    clock: u32,
    name: &[u8],
    time: u32,
) -> u32 {
    // SAFETY: as for `step`.
    unsafe { hm_time_step(tool, reports, number, clock, name.as_ptr(), name.len() as u64, time) }
}

/// Input 35, which brings the clock and the times of wafers, process, handling and so on: the answer; tool and reports
/// are written in place.
///
/// # Safety
/// [`sizes_agree`].
#[inline(always)]
pub unsafe fn wafers_step(
    tool: &mut [u8; TOOL_BYTES],
    reports: &mut [u8; REPORTS_BYTES],
    clock: u32,
    name: &[u8],
    times: &[f64],
) -> u32 {
    let (name_length, times_count) = (name.len() as u64, times.len() as u64);
    // SAFETY: as for `step`.
    unsafe { hm_wafers_step(tool, reports, clock, name.as_ptr(), name_length, times.as_ptr(), times_count) }
}

/// A message, read and then stepped: the answer; tool, reports and the count of items are written in place.
///
/// # Safety
/// [`sizes_agree`].
#[inline(always)]
pub unsafe fn secs_step(
    tool: &mut [u8; TOOL_BYTES],
    reports: &mut [u8; REPORTS_BYTES],
    message: &[u8],
    items: &mut u32,
) -> u32 {
    // SAFETY: as for `step`.
    unsafe { hm_secs_step(tool, reports, message.as_ptr(), message.len() as u64, items) }
}

/// A message, read and then stepped, and its reply: the answer; tool, reports, the count of items, the room and the
/// reply's length are written in place.
///
/// # Safety
/// [`sizes_agree`].
#[inline(always)]
pub unsafe fn secs_exchange(
    tool: &mut [u8; TOOL_BYTES],
    reports: &mut [u8; REPORTS_BYTES],
    message: &[u8],
    items: &mut u32,
    room: &mut [u8],
    length: &mut u32,
) -> u32 {
    let (message_length, room_length) = (message.len() as u64, room.len() as u64);
    // SAFETY: as for `step`; the archive writes no further into the room than its length.
    unsafe {
        hm_secs_exchange(
            tool,
            reports,
            message.as_ptr(),
            message_length,
            items,
            room.as_mut_ptr(),
            room_length,
            length,
        )
    }
}

/// The text of S3F18 for an answer, at the room's start: 0, or 14 where it is longer than the room. The length is that
/// of the text, 0 with 14; nothing else of the room is written.
///
/// ```
/// use hawsermole::raw::reply;
///
/// let (mut room, mut length) = ([9; 8], 9);
/// assert_eq!((reply(0, &mut room, &mut length), room, length), (0, [1, 2, 0xA5, 1, 0, 1, 0, 9], 7));
/// assert_eq!((reply(1, &mut room, &mut length), room, length), (14, [1, 2, 0xA5, 1, 0, 1, 0, 9], 0));
/// ```
pub fn reply(number: u32, room: &mut [u8], length: &mut u32) -> u32 {
    // SAFETY: a slice's pointer is never null, and the archive writes no further than its length; room and length are
    // lent to it, apart from each other.
    unsafe { hm_reply(number, room.as_mut_ptr(), room.len() as u64, length) }
}

/// A log, judged by document 01: 0, it agrees, 1, an entry disagrees, or 27 to 29. What is judged is how many entries
/// agree, where the judging ended, and what document 01 answered last; tool and reports are the ones then.
///
/// # Safety
/// [`sizes_agree`].
#[inline(always)]
pub unsafe fn judge(
    log: &[u8],
    tool: &mut [u8; TOOL_01_BYTES],
    reports: &mut [u8; REPORTS_BYTES],
    judged: &mut [u64; 3],
) -> u32 {
    // SAFETY: as for `step`.
    unsafe { hm_judge(log.as_ptr(), log.len() as u64, tool, reports, judged) }
}

/// Where the reading of a message stopped: where the item begins that was refused with 20 to 24, the first byte left
/// over (25), or the end.
///
/// ```
/// use hawsermole::raw::secs_at;
///
/// assert_eq!((secs_at(&[1, 1, 0xA5]), secs_at(&[1, 0, 7]), secs_at(&[1, 0])), (2, 2, 2));
/// ```
pub fn secs_at(message: &[u8]) -> usize {
    // SAFETY: a slice's pointer is never null, and the archive reads no further than its length.
    unsafe { hm_secs_at(message.as_ptr(), message.len() as u64) as usize }
}

#[cfg(test)]
mod tests {
    use super::*;

    #[test]
    fn the_archive_has_our_version_and_sizes() {
        assert_eq!(hm_version(), VERSION);
        assert_eq!(hm_tool_size() as usize, TOOL_BYTES);
        assert_eq!(hm_reports_size() as usize, REPORTS_BYTES);
        assert!(sizes_agree());
    }

    #[test]
    fn sizes_are_the_sum_of_their_parts() {
        use crate::hands::HANDS_BYTES;
        use crate::prediction::PREDICTIONS_BYTES;
        use crate::request::QUEUE_BYTES;
        use crate::tool::{HEAD_BYTES, PORT_BYTES, SPARE_BYTES};
        use crate::{PORTS, RECORDS, SLOTS};
        assert_eq!(TOOL_01_BYTES, HEAD_BYTES + PORTS * PORT_BYTES + RECORDS * CARRIER_BYTES);
        let requests = RECORDS * SLOTS + QUEUE_BYTES + PREDICTIONS_BYTES + HANDS_BYTES;
        assert_eq!(TOOL_BYTES, TOOL_01_BYTES + requests + SPARE_BYTES);
        assert_eq!(REPORTS_BYTES, 1 + crate::REPORTS * crate::report::REPORT_BYTES);
    }
}
