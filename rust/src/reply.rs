//! S3F18, the answer to the host.
use crate::raw;
use crate::refusal::{refused, Refusal};
use crate::report::Reports;

/// Bytes of room that every reply fits into: 15, and a text of at most 80.
pub const REPLY_ROOM: usize = 95;

/// What a message gave, and the reply to it.
#[derive(Clone, Debug, PartialEq, Eq)]
pub struct Exchanged<'room> {
    /// The tool's answer; the reader's refusal, 20 to 26; or [`Refusal::RoomTooSmall`]. With the last two the tool got
    /// no input.
    pub answer: Result<Reports, Refusal>,
    /// How many items of the message have begun that met none of 20 to 24: at most [`SECS_ITEMS`](crate::SECS_ITEMS).
    pub items: u32,
    /// The text of S3F18, at the room's start; nothing where the room was too small.
    pub reply: &'room [u8],
}

/// The text of S3F18 for an answer: 0 for accepted, or a refusal's number; any other gets a text of its own. It stands
/// at the room's start, and nothing else of the room is written. [`Refusal::RoomTooSmall`] exactly where the text is
/// longer than the room: then nothing is. [`REPLY_ROOM`] bytes are always enough.
///
/// ```
/// use hawsermole::{reply, Refusal, REPLY_ROOM};
///
/// let mut room = [0; REPLY_ROOM];
/// assert_eq!(reply(0, &mut room).unwrap(), b"\x01\x02\xA5\x01\x00\x01\x00");
///
/// // A list of U1 3 and a list of one pair, U2 20 and a text of 17 bytes.
/// let text = b"\x01\x02\xA5\x01\x03\x01\x01\x01\x02\xA9\x02\x00\x14\x41\x11Message cut short";
/// assert_eq!(reply(20, &mut room).unwrap(), text);
/// assert_eq!(reply(20, &mut room[..text.len()]).unwrap(), text);
/// assert_eq!(reply(20, &mut room[..text.len() - 1]), Err(Refusal::RoomTooSmall));
/// ```
pub fn reply(number: u32, room: &mut [u8]) -> Result<&[u8], Refusal> {
    let mut length = 0;
    refused(raw::reply(number, room, &mut length))?;
    Ok(&room[..length as usize])
}
