//! P13: answers to the bridge.
//!
//! The text of an S3F18 is a list of the acknowledge byte and a list of errors, which is empty for an
//! accepted message. For a refused one it holds a pair: the number as a code, and a text.

#[cfg(feature = "std")]
use crate::gen::requests::secs::Tree;
use crate::state::Reports;

use super::secs::{code, secs_step, SecsAnswer};
use super::texts::{Texts, LONGEST_TEXT};
use super::Tool;

/// The refusal of a room that is shorter than the text.
pub const ROOM_TOO_SMALL: u32 = 14;

/// The acknowledge byte of an answer.
#[inline]
pub const fn acknowledge(number: u32) -> u8 {
    match number {
        0 => 0,
        1 | 20..=26 => 3,
        _ => 5,
    }
}

/// The code of a refusal: its number, or the most that a U2 holds.
#[inline]
pub fn error_code(number: u32) -> u16 {
    number.try_into().unwrap_or(u16::MAX)
}

/// The items of the answer's text.
#[cfg(feature = "std")]
pub fn tree(number: u32, texts: &Texts) -> Tree {
    let code = Tree::Data(code::U2, error_code(number).to_be_bytes().to_vec());
    let error = Tree::List(std::vec![code, Tree::ascii(texts.of(number).as_bytes())]);
    let errors = if number == 0 { std::vec![] } else { std::vec![error] };
    Tree::List(std::vec![Tree::u1(acknowledge(number)), Tree::List(errors)])
}

/// The bytes of the longest text: four lists, a U1 and a U2, and the longest words.
const LONGEST: usize = 4 * 2 + 3 + 4 + 2 + LONGEST_TEXT;

/// A text as it grows. No length in it is above 80, so that one length byte is the shortest.
struct Text {
    bytes: [u8; LONGEST],
    length: usize,
}

impl Text {
    fn of(number: u32, texts: &Texts) -> Text {
        let mut text = Text { bytes: [0; LONGEST], length: 0 };
        text.list(2);
        text.item(code::U1, &[acknowledge(number)]);
        if number == 0 {
            text.list(0);
        } else {
            text.list(1);
            text.list(2);
            text.item(code::U2, &error_code(number).to_be_bytes());
            text.item(code::ASCII, texts.of(number).as_bytes());
        }
        text
    }

    fn list(&mut self, elements: u8) {
        self.push(&[code::LIST << 2 | 1, elements]);
    }

    fn item(&mut self, code: u8, data: &[u8]) {
        self.push(&[code << 2 | 1, data.len() as u8]);
        self.push(data);
    }

    fn push(&mut self, bytes: &[u8]) {
        let end = self.length + bytes.len();
        self.bytes[self.length..end].copy_from_slice(bytes);
        self.length = end;
    }

    fn bytes(&self) -> &[u8] {
        &self.bytes[..self.length]
    }
}

/// How many bytes the text of an answer has.
pub fn length(number: u32, texts: &Texts) -> usize {
    Text::of(number, texts).length
}

/// Writes the text of an answer to the beginning of the room, and gives its length. Where the text is
/// longer than the room nothing is written, and 14 given.
pub fn reply(number: u32, texts: &Texts, room: &mut [u8]) -> Result<usize, u32> {
    let text = Text::of(number, texts);
    let place = room.get_mut(..text.length).ok_or(ROOM_TOO_SMALL)?;
    place.copy_from_slice(text.bytes());
    Ok(text.length)
}

/// What a message gives that is answered.
#[derive(Clone, Copy, PartialEq, Eq, Debug)]
pub struct Exchanged {
    /// The reader's refusal or the tool's answer; or 14, where that answer's text was longer than the
    /// room.
    pub answer: u32,
    /// As many items as [`secs_step`] counts.
    pub items: u32,
    /// How many bytes of the room are the text: none with 14.
    pub length: usize,
}

/// S3F17 in, S3F18 out: reads a message, gives the tool the input that it asks for, and writes the
/// answer's text to the room. With 14 the tool and the room are as they were, and there is no report.
pub fn exchange(
    t: &mut Tool,
    message: &[u8],
    texts: &Texts,
    out: &mut Reports,
    room: &mut [u8],
) -> Exchanged {
    let before = *t;
    let SecsAnswer { refusal, items, answer } = secs_step(t, message, out);
    let answer = answer.unwrap_or(refusal);
    match reply(answer, texts, room) {
        Ok(length) => Exchanged { answer, items, length },
        Err(too_small) => {
            *t = before;
            *out = Reports::NONE;
            Exchanged { answer: too_small, items, length: 0 }
        }
    }
}
