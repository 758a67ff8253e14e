//! The two programs as they answer the bridge.

use hawsermole::raw;
use independent::requests::reply::{self, Exchanged};
use independent::requests::texts::Texts;
use independent::requests::Tool;
use independent::Reports;

use crate::machine::{left_over, lent, Outcome, Proved};

/// What a program says of a text: 0 or 14, and how many bytes it wrote.
#[derive(Clone, Copy, Debug, PartialEq, Eq)]
pub struct Written {
    pub answer: u32,
    pub length: usize,
}

pub trait Replier {
    /// Writes the text of an answer number to the room.
    fn reply(&self, number: u32, room: &mut [u8]) -> Written;
    /// Reads a message, gives the tool what it asks for and writes the answer to the room.
    fn exchange(&self, tool: &mut Tool, message: &[u8], reports: &mut Reports, room: &mut [u8]) -> Exchanged;
}

impl Replier for Proved {
    fn reply(&self, number: u32, room: &mut [u8]) -> Written {
        let mut length = u32::MAX;
        // SAFETY: the room is lent with its length, and the length is a number of ours.
        let answer = unsafe { raw::hm_reply(number, room.as_mut_ptr(), room.len() as u64, &mut length) };
        Written { answer, length: length as usize }
    }

    fn exchange(&self, tool: &mut Tool, message: &[u8], reports: &mut Reports, room: &mut [u8]) -> Exchanged {
        let (text, size) = (message.as_ptr(), message.len() as u64);
        let (to, most) = (room.as_mut_ptr(), room.len() as u64);
        let (mut items, mut length) = (u32::MAX, u32::MAX);
        // SAFETY: the sizes agree; message and room are lent with their lengths.
        let answer = unsafe {
            raw::hm_secs_exchange(lent(tool), lent(reports), text, size, &mut items, to, most, &mut length)
        };
        Exchanged { answer, items, length: length as usize }
    }
}

/// The independent program with the texts of a page.
pub struct Worded<'a>(pub Texts<'a>);

impl Replier for Worded<'_> {
    fn reply(&self, number: u32, room: &mut [u8]) -> Written {
        match reply::reply(number, &self.0, room) {
            Ok(length) => Written { answer: 0, length },
            Err(answer) => Written { answer, length: 0 },
        }
    }

    fn exchange(&self, tool: &mut Tool, message: &[u8], reports: &mut Reports, room: &mut [u8]) -> Exchanged {
        reply::exchange(tool, message, &self.0, reports, room)
    }
}

/// What is written of an answer number, with the whole room after it.
#[derive(Clone, Debug, PartialEq, Eq)]
pub struct Reply {
    pub written: Written,
    pub room: Vec<u8>,
}

pub fn replied(replier: &dyn Replier, number: u32, room: &[u8]) -> Reply {
    let mut room = room.to_vec();
    let written = replier.reply(number, &mut room);
    Reply { written, room }
}

/// Everything that a message gives which is answered in a room.
#[derive(Clone)]
pub struct Exchange {
    pub outcome: Outcome,
    pub given: Exchanged,
    pub room: Vec<u8>,
}

impl Exchange {
    pub fn same(&self, other: &Exchange) -> bool {
        self.given == other.given && self.room == other.room && self.outcome.same(&other.outcome)
    }
}

pub fn exchanged(replier: &dyn Replier, tool: &Tool, message: &[u8], room: &[u8]) -> Exchange {
    let mut outcome = Outcome { answer: 0, tool: *tool, reports: left_over() };
    let mut room = room.to_vec();
    let given = replier.exchange(&mut outcome.tool, message, &mut outcome.reports, &mut room);
    outcome.answer = given.answer;
    Exchange { outcome, given, room }
}

/// The two programs side by side, and the texts that both have.
pub struct Repliers<'a> {
    pub proved: &'a dyn Replier,
    pub independent: &'a dyn Replier,
    pub texts: &'a Texts<'a>,
}

impl Repliers<'_> {
    /// What both write, or `None` where they differ.
    pub fn reply(&self, number: u32, room: &[u8]) -> Option<Reply> {
        let one = replied(self.proved, number, room);
        (one == replied(self.independent, number, room)).then_some(one)
    }

    /// What both give for a message, or `None` where they differ.
    pub fn exchange(&self, tool: &Tool, message: &[u8], room: &[u8]) -> Option<Exchange> {
        let one = exchanged(self.proved, tool, message, room);
        one.same(&exchanged(self.independent, tool, message, room)).then_some(one)
    }
}
