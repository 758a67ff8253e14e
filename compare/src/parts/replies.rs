//! P13: answers to the bridge. The text of every answer number that a U2 holds and of some that it doesn't, in rooms
//! around the text's length; and messages with their answers, the whole way.

use std::fmt;

use independent::gen::requests::secs::random_message;
use independent::gen::requests::{damage, random_sound_tool};
use independent::gen::Rng;
use independent::requests::reply::{tree, Exchanged};
use independent::requests::texts::Texts;
use independent::requests::Tool;
use independent::Reports;

use crate::answer::{exchanged, replied, Exchange, Repliers, Reply, Written};
use crate::machine::{bridged, Independent, Outcome};
use crate::play::Finding;
use crate::script::{hex, printed};
use crate::shown::bytes;
use crate::shrink::{shortest_text, smallest};
use crate::tell::answers;

/// Numbers whose text is written to rooms of every length; of those after them, to rooms around the text's.
const EVERY_ROOM: u32 = 40;
const LAST: u32 = 70_000;

/// Rooms of which nothing is left where the high bits of their length are lost.
const LARGE: [usize; 3] = [256, 65_536, 65_537];

/// Messages to each state and those after it.
const EACH: u64 = 8;

/// How many texts and messages were compared, how many rooms were too small for them, and what was answered where
/// there was room.
#[derive(Clone, Copy, Default)]
pub struct Replies {
    pub texts: u64,
    pub texts_too_long: u64,
    pub messages: u64,
    pub messages_too_long: u64,
    /// Messages that would have been accepted, had there been room.
    held_back: u64,
    answers: [u64; 27],
}

impl Replies {
    /// What messages must meet, and didn't: rows 1, 3, 5 and 6 have no 7 and 8.
    pub fn unmet(&self) -> Vec<String> {
        let all = (0..=6).chain(20..=26).filter(|&answer: &usize| self.answers[answer] == 0);
        let held_back = (self.held_back == 0).then(|| "14 for one that would be accepted".into());
        all.map(|answer| answer.to_string()).chain(held_back).collect()
    }
}

/// `0: 123, 1: 45, ..` of those that were met.
impl fmt::Display for Replies {
    fn fmt(&self, f: &mut fmt::Formatter) -> fmt::Result {
        let met = self.answers.iter().enumerate().filter(|(_, &times)| times > 0);
        let met: Vec<String> = met.map(|(answer, times)| format!("{answer}: {times}")).collect();
        f.write_str(&met.join(", "))
    }
}

pub fn compare(repliers: &Repliers, total: u64, rng: &mut Rng) -> Result<Replies, Finding> {
    let mut met = Replies::default();
    texts(repliers, &mut met, total, rng)?;
    messages(repliers, &mut met, total, rng)?;
    Ok(met)
}

/// The texts of all numbers to 70,000 and of `total` others.
pub fn texts(repliers: &Repliers, met: &mut Replies, total: u64, rng: &mut Rng) -> Result<(), Finding> {
    for number in 0..=LAST {
        text_of(repliers, met, number, rng)?;
    }
    for _ in 0..total {
        let number = rng.draw() as u32 >> rng.below(16);
        text_of(repliers, met, number, rng)?;
    }
    Ok(())
}

/// `total` messages and their answers.
pub fn messages(repliers: &Repliers, met: &mut Replies, total: u64, rng: &mut Rng) -> Result<(), Finding> {
    for _ in 0..total.div_ceil(EACH) {
        let mut tool = random_sound_tool(rng);
        if rng.chance(5) {
            damage(&mut tool, rng);
        }
        for _ in 0..EACH {
            let message = random_message(&tool, rng);
            tool = message_to(repliers, met, &tool, &message, rng)?;
        }
    }
    Ok(())
}

/// A room with random bytes in it.
fn room(length: usize, rng: &mut Rng) -> Vec<u8> {
    let mut room: Vec<u8> = (0..length.div_ceil(8)).flat_map(|_| rng.draw().to_le_bytes()).collect();
    room.truncate(length);
    room
}

fn text_of(repliers: &Repliers, met: &mut Replies, number: u32, rng: &mut Rng) -> Result<(), Finding> {
    let text = text(repliers.texts, number);
    let length = text.len();
    let sizes = if number <= EVERY_ROOM { (0..=length + 3).chain(LARGE).collect() } else { around(length) };
    for size in sizes {
        let room = room(size, rng);
        let Some(reply) = repliers.reply(number, &room) else {
            return Err(Finding::Told(reply_differs(repliers, number, &room)));
        };
        let law = lawful_reply(&text, &room);
        if reply != law {
            return Err(Finding::Told(reply_against(number, &room, &reply, &law)));
        }
        met.texts += 1;
        met.texts_too_long += (reply.written.answer == 14) as u64;
    }
    Ok(())
}

fn around(length: usize) -> Vec<usize> {
    vec![0, length - 1, length, length + 1, length + 3]
}

/// One message in rooms around the length of its answer: the state after it where there is room.
fn message_to(
    repliers: &Repliers,
    met: &mut Replies,
    tool: &Tool,
    message: &[u8],
    rng: &mut Rng,
) -> Result<Tool, Finding> {
    let alone = bridged(&Independent, tool, message);
    let answer = alone.outcome.answer;
    for size in around(text(repliers.texts, answer).len()).into_iter().chain([LARGE[0]]) {
        let room = room(size, rng);
        let Some(x) = repliers.exchange(tool, message, &room) else {
            return Err(Finding::Told(exchange_differs(repliers, tool, message, &room)));
        };
        let law = lawful_exchange(repliers.texts, tool, message, &room);
        if !x.same(&law) {
            return Err(Finding::Told(exchange_against(tool, message, &room, &x, &law)));
        }
        met.messages += 1;
        if x.given.answer == 14 {
            met.messages_too_long += 1;
            met.held_back += (answer == 0) as u64;
        } else {
            met.answers[answer as usize] += 1;
        }
    }
    Ok(alone.outcome.tool)
}

/// P13's words for a text: the items with the shortest length bytes.
fn text(texts: &Texts, number: u32) -> Vec<u8> {
    tree(number, texts).encode_shortest()
}

/// P13's words for a room: the text and what was behind it; or 14 where the text is longer, and the room as it was.
fn lawful_reply(text: &[u8], before: &[u8]) -> Reply {
    let length = text.len();
    match before.split_at_checked(length) {
        Some((_, past)) => Reply { written: Written { answer: 0, length }, room: [text, past].concat() },
        None => Reply { written: Written { answer: 14, length: 0 }, room: before.to_vec() },
    }
}

/// A message is read and stepped, and its answer written; or nothing happens where the answer's text is longer than the
/// room.
fn lawful_exchange(texts: &Texts, tool: &Tool, message: &[u8], before: &[u8]) -> Exchange {
    let alone = bridged(&Independent, tool, message);
    let Reply { written, room } = lawful_reply(&text(texts, alone.outcome.answer), before);
    let outcome = if written.answer == 0 {
        alone.outcome
    } else {
        Outcome { answer: written.answer, tool: *tool, reports: Reports::NONE }
    };
    let given = Exchanged { answer: outcome.answer, items: alone.heard.items, length: written.length };
    Exchange { outcome, given, room }
}

fn reply_differs(repliers: &Repliers, number: u32, room: &[u8]) -> String {
    let one = told_reply(room, &replied(repliers.proved, number, room));
    let other = told_reply(room, &replied(repliers.independent, number, room));
    let said = beside(["proved", "independent"], [one, other]);
    format!("DIFFERENT. The line\nreply {number} {}\n{said}", room.len())
}

fn reply_against(number: u32, room: &[u8], reply: &Reply, law: &Reply) -> String {
    let said = beside(["both", "P13"], [reply, law].map(|reply| told_reply(room, reply)));
    format!("BOTH ARE AGAINST THE DOCUMENTS. The line\nreply {number} {}\n{said}", room.len())
}

fn exchange_differs(repliers: &Repliers, tool: &Tool, message: &[u8], room: &[u8]) -> String {
    let message = shortest_text(message, |message| repliers.exchange(tool, message, room).is_none());
    let tool = smallest(tool, |tool| repliers.exchange(tool, &message, room).is_none());
    let one = exchanged(repliers.proved, &tool, &message, room);
    let other = exchanged(repliers.independent, &tool, &message, room);
    let said = beside(["proved", "independent"], [&one, &other].map(|x| told_exchange(room, x)));
    let (given, after) = (message_in_room(&tool, &message, room), answers(&one.outcome, &other.outcome));
    format!("DIFFERENT. {given}{said}{after}")
}

fn exchange_against(tool: &Tool, message: &[u8], room: &[u8], x: &Exchange, law: &Exchange) -> String {
    let told = [x, law].map(|x| format!("{}; {}", told_exchange(room, x), printed(&x.outcome)));
    let alike = told[0] == told[1];
    let (given, said) = (message_in_room(tool, message, room), beside(["both", "P13"], told));
    let unseen =
        if alike { "the state after it, or bytes that a report doesn't use, are others\n" } else { "" };
    format!("BOTH ARE AGAINST THE DOCUMENTS. {given}{said}{unseen}")
}

fn message_in_room(tool: &Tool, message: &[u8], room: &[u8]) -> String {
    let (state, message, length) = (bytes(tool), hex(message), room.len());
    format!(
        "From the state of these bytes:\n{state}the message, with a room of {length} bytes\nsecs {message}\n"
    )
}

/// What each of two says, one below the other.
fn beside(who: [&str; 2], said: [String; 2]) -> String {
    format!("{:<13}{}\n{:<13}{}\n", who[0], said[0], who[1], said[1])
}

fn told_reply(before: &[u8], Reply { written, room }: &Reply) -> String {
    let Written { answer, length } = written;
    format!("{answer}, length {length}, {}", told_room(before, room))
}

fn told_exchange(before: &[u8], Exchange { given, room, .. }: &Exchange) -> String {
    let Exchanged { answer, items, length } = given;
    format!("{answer}, {items} items, length {length}, {}", told_room(before, room))
}

/// The room up to the last byte that was changed.
fn told_room(before: &[u8], after: &[u8]) -> String {
    match after.iter().zip(before).rposition(|(after, before)| after != before) {
        None => "the room as it was".into(),
        Some(last) => format!("the room {}", hex(&after[..=last])),
    }
}
