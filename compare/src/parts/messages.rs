//! P3: messages from the host bridge. The edges, with what P3 says of them; messages that ask for an input that is
//! known; and random ones: good, nearly good, damaged, cut and hostile.

use std::fmt;

use independent::gen::requests::secs::{order_tree, random_message};
use independent::gen::requests::{damage, random_run_input, random_sound_tool};
use independent::gen::{Input, Rng};
use independent::requests::Tool;

use crate::laws::misread;
use crate::machine::{Both, Bridged, SetUp};
use crate::play::Finding;

/// Messages to each state and those after it.
const EACH: u64 = 8;

/// How many messages were compared, how many of them were made from an input, and how often each answer was met.
#[derive(Clone, Copy, Default)]
pub struct Messages {
    pub compared: u64,
    pub ordered: u64,
    answers: [u64; 27],
}

impl Messages {
    fn note(&mut self, b: &Bridged) {
        self.compared += 1;
        self.answers[b.heard.answer as usize] += 1;
    }

    /// Answers that messages must meet, and didn't: 6 needs a full tool, and rows 1, 3, 5 and 6 have no 7 and 8.
    pub fn unmet(&self) -> Vec<String> {
        let all = (0..=6).chain(20..=26).filter(|&answer: &usize| self.answers[answer] == 0);
        all.map(|answer| answer.to_string()).collect()
    }
}

/// `0: 123, 1: 45, ..` of those that were met.
impl fmt::Display for Messages {
    fn fmt(&self, f: &mut fmt::Formatter) -> fmt::Result {
        let met = self.answers.iter().enumerate().filter(|(_, &times)| times > 0);
        let met: Vec<String> = met.map(|(answer, times)| format!("{answer}: {times}")).collect();
        f.write_str(&met.join(", "))
    }
}

pub fn compare(both: &Both, total: u64, rng: &mut Rng) -> Result<Messages, Finding> {
    let mut met = Messages::default();
    edges(both, &mut met)?;
    for _ in 0..total.div_ceil(EACH) {
        let mut tool = random_sound_tool(rng);
        if rng.chance(5) {
            damage(&mut tool, rng);
        }
        for k in 0..EACH {
            let b = match k {
                0 => from_an_input(both, &mut met, &tool, rng)?,
                _ => one(both, &mut met, &tool, &random_message(&tool, rng))?,
            };
            tool = b.outcome.tool;
        }
    }
    Ok(met)
}

/// One message to both programs.
fn one(both: &Both, met: &mut Messages, tool: &Tool, message: &[u8]) -> Result<Bridged, Finding> {
    let Some(b) = both.secs(tool, message) else {
        return Err(Finding::Message(Box::new(*tool), message.to_vec()));
    };
    if let Some(why) = misread(tool, message, &b) {
        return Err(Finding::MessageLaw(Box::new(*tool), message.to_vec(), why));
    }
    met.note(&b);
    Ok(b)
}

/// The documents ask for what holds; `why` says what that is.
fn demand(tool: &Tool, message: &[u8], holds: bool, why: impl FnOnce() -> String) -> Result<(), Finding> {
    if holds {
        Ok(())
    } else {
        Err(Finding::MessageLaw(Box::new(*tool), message.to_vec(), why()))
    }
}

/// A message that is made from an input gives what the input gives.
fn from_an_input(both: &Both, met: &mut Messages, tool: &Tool, rng: &mut Rng) -> Result<Bridged, Finding> {
    let input = order(tool, rng);
    let tree = order_tree(&input, rng);
    let message = tree.encode_any(rng);
    let b = one(both, met, tool, &message)?;
    if tree.items() <= 128 {
        let same = both.step(tool, &input).is_some_and(|o| o.same(&b.outcome));
        demand(tool, &message, same && b.heard.items as usize == tree.items(), || {
            format!("the message asks for row {} with {} items", input.number, tree.items())
        })?;
        met.ordered += 1;
    }
    Ok(b)
}

/// An input that a message can ask for: of row 1, 3, 5 or 6, its port one byte, with 25 codes or none.
fn order(tool: &Tool, rng: &mut Rng) -> Input {
    loop {
        let input = random_run_input(tool, rng);
        let asked = [1, 3, 5, 6].contains(&input.number) && input.port < 256;
        if asked && (input.codes.is_empty() || input.codes.len() == 25) {
            return input;
        }
    }
}

const BIND: &str = "0105 a50101 410442696e64 41024142 a50101 ";
const SLOT_MAP: &str = "0101 0102 4107536c6f744d6170 ";

/// Messages in hex, and what P3 says of each: the answer on a tool of one port, the items, and where reading stopped.
const EDGES: [(&str, u32, u32, usize); 42] = [
    ("", 20, 0, 0),
    ("01", 20, 0, 0),
    ("0105", 20, 1, 2),
    ("03ffffff", 20, 1, 4),
    ("ffffffff", 20, 0, 0),
    ("ffffffffff", 20, 0, 0),
    ("a90301", 20, 0, 0),
    ("450541", 20, 0, 0),
    ("fd01", 20, 0, 0),
    ("0102 a50107 4102", 20, 2, 5),
    ("44", 21, 0, 0),
    ("fc", 21, 0, 0),
    ("0101 450141", 21, 1, 2),
    ("0500", 21, 0, 0),
    ("00", 22, 0, 0),
    ("a4", 22, 0, 0),
    ("a903010203", 22, 0, 0),
    ("8104 00000000", 22, 0, 0),
    ("0101010101010101010101010100", 23, 6, 12),
    ("010101010101010101010101 01", 20, 6, 12),
    ("010101010101010101010101 00", 22, 6, 12),
    ("010101010101010101010101 0101", 23, 6, 12),
    ("010101010101010101010101 a50101", 26, 7, 15),
    ("0100 00", 25, 1, 2),
    ("a50101 01", 25, 1, 3),
    ("0100", 26, 1, 2),
    ("0200 00", 26, 1, 3),
    ("4104 42696e64", 26, 1, 6),
    ("0105 a500 410442696e64 41024142 a50101 0100", 26, 6, 19),
    ("0105 a5020101 410442696e64 41024142 a50101 0100", 26, 6, 21),
    ("0105 210101 410442696e64 41024142 a50101 0100", 26, 6, 20),
    ("0105 a50101 410462696e64 41024142 a50101 0100", 26, 6, 20),
    ("0105 a50101 410442696e64 41024142 a500 0100", 26, 6, 19),
    ("0105 a50101 410442696e64 41024142 a9020001 0100", 26, 6, 21),
    ("0105 a50101 410442696e64 41024142 a50101 0101 a50101", 26, 7, 23),
    ("0105 a50101 410442696e64 41024142 a50101 0101 0102 410158 25020101", 26, 9, 29),
    ("0105 a50101 410442696e64 41024142 a50101 0100", 0, 6, 20),
    ("0105 a50101 410442696e64 41024142 a50100 0100", 1, 6, 20),
    ("0105 a50101 410442696e64 4100 a50101 0100", 1, 6, 18),
    ("03000005 a10800000000000000ff 4300000442696e64 4200024142 a6000101 020000", 0, 6, 34),
    (
        "0105 a50101 410442696e64 41024142 a50101 0101 0102 410158 0101 0101 0101 81087ff8000000000001",
        0,
        12,
        41,
    ),
    (
        "0105 a50101 410442696e64 41024142 a50101 0102 0102 410158 2100 0102 4107536c6f744d6170 a50101",
        0,
        12,
        41,
    ),
];

fn edges(both: &Both, met: &mut Messages) -> Result<(), Finding> {
    let (_, tool) = both.setup(SetUp::of(1, 0)).expect("a tool of one port");
    let maps = (23..=27).map(|codes| {
        let message = format!("{BIND}{SLOT_MAP} 01{codes:02x} {}", "a50103".repeat(codes));
        (message, if codes == 25 { 0 } else { 26 }, 9 + codes as u32, 33 + 3 * codes)
    });
    let many = (126..=130).map(|elements| {
        let at = 2 + 3 * elements.min(127);
        let message = format!("01{elements:02x} {}", "a50103".repeat(elements));
        (message, if elements > 127 { 24 } else { 26 }, elements.min(127) as u32 + 1, at)
    });
    let deep = (1..=40).map(|lists| {
        let message = format!("{} a50103", "0101".repeat(lists));
        let (answer, items) = if lists > 6 { (23, 6) } else { (26, lists + 1) };
        (message, answer, items as u32, if lists > 6 { 12 } else { 2 * lists + 3 })
    });
    let written = EDGES.iter().map(|&(message, answer, items, at)| (message.to_string(), answer, items, at));
    for (message, answer, items, at) in written.chain(maps).chain(many).chain(deep) {
        let message = from_hex(&message);
        let b = one(both, met, &tool, &message)?;
        let holds = (b.heard.answer, b.heard.items, b.heard.at) == (answer, items, at);
        demand(&tool, &message, holds, || {
            format!("the message is answered {answer} after {items} items at {at}, not {:?}", b.heard)
        })?;
    }
    Ok(())
}

/// Pairs of hex digits, with blanks between some.
pub fn from_hex(text: &str) -> Vec<u8> {
    let digits: Vec<u32> = text.chars().filter(|&c| c != ' ').map(|c| c.to_digit(16).expect("hex")).collect();
    digits.chunks(2).map(|pair| (pair[0] << 4 | pair[1]) as u8).collect()
}
