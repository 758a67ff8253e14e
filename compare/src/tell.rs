//! A finding in words: the shortest script that shows it, and what each program answers.

use std::fmt::Write;

use independent::gen::Input;
use independent::requests::Tool;
use independent::Plain;

use crate::machine::{bridged, outcome, set_up, Both, Bridged, Outcome};
use crate::play::Finding;
use crate::script::{hex, line, printed, Run};
use crate::shown::{bytes, field};
use crate::shrink::{plainest, shortest, shortest_text, smallest};

pub fn tell(both: &Both, finding: &Finding) -> String {
    match finding {
        Finding::Run(run) => tell_run(both, &shortest(both, run)),
        Finding::State(tool, input) => tell_state(both, tool, input),
        Finding::Sound(tool) => tell_sound(both, tool),
        Finding::Name(text) => tell_name(both, text),
        Finding::Message(tool, message) => tell_message(both, tool, message),
        Finding::Document(run, why) => {
            format!("BOTH ARE AGAINST THE DOCUMENTS: {why}. The script:\n{}", shortest(both, run).script())
        }
        Finding::Law(tool, input, why) => {
            format!("BOTH ARE AGAINST THE DOCUMENTS: {why}. From the state\n{}{}\n", bytes(tool), line(input))
        }
        Finding::NameLaw(text, why) => {
            format!("BOTH ARE AGAINST THE DOCUMENTS: {why}. The text:\n{}\n", hex(text))
        }
        Finding::Told(told) => told.clone(),
        Finding::MessageLaw(tool, message, why) => {
            let (state, message) = (bytes(tool), hex(message));
            format!("BOTH ARE AGAINST THE DOCUMENTS: {why}. From the state\n{state}secs {message}\n")
        }
    }
}

fn tell_run(both: &Both, run: &Run) -> String {
    let mut out = format!("DIFFERENT. The shortest script found that shows it:\n{}", run.script());
    let Some((last, before)) = run.inputs.split_last() else {
        let (a, one) = set_up(both.proved, run.setup);
        let (b, other) = set_up(both.independent, run.setup);
        let _ = writeln!(out, "proved       setup {a}\nindependent  setup {b}");
        return out + &differing(&one, &other);
    };
    let mut tool = set_up(both.independent, run.setup).1;
    for input in before {
        tool = outcome(both.independent, &tool, input).tool;
    }
    out + &answers(&outcome(both.proved, &tool, last), &outcome(both.independent, &tool, last))
}

fn tell_state(both: &Both, tool: &Tool, input: &Input) -> String {
    let input = plainest(input, |input| both.step(tool, input).is_none());
    let tool = smallest(tool, |tool| both.step(tool, &input).is_none());
    let mut out = String::from("DIFFERENT. From the state of these bytes:\n");
    let _ = write!(out, "{}the input\n{}\n", bytes(&tool), line(&input));
    out + &answers(&outcome(both.proved, &tool, &input), &outcome(both.independent, &tool, &input))
}

fn tell_sound(both: &Both, tool: &Tool) -> String {
    let tool = smallest(tool, |tool| both.sound(tool).is_none());
    let word = |yes: u32| if yes == 1 { "sound" } else { "not sound" };
    format!(
        "DIFFERENT. The state of these bytes:\n{}proved       {}\nindependent  {}\n",
        bytes(&tool),
        word(both.proved.sound(&tool)),
        word(both.independent.sound(&tool)),
    )
}

fn tell_name(both: &Both, text: &[u8]) -> String {
    let text = shortest_text(text, |text| both.name(text).is_none());
    let name = |length: u32| match length {
        0 => "no name".into(),
        _ => format!("a name of {length} bytes"),
    };
    format!(
        "DIFFERENT. The text\n{}\nproved       {}\nindependent  {}\n",
        hex(&text),
        name(both.proved.name(&text)),
        name(both.independent.name(&text)),
    )
}

fn tell_message(both: &Both, tool: &Tool, message: &[u8]) -> String {
    let message = shortest_text(message, |message| both.secs(tool, message).is_none());
    let tool = smallest(tool, |tool| both.secs(tool, &message).is_none());
    let (one, other) = (bridged(both.proved, &tool, &message), bridged(both.independent, &tool, &message));
    let read = |b: &Bridged| format!("{} items, read to {}", b.heard.items, b.heard.at);
    let mut out = String::from("DIFFERENT. From the state of these bytes:\n");
    let _ = write!(out, "{}the message\nsecs {}\n", bytes(&tool), hex(&message));
    let _ = writeln!(out, "proved       {}\nindependent  {}", read(&one), read(&other));
    out + &answers(&one.outcome, &other.outcome)
}

/// What each program answers and reports, and where the states after it differ.
pub fn answers(proved: &Outcome, independent: &Outcome) -> String {
    let mut out = format!("proved       {}\nindependent  {}\n", printed(proved), printed(independent));
    if proved.reports.bytes() != independent.reports.bytes() && printed(proved) == printed(independent) {
        let _ = writeln!(out, "the entries past the count, or bytes that a report doesn't use, differ");
    }
    out + &differing(&proved.tool, &independent.tool)
}

/// The bytes in which two states differ.
fn differing(proved: &Tool, independent: &Tool) -> String {
    let mut out = String::new();
    let pairs = proved.bytes().iter().zip(independent.bytes()).enumerate();
    for (at, (a, b)) in pairs.filter(|(_, (a, b))| a != b).take(8) {
        let _ = writeln!(out, "the state after: byte {at}, {}: proved {a}, independent {b}", field(at));
    }
    out
}
