//! Runs, inputs and outcomes in the command line's language.

use std::fmt::Write;

use independent::gen::Input;
use independent::Reports;

use crate::machine::{Outcome, SetUp};

/// A set-up and the inputs after it.
#[derive(Clone, Debug, PartialEq)]
pub struct Run {
    pub setup: SetUp,
    pub inputs: Vec<Input>,
}

impl Run {
    pub fn script(&self) -> String {
        let SetUp { ports, places, setting, timeout } = self.setup;
        let mut out = format!("setup {ports} {places}{}\n", missing(setting, timeout));
        for input in &self.inputs {
            let _ = writeln!(out, "{}", line(input));
        }
        out
    }
}

pub fn hex(bytes: &[u8]) -> String {
    if bytes.is_empty() {
        return "-".into();
    }
    bytes.iter().map(|byte| format!("{byte:02x}")).collect()
}

/// The last two numbers of a line: those that are 0 may be missing.
fn missing(one: u32, other: u32) -> String {
    match (one, other) {
        (0, 0) => String::new(),
        (_, 0) => format!(" {one}"),
        _ => format!(" {one} {other}"),
    }
}

pub fn line(i: &Input) -> String {
    let (name, codes, times) = (hex(&i.name), hex(&i.codes), times(i));
    format!("in {} {} {} {name} {codes}{times}", i.number, i.port, i.value)
}

/// The clock, the time and the wafers, where they aren't missing: the bits of each float, the high byte first.
fn times(i: &Input) -> String {
    if i.wafers.is_empty() {
        return missing(i.clock, i.time);
    }
    let bytes: Vec<u8> = i.wafers.iter().flat_map(|bits| bits.to_be_bytes()).collect();
    format!(" {} {} {}", i.clock, i.time, hex(&bytes))
}

/// The models whose subject is a port.
fn of_port(model: u8) -> bool {
    model <= 4 || model == 9
}

/// ANSWER COUNT [MODEL SUBJECT OLD NEW; ..]
pub fn printed(o: &Outcome) -> String {
    let items: Vec<String> = listed(&o.reports)
        .map(|r| {
            let subject = if of_port(r.model) { r.port.to_string() } else { hex(unpadded(&r.name)) };
            format!("{} {subject} {} {}", r.model, r.old, r.new)
        })
        .collect();
    format!("{} {} [{}]", o.answer, o.reports.count, items.join("; "))
}

/// The reports in the form of document 01's table.
pub fn tabled(reports: &Reports) -> String {
    let items: Vec<String> = listed(reports)
        .map(|r| {
            let name = String::from_utf8_lossy(unpadded(&r.name));
            let subject = if of_port(r.model) { r.port.to_string() } else { name.into_owned() };
            format!("{} {subject} {}>{}", r.model, r.old, r.new)
        })
        .collect();
    if items.is_empty() {
        return "none".into();
    }
    items.join("; ")
}

/// The entries that count, however large the count is.
fn listed(reports: &Reports) -> impl Iterator<Item = &independent::Report> {
    reports.items.iter().take(reports.count as usize)
}

pub fn unpadded(name: &[u8; 16]) -> &[u8] {
    let end = name.iter().rposition(|&byte| byte != 0).map_or(0, |last| last + 1);
    &name[..end]
}

#[cfg(test)]
mod tests {
    use super::*;
    use independent::requests::{setup, step, Tool};

    #[test]
    fn lines_are_the_command_lines() {
        let codes = vec![3, 255];
        let input = Input { number: 20, value: 7, name: b"AB".to_vec(), codes, ..Input::default() };
        let mut run = Run {
            setup: SetUp::of(2, 16),
            inputs: vec![input, Input { number: 13, port: 1, ..Input::default() }],
        };
        assert_eq!(run.script(), "setup 2 16\nin 20 0 7 4142 03ff\nin 13 1 0 - -\n");
        let timed = |clock, time| Input { number: 31, clock, time, ..Input::default() };
        run = Run {
            setup: SetUp::fixed(1, 0, 9),
            inputs: vec![timed(0, 0), timed(7, 0), timed(0, 8), timed(7, 8)],
        };
        let lines =
            ["setup 1 0 0 9", "in 31 0 0 - -", "in 31 0 0 - - 7", "in 31 0 0 - - 0 8", "in 31 0 0 - - 7 8"];
        assert_eq!(run.script(), format!("{}\n", lines.join("\n")));
        run = Run { setup: SetUp::fixed(1, 60, 0), inputs: vec![] };
        assert_eq!(run.script(), "setup 1 0 60\n");
    }

    #[test]
    fn wafers_are_the_bits_of_their_times() {
        let mut i = Input { number: 35, name: b"A".to_vec(), clock: 7, ..Input::default() };
        assert_eq!(line(&i), "in 35 0 0 41 - 7");
        i.wafers = vec![1.5f64.to_bits(), (-0.0f64).to_bits()];
        assert_eq!(line(&i), "in 35 0 0 41 - 7 0 3ff80000000000008000000000000000");
        i.clock = 0;
        assert_eq!(line(&i), "in 35 0 0 41 - 0 0 3ff80000000000008000000000000000");
    }

    #[test]
    fn outcomes_in_both_forms() {
        let mut o = Outcome { answer: 0, tool: Tool::NONE, reports: Reports::NONE };
        setup(2, 1, 0, 0, &mut o.tool);
        o.answer = step(&mut o.tool, 1, 2, 0, b"AB", &[], &mut o.reports);
        assert_eq!(printed(&o), "0 5 [3 2 0 1; 4 2 0 1; 5 4142 0 1; 6 4142 0 1; 7 4142 0 1]");
        assert_eq!(tabled(&o.reports), "3 2 0>1; 4 2 0>1; 5 AB 0>1; 6 AB 0>1; 7 AB 0>1");
        let refused = Outcome { answer: 7, reports: Reports::NONE, ..o };
        assert_eq!((printed(&refused).as_str(), tabled(&refused.reports).as_str()), ("7 0 []", "none"));
    }

    #[test]
    fn an_alarm_is_told_by_its_port() {
        let mut o = Outcome { answer: 0, tool: Tool::NONE, reports: Reports::NONE };
        setup(2, 1, 0, 0, &mut o.tool);
        step(&mut o.tool, 9, 2, 1, b"", &[], &mut o.reports);
        o.answer = step(&mut o.tool, 13, 2, 0, b"", &[], &mut o.reports);
        assert_eq!(printed(&o), "0 2 [1 2 1 3; 9 2 0 1]");
        assert_eq!(tabled(&o.reports), "1 2 1>3; 9 2 0>1");
    }
}
