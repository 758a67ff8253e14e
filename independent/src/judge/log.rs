//! The log that a tool keeps which does as document 01 says.

use std::vec::Vec;

use super::entry::SLOT_MAP;
use super::MARK;
use crate::gen::{unpadded, Input};
use crate::state::{setup, Reports, Tool, MAP_LEN};
use crate::step;

/// Whether a log has room for the input: numbers and lengths are one byte, and SlotMap has 25 codes.
/// The codes of other rows aren't written.
pub fn fits(input: &Input) -> bool {
    let numbers = [input.number, input.port, input.value, input.name.len() as u32];
    let codes = input.number != SLOT_MAP as u32 || input.codes.len() == MAP_LEN;
    numbers.iter().all(|&number| number < 256) && codes
}

/// Where an entry stands in its log.
#[derive(Clone, Copy, PartialEq, Eq, Debug)]
pub struct Place {
    pub begin: usize,
    /// Where what it shows begins.
    pub answer: usize,
}

/// A log as it is written, and the tool that it is of.
#[derive(Clone)]
pub struct Log {
    pub tool: Tool,
    pub bytes: Vec<u8>,
    pub entries: Vec<Place>,
}

impl Log {
    /// A log without entries. The set-up must be one that is accepted.
    pub fn begin(ports: u8, places: u8) -> Log {
        let mut tool = Tool::NONE;
        assert_eq!(setup(ports as u32, places as u32, &mut tool), 0, "a good set-up");
        let bytes = [&MARK[..], &[ports, places]].concat();
        Log { tool, bytes, entries: Vec::new() }
    }

    /// The log of these inputs.
    pub fn of(ports: u8, places: u8, inputs: &[Input]) -> Log {
        let mut log = Log::begin(ports, places);
        inputs.iter().for_each(|input| log.give(input));
        log
    }

    /// Gives the tool an input for which there is room, and writes it down with what comes of it.
    pub fn give(&mut self, i: &Input) {
        assert!(fits(i), "a log has no room for {i:?}");
        let mut out = Reports::NONE;
        let answer = step(&mut self.tool, i.number, i.port, i.value, &i.name, &i.codes, &mut out);
        let begin = self.bytes.len();
        self.bytes.extend([i.number, i.port, i.value].map(|number| number as u8));
        self.name(&i.name);
        if i.number == SLOT_MAP as u32 {
            self.bytes.extend(&i.codes);
        }
        self.entries.push(Place { begin, answer: self.bytes.len() });
        self.bytes.extend([answer as u8, out.count]);
        for report in out.as_slice() {
            self.bytes.push(report.model);
            if report.model <= 4 {
                self.bytes.push(report.port);
            } else {
                self.name(&unpadded(&report.name));
            }
            self.bytes.extend([report.old, report.new]);
        }
    }

    /// Where an entry ends.
    pub fn end(&self, entry: usize) -> usize {
        self.entries.get(entry + 1).map_or(self.bytes.len(), |next| next.begin)
    }

    fn name(&mut self, name: &[u8]) {
        self.bytes.push(name.len() as u8);
        self.bytes.extend(name);
    }
}
