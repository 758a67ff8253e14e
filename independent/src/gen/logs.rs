//! P14: logs of runs, and logs of which one entry shows something else.

use std::vec::Vec;

use super::{random_run_input, Rng};
use crate::judge::{fits, Log};

/// The log of a run of so many inputs, all of which a log has room for. Some names are padded with
/// blanks, which no row takes before any request; some starts have a second number, which they don't look at; and some
/// numbers are those of inputs that requests add.
pub fn random_log(ports: u8, places: u8, entries: usize, rng: &mut Rng) -> Log {
    let mut log = Log::begin(ports, places);
    while log.entries.len() < entries {
        let mut input = random_run_input(&log.tool, rng);
        if rng.chance(2) {
            input.name.push(b' ');
        }
        if matches!(input.number, 13 | 24) && rng.chance(50) {
            input.value = rng.pick(&[0, 1, 1, 1, 2, 13, 255]);
        }
        if rng.chance(1) {
            input.number = 27 + rng.below(10);
        }
        if fits(&input) {
            log.give(&input);
        }
    }
    log
}

/// The log with one entry that is whole and shows something else: another answer or other reports.
pub fn edited(log: &Log, entry: usize, rng: &mut Rng) -> Vec<u8> {
    let (from, to) = (log.entries[entry].answer, log.end(entry));
    let was = Shown::of(&log.bytes[from..to]);
    let mut shown = was.clone();
    while shown == was {
        shown.edit(rng);
    }
    [&log.bytes[..from], &shown.bytes(), &log.bytes[to..]].concat()
}

/// What an entry shows, report by report.
#[derive(Clone, PartialEq)]
struct Shown {
    answer: u8,
    reports: Vec<Vec<u8>>,
}

impl Shown {
    fn of(bytes: &[u8]) -> Shown {
        let mut rest = &bytes[2..];
        let mut reports = Vec::new();
        while let Some(&model) = rest.first() {
            let length = if named(model) { 4 + rest[1] as usize } else { 4 };
            reports.push(rest[..length].to_vec());
            rest = &rest[length..];
        }
        Shown { answer: bytes[0], reports }
    }

    fn bytes(&self) -> Vec<u8> {
        [&[self.answer, self.reports.len() as u8][..], &self.reports.concat()].concat()
    }

    /// One thing is changed. Not all changes make a difference.
    fn edit(&mut self, rng: &mut Rng) {
        let count = self.reports.len();
        let any = rng.below(count.max(1) as u32) as usize;
        match rng.below(8) {
            0 => self.answer = rng.pick(&[0, 1, 2, 5, 7, 8, 9, 255, self.answer ^ 1]),
            1 => self.reports.insert(any, random_report(rng)),
            2 => self.reports.push(random_report(rng)),
            // As many as seven, eight, or as a byte counts: all that there are, and more behind them.
            3 => {
                let more = rng.pick(&[7, 8, 9, 255]);
                let last = self.reports.last().cloned().unwrap_or_else(|| random_report(rng));
                self.reports.resize(more.max(count), last);
            }
            4 if count > 0 => drop(self.reports.remove(any)),
            5 if count > 0 => self.reports.swap(any, 0),
            6 if count > 0 => self.reports.truncate(any),
            _ if count > 0 => edit_report(&mut self.reports[any], rng),
            _ => {}
        }
    }
}

/// Models that are read with a name.
fn named(model: u8) -> bool {
    (5..=7).contains(&model)
}

fn random_report(rng: &mut Rng) -> Vec<u8> {
    let mut report = std::vec![rng.pick(&[0, 1, 2, 3, 4, 5, 6, 7, 8, 255])];
    if named(report[0]) {
        let name = rng.pick(&[&b""[..], b"A", b"AB", b"AB\0", b"AB ", &[0xFF; 255]]);
        report.push(name.len() as u8);
        report.extend(name);
    } else {
        report.push(rng.pick(&[0, 1, 2, 4, 5, 255]));
    }
    report.extend([rng.below(5) as u8, rng.below(5) as u8]);
    report
}

/// Another model of the same kind, another subject, or other states.
fn edit_report(report: &mut Vec<u8>, rng: &mut Rng) {
    let last = report.len() - 1;
    match rng.below(6) {
        0 => report[last] = report[last].wrapping_add(rng.pick(&[1, 255, 128])),
        1 => report[last - 1] = report[last - 1].wrapping_add(rng.pick(&[1, 255, 128])),
        2 => report.swap(last, last - 1),
        3 if named(report[0]) => report[0] = rng.pick(&[5, 6, 7]),
        3 => report[0] = rng.pick(&[0, 1, 2, 3, 4, 8, 9, 132, 255]),
        _ if named(report[0]) => edit_name(report, rng),
        _ => report[1] = report[1].wrapping_add(rng.pick(&[1, 255, 128])),
    }
}

/// A byte more, which some take for padding; a byte less; none; or another byte.
fn edit_name(report: &mut Vec<u8>, rng: &mut Rng) {
    let length = report[1] as usize;
    let mut name = report[2..2 + length].to_vec();
    match rng.below(5) {
        0 => name.push(0),
        1 => name.push(b' '),
        2 => drop(name.pop()),
        3 => name.clear(),
        _ => name[length / 2] ^= 1,
    }
    let states = report.split_off(2 + length);
    *report = [&[report[0], name.len() as u8][..], &name, &states].concat();
}
