//! P14: logs of other tools, judged. Logs of runs with every set-up, which agree; the same with one byte changed, cut,
//! or with an entry that shows something else.

use std::fmt;

use hawsermole::raw::{self, REPORTS_BYTES, TOOL_01_BYTES};
use independent::gen::logs::{edited, random_log};
use independent::gen::Rng;
use independent::judge::{judge, Log, Verdict};

use super::twelve;
use crate::machine::Proved;
use crate::play::Finding;
use crate::script::hex;
use crate::shrink::shortest_text;

/// The entries of the logs of which every position is looked at.
const FEW: usize = 6;

/// The most entries of the others.
const MANY: u32 = 200;

/// How often a log is changed in each way, or an entry of the short ones.
const EACH: u64 = 8;

/// A log without entries, of 2 ports and 3 places.
const BEGIN: [u8; 7] = [b'C', b'M', b'T', 0, 1, 2, 3];

/// What a program says of a log.
#[derive(Clone, Copy, Debug, PartialEq, Eq)]
pub struct Said {
    /// 0 agrees, 1 disagrees, else the refusal.
    pub answer: u32,
    /// The first entry that disagrees, from 0; else how many agreed.
    pub entry: u64,
    /// Where that entry begins, or the log's length. Nothing of a log that is refused.
    pub at: Option<u64>,
}

/// The two programs, as they judge a log.
pub struct Judges<'a> {
    pub proved: &'a dyn Fn(&[u8]) -> Said,
    pub independent: &'a dyn Fn(&[u8]) -> Said,
}

/// The proved function. What stood before in what it is lent must not matter.
pub fn proved(_: &Proved, log: &[u8]) -> Said {
    let mut judged = [u64::MAX; 3];
    let (mut tool, mut reports) = ([0xA5; TOOL_01_BYTES], [0xA5; REPORTS_BYTES]);
    // SAFETY: the sizes are the archive's, which document 01 fixes.
    let answer = unsafe { raw::judge(log, &mut tool, &mut reports, &mut judged) };
    let [entry, at, _] = judged;
    Said { answer, entry, at: (answer <= 1).then_some(at) }
}

pub fn independent(log: &[u8]) -> Said {
    match judge(log) {
        Verdict::Agrees(entry) => agrees(entry, log),
        Verdict::Disagrees { entry, at } => disagrees(entry, at),
        Verdict::Refused(refused, entry) => Said { answer: refused as u32, entry, at: None },
    }
}

fn agrees(entries: u64, log: &[u8]) -> Said {
    Said { answer: 0, entry: entries, at: Some(log.len() as u64) }
}

fn disagrees(entry: u64, at: usize) -> Said {
    Said { answer: 1, entry, at: Some(at as u64) }
}

fn refused(number: u32, agreed: u64) -> Said {
    Said { answer: number, entry: agreed, at: None }
}

/// What may be said of a log.
const KINDS: [&str; 5] = ["agrees", "disagrees", "27", "28", "29"];

/// How many logs were judged, and how often each was said.
#[derive(Clone, Copy, Default)]
pub struct Logs {
    pub judged: u64,
    pub met: [u64; KINDS.len()],
}

impl Logs {
    /// What must be said of some log, and wasn't.
    pub fn unmet(&self) -> Vec<String> {
        let kinds = KINDS.iter().zip(self.met).filter(|(_, times)| *times == 0);
        kinds.map(|(kind, _)| kind.to_string()).collect()
    }

    fn note(&mut self, said: Said) {
        self.judged += 1;
        self.met[match said.answer {
            0 => 0,
            1 => 1,
            refused => refused as usize - 25,
        }] += 1;
    }
}

/// `agrees: 123, disagrees: 45, ..`.
impl fmt::Display for Logs {
    fn fmt(&self, f: &mut fmt::Formatter) -> fmt::Result {
        let kinds = KINDS.iter().zip(self.met).map(|(kind, times)| format!("{kind}: {times}"));
        f.write_str(&kinds.collect::<Vec<String>>().join(", "))
    }
}

/// Every position of document 01's twelve rows and of short logs with each set-up, and some `total` longer logs.
pub fn compare(judges: &Judges, total: u64, rng: &mut Rng) -> Result<Logs, Finding> {
    let mut logs = Logs::default();
    begins(judges, &mut logs)?;
    let twelve = Log::of(2, 0, &twelve::rows().map(|(input, ..)| input));
    every_position(judges, &mut logs, &twelve, rng)?;
    every_entry(judges, &mut logs, &twelve, 5 * EACH, rng)?;
    for ports in 1..=4 {
        for places in 0..=16 {
            let log = random_log(ports, places, FEW, rng);
            every_position(judges, &mut logs, &log, rng)?;
            every_entry(judges, &mut logs, &log, EACH, rng)?;
        }
    }
    for _ in 0..total.div_ceil(5 * EACH) {
        let (ports, places) = (1 + rng.below(4) as u8, rng.below(17) as u8);
        let log = random_log(ports, places, 1 + rng.below(MANY) as usize, rng);
        any_position(judges, &mut logs, &log, rng)?;
    }
    Ok(logs)
}

/// What P14 says of a log, as far as it is known without judging it.
enum Law {
    Is(Said),
    /// So many entries agree, whatever is said of the next.
    Agreed(u64),
    Any,
}

fn one(judges: &Judges, logs: &mut Logs, log: &[u8], law: Law) -> Result<(), Finding> {
    let said = (judges.proved)(log);
    if said != (judges.independent)(log) {
        return Err(Finding::Told(differ(judges, log)));
    }
    let lawful = match law {
        Law::Is(only) => said == only,
        Law::Agreed(entries) => said.entry >= entries && matches!(said.answer, 0 | 1 | 29),
        Law::Any => matches!(said.answer, 0 | 1 | 27..=29),
    };
    if !lawful {
        let (said, log) = (told(said), hex(log));
        return Err(Finding::Told(format!("BOTH ARE AGAINST THE DOCUMENTS: {said}. The log\n{log}\n")));
    }
    logs.note(said);
    Ok(())
}

/// What stands before the entries, cut at every position and with every byte changed to every value; the first byte
/// that is wrong or missing decides.
fn begins(judges: &Judges, logs: &mut Logs) -> Result<(), Finding> {
    for at in 0..BEGIN.len() {
        one(judges, logs, &BEGIN[..at], Law::Is(refused(29, 0)))?;
        for byte in 0..=255 {
            let mut log = BEGIN;
            log[at] = byte;
            let good = match at {
                0..=4 => byte == BEGIN[at],
                5 => (1..=4).contains(&byte),
                _ => byte <= 16,
            };
            let wrong = refused(if at < 5 { 27 } else { 28 }, 0);
            one(judges, logs, &log, Law::Is(if good { agrees(0, &log) } else { wrong }))?;
            let cut = &log[..=at];
            let whole = if at == 6 { agrees(0, cut) } else { refused(29, 0) };
            one(judges, logs, cut, Law::Is(if good { whole } else { wrong }))?;
        }
    }
    Ok(())
}

fn every_position(judges: &Judges, logs: &mut Logs, log: &Log, rng: &mut Rng) -> Result<(), Finding> {
    for at in 0..log.bytes.len() {
        cut(judges, logs, log, at)?;
        let near = [1, 0xFF, 0x80, rng.draw() as u8];
        for change in near {
            changed(judges, logs, log, at, change)?;
        }
    }
    cut(judges, logs, log, log.bytes.len())
}

fn every_entry(
    judges: &Judges,
    logs: &mut Logs,
    log: &Log,
    times: u64,
    rng: &mut Rng,
) -> Result<(), Finding> {
    for entry in 0..log.entries.len() {
        for _ in 0..times {
            other_entry(judges, logs, log, entry, rng)?;
        }
    }
    Ok(())
}

fn any_position(judges: &Judges, logs: &mut Logs, log: &Log, rng: &mut Rng) -> Result<(), Finding> {
    cut(judges, logs, log, log.bytes.len())?;
    for _ in 0..EACH {
        let at = rng.below(log.bytes.len() as u32) as usize;
        cut(judges, logs, log, at)?;
        let at = rng.below(log.bytes.len() as u32) as usize;
        changed(judges, logs, log, at, rng.draw() as u8)?;
        let entry = rng.below(log.entries.len() as u32) as usize;
        other_entry(judges, logs, log, entry, rng)?;
    }
    Ok(())
}

/// Cut between entries it agrees, else it is cut short.
fn cut(judges: &Judges, logs: &mut Logs, log: &Log, length: usize) -> Result<(), Finding> {
    let bytes = &log.bytes[..length];
    let begun = log.entries.iter().take_while(|place| place.begin < length).count() as u64;
    let between = length == log.bytes.len() || log.entries.iter().any(|place| place.begin == length);
    let said = if between { agrees(begun, bytes) } else { refused(29, begun.saturating_sub(1)) };
    one(judges, logs, bytes, Law::Is(said))
}

/// One byte is changed: all entries before it agree.
fn changed(judges: &Judges, logs: &mut Logs, log: &Log, at: usize, change: u8) -> Result<(), Finding> {
    let mut bytes = log.bytes.clone();
    bytes[at] = bytes[at].wrapping_add(change);
    let begun = log.entries.iter().take_while(|place| place.begin <= at).count() as u64;
    let law = match begun.checked_sub(1) {
        Some(agreed) => Law::Agreed(agreed),
        None => Law::Any,
    };
    one(judges, logs, &bytes, law)
}

/// An entry that is whole and shows something else disagrees, whatever follows; cut short it is refused first.
fn other_entry(
    judges: &Judges,
    logs: &mut Logs,
    log: &Log,
    entry: usize,
    rng: &mut Rng,
) -> Result<(), Finding> {
    let (begin, end) = (log.entries[entry].begin, log.end(entry));
    let bytes = edited(log, entry, rng);
    let end = bytes.len() - (log.bytes.len() - end);
    let said = disagrees(entry as u64, begin);
    one(judges, logs, &bytes, Law::Is(said))?;
    let any: Vec<u8> = (0..rng.below(4)).map(|_| rng.draw() as u8).collect();
    one(judges, logs, &[&bytes[..end], &any].concat(), Law::Is(said))?;
    let cut = begin + 1 + rng.below((end - begin - 1) as u32) as usize;
    one(judges, logs, &bytes[..cut], Law::Is(refused(29, entry as u64)))
}

fn differ(judges: &Judges, log: &[u8]) -> String {
    let log = shortest_text(log, |log| (judges.proved)(log) != (judges.independent)(log));
    let (one, other) = (told((judges.proved)(&log)), told((judges.independent)(&log)));
    format!("DIFFERENT. The log\n{}\nproved       {one}\nindependent  {other}\n", hex(&log))
}

/// In the words of the command line, with the place or how many agreed.
fn told(Said { answer, entry, at }: Said) -> String {
    let at = at.map_or(String::new(), |at| format!(" at byte {at}"));
    match answer {
        0 => format!("agrees, {entry} entries to the end{at}"),
        1 => format!("entry {entry}{at}"),
        refused => format!("refused {refused} after {entry} entries"),
    }
}
