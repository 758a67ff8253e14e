//! A second judge, as plain as can be: it finds where an entry ends, writes down the log that its input
//! gives, and compares the bytes.

use super::*;
use independent::gen::Input;
use independent::judge::Log;
use independent::Report;

pub fn judge(file: &[u8]) -> Verdict {
    let mut log = match begin(file) {
        Ok((ports, places)) => Log::begin(ports, places),
        Err(number) => return refused(number, 0),
    };
    let mut at = 7;
    for entry in 0.. {
        if at == file.len() {
            return Verdict::Agrees(entry);
        }
        let Some(end) = end_of(&file[at..]) else { return refused(29, entry) };
        log.give(&input_of(&file[at..]).0);
        if log.bytes[at..] != file[at..at + end] {
            return disagrees(entry, at);
        }
        at += end;
    }
    unreachable!()
}

fn begin(file: &[u8]) -> Result<(u8, u8), u32> {
    for (at, &begin) in BEGIN.iter().enumerate() {
        let byte = *file.get(at).ok_or(29u32)?;
        let good = match at {
            0..=4 => byte == begin,
            5 => (1..=4).contains(&byte),
            _ => byte <= 16,
        };
        if !good {
            return Err(if at < 5 { 27 } else { 28 });
        }
    }
    Ok((file[5], file[6]))
}

/// The input of an entry that is there, and where the answer stands.
pub fn input_of(entry: &[u8]) -> (Input, usize) {
    let named = 4 + entry[3] as usize;
    let answer = if entry[0] == 20 { named + 25 } else { named };
    let [number, port, value] = [entry[0], entry[1], entry[2]].map(u32::from);
    let (name, codes) = (entry[4..named].to_vec(), entry[named..answer].to_vec());
    (Input { number, port, value, name, codes, ..Input::default() }, answer)
}

/// The reports of an entry that is there, from behind their count.
pub fn reports_of(mut bytes: &[u8]) -> Vec<Report> {
    let mut reports = Vec::new();
    while !bytes.is_empty() {
        let mut report = Report { model: bytes[0], ..Report::UNUSED };
        let length = if bytes[0] <= 4 { 0 } else { bytes[1] as usize };
        if bytes[0] <= 4 {
            report.port = bytes[1];
        }
        report.name[..length].copy_from_slice(&bytes[2..2 + length]);
        (report.old, report.new) = (bytes[2 + length], bytes[3 + length]);
        reports.push(report);
        bytes = &bytes[4 + length..];
    }
    reports
}

/// How many bytes an entry has; nothing where it is cut short.
fn end_of(entry: &[u8]) -> Option<usize> {
    let mut at = 4 + *entry.get(3)? as usize;
    at += if entry[0] == 20 { 25 } else { 0 };
    let count = *entry.get(at + 1)?;
    at += 2;
    for _ in 0..count {
        let name = match *entry.get(at)? {
            5..=7 => *entry.get(at + 1)? as usize,
            _ => 0,
        };
        at += 4 + name;
    }
    (at <= entry.len()).then_some(at)
}
