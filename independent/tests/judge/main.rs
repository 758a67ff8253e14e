//! P14: judging another maker's log.

mod changed;
mod plain;
mod pods;
mod readings;
mod written;

use independent::judge::{judge, Refused, Verdict};

/// The mark, the version and a set-up of 2 ports and no buffer.
const BEGIN: [u8; 7] = [b'C', b'M', b'T', 0, 1, 2, 0];

/// That set-up and these entries, each in parts.
fn file(entries: &[&[&[u8]]]) -> Vec<u8> {
    entries.iter().fold(BEGIN.to_vec(), |file, entry| [file, entry.concat()].concat())
}

/// The verdict on such a file.
fn verdict(entries: &[&[&[u8]]]) -> Verdict {
    judge(&file(entries))
}

fn disagrees(entry: u64, at: usize) -> Verdict {
    Verdict::Disagrees { entry, at }
}

fn refused(number: u32, agreed: u64) -> Verdict {
    let refused = match number {
        27 => Refused::Mark,
        28 => Refused::SetUp,
        _ => Refused::CutShort,
    };
    assert_eq!(refused as u32, number);
    Verdict::Refused(refused, agreed)
}

/// LoadStart(1), and what the first one of it shows.
const LOAD_START: &[u8] = &[13, 1, 0, 0];
const STARTED: &[u8] = &[0, 1, 1, 1, 1, 3];
/// CarrierNotification(AB), and what the first one of it shows.
const NOTIFY: &[u8] = &[3, 0, 0, 2, b'A', b'B'];
const NOTIFIED: &[u8] = b"\x00\x03\x05\x02AB\x00\x01\x06\x02AB\x00\x01\x07\x02AB\x00\x01";
