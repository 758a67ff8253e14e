//! P14: judging another maker's log.
//!
//! A log is a file: the mark and the version, the set-up, and then entries, each an input with the
//! answer and the reports that the tool gave. It is read in order, byte by byte, and every entry is
//! held against document 01 as it stood before any request.

mod entry;
#[cfg(feature = "std")]
mod log;

use crate::state::{setup, Tool};
use entry::{Entry, Rest};

#[cfg(feature = "std")]
pub use log::{fits, Log, Place};

/// The mark, and version 1 with its high byte first.
const MARK: [u8; 5] = *b"CMT\0\x01";

/// Why a log can't be judged, or not further.
#[derive(Clone, Copy, PartialEq, Eq, Debug)]
#[repr(u32)]
pub enum Refused {
    /// The mark or the version is another.
    Mark = 27,
    SetUp = 28,
    CutShort = 29,
}

/// What is said of a log. Entries are counted from 0.
#[derive(Clone, Copy, PartialEq, Eq, Debug)]
pub enum Verdict {
    /// All entries show what document 01 gives; there are so many.
    Agrees(u64),
    /// The first entry that doesn't, and the place where it begins. Nothing behind it was read.
    Disagrees { entry: u64, at: usize },
    /// So many entries agreed before.
    Refused(Refused, u64),
}

/// Judges a log.
pub fn judge(log: &[u8]) -> Verdict {
    let mut rest = Rest(log);
    let mut tool = match set_up(&mut rest) {
        Ok(tool) => tool,
        Err(refused) => return Verdict::Refused(refused, 0),
    };
    let mut agreed = 0;
    while !rest.0.is_empty() {
        let at = log.len() - rest.0.len();
        match Entry::read(&mut rest) {
            Err(refused) => return Verdict::Refused(refused, agreed),
            Ok(entry) if !entry.agrees(&mut tool) => return Verdict::Disagrees { entry: agreed, at },
            Ok(_) => agreed += 1,
        }
    }
    Verdict::Agrees(agreed)
}

/// What stands before the entries. P is judged before B is read.
fn set_up(rest: &mut Rest) -> Result<Tool, Refused> {
    for byte in MARK {
        if rest.byte()? != byte {
            return Err(Refused::Mark);
        }
    }
    let mut tool = Tool::NONE;
    let ports = rest.byte()? as u32;
    if setup(ports, 0, &mut tool) != 0 {
        return Err(Refused::SetUp);
    }
    let places = rest.byte()? as u32;
    if setup(ports, places, &mut tool) != 0 {
        return Err(Refused::SetUp);
    }
    Ok(tool)
}
