//! The log of another maker's tool, judged.
use crate::machine;
use crate::raw::REPORTS_BYTES;
use crate::refusal::{refused, Refusal};
use crate::report::Reports;
use crate::tool::Tool;
use core::fmt;

/// What is said of a log. Entries are counted from 0, and places are bytes from the log's first.
#[expect(clippy::large_enum_variant, reason = "without a heap there is no box for the reports")]
#[derive(Clone, Debug, PartialEq, Eq)]
pub enum Verdict {
    /// Every entry shows what document 01 gives.
    Agrees {
        /// How many entries there are.
        entries: u64,
    },
    /// An entry doesn't, and nothing after it was read.
    Disagrees {
        /// Its number: so many entries before it agree.
        entry: u64,
        /// Where it begins.
        at: usize,
        /// What it should show: document 01's answer and reports.
        given: Result<Reports, Refusal>,
    },
    /// It is no log, or not a whole one.
    Refused {
        /// Why.
        refusal: LogRefusal,
        /// How many entries agree before that.
        entries: u64,
        /// The wrong or missing byte of the head, or where the entry begins that is cut short.
        at: usize,
    },
}

/// Why a log is refused: the first that is met in the order of the file, byte by byte.
#[derive(Clone, Copy, Debug, PartialEq, Eq, PartialOrd, Ord, Hash)]
#[repr(u8)]
pub enum LogRefusal {
    /// 27: the mark isn't CMT, or the version isn't 1.
    MarkOrVersion = 27,
    /// 28: P isn't 1 to 4, or B isn't 0 to 16.
    SetUp = 28,
    /// 29: the file ends inside its head or inside an entry.
    CutShort = 29,
}

impl LogRefusal {
    /// All three, by number.
    pub const ALL: [LogRefusal; 3] = [LogRefusal::MarkOrVersion, LogRefusal::SetUp, LogRefusal::CutShort];

    /// Document 02's number, 27 to 29.
    pub const fn number(self) -> u8 {
        self as u8
    }

    /// The refusal of a number; none outside 27 to 29.
    ///
    /// ```
    /// use hawsermole::LogRefusal;
    ///
    /// assert_eq!(LogRefusal::from_number(29), Some(LogRefusal::CutShort));
    /// assert_eq!(LogRefusal::from_number(30), None);
    /// ```
    pub fn from_number(number: u32) -> Option<LogRefusal> {
        LogRefusal::ALL.into_iter().find(|refusal| u32::from(refusal.number()) == number)
    }

    /// The reason in a few words.
    pub const fn text(self) -> &'static str {
        match self {
            LogRefusal::MarkOrVersion => "another mark or version",
            LogRefusal::SetUp => "no such set-up",
            LogRefusal::CutShort => "the log is cut short",
        }
    }
}

impl fmt::Display for LogRefusal {
    fn fmt(&self, f: &mut fmt::Formatter<'_>) -> fmt::Result {
        f.pad(self.text())
    }
}

impl core::error::Error for LogRefusal {}

/// Judges a log by document 01 as it stands before any request: no expected map, no blank at the end of a name, and no
/// queue: CarrierOut moves the carrier at once, inputs are 1 to 26, and models 1 to 7.
/// `include/hawsermole.h` has the log's layout. It may be any bytes of any length, and is read once.
///
/// The tool becomes document 01's after the last input that it was given, that of an entry that disagrees included: the
/// state to look at. What requests have added is as at set-up: no map, no queue, and predictions that wait for their
/// carriers. It is no tool where the head is refused.
///
/// ```
/// use hawsermole::{judge, LogRefusal, Tool, Verdict};
///
/// // Two ports, no buffer. LoadStart at port 1: accepted, one report, the port's transfer state from 1 to 3.
/// let mut log = *b"CMT\0\x01\x02\0\x0D\x01\0\0\0\x01\x01\x01\x01\x03";
/// let mut tool = Tool::none();
/// assert_eq!(judge(&log, &mut tool), Verdict::Agrees { entries: 1 });
/// assert_eq!(tool.ports().next().unwrap().transfer, 3);
///
/// // Without its last byte the first entry is cut short; it begins at byte 7.
/// let cut = Verdict::Refused { refusal: LogRefusal::CutShort, entries: 0, at: 7 };
/// assert_eq!(judge(&log[..16], &mut tool), cut);
///
/// // With another last byte it isn't what document 01 gives.
/// log[16] = 2;
/// let Verdict::Disagrees { entry: 0, at: 7, given } = judge(&log, &mut tool) else { panic!() };
/// assert_eq!(given.unwrap().to_string(), "1 1 1>3");
/// ```
pub fn judge(log: &[u8], tool: &mut Tool) -> Verdict {
    let mut reports = [0; REPORTS_BYTES];
    // No place is past the log's end, and no answer above 8.
    let (says, [entries, at, answer]) = machine::judge(log, tool.only_document_01(), &mut reports);
    tool.wait_for_carriers();
    let at = at as usize;
    match says {
        0 => Verdict::Agrees { entries },
        1 => {
            let given = refused(answer as u32).map(|()| Reports::new(reports));
            Verdict::Disagrees { entry: entries, at, given }
        }
        _ => {
            let refusal = LogRefusal::from_number(says).expect("a log is refused with 27 to 29");
            Verdict::Refused { refusal, entries, at }
        }
    }
}

#[cfg(test)]
mod tests {
    use super::*;
    use std::string::ToString;

    #[test]
    fn numbers_go_both_ways() {
        for (number, refusal) in (27..=29).zip(LogRefusal::ALL) {
            assert_eq!(refusal.number(), number);
            assert_eq!(LogRefusal::from_number(u32::from(number)), Some(refusal));
        }
        for odd in [0, 1, 26, 30, 256 + 27, u32::MAX] {
            assert_eq!(LogRefusal::from_number(odd), None);
        }
        assert_eq!(LogRefusal::SetUp.to_string(), "no such set-up");
    }

    /// What a tool held before is gone, the requests' bytes too.
    #[test]
    fn the_tool_is_document_01s_alone() {
        let mut tool = Tool::from_bytes(&[0xA5; crate::TOOL_BYTES]);
        judge(b"CMT\0\x01\x02\x03", &mut tool);
        assert_eq!(tool, Tool::setup(2, 3).unwrap());
        judge(b"CMT\0\x01\x05\x03", &mut tool);
        assert_eq!(tool, Tool::none());
    }

    /// In a fixed buffer tool a carrier has a prediction, which no log tells of.
    #[test]
    fn the_tool_is_sound_with_carriers() {
        let mut tool = Tool::none();
        for (places, predictions) in [(0, 1), (3, 0)] {
            let mut log = *b"CMT\0\x01\x02\0\x03\0\0\x01A\0\0";
            log[6] = places;
            let judged = judge(&log, &mut tool);
            assert!(matches!(judged, Verdict::Disagrees { entry: 0, .. }), "{judged:?}");
            assert!(tool.is_sound() && tool.carriers().len() == 1);
            assert_eq!(tool.predictions().count(), predictions);
        }
    }
}
