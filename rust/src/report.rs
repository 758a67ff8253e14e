//! What an accepted input changed.
use crate::name::{Name, NAME_BYTES};
use crate::raw::REPORTS_BYTES;
use crate::states::State;
use crate::words;
use core::fmt;

/// The most reports that one input gives.
pub const REPORTS: usize = 10;
pub(crate) const REPORT_BYTES: usize = 20;

/// Which of E87's state models a report speaks of. Models 1 to 4 and 9 belong to a port, 5 to 8 to a carrier.
#[derive(Clone, Copy, Debug, PartialEq, Eq, PartialOrd, Ord, Hash)]
#[repr(u8)]
pub enum Model {
    /// 1: a port's transfer state.
    Transfer = 1,
    /// 2: a port's access mode.
    Access = 2,
    /// 3: a port's reservation.
    Reservation = 3,
    /// 4: a port's tie to a carrier, E87's association. A tie that passes to another carrier is reported 1 to 1.
    Tie = 4,
    /// 5: a carrier's ID status.
    Id = 5,
    /// 6: a carrier's slot map status.
    Slot = 6,
    /// 7: a carrier's accessing status.
    Accessing = 7,
    /// 8: a carrier's prediction of ready to unload, in fixed buffer tools alone.
    Prediction = 8,
    /// 9: a port's AccessModeViolation alarm. Its report is the last of an input.
    Alarm = 9,
}

impl Model {
    /// All nine, by number.
    pub const ALL: [Model; 9] = [
        Model::Transfer,
        Model::Access,
        Model::Reservation,
        Model::Tie,
        Model::Id,
        Model::Slot,
        Model::Accessing,
        Model::Prediction,
        Model::Alarm,
    ];

    /// The documents' number, 1 to 9.
    pub const fn number(self) -> u8 {
        self as u8
    }

    /// The model of a number; none outside 1 to 9.
    pub fn from_number(number: u8) -> Option<Model> {
        Model::ALL.into_iter().find(|model| model.number() == number)
    }

    /// The table of SEMI E87-0312 that has the model's transitions; those of model 8 are in the same table of document
    /// 000, which revises E87-0921. An alarm has no transitions: Table 38 lists it.
    pub const fn table(self) -> u8 {
        match self {
            Model::Transfer => 5,
            Model::Access => 9,
            Model::Reservation => 10,
            Model::Tie => 11,
            Model::Id | Model::Slot | Model::Accessing | Model::Prediction => 7,
            Model::Alarm => 38,
        }
    }

    /// A state of this model in E87's words.
    ///
    /// ```
    /// use hawsermole::Model;
    ///
    /// assert_eq!(Model::Transfer.state(3), "TRANSFER BLOCKED");
    /// assert_eq!(Model::Id.state(3), "ID VERIFICATION OK");
    /// assert_eq!(Model::Id.state(0), "no state");
    /// ```
    pub fn state(self, number: u8) -> &'static str {
        match self {
            Model::Transfer => words::transfer(number),
            Model::Access => words::access(number),
            Model::Reservation => words::reservation(number),
            Model::Tie => words::tie(number),
            Model::Id => words::id(number),
            Model::Slot => words::slot(number),
            Model::Accessing => words::accessing(number),
            Model::Prediction => words::prediction(number),
            Model::Alarm => words::alarm(number),
        }
    }
}

/// The model's name in E87's words.
impl fmt::Display for Model {
    fn fmt(&self, f: &mut fmt::Formatter<'_>) -> fmt::Result {
        f.pad(words::model(*self))
    }
}

/// What a report speaks of.
#[derive(Clone, Copy, Debug, PartialEq, Eq, Hash)]
pub enum Subject {
    /// A port, by number: models 1 to 4 and 9.
    Port(u8),
    /// A carrier, by name: models 5 to 8.
    Carrier(Name),
}

/// A port's number, or a carrier's name.
impl fmt::Display for Subject {
    fn fmt(&self, f: &mut fmt::Formatter<'_>) -> fmt::Result {
        match self {
            Subject::Port(port) => port.fmt(f),
            Subject::Carrier(name) => name.fmt(f),
        }
    }
}

/// One difference: a model of a port or carrier went from `old` to `new`. 0 is "no state" for a carrier: its record was
/// made (old) or went (new).
#[derive(Clone, Copy, Debug, PartialEq, Eq, Hash)]
pub struct Report {
    /// The state model.
    pub model: Model,
    /// The port or carrier.
    pub subject: Subject,
    /// The state before the input.
    pub old: u8,
    /// The state after it.
    pub new: u8,
}

impl Report {
    /// The state before the input; none only for a number that the model doesn't have, which no machine reports.
    pub fn old_state(&self) -> Option<State> {
        State::of(self.model, self.old)
    }

    /// The state after it.
    pub fn new_state(&self) -> Option<State> {
        State::of(self.model, self.new)
    }
}

/// The report in the form of document 01's table: `5 AB 0>1`.
impl fmt::Display for Report {
    fn fmt(&self, f: &mut fmt::Formatter<'_>) -> fmt::Result {
        write!(f, "{} {} {}>{}", self.model.number(), self.subject, self.old, self.new)
    }
}

/// The reports of one accepted input, in order of model: an iterator of at most ten [`Report`]s. Of model 8 each
/// transition is reported in turn, so that a carrier may come several times.
///
/// ```
/// use hawsermole::{Input, Model, Subject, Tool};
///
/// let mut tool = Tool::setup(2, 0).unwrap();
/// let reports = tool.step(&Input::ReserveAtPort { port: 2 }).unwrap();
/// assert_eq!(reports.len(), 1);
/// for report in reports {
///     assert_eq!(report.model, Model::Reservation);
///     assert_eq!(report.subject, Subject::Port(2));
///     assert_eq!((report.old, report.new), (0, 1));
/// }
/// ```
#[derive(Clone, PartialEq, Eq)]
pub struct Reports {
    bytes: [u8; REPORTS_BYTES],
    given: usize,
}

impl Reports {
    pub(crate) fn new(bytes: [u8; REPORTS_BYTES]) -> Reports {
        Reports { bytes, given: 0 }
    }

    /// All the bytes as the machine wrote them: the count, then ten entries of 20 bytes, zero past the count.
    pub fn as_bytes(&self) -> &[u8; REPORTS_BYTES] {
        &self.bytes
    }

    fn total(&self) -> usize {
        usize::from(self.bytes[0]).min(REPORTS)
    }

    fn report(&self, place: usize) -> Report {
        let start = 1 + place * REPORT_BYTES;
        let entry = &self.bytes[start..start + REPORT_BYTES];
        let model = Model::from_number(entry[0]).expect("the machine reports models 1 to 9");
        let mut name = [0; NAME_BYTES];
        name.copy_from_slice(&entry[2..2 + NAME_BYTES]);
        let subject = match model {
            Model::Id | Model::Slot | Model::Accessing | Model::Prediction => {
                Subject::Carrier(Name::new(name))
            }
            _ => Subject::Port(entry[1]),
        };
        Report { model, subject, old: entry[18], new: entry[19] }
    }
}

/// No reports.
impl Default for Reports {
    fn default() -> Reports {
        Reports::new([0; REPORTS_BYTES])
    }
}

impl Iterator for Reports {
    type Item = Report;

    fn next(&mut self) -> Option<Report> {
        if self.given == self.total() {
            return None;
        }
        self.given += 1;
        Some(self.report(self.given - 1))
    }

    fn size_hint(&self) -> (usize, Option<usize>) {
        let left = self.total() - self.given;
        (left, Some(left))
    }
}

impl ExactSizeIterator for Reports {}
impl core::iter::FusedIterator for Reports {}

/// The reports in the form of document 01's table: `1 1 1>3; 3 1 1>0`, or `none`.
///
/// ```
/// use hawsermole::{Input, Tool};
///
/// let mut tool = Tool::setup(2, 0).unwrap();
/// assert_eq!(tool.step(&Input::LoadStart { port: 2, start: 0 }).unwrap().to_string(), "1 2 1>3");
/// assert_eq!(tool.step(&Input::LoadDone { port: 2 }).unwrap().to_string(), "none");
/// ```
impl fmt::Display for Reports {
    fn fmt(&self, f: &mut fmt::Formatter<'_>) -> fmt::Result {
        if self.len() == 0 {
            return f.write_str("none");
        }
        for (place, report) in self.clone().enumerate() {
            write!(f, "{}{report}", if place == 0 { "" } else { "; " })?;
        }
        Ok(())
    }
}

impl fmt::Debug for Reports {
    fn fmt(&self, f: &mut fmt::Formatter<'_>) -> fmt::Result {
        f.debug_list().entries(self.clone()).finish()
    }
}

#[cfg(test)]
mod tests {
    use super::*;
    use std::vec::Vec;

    fn two() -> Reports {
        let mut bytes = [0; REPORTS_BYTES];
        bytes[0] = 2;
        bytes[1..3].copy_from_slice(&[1, 4]);
        bytes[19..21].copy_from_slice(&[1, 3]);
        bytes[21] = 6;
        bytes[23..25].copy_from_slice(b"AB");
        bytes[39..41].copy_from_slice(&[2, 4]);
        Reports::new(bytes)
    }

    #[test]
    fn entries_are_read_where_they_stand() {
        let mut name = [0; NAME_BYTES];
        name[..2].copy_from_slice(b"AB");
        let expected = [
            Report { model: Model::Transfer, subject: Subject::Port(4), old: 1, new: 3 },
            Report { model: Model::Slot, subject: Subject::Carrier(Name::new(name)), old: 2, new: 4 },
        ];
        assert_eq!(two().collect::<Vec<_>>(), expected);
        let states =
            expected.map(|report| (report.old_state().unwrap().word(), report.new_state().unwrap().word()));
        assert_eq!(states[0], ("READY TO LOAD", "TRANSFER BLOCKED"));
        assert_eq!(states[1], ("SLOT MAP WAITING FOR HOST", "SLOT MAP VERIFICATION FAILED"));
    }

    #[test]
    fn the_length_falls_as_reports_are_taken() {
        let mut reports = two();
        assert_eq!(reports.len(), 2);
        reports.next();
        assert_eq!(reports.len(), 1);
        reports.next();
        assert_eq!((reports.len(), reports.next(), reports.next()), (0, None, None));
    }

    #[test]
    fn no_reports() {
        assert_eq!(Reports::new([0; REPORTS_BYTES]).next(), None);
    }

    #[test]
    fn model_numbers_go_both_ways() {
        for (place, model) in Model::ALL.into_iter().enumerate() {
            assert_eq!(usize::from(model.number()), place + 1);
            assert_eq!(Model::from_number(model.number()), Some(model));
        }
        assert_eq!(Model::from_number(0), None);
        assert_eq!(Model::from_number(10), None);
    }
}
