//! From a report to SEMI E87's events.
use crate::{Model, Report};

mod table;
pub use table::EVENTS;

/// The rows that a message from the host bridge can ask for.
const OF_MESSAGES: [u32; 4] = [1, 3, 5, 6];

/// What a report of an accepted input stands for in SEMI E87-0312: the numbered transitions of the model's table; for
/// model 8 in document 000, which revises E87-0921.
///
/// ```
/// use hawsermole::{Event, Input, Tool};
///
/// let mut tool = Tool::setup(1, 0).unwrap();
/// let input = Input::LoadStart { port: 1, start: 0 };
/// for report in tool.step(&input).unwrap() {
///     let event = Event::of(input.parts().number, &report).unwrap();
///     assert_eq!((event.table(), event.events), (5, &[6][..]));
/// }
/// ```
#[derive(Clone, Copy, Debug, PartialEq, Eq)]
pub struct Event {
    /// The input's number, 1 to 36.
    pub input: u32,
    /// The report's model.
    pub model: Model,
    /// The report's old state.
    pub old: u8,
    /// The report's new state.
    pub new: u8,
    /// The transitions in the order in which they are passed; none where the standard has no such transition.
    pub passed: &'static [u8],
    /// Those of them that want a collection event.
    pub events: &'static [u8],
    /// Why a transition has no number or no event, or what else is to know; empty where nothing is.
    pub note: &'static str,
}

const fn event(
    input: u32,
    model: Model,
    old: u8,
    new: u8,
    passed: &'static [u8],
    events: &'static [u8],
    note: &'static str,
) -> Event {
    Event { input, model, old, new, passed, events, note }
}

impl Event {
    /// What a report of an accepted input stands for; none where the input gives no such report.
    pub fn of(input: u32, report: &Report) -> Option<&'static Event> {
        Event::of_change(input, report.model, report.old, report.new)
    }

    /// The same by the report's numbers.
    pub fn of_change(input: u32, model: Model, old: u8, new: u8) -> Option<&'static Event> {
        EVENTS
            .iter()
            .find(|event| (event.input, event.model, event.old, event.new) == (input, model, old, new))
    }

    /// The same for an input that came as a message ([`Tool::secs_step`](crate::Tool::secs_step)), whose number the
    /// caller needn't know: among the four rows that a message asks for a report alone tells its transitions.
    pub fn of_message(report: &Report) -> Option<&'static Event> {
        OF_MESSAGES.iter().find_map(|&input| Event::of(input, report))
    }

    /// The standard's table of the model's transitions: 5, 7, 9, 10 or 11; 38, which lists alarms, for model 9.
    pub const fn table(&self) -> u8 {
        self.model.table()
    }
}

#[cfg(test)]
mod tests {
    use super::*;

    #[test]
    fn a_report_of_a_message_tells_its_transitions_alone() {
        let of_messages = || EVENTS.iter().filter(|event| OF_MESSAGES.contains(&event.input));
        for one in of_messages() {
            for other in of_messages() {
                let same = (one.model, one.old, one.new) == (other.model, other.old, other.new);
                assert!(
                    !same || (one.passed, one.events) == (other.passed, other.events),
                    "{one:?} {other:?}"
                );
            }
        }
        assert!(of_messages().count() > 20);
    }

    #[test]
    fn what_no_run_gives_has_no_event() {
        assert_eq!(Event::of_change(14, Model::Transfer, 3, 3), None);
        assert_eq!(Event::of_change(1, Model::Transfer, 1, 3), None);
        assert_eq!(Event::of_change(31, Model::Transfer, 1, 3), None);
    }
}
