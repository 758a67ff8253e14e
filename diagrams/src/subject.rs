//! What a picture is of.
use hawsermole::states::RequestState;
use hawsermole::{Model, Tool};

/// A model of the reports; the CarrierOut request of a carrier, of which no report tells; or what a hand did at a port:
/// its alarm, model 9, and the pod that is held, of which no report tells.
#[derive(Clone, Copy, Debug, PartialEq, Eq, PartialOrd, Ord)]
pub enum Subject {
    Model(Model),
    Request,
    Hands,
}

/// The states of a request.
pub const NO_REQUEST: u8 = 0;
pub const QUEUED: u8 = 1;
pub const STARTED: u8 = 2;

/// The states of a port that a hand was at: a pod is held only while the alarm is on.
pub const NO_ALARM: u8 = 0;
pub const ALARM: u8 = 1;
pub const HELD: u8 = 2;

/// The state of a port by what hands did there.
pub fn hands_of(tool: &Tool, port: u32) -> u8 {
    match (tool.alarm(port), tool.held(port)) {
        (false, _) => NO_ALARM,
        (true, false) => ALARM,
        (true, true) => HELD,
    }
}

/// The state of a carrier's request.
pub fn request_of(tool: &Tool, name: &[u8]) -> u8 {
    match tool.requests().find(|request| request.name.as_bytes() == name) {
        None => NO_REQUEST,
        Some(request) if request.started == RequestState::Queued.number() => QUEUED,
        Some(_) => STARTED,
    }
}

impl Subject {
    /// Its number, `out` as in a dump of the command line, or `hands`.
    pub fn short(self) -> String {
        match self {
            Subject::Model(model) => model.number().to_string(),
            Subject::Request => "out".into(),
            Subject::Hands => "hands".into(),
        }
    }

    pub fn title(self) -> String {
        match self {
            Subject::Model(model) => format!("Model {}: {model}", model.number()),
            Subject::Request => "The CarrierOut request of a carrier".into(),
            Subject::Hands => "Hands on an AUTO port".into(),
        }
    }

    /// The standard's table of its transitions.
    pub fn table(self) -> Option<u8> {
        match self {
            Subject::Model(model) => Some(model.table()),
            Subject::Request | Subject::Hands => None,
        }
    }

    /// A state in words.
    pub fn state(self, state: u8) -> &'static str {
        match (self, state) {
            (Subject::Model(model), _) => model.state(state),
            (Subject::Request, NO_REQUEST) => "no request",
            (Subject::Request, QUEUED) => RequestState::Queued.word(),
            (Subject::Request, _) => RequestState::Started.word(),
            (Subject::Hands, NO_ALARM) => "no alarm",
            (Subject::Hands, ALARM) => "alarm on",
            (Subject::Hands, _) => "alarm on, pod held",
        }
    }
}
