//! Finds the transitions: every input to every tool that runs from a set-up reach, what the reports say, what becomes
//! of the requests for CarrierOut, and where a hand on an AUTO port leads.
//!
//! The search is complete within its bounds: all runs, of any length, of the tools in [`SETUPS`] with inputs made
//! of the ports of the tool (and 0), the names in [`NAMES`] (and none), every buffer place, both values of every
//! choice, one expected map (and none), and one slot map, which equals it. A tool that was met before isn't followed
//! again, so the search ends by itself. Nothing is predicted in these tools: a second search has [`TIMES`], and meets
//! what becomes of predictions.
use crate::subject::{hands_of, request_of, Subject};
use hawsermole::{Argument, Input, Model, Parts, Reports, Row, Tool, Wafer, PORTS, ROWS, TOOL_BYTES};
use std::collections::{BTreeMap, BTreeSet, HashSet, VecDeque};

/// Ports and buffer places. One port and two names meet all that needs two carriers: a name that isn't the one
/// announced. More ports, places and names add tools but no transition; `diagrams --wide` sees to that.
pub const SETUPS: [(u32, u32); 2] = [(1, 0), (1, 1)];
pub const NAMES: [&[u8]; 2] = [b"A", b"B"];

/// Clocks and times of a search, and the set-up's setting time and timeout.
#[derive(Clone, Copy)]
pub struct Times {
    pub setting: u32,
    pub timeout: u32,
    pub clocks: &'static [u32],
    pub tp: &'static [u32],
    pub te: &'static [u32],
    pub wafers: &'static [&'static [Wafer]],
}

/// No clock goes on, and nothing is predicted.
const STILL: Times = Times { setting: 0, timeout: 0, clocks: &[0], tp: &[0], te: &[0], wafers: &[&[]] };

/// Of two predicted times one is near at first, and one is near at 3 and late at 6, where nothing is estimated; of two
/// estimates one is always late, and one never. So each is PREDICTED and ABORTED by every input that can do it. Wafers
/// give predicted times, too, and never one before the clock.
pub const TIMES: Times = Times {
    setting: 1,
    timeout: 2,
    clocks: &[0, 3, 6],
    tp: &[1, 4],
    te: &[1, 9],
    wafers: &[&[Wafer { process: 0.5, handling: 0.25 }], &[Wafer { process: 2.0, handling: 2.0 }]],
};

const NO_NAME: &[u8] = b"";
const NO_MAP: &[u8] = b"";
const MAP: &[u8] = &[3; hawsermole::SLOTS];

/// A transition: from old to new, by an input.
#[derive(Clone, Copy, Debug, PartialEq, Eq, PartialOrd, Ord)]
pub struct Edge {
    pub of: Subject,
    pub old: u8,
    pub new: u8,
}

/// An accepted input: the tool before and after it, and its reports.
pub struct Step<'a> {
    pub before: &'a Tool,
    pub after: &'a Tool,
    pub input: &'a Input<'a>,
    pub reports: Reports,
}

/// What causes a transition: a row, with its value where the row's value is a choice of two. For a slot map the value
/// is 1 where it is the expected one, else 0. Who starts is told of alarms alone: elsewhere it makes no difference.
#[derive(Clone, Copy, Debug, PartialEq, Eq, PartialOrd, Ord)]
pub struct Cause {
    pub number: u32,
    pub choice: Option<u32>,
}

/// The kinds of tool in which a transition was met.
#[derive(Clone, Copy, Debug, Default, PartialEq, Eq)]
pub struct Kinds {
    pub fixed: bool,
    pub internal: bool,
}

/// What the search found.
#[derive(Debug, Default)]
pub struct Found {
    /// The state that set-up gives to every port, in models 1 to 4 and 9 and by what hands did, and to the request of
    /// every carrier.
    pub first: BTreeSet<(Subject, u8)>,
    pub edges: BTreeMap<Edge, BTreeMap<Cause, Kinds>>,
    pub tools: usize,
}

/// Searches all of [`SETUPS`].
pub fn explore() -> Found {
    let mut found = Found::default();
    for (ports, places) in SETUPS {
        explore_from(ports, places, &NAMES, &mut found);
    }
    explore_predictions(&NAMES[..1], &mut found);
    found
}

/// Searches the runs of one set-up.
pub fn explore_from(ports: u32, places: u32, names: &[&[u8]], found: &mut Found) {
    let start = start(ports, places, &STILL);
    found.first.extend(start.ports().flat_map(|port| states_at(&start, port)));
    found.first.extend(names.iter().map(|name| (Subject::Request, request_of(&start, name))));
    search(start, &inputs(ports, places, names, &STILL), names, found);
}

/// Searches the runs of a tool that predicts: all of those with one port; and with two, where an input for one carrier
/// judges the other too, what follows when both are IN ACCESS.
pub fn explore_predictions(names: &[&[u8]], found: &mut Found) {
    search(start(1, 0, &TIMES), &inputs(1, 0, names, &TIMES), names, found);
    let mut two = start(2, 0, &TIMES);
    for (port, name) in (1..).zip(NAMES) {
        visit(port, name).iter().for_each(|input| assert!(two.step(input).is_ok(), "{input}"));
    }
    let mut inputs = inputs(2, 0, &NAMES, &TIMES);
    inputs.retain(|input| [22, 23].contains(&input.number()) || input.number() > 30);
    search(two, &inputs, &NAMES, found);
}

fn start(ports: u32, places: u32, times: &Times) -> Tool {
    let Times { setting, timeout, .. } = *times;
    Tool::setup_with_times(ports, places, setting, timeout).expect("the bounds are a tool's")
}

/// A carrier comes to a port, and its wafers are accessed.
fn visit(port: u32, name: &[u8]) -> [Input<'_>; 8] {
    [
        Input::LoadStart { port, start: 0 },
        Input::LoadDone { port },
        Input::IdRead { port, name },
        Input::ProceedWithCarrier { name, port },
        Input::Open { name },
        Input::SlotMap { name, codes: MAP },
        Input::ProceedWithCarrier { name, port },
        Input::AccessStart { name },
    ]
}

/// Notes what each step from a tool brings.
fn search(start: Tool, inputs: &[Input], names: &[&[u8]], found: &mut Found) {
    let places = start.places();
    let tools = each_step_from(start, inputs, |step| {
        let cause = |of| cause(step.after, step.input, of);
        let requests: Vec<Edge> = names.iter().filter_map(|name| of_request(&step, name)).collect();
        let hands: Vec<Edge> = (1..=PORTS as u32).filter_map(|port| of_hands(&step, port)).collect();
        let reported = step.reports.map(|report| {
            let of = Subject::Model(report.model);
            Edge { of, old: report.old, new: report.new }
        });
        reported.chain(requests).chain(hands).for_each(|edge| found.note(edge, cause(edge.of), places));
    });
    found.tools += tools;
}

/// What became of a carrier's request.
fn of_request(step: &Step, name: &[u8]) -> Option<Edge> {
    let (old, new) = (request_of(step.before, name), request_of(step.after, name));
    (old != new).then_some(Edge { of: Subject::Request, old, new })
}

/// What became of alarm and held pod at a port.
fn of_hands(step: &Step, port: u32) -> Option<Edge> {
    let (old, new) = (hands_of(step.before, port), hands_of(step.after, port));
    (old != new).then_some(Edge { of: Subject::Hands, old, new })
}

/// Calls with each accepted input to each tool that is reached, breadth first. Gives the number of tools.
pub fn each_step(ports: u32, places: u32, names: &[&[u8]], call: impl FnMut(Step<'_>)) -> usize {
    each_step_from(start(ports, places, &STILL), &inputs(ports, places, names, &STILL), call)
}

/// The same for a tool of one port that predicts, with [`TIMES`].
pub fn each_timed_step(names: &[&[u8]], call: impl FnMut(Step<'_>)) -> usize {
    each_step_from(start(1, 0, &TIMES), &inputs(1, 0, names, &TIMES), call)
}

fn each_step_from(start: Tool, inputs: &[Input], mut call: impl FnMut(Step<'_>)) -> usize {
    let mut met: HashSet<[u8; TOOL_BYTES]> = HashSet::from([*start.as_bytes()]);
    let mut waiting = VecDeque::from([start]);
    while let Some(tool) = waiting.pop_front() {
        for input in inputs {
            let mut next = tool.clone();
            let Ok(reports) = next.step(input) else { continue };
            call(Step { before: &tool, after: &next, input, reports });
            if met.insert(*next.as_bytes()) {
                waiting.push_back(next);
            }
        }
    }
    met.len()
}

fn states_at(tool: &Tool, port: hawsermole::Port) -> [(Subject, u8); 6] {
    let number = port.number.into();
    [
        (Subject::Model(Model::Transfer), port.transfer),
        (Subject::Model(Model::Access), port.access),
        (Subject::Model(Model::Reservation), port.reserved),
        (Subject::Model(Model::Tie), u8::from(!port.tie.is_none())),
        (Subject::Model(Model::Alarm), u8::from(tool.alarm(number))),
        (Subject::Hands, hands_of(tool, number)),
    ]
}

impl Found {
    fn note(&mut self, edge: Edge, cause: Cause, places: u8) {
        let kinds = self.edges.entry(edge).or_default().entry(cause).or_default();
        match places {
            0 => kinds.fixed = true,
            _ => kinds.internal = true,
        }
    }
}

fn cause(tool: &Tool, input: &Input, of: Subject) -> Cause {
    let parts = input.parts();
    let as_expected = || tool.expected_map(parts.name).is_some_and(|map| map == parts.codes);
    let alarms = [Subject::Model(Model::Alarm), Subject::Hands].contains(&of);
    let told = |argument: &Argument| *argument != Argument::Start || alarms;
    let choice = choice(input.row()).filter(told).map(|argument| match argument {
        Argument::Codes => u32::from(as_expected()),
        _ => parts.value,
    });
    Cause { number: parts.number, choice }
}

/// The argument that is a choice of two, in the rows that have one.
pub fn choice(row: &Row) -> Option<Argument> {
    let choices = [Argument::Access, Argument::Service, Argument::End, Argument::Codes, Argument::Start];
    row.arguments.iter().copied().find(|argument| choices.contains(argument))
}

/// Every input within the bounds.
fn inputs<'a>(ports: u32, places: u32, names: &[&'a [u8]], times: &Times) -> Vec<Input<'a>> {
    let of_row = |row: &Row| {
        let mut all = vec![Parts { number: row.number, ..Parts::default() }];
        for &argument in row.arguments {
            let each = |parts: &Parts<'a>| match of_time(parts, argument, times) {
                Some(timed) => timed,
                None => with(parts, argument, ports, places, names),
            };
            all = all.iter().flat_map(each).collect();
        }
        all
    };
    let parts = ROWS.iter().flat_map(of_row);
    parts.map(|parts| Input::from_parts(&parts).expect("the number is a row's")).collect()
}

/// The input with each clock or time; none where the argument is another.
fn of_time<'a>(parts: &Parts<'a>, argument: Argument, times: &Times) -> Option<Vec<Parts<'a>>> {
    let time = |&time: &u32| Parts { time, ..*parts };
    match argument {
        Argument::Clock => Some(times.clocks.iter().map(|&clock| Parts { clock, ..*parts }).collect()),
        Argument::Tp => Some(times.tp.iter().map(time).collect()),
        Argument::Te => Some(times.te.iter().map(time).collect()),
        Argument::Wafers => Some(times.wafers.iter().map(|&wafers| Parts { wafers, ..*parts }).collect()),
        _ => None,
    }
}

/// The input with each value that one of its arguments may have.
fn with<'a>(
    parts: &Parts<'a>,
    argument: Argument,
    ports: u32,
    places: u32,
    names: &[&'a [u8]],
) -> Vec<Parts<'a>> {
    let port = |port| Parts { port, ..*parts };
    let name = |name| Parts { name, ..*parts };
    let value = |value| Parts { value, ..*parts };
    let codes = |codes| Parts { codes, ..*parts };
    let named = names.iter().copied();
    match argument {
        Argument::Port => (1..=ports).map(port).collect(),
        Argument::PortOrNone => (0..=ports).map(port).collect(),
        Argument::Name => named.map(name).collect(),
        Argument::NameOrNone => named.chain([NO_NAME]).map(name).collect(),
        Argument::Access | Argument::Service | Argument::End | Argument::Start => {
            (0..=1).map(value).collect()
        }
        Argument::Place => (1..=places).map(value).collect(),
        Argument::Codes => vec![codes(MAP)],
        Argument::MapOrNone => [NO_MAP, MAP].map(codes).into(),
        Argument::Clock | Argument::Tp | Argument::Te | Argument::Wafers => vec![*parts],
    }
}
