//! The two programs behind one face: the proved machine, by its C interface, and the independent program.

use hawsermole::raw::{self, REPORTS_BYTES, TOOL_BYTES};
use independent::gen::{requests as gen, Input};
use independent::requests::predict::is_timed;
use independent::requests::wafers::WAFERS;
use independent::requests::{self, secs, Tool};
use independent::{Plain, Reports};

/// The numbers of a set-up.
#[derive(Clone, Copy, Debug, Default, PartialEq, Eq)]
pub struct SetUp {
    pub ports: u32,
    pub places: u32,
    pub setting: u32,
    pub timeout: u32,
}

impl SetUp {
    /// Without a setting time and a timeout.
    pub fn of(ports: u32, places: u32) -> SetUp {
        SetUp { ports, places, ..SetUp::default() }
    }

    /// A tool without a buffer, with these times.
    pub fn fixed(ports: u32, setting: u32, timeout: u32) -> SetUp {
        SetUp { ports, places: 0, setting, timeout }
    }
}

pub trait Machine {
    fn setup(&self, of: SetUp, tool: &mut Tool) -> u32;
    /// An input by the function that is its own.
    fn step(&self, tool: &mut Tool, input: &Input, reports: &mut Reports) -> u32;
    /// An input of any number by one of the functions.
    fn by(&self, way: Way, tool: &mut Tool, input: &Input, reports: &mut Reports) -> u32;
    fn sound(&self, tool: &Tool) -> u32;
    /// How many bytes of a text are its name; 0 where there is none.
    fn name(&self, text: &[u8]) -> u32;
    /// Reads a message and gives the tool what it asks for.
    fn secs(&self, tool: &mut Tool, message: &[u8], reports: &mut Reports) -> Heard;
}

/// The function for all inputs, and the one for times.
#[derive(Clone, Copy, Debug, PartialEq, Eq)]
pub enum Way {
    Step,
    TimeStep,
}

impl std::fmt::Display for Way {
    fn fmt(&self, f: &mut std::fmt::Formatter) -> std::fmt::Result {
        f.write_str(match self {
            Way::Step => "hm_step",
            Way::TimeStep => "hm_time_step",
        })
    }
}

impl Way {
    pub fn outcome(self, machine: &dyn Machine, tool: &Tool, input: &Input) -> Outcome {
        let mut o = Outcome { answer: 0, tool: *tool, reports: left_over() };
        o.answer = machine.by(self, &mut o.tool, input, &mut o.reports);
        o
    }
}

/// What is said of a message.
#[derive(Clone, Copy, Debug, PartialEq, Eq)]
pub struct Heard {
    /// The reader's refusal, or the tool's answer.
    pub answer: u32,
    pub items: u32,
    /// Where the reading stopped.
    pub at: usize,
}

/// The proved machine, as the archive holds it.
pub struct Proved(());

impl Proved {
    /// Nothing if the archive has other sizes than the structs that are lent to it.
    pub fn new() -> Option<Proved> {
        let lent = (size_of::<Tool>(), size_of::<Reports>());
        (raw::sizes_agree() && lent == (TOOL_BYTES, REPORTS_BYTES)).then_some(Proved(()))
    }
}

impl Machine for Proved {
    fn setup(&self, of: SetUp, tool: &mut Tool) -> u32 {
        // SAFETY: the sizes agree.
        unsafe { raw::hm_setup(lent(tool), of.ports, of.places, of.setting, of.timeout) }
    }

    fn step(&self, tool: &mut Tool, i: &Input, reports: &mut Reports) -> u32 {
        if i.number == WAFERS {
            // SAFETY: the sizes agree.
            return unsafe { raw::wafers_step(lent(tool), lent(reports), i.clock, &i.name, &i.times()) };
        }
        self.by(if is_timed(i.number) { Way::TimeStep } else { Way::Step }, tool, i, reports)
    }

    fn by(&self, way: Way, tool: &mut Tool, i: &Input, reports: &mut Reports) -> u32 {
        let (tool, reports) = (lent(tool), lent(reports));
        // SAFETY: the sizes agree.
        unsafe {
            match way {
                Way::Step => raw::step(tool, reports, i.number, i.port, i.value, &i.name, &i.codes),
                Way::TimeStep => raw::time_step(tool, reports, i.number, i.clock, &i.name, i.time),
            }
        }
    }

    fn sound(&self, tool: &Tool) -> u32 {
        // SAFETY: the sizes agree.
        unsafe { raw::hm_sound(tool.bytes().try_into().expect("a tool's bytes")) }
    }

    fn name(&self, text: &[u8]) -> u32 {
        raw::name_length(text) as u32
    }

    fn secs(&self, tool: &mut Tool, message: &[u8], reports: &mut Reports) -> Heard {
        let mut items = u32::MAX;
        // SAFETY: the sizes agree.
        let answer = unsafe { raw::secs_step(lent(tool), lent(reports), message, &mut items) };
        Heard { answer, items, at: raw::secs_at(message) }
    }
}

/// The bytes of a struct, to be written in place.
pub fn lent<const N: usize>(to: &mut impl Plain) -> &mut [u8; N] {
    to.bytes_mut().try_into().expect("as many bytes as the archive's")
}

/// The program written from the documents without sight of the code.
pub struct Independent;

impl Machine for Independent {
    fn setup(&self, of: SetUp, tool: &mut Tool) -> u32 {
        requests::setup(of.ports, of.places, of.setting, of.timeout, tool)
    }

    fn step(&self, tool: &mut Tool, input: &Input, reports: &mut Reports) -> u32 {
        gen::step(tool, input, reports)
    }

    fn by(&self, way: Way, tool: &mut Tool, i: &Input, reports: &mut Reports) -> u32 {
        match way {
            Way::Step => requests::step(tool, i.number, i.port, i.value, &i.name, &i.codes, reports),
            Way::TimeStep => requests::time_step(tool, i.number, i.clock, &i.name, i.time, reports),
        }
    }

    fn sound(&self, tool: &Tool) -> u32 {
        requests::sound(tool) as u32
    }

    fn name(&self, text: &[u8]) -> u32 {
        requests::names::name_of(text).map_or(0, |name| name.len() as u32)
    }

    fn secs(&self, tool: &mut Tool, message: &[u8], reports: &mut Reports) -> Heard {
        let secs::SecsAnswer { refusal, items, answer } = secs::secs_step(tool, message, reports);
        let at = secs::read(message).items().last().map_or(0, |item| item.data().end);
        Heard { answer: answer.unwrap_or(refusal), items, at }
    }
}

/// Everything that an input gives.
#[derive(Clone)]
pub struct Outcome {
    pub answer: u32,
    pub tool: Tool,
    pub reports: Reports,
}

impl Outcome {
    pub fn accepted(&self) -> bool {
        self.answer == 0
    }

    pub fn same(&self, other: &Outcome) -> bool {
        self.answer == other.answer
            && self.tool.bytes() == other.tool.bytes()
            && self.reports.bytes() == other.reports.bytes()
    }
}

/// What stands in memory before it is written: an entry that a program leaves as it was is then seen.
pub fn left_over<T: Plain>() -> T {
    T::from_bytes(&vec![0xA5; size_of::<T>()]).expect("as long as it should be")
}

pub fn outcome(machine: &dyn Machine, tool: &Tool, input: &Input) -> Outcome {
    let mut o = Outcome { answer: 0, tool: *tool, reports: left_over() };
    o.answer = machine.step(&mut o.tool, input, &mut o.reports);
    o
}

/// Everything that a message gives.
#[derive(Clone)]
pub struct Bridged {
    pub outcome: Outcome,
    pub heard: Heard,
}

pub fn bridged(machine: &dyn Machine, tool: &Tool, message: &[u8]) -> Bridged {
    let mut outcome = Outcome { answer: 0, tool: *tool, reports: left_over() };
    let heard = machine.secs(&mut outcome.tool, message, &mut outcome.reports);
    outcome.answer = heard.answer;
    Bridged { outcome, heard }
}

pub fn set_up(machine: &dyn Machine, of: SetUp) -> (u32, Tool) {
    let mut tool = left_over();
    let answer = machine.setup(of, &mut tool);
    (answer, tool)
}

/// The two programs side by side: what both say, or `None` where they differ.
pub struct Both<'a> {
    pub proved: &'a dyn Machine,
    pub independent: &'a dyn Machine,
}

impl Both<'_> {
    pub fn setup(&self, of: SetUp) -> Option<(u32, Tool)> {
        let (answer, tool) = set_up(self.proved, of);
        let (other, another) = set_up(self.independent, of);
        (answer == other && tool.bytes() == another.bytes()).then_some((answer, tool))
    }

    pub fn step(&self, tool: &Tool, input: &Input) -> Option<Outcome> {
        let o = outcome(self.proved, tool, input);
        o.same(&outcome(self.independent, tool, input)).then_some(o)
    }

    pub fn sound(&self, tool: &Tool) -> Option<bool> {
        let yes = self.proved.sound(tool);
        (yes == self.independent.sound(tool)).then_some(yes == 1)
    }

    pub fn name(&self, text: &[u8]) -> Option<u32> {
        let length = self.proved.name(text);
        (length == self.independent.name(text)).then_some(length)
    }

    pub fn secs(&self, tool: &Tool, message: &[u8]) -> Option<Bridged> {
        let one = bridged(self.proved, tool, message);
        let other = bridged(self.independent, tool, message);
        (one.heard == other.heard && one.outcome.same(&other.outcome)).then_some(one)
    }
}
