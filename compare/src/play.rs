//! Inputs given to both programs, counted, and what is found where they differ.

use independent::gen::Input;
use independent::requests::Tool;

use crate::alarms::Violated;
use crate::laws::{padded, unlawful};
use crate::machine::{Both, Outcome, SetUp};
use crate::pairs::Pairs;
use crate::pods::{Counted, Pods};
use crate::predict::Foretold;
use crate::queue::Befallen;
use crate::script::{tabled, Run};
use crate::undo::Undone;
use crate::wafers::Totalled;

/// What ends the comparison.
#[derive(Debug)]
pub enum Finding {
    /// The programs differ at the last input of the run, or at its set-up.
    Run(Run),
    /// The programs differ on an input from a state that no run need reach.
    State(Box<Tool>, Input),
    /// One program calls the state sound and the other doesn't.
    Sound(Box<Tool>),
    /// The programs don't find the same name in a text.
    Name(Vec<u8>),
    /// The programs differ on a message to a tool of any state.
    Message(Box<Tool>, Vec<u8>),
    /// The programs agree, and the documents say otherwise.
    Document(Run, String),
    /// As `Document`, from a state that no run need reach.
    Law(Box<Tool>, Box<Input>, String),
    /// As `Document`, of the name in a text.
    NameLaw(Vec<u8>, String),
    /// The programs differ, or are both against the documents, in something that isn't an input: in words.
    Told(String),
    /// As `Document`, of a message.
    MessageLaw(Box<Tool>, Vec<u8>, String),
}

/// How many inputs were compared, how many of them were accepted, which pairs were met, how many slot maps
/// were OK at once, how many accepted inputs had a name with blanks at its end, what befell the queues, the
/// predictions, the alarms and the count of pods, what the wafers were, and what was undone.
#[derive(Clone, Copy, Default)]
pub struct Tally {
    pub inputs: u64,
    pub accepted: u64,
    pub pairs: Pairs,
    pub at_once: u64,
    pub padded: u64,
    pub befallen: Befallen,
    pub foretold: Foretold,
    pub totalled: Totalled,
    pub violated: Violated,
    /// Of inputs that a run goes on from.
    pub counted: Counted,
    pub undone: Undone,
}

impl Tally {
    fn note(&mut self, before: &Tool, input: &Input, o: &Outcome) {
        self.inputs += 1;
        self.accepted += o.accepted() as u64;
        self.pairs.meet(input.number, o.answer);
        self.at_once += ok_at_once(input, o) as u64;
        self.padded += (o.accepted() && padded(input)) as u64;
        self.befallen.note(before, input, o);
        self.foretold.note(before, input, o);
        self.totalled.note(before, input, o);
        self.violated.note(before, input, o);
    }

    pub fn percent(&self) -> f64 {
        100.0 * self.accepted as f64 / self.inputs.max(1) as f64
    }
}

/// A SlotMap that is accepted and reported as 6 N 1>3: no other input has this report.
fn ok_at_once(input: &Input, o: &Outcome) -> bool {
    let report = &o.reports.items[0];
    input.number == 20 && o.accepted() && (report.model, report.old, report.new) == (6, 1, 3)
}

/// One input from any state to both programs.
pub fn from_state(both: &Both, tally: &mut Tally, tool: &Tool, input: &Input) -> Result<Outcome, Finding> {
    let Some(o) = both.step(tool, input) else {
        return Err(Finding::State(Box::new(*tool), input.clone()));
    };
    if let Some(why) = unlawful(tool, input, &o) {
        return Err(Finding::Law(Box::new(*tool), Box::new(input.clone()), why));
    }
    tally.note(tool, input, &o);
    Ok(o)
}

/// A run that is played to both programs.
pub struct Player<'a> {
    both: &'a Both<'a>,
    tally: &'a mut Tally,
    run: Run,
    pods: Pods,
    pub answer: u32,
    pub tool: Tool,
}

impl<'a> Player<'a> {
    /// A set-up without a setting time and a timeout.
    pub fn begin(
        both: &'a Both,
        tally: &'a mut Tally,
        ports: u32,
        places: u32,
    ) -> Result<Player<'a>, Finding> {
        Player::set_up(both, tally, SetUp::of(ports, places))
    }

    pub fn set_up(both: &'a Both, tally: &'a mut Tally, setup: SetUp) -> Result<Player<'a>, Finding> {
        let run = Run { setup, inputs: Vec::new() };
        match both.setup(setup) {
            Some((answer, tool)) => Ok(Player { both, tally, run, pods: Pods::at_setup(), answer, tool }),
            None => Err(Finding::Run(run)),
        }
    }

    /// Compares an input without going on to the state after it.
    pub fn look(&mut self, input: &Input) -> Result<Outcome, Finding> {
        let Some(o) = self.both.step(&self.tool, input) else {
            return Err(Finding::Run(self.with(input)));
        };
        if let Some(why) = unlawful(&self.tool, input, &o) {
            return Err(Finding::Document(self.with(input), why));
        }
        self.tally.note(&self.tool, input, &o);
        Ok(o)
    }

    /// Compares an input and goes on to the state after it.
    pub fn give(&mut self, input: Input) -> Result<Outcome, Finding> {
        let o = self.look(&input)?;
        if let Some(why) = self.pods.note(&input, &o) {
            return Err(Finding::Document(self.with(&input), why));
        }
        self.tally.counted.note(&self.tool, &input, &o);
        self.tool = o.tool;
        self.run.inputs.push(input);
        Ok(o)
    }

    /// As `give`, where the documents give the answer.
    pub fn expect(&mut self, input: Input, answer: u32) -> Result<Outcome, Finding> {
        let o = self.give(input)?;
        self.demand(o.answer == answer, || format!("the last input is answered {answer}, not {}", o.answer))?;
        Ok(o)
    }

    /// As `look`, where the documents give the answer.
    pub fn expect_look(&mut self, input: &Input, answer: u32) -> Result<(), Finding> {
        let o = self.look(input)?;
        if o.answer != answer {
            let why = format!("the last input is answered {answer}, not {}", o.answer);
            return Err(Finding::Document(self.with(input), why));
        }
        Ok(())
    }

    /// As `look` at an input that is accepted, where the documents give the reports.
    pub fn expect_reports(&mut self, input: &Input, reports: &str) -> Result<(), Finding> {
        let o = self.look(input)?;
        let told = tabled(&o.reports);
        if !o.accepted() || told != reports {
            let why =
                format!("the last input is answered 0 and reports {reports}, not {} and {told}", o.answer);
            return Err(Finding::Document(self.with(input), why));
        }
        Ok(())
    }

    /// The documents ask for what holds; `why` says what that is.
    pub fn demand(&self, holds: bool, why: impl FnOnce() -> String) -> Result<(), Finding> {
        if holds {
            Ok(())
        } else {
            Err(Finding::Document(self.run.clone(), why()))
        }
    }

    /// Whether the state is sound, to both.
    pub fn sound(&self) -> Result<bool, Finding> {
        self.both.sound(&self.tool).ok_or_else(|| Finding::Sound(Box::new(self.tool)))
    }

    fn with(&self, input: &Input) -> Run {
        let mut run = self.run.clone();
        run.inputs.push(input.clone());
        run
    }
}
