//! P10: the second input of a pair gives back the state before the first, byte for byte; tried on copies of a state.

use independent::gen::requests::random_pair;
use independent::gen::{Input, Rng};
use independent::requests::undo::{Pair, When, PAIRS};
use independent::requests::Tool;
use independent::Plain;

use crate::laws::unlawful;
use crate::machine::{Both, Outcome};
use crate::play::Finding;
use crate::script::line;

/// How many moments of a run are kept, about, and how many of all runs at most.
const OF_A_RUN: u64 = 50;
const OF_ALL: usize = 20_000;

/// Moments of runs, to be tried when all runs are over: what a run itself finds is told first. The numbers are drawn
/// apart, so that a run is the same whatever is kept of it.
pub struct Moments {
    tools: Vec<Tool>,
    rng: Rng,
}

impl Moments {
    pub fn new(rng: &Rng) -> Moments {
        Moments { tools: Vec::new(), rng: rng.clone() }
    }

    /// A moment of a run of this length: kept or not, by chance.
    pub fn pass(&mut self, tool: &Tool, length: u64) {
        if self.rng.draw() % length < OF_A_RUN && self.tools.len() < OF_ALL {
            self.tools.push(*tool);
        }
    }

    pub fn undo(mut self, both: &Both) -> Result<Undone, Finding> {
        let mut undone = Undone::default();
        for tool in &self.tools {
            undone.try_all(both, tool, &mut self.rng)?;
        }
        Ok(undone)
    }
}

/// How often each pair has to be tried; and how often something has to be left behind, where that may be.
const LEAST: u64 = 100;
const LEAST_LEFT: u64 = 10;

/// How often each pair was tried with its condition, and how often without it another state came of it.
#[derive(Clone, Copy, Default)]
pub struct Undone {
    back: [u64; PAIRS.len()],
    left: [u64; PAIRS.len()],
}

impl Undone {
    /// Tries every pair whose first input is accepted in this state.
    pub fn try_all(&mut self, both: &Both, tool: &Tool, rng: &mut Rng) -> Result<(), Finding> {
        PAIRS.iter().enumerate().try_for_each(|(k, pair)| match random_pair(tool, pair, rng) {
            Some([first, undo]) => self.try_one(both, tool, (k, pair), &first, &undo),
            None => Ok(()),
        })
    }

    fn try_one(
        &mut self,
        both: &Both,
        tool: &Tool,
        (k, pair): (usize, &Pair),
        first: &Input,
        undo: &Input,
    ) -> Result<(), Finding> {
        let between = stepped(both, tool, first)?;
        let after = stepped(both, &between.tool, undo)?;
        let same = after.tool.bytes() == tool.bytes();
        if !pair.holds(tool, first.port, first.value) {
            self.left[k] += !same as u64;
            return Ok(());
        }
        if !between.accepted() || !after.accepted() || !same {
            let (undo, second) = (pair.undo, line(undo));
            let why = format!("row {undo} after row {} gives back the state before it: {second}", pair.first);
            return Err(Finding::Law(Box::new(*tool), Box::new(first.clone()), why));
        }
        self.back[k] += 1;
        Ok(())
    }

    /// What both count together.
    pub fn and(&self, other: &Undone) -> Undone {
        let sum = |one: &[u64; PAIRS.len()], another: &[u64; PAIRS.len()]| {
            std::array::from_fn(|k| one[k] + another[k])
        };
        Undone { back: sum(&self.back, &other.back), left: sum(&self.left, &other.left) }
    }

    /// How many inputs were undone, and how many weren't.
    pub fn counts(&self) -> [u64; 2] {
        [self.back, self.left].map(|each| each.iter().sum())
    }

    /// The pairs that were tried too seldom.
    pub fn unmet(&self) -> Vec<String> {
        let tries = PAIRS.iter().zip(self.back).filter(|(_, times)| *times < LEAST);
        let seldom = tries.map(|(pair, times)| format!("{} by {} ({times} times)", pair.first, pair.undo));
        let may_leave = PAIRS.iter().zip(self.left).filter(|(pair, _)| pair.when != When::Always);
        let left = may_leave.filter(|(_, times)| *times < LEAST_LEFT);
        let left = left.map(|(pair, times)| format!("{} not by {} ({times} times)", pair.first, pair.undo));
        seldom.chain(left).collect()
    }
}

/// An input to both programs, from a copy of the state: they agree, and the documents say nothing against it.
fn stepped(both: &Both, tool: &Tool, input: &Input) -> Result<Outcome, Finding> {
    let Some(o) = both.step(tool, input) else {
        return Err(Finding::State(Box::new(*tool), input.clone()));
    };
    match unlawful(tool, input, &o) {
        Some(why) => Err(Finding::Law(Box::new(*tool), Box::new(input.clone()), why)),
        None => Ok(o),
    }
}
