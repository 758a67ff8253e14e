//! Inputs by a function that isn't theirs: those that bring the clock by the one for all inputs, where they bring 0 and
//! nothing else, and all inputs by the one for times, which takes four of them.

use independent::gen::Input;
use independent::requests::predict::is_timed;
use independent::requests::Tool;

use super::foretold::{accessed, clock};
use super::{named, LOST};
use crate::machine::{outcome, Both, Outcome, SetUp, Way};
use crate::play::{Finding, Player, Tally};
use crate::script::line;
use crate::shown::bytes;
use crate::tell::answers;

const NAMES: [&[u8]; 4] = [b"A", b"N", b"", b"A "];

/// How many inputs were given.
pub fn compare(both: &Both) -> Result<u64, Finding> {
    let mut given = 0;
    for tool in tools(both)? {
        let numbers = (0..=300).chain(LOST.iter().flat_map(|high| (31..=37).map(move |row| row + high)));
        for number in numbers {
            for name in NAMES {
                let times = vec![1.5f64.to_bits(); 2];
                let input = Input { port: 1, clock: 7, time: 9, wafers: times, ..named(number, name) };
                by_step(both, &tool, &input)?;
                by_time_step(both, &tool, &input)?;
                given += 2;
            }
        }
    }
    Ok(given)
}

/// No tool, one that has just been set up, and one where A waits for its prediction at clock 0 and at clock 5.
fn tools(both: &Both) -> Result<[Tool; 4], Finding> {
    let mut tally = Tally::default();
    let mut player = accessed(both, &mut tally, (60, 120), &[b"A"])?;
    let waits = player.tool;
    player.expect(clock(5), 0)?;
    let after = player.tool;
    let fresh = Player::set_up(both, &mut tally, SetUp::fixed(2, 60, 120))?.tool;
    Ok([Tool::NONE, fresh, waits, after])
}

/// By the function for all inputs: a clock of 0, no time and no wafers.
fn by_step(both: &Both, tool: &Tool, input: &Input) -> Result<(), Finding> {
    let o = agreed(both, Way::Step, tool, input)?;
    let plain = Input { clock: 0, time: 0, wafers: Vec::new(), ..input.clone() };
    held(o.same(&outcome(both.independent, tool, &plain)), "a clock of 0, no time and no wafers", tool, input)
}

/// By the function for times: 1 but for inputs 31 to 34.
fn by_time_step(both: &Both, tool: &Tool, input: &Input) -> Result<(), Finding> {
    let o = agreed(both, Way::TimeStep, tool, input)?;
    held(o.answer == 1 || is_timed(input.number), "1 for an input without a time", tool, input)
}

fn agreed(both: &Both, way: Way, tool: &Tool, input: &Input) -> Result<Outcome, Finding> {
    let (one, other) = (way.outcome(both.proved, tool, input), way.outcome(both.independent, tool, input));
    if one.same(&other) {
        return Ok(one);
    }
    let (state, line) = (bytes(tool), line(input));
    let told = format!("DIFFERENT. From the state\n{state}by {way}, the parts of\n{line}\n");
    Err(Finding::Told(told + &answers(&one, &other)))
}

fn held(holds: bool, why: &str, tool: &Tool, input: &Input) -> Result<(), Finding> {
    if holds {
        return Ok(());
    }
    Err(Finding::Law(Box::new(*tool), Box::new(input.clone()), format!("by this function it is {why}")))
}
