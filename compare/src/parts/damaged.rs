//! Damaged states: each is sound to both programs or to neither, and one that isn't is answered 1 with nothing changed.

use independent::gen::requests::{damage as damage_requests, random_run_input, random_sound_tool};
use independent::gen::{Input, Rng};
use independent::requests::Tool;
use independent::Plain;

use crate::machine::{Both, SetUp};
use crate::play::{from_state, Finding, Tally};

/// What every byte is set to, besides its own value one more, one less, and with the high bit turned.
const VALUES: [u8; 14] = [0, 1, 2, 3, 4, 5, 6, 16, 17, 0x20, 0x41, 0x7E, 0x7F, 255];

/// Inputs from one tool, each with one byte changed.
const EACH: usize = size_of::<Tool>() * (VALUES.len() + 3);

/// The bytes of document 01's tool, with which a tool begins.
const BASE: usize = size_of::<independent::Tool>();

/// What was tried, and how many of the states were sound.
#[derive(Default)]
pub struct Damage {
    pub tally: Tally,
    pub sound: u64,
}

/// Every byte of some tools: the one of a fresh set-up, none at all, and random sound ones, one of which foretells.
pub fn every_byte(both: &Both, total: u64, rng: &mut Rng) -> Result<Damage, Finding> {
    let mut damage = Damage::default();
    let tools = (total as usize).div_ceil(EACH).max(4);
    for k in 0..tools {
        let whole = match k {
            0 => fullest(rng),
            3 => foretelling(rng),
            1 => both.setup(SetUp::of(2, 3)).map_or(Tool::NONE, |(_, tool)| tool),
            2 => Tool::NONE,
            _ => random_sound_tool(rng),
        };
        for at in 0..size_of::<Tool>() {
            let was = whole.bytes()[at];
            let near = [was.wrapping_add(1), was.wrapping_sub(1), was ^ 0x80];
            let input = some_input(&whole, rng);
            for value in VALUES.into_iter().chain(near) {
                let mut bytes = whole.bytes().to_vec();
                bytes[at] = value;
                one(both, &mut damage, &tool_of(&bytes), &input)?;
            }
        }
    }
    Ok(damage)
}

/// Sound tools in which one record or port has a part of another, so that names, places or ties no longer agree; or
/// in which a map, a request, a prediction, an alarm, what these need, or a byte that is unused, isn't as it should be.
pub fn mixed_up(both: &Both, total: u64, rng: &mut Rng) -> Result<Damage, Finding> {
    let mut damage = Damage::default();
    while damage.tally.inputs < total {
        let whole = random_sound_tool(rng);
        for _ in 0..8 {
            let mut tool = whole;
            for _ in 0..1 + rng.below(2) {
                if rng.chance(45) {
                    damage_requests(&mut tool, rng);
                } else {
                    mix_up(&mut tool.base, rng);
                }
            }
            one(both, &mut damage, &tool, &some_input(&whole, rng))?;
        }
    }
    Ok(damage)
}

/// Tools of random bytes: any, small ones, and small ones in a tool whose numbers of ports,
/// places and records are good.
pub fn random_bytes(both: &Both, total: u64, rng: &mut Rng) -> Result<Damage, Finding> {
    let mut damage = Damage::default();
    while damage.tally.inputs < total {
        let most = rng.pick(&[1, 2, 6, 256]);
        let mut bytes: Vec<u8> = (0..size_of::<Tool>()).map(|_| rng.below(most) as u8).collect();
        if rng.chance(75) {
            (bytes[0], bytes[1], bytes[2]) =
                (1 + rng.below(4) as u8, rng.below(17) as u8, rng.below(37) as u8);
        }
        if rng.chance(50) {
            let used = 3 + 4 * 22 + 50 * bytes[2].min(36) as usize;
            bytes[used..BASE].fill(0);
            // Half of these are sound behind document 01's tool.
            if rng.chance(50) {
                bytes[BASE..].fill(0);
            }
        }
        one(both, &mut damage, &tool_of(&bytes), &some_input(&Tool::NONE, rng))?;
    }
    Ok(damage)
}

fn tool_of(bytes: &[u8]) -> Tool {
    Tool::from_bytes(bytes).expect("as long as a tool")
}

/// A random sound tool with as many records, requests, some of them started, and pods held as some hundred draws give.
fn fullest(rng: &mut Rng) -> Tool {
    let started = |tool: &Tool| tool.queue.requests().iter().filter(|r| r.started == 1).count();
    let held = |tool: &Tool| tool.alarms.iter().filter(|alarm| alarm.held == 1).count();
    let draws = (0..400).map(|_| random_sound_tool(rng));
    draws
        .max_by_key(|tool| {
            tool.base.count as usize + tool.queue.count as usize + 4 * (started(tool) + held(tool))
        })
        .expect("some draws")
}

/// A random sound tool without a buffer that has as many carriers at ports with a Tp and a Te as some hundred draws give.
fn foretelling(rng: &mut Rng) -> Tool {
    let draws = (0..400).map(|_| random_sound_tool(rng)).filter(|tool| tool.base.places == 0);
    let told =
        |tool: &Tool| tool.predictions.of.iter().filter(|p| p.state > 2 && p.has_tp + p.has_te > 1).count();
    draws.max_by_key(|tool| 20 * told(tool) + tool.base.count as usize).expect("some draws")
}

/// Whether a state is sound, and an input from it.
fn one(both: &Both, damage: &mut Damage, tool: &Tool, input: &Input) -> Result<(), Finding> {
    let Some(sound) = both.sound(tool) else {
        return Err(Finding::Sound(Box::new(*tool)));
    };
    let o = from_state(both, &mut damage.tally, tool, input)?;
    damage.sound += sound as u64;
    if !sound && o.answer != 1 {
        let why = "a state that isn't sound is answered 1".into();
        return Err(Finding::Law(Box::new(*tool), Box::new(input.clone()), why));
    }
    Ok(())
}

/// An input that the state before the damage might accept. Every other one is accepted by any sound state:
/// a port that isn't in goes in, and one that is stays.
fn some_input(whole: &Tool, rng: &mut Rng) -> Input {
    if rng.chance(50) {
        return Input { number: 10, port: 1, value: 1, ..Input::default() };
    }
    random_run_input(whole, rng)
}

/// A part of one record or port goes to another.
fn mix_up(tool: &mut independent::Tool, rng: &mut Rng) {
    let (from, to) = (rng.below(tool.count as u32 + 1) as usize, rng.below(tool.count as u32 + 1) as usize);
    let (p, q) = (rng.below(4) as usize, rng.below(4) as usize);
    let (from, to) = (from.min(35), to.min(35));
    match rng.below(10) {
        0 => tool.carrier[to].name = tool.carrier[from].name,
        1 => tool.carrier[to].spot = tool.carrier[from].spot,
        2 => tool.carrier[to].port = tool.carrier[from].port,
        3 => tool.carrier[to].place = tool.carrier[from].place,
        4 => tool.carrier[to] = tool.carrier[from],
        5 => tool.port[q].tie = tool.carrier[from].name,
        6 => tool.port[q].tie = tool.port[p].tie,
        7 => tool.port[q].tie = [0; 16],
        8 => tool.carrier.swap(from, to),
        _ => tool.carrier[to].open ^= 1,
    }
}
