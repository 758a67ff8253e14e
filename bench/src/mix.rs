//! Runs that are recorded, so that both programs play the same inputs: one that is kept near a number of live carriers,
//! with a buffer, and one without a buffer that foretells.

use independent::gen::requests::{random_run_input, step};
use independent::gen::{Input, Rng};
use independent::requests::{setup, Tool};
use independent::{status, Reports, MAX_CARRIERS};

use crate::machine::Given;

const SLOT_MAP: u32 = 20;

/// An input whose bytes stand one after another with those of the others, so that reading them costs little.
struct Recorded {
    number: u32,
    port: u32,
    value: u32,
    name: std::ops::Range<usize>,
    codes: std::ops::Range<usize>,
    clock: u32,
    time: u32,
    wafers: std::ops::Range<usize>,
}

pub struct Mix {
    pub start: Tool,
    inputs: Vec<Recorded>,
    bytes: Vec<u8>,
    times: Vec<f64>,
    accepted: u64,
    live: u64,
    /// Slot maps that were the expected ones.
    pub at_once: u64,
    /// Reports of model 8, and of model 9.
    pub turns: u64,
    pub alarms: u64,
}

impl Mix {
    fn begin(start: Tool, count: usize) -> Mix {
        let inputs = Vec::with_capacity(count);
        let (bytes, times) = (Vec::new(), Vec::new());
        Mix { start, inputs, bytes, times, accepted: 0, live: 0, at_once: 0, turns: 0, alarms: 0 }
    }

    pub fn inputs(&self) -> impl Iterator<Item = Given<'_>> {
        self.inputs.iter().map(|i| Given {
            number: i.number,
            port: i.port,
            value: i.value,
            name: &self.bytes[i.name.clone()],
            codes: &self.bytes[i.codes.clone()],
            clock: i.clock,
            time: i.time,
            wafers: &self.times[i.wafers.clone()],
        })
    }

    pub fn len(&self) -> usize {
        self.inputs.len()
    }

    pub fn live(&self) -> f64 {
        self.live as f64 / self.inputs.len() as f64
    }

    pub fn percent_accepted(&self) -> f64 {
        100.0 * self.accepted as f64 / self.inputs.len() as f64
    }

    /// Records an input with its answer, its reports and the tool after it.
    fn push(&mut self, i: &Input, answer: u32, reports: &Reports, after: &Tool) {
        self.accepted += (answer == 0) as u64;
        self.live += after.base.count as u64;
        let judged = answer == 0 && i.number == SLOT_MAP && reports.items[0].new == status::OK;
        self.at_once += judged as u64;
        let told = |model| reports.as_slice().iter().filter(|r| r.model == model).count() as u64;
        self.turns += told(8);
        self.alarms += told(9);
        let (name, codes) = (self.keep(&i.name), self.keep(&i.codes));
        let from = self.times.len();
        self.times.extend(i.times());
        let wafers = from..self.times.len();
        let Input { number, port, value, clock, time, .. } = *i;
        self.inputs.push(Recorded { number, port, value, name, codes, clock, time, wafers });
    }

    fn keep(&mut self, bytes: &[u8]) -> std::ops::Range<usize> {
        let start = self.bytes.len();
        self.bytes.extend_from_slice(bytes);
        start..self.bytes.len()
    }
}

/// `count` inputs at P = 4, B = 16, from a tool that a run reaches. An input that would lead further than two from
/// `carriers` is drawn anew.
pub fn record(count: usize, carriers: usize) -> Mix {
    let carriers = carriers.min(MAX_CARRIERS) as u8;
    let near = carriers.saturating_sub(2)..=carriers + 2;
    let mut rng = Rng::new(26);
    let mut tool = reach(carriers, &mut rng);
    let mut mix = Mix::begin(tool, count);
    while mix.inputs.len() < count {
        let i = random_run_input(&tool, &mut rng);
        let mut next = tool;
        let mut reports = Reports::NONE;
        let answer = step(&mut next, &i, &mut reports);
        if !near.contains(&next.base.count) {
            continue;
        }
        tool = next;
        mix.push(&i, answer, &reports, &tool);
    }
    mix
}

/// `count` inputs at P = 4, B = 0, setting 60 and timeout 120, with clocks, Tps, Tes and wafers. A clock that would leap
/// to the end of all clocks is drawn anew, so that predictions go on.
pub fn record_foretelling(count: usize) -> Mix {
    const LEAP: u32 = 200_000;
    let mut rng = Rng::new(31);
    let mut tool = Tool::NONE;
    setup(4, 0, 60, 120, &mut tool);
    let mut mix = Mix::begin(tool, count);
    while mix.inputs.len() < count {
        let i = random_run_input(&tool, &mut rng);
        let (mut next, mut reports) = (tool, Reports::NONE);
        let answer = step(&mut next, &i, &mut reports);
        if next.predictions.clock() - tool.predictions.clock() > LEAP {
            continue;
        }
        tool = next;
        mix.push(&i, answer, &reports, &tool);
    }
    mix
}

/// A tool with so many records; where there are enough, a good part of them in the buffer.
fn reach(carriers: u8, rng: &mut Rng) -> Tool {
    let mut tool = Tool::NONE;
    setup(4, 16, 60, 120, &mut tool);
    let mut reports = Reports::NONE;
    loop {
        let buffered = tool.base.carriers().iter().filter(|c| c.in_buffer()).count();
        if tool.base.count == carriers && buffered >= carriers as usize / 3 {
            return tool;
        }
        let i = random_run_input(&tool, rng);
        step(&mut tool, &i, &mut reports);
    }
}

#[cfg(test)]
mod tests {
    use super::*;

    /// How many inputs of a mix are of a row with this value, and how many of these are accepted.
    fn played(mix: &Mix, number: u32, value: Option<u32>) -> (u32, u32) {
        let (mut tool, mut reports) = (mix.start, Reports::NONE);
        let (mut all, mut accepted) = (0, 0);
        for i in mix.inputs() {
            let answer = crate::machine::independent(&mut tool, &i, &mut reports);
            if i.number == number && value.is_none_or(|value| value == i.value) {
                all += 1;
                accepted += (answer == 0) as u32;
            }
        }
        (all, accepted)
    }

    /// Hands and vehicles come to the ports of both mixes; most starts are as the port's mode has them, so that carriers
    /// come and go, and alarms and pods that are held are met all along.
    #[test]
    fn the_mixes_have_hands_on_auto_ports() {
        for mix in [record(20_000, 27), record_foretelling(20_000)] {
            for number in [13, 24] {
                let [manual, automatic] = [0, 1].map(|value| played(&mix, number, Some(value)));
                let (all, accepted) = played(&mix, number, None);
                assert!(manual.1 > 100 && automatic.1 > 100, "row {number}: {manual:?} {automatic:?}");
                assert!(2 * accepted > all, "row {number}: {accepted} of {all}");
            }
            let (continued, accepted) = played(&mix, 36, None);
            assert!(3 * accepted > continued && accepted > 50, "{accepted} of {continued}");
            assert!(mix.alarms > 200 && mix.alarms < 2_000, "{}", mix.alarms);
            assert!(mix.percent_accepted() > 60.0, "{}", mix.percent_accepted());
        }
    }

    /// Predictions are made and judged all along the mix without a buffer, and its clock doesn't come to an end.
    #[test]
    fn the_mix_without_a_buffer_foretells() {
        let mix = record_foretelling(20_000);
        let timed = |number| mix.inputs().filter(|i| i.number == number).count();
        assert!((31..=35).all(|number| timed(number) > 200), "{:?}", [31, 32, 33, 34, 35].map(timed));
        let full = mix.inputs().filter(|i| i.wafers.len() == 50).count();
        assert!(full > 20, "{full}");
        assert!(
            mix.turns > 2_000 && mix.percent_accepted() > 60.0,
            "{} {}",
            mix.turns,
            mix.percent_accepted()
        );
        let mut tool = mix.start;
        for i in mix.inputs() {
            crate::machine::independent(&mut tool, &i, &mut Reports::NONE.clone());
        }
        assert!((1000..u32::MAX / 2).contains(&tool.predictions.clock()), "{}", tool.predictions.clock());
    }
}
