//! P11: what came in less what went out is what is here, after every input of a run from set-up on. The left side is
//! counted twice, by the independent program and by the Rust crate, each from inputs and answers alone; the right side
//! is looked up in the bytes that the programs have come to.

use hawsermole::{Parts, Refusal};
use independent::gen::requests::{counted, COUNTED};
use independent::gen::Input;
use independent::requests::pods::{self, here};
use independent::requests::Tool;
use independent::Plain;

use crate::machine::Outcome;

/// Both counts of a run.
pub struct Pods {
    independent: pods::Pods,
    of_crate: hawsermole::Pods,
}

impl Pods {
    pub fn at_setup() -> Pods {
        Pods { independent: pods::Pods::AT_SETUP, of_crate: hawsermole::Pods::at_setup() }
    }

    /// Takes note of an input; why the counts, or what is here, are against P11 after it.
    pub fn note(&mut self, i: &Input, o: &Outcome) -> Option<String> {
        self.independent.note(i.number, i.port, i.value, o.answer);
        let parts = Parts { number: i.number, port: i.port, value: i.value, ..Parts::default() };
        let answer = if o.accepted() { Ok(()) } else { Err(Refusal::Conditions) };
        self.of_crate.note_parts(&parts, &answer);

        let bytes = o.tool.bytes().try_into().expect("a tool's bytes");
        let by_crate = hawsermole::Tool::from_bytes(bytes);
        let (ports, buffer) = here(&o.tool.base);
        let (came, went) = (self.independent.came(), self.independent.went());
        let counts = [self.of_crate.came_in(), self.of_crate.went_out()] == [came, went];
        if !counts || [by_crate.pods_at_ports(), by_crate.carriers_in_buffer()] != [ports, buffer] {
            return Some("the Rust crate counts pods as the independent program does".into());
        }
        (!self.independent.agrees(&o.tool.base) || !self.of_crate.agree(&by_crate)).then(|| {
            format!(
                "what came in less what went out is what is here: \
                 {came} less {went}, {ports} at ports and {buffer} in the buffer"
            )
        })
    }
}

/// How often each thing has to befall the count; and how often a pod has to be here.
const LEAST: u64 = 25;
const LEAST_HERE: u64 = 1_000;

/// How often each thing befell the count along runs, after how many inputs a pod was at a port, in the buffer, and how
/// many inputs there were.
#[derive(Clone, Copy, Default)]
pub struct Counted {
    events: [u64; COUNTED.len()],
    at_ports: u64,
    in_buffer: u64,
    inputs: u64,
}

impl Counted {
    pub fn note(&mut self, before: &Tool, input: &Input, o: &Outcome) {
        if let Some(k) = counted(before, input, o.answer) {
            self.events[k] += 1;
        }
        let (ports, buffer) = here(&o.tool.base);
        self.at_ports += (ports > 0) as u64;
        self.in_buffer += (buffer > 0) as u64;
        self.inputs += 1;
    }

    /// What both count together.
    pub fn and(&self, other: &Counted) -> Counted {
        Counted {
            events: std::array::from_fn(|k| self.events[k] + other.events[k]),
            at_ports: self.at_ports + other.at_ports,
            in_buffer: self.in_buffer + other.in_buffer,
            inputs: self.inputs + other.inputs,
        }
    }

    /// What befell the count, or was here, too seldom.
    pub fn unmet(&self) -> Vec<String> {
        let events = COUNTED.into_iter().zip(self.events).map(|(what, times)| (what, times, LEAST));
        let here = [("a pod at a port", self.at_ports), ("a pod in the buffer", self.in_buffer)];
        let here = here.map(|(what, times)| (what, times, LEAST_HERE));
        let seldom = events.chain(here).filter(|(_, times, least)| times < least);
        seldom.map(|(what, times, _)| format!("{what} ({times} times)")).collect()
    }

    fn times(&self, what: &[&str]) -> u64 {
        COUNTED.iter().zip(self.events).filter(|(one, _)| what.contains(one)).map(|(_, times)| times).sum()
    }
}

/// `.. pods came in along the runs, ..`: the line at the end.
impl std::fmt::Display for Counted {
    fn fmt(&self, f: &mut std::fmt::Formatter) -> std::fmt::Result {
        let loads = ["LoadDone by hand in MANUAL", "LoadDone by vehicle in AUTO"];
        let (continued, held) = (self.times(&["Continue"]), self.times(&["LoadDone that is held"]));
        let (came, went) = (self.times(&loads) + continued, self.times(&["UnloadDone"]));
        let (moved_in, moved_out) = (self.times(&["MoveIn"]), self.times(&["OutDone"]));
        let inputs = self.inputs;
        write!(
            f,
            "{came} pods came in along the runs, {continued} of them by Continue after {held} were held, {went} went \
             out; {moved_in} went into the buffer, {moved_out} came out of it; counted after each of {inputs} inputs"
        )
    }
}
