//! P11: pods in, pods out, by hand and along runs.

mod by_hand;
mod runs;

use independent::gen::Input;
use independent::requests::pods::{here, Pods};

use super::*;

/// A tool from its set-up on, and the count of its run: after every input both sides are equal.
struct Counted {
    tool: Tool,
    pods: Pods,
    run: Vec<(Input, u32)>,
}

impl Counted {
    fn new(tool: Tool) -> Counted {
        let new = Counted { tool, pods: Pods::AT_SETUP, run: Vec::new() };
        assert_eq!(new.counts(), (0, 0, 0, 0));
        new
    }

    /// Gives an input: its answer, and whether the run tells that it was a LoadDone that was held. The state tells the
    /// same.
    fn give(&mut self, i: Input) -> (u32, bool) {
        let answer = step_input(&mut self.tool, &i, &mut { Reports::NONE });
        let held = self.pods.note(i.number, i.port, i.value, answer);
        if i.number == 14 && answer == 0 {
            assert_eq!(held, self.tool.alarms[i.port as usize - 1].held == 1, "{i:?}");
        }
        assert!(self.pods.agrees(&self.tool.base), "{i:?} answers {answer}: {:?}", self.counts());
        self.run.push((i, answer));
        (answer, held)
    }

    /// What came in, what went out, pods at ports, carriers in the buffer.
    fn counts(&self) -> (u64, u64, usize, usize) {
        let (ports, buffer) = here(&self.tool.base);
        (self.pods.came(), self.pods.went(), ports, buffer)
    }
}

/// The request's words over a whole run: each LoadDone looks back for its LoadStart, and from there for the mode.
fn plainly(run: &[(Input, u32)]) -> (u64, u64) {
    let accepted: Vec<&Input> = run.iter().filter(|(_, answer)| *answer == 0).map(|(i, _)| i).collect();
    let came = |k: &usize| match accepted[*k].number {
        14 => !plainly_held(&accepted[..*k], accepted[*k].port),
        number => number == 36,
    };
    let came = (0..accepted.len()).filter(came).count();
    let went = accepted.iter().filter(|i| i.number == 25).count();
    (came as u64, went as u64)
}

fn plainly_held(before: &[&Input], port: u32) -> bool {
    let there = |number| move |i: &&Input| (i.number, i.port) == (number, port);
    let start = before.iter().rposition(there(13)).expect("a load that has begun");
    let mode = before[..start].iter().copied().rfind(there(9)).map_or(0, |i| i.value);
    before[start].value == 0 && mode == 1
}
