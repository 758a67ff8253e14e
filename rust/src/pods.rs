//! Pods in, pods out (request P11): what came in and what went out, counted from inputs and answers, and what is here.
use crate::input::{Input, Parts};
use crate::refusal::Refusal;
use crate::states::{AccessMode, Place, Start};
use crate::tool::{Tool, PORTS};

const CHANGE_ACCESS: u32 = 9;
const LOAD_START: u32 = 13;
const LOAD_DONE: u32 = 14;
const UNLOAD_DONE: u32 = 25;
const CONTINUE: u32 = 36;

/// A count of pods over a run from set-up on, by inputs and answers alone: it never looks at the tool. Give it every
/// input that the tool is given, with its answer; a message of the host brings no pod and may be left out.
///
/// What came in less what went out is what is here, after every input: [`Tool::pods_at_ports`] and
/// [`Tool::carriers_in_buffer`].
///
/// ```
/// use hawsermole::{Input, Pods, Refusal, Tool};
///
/// let mut tool = Tool::setup(2, 1)?;
/// let mut pods = Pods::at_setup();
/// let name = b"AB";
/// for input in [
///     // Port 1 is for vehicles, and somebody puts a pod there by hand: it is held, and isn't in yet.
///     Input::ChangeAccess { port: 1, access: 1 },
///     Input::LoadStart { port: 1, start: 0 },
///     Input::LoadDone { port: 1 },
///     // Port 2 is for hands: one pod came in, and goes on into the buffer.
///     Input::LoadStart { port: 2, start: 0 },
///     Input::LoadDone { port: 2 },
///     Input::IdRead { port: 2, name },
///     Input::ProceedWithCarrier { name, port: 2 },
///     Input::MoveIn { port: 2, place: 1 },
///     // Refused: nothing leaves.
///     Input::UnloadDone { port: 2 },
/// ] {
///     let answer = tool.step(&input);
///     pods.note(&input, &answer);
/// }
/// assert_eq!((pods.came_in(), pods.went_out()), (1, 0));
/// assert_eq!((tool.pods_at_ports(), tool.carriers_in_buffer()), (0, 1));
///
/// // The operator says that the pod at port 1 stays.
/// let stays = Input::Continue { port: 1 };
/// pods.note(&stays, &tool.step(&stays));
/// assert_eq!((pods.came_in(), tool.pods_at_ports(), pods.agree(&tool)), (2, 1, true));
/// # Ok::<(), Refusal>(())
/// ```
#[derive(Clone, Copy, Debug, PartialEq, Eq, Hash)]
pub struct Pods {
    came_in: u64,
    went_out: u64,
    ports: [Shown; PORTS],
}

/// What the run has shown of a port.
#[derive(Clone, Copy, Debug, PartialEq, Eq, Hash)]
struct Shown {
    /// The latest ChangeAccess that was accepted was to AUTO.
    auto: bool,
    /// The latest LoadStart that was accepted was by hand, in AUTO: its LoadDone holds the pod.
    holds: bool,
}

impl Pods {
    /// As a set-up leaves it: nothing came in, nothing went out, and every port is in MANUAL.
    pub const fn at_setup() -> Pods {
        Pods { came_in: 0, went_out: 0, ports: [Shown { auto: false, holds: false }; PORTS] }
    }

    /// Takes note of an input that the tool was given, and of what it answered.
    pub fn note<R>(&mut self, input: &Input<'_>, answer: &Result<R, Refusal>) {
        self.note_parts(&input.parts(), answer);
    }

    /// The same for an input by its number, as [`Tool::step_parts`] takes it.
    pub fn note_parts<R>(&mut self, parts: &Parts<'_>, answer: &Result<R, Refusal>) {
        let port = (parts.port as usize).checked_sub(1).and_then(|place| self.ports.get_mut(place));
        let (Ok(_), Some(port)) = (answer, port) else { return };
        match parts.number {
            CHANGE_ACCESS => port.auto = parts.value == AccessMode::Auto as u32,
            LOAD_START => port.holds = port.auto && parts.value == Start::Manual as u32,
            LOAD_DONE if !port.holds => self.came_in += 1,
            CONTINUE => self.came_in += 1,
            UNLOAD_DONE => self.went_out += 1,
            _ => {}
        }
    }

    /// How many pods came in: by LoadDone, without those that were held, and by Continue.
    pub const fn came_in(&self) -> u64 {
        self.came_in
    }

    /// How many pods went out: by UnloadDone.
    pub const fn went_out(&self) -> u64 {
        self.went_out
    }

    /// Whether what came in less what went out is what the tool has. After every input of a run it is; no says that
    /// the count left something out, or that the tool isn't the one of this run.
    pub fn agree(&self, tool: &Tool) -> bool {
        let here = tool.pods_at_ports() + tool.carriers_in_buffer();
        self.came_in.checked_sub(self.went_out) == Some(here as u64)
    }
}

impl Tool {
    /// How many ports have a pod. One that is held isn't there yet.
    pub fn pods_at_ports(&self) -> usize {
        self.ports().filter(|port| port.pod != 0).count()
    }

    /// How many carriers are in the buffer. One that is on its way out is, until OutDone.
    pub fn carriers_in_buffer(&self) -> usize {
        self.carriers().filter(|carrier| carrier.place == Place::Buffer as u8).count()
    }
}

#[cfg(test)]
mod tests {
    use super::*;
    use crate::TOOL_BYTES;

    fn accept(pods: &mut Pods, number: u32, port: u32, value: u32) {
        pods.note_parts(&Parts { number, port, value, ..Parts::default() }, &Ok(()));
    }

    /// The counter by itself: what it holds for held, whatever a tool would say.
    #[test]
    fn starts_and_modes_tell_what_is_held() {
        let mut pods = Pods::at_setup();
        for (start, mode, came_in) in [(0, 0, 1), (0, 1, 1), (1, 1, 2), (1, 0, 3), (0, 0, 4), (0, 1, 4)] {
            accept(&mut pods, CHANGE_ACCESS, 3, mode);
            accept(&mut pods, LOAD_START, 3, start);
            accept(&mut pods, LOAD_DONE, 3, 0);
            assert_eq!(pods.came_in(), came_in, "start {start}, mode {mode}");
        }
        // Another port has a mode and a start of its own.
        accept(&mut pods, LOAD_START, 4, 0);
        accept(&mut pods, LOAD_DONE, 4, 0);
        accept(&mut pods, CONTINUE, 3, 0);
        assert_eq!((pods.came_in(), pods.went_out()), (6, 0));
        accept(&mut pods, UNLOAD_DONE, 4, 0);
        assert_eq!((pods.came_in(), pods.went_out()), (6, 1));
    }

    #[test]
    fn refusals_and_other_rows_count_nothing() {
        let mut pods = Pods::at_setup();
        for number in [CHANGE_ACCESS, LOAD_START, LOAD_DONE, UNLOAD_DONE, CONTINUE] {
            let parts = Parts { number, port: 1, value: 1, ..Parts::default() };
            pods.note_parts::<()>(&parts, &Err(Refusal::Conditions));
        }
        for number in (0..=300).filter(|number| ![9, 13, 14, 25, 36].contains(number)) {
            accept(&mut pods, number, 1, 1);
        }
        for port in [0, 5, 256, 257, u32::MAX] {
            accept(&mut pods, LOAD_DONE, port, 0);
        }
        assert_eq!(pods, Pods::at_setup());
    }

    /// A tool of any bytes can be asked, and a count of another run doesn't agree with it.
    #[test]
    fn tools_of_any_bytes() {
        let counts = |tool: &Tool| (tool.pods_at_ports(), tool.carriers_in_buffer());
        assert_eq!(counts(&Tool::none()), (0, 0));
        assert_eq!(counts(&Tool::from_bytes(&[255; TOOL_BYTES])), (4, 0));
        let full = Tool::from_bytes(&[2; TOOL_BYTES]);
        assert_eq!(counts(&full), (2, 2));
        let mut pods = Pods::at_setup();
        assert!(pods.agree(&Tool::none()) && !pods.agree(&full));
        accept(&mut pods, UNLOAD_DONE, 1, 0);
        assert!(!pods.agree(&Tool::none()));
    }
}
