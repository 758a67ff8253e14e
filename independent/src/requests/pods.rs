//! P11: pods in, pods out.
//!
//! What came in and what went out is counted from the inputs of a run and their answers alone. What is here is looked
//! up in the state. After every input of a run from set-up on the first less the second is the third.

use super::alarms::{CONTINUE, LOAD_DONE, LOAD_START, MANUAL};
use super::undo::CHANGE_ACCESS;
use crate::state::{Tool, MAX_PORTS};

pub const UNLOAD_DONE: u32 = 25;

/// The value of ChangeAccess that is AUTO.
const AUTO: u32 = 1;

/// What the run has shown of a port.
#[derive(Clone, Copy, PartialEq, Eq, Debug)]
struct Shown {
    /// The value of the latest accepted ChangeAccess.
    mode: u32,
    /// The latest accepted LoadStart was by hand, and the port was in AUTO.
    by_hand_in_auto: bool,
}

/// The pods of a run from its set-up on.
#[derive(Clone, Copy, PartialEq, Eq, Debug)]
pub struct Pods {
    came: u64,
    went: u64,
    shown: [Shown; MAX_PORTS],
}

impl Pods {
    /// At set-up nothing came yet, and every port is in MANUAL.
    pub const AT_SETUP: Pods =
        Pods { came: 0, went: 0, shown: [Shown { mode: 0, by_hand_in_auto: false }; MAX_PORTS] };

    /// Takes note of an input and its answer; returns whether it was a LoadDone that was held. An accepted input names
    /// a port where its row has one; a program that accepts another number is wrong, and its load counts all the same.
    pub fn note(&mut self, number: u32, port: u32, value: u32, answer: u32) -> bool {
        if answer != 0 {
            return false;
        }
        let mut nowhere = Pods::AT_SETUP.shown[0];
        let shown =
            (port as usize).checked_sub(1).and_then(|p| self.shown.get_mut(p)).unwrap_or(&mut nowhere);
        match number {
            CHANGE_ACCESS => shown.mode = value,
            LOAD_START => shown.by_hand_in_auto = value == MANUAL && shown.mode == AUTO,
            LOAD_DONE if shown.by_hand_in_auto => return true,
            LOAD_DONE | CONTINUE => self.came += 1,
            UNLOAD_DONE => self.went += 1,
            _ => {}
        }
        false
    }

    /// Accepted LoadDone, without those that were held, and accepted Continue.
    pub fn came(&self) -> u64 {
        self.came
    }

    /// Accepted UnloadDone.
    pub fn went(&self) -> u64 {
        self.went
    }

    /// Whether what came, less what went, is what is here.
    pub fn agrees(&self, t: &Tool) -> bool {
        let (ports, buffer) = here(t);
        self.came.checked_sub(self.went) == Some((ports + buffer) as u64)
    }
}

/// The pods at ports, and the carriers in the buffer.
pub fn here(t: &Tool) -> (usize, usize) {
    let at_ports = t.ports().iter().filter(|port| port.pod != 0).count();
    let in_buffer = t.carriers().iter().filter(|carrier| carrier.in_buffer()).count();
    (at_ports, in_buffer)
}
