//! Hands on an AUTO port (request P9): the AccessModeViolation alarm of each port, and whether a pod is held there.
use crate::raw::TOOL_BYTES;
use crate::tool::{Tool, PORTS, SPARE_BYTES};

const PORT_BYTES: usize = 2;
pub(crate) const HANDS_BYTES: usize = PORTS * PORT_BYTES;
pub(crate) const HANDS_START: usize = TOOL_BYTES - SPARE_BYTES - HANDS_BYTES;

/// What hands did at a port in AUTO.
#[derive(Clone, Copy, Debug, PartialEq, Eq, Hash)]
pub struct Hands {
    /// The port.
    pub port: u8,
    /// Whether its AccessModeViolation alarm is on, 0 or 1: [`Alarm`](crate::states::Alarm).
    pub alarm: u8,
    /// Whether a pod that was put there by hand waits for Continue or LoadFail, 0 or 1: [`Held`](crate::states::Held).
    pub held: u8,
}

impl Tool {
    /// Alarm and held pod of each of the [`ports`](Tool::ports), in their order.
    ///
    /// ```
    /// use hawsermole::states::Start;
    /// use hawsermole::{Input, Refusal, Tool};
    ///
    /// let mut tool = Tool::setup(1, 0)?;
    /// let (hand, vehicle) = (Start::Manual as u32, Start::Automatic as u32);
    ///
    /// // A port in MANUAL is for hands alone.
    /// let start = tool.step(&Input::LoadStart { port: 1, start: vehicle });
    /// assert_eq!(start, Err(Refusal::AutomaticInManual));
    ///
    /// // One in AUTO is for vehicles: a hand is an alarm, and the pod is held.
    /// tool.step(&Input::ChangeAccess { port: 1, access: 1 })?;
    /// let started = tool.step(&Input::LoadStart { port: 1, start: hand })?;
    /// assert_eq!(started.to_string(), "1 1 1>3; 9 1 0>1");
    /// assert_eq!(tool.step(&Input::LoadDone { port: 1 })?.len(), 0);
    /// assert!(tool.alarm(1) && tool.held(1));
    /// assert_eq!(tool.ports().next().unwrap().pod, 0);
    ///
    /// // The operator says that it stays.
    /// assert_eq!(tool.step(&Input::Continue { port: 1 })?.to_string(), "9 1 1>0");
    /// assert!(!tool.alarm(1) && !tool.held(1));
    /// assert_eq!(tool.ports().next().unwrap().pod, 1);
    /// # Ok::<(), Refusal>(())
    /// ```
    pub fn hands(&self) -> impl ExactSizeIterator<Item = Hands> + '_ {
        self.ports().map(|port| {
            let start = HANDS_START + PORT_BYTES * (usize::from(port.number) - 1);
            Hands { port: port.number, alarm: self.as_bytes()[start], held: self.as_bytes()[start + 1] }
        })
    }

    /// Whether a port's AccessModeViolation alarm is on; no for a port that the tool doesn't have.
    pub fn alarm(&self, port: u32) -> bool {
        self.hands().any(|hands| u32::from(hands.port) == port && hands.alarm != 0)
    }

    /// Whether a pod is held at a port: put there by hand in AUTO, and neither continued nor taken off yet.
    pub fn held(&self, port: u32) -> bool {
        self.hands().any(|hands| u32::from(hands.port) == port && hands.held != 0)
    }
}

#[cfg(test)]
mod tests {
    use super::*;
    use std::vec::Vec;

    /// Each byte is its own place, as far as a byte reaches, so that a field read from a wrong place shows.
    #[test]
    fn hands_are_read_where_they_stand() {
        let mut bytes = [0; TOOL_BYTES];
        for (place, byte) in bytes.iter_mut().enumerate() {
            *byte = (place % 251) as u8 + 1;
        }
        bytes[0] = 4;
        let hands: Vec<Hands> = Tool::from_bytes(&bytes).hands().collect();
        assert_eq!(hands.len(), 4);
        for (place, of) in hands.into_iter().enumerate() {
            let start = 3488 + 2 * place;
            assert_eq!(
                (usize::from(of.port), [of.alarm, of.held]),
                (place + 1, [bytes[start], bytes[start + 1]])
            );
        }
    }

    #[test]
    fn ports_in_use_alone_have_an_alarm() {
        let mut bytes = *Tool::setup(2, 0).unwrap().as_bytes();
        assert!((0..6).all(|port| !Tool::from_bytes(&bytes).alarm(port)));
        bytes[3488..3496].fill(1);
        let tool = Tool::from_bytes(&bytes);
        assert_eq!([0, 1, 2, 3, 257].map(|port| tool.alarm(port)), [false, true, true, false, false]);
        assert_eq!([0, 1, 2, 3, 257].map(|port| tool.held(port)), [false, true, true, false, false]);
        assert_eq!(Tool::from_bytes(&[255; TOOL_BYTES]).hands().len(), PORTS);
        assert_eq!(Tool::none().hands().len(), 0);
    }
}
