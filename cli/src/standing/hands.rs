//! How hands on a port stand for an input.
use super::{told, Standing};
use crate::causes::Cause;
use crate::grounds::{ground, Ground};
use crate::numbers::{access, start};

impl Standing<'_> {
    /// No vehicle starts at a port in MANUAL.
    pub fn for_hands(&self) -> Option<Ground> {
        let port = self.port();
        let vehicle = self.parts.value == start::AUTOMATIC;
        ground(vehicle && port.access == access::MANUAL, Cause::ForHands, format!("port {}", port.number))
    }

    /// No pod is held at the given port.
    pub fn held_already(&self) -> Option<Ground> {
        ground(self.tool.held(self.parts.port), Cause::PodHeld, format!("port {}", self.parts.port))
    }

    /// A pod is held at the given port.
    pub fn is_held(&self) -> Option<Ground> {
        let alarm = if self.tool.alarm(self.parts.port) { "on" } else { "off" };
        let detail = format!("{}, its alarm {alarm}", told(&self.port()));
        ground(!self.tool.held(self.parts.port), Cause::NothingHeld, detail)
    }
}
