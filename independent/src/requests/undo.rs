//! P10: undoing pairs.
//!
//! From any sound state: where the first input of a pair is accepted and the pair's condition holds, the
//! second is accepted, and the state is the one before the first, every byte of it. The request names the
//! first four. The others are read out of the rows in the same way, and the last one is the pair that looks
//! like UnloadStart and UnloadFail.

use super::alarms::{Alarm, LOAD_START, MANUAL, UNLOAD_START};
use super::Tool;
use crate::state::{transfer, Port};

pub const CHANGE_ACCESS: u32 = 9;
pub const CHANGE_SERVICE_STATUS: u32 = 10;

/// What both inputs of a pair name, and name alike. CarrierOut has a port besides.
#[derive(Clone, Copy, PartialEq, Eq, Debug)]
pub enum Named {
    PortAndName,
    Name,
    Port,
}

/// What must hold of the state before the first input, besides that it is accepted.
#[derive(Clone, Copy, PartialEq, Eq, Debug)]
pub enum When {
    Always,
    /// No start by hand in AUTO: UnloadFail keeps the alarm that it raises.
    NoHandInAuto,
    /// The value is another than the port's: one that it has already leaves nothing to undo. Back into
    /// service leaves nothing behind only where the port had no alarm, and out again needs a port that is
    /// neither reserved nor tied; every port that a run took out is so.
    OtherValue,
    /// The port isn't reserved: LoadStart ends the reservation, and LoadFail doesn't bring it back. The alarm
    /// of a hand in AUTO doesn't matter: none is on at READY TO LOAD, before or after.
    NotReserved,
}

#[derive(Clone, Copy, PartialEq, Eq, Debug)]
pub struct Pair {
    pub first: u32,
    pub undo: u32,
    pub named: Named,
    pub when: When,
}

const fn pair(first: u32, undo: u32, named: Named, when: When) -> Pair {
    Pair { first, undo, named, when }
}

/// How many of the pairs the request names: the first ones.
pub const REQUESTED: usize = 4;

pub const PAIRS: [Pair; 9] = [
    // Bind, CancelBind
    pair(1, 2, Named::PortAndName, When::Always),
    // CarrierNotification, CancelCarrierNotification
    pair(3, 4, Named::Name, When::Always),
    // ReserveAtPort, CancelReservationAtPort
    pair(11, 12, Named::Port, When::Always),
    // UnloadStart, UnloadFail
    pair(UNLOAD_START, 26, Named::Port, When::NoHandInAuto),
    // CarrierOut, CancelCarrierOut
    pair(7, 29, Named::Name, When::Always),
    // Open, Close
    pair(19, 23, Named::Name, When::Always),
    // ChangeAccess and back, ChangeServiceStatus and back
    pair(CHANGE_ACCESS, CHANGE_ACCESS, Named::Port, When::OtherValue),
    pair(CHANGE_SERVICE_STATUS, CHANGE_SERVICE_STATUS, Named::Port, When::OtherValue),
    // LoadStart, LoadFail
    pair(LOAD_START, 15, Named::Port, When::NotReserved),
];

impl Pair {
    /// The value of the second input: the other of 0 and 1 where the row is the same; else its row has none.
    pub fn value_back(&self, value: u32) -> u32 {
        if self.first == self.undo {
            1 - value
        } else {
            0
        }
    }

    /// Whether the condition holds of a state in which the first input is accepted, with this port and value.
    pub fn holds(&self, before: &Tool, port: u32, value: u32) -> bool {
        if self.when == When::Always {
            return true;
        }
        let p = port as usize - 1;
        let (port, alarm) = (&before.base.port[p], &before.alarms[p]);
        match self.when {
            When::Always => true,
            When::NoHandInAuto => value != MANUAL || port.access == MANUAL as u8,
            When::NotReserved => port.reserved == 0,
            When::OtherValue if self.first == CHANGE_ACCESS => port.access as u32 != value,
            When::OtherValue => other_service(port, alarm, value),
        }
    }
}

/// Whether a change of service status changes it, and can be taken back: always for one that takes the port
/// out.
fn other_service(port: &Port, alarm: &Alarm, value: u32) -> bool {
    let out = port.transfer == transfer::OUT_OF_SERVICE;
    match value {
        0 => !out,
        _ => out && port.reserved == 0 && !port.tied() && alarm.on == 0,
    }
}
