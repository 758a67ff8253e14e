//! P5: what may befall the queue, so that a comparison can tell whether it has met all of it.

use crate::gen::parts::padded;
use crate::gen::Input;
use crate::requests::names::name_of;
use crate::requests::queue::Request;
use crate::requests::Tool;
use crate::state::accessing;

/// What may befall the queue of a sound tool.
pub const BEFALLS: [&str; 27] = [
    "CancelCarrier of one that waits",
    "CancelCarrier of one that is started",
    "CancelCarrier refused to one in the queue",
    "the sixteenth request",
    "a request to a full queue",
    "queued already, and waits",
    "queued already, and started",
    "a reservation cancelled where one waits",
    "CancelReservationAtPort at a started port",
    "LoadStart where one waits",
    "LoadStart at a started port",
    "Open on one that waits",
    "Open on one that is started",
    "OutStart passes an older one over",
    "OutStart takes the oldest of all",
    "OutStart takes the oldest of its port",
    "OutStart at a started port",
    "OutStart at a port that is held otherwise",
    "OutStart with none that is ready",
    "OutDone of a cancelled carrier",
    "OutDone of another carrier",
    "OutDone where one waits",
    "CancelCarrierOut of one that waits",
    "CancelCarrierOut of one that is started",
    "CancelAllCarrierOut with some started",
    "CancelAllCarrierOut with none started",
    "CancelAllCarrierOut with no request",
];

/// What an input with this answer was to the queue, as a place in [`BEFALLS`]; nothing for most.
pub fn befalls(before: &Tool, i: &Input, answer: u32) -> Option<usize> {
    let what = by_name(before, i, answer).or_else(|| by_port(before, i, answer))?;
    BEFALLS.iter().position(|&one| one == what)
}

/// Inputs that name a carrier, or none at all.
fn by_name(before: &Tool, i: &Input, answer: u32) -> Option<&'static str> {
    let all = before.queue.requests();
    let begun = all.iter().any(|r| r.started == 1);
    if (i.number, answer) == (30, 0) {
        return Some(match (all.is_empty(), begun) {
            (true, _) => "CancelAllCarrierOut with no request",
            (_, true) => "CancelAllCarrierOut with some started",
            (_, false) => "CancelAllCarrierOut with none started",
        });
    }
    let name = name_of(&i.name).map(padded);
    let started = all.iter().find(|r| Some(r.name) == name).map(|r| r.started == 1);
    Some(match (i.number, answer, started) {
        (6, 0, Some(false)) => "CancelCarrier of one that waits",
        (6, 0, Some(true)) => "CancelCarrier of one that is started",
        (6, 5, Some(_)) => "CancelCarrier refused to one in the queue",
        (7, 0, _) if all.len() == 15 => "the sixteenth request",
        (7, 9, _) => "a request to a full queue",
        (7, 10, Some(false)) => "queued already, and waits",
        (7, 10, Some(true)) => "queued already, and started",
        (19, 0, Some(false)) => "Open on one that waits",
        (19, 5, Some(true)) => "Open on one that is started",
        (29, 0, _) => "CancelCarrierOut of one that waits",
        (29, 5, Some(true)) => "CancelCarrierOut of one that is started",
        _ => return None,
    })
}

/// Inputs that name a port.
fn by_port(before: &Tool, i: &Input, answer: u32) -> Option<&'static str> {
    let mut there = before.queue.requests().iter().filter(|r| r.port as u32 == i.port);
    let begun = there.clone().find(|r| r.started == 1);
    let waits = there.any(|r| r.started == 0);
    Some(match (i.number, answer, begun) {
        (12, 0, _) if waits => "a reservation cancelled where one waits",
        (12, 4, Some(_)) => "CancelReservationAtPort at a started port",
        (13, 0, _) if waits => "LoadStart where one waits",
        (13, 4, Some(_)) => "LoadStart at a started port",
        (27, 0, _) => started(before, i.port)?,
        (27, 4, Some(_)) => "OutStart at a started port",
        (27, 4, None) if waits => "OutStart at a port that is held otherwise",
        (27, 5, _) if waits => "OutStart with none that is ready",
        (28, 0, Some(r)) if cancelled(before, r) => "OutDone of a cancelled carrier",
        (28, 0, _) => "OutDone of another carrier",
        (28, 5, None) if waits => "OutDone where one waits",
        _ => return None,
    })
}

/// Of an OutStart that is accepted: what stood in front of the request that it takes.
fn started(before: &Tool, port: u32) -> Option<&'static str> {
    let all = before.queue.requests();
    let ready = |r: &Request| {
        let mut carriers = before.base.carriers().iter();
        carriers.any(|c| c.name == r.name && c.open == 0 && c.accessing != accessing::IN_ACCESS)
    };
    let taken = all.iter().position(|r| r.port as u32 == port && ready(r))?;
    let older = &all[..taken];
    Some(if older.iter().any(|r| r.port as u32 == port) {
        "OutStart passes an older one over"
    } else if older.is_empty() {
        "OutStart takes the oldest of all"
    } else {
        "OutStart takes the oldest of its port"
    })
}

fn cancelled(before: &Tool, r: &Request) -> bool {
    before.base.carriers().iter().any(|c| c.name == r.name && c.cancelled == 1)
}
