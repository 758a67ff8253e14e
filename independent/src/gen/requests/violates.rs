//! P9: what may befall an alarm, so that a comparison can tell whether it has met all of it.

use crate::gen::Input;
use crate::requests::alarms::Alarm;
use crate::requests::Tool;
use crate::state::{movement, transfer, Port, MAX_PORTS};

/// What may befall the alarms of a sound tool. No run comes to the last ones: no port goes out of service with its alarm
/// on, and none changes its mode while it is loading.
pub const VIOLATES: [&str; 35] = [
    "a manual load in AUTO",
    "a manual unload in AUTO",
    "a manual load in MANUAL",
    "a manual unload in MANUAL",
    "an automatic load in AUTO",
    "an automatic unload in AUTO",
    "an automatic load in MANUAL",
    "an automatic unload in MANUAL",
    "a load that is neither",
    "an unload that is neither",
    "5 before 13 at a load",
    "5 before 13 at an unload",
    "4 before 13",
    "a second manual unload with the alarm on",
    "a manual unload in MANUAL with the alarm on",
    "an automatic unload with the alarm on",
    "LoadDone that holds",
    "LoadDone that doesn't",
    "LoadDone on a held pod",
    "Continue",
    "Continue before LoadDone, with the alarm on",
    "Continue while it loads without an alarm",
    "Continue while it unloads with the alarm on",
    "Continue where nothing loads",
    "LoadFail with the alarm on",
    "LoadFail on a held pod",
    "UnloadDone with the alarm on",
    "UnloadFail with the alarm on",
    "MoveIn with the alarm on",
    "CarrierIn with the alarm on",
    "CancelCarrier with the alarm on",
    "ChangeAccess to MANUAL with the alarm on",
    "ChangeAccess refused to a held port",
    "service in with the alarm on",
    "LoadDone that holds in MANUAL",
];

/// How many of these a run may come to: the first ones.
pub const ALONG_RUNS: usize = VIOLATES.len() - 2;

/// What an input with this answer was to the alarms, as a place in [`VIOLATES`]; nothing for most.
pub fn violates(before: &Tool, after: &Tool, i: &Input, answer: u32) -> Option<usize> {
    if before.base.ports as usize > MAX_PORTS {
        return None;
    }
    let what = match i.number {
        13 | 24 => started(before, i, answer),
        6 | 8 => by_name(before, after, i, answer),
        _ => by_port(before, i, answer),
    }?;
    VIOLATES.iter().position(|&one| one == what)
}

/// The port that an input names, with its alarm.
fn port<'a>(t: &'a Tool, i: &Input) -> Option<(&'a Port, &'a Alarm)> {
    let p = (i.port as usize).checked_sub(1)?;
    Some((t.base.ports().get(p)?, &t.alarms[p]))
}

fn started(before: &Tool, i: &Input, answer: u32) -> Option<&'static str> {
    let (port, alarm) = port(before, i)?;
    let load = i.number == 13;
    let named = |of_load, of_unload| if load { of_load } else { of_unload };
    let in_auto = port.access == 1;
    Some(match (i.value, answer) {
        (2.., 1) => named("a load that is neither", "an unload that is neither"),
        (0, 0) if alarm.on != 0 && in_auto => "a second manual unload with the alarm on",
        (0, 0) if alarm.on != 0 => "a manual unload in MANUAL with the alarm on",
        (1, 0) if alarm.on != 0 => "an automatic unload with the alarm on",
        (0, 0) if in_auto => named("a manual load in AUTO", "a manual unload in AUTO"),
        (0, 0) => named("a manual load in MANUAL", "a manual unload in MANUAL"),
        (1, 0) => named("an automatic load in AUTO", "an automatic unload in AUTO"),
        (1, 13) => named("an automatic load in MANUAL", "an automatic unload in MANUAL"),
        (1, 5) if !in_auto => named("5 before 13 at a load", "5 before 13 at an unload"),
        (1, 4) if !in_auto => "4 before 13",
        _ => return None,
    })
}

/// Rows that name a carrier, where a port with its alarm on is changed.
fn by_name(before: &Tool, after: &Tool, i: &Input, answer: u32) -> Option<&'static str> {
    let changed = before.base.port.iter().zip(&after.base.port).position(|(was, is)| was != is)?;
    if answer != 0 || before.alarms[changed].on == 0 {
        return None;
    }
    Some(if i.number == 6 { "CancelCarrier with the alarm on" } else { "CarrierIn with the alarm on" })
}

fn by_port(before: &Tool, i: &Input, answer: u32) -> Option<&'static str> {
    let (port, alarm) = port(before, i)?;
    let (on, held) = (alarm.on != 0, alarm.held != 0);
    let out = port.transfer == transfer::OUT_OF_SERVICE;
    Some(match (i.number, answer) {
        (9, 0) if on && port.access == 1 && i.value == 0 => "ChangeAccess to MANUAL with the alarm on",
        (9, 5) if held => "ChangeAccess refused to a held port",
        (10, 0) if on && out && i.value == 1 => "service in with the alarm on",
        (14, 0) if on && port.access == 0 => "LoadDone that holds in MANUAL",
        (14, 0) if on => "LoadDone that holds",
        (14, 0) => "LoadDone that doesn't",
        (14, 5) if held => "LoadDone on a held pod",
        (15, 0) if held => "LoadFail on a held pod",
        (15, 0) if on => "LoadFail with the alarm on",
        (18, 0) if on => "MoveIn with the alarm on",
        (25, 0) if on => "UnloadDone with the alarm on",
        (26, 0) if on => "UnloadFail with the alarm on",
        (36, 0) => "Continue",
        (36, 5) => not_held(port, on),
        _ => return None,
    })
}

/// A Continue that meets no pod that is held.
fn not_held(port: &Port, on: bool) -> &'static str {
    match (port.movement, on) {
        (movement::LOADING, true) => "Continue before LoadDone, with the alarm on",
        (movement::LOADING, false) => "Continue while it loads without an alarm",
        (movement::UNLOADING, true) => "Continue while it unloads with the alarm on",
        _ => "Continue where nothing loads",
    }
}
