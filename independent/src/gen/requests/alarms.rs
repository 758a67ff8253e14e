//! P9: starts by hand and by vehicle, inputs that meet an alarm or a pod that is held; and alarms of any kind, sound
//! and not.

use std::fmt::Write;
use std::string::String;
use std::vec::Vec;

use crate::gen::parts::{unpadded, ODD_NUMBERS};
use crate::gen::{Input, Rng};
use crate::requests::alarms::{
    starts, Alarm, AUTOMATIC, CONTINUE, LOAD_DONE, LOAD_START, MANUAL, UNLOAD_START,
};
use crate::requests::Tool;
use crate::state::*;

fn at(number: u32, port: usize, value: u32) -> Input {
    Input { number, port: port as u32 + 1, value, ..Input::default() }
}

/// The ports in use with their alarms, and where they stand, of a state that may have any bytes.
fn ports(t: &Tool) -> impl Iterator<Item = (usize, &Port, &Alarm)> {
    let used = (t.base.ports as usize).min(MAX_PORTS);
    t.base.port.iter().zip(&t.alarms).enumerate().map(|(p, (port, alarm))| (p, port, alarm)).take(used)
}

/// An input for a port whose alarm is on, or nothing: then the run goes on as it would. Many alarms are over soon, so
/// that one which stays on is met while it does.
pub(super) fn draw_input(t: &Tool, rng: &mut Rng) -> Option<Input> {
    if !rng.chance(16) {
        return None;
    }
    let alarmed: Vec<(usize, Port, Alarm)> =
        ports(t).filter(|(_, _, alarm)| alarm.on != 0).map(|(p, port, alarm)| (p, *port, *alarm)).collect();
    if alarmed.is_empty() {
        return None;
    }
    let (p, port, alarm) = rng.pick(&alarmed);
    Some(match (port.transfer, port.movement) {
        (_, movement::LOADING) if alarm.held != 0 => at(rng.pick(&[9, 14, 15, 36, 36, 36]), p, rng.below(2)),
        (_, movement::LOADING) => at(rng.pick(&[14, 14, 14, 14, 15, 36]), p, rng.below(2)),
        (_, movement::UNLOADING) => at(rng.pick(&[25, 25, 26, 26, 26, 26, 26, 36]), p, rng.below(2)),
        (transfer::READY_TO_UNLOAD, _) => at_ready_to_unload(t, p, rng),
        (transfer::OUT_OF_SERVICE, _) => at(10, p, 1),
        _ if rng.chance(40) => of_tied(t, 6, p),
        _ => at(rng.pick(&[9, 18, 18, 18]), p, rng.below(t.base.places as u32 + 2)),
    })
}

/// An input that names the carrier of a port.
fn of_tied(t: &Tool, number: u32, p: usize) -> Input {
    let tied = t.base.carrier.iter().find(|c| c.port as usize == p + 1);
    Input { number, name: tied.map_or_else(Vec::new, |c| unpadded(&c.name)), ..Input::default() }
}

/// An unload that failed with its alarm on: it starts anew, by hand or by vehicle, or the mode is changed before; or the
/// carrier is cancelled, or goes back inside.
fn at_ready_to_unload(t: &Tool, p: usize, rng: &mut Rng) -> Input {
    match rng.below(10) {
        0 | 1 => at(24, p, MANUAL),
        2 => at(24, p, AUTOMATIC),
        3 | 4 => at(9, p, rng.below(2)),
        5 | 6 => of_tied(t, 6, p),
        _ => of_tied(t, 8, p),
    }
}

/// A start of document 01's mix says how it is done: mostly as the port's access mode has it. Others are manual in AUTO,
/// or automatic in MANUAL, which is refused; few are neither. A LoadDone where a pod is held is mostly a Continue. Now and
/// then a start or Continue gets the parts of any row.
pub(super) fn complete(t: &Tool, input: &mut Input, rng: &mut Rng) {
    let there = (input.port as usize).checked_sub(1).and_then(|p| ports(t).nth(p));
    match there {
        Some((_, port, _)) if starts(input.number) && input.value <= AUTOMATIC => {
            let against = rng.chance(if port.access == 1 { 30 } else { 5 });
            input.value = (port.access ^ against as u8) as u32;
            if rng.chance(1) {
                input.value = rng.pick(&ODD_NUMBERS);
            }
        }
        Some((_, _, alarm)) if input.number == LOAD_DONE && alarm.held != 0 && rng.chance(70) => {
            input.number = CONTINUE;
        }
        _ => {}
    }
    if rng.chance(1) {
        (input.number, input.value) = (rng.pick(&[LOAD_START, UNLOAD_START, CONTINUE]), rng.below(2));
    }
}

/// Alarms wherever they may be, and pods held where the port is loading with its alarm on. Some more ports are loading
/// than document 01's states have.
pub(super) fn draw(t: &mut Tool, rng: &mut Rng) {
    let (on, held) = (rng.pick(&[0, 20, 60, 100]), rng.pick(&[0, 50, 100]));
    for p in 0..t.base.ports as usize {
        let open = t.base.carrier.iter().any(|c| c.port as usize == p + 1 && c.open != 0);
        let port = &mut t.base.port[p];
        if port.transfer == transfer::BLOCKED && port.idle() && !open && rng.chance(15) {
            (port.movement, port.pod) = (movement::LOADING, 0);
        }
        if port.transfer != transfer::READY_TO_LOAD && rng.chance(on) {
            t.alarms[p].on = 1;
            t.alarms[p].held = (port.movement == movement::LOADING && rng.chance(held)) as u8;
        }
    }
}

/// One thing about the alarms is changed: an alarm, what is held, or what these need of the port. Not all changes break
/// a word on soundness.
pub(super) fn damage(t: &mut Tool, rng: &mut Rng) {
    let p = rng.below(MAX_PORTS as u32) as usize;
    let past = (t.base.ports as usize).min(MAX_PORTS - 1);
    let odd = rng.pick(&[2, 3, 4, 0x80, 0x81, 0xFF]);
    let alarm = &mut t.alarms[p];
    match rng.below(12) {
        0 => alarm.on = odd,
        1 => alarm.held = odd,
        2 => (alarm.on, alarm.held) = (1, odd),
        3 => alarm.on ^= 1,
        4 | 5 => alarm.held ^= 1,
        6 => *alarm = Alarm { on: 1, held: 1 },
        7 => t.alarms[past].on = 1,
        8 => t.alarms[past].held = 1,
        9 => t.alarms.swap(p, past),
        _ => damage_port(t, p, rng),
    }
}

/// A port that isn't as its alarm needs it: for document 01 it is mostly sound still.
fn damage_port(t: &mut Tool, p: usize, rng: &mut Rng) {
    let port = &mut t.base.port[p];
    port.pod = 0;
    (port.transfer, port.movement) = rng.pick(&[
        (transfer::READY_TO_LOAD, movement::NONE),
        (transfer::READY_TO_UNLOAD, movement::NONE),
        (transfer::OUT_OF_SERVICE, movement::NONE),
        (transfer::BLOCKED, movement::NONE),
        (transfer::BLOCKED, movement::LOADING),
        (transfer::BLOCKED, movement::UNLOADING),
    ]);
}

/// A line for each port that has an alarm or holds a pod.
pub(super) fn describe(t: &Tool, out: &mut String) {
    for (p, alarm) in t.alarms.iter().enumerate().filter(|(_, alarm)| **alarm != Alarm::NONE) {
        let Alarm { on, held } = alarm;
        let _ = writeln!(out, "  alarm {} {on} {held}", p + 1);
    }
}
