//! P11: what an input may be to the count of pods, so that a comparison can tell whether it has met all of it.

use crate::gen::Input;
use crate::requests::Tool;
use crate::state::MAX_PORTS;

pub const COUNTED: [&str; 16] = [
    "LoadDone by hand in MANUAL",
    "LoadDone by vehicle in AUTO",
    "LoadDone that is held",
    "Continue",
    "LoadFail of a held pod",
    "LoadFail of another load",
    "MoveIn",
    "OutDone",
    "CarrierIn",
    "UnloadDone",
    "LoadDone refused",
    "LoadDone refused to a held pod",
    "Continue refused",
    "UnloadDone refused",
    "LoadDone, Continue or UnloadDone at no port of the tool",
    "ChangeAccess refused while a port is loading",
];

/// What an input with this answer was to the count, as a place in [`COUNTED`]; nothing for most.
pub fn counted(before: &Tool, i: &Input, answer: u32) -> Option<usize> {
    if before.base.ports as usize > MAX_PORTS {
        return None;
    }
    let what = match answer {
        0 => accepted(before, i),
        _ => refused(before, i),
    }?;
    COUNTED.iter().position(|&one| one == what)
}

/// Where the port that an input names stands.
fn at(t: &Tool, i: &Input) -> Option<usize> {
    (1..=t.base.ports as u32).contains(&i.port).then(|| i.port as usize - 1)
}

fn accepted(before: &Tool, i: &Input) -> Option<&'static str> {
    let p = at(before, i);
    let held = p.is_some_and(|p| before.alarms[p].held != 0);
    Some(match i.number {
        8 => "CarrierIn",
        14 if before.alarms[p?].on != 0 => "LoadDone that is held",
        14 if before.base.port[p?].access != 0 => "LoadDone by vehicle in AUTO",
        14 => "LoadDone by hand in MANUAL",
        15 if held => "LoadFail of a held pod",
        15 => "LoadFail of another load",
        18 => "MoveIn",
        25 => "UnloadDone",
        28 => "OutDone",
        36 => "Continue",
        _ => return None,
    })
}

fn refused(before: &Tool, i: &Input) -> Option<&'static str> {
    let counts = [14, 25, 36].contains(&i.number);
    let Some(p) = at(before, i) else {
        return counts.then_some("LoadDone, Continue or UnloadDone at no port of the tool");
    };
    Some(match i.number {
        9 if before.base.port[p].movement == 1 => "ChangeAccess refused while a port is loading",
        14 if before.alarms[p].held != 0 => "LoadDone refused to a held pod",
        14 => "LoadDone refused",
        25 => "UnloadDone refused",
        36 => "Continue refused",
        _ => return None,
    })
}
