//! Every state that a small tool comes to, with a queue, with predictions or with alarms, and every input of some rows
//! from each of them.

use std::collections::hash_map::DefaultHasher;
use std::collections::HashSet;
use std::hash::{Hash, Hasher};

use independent::gen::Input;
use independent::requests::Tool;
use independent::Plain;

use super::{at, input, named, timed, wafers};
use crate::machine::{Both, SetUp};
use crate::play::{from_state, Finding, Player, Tally};

/// A tool, the carriers in its buffer at first, and the rows that are given: those that name a port, then those that
/// name a carrier. Row 7 names both.
struct Small {
    ports: u32,
    places: u32,
    names: &'static [&'static [u8]],
    at_port: &'static [u32],
    of_carrier: &'static [u32],
}

const SMALL: [Small; 3] = [
    // All that a single carrier may meet on its way out, and in again, by hand and by vehicle.
    Small {
        ports: 1,
        places: 1,
        names: &[b"A"],
        at_port: &[9, 10, 11, 12, 13, 14, 15, 17, 18, 24, 25, 26, 27, 28, 36],
        of_carrier: &[5, 6, 8, 19, 20, 21, 22, 23, 29],
    },
    // Two that wait for one port, or for two, in either order.
    Small {
        ports: 2,
        places: 2,
        names: &[b"A", b"B"],
        at_port: &[11, 12, 13, 15, 24, 25, 27, 28],
        of_carrier: &[6, 19, 23, 29],
    },
    // Three that wait for one port.
    Small {
        ports: 1,
        places: 3,
        names: &[b"A", b"B", b"C"],
        at_port: &[11, 12, 13, 15, 24, 25, 27, 28],
        of_carrier: &[6, 19, 23, 29],
    },
];

/// The rows at a port that have a value: access, service, manual or automatic, place.
const VALUED: [u32; 5] = [9, 10, 13, 18, 24];

/// A tool without a buffer whose carriers stand open at ports 1, 2 and so on, verified, and the rows that are given: those
/// that name a port, then those that name a carrier; and all the clocks, Tps and Tes.
struct Foretelling {
    setting: u32,
    timeout: u32,
    names: &'static [&'static [u8]],
    at_port: &'static [u32],
    of_carrier: &'static [u32],
    clocks: &'static [u32],
    tps: &'static [u32],
    tes: &'static [u32],
}

const FORETELLING: [Foretelling; 5] = [
    // All that a single carrier may meet.
    Foretelling {
        setting: 1,
        timeout: 2,
        names: &[b"A"],
        at_port: &[24, 25, 26],
        of_carrier: &[6, 19, 21, 22, 23],
        clocks: &[0, 1, 2, 3, 4, 5],
        tps: &[0, 1, 2, 3, 4],
        tes: &[1, 3, 4, 5],
    },
    // The same with a setting of 0, and with a timeout of 0.
    Foretelling {
        setting: 0,
        timeout: 1,
        names: &[b"A"],
        at_port: &[24, 25, 26],
        of_carrier: &[6, 19, 21, 22, 23],
        clocks: &[0, 1, 2],
        tps: &[0, 1, 2],
        tes: &[0, 1, 2],
    },
    Foretelling {
        setting: 2,
        timeout: 0,
        names: &[b"A"],
        at_port: &[24, 25, 26],
        of_carrier: &[6, 19, 21, 22, 23],
        clocks: &[0, 1, 2, 3],
        tps: &[0, 2, 3, 4],
        tes: &[0, 2, u32::MAX],
    },
    // The end of all clocks.
    Foretelling {
        setting: 2,
        timeout: 2,
        names: &[b"A"],
        at_port: &[24, 26],
        of_carrier: &[6, 21, 22, 23],
        clocks: &[0, u32::MAX - 4, u32::MAX - 2, u32::MAX - 1, u32::MAX],
        tps: &[0, u32::MAX - 2, u32::MAX - 1, u32::MAX],
        tes: &[0, 1, u32::MAX - 1, u32::MAX],
    },
    // Two that are judged together.
    Foretelling {
        setting: 1,
        timeout: 1,
        names: &[b"B", b"A"],
        at_port: &[24, 26],
        of_carrier: &[6, 21, 22, 23],
        clocks: &[0, 2, 3],
        tps: &[2],
        tes: &[2, 3],
    },
];

/// A tool as it is set up, and the rows that are given: those that name a port, those that name a carrier, and those
/// that name both.
struct Alarming {
    setup: SetUp,
    names: &'static [&'static [u8]],
    at_port: &'static [u32],
    of_carrier: &'static [u32],
    of_both: &'static [u32],
}

const ALARMING: [Alarming; 3] = [
    // All that a port may meet without a buffer, with a carrier that is foretold.
    Alarming {
        setup: SetUp { ports: 1, places: 0, setting: 1, timeout: 0 },
        names: &[b"A"],
        at_port: &[9, 10, 11, 12, 13, 14, 15, 17, 24, 25, 26, 36],
        of_carrier: &[5, 6, 19, 20, 21, 22, 23],
        of_both: &[1, 2, 16],
    },
    // Two ports whose alarms come and go beside each other.
    Alarming {
        setup: SetUp { ports: 2, places: 0, setting: 0, timeout: 0 },
        names: &[b"A"],
        at_port: &[9, 13, 14, 15, 17, 24, 25, 26, 36],
        of_carrier: &[],
        of_both: &[6],
    },
    // A pod that comes, goes inside and comes out again.
    Alarming {
        setup: SetUp { ports: 1, places: 1, setting: 0, timeout: 0 },
        names: &[b"A"],
        at_port: &[9, 13, 14, 15, 17, 18, 24, 25, 26, 27, 28, 36],
        of_carrier: &[6, 8],
        of_both: &[5, 7, 16],
    },
];

pub fn queues(both: &Both) -> Result<Tally, Finding> {
    let mut tally = Tally::default();
    for small in &SMALL {
        let first = stocked(both, &mut tally, small)?;
        every_state(both, &mut tally, first, &inputs(small))?;
    }
    Ok(tally)
}

pub fn predictions(both: &Both) -> Result<Tally, Finding> {
    let mut tally = Tally::default();
    for small in &FORETELLING {
        let first = opened(both, &mut tally, small)?;
        every_state(both, &mut tally, first, &told(small))?;
    }
    Ok(tally)
}

pub fn alarms(both: &Both) -> Result<Tally, Finding> {
    let mut tally = Tally::default();
    for small in &ALARMING {
        let first = Player::set_up(both, &mut tally, small.setup)?.tool;
        every_state(both, &mut tally, first, &by_hand(small))?;
    }
    Ok(tally)
}

/// How many states a small tool has.
fn every_state(both: &Both, tally: &mut Tally, first: Tool, inputs: &[Input]) -> Result<usize, Finding> {
    let mut met = HashSet::from([key(&first)]);
    let mut left = vec![first];
    while let Some(tool) = left.pop() {
        for input in inputs {
            let after = from_state(both, tally, &tool, input)?.tool;
            if met.insert(key(&after)) {
                stays_sound(both, &tool, input, &after)?;
                left.push(after);
            }
        }
    }
    Ok(met.len())
}

/// The buffer has its carriers, and all ports are READY TO LOAD.
fn stocked(both: &Both, tally: &mut Tally, small: &Small) -> Result<Tool, Finding> {
    let mut player = Player::begin(both, tally, small.ports, small.places)?;
    for (place, name) in (1..).zip(small.names) {
        for input in [at(13, 1), at(14, 1), input(16, 1, 0, name, b""), named(5, name)] {
            player.expect(input, 0)?;
        }
        player.expect(input(18, 1, place, b"", b""), 0)?;
    }
    Ok(player.tool)
}

fn inputs(small: &Small) -> Vec<Input> {
    let mut all = vec![at(30, 0)];
    for port in 1..=small.ports {
        all.extend(small.names.iter().map(|name| input(7, port, 0, name, b"")));
        all.extend(small.at_port.iter().flat_map(|&row| valued(row, port)));
    }
    for name in small.names {
        all.extend(small.of_carrier.iter().map(|&row| input(row, 0, 0, name, &[3; 25])));
    }
    all
}

/// A row at a port with all its values.
fn valued(row: u32, port: u32) -> impl Iterator<Item = Input> {
    let values = if VALUED.contains(&row) { 0..=1 } else { 0..=0 };
    values.map(move |value| input(row, port, value, b"", b""))
}

fn by_hand(small: &Alarming) -> Vec<Input> {
    let mut all = Vec::new();
    for port in 1..=small.setup.ports {
        all.extend(small.at_port.iter().flat_map(|&row| valued(row, port)));
        for name in small.names {
            all.extend(small.of_both.iter().map(|&row| input(row, port, 0, name, b"")));
        }
    }
    for name in small.names {
        all.extend(small.of_carrier.iter().map(|&row| input(row, 0, 0, name, &[3; 25])));
    }
    all
}

/// The carriers stand open at their ports, and may be accessed.
fn opened(both: &Both, tally: &mut Tally, small: &Foretelling) -> Result<Tool, Finding> {
    let setup = SetUp::fixed(small.names.len() as u32, small.setting, small.timeout);
    let mut player = Player::set_up(both, tally, setup)?;
    for (port, name) in (1..).zip(small.names) {
        let read = [at(13, port), at(14, port), input(16, port, 0, name, b""), named(5, name)];
        let map = input(20, 0, 0, name, &[3; 25]);
        for input in read.into_iter().chain([named(19, name), map, named(5, name)]) {
            player.expect(input, 0)?;
        }
    }
    Ok(player.tool)
}

fn told(small: &Foretelling) -> Vec<Input> {
    let mut all = Vec::new();
    for port in 1..=small.names.len() as u32 {
        all.extend(small.at_port.iter().map(|&row| at(row, port)));
    }
    for name in small.names {
        all.extend(small.of_carrier.iter().map(|&row| named(row, name)));
    }
    for &clock in small.clocks {
        all.push(timed(31, clock, b"", 0));
        for name in small.names {
            all.extend(small.tps.iter().map(|&tp| timed(32, clock, name, tp)));
            all.extend(small.tes.iter().map(|&te| timed(33, clock, name, te)));
            all.push(timed(34, clock, name, 0));
            all.extend(small.tps.iter().filter_map(|&tp| totalled(clock, name, tp)));
        }
    }
    all
}

/// One wafer that comes to a Tp, or nothing where it can't: a Tp in the past, or one too far ahead.
fn totalled(clock: u32, name: &[u8], tp: u32) -> Option<Input> {
    let seconds = tp.checked_sub(clock).filter(|&seconds| seconds < 1 << 20)?;
    let handling = if seconds == 0 { -0.0 } else { 1.0 / 1024.0 };
    Some(wafers(clock, name, &[seconds.saturating_sub(1) as f64, handling]))
}

/// A state by two hashes, so that many states take little room.
fn key(tool: &Tool) -> [u64; 2] {
    [0, 1].map(|salt| {
        let mut hasher = DefaultHasher::new();
        (salt, tool.bytes()).hash(&mut hasher);
        hasher.finish()
    })
}

fn stays_sound(both: &Both, tool: &Tool, input: &Input, after: &Tool) -> Result<(), Finding> {
    match both.sound(after) {
        Some(true) => Ok(()),
        Some(false) => {
            let why = "a sound state is followed by a sound one".into();
            Err(Finding::Law(Box::new(*tool), Box::new(input.clone()), why))
        }
        None => Err(Finding::Sound(Box::new(*after))),
    }
}

#[cfg(test)]
mod tests {
    use super::*;
    use crate::machine::Independent;

    #[test]
    fn small_tools_have_so_many_states() {
        let both = Both { proved: &Independent, independent: &Independent };
        let mut tally = Tally::default();
        let states = SMALL.map(|small| {
            let first = stocked(&both, &mut tally, &small).unwrap();
            every_state(&both, &mut tally, first, &inputs(&small)).unwrap()
        });
        assert_eq!(states, [522, 2027, 2475]);
        let states = FORETELLING.map(|small| {
            let first = opened(&both, &mut tally, &small).unwrap();
            every_state(&both, &mut tally, first, &told(&small)).unwrap()
        });
        assert_eq!(states, [1888, 33, 812, 1394, 10808]);
        let states = ALARMING.map(|small| {
            let first = Player::set_up(&both, &mut tally, small.setup).unwrap().tool;
            every_state(&both, &mut tally, first, &by_hand(&small)).unwrap()
        });
        assert_eq!(states, [156, 260, 106]);
    }
}
