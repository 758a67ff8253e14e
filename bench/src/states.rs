//! Prepared states: sound tools of P = 4 and B = 16, or without a buffer for inputs that name a time, with a given number
//! of records, with and without expected maps, requests to come out and alarms, and an input for each.

use independent::gen::requests::{step, totalling};
use independent::gen::{padded, pool_name, shuffle, Input, Rng, POOL};
use independent::requests::predict::{brings_clock, CLOCK};
use independent::requests::queue::Request;
use independent::requests::wafers::WAFERS;
use independent::requests::{setup, sound, Tool};
use independent::{accessing, movement, place, status, tag, transfer};
use independent::{Carrier, Plain, Port, Reports, MAP_LEN, MAX_CARRIERS, NAME_LEN};

/// Families of names, each slow to tell apart in another way.
pub const FAMILIES: [&str; 6] = ["mixed", "prefix", "suffix", "middle", "short", "permuted"];

/// Name `k` of a family, from 0 to 43.
pub fn name(family: usize, k: u32) -> Vec<u8> {
    let letter = 0x30 + k as u8;
    let mut name = *b"CARRIER-NAME-16B";
    match FAMILIES[family] {
        "mixed" => return pool_name(k),
        "short" => return vec![letter],
        "prefix" => name[NAME_LEN - 1] = letter,
        "suffix" => name[0] = letter,
        "middle" => name[NAME_LEN / 2] = letter,
        // The same bytes, turned and swapped: their sum and their exclusive or are the same.
        _ => {
            name = *b"ABCDEFGHIJKLMNOP";
            name.rotate_left(k as usize % NAME_LEN);
            name.swap(k as usize / NAME_LEN, 15);
        }
    }
    name.to_vec()
}

fn port(rng: &mut Rng) -> Port {
    let (transfer, movement) = rng.pick(&[
        (transfer::OUT_OF_SERVICE, movement::NONE),
        (transfer::READY_TO_LOAD, movement::NONE),
        (transfer::READY_TO_UNLOAD, movement::NONE),
        (transfer::BLOCKED, movement::NONE),
        (transfer::BLOCKED, movement::NONE),
        (transfer::BLOCKED, movement::LOADING),
        (transfer::BLOCKED, movement::UNLOADING),
    ]);
    let empty = transfer <= transfer::READY_TO_LOAD || movement == movement::LOADING;
    Port {
        transfer,
        access: rng.below(2) as u8,
        reserved: rng.below(2) as u8,
        tie: [0; NAME_LEN],
        movement,
        pod: if empty { 0 } else { rng.chance(90) as u8 },
        tag: rng.pick(&[tag::UNREAD, tag::READ, tag::FAILED]),
    }
}

/// Where each of 36 carriers would be: four at the ports, sixteen in the buffer, sixteen expected.
fn seat(k: usize) -> Carrier {
    match k {
        0..4 => Carrier { place: place::PORT, port: k as u8 + 1, ..Carrier::UNUSED },
        4..20 => Carrier { place: place::BUFFER, spot: k as u8 - 3, ..Carrier::UNUSED },
        _ => Carrier::UNUSED,
    }
}

fn statuses(c: &mut Carrier, rng: &mut Rng) {
    if c.placed() {
        c.id = rng.pick(&[status::NOT_READ, status::WAITING, status::OK, status::OK, status::FAILED]);
        c.slot = rng.pick(&[status::NOT_READ, status::WAITING, status::OK, status::FAILED]);
        c.accessing = rng.pick(&[
            accessing::NOT_ACCESSED,
            accessing::NOT_ACCESSED,
            accessing::IN_ACCESS,
            accessing::COMPLETE,
        ]);
        c.cancelled = rng.chance(20) as u8;
        c.came_out = rng.chance(40) as u8;
        c.map.fill(rng.below(6) as u8);
    } else {
        (c.id, c.slot, c.accessing) = (status::NOT_READ, status::NOT_READ, accessing::NOT_ACCESSED);
    }
}

/// A map that can be expected; many are equal but for the last slot.
fn map(rng: &mut Rng) -> [u8; MAP_LEN] {
    let mut map = [3; MAP_LEN];
    map[MAP_LEN - 1] = rng.pick(&[1, 3]);
    map
}

/// A sound tool with so many records.
fn tool(carriers: usize, family: usize, rng: &mut Rng) -> Tool {
    let mut tool = Tool::NONE;
    setup(4, 16, 60, 120, &mut tool);
    tool.base.port = [0; 4].map(|_| port(rng));
    let mut seats: Vec<Carrier> = (0..MAX_CARRIERS).map(seat).collect();
    shuffle(&mut seats, rng);
    seats.truncate(carriers);
    let mut free: Vec<u8> = (1..=4).filter(|&p| seats.iter().all(|c| c.port != p)).collect();
    let (tying, mapped) = (rng.pick(&[0, 0, 25]), rng.pick(&[0, 50, 100]));
    let opened = rng.below(carriers as u32 + 1) as usize;
    for (k, mut c) in seats.into_iter().enumerate() {
        c.name = padded(&name(family, k as u32));
        statuses(&mut c, rng);
        if c.expected() && rng.chance(tying) {
            c.port = free.pop().unwrap_or(0);
        }
        if c.port != 0 {
            tool.base.port[c.port as usize - 1].tie = c.name;
        }
        let at = &tool.base.port[(c.port as usize).max(1) - 1];
        let opener = c.in_buffer() || c.at_port() && at.idle() && at.transfer == transfer::BLOCKED;
        c.open = (opener && (k == opened || c.at_port() && rng.chance(50))) as u8;
        tool.base.carrier[k] = c;
        tool.base.count += 1;
        if rng.chance(mapped) {
            tool.maps[k] = map(rng);
        }
    }
    ask(&mut tool, rng);
    alarm(&mut tool, rng);
    tool.predictions.clock = [50, 0, 0, 0];
    assert!(sound(&tool), "a prepared state is sound");
    tool
}

/// The same without a buffer, where the others are expected: at most twenty records, each with a prediction.
fn foretelling(carriers: usize, family: usize, rng: &mut Rng) -> Tool {
    let mut whole = tool(carriers.min(4 + 16), family, rng);
    let base = &mut whole.base;
    (base.places, whole.queue) = (0, independent::requests::queue::Queue::EMPTY);
    for k in 0..base.count as usize {
        let c = &mut base.carrier[k];
        if c.in_buffer() {
            *c = Carrier::new(c.name);
        }
        let p = &mut whole.predictions.of[k];
        p.state = 2;
        if c.at_port() {
            let ready = base.port[c.port as usize - 1].transfer == transfer::READY_TO_UNLOAD;
            p.state = if ready { 3 } else { rng.pick(&[3, 3, 4, 5]) };
            if rng.chance(50) {
                p.set_tp(rng.pick(&[0, 50, 110, 111, 500]));
            }
        }
    }
    // One at least can be told of.
    if let Some(k) = base.carriers().iter().position(Carrier::at_port) {
        whole.predictions.of[k].state = 3;
    }
    if base.carriers().iter().filter(|c| c.expected()).count() > 16 || !sound(&whole) {
        return foretelling(carriers, family, rng);
    }
    whole
}

/// Requests for none, some or all carriers in the buffer, in any order; one may be started at each port that is untied,
/// which becomes READY TO LOAD and reserved for it.
fn ask(tool: &mut Tool, rng: &mut Rng) {
    let mut buffered: Vec<Carrier> =
        tool.base.carriers().iter().copied().filter(Carrier::in_buffer).collect();
    shuffle(&mut buffered, rng);
    let (asked, started) = (rng.pick(&[0, 50, 100]), rng.pick(&[0, 20, 100]));
    for c in buffered {
        if !rng.chance(asked) {
            continue;
        }
        let p = rng.below(4) as usize;
        let begun = tool.queue.requests().iter().any(|r| r.started == 1 && r.port as usize == p + 1);
        let ready = c.open == 0 && c.accessing != accessing::IN_ACCESS;
        let port = &mut tool.base.port[p];
        let starts = ready && !begun && !port.tied() && rng.chance(started);
        if starts {
            (port.transfer, port.movement, port.pod) = (transfer::READY_TO_LOAD, movement::NONE, 0);
            port.reserved = 1;
        }
        tool.queue.request[tool.queue.count as usize] =
            Request { name: c.name, port: p as u8 + 1, started: starts as u8 };
        tool.queue.count += 1;
    }
}

/// Alarms at none, some or all ports that may have one, and pods held at some of those that are loading then.
fn alarm(tool: &mut Tool, rng: &mut Rng) {
    let (on, held) = (rng.pick(&[0, 50, 100]), rng.pick(&[0, 50, 100]));
    for (alarm, port) in tool.alarms.iter_mut().zip(&tool.base.port) {
        alarm.on = (port.transfer != transfer::READY_TO_LOAD && rng.chance(on)) as u8;
        alarm.held = (alarm.on == 1 && port.movement == movement::LOADING && rng.chance(held)) as u8;
    }
}

/// A state with so many records and an input of this row; accepted, or refused, if some draws can have it so.
pub fn prepared(carriers: usize, family: usize, row: u32, accepted: bool, rng: &mut Rng) -> (Tool, Input) {
    // With a buffer an input that names a carrier and a time is always refused.
    let draw = if brings_clock(row) && row != CLOCK { foretelling } else { tool };
    for _ in 0..40 {
        let tool = draw(carriers, family, rng);
        let input = input(&tool, row, family, accepted, rng);
        if (answer(&tool, &input) == 0) == accepted {
            return (tool, input);
        }
    }
    let tool = draw(carriers, family, rng);
    (tool, input(&tool, row, family, accepted, rng))
}

/// The state with one byte changed so that it isn't sound.
pub fn damaged(tool: &Tool, rng: &mut Rng) -> Tool {
    loop {
        let mut bytes = tool.bytes().to_vec();
        let at = rng.below(bytes.len() as u32) as usize;
        bytes[at] ^= 1 << rng.below(8);
        let damaged = Tool::from_bytes(&bytes).expect("as long as it was");
        if !sound(&damaged) {
            return damaged;
        }
    }
}

/// An input of this row that looks at what the tool holds.
fn input(tool: &Tool, row: u32, family: usize, accepted: bool, rng: &mut Rng) -> Input {
    let mut input = Input::default();
    for _ in 0..30 {
        let names = if rng.chance(70) { tool.base.count as u32 + 1 } else { POOL };
        let k = rng.below(names);
        input = Input {
            number: row,
            port: if matches!(row, 2 | 5 | 6) { rng.below(5) } else { 1 + rng.below(4) },
            value: if row == 18 { 1 + rng.below(16) } else { rng.below(2) },
            name: name(family, k),
            codes: codes(tool, row, k as usize, rng),
            clock: if brings_clock(row) { rng.pick(&[49, 50, 50, 51, 110, 230]) } else { 0 },
            time: if brings_clock(row) { rng.pick(&[0, 50, 110, 111, 230]) } else { 0 },
            wafers: wafers(row, rng),
        };
        if (answer(tool, &input) == 0) == accepted {
            break;
        }
    }
    input
}

/// Codes for a row and the name of record `k`.
fn codes(tool: &Tool, row: u32, k: usize, rng: &mut Rng) -> Vec<u8> {
    match row {
        1 | 3 if rng.chance(50) => map(rng).to_vec(),
        1 | 3 => Vec::new(),
        20 if k < MAX_CARRIERS && tool.expected_map(k).is_some() && rng.chance(70) => tool.maps[k].to_vec(),
        20 => vec![rng.below(6) as u8; MAP_LEN],
        // A row that doesn't name the codes ignores them, but they may cost something.
        _ if rng.chance(50) => vec![rng.below(6) as u8; MAP_LEN],
        _ => Vec::new(),
    }
}

/// The times of some wafers; seldom with one that isn't good.
fn wafers(row: u32, rng: &mut Rng) -> Vec<u64> {
    if row != WAFERS {
        return Vec::new();
    }
    let total = 1024 * rng.pick(&[0, 1, 60, 61, 5000]) + rng.below(3) as u64;
    let mut times = totalling(total, rng).unwrap_or_default();
    if rng.chance(10) && !times.is_empty() {
        times[0] = f64::NAN.to_bits();
    }
    times
}

fn answer(tool: &Tool, i: &Input) -> u32 {
    let (mut next, mut reports) = (*tool, Reports::NONE);
    step(&mut next, i, &mut reports)
}

#[cfg(test)]
mod tests {
    use super::*;
    use independent::requests::INPUTS;

    #[test]
    fn names_of_a_family_differ() {
        for (family, kind) in FAMILIES.iter().enumerate() {
            let all: std::collections::BTreeSet<_> = (0..POOL).map(|k| name(family, k)).collect();
            assert_eq!(all.len(), POOL as usize, "{kind}");
            assert!(all.iter().flatten().all(|byte| (0x21..=0x7E).contains(byte)));
        }
    }

    #[test]
    fn states_have_the_records_asked_for() {
        let mut rng = Rng::new(1);
        for carriers in 0..=MAX_CARRIERS {
            for family in 0..FAMILIES.len() {
                assert_eq!(tool(carriers, family, &mut rng).base.count as usize, carriers);
            }
        }
    }

    /// No requests, some and sixteen; started ones, and more than one of them.
    #[test]
    fn states_have_requests() {
        let mut rng = Rng::new(4);
        let mut met = [0; 5];
        for _ in 0..400 {
            let tool = tool(28, 0, &mut rng);
            let started = tool.queue.requests().iter().filter(|r| r.started == 1).count();
            let count = tool.queue.count;
            let seen = [count == 0, (1..8).contains(&count), count > 12, started == 1, started > 1];
            met.iter_mut().zip(seen).for_each(|(met, seen)| *met += seen as u32);
        }
        assert!(met.iter().all(|&met| met > 5), "{met:?}");
    }

    /// No alarms, some and four; pods held, and more than one of them.
    #[test]
    fn states_have_alarms() {
        let mut rng = Rng::new(5);
        let mut met = [0; 5];
        for _ in 0..2000 {
            let tool = tool(28, 0, &mut rng);
            let on = tool.alarms.iter().filter(|alarm| alarm.on == 1).count();
            let held = tool.alarms.iter().filter(|alarm| alarm.held == 1).count();
            let seen = [on == 0, (1..4).contains(&on), on == 4, held == 1, held > 1];
            met.iter_mut().zip(seen).for_each(|(met, seen)| *met += seen as u32);
        }
        assert!(met.iter().all(|&met| met > 5), "{met:?}");
    }

    /// Starts by hand and by vehicle, in both modes, with an alarm that they raise and without; LoadDone that holds.
    #[test]
    fn starts_are_of_every_kind() {
        let mut rng = Rng::new(6);
        let port = |i: &Input| i.port as usize - 1;
        for row in [13, 24] {
            let all: Vec<_> = (0..200).map(|_| prepared(30, 0, row, true, &mut rng)).collect();
            for (value, access) in [(0, 0), (0, 1), (1, 1)] {
                let is =
                    |(tool, i): &(Tool, Input)| (i.value, tool.base.port[port(i)].access) == (value, access);
                assert!(all.iter().any(is), "row {row}, {value} in {access}");
            }
        }
        let done: Vec<_> = (0..200).map(|_| prepared(30, 0, 14, true, &mut rng)).collect();
        let holds = |(tool, i): &&(Tool, Input)| tool.alarms[port(i)].on == 1;
        assert!((1..200).contains(&done.iter().filter(holds).count()));
    }

    #[test]
    fn some_slot_maps_are_as_expected_and_some_are_not() {
        let mut rng = Rng::new(3);
        let met = |expected: bool| {
            move |(tool, input): &(Tool, Input)| {
                let named = tool.base.carriers().iter().position(|c| c.name == padded(&input.name));
                named
                    .is_some_and(|k| tool.expected_map(k).is_some_and(|map| (input.codes == map) == expected))
            }
        };
        let prepared: Vec<_> = (0..200).map(|_| prepared(30, 0, 20, true, &mut rng)).collect();
        assert!(prepared.iter().any(met(true)) && prepared.iter().any(met(false)));
    }

    #[test]
    fn every_row_is_both_accepted_and_refused() {
        let mut rng = Rng::new(2);
        for row in 1..=INPUTS {
            // CancelAllCarrierOut is refused by no sound tool.
            let wanted: &[bool] = if row == 30 { &[true] } else { &[true, false] };
            for &wanted in wanted {
                let found = (0..10).any(|_| {
                    let (tool, input) = prepared(30, 1, row, wanted, &mut rng);
                    (answer(&tool, &input) == 0) == wanted
                });
                assert!(found, "row {row}, accepted {wanted}");
            }
        }
    }
}
