//! Inputs for a state, as a run might meet them.

use std::vec::Vec;

use super::parts::*;
use super::{Input, Mood, Rng};
use crate::state::*;

/// An input for this state, as a run might meet it. Most are accepted in most states that a run
/// comes to; the others are odd in the row, in a part, or both.
pub fn random_run_input(t: &Tool, rng: &mut Rng) -> Input {
    if t.ports == 0 || t.ports as usize > MAX_PORTS || t.count as usize > MAX_CARRIERS {
        return wild_input(t, rng);
    }
    let mut input = match rng.below(100) {
        0..=84 => {
            let mood = rng.mood();
            if t.count > 0 && rng.chance(45) {
                input_for_carrier(t, rng, mood)
            } else {
                input_for_port(t, rng, mood)
            }
        }
        _ => wild_input(t, rng),
    };
    if rng.chance(6) {
        // One part is odd.
        match rng.below(5) {
            0 => input.port = rng.pick(&ODD_NUMBERS),
            1 => input.port = rng.pick(&[0, t.ports as u32, t.ports as u32 + 1]),
            2 => input.value = rng.pick(&ODD_NUMBERS),
            3 => input.name = odd_name(rng),
            _ => input.codes = odd_codes(rng),
        }
    }
    input
}

/// An input with a row and parts that don't look at each other.
fn wild_input(t: &Tool, rng: &mut Rng) -> Input {
    let ports = (t.ports as u32).clamp(1, MAX_PORTS as u32);
    let number = if rng.chance(5) { rng.pick(&ODD_NUMBERS) } else { 1 + rng.below(26) };
    let port = match rng.below(100) {
        0..=79 => 1 + rng.below(ports),
        80..=91 => 0,
        92..=95 => ports + 1,
        _ => rng.pick(&ODD_NUMBERS),
    };
    let value = match rng.below(100) {
        0..=54 => rng.below(2),
        55..=94 => rng.below(t.places as u32 + 2),
        _ => rng.pick(&ODD_NUMBERS),
    };
    let name = match rng.below(100) {
        0..=59 if t.count as usize <= MAX_CARRIERS => live_name(t, rng, |_| true),
        0..=89 => pool_name(rng.below(POOL)),
        90..=94 => Vec::new(),
        _ => odd_name(rng),
    };
    let codes = match rng.below(100) {
        0..=39 => good_codes(rng),
        40..=89 => Vec::new(),
        _ => odd_codes(rng),
    };
    Input { number, port, value, name, codes, ..Input::default() }
}

/// An input that names port `p`, counted from 0, alone.
fn at(p: u32, number: u32) -> Input {
    Input { number, port: p + 1, ..Input::default() }
}

/// An input that names a carrier alone.
fn of(c: &Carrier, number: u32) -> Input {
    Input { number, name: unpadded(&c.name), ..Input::default() }
}

/// What ends a carrier's stay is rare, but for a run that drains the tool.
fn rare(rng: &mut Rng, mood: Mood) -> bool {
    rng.chance(if mood == Mood::Drain { 40 } else { 8 })
}

/// An input that a carrier of this tool might be waiting for.
fn input_for_carrier(t: &Tool, rng: &mut Rng, mood: Mood) -> Input {
    let c = rng.pick(t.carriers());
    let its_port = if rng.chance(50) { c.port as u32 } else { 0 };
    let judged = |number| Input { port: its_port, ..of(&c, number) };
    if c.expected() {
        return input_for_expected(t, &c, rng, mood);
    }
    if c.at_port() && rng.chance(40) {
        return input_for_port(t, rng, mood);
    }
    if c.open != 0 {
        return match (c.accessing, c.slot) {
            (accessing::IN_ACCESS, _) => Input { value: rng.below(2), ..of(&c, 22) },
            (accessing::NOT_ACCESSED, status::NOT_READ) => Input { codes: good_codes(rng), ..of(&c, 20) },
            (accessing::NOT_ACCESSED, status::WAITING) => judged(if rng.chance(80) { 5 } else { 6 }),
            (accessing::NOT_ACCESSED, status::OK) => of(&c, if rng.chance(85) { 21 } else { 23 }),
            _ => of(&c, 23),
        };
    }
    if c.id == status::WAITING || c.slot == status::WAITING {
        return judged(if rare(rng, mood) { 6 } else { 5 });
    }
    if rare(rng, mood) {
        return judged(6);
    }
    if !c.at_port() {
        return input_for_buffered(t, &c, rng, mood);
    }
    match t.port[c.port as usize - 1].transfer {
        transfer::READY_TO_UNLOAD if c.came_out != 0 => of(&c, 8),
        transfer::BLOCKED if t.places == 0 => of(&c, 19),
        _ => input_for_port(t, rng, mood),
    }
}

fn input_for_expected(t: &Tool, c: &Carrier, rng: &mut Rng, mood: Mood) -> Input {
    match (c.port != 0, rare(rng, mood)) {
        (true, true) => match rng.below(3) {
            0 => Input { port: c.port as u32, ..of(c, 2) },
            1 => at(c.port as u32 - 1, 2),
            _ => of(c, 2),
        },
        (false, true) => of(c, 4),
        _ => input_for_port(t, rng, mood),
    }
}

/// In the buffer and closed: opened if new, fetched if done or cancelled.
fn input_for_buffered(t: &Tool, c: &Carrier, rng: &mut Rng, mood: Mood) -> Input {
    if c.accessing == accessing::NOT_ACCESSED && c.cancelled == 0 && c.slot != status::FAILED {
        let another = t.carriers().iter().any(|c| c.open != 0);
        if rng.chance(if another { 5 } else { 80 }) {
            return of(c, 19);
        }
    }
    if mood == Mood::Fill && rng.chance(80) {
        return input_for_port(t, rng, mood);
    }
    let free: Vec<u32> = (1..)
        .zip(t.ports())
        .filter(|(_, port)| port.transfer == transfer::READY_TO_LOAD && port.reserved == 0 && !port.tied())
        .map(|(p, _)| p)
        .collect();
    if free.is_empty() && rng.chance(90) {
        return input_for_port(t, rng, mood);
    }
    let port = if free.is_empty() { 1 + rng.below(t.ports as u32) } else { rng.pick(&free) };
    Input { port, ..of(c, 7) }
}

/// An input that a port of this tool might be waiting for.
fn input_for_port(t: &Tool, rng: &mut Rng, mood: Mood) -> Input {
    let expected = t.carriers().iter().filter(|c| c.expected()).count();
    let notified = match mood {
        _ if expected >= MAX_EXPECTED => 2,
        Mood::Fill => 25,
        _ => 8,
    };
    if rng.chance(notified) {
        return Input { number: 3, name: fresh_name(t, rng), ..Input::default() };
    }
    let p = rng.below(t.ports as u32);
    let port = &t.port[p as usize];
    if rng.chance(7) {
        return match rng.below(4) {
            0 | 1 => Input { value: rng.below(2), ..at(p, 9) },
            2 => Input { value: rng.below(2), ..at(p, 10) },
            _ => at(p, rng.pick(&[11, 12])),
        };
    }
    match (port.transfer, port.movement) {
        (transfer::OUT_OF_SERVICE, _) => Input { value: 1, ..at(p, 10) },
        (transfer::READY_TO_LOAD, _) => input_for_ready_port(t, rng, mood, p),
        (transfer::READY_TO_UNLOAD, _) => {
            let came_out = t.carriers().iter().any(|c| c.port as u32 == p + 1 && c.came_out != 0);
            if came_out && rng.chance(if mood == Mood::Fill { 80 } else { 30 }) {
                let name = live_name(t, rng, |c| c.port as u32 == p + 1);
                Input { number: 8, name, ..Input::default() }
            } else {
                at(p, 24)
            }
        }
        (_, movement::LOADING) => at(p, if rng.chance(85) { 14 } else { 15 }),
        (_, movement::UNLOADING) => at(p, if rng.chance(85) { 25 } else { 26 }),
        _ => input_for_pod(t, rng, p),
    }
}

/// An input for a port that is READY TO LOAD.
fn input_for_ready_port(t: &Tool, rng: &mut Rng, mood: Mood, p: u32) -> Input {
    let port = &t.port[p as usize];
    if port.tied() {
        return match rng.below(10) {
            0 if mood != Mood::Fill => at(p, 2),
            1 => Input { value: rng.below(2), ..at(p, 9) },
            _ => at(p, 13),
        };
    }
    match rng.below(20) {
        0 => Input { value: 0, ..at(p, 10) },
        1 => at(p, 11),
        2 if port.reserved != 0 => at(p, 12),
        3 => Input { value: 1 - port.access as u32 % 2, ..at(p, 9) },
        4..=8 => Input { name: fresh_name(t, rng), ..at(p, 1) },
        9..=13 if mood != Mood::Fill && t.places > 0 => {
            Input { name: live_name(t, rng, |c| c.in_buffer() && c.open == 0), ..at(p, 7) }
        }
        _ => at(p, 13),
    }
}

/// An input for an idle BLOCKED port.
fn input_for_pod(t: &Tool, rng: &mut Rng, p: u32) -> Input {
    let port = &t.port[p as usize];
    let untied = |t: &Tool, rng: &mut Rng| {
        if rng.chance(50) {
            live_name(t, rng, |c| c.expected() && c.port == 0)
        } else {
            fresh_name(t, rng)
        }
    };
    if port.tag == tag::UNREAD {
        return match rng.below(10) {
            0 | 1 => at(p, 17),
            2..=6 if port.tied() => Input { name: unpadded(&port.tie), ..at(p, 16) },
            _ => Input { name: untied(t, rng), ..at(p, 16) },
        };
    }
    if !port.tied() {
        let number = if rng.chance(70) { 5 } else { 6 };
        return Input { name: untied(t, rng), ..at(p, number) };
    }
    let Some(c) = t.carriers().iter().find(|c| c.name == port.tie) else {
        return at(p, 13);
    };
    let named = |number| Input { port: p + 1, ..of(c, number) };
    let taken = |s: u32| t.carriers().iter().any(|c| c.spot as u32 == s);
    let free: Vec<u32> = (1..=t.places as u32).filter(|&s| !taken(s)).collect();
    match c.id {
        _ if rng.chance(3) => Input { value: 1 + rng.below(t.places as u32 + 1), ..at(p, 18) },
        _ if c.accessing == accessing::IN_ACCESS => Input { value: rng.below(2), ..named(22) },
        status::WAITING => named(if rng.chance(75) { 5 } else { 6 }),
        status::OK if c.open != 0 && c.slot == status::NOT_READ => {
            Input { codes: good_codes(rng), ..named(20) }
        }
        status::OK if c.slot == status::WAITING => named(if rng.chance(75) { 5 } else { 6 }),
        status::OK if c.open != 0 => named(if rng.chance(75) { 21 } else { 23 }),
        status::OK if !free.is_empty() => Input { value: rng.pick(&free), ..at(p, 18) },
        status::OK if t.places == 0 && rng.chance(85) => named(19),
        _ => Input { port: rng.pick(&[0, p + 1]), ..named(6) },
    }
}
