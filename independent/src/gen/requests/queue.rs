//! P5: inputs that fill the queue and empty it, or that meet a request on its way; and queues of any
//! kind, sound and not.

use std::fmt::Write;
use std::string::String;
use std::vec::Vec;

use crate::gen::parts::{padded, pool_name, unpadded, POOL};
use crate::gen::{shuffle, Input, Mood, Rng};
use crate::requests::queue::{Request, MAX_REQUESTS};
use crate::requests::Tool;
use crate::state::*;

fn at(number: u32, port: u8) -> Input {
    Input { number, port: port as u32, ..Input::default() }
}

fn of(number: u32, name: &[u8; NAME_LEN]) -> Input {
    Input { number, name: unpadded(name), ..Input::default() }
}

/// An input that has to do with the queue, or nothing: then the run goes on as document 01's would.
pub(super) fn draw_input(t: &Tool, rng: &mut Rng) -> Option<Input> {
    let ports = t.base.ports as usize;
    if ports == 0 || ports > MAX_PORTS || t.base.count as usize > MAX_CARRIERS {
        return None;
    }
    let mood = rng.queue_mood();
    let (asks, starts, ends) = match mood {
        Mood::Fill => (24, 3, 8),
        Mood::Even => (8, 10, 15),
        Mood::Drain => (3, 25, 25),
    };
    match rng.below(100) {
        k if k < asks => ask(t, rng),
        k if k < asks + starts => start(t, rng),
        k if k < asks + starts + ends => pick_request(t, rng, |r| r.started == 1).map(|r| at(28, r.port)),
        94.. => meet(t, rng, mood),
        _ => None,
    }
}

/// A request that stands in the queue and for which `wanted` holds.
fn pick_request(t: &Tool, rng: &mut Rng, wanted: impl Fn(&Request) -> bool) -> Option<Request> {
    let all: Vec<Request> = t.queue.requests().iter().copied().filter(wanted).collect();
    (!all.is_empty()).then(|| rng.pick(&all))
}

/// Row 7 for a carrier in the buffer, whatever it does there; mostly for one that isn't asked for yet.
/// A full queue is asked for others, too. Many ask for one port, so that requests stand behind each other.
fn ask(t: &Tool, rng: &mut Rng) -> Option<Input> {
    let full = t.queue.requests().len() == MAX_REQUESTS;
    let again = full || rng.chance(8);
    let elsewhere = rng.chance(if full { 30 } else { 4 });
    let queued = |c: &Carrier| t.queue.requests().iter().any(|r| r.name == c.name);
    let wanted = |c: &&Carrier| c.in_buffer() != elsewhere && (again || !queued(c));
    let names: Vec<_> = t.base.carriers().iter().filter(wanted).map(|c| c.name).collect();
    if names.is_empty() {
        return None;
    }
    let port = if rng.chance(40) { 1 } else { 1 + rng.below(t.base.ports as u32) as u8 };
    Some(Input { port: port as u32, ..of(7, &rng.pick(&names)) })
}

/// OutStart at a port for which a request waits; mostly at one that can have it.
fn start(t: &Tool, rng: &mut Rng) -> Option<Input> {
    let any = rng.chance(15);
    let free = |r: &Request| {
        t.base.port.get((r.port as usize).wrapping_sub(1)).is_some_and(|port| {
            port.transfer == transfer::READY_TO_LOAD && port.reserved == 0 && !port.tied()
        })
    };
    pick_request(t, rng, |r| r.started == 0 && (any || free(r))).map(|r| at(27, r.port))
}

/// What may meet a request while it waits, and while it is started. What drops many is rare where the
/// queue is to be filled.
fn meet(t: &Tool, rng: &mut Rng, mood: Mood) -> Option<Input> {
    let begun = rng.chance(50);
    let r = pick_request(t, rng, |r| !begun || r.started == 1)?;
    let drops = mood != Mood::Fill || rng.chance(20);
    Some(match rng.below(10) {
        0 | 1 => of(19, &r.name),
        2 => at(13, r.port),
        3 => at(12, r.port),
        4 => at(28, r.port),
        5 => Input { port: 1 + rng.below(t.base.ports as u32), ..of(7, &r.name) },
        6 | 7 if drops => of(6, &r.name),
        8 if drops => of(29, &r.name),
        9 if drops => at(30, r.port),
        _ => at(27, r.port),
    })
}

/// A CarrierOut of document 01's mix often asks for a carrier a second time, where most runs would start
/// the request. Now and then a row of the queue, or a number past the last, gets the parts of any row.
pub(super) fn complete(t: &Tool, input: &mut Input, rng: &mut Rng) {
    let again = input.number == 7 && t.queue.requests().iter().any(|r| unpadded(&r.name) == input.name);
    if again && t.queue.requests().len() < MAX_REQUESTS && rng.chance(60) {
        *input = start(t, rng).unwrap_or_else(|| input.clone());
    }
    if rng.chance(2) {
        input.number = rng.pick(&[7, 27, 27, 28, 28, 29, 29, 30, 35, 37]);
    }
}

/// Requests for some of the carriers in the buffer, in any order, and some of them started; and ports
/// that could take one.
pub(super) fn draw(t: &mut Tool, rng: &mut Rng) {
    let asked = rng.pick(&[0, 30, 90, 100, 100]);
    let mut names: Vec<_> = t.base.carriers().iter().filter(|c| c.in_buffer()).map(|c| c.name).collect();
    shuffle(&mut names, rng);
    for name in names.into_iter().filter(|_| rng.chance(asked)).collect::<Vec<_>>() {
        let port = if rng.chance(30) { 1 } else { 1 + rng.below(t.base.ports as u32) as u8 };
        t.queue.request[t.queue.count as usize] = Request { name, port, started: 0 };
        t.queue.count += 1;
    }
    let mut order: Vec<usize> = (0..t.queue.count as usize).collect();
    shuffle(&mut order, rng);
    let started = rng.pick(&[0, 20, 60, 100]);
    for k in order {
        if rng.chance(started) {
            begin(t, k, rng);
        }
    }
    for p in 0..t.base.ports as usize {
        let begun = t.queue.requests().iter().any(|r| r.started == 1 && r.port as usize == p + 1);
        if !begun && !t.base.port[p].tied() && rng.chance(40) {
            ready_to_load(&mut t.base.port[p], rng.flag(20));
        }
    }
}

fn ready_to_load(port: &mut Port, reserved: u8) {
    (port.transfer, port.movement, port.pod) = (transfer::READY_TO_LOAD, movement::NONE, 0);
    port.reserved = reserved;
}

/// Starts a request where its port is untied and has none yet: the port and the carrier become what
/// they must be, and stay as they are in everything else.
fn begin(t: &mut Tool, k: usize, rng: &mut Rng) {
    let Request { name, port, .. } = t.queue.request[k];
    let p = port as usize - 1;
    let begun = t.queue.requests().iter().any(|r| r.started == 1 && r.port == port);
    if begun || t.base.port[p].tied() {
        return;
    }
    ready_to_load(&mut t.base.port[p], 1);
    if let Some(c) = t.base.carrier.iter_mut().find(|c| c.name == name) {
        c.open = 0;
        if c.accessing == accessing::IN_ACCESS {
            c.accessing = rng.pick(&[1, 3, 4]);
        }
    }
    t.queue.request[k].started = 1;
}

/// One thing about the queue is changed: its count, a request, or what a request needs of its carrier
/// and its port. Not all changes break a word on soundness.
pub(super) fn damage(t: &mut Tool, rng: &mut Rng) {
    if t.queue.count == 0 || rng.chance(20) {
        return damage_count(t, rng);
    }
    let count = t.queue.count.min(MAX_REQUESTS as u8) as u32;
    let (k, other) = (rng.below(count) as usize, rng.below(count) as usize);
    // Every second time one that is started, if there is one.
    let k = match t.queue.requests().iter().rposition(|r| r.started == 1) {
        Some(started) if rng.chance(50) => started,
        _ => k,
    };
    match rng.below(10) {
        0..=4 => damage_request(t, k, other, rng),
        5 | 6 => damage_carrier(t, k, rng),
        _ => damage_port(t, k, rng),
    }
}

/// Another count, or a request where none should be.
fn damage_count(t: &mut Tool, rng: &mut Rng) {
    let count = t.queue.count;
    let past = (count as usize).min(MAX_REQUESTS - 1);
    let any = rng.below(MAX_REQUESTS as u32) as usize;
    let name = t.base.carrier[rng.below(MAX_CARRIERS as u32) as usize].name;
    match rng.below(8) {
        0 => t.queue.count = count.wrapping_add(1),
        1 => t.queue.count = count.wrapping_sub(1),
        2 => t.queue.count = rng.pick(&[0, 1, 15, 16, 17, 32, 128, 255]),
        3 => t.queue.request[past] = Request { name, port: 1, started: 0 },
        4 => {
            t.queue.request[past] = Request { name, port: 1, started: rng.flag(20) };
            t.queue.count = past as u8 + 1;
        }
        5 => t.queue.request[past].port = rng.pick(&[1, 2, 0xFF]),
        6 => t.queue.request[past].started = 1,
        _ => t.queue.request[any].name[rng.below(NAME_LEN as u32) as usize] = b'A',
    }
}

fn damage_request(t: &mut Tool, k: usize, other: usize, rng: &mut Rng) {
    let ports = t.base.ports;
    let stranger = padded(&pool_name(rng.below(POOL)));
    let live = t.base.carrier[rng.below(MAX_CARRIERS as u32) as usize].name;
    let (there, taken) = (t.queue.request[k].port, t.queue.request[other].name);
    let r = &mut t.queue.request[k];
    match rng.below(12) {
        0 => r.port = rng.pick(&[0, ports.wrapping_add(1), 5, 0x81, 0xFF]),
        1 => r.port = 1 + rng.below(4) as u8,
        2 => r.started = rng.pick(&[2, 3, 0x80, 0x81, 0xFF]),
        3 => r.started ^= 1,
        4 => r.name = stranger,
        5 => r.name = live,
        6 => r.name = taken,
        7 => r.name = [0; NAME_LEN],
        8 => r.name[rng.below(NAME_LEN as u32) as usize] ^= rng.pick(&[1, 0x20, 0x80]),
        9 => *r = Request::UNUSED,
        // Two that are started at one port.
        10 => {
            t.queue.request[other].port = there;
            t.queue.request[other].started = 1;
        }
        _ => t.queue.request.swap(k, other),
    }
}

/// A request's carrier is opened, accessed, or elsewhere.
fn damage_carrier(t: &mut Tool, k: usize, rng: &mut Rng) {
    let name = t.queue.request[k].name;
    let Some(c) = t.base.carrier.iter_mut().find(|c| c.name == name) else { return };
    match rng.below(5) {
        0 => c.open ^= 1,
        1 => c.accessing = accessing::IN_ACCESS,
        2 => c.accessing = rng.pick(&[1, 3, 4]),
        // Expected: sound but for the request.
        3 => (c.place, c.spot, c.open) = (place::EXPECTED, 0, 0),
        _ => c.cancelled ^= 1,
    }
}

/// A request's port is not as a started one needs it: for document 01 it is mostly sound still.
fn damage_port(t: &mut Tool, k: usize, rng: &mut Rng) {
    let p = (t.queue.request[k].port as usize).wrapping_sub(1);
    let Some(port) = t.base.port.get_mut(p) else { return };
    match rng.below(6) {
        0 | 1 => port.reserved ^= 1,
        2 => port.transfer = rng.below(4) as u8,
        3 => port.access ^= 1,
        4 => port.tag = rng.below(3) as u8,
        // A new record is tied to it.
        _ => {
            let i = t.base.count as usize;
            let name = padded(&pool_name(rng.below(POOL)));
            if i < MAX_CARRIERS && !port.tied() {
                port.tie = name;
                t.base.carrier[i] = Carrier { port: p as u8 + 1, ..Carrier::new(name) };
                t.base.count += 1;
            }
        }
    }
}

/// A line for each request, and one for a count that isn't good.
pub(super) fn describe(t: &Tool, out: &mut String) {
    let count = t.queue.count as usize;
    for (k, r) in t.queue.request.iter().enumerate().filter(|(k, r)| *k < count || **r != Request::UNUSED) {
        let Request { name, port, started } = r;
        let name = unpadded(name);
        let name = String::from_utf8_lossy(&name);
        let past = if k < count { "" } else { " past the count" };
        let _ = writeln!(out, "  out '{name}' port {port} started {started}{past}");
    }
    if count > MAX_REQUESTS {
        let _ = writeln!(out, "  {count} requests");
    }
}
