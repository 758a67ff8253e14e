//! Sound states, and states as text.

use std::string::String;
use std::vec::Vec;

use super::parts::{good_codes, padded, pool_name, unpadded, POOL};
use super::{shuffle, Rng};
use crate::state::*;

/// A sound state drawn widely: anything that document 01's words on soundness allow may come out,
/// whether or not a run reaches it.
pub fn random_sound_tool(rng: &mut Rng) -> Tool {
    let ports = rng.pick(&[1, 2, 2, 3, 3, 4, 4, 4]);
    let places = match rng.below(4) {
        0 => 0,
        1 => 16,
        _ => rng.below(17),
    };
    let mut t = Tool::NONE;
    assert_eq!(setup(ports, places, &mut t), 0);
    for p in 0..ports as usize {
        t.port[p] = random_port(rng);
    }
    let carriers = random_places(&t, rng);

    let mut names: Vec<u32> = (0..POOL).collect();
    shuffle(&mut names, rng);
    let strange = rng.pick(&[0, 10, 50, 100]);
    let opened = rng.pick(&[0, 0, 3, 10, 40]);
    for (i, mut c) in carriers.into_iter().enumerate() {
        c.name = padded(&random_name(i, names[i], rng));
        random_statuses(&mut c, strange, rng);
        if openable(&t, &c) {
            c.open = rng.flag(if c.at_port() { 50 } else { opened });
        }
        if c.port != 0 {
            t.port[c.port as usize - 1].tie = c.name;
        }
        t.carrier[i] = c;
        t.count = i as u8 + 1;
    }
    assert!(crate::sound(&t), "not sound: {}", describe(&t));
    t
}

/// Who is where: first by place, shuffled after.
fn random_places(t: &Tool, rng: &mut Rng) -> Vec<Carrier> {
    let mut carriers = Vec::new();
    let full = rng.pick(&[0, 30, 60, 90, 100]);
    for spot in 1..=t.places {
        if rng.chance(full) {
            carriers.push(Carrier { place: place::BUFFER, spot, ..Carrier::UNUSED });
        }
    }
    let expected = match rng.below(4) {
        0 => 16,
        1 => 15,
        2 => rng.below(17),
        _ => rng.below(6),
    } as usize;
    let mut tied_expected = 0;
    let placed = rng.pick(&[2, 5, 5, 10]);
    for port in 1..=t.ports {
        match rng.below(10) {
            k if k < placed => carriers.push(Carrier { place: place::PORT, port, ..Carrier::UNUSED }),
            5..=7 if tied_expected < expected => {
                tied_expected += 1;
                carriers.push(Carrier { port, ..Carrier::UNUSED });
            }
            _ => {}
        }
    }
    carriers.resize(carriers.len() + expected - tied_expected, Carrier::UNUSED);
    shuffle(&mut carriers, rng);
    carriers
}

/// Mostly a name of the pool; else one that isn't in it, and of any bytes.
fn random_name(i: usize, of_pool: u32, rng: &mut Rng) -> Vec<u8> {
    if rng.below(10) != 0 {
        return pool_name(of_pool);
    }
    let mut name = std::format!("#{i:02}").into_bytes();
    for _ in 0..rng.below(13) {
        name.push(0x21 + rng.below(0x5E) as u8);
    }
    name
}

/// Any statuses, flags and codes if the carrier is placed; if it is expected, now and then.
fn random_statuses(c: &mut Carrier, strange: u32, rng: &mut Rng) {
    (c.id, c.slot, c.accessing) = (status::NOT_READ, status::NOT_READ, accessing::NOT_ACCESSED);
    if c.placed() || rng.chance(strange) {
        c.id = rng.pick(&[1, 2, 3, 3, 3, 4]);
        c.slot = rng.pick(&[1, 2, 3, 4]);
        c.accessing = rng.pick(&[1, 1, 1, 2, 3, 4]);
        c.cancelled = rng.flag(25);
        c.came_out = rng.flag(40);
        if rng.chance(60) {
            c.map.copy_from_slice(&good_codes(rng));
        }
    }
}

/// In the buffer, or at an idle BLOCKED port.
fn openable(t: &Tool, c: &Carrier) -> bool {
    c.in_buffer()
        || c.at_port() && {
            let port = &t.port[c.port as usize - 1];
            port.idle() && port.transfer == transfer::BLOCKED
        }
}

fn random_port(rng: &mut Rng) -> Port {
    let (transfer, movement) = match rng.below(16) {
        0 => (transfer::OUT_OF_SERVICE, movement::NONE),
        1..=3 => (transfer::READY_TO_LOAD, movement::NONE),
        4..=6 => (transfer::READY_TO_UNLOAD, movement::NONE),
        7..=12 => (transfer::BLOCKED, movement::NONE),
        13 => (transfer::BLOCKED, movement::LOADING),
        _ => (transfer::BLOCKED, movement::UNLOADING),
    };
    let empty = transfer <= transfer::READY_TO_LOAD || movement == movement::LOADING;
    Port {
        transfer,
        access: rng.flag(50),
        reserved: rng.flag(30),
        tie: [0; NAME_LEN],
        movement,
        pod: if empty { 0 } else { rng.flag(80) },
        tag: rng.pick(&[tag::UNREAD, tag::READ, tag::FAILED]),
    }
}

/// A state in a few lines, for a failing test.
pub fn describe(t: &Tool) -> String {
    use std::fmt::Write;
    let text = |name: &[u8; NAME_LEN]| String::from_utf8_lossy(&unpadded(name)).into_owned();
    let mut out = std::format!("P {} B {} count {}\n", t.ports, t.places, t.count);
    for (p, port) in t.port.iter().enumerate().take(t.ports as usize) {
        let Port { transfer, access, reserved, tie, movement, pod, tag } = port;
        let tie = text(tie);
        let _ = writeln!(
            out,
            "  port {}: transfer {transfer} access {access} reserved {reserved} tie '{tie}' \
             movement {movement} pod {pod} tag {tag}",
            p + 1,
        );
    }
    for c in t.carrier.iter().take(t.count as usize) {
        let Carrier { name, place, spot, port, open, cancelled, came_out, id, slot, accessing, .. } = c;
        let name = text(name);
        let _ = writeln!(
            out,
            "  {name}: place {place} spot {spot} port {port} open {open} cancelled {cancelled} \
             came out {came_out} id {id} slot {slot} accessing {accessing}",
        );
    }
    out
}
