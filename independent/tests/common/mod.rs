//! Document 01's words in the plainest form, to compare the library with.
#![allow(dead_code)]

use independent::{Carrier, Plain, Port, Report, Reports, Tool};

/// Soundness, clause by clause.
pub fn plainly_sound(t: &Tool) -> bool {
    if t.ports < 1 || t.ports > 4 || t.places > 16 || t.count > 36 {
        return false;
    }
    let (ports, unused_ports) = t.port.split_at(t.ports as usize);
    let (carriers, unused_carriers) = t.carrier.split_at(t.count as usize);
    // Every field is in its range; unused records are zero.
    unused_ports.iter().all(|p| p.bytes().iter().all(|&b| b == 0))
        && unused_carriers.iter().all(|c| c.bytes().iter().all(|&b| b == 0))
        && ports.iter().all(port_in_range)
        && carriers.iter().all(|c| carrier_in_range(t, c))
        && nothing_twice(carriers)
        && ties_read_alike(ports, carriers)
        // A carrier placed at a port is tied to it and one in the buffer to none.
        && carriers.iter().all(|c| c.place == 0 || (c.place == 1) == (c.port != 0))
        // At most 16 are expected.
        && carriers.iter().filter(|c| c.place == 0).count() <= 16
        // A port with a movement is BLOCKED, and one that is out of service, READY TO LOAD or
        // loading has no pod.
        && ports.iter().all(|p| p.movement == 0 || p.transfer == 3)
        && ports.iter().all(|p| p.pod == 0 || p.transfer > 1 && p.movement != 1)
        && carriers.iter().all(|c| c.open == 0 || may_be_open(ports, c))
}

/// Unused bytes of a name are zero.
fn good_name(name: &[u8; 16]) -> bool {
    let length = name.iter().position(|&b| b == 0).unwrap_or(16);
    length >= 1
        && name[..length].iter().all(|b| (0x21..=0x7E).contains(b))
        && name[length..].iter().all(|&b| b == 0)
}

fn port_in_range(p: &Port) -> bool {
    p.transfer <= 3
        && p.access <= 1
        && p.reserved <= 1
        && (p.tie == [0; 16] || good_name(&p.tie))
        && p.movement <= 2
        && p.pod <= 1
        && p.tag <= 2
}

fn carrier_in_range(t: &Tool, c: &Carrier) -> bool {
    good_name(&c.name)
        && c.place <= 2
        && (if c.place == 2 { c.spot >= 1 && c.spot <= t.places } else { c.spot == 0 })
        && c.port <= t.ports
        && c.open <= 1
        && c.cancelled <= 1
        && c.came_out <= 1
        && c.map.iter().all(|&code| code <= 5)
        && (1..=4).contains(&c.id)
        && (1..=4).contains(&c.slot)
        && (1..=4).contains(&c.accessing)
}

/// Names differ; no two share a buffer place.
fn nothing_twice(carriers: &[Carrier]) -> bool {
    let clash =
        |c: &Carrier, d: &Carrier| c.name == d.name || c.place == 2 && d.place == 2 && c.spot == d.spot;
    carriers.iter().enumerate().all(|(i, c)| carriers[i + 1..].iter().all(|d| !clash(c, d)))
}

/// Ties read alike from either side.
fn ties_read_alike(ports: &[Port], carriers: &[Carrier]) -> bool {
    ports.iter().enumerate().all(|(p, port)| {
        carriers.iter().all(|c| (port.tie == c.name) == (c.port as usize == p + 1))
            && (port.tie == [0; 16] || carriers.iter().any(|c| c.name == port.tie))
    })
}

/// In the buffer, or at an idle BLOCKED port.
fn may_be_open(ports: &[Port], c: &Carrier) -> bool {
    c.place == 2
        || c.place == 1 && {
            let p = &ports[c.port as usize - 1];
            p.movement == 0 && p.transfer == 3
        }
}

/// The reports, from the whole state before and the whole state after.
pub fn plain_reports(before: &Tool, after: &Tool) -> Reports {
    let mut all = port_reports(before, after);
    all.extend(carrier_reports(before, after));
    // By model; a carrier that went comes first.
    all.sort_by_key(|(key, _)| *key);
    let mut out = Reports::NONE;
    assert!(all.len() <= 7, "more than seven reports");
    for (_, report) in all {
        out.items[out.count as usize] = report;
        out.count += 1;
    }
    out
}

/// Model, whether it stays, and position: what reports are ordered by.
type Key = (u8, u8, usize);

fn port_reports(before: &Tool, after: &Tool) -> Vec<(Key, Report)> {
    let mut all = Vec::new();
    for (p, (was, is)) in before.port.iter().zip(&after.port).enumerate() {
        let mut say = |model, differs, old, new| {
            if differs {
                all.push(((model, 1, p), Report { model, port: p as u8 + 1, name: [0; 16], old, new }));
            }
        };
        say(1, was.transfer != is.transfer, was.transfer, is.transfer);
        say(2, was.access != is.access, was.access, is.access);
        say(3, was.reserved != is.reserved, was.reserved, is.reserved);
        say(4, was.tie != is.tie, (was.tie != [0; 16]) as u8, (is.tie != [0; 16]) as u8);
    }
    all
}

fn carrier_reports(before: &Tool, after: &Tool) -> Vec<(Key, Report)> {
    let find = |t: &Tool, name| t.carriers().iter().find(|c| c.name == name).copied();
    let statuses = |c: Option<Carrier>| c.map_or([0; 3], |c| [c.id, c.slot, c.accessing]);
    let went = before.carriers().iter().filter(|c| find(after, c.name).is_none());
    let mut all = Vec::new();
    for (i, c) in went.chain(after.carriers()).enumerate() {
        let stays = find(after, c.name).is_some() as u8;
        let (was, is) = (statuses(find(before, c.name)), statuses(find(after, c.name)));
        for (model, (old, new)) in (5..).zip(was.into_iter().zip(is)) {
            if old != new {
                all.push(((model, stays, i), Report { model, port: 0, name: c.name, old, new }));
            }
        }
    }
    all
}

/// The pairs (row, answer) that document 01 allows: what each row says it is refused for.
pub const ALLOWED: [(u32, &[u32]); 26] = [
    (1, &[0, 1, 3, 4, 5, 6]),
    (2, &[0, 1, 2, 5]),
    (3, &[0, 1, 3, 6]),
    (4, &[0, 1, 2, 5]),
    (5, &[0, 1, 2, 5]),
    (6, &[0, 1, 2, 5]),
    (7, &[0, 1, 2, 4, 5]),
    (8, &[0, 1, 2, 5]),
    (9, &[0, 1, 4, 5]),
    (10, &[0, 1, 4, 5]),
    (11, &[0, 1, 4, 5]),
    (12, &[0, 1, 4, 5]),
    (13, &[0, 1, 5]),
    (14, &[0, 1, 5]),
    (15, &[0, 1, 5]),
    (16, &[0, 1, 3, 5]),
    (17, &[0, 1, 5]),
    (18, &[0, 1, 5, 7, 8]),
    (19, &[0, 1, 2, 5, 7, 8]),
    (20, &[0, 1, 2, 5]),
    (21, &[0, 1, 2, 5, 7]),
    (22, &[0, 1, 2, 5]),
    (23, &[0, 1, 2, 5]),
    (24, &[0, 1, 5]),
    (25, &[0, 1, 5]),
    (26, &[0, 1, 5]),
];
