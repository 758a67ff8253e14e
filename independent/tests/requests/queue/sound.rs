//! The words on soundness, each broken alone.

use independent::gen::requests::{damage, random_sound_tool};
use independent::gen::Rng;
use independent::requests::queue::{Queue, Request};

use super::*;
use crate::plain_queue::list;
use crate::soundness::compare;

/// A started at port 1, B and C asked for at ports 1 and 2, D not asked for; E expected, F at port 3.
fn asked() -> Tool {
    let mut t = stocked(3, 4, &["A", "B", "C", "D"]);
    accept(&mut t, 3, 0, 0, "E");
    bring(&mut t, 3, "F");
    ask(&mut t, &[("A", 1), ("B", 1), ("C", 2)]);
    accept(&mut t, 27, 1, 0, "");
    assert!(compare(&t));
    t
}

/// Whether the tool is sound with a change to it.
fn with(change: impl FnOnce(&mut Tool)) -> bool {
    let mut t = asked();
    change(&mut t);
    compare(&t)
}

#[test]
fn count_and_unused_entries() {
    for count in 0..=255 {
        assert_eq!(with(|t| t.queue.count = count), count == 3, "{count}");
    }
    for k in 3..16 {
        for at in 0..18 {
            for value in [1, 2, b'A', 0xFF] {
                assert!(!with(|t| t.queue.request[k].bytes_mut()[at] = value), "entry {k} byte {at}");
            }
        }
    }
    // An entry of zeros among the others, and one that would be good behind them.
    for k in 0..3 {
        assert!(!with(|t| t.queue.request[k] = Request::UNUSED));
    }
    let good = Request { name: padded(b"D"), port: 2, started: 0 };
    assert!(!with(|t| t.queue.request[3] = good));
    assert!(with(|t| (t.queue.request[3], t.queue.count) = (good, 4)));
    assert!(!with(|t| (t.queue.request[4], t.queue.count) = (good, 5)));
}

#[test]
fn port_and_started_in_range() {
    for port in 0..=255 {
        assert_eq!(with(|t| t.queue.request[1].port = port), (1..=3).contains(&port), "{port}");
    }
    for started in 0..=255 {
        assert_eq!(with(|t| t.queue.request[0].started = started), started <= 1, "{started}");
        assert_eq!(with(|t| t.queue.request[2].started = started), started == 0, "{started}");
    }
}

/// A carrier by name, which has a record and is in the buffer.
#[test]
fn the_carrier_is_in_the_buffer() {
    let good = [("D", true), ("E", false), ("F", false), ("NONE", false), ("", false), ("BB", false)];
    for (name, good) in good {
        assert_eq!(with(|t| t.queue.request[1].name = padded(name.as_bytes())), good, "{name}");
    }
    // A name is all of its sixteen bytes.
    for at in 1..16 {
        assert!(!with(|t| t.queue.request[1].name[at] = b' '));
        assert!(!with(|t| t.queue.request[1].name[at] = b'B'));
    }
    let expected = |t: &mut Tool, name| {
        let k = position(t, name);
        let c = &mut t.base.carrier[k];
        (c.place, c.spot) = (0, 0);
    };
    for name in ["A", "B", "C"] {
        assert!(!with(|t| expected(t, name)), "{name}");
    }
    assert!(with(|t| expected(t, "D")));
}

#[test]
fn no_name_twice() {
    for k in 0..3 {
        for other in 0..3 {
            assert_eq!(with(|t| t.queue.request[other].name = t.queue.request[k].name), k == other);
        }
    }
    // Not even to another port.
    let again = Request { name: padded(b"B"), port: 3, started: 0 };
    assert!(!with(|t| (t.queue.request[3], t.queue.count) = (again, 4)));
}

/// A started one is closed and not in access; one that waits may be either.
#[test]
fn a_started_carrier() {
    for (name, open, accessing) in
        ["A", "B"].into_iter().flat_map(|n| (0..=1).flat_map(move |o| (1..=4).map(move |a| (n, o, a))))
    {
        let changed = |t: &mut Tool| {
            let k = position(t, name);
            (t.base.carrier[k].open, t.base.carrier[k].accessing) = (open, accessing);
        };
        assert_eq!(with(changed), name == "B" || open == 0 && accessing != 2, "{name} {open} {accessing}");
    }
}

/// A started one's port is untied, reserved and READY TO LOAD; that of one that waits may be anything.
#[test]
fn a_started_port() {
    for (p, waits) in [(0, false), (1, true)] {
        for transfer in 0..=3 {
            for reserved in 0..=1 {
                let changed = |t: &mut Tool| {
                    (t.base.port[p].transfer, t.base.port[p].reserved) = (transfer, reserved);
                };
                assert_eq!(with(changed), waits || transfer == 1 && reserved == 1);
            }
        }
        let tied = |t: &mut Tool| {
            let e = position(t, "E");
            t.base.carrier[e].port = p as u8 + 1;
            t.base.port[p].tie = padded(b"E");
        };
        assert_eq!(with(tied), waits);
        for (access, tag) in [(0, 0), (1, 0), (0, 1), (1, 2)] {
            assert!(with(|t| (t.base.port[p].access, t.base.port[p].tag) = (access, tag)));
        }
    }
}

/// Alone for its port: the only started one. Others may wait for it, before and behind it.
#[test]
fn alone_for_its_port() {
    assert!(!with(|t| t.queue.request[1].started = 1));
    assert!(with(|t| t.queue.request.swap(0, 1)));
    assert!(with(|t| t.queue.request.swap(0, 2)));
    let second = |t: &mut Tool, port: u8| {
        t.base.port[1].reserved = 1;
        (t.queue.request[2].port, t.queue.request[2].started) = (port, 1);
    };
    assert!(with(|t| second(t, 2)));
    assert!(!with(|t| second(t, 1)));
    // Port 3 is tied.
    assert!(!with(|t| second(t, 3)));
}

/// Sixteen requests, each port with one that is started.
#[test]
fn a_full_queue() {
    let (mut t, names) = sixteen(4);
    for (k, name) in names.iter().enumerate() {
        ask(&mut t, &[(name, 1 + k as u32 % 4)]);
        assert!(compare(&t));
    }
    (1..=4).for_each(|port| drop(accept(&mut t, 27, port, 0, "")));
    assert!(compare(&t));
    for k in 0..16 {
        for other in 0..16 {
            let mut u = t;
            u.queue.request.swap(k, other);
            assert!(compare(&u));
            u.queue.request[other] = u.queue.request[k];
            assert_eq!(compare(&u), k == other);
        }
    }
    t.queue.count = 17;
    assert!(!compare(&t));
}

/// No buffer, no record: no request.
#[test]
fn without_records() {
    for (p, b) in [(1, 0), (4, 16)] {
        let mut t = tool(p, b);
        for name in ["", "A"] {
            t.queue = Queue { count: 1, ..Queue::EMPTY };
            t.queue.request[0] = Request { name: padded(name.as_bytes()), port: 1, started: 0 };
            assert!(!compare(&t));
        }
    }
}

/// Names that hash alike, or nearly: every carrier is found all the same.
#[test]
fn names_by_the_hundred() {
    let mut rng = Rng::new(19);
    let (t, _) = sixteen(2);
    for _ in 0..3_000 {
        let mut u = t;
        let start = rng.below(90_000);
        for k in 0..16 {
            u.base.carrier[k].name = padded(format!("CARRIER-{:05}", start + k as u32).as_bytes());
            u.queue.request[15 - k] = Request { name: u.base.carrier[k].name, port: 1, started: 0 };
        }
        u.queue.count = 16;
        assert!(compare(&u));
        u.queue.request[rng.below(16) as usize].name = padded(b"CARRIER-99999");
        assert!(!compare(&u));
    }
}

/// What a damaged queue breaks, if it breaks one word alone.
fn broken(t: &Tool) -> Option<&'static str> {
    let count = t.queue.count as usize;
    if count > 16 {
        return Some("count");
    }
    let all = list(t);
    let carrier = |r: &Request| t.base.carriers().iter().find(|c| c.name == r.name);
    let port = |r: &Request| t.base.port.get((r.port as usize).wrapping_sub(1));
    let begun = || all.iter().filter(|r| r.started == 1);
    let words = [
        ("unused entries", t.queue.request[count..].iter().any(|r| *r != Request::UNUSED)),
        ("port", all.iter().any(|r| !(1..=t.base.ports).contains(&r.port))),
        ("started", all.iter().any(|r| r.started > 1)),
        ("no record", all.iter().any(|r| carrier(r).is_none())),
        ("elsewhere", all.iter().any(|r| carrier(r).is_some_and(|c| c.place != 2))),
        ("twice", all.iter().enumerate().any(|(k, r)| all[..k].iter().any(|other| other.name == r.name))),
        ("open", begun().any(|r| carrier(r).is_some_and(|c| c.open == 1))),
        ("in access", begun().any(|r| carrier(r).is_some_and(|c| c.accessing == 2))),
        ("not alone", begun().any(|r| begun().filter(|other| other.port == r.port).count() > 1)),
        ("tied", begun().any(|r| port(r).is_some_and(|port| port.tied()))),
        ("not reserved", begun().any(|r| port(r).is_some_and(|port| port.reserved == 0))),
        ("not READY TO LOAD", begun().any(|r| port(r).is_some_and(|port| port.transfer != 1))),
    ];
    let mut broken = words.into_iter().filter(|(_, broken)| *broken).map(|(word, _)| word);
    broken.next().filter(|_| broken.next().is_none())
}

/// Each word is broken alone, in a tool that is sound otherwise, by what the generator damages.
#[test]
fn every_word_is_broken_alone() {
    let mut rng = Rng::new(20);
    let mut met = std::collections::BTreeMap::new();
    for _ in 0..60_000 {
        let mut t = random_sound_tool(&mut rng);
        damage(&mut t, &mut rng);
        let is = compare(&t);
        if independent::sound(&t.base) {
            if let Some(word) = broken(&t) {
                assert!(!is, "{word}");
                *met.entry(word).or_insert(0) += 1;
            }
        }
    }
    println!("{met:?}");
    assert!(met.len() == 13 && met.values().all(|&n| n > 20), "{met:?}");
}
