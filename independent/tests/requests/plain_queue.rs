//! P5's words in the plainest form: the queue is a list of requests that is read from the tool and
//! written back to it.

use independent::gen::{padded, Input};
use independent::requests::queue::{Queue, Request};
use independent::requests::Tool;
use independent::{Carrier, Plain, Reports};

use crate::common::plain_reports;

/// The words on soundness, clause by clause, where document 01's tool is sound.
pub fn plainly_sound(t: &Tool) -> bool {
    let count = t.queue.count as usize;
    if count > 16 {
        return false;
    }
    let (all, unused) = t.queue.request.split_at(count);
    let entry_is_good = |(k, r): (usize, &Request)| {
        let others = all.iter().enumerate().filter(|(other, _)| *other != k).map(|(_, r)| r);
        // Every field is in its range; an entry's carrier is in the buffer, none twice.
        (1..=t.base.ports).contains(&r.port)
            && r.started <= 1
            && carrier_of(t, r).is_some_and(|c| c.place == 2)
            && others.clone().all(|other| other.name != r.name)
            && (r.started == 0 || started_is_good(t, r, others))
    };
    unused.iter().all(|r| r.bytes().iter().all(|&byte| byte == 0))
        && all.iter().enumerate().all(entry_is_good)
}

/// Closed, not in access, alone for its port, which is untied, reserved and READY TO LOAD.
fn started_is_good<'a>(t: &Tool, r: &Request, mut others: impl Iterator<Item = &'a Request>) -> bool {
    let port = &t.base.port[r.port as usize - 1];
    carrier_of(t, r).is_some_and(|c| c.open == 0 && c.accessing != 2)
        && others.all(|other| other.started == 0 || other.port != r.port)
        && port.tie == [0; 16]
        && port.reserved == 1
        && port.transfer == 1
}

fn carrier_of<'a>(t: &'a Tool, r: &Request) -> Option<&'a Carrier> {
    t.base.carriers().iter().find(|c| c.name == r.name)
}

/// The requests of a sound tool, the oldest first.
pub fn list(t: &Tool) -> Vec<Request> {
    t.queue.request.iter().take(t.queue.count as usize).copied().collect()
}

pub fn queue(list: &[Request]) -> Queue {
    let mut queue = Queue { count: list.len() as u8, ..Queue::EMPTY };
    queue.request[..list.len()].copy_from_slice(list);
    queue
}

/// What rows 7 and 27 to 30 give from a sound state, for a name that is good; `None` for other rows.
pub fn step(before: &Tool, i: &Input) -> Option<(u32, Tool, Reports)> {
    let done = match i.number {
        7 => carrier_out(before, i),
        27 => out_start(before, i.port),
        28 => out_done(before, i.port),
        29 => cancel_carrier_out(before, &i.name),
        30 => Ok(with(before, |r| r.started == 1)),
        _ => return None,
    };
    Some(match done {
        Ok(after) => (0, after, plain_reports(&before.base, &after.base)),
        Err(refusal) => (refusal, *before, Reports::NONE),
    })
}

/// The tool with those requests for which `stays` holds.
fn with(before: &Tool, stays: impl Fn(&Request) -> bool) -> Tool {
    let left: Vec<Request> = list(before).into_iter().filter(stays).collect();
    Tool { queue: queue(&left), ..*before }
}

/// The lowest number that applies.
fn refused(applies: &[(u32, bool)]) -> Result<(), u32> {
    applies.iter().filter(|(_, applies)| *applies).map(|(number, _)| *number).min().map_or(Ok(()), Err)
}

fn carrier_out(before: &Tool, i: &Input) -> Result<Tool, u32> {
    let mut all = list(before);
    let name = padded(&i.name);
    let record = before.base.carriers().iter().find(|c| c.name == name);
    refused(&[
        (1, i.port < 1 || i.port > before.base.ports as u32),
        (2, record.is_none()),
        (5, record.is_none_or(|c| c.place != 2)),
        (9, all.len() == 16),
        (10, all.iter().any(|r| r.name == name)),
    ])?;
    all.push(Request { name, port: i.port as u8, started: 0 });
    Ok(Tool { queue: queue(&all), ..*before })
}

fn out_start(before: &Tool, port: u32) -> Result<Tool, u32> {
    refused(&[(1, port < 1 || port > before.base.ports as u32)])?;
    let mut after = *before;
    let mut all = list(before);
    let there = &mut after.base.port[port as usize - 1];
    let closed = |r: &Request| carrier_of(before, r).is_some_and(|c| c.open == 0 && c.accessing != 2);
    let taken = all.iter_mut().find(|r| r.port as u32 == port && closed(r));
    refused(&[
        (4, there.reserved == 1 || there.tie != [0; 16]),
        (5, there.transfer != 1),
        (5, taken.is_none()),
    ])?;
    taken.unwrap().started = 1;
    there.reserved = 1;
    Ok(Tool { queue: queue(&all), ..after })
}

/// Row 7's effect is document 01's own: the request's carrier goes out of a tool whose port isn't
/// reserved.
fn out_done(before: &Tool, port: u32) -> Result<Tool, u32> {
    refused(&[(1, port < 1 || port > before.base.ports as u32)])?;
    let started = list(before).into_iter().find(|r| r.started == 1 && r.port as u32 == port);
    let started = started.ok_or(5u32)?;
    let mut after = with(before, |r| *r != started);
    after.base.port[port as usize - 1].reserved = 0;
    let name = independent::gen::unpadded(&started.name);
    let mut reports = Reports::NONE;
    assert_eq!(independent::step(&mut after.base, 7, port, 0, &name, &[], &mut reports), 0);
    Ok(after)
}

fn cancel_carrier_out(before: &Tool, name: &[u8]) -> Result<Tool, u32> {
    let drops = |r: &Request| r.name == padded(name) && r.started == 0;
    refused(&[(5, !list(before).iter().any(drops))])?;
    Ok(with(before, |r| !drops(r)))
}

/// What the other rows are refused for while a request is started.
pub fn held(before: &Tool, i: &Input) -> Option<u32> {
    let started: Vec<Request> = list(before).into_iter().filter(|r| r.started == 1).collect();
    match i.number {
        12 | 13 if started.iter().any(|r| r.port as u32 == i.port) => Some(4),
        19 if started.iter().any(|r| r.name == padded(&i.name)) => Some(5),
        _ => None,
    }
}

/// The queue after a row that isn't its own has been accepted.
pub fn after(before: &Tool, i: &Input) -> Queue {
    let cancelled = |r: &Request| i.number == 6 && r.name == padded(&i.name);
    with(before, |r| r.started == 1 || !cancelled(r)).queue
}
