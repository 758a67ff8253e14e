//! When exactly the second of two rows gives back the state before the first, for the pairs that do so
//! sometimes.

use independent::{Port, Tool as Base};

use super::searched::Kind;
use super::*;

type Holds = fn(&Tool, &Input) -> bool;

/// Whether it does, from a state that the first input changes. The search holds every try against it.
pub const CONDITIONS: [(Kind, Kind, Holds); 17] = [
    ((13, 0), (15, 0), |t, i| port(t, i).0.reserved == 0),
    ((13, 1), (15, 0), |t, i| port(t, i).0.reserved == 0),
    ((24, 0), (26, 0), |t, i| port(t, i).0.access == 0 || port(t, i).1.on == 1),
    ((10, 1), (10, 0), |t, i| !port(t, i).0.tied() && port(t, i).0.reserved == 0 && port(t, i).1.on == 0),
    ((12, 0), (11, 0), |t, i| port(t, i).0.transfer == 1),
    ((15, 0), (13, 0), |t, i| starts_again(t, i, 0)),
    ((15, 0), (13, 1), |t, i| starts_again(t, i, 1)),
    ((26, 0), (24, 0), |t, i| unloads_again(t, i, 0)),
    ((26, 0), (24, 1), |t, i| unloads_again(t, i, 1)),
    ((2, 0), (1, 0), bound_again),
    ((4, 0), (3, 0), |t, i| is_last_and_new(t, &plain::plain_name(&i.name).unwrap())),
    ((7, 0), (30, 0), |t, _| t.queue.requests().iter().all(|r| r.started == 1)),
    ((29, 0), (7, 0), is_youngest),
    ((30, 0), (7, 0), |t, _| {
        let waiting: Vec<u8> = t.queue.requests().iter().map(|r| 1 - r.started).collect();
        waiting.iter().sum::<u8>() == 1 && waiting.ends_with(&[1])
    }),
    ((6, 0), (7, 0), only_drops),
    ((23, 0), (19, 0), opens_again),
    ((33, 0), (33, 0), estimates_again),
];

/// The port that an input names, and its alarm.
fn port<'a>(t: &'a Tool, i: &Input) -> (&'a Port, &'a Alarm) {
    let p = i.port as usize - 1;
    (&t.base.port[p], &t.alarms[p])
}

/// LoadFail and LoadStart: nothing was held or reserved, and the start raises the alarm that was on, or none
/// where none was.
fn starts_again(t: &Tool, i: &Input, value: u8) -> bool {
    let (port, alarm) = port(t, i);
    let raises = value == 0 && port.access == 1;
    let let_in = value == 0 || port.access == 1;
    let_in && alarm.on == raises as u8 && alarm.held == 0 && port.reserved == 0
}

/// UnloadFail and UnloadStart: no prediction came to its end, and the start raises no alarm that wasn't on.
fn unloads_again(t: &Tool, i: &Input, value: u8) -> bool {
    let (port, alarm) = port(t, i);
    let fits = value == port.access || value == 0 && alarm.on == 1;
    let completes =
        |k: usize| t.base.carrier[k].port as u32 == i.port && [4, 5].contains(&t.predictions.of[k].state);
    fits && !(0..t.base.count as usize).any(completes)
}

/// The record stands last, and has nothing that a new one hasn't; where it is tied doesn't matter.
fn is_last_and_new(t: &Tool, name: &[u8]) -> bool {
    let Some((k, c, p)) = found(t, name) else { return false };
    let new = Prediction { state: if t.base.places == 0 { 2 } else { 0 }, ..Prediction::NONE };
    k + 1 == t.base.count as usize && *c == Carrier { port: c.port, ..Carrier::new(c.name) } && *p == new
}

/// CancelBind and Bind: as above, and the port is READY TO LOAD and reserved, as Bind leaves it.
fn bound_again(t: &Tool, i: &Input) -> bool {
    let base: &Base = &t.base;
    let tied = |c: &&Carrier| {
        plain::plain_name(&i.name).map_or(c.port as u32 == i.port, |name| unpadded(&c.name) == name)
    };
    let Some(c) = base.carriers().iter().find(tied) else { return false };
    let port = &base.port[c.port as usize - 1];
    is_last_and_new(t, &unpadded(&c.name)) && port.transfer == 1 && port.reserved == 1
}

/// CancelCarrierOut and CarrierOut: the request stood last.
fn is_youngest(t: &Tool, i: &Input) -> bool {
    let name = plain::plain_name(&i.name);
    t.queue.requests().last().map(|r| unpadded(&r.name)) == name
}

/// CancelCarrier and CarrierOut: the carrier was cancelled already and has nothing else to lose but its
/// request, which is the youngest.
fn only_drops(t: &Tool, i: &Input) -> bool {
    let name = plain::plain_name(&i.name).unwrap();
    let Some((_, c, _)) = found(t, &name) else { return false };
    let loses = c.cancelled == 0 || c.open == 1 || c.came_out == 1 || c.id == 2 || c.slot == 2;
    let waits = t.queue.requests().last().is_some_and(|r| r.started == 0);
    c.in_buffer() && !loses && waits && is_youngest(t, i)
}

/// Close and Open: the carrier may be opened, and is the only one that is open where there is one opener.
fn opens_again(t: &Tool, i: &Input) -> bool {
    let (_, c, _) = found(t, &plain::plain_name(&i.name).unwrap()).unwrap();
    let open = t.base.carriers().iter().filter(|c| c.open == 1).count();
    let there = t.base.places == 0 || c.in_buffer() && open == 1;
    there && c.accessing == 1 && c.id == 3 && c.slot != 4 && c.cancelled == 0
}

/// An estimate, and the one before it: there was one, the clock stands still, and nothing was judged anew.
fn estimates_again(t: &Tool, i: &Input) -> bool {
    let (k, _, p) = found(t, &plain::plain_name(&i.name).unwrap()).unwrap();
    let mut estimated = *t;
    estimated.predictions.of[k].set_te(i.time);
    let clock = Input { number: 31, clock: i.clock, ..Input::default() };
    p.has_te == 1 && same(&after(t, i).1, &estimated) && same(&after(t, &clock).1, t)
}
