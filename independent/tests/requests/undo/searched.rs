//! A search over all pairs of rows: each row that changes a state, and after it every row with the same port
//! and name, and with what the state had before. So nothing that undoes anything is missed, and nothing looks
//! as if it did.

use std::collections::{BTreeMap, BTreeSet};

use super::exactly::CONDITIONS;
use super::*;

/// A row, with its value where it has one of two: access, service, the kind of a start, the kind of an end.
pub type Kind = (u32, u32);

const TWO_VALUED: [u32; 5] = [9, 10, 13, 22, 24];
const WITH_PORT: [u32; 19] = [1, 2, 7, 9, 10, 11, 12, 13, 14, 15, 16, 17, 18, 24, 25, 26, 27, 28, 36];

/// How often each kind is the first at most, and at least.
const MOST: u32 = 1_000;
const LEAST: u32 = 400;

fn kind(i: &Input) -> Kind {
    (i.number, if TWO_VALUED.contains(&i.number) { i.value } else { 0 })
}

fn kinds() -> Vec<Kind> {
    let values = |row| if TWO_VALUED.contains(&row) { 0..=1 } else { 0..=0 };
    (1..=36).flat_map(|row| values(row).map(move |value| (row, value))).collect()
}

/// The port and the name that an input is about: those that it names, or else those that have to do with
/// them, by a tie or by a request, before it or after it.
fn subject(before: &Tool, between: &Tool, i: &Input) -> (u32, Vec<u8>) {
    let requests = before.queue.requests();
    let named = plain::NAMED.contains(&i.number).then(|| plain::plain_name(&i.name)).flatten();
    let ported = WITH_PORT.contains(&i.number).then_some(i.port).filter(|&port| port != 0);
    let port = ported.or_else(|| {
        let name = named.as_deref()?;
        let tied = [before, between].iter().find_map(|t| found(t, name).filter(|(_, c, _)| c.port != 0));
        let asked = requests.iter().find(|r| unpadded(&r.name) == name);
        tied.map(|(_, c, _)| c.port as u32).or(asked.map(|r| r.port as u32))
    });
    let of_all = requests.iter().rfind(|r| i.number == 30 && r.started == 0);
    let port = port.or(of_all.map(|r| r.port as u32)).unwrap_or(1);
    let name = named.or(of_all.map(|r| unpadded(&r.name))).or_else(|| {
        let tied = [before, between].map(|t| t.base.port[port as usize - 1].tie);
        let asked = requests.iter().find(|r| r.started == 1 && r.port as u32 == port);
        let all = tied.into_iter().chain(asked.map(|r| r.name));
        all.map(|name| unpadded(&name)).find(|name| !name.is_empty())
    });
    (port, name.unwrap_or_else(|| b"A".to_vec()))
}

/// An input of this kind that might bring back what was before: with the place, the map and the times of
/// then, at the clock of now.
fn second((number, value): Kind, before: &Tool, between: &Tool, (port, name): (u32, Vec<u8>)) -> Input {
    let was = found(before, &name);
    let codes = match (number, was) {
        (1 | 3, Some((i, ..))) => before.expected_map(i).map_or_else(Vec::new, |map| map.to_vec()),
        (20, Some((_, c, _))) => c.map.to_vec(),
        _ => Vec::new(),
    };
    let spot = was.map_or(0, |(_, c, _)| c.spot as u32).max(1);
    let time = |(_, _, p): (usize, &Carrier, &Prediction)| if number == 33 { p.te() } else { p.tp() };
    Input {
        number,
        port,
        value: if number == 18 { spot } else { value },
        name,
        codes,
        clock: between.predictions.clock(),
        time: was.and_then(time).unwrap_or(0),
        ..Input::default()
    }
}

/// How often each pair was tried, and how often the second gave the state back.
type Found = BTreeMap<(Kind, Kind), (u32, u32)>;

fn try_all(all: &mut Found, t: &Tool, i: &Input) {
    if all.get(&(kind(i), (1, 0))).is_some_and(|(tries, _)| *tries == MOST) {
        return;
    }
    let (answer, between) = after(t, i);
    if answer != 0 || same(t, &between) {
        return;
    }
    for next in kinds() {
        let undo = second(next, t, &between, subject(t, &between, i));
        let (answer, back) = after(&between, &undo);
        let gives_back = answer == 0 && same(t, &back);
        let (tries, times) = all.entry((kind(i), next)).or_default();
        (*tries, *times) = (*tries + 1, *times + gives_back as u32);
        let stated = CONDITIONS.iter().find(|(first, second, _)| (*first, *second) == (kind(i), next));
        if let Some((.., holds)) = stated {
            let story = || format!("{i:?}\n{undo:?} answers {answer}\n{}{}", describe(t), describe(&back));
            assert_eq!(holds(t, i), gives_back, "{}", story());
        }
    }
}

/// The pairs that always gave the state back, and those that did sometimes; each first was tried often
/// enough.
fn sorted(all: &Found) -> [BTreeSet<(Kind, Kind)>; 2] {
    for first in kinds() {
        let (tries, _) = all.get(&(first, (1, 0))).copied().unwrap_or_default();
        assert!(tries >= LEAST, "{first:?} was tried {tries} times");
    }
    let of = |is: fn(u32, u32) -> bool| {
        all.iter().filter(|(_, (tries, times))| is(*tries, *times)).map(|(&pair, _)| pair).collect()
    };
    [of(|tries, times| times == tries), of(|tries, times| times > 0 && times < tries)]
}

/// Inputs for what a state has of ports, records and requests, of rows that are seldom accepted.
fn rare(t: &Tool, rng: &mut Rng) -> Vec<Input> {
    let clock = t.predictions.clock();
    let mut all = vec![Input { number: 12, port: 1 + rng.below(t.base.ports as u32), ..Input::default() }];
    if t.base.count > 0 {
        let name = unpadded(&rng.pick(t.base.carriers()).name);
        all.push(Input { number: rng.pick(&[2, 34, 35]), name, clock, ..Input::default() });
    }
    if t.queue.count > 0 {
        let name = unpadded(&rng.pick(t.queue.requests()).name);
        all.push(Input { number: 29, name, ..Input::default() });
    }
    all
}

/// Tries inputs of all rows from a state.
fn look(all: &mut Found, t: &Tool, rng: &mut Rng) {
    rare(t, rng).iter().for_each(|i| try_all(all, t, i));
    for _ in 0..2 {
        try_all(all, t, &random_run_input(t, rng));
    }
}

/// The pairs that always give the state back, from every sound state: those of the table, but for those of
/// its conditions that say more than that the first changes something.
const ALWAYS: [(Kind, Kind); 9] = [
    ((1, 0), (2, 0)),
    ((3, 0), (4, 0)),
    ((7, 0), (29, 0)),
    ((9, 0), (9, 1)),
    ((9, 1), (9, 0)),
    ((10, 0), (10, 1)),
    ((11, 0), (12, 0)),
    ((19, 0), (23, 0)),
    ((24, 1), (26, 0)),
];

/// Those that give it back always along runs, which come to no port that is reserved and not READY TO LOAD,
/// and to none that is out of service and reserved, tied or with its alarm on.
const ALWAYS_ALONG_RUNS: [(Kind, Kind); 2] = [((10, 1), (10, 0)), ((12, 0), (11, 0))];

fn stated() -> BTreeSet<(Kind, Kind)> {
    CONDITIONS.iter().map(|&(first, second, _)| (first, second)).collect()
}

#[test]
fn from_sound_states() {
    let mut all = Found::new();
    states(103, 140_000, |t, rng| look(&mut all, t, rng));
    let [always, sometimes] = sorted(&all);
    assert_eq!(always, BTreeSet::from(ALWAYS));
    assert_eq!(sometimes, stated());
}

#[test]
fn along_runs_too() {
    let mut all = Found::new();
    along_runs(104, 15_000, |t, rng| look(&mut all, t, rng));
    let [always, sometimes] = sorted(&all);
    assert_eq!(always, BTreeSet::from(ALWAYS).union(&BTreeSet::from(ALWAYS_ALONG_RUNS)).copied().collect());
    let expected: BTreeSet<_> = stated().difference(&BTreeSet::from(ALWAYS_ALONG_RUNS)).copied().collect();
    assert_eq!(sometimes, expected);
}
