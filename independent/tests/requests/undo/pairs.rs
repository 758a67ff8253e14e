//! Every pair of the table from many states: the second input is accepted and gives back the state before the
//! first, all of it. Where the condition doesn't hold, what is left behind is what it says.

use independent::gen::requests::random_pair;
use independent::gen::shuffle;
use independent::requests::undo::{Pair, When, PAIRS, REQUESTED};

use super::*;

type Is = fn(&Tool) -> bool;

/// What a state may have that a pair must leave alone.
const KINDS: [(&str, Is); 8] = [
    ("B > 0", |t| t.base.places > 0),
    ("an alarm is on", |t| t.alarms.iter().any(|alarm| alarm.on == 1)),
    ("a pod is held", |t| t.alarms.iter().any(|alarm| alarm.held == 1)),
    ("a map is expected", |t| (0..t.base.count as usize).any(|i| t.expected_map(i).is_some())),
    ("a request waits", |t| t.queue.requests().iter().any(|r| r.started == 0)),
    ("a request is started", |t| t.queue.requests().iter().any(|r| r.started == 1)),
    ("B = 0", |t| t.base.places == 0),
    ("a prediction has begun", |t| t.predictions.of.iter().any(|p| p.state > 2 || p.has_tp != 0)),
];

/// How often a pair was tried with its condition, in states of each kind, and without it: with another state
/// as result and with the same.
#[derive(Clone, Copy, Debug, Default)]
struct Tries {
    with: u64,
    kinds: [u64; KINDS.len()],
    other: u64,
    same: u64,
}

fn tried(pair: &Pair, t: &Tool, rng: &mut Rng, tries: &mut Tries) {
    let Some([first, undo]) = random_pair(t, pair, rng) else { return };
    let (accepted, between) = after(t, &first);
    let (answer, back) = after(&between, &undo);
    let story = || format!("{first:?}\n{undo:?} answers {answer}\n{}{}", describe(t), describe(&back));
    assert_eq!(accepted, 0, "{}", story());
    if pair.holds(t, first.port, first.value) {
        assert!(!same(t, &between), "nothing to undo: {}", story());
        assert!(answer == 0 && same(t, &back), "{}", story());
        assert_eq!(exchanged(&reports(t, &first)), reports(&between, &undo), "{}", story());
        tries.with += 1;
        for (met, (_, is)) in tries.kinds.iter_mut().zip(KINDS) {
            *met += is(t) as u64;
        }
    } else {
        assert!(same(&left(pair, t, &first, &between), &back), "{}", story());
        *(if same(t, &back) { &mut tries.same } else { &mut tries.other }) += 1;
    }
}

fn reports(t: &Tool, i: &Input) -> Reports {
    let mut out = Reports::NONE;
    step_input(&mut { *t }, i, &mut out);
    out
}

/// The same reports with old and new exchanged.
fn exchanged(reports: &Reports) -> Reports {
    let mut back = *reports;
    for report in &mut back.items {
        core::mem::swap(&mut report.old, &mut report.new);
    }
    back
}

/// The state before with what a pair leaves behind where its condition doesn't hold. A change to the value
/// that the port has already changes nothing, so that the second is the first change; back into service may
/// be final.
fn left(pair: &Pair, before: &Tool, first: &Input, between: &Tool) -> Tool {
    let p = first.port as usize - 1;
    let mut t = *before;
    match pair.when {
        When::Always => {}
        When::NoHandInAuto => t.alarms[p].on = 1,
        When::NotReserved => t.base.port[p].reserved = 0,
        When::OtherValue if same(before, between) => {
            let value = pair.value_back(first.value);
            t = after(before, &Input { value, ..first.clone() }).1;
        }
        When::OtherValue => {
            let stays = t.base.port[p].reserved == 1 || t.base.port[p].tied();
            t.base.port[p].transfer = stays as u8;
            t.alarms[p] = Alarm::NONE;
        }
    }
    t
}

/// Each pair was tried often, in states of each kind; without its condition it was, where it has one, and
/// left something behind.
fn often_enough(tries: &[Tries; PAIRS.len()], least: u64) {
    for (pair, met) in PAIRS.iter().zip(tries) {
        assert!(met.with >= least, "{pair:?}: {met:?}");
        // Only a tool with a buffer has requests, and only one without foretells.
        let possible = if pair.first == 7 { 6 } else { KINDS.len() };
        for ((what, _), &n) in KINDS.iter().zip(&met.kinds).take(possible) {
            assert!(n >= least / 50, "{pair:?}: {what}: {n}");
        }
        let always = pair.when == When::Always;
        assert_eq!(met.other == 0, always, "{pair:?}: {met:?}");
        assert!(always || met.other >= least / 50, "{pair:?}: {met:?}");
    }
}

#[test]
fn from_sound_states() {
    let mut tries = [Tries::default(); PAIRS.len()];
    states(101, 30_000, |t, rng| {
        for (pair, tries) in PAIRS.iter().zip(&mut tries) {
            tried(pair, t, rng, tries);
        }
    });
    often_enough(&tries, 4_000);
    // A hand in AUTO where the alarm was on already leaves nothing new.
    assert!(tries[REQUESTED - 1].same > 500, "{tries:?}");
}

#[test]
fn along_runs_too() {
    let mut tries = [Tries::default(); PAIRS.len()];
    along_runs(102, 3_000, |t, rng| {
        for (pair, tries) in PAIRS.iter().zip(&mut tries) {
            tried(pair, t, rng, tries);
        }
    });
    often_enough(&tries, 2_000);
}

/// The request's own pairs come first, and no row begins two pairs.
#[test]
fn the_table() {
    let rows = PAIRS.map(|pair| (pair.first, pair.undo));
    assert_eq!(rows[..REQUESTED], [(1, 2), (3, 4), (11, 12), (24, 26)]);
    let mut firsts: Vec<u32> = PAIRS.iter().map(|pair| pair.first).collect();
    firsts.sort();
    firsts.dedup();
    assert_eq!(firsts.len(), PAIRS.len());
}

/// Bookings, which are Bind, CarrierNotification, ReserveAtPort and CarrierOut: some of them one after the
/// other, taken back in any order.
fn booked_and_taken_back(t: &Tool, rng: &mut Rng) -> usize {
    let bookings: Vec<&Pair> = PAIRS.iter().filter(|pair| [1, 3, 7, 11].contains(&pair.first)).collect();
    let (mut now, mut undoing) = (*t, Vec::new());
    for _ in 0..rng.below(8) {
        if let Some([first, undo]) = random_pair(&now, rng.pick(&bookings), rng) {
            now = after(&now, &first).1;
            undoing.push(undo);
        }
    }
    shuffle(&mut undoing, rng);
    for undo in &undoing {
        let (answer, next) = after(&now, undo);
        assert_eq!(answer, 0, "{undo:?}\n{}", describe(&now));
        now = next;
    }
    assert!(same(t, &now), "{undoing:?}\n{}{}", describe(t), describe(&now));
    undoing.len()
}

#[test]
fn bookings_in_any_order() {
    let mut several = 0;
    let mut count = |booked: usize| several += (booked > 2) as u32;
    states(107, 10_000, |t, rng| count(booked_and_taken_back(t, rng)));
    along_runs(108, 1_000, |t, rng| count(booked_and_taken_back(t, rng)));
    assert!(several > 1_000, "{several}");
}
