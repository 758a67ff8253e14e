//! What the generator draws for alarms: all that may befall them happens along runs and from states.

use independent::gen::requests::{random_run_input, random_sound_tool, random_times, violates};
use independent::gen::requests::{ALONG_RUNS, VIOLATES};
use independent::gen::{Input, Rng};

use super::*;

type Met = [u32; VIOLATES.len()];

/// Gives an input and takes note of what it was to the alarms.
fn note(met: &mut Met, t: &mut Tool, i: &Input) {
    let before = *t;
    let answer = step_input(t, i, &mut Reports::NONE.clone());
    if let Some(k) = violates(&before, t, i, answer) {
        met[k] += 1;
    }
}

fn often_enough(from: &str, met: &[u32]) {
    for (what, n) in VIOLATES.iter().zip(met) {
        println!("{from}: {what}: {n}");
    }
    for (what, &n) in VIOLATES.iter().zip(met) {
        assert!(n > 10, "{from}: {what}: {n}");
    }
}

#[test]
fn everything_befalls_alarms_along_runs() {
    let mut met = [0; VIOLATES.len()];
    let mut rng = Rng::new(91);
    for (p, b) in [(1, 0), (4, 0), (1, 2), (2, 5), (4, 16), (4, 16)] {
        let mut t = tool(p, b);
        let (setting, timeout) = random_times(&mut rng);
        setup(p, b, setting, timeout, &mut t);
        for _ in 0..20_000 {
            let i = random_run_input(&t, &mut rng);
            note(&mut met, &mut t, &i);
        }
    }
    let (reached, others) = met.split_at(ALONG_RUNS);
    often_enough("runs", reached);
    assert_eq!(others, [0, 0]);
}

#[test]
fn everything_befalls_the_alarms_of_a_state() {
    let mut met = [0; VIOLATES.len()];
    let mut rng = Rng::new(92);
    for _ in 0..200_000 {
        let mut t = random_sound_tool(&mut rng);
        let i = random_run_input(&t, &mut rng);
        note(&mut met, &mut t, &i);
    }
    often_enough("states", &met);
}

/// Most starts are as the port's mode has them, so that runs go on.
#[test]
fn most_starts_fit() {
    let mut rng = Rng::new(93);
    let mut t = tool(4, 16);
    let (mut starts, mut accepted, mut raised) = (0, 0, 0);
    for _ in 0..40_000 {
        let i = random_run_input(&t, &mut rng);
        let mut out = Reports::NONE;
        let answer = step_input(&mut t, &i, &mut out);
        if [13, 24].contains(&i.number) {
            starts += 1;
            accepted += (answer == 0) as u32;
            raised += out.as_slice().iter().filter(|r| r.model == 9).count();
        }
    }
    println!("{starts} starts, {accepted} accepted, {raised} raise an alarm");
    assert!(2 * accepted > starts && raised > 300 && raised < accepted as usize / 3);
}

/// The names of what may befall an alarm differ, and each stands where it is found.
#[test]
fn what_befalls_has_a_name() {
    let mut t = in_auto(1, 0);
    let what = |t: &Tool, number, value, answer| {
        let i = Input { number, port: 1, value, ..Input::default() };
        violates(t, t, &i, answer).map(|k| VIOLATES[k])
    };
    assert_eq!(what(&t, 13, 0, 0), Some("a manual load in AUTO"));
    assert_eq!(what(&t, 13, 2, 1), Some("a load that is neither"));
    assert_eq!(what(&tool(1, 0), 13, 1, 13), Some("an automatic load in MANUAL"));
    assert_eq!(what(&t, 36, 0, 5), Some("Continue where nothing loads"));
    accept(&mut t, 13, 1, MANUAL, "");
    assert_eq!(what(&t, 14, 0, 0), Some("LoadDone that holds"));
    assert_eq!(what(&t, 36, 0, 5), Some("Continue before LoadDone, with the alarm on"));
    accept(&mut t, 14, 1, 0, "");
    assert_eq!(what(&t, 14, 0, 5), Some("LoadDone on a held pod"));
    assert_eq!(what(&t, 15, 0, 0), Some("LoadFail on a held pod"));
    assert_eq!((what(&t, 3, 0, 0), what(&t, 13, 0, 5)), (None, None));
}
