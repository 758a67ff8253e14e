//! Programs that are wrong on purpose about the wafers of P8.

mod alike;
mod counted;
mod floats;
mod totals;

use super::*;

/// The Tp of a clock and of times, two for each wafer; nothing is 12.
type Tp = fn(u32, &[f64]) -> Option<u64>;

/// The first clock that is none.
const PAST: u64 = 1 << 32;

fn good(time: f64) -> bool {
    (0.0..1_048_576.0).contains(&time) && (time * 1024.0).fract() == 0.0
}

fn all_good(times: &[f64]) -> bool {
    times.iter().all(|&time| good(time))
}

fn sum(times: &[f64]) -> f64 {
    times.iter().sum()
}

/// The clock and so many seconds, whatever they are.
fn later(clock: u32, seconds: f64) -> u64 {
    (clock as u64).saturating_add(seconds as u64)
}

/// The same, if this is a clock.
fn after(clock: u32, seconds: f64) -> Option<u64> {
    Some(later(clock, seconds)).filter(|&tp| tp < PAST)
}

fn right(clock: u32, times: &[f64]) -> Option<u64> {
    after(clock, sum(times).ceil()).filter(|_| all_good(times))
}

fn refuse(before: &Tool, answer: u32, o: &mut Outcome) {
    *o = Outcome { answer, tool: *before, reports: Reports::NONE };
}

/// Wafers that come so far as to be looked at, done anew with another Tp.
fn again(tp: Tp, before: &Tool, input: &Input, o: &mut Outcome) {
    if input.number == 35 && [0, 12].contains(&o.answer) {
        told(tp(input.clock, &input.times()), before, input, o);
    }
}

/// The input as one for Tp; where there is none, it is refused with 12.
fn told(tp: Option<u64>, before: &Tool, input: &Input, o: &mut Outcome) {
    refuse(before, 12, o);
    if let Some(tp) = tp {
        let told = Input { number: 32, time: tp as u32, ..input.clone() };
        o.answer = Independent.step(&mut o.tool, &told, &mut o.reports);
    }
}

/// The program is found among P8's edges, and along runs unless it is wrong where none come to. The shortest script.
fn seen(faulty: &dyn Machine) -> Run {
    let both = Both { proved: faulty, independent: &Independent };
    let Err(Finding::Run(edge)) = totalled::compare(&both, 1, &mut Rng::new(5)) else {
        panic!("not found among the edges")
    };
    assert_eq!(differs_after(&both, &edge), Some(edge.inputs.len()));
    let Err(Finding::Run(run)) = runs::without_buffer(&both, 400_000, &mut Rng::new(5)) else {
        panic!("not found along runs")
    };
    let short = shortest(&both, &run);
    assert_eq!(differs_after(&both, &short), Some(short.inputs.len()));
    assert_eq!(short.inputs.last().map(|input| input.number), Some(35), "{}", short.script());
    short
}

fn caught(tp: Tp) -> Run {
    seen(&Faulty(move |before: &Tool, input: &Input, o: &mut Outcome| again(tp, before, input, o)))
}

/// The last input of the shortest script for a wrong Tp: its clock and its times.
fn last(tp: Tp) -> (u32, Vec<f64>) {
    let run = caught(tp);
    assert!(run.inputs.len() <= 11, "{}", run.script());
    let input = run.inputs.last().expect("an input");
    (input.clock, input.times())
}

/// Wafers that are totalled anew, and rightly, are what the independent program gives: so a wrong total differs by its
/// fault alone.
#[test]
fn totalling_by_hand_is_the_same() {
    let right = Faulty(|before: &Tool, input: &Input, o: &mut Outcome| again(right, before, input, o));
    let both = Both { proved: &right, independent: &Independent };
    assert!(totalled::compare(&both, 1, &mut Rng::new(5)).is_ok());
    assert!(runs::without_buffer(&both, 60_000, &mut Rng::new(5)).is_ok());
    assert!(states::compare(&both, 20_000, &mut Rng::new(5)).is_ok());
}
