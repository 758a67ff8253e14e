//! Two programs that are wrong alike about where a pod is, and counts that are.

use independent::Carrier;

use super::*;
use crate::pods::{Counted, Pods};

type Fault = fn(&Tool, &Input, &mut Outcome);

/// Whether the input is of this row and accepted.
fn is(input: &Input, o: &Outcome, row: u32) -> bool {
    input.number == row && o.accepted()
}

fn along_runs(both: &Both, rng: &mut Rng) -> Result<(), Finding> {
    runs::compare(both, 5_000, rng).map(drop)
}

/// The record at a place goes, and all behind it move up.
fn lose(tool: &mut Tool, at: usize) {
    tool.base.carrier[at..].rotate_left(1);
    tool.base.carrier[35] = Carrier::UNUSED;
    tool.base.count -= 1;
}

/// The shortest script for a fault that both programs have, told with it.
fn shown(fault: Fault) -> (String, Vec<u32>) {
    let faulty = Faulty(fault);
    let both = Both { proved: &faulty, independent: &faulty };
    let Err(Finding::Document(run, why)) = runs::compare(&both, 5_000, &mut Rng::new(5)) else {
        panic!("the fault was not found");
    };
    let short = shortest(&both, &run);
    assert_eq!(differs_after(&both, &short), Some(short.inputs.len()));
    (why, short.inputs.iter().map(|input| input.number).collect())
}

/// A load that brings no pod, a pod that stays though it left, one that is lost on its way into the buffer, and one that
/// is in two places.
#[test]
fn pods_lost_and_doubled_are_against_the_documents() {
    let none_comes: Fault = |_, i, o| {
        if is(i, o, 14) {
            o.tool.base.port[i.port as usize - 1].pod = 0;
        }
    };
    let stays: Fault = |before, i, o| {
        if is(i, o, 25) {
            let p = i.port as usize - 1;
            (o.tool.base.port[p].pod, o.tool.base.port[p].transfer) = (before.base.port[p].pod, 3);
        }
    };
    let lost: Fault = |_, i, o| {
        if is(i, o, 18) {
            let at = o.tool.base.carriers().iter().position(|c| c.spot as u32 == i.value);
            lose(&mut o.tool, at.expect("it went there"));
        }
    };
    let doubled: Fault = |_, i, o| {
        if is(i, o, 18) {
            let port = &mut o.tool.base.port[i.port as usize - 1];
            (port.pod, port.transfer) = (1, 3);
        }
    };
    for (fault, row, most) in [(none_comes, 14, 2), (stays, 25, 11), (lost, 18, 5), (doubled, 18, 5)] {
        let (why, inputs) = shown(fault);
        assert!(why.starts_with("what came in less what went out is what is here: "), "{why}");
        assert!(inputs.last() == Some(&row) && inputs.len() <= most, "{inputs:?}");
    }
}

/// What is here is told with what came and went.
#[test]
fn the_numbers_are_told() {
    let both_lose: Fault = |_, i, o| {
        if is(i, o, 14) {
            o.tool.base.port[i.port as usize - 1].pod = 0;
        }
    };
    let why = against(both_lose, along_runs);
    assert!(why.ends_with(": 1 less 0, 0 at ports and 0 in the buffer"), "{why}");
}

/// Where only one of the two is wrong, they differ.
#[test]
fn one_that_is_wrong_differs() {
    let run = found(4, 16, |_, i, o| {
        if is(i, o, 36) {
            o.tool.base.port[i.port as usize - 1].pod = 0;
        }
    });
    assert_eq!(run.inputs.iter().map(|input| input.number).collect::<Vec<_>>(), [9, 13, 14, 36]);
}

fn outcome(answer: u32, tool: Tool) -> Outcome {
    Outcome { answer, tool, reports: Reports::NONE }
}

/// Answers that no right program gives: the count has them all the same, and is against what is here.
#[test]
fn answers_are_counted_as_they_are() {
    let empty = crate::machine::set_up(&Independent, SetUp::of(2, 1)).1;
    let give = |pods: &mut Pods, number, value, answer| {
        let input = Input { number, port: 1, value, ..Input::default() };
        pods.note(&input, &outcome(answer, empty))
    };
    // A LoadDone without a pod; but not one that is refused, or held.
    assert!(give(&mut Pods::at_setup(), 14, 0, 0).is_some());
    assert!(give(&mut Pods::at_setup(), 14, 0, 5).is_none());
    let mut held = Pods::at_setup();
    assert!([(9, 1), (13, 0), (14, 0)].iter().all(|&(row, value)| give(&mut held, row, value, 0).is_none()));
    let why = give(&mut held, 36, 0, 0).expect("a pod that isn't there");
    assert!(why.ends_with(": 1 less 0, 0 at ports and 0 in the buffer"), "{why}");
    // More that went than came.
    assert!(give(&mut Pods::at_setup(), 25, 0, 0).is_some());
}

/// Everything befalls the count often along the runs of a comparison, and the line says how often.
#[test]
fn what_befalls_the_count_is_met() {
    let both = Both { proved: &Independent, independent: &Independent };
    let mut rng = Rng::new(5);
    let buffered = runs::compare(&both, 50_000, &mut rng).expect("no finding").counted;
    let fixed = runs::without_buffer(&both, 50_000, &mut rng).expect("no finding").counted;
    let all = buffered.and(&fixed);
    assert_eq!(all.unmet(), [""; 0], "{all}");
    // No carrier goes into a buffer that isn't there, and none comes out of it.
    let unmet =
        ["MoveIn", "OutDone", "CarrierIn", "a pod in the buffer"].map(|what| format!("{what} (0 times)"));
    assert_eq!(fixed.unmet(), unmet);
    assert!(all.to_string().contains(" pods came in along the runs, "), "{all}");
    assert_eq!(Counted::default().unmet().len(), 18);
}
