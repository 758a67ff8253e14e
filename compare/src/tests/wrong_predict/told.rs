//! The clock, Tp, Te and "no prediction": wrong refusals, and what is kept.

use super::*;

/// The clock set by an input that is refused.
#[test]
fn a_clock_of_a_refused_input_is_found() {
    let (run, _) = caught_small(|before, input, o| {
        if (32..=34).contains(&input.number)
            && [2, 5].contains(&o.answer)
            && input.clock > before.predictions.clock()
        {
            o.tool.predictions.clock = input.clock.to_le_bytes();
        }
    });
    assert_eq!(run.inputs.len(), 1, "{}", run.script());
}

/// The clock that isn't set: by row 32, 33 or 34, or where it is the same.
#[test]
fn a_clock_that_is_not_kept_is_found() {
    let by_the_clock_alone: Fault = |before, input, o| {
        if (32..=34).contains(&input.number) && o.accepted() {
            o.tool.predictions.clock = before.predictions.clock;
        }
    };
    let without_a_buffer: Fault = |before, input, o| {
        if is(input, o, 31, 0) && before.base.places > 0 {
            o.tool.predictions.clock = before.predictions.clock;
        }
    };
    caught_small(by_the_clock_alone);
    let faulty = Faulty(without_a_buffer);
    let both = Both { proved: &faulty, independent: &Independent };
    assert!(matches!(foretold::compare(&both), Err(Finding::Run(_))));
    assert!(matches!(runs::compare(&both, 20_000, &mut Rng::new(5)), Err(Finding::Run(_))));
}

/// An equal clock refused, and one that runs back accepted, by one row or by all.
#[test]
fn wrong_limits_of_the_clock_are_found() {
    let equal: Fault = |before, input, o| {
        if brings_clock(input) && o.accepted() && input.clock == before.predictions.clock() && input.clock > 0
        {
            *o = Outcome { answer: 11, tool: *before, reports: Reports::NONE };
        }
    };
    let runs_back: Fault = |before, input, o| {
        if is(input, o, 31, 11) {
            redone(before, input, o, |p| p.clock = [0; 4], |_| {});
        }
    };
    let estimates_may: Fault = |before, input, o| {
        if is(input, o, 33, 11) {
            let clock = before.predictions.clock;
            redone(before, input, o, |p| p.clock = [0; 4], |p| p.clock = clock);
        }
    };
    for fault in [equal, runs_back, estimates_may] {
        let (run, _) = caught_small(fault);
        // The clock may have gone on with another carrier.
        assert!(run.inputs.len() <= 20, "{}", run.script());
    }
}

/// 11 before 5, and 11 before 2.
#[test]
fn another_order_of_refusals_is_found() {
    let eleven_before_five: Fault = |before, input, o| {
        let back = brings_clock(input) && input.clock < before.predictions.clock();
        o.answer = if back && o.answer == 5 { 11 } else { o.answer };
    };
    let eleven_before_two: Fault = |before, input, o| {
        let back = brings_clock(input) && input.clock < before.predictions.clock();
        o.answer = if back && o.answer == 2 { 11 } else { o.answer };
    };
    let five_before_two: Fault = |before, input, o| {
        let buffer = brings_clock(input) && before.base.places > 0;
        o.answer = if buffer && o.answer == 2 { 5 } else { o.answer };
    };
    for fault in [eleven_before_five, eleven_before_two] {
        let (run, _) = caught(fault);
        assert!(run.inputs.len() <= 12, "{}", run.script());
    }
    let faulty = Faulty(five_before_two);
    let both = Both { proved: &faulty, independent: &Independent };
    assert!(matches!(foretold::compare(&both), Err(Finding::Run(_))));
    assert!(matches!(runs::compare(&both, 20_000, &mut Rng::new(5)), Err(Finding::Run(_))));
}

/// A second Tp that overwrites the first, in WAITING FOR PREDICTION; or that is accepted and lost.
#[test]
fn a_second_tp_is_found() {
    let overwrites: Fault = |before, input, o| {
        let again = named(before, input).filter(|&i| before.predictions.of[i].state == 3);
        if let (true, Some(i)) = (is(input, o, 32, 5) && before.base.places == 0, again) {
            redone(before, input, o, |p| (p.of[i].has_tp, p.of[i].tp) = (0, [0; 4]), |_| {});
        }
    };
    let is_lost: Fault = |before, input, o| {
        let again = named(before, input).is_some_and(|i| before.predictions.of[i].state == 3);
        if is(input, o, 32, 5) && again && input.clock >= before.predictions.clock() {
            o.answer = Independent.step(&mut o.tool, &Input { number: 31, ..input.clone() }, &mut o.reports);
        }
    };
    for fault in [overwrites, is_lost] {
        let (run, row) = caught_small(fault);
        assert_eq!((row, run.inputs.len() <= 11), (32, true), "{}", run.script());
    }
}

/// Tp outside of WAITING FOR PREDICTION: before access, and when it is PREDICTED or ABORTED without one.
#[test]
fn a_tp_at_the_wrong_time_is_found() {
    let before_access: Fault = |before, input, o| {
        let waits = named(before, input).filter(|&i| before.predictions.of[i].state == 2);
        if let (true, Some(i)) = (is(input, o, 32, 5) && input.clock >= before.predictions.clock(), waits) {
            o.answer = Independent.step(&mut o.tool, &Input { number: 31, ..input.clone() }, &mut o.reports);
            o.tool.predictions.of[i].set_tp(input.time);
        }
    };
    let aborted: Fault = |before, input, o| {
        let may = named(before, input).filter(|&i| {
            let p = &before.predictions.of[i];
            p.state == 5 && p.has_tp == 0
        });
        if let (true, Some(i)) = (is(input, o, 32, 5) && input.clock >= before.predictions.clock(), may) {
            o.answer = Independent.step(&mut o.tool, &Input { number: 31, ..input.clone() }, &mut o.reports);
            o.tool.predictions.of[i].set_tp(input.time);
        }
    };
    caught_small(before_access);
    let run = along_runs(&Faulty(aborted));
    assert_eq!(run.inputs.last().map(|input| input.number), Some(32));
}

/// Te without Tp accepted; Te refused where it isn't judged.
#[test]
fn a_wrong_te_is_found() {
    let without_tp: Fault = |before, input, o| {
        let own = named(before, input).filter(|_| before.base.places == 0);
        if let (true, Some(i)) = (is(input, o, 33, 5) && input.clock >= before.predictions.clock(), own) {
            o.answer = Independent.step(&mut o.tool, &Input { number: 31, ..input.clone() }, &mut o.reports);
            o.tool.predictions.of[i].set_te(input.time);
        }
    };
    let only_where_judged: Fault = |before, input, o| {
        let past = named(before, input).is_some_and(|i| before.predictions.of[i].state > 4);
        if is(input, o, 33, 0) && past {
            *o = Outcome { answer: 5, tool: *before, reports: Reports::NONE };
        }
    };
    let only_once: Fault = |before, input, o| {
        let again = named(before, input).is_some_and(|i| before.predictions.of[i].has_te == 1);
        if is(input, o, 33, 0) && again {
            *o = Outcome { answer: 5, tool: *before, reports: Reports::NONE };
        }
    };
    let not_before_tp: Fault = |before, input, o| {
        let early = named(before, input).is_some_and(|i| before.predictions.of[i].tp() > Some(input.time));
        if is(input, o, 33, 0) && early {
            *o = Outcome { answer: 5, tool: *before, reports: Reports::NONE };
        }
    };
    for fault in [without_tp, only_where_judged, only_once, not_before_tp] {
        let (run, row) = caught_small(fault);
        assert_eq!(row, 33, "{}", run.script());
    }
}

/// "No prediction" refused with a Tp, accepted in PREDICTED, or without its 29.
#[test]
fn a_wrong_no_prediction_is_found() {
    let with_tp: Fault = |before, input, o| {
        let told = named(before, input).is_some_and(|i| before.predictions.of[i].has_tp == 1);
        if is(input, o, 34, 0) && told {
            *o = Outcome { answer: 5, tool: *before, reports: Reports::NONE };
        }
    };
    let in_predicted: Fault = |before, input, o| {
        let own = named(before, input).filter(|&i| before.predictions.of[i].state == 4);
        if let (true, Some(i)) = (is(input, o, 34, 5) && input.clock >= before.predictions.clock(), own) {
            redone(before, input, o, |p| p.of[i].state = 3, |_| {});
        }
    };
    let judged_after: Fault = |before, input, o| {
        let lost = o.reports.as_slice().iter().any(|r| (r.old, r.new) == (5, 6));
        let own = named(before, input).filter(|&i| o.tool.predictions.of[i].state == 6);
        if let (true, true, Some(i)) = (is(input, o, 34, 0), lost, own) {
            o.tool.predictions.of[i].state = 5;
        }
    };
    for fault in [with_tp, in_predicted, judged_after] {
        let (run, row) = caught_small(fault);
        assert_eq!(row, 34, "{}", run.script());
    }
}

/// Set-ups that take too long a time, or none.
#[test]
fn wrong_times_of_a_set_up_are_found() {
    let one_more: fn(SetUp) -> SetUp =
        |of| if of.setting == 86_401 { SetUp { setting: 86_400, ..of } } else { of };
    let cut: fn(SetUp) -> SetUp = |of| SetUp { timeout: of.timeout & 0x1FFFF, ..of };
    let swapped: fn(SetUp) -> SetUp = |of| SetUp { setting: of.timeout, timeout: of.setting, ..of };
    let not_0: fn(SetUp) -> SetUp = |of| if of.timeout == 0 { SetUp { timeout: 86_401, ..of } } else { of };
    for setup in [one_more, cut, swapped, not_0] {
        let wrong = Mistaken { setup, ..Mistaken::IN_NOTHING };
        let both = Both { proved: &wrong, independent: &Independent };
        let Err(finding @ Finding::Run(_)) = foretold::compare(&both) else { panic!("not found") };
        assert!(tell_it(&both, &finding).contains("setup "));
    }
}

fn tell_it(both: &Both, finding: &Finding) -> String {
    super::super::tell(both, finding)
}
