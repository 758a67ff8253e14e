//! Rows 6, 21, 23 and 26, records that are made and gone, and the buffer.

use super::*;

/// Row 6 from WAITING FOR CARRIER: the setting of 0 ignored, or taken for 0; Tp not set; an abort by a Te.
#[test]
fn a_wrong_cancel_is_found() {
    let setting_ignored: Fault = |before, input, o| {
        if is(input, o, 6, 0) && before.predictions.setting() == 0 {
            redone(before, input, o, |p| p.setting = [1, 0, 0, 0], |p| p.setting = [0; 4]);
        }
    };
    let always_disabled: Fault = |before, input, o| {
        if is(input, o, 6, 0) && before.predictions.setting() != 0 {
            let setting = before.predictions.setting;
            redone(before, input, o, |p| p.setting = [0; 4], |p| p.setting = setting);
        }
    };
    let no_tp: Fault = |before, input, o| {
        let own = named(before, input).filter(|&i| before.predictions.of[i].state == 2);
        if let (true, Some(i)) = (is(input, o, 6, 0) && before.predictions.setting() != 0, own) {
            (o.tool.predictions.of[i].has_tp, o.tool.predictions.of[i].tp) = (0, [0; 4]);
        }
    };
    let one_report: Fault = |_, input, o| {
        let at = o.reports.as_slice().iter().position(|r| (r.model, r.old, r.new) == (8, 2, 3));
        if let (true, Some(at)) = (is(input, o, 6, 0), at) {
            o.reports.items[at].new = 6;
            o.reports.items[at + 1..].fill(Report::UNUSED);
            o.reports.count = at as u8 + 1;
        }
    };
    for fault in [setting_ignored, always_disabled, no_tp, one_report] {
        let (run, row) = caught_small(fault);
        assert_eq!((row, run.inputs.len() <= 6), (6, true), "{}", run.script());
    }
}

/// A cancel that completes one that waits for its prediction, or leaves one PREDICTED.
#[test]
fn a_cancel_in_another_state_is_found() {
    let completes: Fault = |before, input, o| {
        let own = named(before, input).filter(|&i| before.predictions.of[i].state == 3);
        if let (true, Some(i)) = (is(input, o, 6, 0), own) {
            tell(o, i, 4);
            tell(o, i, 6);
        }
    };
    let leaves: Fault = |before, input, o| {
        let own = named(before, input).filter(|&i| [4, 5].contains(&before.predictions.of[i].state));
        if let (true, Some(i)) = (is(input, o, 6, 0), own) {
            o.tool.predictions.of[i].state = before.predictions.of[i].state;
            o.reports.count -= 1;
            o.reports.items[o.reports.count as usize] = Report::UNUSED;
        }
    };
    for fault in [completes, leaves] {
        let (run, row) = caught_small(fault);
        assert_eq!(row, 6, "{}", run.script());
    }
}

/// AccessStart that begins no prediction, or one that is judged at once.
#[test]
fn a_wrong_access_start_is_found() {
    let (run, row) = caught_small(|before, input, o| {
        if is(input, o, 21, 0) && before.predictions.setting() == 0 {
            redone(before, input, o, |p| p.setting = [1, 0, 0, 0], |p| p.setting = [0; 4]);
        }
    });
    assert_eq!((row, run.setup.setting), (21, 0), "{}", run.script());
    let begins_nothing: Fault = |before, input, o| {
        if is(input, o, 21, 0) && before.base.places == 0 {
            o.tool.predictions = before.predictions;
            o.reports.count = 1;
            o.reports.items[1] = Report::UNUSED;
        }
    };
    assert_eq!(caught_small(begins_nothing).1, 21);
}

/// 25 and 29 that Close or UnloadFail leave to the next input.
#[test]
fn a_port_that_makes_nobody_ready_is_found() {
    let close: Fault = |before, input, o| late(before, input, o, 23);
    let unload_fail: Fault = |before, input, o| late(before, input, o, 26);
    fn late(before: &Tool, input: &Input, o: &mut Outcome, row: u32) {
        let told = o.reports.as_slice().iter().any(|r| r.model == 8);
        if is(input, o, row, 0) && told {
            o.tool.predictions = before.predictions;
            o.reports.count = 1;
            o.reports.items[1] = Report::UNUSED;
        }
    }
    for (fault, last) in [(close, 23), (unload_fail, 26)] {
        assert_eq!(caught_small(fault).1, last);
    }
}

/// A record that is made without its report, one that goes without, and one that goes after the one that is made.
#[test]
fn records_that_are_told_otherwise_are_found() {
    fn without(o: &mut Outcome, gone: bool) {
        let all = o.reports.as_slice().to_vec();
        let lost = |r: &&Report| r.model == 8 && if gone { r.new == 0 } else { r.old == 0 };
        o.reports = Reports::NONE;
        for r in all.iter().filter(|r| !lost(r)) {
            o.reports.items[o.reports.count as usize] = *r;
            o.reports.count += 1;
        }
    }
    let not_made: Fault = |_, _, o| without(o, false);
    let not_gone: Fault = |_, _, o| without(o, true);
    let made_first: Fault = |_, input, o| {
        if is(input, o, 16, 0) && o.reports.count == 9 {
            o.reports.items.swap(7, 8);
        }
    };
    for fault in [not_made, not_gone, made_first] {
        let (run, _) = caught(fault);
        assert!(run.inputs.len() <= 4, "{}", run.script());
    }
}

/// Predictions that don't move up with their records, or that a new record inherits.
#[test]
fn predictions_left_behind_are_found() {
    let stay: Fault = |before, input, o| {
        let gone = before.base.count == o.tool.base.count + 1;
        if gone && o.accepted() && before.base.places == 0 && input.number != 16 {
            let count = o.tool.base.count as usize;
            o.tool.predictions.of[..count].copy_from_slice(&before.predictions.of[..count]);
        }
    };
    let only_the_state_moves: Fault = |before, _, o| {
        let gone = before.base.count == o.tool.base.count + 1;
        if gone && o.accepted() && before.base.places == 0 {
            for i in 0..o.tool.base.count as usize {
                let state = o.tool.predictions.of[i].state;
                o.tool.predictions.of[i] = Prediction { state, ..before.predictions.of[i] };
            }
        }
    };
    for fault in [stay, only_the_state_moves] {
        caught(fault);
    }
}

/// Model 8 with a buffer: told, kept, or both.
#[test]
fn model_8_with_a_buffer_is_found() {
    let told: Fault = |before, input, o| {
        let made = o.tool.base.count as usize;
        if [1, 3].contains(&input.number) && o.accepted() && before.base.places > 0 {
            tell(o, made - 1, 2);
            o.tool.predictions.of[made - 1].state = 0;
            o.reports.items[o.reports.count as usize - 1].old = 0;
        }
    };
    let kept: Fault = |before, input, o| {
        if [1, 3].contains(&input.number) && o.accepted() && before.base.places > 0 {
            o.tool.predictions.of[o.tool.base.count as usize - 1].state = 2;
        }
    };
    let both_of_it: Fault = |before, input, o| {
        if [1, 3].contains(&input.number) && o.accepted() && before.base.places > 0 {
            tell(o, o.tool.base.count as usize - 1, 2);
        }
    };
    for fault in [told, kept, both_of_it] {
        let faulty = Faulty(fault);
        let both = Both { proved: &faulty, independent: &Independent };
        assert!(matches!(foretold::compare(&both), Err(Finding::Run(_))));
        let Err(Finding::Run(run)) = runs::compare(&both, 20_000, &mut Rng::new(5)) else {
            panic!("not found")
        };
        let run = shortest(&both, &run);
        assert_eq!((run.inputs.len(), run.setup.places), (1, 1), "{}", run.script());
    }
}
