//! A pod that is held, until Continue or LoadFail.

use super::*;

/// A LoadDone that brings the pod though the alarm is on: with the port still loading, or idle, or without being held.
#[test]
fn a_pod_present_while_held_is_found() {
    let present: Fault = |before, input, o| {
        if is(input, o, 14, 0) && alarm(before, input).on == 1 {
            o.tool.base.port[input.port as usize - 1].pod = 1;
        }
    };
    let idle: Fault = |before, input, o| {
        if is(input, o, 14, 0) && alarm(before, input).on == 1 {
            let port = &mut o.tool.base.port[input.port as usize - 1];
            (port.pod, port.movement, port.tag) = (1, 0, 0);
        }
    };
    let not_held: Fault = |before, input, o| {
        if is(input, o, 14, 0) && alarm(before, input).on == 1 {
            let p = input.port as usize - 1;
            let port = &mut o.tool.base.port[p];
            (port.pod, port.movement, port.tag) = (1, 0, 0);
            o.tool.alarms[p].held = 0;
        }
    };
    let refused: Fault = |before, input, o| {
        if is(input, o, 14, 0) && alarm(before, input).on == 1 {
            refuse(before, o, 5);
        }
    };
    for fault in [present, idle, not_held, refused] {
        let (run, row) = caught_small(fault);
        assert_eq!((row, run.inputs.len()), (14, 3), "{}", run.script());
    }
}

/// Every LoadDone in AUTO holds, or none that isn't in AUTO.
#[test]
fn a_hold_by_the_mode_is_found() {
    let in_auto: Fault = |before, input, o| {
        let p = at(before, input);
        if let Some(p) = p.filter(|&p| is(input, o, 14, 0) && before.base.port[p].access == 1) {
            o.tool = *before;
            o.tool.alarms[p].held = 1;
        }
    };
    let (run, row) = caught_small(in_auto);
    assert_eq!((row, run.inputs.len()), (14, 3), "{}", run.script());
    // No run is in MANUAL with the alarm on while it loads.
    let faulty = Faulty(|before, input, o| {
        let p = at(before, input);
        if let Some(p) = p.filter(|&p| is(input, o, 14, 0) && before.base.port[p].access == 0) {
            let mut tool = *before;
            tool.alarms[p] = Alarm::NONE;
            instead(&tool, o, input);
            o.tool.alarms[p] = before.alarms[p];
        }
    });
    let both = Both { proved: &faulty, independent: &Independent };
    let finding = states::compare(&both, 100_000, &mut Rng::new(5)).err().expect("a finding");
    let told = tell(&both, &finding);
    assert!(told.contains("\nin 14 ") && !told.contains("setup"), "{told}");
    assert_eq!((told.matches("  record ").count(), told.matches("  alarm ").count()), (0, 1), "{told}");
    assert!(told.contains(" held: proved 0, independent 1"), "{told}");
}

/// LoadDone that holds wherever the alarm is on, though nothing loads.
#[test]
fn a_hold_by_the_alarm_alone_is_found() {
    let (run, row) = caught_small(|before, input, o| {
        let Alarm { on, held } = alarm(before, input);
        if is(input, o, 14, 5) && on == 1 && held == 0 {
            o.answer = 0;
            o.tool.alarms[input.port as usize - 1].held = 1;
        }
    });
    assert_eq!((row, run.inputs.len() <= 11), (14, true), "{}", run.script());
}

/// LoadDone that is accepted twice: it does nothing, or what Continue does.
#[test]
fn a_load_done_accepted_twice_is_found() {
    let nothing: Fault = |before, input, o| {
        if is(input, o, 14, 5) && alarm(before, input).held == 1 {
            o.answer = 0;
        }
    };
    let continues: Fault = |before, input, o| {
        if is(input, o, 14, 5) && alarm(before, input).held == 1 {
            instead(before, o, &Input { number: 36, ..input.clone() });
        }
    };
    for fault in [nothing, continues] {
        let (run, row) = caught_small(fault);
        assert_eq!((row, run.inputs.len()), (14, 4), "{}", run.script());
    }
}

/// Continue that doesn't clear the alarm, or doesn't let go; that leaves the tag or the movement, or the pod away.
#[test]
fn a_wrong_continue_is_found() {
    let keeps_alarm: Fault = |before, input, o| {
        if is(input, o, 36, 0) {
            wrongly(before, o, input.port as usize - 1, 1);
        }
    };
    let keeps_held: Fault = |_, input, o| {
        if is(input, o, 36, 0) {
            o.tool.alarms[input.port as usize - 1].held = 1;
        }
    };
    let no_pod: Fault = |_, input, o| {
        if is(input, o, 36, 0) {
            o.tool.base.port[input.port as usize - 1].pod = 0;
        }
    };
    let still_loading: Fault = |_, input, o| {
        if is(input, o, 36, 0) {
            o.tool.base.port[input.port as usize - 1].movement = 1;
        }
    };
    let unblocked: Fault = |_, input, o| {
        if is(input, o, 36, 0) {
            o.tool.base.port[input.port as usize - 1].transfer = 1;
        }
    };
    for fault in [keeps_alarm, keeps_held, no_pod, still_loading, unblocked] {
        let (run, row) = caught_small(fault);
        assert_eq!((row, run.inputs.len()), (36, 4), "{}", run.script());
    }
}

/// Along a run the tag is unread anyway: states and edges tell whether LoadDone and Continue see to it.
#[test]
fn a_wrong_tag_is_found() {
    let held_unread: Fault = |before, input, o| {
        if is(input, o, 14, 0) && alarm(before, input).on == 1 {
            o.tool.base.port[input.port as usize - 1].tag = 0;
        }
    };
    let continued_as_it_was: Fault = |before, input, o| {
        if is(input, o, 36, 0) {
            let p = input.port as usize - 1;
            o.tool.base.port[p].tag = before.base.port[p].tag;
        }
    };
    for fault in [held_unread, continued_as_it_was] {
        let faulty = Faulty(fault);
        let both = Both { proved: &faulty, independent: &Independent };
        assert!(matches!(alarmed::compare(&both), Err(Finding::State(..))));
        assert!(matches!(states::compare(&both, 100_000, &mut Rng::new(5)), Err(Finding::State(..))));
    }
}

/// Continue where nothing is held: wherever the alarm is on, or the port is loading.
#[test]
fn a_continue_with_nothing_held_is_found() {
    let alarmed: Fault = |before, input, o| {
        let Alarm { on, held } = alarm(before, input);
        let loading = at(before, input).is_some_and(|p| before.base.port[p].movement == 1);
        if is(input, o, 36, 5) && on == 1 && held == 0 && loading {
            let mut tool = *before;
            tool.alarms[input.port as usize - 1].held = 1;
            instead(&tool, o, input);
        }
    };
    let loading: Fault = |before, input, o| {
        let loading = at(before, input).is_some_and(|p| before.base.port[p].movement == 1);
        if is(input, o, 36, 5) && loading && alarm(before, input).on == 0 {
            instead(before, o, &Input { number: 14, ..input.clone() });
        }
    };
    let nothing: Fault = |_, input, o| o.answer = if is(input, o, 36, 5) { 0 } else { o.answer };
    let unknown: Fault = |_, input, o| o.answer = if is(input, o, 36, 5) { 1 } else { o.answer };
    for (fault, inputs) in [(alarmed, 3), (loading, 2), (nothing, 1), (unknown, 1)] {
        let (run, row) = caught_small(fault);
        assert_eq!((row, run.inputs.len() <= inputs), (36, true), "{}", run.script());
    }
}

/// LoadFail that leaves the alarm, or the pod that is held.
#[test]
fn a_wrong_load_fail_is_found() {
    let keeps_alarm: Fault = |before, input, o| {
        if is(input, o, 15, 0) {
            let p = input.port as usize - 1;
            wrongly(before, o, p, before.alarms[p].on);
        }
    };
    let keeps_held: Fault = |before, input, o| {
        if is(input, o, 15, 0) {
            let p = input.port as usize - 1;
            o.tool.alarms[p].held = before.alarms[p].held;
        }
    };
    let refused_held: Fault = |before, input, o| {
        if is(input, o, 15, 0) && alarm(before, input).held == 1 {
            refuse(before, o, 5);
        }
    };
    for (fault, inputs) in [(keeps_alarm, 3), (keeps_held, 4), (refused_held, 4)] {
        let (run, row) = caught_small(fault);
        assert_eq!((row, run.inputs.len()), (15, inputs), "{}", run.script());
    }
}
