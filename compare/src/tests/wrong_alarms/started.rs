//! Starts by hand and by vehicle.

use super::*;

/// An alarm that is raised in MANUAL, by an automatic start, or not at all.
#[test]
fn an_alarm_raised_wrongly_is_found() {
    let in_manual: Fault = |before, input, o| {
        if starts(input, o, 0) && input.value == 0 {
            wrongly(before, o, input.port as usize - 1, 1);
        }
    };
    let by_vehicle: Fault = |before, input, o| {
        let p = at(before, input);
        if let Some(p) = p.filter(|&p| starts(input, o, 0) && before.base.port[p].access == 1) {
            wrongly(before, o, p, 1);
        }
    };
    let never: Fault = |before, input, o| {
        if starts(input, o, 0) {
            let p = input.port as usize - 1;
            wrongly(before, o, p, before.alarms[p].on);
        }
    };
    for (fault, inputs) in [(in_manual, 1), (by_vehicle, 2), (never, 2)] {
        let (run, row) = caught_small(fault);
        assert!([13, 24].contains(&row) && run.inputs.len() == inputs, "{}", run.script());
    }
}

/// The same of unloads alone, which take a pod at the port first.
#[test]
fn an_alarm_raised_wrongly_at_an_unload_is_found() {
    let in_manual: Fault = |before, input, o| {
        if is(input, o, 24, 0) && input.value == 0 {
            wrongly(before, o, input.port as usize - 1, 1);
        }
    };
    let never: Fault = |before, input, o| {
        if is(input, o, 24, 0) {
            let p = input.port as usize - 1;
            wrongly(before, o, p, before.alarms[p].on);
        }
    };
    for fault in [in_manual, never] {
        let (run, row) = caught_small(fault);
        // A carrier comes and is cancelled, or goes inside and comes out again.
        assert_eq!((row, run.inputs.len() <= 10), (24, true), "{}", run.script());
    }
}

/// An alarm that is raised at another port.
#[test]
fn an_alarm_of_another_port_is_found() {
    let (run, _) = caught(|before, input, o| {
        if starts(input, o, 0) && o.tool.alarms != before.alarms {
            let (own, other) = (input.port as usize - 1, input.port as usize % before.base.ports as usize);
            (o.tool.alarms[own], o.tool.alarms[other].on) = (before.alarms[own], 1);
        }
    });
    assert_eq!((run.setup.ports, run.inputs.len()), (2, 2), "{}", run.script());
}

/// A manual start with the alarm on already that is told again; an automatic one that turns it off.
#[test]
fn a_second_start_that_tells_of_the_alarm_is_found() {
    let again: Fault = |before, input, o| {
        if is(input, o, 24, 0) && input.value == 0 && alarm(before, input).on == 1 {
            let count = o.reports.count as usize;
            o.reports.items[count] =
                Report { model: 9, port: input.port as u8, old: 1, new: 1, ..Report::UNUSED };
            o.reports.count += 1;
        }
    };
    let off: Fault = |before, input, o| {
        if is(input, o, 24, 0) && input.value == 1 && alarm(before, input).on == 1 {
            wrongly(before, o, input.port as usize - 1, 0);
        }
    };
    let off_in_manual: Fault = |before, input, o| {
        let p = at(before, input);
        if let Some(p) = p.filter(|&p| is(input, o, 24, 0) && before.base.port[p].access == 0) {
            wrongly(before, o, p, 0);
        }
    };
    for fault in [again, off, off_in_manual] {
        let (run, row) = caught_small(fault);
        assert_eq!((row, run.inputs.len() <= 9), (24, true), "{}", run.script());
    }
}

/// An automatic start that is let in in MANUAL, at either row; with an alarm, or without.
#[test]
fn an_automatic_start_let_in_is_found() {
    let load: Fault = |before, input, o| {
        if is(input, o, 13, 13) {
            instead(before, o, &Input { value: 0, ..input.clone() });
        }
    };
    let unload: Fault = |before, input, o| {
        if is(input, o, 24, 13) {
            instead(before, o, &Input { value: 0, ..input.clone() });
        }
    };
    let alarmed: Fault = |before, input, o| {
        if starts(input, o, 13) {
            instead(before, o, &Input { value: 0, ..input.clone() });
            wrongly(before, o, input.port as usize - 1, 1);
        }
    };
    for (fault, inputs) in [(load, 1), (unload, 10), (alarmed, 1)] {
        let (run, row) = caught_small(fault);
        assert!([13, 24].contains(&row) && run.inputs.len() <= inputs, "{}", run.script());
        assert_eq!(run.inputs.last().map(|input| input.value), Some(1));
    }
}

/// A manual start that is refused in AUTO, as an automatic one is in MANUAL.
#[test]
fn a_manual_start_refused_is_found() {
    let (run, row) = caught_small(|before, input, o| {
        let in_auto = at(before, input).is_some_and(|p| before.base.port[p].access == 1);
        if starts(input, o, 0) && input.value == 0 && in_auto {
            refuse(before, o, 13);
        }
    });
    assert_eq!((row, run.inputs.len()), (13, 2), "{}", run.script());
}

/// 13 before 5, before 4 and before 1.
#[test]
fn thirteen_before_others_is_found() {
    fn first(before: &Tool, input: &Input, o: &mut Outcome, answer: u32) {
        let manual = at(before, input).is_none_or(|p| before.base.port[p].access == 0);
        if starts(input, o, answer) && input.value == 1 && manual {
            o.answer = 13;
        }
    }
    let before_one: Fault = |before, input, o| first(before, input, o, 1);
    let before_four: Fault = |before, input, o| first(before, input, o, 4);
    let before_five: Fault = |before, input, o| first(before, input, o, 5);
    for (fault, small) in [(before_one, false), (before_four, true), (before_five, true)] {
        let (run, row) = if small { caught_small(fault) } else { caught(fault) };
        assert!([13, 24].contains(&row) && run.inputs.len() <= 8, "{}", run.script());
    }
}

/// Other numbers than 0 and 1: all that aren't 0 are automatic, only the lowest byte counts, or none is looked at.
#[test]
fn a_start_that_is_neither_is_found() {
    let not_manual: Fault = |before, input, o| {
        if starts(input, o, 1) && input.value > 1 {
            instead(before, o, &Input { value: 1, ..input.clone() });
        }
    };
    let not_automatic: Fault = |before, input, o| {
        if starts(input, o, 1) && input.value > 1 {
            instead(before, o, &Input { value: 0, ..input.clone() });
        }
    };
    let cut: Fault = |before, input, o| {
        if starts(input, o, 1) && input.value > 255 {
            instead(before, o, &Input { value: input.value & 0xFF, ..input.clone() });
        }
    };
    let after_four: Fault = |before, input, o| {
        let begun = before.queue.requests().iter().any(|r| r.started == 1 && r.port as u32 == input.port);
        o.answer = if is(input, o, 13, 1) && begun { 4 } else { o.answer };
    };
    for fault in [not_manual, not_automatic, cut, after_four] {
        let (run, row) = caught(fault);
        assert!([13, 24].contains(&row) && run.inputs.len() <= 8, "{}", run.script());
    }
}

/// The alarm is told before the reservation, or not at all.
#[test]
fn an_alarm_told_wrongly_is_found() {
    let first: Fault = |_, input, o| {
        let count = o.reports.count as usize;
        if starts(input, o, 0) && o.reports.items[count - 1].model == 9 {
            o.reports.items[..count].rotate_right(1);
        }
    };
    let not: Fault = |_, _, o| {
        let kept: Vec<Report> = o.reports.as_slice().iter().copied().filter(|r| r.model != 9).collect();
        o.reports = Reports::NONE;
        o.reports.items[..kept.len()].copy_from_slice(&kept);
        o.reports.count = kept.len() as u8;
    };
    let by_name: Fault = |_, _, o| {
        o.reports.items.iter_mut().filter(|r| r.model == 9).for_each(|r| r.name[0] = b'A');
    };
    let as_model_8: Fault = |_, _, o| {
        o.reports.items.iter_mut().filter(|r| r.model == 9).for_each(|r| r.model = 8);
    };
    for fault in [first, not, by_name, as_model_8] {
        let (run, row) = caught_small(fault);
        assert_eq!((row, run.inputs.len()), (13, 2), "{}", run.script());
    }
}
