//! Where the alarm clears, and where it does not.

use super::*;

/// An alarm that stays where the port becomes READY TO LOAD: after UnloadDone, and after MoveIn.
#[test]
fn an_alarm_at_ready_to_load_is_found() {
    fn keeps(before: &Tool, input: &Input, o: &mut Outcome, row: u32) {
        if is(input, o, row, 0) {
            let p = input.port as usize - 1;
            wrongly(before, o, p, before.alarms[p].on);
        }
    }
    let unload_done: Fault = |before, input, o| keeps(before, input, o, 25);
    let move_in: Fault = |before, input, o| keeps(before, input, o, 18);
    for (fault, last, most) in [(unload_done, 25, 7), (move_in, 18, 13)] {
        let (run, row) = caught_small(fault);
        assert_eq!((row, run.inputs.len() <= most), (last, true), "{}", run.script());
    }
}

/// Service in that leaves it on: only states have a port that went out with its alarm on.
#[test]
fn service_in_that_keeps_the_alarm_is_found_from_states() {
    let faulty = Faulty(|before: &Tool, input: &Input, o: &mut Outcome| {
        if is(input, o, 10, 0) {
            let p = input.port as usize - 1;
            wrongly(before, o, p, before.alarms[p].on);
        }
    });
    let both = Both { proved: &faulty, independent: &Independent };
    assert!(matches!(alarmed::compare(&both), Err(Finding::State(..))));
    let finding = states::compare(&both, 100_000, &mut Rng::new(5)).err().expect("a finding");
    let told = tell(&both, &finding);
    assert!(told.contains("\nin 10 ") && told.contains(" alarm: proved 1, independent 0"), "{told}");
}

/// UnloadFail that clears it, at READY TO UNLOAD; and so ChangeAccess, CarrierIn and CancelCarrier.
#[test]
fn an_alarm_cleared_too_early_is_found() {
    fn clears(before: &Tool, o: &mut Outcome, p: usize) {
        if before.alarms[p].on == 1 {
            wrongly(before, o, p, 0);
        }
    }
    let unload_fail: Fault = |before, input, o| {
        if is(input, o, 26, 0) {
            clears(before, o, input.port as usize - 1);
        }
    };
    let change_access: Fault = |before, input, o| {
        if is(input, o, 9, 0) && input.value == 0 {
            clears(before, o, input.port as usize - 1);
        }
    };
    let unblocked: Fault = |before, input, o| {
        let changed = before.base.port.iter().zip(&o.tool.base.port).position(|(was, is)| was != is);
        if let Some(p) = changed.filter(|_| is(input, o, 8, 0) || is(input, o, 6, 0)) {
            clears(before, o, p);
        }
    };
    let cases: [(Fault, &[u32]); 3] = [(unload_fail, &[26]), (change_access, &[9]), (unblocked, &[6, 8])];
    for (fault, last) in cases {
        let (run, row) = caught_small(fault);
        assert!(last.contains(&row) && run.inputs.len() <= 13, "{}", run.script());
    }
}

/// All alarms clear where one does, or the lowest port's.
#[test]
fn another_alarm_that_clears_is_found() {
    let all: Fault = |before, _, o| {
        if o.tool.alarms.iter().map(|a| a.on).sum::<u8>() < before.alarms.iter().map(|a| a.on).sum() {
            o.tool.alarms = [Alarm::NONE; 4];
        }
    };
    let lowest: Fault = |before, input, o| {
        let p = before.alarms.iter().position(|alarm| alarm.on == 1);
        if let Some(p) = p.filter(|_| is(input, o, 25, 0) && o.tool.alarms != before.alarms) {
            o.tool.alarms = before.alarms;
            o.tool.alarms[p] = Alarm::NONE;
        }
    };
    for fault in [all, lowest] {
        let (run, _) = caught_small(fault);
        assert_eq!(run.setup.ports, 2, "{}", run.script());
    }
}
