//! Wrong judging: by a second, in another order, of others, or too late.

use super::*;

/// PREDICTED and ABORTED one second late, and one early.
#[test]
fn a_second_too_late_or_too_early_is_found() {
    let strictly_near: Fault = |before, input, o| {
        let verdict = |c: &Case| c.judged(c.aborts(), (c.tp as u64) < c.now as u64 + c.setting as u64);
        Judging { verdict, ..RIGHT }.again(before, input, o);
    };
    let too_near: Fault = |before, input, o| {
        let verdict = |c: &Case| c.judged(c.aborts(), c.tp as u64 <= c.now as u64 + c.setting as u64 + 1);
        Judging { verdict, ..RIGHT }.again(before, input, o);
    };
    let strictly_late: Fault = |before, input, o| {
        let verdict = |c: &Case| {
            let timeout = if c.timeout == 0 { 0 } else { c.timeout + 1 };
            Case { timeout, ..*c }.verdict()
        };
        Judging { verdict, ..RIGHT }.again(before, input, o);
    };
    let too_soon: Fault = |before, input, o| {
        let verdict = |c: &Case| {
            let soon = c.timeout != 0 && c.te.unwrap_or(c.now) as u64 + 1 >= c.tp as u64 + c.timeout as u64;
            c.judged(soon, c.near())
        };
        Judging { verdict, ..RIGHT }.again(before, input, o);
    };
    for fault in [strictly_near, too_near, strictly_late, too_soon] {
        let (run, row) = caught_small(fault);
        assert!([31, 32, 33, 35].contains(&row) && run.inputs.len() <= 11, "{}", run.script());
    }
}

/// Abort looked at after PREDICTED; only from PREDICTED; or never where the setting would do.
#[test]
fn abort_that_is_not_first_is_found() {
    let after_predicted: Fault = |before, input, o| {
        let verdict = |c: &Case| c.judged(c.aborts() && !(c.state == 3 && c.near()), c.near());
        Judging { verdict, ..RIGHT }.again(before, input, o);
    };
    let both_at_once: Fault = |_, input, o| {
        if !brings_clock(input) || !o.accepted() {
            return;
        }
        // Through PREDICTED, where one that waits is aborted.
        let own = o.reports.as_slice().iter().position(|r| (r.old, r.new) == (3, 5));
        if let (Some(k), true) = (own.filter(|_| input.number != 34), o.reports.count < 10) {
            o.reports.items.copy_within(k..9, k + 1);
            (o.reports.items[k].new, o.reports.items[k + 1].old) = (4, 4);
            o.reports.count += 1;
        }
    };
    let from_predicted_alone: Fault = |before, input, o| {
        let verdict = |c: &Case| c.judged(c.aborts() && c.state == 4, c.near());
        Judging { verdict, ..RIGHT }.again(before, input, o);
    };
    for fault in [after_predicted, both_at_once, from_predicted_alone] {
        let (run, _) = caught_small(fault);
        assert!(run.inputs.len() <= 11, "{}", run.script());
    }
}

/// A timeout of 0 that aborts: at Tp, or once Tp has passed.
#[test]
fn a_timeout_of_0_that_aborts_is_found() {
    let at_tp: Fault = |before, input, o| {
        let verdict = |c: &Case| {
            let late = c.timeout == 0 && c.te.unwrap_or(c.now) >= c.tp;
            c.judged(late || c.aborts(), c.near())
        };
        Judging { verdict, ..RIGHT }.again(before, input, o);
    };
    let after_tp: Fault = |before, input, o| {
        let verdict = |c: &Case| {
            let late = c.timeout == 0 && c.te.unwrap_or(c.now) > c.tp;
            c.judged(late || c.aborts(), c.near())
        };
        Judging { verdict, ..RIGHT }.again(before, input, o);
    };
    for fault in [at_tp, after_tp] {
        let (run, _) = caught_small(fault);
        assert_eq!(run.setup.timeout, 0, "{}", run.script());
    }
}

/// Sums and differences that wrap at 2^32, or are cut there.
#[test]
fn sums_that_wrap_are_found() {
    let abort_wraps: Fault = |before, input, o| {
        let verdict = |c: &Case| {
            let te = c.te.or((c.now > c.tp).then_some(c.now));
            c.judged(c.timeout != 0 && te >= Some(c.tp.wrapping_add(c.timeout)), c.near())
        };
        Judging { verdict, ..RIGHT }.again(before, input, o);
    };
    let abort_is_cut: Fault = |before, input, o| {
        let verdict = |c: &Case| {
            let te = c.te.unwrap_or(c.now);
            c.judged(c.timeout != 0 && te >= c.tp.saturating_add(c.timeout), c.near())
        };
        Judging { verdict, ..RIGHT }.again(before, input, o);
    };
    let setting_wraps: Fault = |before, input, o| {
        let verdict = |c: &Case| c.judged(c.aborts(), c.tp <= c.now.wrapping_add(c.setting));
        Judging { verdict, ..RIGHT }.again(before, input, o);
    };
    for fault in [abort_wraps, abort_is_cut, setting_wraps] {
        caught_small(fault);
    }
    // Tp before now taken for one far ahead, which is seen without a large number.
    let difference_wraps: Fault = |before, input, o| {
        let verdict = |c: &Case| c.judged(c.aborts(), c.tp.wrapping_sub(c.now) <= c.setting);
        Judging { verdict, ..RIGHT }.again(before, input, o);
    };
    let signed: Fault = |before, input, o| {
        let verdict = |c: &Case| c.judged(c.aborts(), c.tp.wrapping_sub(c.now) as i32 <= c.setting as i32);
        Judging { verdict, ..RIGHT }.again(before, input, o);
    };
    for fault in [difference_wraps, signed] {
        caught(fault);
    }
}

/// Judged from the last record to the first, by port, by name, or the named carrier first.
#[test]
fn another_order_is_found() {
    let backwards: Fault = |before, input, o| {
        Judging { order: |_, all| all.reverse(), ..RIGHT }.again(before, input, o);
    };
    let by_port: Fault = |before, input, o| {
        let order = |tool: &Tool, all: &mut Vec<usize>| all.sort_by_key(|&i| tool.base.carrier[i].port);
        Judging { order, ..RIGHT }.again(before, input, o);
    };
    let by_name: Fault = |before, input, o| {
        let order = |tool: &Tool, all: &mut Vec<usize>| all.sort_by_key(|&i| tool.base.carrier[i].name);
        Judging { order, ..RIGHT }.again(before, input, o);
    };
    for fault in [backwards, by_port, by_name] {
        let (run, row) = caught(fault);
        assert!((31..=35).contains(&row) && run.setup.ports >= 2, "{}", run.script());
    }
}

/// 25 and 29 that are left to the next input, or told after all that are judged.
#[test]
fn a_completion_that_comes_later_is_found() {
    let next_input: Fault = |before, input, o| {
        Judging { ready: |_, _| false, ..RIGHT }.again(before, input, o);
    };
    let only_25: Fault = |before, input, o| {
        let ready = |tool: &Tool, i: usize| ready(tool, i) && tool.predictions.of[i].state == 4;
        Judging { ready, ..RIGHT }.again(before, input, o);
    };
    let only_29: Fault = |before, input, o| {
        let ready = |tool: &Tool, i: usize| ready(tool, i) && tool.predictions.of[i].state == 5;
        Judging { ready, ..RIGHT }.again(before, input, o);
    };
    for fault in [next_input, only_25, only_29] {
        let (run, row) = caught_small(fault);
        assert!((31..=35).contains(&row), "{}", run.script());
    }
    let at_the_end: Fault = |before, input, o| {
        Judging { ready: |_, _| false, ..RIGHT }.again(before, input, o);
        if brings_clock(input) && o.accepted() {
            for i in 0..before.base.count as usize {
                if matches!(o.tool.predictions.of[i].state, 4 | 5) && ready(&o.tool, i) {
                    tell(o, i, 6);
                }
            }
        }
    };
    let (run, _) = caught(at_the_end);
    assert!(run.setup.ports >= 2, "{}", run.script());
}

/// Only the carrier that is named is judged; or only after the clock alone.
#[test]
fn judging_of_too_few_is_found() {
    let the_named_alone: Fault = |before, input, o| {
        let Some(own) = named(before, input).filter(|_| input.number != 31) else { return };
        Judging { order: |_, all| all.clear(), ..RIGHT }.again(before, input, o);
        let mut whole = o.clone();
        RIGHT.again(before, input, &mut whole);
        if brings_clock(input) && o.accepted() {
            let name = before.base.carrier[own].name;
            let own_turns = whole.reports.as_slice().iter().filter(|r| r.name == name);
            for r in own_turns.skip(o.reports.count as usize) {
                tell(o, own, r.new);
            }
        }
    };
    let by_the_clock_alone: Fault = |before, input, o| {
        if input.number != 31 {
            Judging { order: |_, all| all.clear(), ..RIGHT }.again(before, input, o);
        }
    };
    for fault in [the_named_alone, by_the_clock_alone] {
        caught(fault);
    }
}

/// Te that is now although one is given, and now that counts for Te before Tp has passed.
#[test]
fn another_te_is_found() {
    let always_now: Fault = |before, input, o| {
        let verdict = |c: &Case| Case { te: None, ..*c }.verdict();
        Judging { verdict, ..RIGHT }.again(before, input, o);
    };
    let the_later: Fault = |before, input, o| {
        let verdict = |c: &Case| Case { te: c.te.map(|te| te.max(c.now)), ..*c }.verdict();
        Judging { verdict, ..RIGHT }.again(before, input, o);
    };
    let given_alone: Fault = |before, input, o| {
        let verdict = |c: &Case| c.judged(c.te.is_some() && c.aborts(), c.near());
        Judging { verdict, ..RIGHT }.again(before, input, o);
    };
    for fault in [always_now, the_later, given_alone] {
        caught_small(fault);
    }
}
