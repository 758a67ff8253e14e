//! CarrierOut, and how much the queue holds.

use super::*;

/// A carrier that is queued twice: to any port, or to another.
#[test]
fn a_carrier_queued_twice_is_found() {
    fn push(before: &Tool, input: &Input, o: &mut Outcome) {
        let own = *before.queue.requests().iter().find(|r| own(r, input)).unwrap();
        let again = Request { port: input.port as u8, started: 0, ..own };
        o.answer = 0;
        o.tool.queue = queue(before.queue.requests().iter().copied().chain([again]));
    }
    let to_any: Fault = |before, input, o| {
        if is(input, o, 7, 10) {
            push(before, input, o);
        }
    };
    let to_another: Fault = |before, input, o| {
        if is(input, o, 7, 10) && !before.queue.requests().iter().any(|r| own(r, input) && there(r, input)) {
            push(before, input, o);
        }
    };
    let after_started: Fault = |before, input, o| {
        if is(input, o, 7, 10) && before.queue.requests().iter().any(|r| own(r, input) && r.started == 1) {
            push(before, input, o);
        }
    };
    for fault in [to_any, to_another, after_started] {
        let (run, row) = caught_small(fault);
        assert_eq!((row, run.inputs.len() <= 9), (7, true), "{}", run.script());
    }
}

/// 10 before 9, and a queue that is full with fifteen: only a queue that is nearly full shows either.
#[test]
fn wrong_limits_of_the_queue_are_found() {
    let ten_first: Fault = |_, input, o| {
        o.answer = if is(input, o, 7, 9) { 10 } else { o.answer };
    };
    let fifteen: Fault = |before, input, o| {
        if input.number == 7 && [0, 10].contains(&o.answer) && before.queue.count == 15 {
            refuse(before, o, 9);
        }
    };
    let nine_before_five: Fault = |before, input, o| {
        if is(input, o, 7, 5) && before.queue.count == 16 {
            o.answer = 9;
        }
    };
    for fault in [ten_first, fifteen, nine_before_five] {
        let faulty = Faulty(fault);
        let both = Both { proved: &faulty, independent: &Independent };
        assert!(matches!(out::compare(&both), Err(Finding::Run(_))));
        let run = runs::compare(&both, 100_000, &mut Rng::new(5));
        assert!(matches!(run, Err(Finding::Run(_))), "not found along runs");
    }
}

/// Row 7 asks for what it asked before P5, or for less than it should.
#[test]
fn a_wrong_carrier_out_is_found() {
    let port_is_held: Fault = |before, input, o| {
        if is(input, o, 7, 0) && port(before, input).is_some_and(|p| p.reserved == 1 || p.tied()) {
            refuse(before, o, 4);
        }
    };
    let port_is_busy: Fault = |before, input, o| {
        if is(input, o, 7, 0) && port(before, input).is_some_and(|p| p.transfer != 1) {
            refuse(before, o, 5);
        }
    };
    let carrier_is_open: Fault = |before, input, o| {
        let asked = &o.tool.queue.request[before.queue.count as usize % 16];
        if is(input, o, 7, 0) && !ready(before, asked) {
            refuse(before, o, 5);
        }
    };
    let at_once: Fault = |before, input, o| {
        if is(input, o, 7, 0) && before.queue.count == 0 {
            let start = Input { number: 27, ..input.clone() };
            let mut reports = Reports::NONE;
            Independent.step(&mut o.tool, &start, &mut reports);
            o.reports = reports;
        }
    };
    let in_front: Fault = |before, input, o| {
        if is(input, o, 7, 0) {
            o.tool.queue.request[..=before.queue.count as usize].rotate_right(1);
        }
    };
    for fault in [port_is_held, port_is_busy, carrier_is_open, at_once, in_front] {
        let (run, row) = caught_small(fault);
        assert_eq!((row, run.inputs.len() <= 13), (7, true), "{}", run.script());
    }
}

/// A report of the queue, where nothing is reported; and a tie of OutDone's that is reported before its reservation.
#[test]
fn a_queue_that_is_reported_is_found() {
    let reported: Fault = |_, input, o| {
        if is(input, o, 7, 0) {
            o.reports.items[0] = Report { model: 8, port: input.port as u8, new: 1, ..Report::UNUSED };
            o.reports.count = 1;
        }
    };
    let in_another_order: Fault = |_, input, o| {
        if is(input, o, 28, 0) {
            o.reports.items.swap(1, 2);
        }
    };
    for (fault, last) in [(reported, 7), (in_another_order, 28)] {
        let (run, row) = caught_small(fault);
        assert_eq!((row, run.inputs.len() <= 8), (last, true), "{}", run.script());
    }
}

/// The queue is shown as the command line shows it, with no more requests than it takes.
#[test]
fn a_state_is_shown_with_its_requests() {
    let faulty = Faulty(|_, input, o| o.answer = if is(input, o, 7, 9) { 10 } else { o.answer });
    let both = Both { proved: &faulty, independent: &Independent };
    let finding = states::compare(&both, 100_000, &mut Rng::new(5)).err().expect("a finding");
    let told = tell(&both, &finding);
    assert_eq!(told.matches("  out ").count(), 16, "{told}");
    assert!(told.contains("(request 16)\n") && told.contains("proved       10 0 []\n"), "{told}");
}
