//! What a request holds, from OutStart to OutDone.

use super::*;

/// LoadStart and CancelReservationAtPort at a started port, and Open on a started carrier.
#[test]
fn what_is_let_in_before_out_done_is_found() {
    let load_start: Fault = |before, input, o| {
        if is(input, o, 13, 4) {
            let_in(before, input, o);
        }
    };
    let cancel_reservation: Fault = |before, input, o| {
        if is(input, o, 12, 4) {
            let_in(before, input, o);
        }
    };
    let open: Fault = |before, input, o| {
        let started = before.queue.requests().iter().any(|r| r.started == 1 && own(r, input));
        if is(input, o, 19, 5) && started {
            let_in(before, input, o);
        }
    };
    for (fault, last) in [(load_start, 13), (cancel_reservation, 12), (open, 19)] {
        let (run, row) = caught_small(fault);
        assert_eq!((row, run.inputs.len() <= 9), (last, true), "{}", run.script());
    }
}

/// Another number, where a started request refuses: 5 for a port, and 7 for a carrier.
#[test]
fn another_refusal_before_out_done_is_found() {
    let load_start: Fault = |_, input, o| {
        o.answer = if is(input, o, 13, 4) { 5 } else { o.answer };
    };
    let cancel_reservation: Fault = |before, input, o| {
        let untied = port(before, input).is_some_and(|p| !p.tied());
        o.answer = if is(input, o, 12, 4) && untied { 5 } else { o.answer };
    };
    let open: Fault = |before, input, o| {
        let started = before.queue.requests().iter().any(|r| r.started == 1 && own(r, input));
        if is(input, o, 19, 5) && started {
            let_in(before, input, o);
            let answer = if o.answer > 5 { o.answer } else { 5 };
            refuse(before, o, answer);
        }
    };
    for (fault, last) in [(load_start, 13), (cancel_reservation, 12), (open, 19)] {
        let (run, row) = caught_small(fault);
        assert_eq!(row, last, "{}", run.script());
    }
}

/// A request that only waits holds neither its port nor its carrier.
#[test]
fn a_request_that_holds_too_early_is_found() {
    let port: Fault = |before, input, o| {
        if is(input, o, 13, 0) && before.queue.requests().iter().any(|r| there(r, input)) {
            refuse(before, o, 4);
        }
    };
    let carrier: Fault = |before, input, o| {
        if is(input, o, 19, 0) && before.queue.requests().iter().any(|r| own(r, input)) {
            refuse(before, o, 5);
        }
    };
    for (fault, last) in [(port, 13), (carrier, 19)] {
        let (run, row) = caught_small(fault);
        assert_eq!((row, run.inputs.len() <= 8), (last, true), "{}", run.script());
    }
}
