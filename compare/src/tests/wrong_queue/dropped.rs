//! What drops a request, and what does not.

use super::*;

#[test]
fn a_started_one_that_is_dropped_is_found() {
    let by_all: Fault = |_, input, o| {
        if is(input, o, 30, 0) {
            o.tool.queue = Queue::EMPTY;
        }
    };
    let by_cancel_carrier: Fault = |before, input, o| {
        if is(input, o, 6, 0) {
            o.tool.queue = those(before, |r| !own(r, input));
        }
    };
    let by_cancel_carrier_out: Fault = |before, input, o| {
        if is(input, o, 29, 5) && before.queue.requests().iter().any(|r| own(r, input)) {
            o.answer = 0;
            o.tool.queue = those(before, |r| !own(r, input));
        }
    };
    for (fault, last) in [(by_all, 30), (by_cancel_carrier, 6), (by_cancel_carrier_out, 29)] {
        let (run, row) = caught_small(fault);
        assert_eq!((row, run.inputs.len() <= 8), (last, true), "{}", run.script());
    }
}

/// CancelCarrier leaves the request, or drops those of others, or drops it where it is refused.
#[test]
fn a_wrong_cancel_carrier_is_found() {
    let leaves: Fault = |before, input, o| {
        if is(input, o, 6, 0) {
            o.tool.queue = before.queue;
        }
    };
    let drops_all: Fault = |before, input, o| {
        if is(input, o, 6, 0) && before.queue.requests().iter().any(|r| own(r, input)) {
            o.tool.queue = those(before, |r| r.started == 1);
        }
    };
    let drops_though_refused: Fault = |before, input, o| {
        if is(input, o, 6, 5) {
            o.tool.queue = those(before, |r| r.started == 1 || !own(r, input));
        }
    };
    for fault in [leaves, drops_all, drops_though_refused] {
        let (run, row) = caught(fault);
        assert_eq!(row, 6, "{}", run.script());
    }
}

/// CancelCarrierOut asks for a record, or doesn't drop blanks; CancelAllCarrierOut wants something to drop, or a port.
#[test]
fn wrong_cancels_are_found() {
    let asks_for_a_record: Fault = |before, input, o| {
        let known = before
            .base
            .carriers()
            .iter()
            .any(|c| independent::gen::unpadded(&c.name) == shortened(&input.name));
        o.answer = if is(input, o, 29, 5) && !known { 2 } else { o.answer };
    };
    let keeps_blanks: Fault = |before, input, o| {
        if is(input, o, 29, 0) && input.name.ends_with(b" ") {
            refuse(before, o, 5);
        }
    };
    let wants_one: Fault = |before, input, o| {
        if is(input, o, 30, 0) && before.queue.requests().iter().all(|r| r.started == 1) {
            refuse(before, o, 5);
        }
    };
    let looks_at_the_port: Fault = |before, input, o| {
        if is(input, o, 30, 0) && port(before, input).is_none() {
            refuse(before, o, 1);
        }
    };
    for (fault, last) in
        [(asks_for_a_record, 29), (keeps_blanks, 29), (wants_one, 30), (looks_at_the_port, 30)]
    {
        let (run, row) = caught(fault);
        assert_eq!((row, run.inputs.len() <= 8), (last, true), "{}", run.script());
    }
}

/// A CancelCarrier that comes as a message drops the request, too.
#[test]
fn a_message_that_leaves_the_request_is_found() {
    struct Leaves;

    impl Wrong for Leaves {
        fn secs(&self, tool: &mut Tool, message: &[u8], reports: &mut Reports) -> Heard {
            let queue = tool.queue;
            let heard = Independent.secs(tool, message, reports);
            tool.queue = queue;
            heard
        }
    }

    let both = Both { proved: &Leaves, independent: &Independent };
    let finding = messages::compare(&both, 20_000, &mut Rng::new(5)).err().expect("a finding");
    let told = tell(&both, &finding);
    assert!(told.contains("\nsecs ") && told.contains("requests: proved 1, independent 0"), "{told}");
}
