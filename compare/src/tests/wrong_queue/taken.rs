//! OutStart and OutDone.

use super::*;

#[test]
fn another_request_that_is_taken_is_found() {
    let youngest: Fault = |before, input, o| {
        if is(input, o, 27, 0) {
            let all = before.queue.requests();
            take(before, o, all.iter().rposition(|r| there(r, input) && ready(before, r)));
        }
    };
    let of_any_port: Fault = |before, input, o| {
        if is(input, o, 27, 0) {
            let all = before.queue.requests();
            take(before, o, all.iter().position(|r| r.started == 0 && ready(before, r)));
        }
    };
    let open_or_in_access: Fault = |before, input, o| {
        if is(input, o, 27, 0) {
            take(before, o, before.queue.requests().iter().position(|r| there(r, input)));
        }
    };
    let none_behind: Fault = |before, input, o| {
        let oldest = before.queue.requests().iter().find(|r| there(r, input));
        if is(input, o, 27, 0) && oldest.is_some_and(|r| !ready(before, r)) {
            refuse(before, o, 5);
        }
    };
    for fault in [youngest, of_any_port, open_or_in_access, none_behind] {
        let (run, row) = caught_small(fault);
        assert_eq!(row, 27, "{}", run.script());
        // Two carriers come, are asked for, and perhaps one is opened.
        assert!(run.inputs.len() <= 16, "{}", run.script());
    }
}

/// A request for another port, where there is none for this one.
#[test]
fn a_start_with_nothing_to_take_is_found() {
    let (run, row) = caught_small(|before, input, o| {
        let free = port(before, input).is_some_and(|p| p.transfer == 1 && p.reserved == 0 && !p.tied());
        let all = before.queue.requests();
        let other = all.iter().position(|r| r.started == 0 && ready(before, r) && !there(r, input));
        if is(input, o, 27, 5) && free && other.is_some() {
            o.answer = 0;
            take(before, o, other);
            o.tool.base.port[input.port as usize - 1].reserved = 1;
        }
    });
    assert_eq!((row, run.setup.ports), (27, 2), "{}", run.script());
}

/// OutDone that keeps the reservation, keeps the entry, turns came-out off, or takes the youngest away.
#[test]
fn a_wrong_out_done_is_found() {
    let keeps_reservation: Fault = |_, input, o| {
        if is(input, o, 28, 0) {
            o.tool.base.port[input.port as usize - 1].reserved = 1;
        }
    };
    let keeps_entry: Fault = |before, input, o| {
        if is(input, o, 28, 0) {
            o.tool.queue = before.queue;
        }
    };
    let stays_in: Fault = |before, input, o| {
        if is(input, o, 28, 0) {
            let started = before.queue.requests().iter().find(|r| r.started == 1 && there(r, input)).unwrap();
            o.tool.base.carrier.iter_mut().find(|c| c.name == started.name).unwrap().came_out = 0;
        }
    };
    let frees_the_oldest: Fault = |before, input, o| {
        if is(input, o, 28, 0) {
            o.tool.queue = queue(before.queue.requests().iter().copied().skip(1));
        }
    };
    let swaps: Fault = |before, input, o| {
        if is(input, o, 28, 0) {
            let mut all = before.queue.requests().to_vec();
            let k = all.iter().position(|r| r.started == 1 && there(r, input)).unwrap();
            all.swap_remove(k);
            o.tool.queue = queue(all);
        }
    };
    for fault in [keeps_reservation, keeps_entry, stays_in, frees_the_oldest, swaps] {
        let (run, row) = caught_small(fault);
        assert_eq!(row, 28, "{}", run.script());
    }
}

/// OutDone on a reservation of the host's, for the oldest request there.
#[test]
fn an_out_done_of_one_that_waits_is_found() {
    let (run, row) = caught(|before, input, o| {
        let all = before.queue.requests();
        let oldest = all.iter().position(|r| there(r, input) && ready(before, r));
        let reserved = port(before, input).is_some_and(|p| p.reserved == 1 && p.transfer == 1 && !p.tied());
        if let (true, Some(k), true) = (is(input, o, 28, 5), oldest, reserved) {
            let mut tool = *before;
            tool.queue.request[k].started = 1;
            o.answer = Independent.step(&mut tool, input, &mut o.reports);
            o.tool = tool;
        }
    });
    assert_eq!((row, run.inputs.len() <= 8), (28, true), "{}", run.script());
}

/// OutStart that has 5 before 4, or forgets a reservation of the host's.
#[test]
fn a_wrong_out_start_is_found() {
    let five_first: Fault = |before, input, o| {
        let takes = before.queue.requests().iter().any(|r| there(r, input) && ready(before, r));
        o.answer = if is(input, o, 27, 4) && !takes { 5 } else { o.answer };
    };
    let over_the_host: Fault = |before, input, o| {
        let free = port(before, input).is_some_and(|p| p.transfer == 1 && !p.tied());
        let begun = before.queue.requests().iter().any(|r| there(r, input) && r.started == 1);
        if is(input, o, 27, 4) && free && !begun {
            let mut tool = *before;
            tool.base.port[input.port as usize - 1].reserved = 0;
            let answer = Independent.step(&mut tool, input, &mut o.reports);
            if answer == 0 {
                (o.answer, o.tool, o.reports) = (0, tool, Reports::NONE);
            }
        }
    };
    for fault in [five_first, over_the_host] {
        let (run, row) = caught_small(fault);
        assert_eq!((row, run.inputs.len() <= 9), (27, true), "{}", run.script());
    }
}

/// Only states that no run reaches have a carrier that is closed and in access.
#[test]
fn one_in_access_that_is_taken_is_found_from_states() {
    let faulty = Faulty(|before, input, o| {
        let closed = |r: &Request| before.base.carriers().iter().any(|c| c.name == r.name && c.open == 0);
        if is(input, o, 27, 0) {
            take(before, o, before.queue.requests().iter().position(|r| there(r, input) && closed(r)));
        }
    });
    let both = Both { proved: &faulty, independent: &Independent };
    let finding = states::compare(&both, 100_000, &mut Rng::new(5)).err().expect("a finding");
    let told = tell(&both, &finding);
    assert!(told.contains("\nin 27 ") && !told.contains("setup"), "{told}");
    assert_eq!((told.matches("  record ").count(), told.matches("  out ").count()), (2, 2), "{told}");
    assert!(told.contains(" started: proved 1, independent 0"), "{told}");
}
