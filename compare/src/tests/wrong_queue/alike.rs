//! Two programs that are wrong alike; and what the parts meet.

use super::*;

fn along_runs(both: &Both, rng: &mut Rng) -> Result<(), Finding> {
    runs::compare(both, 50_000, rng).map(drop)
}

fn edges(both: &Both, _: &mut Rng) -> Result<(), Finding> {
    out::compare(both).map(drop)
}

/// Two programs that are wrong alike, and P5 says otherwise.
#[test]
fn both_wrong_alike_about_the_queue_is_against_the_documents() {
    let youngest: Fault = |before, input, o| {
        if is(input, o, 27, 0) {
            let all = before.queue.requests();
            take(before, o, all.iter().rposition(|r| there(r, input) && ready(before, r)));
        }
    };
    assert!(against(youngest, along_runs).starts_with("after row 27 the queue is [Request"));
    let let_in: Fault = |before, input, o| {
        if is(input, o, 13, 4) {
            let_in(before, input, o);
        }
    };
    assert_eq!(against(let_in, along_runs), "row 13 is answered 4 until OutDone");
    let reported: Fault = |_, input, o| o.reports.count += is(input, o, 29, 0) as u8;
    assert_eq!(against(reported, along_runs), "row 29 reports none");
    let wants_one: Fault = |before, input, o| {
        if is(input, o, 30, 0) && before.queue.count == 0 {
            refuse(before, o, 1);
        }
    };
    assert_eq!(against(wants_one, along_runs), "CancelAllCarrierOut is accepted by every sound tool");
}

/// The same of refusals, where P5's edges show them.
#[test]
fn both_wrong_alike_about_a_refusal_is_against_the_documents() {
    let ten_first: Fault = |_, input, o| o.answer = if is(input, o, 7, 9) { 10 } else { o.answer };
    assert_eq!(against(ten_first, edges), "9 comes before 10");
    let fifteen: Fault = |before, input, o| {
        if is(input, o, 7, 0) && before.queue.count == 15 {
            refuse(before, o, 9);
        }
    };
    assert_eq!(against(fifteen, edges), "9 is given where 16 requests are queued");
    let another: Fault = |before, input, o| {
        if is(input, o, 7, 0) && before.queue.count == 1 {
            refuse(before, o, 10);
        }
    };
    assert_eq!(against(another, edges), "10 is given where the carrier is queued already");
    let four: Fault = |before, input, o| {
        if is(input, o, 7, 0) && port(before, input).is_some_and(|p| p.reserved == 1) {
            refuse(before, o, 4);
        }
    };
    assert_eq!(against(four, edges), "row 7 has no answer 4");
    let five_first: Fault = |before, input, o| {
        let takes = before.queue.requests().iter().any(|r| there(r, input));
        o.answer = if is(input, o, 27, 4) && !takes { 5 } else { o.answer };
    };
    assert_eq!(against(five_first, edges), "the last input is answered 4, not 5");
}

/// All that may befall a queue does so along runs and from states; P5's edges meet all answers of its rows.
#[test]
fn what_befalls_queues_is_counted() {
    let both = Both { proved: &Independent, independent: &Independent };
    let mut rng = Rng::new(5);
    let unmet = |tally: Result<Tally, Finding>| tally.expect("no finding").befallen.unmet();
    assert_eq!(unmet(runs::compare(&both, 100_000, &mut rng)), [""; 0]);
    assert_eq!(unmet(states::compare(&both, 100_000, &mut rng)), [""; 0]);
    assert_eq!(unmet(twelve::compare(&both)).len(), independent::gen::requests::BEFALLS.len());
    let edges = out::compare(&both).expect("no finding");
    let missing: Vec<_> =
        edges.pairs.missing().into_iter().filter(|(row, _)| [7, 27, 28, 29, 30].contains(row)).collect();
    assert_eq!((missing, edges.befallen.unmet()), (vec![], vec![]));
}
