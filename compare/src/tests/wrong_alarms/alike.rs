//! Two programs that are wrong alike about alarms; and what the parts meet.

use super::*;

fn along_runs(both: &Both, rng: &mut Rng) -> Result<(), Finding> {
    runs::compare(both, 50_000, rng).map(drop)
}

fn edges(both: &Both, _: &mut Rng) -> Result<(), Finding> {
    alarmed::compare(both).map(drop)
}

/// Two programs that let in alike what P9 refuses.
#[test]
fn both_wrong_alike_about_what_is_let_in_is_against_the_documents() {
    let automatic: Fault = |before, input, o| {
        if starts(input, o, 13) {
            instead(before, o, &Input { value: 0, ..input.clone() });
        }
    };
    let neither: Fault = |before, input, o| {
        if starts(input, o, 1) && input.value > 1 {
            instead(before, o, &Input { value: 0, ..input.clone() });
        }
    };
    let twice: Fault = |before, input, o| {
        if is(input, o, 14, 5) && alarm(before, input).held == 1 {
            o.answer = 0;
        }
    };
    let nothing_held: Fault = |_, input, o| o.answer = if is(input, o, 36, 5) { 0 } else { o.answer };
    for (fault, why) in [
        (automatic, "an automatic start in MANUAL is answered 13"),
        (neither, "a start that is neither manual nor automatic is answered 1"),
        (twice, "LoadDone on a held pod is answered 5"),
        (nothing_held, "Continue with nothing held is answered 5"),
    ] {
        assert_eq!((against(fault, along_runs), against(fault, edges)), (why.into(), why.into()));
    }
}

/// The same of refusals.
#[test]
fn both_wrong_alike_about_a_refusal_is_against_the_documents() {
    let first: Fault = |before, input, o| {
        let manual = at(before, input).is_some_and(|p| before.base.port[p].access == 0);
        o.answer = if starts(input, o, 5) && input.value == 1 && manual { 13 } else { o.answer };
    };
    let by_hand: Fault = |before, input, o| {
        let in_auto = at(before, input).is_some_and(|p| before.base.port[p].access == 1);
        if starts(input, o, 0) && input.value == 0 && in_auto {
            refuse(before, o, 13);
        }
    };
    let five: Fault = |_, input, o| o.answer = if starts(input, o, 13) { 5 } else { o.answer };
    let never_done: Fault = |before, input, o| {
        if is(input, o, 14, 0) && alarm(before, input).on == 1 {
            refuse(before, o, 5);
        }
    };
    let never_continued: Fault = |before, input, o| {
        if is(input, o, 36, 0) {
            refuse(before, o, 5);
        }
    };
    for (fault, why) in [
        (first, "5 comes before 13"),
        (by_hand, "13 is given to an automatic start in MANUAL"),
        (five, "a start at a port that is ready isn't answered 5"),
        (never_done, "LoadDone is accepted unless a pod is held"),
        (never_continued, "Continue is accepted where a pod is held"),
    ] {
        assert_eq!((against(fault, along_runs), against(fault, edges)), (why.into(), why.into()));
    }
}

/// The same of what becomes of the alarms.
#[test]
fn both_wrong_alike_about_an_alarm_is_against_the_documents() {
    let in_manual: Fault = |before, input, o| {
        if starts(input, o, 0) && input.value == 0 {
            wrongly(before, o, input.port as usize - 1, 1);
        }
    };
    assert!(against(in_manual, along_runs).starts_with("after row 13 the alarms are [0 0; "));
    let unload_fail: Fault = |before, input, o| {
        if is(input, o, 26, 0) {
            wrongly(before, o, input.port as usize - 1, 0);
        }
    };
    assert!(against(unload_fail, along_runs).starts_with("after row 26 the alarms are ["));
    let untold: Fault = |_, input, o| o.reports.count -= is(input, o, 36, 0) as u8;
    let why = "at most ten reports, and zeros past the count";
    assert_eq!(against(untold, along_runs), why);
}

/// The same of how an alarm is told, and of what LoadDone and Continue do.
#[test]
fn both_wrong_alike_about_what_is_told_or_done_is_against_the_documents() {
    let untold: Fault = |_, input, o| {
        if is(input, o, 36, 0) {
            o.reports = Reports::NONE;
        }
    };
    let why = "each change of an alarm is told as model 9, and nothing else is";
    assert_eq!(against(untold, along_runs), why);
    let first: Fault = |_, input, o| {
        if is(input, o, 15, 0) && o.reports.count == 2 {
            o.reports.items.swap(0, 1);
        }
    };
    assert_eq!(against(first, along_runs), "alarms are told last");
    let present: Fault = |before, input, o| {
        if is(input, o, 14, 0) && alarm(before, input).on == 1 {
            o.tool.base.port[input.port as usize - 1].pod = 1;
        }
    };
    assert_eq!(against(present, along_runs), "LoadDone with the alarm on only holds the pod");
    let no_pod: Fault = |_, input, o| {
        if is(input, o, 36, 0) {
            o.tool.base.port[input.port as usize - 1].pod = 0;
        }
    };
    assert_eq!(against(no_pod, along_runs), "Continue does what LoadDone did");
}

/// All that may befall an alarm does so along runs and from states; P9's edges meet all answers of its rows.
#[test]
fn what_befalls_alarms_is_counted() {
    let both = Both { proved: &Independent, independent: &Independent };
    let mut rng = Rng::new(5);
    let runs = runs::compare(&both, 100_000, &mut rng).expect("no finding").violated;
    assert_eq!((runs.unmet_along_runs(), runs.unmet().len()), (vec![], 2));
    let states = states::compare(&both, 100_000, &mut rng).expect("no finding").violated;
    assert_eq!(states.unmet(), [""; 0]);
    let edges = alarmed::compare(&both).expect("no finding");
    let missing: Vec<_> =
        edges.pairs.missing().into_iter().filter(|(row, _)| [13, 14, 15, 24, 36].contains(row)).collect();
    assert_eq!(missing, []);
    let small = small::alarms(&both).expect("no finding");
    assert_eq!((edges.violated.unmet(), small.violated.met() > 20), (vec![], true));
}

/// An alarm is shown as the command line shows it.
#[test]
fn a_difference_is_told_with_its_alarm() {
    let keeps = Faulty(|before: &Tool, input: &Input, o: &mut Outcome| {
        if is(input, o, 36, 0) {
            wrongly(before, o, input.port as usize - 1, 1);
        }
    });
    let both = Both { proved: &keeps, independent: &Independent };
    let Err(finding) = alarmed::compare(&both) else { panic!("not found") };
    let told = tell(&both, &finding);
    assert!(
        told.contains("setup 1 0\nin 9 1 1 - -\nin 13 1 0 - -\nin 14 1 0 - -\nin 36 1 0 - -\n"),
        "{told}"
    );
    assert!(told.contains("proved       0 0 []\nindependent  0 1 [9 1 1 0]\n"), "{told}");
    assert!(told.contains("byte 3488, port 1 alarm: proved 1, independent 0"), "{told}");
}
