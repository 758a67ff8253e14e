//! Two programs that are wrong alike; and what the parts meet.

use super::*;

fn without_buffer(both: &Both, rng: &mut Rng) -> Result<(), Finding> {
    runs::without_buffer(both, 100_000, rng).map(drop)
}

fn edges(both: &Both, _: &mut Rng) -> Result<(), Finding> {
    foretold::compare(both).map(drop)
}

fn from_states(both: &Both, rng: &mut Rng) -> Result<(), Finding> {
    states::compare(both, 50_000, rng).map(drop)
}

/// Two programs that are wrong alike, and P7 says otherwise.
#[test]
fn both_wrong_alike_about_judging_is_against_the_documents() {
    let strict: Fault = |before, input, o| {
        let verdict = |c: &Case| c.judged(c.aborts(), (c.tp as u64) < c.now as u64 + c.setting as u64);
        Judging { verdict, ..RIGHT }.again(before, input, o);
    };
    assert_eq!(against(strict, without_buffer), "none waits with Tp minus now at most the setting");
    let never_aborts: Fault = |before, input, o| {
        Judging { verdict: |c| c.judged(false, c.near()), ..RIGHT }.again(before, input, o);
    };
    let why = "none waits or is PREDICTED with Te at least Tp plus timeout";
    assert_eq!(against(never_aborts, without_buffer), why);
    let later: Fault = |before, input, o| {
        Judging { ready: |_, _| false, ..RIGHT }.again(before, input, o);
    };
    assert_eq!(against(later, without_buffer), "none is PREDICTED or ABORTED with its port READY TO UNLOAD");
    let backwards: Fault = |before, input, o| {
        Judging { order: |_, all| all.reverse(), ..RIGHT }.again(before, input, o);
    };
    let why = against(backwards, edges);
    assert!(why.starts_with("the last input is answered 0 and reports 8 D 3>4; 8 B 3>4"), "{why}");
}

/// The same of the turns.
#[test]
fn both_wrong_alike_about_a_turn_is_against_the_documents() {
    let judges_too_much: Fault = |before, input, o| {
        if is(input, o, 22, 0) {
            for i in 0..before.base.count as usize {
                if before.predictions.of[i].state == 3 {
                    tell(o, i, 5);
                }
            }
        }
    };
    assert_eq!(against(judges_too_much, without_buffer), "row 22 makes no turn of model 8 from 3 to 5");
    let not_told: Fault = |_, input, o| {
        if is(input, o, 21, 0) && o.reports.count == 2 {
            o.reports.count = 1;
            o.reports.items[1] = Report::UNUSED;
        }
    };
    assert_eq!(against(not_told, without_buffer), "each change of model 8 is told");
    let jumps: Fault = |_, input, o| {
        if brings_clock(input) && o.reports.count > 0 && o.reports.items[0].old == 3 {
            o.reports.items[0].old = 4;
            o.reports.items[0].new = 5;
        }
    };
    assert_eq!(against(jumps, without_buffer), "each turn begins where the one before it ended");
}

/// Of turns where there should be none, or in another place.
#[test]
fn both_wrong_alike_about_more_turns_is_against_the_documents() {
    let revives: Fault = |before, input, o| {
        let done = (0..before.base.count as usize).find(|&i| before.predictions.of[i].state == 6);
        if let (true, Some(i)) = (is(input, o, 31, 0) && o.reports.count < 9, done) {
            tell(o, i, 3);
        }
    };
    assert_eq!(against(revives, without_buffer), "row 31 makes no turn of model 8 from 6 to 3");
    let with_a_buffer: Fault = |before, input, o| {
        if is(input, o, 3, 0) && before.base.places > 0 {
            tell(o, before.base.count as usize, 2);
        }
    };
    let along_all = |both: &Both, rng: &mut Rng| runs::compare(both, 20_000, rng).map(drop);
    assert_eq!(against(with_a_buffer, along_all), "with a buffer there is no model 8");
    let too_early: Fault = |_, input, o| {
        if is(input, o, 21, 0) && o.reports.count == 2 {
            o.reports.items.swap(0, 1);
        }
    };
    assert_eq!(against(too_early, without_buffer), "reports stand in the order of their models");
}

/// The same of the clock, and of the times of the set-up.
#[test]
fn both_wrong_alike_about_a_time_is_against_the_documents() {
    let back: Fault = |before, input, o| {
        if is(input, o, 31, 11) {
            redone(before, input, o, |p| p.clock = [0; 4], |_| {});
        }
    };
    assert_eq!(against(back, without_buffer), "the clock never runs back");
    let kept: Fault = |before, input, o| {
        if is(input, o, 33, 0) {
            o.tool.predictions.clock = before.predictions.clock;
        }
    };
    assert!(against(kept, without_buffer).starts_with("after row 33 the clock is "));
    let setting: Fault = |_, input, o| {
        if is(input, o, 31, 0) && o.tool.predictions.setting() > 60 {
            o.tool.predictions.setting = [60, 0, 0, 0];
        }
    };
    assert_eq!(against(setting, without_buffer), "setting and timeout stay as set up");
}

/// Of what is kept.
#[test]
fn both_wrong_alike_about_what_is_kept_is_against_the_documents() {
    let te_is_lost: Fault = |_, input, o| {
        if is(input, o, 31, 0) {
            o.tool.predictions.of.iter_mut().for_each(|p| (p.has_te, p.te) = (0, [0; 4]));
        }
    };
    assert!(against(te_is_lost, without_buffer).starts_with("after row 31 this Te is Some("));
    let tp_is_moved: Fault = |before, input, o| {
        let again = named(before, input).filter(|&i| before.predictions.of[i].state == 3);
        if let (true, Some(i)) = (is(input, o, 32, 5) && before.base.places == 0, again) {
            redone(before, input, o, |p| (p.of[i].has_tp, p.of[i].tp) = (0, [0; 4]), |_| {});
        }
    };
    assert!(against(tp_is_moved, without_buffer).starts_with("after row 32 this Tp is Some("));
    let inherits: Fault = |before, input, o| {
        if is(input, o, 3, 0) && before.base.places == 0 {
            o.tool.predictions.of[before.base.count as usize].set_tp(5);
        }
    };
    assert_eq!(against(inherits, without_buffer), "a new record has no Tp and no Te");
}

/// Of 11.
#[test]
fn both_wrong_alike_about_11_is_against_the_documents() {
    let eleven_first: Fault = |before, input, o| {
        let back = brings_clock(input) && input.clock < before.predictions.clock();
        o.answer = if back && o.answer == 5 { 11 } else { o.answer };
    };
    assert_eq!(against(eleven_first, without_buffer), "2 and 5 come before 11");
    let equal: Fault = |before, input, o| {
        if is(input, o, 31, 0) && input.clock == before.predictions.clock() {
            *o = Outcome { answer: 11, tool: *before, reports: Reports::NONE };
        }
    };
    assert_eq!(against(equal, from_states), "11 is given to a clock earlier than the last accepted");
}

/// All that may befall a prediction does so along runs without a buffer and from states, and P7's edges meet all answers of
/// its rows. Nine reports are the most.
#[test]
fn what_befalls_predictions_is_counted() {
    let both = Both { proved: &Independent, independent: &Independent };
    let mut rng = Rng::new(5);
    let runs = runs::without_buffer(&both, 200_000, &mut rng).expect("no finding").foretold;
    let states = states::compare(&both, 200_000, &mut rng).expect("no finding").foretold;
    assert_eq!((runs.unmet(), states.unmet()), (vec![], vec![]));
    assert_eq!((runs.most, states.most), (9, 9));
    let edges = foretold::compare(&both).expect("no finding");
    let missing: Vec<_> =
        edges.pairs.missing().into_iter().filter(|(row, _)| (31..=34).contains(row)).collect();
    assert_eq!((missing, edges.foretold.most), (vec![], 9));
    assert!(twelve::compare(&both).expect("no finding").foretold.unmet().len() > 50);
}
