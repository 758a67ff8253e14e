//! Wrong numbers of wafers, and another order of refusals.

use super::*;

/// The wafers past the 25th ignored, half a wafer ignored or counted; 24 taken for the most.
#[test]
fn another_number_of_wafers_is_found() {
    let the_26th: fn(&Input) -> Input = |input| {
        let mut input = input.clone();
        if input.wafers.len() == 52 {
            input.wafers.truncate(50);
        }
        input
    };
    let all_past_it: fn(&Input) -> Input = |input| {
        let mut input = input.clone();
        input.wafers.truncate(50);
        input
    };
    let half_is_ignored: fn(&Input) -> Input = |input| {
        let mut input = input.clone();
        input.wafers.truncate(input.wafers.len() / 2 * 2);
        input
    };
    let half_is_counted: fn(&Input) -> Input = |input| {
        let mut input = input.clone();
        input.wafers.resize(input.wafers.len().next_multiple_of(2), 0);
        input
    };
    let only_24: fn(&Input) -> Input = |input| {
        let mut input = input.clone();
        input.wafers.resize(if input.wafers.len() == 50 { 52 } else { input.wafers.len() }, 0);
        input
    };
    for (input, times) in
        [(the_26th, 52), (all_past_it, 51), (half_is_ignored, 1), (half_is_counted, 1), (only_24, 50)]
    {
        let run = seen(&Mistaken { input, ..Mistaken::IN_NOTHING });
        let shown = run.inputs.last().expect("an input").wafers.len();
        assert!((times..times + 2).contains(&shown), "{}", run.script());
    }
}

/// 12 before 2, before 5 and before 11; 1 for a number of wafers after these.
#[test]
fn another_order_of_refusals_is_found() {
    let before_5: fn(&Tool, &Input, &mut Outcome) = |_, input, o| twelve_instead_of(5, input, o);
    let before_2: fn(&Tool, &Input, &mut Outcome) = |_, input, o| twelve_instead_of(2, input, o);
    let before_11: fn(&Tool, &Input, &mut Outcome) = |_, input, o| twelve_instead_of(11, input, o);
    let one_is_last: fn(&Tool, &Input, &mut Outcome) = |before, input, o| {
        if (input.number, o.answer) == (35, 1) {
            let plain = Input { wafers: Vec::new(), ..input.clone() };
            let answer = Independent.step(&mut before.clone(), &plain, &mut Reports::NONE.clone());
            o.answer = if answer == 0 { 1 } else { answer };
        }
    };
    for fault in [before_5, before_2, before_11, one_is_last] {
        seen(&Faulty(fault));
    }
}

fn twelve_instead_of(answer: u32, input: &Input, o: &mut Outcome) {
    if (input.number, o.answer) == (35, answer) && right(input.clock, &input.times()).is_none() {
        o.answer = 12;
    }
}

/// 12 answered as 1; the clock set by an input that is refused with 12; a second Tp by wafers.
#[test]
fn other_refusals_are_found() {
    let one: fn(&Tool, &Input, &mut Outcome) = |_, _, o| o.answer = if o.answer == 12 { 1 } else { o.answer };
    let sets_the_clock: fn(&Tool, &Input, &mut Outcome) = |_, input, o| {
        if o.answer == 12 && input.clock > o.tool.predictions.clock() {
            o.tool.predictions.clock = input.clock.to_le_bytes();
        }
    };
    let keeps_the_clock: fn(&Tool, &Input, &mut Outcome) = |before, input, o| {
        if (input.number, o.answer) == (35, 0) {
            o.tool.predictions.clock = before.predictions.clock;
        }
    };
    let second: fn(&Tool, &Input, &mut Outcome) = |before, input, o| {
        if (input.number, o.answer) == (35, 5) && before.base.places == 0 {
            let mut cleared = *before;
            for p in cleared.predictions.of.iter_mut().filter(|p| p.state == 3) {
                (p.has_tp, p.tp) = (0, [0; 4]);
            }
            let answer = Independent.step(&mut cleared, input, &mut o.reports);
            if answer == 0 {
                (o.answer, o.tool) = (0, cleared);
            }
        }
    };
    for fault in [one, sets_the_clock, keeps_the_clock, second] {
        seen(&Faulty(fault));
    }
}

/// A program whose functions take other inputs than they should.
struct Wayward(fn(Way, &Input) -> Option<Input>);

impl Wrong for Wayward {
    fn by(&self, way: Way, tool: &mut Tool, input: &Input, reports: &mut Reports) -> u32 {
        match (self.0)(way, input) {
            Some(other) => Independent.step(tool, &other, reports),
            None => Independent.by(way, tool, input, reports),
        }
    }
}

/// Wafers that `hm_step` doesn't know or gives the clock before; and that `hm_time_step` takes.
#[test]
fn functions_that_take_other_inputs_are_found() {
    let unknown: fn(Way, &Input) -> Option<Input> =
        |way, input| (way == Way::Step && input.number == 35).then(|| Input { number: 0, ..input.clone() });
    let with_its_clock: fn(Way, &Input) -> Option<Input> =
        |way, input| (way == Way::Step && input.number == 35).then(|| input.clone());
    let as_a_time: fn(Way, &Input) -> Option<Input> = |way, input| {
        (way == Way::TimeStep && input.number == 35).then(|| Input { number: 32, ..input.clone() })
    };
    let no_wafers: fn(Way, &Input) -> Option<Input> = |way, input| {
        (way == Way::TimeStep && input.number == 35).then(|| Input { wafers: vec![], ..input.clone() })
    };
    for (wayward, by) in
        [(unknown, "step"), (with_its_clock, "step"), (as_a_time, "time"), (no_wafers, "time")]
    {
        let wrong = Wayward(wayward);
        let both = Both { proved: &wrong, independent: &Independent };
        let Err(Finding::Told(told)) = ways::compare(&both) else { panic!("not found") };
        assert!(
            told.contains(&format!("by hm_{by}")) && told.contains("\nin 35 1 0 41 - 7 9 3ff8"),
            "{told}"
        );
        let alike = Both { proved: &wrong, independent: &wrong };
        assert!(matches!(ways::compare(&alike), Err(Finding::Law(..))));
    }
}

/// Wafers that aren't judged at once.
#[test]
fn wafers_that_are_not_judged_are_found() {
    let not_judged: fn(&Tool, &Input, &mut Outcome) = |before, input, o| {
        if (input.number, o.answer) == (35, 0) {
            for (p, was) in o.tool.predictions.of.iter_mut().zip(&before.predictions.of) {
                p.state = was.state;
            }
            o.reports = Reports::NONE;
        }
    };
    seen(&Faulty(not_judged));
}
