//! Two programs that are wrong alike about wafers; and what the parts meet.

use super::*;

fn along_runs(both: &Both, rng: &mut Rng) -> Result<(), Finding> {
    runs::without_buffer(both, 200_000, rng).map(drop)
}

fn edges(both: &Both, rng: &mut Rng) -> Result<(), Finding> {
    totalled::compare(both, 1, rng).map(drop)
}

fn alike(tp: Tp, part: fn(&Both, &mut Rng) -> Result<(), Finding>) -> String {
    against(move |before, input, o| again(tp, before, input, o), part)
}

/// Two programs that total wrongly alike, and P8 says otherwise.
#[test]
fn both_wrong_alike_about_a_total_is_against_the_documents() {
    let down: Tp = |clock, times| after(clock, sum(times).floor()).filter(|_| all_good(times));
    let no_handling: Tp = |clock, times| {
        let process = times.iter().step_by(2).sum::<f64>();
        after(clock, process.ceil()).filter(|_| all_good(times))
    };
    for tp in [down, no_handling] {
        for part in [along_runs, edges] {
            let why = alike(tp, part);
            assert!(why.starts_with("after row 35 this Tp is Some("), "{why}");
        }
    }
}

/// That take another float for a good one, or a good one for none.
#[test]
fn both_wrong_alike_about_a_float_is_against_the_documents() {
    let half: Tp = |clock, times| {
        let halves = |time: &f64| (0.0..1_048_576.0).contains(time) && (time * 2048.0).fract() == 0.0;
        after(clock, sum(times).ceil()).filter(|_| times.iter().all(halves))
    };
    let saturates: Tp = |clock, times| {
        let tp = clock.saturating_add(sum(times).ceil() as u32) as u64;
        Some(tp).filter(|_| all_good(times))
    };
    let minus_zero: Tp = |clock, times| {
        let signed = times.iter().any(|time| time.is_sign_negative());
        right(clock, times).filter(|_| !signed)
    };
    for part in [along_runs, edges] {
        for tp in [half, saturates] {
            let why = "a time that isn't good, or a Tp past the clock's range, is answered 12";
            assert_eq!(alike(tp, part), why);
        }
        let why = "12 is given to a time that isn't good, or to a Tp past the clock's range";
        assert_eq!(alike(minus_zero, part), why);
    }
}

/// That count or refuse wrongly.
#[test]
fn both_wrong_alike_about_a_refusal_is_against_the_documents() {
    let first: fn(&Tool, &Input, &mut Outcome) = |_, input, o| {
        let bad = right(input.clock, &input.times()).is_none();
        o.answer = if input.number == 35 && bad && [2, 5, 11].contains(&o.answer) { 12 } else { o.answer };
    };
    let cut: fn(&Tool, &Input, &mut Outcome) = |before, input, o| {
        if (input.number, o.answer) == (35, 1) && input.wafers.len() > 50 {
            let mut fewer = input.clone();
            fewer.wafers.truncate(50);
            o.tool = *before;
            o.answer = Independent.step(&mut o.tool, &fewer, &mut o.reports);
        }
    };
    for part in [along_runs, edges] {
        assert_eq!(against(first, part), "2, 5 and 11 come before 12");
        assert_eq!(against(cut, part), "more than 25 wafers, or half of one, are answered 1");
    }
}

/// All that wafers may be is met along runs without a buffer and among P8's edges, which meet all answers of its row.
#[test]
fn what_wafers_were_is_counted() {
    let both = Both { proved: &Independent, independent: &Independent };
    let mut rng = Rng::new(5);
    let runs = runs::without_buffer(&both, 200_000, &mut rng).expect("no finding").totalled;
    let edges = totalled::compare(&both, 1, &mut rng).expect("no finding");
    assert_eq!((runs.unmet(), edges.totalled.unmet()), (vec![], vec![]));
    let missing: Vec<_> = edges.pairs.missing().into_iter().filter(|(row, _)| *row == 35).collect();
    assert_eq!(missing, []);
    let states = states::compare(&both, 100_000, &mut rng).expect("no finding").totalled;
    assert!(states.met() > 15, "{:?}", states.unmet());
}

/// The script that shows a difference has the bits of the times.
#[test]
fn wafers_are_told_by_their_bits() {
    let down = Faulty(|before: &Tool, input: &Input, o: &mut Outcome| {
        again(|clock, times| after(clock, sum(times).floor()).filter(|_| all_good(times)), before, input, o)
    });
    let both = Both { proved: &down, independent: &Independent };
    let Err(finding) = totalled::compare(&both, 1, &mut Rng::new(5)) else { panic!("not found") };
    let told = tell(&both, &finding);
    assert!(told.contains("\nin 35 0 0 41 - 0 0 3f500000000000000000000000000000\n"), "{told}");
    assert!(told.contains("record 1 Tp: proved 0, independent 1"), "{told}");
}
