//! Programs that are wrong on purpose about the maps of P1.

use super::*;
use crate::laws::shortened;

/// Where the record of the input's name stands.
fn position(tool: &Tool, input: &Input) -> Option<usize> {
    let name = shortened(&input.name);
    tool.base.carriers().iter().position(|c| independent::gen::unpadded(&c.name) == name)
}

/// How many slots of the expected map a slot map has right; 0 where no map is expected.
fn right(before: &Tool, input: &Input) -> usize {
    let expected = position(before, input).and_then(|at| before.expected_map(at));
    expected.map_or(0, |map| map.iter().zip(&input.codes).filter(|(a, b)| a == b).count())
}

/// Makes the slot status of the input's carrier OK, or WAITING FOR HOST, and reports it so.
fn set_status(input: &Input, o: &mut Outcome, status: u8) {
    let at = position(&o.tool, input).expect("a record");
    o.tool.base.carrier[at].slot = status;
    o.reports.items[0].new = status;
}

#[test]
fn nearly_equal_is_found() {
    let run = found(4, 16, |before, input, o| {
        if input.number == 20 && o.accepted() && right(before, input) == 24 {
            set_status(input, o, 3);
        }
    });
    let numbers: Vec<u32> = run.inputs.iter().map(|input| input.number).collect();
    assert_eq!(numbers.last(), Some(&20));
    assert!(numbers.len() <= 7, "{}", run.script());
    // All ones, but for the slot that differs.
    let maps: Vec<&[u8]> =
        run.inputs.iter().map(|i| &i.codes[..]).filter(|codes| !codes.is_empty()).collect();
    let [expected, given] = maps[..] else { panic!("{}", run.script()) };
    let others = expected.iter().zip(given).filter(|(a, b)| (**a, **b) != (1, 1)).count();
    assert_eq!((expected.len(), given.len(), others), (25, 25, 1), "{}", run.script());
}

#[test]
fn zeros_that_equal_no_map_are_found() {
    let run = found(1, 0, |before, input, o| {
        let none = position(before, input).is_some_and(|at| before.expected_map(at).is_none());
        if input.number == 20 && o.accepted() && none && input.codes == [0; 25] {
            set_status(input, o, 3);
        }
    });
    assert!(run.inputs.len() <= 6 && run.inputs.last().unwrap().codes == [0; 25], "{}", run.script());
}

#[test]
fn a_map_that_stays_behind_its_record_takes_two_inputs() {
    let run = found(2, 3, |before, input, o| {
        if input.number == 4 && o.accepted() {
            o.tool.maps = before.maps;
        }
    });
    let ones = "01".repeat(25);
    assert_eq!(run.script(), format!("setup 1 0\nin 3 0 0 41 {ones}\nin 4 0 0 41 -\n"));
}

#[test]
fn a_read_that_gives_a_map_is_found() {
    let run = found(2, 3, |before, input, o| {
        let made = o.tool.base.count as usize;
        if input.number == 16 && o.accepted() && made > before.base.count as usize && input.codes.len() == 25
        {
            o.tool.maps[made - 1].copy_from_slice(&input.codes);
        }
    });
    let numbers: Vec<u32> = run.inputs.iter().map(|input| input.number).collect();
    assert_eq!(numbers, [13, 14, 16], "{}", run.script());
}

/// A program that looks at the map after everything else.
#[test]
fn a_bad_map_that_is_refused_too_late_is_found() {
    let run = found(2, 0, |before, input, o| {
        if [1, 3].contains(&input.number) && o.answer == 1 {
            let none = Input { codes: Vec::new(), ..input.clone() };
            let other = Independent.step(&mut before.clone(), &none, &mut Reports::NONE.clone());
            o.answer = if other > 1 { other } else { 1 };
        }
    });
    assert!(run.inputs.len() <= 4, "{}", run.script());
}

/// A program that looks at the first 25 of more codes.
#[test]
fn a_cut_map_is_found() {
    let input = |input: &Input| {
        let length = input.codes.len().min(25);
        Input { codes: input.codes[..length].to_vec(), ..input.clone() }
    };
    let cuts = Mistaken { input, ..Mistaken::IN_NOTHING };
    let both = Both { proved: &cuts, independent: &Independent };
    let Some(Finding::Run(run)) = first_finding(&both) else { panic!("the fault was not found") };
    let run = shortest(&both, &run);
    assert_eq!(run.inputs.len(), 1, "{}", run.script());
}

/// Only states that no run reaches have an open carrier whose ID isn't OK. The map is shown with the carrier's name.
#[test]
fn an_id_that_is_asked_for_is_found_from_states() {
    let faulty = Faulty(|before, input, o| {
        if input.number != 20 || !o.accepted() {
            return;
        }
        let ok = position(before, input).is_some_and(|at| before.base.carrier[at].id == 3);
        if !ok && right(before, input) == 25 {
            set_status(input, o, 2);
        }
    });
    let both = Both { proved: &faulty, independent: &Independent };
    let Some(finding @ Finding::State(..)) = first_finding(&both) else { panic!("the fault was not found") };
    let told = tell(&both, &finding);
    assert_eq!((told.matches("  record ").count(), told.matches("  map ").count()), (1, 1), "{told}");
    let Finding::State(_, input) = &finding else { unreachable!() };
    let name = crate::script::hex(shortened(&input.name));
    assert!(told.contains(&format!("  map {name} 0")), "{told}");
    assert!(
        told.contains("1 2]\nindependent  0 1 [6 ") && told.contains("slot: proved 2, independent 3"),
        "{told}"
    );
}

#[test]
fn both_wrong_alike_about_maps_is_against_the_documents() {
    // Two turns, each with a report.
    let why = against(
        |_, input, o| {
            if input.number == 20 && o.accepted() && o.reports.items[0].new == 3 {
                let [one, two, ..] = &mut o.reports.items;
                (one.new, *two, o.reports.count) = (2, Report { old: 2, new: 3, ..*one }, 2);
            }
        },
        |both, rng| runs::compare(both, 50_000, rng).map(drop),
    );
    assert!(why.starts_with("the slot map is judged by the one expected: 6 "), "{why}");
    // The host is always asked.
    let why = against(
        |_, input, o| {
            if input.number == 20 && o.accepted() {
                set_status(input, o, 2);
            }
        },
        |both, _| maps::compare(both).map(drop),
    );
    assert!(why.starts_with("the slot map is judged by the one expected: 6 A 1>3"), "{why}");
    // Codes that no map has, held for good.
    let why = against(
        |before, input, o| {
            if input.number == 3 && o.answer == 1 && input.codes.len() == 25 {
                let none = Input { codes: Vec::new(), ..input.clone() };
                o.tool = *before;
                o.answer = Independent.step(&mut o.tool, &none, &mut o.reports);
            }
        },
        |both, rng| runs::compare(both, 5_000, rng).map(drop),
    );
    assert_eq!(why, "an expected map of other codes is answered 1");
    // A name that comes back with the map that it had.
    let why = against(
        |before, input, o| {
            let new = o.tool.base.count as usize;
            if input.number == 16 && o.accepted() && new > before.base.count as usize {
                o.tool.maps[new - 1] = [3; 25];
            }
        },
        |both, _| maps::compare(both).map(drop),
    );
    assert_eq!(why, "rows 5, 6 and 16 make a record without a map");
}

/// Programs that don't look at one of the words on soundness.
#[test]
fn faults_of_soundness_are_found() {
    let tail = |tool: &Tool| Tool { unused: [0; independent::requests::UNUSED], ..*tool };
    let past_the_records = |tool: &Tool| {
        let mut mended = *tool;
        let past = mended.maps.iter_mut().skip(tool.base.count as usize);
        past.for_each(|map| *map = [0; 25]);
        mended
    };
    let other_codes = |tool: &Tool| {
        let mut mended = *tool;
        let codes = mended.maps.as_flattened_mut();
        codes.iter_mut().filter(|code| [2, 4, 5].contains(*code)).for_each(|code| *code = 3);
        mended
    };
    let half_a_map = |tool: &Tool| {
        let mut mended = *tool;
        let maps = mended.maps.iter_mut().take(tool.base.count as usize);
        maps.filter(|map| map[0] == 0).for_each(|map| *map = [0; 25]);
        mended
    };
    for (mistake, shown) in [
        (tail as fn(&Tool) -> Tool, "  unused    "),
        (past_the_records, "  map - "),
        (other_codes, "  map "),
        (half_a_map, "  map "),
    ] {
        let trusts = Mistaken { tool: mistake, ..Mistaken::IN_NOTHING };
        let both = Both { proved: &trusts, independent: &Independent };
        let Some(finding @ Finding::Sound(_)) = first_finding(&both) else { panic!("not found: {shown}") };
        let told = tell(&both, &finding);
        assert!(told.contains("proved       sound\nindependent  not sound\n"), "{told}");
        assert!(told.contains(shown) && told.matches("  map ").count() <= 1, "{told}");
    }
}

/// Slot maps are OK at once along runs, from states and in P1's edges.
#[test]
fn ok_at_once_is_counted() {
    let both = Both { proved: &Independent, independent: &Independent };
    let mut rng = Rng::new(5);
    let met = |tally: Result<Tally, Finding>| tally.map_or(0, |tally| tally.at_once);
    // Three maps at 25 slots, three more to go on with, three carriers of which two stay, thrice, and a read one.
    assert_eq!(met(maps::compare(&both)), 3 * 25 + 3 + 3 * 2 + 1);
    assert_eq!(met(twelve::compare(&both)), 0);
    assert!(met(runs::compare(&both, 50_000, &mut rng)) > 20);
    assert!(met(states::compare(&both, 20_000, &mut rng)) > 20);
}
