//! Programs that are wrong on purpose about the padded names of P4.

use super::*;
use crate::laws::shortened;

/// What is found first where one program takes a name for something else.
fn mistaken(name: fn(&Input) -> Vec<u8>) -> Run {
    struct Reader(fn(&Input) -> Vec<u8>);

    impl Wrong for Reader {
        fn step(&self, tool: &mut Tool, input: &Input, reports: &mut Reports) -> u32 {
            Independent.step(tool, &Input { name: (self.0)(input), ..input.clone() }, reports)
        }
    }

    let both = Both { proved: &Reader(name), independent: &Independent };
    let Err(Finding::Run(in_edges)) = names::compare(&both) else { panic!("not found in P4's edges") };
    let Err(Finding::Run(run)) = runs::compare(&both, 100_000, &mut Rng::new(5)) else {
        panic!("not found along runs")
    };
    let (one, other) = (shortest(&both, &in_edges), shortest(&both, &run));
    assert!(one.inputs.len() <= 2 && other.inputs.len() <= 3, "{}{}", one.script(), other.script());
    other
}

fn unblanked(text: &[u8]) -> Vec<u8> {
    shortened(text).to_vec()
}

#[test]
fn blanks_that_are_no_padding_are_found() {
    let run = mistaken(|i| if i.name.ends_with(b" ") { vec![0] } else { i.name.clone() });
    let [only] = &run.inputs[..] else { panic!("{}", run.script()) };
    assert_eq!(only.name, b"A ", "{}", run.script());
}

#[test]
fn blanks_alone_that_are_a_missing_name_are_found() {
    let run = mistaken(|i| if i.number == 2 { unblanked(&i.name) } else { i.name.clone() });
    let last = run.inputs.last().unwrap();
    assert_eq!((last.number, &last.name[..]), (2, &b" "[..]), "{}", run.script());
}

#[test]
fn blanks_that_are_dropped_before_the_length_is_judged_are_found() {
    let run = mistaken(|i| {
        let name = unblanked(&i.name);
        if name.is_empty() {
            i.name.clone()
        } else {
            name
        }
    });
    assert_eq!(run.inputs.len(), 1, "{}", run.script());
    let name = &run.inputs[0].name;
    assert!(name.len() == 33 && name.ends_with(&[b' '; 16]), "{}", run.script());
}

#[test]
fn other_bytes_that_are_dropped_are_found() {
    for byte in [0, 9, 0x7F] {
        let drops: fn(&Input) -> Vec<u8> = match byte {
            0 => |i| i.name.iter().copied().filter(|&byte| byte != 0).collect(),
            9 => |i| i.name.trim_ascii_end().to_vec(),
            _ => |i| i.name.iter().copied().filter(|&byte| byte != 0x7F).collect(),
        };
        let run = mistaken(drops);
        assert!(run.inputs.last().unwrap().name.len() <= 33, "{}", run.script());
    }
}

#[test]
fn blanks_in_front_that_are_dropped_are_found() {
    let run = mistaken(|i| {
        let from = i.name.iter().position(|&byte| byte != b' ').unwrap_or(0);
        i.name[from..].to_vec()
    });
    let [only] = &run.inputs[..] else { panic!("{}", run.script()) };
    assert!(only.name.starts_with(b" ") && only.name.len() == 2, "{}", run.script());
}

/// A program that looks at the name in every row.
#[test]
fn a_name_that_is_looked_at_in_every_row_is_found() {
    let run = found(2, 3, |before, input, o| {
        let bad = !input.name.is_empty() && Independent.name(&input.name) == 0;
        if bad && o.answer != 1 {
            *o = Outcome { answer: 1, tool: *before, reports: Reports::NONE };
        }
    });
    assert_eq!(run.inputs.len(), 1, "{}", run.script());
    assert!(![1, 2, 3, 4, 5, 6, 7, 8, 16, 19, 20, 21, 22, 23].contains(&run.inputs[0].number));
}

/// A program whose name check takes a text for another.
fn checks(text: Text) -> Mistaken {
    Mistaken { text, ..Mistaken::IN_NOTHING }
}

type Text = fn(&[u8]) -> Vec<u8>;

/// The check by itself: the text is shown, as short as it can be.
#[test]
fn a_wrong_name_check_is_shown_with_the_text() {
    let drops_nul: Text = |text| text.iter().copied().filter(|&byte| byte != 0).collect();
    let drops_front: Text = |text| text.trim_ascii_start().to_vec();
    let takes_7f: Text = |text| text.iter().map(|&byte| if byte == 0x7F { 0x7E } else { byte }).collect();
    let takes_blank: Text = |text| if text == b" " { b"A".to_vec() } else { text.to_vec() };
    for (text, shown) in [(drops_nul, "0041"), (drops_front, "0941"), (takes_7f, "7f"), (takes_blank, "20")] {
        let wrong = checks(text);
        let both = Both { proved: &wrong, independent: &Independent };
        let finding = names::texts(&both, 1, &mut Rng::new(5)).err().expect("a finding");
        let told = "proved       a name of 1 bytes\nindependent  no name";
        assert_eq!(tell(&both, &finding), format!("DIFFERENT. The text\n{shown}\n{told}\n"));
    }
}

/// Lengths that only a long text shows: 33 bytes, and 17 left.
#[test]
fn wrong_limits_of_the_name_check_are_found() {
    let cut: Text = |text| text[..text.len().min(32)].to_vec();
    let left: Text = |text| {
        let name = unblanked(text);
        if name.len() == 17 && text.len() <= 32 {
            name[..16].to_vec()
        } else {
            text.to_vec()
        }
    };
    for (text, length) in [(cut, 33), (left, 17)] {
        let wrong = checks(text);
        let both = Both { proved: &wrong, independent: &Independent };
        let Err(Finding::Name(text)) = names::texts(&both, 20_000, &mut Rng::new(5)) else {
            panic!("not found")
        };
        let text = crate::shrink::shortest_text(&text, |text| both.name(text).is_none());
        assert_eq!(text.len(), length);
    }
}

#[test]
fn both_wrong_alike_about_names_is_against_the_documents() {
    // Row 2 takes blanks alone for a missing name.
    let why = against(
        |before, input, o| {
            if input.number == 2 && !input.name.is_empty() && unblanked(&input.name).is_empty() {
                let none = Input { name: Vec::new(), ..input.clone() };
                o.tool = *before;
                o.answer = Independent.step(&mut o.tool, &none, &mut o.reports);
            }
        },
        |both, rng| runs::compare(both, 100_000, rng).map(drop),
    );
    assert_eq!(why, "a text that has no name in it is answered 1");
    let why = against(
        |before, input, o| {
            if input.number == 3 && input.name.len() == 33 {
                let cut = Input { name: unblanked(&input.name), ..input.clone() };
                o.tool = *before;
                o.answer = Independent.step(&mut o.tool, &cut, &mut o.reports);
            }
        },
        |both, _| names::compare(both).map(drop),
    );
    assert_eq!(why, "a text that has no name in it is answered 1");
    // No padding is taken.
    let why = against(
        |before, input, o| {
            if input.name.ends_with(b" ") {
                *o = Outcome { answer: 1, tool: *before, reports: Reports::NONE };
            }
        },
        |both, _| names::compare(both).map(drop),
    );
    assert_eq!(why, "the last input is answered 0, not 1");
    let wrong = checks(|text| text.trim_ascii_start().to_vec());
    let both = Both { proved: &wrong, independent: &wrong };
    let Err(finding) = names::texts(&both, 1, &mut Rng::new(5)) else { panic!("not found") };
    let told = tell(&both, &finding);
    assert!(told.contains("0 bytes of the text are its name, not 1. The text:\n09"), "{told}");
}

/// Padded names are accepted along runs and from states, and the name check sees both kinds of text.
#[test]
fn padded_names_are_counted() {
    let both = Both { proved: &Independent, independent: &Independent };
    let mut rng = Rng::new(5);
    let met = |tally: Result<Tally, Finding>| tally.map_or(0, |tally| tally.padded);
    assert_eq!(met(twelve::compare(&both)), 0);
    assert!(met(runs::compare(&both, 50_000, &mut rng)) > 1_000);
    assert!(met(states::compare(&both, 20_000, &mut rng)) > 1_000);
    let texts = names::texts(&both, 20_000, &mut rng).unwrap();
    assert!(texts.compared > 20_000 && texts.names > 2_000 && texts.names < texts.compared / 2);
}
