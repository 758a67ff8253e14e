//! The words of `include/hawsermole_words.h`, as tests/c prints them, are this crate's.
use hawsermole::{words, LogRefusal, Model, Refusal, Row};
use std::fs;

fn lines() -> Vec<String> {
    let out = || "out of range".to_string();
    let answer = |number| match number {
        0 => "accepted".to_string(),
        _ => Refusal::from_number(number).map_or_else(out, |refusal| refusal.to_string()),
    };
    let verdict = |number| match number {
        0 => "agrees".to_string(),
        1 => "an entry disagrees".to_string(),
        _ => LogRefusal::from_number(number).map_or_else(out, |refusal| refusal.to_string()),
    };
    let input = |number| Row::numbered(number).map_or_else(out, |row| row.name.to_string());
    let model = |number| Model::from_number(number).map_or_else(out, |model| model.to_string());
    let mut lines: Vec<String> =
        (0..=27).map(|number| format!("answer {number}: {}", answer(number))).collect();
    lines.extend((0..=30).map(|number| format!("verdict {number}: {}", verdict(number))));
    lines.extend((0..=37).map(|number| format!("input {number}: {}", input(number))));
    lines.extend((0..=10).map(|number| format!("model {number}: {}", model(number))));
    for model in Model::ALL {
        lines
            .extend((0..=7).map(|state| format!("state {} {state}: {}", model.number(), model.state(state))));
    }
    lines.extend((0..=3).map(|number| format!("movement {number}: {}", words::movement(number))));
    lines.extend((0..=3).map(|number| format!("tag {number}: {}", words::tag(number))));
    lines.extend((0..=3).map(|number| format!("place {number}: {}", words::place(number))));
    lines.extend((0..=2).map(|number| format!("request {number}: {}", words::request(number))));
    lines.extend((0..=2).map(|number| format!("start {number}: {}", words::start(number))));
    lines.extend((0..=2).map(|number| format!("held {number}: {}", words::held(number))));
    lines.extend((0..=6).map(|number| format!("code {number}: {}", words::slot_code(number))));
    lines
}

#[test]
fn c_has_the_same_words() {
    let path = concat!(env!("CARGO_MANIFEST_DIR"), "/../tests/c/words.txt");
    let printed = fs::read_to_string(path).unwrap();
    let (last, words) =
        printed.lines().collect::<Vec<_>>().split_last().map(|(l, w)| (*l, w.to_vec())).unwrap();
    assert!(last.ends_with(" 0 failed"), "{last}");
    assert_eq!(words, lines());
}
