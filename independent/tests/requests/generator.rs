//! What the generator draws for the requests: each kind comes out, and often enough.

use std::collections::HashMap;

use independent::gen::requests::{random_run_input, random_sound_tool, step};
use independent::gen::{padded, Input, Rng};
use independent::requests::names::{read, NoName};
use independent::requests::{setup, Tool};
use independent::Reports;

use crate::plain::{plain_name, NAMED};

/// What the codes of rows 1 and 3 are.
fn carried(codes: &[u8]) -> &'static str {
    match codes.len() {
        0 => "no map",
        25 if codes.iter().all(|code| [1, 3].contains(code)) => "good map",
        25 => "bad codes",
        _ => "bad length",
    }
}

/// What the codes of row 20 are to the map that the carrier's record keeps.
fn compared(t: &Tool, i: &Input) -> &'static str {
    let name = plain_name(&i.name).map(|name| padded(&name));
    let Some(k) = t.base.carriers().iter().position(|c| Some(c.name) == name) else { return "no record" };
    let codes = &i.codes[..];
    if codes.len() != 25 || codes.iter().any(|&code| code > 5) {
        return "bad slot map";
    }
    let Some(map) = t.expected_map(k) else {
        return if codes == [0; 25] { "zeros, none kept" } else { "none kept" };
    };
    match map.iter().zip(codes).filter(|(one, other)| one != other).count() {
        0 => "equal",
        1 => "one differs",
        _ => "many differ",
    }
}

/// What the text is that stands for a name.
fn padding(text: &[u8]) -> &'static str {
    let name = match read(text) {
        Err(NoName::TooLong) if text.len() == 33 => return "33 bytes",
        Err(NoName::TooLong) => return "more than 33",
        Err(NoName::BlankElsewhere) => return "blank elsewhere",
        Err(NoName::NothingLeft) if text.is_empty() => return "length zero",
        Err(NoName::NothingLeft) => return "blanks alone",
        Err(NoName::TooMuchLeft) if text.trim_ascii_end().len() == 17 && text.len() > 17 => {
            return "17 left, padded"
        }
        Err(NoName::TooMuchLeft) => return "too much left",
        Err(NoName::OtherByte) if text.contains(&0) => return "NUL",
        Err(NoName::OtherByte) => return "other byte",
        Ok(name) => name,
    };
    match (name.len(), text.len()) {
        (left, all) if left == all => "plain",
        (_, 32) => "padded to 32",
        (16, _) => "16 left, padded",
        _ => "padded",
    }
}

/// What there is to the name of a row: one that takes a name, one that may miss it, one that takes none.
fn name_kind(i: &Input) -> &'static str {
    match (i.number, padding(&i.name)) {
        (2, "length zero") => "row 2, missing",
        (2, "blanks alone") => "row 2, blanks alone",
        (2, "padded") => "row 2, padded",
        (number, kind) if NAMED.contains(&number) => kind,
        (_, "plain" | "length zero") => "not looked at, good",
        _ => "not looked at, bad",
    }
}

fn note(met: &mut HashMap<(&str, &str), u32>, from: &'static str, t: &Tool, i: &Input) {
    let codes = match i.number {
        1 | 3 => carried(&i.codes),
        20 => compared(t, i),
        _ => "codes not looked at",
    };
    for kind in [codes, name_kind(i)] {
        *met.entry((from, kind)).or_default() += 1;
    }
}

const NAMES: [&str; 18] = [
    "33 bytes",
    "more than 33",
    "blank elsewhere",
    "length zero",
    "blanks alone",
    "17 left, padded",
    "too much left",
    "NUL",
    "other byte",
    "plain",
    "padded to 32",
    "16 left, padded",
    "padded",
    "row 2, missing",
    "row 2, blanks alone",
    "row 2, padded",
    "not looked at, good",
    "not looked at, bad",
];

#[test]
fn every_kind_is_drawn() {
    let mut met = HashMap::new();
    let mut rng = Rng::new(7);
    for (p, b) in [(1, 0), (4, 0), (2, 3), (4, 16)] {
        let (mut t, mut out) = (Tool::NONE, Reports::NONE);
        setup(p, b, 60, 120, &mut t);
        for _ in 0..20_000 {
            let i = random_run_input(&t, &mut rng);
            note(&mut met, "run", &t, &i);
            step(&mut t, &i, &mut out);
        }
    }
    for _ in 0..40_000 {
        let t = random_sound_tool(&mut rng);
        let i = random_run_input(&t, &mut rng);
        note(&mut met, "state", &t, &i);
    }
    println!("{met:?}");
    let rows_1_and_3 = ["no map", "good map", "bad codes", "bad length"];
    let row_20 = ["equal", "one differs", "many differ", "zeros, none kept", "none kept", "bad slot map"];
    for from in ["run", "state"] {
        for kind in rows_1_and_3.into_iter().chain(row_20).chain(NAMES) {
            assert!(met.get(&(from, kind)).is_some_and(|&n| n > 20), "{from}: {kind}");
        }
    }
}

/// All records, some and none have maps, and among those that have one are odd ones that no run
/// gives a map.
#[test]
fn states_have_maps() {
    let mut rng = Rng::new(8);
    let mut met = [0; 6];
    for _ in 0..40_000 {
        let t = random_sound_tool(&mut rng);
        let c = t.base.carriers();
        let maps = (0..c.len()).filter(|&i| t.expected_map(i).is_some()).count();
        let waits = |i: usize| c[i].open == 1 && c[i].slot == 1 && t.expected_map(i).is_some();
        let seen = [
            maps == 0 && !c.is_empty(),
            maps > 0 && maps < c.len(),
            maps > 1 && maps == c.len(),
            (0..c.len()).any(|i| waits(i) && c[i].id == 3),
            (0..c.len()).any(|i| waits(i) && c[i].id != 3),
            maps == 36,
        ];
        for (met, seen) in met.iter_mut().zip(seen) {
            *met += seen as u32;
        }
    }
    println!("{met:?}");
    assert!(met.iter().all(|&met| met > 5), "{met:?}");
}
