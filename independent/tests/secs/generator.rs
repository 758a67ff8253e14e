//! What the generator draws: each refusal, each reason for it, and each that hides another.

use std::collections::BTreeMap;

use super::*;
use independent::gen::requests::random_sound_tool;
use independent::gen::requests::secs::random_message;
use independent::gen::Rng;

/// The kinds of a text: its refusal, and why.
fn kinds(text: &[u8]) -> Vec<String> {
    let (refusal, items) = given(text);
    let walk = plain_walk(text);
    let mut kinds = vec![refusal.to_string()];
    if let Some(all) = &walk.refused {
        kinds.extend(all[1..].iter().map(|other| format!("{refusal} before {other}")));
    }
    if refusal == 26 {
        kinds.push(plain_order(walk.tree.as_ref().unwrap()).unwrap_err().into());
    }
    if refusal == 0 {
        let order = read(text).order.unwrap();
        let map = if order.map.is_some() { "with a map" } else { "without" };
        kinds.push(format!("row {} {map}", order.number));
        kinds.extend((items == 128).then(|| "128 items".into()));
        let deepest = read(text).items().iter().map(|item| item.depth).max();
        kinds.extend((deepest == Some(7)).then(|| "depth six, and an item in it".into()));
    }
    kinds
}

const KINDS: [&str; 43] = [
    "0",
    "20",
    "21",
    "22",
    "23",
    "24",
    "25",
    "26",
    "20 before 21",
    "20 before 22",
    "20 before 23",
    "20 before 24",
    "21 before 22",
    "21 before 24",
    "22 before 23",
    "22 before 24",
    "23 before 24",
    "row 1 with a map",
    "row 1 without",
    "row 3 with a map",
    "row 3 without",
    "row 5 without",
    "row 6 without",
    "128 items",
    "depth six, and an item in it",
    "no list",
    "not five",
    "data id",
    "action no text",
    "name no text",
    "port no U1",
    "attributes no list",
    "attribute no list",
    "attribute no pair",
    "attribute's name no text",
    "SlotMap no list",
    "SlotMap not 25",
    "SlotMap not of U1",
    "action",
    "no value",
    "many values",
    "length bytes: 2",
    "length bytes: 3",
];

#[test]
fn every_kind_is_drawn() {
    let mut rng = Rng::new(34);
    let mut met: BTreeMap<String, u32> = BTreeMap::new();
    for _ in 0..60_000 {
        let t = random_sound_tool(&mut rng);
        let text = random_message(&t, &mut rng);
        let reading = read(&text);
        let lengths = reading.items().iter().map(|item| item.length_bytes).max();
        for kind in kinds(&text).into_iter().chain(lengths.map(|most| format!("length bytes: {most}"))) {
            *met.entry(kind).or_default() += 1;
        }
    }
    println!("{met:#?}");
    for kind in KINDS {
        assert!(met.get(kind).is_some_and(|&n| n > 20), "{kind}: {:?}", met.get(kind));
    }
}
