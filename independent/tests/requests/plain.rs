//! The requests' words in the plainest form, to compare the library with: what is kept for a record
//! is looked up by its name.

use independent::gen::{padded, Input};
use independent::requests::Tool;
use independent::{Plain, Reports};

use crate::common::{plain_reports, plainly_sound as plainly_sound_before};
use crate::{plain_alarms, plain_predict, plain_queue, plain_wafers};

/// Document 01's words; each record has 0 or 25 codes of 1 and 3; the words on the queue, on
/// predictions and on alarms; unused bytes are zero.
pub fn plainly_sound(t: &Tool) -> bool {
    plainly_sound_before(&t.base)
        && t.maps.iter().enumerate().all(|(i, map)| {
            let none = map.iter().all(|&code| code == 0);
            let some = map.iter().all(|&code| code == 1 || code == 3);
            if i < t.base.count as usize {
                none || some
            } else {
                none
            }
        })
        && plain_queue::plainly_sound(t)
        && plain_predict::plainly_sound(t)
        && plain_alarms::plainly_sound(t)
        && t.unused.iter().all(|&byte| byte == 0)
}

/// The map that a name's record keeps; empty where it has none.
fn map_of(t: &Tool, name: [u8; 16]) -> Option<Vec<u8>> {
    let i = t.base.carriers().iter().position(|c| c.name == name)?;
    Some(if t.maps[i][0] == 0 { Vec::new() } else { t.maps[i].to_vec() })
}

/// The rows that have a name among their parts.
pub const NAMED: [u32; 19] = [1, 2, 3, 4, 5, 6, 7, 8, 16, 19, 20, 21, 22, 23, 29, 32, 33, 34, 35];

/// The name in a text: blanks at the end go one by one.
pub fn plain_name(text: &[u8]) -> Option<Vec<u8>> {
    let mut name = text.to_vec();
    while name.ends_with(b" ") {
        name.pop();
    }
    let refused = text.len() > 32 || name.contains(&b' ') || name.is_empty() || name.len() > 16;
    (!refused && name.iter().all(u8::is_ascii_graphic)).then_some(name)
}

/// The input with its name shortened, where the row takes one and it isn't missing; `None` where
/// the name is refused.
fn shortened(i: &Input) -> Option<Input> {
    if !NAMED.contains(&i.number) || i.number == 2 && i.name.is_empty() {
        return Some(i.clone());
    }
    plain_name(&i.name).map(|name| Input { name, ..i.clone() })
}

/// What an input gives from a sound state: document 01's answer and state, but for the words of the
/// requests.
pub fn plain_step(before: &Tool, i: &Input) -> (u32, Tool, Reports) {
    let Some(i) = shortened(i) else { return (1, *before, Reports::NONE) };
    let carries_map = i.number == 1 || i.number == 3;
    let good = i.codes.is_empty() || i.codes.len() == 25 && i.codes.iter().all(|code| [1, 3].contains(code));
    if carries_map && !good || i.number == 35 && !plain_wafers::counted(i.wafers.len()) {
        return (1, *before, Reports::NONE);
    }
    if let Some(given) = plain_predict::step(before, &i).or_else(|| plain_queue::step(before, &i)) {
        return given;
    }
    let mut base = before.base;
    let r = plain_alarms::row(before, &i);
    let of_01 =
        independent::step(&mut base, r.number, r.port, r.value, &r.name, &r.codes, &mut { Reports::NONE });
    // The lowest number that applies.
    let applies = [
        plain_queue::held(before, &i),
        plain_alarms::refusal(before, &i),
        Some(of_01).filter(|&of_01| of_01 != 0),
    ];
    if let Some(refusal) = applies.into_iter().flatten().min() {
        return (refusal, *before, Reports::NONE);
    }
    if i.number == 20 && map_of(before, padded(&i.name)).unwrap() == i.codes {
        base.carrier.iter_mut().find(|c| c.name == padded(&i.name)).unwrap().slot = 3;
    }
    let mut after = Tool { base, queue: plain_queue::after(before, &i), ..Tool::NONE };
    for (k, c) in base.carriers().iter().enumerate() {
        let new = if carries_map { i.codes.clone() } else { Vec::new() };
        let map = map_of(before, c.name).unwrap_or(new);
        after.maps[k][..map.len()].copy_from_slice(&map);
    }
    let mut reports = plain_reports(&before.base, &base);
    plain_predict::after(before, &i, &mut after, &mut reports);
    plain_alarms::after(before, &i, &mut after, &mut reports);
    (0, after, reports)
}

/// The bytes of a state, so that a difference is one of bytes.
pub fn same(t: &Tool, other: &Tool) -> bool {
    t.bytes() == other.bytes()
}
