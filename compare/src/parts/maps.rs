//! P1's edges, with the answers that it gives: which maps can be expected, and how slot maps are judged by them.

use super::{at, input, named};
use crate::machine::Both;
use crate::play::{Finding, Player, Tally};

const ONES: [u8; 25] = [1; 25];
const THREES: [u8; 25] = [3; 25];

/// Ones and threes in turn.
const MIXED: [u8; 25] = [1, 3, 1, 3, 1, 3, 1, 3, 1, 3, 1, 3, 1, 3, 1, 3, 1, 3, 1, 3, 1, 3, 1, 3, 1];

/// The rows that may carry a map.
const CARRYING: [u32; 2] = [1, 3];

pub fn compare(both: &Both) -> Result<Tally, Finding> {
    let mut tally = Tally::default();
    every_code(both, &mut tally)?;
    every_length(both, &mut tally)?;
    refused_first(both, &mut tally)?;
    every_near_miss(both, &mut tally)?;
    none_expected(both, &mut tally)?;
    maps_follow_records(both, &mut tally)?;
    displaced(both, &mut tally)?;
    names_that_come_back(both, &mut tally)?;
    Ok(tally)
}

/// Each value of each code of a map that is expected.
fn every_code(both: &Both, tally: &mut Tally) -> Result<(), Finding> {
    let mut player = Player::begin(both, tally, 1, 0)?;
    for row in CARRYING {
        for slot in 0..25 {
            for code in 0..=255 {
                let mut codes = MIXED;
                codes[slot] = code;
                let good = code == 1 || code == 3;
                player.expect_look(&input(row, 1, 0, b"A", &codes), !good as u32)?;
            }
        }
    }
    Ok(())
}

fn every_length(both: &Both, tally: &mut Tally) -> Result<(), Finding> {
    let mut player = Player::begin(both, tally, 1, 0)?;
    for row in CARRYING {
        for length in (0..=60).chain([255, 256, 257, 280, 281, 300, 65_561]) {
            let good = length == 0 || length == 25;
            player.expect_look(&input(row, 1, 0, b"A", &vec![3; length]), !good as u32)?;
        }
    }
    Ok(())
}

/// A map that can't be expected is answered 1 where 3, 4, 5 or 6 applies too.
fn refused_first(both: &Both, tally: &mut Tally) -> Result<(), Finding> {
    let mut player = Player::begin(both, tally, 4, 0)?;
    player.expect(input(1, 1, 0, b"TIED", &THREES), 0)?;
    player.expect(at(11, 2), 0)?;
    player.expect(at(13, 3), 0)?;
    let refused =
        [(1, 4, &b"TIED"[..], 3), (3, 0, b"TIED", 3), (1, 1, b"N", 4), (1, 2, b"N", 4), (1, 3, b"N", 5)];
    for one in refused {
        refused_alike(&mut player, one)?;
    }
    for k in 0..15 {
        player.expect(input(3, 0, 0, format!("C{k}").as_bytes(), &MIXED), 0)?;
    }
    for one in [(1, 4, &b"N"[..], 6), (3, 0, b"N", 6)] {
        refused_alike(&mut player, one)?;
    }
    Ok(())
}

/// Refused with this number whatever good map it carries, and with 1 for a bad one.
fn refused_alike(
    player: &mut Player,
    (row, port, name, number): (u32, u32, &[u8], u32),
) -> Result<(), Finding> {
    for good in [&[][..], &ONES, &THREES, &MIXED] {
        player.expect_look(&input(row, port, 0, name, good), number)?;
    }
    for bad in [&[3][..], &[3; 24], &[3; 26], &[0; 25], &[2; 25], &[4; 25], &[5; 25]] {
        player.expect_look(&input(row, port, 0, name, bad), 1)?;
    }
    Ok(())
}

/// A carrier comes to a port where it is expected, and is opened there.
fn come_and_open(player: &mut Player, port: u32, name: &[u8]) -> Result<(), Finding> {
    player.expect(at(13, port), 0)?;
    player.expect(at(14, port), 0)?;
    player.expect(input(16, port, 0, name, b""), 0)?;
    player.expect(named(19, name), 0)?;
    Ok(())
}

/// The map itself, and every other that differs from it at one slot.
fn every_near_miss(both: &Both, tally: &mut Tally) -> Result<(), Finding> {
    for map in [ONES, THREES, MIXED] {
        let mut player = Player::begin(both, tally, 1, 0)?;
        player.expect(input(1, 1, 0, b"A", &map), 0)?;
        come_and_open(&mut player, 1, b"A")?;
        for slot in 0..25 {
            for code in 0..=5 {
                let mut codes = map;
                codes[slot] = code;
                let reports = if codes == map { "6 A 1>3" } else { "6 A 1>2" };
                player.expect_reports(&input(20, 0, 0, b"A", &codes), reports)?;
            }
        }
        // Access starts at once, and the host has nothing to say.
        player.expect(input(20, 0, 0, b"A", &map), 0)?;
        player.expect(named(5, b"A"), 5)?;
        player.expect(named(21, b"A"), 0)?;
    }
    Ok(())
}

/// Where there is no map nothing equals it, also not the zeros that stand in its place.
fn none_expected(both: &Both, tally: &mut Tally) -> Result<(), Finding> {
    let mut player = Player::begin(both, tally, 1, 0)?;
    player.expect(input(1, 1, 0, b"A", b""), 0)?;
    come_and_open(&mut player, 1, b"A")?;
    for code in 0..=5 {
        player.expect_reports(&input(20, 0, 0, b"A", &[code; 25]), "6 A 1>2")?;
    }
    player.expect(input(20, 0, 0, b"A", &[0; 25]), 0)?;
    player.expect(named(21, b"A"), 7)?;
    player.expect(named(5, b"A"), 0)?;
    player.expect(named(21, b"A"), 0)?;
    Ok(())
}

/// Three carriers with a map each, of which one goes: the others are judged by their own.
fn maps_follow_records(both: &Both, tally: &mut Tally) -> Result<(), Finding> {
    let all = [(1, b"A", ONES), (2, b"B", THREES), (3, b"C", MIXED)];
    for gone in 1..=3 {
        let mut player = Player::begin(both, tally, 3, 0)?;
        for (port, name, map) in all {
            player.expect(input(1, port, 0, name, &map), 0)?;
        }
        player.expect(at(2, gone), 0)?;
        for (port, name, map) in all.into_iter().filter(|(port, ..)| *port != gone) {
            come_and_open(&mut player, port, name)?;
            for (.., other) in all {
                let status = if other == map { 3 } else { 2 };
                let reports = format!("6 {} 1>{status}", name[0] as char);
                player.expect_reports(&input(20, 0, 0, name, &other), &reports)?;
            }
        }
    }
    Ok(())
}

/// Read at another's port: the other's map goes with its record, and an expected carrier keeps its own.
fn displaced(both: &Both, tally: &mut Tally) -> Result<(), Finding> {
    for (name, with_own) in [(b"B", "6 B 1>3"), (b"N", "6 N 1>2")] {
        let mut player = Player::begin(both, tally, 1, 0)?;
        player.expect(input(1, 1, 0, b"A", &ONES), 0)?;
        player.expect(input(3, 0, 0, b"B", &THREES), 0)?;
        for input in [at(13, 1), at(14, 1), input(16, 1, 0, name, b""), named(5, name), named(19, name)] {
            player.expect(input, 0)?;
        }
        let asked = format!("6 {} 1>2", name[0] as char);
        player.expect_reports(&input(20, 0, 0, name, &ONES), &asked)?;
        player.expect_reports(&input(20, 0, 0, name, &THREES), with_own)?;
    }
    Ok(())
}

/// A name whose record went comes back without a map, where rows 5, 6 and 16 make its record.
fn names_that_come_back(both: &Both, tally: &mut Tally) -> Result<(), Finding> {
    let makers = [&[16, 5][..], &[17, 5], &[17, 6]];
    for rows in makers {
        let mut player = Player::begin(both, tally, 1, 0)?;
        player.expect(input(3, 0, 0, b"A", &THREES), 0)?;
        player.expect(named(4, b"A"), 0)?;
        player.expect(at(13, 1), 0)?;
        player.expect(at(14, 1), 0)?;
        for &row in rows {
            player.expect(input(row, 1, 0, b"A", &THREES), 0)?;
        }
        let none = player.tool.maps.iter().all(|map| *map == [0; 25]);
        player.demand(none, || "rows 5, 6 and 16 make a record without a map".into())?;
        if rows.ends_with(&[5]) {
            player.expect(named(19, b"A"), 0)?;
            player.expect_reports(&input(20, 0, 0, b"A", &THREES), "6 A 1>2")?;
        }
    }
    Ok(())
}
