//! The edges that document 01 lists, with the answers that it gives.

use super::{at, input, named, LONGEST, SHORTEST, TOO_LONG};
use crate::machine::Both;
use crate::play::{Finding, Player, Tally};

/// Rows that must have a name, and what each answers to one that has no record, where the other parts are good.
const NAMED: [(u32, u32); 17] = [
    (1, 0),
    (3, 0),
    (4, 2),
    (5, 2),
    (6, 2),
    (7, 2),
    (8, 2),
    (16, 5),
    (19, 2),
    (20, 2),
    (21, 2),
    (22, 2),
    (23, 2),
    (29, 5),
    (32, 2),
    (33, 2),
    (34, 2),
];

/// Rows that must have a port, and what each answers just after set-up, to a value of 1. A start is automatic then, and
/// the port in MANUAL.
const PORTED: [(u32, u32); 18] = [
    (1, 0),
    (7, 2),
    (9, 0),
    (10, 0),
    (11, 0),
    (12, 5),
    (13, 13),
    (14, 5),
    (15, 5),
    (16, 5),
    (17, 5),
    (18, 5),
    (24, 5),
    (25, 5),
    (26, 5),
    (27, 5),
    (28, 5),
    (36, 5),
];

/// Rows that may have a port.
const PORT_OR_NONE: [u32; 3] = [2, 5, 6];

const CODES: [u8; 25] = [3; 25];

pub fn compare(both: &Both) -> Result<Tally, Finding> {
    let mut tally = Tally::default();
    names(both, &mut tally)?;
    names_held(both, &mut tally)?;
    ports(both, &mut tally)?;
    sixteen_expected(both, &mut tally)?;
    sixteen_bound(both, &mut tally)?;
    move_in_without_buffer(both, &mut tally)?;
    move_in_places(both, &mut tally)?;
    Ok(tally)
}

/// Names of 0, 1, 16 and 17 bytes in every row that has one.
fn names(both: &Both, tally: &mut Tally) -> Result<(), Finding> {
    let mut player = Player::begin(both, tally, 1, 1)?;
    for (row, answer) in NAMED {
        for (name, answer) in [(&b""[..], 1), (SHORTEST, answer), (LONGEST, answer), (TOO_LONG, 1)] {
            player.expect_look(&input(row, 1, 0, name, &CODES), answer)?;
        }
    }
    // Row 2 may lack the name, but not the port as well.
    for (port, name, answer) in
        [(0, &b""[..], 1), (1, b"", 5), (1, SHORTEST, 2), (0, LONGEST, 2), (1, TOO_LONG, 1)]
    {
        player.expect_look(&input(2, port, 0, name, b""), answer)?;
    }
    Ok(())
}

/// A name of 16 bytes is kept whole: it is taken, its beginning is not, and both are found again.
fn names_held(both: &Both, tally: &mut Tally) -> Result<(), Finding> {
    let mut player = Player::begin(both, tally, 1, 0)?;
    player.expect(named(3, LONGEST), 0)?;
    player.expect(named(3, LONGEST), 3)?;
    player.expect(named(3, TOO_LONG), 1)?;
    player.expect(named(4, &LONGEST[..15]), 2)?;
    player.expect(named(3, SHORTEST), 0)?;
    player.expect(named(3, &LONGEST[..15]), 0)?;
    player.expect(named(4, LONGEST), 0)?;
    player.expect(named(4, LONGEST), 2)?;
    player.expect(named(4, SHORTEST), 0)?;
    player.expect(named(4, &LONGEST[..15]), 0)?;
    Ok(())
}

/// Ports 0, P and P + 1 for every P.
fn ports(both: &Both, tally: &mut Tally) -> Result<(), Finding> {
    for p in 1..=4 {
        let mut player = Player::begin(both, tally, p, 1)?;
        for (row, answer) in PORTED {
            for (port, answer) in [(0, 1), (p, answer), (p + 1, 1)] {
                player.expect_look(&input(row, port, 1, b"A", b""), answer)?;
            }
        }
        for row in PORT_OR_NONE {
            for (port, answer) in [(0, 2), (p, 2), (p + 1, 1)] {
                player.expect_look(&input(row, port, 0, b"A", b""), answer)?;
            }
        }
    }
    Ok(())
}

fn carrier(k: u32) -> Vec<u8> {
    format!("C{k}").into_bytes()
}

/// The 16th and the 17th expected carrier, and one more after a cancel.
fn sixteen_expected(both: &Both, tally: &mut Tally) -> Result<(), Finding> {
    let mut player = Player::begin(both, tally, 1, 0)?;
    for k in 1..=16 {
        player.expect(named(3, &carrier(k)), 0)?;
    }
    player.expect(named(3, &carrier(17)), 6)?;
    player.expect(input(1, 1, 0, &carrier(17), b""), 6)?;
    player.expect(named(3, &carrier(16)), 3)?;
    player.expect(named(4, &carrier(5)), 0)?;
    player.expect(named(3, &carrier(17)), 0)?;
    player.expect(named(3, &carrier(5)), 6)?;
    // A carrier that comes unannounced is not expected, and is taken all the same.
    player.expect(at(13, 1), 0)?;
    player.expect(at(14, 1), 0)?;
    player.expect(input(16, 1, 0, &carrier(5), b""), 0)?;
    player.expect(named(3, &carrier(18)), 6)?;
    Ok(())
}

/// The same where bound carriers are among the sixteen.
fn sixteen_bound(both: &Both, tally: &mut Tally) -> Result<(), Finding> {
    let mut player = Player::begin(both, tally, 4, 16)?;
    for k in 1..=12 {
        player.expect(named(3, &carrier(k)), 0)?;
    }
    for port in 1..=3 {
        player.expect(input(1, port, 0, &carrier(12 + port), b""), 0)?;
    }
    player.expect(named(3, &carrier(16)), 0)?;
    player.expect(input(1, 4, 0, &carrier(17), b""), 6)?;
    player.expect(input(2, 1, 0, &carrier(13), b""), 0)?;
    player.expect(input(1, 4, 0, &carrier(17), b""), 0)?;
    player.expect(named(3, &carrier(18)), 6)?;
    Ok(())
}

/// A verified pod stands at port 1.
fn verified_pod(player: &mut Player, name: &[u8]) -> Result<(), Finding> {
    player.expect(input(1, 1, 0, name, b""), 0)?;
    player.expect(at(13, 1), 0)?;
    player.expect(at(14, 1), 0)?;
    player.expect(input(16, 1, 0, name, b""), 0)?;
    Ok(())
}

/// B = 0: no place is in range, whatever stands at the port.
fn move_in_without_buffer(both: &Both, tally: &mut Tally) -> Result<(), Finding> {
    let mut player = Player::begin(both, tally, 1, 0)?;
    for pod in [false, true] {
        if pod {
            verified_pod(&mut player, b"A")?;
        }
        for place in [0, 1, 2, 16, 17, 255, 256, 257, u32::MAX] {
            player.expect_look(&input(18, 1, place, b"", b""), 1)?;
        }
    }
    Ok(())
}

/// Places 0, 1, B and B + 1, and one that is taken.
fn move_in_places(both: &Both, tally: &mut Tally) -> Result<(), Finding> {
    for places in 1..=16 {
        let mut player = Player::begin(both, tally, 1, places)?;
        verified_pod(&mut player, b"A")?;
        for (place, answer) in [(0, 1), (1, 0), (places, 0), (places + 1, 1), (places + 256, 1)] {
            player.expect_look(&input(18, 1, place, b"", b""), answer)?;
        }
        player.expect(input(18, 1, places, b"", b""), 0)?;
        verified_pod(&mut player, b"B")?;
        player.expect(input(18, 1, places, b"", b""), 8)?;
    }
    Ok(())
}
