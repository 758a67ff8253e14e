//! What P9 refuses, the lowest number first.

use super::*;

/// A start is 0 or 1; another number is 1, in every mode and state, and before 4.
pub fn values(both: &Both, tally: &mut Tally) -> Result<(), Finding> {
    let cut = LOST.into_iter().flat_map(|high| [high, high + 1]);
    let neither: Vec<u32> = (2..=300).chain(ODD).chain(cut).filter(|&value| value > 1).collect();
    for auto in [0, 1] {
        let mut player = Player::begin(both, tally, 2, 1)?;
        player.expect(input(9, 1, auto, b"", b""), 0)?;
        player.expect(input(9, 2, auto, b"", b""), 0)?;
        for input in [input(LOAD, 2, auto, b"", b""), at(DONE, 2), input(16, 2, 0, b"A", b""), named(6, b"A")]
        {
            player.expect(input, 0)?;
        }
        for &value in &neither {
            for port in [1, 2] {
                player.expect_look(&input(LOAD, port, value, b"", b""), 1)?;
                player.expect_look(&input(UNLOAD, port, value, b"", b""), 1)?;
            }
            // Rows that have no such number don't look at it.
            player.expect_look(&input(CONTINUE, 1, value, b"", b""), 5)?;
        }
    }
    Ok(())
}

/// 1, 4, 5 and then 13.
pub fn lowest_first(both: &Both, tally: &mut Tally) -> Result<(), Finding> {
    let mut player = Player::begin(both, tally, 1, 1)?;
    let starts = |player: &mut Player, load, unload| {
        looks(player, &[(automatic(LOAD, 1), load), (automatic(UNLOAD, 1), unload)])
    };
    starts(&mut player, 13, 5)?;
    for input in [input(1, 1, 0, b"A", b""), at(LOAD, 1), at(DONE, 1), input(16, 1, 0, b"A", b"")] {
        let load = if input.number == 1 { 13 } else { 5 };
        player.expect(input, 0)?;
        starts(&mut player, load, 5)?;
    }
    player.expect(input(18, 1, 1, b"", b""), 0)?;
    player.expect(input(7, 1, 0, b"A", b""), 0)?;
    starts(&mut player, 13, 5)?;
    // A started request: 4 before 13, and 1 before 4.
    player.expect(at(27, 1), 0)?;
    starts(&mut player, 4, 5)?;
    looks(&mut player, &[(at(LOAD, 1), 4), (input(LOAD, 1, 2, b"", b""), 1)])?;
    player.expect(at(28, 1), 0)?;
    starts(&mut player, 5, 13)?;
    player.expect(at(UNLOAD, 1), 0)?;
    starts(&mut player, 5, 5)?;
    player.expect(at(UNLOADED, 1), 0)?;
    // A reservation of the host's refuses no load; out of service is 5.
    player.expect(at(11, 1), 0)?;
    starts(&mut player, 13, 5)?;
    player.expect(at(12, 1), 0)?;
    player.expect(input(10, 1, 0, b"", b""), 0)?;
    starts(&mut player, 5, 5)
}

/// Continue with nothing held is 5, whatever the port does; so is a second LoadDone.
pub fn nothing_held(both: &Both, tally: &mut Tally) -> Result<(), Finding> {
    let mut player = in_auto(both, tally, SetUp::of(1, 0))?;
    let story = [
        (automatic(LOAD, 1), 0),
        (at(FAIL, 1), 0),
        (at(LOAD, 1), 0),
        (at(DONE, 1), 0),
        (at(CONTINUE, 1), 0),
        (input(16, 1, 0, b"A", b""), 0),
        (named(6, b"A"), 0),
        (at(UNLOAD, 1), 0),
        (at(UNLOAD_FAIL, 1), 0),
        (at(UNLOAD, 1), 0),
        (at(UNLOADED, 1), 0),
        (input(10, 1, 0, b"", b""), 0),
    ];
    player.expect_look(&at(CONTINUE, 1), 5)?;
    for (input, answer) in story {
        let holds = player.tool.alarms[0].on == 1 && input.number == DONE;
        player.expect(input, answer)?;
        player.expect_look(&at(CONTINUE, 1), if holds { 0 } else { 5 })?;
        if holds {
            player.expect_look(&at(DONE, 1), 5)?;
        }
    }
    Ok(())
}

/// Ports out of range are 1, before all others.
pub fn ports(both: &Both, tally: &mut Tally) -> Result<(), Finding> {
    for ports in 1..=4 {
        let mut player = in_auto(both, tally, SetUp::of(ports, 0))?;
        hold(&mut player, ports)?;
        let cut = LOST.into_iter().map(|high| high + ports);
        for port in [0, ports + 1, 255, u32::MAX].into_iter().chain(cut) {
            for row in [LOAD, DONE, FAIL, UNLOAD, UNLOADED, UNLOAD_FAIL, CONTINUE] {
                for value in [0, 1, 2] {
                    player.expect_look(&input(row, port, value, b"", b""), 1)?;
                }
            }
        }
        // Parts that Continue doesn't name are not looked at.
        player.expect_look(&input(CONTINUE, ports, u32::MAX, b" bad", &[9; 30]), 0)?;
    }
    Ok(())
}
