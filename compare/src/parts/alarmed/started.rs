//! Starts by hand and by vehicle.

use super::*;

/// A manual start in AUTO raises the alarm of its own port.
pub fn raised(both: &Both, tally: &mut Tally) -> Result<(), Finding> {
    let on = ["1 0; 0 0; 0 0; 0 0", "0 0; 1 0; 0 0; 0 0", "0 0; 0 0; 1 0; 0 0", "0 0; 0 0; 0 0; 1 0"];
    for (port, on) in (1..).zip(on) {
        let mut player = in_auto(both, tally, SetUp::of(4, 1))?;
        tell(&mut player, &[(at(LOAD, port), 0, &format!("1 {port} 1>3; 9 {port} 0>1"), on)])?;
        let mut player = in_auto(both, tally, SetUp::of(4, 1))?;
        to_unload(&mut player, port, b"A")?;
        tell(&mut player, &[(at(UNLOAD, port), 0, &format!("1 {port} 2>3; 9 {port} 0>1"), on)])?;
    }
    Ok(())
}

/// Automatic in AUTO, manual in MANUAL: no alarm, and LoadDone holds nothing. Automatic in MANUAL is 13.
pub fn as_the_mode_has_it(both: &Both, tally: &mut Tally) -> Result<(), Finding> {
    for places in [0, 2] {
        for auto in [0, 1] {
            let mut player = Player::begin(both, tally, 1, places)?;
            player.expect(input(9, 1, auto, b"", b""), 0)?;
            let start = |number| input(number, 1, auto, b"", b"");
            let other = |number| input(number, 1, 1 - auto, b"", b"");
            player.expect_look(&other(LOAD), 13 * (1 - auto))?;
            tell(&mut player, &[(start(LOAD), 0, "1 1 1>3", "0 0"), (at(DONE, 1), 0, "none", "0 0")])?;
            let pod = player.tool.base.port[0].pod;
            player.demand(pod == 1, || "LoadDone without an alarm brings the pod".into())?;
            player.expect(input(16, 1, 0, b"A", b""), 0)?;
            player.expect(named(6, b"A"), 0)?;
            player.expect_look(&other(UNLOAD), 13 * (1 - auto))?;
            tell(
                &mut player,
                &[(start(UNLOAD), 0, "1 1 2>3", "0 0"), (at(UNLOAD_FAIL, 1), 0, "1 1 3>2", "0 0")],
            )?;
        }
    }
    Ok(())
}

/// With the alarm on already: a second manual start tells nothing of it, an automatic one leaves it on, and so does a
/// change of the mode with a manual start after it.
pub fn a_second_time(both: &Both, tally: &mut Tally) -> Result<(), Finding> {
    let mut player = in_auto(both, tally, SetUp::of(1, 0))?;
    to_unload(&mut player, 1, b"A")?;
    let failed = (at(UNLOAD_FAIL, 1), 0, "1 1 3>2", "1 0");
    tell(
        &mut player,
        &[
            (at(UNLOAD, 1), 0, "1 1 2>3; 9 1 0>1", "1 0"),
            failed.clone(),
            (at(UNLOAD, 1), 0, "1 1 2>3", "1 0"),
            failed.clone(),
            (automatic(UNLOAD, 1), 0, "1 1 2>3", "1 0"),
            failed.clone(),
            (input(9, 1, 0, b"", b""), 0, "2 1 1>0", "1 0"),
            (automatic(UNLOAD, 1), 13, "none", "1 0"),
            (at(UNLOAD, 1), 0, "1 1 2>3", "1 0"),
            failed.clone(),
            (input(9, 1, 1, b"", b""), 0, "2 1 0>1", "1 0"),
            (automatic(UNLOAD, 1), 0, "1 1 2>3", "1 0"),
            (at(UNLOADED, 1), 0, "1 1 3>1; 4 1 1>0; 5 A 4>0; 6 A 1>0; 7 A 1>0; 8 A 1>0; 9 1 1>0", "0 0"),
        ],
    )
}

/// A start does what it did: the reservation ends, the tie stays.
pub fn reserved_and_tied(both: &Both, tally: &mut Tally) -> Result<(), Finding> {
    let mut player = in_auto(both, tally, SetUp::of(2, 0))?;
    player.expect(input(1, 2, 0, b"A", b""), 0)?;
    player.expect(at(11, 1), 0)?;
    player.expect_reports(&automatic(LOAD, 2), "1 2 1>3; 3 2 1>0")?;
    tell(
        &mut player,
        &[
            (at(LOAD, 2), 0, "1 2 1>3; 3 2 1>0; 9 2 0>1", "0 0; 1 0"),
            (at(LOAD, 1), 0, "1 1 1>3; 3 1 1>0; 9 1 0>1", "1 0; 1 0"),
        ],
    )?;
    let tied = player.tool.base.port[1].tied();
    player.demand(tied, || "a LoadStart leaves the tie".into())
}
