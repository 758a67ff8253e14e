//! Where the alarm clears, and where it does not.

use super::*;

/// UnloadDone clears it, behind the reports of the record; UnloadFail keeps it.
pub fn unloaded(both: &Both, tally: &mut Tally) -> Result<(), Finding> {
    for (places, told) in [
        (0, "1 1 3>1; 4 1 1>0; 5 A 4>0; 6 A 1>0; 7 A 1>0; 8 A 1>0; 9 1 1>0"),
        (3, "1 1 3>1; 4 1 1>0; 5 A 4>0; 6 A 1>0; 7 A 1>0; 9 1 1>0"),
    ] {
        let mut player = in_auto(both, tally, SetUp::of(2, places))?;
        to_unload(&mut player, 1, b"A")?;
        tell(
            &mut player,
            &[
                (at(UNLOAD, 1), 0, "1 1 2>3; 9 1 0>1", "1 0; 0 0"),
                (at(UNLOAD_FAIL, 1), 0, "1 1 3>2", "1 0; 0 0"),
                (named(6, b"A"), 0, "none", "1 0; 0 0"),
                (at(UNLOAD, 1), 0, "1 1 2>3", "1 0; 0 0"),
                (at(UNLOADED, 1), 0, told, "0 0; 0 0"),
                (at(UNLOADED, 1), 5, "none", "0 0; 0 0"),
                (automatic(LOAD, 1), 0, "1 1 1>3", "0 0; 0 0"),
            ],
        )?;
    }
    Ok(())
}

/// A carrier that came out, was touched by hand, and goes back inside: CarrierIn keeps the alarm, MoveIn clears it.
pub fn moved_in(both: &Both, tally: &mut Tally) -> Result<(), Finding> {
    let mut player = in_auto(both, tally, SetUp::of(1, 2))?;
    let inside = [
        input(1, 1, 0, b"A", b""),
        automatic(LOAD, 1),
        at(DONE, 1),
        input(16, 1, 0, b"A", b""),
        input(18, 1, 1, b"", b""),
        input(7, 1, 0, b"A", b""),
        at(27, 1),
        at(28, 1),
    ];
    for input in inside {
        player.expect(input, 0)?;
    }
    tell(
        &mut player,
        &[
            (at(UNLOAD, 1), 0, "1 1 2>3; 9 1 0>1", "1 0"),
            (at(UNLOAD_FAIL, 1), 0, "1 1 3>2", "1 0"),
            (named(8, b"A"), 0, "1 1 2>3", "1 0"),
            (input(9, 1, 0, b"", b""), 0, "2 1 1>0", "1 0"),
            (input(9, 1, 1, b"", b""), 0, "2 1 0>1", "1 0"),
            (input(18, 1, 3, b"", b""), 1, "none", "1 0"),
        ],
    )?;
    // CancelCarrier makes the port READY TO UNLOAD again, which doesn't clear it either.
    player.expect_reports(&named(6, b"A"), "1 1 3>2")?;
    tell(&mut player, &[(input(18, 1, 2, b"", b""), 0, "1 1 3>1; 4 1 1>0; 9 1 1>0", "0 0")])
}

/// Service in clears it at a port that is out with its alarm on, as no run has it; what is in already stays as it is.
pub fn back_in_service(both: &Both, tally: &mut Tally) -> Result<(), Finding> {
    let service = |value| input(10, 1, value, b"", b"");
    let mut player = in_auto(both, tally, SetUp::of(1, 0))?;
    player.expect(service(0), 0)?;
    let mut tool = player.tool;
    tool.alarms[0].on = 1;
    for (value, told) in [(0, "none"), (1, "1 1 0>1; 9 1 1>0")] {
        let o = crate::play::from_state(both, tally, &tool, &service(value))?;
        let is = crate::script::tabled(&o.reports);
        if is != told || !o.accepted() {
            let why = format!("service {value} with the alarm on reports {told}, not {is}");
            return Err(Finding::Law(Box::new(tool), Box::new(service(value)), why));
        }
    }
    let mut player = in_auto(both, tally, SetUp::of(1, 0))?;
    hold(&mut player, 1)?;
    tell(&mut player, &[(service(1), 0, "none", "1 1"), (service(0), 5, "none", "1 1")])
}

/// A LoadStart that is refused, another port's READY TO LOAD and inputs of the host leave it on.
pub fn not_cleared(both: &Both, tally: &mut Tally) -> Result<(), Finding> {
    let mut player = in_auto(both, tally, SetUp::of(2, 1))?;
    to_unload(&mut player, 1, b"A")?;
    to_unload(&mut player, 2, b"B")?;
    let gone = "1 2 3>1; 4 2 1>0; 5 B 4>0; 6 B 1>0; 7 B 1>0; 9 2 1>0";
    tell(
        &mut player,
        &[
            (at(UNLOAD, 1), 0, "1 1 2>3; 9 1 0>1", "1 0; 0 0"),
            (at(UNLOAD, 2), 0, "1 2 2>3; 9 2 0>1", "1 0; 1 0"),
            (at(UNLOADED, 2), 0, gone, "1 0; 0 0"),
            (at(LOAD, 1), 5, "none", "1 0; 0 0"),
            (at(CONTINUE, 1), 5, "none", "1 0; 0 0"),
            (at(DONE, 1), 5, "none", "1 0; 0 0"),
            (at(FAIL, 1), 5, "none", "1 0; 0 0"),
            (named(3, b"E"), 0, "5 E 0>1; 6 E 0>1; 7 E 0>1", "1 0; 0 0"),
            (at(30, 0), 0, "none", "1 0; 0 0"),
        ],
    )
}
