//! A pod that is held, until Continue or LoadFail.

use super::*;

/// LoadDone holds the pod and changes nothing else; Continue does what LoadDone did.
pub fn until_continue(both: &Both, tally: &mut Tally) -> Result<(), Finding> {
    let mut player = in_auto(both, tally, SetUp::fixed(1, 60, 120))?;
    player.expect(input(1, 1, 0, b"A", b""), 0)?;
    player.expect(at(LOAD, 1), 0)?;
    let before = player.tool;
    tell(&mut player, &[(at(DONE, 1), 0, "none", "1 1"), (at(DONE, 1), 5, "none", "1 1")])?;
    player.demand(player.tool.base == before.base, || "a held port is still loading".into())?;
    tell(
        &mut player,
        &[
            (at(CONTINUE, 1), 0, "9 1 1>0", "0 0"),
            (at(CONTINUE, 1), 5, "none", "0 0"),
            (at(DONE, 1), 5, "none", "0 0"),
            (input(16, 1, 0, b"A", b""), 0, "5 A 1>3", "0 0"),
            (named(19, b"A"), 0, "none", "0 0"),
        ],
    )
}

/// LoadFail clears the alarm, before LoadDone and after it, and lets go of the pod.
pub fn until_load_fail(both: &Both, tally: &mut Tally) -> Result<(), Finding> {
    let mut player = in_auto(both, tally, SetUp::of(1, 1))?;
    let failed = (at(FAIL, 1), 0, "1 1 3>1; 9 1 1>0", "0 0");
    tell(
        &mut player,
        &[
            (at(LOAD, 1), 0, "1 1 1>3; 9 1 0>1", "1 0"),
            failed.clone(),
            (at(LOAD, 1), 0, "1 1 1>3; 9 1 0>1", "1 0"),
            (at(DONE, 1), 0, "none", "1 1"),
            failed.clone(),
            (at(CONTINUE, 1), 5, "none", "0 0"),
            (automatic(LOAD, 1), 0, "1 1 1>3", "0 0"),
            (at(DONE, 1), 0, "none", "0 0"),
        ],
    )?;
    let pod = player.tool.base.port[0].pod;
    player.demand(pod == 1, || "LoadDone without an alarm brings the pod".into())
}

/// What a port that is loading is refused, a held one is refused too.
pub fn still_loading(both: &Both, tally: &mut Tally) -> Result<(), Finding> {
    let mut player = in_auto(both, tally, SetUp::of(2, 1))?;
    player.expect(input(1, 1, 0, b"A", b""), 0)?;
    hold(&mut player, 1)?;
    let valued = |number, value| input(number, 1, value, b"", b"");
    looks(
        &mut player,
        &[
            (input(2, 1, 0, b"A", b""), 5),
            (valued(9, 0), 5),
            (valued(9, 1), 0),
            (valued(10, 0), 4),
            (valued(10, 1), 0),
            (at(11, 1), 4),
            (at(12, 1), 4),
            (at(LOAD, 1), 5),
            (automatic(LOAD, 1), 5),
            (at(DONE, 1), 5),
            (input(16, 1, 0, b"A", b""), 5),
            (at(17, 1), 5),
            (valued(18, 1), 5),
            (at(UNLOAD, 1), 5),
            (at(UNLOADED, 1), 5),
            (at(UNLOAD_FAIL, 1), 5),
            (at(27, 1), 4),
            (at(28, 1), 5),
            (at(FAIL, 1), 0),
            (at(CONTINUE, 1), 0),
        ],
    )
}

/// Two ports, each with its own pod: what is done at one leaves the other as it is.
pub fn beside_each_other(both: &Both, tally: &mut Tally) -> Result<(), Finding> {
    let mut player = in_auto(both, tally, SetUp::of(3, 0))?;
    tell(
        &mut player,
        &[
            (at(LOAD, 1), 0, "1 1 1>3; 9 1 0>1", "1 0; 0 0; 0 0"),
            (at(LOAD, 3), 0, "1 3 1>3; 9 3 0>1", "1 0; 0 0; 1 0"),
            (automatic(LOAD, 2), 0, "1 2 1>3", "1 0; 0 0; 1 0"),
            (at(DONE, 3), 0, "none", "1 0; 0 0; 1 1"),
            (at(CONTINUE, 1), 5, "none", "1 0; 0 0; 1 1"),
            (at(DONE, 2), 0, "none", "1 0; 0 0; 1 1"),
            (at(CONTINUE, 2), 5, "none", "1 0; 0 0; 1 1"),
            (at(DONE, 1), 0, "none", "1 1; 0 0; 1 1"),
            (at(FAIL, 3), 0, "1 3 3>1; 9 3 1>0", "1 1; 0 0; 0 0"),
            (at(CONTINUE, 3), 5, "none", "1 1; 0 0; 0 0"),
            (at(CONTINUE, 1), 0, "9 1 1>0", "0 0; 0 0; 0 0"),
        ],
    )
}

/// What no run has: a tag that isn't unread, which stays while the pod is held and is unread after Continue; and a port
/// in MANUAL, where the pod is held as in AUTO.
pub fn off_runs(both: &Both, tally: &mut Tally) -> Result<(), Finding> {
    for (tag, access) in [(0, 0), (0, 1), (1, 0), (1, 1), (2, 0), (2, 1)] {
        let mut player = in_auto(both, tally, SetUp::of(1, 0))?;
        player.expect(at(LOAD, 1), 0)?;
        let mut tool = player.tool;
        (tool.base.port[0].tag, tool.base.port[0].access) = (tag, access);
        for (row, left) in [(DONE, (1, 0, tag)), (CONTINUE, (0, 1, 0))] {
            let o = crate::play::from_state(both, tally, &tool, &at(row, 1))?;
            let port = &o.tool.base.port[0];
            if !o.accepted() || (port.movement, port.pod, port.tag) != left {
                let why = format!("after row {row} movement, pod and tag are {left:?}");
                return Err(Finding::Law(Box::new(tool), Box::new(at(row, 1)), why));
            }
            tool = o.tool;
        }
    }
    Ok(())
}
