//! OutStart and OutDone, and what is refused from the one to the other.

use super::*;

/// The oldest for that port, and not the oldest of all.
pub fn oldest_first(both: &Both, tally: &mut Tally) -> Result<(), Finding> {
    let mut player = stocked(both, tally, (2, 4), &[b"A", b"B", b"C", b"D"])?;
    tell(
        &mut player,
        &[
            (start(1), 5, ""),
            (out(b"D", 2), 0, "D 2 0"),
            (start(1), 5, "D 2 0"),
            (out(b"B", 1), 0, "D 2 0; B 1 0"),
            (out(b"A", 1), 0, "D 2 0; B 1 0; A 1 0"),
            (out(b"C", 2), 0, "D 2 0; B 1 0; A 1 0; C 2 0"),
            (done(1), 5, "D 2 0; B 1 0; A 1 0; C 2 0"),
            (start(1), 0, "D 2 0; B 1 1; A 1 0; C 2 0"),
            (start(1), 4, "D 2 0; B 1 1; A 1 0; C 2 0"),
            (out(b"B", 1), 10, "D 2 0; B 1 1; A 1 0; C 2 0"),
            (out(b"B", 2), 10, "D 2 0; B 1 1; A 1 0; C 2 0"),
            (done(2), 5, "D 2 0; B 1 1; A 1 0; C 2 0"),
            (start(2), 0, "D 2 1; B 1 1; A 1 0; C 2 0"),
            (done(1), 0, "D 2 1; A 1 0; C 2 0"),
            (done(1), 5, "D 2 1; A 1 0; C 2 0"),
            (start(1), 4, "D 2 1; A 1 0; C 2 0"),
            (done(2), 0, "A 1 0; C 2 0"),
            (at(24, 1), 0, "A 1 0; C 2 0"),
            (at(25, 1), 0, "A 1 0; C 2 0"),
            (start(1), 0, "A 1 1; C 2 0"),
            (done(1), 0, "C 2 0"),
        ],
    )
}

/// One that is open or in access is passed over and keeps its place.
pub fn passed_over(both: &Both, tally: &mut Tally) -> Result<(), Finding> {
    let mut player = stocked(both, tally, (2, 2), &[b"A", b"B"])?;
    let both_wait = "A 1 0; B 1 0";
    tell(
        &mut player,
        &[
            (out(b"A", 1), 0, "A 1 0"),
            (named(19, b"A"), 0, "A 1 0"),
            (start(1), 5, "A 1 0"),
            (input(20, 0, 0, b"A", &THREES), 0, "A 1 0"),
            (named(5, b"A"), 0, "A 1 0"),
            (named(21, b"A"), 0, "A 1 0"),
            (start(1), 5, "A 1 0"),
            (named(6, b"A"), 5, "A 1 0"),
            (out(b"B", 1), 0, both_wait),
        ],
    )?;
    for input in [start(1), input(22, 0, 1, b"A", b"")] {
        player.expect_look(&input, 0)?;
    }
    tell(&mut player, &[(input(22, 0, 1, b"A", b""), 0, both_wait), (start(1), 0, "A 1 0; B 1 1")])?;
    tell(
        &mut player,
        &[
            (named(23, b"A"), 0, "A 1 0; B 1 1"),
            (done(1), 0, "A 1 0"),
            (named(8, b"B"), 0, "A 1 0"),
            (input(18, 1, 2, b"", b""), 0, "A 1 0"),
            (out(b"B", 1), 0, both_wait),
            (start(1), 0, "A 1 1; B 1 0"),
        ],
    )
}

/// 4 for a port that is reserved or tied, by whomever; then 5 unless READY TO LOAD; and 5 with nothing to take.
pub fn held_ports(both: &Both, tally: &mut Tally) -> Result<(), Finding> {
    let mut player = stocked(both, tally, (4, 4), &[b"A", b"B", b"C", b"D"])?;
    let ports = [at(11, 1), input(1, 2, 0, b"T", b""), at(13, 3), input(10, 4, 0, b"", b"")];
    for input in ports {
        player.expect(input, 0)?;
    }
    let answers = [(1, 4), (2, 4), (3, 5), (4, 5)];
    for (port, answer) in answers {
        player.expect_look(&start(port), answer)?;
    }
    for (port, name) in (1..).zip([b"A", b"B", b"C", b"D"]) {
        player.expect(out(name, port), 0)?;
    }
    for (port, answer) in answers {
        player.expect_look(&start(port), answer)?;
        player.expect_look(&done(port), 5)?;
    }
    // Tied and loading, tied and loaded, READY TO UNLOAD, unloading.
    let loaded = [at(13, 2), at(14, 2), input(16, 2, 0, b"T", b""), named(6, b"T"), at(24, 2)];
    for input in loaded {
        player.expect(input, 0)?;
        player.expect_look(&start(2), 4)?;
    }
    for input in [at(12, 1), at(25, 2), at(15, 3), input(10, 4, 1, b"", b"")] {
        player.expect(input, 0)?;
    }
    for port in 1..=4 {
        player.expect(start(port), 0)?;
        player.expect_look(&start(port), 4)?;
    }
    for port in 1..=4 {
        player.expect(done(port), 0)?;
    }
    Ok(())
}

/// The queue itself is never reported.
pub fn reports(both: &Both, tally: &mut Tally) -> Result<(), Finding> {
    let mut player = stocked(both, tally, (2, 3), &[b"A", b"B", b"C"])?;
    let told = [
        (out(b"A", 2), "none"),
        (out(b"B", 2), "none"),
        (out(b"C", 1), "none"),
        (named(29, b"B"), "none"),
        (start(2), "3 2 0>1"),
        (named(6, b"C"), "none"),
        (at(30, 0), "none"),
        (at(30, 0), "none"),
        (done(2), "1 2 1>2; 3 2 1>0; 4 2 0>1"),
    ];
    for (input, reports) in told {
        player.expect_reports(&input, reports)?;
        player.expect(input, 0)?;
    }
    let a = &player.tool.base.carrier[0];
    let out = (a.place, a.spot, a.port, a.came_out, a.cancelled) == (1, 0, 2, 1, 0);
    let port = &player.tool.base.port[1];
    let there = (port.pod, port.tag, port.reserved) == (1, 1, 0);
    player.demand(out && there, || "OutDone does row 7's effect and ends the reservation".into())
}

/// From OutStart to OutDone Open is 5, before 7 and 8, and LoadStart and CancelReservationAtPort are 4.
pub fn until_done(both: &Both, tally: &mut Tally) -> Result<(), Finding> {
    let mut player = stocked(both, tally, (2, 2), &[b"A", b"B"])?;
    player.expect(out(b"A", 1), 0)?;
    player.expect(out(b"B", 2), 0)?;
    let looks = |player: &mut Player, answers: [u32; 5]| -> Result<(), Finding> {
        let inputs = [named(19, b"A"), at(13, 1), at(12, 1), at(13, 2), named(19, b"B")];
        for (input, answer) in inputs.iter().zip(answers) {
            player.expect_look(input, answer)?;
        }
        Ok(())
    };
    looks(&mut player, [0, 0, 5, 0, 0])?;
    player.expect(start(1), 0)?;
    looks(&mut player, [5, 4, 4, 0, 0])?;
    // Another is open: 8 would apply. Cancelled: 7 would.
    player.expect(named(19, b"B"), 0)?;
    looks(&mut player, [5, 4, 4, 0, 5])?;
    player.expect(named(6, b"A"), 0)?;
    looks(&mut player, [5, 4, 4, 0, 5])?;
    // Its place is its own until then.
    for input in [input(1, 2, 0, b"N", b""), at(13, 2), at(14, 2), input(16, 2, 0, b"N", b"")] {
        player.expect(input, 0)?;
    }
    player.expect_look(&input(18, 2, 1, b"", b""), 8)?;
    player.expect(done(1), 0)?;
    looks(&mut player, [5, 5, 4, 5, 5])?;
    player.expect_look(&input(18, 2, 1, b"", b""), 0)
}

/// A request that waits holds neither its port nor its carrier.
pub fn waiting_holds_nothing(both: &Both, tally: &mut Tally) -> Result<(), Finding> {
    let mut player = stocked(both, tally, (1, 1), &[b"A"])?;
    tell(
        &mut player,
        &[
            (out(b"A", 1), 0, "A 1 0"),
            (at(11, 1), 0, "A 1 0"),
            (start(1), 4, "A 1 0"),
            (done(1), 5, "A 1 0"),
            (at(12, 1), 0, "A 1 0"),
            (at(13, 1), 0, "A 1 0"),
            (start(1), 5, "A 1 0"),
            (at(15, 1), 0, "A 1 0"),
            (named(19, b"A"), 0, "A 1 0"),
            (named(23, b"A"), 0, "A 1 0"),
            (start(1), 0, "A 1 1"),
        ],
    )
}
