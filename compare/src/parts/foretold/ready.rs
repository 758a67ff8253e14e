//! Ready, cancelled, made and gone.

use super::*;

/// PREDICTED and ABORTED are COMPLETED by Close and by UnloadFail, and COMPLETED stays.
pub fn completed(both: &Both, tally: &mut Tally) -> Result<(), Finding> {
    for (told, state, times) in [(tp(0, b"A", 60), 4, "60 -"), (none(0, b"A"), 5, "- -")] {
        let mut player = accessed(both, tally, (60, 120), &[b"A"])?;
        let (open, done) = (format!("A {state} {times}"), format!("A 6 {times}"));
        let (turn, ready) = (format!("8 A 3>{state}"), format!("1 1 3>2; 8 A {state}>6"));
        let gone = "1 1 3>1; 4 1 1>0; 5 A 3>0; 6 A 3>0; 7 A 3>0; 8 A 6>0";
        tell(
            &mut player,
            &[
                (told.clone(), &turn, &open),
                (input(22, 0, 1, b"A", b""), "7 A 2>4", &open),
                (named(23, b"A"), &ready, &done),
                (clock(LAST), "none", &done),
                (at(24, 1), "1 1 2>3", &done),
                (at(26, 1), "1 1 3>2", &done),
                (named(6, b"A"), "none", &done),
                (at(24, 1), "1 1 2>3", &done),
            ],
        )?;
        player.expect_reports(&at(25, 1), &gone.replace("7 A 3>0", "7 A 4>0"))?;
        // Told while it is unloaded: the port isn't ready until UnloadFail.
        let mut player = accessed(both, tally, (60, 120), &[b"A"])?;
        finish(&mut player, b"A")?;
        player.expect(at(24, 1), 0)?;
        tell(&mut player, &[(told, &turn, &open)])?;
        player.expect_reports(&at(25, 1), &gone.replace("8 A 6", &format!("8 A {state}")))?;
        tell(&mut player, &[(at(26, 1), &ready, &done)])?;
    }
    Ok(())
}

/// Ready while it waits is nothing yet; when it is judged 25 or 29 comes at once.
pub fn while_it_waits(both: &Both, tally: &mut Tally) -> Result<(), Finding> {
    let mut player = accessed(both, tally, (60, 120), &[b"A"])?;
    tell(
        &mut player,
        &[
            (named(22, b"A"), "7 A 2>3", "A 3 - -"),
            (named(23, b"A"), "1 1 3>2", "A 3 - -"),
            (clock(100), "none", "A 3 - -"),
        ],
    )?;
    for (told, reports) in [
        (tp(100, b"A", 160), "8 A 3>4; 8 A 4>6"),
        (tp(100, b"A", 161), "none"),
        (tp(300, b"A", 180), "8 A 3>5; 8 A 5>6"),
        (none(100, b"A"), "8 A 3>5; 8 A 5>6"),
    ] {
        player.expect_reports(&told, reports)?;
    }
    player.expect(tp(100, b"A", 500), 0)?;
    for (told, reports) in [
        (clock(440), "8 A 3>4; 8 A 4>6"),
        (clock(620), "8 A 3>5; 8 A 5>6"),
        (te(100, b"A", 620), "8 A 3>5; 8 A 5>6"),
        (none(100, b"A"), "8 A 3>5; 8 A 5>6"),
    ] {
        player.expect_reports(&told, reports)?;
    }
    Ok(())
}

/// CancelCarrier in every state.
pub fn cancelled(both: &Both, tally: &mut Tally) -> Result<(), Finding> {
    let mut player = Player::set_up(both, tally, SetUp::fixed(1, 60, 120))?;
    for input in [input(1, 1, 0, b"A", b""), at(13, 1), at(14, 1), input(16, 1, 0, b"A", b""), clock(50)] {
        player.expect(input, 0)?;
    }
    tell(
        &mut player,
        &[
            (named(6, b"A"), "1 1 3>2; 8 A 2>3; 8 A 3>4; 8 A 4>6", "A 6 50 -"),
            (named(6, b"A"), "none", "A 6 50 -"),
        ],
    )?;
    for (told, reports, left) in [
        (clock(9), "1 1 3>2", "A 3 - -"),
        (tp(9, b"A", 500), "1 1 3>2", "A 3 500 -"),
        (tp(9, b"A", 60), "1 1 3>2; 8 A 4>6", "A 6 60 -"),
        (tp(900, b"A", 60), "1 1 3>2; 8 A 5>6", "A 6 60 -"),
        (none(9, b"A"), "1 1 3>2; 8 A 5>6", "A 6 - -"),
    ] {
        let mut player = accessed(both, tally, (60, 120), &[b"A"])?;
        player.expect_look(&named(6, b"A"), 5)?;
        player.expect(named(22, b"A"), 0)?;
        player.expect(told, 0)?;
        tell(&mut player, &[(named(6, b"A"), reports, left), (named(6, b"A"), "none", left)])?;
    }
    Ok(())
}

/// DISABLED, by AccessStart and by CancelCarrier, and for good.
pub fn setting_of_0(both: &Both, tally: &mut Tally) -> Result<(), Finding> {
    let mut player = accessed(both, tally, (0, 120), &[b"A"])?;
    let left = predictions(&player);
    player.demand(left == "A 1 - -", || format!("AccessStart disables it, not {left}"))?;
    for told in [tp(5, b"A", 5), te(5, b"A", 5), none(5, b"A")] {
        player.expect_look(&told, 5)?;
    }
    tell(
        &mut player,
        &[
            (clock(5), "none", "A 1 - -"),
            (named(22, b"A"), "7 A 2>3", "A 1 - -"),
            (named(23, b"A"), "1 1 3>2", "A 1 - -"),
            (named(6, b"A"), "none", "A 1 - -"),
        ],
    )?;
    let mut player = Player::set_up(both, tally, SetUp::fixed(1, 0, 120))?;
    for input in [input(1, 1, 0, b"A", b""), at(13, 1), at(14, 1), input(16, 1, 0, b"A", b"")] {
        player.expect(input, 0)?;
    }
    tell(&mut player, &[(named(6, b"A"), "1 1 3>2; 8 A 2>1", "A 1 - -")])
}

/// A cancel at an unknown pod: nine reports where it makes the record.
pub fn at_an_unknown_pod(both: &Both, tally: &mut Tally) -> Result<(), Finding> {
    for (setting, turns, left) in [(60, "8 A 2>3; 8 A 3>4; 8 A 4>6", "A 6 9 -"), (0, "8 A 2>1", "A 1 - -")] {
        let mut player = Player::set_up(both, tally, SetUp::fixed(1, setting, 120))?;
        for input in [at(13, 1), at(14, 1), at(17, 1), clock(9)] {
            player.expect(input, 0)?;
        }
        let made = "5 A 0>4; 6 A 0>1; 7 A 0>1; 8 A 0>2";
        let cancel = input(6, 1, 0, b"A", b"");
        player.expect_reports(&cancel, &format!("1 1 3>2; 4 1 0>1; {made}; {turns}"))?;
        let proceeds = "4 1 0>1; 5 A 0>3; 6 A 0>1; 7 A 0>1; 8 A 0>2";
        player.expect_reports(&input(5, 1, 0, b"A", b""), proceeds)?;
        player.expect(named(3, b"A"), 0)?;
        tell(&mut player, &[(cancel, &format!("1 1 3>2; 4 1 0>1; 5 A 1>4; {turns}"), left)])?;
    }
    Ok(())
}

/// Records that are made, go and move up.
pub fn records(both: &Both, tally: &mut Tally) -> Result<(), Finding> {
    let mut player = accessed(both, tally, (60, 120), &[b"A", b"B", b"C"])?;
    for (name, time) in [(b"A", 1000), (b"B", 2000), (b"C", 3000)] {
        player.expect(tp(1, name, time), 0)?;
    }
    finish(&mut player, b"B")?;
    player.expect(at(24, 2), 0)?;
    let gone = "1 2 3>1; 4 2 1>0; 5 B 3>0; 6 B 3>0; 7 B 3>0; 8 B 3>0";
    let made = "5 E 0>1; 6 E 0>1; 7 E 0>1; 8 E 0>2";
    let nine = "4 2 1>1; 5 D 1>0; 5 E 0>2; 6 D 1>0; 6 E 0>1; 7 D 1>0; 7 E 0>1; 8 D 2>0; 8 E 0>2";
    let bound = "3 2 0>1; 4 2 0>1; 5 D 0>1; 6 D 0>1; 7 D 0>1; 8 D 0>2";
    let two = "A 3 1000 -; C 3 3000 -";
    let (three, four) = (format!("{two}; D 2 - -"), format!("{two}; D 2 - -; E 2 - -"));
    tell(
        &mut player,
        &[
            (at(25, 2), gone, two),
            (input(1, 2, 0, b"D", b""), bound, &three),
            (named(3, b"E"), made, &four),
            (named(4, b"E"), &made.replace("0>1", "1>0").replace("0>2", "2>0"), &three),
            (at(13, 2), "1 2 1>3; 3 2 1>0", &three),
            (at(14, 2), "none", &three),
            (input(16, 2, 0, b"E", b""), nine, &format!("{two}; E 2 - -")),
            (te(1, b"C", 7), "none", "A 3 1000 -; C 3 3000 7; E 2 - -"),
            (clock(940), "8 A 3>4", "A 4 1000 -; C 3 3000 7; E 2 - -"),
        ],
    )
}
