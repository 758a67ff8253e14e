//! Row 7: what it asks for, how much the queue holds, and parts that are out of range.

use super::super::{LONGEST, TOO_LONG};
use super::*;

/// Row 7 asks for the record, the buffer and the queue: not for the port, and not whether the carrier is closed.
pub fn asked(both: &Both, tally: &mut Tally) -> Result<(), Finding> {
    let mut player = stocked(both, tally, (4, 3), &[b"A", b"B"])?;
    let busy = [
        input(10, 1, 0, b"", b""),
        at(13, 2),
        input(1, 3, 0, b"T", b""),
        at(11, 4),
        named(19, b"A"),
        input(20, 0, 0, b"A", &THREES),
        named(5, b"A"),
        named(21, b"A"),
    ];
    for input in busy {
        for name in [b"A", b"B"] {
            for port in 1..=4 {
                player.expect_reports(&out(name, port), "none")?;
            }
        }
        player.expect(input, 0)?;
    }
    tell(
        &mut player,
        &[
            (out(b"A", 1), 0, "A 1 0"),
            (out(b"A", 1), 10, "A 1 0"),
            (out(b"A", 4), 10, "A 1 0"),
            (out(b"B", 3), 0, "A 1 0; B 3 0"),
            (out(b"B", 3), 10, "A 1 0; B 3 0"),
        ],
    )
}

/// 1, then 2, then 5; and 5 where 4 applied before P5.
pub fn not_in_the_buffer(both: &Both, tally: &mut Tally) -> Result<(), Finding> {
    let mut player = stocked(both, tally, (2, 1), &[b"A"])?;
    for input in [named(3, b"E"), input(1, 1, 0, b"T", b""), at(13, 2), at(14, 2), input(16, 2, 0, b"P", b"")]
    {
        player.expect(input, 0)?;
    }
    for (name, answer) in
        [(&b"N"[..], 2), (b"E", 5), (b"T", 5), (b"P", 5), (b"A", 0), (b"", 1), (TOO_LONG, 1)]
    {
        for (port, answer) in [(1, answer), (2, answer), (0, 1), (3, 1), (257, 1), ((1 << 31) + 1, 1)] {
            player.expect_look(&out(name, port), answer)?;
        }
    }
    Ok(())
}

/// The fifteenth, the sixteenth and the seventeenth request. Sixteen places have sixteen carriers, so that a full queue
/// meets one that is queued already: 9 is the lower. 1, 2 and 5 are lower still.
pub fn sixteen(both: &Both, tally: &mut Tally) -> Result<(), Finding> {
    let names: Vec<Vec<u8>> = (1..=16).map(|k| format!("C{k}").into_bytes()).collect();
    let given: Vec<&[u8]> = names.iter().map(Vec::as_slice).collect();
    let mut player = stocked(both, tally, (2, 16), &given)?;
    player.expect(named(3, b"E"), 0)?;
    for (k, name) in names.iter().enumerate() {
        player.expect(out(name, 1 + k as u32 % 2), 0)?;
        let again = if k < 15 { 10 } else { 9 };
        for queued in &names[..=k] {
            for (port, answer) in [(1, again), (2, again), (3, 1)] {
                player.expect_look(&out(queued, port), answer)?;
            }
        }
        for (name, answer) in [(&b"N"[..], 2), (b"E", 5)] {
            player.expect_look(&out(name, 1), answer)?;
        }
    }
    // Started ones count too; one that is out doesn't, nor one that is dropped.
    player.expect(start(1), 0)?;
    player.expect_look(&out(b"C1", 1), 9)?;
    player.expect_look(&out(b"C9", 2), 9)?;
    player.expect(done(1), 0)?;
    for (name, answer) in [(b"C1", 5), (b"C9", 10)] {
        player.expect_look(&out(name, 1), answer)?;
    }
    player.expect(named(29, b"C9"), 0)?;
    player.expect(out(b"C9", 1), 0)?;
    player.expect_look(&out(b"C9", 1), 10)?;
    let told = queue(&player);
    player.demand(told.ends_with("C15 1 0; C16 2 0; C9 1 0"), || format!("the last are C16 and C9: [{told}]"))
}

/// Names with blanks, and names that are the beginning of another.
pub fn names(both: &Both, tally: &mut Tally) -> Result<(), Finding> {
    let mut player = stocked(both, tally, (1, 3), &[LONGEST, &LONGEST[..15], b"A"])?;
    let padded = |name: &[u8]| [name, b"  "].concat();
    tell(
        &mut player,
        &[
            (out(&padded(LONGEST), 1), 0, "ABCDEFGHIJKLMNOP 1 0"),
            (named(29, &padded(&LONGEST[..15])), 5, "ABCDEFGHIJKLMNOP 1 0"),
            (out(&padded(LONGEST), 1), 10, "ABCDEFGHIJKLMNOP 1 0"),
            (out(b"A ", 1), 0, "ABCDEFGHIJKLMNOP 1 0; A 1 0"),
            (named(29, &padded(LONGEST)), 0, "A 1 0"),
            (out(&LONGEST[..15], 1), 0, "A 1 0; ABCDEFGHIJKLMNO 1 0"),
            (named(29, LONGEST), 5, "A 1 0; ABCDEFGHIJKLMNO 1 0"),
            (named(29, b"A                               "), 0, "ABCDEFGHIJKLMNO 1 0"),
            (named(6, &padded(&LONGEST[..15])), 0, ""),
        ],
    )?;
    for text in [&b""[..], b" ", b" A", b"A A", b"A\0", TOO_LONG, &[b' '; 33]] {
        player.expect_look(&named(29, text), 1)?;
        player.expect_look(&out(text, 1), 1)?;
    }
    Ok(())
}

/// Ports out of range; and parts that a row doesn't name, which are not looked at.
pub fn parts_out_of_range(both: &Both, tally: &mut Tally) -> Result<(), Finding> {
    for ports in 1..=4 {
        let mut player = stocked(both, tally, (ports, 2), &[b"A", b"B"])?;
        player.expect(out(b"A", ports), 0)?;
        for port in [0, ports + 1, 255, 256 + ports, (1 << 16) + ports, (1 << 31) + ports, u32::MAX] {
            for row in [27, 28, 12, 13] {
                player.expect_look(&at(row, port), 1)?;
            }
            player.expect_look(&out(b"B", port), 1)?;
            player.expect_look(&input(29, port, port, b"A", &[9; 30]), 0)?;
            player.expect_look(&input(30, port, port, b" A", &[9; 30]), 0)?;
        }
        player.expect_look(&input(27, ports, 9, b"B", &[9; 30]), 0)?;
        player.expect(input(27, ports, u32::MAX, b" ", &THREES), 0)?;
        player.expect(input(28, ports, u32::MAX, b"B", &THREES), 0)?;
    }
    Ok(())
}
