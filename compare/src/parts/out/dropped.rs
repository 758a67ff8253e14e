//! What drops a request, and what does not.

use super::super::LONGEST;
use super::*;

/// CancelCarrierOut and CancelAllCarrierOut drop what is not yet started.
pub fn dropped(both: &Both, tally: &mut Tally) -> Result<(), Finding> {
    let mut player = stocked(both, tally, (2, 4), &[b"A", b"B", b"C", b"D"])?;
    player.expect(named(3, b"E"), 0)?;
    for name in [&b"A"[..], b"E", b"N", LONGEST] {
        player.expect_look(&named(29, name), 5)?;
    }
    tell(
        &mut player,
        &[
            (at(30, 0), 0, ""),
            (out(b"A", 1), 0, "A 1 0"),
            (out(b"B", 2), 0, "A 1 0; B 2 0"),
            (out(b"C", 1), 0, "A 1 0; B 2 0; C 1 0"),
            (out(b"D", 2), 0, "A 1 0; B 2 0; C 1 0; D 2 0"),
            (start(2), 0, "A 1 0; B 2 1; C 1 0; D 2 0"),
            (named(29, b"B"), 5, "A 1 0; B 2 1; C 1 0; D 2 0"),
            (named(29, b"C"), 0, "A 1 0; B 2 1; D 2 0"),
            (named(29, b"C"), 5, "A 1 0; B 2 1; D 2 0"),
            (out(b"C", 2), 0, "A 1 0; B 2 1; D 2 0; C 2 0"),
            (named(29, b"A"), 0, "B 2 1; D 2 0; C 2 0"),
            (out(b"A", 1), 0, "B 2 1; D 2 0; C 2 0; A 1 0"),
            (start(1), 0, "B 2 1; D 2 0; C 2 0; A 1 1"),
            (at(30, 0), 0, "B 2 1; A 1 1"),
            (at(30, 0), 0, "B 2 1; A 1 1"),
            (done(1), 0, "B 2 1"),
            (named(29, b"A"), 5, "B 2 1"),
            (done(2), 0, ""),
        ],
    )
}

/// An accepted CancelCarrier drops its carrier's request; a started one runs on and is handed out cancelled.
pub fn cancelled(both: &Both, tally: &mut Tally) -> Result<(), Finding> {
    let mut player = stocked(both, tally, (2, 3), &[b"A", b"B", b"C"])?;
    tell(
        &mut player,
        &[
            (out(b"A", 1), 0, "A 1 0"),
            (out(b"B", 1), 0, "A 1 0; B 1 0"),
            (out(b"C", 2), 0, "A 1 0; B 1 0; C 2 0"),
            (input(6, 1, 0, b"B", b""), 5, "A 1 0; B 1 0; C 2 0"),
            (named(6, b"B"), 0, "A 1 0; C 2 0"),
            (named(6, b"B"), 0, "A 1 0; C 2 0"),
            (start(1), 0, "A 1 1; C 2 0"),
            (named(6, b"A"), 0, "A 1 1; C 2 0"),
            (named(6, b"C"), 0, "A 1 1"),
            (out(b"C", 2), 0, "A 1 1; C 2 0"),
            (done(1), 0, "C 2 0"),
            (start(2), 0, "C 2 1"),
            (done(2), 0, ""),
        ],
    )?;
    let handed_out =
        player.tool.base.carriers().iter().filter(|c| c.cancelled == 1 && c.came_out == 1).count();
    player.demand(handed_out == 2, || "A and C are cancelled, and came out".into())
}
