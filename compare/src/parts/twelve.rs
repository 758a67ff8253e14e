//! Document 01's run to check by hand: P = 2, B = 0. P7 adds its model to the reports; the setting is 0.

use independent::gen::Input;

use super::{at, input, named};
use crate::machine::Both;
use crate::play::{Finding, Player, Tally};
use crate::script::tabled;

const THREES: [u8; 25] = [3; 25];

/// The table: input, answer, reports.
pub fn rows() -> [(Input, u32, &'static str); 12] {
    [
        (input(1, 1, 0, b"AB", b""), 0, "3 1 0>1; 4 1 0>1; 5 AB 0>1; 6 AB 0>1; 7 AB 0>1; 8 AB 0>2"),
        (at(13, 1), 0, "1 1 1>3; 3 1 1>0"),
        (at(14, 1), 0, "none"),
        (
            input(16, 1, 0, b"AC", b""),
            0,
            "4 1 1>1; 5 AB 1>0; 5 AC 0>2; 6 AB 1>0; 6 AC 0>1; 7 AB 1>0; 7 AC 0>1; 8 AB 2>0; 8 AC 0>2",
        ),
        (named(19, b"AC"), 7, "none"),
        (named(5, b"AC"), 0, "5 AC 2>3"),
        (named(19, b"AC"), 0, "none"),
        (input(20, 0, 0, b"AC", &THREES), 0, "6 AC 1>2"),
        (named(21, b"AC"), 7, "none"),
        (named(5, b"AC"), 0, "6 AC 2>3"),
        (named(21, b"AC"), 0, "7 AC 1>2; 8 AC 2>1"),
        (named(6, b"AC"), 5, "none"),
    ]
}

pub fn compare(both: &Both) -> Result<Tally, Finding> {
    let mut tally = Tally::default();
    let mut player = Player::begin(both, &mut tally, 2, 0)?;
    for (input, answer, reports) in rows() {
        let told = tabled(&player.expect(input, answer)?.reports);
        player.demand(told == reports, || format!("the last input reports {reports}, not {told}"))?;
    }
    Ok(tally)
}
