//! P8's edges, with the answers that it gives: wafers whose times are good or aren't, and the Tp that they come to.

mod chance;
mod limits;
mod refused;
mod sums;

use independent::gen::requests::whole;
use independent::gen::{Input, Rng};

use super::foretold::{accessed, clock, none, predictions, tell, tp, LAST};
use super::{at, input, named, timed, wafers};
use crate::machine::{Both, SetUp};
use crate::play::{Finding, Player, Tally};

const PART: f64 = 1.0 / 1024.0;
/// The longest good time, and the first that is too long.
const LONGEST: f64 = 1_048_576.0 - PART;
const TOO_LONG: f64 = 1_048_576.0;

/// Inputs by chance: at least so many.
const LEAST: u64 = 20_000;

pub fn compare(both: &Both, total: u64, rng: &mut Rng) -> Result<Tally, Finding> {
    let mut tally = Tally::default();
    limits::known(both, &mut tally)?;
    limits::every_exponent(both, &mut tally)?;
    limits::neighbours(both, &mut tally)?;
    limits::every_place(both, &mut tally)?;
    limits::payloads(both, &mut tally)?;
    sums::rounded(both, &mut tally)?;
    sums::no_wafers(both, &mut tally)?;
    sums::at_the_last_clock(both, &mut tally)?;
    sums::judged(both, &mut tally)?;
    refused::counts(both, &mut tally)?;
    refused::lowest_first(both, &mut tally)?;
    refused::nothing_stays(both, &mut tally)?;
    refused::names_and_numbers(both, &mut tally)?;
    let each = total.max(LEAST) / 4;
    chance::any_bits(both, &mut tally, each, rng)?;
    chance::totals(both, &mut tally, each, rng)?;
    chance::mixed(both, &mut tally, each, rng)?;
    chance::near_the_end(both, &mut tally, each, rng)?;
    Ok(tally)
}

/// Wafers for A at clock 5, where nothing else is wrong.
fn of(times: &[f64]) -> Input {
    wafers(5, b"A", times)
}

fn of_bits(bits: &[u64]) -> Input {
    Input { wafers: bits.to_vec(), ..of(&[]) }
}

/// A waits for its prediction at clock 0, with a setting of 60 seconds and a timeout of 120.
fn waiting<'a>(both: &'a Both, tally: &'a mut Tally) -> Result<Player<'a>, Finding> {
    accessed(both, tally, (60, 120), &[b"A"])
}
