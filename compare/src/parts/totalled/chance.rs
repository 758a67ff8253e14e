//! Times of any bits, and totals by chance. Answers and Tps are held against the documents' words by the laws.

use independent::gen::requests::{random_time, totalling};

use super::*;

/// Looks from one state, of which most are of the kind that is drawn.
fn many(
    both: &Both,
    tally: &mut Tally,
    total: u64,
    mut draw: impl FnMut() -> Option<Input>,
) -> Result<(), Finding> {
    let mut player = waiting(both, tally)?;
    for _ in 0..total {
        if let Some(input) = draw() {
            player.look(&input)?;
        }
    }
    Ok(())
}

/// One time of any bits, or nearly a good one.
pub fn any_bits(both: &Both, tally: &mut Tally, total: u64, rng: &mut Rng) -> Result<(), Finding> {
    many(both, tally, total, || {
        let bits = if rng.chance(30) { rng.draw() } else { random_time(rng) };
        Some(of_bits(&if rng.chance(50) { [bits, 0] } else { [whole(rng.below(5000)), bits] }))
    })
}

/// Good times of any total, at any clock.
pub fn totals(both: &Both, tally: &mut Tally, total: u64, rng: &mut Rng) -> Result<(), Finding> {
    many(both, tally, total, || {
        let most = rng.pick(&[2048, 1 << 17, 1 << 30, 1 << 34, 50 << 30]);
        let wafers = totalling(rng.draw() % most, rng)?;
        Some(Input { clock: rng.draw() as u32, wafers, ..of(&[]) })
    })
}

/// Any number of times, some of them good.
pub fn mixed(both: &Both, tally: &mut Tally, total: u64, rng: &mut Rng) -> Result<(), Finding> {
    many(both, tally, total, || {
        let (count, good) = (rng.below(54), rng.pick(&[90, 99, 100]));
        let time =
            |rng: &mut Rng| if rng.chance(good) { whole(rng.below(1 << 30)) } else { random_time(rng) };
        Some(of_bits(&(0..count).map(|_| time(rng)).collect::<Vec<u64>>()))
    })
}

/// Totals that bring a clock near its end to 2^32 - 1, to 2^32, and just before and past them.
pub fn near_the_end(both: &Both, tally: &mut Tally, total: u64, rng: &mut Rng) -> Result<(), Finding> {
    many(both, tally, total, || {
        let before = rng.pick(&[0, 1, 2, 60, 1000, 1 << 20, 50 << 20]);
        let seconds = if before == 0 { 0 } else { rng.below(before) + 1 };
        let by = rng.pick(&[-1025, -1024, -1023, -1, 0, 0, 1, 1023, 1024, 1025]);
        let wafers = totalling((1024 * seconds as i64 + by).max(0) as u64, rng)?;
        Some(Input { clock: LAST - seconds, wafers, ..of(&[]) })
    })
}
