//! P8: what the documents say of wafers after every outcome, whatever the state; and what the wafers were.

use independent::gen::requests::{totals, TOTALS};
use independent::gen::{unpadded, Input};
use independent::requests::Tool;

use crate::laws::shortened;
use crate::machine::Outcome;

pub const WAFERS: u32 = 35;

/// The Tp that wafers come to, by floats: no sum of good times is ever rounded. Nothing where a time isn't good or Tp is
/// past the clock's range.
pub fn tp(clock: u32, times: &[f64]) -> Option<u32> {
    let good = |time: &f64| (0.0..1_048_576.0).contains(time) && (time * 1024.0).fract() == 0.0;
    let tp = clock as f64 + times.iter().sum::<f64>().ceil();
    (times.iter().all(good) && tp < 4_294_967_296.0).then_some(tp as u32)
}

/// Whether so many times are whole wafers, and not too many.
pub fn counted(times: usize) -> bool {
    times <= 50 && times.is_multiple_of(2)
}

/// Why an outcome on which the programs agree is against P8. What becomes of Tp is P7's.
pub fn unlawful(before: &Tool, input: &Input, o: &Outcome) -> Option<String> {
    if input.number != WAFERS || o.answer == 1 {
        return None;
    }
    if !counted(input.wafers.len()) {
        return Some("more than 25 wafers, or half of one, are answered 1".into());
    }
    match (o.answer, tp(input.clock, &input.times())) {
        (0, None) => Some("a time that isn't good, or a Tp past the clock's range, is answered 12".into()),
        (12, Some(_)) => {
            Some("12 is given to a time that isn't good, or to a Tp past the clock's range".into())
        }
        (12, None) if !awaited(before, input) => Some("2, 5 and 11 come before 12".into()),
        _ => None,
    }
}

/// Whether the carrier that is named waits for a Tp, and the clock doesn't run back.
fn awaited(before: &Tool, input: &Input) -> bool {
    let named = |c: &independent::Carrier| unpadded(&c.name) == shortened(&input.name);
    let p = before.base.carrier.iter().position(named).map(|i| &before.predictions.of[i]);
    p.is_some_and(|p| p.state == 3 && p.tp().is_none()) && input.clock >= before.predictions.clock()
}

/// How often wafers were each of the things that they may be.
#[derive(Clone, Copy, Default)]
pub struct Totalled([u64; TOTALS.len()]);

impl Totalled {
    pub fn note(&mut self, before: &Tool, input: &Input, o: &Outcome) {
        for k in totals(before, input, o.answer) {
            self.0[k] += 1;
        }
    }

    pub fn met(&self) -> usize {
        self.0.iter().filter(|&&times| times > 0).count()
    }

    pub fn unmet(&self) -> Vec<String> {
        let all = TOTALS.iter().zip(self.0).filter(|(_, times)| *times == 0);
        all.map(|(what, _)| what.to_string()).collect()
    }
}

#[cfg(test)]
mod tests {
    use super::*;

    #[test]
    fn a_tp_by_floats() {
        assert_eq!((tp(7, &[]), tp(7, &[-0.0, 0.5]), tp(7, &[0.5, 0.5])), (Some(7), Some(8), Some(8)));
        assert_eq!(
            (tp(7, &[f64::NAN, 0.0]), tp(7, &[-1.0, 0.0]), tp(7, &[1_048_576.0, 0.0])),
            (None, None, None)
        );
        assert_eq!((tp(u32::MAX, &[0.0, 0.0]), tp(u32::MAX, &[0.5, 0.0])), (Some(u32::MAX), None));
        assert_eq!(([0, 2, 50].map(counted), [1, 51, 52].map(counted)), ([true; 3], [false; 3]));
    }
}
