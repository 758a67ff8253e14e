//! Which answers each row has given: the documents allow 145 pairs of a row and an answer to a sound tool.
//!
//! P1 adds none to document 01's 104: a map that can't be expected is 1, which rows 1 and 3 had already, and row 20 has
//! no new number. That a slot map was OK at once shows in no pair, and is counted by itself. P5 takes 4 from row 7 and
//! gives it 9 and 10, gives 4 to row 13, and adds four rows: 13 pairs more. Rows 12 and 19 had 4 and 5 already. P7
//! adds four rows, 17 pairs, and P8 one row, 6 pairs. P9 gives 13 to rows 13 and 24 and adds one row: 5 pairs more.

/// Each row's answers to a sound tool: 0, 1, and what its text names. Rows 30 and 31 have no part that could be out
/// of range.
pub const ALLOWED: [&[u32]; 36] = [
    &[0, 1, 3, 4, 5, 6],
    &[0, 1, 2, 5],
    &[0, 1, 3, 6],
    &[0, 1, 2, 5],
    &[0, 1, 2, 5],
    &[0, 1, 2, 5],
    &[0, 1, 2, 5, 9, 10],
    &[0, 1, 2, 5],
    &[0, 1, 4, 5],
    &[0, 1, 4, 5],
    &[0, 1, 4, 5],
    &[0, 1, 4, 5],
    &[0, 1, 4, 5, 13],
    &[0, 1, 5],
    &[0, 1, 5],
    &[0, 1, 3, 5],
    &[0, 1, 5],
    &[0, 1, 5, 7, 8],
    &[0, 1, 2, 5, 7, 8],
    &[0, 1, 2, 5],
    &[0, 1, 2, 5, 7],
    &[0, 1, 2, 5],
    &[0, 1, 2, 5],
    &[0, 1, 5, 13],
    &[0, 1, 5],
    &[0, 1, 5],
    &[0, 1, 4, 5],
    &[0, 1, 5],
    &[0, 1, 5],
    &[0],
    &[0, 11],
    &[0, 1, 2, 5, 11],
    &[0, 1, 2, 5, 11],
    &[0, 1, 2, 5, 11],
    &[0, 1, 2, 5, 11, 12],
    &[0, 1, 5],
];

/// How many pairs the documents allow.
pub fn allowed() -> usize {
    ALLOWED.iter().map(|answers| answers.len()).sum()
}

/// Whether the documents allow this answer to this input number. 1 is also the answer of a tool that isn't sound.
pub fn may_answer(number: u32, answer: u32) -> bool {
    let row = (number as usize).checked_sub(1).and_then(|row| ALLOWED.get(row));
    answer == 1 || row.is_some_and(|answers| answers.contains(&answer))
}

/// The pairs met, as a bit for each answer in a row's word.
#[derive(Clone, Copy)]
pub struct Pairs([u16; ALLOWED.len()]);

impl Default for Pairs {
    fn default() -> Pairs {
        Pairs([0; ALLOWED.len()])
    }
}

impl Pairs {
    /// Takes note of an answer that a sound tool may give; another is no pair.
    pub fn meet(&mut self, number: u32, answer: u32) {
        let row = (number as usize).wrapping_sub(1);
        if ALLOWED.get(row).is_some_and(|answers| answers.contains(&answer)) {
            self.0[row] |= 1 << answer;
        }
    }

    /// The pairs met by either.
    pub fn or(&self, other: &Pairs) -> Pairs {
        Pairs(std::array::from_fn(|row| self.0[row] | other.0[row]))
    }

    pub fn met(&self) -> usize {
        self.0.iter().map(|row| row.count_ones() as usize).sum()
    }

    /// The pairs that the documents allow and that were not met.
    pub fn missing(&self) -> Vec<(usize, u32)> {
        let unmet = |row: usize, answer: u32| self.0[row] & 1 << answer == 0;
        let pairs = ALLOWED.iter().enumerate().flat_map(|(row, all)| all.iter().map(move |&a| (row, a)));
        pairs.filter(|&(row, answer)| unmet(row, answer)).map(|(row, answer)| (row + 1, answer)).collect()
    }
}

#[cfg(test)]
mod tests {
    use super::*;

    #[test]
    fn the_documents_allow_145_pairs() {
        assert_eq!(allowed(), 145);
        assert!(may_answer(19, 7) && !may_answer(19, 6) && !may_answer(37, 0) && may_answer(0, 1));
        assert!(may_answer(7, 10) && !may_answer(7, 4) && may_answer(13, 4) && may_answer(30, 1));
        assert!(may_answer(31, 11) && !may_answer(31, 5) && may_answer(34, 11) && !may_answer(34, 12));
        assert!(may_answer(35, 12) && may_answer(35, 0) && !may_answer(35, 3) && may_answer(37, 1));
        assert!(may_answer(13, 13) && may_answer(24, 13) && !may_answer(24, 4) && !may_answer(14, 13));
        assert!(may_answer(36, 0) && may_answer(36, 5) && !may_answer(36, 13));
    }

    #[test]
    fn what_was_not_met_is_missing() {
        let mut pairs = Pairs::default();
        for (row, answers) in ALLOWED.iter().enumerate() {
            for &answer in answers.iter().filter(|&&answer| (row, answer) != (20, 7)) {
                pairs.meet(row as u32 + 1, answer);
            }
        }
        for number in [0, 30, 31, 37] {
            pairs.meet(number, 1);
        }
        assert_eq!((pairs.met(), pairs.missing()), (144, vec![(21, 7)]));
        let mut other = Pairs::default();
        other.meet(21, 7);
        assert_eq!((pairs.or(&other).met(), other.or(&other).met()), (145, 1));
    }
}
