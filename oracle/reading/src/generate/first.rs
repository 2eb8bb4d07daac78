//! Jobs about the record of kind 103 itself: where it stands, and what it has behind it.
use super::Maker;
use crate::format::{FOUR, TWO};
use crate::kind::*;

/// Starts of jobs that are not a whole record of kind 103 without a body.
const OTHER_STARTS: [&[u8]; 8] = [
    &[2, 0, 103],
    &[2, 0],
    &[1, 0, 103, 0],
    &[3, 0, 103, 0],
    &[3, 0, 103, 0, 0],
    &[4, 0, 103, 0, 0, 0],
    &[6, 0, 103, 0, 2, 0, 0, 0],
    &[2, 0, 103, 1],
];

impl Maker {
    /// The record alone, twice, second, later, with a body or cut, and records of one length of numbers behind that of the other.
    pub fn first_records(&mut self) {
        let long = self.format == FOUR;
        match self.rng.below(6) {
            0 if long => return,
            1 | 2 if !long => {
                let start = self.rng.pick(&OTHER_STARTS);
                self.bytes.extend(start);
            }
            3 => self.a_few_terms(),
            4 => {
                // What stands behind the first record is not what it says.
                self.format = if long { TWO } else { FOUR };
                return self.a_few_terms();
            }
            _ => {}
        }
        // First in a job whose numbers had two bytes so far, elsewhere unknown.
        let body = self.rng.pick(&[0, 0, 0, 1, 2, 4]);
        self.record(FOUR_BYTES, &vec![0; body]);
        self.a_few_terms();
    }

    fn a_few_terms(&mut self) {
        let x = self.variable(2, 0);
        self.emit(x);
        for _ in 0..self.rng.below(4) {
            self.random_term();
        }
        let claim = self.right_claim(2, x);
        self.step(2, &[claim], None);
    }
}
