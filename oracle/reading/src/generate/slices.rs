//! The slices of rule 23, right and wrong.
use super::Maker;
use crate::kind::*;
use crate::pool::Id;

impl Maker {
    /// A bvand cut into slices, from the top down.
    pub fn sliced(&mut self, left: Id) -> Id {
        let args = self.pool.args(left).to_vec();
        let mut top = self.pool.width(left);
        let mut slices = Vec::new();
        while top > 0 {
            let low = if self.rng.chance(40) { top - 1 } else { self.rng.below(top) };
            let numbers = [top as u64 - 1, low as u64];
            let parts: Vec<Id> = args.iter().map(|&x| self.pool.add(EXTRACT, &numbers, &[x])).collect();
            slices.push(self.pool.op(BV_AND, &parts));
            top = low;
        }
        self.pool.op(CONCAT, &slices)
    }

    /// Slices in another order, or one of them changed; now and then two changes, so that the order of the tests is seen.
    pub fn other_slices(&mut self, right: Id) -> Id {
        let other = self.changed_slices(right);
        if self.rng.chance(40) { self.changed_slices(other) } else { other }
    }

    fn changed_slices(&mut self, right: Id) -> Id {
        let mut slices = self.pool.args(right).to_vec();
        let k = self.rng.below(slices.len());
        if self.rng.chance(30) {
            slices.rotate_left(k);
            return self.pool.op(CONCAT, &slices);
        }
        let mut parts = self.pool.args(slices[k]).to_vec();
        let mut kind = BV_AND;
        match self.rng.below(6) {
            2 => parts.reverse(),
            3 => kind = self.rng.pick(&[BV_OR, BV_XNOR]),
            4 => parts.push(parts[0]),
            n => {
                let which = self.rng.below(2);
                parts[which] = self.moved(parts[which], n == 1);
                if n == 1 && self.rng.chance(50) {
                    parts[1 - which] = self.moved(parts[1 - which], true);
                }
            }
        }
        slices[k] = self.pool.op(kind, &parts);
        self.pool.op(CONCAT, &slices)
    }

    /// An extract of as many bits, from one place lower or higher, or of another operand.
    fn moved(&mut self, part: Id, place: bool) -> Id {
        let term = self.pool.term(part).clone();
        let (i, j, x) = (term.numbers[0], term.numbers[1], term.args[0]);
        if !place {
            let other = self.stranger(x);
            return self.pool.add(EXTRACT, &term.numbers, &[other]);
        }
        let lower = [i.wrapping_sub(1), j.wrapping_sub(1)];
        let moved =
            self.pool.try_add(EXTRACT, &lower, &[x]).or_else(|| self.pool.try_add(EXTRACT, &[i + 1, j + 1], &[x]));
        moved.unwrap_or(part)
    }
}
