//! Circuits that are easily taken for a rule's own.
use super::Maker;
use crate::divide::{RUST, STANDARD};
use crate::kind::BV_ASHR;
use crate::pool::{Id, NO, YES};

impl Maker {
    /// A circuit like the rule's: dividers with one thing as the other rule has it or with the carries
    /// exchanged, shifts with another last choice.
    pub fn look_alike(&mut self, rule: u16, left: Id) -> Option<Id> {
        let args = self.pool.args(left).to_vec();
        let bits = match rule {
            21 | 22 | 24 | 25 => {
                let mut divider = if rule < 23 { RUST } else { STANDARD };
                match self.rng.below(6) {
                    k @ (0 | 1) => divider.carry_out[k] ^= true,
                    2 => divider.carry_out = divider.carry_out.map(|out| !out),
                    3 => divider.difference ^= true,
                    4 => divider.quotient_by = 1,
                    _ => divider = if rule < 23 { STANDARD } else { RUST },
                }
                let (quotient, remainder) = self.pool.divided(args[0], args[1], divider);
                if matches!(rule, 21 | 24) { quotient } else { remainder }
            }
            20 | 26 => {
                let x = self.pool.bits(args[0]);
                let beyond = self.rng.pick(&[x[0], x[x.len() - 1], NO, YES]);
                self.pool.shifted(BV_ASHR, args[0], args[1], beyond)
            }
            27..=30 => self.misplaced(rule, left),
            _ => return None,
        };
        Some(self.pool.bb(&bits))
    }

    /// The operand's bits moved otherwise: the other way or one place too far, zeros below, a copy fewer, copies of bits.
    fn misplaced(&mut self, rule: u16, left: Id) -> Vec<Id> {
        let (x, width) = (self.pool.args(left)[0], self.pool.width(left));
        let (mut x, amount) = (self.pool.bits(x), self.pool.term(left).numbers[0] as usize);
        let (added, top) = (width - x.len(), x[x.len() - 1]);
        match (rule, self.rng.below(2)) {
            (27, 0) => return [vec![NO; added], x].concat(),
            (27, _) => x.resize(width, top),
            (28 | 29, 0) => x.rotate_left((amount + 1) % width),
            (28, _) => x.rotate_left(amount % width),
            (29, _) => x.rotate_right(amount % width),
            (_, 0) => return [x.repeat(amount - 1), vec![NO; x.len()]].concat(),
            _ => return (0..width).map(|i| x[i / amount]).collect(),
        }
        x
    }
}
