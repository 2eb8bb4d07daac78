//! Terms of bits, and what is known of their inputs.
use super::Maker;
use crate::job::Final;
use crate::kind::*;
use crate::partial::OPEN;
use crate::pool::Id;
use crate::question::Standing;
use crate::value::fill;

/// Assignments that are tried of those that fit what is known.
const TRIED: usize = 32;

impl Maker {
    /// Gates over the bits of some variables, each over any of those before it; rows of them, and bits of these.
    pub fn gates(&mut self) {
        let bits = self.rng.pick(&[1, 2, 3, 4, 5, 6, 8, 16, 17, 30, 70]);
        let over = self.some_variables(bits);
        let mut made: Vec<Id> = (0..self.rng.range(2, 10)).map(|_| self.bool_over(&over, 0)).collect();
        for _ in 0..self.rng.range(3, 30) {
            let kind = self.rng.pick(&[NOT, AND, AND, OR, OR, XOR, EQUALS, ITE, BB_TERM, CONSTANT]);
            let count = match kind {
                NOT | CONSTANT => 1,
                XOR | EQUALS => 2,
                ITE => 3,
                _ => self.rng.range(1, 6),
            };
            let args: Vec<Id> = (0..count).map(|_| self.rng.pick(&made)).collect();
            let term = match kind {
                CONSTANT => self.pool.add(CONSTANT, &[5, self.rng.below(32) as u64], &[]),
                _ => self.pool.op(kind, &args),
            };
            made.push(match self.pool.width(term) {
                0 => term,
                width => {
                    self.emit(term);
                    let k = self.rng.below(width);
                    self.pool.bit(k, term)
                }
            });
        }
        for id in made {
            self.emit(id);
        }
    }

    /// A length of the output around what a width needs.
    pub fn room_around(&mut self, width: usize) -> usize {
        let need = width.max(1);
        match self.rng.below(12) {
            0 => need - 1,
            1 => 0,
            2..=5 => need,
            _ => need + self.rng.range(1, 20),
        }
    }

    /// What is known of so many inputs, most often one byte for each; seldom a byte too many or too few, or one above 2.
    pub fn some_inputs(&mut self, bits: usize) -> Vec<u8> {
        let known = self.rng.pick(&[0, 20, 50, 70, 80, 90, 100]);
        let wrong = self.rng.below(16);
        let bits = match wrong {
            0 => bits + 1,
            1 => bits.saturating_sub(1),
            _ => bits,
        };
        let mut inputs: Vec<u8> =
            (0..bits).map(|_| if self.rng.chance(known) { self.rng.below(2) as u8 } else { OPEN }).collect();
        if wrong == 2 && bits > 0 {
            let at = self.rng.below(bits);
            inputs[at] = self.rng.pick(&[3, 4, 128, 255]);
        }
        inputs
    }

    /// Whether derived bits are those of assignments that fit what is known, and stay where one more input is.
    pub fn untrue(
        &mut self,
        store: &Final,
        root: Id,
        standing: &Standing,
        inputs: &[u8],
        bits: &[u8],
    ) -> Option<String> {
        let open: Vec<usize> = (0..inputs.len()).filter(|&k| inputs[k] == OPEN).collect();
        let mut values = vec![0; root + 1];
        for assignment in 0..TRIED {
            let mut whole = inputs.to_vec();
            for (k, &place) in open.iter().enumerate() {
                whole[place] = if open.len() <= 5 { assignment >> k & 1 } else { self.rng.below(2) } as u8;
            }
            let given = standing.given(&store.pool, &whole);
            let number = |id: Id| given(id).iter().rev().fold(0, |value, &bit| 2 * value + u64::from(bit));
            fill(&store.pool, &standing.below, &mut values, &mut |id| number(id));
            let wrong = |(k, &bit): (usize, &u8)| bit != OPEN && u64::from(bit) != values[root] >> k & 1;
            if let Some(k) = bits.iter().enumerate().position(wrong) {
                return Some(format!("bit {k} is another where the inputs are {whole:?}"));
            }
        }
        let mut more = inputs.to_vec();
        more[self.rng.pick(if open.is_empty() { return None } else { &open })] = self.rng.below(2) as u8;
        let changed = |(&old, new): (&u8, u8)| old != OPEN && old != new;
        let k = bits.iter().zip(standing.derived(&store.pool, root, &more)).position(changed)?;
        Some(format!("bit {k} changes where the inputs are {more:?}"))
    }
}
