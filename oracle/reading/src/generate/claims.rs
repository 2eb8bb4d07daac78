//! Left sides and right claims for every rule.
use super::Maker;
use crate::kind::*;
use crate::pool::{Id, NO, YES};
use crate::rule::{expected, left_kind};

/// The rules whose circuits grow with the square of the width.
pub fn is_heavy(rule: u16) -> bool {
    matches!(rule, 11 | 21 | 22 | 24 | 25)
}

impl Maker {
    /// A width for a rule's operands.
    pub fn a_width(&mut self, rule: u16) -> usize {
        let most = if is_heavy(rule) { 12 } else { 64 };
        match self.rng.below(10) {
            0..=5 => self.rng.range(1, 6),
            6..=8 => self.rng.range(1, most),
            _ => self.rng.pick(&[1, 2, 31, 32, 33, 63, 64]).min(most),
        }
    }

    /// Operands of one width: variables, or anything.
    fn operands(&mut self, width: usize, count: usize) -> Vec<Id> {
        let plain = self.rng.chance(40);
        (0..count).map(|k| if plain { self.variable(width, k) } else { self.vector(width, 2) }).collect()
    }

    fn count_of_operands(&mut self, rule: u16, width: usize) -> usize {
        match rule {
            7 | 12 | 15 | 17 | 27..=30 => 1,
            3..=5 | 10 if width < 4 && self.rng.chance(10) => 64,
            3..=5 | 10 => self.rng.pick(&[1, 2, 2, 2, 3, 5]),
            11 => self.rng.pick(&[1, 2, 2, 2, 3]),
            _ => 2,
        }
    }

    /// A left side of the rule's form, over operands of a width.
    pub fn left(&mut self, rule: u16, width: usize) -> Id {
        let Some(kind) = left_kind(rule) else {
            return if rule == 1 { self.constant(width) } else { self.vector(width, 2) };
        };
        if kind == CONCAT {
            return self.joined(width);
        }
        let count = self.count_of_operands(rule, width);
        let mut args = self.operands(width, count);
        if kind == BV_ASHR && self.rng.chance(60) {
            args[0] = self.topped(width);
        }
        let numbers = match kind {
            EXTRACT => {
                let i = self.rng.below(width);
                vec![i as u64, self.rng.range(0, i) as u64]
            }
            SIGN_EXTEND => vec![self.rng.range(0, 64 - width) as u64],
            ZERO_EXTEND..=REPEAT => vec![self.amount(kind, width) as u64],
            _ => vec![],
        };
        self.pool.add(kind, &numbers, &args)
    }

    /// An amount that fits, often the smallest or largest one.
    pub fn amount(&mut self, kind: u16, width: usize) -> usize {
        let most = match kind {
            ZERO_EXTEND => 64 - width,
            REPEAT => 64 / width,
            _ => 65_535,
        };
        let any = self.rng.range(0, most);
        let amount = self.rng.pick(&[0, 1, width - 1, width, width + 1, most, any, any % 64]);
        amount.clamp(usize::from(kind == REPEAT), most)
    }

    /// A vector whose top bit is false, said in different ways, or only its lowest bit.
    fn topped(&mut self, width: usize) -> Id {
        let x = self.variable(width, 0);
        let mut bits = self.pool.bits(x);
        let top = width - 1;
        match self.rng.below(8) {
            0 => return self.pool.add(CONSTANT, &[width as u64, 0], &[]),
            1 if width > 1 => {
                let (zero, low) = (self.pool.add(CONSTANT, &[1, 0], &[]), self.variable(top, 1));
                return self.pool.op(CONCAT, &[zero, low]);
            }
            2 => bits[top] = self.pool.not(YES),
            3 => {
                let zero = self.pool.add(CONSTANT, &[1, 0], &[]);
                bits[top] = self.pool.bit(0, zero);
            }
            4 => bits[0] = NO,
            _ => bits[top] = NO,
        }
        self.pool.bb(&bits)
    }

    /// A concat of at most 64 bits.
    fn joined(&mut self, width: usize) -> Id {
        let mut left = 64 - width;
        let mut args = self.operands(width, 1);
        while left > 0 && self.rng.chance(60) {
            let next = self.rng.range(1, left.min(20));
            args.extend(self.operands(next, 1));
            left -= next;
        }
        self.pool.op(CONCAT, &args)
    }

    pub fn equals(&mut self, x: Id, y: Id) -> Id {
        self.pool.op(EQUALS, &[x, y])
    }

    /// The right claim of a rule for a left side.
    pub fn right_claim(&mut self, rule: u16, left: Id) -> Id {
        let right = if rule == 23 { self.sliced(left) } else { expected(&mut self.pool, rule, left) };
        self.equals(left, right)
    }

    /// A job about one rule: right claims and wrong ones.
    pub fn claims_of(&mut self, rule: u16) {
        for _ in 0..self.rng.range(1, 2) {
            let width = self.a_width(rule);
            let left = self.left(rule, width);
            let right = self.right_claim(rule, left);
            for _ in 0..self.rng.range(1, 5) {
                self.wrong_step(rule, left, right);
            }
            self.step(rule, &[right], Some(true));
            self.wrong_step(rule, left, right);
            self.maybe_back(20);
        }
    }

    /// A short job of small claims, for lengths of memory around what it needs.
    pub fn small_steps(&mut self, rule: u16) {
        let mut rule = rule;
        for _ in 0..self.rng.range(1, 4) {
            let width = self.rng.range(1, 3);
            let left = self.left(rule, width);
            let right = self.right_claim(rule, left);
            self.step(rule, &[right], Some(true));
            self.maybe_back(30);
            rule = self.any_rule();
        }
    }
}
