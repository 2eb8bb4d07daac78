//! Operands and left sides of every shape, and the right side that the original wants.
use crate::ast::Operator;
use crate::checker::error::{CheckerError, EqualityError};
use crate::job::call_rule;
use crate::maker::{Maker, T, args_of};

/// A name that no job carries.
pub(super) const DUMMY: u32 = 1_000_000;

pub(super) fn nary(rule: u16) -> Option<Operator> {
    Some(match rule {
        3 => Operator::BvAnd,
        4 => Operator::BvOr,
        5 => Operator::BvXor,
        10 => Operator::BvAdd,
        11 => Operator::BvMul,
        _ => return None,
    })
}

pub(super) fn binary(rule: u16) -> Option<Operator> {
    Some(match rule {
        6 => Operator::BvXNor,
        8 => Operator::BvULt,
        9 => Operator::BvSLt,
        13 => Operator::Equals,
        14 => Operator::BvComp,
        18 => Operator::BvShl,
        19 => Operator::BvLShr,
        20 => Operator::BvAShr,
        21 => Operator::BvUDiv,
        22 => Operator::BvURem,
        _ => return None,
    })
}

/// About how many terms a circuit takes.
pub(super) fn cost(rule: u16, w: usize, args: usize) -> usize {
    match rule {
        11 => (args.max(2) - 1) * 3 * w * w,
        21 | 22 => 16 * w * w,
        18..=20 => 16 * w,
        _ => args.max(2) * 6 * w,
    }
}

impl Maker {
    // Operands

    pub(super) fn value(&mut self) -> u64 {
        match self.rng.below(5) {
            0 => 0,
            1 => u64::MAX,
            2 => self.rng.below(4) as u64,
            3 => 1 << self.rng.below(64),
            _ => self.rng.number(),
        }
    }

    pub(super) fn name(&mut self) -> u32 {
        match self.rng.below(12) {
            0 => 65_535,
            1 => self.rng.below(65_536) as u32,
            _ => self.rng.below(4) as u32,
        }
    }

    pub(super) fn any_var(&mut self, w: usize) -> T {
        let name = self.name();
        self.var(w, name)
    }

    pub(super) fn any_bool(&mut self, depth: usize) -> T {
        match self.rng.below(if depth == 0 { 5 } else { 10 }) {
            0 => self.lit(true),
            1 => self.lit(false),
            2 | 3 => {
                let n = self.name();
                self.bool_var(n)
            }
            4 | 5 => {
                let w = self.rng.range(1, 8);
                let x = self.any_bv_with_gates(w, depth);
                let i = self.rng.below(w);
                self.bit(i, &x)
            }
            6 => {
                let a = self.any_bool(depth - 1);
                self.not(&a)
            }
            7 => {
                let (a, b) = (self.any_bool(depth - 1), self.any_bool(depth - 1));
                let op = *self.rng.pick(&[Operator::And, Operator::Or, Operator::Xor, Operator::Equals]);
                self.op2(op, &a, &b)
            }
            8 => {
                let (a, b, c) = (self.any_bool(depth - 1), self.any_bool(depth - 1), self.any_bool(depth - 1));
                match self.rng.below(3) {
                    0 => self.op(Operator::And, vec![a, b, c]),
                    1 => self.op(Operator::Or, vec![a]),
                    _ => self.ite(&a, &b, &c),
                }
            }
            _ => {
                let w = self.rng.range(1, 5);
                let a = self.any_bv_with_gates(w, depth);
                let b = self.any_bv_with_gates(w, depth);
                let op = *self.rng.pick(&[Operator::BvULt, Operator::BvSLt, Operator::Equals]);
                self.op2(op, &a, &b)
            }
        }
    }

    /// A variable, or (for depths that must not be counted) a term over gates.
    fn any_bv_with_gates(&mut self, w: usize, depth: usize) -> T {
        if depth == 0 || self.rng.chance(60) {
            return self.any_var(w);
        }
        let bits = (0..w).map(|_| self.any_bool(depth - 1)).collect();
        let x = self.bb(bits);
        match self.rng.below(4) {
            0 => self.op(Operator::BvNot, vec![x]),
            1 => self.sign_extend(0, &x),
            _ => x,
        }
    }

    fn any_bb(&mut self, w: usize) -> T {
        let f = self.lit(false);
        let mode = self.rng.below(7);
        let known = self.rng.range(0, w);
        let x = self.any_var(w);
        let mut bits = Vec::new();
        for i in 0..w {
            bits.push(match mode {
                0 => f.clone(),
                1 => {
                    let b = self.rng.chance(50);
                    self.lit(b)
                }
                // false on top
                2 | 3 => {
                    if i >= known {
                        f.clone()
                    } else {
                        self.bit(i, &x)
                    }
                }
                4 => self.bit(i, &x),
                5 => {
                    let k = self.rng.below(w);
                    self.bit(k, &x)
                }
                _ => self.any_bool(2),
            });
        }
        self.bb(bits)
    }

    /// A vector whose top bit is false, said in different ways, or only its lowest bit.
    fn topped(&mut self, w: usize) -> T {
        let (x, zero) = (self.any_var(w), self.constant(1, 0));
        let mut bits = self.bits(&x);
        let f = self.lit(false);
        match self.rng.below(7) {
            0 => return self.constant(w, 0),
            1 if w > 1 => {
                let low = self.any_var(w - 1);
                return self.op2(Operator::BvConcat, &zero, &low);
            }
            2 => {
                let t = self.lit(true);
                bits[w - 1] = self.not(&t);
            }
            3 => bits[w - 1] = self.bit(0, &zero),
            4 => bits[0] = f,
            _ => bits[w - 1] = f,
        }
        self.bb(bits)
    }

    fn compound(&mut self, w: usize, depth: usize) -> T {
        match self.rng.below(8) {
            0 => {
                let a = self.operand(w, depth + 1);
                let op = *self.rng.pick(&[Operator::BvNot, Operator::BvNeg]);
                self.op(op, vec![a])
            }
            1 | 2 => {
                let m = self.rng.range(1, 3);
                let args = (0..m).map(|_| self.operand(w, depth + 1)).collect();
                let op = *self.rng.pick(&[
                    Operator::BvAnd,
                    Operator::BvOr,
                    Operator::BvXor,
                    Operator::BvAdd,
                    Operator::BvMul,
                ]);
                self.op(op, args)
            }
            3 | 4 => {
                let (a, b) = (self.operand(w, depth + 1), self.operand(w, depth + 1));
                let op = *self.rng.pick(&[
                    Operator::BvXNor,
                    Operator::BvShl,
                    Operator::BvLShr,
                    Operator::BvAShr,
                    Operator::BvUDiv,
                    Operator::BvURem,
                ]);
                self.op2(op, &a, &b)
            }
            5 => {
                let from = self.rng.range(w, 64);
                let a = self.operand(from, depth + 1);
                let j = self.rng.range(0, from - w);
                self.extract(j + w - 1, j, &a)
            }
            6 => {
                if w == 1 {
                    let n = self.rng.range(1, 6);
                    let (a, b) = (self.operand(n, depth + 1), self.operand(n, depth + 1));
                    self.op2(Operator::BvComp, &a, &b)
                } else {
                    self.any_concat(w, depth + 1)
                }
            }
            _ => {
                let k = self.rng.range(0, w - 1);
                let a = self.operand(w - k, depth + 1);
                self.sign_extend(k, &a)
            }
        }
    }

    fn any_concat(&mut self, w: usize, depth: usize) -> T {
        let mut left = w;
        let mut args = Vec::new();
        let most = *self.rng.pick(&[1, 2, 2, 3, 5, 64]);
        while left > 0 {
            let n = if args.len() + 1 >= most {
                left
            } else if most == 64 {
                1
            } else {
                self.rng.range(1, left)
            };
            args.push(self.operand(n, depth));
            left -= n;
        }
        self.op(Operator::BvConcat, args)
    }

    pub(super) fn operand(&mut self, w: usize, depth: usize) -> T {
        match self.rng.below(if depth > 1 { 7 } else { 10 }) {
            0..=4 => self.any_var(w),
            5 => {
                let v = self.value();
                self.constant(w, v)
            }
            6 | 7 => self.any_bb(w),
            _ => self.compound(w, depth),
        }
    }

    // Left sides and their circuits

    /// A left side for a rule other than 23, of main width w. `plain`: variables only.
    pub(super) fn left(&mut self, rule: u16, w: usize, plain: bool) -> T {
        let mut name = 0;
        let mut get = |m: &mut Maker, w: usize| {
            name += 1;
            if plain { m.var(w, name - 1) } else { m.operand(w, 0) }
        };
        if let Some(op) = nary(rule) {
            let mut n = if plain { 2 } else { *self.rng.pick(&[1, 1, 2, 2, 2, 2, 3, 3, 4, 5, 64]) };
            while n > 2 && cost(rule, w, n) > 12_000 {
                n -= 1;
            }
            let args = (0..n).map(|_| get(self, w)).collect();
            return self.op(op, args);
        }
        if let Some(op) = binary(rule) {
            let (mut a, b) = (get(self, w), get(self, w));
            if rule == 20 && !plain && self.rng.chance(50) {
                a = self.topped(w);
            }
            return self.op2(op, &a, &b);
        }
        match rule {
            1 => {
                let v = self.value();
                self.constant(w, v)
            }
            2 => get(self, w),
            7 | 12 => {
                let a = get(self, w);
                self.op(if rule == 7 { Operator::BvNot } else { Operator::BvNeg }, vec![a])
            }
            15 => {
                let from = self.rng.range(w, 64);
                let a = get(self, from);
                let j = self.rng.range(0, from - w);
                self.extract(j + w - 1, j, &a)
            }
            16 if plain && w > 1 => {
                let a = self.var(w / 2, 0);
                let b = self.var(w - w / 2, 1);
                self.op2(Operator::BvConcat, &a, &b)
            }
            16 if plain => {
                let a = self.var(w, 0);
                self.op(Operator::BvConcat, vec![a])
            }
            16 => self.any_concat(w, 0),
            17 => {
                let k = if self.rng.chance(20) { 0 } else { self.rng.range(0, w - 1) };
                let a = get(self, w - k);
                self.sign_extend(k, &a)
            }
            _ => unreachable!(),
        }
    }

    /// The right side that the original code wants: taken out of its own error.
    pub fn expected(&mut self, rule: u16, left: &T) -> T {
        if rule == 1 {
            let Some((v, w)) = left.as_bitvector() else { unreachable!() };
            let v = v.to_i128();
            let bits = (0..w).map(|i| self.lit(v >> i & 1 == 1)).collect();
            return self.bb(bits);
        }
        let mut claim = match self.width(left) {
            None => self.bool_var(DUMMY),
            Some(w) if rule == 15 || rule == 16 => {
                let bits = (0..w).map(|i| self.bool_var(DUMMY + i as u32)).collect();
                self.bb(bits)
            }
            Some(w) => self.var(w, DUMMY),
        };
        loop {
            let literal = self.eq(left, &claim);
            match call_rule(&mut self.pool, rule, &[literal]) {
                // extract compares bit by bit
                Err(CheckerError::TermEquality(EqualityError::ExpectedEqual(want, got))) => {
                    if rule != 15 {
                        return want;
                    }
                    let mut bits = args_of(&claim).to_vec();
                    let at = bits.iter().position(|b| *b == got).unwrap();
                    bits[at] = want;
                    claim = self.bb(bits);
                }
                Ok(()) if rule == 15 => return claim,
                other => panic!("FINDING: rule {} on {}: {:?}", rule, left, other),
            }
        }
    }
}
