//! Jobs of many claims.
use super::operands::cost;
use crate::ast::Operator;
use crate::maker::{Maker, T};

impl Maker {
    /// One rule and width: the right claim, then the wrong ones.
    pub(super) fn systematic(&mut self, rule: u16, w: usize, plain: bool) {
        if rule == 23 {
            for (_, l, r) in self.slicing(w) {
                self.claim(23, &l, &r);
            }
            return;
        }
        let left = self.left(rule, w, plain);
        let right = self.expected(rule, &left);
        // Now and then wrong claims come first, when the right circuit is not yet kept.
        let late = self.rng.chance(30);
        if !late {
            self.claim(rule, &left, &right);
        }
        let base = self.list.len();
        for (_, wrong) in self.wrong_claims(rule, &left, &right) {
            if self.pool.sort(&wrong) != self.pool.sort(&left) || self.list.len() > 50_000 {
                continue;
            }
            self.claim(rule, &left, &wrong);
            if self.rng.chance(20) && base <= self.list.len() {
                self.back(base);
            }
        }
        if late {
            self.claim(rule, &left, &right);
        }
        if rule == 1 {
            let x = self.var(w, 0);
            self.claim(1, &x, &right);
        }
        self.claim(rule, &right, &left);
    }

    fn some_width(&mut self) -> usize {
        match self.rng.below(10) {
            0..=6 => self.rng.range(1, 8),
            7 => *self.rng.pick(&[16, 31, 32, 33, 63, 64]),
            8 => self.rng.range(9, 64),
            _ => self.rng.range(1, 3),
        }
    }

    fn some_rule_and_width(&mut self) -> (u16, usize) {
        let rule = self.rng.range(1, 23) as u16;
        let mut w = self.some_width();
        while cost(rule, w, 2) > 3_000 {
            w = self.rng.range(1, 8);
        }
        (rule, w)
    }

    /// A step that is odd in itself: number of literals, a literal of another form, another rule.
    fn odd_step(&mut self) {
        let (rule, w) = self.some_rule_and_width();
        let any = self.rng.below(self.list.len()) as u16;
        match self.rng.below(8) {
            0 => self.step(rule, &[]),
            1 => {
                let b = self.rng.below(self.list.len()) as u16;
                self.step(rule, &[any, b])
            }
            2 => {
                let n = *self.rng.pick(&[3, 63, 64]);
                self.step(rule, &vec![any; n])
            }
            3 => self.step(rule, &[any]),
            4 => {
                let (a, b) = (self.any_bool(2), self.any_bool(2));
                self.claim(rule, &a, &b)
            }
            5 => {
                let (a, b) = (self.operand(w, 0), self.operand(w, 0));
                self.claim(rule, &a, &b)
            }
            6 => {
                // the right claim of another rule
                let other = self.rng.range(1, 22) as u16;
                let w = self.rng.range(1, 4);
                let l = self.left(other, w, false);
                let r = self.expected(other, &l);
                self.claim(rule, &l, &r)
            }
            _ => {
                // rule 13 over Bools, rule 2 on Bools
                let (a, b, c) = (self.any_bool(1), self.any_bool(1), self.any_bool(1));
                let e = self.eq(&a, &b);
                let rule = *self.rng.pick(&[13, 2]);
                self.claim(rule, &e, &c)
            }
        }
    }

    pub(super) fn mixed(&mut self, steps: usize) {
        self.shuffled = self.rng.chance(50);
        for _ in 0..self.rng.below(4) {
            let w = self.some_width();
            let t = self.operand(w, 0);
            self.emit(&t);
        }
        for _ in 0..steps {
            if self.rng.chance(15) {
                self.repeat();
            }
            match self.rng.below(10) {
                0 | 1 => self.odd_step(),
                _ => self.some_claim(),
            }
            if self.rng.chance(25) {
                let to = match self.rng.below(4) {
                    0 => 2,
                    1 => self.list.len(),
                    _ => self.rng.range(2, self.list.len()),
                };
                self.back(to);
            }
        }
    }

    pub(super) fn some_claim(&mut self) {
        let (rule, w) = self.some_rule_and_width();
        if rule == 23 {
            let all = self.slicing(w);
            let k = if self.rng.chance(50) { 0 } else { self.rng.below(all.len()) };
            let (_, l, r) = &all[k];
            return self.claim(23, l, r);
        }
        let left = self.left(rule, w, false);
        let right = self.expected(rule, &left);
        if self.rng.chance(60) {
            return self.claim(rule, &left, &right);
        }
        if self.rng.chance(40) {
            self.emit(&right);
        }
        let wrong = self.wrong_claims(rule, &left, &right);
        let claim = self.rng.pick(&wrong).1.clone();
        if self.pool.sort(&claim) == self.pool.sort(&left) {
            self.claim(rule, &left, &claim);
        }
    }

    /// Records that are easily taken for each other: one the beginning of another, one body under
    /// two kinds, numbers that differ in their high byte only.
    pub(super) fn look_alikes(&mut self) {
        let bools: Vec<T> = (0..5).map(|_| self.any_bool(1)).collect();
        let w = self.rng.range(1, 12);
        let bvs: Vec<T> = (0..5).map(|_| self.operand(w, 1)).collect();
        let mut lengths = vec![1, 2, 3, 4, 5];
        self.rng.shuffle(&mut lengths);
        for (op, args) in [
            (Operator::And, &bools),
            (Operator::Or, &bools),
            (Operator::BvBbTerm, &bools),
            (Operator::BvAnd, &bvs),
            (Operator::BvOr, &bvs),
            (Operator::BvXor, &bvs),
            (Operator::BvAdd, &bvs),
            (Operator::BvMul, &bvs),
            (Operator::BvConcat, &bvs),
        ] {
            for &n in &lengths {
                let t = self.op(op, args[..n].to_vec());
                self.emit(&t);
                if self.rng.chance(20) {
                    self.emit(&t);
                    self.repeat();
                }
            }
        }
        // kind 10 name n and Not of n; kind 11 and Equals, Xor, BvBitOf, SignExtend with one body
        let n = self.rng.range(2, self.list.len() - 1) as u16;
        self.words(10, &[n]);
        self.words(20, &[1]);
        self.words(10, &[1]);
        for kind in [24, 23, 11, 24, 23, 11] {
            self.words(kind, &[1, 0]);
        }
        self.step(2, &[n]);
        self.step(13, &[1]);
        let bv = self.num[&bvs[0]];
        self.words(30, &[0, bv]);
        self.words(58, &[0, bv]);
        self.words(11, &[1, bv]);
        self.step(13, &[n + 1]);
    }

    /// Shows the depth of one term of each kind over gates: rule 2 on (= b b), b a BvBbTerm, and
    /// rule 17 on sign_extend 0.
    pub(super) fn depths(&mut self) {
        let mut deep = self.bool_var(0);
        for _ in 0..self.rng.range(1, 6) {
            let other = self.bool_var(1);
            deep = match self.rng.below(3) {
                0 => self.not(&deep),
                1 => self.op2(Operator::And, &other, &deep),
                _ => self.ite(&other, &deep, &other),
            };
        }
        let flat = self.bool_var(2);
        let w = self.rng.range(1, 4);
        let k = self.rng.below(w);
        let bits = (0..w).map(|i| if i == k { deep.clone() } else { flat.clone() }).collect();
        let x = self.bb(bits);
        let y = self.var(w, 0);
        let mut bools = vec![self.bit(k, &x), self.bit(0, &y), self.not(&deep), flat.clone()];
        for (a, b) in [(&deep, &flat), (&flat, &deep), (&deep, &deep)] {
            for op in [Operator::And, Operator::Or, Operator::Xor, Operator::Equals] {
                bools.push(self.op2(op, a, b));
            }
        }
        for (a, b) in [(&x, &y), (&y, &x)] {
            for op in [Operator::Equals, Operator::BvULt, Operator::BvSLt] {
                bools.push(self.op2(op, a, b));
            }
        }
        bools.push(self.ite(&deep, &flat, &flat));
        bools.push(self.ite(&flat, &deep, &flat));
        bools.push(self.ite(&flat, &flat, &deep));
        bools.push(self.op(Operator::Or, vec![flat.clone(), flat.clone(), deep.clone()]));
        bools.push(self.op(Operator::And, vec![deep.clone()]));
        self.rng.shuffle(&mut bools);
        for b in &bools {
            let mut bits = vec![flat.clone(); self.rng.below(3)];
            bits.push(b.clone());
            self.rng.shuffle(&mut bits);
            let b = self.bb(bits);
            self.claim(2, &b, &b);
        }
        let mut bvs = vec![x.clone(), y.clone()];
        for op in [Operator::BvNot, Operator::BvNeg, Operator::BvAnd, Operator::BvAdd, Operator::BvConcat] {
            bvs.push(self.op(op, vec![x.clone()]));
        }
        for op in [
            Operator::BvAnd,
            Operator::BvOr,
            Operator::BvXor,
            Operator::BvMul,
            Operator::BvXNor,
            Operator::BvComp,
            Operator::BvShl,
            Operator::BvLShr,
            Operator::BvAShr,
            Operator::BvUDiv,
            Operator::BvURem,
            Operator::BvConcat,
        ] {
            bvs.push(self.op2(op, &y, &x));
        }
        bvs.push(self.extract(k, 0, &x));
        bvs.push(self.sign_extend(1, &x));
        for b in &bvs {
            let left = self.sign_extend(0, b);
            self.claim(17, &left, b);
        }
    }

    /// Hundreds of variables, and gates over numbers and names that differ by 256.
    pub(super) fn high_bytes(&mut self) {
        let far = 256 * self.rng.range(1, 3) as u32;
        for n in 0..(far + 8) {
            let v = self.bool_var(n);
            self.emit(&v);
        }
        for n in 0..6 {
            for m in [n, n + far, n] {
                let v = self.bool_var(m);
                let t = self.not(&v);
                self.emit(&t);
                let w = self.bool_var(n + 1);
                let t = self.op2(Operator::Xor, &w, &v);
                self.emit(&t);
            }
        }
        let x = self.var(8, 0);
        let y = self.var(8, far as u16 as u32);
        for (a, b) in [(&x, &y), (&y, &x), (&x, &x)] {
            let left = self.op2(Operator::BvAdd, a, b);
            let right = self.expected(10, &left);
            self.claim(10, &left, &right);
            let twin = self.op2(Operator::BvAdd, b, b);
            let wrong = self.expected(10, &twin);
            self.claim(10, &left, &wrong);
        }
        for v in [1, 1 << 32, 1 << 56, 1 << 63, (1 << 63) | 1] {
            let c = self.constant(64, v);
            let bits = (0..64).map(|i| self.lit(v >> i & 1 == 1)).collect();
            let right = self.bb(bits);
            self.claim(1, &c, &right);
            let c = self.constant(64, v ^ 1 << 56);
            self.claim(1, &c, &right);
        }
    }
}
