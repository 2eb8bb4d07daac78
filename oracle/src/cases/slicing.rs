//! Claims of rule 23, right ones and wrong ones.
use crate::ast::Operator;
use crate::maker::{Maker, T};

impl Maker {
    pub(super) fn cuts(&mut self, w: usize) -> Vec<(usize, usize)> {
        let mut out = Vec::new();
        let mut top = w;
        let most = *self.rng.pick(&[1, 2, 3, 64]);
        while top > 0 {
            let n = if out.len() + 1 >= most {
                top
            } else if most == 64 {
                1
            } else {
                self.rng.range(1, top)
            };
            out.push((top - 1, top - n));
            top -= n;
        }
        out
    }

    fn slice(&mut self, a: &T, c: &T, i: usize, j: usize) -> T {
        let (x, y) = (self.extract(i, j, a), self.extract(i, j, c));
        self.op2(Operator::BvAnd, &x, &y)
    }

    pub(super) fn slicing(&mut self, w: usize) -> Vec<(&'static str, T, T)> {
        let (a, c) = (self.operand(w, 0), self.operand(w, 0));
        let left = self.op2(Operator::BvAnd, &a, &c);
        let cuts = self.cuts(w);
        let slices: Vec<T> = cuts.iter().map(|&(i, j)| self.slice(&a, &c, i, j)).collect();
        let k = self.rng.below(cuts.len());
        let (i, j) = cuts[k];
        let mut out = Vec::new();
        let right = self.op(Operator::BvConcat, slices.clone());
        out.push(("right", left.clone(), right.clone()));
        let mut changed = |m: &mut Maker, name, s: T| {
            let mut list = slices.clone();
            list[k] = s;
            let r = m.op(Operator::BvConcat, list);
            out.push((name, left.clone(), r));
        };
        let other = self.var(w, 7);
        let s = self.slice(&c, &a, i, j);
        changed(self, "operands exchanged", s);
        let s = self.slice(&a, &other, i, j);
        changed(self, "another second operand", s);
        let s = self.slice(&other, &c, i, j);
        changed(self, "another first operand", s);
        let (x, y) = (self.extract(i, j, &a), self.extract(i, j, &c));
        let s = self.op(Operator::BvAnd, vec![x.clone(), y.clone(), y.clone()]);
        changed(self, "slice of three", s);
        let s = self.op(Operator::BvAnd, vec![x.clone()]);
        changed(self, "slice of one", s);
        let s = self.op2(Operator::BvOr, &x, &y);
        changed(self, "slice not a bvand", s);
        let v = self.any_var(i - j + 1);
        let s = self.op2(Operator::BvAnd, &v, &y);
        changed(self, "slice's first no extract", s);
        let s = self.op2(Operator::BvAnd, &x, &v);
        changed(self, "slice's second no extract", s);
        changed(self, "slice a variable", v);
        if i + 1 < w {
            let y = self.extract(i + 1, j + 1, &c);
            let s = self.op2(Operator::BvAnd, &x, &y);
            changed(self, "unequal indices", s);
            let s = self.slice(&a, &c, i + 1, j + 1);
            changed(self, "one bit higher", s);
        }
        if j > 0 {
            let s = self.slice(&a, &c, i - 1, j - 1);
            changed(self, "one bit lower", s);
            let x = self.extract(i - 1, j - 1, &other);
            let y = self.extract(i - 1, j - 1, &c);
            let s = self.op2(Operator::BvAnd, &x, &y);
            changed(self, "one bit lower and another operand", s);
        }
        let mut list = slices.clone();
        list.reverse();
        let low = self.op(Operator::BvConcat, list);
        out.push(("low slice first", left.clone(), low));
        out.push(("not a concat", left.clone(), left.clone()));
        let three = self.op(Operator::BvAnd, vec![a.clone(), c.clone(), c.clone()]);
        out.push(("bvand of three", three, right.clone()));
        let one = self.op(Operator::BvAnd, vec![a.clone()]);
        out.push(("bvand of one", one, right.clone()));
        let or = self.op2(Operator::BvOr, &a, &c);
        out.push(("left not a bvand", or, right.clone()));
        out.push(("sides exchanged", right, left));
        out
    }
}
