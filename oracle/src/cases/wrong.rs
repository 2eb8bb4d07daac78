//! Claims that look like the right one.
use super::operands::{DUMMY, binary, nary};
use crate::ast::{Constant, Operator, ParamOperator, Term};
use crate::maker::{Maker, T, args_of, index};

impl Maker {
    /// Another term of the same sort in the place of `t`.
    fn local(&mut self, t: &T) -> T {
        let width = self.width(t);
        match t.as_ref() {
            Term::Op(Operator::True, _) => self.lit(false),
            Term::Op(Operator::False, _) => self.lit(true),
            Term::Op(Operator::Not, args) => args[0].clone(),
            Term::Op(op @ (Operator::And | Operator::Or | Operator::Xor | Operator::Equals), args)
                if args.len() == 2 && self.width(&args[0]).is_none() =>
            {
                let (a, b) = (args[0].clone(), args[1].clone());
                match self.rng.below(6) {
                    0 | 1 => self.op2(*op, &b, &a),
                    2 | 3 => {
                        let other = *self.rng.pick(&[Operator::And, Operator::Or, Operator::Xor, Operator::Equals]);
                        self.op2(other, &a, &b)
                    }
                    4 => a,
                    _ => self.not(t),
                }
            }
            Term::Op(op @ (Operator::And | Operator::Or), args) => {
                let mut args = args.clone();
                let (a, b) = (self.rng.below(args.len()), self.rng.below(args.len()));
                match self.rng.below(3) {
                    0 => args.swap(a, b),
                    1 if args.len() > 1 => drop(args.remove(a)),
                    _ if args.len() < 64 => args.push(args[b].clone()),
                    _ => args.swap(a, b),
                }
                self.op(*op, args)
            }
            Term::Op(Operator::Ite, args) => match self.rng.below(3) {
                0 => self.ite(&args[0], &args[2], &args[1]),
                1 => {
                    let c = self.not(&args[0]);
                    self.ite(&c, &args[2], &args[1])
                }
                _ => args[1 + self.rng.below(2)].clone(),
            },
            Term::Op(Operator::BvBbTerm, args) => {
                let mut args = args.clone();
                let (a, b) = (self.rng.below(args.len()), self.rng.below(args.len()));
                match self.rng.below(3) {
                    0 => args.swap(a, b),
                    1 => args[a] = self.lit(b % 2 == 0),
                    _ => args[a] = self.not(&args[a].clone()),
                }
                self.bb(args)
            }
            Term::ParamOp { op: ParamOperator::BvBitOf, args, .. } => {
                let x = args[0].clone();
                let w = self.width(&x).unwrap();
                let i = self.rng.below(w);
                match self.rng.below(3) {
                    0 => self.bit(i, &x),
                    1 => {
                        let y = self.any_var(w);
                        self.bit(index(t, 0), &y)
                    }
                    _ => self.lit(i % 2 == 0),
                }
            }
            _ => match width {
                Some(w) => self.any_var(w),
                None => self.any_bool(0),
            },
        }
    }

    /// The claim with one node changed.
    pub(super) fn mutated(&mut self, claim: &T) -> T {
        let nodes = self.nodes(claim);
        let from = self.rng.pick(&nodes).clone();
        let to = self.local(&from);
        self.replace(claim, &from, &to)
    }

    fn swap_gates(&mut self, claim: &T, gate: Operator) -> T {
        self.rebuild(claim, &mut |m, t| match t.as_op() {
            Some((op, [a, b])) if op == gate => {
                let (a, b) = (a.clone(), b.clone());
                Some(m.op2(op, &b, &a))
            }
            _ => None,
        })
    }

    /// BvBitOf of a constant replaced by the literal bit.
    fn folded(&mut self, claim: &T) -> T {
        self.rebuild(claim, &mut |m, t| match t.as_ref() {
            Term::ParamOp { op: ParamOperator::BvBitOf, args, .. } => match args[0].as_ref() {
                Term::Const(Constant::BitVec(v, _)) => {
                    let b = v.to_i128() >> index(t, 0) & 1 == 1;
                    Some(m.lit(b))
                }
                _ => None,
            },
            _ => None,
        })
    }

    fn with_args(&mut self, left: &T, args: Vec<T>) -> T {
        match left.as_ref() {
            Term::Op(op, _) => self.op(*op, args),
            Term::ParamOp { op, op_args, .. } => {
                let t = Term::ParamOp { op: *op, op_args: op_args.clone(), args };
                self.pool.add(t)
            }
            _ => left.clone(),
        }
    }

    /// The circuit over BvBitOf of the operands, BvBbTerms not taken apart.
    fn not_taken_apart(&mut self, rule: u16, left: &T) -> Option<T> {
        let operands = args_of(left).to_vec();
        if rule < 3 || !operands.iter().any(|a| matches!(a.as_op(), Some((Operator::BvBbTerm, _)))) {
            return None;
        }
        let mut stand_ins = Vec::new();
        for (i, a) in operands.iter().enumerate() {
            let w = self.width(a)?;
            stand_ins.push(self.var(w, DUMMY + 100 + i as u32));
        }
        let twin = self.with_args(left, stand_ins.clone());
        let circuit = self.expected(rule, &twin);
        Some(self.rebuild(&circuit, &mut |m, t| match t.as_ref() {
            Term::ParamOp { op: ParamOperator::BvBitOf, args, .. } => {
                let k = stand_ins.iter().position(|s| *s == args[0])?;
                Some(m.bit(index(t, 0), &operands[k].clone()))
            }
            _ => {
                let k = stand_ins.iter().position(|s| s == t)?;
                Some(operands[k].clone())
            }
        }))
    }

    /// The circuit of the next larger or smaller width, over the bits of the operands.
    fn other_width(&mut self, rule: u16, left: &T) -> Option<T> {
        if !(3..=14).contains(&rule) && !(18..=22).contains(&rule) {
            return None;
        }
        let operands = args_of(left).to_vec();
        let w = self.width(&operands[0])?;
        let to = if w == 64 || (w > 1 && self.rng.chance(50)) { w - 1 } else { w + 1 };
        let mut bits = Vec::new();
        let mut stand_ins = Vec::new();
        for (i, a) in operands.iter().enumerate() {
            bits.push(self.bits(a));
            stand_ins.push(self.var(to, DUMMY + 100 + i as u32));
        }
        let twin = self.with_args(left, stand_ins.clone());
        let circuit = self.expected(rule, &twin);
        let f = self.lit(false);
        let out = self.rebuild(&circuit, &mut |_, t| match t.as_ref() {
            Term::ParamOp { op: ParamOperator::BvBitOf, args, .. } => {
                let k = stand_ins.iter().position(|s| *s == args[0])?;
                Some(bits[k].get(index(t, 0)).unwrap_or(&f).clone())
            }
            _ => None,
        });
        if self.width(&out).is_none() || rule == 14 {
            return Some(out);
        }
        let (Operator::BvBbTerm, args) = out.as_op()? else { return None };
        let mut args = args.to_vec();
        args.resize(w, f);
        Some(self.bb(args))
    }

    /// (sum, carry into the top bit, carry out of the top bit)
    fn adder(&mut self, x: &[T], y: &[T], carry: &T) -> (Vec<T>, T, T) {
        let mut sum = Vec::new();
        let mut c = carry.clone();
        let mut into = carry.clone();
        for (a, b) in x.iter().zip(y) {
            into = c.clone();
            let half = self.op2(Operator::Xor, a, b);
            sum.push(self.op2(Operator::Xor, &half, &c));
            let both = self.op2(Operator::And, a, b);
            let one = self.op2(Operator::And, &half, &c);
            c = self.op2(Operator::Or, &both, &one);
        }
        (sum, into, c)
    }

    /// The divider with the carry out of the top bit (`out`) and the bits of the difference in the
    /// subtract branch (`difference`), each instead of what the original has.
    fn divider(&mut self, x: &[T], y: &[T], n: usize, out: bool, difference: bool) -> (Vec<T>, Vec<T>) {
        let (t, f) = (self.lit(true), self.lit(false));
        if n == 0 || x.iter().all(|b| *b == f) {
            return (vec![f.clone(); x.len()], vec![f; x.len()]);
        }
        let mut half = x[1..].to_vec();
        half.push(f.clone());
        let (mut q, mut r) = self.divider(&half, y, n - 1, out, difference);
        q.pop();
        q.insert(0, f.clone());
        r.pop();
        r.insert(0, f.clone());
        let is = self.eq(&x[0], &t);
        let odd = self.ite(&is, &t, &f);
        let zeros = vec![f.clone(); x.len()];
        let (r, _, _) = self.adder(&r, &zeros, &odd);
        let not_y: Vec<T> = y.iter().map(|b| self.not(b)).collect();
        let (minus, into1, out1) = self.adder(&r, &not_y, &t);
        let sign = self.not(if out { &out1 } else { &into1 });
        q[0] = self.ite(&sign, &q[0].clone(), &t);
        let r: Vec<T> = (0..x.len()).map(|i| self.ite(&sign, &r[i], if difference { &minus[i] } else { &t })).collect();
        let (_, into2, out2) = self.adder(x, &not_y, &t);
        let less = self.not(if out { &out2 } else { &into2 });
        (
            q.iter().map(|b| self.ite(&less, &f, b)).collect(),
            x.iter().zip(&r).map(|(a, b)| self.ite(&less, a, b)).collect(),
        )
    }

    fn divider_variant(&mut self, rule: u16, left: &T, out: bool, difference: bool) -> T {
        let (x, y) = (args_of(left)[0].clone(), args_of(left)[1].clone());
        let (x, y) = (self.bits(&x), self.bits(&y));
        let (q, r) = self.divider(&x, &y, x.len(), out, difference);
        let (t, f) = (self.lit(true), self.lit(false));
        let zero = y.iter().map(|b| self.eq(b, &f)).collect();
        let zero = self.op(Operator::And, zero);
        let bits = if rule == 21 {
            q.iter().map(|b| self.ite(&zero, &t, b)).collect()
        } else {
            x.iter().zip(&r).map(|(a, b)| self.ite(&zero, a, b)).collect()
        };
        self.bb(bits)
    }

    /// Claims that look like the right one, with their names. Some may be the right one.
    pub(super) fn wrong_claims(&mut self, rule: u16, left: &T, right: &T) -> Vec<(&'static str, T)> {
        let mut out: Vec<(&'static str, T)> = Vec::new();
        let width = self.width(left);
        let operands = args_of(left).to_vec();
        for (i, a) in operands.iter().enumerate() {
            if self.pool.sort(a) == self.pool.sort(left) && i < 2 {
                out.push(("the operand itself", a.clone()));
                let bits = self.bits(a);
                out.push(("the operand's bits", self.bb(bits)));
            }
        }
        out.push(("the left side", left.clone()));
        for _ in 0..4 {
            out.push(("one node changed", self.mutated(right)));
        }
        for (name, gate) in [
            ("every And swapped", Operator::And),
            ("every Or swapped", Operator::Or),
            ("every Xor swapped", Operator::Xor),
            ("every Equals swapped", Operator::Equals),
        ] {
            out.push((name, self.swap_gates(right, gate)));
        }
        let (t, f) = (self.lit(true), self.lit(false));
        out.push(("false for true", self.replace(right, &t, &f)));
        out.push(("true for false", self.replace(right, &f, &t)));
        out.push(("folded constants", self.folded(right)));
        if let Some(c) = self.not_taken_apart(rule, left) {
            out.push(("BvBbTerm not taken apart", c));
        }
        if let Some(c) = self.other_width(rule, left) {
            out.push(("another width", c));
        }
        if operands.len() > 1 && rule != 16 {
            let mut args = operands.clone();
            args.reverse();
            let twin = self.with_args(left, args);
            out.push(("operands reversed", self.expected(rule, &twin)));
        }
        match width {
            Some(w) => {
                out.push(("a variable", self.any_var(w)));
                let v = self.value();
                out.push(("a constant", self.constant(w, v)));
                if let Some((Operator::BvBbTerm, bits)) = right.as_op() {
                    let mut b = bits.to_vec();
                    b.reverse();
                    out.push(("bits reversed", self.bb(b)));
                    let mut b = bits.to_vec();
                    b.rotate_left(1);
                    out.push(("bits rotated", self.bb(b)));
                }
            }
            None => {
                out.push(("a literal", t.clone()));
                out.push(("a variable", self.any_bool(1)));
                out.push(("inside an And", self.op(Operator::And, vec![right.clone()])));
                out.push(("negated", self.not(right)));
            }
        }
        self.own_wrong_claims(rule, left, right, &mut out);
        out
    }

    fn own_wrong_claims(&mut self, rule: u16, left: &T, right: &T, out: &mut Vec<(&'static str, T)>) {
        let operands = args_of(left).to_vec();
        let (t, f) = (self.lit(true), self.lit(false));
        match rule {
            1 => {
                let bits = args_of(right).to_vec();
                let k = self.rng.below(bits.len());
                for name in ["bit not literal", "literal in disguise", "other value"] {
                    let mut b = bits.clone();
                    b[k] = match name {
                        "bit not literal" => self.bool_var(0),
                        "literal in disguise" => self.not(&t),
                        _ => {
                            if b[k] == t {
                                f.clone()
                            } else {
                                t.clone()
                            }
                        }
                    };
                    out.push((name, self.bb(b)));
                }
                // 14 against 15: a wrong bit below a bit that is no literal
                if bits.len() > 1 {
                    let mut b = bits.clone();
                    b[0] = if b[0] == t { f.clone() } else { t.clone() };
                    *b.last_mut().unwrap() = self.bool_var(1);
                    out.push(("wrong bit, then no literal", self.bb(b)));
                }
            }
            2 => {
                let w = self.width(left).unwrap();
                let b = (0..w).map(|i| self.bit(i, left)).collect();
                out.push(("BvBbTerm not taken apart", self.bb(b)));
            }
            3..=5 => {
                let gate = [Operator::And, Operator::Or, Operator::Xor][usize::from(rule) - 3];
                let bits: Vec<Vec<T>> = operands.iter().map(|a| self.bits(a)).collect();
                if operands.len() > 2 && rule != 5 {
                    let flat = (0..bits[0].len())
                        .map(|i| self.op(gate, bits.iter().map(|b| b[i].clone()).collect()))
                        .collect();
                    out.push(("flat gates", self.bb(flat)));
                }
                let mut acc = bits.last().unwrap().clone();
                for b in bits.iter().rev().skip(1) {
                    acc = acc.iter().zip(b).map(|(x, y)| self.op2(gate, y, x)).collect();
                }
                out.push(("from the right", self.bb(acc)));
                for other in [3, 4, 5] {
                    let twin = self.op(nary(other).unwrap(), operands.clone());
                    out.push(("another gate", self.expected(other, &twin)));
                }
            }
            8 | 9 => {
                let twin = self.op(binary(17 - rule).unwrap(), operands.clone());
                out.push(("the other comparison", self.expected(17 - rule, &twin)));
            }
            10 => {
                let bits: Vec<Vec<T>> = operands.iter().map(|a| self.bits(a)).collect();
                if bits.len() == 2 {
                    let sum = self.adder(&bits[0], &bits[1], &t).0;
                    out.push(("carry true", self.bb(sum)));
                    let mut sum = self.adder(&bits[0], &bits[1], &f).0;
                    sum[0] = self.op2(Operator::Xor, &bits[0][0], &bits[1][0]);
                    out.push(("no carry at bit 0", self.bb(sum)));
                    let sum = self.adder(&bits[0], &bits[1], &f);
                    let mut late = sum.0.clone();
                    *late.last_mut().unwrap() = sum.2;
                    out.push(("the carry out on top", self.bb(late)));
                }
                let mut acc = bits.last().unwrap().clone();
                for b in bits.iter().rev().skip(1) {
                    acc = self.adder(b, &acc, &f).0;
                }
                out.push(("from the right", self.bb(acc)));
            }
            12 => {
                let x = self.bits(&operands[0]);
                let n: Vec<T> = x.iter().map(|b| self.not(b)).collect();
                let zeros = vec![f.clone(); x.len()];
                let a = self.adder(&zeros, &n, &t).0;
                out.push(("zero plus not x plus 1", self.bb(a)));
                let a = self.adder(&n, &zeros, &f).0;
                out.push(("carry false", self.bb(a)));
                out.push(("not only", self.bb(n)));
            }
            13 | 14 => {
                let (x, y) = (self.bits(&operands[0]), self.bits(&operands[1]));
                let mut eqs: Vec<T> = x.iter().zip(&y).map(|(a, b)| self.eq(a, b)).collect();
                let mut chain = eqs[0].clone();
                for e in &eqs[1..] {
                    chain = self.op2(Operator::And, &chain, e);
                }
                let single = self.op(Operator::And, eqs.clone());
                eqs.reverse();
                let reversed = self.op(Operator::And, eqs.clone());
                for (name, c) in [("nested Ands", chain), ("one And", single), ("Ands reversed", reversed)] {
                    let c = if rule == 14 { self.bb(vec![c]) } else { c };
                    out.push((name, c));
                }
            }
            15 => {
                let (i, j) = (index(left, 0), index(left, 1));
                let from = self.width(&operands[0]).unwrap();
                if i + 1 < from {
                    let twin = self.extract(i + 1, j + 1, &operands[0]);
                    out.push(("one bit higher", self.expected(15, &twin)));
                }
                let b = (j..=i).map(|k| self.bit(k, &operands[0])).collect();
                out.push(("bits of the operand", self.bb(b)));
                let b = (0..=i - j).map(|k| self.bit(k, left)).collect();
                out.push(("bits of the left side", self.bb(b)));
            }
            16 => {
                let mut b = Vec::new();
                for a in &operands {
                    b.extend(self.bits(a));
                }
                out.push(("first argument lowest", self.bb(b)));
            }
            17 => {
                let x = self.bits(&operands[0]);
                let w = self.width(left).unwrap();
                for (name, fill) in [("filled with false", f), ("filled with bit 0", x[0].clone())] {
                    let mut b = x.clone();
                    b.resize(w, fill);
                    out.push((name, self.bb(b)));
                }
            }
            18..=20 => {
                for other in 18..=20 {
                    let twin = self.op(binary(other).unwrap(), operands.clone());
                    out.push(("another shift", self.expected(other, &twin)));
                }
                let x = self.bits(&operands[0]);
                let sign = x.last().unwrap().clone();
                let outer: Vec<T> = args_of(right).to_vec();
                let filled = outer.iter().map(|b| self.ite(&args_of(b)[0], &args_of(b)[1], &sign)).collect();
                out.push(("sign filled", self.bb(filled)));
                let open = outer.iter().map(|b| args_of(b)[1].clone()).collect();
                out.push(("without the bound", self.bb(open)));
                // the bound the other way round: not (size < y)
                let w = x.len();
                let size = self.constant(w, w as u64);
                let less = self.op2(Operator::BvULt, &size, &operands[1]);
                let more = self.expected(8, &less);
                let bound = self.not(&more);
                let b = outer.iter().map(|b| self.ite(&bound, &args_of(b)[1], &args_of(b)[2])).collect();
                out.push(("another bound", self.bb(b)));
            }
            21 | 22 => {
                out.push(("our own copy", self.divider_variant(rule, left, false, false)));
                out.push(("carries out of the top", self.divider_variant(rule, left, true, false)));
                out.push(("difference bits", self.divider_variant(rule, left, false, true)));
                out.push(("the standard's divider", self.divider_variant(rule, left, true, true)));
                let other = 43 - rule;
                let twin = self.op(binary(other).unwrap(), operands.clone());
                out.push(("the other result", self.expected(other, &twin)));
            }
            _ => {}
        }
    }
}
