//! Builds jobs from terms of the original code: a pool, the numbers of the terms written so far,
//! and the bytes.
use crate::ast::pool::{Build, Pool};
use crate::ast::{Constant, Operator, ParamOperator, Rc, Sort, Term};
use crate::job::MAX_TERMS;
use crate::rng::Rng;
use std::collections::HashMap;

pub type T = Rc<Term>;

pub struct Maker {
    pub rng: Rng,
    pub pool: Pool,
    pub bytes: Vec<u8>,
    /// Where each record starts.
    pub starts: Vec<usize>,
    pub list: Vec<T>,
    pub num: HashMap<T, u16, Build>,
    /// The largest number of terms kept at any time.
    pub peak: usize,
    pub steps: usize,
    /// Write a term's arguments in a random order.
    pub shuffled: bool,
}

impl Drop for Maker {
    fn drop(&mut self) {
        self.num.clear();
        while self.list.pop().is_some() {}
    }
}

const OPERATORS: [(u16, Operator); 24] = [
    (20, Operator::Not),
    (21, Operator::And),
    (22, Operator::Or),
    (23, Operator::Xor),
    (24, Operator::Equals),
    (25, Operator::Ite),
    (31, Operator::BvBbTerm),
    (40, Operator::BvNot),
    (41, Operator::BvNeg),
    (42, Operator::BvAnd),
    (43, Operator::BvOr),
    (44, Operator::BvXor),
    (45, Operator::BvAdd),
    (46, Operator::BvMul),
    (47, Operator::BvXNor),
    (48, Operator::BvComp),
    (49, Operator::BvULt),
    (50, Operator::BvSLt),
    (51, Operator::BvShl),
    (52, Operator::BvLShr),
    (53, Operator::BvAShr),
    (54, Operator::BvUDiv),
    (55, Operator::BvURem),
    (56, Operator::BvConcat),
];

pub fn args_of(t: &Term) -> &[T] {
    match t {
        Term::Op(_, args) | Term::ParamOp { args, .. } => args,
        _ => &[],
    }
}

pub fn index(t: &Term, k: usize) -> usize {
    match t {
        Term::ParamOp { op_args, .. } => op_args[k].as_integer().unwrap().to_usize().unwrap(),
        _ => unreachable!(),
    }
}

impl Maker {
    pub fn new(seed: u64) -> Self {
        let mut pool = Pool::new();
        let list = vec![pool.bool_true(), pool.bool_false()];
        let num = list.iter().cloned().zip(0..).collect();
        Maker {
            rng: Rng::new(seed),
            pool,
            bytes: Vec::new(),
            starts: Vec::new(),
            list,
            num,
            peak: 2,
            steps: 0,
            shuffled: false,
        }
    }

    // Terms

    pub fn op(&mut self, op: Operator, args: Vec<T>) -> T {
        self.pool.add(Term::Op(op, args))
    }
    pub fn lit(&mut self, b: bool) -> T {
        self.pool.bool_constant(b)
    }
    pub fn not(&mut self, a: &T) -> T {
        self.op(Operator::Not, vec![a.clone()])
    }
    pub fn op2(&mut self, op: Operator, a: &T, b: &T) -> T {
        self.op(op, vec![a.clone(), b.clone()])
    }
    pub fn eq(&mut self, a: &T, b: &T) -> T {
        self.op2(Operator::Equals, a, b)
    }
    pub fn ite(&mut self, c: &T, a: &T, b: &T) -> T {
        self.op(Operator::Ite, vec![c.clone(), a.clone(), b.clone()])
    }
    pub fn bb(&mut self, bits: Vec<T>) -> T {
        self.op(Operator::BvBbTerm, bits)
    }
    pub fn bool_var(&mut self, name: u32) -> T {
        let sort = self.pool.add_sort(Sort::Bool);
        self.pool.add(Term::new_var(name.to_string(), sort))
    }
    pub fn var(&mut self, w: usize, name: u32) -> T {
        let sort = self.pool.add_sort(Sort::BitVec(w));
        self.pool.add(Term::new_var(name.to_string(), sort))
    }
    pub fn constant(&mut self, w: usize, v: u64) -> T {
        let v = if w == 64 { v } else { v & ((1 << w) - 1) };
        self.pool.add(Term::new_bv(v, w))
    }
    pub fn param(&mut self, op: ParamOperator, indices: &[usize], arg: &T) -> T {
        let op_args = indices.iter().map(|&i| self.pool.add(Term::new_int(i))).collect();
        self.pool.add(Term::ParamOp { op, op_args, args: vec![arg.clone()] })
    }
    pub fn bit(&mut self, i: usize, t: &T) -> T {
        self.param(ParamOperator::BvBitOf, &[i], t)
    }
    pub fn extract(&mut self, i: usize, j: usize, t: &T) -> T {
        self.param(ParamOperator::BvExtract, &[i, j], t)
    }
    pub fn sign_extend(&mut self, k: usize, t: &T) -> T {
        self.param(ParamOperator::SignExtend, &[k], t)
    }
    /// The width, or None for a Bool.
    pub fn width(&self, t: &T) -> Option<usize> {
        match self.pool.sort(t).as_ref() {
            Sort::BitVec(w) => Some(*w),
            _ => None,
        }
    }
    pub fn bits(&mut self, t: &T) -> Vec<T> {
        if let Some((Operator::BvBbTerm, args)) = t.as_op() {
            return args.to_vec();
        }
        (0..self.width(t).unwrap()).map(|i| self.bit(i, t)).collect()
    }

    // Records

    pub fn record(&mut self, kind: u16, body: &[u8]) {
        self.starts.push(self.bytes.len());
        self.bytes.extend_from_slice(&(2 + body.len() as u16).to_le_bytes());
        self.bytes.extend_from_slice(&kind.to_le_bytes());
        self.bytes.extend_from_slice(body);
    }

    pub fn words(&mut self, kind: u16, words: &[u16]) {
        let body: Vec<u8> = words.iter().flat_map(|w| w.to_le_bytes()).collect();
        self.record(kind, &body);
    }

    /// Writes a term and what it needs, and gives its number. Past the last number the job will
    /// have stopped; the number given then is 0.
    pub fn emit(&mut self, t: &T) -> u16 {
        if let Some(&n) = self.num.get(t) {
            return n;
        }
        let mut args = args_of(t).to_vec();
        if self.shuffled {
            self.rng.shuffle(&mut args);
        }
        for a in &args {
            self.emit(a);
        }
        self.write(t);
        let n = self.list.len();
        if n >= MAX_TERMS {
            return 0;
        }
        self.list.push(t.clone());
        self.num.insert(t.clone(), n as u16);
        self.peak = self.peak.max(n + 1);
        n as u16
    }

    /// Writes the record of a term whose arguments have numbers.
    fn write(&mut self, t: &T) {
        let numbers: Vec<u16> = args_of(t).iter().map(|a| *self.num.get(a).unwrap_or(&0)).collect();
        match t.as_ref() {
            Term::Var(name, sort) => {
                let name: u16 = name.parse().expect("a name that is not for jobs");
                match sort.as_ref() {
                    Sort::BitVec(w) => self.words(11, &[*w as u16, name]),
                    _ => self.words(10, &[name]),
                }
            }
            Term::Const(Constant::BitVec(v, w)) => {
                let mut body = (*w as u16).to_le_bytes().to_vec();
                body.extend_from_slice(&(v.to_i128() as u64).to_le_bytes());
                self.record(12, &body);
            }
            Term::Op(op, _) => {
                let kind = OPERATORS.iter().find(|(_, o)| o == op).unwrap().0;
                self.words(kind, &numbers);
            }
            Term::ParamOp { op, .. } => match op {
                ParamOperator::BvBitOf => self.words(30, &[index(t, 0) as u16, numbers[0]]),
                ParamOperator::SignExtend => self.words(58, &[index(t, 0) as u16, numbers[0]]),
                ParamOperator::BvExtract => self.words(57, &[index(t, 0) as u16, index(t, 1) as u16, numbers[0]]),
                _ => unreachable!(),
            },
            _ => unreachable!(),
        }
    }

    pub fn step(&mut self, rule: u16, literals: &[u16]) {
        let mut body = vec![rule];
        body.extend_from_slice(literals);
        self.words(100, &body);
        self.steps += 1;
    }

    /// A step with one literal (= left right).
    pub fn claim(&mut self, rule: u16, left: &T, right: &T) {
        let literal = self.eq(left, right);
        let n = self.emit(&literal);
        self.step(rule, &[n]);
    }

    /// Writes a back record; a count from 2 to the number of terms changes the list.
    pub fn back(&mut self, count: usize) {
        self.words(101, &[count as u16]);
        if count >= 2 {
            while self.list.len() > count {
                let t = self.list.pop().unwrap();
                self.num.remove(&t);
            }
        }
    }

    /// Writes again the bytes of a record of a term that is kept.
    pub fn repeat(&mut self) {
        if self.list.len() > 2 {
            let k = self.rng.range(2, self.list.len() - 1);
            let t = self.list[k].clone();
            self.write(&t);
        }
    }

    // Rebuilding of terms

    /// Rebuilds `root` from the leaves up; `f` may replace a rebuilt node. Stops at BvBitOf, whose
    /// operand stays as it is.
    pub fn rebuild(&mut self, root: &T, f: &mut dyn FnMut(&mut Maker, &T) -> Option<T>) -> T {
        let mut memo = HashMap::default();
        self.rebuild_rec(root, f, &mut memo)
    }

    fn rebuild_rec(
        &mut self,
        t: &T,
        f: &mut dyn FnMut(&mut Maker, &T) -> Option<T>,
        memo: &mut HashMap<T, T, Build>,
    ) -> T {
        if let Some(r) = memo.get(t) {
            return r.clone();
        }
        let base = match t.as_ref() {
            Term::Op(op, args) if !args.is_empty() => {
                let args = args.iter().map(|a| self.rebuild_rec(a, f, memo)).collect();
                self.op(*op, args)
            }
            _ => t.clone(),
        };
        let out = f(self, &base).unwrap_or(base);
        memo.insert(t.clone(), out.clone());
        out
    }

    /// All of `root` with `from` replaced by `to`, not below BvBitOf.
    pub fn replace(&mut self, root: &T, from: &T, to: &T) -> T {
        let mut memo = HashMap::default();
        memo.insert(from.clone(), to.clone());
        self.rebuild_rec(root, &mut |_, _| None, &mut memo)
    }

    /// The nodes of `root`, not below BvBitOf.
    pub fn nodes(&self, root: &T) -> Vec<T> {
        let mut seen: HashMap<T, (), Build> = HashMap::default();
        let mut out = Vec::new();
        let mut stack = vec![root.clone()];
        while let Some(t) = stack.pop() {
            if seen.insert(t.clone(), ()).is_none() {
                if let Term::Op(_, args) = t.as_ref() {
                    stack.extend(args.iter().cloned());
                }
                out.push(t);
            }
        }
        out
    }
}
