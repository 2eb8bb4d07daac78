//! Wrong claims: made from the right one by a small change.
use super::Maker;
use crate::kind::*;
use crate::pool::{Id, NO, YES};
use crate::rule::{expected, left_kind};
use crate::sort::Sort;
use std::collections::HashMap;

impl Maker {
    /// A step whose claim is most likely wrong, beside the right claim of the same left side.
    pub fn wrong_step(&mut self, rule: u16, left: Id, right_claim: Id) {
        if self.rng.chance(10) {
            let count = self.rng.pick(&[0, 2, 3, 64]);
            return self.step(rule, &vec![right_claim; count], Some(false));
        }
        let (_, right) = self.pool.sides(right_claim).expect("a claim is an Equals");
        let literal = match self.rng.below(12) {
            0 if matches!(rule, 2 | 13) => {
                let (a, b, c) = (self.boolean(1), self.boolean(1), self.boolean(1));
                let same = self.equals(a, b);
                self.equals(same, c)
            }
            1..=8 if rule == 23 => {
                let other = self.other_slices(right);
                self.equals(left, other)
            }
            0 => self.other_shape(right_claim),
            1 => self.equals(right, left),
            2 => self.other_left(left, right),
            3 | 4 => {
                let other = self.other_right(left, right);
                self.equals(left, other)
            }
            5 | 6 => {
                let other = self.look_alike(rule, left).or_else(|| self.other_circuit(rule, left));
                self.equals(left, other.unwrap_or(right))
            }
            _ => {
                let other = self.changed(right);
                self.equals(left, other)
            }
        };
        // Where the left side is the same, only one right side is right; slices may be cut in many ways.
        let same_left = self.pool.sides(literal).is_some_and(|(x, _)| x == left);
        let known = (same_left && rule != 23).then_some(literal == right_claim);
        self.step(rule, &[literal], known);
    }

    /// A literal that is no Equals, or one of something else.
    fn other_shape(&mut self, claim: Id) -> Id {
        match self.rng.below(6) {
            0 => YES,
            1 => self.pool.not(claim),
            2 => self.pool.op(AND, &[claim]),
            3 => self.equals(claim, claim),
            4 => self.equals(claim, YES),
            _ => self.boolean(2),
        }
    }

    /// The right side under a left side of another kind, or with another operand.
    fn other_left(&mut self, left: Id, right: Id) -> Id {
        let term = self.pool.term(left).clone();
        let mut args = term.args.clone();
        let mut kind = term.kind;
        if args.is_empty() || self.rng.chance(20) {
            let other = self.stranger(left);
            return self.equals(other, right);
        }
        if self.rng.chance(50) {
            let k = self.rng.below(args.len());
            args[k] = self.stranger(args[k]);
        } else {
            kind = self.rng.range(usize::from(BV_NOT), usize::from(REPEAT)) as u16;
        }
        let other = self.pool.try_shaped(kind, &term.numbers, &args);
        let other = other.filter(|&x| self.pool.sort(x) == self.pool.sort(right));
        let other = other.unwrap_or_else(|| self.stranger(left));
        self.equals(other, right)
    }

    /// A right side of another shape.
    fn other_right(&mut self, left: Id, right: Id) -> Id {
        let (is_bool, width) = (self.pool.sort(right) == Sort::Bool, self.pool.width(right));
        match self.rng.below(6) {
            0 => left,
            1 => self.stranger(right),
            2 => {
                let args = self.pool.args(left).to_vec();
                args.into_iter().find(|&x| self.pool.sort(x) == self.pool.sort(right)).unwrap_or(left)
            }
            3 if is_bool => self.pool.op(OR, &[right]),
            3 => self.pool.op(BV_AND, &[right]),
            4 if is_bool => self.boolean(1),
            4 => self.constant(width),
            _ if is_bool => self.pool.op(AND, &[right]),
            _ => {
                let bits: Vec<Id> = (0..width).map(|i| self.pool.bit(i, left)).collect();
                self.pool.bb(&bits)
            }
        }
    }

    /// The circuit of another rule over the same operands, or the rule's with its operands the other way round.
    fn other_circuit(&mut self, rule: u16, left: Id) -> Option<Id> {
        let term = self.pool.term(left).clone();
        let mut args = term.args;
        let (mut kind, mut other) = (term.kind, rule);
        if self.rng.chance(40) || rule == 23 {
            args.reverse();
        } else {
            other = self.any_rule();
            kind = left_kind(other).unwrap_or(CONSTANT);
        }
        if kind == EQUALS && args.iter().any(|&x| self.pool.sort(x) == Sort::Bool) {
            return None;
        }
        let twin = self.pool.try_shaped(kind, &term.numbers, &args)?;
        let right = if other == 23 { self.sliced(twin) } else { expected(&mut self.pool, other, twin) };
        (self.pool.sort(right) == self.pool.sort(left)).then_some(right)
    }

    /// The term with one gate or bit changed.
    pub fn changed(&mut self, root: Id) -> Id {
        let below = self.pool.below(&[root]);
        let all: Vec<Id> = below.iter().copied().filter(|&id| self.pool.sort(id) == Sort::Bool || id == root).collect();
        let place = self.rng.pick(&all);
        let new = self.changed_node(place, &all);
        let mut copies = HashMap::from([(place, new)]);
        for id in below.into_iter().filter(|&id| id > place) {
            let term = self.pool.term(id).clone();
            let args: Vec<Id> = term.args.iter().map(|a| copies.get(a).copied().unwrap_or(*a)).collect();
            if args != term.args {
                copies.insert(id, self.pool.add(term.kind, &term.numbers, &args));
            }
        }
        copies.get(&root).copied().unwrap_or(root)
    }

    fn changed_node(&mut self, id: Id, all: &[Id]) -> Id {
        let term = self.pool.term(id).clone();
        let mut args = term.args;
        let bools = args.iter().all(|&a| self.pool.sort(a) == Sort::Bool);
        if args.is_empty() || !bools {
            return self.another(id, all);
        }
        let k = self.rng.below(args.len());
        match self.rng.below(4) {
            0 if args.len() > 1 => args.swap(0, k.max(1)),
            1 if matches!(term.kind, AND | OR | XOR | EQUALS) && args.len() == 2 => {
                let kind = self.rng.pick(&[AND, OR, XOR, EQUALS]);
                return self.pool.op(kind, &args);
            }
            2 => args[k] = self.pool.not(args[k]),
            _ => args[k] = self.another(args[k], all),
        }
        self.pool.op(term.kind, &args)
    }

    /// Another term of the same sort.
    fn another(&mut self, id: Id, all: &[Id]) -> Id {
        let other = self.rng.pick(all);
        match (self.pool.sort(id), self.rng.below(3)) {
            (Sort::Bool, 0) if self.pool.sort(other) == Sort::Bool => other,
            (Sort::Bool, 1) => self.rng.pick(&[YES, NO]),
            (Sort::Bool, _) => self.pool.not(id),
            _ => self.stranger(id),
        }
    }
}
