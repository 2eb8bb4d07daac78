//! Equalities over few bits: those that hold, those that fail on few patterns, and any others.
use super::Maker;
use crate::kind::*;
use crate::pool::Id;
use crate::question::MOST_BITS;
use crate::rule::{STEP_RULES, expected, left_kind};
use crate::sort::Sort;

/// The longest run of doublings.
const LONG: usize = 90;

impl Maker {
    /// A few equalities about terms of a kind, with steps, backs and terms beside them.
    pub fn equalities(&mut self, kind: u16, dear: bool) {
        let bits = self.a_number_of_bits(dear);
        for _ in 0..self.rng.range(1, 3) {
            let over = self.some_variables(bits);
            if self.rng.chance(40) {
                self.early(&over);
            }
            let width = self.width_over();
            let nesting = self.rng.below(3);
            let term =
                if self.rng.chance(8) { self.doubled(&over) } else { self.operation(kind, &over, width, nesting) };
            let equality = self.equality(term, &over);
            self.emit(equality);
            if self.rng.chance(20) {
                let other = self.bool_over(&over, 2);
                self.emit(other);
            }
            self.maybe_back(8);
        }
    }

    fn a_number_of_bits(&mut self, dear: bool) -> usize {
        match self.rng.below(20) {
            _ if dear => self.rng.range(11, MOST_BITS),
            0 => 0,
            1 => self.rng.pick(&[MOST_BITS, MOST_BITS + 1, MOST_BITS + 2, 40]),
            2..=4 => self.rng.range(7, MOST_BITS),
            _ => self.rng.range(1, 8),
        }
    }

    /// Writes the variables before all else, in any order.
    fn early(&mut self, over: &[Id]) {
        let turn = self.rng.below(over.len().max(1));
        for k in 0..over.len() {
            self.emit(over[(k + turn) % over.len()]);
        }
    }

    /// A term that is exponential in its length where shared parts are walked twice.
    fn doubled(&mut self, over: &[Id]) -> Id {
        let bools = self.rng.chance(50);
        let width = self.rng.range(1, 16);
        let mut term = if bools { self.bool_over(over, 1) } else { self.vector_over(over, width, 1) };
        for _ in 0..self.rng.range(20, LONG) {
            let kinds: &[u16] =
                if bools { &[AND, OR, XOR, EQUALS] } else { &[BV_AND, BV_ADD, BV_MUL, BV_XNOR, BV_UDIV] };
            let kind = self.rng.pick(kinds);
            term = self.pool.op(kind, &[term, term]);
        }
        term
    }

    /// An Equals about a term: with its circuit, with a term that differs on few patterns, with any other; or the term where it is one.
    fn equality(&mut self, term: Id, over: &[Id]) -> Id {
        let claimed = if self.rng.chance(40) { self.claimed(term, over) } else { None };
        if let Some(claim) = claimed {
            return claim;
        }
        match (self.rng.below(6), self.pool.sort(term)) {
            (0..3, _) => self.differing_on_few(term),
            (3, _) => self.equals(term, term),
            (4, _) if self.pool.kind(term) == EQUALS => term,
            (_, Sort::Bool) => {
                let other = self.bool_over(over, 2);
                self.equals(other, term)
            }
            (_, Sort::Bits(width)) => {
                let other = self.vector_over(over, width as usize, 1);
                self.equals(term, other)
            }
        }
    }

    /// A right claim of a rule about the term, mostly as a step, or one whose circuit has a gate changed. Rules 20 to 22 claim what is
    /// not the standard's.
    fn claimed(&mut self, term: Id, over: &[Id]) -> Option<Id> {
        let width = self.pool.args(term).iter().map(|&arg| self.pool.width(arg)).max()?;
        let of_kind = |rule: &u16| left_kind(*rule) == Some(self.pool.kind(term)) && *rule != 23;
        let rules: Vec<u16> = (1..=STEP_RULES).filter(of_kind).collect();
        if rules.is_empty() || !(1..=8).contains(&width) {
            return None;
        }
        let rule = self.rng.pick(&rules);
        let right = expected(&mut self.pool, rule, term);
        let right = if self.rng.chance(40) && !over.is_empty() { self.changed(right) } else { right };
        let claim = self.equals(term, right);
        if self.rng.chance(70) {
            self.step(rule, &[claim], None);
        }
        Some(claim)
    }

    /// The term beside itself, changed on one to three patterns of its variables, or of all of them but one.
    fn differing_on_few(&mut self, term: Id) -> Id {
        let below = self.pool.below(&[term]);
        let mut variables: Vec<Id> =
            below.into_iter().filter(|&id| matches!(self.pool.kind(id), BOOL | VARIABLE)).collect();
        let untested = if variables.len() > 1 && self.rng.chance(30) { variables.pop() } else { None };
        let mut patterns: Vec<Id> = (0..self.rng.range(1, 3)).map(|_| self.pattern(&variables)).collect();
        patterns.sort_unstable();
        patterns.dedup();
        let place = if patterns.len() == 1 { patterns[0] } else { self.pool.op(OR, &patterns) };
        let other = self.flipped(term, place);
        let equality = if self.rng.chance(50) { self.equals(term, other) } else { self.equals(other, term) };
        let bits = untested.map_or(0, |variable| self.pool.width(variable).max(1));
        self.known.insert(equality, (patterns.len() as u64) << bits);
        equality
    }
}
