//! Chains: equalities joined rightly and wrongly, premises refused, form only, dropped, added again, not there.
use super::Maker;
use crate::chain::{CONG, SYMM, TRANS};
use crate::kind::*;
use crate::pool::Id;

/// A joining: the rule, the premises' places from 1, the conclusion.
struct Joining {
    rule: u16,
    places: Vec<u16>,
    conclusion: Id,
}

impl Maker {
    /// A job about chains.
    pub fn chains(&mut self) {
        for _ in 0..self.rng.range(2, 4) {
            self.a_premise();
        }
        for _ in 0..self.rng.range(3, 16) {
            match self.rng.below(12) {
                0 => self.a_premise(),
                1 => self.maybe_back(60),
                4 => self.dropped_at_the_edge(),
                2 => self.any_chain(),
                3 => {
                    // A literal that may have been dropped is added again.
                    let place = self.rng.below(self.premises.len());
                    self.emit(self.premises[place].literal);
                }
                _ => self.joining(),
            }
        }
    }

    /// A step that later ones may name: mostly held, now and then form only or refused.
    fn a_premise(&mut self) {
        let rule = match self.rng.below(8) {
            0 => self.rng.range(20, 22) as u16,
            // Equalities of Bools, which gates can be joined over.
            1 | 2 => self.rng.pick(&[8, 9, 13]),
            _ => self.any_rule(),
        };
        let width = self.rng.range(1, 3);
        let left = self.left(rule, width);
        let claim = self.right_claim(rule, left);
        if self.rng.chance(12) {
            return self.wrong_step(rule, left, claim);
        }
        self.step(rule, &[claim], Some(true));
    }

    /// A back to a premise's literal or just above it, the literal again, and a chain that names the premise.
    fn dropped_at_the_edge(&mut self) {
        let usable = self.usable();
        if usable.is_empty() {
            return;
        }
        let place = self.rng.pick(&usable);
        let premise = self.premises[usize::from(place) - 1];
        let kept = self.rng.chance(50);
        self.back(premise.number as usize + usize::from(kept));
        self.emit(premise.literal);
        let (a, b) = self.sides_at(place);
        let turned = self.equals(b, a);
        self.chain(SYMM, &[place], turned, Some(kept));
    }

    /// A chain of any earlier steps and any literal.
    pub fn any_chain(&mut self) {
        let end = self.claims.len() + 3;
        let places: Vec<u16> = (0..self.rng.range(1, 3)).map(|_| self.rng.below(end) as u16).collect();
        let (rule, literal) = (self.rng.pick(&[SYMM, TRANS, CONG]), self.any_literal());
        self.chain(rule, &places, literal, None);
    }

    /// The places, from 1, of the steps that a chain may name.
    fn usable(&self) -> Vec<u16> {
        let usable = self.premises.iter().zip(1..).filter(|(premise, _)| premise.usable == Some(true));
        usable.map(|(_, place)| place).collect()
    }

    fn sides_at(&self, place: u16) -> (Id, Id) {
        self.pool.sides(self.premises[usize::from(place) - 1].literal).expect("a held literal is an Equals")
    }

    /// A chain that is right, or one that differs in one thing.
    fn joining(&mut self) {
        let usable = self.usable();
        if usable.is_empty() {
            return self.a_premise();
        }
        let joining = match self.rng.below(6) {
            0 => self.symm(&usable),
            1..=3 => self.trans(&usable),
            _ => self.cong(&usable),
        };
        let Some(mut joining) = joining else { return };
        let right = self.rng.chance(50);
        if !right {
            self.spoil(&mut joining);
        }
        self.chain(joining.rule, &joining.places, joining.conclusion, right.then_some(true));
    }

    fn symm(&mut self, usable: &[u16]) -> Option<Joining> {
        let place = self.rng.pick(usable);
        let (a, b) = self.sides_at(place);
        Some(Joining { rule: SYMM, places: vec![place], conclusion: self.equals(b, a) })
    }

    /// A path over usable equalities, as far as it goes; None where no two of them meet.
    fn trans(&mut self, usable: &[u16]) -> Option<Joining> {
        let mut places = vec![self.rng.pick(usable)];
        let most = self.rng.pick(&[2, 2, 3, 5, 64]);
        while places.len() < most {
            let end = self.sides_at(places[places.len() - 1]).1;
            let next: Vec<u16> = usable.iter().copied().filter(|&place| self.sides_at(place).0 == end).collect();
            if next.is_empty() {
                break;
            }
            places.push(self.rng.pick(&next));
        }
        let (first, last) = (self.sides_at(places[0]).0, self.sides_at(places[places.len() - 1]).1);
        (places.len() > 1).then(|| Joining { rule: TRANS, places, conclusion: self.equals(first, last) })
    }

    /// One operation over both sides of as many equalities as it has arguments.
    fn cong(&mut self, usable: &[u16]) -> Option<Joining> {
        let kinds: Vec<u16> = terms().filter(|&kind| shape(kind).is_some_and(|s| s.least > 0)).collect();
        for _ in 0..60 {
            let indexed = [BIT_OF, EXTRACT, SIGN_EXTEND, ROTATE_LEFT, ROTATE_RIGHT];
            let kind = if self.rng.chance(25) { self.rng.pick(&indexed) } else { self.rng.pick(&kinds) };
            let shape = shape(kind).expect("a kind of term");
            let count = self.rng.pick(&[1, 2, 3, 3, 64]).clamp(shape.least, shape.most);
            let first = self.rng.pick(usable);
            let one = self.rng.chance(30);
            let places: Vec<u16> = (0..count).map(|_| if one { first } else { self.rng.pick(usable) }).collect();
            let (a, b): (Vec<Id>, Vec<Id>) = places.iter().map(|&place| self.sides_at(place)).unzip();
            let width = self.pool.width(a[0]).max(1);
            let numbers: Vec<u64> = (0..shape.own / 2).map(|_| self.rng.below(width + 1) as u64).collect();
            let both = (self.pool.try_add(kind, &numbers, &a), self.pool.try_add(kind, &numbers, &b));
            if let (Some(left), Some(right)) = both {
                return Some(Joining { rule: CONG, places, conclusion: self.equals(left, right) });
            }
        }
        None
    }

    /// Changes one thing, which may by chance leave the joining right.
    fn spoil(&mut self, joining: &mut Joining) {
        let own = self.claims.len() as u16 + 1;
        let places = &mut joining.places;
        let k = self.rng.below(places.len());
        match self.rng.below(if joining.rule == CONG { 14 } else { 9 }) {
            0 => places[k] = self.rng.pick(&[0, own, own, own + 1, 65_535]),
            1 => places[k] = self.rng.range(1, usize::from(own)) as u16,
            2 => places.reverse(),
            3 => drop(places.pop()),
            4 if places.len() < 64 => places.push(places[k]),
            5 => joining.rule = self.rng.pick(&[SYMM, TRANS, CONG]),
            6 => joining.conclusion = self.any_literal(),
            7 => {
                let (left, right) = self.pool.sides(joining.conclusion).expect("a conclusion is an Equals");
                joining.conclusion = self.equals(right, left);
            }
            _ => self.spoil_right_side(joining),
        }
        if joining.places.is_empty() {
            joining.places.push(own - 1);
        }
    }

    /// The right side of the conclusion with another index, kind or number of arguments, where one is found that fits.
    fn spoil_right_side(&mut self, joining: &mut Joining) {
        let (left, right) = self.pool.sides(joining.conclusion).expect("a conclusion is an Equals");
        for _ in 0..20 {
            let other = self.near(right).filter(|&other| self.pool.sort(other) == self.pool.sort(left));
            if let Some(other) = other {
                joining.conclusion = self.equals(left, other);
                return;
            }
        }
    }

    /// The same operation but for one thing.
    fn near(&mut self, id: Id) -> Option<Id> {
        let term = self.pool.term(id).clone();
        let (mut kind, mut numbers, mut args) = (term.kind, term.numbers, term.args);
        match self.rng.below(4) {
            0 if !numbers.is_empty() => {
                // Both indices of an extract move together, which keeps its width.
                let by = self.rng.pick(&[1, 2, 65_535]);
                numbers.iter_mut().for_each(|number| *number = (*number + by) & 0xFFFF);
            }
            1 if args.len() > 1 => drop(args.pop()),
            2 if (1..64).contains(&args.len()) => args.push(args[0]),
            _ => kind = self.rng.range(usize::from(NOT), usize::from(REPEAT)) as u16,
        }
        self.pool.try_shaped(kind, &numbers, &args).filter(|&other| other != id)
    }
}
